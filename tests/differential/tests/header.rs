//! The C headers name the same fields as the structs that the proved code is called with, take words apart
//! as the second implementation does, and are of the library's version.

use differential::ffi::{
    self, PlainAnswer, PlainHeadAnswer, PlainOpening, PlainReading, PlainReceived, PlainRun,
    PlainSaved, PlainStep, PlainWritten, PlainZone,
};
use differential::header::{self, PartWords, Summed, WordParts};
use differential::plain::{item_of, ZEROS};
use second::random::Random;
use second::site::{Call, Direction, Item};
use second::{demand3, journal, page};

fn add(sum: u64, value: impl Into<u64>) -> u64 {
    sum.wrapping_mul(1_000_003)
        .wrapping_add(value.into())
        .wrapping_add(1)
}

fn add_saved(sum: u64, saved: PlainSaved) -> u64 {
    add(add(sum, saved.stock), saved.events)
}

fn add_zone(sum: u64, zone: &PlainZone) -> u64 {
    let sum = [zone.number, zone.count, zone.deps, zone.edition]
        .into_iter()
        .fold(sum, add);
    let sum = add_saved(add(add(sum, zone.stock), zone.events), zone.saved);
    add(sum, zone.mark)
}

fn add_head(sum: u64, run: &PlainRun) -> u64 {
    let mut sum = add(add(add(sum, run.count), run.edition), run.records);
    for zone in &run.zones {
        sum = add(add(sum, zone.stock), zone.events);
        sum = add_saved(add(add(sum, zone.deps), zone.mark), zone.saved);
    }
    run.opening.into_iter().fold(sum, add)
}

fn add_run(sum: u64, run: &PlainRun) -> u64 {
    let sum = run.items.into_iter().fold(add_head(sum, run), add);
    let sum = run.lens.into_iter().fold(sum, add);
    run.journal.into_iter().fold(sum, add)
}

fn word(random: &mut Random) -> u16 {
    random.within(0, 65_535) as u16
}

fn byte(random: &mut Random) -> u8 {
    random.within(0, 255) as u8
}

fn saved(random: &mut Random) -> PlainSaved {
    PlainSaved {
        stock: word(random),
        events: word(random),
    }
}

fn zone(random: &mut Random) -> PlainZone {
    PlainZone {
        number: byte(random),
        count: byte(random),
        deps: byte(random),
        edition: byte(random),
        stock: word(random),
        events: word(random),
        saved: saved(random),
        mark: u32::from(word(random)) << 16 | u32::from(word(random)),
    }
}

/// A run with any value in every field.
fn run(random: &mut Random) -> PlainRun {
    let mut run = ZEROS;
    run.count = byte(random);
    run.edition = byte(random);
    run.records = word(random);
    for zone in &mut run.zones {
        zone.stock = word(random);
        zone.events = word(random);
        zone.deps = byte(random);
        zone.mark = byte(random);
        zone.saved = saved(random);
    }
    run.opening.fill_with(|| word(random));
    run.items.fill_with(|| word(random));
    run.lens.fill_with(|| byte(random));
    run.journal.fill_with(|| word(random));
    run
}

#[test]
fn the_zone_part_has_the_same_fields() {
    let random = &mut Random::new(1);
    for _ in 0..200 {
        let (zone, refusal) = (zone(random), byte(random));
        let opening = PlainOpening { zone, refusal };
        assert_eq!(opening.sum(), add(add_zone(0, &zone), refusal));
        let step = PlainStep {
            zone,
            refusal,
            flag: byte(random),
            to: byte(random),
            carried: byte(random),
        };
        let sum = add(add(add_zone(0, &zone), refusal), step.flag);
        assert_eq!(step.sum(), add(add(sum, step.to), step.carried));
    }
}

#[test]
fn the_site_has_the_same_fields() {
    let random = &mut Random::new(2);
    for _ in 0..200 {
        let (run, refusal, remaining) = (run(random), byte(random), byte(random));
        let first = add(add(0, refusal), remaining);
        let received = PlainReceived { refusal, remaining };
        assert_eq!(received.sum(), first);
        let answer = PlainAnswer {
            refusal,
            remaining,
            run,
        };
        assert_eq!(answer.sum(), add_run(first, &run));
        let answer = PlainHeadAnswer {
            refusal,
            remaining,
            head: run.head(),
        };
        assert_eq!(answer.sum(), add_head(first, &run));
        let position = usize::from(word(random));
        let reading = PlainReading {
            refusal,
            remaining,
            position,
            run,
        };
        assert_eq!(reading.sum(), add_run(add(first, position as u64), &run));
    }
}

#[test]
fn what_writing_answers_has_the_same_fields() {
    let random = &mut Random::new(3);
    for _ in 0..200 {
        let (refusal, position) = (byte(random), usize::from(word(random)));
        let written = usize::from(word(random));
        let total = u32::from(word(random)) << 16 | u32::from(word(random));
        let answer = PlainWritten {
            refusal,
            total,
            position,
            written,
        };
        let sum = add(add(add(0, refusal), total), position as u64);
        assert_eq!(answer.sum(), add(sum, written as u64));
    }
}

#[test]
fn as_many_bytes_as_any_page_has() {
    assert_eq!(header::page_bytes(), page::MOST_BYTES);
}

#[test]
fn a_changed_field_changes_the_sum() {
    let mut answer = ffi::cut_site_open(1, 3, &[10, 20, 30]);
    let before = answer.sum();
    answer.run.zones[7].saved.events += 1;
    assert_ne!(answer.sum(), before);
    let mut answer = ffi::cut_site_open(1, 3, &[10, 20, 30]);
    answer.run.edition += 1;
    assert_ne!(answer.sum(), before);
}

#[test]
fn the_library_has_the_headers_words_and_version() {
    for refusal in 0..=u8::MAX {
        let [inline, exported] = header::refusal_words(refusal);
        assert_eq!(inline, exported, "refusal {refusal}");
    }
    assert_ne!(header::refusal_words(0), header::refusal_words(1));
    let (compatible, of_header, of_library) = header::versions();
    assert!(compatible);
    assert_eq!(of_header, of_library);
}

/// Holds the parts of an item to the second implementation's item.
fn same_item(word: u16, parts: &WordParts) {
    let is_request = u16::from(!matches!(item_of(word), Some(Item::HandOver { .. })));
    let (is_above, cars, flag, set) = match item_of(word) {
        Some(Item::HandOver { cars, marked }) => (0, cars.into(), marked.into(), 0),
        Some(Item::Request { set }) => (0, 0, 0, set.into()),
        None => (1, 0, 0, word - 512),
    };
    let of_item = (parts.is_request, parts.is_above, parts.cars, parts.flag);
    assert_eq!(of_item, (is_request, is_above, cars, flag), "item {word}");
    assert_eq!(parts.set, set, "item {word}");
}

/// Holds the parts of a record to the second implementation's call, where the word is well formed in an
/// edition that has all kinds.
fn same_record(word: u16, parts: &WordParts) -> bool {
    let Some(call) = journal::decode(3, word) else {
        return false;
    };
    let (kinds, [inwards, outwards]) = header::kinds();
    // The second zone and the direction stand in one place, of which a start makes no use.
    let (zone, direction) = (u32::from(parts.second), parts.direction);
    let (kind, first, is_second, cars) = match call {
        Call::HandOver { from, to, cars } => (kinds[0], from, zone == to, cars),
        Call::Receipt { from, to } => (kinds[1], from, zone == to, 0),
        Call::Start { zone } => (kinds[2], zone, true, 0),
        Call::Gate {
            direction: Direction::In,
            zone,
            cars,
        } => (kinds[3], zone, direction == inwards.into(), cars),
        Call::Gate {
            direction: Direction::Out,
            zone,
            cars,
        } => (kinds[3], zone, direction == outwards.into(), cars),
    };
    assert!(is_second, "record {word}");
    assert_eq!(parts.kind, kind.into(), "record {word}");
    assert_eq!(u32::from(parts.first), first, "record {word}");
    assert_eq!(parts.record_cars, cars.into(), "record {word}");
    true
}

/// Holds the parts of a zone's first word in a recording to what the second implementation reads there,
/// where the word is one.
fn same_shown(word: u16, parts: &WordParts) -> bool {
    let recording = [journal::header(1, 2, 0), word, 7, 0, 0];
    let Some(shown) = demand3::parse(1, 2, &journal::bytes_of(&recording)) else {
        return false;
    };
    assert_eq!(parts.permanent == 1, shown.firm[0], "zone's word {word}");
    assert_eq!(u32::from(parts.events), shown.events[0]);
    true
}

#[test]
fn words_have_the_same_parts() {
    let (mut records, mut shown) = (0, 0);
    for word in 0..=u16::MAX {
        let parts = header::parts(word.to_be_bytes());
        same_item(word, &parts);
        records += u32::from(same_record(word, &parts));
        shown += u32::from(same_shown(word, &parts));
        let (edition, zones) = (u32::from(parts.edition), u32::from(parts.zones));
        let number = usize::from(parts.number);
        assert!(edition < 8 && (1..=8).contains(&zones) && number < 1_024);
        assert_eq!(journal::header(edition, zones, number), word);
        assert!(parts.kind < 4 && (1..=8).contains(&parts.first) && parts.record_cars < 256);
        assert!(parts.direction < 8 && parts.second == parts.direction + 1);
        assert!(parts.permanent < 2 && parts.events < 32_768);
        let again = PartWords {
            item: word,
            header: word,
            record: word,
            shown: word,
        };
        assert_eq!(header::words(&parts), again, "word {word}");
    }
    // Well formed are every hand-over, the receipts, the starts, and the gates of two directions; shown
    // are up to 1,023 events, firm or not.
    assert_eq!(records, 16_384 + 64 + 8 + 2 * 8 * 256);
    assert_eq!(shown, 2 * 1_024);
}
