//! The converter: its worked journals, the order of its questions, the bytes that are lent to it, and
//! what a journal and its conversion have in common.

use second::archive::{self, REFUSED};
use second::conversion::Conversion::{self, Downgrade, Upgrade};
use second::conversion::{convert, Converted, CONVERSIONS};
use second::edition::EDITIONS;
use second::generate::{bytes_of, case_b, journals, with_edition, CASE_A, STORED};
use second::journal;
use second::limits;
use second::page;
use second::print;
use second::random::Random;
use second::recording;
use second::site::{Run, MOST_RECORDS};
use std::collections::{BTreeMap, BTreeSet};

fn refused(refusal: u32, position: usize) -> Converted {
    Converted {
        refusal,
        position,
        written: 0,
    }
}

/// The answer to a conversion that is lent as many bytes as the journal has.
fn answer(conversion: Conversion, journal: &[u8]) -> Converted {
    convert(conversion, journal, &mut vec![0; journal.len()])
}

/// The bytes of a journal that converts.
fn converted(conversion: Conversion, journal: &[u8]) -> Vec<u8> {
    let mut lent = vec![0; journal.len()];
    let answer = convert(conversion, journal, &mut lent);
    assert_eq!((answer.refusal, answer.position), (0, 0));
    assert_eq!(answer.written, journal.len());
    lent
}

#[test]
fn case_a_and_case_b_convert_and_back() {
    for journal in [CASE_A.to_vec(), bytes_of(&case_b())] {
        let upgraded = converted(Upgrade, &journal);
        assert_eq!((journal[0], upgraded[0]), (0x28, 0x68));
        assert_eq!(upgraded[1..], journal[1..]);
        assert_eq!(converted(Downgrade, &upgraded), journal);
    }
    let line = "68 01 80 02 00 04 80 01 00 18 00 00 00 1E 02 02\n";
    assert_eq!(print::line(&converted(Upgrade, &CASE_A)), line);
}

#[test]
fn worked_journals_are_refused() {
    for (conversion, journal, refusal, position) in REFUSED {
        assert_eq!(answer(conversion, journal), refused(refusal, position));
    }
    let short = [0x24, 1, 0, 5, 0, 7, 0x80, 0];
    assert_eq!(convert(Upgrade, &short, &mut [0; 7]), refused(14, 0));
    assert_eq!(convert(Upgrade, &short, &mut [0; 8]).written, 8);
}

/// 15 comes first: for no two bytes, for any edition but the one that it converts from, and whatever
/// else is wrong with the journal or the lent bytes.
#[test]
fn another_edition_comes_first() {
    for conversion in CONVERSIONS {
        assert_eq!(answer(conversion, &[]), refused(15, 0));
        let first = 32 * conversion.source() as u8;
        assert_eq!(answer(conversion, &[first]), refused(15, 0));
        for edition in (0..8).filter(|&edition| edition != conversion.source()) {
            for (_, journal, ..) in REFUSED {
                let journal = with_edition(edition, journal);
                assert_eq!(convert(conversion, &journal, &mut []), refused(15, 0));
            }
            // One zone and 1,023 records would meet 16.
            let header = [32 * edition as u8 + 3, 0xFF];
            assert_eq!(answer(conversion, &header), refused(15, 0));
        }
    }
}

/// The questions of reading come before 22, 23 and 14, in its own order and with its position.
#[test]
fn reading_comes_next() {
    for conversion in CONVERSIONS {
        let first = 32 * conversion.source() as u8;
        let two = first + 4;
        let gate = if conversion == Downgrade { 0xC0 } else { 0x08 };
        let cases: [(&[u8], u32, usize); 7] = [
            (&[first, 1, 0, 5, 0x01, 0], 16, 0),
            (&[two + 3, 0xE9, 0, 5, 0, 7, 0x01, 0], 16, 0),
            (&[two, 1, 0, 5, 0, 7, 0x01, 0, 0], 17, 0),
            (&[two, 1, 0, 5, 0, 7, 0x01], 17, 0),
            (&[two, 2, 0xFF, 0xFF, 0, 1, 0x01, 0, gate, 0], 4, 0),
            (&[two, 3, 0, 5, 0, 7, 0x01, 0, gate, 0, 0x41, 1], 18, 2),
            (&[two, 3, 0, 5, 0, 7, 0x01, 0, gate, 0, 0x50, 0], 19, 2),
        ];
        for (journal, refusal, position) in cases {
            let expected = refused(refusal, position);
            assert_eq!(convert(conversion, journal, &mut []), expected);
        }
    }
}

/// 22 comes before 23 wherever the records stand, and both before 14.
#[test]
fn then_hand_overs_of_0_cars_then_gates_then_the_lent_bytes() {
    let (empty, gate, start) = ([0x01, 0], [0xC0, 2], [0x80, 0]);
    let of = |first: u8, records: [[u8; 2]; 3]| {
        let mut journal = vec![first, 3, 0, 5, 0, 7];
        journal.extend(records.concat());
        journal
    };
    for records in [
        [empty, gate, start],
        [gate, start, empty],
        [start, empty, gate],
        [empty, start, empty],
    ] {
        let journal = of(0x64, records);
        assert_eq!(convert(Downgrade, &journal, &mut []), refused(22, 0));
    }
    for records in [
        [start, gate, gate],
        [gate, start, [0x01, 1]],
        [[0x01, 1], [0x41, 0], gate],
    ] {
        let journal = of(0x64, records);
        assert_eq!(convert(Downgrade, &journal, &mut []), refused(23, 0));
    }
    let journal = of(0x24, [empty, [0x41, 0], start]);
    assert_eq!(convert(Upgrade, &journal, &mut []), refused(22, 0));
}

/// A gate of 0 cars is no hand-over, in either direction of driving.
#[test]
fn a_gate_of_0_cars_meets_23() {
    for word in [0xC000_u16, 0xC100, 0xC800, 0xC900] {
        let [high, low] = word.to_be_bytes();
        let journal = [0x64, 2, 0, 5, 0, 7, high, low, 0x80, 0];
        assert_eq!(answer(Downgrade, &journal), refused(23, 0));
        // In edition 1 it is no record at all.
        let journal = with_edition(1, &journal);
        assert_eq!(answer(Upgrade, &journal), refused(18, 0));
    }
}

/// Receipts and starts have 0 in the field of cars, and stocks may be 0 or look like a hand-over of 0
/// cars or a gate record.
#[test]
fn other_words_are_neither() {
    let journal = [0x24, 3, 0, 0, 0x01, 0, 0x08, 1, 0x48, 0, 0x80, 0];
    assert_eq!(converted(Upgrade, &journal)[1..], journal[1..]);
    let journal = [0x64, 2, 0xC0, 1, 0x02, 0, 0x01, 1, 0x88, 0];
    assert_eq!(converted(Downgrade, &journal)[1..], journal[1..]);
}

/// Journals without a start and incomplete ones convert; their recordings are refused alike.
#[test]
fn unstarted_and_incomplete_journals_convert() {
    let unstarted: &[u8] = &[4, 1, 0, 5, 0, 7, 0x01, 2];
    let without_records: &[u8] = &[4, 0, 0, 5, 0, 7];
    let incomplete: &[u8] = &[4, 3, 0, 5, 0, 7, 0x01, 2, 0x41, 0, 0x88, 0];
    for (journal, refusal) in [(unstarted, 12), (without_records, 12), (incomplete, 13)] {
        for conversion in CONVERSIONS {
            let journal = with_edition(conversion.source(), journal);
            let converted = converted(conversion, &journal);
            assert_eq!(converted, with_edition(conversion.target(), &journal));
            let line = print::refused(refusal);
            assert_eq!(print::line(&journal), line);
            assert_eq!(print::line(&converted), line);
        }
    }
}

/// The longest journals convert, and the last record of them is enough for a refusal.
#[test]
fn a_thousand_records() {
    let journal = bytes_of(&limits::longest());
    assert_eq!(journal.len(), 2 + 2 * 8 + 2 * MOST_RECORDS);
    let upgraded = converted(Upgrade, &journal);
    assert_eq!(converted(Downgrade, &upgraded), journal);
    for (conversion, word, refusal) in [
        (Upgrade, 0x0100_u16, 22),
        (Downgrade, 0x0100, 22),
        (Downgrade, 0xC001, 23),
    ] {
        let mut journal = with_edition(conversion.source(), &journal);
        journal[2_016..].copy_from_slice(&word.to_be_bytes());
        assert_eq!(answer(conversion, &journal), refused(refusal, 0));
    }
    let gates = bytes_of(&limits::gates());
    assert_eq!(answer(Downgrade, &gates), refused(23, 0));
}

/// Too few bytes are left as they were, and so are those behind the journal and all where another
/// question says no.
#[test]
fn lent_bytes() {
    let upgraded = with_edition(3, &CASE_A);
    for (conversion, journal, expected) in [
        (Upgrade, &CASE_A[..], &upgraded[..]),
        (Downgrade, &upgraded, &CASE_A),
    ] {
        for length in 0..=40 {
            let mut lent = vec![0xEE; length];
            let answer = convert(conversion, journal, &mut lent);
            let kept = if length < 26 {
                assert_eq!(answer, refused(14, 0));
                &lent
            } else {
                assert_eq!((answer.refusal, answer.written), (0, 26));
                assert_eq!(lent[..26], *expected);
                &lent[26..]
            };
            assert!(kept.iter().all(|&byte| byte == 0xEE));
        }
    }
    for (conversion, journal, ..) in REFUSED {
        let mut lent = [0xEE; 40];
        convert(conversion, journal, &mut lent);
        assert_eq!(lent, [0xEE; 40]);
    }
}

/// Generated journals: as many as are stored, and more for the converter.
fn generated() -> Vec<Vec<u8>> {
    let mut random = Random::new(27);
    let mut all = journals(27, STORED);
    for index in 0..1_000 {
        let edition = [1, 3][index / archive::KINDS % 2];
        all.push(archive::journal_of(
            &mut random,
            edition,
            index % archive::KINDS,
        ));
    }
    all
}

/// What is shown of a journal that was read: the refusal, the bytes and the total of its recording,
/// and the refusal and the text of its page.
type Shown = (u32, Vec<u8>, u32, u32, Vec<u8>);

fn shown(run: &Run) -> Shown {
    let mut lent = [0; print::MOST_BYTES];
    let (refusal, written, total) = recording::write(run, &mut lent);
    let recording = lent[..written].to_vec();
    let (page_refusal, page_written) = page::write(run, &mut lent);
    let page = lent[..page_written].to_vec();
    (refusal, recording, total, page_refusal, page)
}

/// "Only the edition field changes, the result is accepted, and a complete recording has the same
/// zones, stocks and lines."
#[test]
fn a_journal_and_its_conversion_say_the_same() {
    let mut numbers = BTreeMap::new();
    for journal in generated() {
        for conversion in CONVERSIONS {
            if answer(conversion, &journal).refusal != 0 {
                continue;
            }
            let converted = converted(conversion, &journal);
            assert_eq!(converted, with_edition(conversion.target(), &journal));
            assert_eq!(self::converted(conversion.back(), &converted), journal);
            let (before, after) = (journal::read(&journal), journal::read(&converted));
            assert_eq!((after.refusal, after.remaining), (0, before.remaining));
            let mut expected = shown(&before.run);
            if let Some(first) = expected.1.first_mut() {
                *first = *first & 0x1F | (conversion.target() as u8) << 5;
            }
            assert_eq!(shown(&after.run), expected);
            // The run is the same in all but its edition.
            let edition = after.run.edition;
            let renamed = Run {
                edition,
                ..before.run
            };
            assert_eq!(after.run, renamed);
            *numbers.entry((conversion.word(), expected.0)).or_insert(0) += 1;
        }
    }
    println!("converted, by the number of the recording: {numbers:?}");
    assert_eq!(numbers.len(), 6, "complete, incomplete and unstarted ones");
    assert!(numbers.values().all(|&times| times >= 10));
}

/// What 22 and 23 refuse would not say the same: in the other edition the journal is refused, or some
/// zone has another number of own events.
#[test]
fn what_is_refused_would_not_say_the_same() {
    let mut unlike: BTreeMap<u32, u32> = BTreeMap::new();
    for journal in generated() {
        for conversion in CONVERSIONS {
            let number = answer(conversion, &journal).refusal;
            if !matches!(number, 22 | 23) {
                continue;
            }
            let before = journal::read(&journal);
            let after = journal::read(&with_edition(conversion.target(), &journal));
            let events = |run: &Run| run.zones.map(|zone| zone.events);
            let alike = after.refusal == 0 && events(&before.run) == events(&after.run);
            assert!(!alike);
            *unlike.entry(number).or_insert(0) += 1;
        }
    }
    println!("refused, by the number: {unlike:?}");
    assert!(unlike[&22] >= 100 && unlike[&23] >= 50);
}

/// Every number that a conversion gives, lent enough bytes, is met among the stored journals.
#[test]
fn stored_journals_meet_every_number() {
    let mut numbers: BTreeMap<&str, BTreeSet<u32>> = BTreeMap::new();
    let mut longest = BTreeSet::new();
    for journal in journals(2_026, STORED) {
        for conversion in CONVERSIONS {
            let answer = answer(conversion, &journal);
            let met = numbers.entry(conversion.word()).or_default();
            met.insert(answer.refusal);
            if answer.refusal == 0 && journal.len() == 2_018 {
                longest.insert(conversion.word());
            }
        }
    }
    let upgrade = [0, 4, 15, 16, 17, 18, 19, 22];
    assert_eq!(numbers["upgrade"], BTreeSet::from(upgrade));
    let downgrade = [0, 4, 15, 16, 17, 18, 19, 22, 23];
    assert_eq!(numbers["downgrade"], BTreeSet::from(downgrade));
    assert_eq!(longest.len(), 2, "1,000 records of 8 zones, both ways");
}

/// Each kind of journal for the converter meets the question that it was made for, in nearly all cases:
/// a call that is put into it may be refused.
#[test]
fn every_kind_of_journal_meets_its_question() {
    let mut random = Random::new(28);
    for (kinds, upgrade, downgrade) in [
        (0..=9, 0, 0),
        (10..=12, 22, 22),
        (13..=15, 18, 23),
        (16..=17, 18, 22),
    ] {
        for kind in kinds {
            for conversion in CONVERSIONS {
                let expected = [upgrade, downgrade][usize::from(conversion == Downgrade)];
                let met = (0..100).filter(|_| {
                    let edition = conversion.source();
                    let journal = archive::journal_of(&mut random, edition, kind);
                    answer(conversion, &journal).refusal == expected
                });
                assert!(met.count() >= 80, "kind {kind}, {conversion:?}");
            }
        }
    }
    for kind in 18..archive::KINDS {
        for edition in [1, 3] {
            let journal = archive::journal_of(&mut random, edition, kind);
            let reading = journal::read(&journal);
            assert!(matches!(reading.refusal, 18 | 19));
        }
    }
}

/// The edition that a conversion names is one that is defined.
#[test]
fn conversions_are_between_editions_1_and_3() {
    assert_eq!((Upgrade.source(), Upgrade.target()), (1, 3));
    assert_eq!((Downgrade.source(), Downgrade.target()), (3, 1));
    for conversion in CONVERSIONS {
        assert!(EDITIONS.contains(&conversion.source()));
        assert_eq!(conversion.back().back(), conversion);
    }
}
