//! The comparison can fail: every kind of wrong answer is reported, and so is a missed floor.

use differential::compare::{Answer, Output};
use differential::conversions;
use differential::count::{
    Check, Conversions, Counts, Empty, Entry, Gate, Gates, Pages, Remaining, CHECKS, EMPTY,
    ENTRIES, GATES, HEADINGS, HIGHEST, LEAST_ABOVE, LEAST_ANSWERS, LEAST_CHECKS, LEAST_CONVERSIONS,
    LEAST_EMPTY, LEAST_GATES, LEAST_PAGES, LEAST_REMAINING, LEAST_TURNED, WRONG_WAYS,
};
use differential::expect::{self, Made, Writings};
use differential::ffi::{self, PlainAnswer, PlainReading, PlainRun, PlainStep, PlainWritten};
use differential::pair;
use differential::plain::place;
use second::archive::REFUSED;
use second::conversion::Conversion::{Downgrade, Upgrade};
use second::edition::EDITIONS;
use second::generate::{bytes_of, case_b, with_edition, CASE_A, WAITING, WAITING_REFUSED};
use second::journal;
use second::limits;
use second::random::Random;
use second::site::{Call, Direction, Run, PLACES};

const SEND: Call = Call::HandOver {
    from: 1,
    to: 2,
    cars: 4,
};

/// A run of three zones with 10, 20 and 30 cars, as the proved code opens it.
fn opened() -> PlainRun {
    let answer = ffi::cut_site_open(2, 3, &[10, 20, 30]);
    assert_eq!(answer.refusal, 0);
    answer.run
}

/// The field in which a changed answer is reported to differ from the right one.
fn field<A: Answer + Clone>(right: &A, change: impl FnOnce(&mut A)) -> String {
    let mut wrong = right.clone();
    assert_eq!(right.check(&wrong), Ok(()), "equal answers are equal");
    change(&mut wrong);
    let difference = right.check(&wrong).expect_err("a changed answer differs");
    let reverse = wrong.check(right).expect_err("either way round");
    assert_eq!(difference.field, reverse.field);
    assert_ne!(difference.expected, difference.proved);
    difference.field
}

fn sent() -> PlainAnswer {
    let answer = expect::proved(&opened(), SEND);
    assert_eq!(answer.refusal, 0);
    answer
}

#[test]
fn a_wrong_refusal_is_found() {
    assert_eq!(field(&sent(), |answer| answer.refusal = 7), "refusal");
}

#[test]
fn a_changed_field_of_the_site_is_found() {
    let right = sent();
    let changed = |change: fn(&mut PlainRun)| field(&right, |answer| change(&mut answer.run));
    assert_eq!(changed(|run| run.count = 4), "run.count");
    assert_eq!(changed(|run| run.edition = 1), "run.edition");
    assert_eq!(changed(|run| run.records = 0), "run.records");
    assert_eq!(changed(|run| run.zones[0].stock += 1), "run.zones[0].stock");
    assert_eq!(
        changed(|run| run.zones[2].events = 1),
        "run.zones[2].events"
    );
    assert_eq!(changed(|run| run.zones[1].deps = 3), "run.zones[1].deps");
    assert_eq!(changed(|run| run.zones[1].mark = 1), "run.zones[1].mark");
    assert_eq!(changed(|run| run.opening[0] = 9), "run.opening[0]");
    assert_eq!(changed(|run| run.lens[1] = 2), "run.lens[1]");
    assert_eq!(changed(|run| run.items[16] = 260), "run.items[16]");
    assert_eq!(changed(|run| run.journal[0] = 0), "run.journal[0]");
}

#[test]
fn a_change_in_unused_storage_is_found() {
    let right = sent();
    let changed = |change: fn(&mut PlainRun)| field(&right, |answer| change(&mut answer.run));
    // Behind the last item of a line, behind the last record and behind an unmarked zone.
    assert_eq!(changed(|run| run.items[17] = 1), "run.items[17]");
    assert_eq!(changed(|run| run.journal[1] = 1), "run.journal[1]");
    assert_eq!(
        changed(|run| run.zones[0].saved.stock = 10),
        "run.zones[0].saved"
    );
    // Off the site.
    assert_eq!(changed(|run| run.zones[7].deps = 0), "run.zones[7].deps");
    assert_eq!(changed(|run| run.opening[7] = 1), "run.opening[7]");
    assert_eq!(changed(|run| run.lens[63] = 1), "run.lens[63]");
    assert_eq!(changed(|run| run.items[1023] = 1), "run.items[1023]");
}

#[test]
fn a_wrong_answer_of_the_reader_is_found() {
    let right: PlainReading = ffi::cut_journal_read(&[0x24, 0x01, 0, 1, 0, 1, 0xC0, 0]);
    assert_eq!((right.refusal, right.position), (18, 0));
    assert_eq!(field(&right, |reading| reading.position = 1), "position");
    assert_eq!(field(&right, |reading| reading.refusal = 19), "refusal");
    assert_eq!(field(&right, |reading| reading.remaining = 1), "remaining");
    let changed = field(&right, |reading| reading.run.zones[1].stock = 1);
    assert_eq!(changed, "run.zones[1].stock");
}

/// The recording of case B, its page and its conversions, each with some more bytes lent.
fn written() -> [(Made, Output); 4] {
    let journal = bytes_of(&case_b());
    let upgraded = with_edition(3, &journal);
    let Writings {
        recording, page, ..
    } = Writings::of(Some(&case_b()));
    let upgrade = expect::conversion(Upgrade, &journal);
    let downgrade = expect::conversion(Downgrade, &upgraded);
    type Call = fn(&[u8], &mut [u8]) -> PlainWritten;
    let calls: [(Made, Call, &[u8]); 4] = [
        (recording, ffi::cut_journal_record, &journal),
        (page, ffi::cut_journal_page, &journal),
        (upgrade, ffi::cut_journal_upgrade, &journal),
        (downgrade, ffi::cut_journal_downgrade, &upgraded),
    ];
    calls.map(|(made, call, journal)| {
        let lent = vec![7; made.bytes.len() + 5];
        let output = expect::written(&lent, |out| call(journal, out));
        assert_eq!(made.output(&lent).check(&output), Ok(()));
        (made, output)
    })
}

#[test]
fn a_wrong_answer_of_a_writer_is_found() {
    for (made, right) in written() {
        finds_a_wrong_answer(&made, &right);
    }
}

fn finds_a_wrong_answer(made: &Made, right: &Output) {
    let last = made.bytes.len() - 1;
    let changed = |place: usize| field(right, |output| output.bytes[place] ^= 1);
    assert_eq!(changed(0), "bytes[0]");
    assert_eq!(changed(last), format!("bytes[{last}]"));
    // Behind the written bytes, and behind the lent ones.
    assert_eq!(changed(last + 1), format!("bytes[{}]", last + 1));
    assert_eq!(changed(last + 6), format!("bytes[{}]", last + 6));
    let field = |change: fn(&mut Output)| field(right, change);
    assert_eq!(field(|output| output.answer.written -= 1), "written");
    assert_eq!(field(|output| output.answer.total += 65_536), "total");
    assert_eq!(field(|output| output.answer.position = 1), "position");
    assert_eq!(field(|output| output.answer.refusal = 14), "refusal");
    assert_eq!(
        field(|output| {
            output.bytes.pop();
        }),
        "length of bytes"
    );
}

/// A whole comparison of the writers fails when another page is expected, of a run and of a
/// journal.
#[test]
fn a_page_against_a_wrong_expectation_fails() {
    let (mut counts, mut random) = (Counts::default(), Random::new(1));
    let journal = bytes_of(&case_b());
    let run = ffi::cut_journal_read(&journal).run;
    let right = Writings::of(Some(&case_b()));
    let mut compared = |writings: &Writings| {
        let of_run = pair::writers(&mut counts, &mut random, &run, writings);
        let of_journal = pair::journal_writers(&mut counts, &mut random, &journal, writings);
        [of_run, of_journal]
            .map(|compared| compared.map_err(|found| (found.name, found.difference.field)))
    };
    assert_eq!(compared(&right), [Ok(()), Ok(())]);
    type Change = fn(&mut Made);
    let changes: [(Change, &str); 4] = [
        (|page| page.bytes[8] = b' ', "bytes[8]"),
        (|page| page.bytes.truncate(51), "refusal"),
        (|page| page.total = 30, "total"),
        (|page| page.position = 1, "position"),
    ];
    for (change, field) in changes {
        let mut wrong = right.clone();
        change(&mut wrong.page);
        let names = ["cut_site_page", "cut_journal_page"];
        assert_eq!(
            compared(&wrong),
            names.map(|name| Err((name, field.to_string())))
        );
    }
}

/// A whole comparison of a conversion fails when anything else is expected of it, where it is accepted
/// and where it is refused.
#[test]
fn a_conversion_against_a_wrong_expectation_fails() {
    let (mut counts, mut random) = (Counts::default(), Random::new(1));
    let mut compared = |conversion, journal: &[u8], made: &Made| {
        let compared = conversions::compare(&mut counts, &mut random, conversion, journal, made);
        compared.map_err(|found| (found.name, found.difference.field))
    };
    type Change = fn(&mut Made);
    let changes: [(Change, &str); 5] = [
        (|made| made.bytes[0] ^= 0x20, "bytes[0]"),
        (|made| made.bytes.truncate(10), "refusal"),
        (|made| made.refusal = 22, "refusal"),
        (|made| made.total = 60, "total"),
        (|made| made.position = 1, "position"),
    ];
    let upgraded = with_edition(3, &CASE_A);
    for (conversion, journal, name) in [
        (Upgrade, &CASE_A[..], "cut_journal_upgrade"),
        (Downgrade, &upgraded, "cut_journal_downgrade"),
    ] {
        let right = expect::conversion(conversion, journal);
        assert_eq!(compared(conversion, journal, &right), Ok(()));
        for (change, field) in changes {
            let mut wrong = right.clone();
            change(&mut wrong);
            let found = compared(conversion, journal, &wrong);
            assert_eq!(found, Err((name, field.to_string())));
        }
    }
    for (conversion, journal, refusal, position) in REFUSED {
        let mut wrong = expect::conversion(conversion, journal);
        assert_eq!((wrong.refusal, wrong.position), (refusal, position));
        assert_eq!(compared(conversion, journal, &wrong), Ok(()));
        wrong.position += 1;
        assert!(compared(conversion, journal, &wrong).is_err());
        wrong.position -= 1;
        wrong.refusal = if refusal == 22 { 23 } else { 22 };
        assert!(compared(conversion, journal, &wrong).is_err());
    }
}

/// What a journal and its conversion say is compared too: a library that changes more or less than the
/// edition is found.
#[test]
fn a_conversion_that_says_something_else_is_found() {
    fn changed(journal: &[u8], out: &mut [u8], change: fn(&mut [u8])) -> PlainWritten {
        let answer = ffi::cut_journal_upgrade(journal, out);
        change(out);
        answer
    }
    let mut counts = Counts::default();
    let mut found = |library| {
        let compared = conversions::alike(&mut counts, Upgrade, &CASE_A, library);
        compared.map_err(|found| (found.name, found.difference.field))
    };
    assert_eq!(found(ffi::cut_journal_upgrade), Ok(()));
    let read = |field: &str| Err(("cut_journal_read", field.to_string()));
    let kept = |journal: &[u8], out: &mut [u8]| changed(journal, out, |out| out[0] = 0x28);
    assert_eq!(found(kept), read("run.edition"));
    let next = |journal: &[u8], out: &mut [u8]| changed(journal, out, |out| out[0] = 0x48);
    assert_eq!(found(next), read("run.edition"));
    let stock = |journal: &[u8], out: &mut [u8]| changed(journal, out, |out| out[3] = 11);
    assert_eq!(found(stock), read("run.zones[0].stock"));
    let cars = |journal: &[u8], out: &mut [u8]| changed(journal, out, |out| out[9] = 5);
    assert_eq!(found(cars), read("run.zones[0].stock"));
    let refused = |journal: &[u8], out: &mut [u8]| changed(journal, out, |out| out[1] = 8);
    assert_eq!(found(refused), read("refusal"));
}

/// What is counted of both conversions of a journal.
fn counted(journal: &[u8]) -> Conversions {
    let (mut counts, mut random) = (Counts::default(), Random::new(1));
    let reading = journal::read(journal);
    let compared = conversions::both(&mut counts, &mut random, journal, &reading);
    compared.expect("both agree");
    counts.conversions
}

#[test]
fn accepted_conversions_are_counted() {
    let mut expected = Conversions::default();
    expected.accepted[0] = [1, 0, 0];
    assert_eq!(counted(&CASE_A), expected);
    expected.accepted = [[0; 3], [0, 0, 1]];
    assert_eq!(counted(&[0x64, 1, 0, 5, 0, 7, 0x01, 2]), expected);
    expected.accepted[1] = [0, 1, 0];
    let incomplete = [0x64, 3, 0, 5, 0, 7, 0x01, 2, 0x41, 0, 0x88, 0];
    assert_eq!(counted(&incomplete), expected);
    expected.accepted = [[1, 0, 0], [0; 3]];
    expected.longest = [1, 0];
    assert_eq!(counted(&bytes_of(&limits::longest())), expected);
}

/// By what the journal holds: the worked ones, from the first that meets 22 on.
#[test]
fn refused_conversions_are_counted() {
    let refused = |place: usize| REFUSED[place].1;
    assert_eq!(counted(refused(0)), Conversions::default());
    let mut expected = Conversions::default();
    expected.no_cars[0] = [1, 0, 0];
    assert_eq!(counted(refused(3)), expected);
    expected.no_cars[0] = [0, 1, 1];
    assert_eq!(counted(refused(4)), expected);
    expected.no_cars = [[0; 3], [1, 1, 1]];
    assert_eq!(counted(refused(5)), expected);
    expected.no_cars[1] = [0, 1, 1];
    expected.beside_gates = [1, 0];
    assert_eq!(counted(refused(6)), expected);
    expected.no_cars[1] = [1, 0, 1];
    expected.beside_gates = [0, 1];
    assert_eq!(counted(refused(7)), expected);
    for (place, gates) in [(8, [1, 0, 0]), (9, [0, 1, 1])] {
        let expected = Conversions {
            gates,
            ..Conversions::default()
        };
        assert_eq!(counted(refused(place)), expected);
    }
}

/// What is counted of pages; one that was refused has no bytes.
#[test]
fn pages_are_counted() {
    let mut counts = Counts::default();
    let mut counted = |run: &Run| {
        counts.page(&expect::page(Some(run)).bytes);
        let Pages {
            eight_zones,
            empty_lines,
            high_lines,
            high_totals,
            widest_totals,
        } = counts.pages;
        [
            eight_zones,
            empty_lines,
            high_lines,
            high_totals,
            widest_totals,
        ]
    };
    assert_eq!(counted(&Run::refused()), [0, 0, 0, 0, 0]);
    assert_eq!(counted(&case_b()), [0, 0, 0, 0, 0]);
    assert_eq!(counted(&limits::widest(1)), [1, 0, 0, 0, 0]);
    assert_eq!(counted(&limits::heaviest()), [1, 0, 1, 1, 0]);
    assert_eq!(counted(&limits::doubled()), [1, 0, 1, 2, 1]);
    let mut empty = Run::open(1, 2, &[0, 0]).1;
    assert_eq!((empty.hand_over(1, 2, 0), empty.start(1)), (0, 0));
    assert_eq!(counted(&empty), [1, 1, 1, 2, 1]);
}

#[test]
fn a_wrong_answer_of_a_zone_is_found() {
    let opened = ffi::cut_zone_open(2, 3, 1, 10);
    assert_eq!(field(&opened, |answer| answer.zone.stock = 9), "zone.stock");
    let edition = field(&opened, |answer| answer.zone.edition = 1);
    assert_eq!(edition, "zone.edition");
    assert_eq!(field(&opened, |answer| answer.refusal = 2), "refusal");
    let heard = ffi::cut_zone_receive(opened.zone, 2, 1, 0);
    let right = ffi::cut_zone_start(heard.zone);
    let field = |change: fn(&mut PlainStep)| field(&right, change);
    assert_eq!(field(|step| step.to = 0), "to");
    assert_eq!(field(|step| step.carried = 1), "carried");
    assert_eq!(field(|step| step.flag = 1), "flag");
    assert_eq!(field(|step| step.zone.mark = 1), "zone.mark");
    assert_eq!(field(|step| step.zone.saved.events = 0), "zone.saved");
    assert_eq!(field(|step| step.zone.number = 2), "zone.number");
}

/// A run of edition 3 with 65,500 cars in stocks and 30 on a line, as the proved code makes it.
fn brimming() -> PlainRun {
    let mut run = ffi::cut_site_open(3, 2, &[65_530, 0]).run;
    assert_eq!(ffi::cut_site_send(&mut run, 1, 2, 30).refusal, 0);
    run
}

fn gate(direction: Direction, zone: u32, cars: u8) -> Call {
    Call::Gate {
        direction,
        zone,
        cars,
    }
}

/// A gate call and a gate of the zone part against wrong expectations.
#[test]
fn a_wrong_answer_at_a_gate_is_found() {
    let right = expect::proved(&brimming(), gate(Direction::In, 2, 5));
    assert_eq!((right.refusal, right.run.zones[1].stock), (0, 5));
    let changed = |change: fn(&mut PlainRun)| field(&right, |answer| change(&mut answer.run));
    assert_eq!(changed(|run| run.zones[1].stock = 4), "run.zones[1].stock");
    assert_eq!(
        changed(|run| run.zones[1].events = 0),
        "run.zones[1].events"
    );
    assert_eq!(changed(|run| run.journal[1] |= 256), "run.journal[1]");
    let zone = ffi::cut_zone_open(3, 2, 1, 10).zone;
    let right = ffi::cut_zone_leave(ffi::cut_zone_enter(zone, 5).zone, 2);
    assert_eq!((right.zone.stock, right.zone.events), (13, 2));
    assert_eq!(field(&right, |step| step.zone.events = 1), "zone.events");
}

/// What is counted of gate calls on a site: the accepted ones by kind, and the entries that are refused
/// for cars on lines alone.
#[test]
fn gate_calls_are_counted() {
    let mut counts = Counts::default();
    let run = brimming();
    let mut made = |call: Call| {
        let expected = expect::answer(&run, call);
        let answer = pair::call(&mut counts, &run, call, &expected);
        (answer.expect("both agree").refusal, counts.gates.clone())
    };
    let (refusal, gates) = made(gate(Direction::In, 2, 0));
    assert_eq!((refusal, gates.accepted[2], gates.lines), (0, 1, 0));
    let (refusal, gates) = made(gate(Direction::Out, 1, 3));
    assert_eq!((refusal, gates.accepted[4], gates.lines), (0, 1, 0));
    // 65,500 + 6 cars would be on the zones, and 30 are on the line.
    let (refusal, gates) = made(gate(Direction::In, 2, 6));
    assert_eq!((refusal, gates.lines), (21, 1));
    let (refusal, gates) = made(gate(Direction::In, 2, 200));
    assert_eq!((refusal, gates.lines), (21, 1));
    assert_eq!(made(gate(Direction::In, 3, 1)).0, 5);
    assert_eq!(made(gate(Direction::Out, 2, 1)).0, 7);
    counts.gate(Gate {
        alone: true,
        out: true,
        empty: true,
        marked: true,
    });
    assert_eq!(counts.gates.accepted[GATES - 1], 1);
    assert_eq!(counts.gates.accepted.iter().sum::<u64>(), 3);
}

/// What is counted of records of kind 3 that make a reading end.
#[test]
fn gate_records_are_counted() {
    let mut counts = Counts::default();
    for (edition, word, refusal) in [
        (1, 0xC000, 18),
        (2, 0xC100, 18),
        (3, 0xC700, 18),
        (3, 0xC100, 19),
        // No record of a gate, and no known edition.
        (3, 0xBFFF, 18),
        (4, 0xC000, 18),
    ] {
        counts.gate_record(edition, word, refusal);
    }
    let mut expected = Gates {
        malformed: [1; EDITIONS.len()],
        refused: 1,
        ..Gates::default()
    };
    expected.wrong_ways[7] = 1;
    assert_eq!(counts.gates, expected);
}

/// What is counted of the totals of complete recordings.
#[test]
fn totals_are_counted() {
    let mut counts = Counts::default();
    for total in [60, 53, 65_536] {
        counts.complete(3, false, false, (total, 60));
    }
    let gates = &counts.gates;
    assert_eq!((gates.other_totals, gates.high_totals), (2, 1));
}

/// A whole comparison of a call fails when anything else is expected.
#[test]
fn a_call_against_a_wrong_expectation_fails() {
    let mut counts = Counts::default();
    let run = opened();
    let mut expected = expect::answer(&run, SEND);
    assert!(pair::call(&mut counts, &run, SEND, &expected).is_ok());
    assert_eq!(counts.times[1][Entry::SiteSend as usize][0], 1);
    expected.run.zones[3].stock = 1;
    let found = pair::call(&mut counts, &run, SEND, &expected).expect_err("a stock off the site");
    assert_eq!(found.difference.field, "run.zones[3].stock");
    assert_eq!(counts.times[1][Entry::SiteSend as usize][0], 1);
}

/// A run of edition 1 in which a request and two hand-overs stand on the line from 1 to 2, in this order,
/// as the proved code makes it.
fn waiting() -> PlainRun {
    let mut run = ffi::cut_site_open(1, 2, &[9, 9]).run;
    assert_eq!(ffi::cut_site_send(&mut run, 2, 1, 1).refusal, 0);
    assert_eq!(ffi::cut_site_receive(&mut run, 2, 1).refusal, 0);
    assert_eq!(ffi::cut_site_start(&mut run, 1).refusal, 0);
    for cars in [3, 4] {
        assert_eq!(ffi::cut_site_send(&mut run, 1, 2, cars).refusal, 0);
    }
    run
}

const RECEIPT: Call = Call::Receipt { from: 1, to: 2 };

/// Another number of items that remain fails the whole comparison: of an accepted receipt, of a refused
/// one and of a call that is no receipt.
#[test]
fn a_wrong_number_of_items_that_remain_is_found() {
    let mut counts = Counts::default();
    let (run, empty) = (waiting(), opened());
    for (run, call, refusal, remaining) in [
        (&run, RECEIPT, 0, 2),
        (&empty, RECEIPT, 9, 0),
        (&empty, SEND, 0, 0),
    ] {
        let expected = expect::answer(run, call);
        assert_eq!((expected.refusal, expected.remaining), (refusal, remaining));
        assert!(pair::call(&mut counts, run, call, &expected).is_ok());
        for other in [remaining + 1, remaining.wrapping_sub(1)] {
            let mut wrong = expected;
            wrong.remaining = other;
            let found = pair::call(&mut counts, run, call, &wrong).expect_err("another number");
            assert_eq!(found.difference.field, "remaining");
        }
    }
    let right = ffi::cut_site_open(1, 2, &[9, 9]);
    assert_eq!(field(&right, |answer| answer.remaining = 1), "remaining");
}

/// What is counted of accepted receipts: how many items they leave, and which.
#[test]
fn receipts_are_counted() {
    let mut counts = Counts::default();
    let mut run = waiting();
    let mut made = || {
        let expected = expect::answer(&run, RECEIPT);
        run = pair::call(&mut counts, &run, RECEIPT, &expected)
            .expect("both agree")
            .run;
        counts.remaining.clone()
    };
    let first = made();
    assert_eq!(
        (first.left[0][2], first.behind_requests, first.requests),
        (1, 1, 0)
    );
    let second = made();
    assert_eq!((second.left[0][1], second.behind_requests), (1, 1));
    // The third empties the line, and a fourth is refused.
    assert_eq!((made().left[0][0], made().left[0][0]), (1, 1));
    // A hand-over with a request behind it.
    let mut run = waiting();
    run.items.swap(16, 17);
    let expected = expect::answer(&run, RECEIPT);
    assert!(pair::call(&mut counts, &run, RECEIPT, &expected).is_ok());
    let remaining = &counts.remaining;
    assert_eq!((remaining.left[0][2], remaining.behind_requests), (2, 1));
    assert_eq!(remaining.requests, 1);
}

/// What is counted of readings: the worked journals, which the proved code reads as they say.
#[test]
fn readings_are_counted() {
    let mut counts = Counts::default();
    for edition in EDITIONS {
        for (journal, remaining) in WAITING {
            let bytes = with_edition(edition, journal);
            let expected = expect::reading(&journal::read(&bytes));
            let proved = pair::read(&mut counts, edition, &bytes, &expected).expect("both agree");
            assert_eq!(usize::from(proved.remaining), remaining);
        }
        let refused = ffi::cut_journal_read(&with_edition(edition, &WAITING_REFUSED));
        assert_eq!((refused.refusal, refused.position), (18, 3));
        assert_eq!(refused.remaining, 0);
    }
    let mut expected = Remaining {
        readings: 9,
        changed: 3,
        ..Remaining::default()
    };
    assert_eq!(counts.remaining, expected);
    counts.reading(0, None);
    counts.refused_reading(0);
    counts.refused_reading(1);
    (expected.without, expected.refused) = (1, 1);
    assert_eq!(counts.remaining, expected);
}

/// A number that a call cannot give is a failure even where both give it.
#[test]
fn a_number_outside_the_list_of_a_call_is_found() {
    let mut counts = Counts::default();
    let answer = PlainAnswer {
        refusal: 20,
        remaining: 0,
        run: opened(),
    };
    let found = counts.same(Entry::SiteReceive, 2, &answer, &answer);
    let difference = found
        .expect_err("the site engine never gives 20")
        .difference;
    assert_eq!(difference.proved, "20");
    // Without a known edition a call gives 1 alone.
    let answer = PlainAnswer {
        refusal: 5,
        remaining: 0,
        run: opened(),
    };
    assert!(counts.same(Entry::SiteReceive, 2, &answer, &answer).is_ok());
    assert!(counts
        .same(Entry::SiteReceive, 4, &answer, &answer)
        .is_err());
    assert_eq!(counts.times[1][Entry::SiteReceive as usize][5], 1);
    assert_eq!(counts.times[3], Counts::default().times[3]);
    // An edition without gates gives 15 before 5.
    assert!(counts.same(Entry::SiteEnter, 3, &answer, &answer).is_ok());
    assert!(counts.same(Entry::SiteEnter, 2, &answer, &answer).is_err());
    // 23 is a downgrade's alone, and another edition than its own meets 15 alone.
    let answer = PlainAnswer {
        refusal: 23,
        ..answer
    };
    let mut is_given =
        |entry: Entry, edition: u32| counts.same(entry, edition, &answer, &answer).is_ok();
    assert!(is_given(Entry::JournalDowngrade, 3));
    assert!(!is_given(Entry::JournalDowngrade, 1));
    assert!(!is_given(Entry::JournalUpgrade, 1));
}

const ENOUGH_CONVERSIONS: Conversions = Conversions {
    accepted: [[LEAST_CONVERSIONS; 3]; 2],
    longest: [LEAST_CONVERSIONS; 2],
    no_cars: [[LEAST_CONVERSIONS; 3]; 2],
    beside_gates: [LEAST_CONVERSIONS; 2],
    gates: [LEAST_CONVERSIONS; 3],
};

/// Counts that just reach every floor.
fn enough() -> Counts {
    Counts {
        times: [[[LEAST_ANSWERS; HIGHEST + 1]; ENTRIES.len()]; HEADINGS.len()],
        checks: [[LEAST_CHECKS; CHECKS]; 3],
        gates: Gates {
            accepted: [LEAST_GATES; GATES],
            lines: LEAST_GATES,
            malformed: [LEAST_GATES; 3],
            wrong_ways: [LEAST_GATES; WRONG_WAYS.end],
            refused: LEAST_GATES,
            other_totals: LEAST_GATES,
            high_totals: LEAST_GATES,
        },
        remaining: Remaining {
            left: [[LEAST_REMAINING; PLACES]; 3],
            behind_requests: LEAST_REMAINING,
            requests: LEAST_REMAINING,
            readings: LEAST_REMAINING,
            changed: LEAST_REMAINING,
            without: LEAST_REMAINING,
            refused: LEAST_REMAINING,
        },
        empty: Empty {
            times: [[LEAST_EMPTY; HIGHEST + 1]; HEADINGS.len()],
            zeros: [LEAST_EMPTY; 3],
            complete: [LEAST_EMPTY; 3],
        },
        pages: Pages {
            eight_zones: LEAST_PAGES,
            empty_lines: LEAST_PAGES,
            high_lines: LEAST_PAGES,
            high_totals: LEAST_PAGES,
            widest_totals: LEAST_PAGES,
        },
        conversions: ENOUGH_CONVERSIONS,
        turned: [LEAST_TURNED; 3],
        above: [LEAST_ABOVE; 3],
        comparisons: 0,
    }
}

#[test]
fn the_floors_are_those_of_all_that_is_counted() {
    let numbers = ENTRIES.iter().flat_map(|(_, numbers)| numbers);
    let numbers: usize = numbers.map(|numbers| numbers.len()).sum();
    let editions = EDITIONS.len();
    let gates = GATES + 1 + editions + WRONG_WAYS.len() + 1 + 2;
    let remaining = editions * PLACES + 6;
    let empty = EMPTY.iter().map(|numbers| numbers.len()).sum::<usize>() + editions * 2;
    let pages = 5;
    let conversions = 2 * (3 + 1 + 3) + 2 + 3;
    let missed = Counts::default().missed().len();
    assert_eq!(
        missed,
        numbers + editions * (CHECKS + 2) + gates + remaining + empty + pages + conversions
    );
    assert_eq!(enough().missed(), Vec::<String>::new());
}

/// The one floor that is missed when counts that reach them all are changed.
fn missed(change: fn(&mut Counts)) -> String {
    let mut counts = enough();
    change(&mut counts);
    let missed = counts.missed();
    assert_eq!(missed.len(), 1);
    missed[0].clone()
}

#[test]
fn a_missed_floor_is_reported() {
    let start = missed(|counts| counts.times[0][Entry::SiteStart as usize][10] -= 1);
    assert!(start.contains("cut_site_start answering 10, edition 1: 99 times"));
    let open = missed(|counts| counts.times[3][Entry::ZoneOpen as usize][15] -= 1);
    assert!(open.contains("cut_zone_open answering 15, another or no edition: 99 times"));
    let enter = missed(|counts| counts.times[1][Entry::SiteEnter as usize][15] -= 1);
    assert!(enter.contains("cut_site_enter answering 15, edition 2: 99 times"));
    let enter = missed(|counts| counts.times[2][Entry::SiteEnter as usize][21] -= 1);
    assert!(enter.contains("cut_site_enter answering 21, edition 3: 99 times"));
    let leave = missed(|counts| counts.times[2][Entry::ZoneLeave as usize][7] -= 1);
    assert!(leave.contains("cut_zone_leave answering 7, edition 3: 99 times"));
    let exit = missed(|counts| counts.gates.accepted[6] -= 1);
    assert!(exit.contains("an exit of 0 cars at an unmarked zone, site: 99 times"));
    assert!(missed(|counts| counts.gates.lines -= 1).contains("21 for cars on lines: 99 times"));
    let kind = missed(|counts| counts.gates.malformed[1] -= 1);
    assert!(kind.contains("18 for kind 3, edition 2: 99 times"));
    let way = missed(|counts| counts.gates.wrong_ways[7] -= 1);
    assert!(way.contains("18 for direction 7: 99 times"));
    let total = missed(|counts| counts.gates.high_totals -= 1);
    assert!(total.contains("a total above 65,535: 99 times"));
    assert!(missed(|counts| counts.turned[1] -= 1).contains("turned firm, edition 2: 999 times"));
    assert!(missed(|counts| counts.above[0] -= 1).contains("above 16, edition 1: 99 times"));
    let check = missed(|counts| counts.checks[1][6] -= 1);
    assert!(check.contains("bit 1 taken by an unmarked zone, zone part, edition 2: 99 times"));
}

#[test]
fn a_missed_floor_of_items_that_remain_is_reported() {
    let left = missed(|counts| counts.remaining.left[0][0] -= 1);
    assert!(left.contains("receipts that leave 0, edition 1: 99 times"));
    let left = missed(|counts| counts.remaining.left[2][15] -= 1);
    assert!(left.contains("receipts that leave 15, edition 3: 99 times"));
    let behind = missed(|counts| counts.remaining.behind_requests -= 1);
    assert!(behind.contains("receipts of a request with items behind it: 99 times"));
    let request = missed(|counts| counts.remaining.requests -= 1);
    assert!(request.contains("receipts that leave a request on the line: 99 times"));
    let reading = missed(|counts| counts.remaining.readings -= 1);
    assert!(reading.contains("readings whose last receipt left items: 99 times"));
    let changed = missed(|counts| counts.remaining.changed -= 1);
    assert!(changed.contains("left another number than waits in the end: 99 times"));
    let without = missed(|counts| counts.remaining.without -= 1);
    assert!(without.contains("readings without a receipt: 99 times"));
    let refused = missed(|counts| counts.remaining.refused -= 1);
    assert!(refused.contains("refused behind a receipt that left items: 99 times"));
}

#[test]
fn a_missed_floor_of_openings_without_stocks_is_reported() {
    let accepted = missed(|counts| counts.empty.times[0][0] -= 1);
    assert!(accepted.contains("openings without stocks answering 0, edition 1: 99 times"));
    let count = missed(|counts| counts.empty.times[2][2] -= 1);
    assert!(count.contains("openings without stocks answering 2, edition 3: 99 times"));
    let edition = missed(|counts| counts.empty.times[3][15] -= 1);
    assert!(edition.contains("answering 15, another or no edition: 99 times"));
    let zeros = missed(|counts| counts.empty.zeros[1] -= 1);
    assert!(zeros.contains("openings with too few or too many zeros, edition 2: 99 times"));
    let complete = missed(|counts| counts.empty.complete[2] -= 1);
    assert!(complete.contains("complete recordings from no stocks, edition 3: 99 times"));
}

#[test]
fn a_missed_floor_of_pages_is_reported() {
    let page = missed(|counts| counts.times[0][Entry::SitePage as usize][1] -= 1);
    assert!(page.contains("cut_site_page answering 1, edition 1: 99 times"));
    let page = missed(|counts| counts.times[2][Entry::JournalPage as usize][14] -= 1);
    assert!(page.contains("cut_journal_page answering 14, edition 3: 99 times"));
    let zones = missed(|counts| counts.pages.eight_zones -= 1);
    assert!(zones.contains("pages with 8 zones: 99 times"));
    let line = missed(|counts| counts.pages.empty_lines -= 1);
    assert!(line.contains("pages with a line of 0 cars: 99 times"));
    let line = missed(|counts| counts.pages.high_lines -= 1);
    assert!(line.contains("pages with a line above 65,535: 99 times"));
    let total = missed(|counts| counts.pages.high_totals -= 1);
    assert!(total.contains("pages with a total above 65,535: 99 times"));
    let total = missed(|counts| counts.pages.widest_totals -= 1);
    assert!(total.contains("pages with a total of six digits: 99 times"));
}

#[test]
fn a_missed_floor_of_conversions_is_reported() {
    let number = missed(|counts| counts.times[0][Entry::JournalUpgrade as usize][22] -= 1);
    assert!(number.contains("cut_journal_upgrade answering 22, edition 1: 99 times"));
    let number = missed(|counts| counts.times[2][Entry::JournalUpgrade as usize][15] -= 1);
    assert!(number.contains("cut_journal_upgrade answering 15, edition 3: 99 times"));
    let number = missed(|counts| counts.times[2][Entry::JournalDowngrade as usize][23] -= 1);
    assert!(number.contains("cut_journal_downgrade answering 23, edition 3: 99 times"));
    let number = missed(|counts| counts.times[2][Entry::JournalDowngrade as usize][14] -= 1);
    assert!(number.contains("cut_journal_downgrade answering 14, edition 3: 99 times"));
    let unstarted = missed(|counts| counts.conversions.accepted[0][2] -= 1);
    assert!(unstarted.contains("upgrade of an unstarted recording: 99 times"));
    let longest = missed(|counts| counts.conversions.longest[1] -= 1);
    assert!(longest.contains("downgrade of 1,000 records: 99 times"));
    let last = missed(|counts| counts.conversions.no_cars[0][1] -= 1);
    assert!(last.contains("upgrade refused with 22 for the last record alone: 99 times"));
    let waiting = missed(|counts| counts.conversions.no_cars[1][2] -= 1);
    assert!(waiting.contains("downgrade refused with 22 for hand-overs that are not received"));
    let behind = missed(|counts| counts.conversions.beside_gates[0] -= 1);
    assert!(behind.contains("downgrade refused with 22 behind a gate: 99 times"));
    let no_cars = missed(|counts| counts.conversions.gates[2] -= 1);
    assert!(no_cars.contains("downgrade refused with 23 for gates of 0 cars alone: 99 times"));
}

/// An opening is counted where it was given no stocks, or zeros that are refused with 3.
#[test]
fn an_opening_without_stocks_is_counted() {
    let mut counts = Counts::default();
    counts.opening(1, &[], 0);
    counts.opening(3, &[], 2);
    counts.opening(9, &[], 15);
    counts.opening(2, &[0], 3);
    counts.opening(2, &[0, 0], 0);
    counts.opening(2, &[1], 3);
    let times = &counts.empty.times;
    assert_eq!((times[0][0], times[2][2], times[3][15]), (1, 1, 1));
    assert_eq!(times.iter().flatten().sum::<u64>(), 3);
    assert_eq!(counts.empty.zeros, [0, 1, 0]);
}

/// A hand-over of 0 cars is counted by its edition, its bit and the part and mark of its receiver.
#[test]
fn a_taken_check_is_counted() {
    let mut counts = Counts::default();
    for edition in [1, 2, 2] {
        counts.check(Check {
            edition,
            alone: true,
            flag: true,
            marked: false,
        });
    }
    assert_eq!((counts.checks[0][6], counts.checks[1][6]), (1, 2));
    assert_eq!(counts.checks.iter().flatten().sum::<u64>(), 3);
}

/// Which states the second implementation cannot hold, and what is looked at nowhere.
#[test]
fn unused_storage_is_judged_by_the_contract() {
    let refusal = |change: fn(&mut PlainRun)| {
        let mut run = opened();
        change(&mut run);
        let expected = expect::answer(&run, SEND);
        assert_eq!(expected.check(&expect::proved(&run, SEND)), Ok(()));
        expected.refusal
    };
    assert_eq!(refusal(|run| run.zones[7].mark = 3), 1);
    assert_eq!(refusal(|run| run.zones[7].mark = 2), 0);
    assert_eq!(refusal(|run| run.zones[7].stock = 65_535), 0);
    assert_eq!(refusal(|run| run.records = 1_001), 1);
    assert_eq!(refusal(|run| run.count = 9), 1);
    assert_eq!(refusal(|run| run.edition = 0), 1);
    assert_eq!(refusal(|run| run.edition = 4), 1);
    assert_eq!(refusal(|run| run.edition = 3), 0);
    assert_eq!(refusal(|run| run.edition = 1), 0);
    assert_eq!(refusal(|run| run.lens[place(0, 1)] = 17), 1);
    assert_eq!(refusal(|run| run.lens[place(0, 1)] = 16), 8);
    assert_eq!(refusal(|run| run.lens[place(0, 0)] = 17), 0);
    assert_eq!(refusal(|run| run.lens[place(0, 3)] = 255), 0);
    assert_eq!(refusal(|run| run.items[16 * place(2, 0)] = 768), 0);
    let word = |run: &mut PlainRun, word: u16| {
        run.lens[place(2, 0)] = 1;
        run.items[16 * place(2, 0)] = word;
    };
    let refused = |number: u16| {
        let mut run = opened();
        word(&mut run, number);
        expect::answer(&run, SEND).refusal
    };
    assert_eq!(
        [refused(519), refused(520), refused(767), refused(768)],
        [0, 1, 1, 1]
    );
}

/// What an accepted call does to storage without a meaning.
#[test]
fn an_accepted_receipt_moves_all_places_of_its_line() {
    let mut run = sent().run;
    for place in 17..32 {
        run.items[place] = place as u16;
    }
    run.zones[5].saved.stock = 9;
    let receipt = Call::Receipt { from: 1, to: 2 };
    let answer = expect::answer(&run, receipt);
    assert_eq!(answer.refusal, 0);
    assert_eq!(answer.run.items[16..20], [17, 18, 19, 20]);
    assert_eq!(answer.run.items[31], 0);
    assert_eq!(answer.run.zones[5].saved.stock, 0);
    assert_eq!(answer.check(&expect::proved(&run, receipt)), Ok(()));
}
