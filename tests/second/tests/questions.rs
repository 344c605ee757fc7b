//! The questions in order: question 1 on any state, each refusal, and the zone part.

use second::edition::EDITIONS;
use second::generate::with_edition;
use second::journal;
use second::page;
use second::print::MOST_BYTES;
use second::random::{drive, edition, stocks, Random};
use second::recording;
use second::site::{Call, Direction, Item, Run, PLACES};
use second::zone::{Body, Mark, Requests, Saved, Zone, NO_REQUESTS};
use std::collections::BTreeMap;

const KEPT: Saved = Saved {
    stock: 5,
    events: 0,
};

fn hand_over(cars: u8) -> Item {
    Item::HandOver {
        cars,
        marked: false,
    }
}

fn opened(edition: u32, stocks: &[u16]) -> Run {
    let (refusal, run) = Run::open(edition, stocks.len() as u32, stocks);
    assert_eq!(refusal, 0);
    run
}

/// Every call answers 1, and no call changes the run or a lent byte.
fn all_answer_1(run: &Run) {
    let mut after = run.clone();
    assert_eq!(after.hand_over(9, 9, 255), 1);
    assert_eq!(after.receipt(0, 1), 1);
    assert_eq!(after.start(0), 1);
    assert_eq!((after.enter(0, 255), after.leave(0, 255)), (1, 1));
    assert!(after == *run);
    let mut lent = [7; 3_000];
    writers_answer_1(run, &mut lent);
    assert_eq!(lent, [7; 3_000]);
}

fn writers_answer_1(run: &Run, lent: &mut [u8]) {
    assert_eq!(recording::write(run, lent), (1, 0, 0));
    assert_eq!(page::write(run, lent), (1, 0));
    assert_eq!(journal::write(run, lent), (1, 0));
}

/// The state passes the short form, but recording, page and journal writing answer 1.
fn only_the_fuller_form_fails(run: &Run) {
    assert!(run.sound());
    let mut lent = [7; 3_000];
    writers_answer_1(run, &mut lent);
    assert_eq!(lent, [7; 3_000]);
    writers_answer_1(run, &mut []);
}

#[test]
fn question_1_refuses_every_unsound_state() {
    for edition in EDITIONS {
        refuses_every_unsound_state(opened(edition, &[10, 20, 30]));
    }
}

fn refuses_every_unsound_state(sound: Run) {
    for edition in [0, 4, 7, 255, u32::MAX] {
        let mut run = sound.clone();
        run.edition = edition;
        all_answer_1(&run);
    }
    for count in [0, 1, 9, 16, u32::MAX] {
        let mut run = sound.clone();
        run.count = count;
        all_answer_1(&run);
    }
    let mut run = sound.clone();
    run.lines[2][0].extend([hand_over(0); 16]);
    assert!(run.sound());
    run.lines[2][0].push_back(hand_over(0));
    all_answer_1(&run);

    let mut run = sound.clone();
    run.records = vec![0; 1_000];
    assert!(run.sound());
    run.records.push(0);
    all_answer_1(&run);

    let mut run = sound.clone();
    run.records = vec![0; 4];
    run.zones[2].events = 4;
    assert!(run.sound());
    run.zones[2].events = 5;
    all_answer_1(&run);

    let mut run = sound.clone();
    run.zones[1].heard = 0b111;
    assert!(run.sound());
    run.zones[1].heard = 0b1010;
    all_answer_1(&run);

    let mut run = sound.clone();
    run.lines[0][2].push_back(Item::Request { set: 0b111 });
    assert!(run.sound());
    run.lines[0][2].push_back(Item::Request { set: 0b1000 });
    all_answer_1(&run);

    let mut run = sound.clone();
    run.zones[0].stock = 65_535 - 50;
    assert!(run.sound());
    run.lines[1][0].push_back(hand_over(1));
    all_answer_1(&run);
    for stock in [65_536, u32::MAX] {
        let mut run = sound.clone();
        run.zones[0].stock = stock;
        all_answer_1(&run);
        run.zones[1].stock = stock;
        all_answer_1(&run);
    }
}

#[test]
fn question_1_does_not_look_at_unused_storage_or_marks() {
    let mut run = opened(1, &[10, 20, 30]);
    run.zones[3].stock = u32::MAX;
    run.zones[4].heard = 255;
    run.zones[5].events = 9;
    run.lines[0][0].extend([hand_over(255); 40]);
    run.lines[0][3].push_back(Item::Request { set: 255 });
    run.lines[7][1].extend([hand_over(255); 17]);
    run.opening[6] = 65_535;
    assert!(run.sound() && run.true_run());
    assert_eq!(run.hand_over(1, 2, 1), 0);
    let mut lent = [0; 10];
    assert_eq!(journal::write(&run, &mut lent), (0, 10));

    run.zones[0].mark = Mark::Firm(Saved {
        stock: u32::MAX,
        events: u32::MAX,
    });
    run.zones[1].heard = 0;
    only_the_fuller_form_fails(&run);
    assert_eq!(run.start(2), 11);
    assert_eq!(run.receipt(1, 2), 0);
}

#[test]
fn the_fuller_form_wants_the_state_of_the_journal() {
    let mut run = opened(1, &[10, 20, 30]);
    run.hand_over(1, 2, 4);
    run.receipt(1, 2);
    run.start(2);
    run.receipt(2, 1);
    assert!(run.true_run());

    // Without a hand-over of 0 cars the other editions replay to this state too.
    for edition in [2, 3] {
        let mut other = run.clone();
        other.edition = edition;
        assert!(other.true_run());
    }
    let mut other = run.clone();
    other.zones[0].stock += 1;
    only_the_fuller_form_fails(&other);
    let mut other = run.clone();
    other.zones[1].heard |= 4;
    only_the_fuller_form_fails(&other);
    let mut other = run.clone();
    other.zones[2].mark = Mark::Provisional(KEPT);
    only_the_fuller_form_fails(&other);
    let mut other = run.clone();
    other.zones[2].events += 1;
    only_the_fuller_form_fails(&other);
    let mut other = run.clone();
    other.lines[2][1].push_back(hand_over(0));
    only_the_fuller_form_fails(&other);
    let mut other = run.clone();
    other.opening[0] += 1;
    only_the_fuller_form_fails(&other);
    let mut other = run.clone();
    other.opening[2] = 65_535;
    only_the_fuller_form_fails(&other);
    let mut other = run.clone();
    other.records.pop();
    only_the_fuller_form_fails(&other);
    let mut other = run.clone();
    other.records.push(journal::encode(Call::Start { zone: 1 }));
    only_the_fuller_form_fails(&other);
    for (edition, other) in [(1, 2), (2, 1), (1, 3), (3, 1)] {
        let mut checked = opened(edition, &[1, 1]);
        checked.hand_over(1, 2, 0);
        assert!(checked.true_run());
        checked.edition = other;
        only_the_fuller_form_fails(&checked);
    }
    // A word that is not well formed does not replay, though its bare call would be accepted.
    for (record, word) in [(1, 0x4101), (2, 0x8900), (2, 0x8801), (0, 0xC104)] {
        let mut other = run.clone();
        other.records[record] = word;
        only_the_fuller_form_fails(&other);
    }
}

#[test]
fn the_fuller_form_replays_gates() {
    let mut run = opened(3, &[10, 20]);
    assert_eq!((run.enter(1, 3), run.leave(2, 20)), (0, 0));
    assert!(run.true_run());
    // A run of an edition without gates has no such record.
    for edition in [1, 2] {
        let mut other = run.clone();
        other.edition = edition;
        only_the_fuller_form_fails(&other);
    }
    // Another direction, other cars, another zone, and a direction that there is not.
    for word in [0xC103, 0xC002, 0xC803, 0xC203, 0xD003] {
        let mut other = run.clone();
        other.records[0] = word;
        only_the_fuller_form_fails(&other);
    }
    // A gate of 0 cars is missed too: it is an own event.
    run.enter(1, 0);
    assert!(run.true_run());
    run.zones[0].events -= 1;
    only_the_fuller_form_fails(&run);
}

/// Entry: 1, 15, 5, 6, 21. Exit: 1, 15, 5, 6, 7.
#[test]
fn gate_calls_ask_in_order() {
    for edition in EDITIONS {
        let mut run = opened(edition, &[65_535, 0, 0]);
        run.lines[0][1].push_back(hand_over(1));
        all_answer_1(&run);
        run.lines[0][1].clear();
        run.records = vec![0; 1_000];
        let gates = |run: &Run, zone: u32, cars: u8| {
            let mut run = run.clone();
            let before = run.clone();
            let answer = (run.enter(zone, cars), run.leave(zone, cars));
            assert!(run == before);
            answer
        };
        if edition != 3 {
            // A wrong zone, no free record, too many and too few cars: 15 comes first.
            for zone in [0, 1, 2, 4, u32::MAX] {
                assert_eq!(gates(&run, zone, 1), (15, 15));
            }
            run.records.clear();
            assert_eq!(gates(&run, 1, 0), (15, 15));
            continue;
        }
        for zone in [0, 4, 8, 9, 255, 257, u32::MAX] {
            assert_eq!(gates(&run, zone, 1), (5, 5));
        }
        assert_eq!(gates(&run, 2, 1), (6, 6));
        assert_eq!(gates(&run, 2, 0), (6, 6));
        run.records.pop();
        assert_eq!(gates(&run, 2, 1), (21, 7));
        assert_eq!(run.clone().enter(2, 0), 0);
        assert_eq!(run.clone().leave(2, 0), 0);
        assert_eq!(run.leave(1, 255), 0);
        assert_eq!(run.records.len(), 1_000);
    }
}

/// 21 asks the stocks plus the cars on lines, those of every line; requests have no cars.
#[test]
fn question_21_counts_the_cars_on_every_line() {
    for line in [(0, 1), (1, 0), (0, 2), (2, 0), (1, 2), (2, 1)] {
        let mut run = opened(3, &[65_000, 200, 35]);
        run.lines[line.0][line.1].extend([hand_over(99), Item::Request { set: 7 }, hand_over(1)]);
        // Storage that is not looked at.
        run.lines[1][1].push_back(hand_over(255));
        run.lines[0][3].push_back(hand_over(255));
        run.zones[4].stock = 255;
        for zone in 1..=3 {
            assert_eq!(run.clone().enter(zone, 201), 21);
            assert_eq!(run.clone().enter(zone, 200), 0);
        }
    }
}

#[test]
fn writers_ask_for_enough_bytes_last() {
    let mut run = opened(1, &[1, 1]);
    let mut lent = [9; 60];
    assert_eq!(recording::write(&run, &mut []), (12, 0, 0));
    assert_eq!(page::write(&run, &mut []), (12, 0));
    assert_eq!(journal::write(&run, &mut lent[..5]), (14, 0));
    run.hand_over(2, 1, 1);
    run.receipt(2, 1);
    run.start(1);
    assert_eq!(recording::write(&run, &mut []), (13, 0, 0));
    assert_eq!(page::write(&run, &mut []), (13, 0));
    run.receipt(1, 2);
    assert_eq!(recording::write(&run, &mut lent[..9]), (14, 0, 0));
    assert_eq!(page::write(&run, &mut lent[..50]), (14, 0));
    assert_eq!(journal::write(&run, &mut lent[..13]), (14, 0));
    assert_eq!(lent, [9; 60]);
    assert_eq!(recording::write(&run, &mut lent), (0, 10, 2));
    assert_eq!(
        lent[..10],
        [0x24, 0, 0x80, 1, 0, 2, 0x80, 1, 0, 0],
        "both zones are firm"
    );
    assert_eq!(lent[10..], [9; 50]);
    assert_eq!(journal::write(&run, &mut lent), (0, 14));
    assert_eq!(lent[14..], [9; 46]);
    assert_eq!(page::write(&run, &mut lent), (0, 51));
    assert_eq!(lent[51..], [9; 9]);
}

#[test]
fn named_zones_come_second() {
    let mut run = opened(1, &[1, 1, 1]);
    for (from, to) in [(0, 1), (1, 0), (4, 1), (1, 4), (2, 2), (u32::MAX, 1)] {
        assert_eq!(run.hand_over(from, to, 255), 5);
        assert_eq!(run.receipt(from, to), 5);
    }
    for zone in [0, 4, 9, u32::MAX] {
        assert_eq!(run.start(zone), 5);
    }
    assert!(run.records.is_empty());
    assert_eq!(run.hand_over(1, 2, 2), 7);
    assert_eq!(run.receipt(1, 2), 9);
}

#[test]
fn full_lines_refuse_requests() {
    // A start asks 11 before 10.
    let mut run = opened(1, &[9, 9, 9]);
    run.hand_over(2, 1, 1);
    run.receipt(2, 1);
    for _ in 0..16 {
        run.hand_over(1, 2, 0);
    }
    let before = run.clone();
    assert_eq!(run.start(1), 10);
    assert!(run.same(&before));
    let mut other = run.clone();
    assert_eq!(other.start(3), 0);
    assert_eq!(other.start(1), 11);
    // A receipt that must pass a request on needs the place too, and keeps the item if refused.
    let mut run = opened(1, &[9, 9, 9]);
    run.hand_over(3, 2, 0);
    run.receipt(3, 2);
    run.hand_over(2, 1, 0);
    run.receipt(2, 1);
    for _ in 0..16 {
        run.hand_over(2, 3, 0);
    }
    assert_eq!(run.start(1), 0);
    let before = run.clone();
    assert_eq!(run.receipt(1, 2), 10);
    assert!(run.same(&before));
    assert_eq!(run.receipt(2, 3), 0);
    assert_eq!(run.receipt(1, 2), 0);
    assert_eq!(
        run.lines[1][2].back(),
        Some(&Item::Request { set: 0b111 }),
        "the request carries the union"
    );
}

#[test]
fn a_firm_zone_drops_a_request_on_full_lines() {
    let mut run = opened(1, &[9, 9]);
    run.hand_over(2, 1, 1);
    run.receipt(2, 1);
    run.start(1);
    run.lines[1][0].push_back(Item::Request { set: 0 });
    run.lines[0][1].extend([hand_over(0); 15]);
    assert_eq!(run.receipt(2, 1), 0);
    assert_eq!(run.lines[0][1].len(), 16);
}

#[test]
fn a_site_start_of_a_provisional_zone_in_an_untrue_state() {
    let mut run = opened(1, &[10, 20]);
    run.zones[0].mark = Mark::Provisional(KEPT);
    let zone = Zone {
        edition: 1,
        number: 1,
        count: 2,
        body: run.zones[0],
    };
    assert_eq!(zone.start().1.refusal, 11);
    assert_eq!(run.start(1), 0);
    let saved = Saved {
        stock: 10,
        events: 0,
    };
    assert_eq!(run.zones[0].mark, Mark::Firm(saved));
}

#[test]
fn reading_asks_in_order() {
    let read = |bytes: &[u8]| {
        let reading = journal::read(bytes);
        if reading.refusal != 0 {
            assert!(reading.run.same(&Run::refused()));
            assert_eq!(reading.run.edition, 1);
        }
        (reading.refusal, reading.position)
    };
    assert_eq!(read(&[]), (15, 0));
    for first in [0x24, 0x44, 0x64] {
        assert_eq!(read(&[first]), (15, 0));
    }
    for edition in [0, 4, 5, 6, 7] {
        // A wrong edition comes before zones 0 and the number 1,023.
        assert_eq!(read(&[edition << 5 | 3, 255]), (15, 0));
    }
    for edition in EDITIONS {
        asks_in_order(edition, &|bytes| read(&with_edition(edition, bytes)));
    }
}

fn asks_in_order(edition: u32, read: &dyn Fn(&[u8]) -> (u32, usize)) {
    assert_eq!(read(&[0, 0, 0, 0]), (16, 0));
    assert_eq!(read(&[7, 0xE9]), (16, 0));
    assert_eq!(read(&[7, 0xE8]), (17, 0));
    assert_eq!(read(&[4, 0]), (17, 0));
    assert_eq!(read(&[4, 0, 0, 0, 0]), (17, 0));
    assert_eq!(read(&[4, 0, 0, 0, 0, 0]), (0, 0));
    assert_eq!(read(&[4, 0, 0, 0, 0, 0, 0]), (17, 0));
    assert_eq!(read(&[4, 1, 255, 255, 0, 1, 0xC0, 0]), (4, 0));
    let journal = |words: &[u16]| {
        let mut all = vec![journal::header(edition, 2, words.len()), 5, 5];
        all.extend(words);
        journal::bytes_of(&all)
    };
    assert_eq!(read(&journal(&[0x0105])), (0, 0));
    assert_eq!(read(&journal(&[0x0106])), (19, 0));
    assert_eq!(read(&journal(&[0x0105, 0x4100, 0x4100])), (19, 2));
    assert_eq!(read(&journal(&[0x0105, 0x4101])), (18, 1));
    assert_eq!(read(&journal(&[0x0105, 0x0000, 0xC200])), (19, 1));
    assert_eq!(read(&journal(&[0x0105, 0xC200, 0x0000])), (18, 1));
    assert_eq!(read(&journal(&[0x4001])), (18, 0));
    assert_eq!(read(&journal(&[0x4000])), (19, 0));
    assert_eq!(read(&journal(&[0x8100])), (18, 0));
    assert_eq!(read(&journal(&[0x9001])), (18, 0));
    assert_eq!(read(&journal(&[0x9000])), (19, 0));
    assert_eq!(read(&journal(&[0x8800, 0x8000])), (19, 1));
    assert_eq!(read(&journal(&[0x0200])), (19, 0));
    assert_eq!(read(&journal(&[0xFFFF])), (18, 0));
    // Gates: well formed, a wrong zone, an exit beyond the stock, another direction.
    let numbers = if edition == 3 {
        [(0, 0), (0, 0), (19, 0), (19, 0), (19, 0), (18, 0)]
    } else {
        [(18, 0); 6]
    };
    let words = [0xC0FF, 0xC905, 0xD001, 0xD101, 0xC906, 0xC200];
    assert_eq!(words.map(|word| read(&journal(&[word]))), numbers);
}

#[test]
fn opening_one_zone() {
    let refused = Zone::open(1, 1, 2, 0).1;
    for edition in [0, 4, 7, 255, u32::MAX] {
        // Question 15 comes before 2 and 5.
        for (number, count) in [(1, 2), (1, 9), (3, 2)] {
            assert_eq!(Zone::open(edition, number, count, 7), (15, refused));
        }
    }
    for edition in EDITIONS {
        for count in [0, 1, 9, u32::MAX] {
            assert_eq!(Zone::open(edition, 1, count, 7), (2, refused));
            assert_eq!(Zone::open(edition, 0, count, 7), (2, refused));
        }
        for (number, count) in [(0, 2), (3, 2), (9, 8), (u32::MAX, 8)] {
            assert_eq!(Zone::open(edition, number, count, 7), (5, refused));
        }
        for count in 2..=8 {
            for number in 1..=count {
                opens(edition, number, count);
            }
        }
    }
}

/// An accepted opening of one zone.
fn opens(edition: u32, number: u32, count: u32) {
    let (refusal, zone) = Zone::open(edition, number, count, 65_535);
    assert_eq!(refusal, 0);
    assert!(zone.sound());
    let body = Body {
        stock: 65_535,
        events: 0,
        heard: 1 << (number - 1),
        mark: Mark::None,
    };
    let expected = Zone {
        edition,
        number,
        count,
        body,
    };
    assert_eq!(zone, expected);
}

/// The number of a zone step that must be refused: the state and the empty answers are checked.
fn refusal(zone: Zone, step: impl Fn(Zone) -> (Zone, second::zone::Answer)) -> u32 {
    let (next, answer) = step(zone);
    assert_ne!(answer.refusal, 0);
    assert_eq!(next, zone);
    assert_eq!(answer.requests, NO_REQUESTS);
    assert!(!answer.marked);
    answer.refusal
}

#[test]
fn zone_steps_answer_1_on_every_unsound_zone() {
    let sound = Zone::open(1, 2, 3, 10).1;
    let mut bad = vec![sound; 14];
    bad[0].count = 1;
    bad[1].count = 9;
    bad[2].count = u32::MAX;
    bad[3].number = 0;
    bad[4].number = 4;
    bad[5].number = u32::MAX;
    bad[6].body.heard = 0b1010;
    bad[7].body.stock = 65_536;
    bad[8].body.stock = u32::MAX;
    bad[9].body.events = 1_001;
    bad[10].body.events = u32::MAX;
    bad[11].edition = 0;
    bad[12].edition = 4;
    bad[13].edition = 255;
    for zone in bad {
        assert_eq!(refusal(zone, |zone| zone.send(2, 255)), 1);
        assert_eq!(refusal(zone, |zone| zone.take_hand_over(2, 255, true)), 1);
        assert_eq!(refusal(zone, |zone| zone.take_request(255)), 1);
        assert_eq!(refusal(zone, |zone| zone.start()), 1);
        for edition in [zone.edition, 3] {
            let mut zone = zone;
            if zone.edition == 1 {
                zone.edition = edition;
            }
            assert_eq!(refusal(zone, |zone| zone.enter(255)), 1);
            assert_eq!(refusal(zone, |zone| zone.leave(255)), 1);
        }
    }
}

/// Entry: 1, 15, 6, 20. Exit: 1, 15, 6, 7. No zone is named, so 5 is not asked.
#[test]
fn gate_steps_of_a_zone_ask_in_order() {
    for edition in EDITIONS {
        let mut zone = Zone::open(edition, 2, 3, 65_535).1;
        zone.body.events = 1_000;
        let (no_record, full, beyond) = if edition == 3 {
            (6, 20, 7)
        } else {
            (15, 15, 15)
        };
        for cars in [0, 1, 255] {
            assert_eq!(refusal(zone, |zone| zone.enter(cars)), no_record);
            assert_eq!(refusal(zone, |zone| zone.leave(cars)), no_record);
        }
        zone.body.events = 999;
        assert_eq!(refusal(zone, |zone| zone.enter(1)), full);
        zone.body.stock = 65_535 - 254;
        assert_eq!(refusal(zone, |zone| zone.enter(255)), full);
        zone.body.stock = 254;
        assert_eq!(refusal(zone, |zone| zone.leave(255)), beyond);
        zone.body.stock = 0;
        assert_eq!(refusal(zone, |zone| zone.leave(1)), beyond);
        if edition != 3 {
            assert_eq!(refusal(zone, |zone| zone.enter(0)), 15);
            assert_eq!(refusal(zone, |zone| zone.leave(0)), 15);
        }
    }
}

/// A gate step changes the stock and counts an own event, whatever mark the zone has.
#[test]
fn gate_steps_of_a_zone_follow_the_rules() {
    for zone in marked_zones(3) {
        for cars in [0, 1, 20] {
            for (step, stock) in [
                (Zone::enter as fn(Zone, u8) -> _, 20 + u32::from(cars)),
                (Zone::leave, 20 - u32::from(cars)),
            ] {
                let (next, answer) = step(zone, cars);
                assert_eq!((answer.refusal, answer.requests), (0, NO_REQUESTS));
                assert!(!answer.marked);
                let mut expected = zone;
                expected.body.stock = stock;
                expected.body.events += 1;
                assert_eq!(next, expected);
            }
        }
        // Up to 65,535 and down to 0.
        let mut zone = zone;
        zone.body.stock = 65_535 - 255;
        assert_eq!(zone.enter(255).0.body.stock, 65_535);
        zone.body.stock = 255;
        assert_eq!(zone.leave(255).0.body.stock, 0);
    }
}

#[test]
fn zone_steps_ask_in_order() {
    for edition in EDITIONS {
        zone_asks_in_order(Zone::open(edition, 2, 3, 10).1);
    }
}

fn zone_asks_in_order(mut zone: Zone) {
    zone.body.events = 1_000;
    for other in [0, 2, 4, u32::MAX] {
        assert_eq!(refusal(zone, |zone| zone.send(other, 255)), 5);
        assert_eq!(refusal(zone, |zone| zone.take_hand_over(other, 0, true)), 5);
    }
    // A line check meets 6 too, though it is no own event.
    for cars in [0, 255] {
        assert_eq!(refusal(zone, |zone| zone.send(1, cars)), 6);
        assert_eq!(refusal(zone, |zone| zone.take_hand_over(1, cars, true)), 6);
    }
    assert_eq!(refusal(zone, |zone| zone.take_request(0b1000)), 5);
    zone.body.events = 999;
    assert_eq!(refusal(zone, |zone| zone.send(1, 11)), 7);
    zone.body.stock = 65_535;
    assert_eq!(
        refusal(zone, |zone| zone.take_hand_over(1, 1, true)),
        20,
        "a full zone takes no car"
    );
    assert_eq!(zone.take_hand_over(1, 0, false).1.refusal, 0);
    zone.body.stock = 65_535 - 255;
    assert_eq!(zone.take_hand_over(1, 255, false).0.body.stock, 65_535);
    for mark in [Mark::Provisional(KEPT), Mark::Firm(KEPT)] {
        zone.body.mark = mark;
        assert_eq!(refusal(zone, |zone| zone.start()), 11);
    }
    // Requests and starts are no events, so they pass at 1,000 own events.
    zone.body.events = 1_000;
    zone.body.mark = Mark::None;
    assert_eq!(zone.start().1.refusal, 0);
    assert_eq!(zone.take_request(0).1.refusal, 0);
}

#[test]
fn zone_steps_follow_the_rules() {
    for edition in EDITIONS {
        zone_follows_the_rules(Zone::open(edition, 2, 4, 10).1);
    }
}

fn zone_follows_the_rules(zone: Zone) {
    let (sent, answer) = zone.send(1, 10);
    assert_eq!(
        (sent.body.stock, sent.body.events, answer.marked),
        (0, 1, false)
    );

    let (heard, answer) = zone.take_hand_over(3, 5, false);
    assert_eq!(answer.requests, NO_REQUESTS);
    assert_eq!((heard.body.stock, heard.body.heard), (15, 0b0110));
    let (marked, _) = heard.take_hand_over(1, 2, true);
    let saved = Saved {
        stock: 15,
        events: 1,
    };
    assert_eq!(marked.body.mark, Mark::Provisional(saved));
    assert_eq!((marked.body.stock, marked.body.heard), (17, 0b0110));
    assert!(marked.send(1, 1).1.marked);

    // Once marked, the heard set and the mark stay.
    for bit in [false, true] {
        let (next, _) = marked.take_hand_over(4, 1, bit);
        assert_eq!(next.body.heard, marked.body.heard);
        assert_eq!(next.body.mark, marked.body.mark);
        assert_eq!(next.body.events, 3);
    }

    // A request makes the mark firm, and goes on to heard zones outside the received set.
    let (firm, answer) = marked.take_request(0b0001);
    assert_eq!(firm.body.mark, Mark::Firm(saved));
    let requests = Requests {
        to: 0b0100,
        carried: 0b0111,
    };
    assert_eq!(answer.requests, requests);
    let (_, answer) = marked.take_request(0b1100);
    assert_eq!(answer.requests, NO_REQUESTS);
    let (dropped, answer) = firm.take_request(0);
    assert_eq!((dropped, answer.requests), (firm, NO_REQUESTS));
    assert!(firm.send(1, 0).1.marked);

    // An unmarked zone takes a firm mark with the stock of that moment.
    let (firm, _) = heard.take_request(0b1111);
    assert_eq!(firm.body.mark, Mark::Firm(saved));
    let (firm, answer) = heard.start();
    assert_eq!(firm.body.mark, Mark::Firm(saved));
    let requests = Requests {
        to: 0b0100,
        carried: 0b0110,
    };
    assert_eq!(answer.requests, requests);
    assert_eq!(zone.start().1.requests, NO_REQUESTS);

    // A heard set need not have the zone itself; the request carries it as it is.
    let mut odd = zone;
    odd.body.heard = 0b1001;
    let requests = Requests {
        to: 0b1001,
        carried: 0b1001,
    };
    assert_eq!(odd.start().1.requests, requests);
}

/// Zones of an edition with each kind of mark; all have stock 20 and have heard zone 3.
fn marked_zones(edition: u32) -> [Zone; 3] {
    let zone = Zone::open(edition, 2, 3, 19).1;
    let (zone, answer) = zone.take_hand_over(3, 1, false);
    assert_eq!((answer.refusal, zone.body.stock), (0, 20));
    [Mark::None, Mark::Provisional(KEPT), Mark::Firm(KEPT)].map(|mark| {
        let mut zone = zone;
        zone.body.mark = mark;
        zone
    })
}

#[test]
fn a_check_leaves_a_zone_of_a_later_edition_as_it_is() {
    for zone in [2, 3].into_iter().flat_map(marked_zones) {
        let (next, answer) = zone.send(1, 0);
        assert_eq!(next, zone);
        assert_eq!((answer.refusal, answer.requests), (0, NO_REQUESTS));
        assert_eq!(answer.marked, zone.body.mark != Mark::None);
        for bit in [false, true] {
            let (next, answer) = zone.take_hand_over(1, 0, bit);
            assert_eq!(next, zone);
            assert_eq!((answer.refusal, answer.requests), (0, NO_REQUESTS));
            assert!(!answer.marked);
        }
    }
}

#[test]
fn a_check_is_as_any_hand_over_to_a_zone_of_edition_1() {
    for zone in marked_zones(1) {
        let (next, answer) = zone.send(1, 0);
        assert_eq!(next.body.events, 2);
        assert_eq!(answer.marked, zone.body.mark != Mark::None);
        for bit in [false, true] {
            let (next, _) = zone.take_hand_over(1, 0, bit);
            assert_eq!(next.body.events, 2);
            let (mark, heard) = match (zone.body.mark, bit) {
                (Mark::None, false) => (Mark::None, 0b111),
                (Mark::None, true) => {
                    let (stock, events) = (20, 1);
                    (Mark::Provisional(Saved { stock, events }), 0b110)
                }
                (mark, _) => (mark, 0b110),
            };
            assert_eq!((next.body.mark, next.body.heard), (mark, heard));
        }
    }
}

/// In the zone part 6 asks the own events, so checks never run out from edition 2 on.
#[test]
fn the_1_001st_check_of_a_zone() {
    for (edition, refusal) in [(1, 6), (2, 0), (3, 0)] {
        let (mut sender, mut taker) = (
            Zone::open(edition, 1, 2, 0).1,
            Zone::open(edition, 2, 2, 0).1,
        );
        for _ in 0..1_000 {
            let (next, answer) = sender.send(2, 0);
            assert_eq!(answer.refusal, 0);
            sender = next;
            let (next, answer) = taker.take_hand_over(1, 0, false);
            assert_eq!(answer.refusal, 0);
            taker = next;
        }
        assert_eq!(sender.send(2, 0).1.refusal, refusal);
        assert_eq!(taker.take_hand_over(1, 0, true).1.refusal, refusal);
    }
}

/// Random lists of calls: zones of the zone part, kept side by side with lines of the test,
/// follow the site engine step by step.
#[test]
fn the_zone_part_keeps_step_with_the_site() {
    let mut random = Random::new(1);
    for turn in 0..1_200 {
        let edition = EDITIONS[turn % 3];
        let count = random.within(2, 8);
        let opening = stocks(&mut random, count);
        let mut run = opened(edition, &opening);
        let mut zones: Vec<Zone> = (0..count)
            .map(|index| Zone::open(edition, index + 1, count, opening[index as usize]).1)
            .collect();
        drive(&mut random, edition, count, 80, &mut |call| {
            let before = run.clone();
            let number = run.call(call);
            if number != 0 {
                assert!(run == before);
                return number;
            }
            let (index, answer) = match call {
                Call::HandOver { from, to, cars } => {
                    let index = from as usize - 1;
                    let (next, answer) = zones[index].send(to, cars);
                    zones[index] = next;
                    let marked = answer.marked;
                    let item = Item::HandOver { cars, marked };
                    assert_eq!(run.lines[index][to as usize - 1].back(), Some(&item));
                    (index, answer)
                }
                Call::Receipt { from, to } => {
                    let index = to as usize - 1;
                    let item = before.lines[from as usize - 1][index][0];
                    let (next, answer) = match item {
                        Item::HandOver { cars, marked } => {
                            zones[index].take_hand_over(from, cars, marked)
                        }
                        Item::Request { set } => zones[index].take_request(set),
                    };
                    zones[index] = next;
                    (index, answer)
                }
                Call::Start { zone } => {
                    let index = zone as usize - 1;
                    let (next, answer) = zones[index].start();
                    zones[index] = next;
                    (index, answer)
                }
                Call::Gate {
                    direction,
                    zone,
                    cars,
                } => {
                    let index = zone as usize - 1;
                    let (next, answer) = match direction {
                        Direction::In => zones[index].enter(cars),
                        Direction::Out => zones[index].leave(cars),
                    };
                    zones[index] = next;
                    (index, answer)
                }
            };
            assert_eq!(answer.refusal, 0);
            assert_eq!(zones[index].body, run.zones[index]);
            for other in 0..count as usize {
                let line = &run.lines[index][other];
                let old = &before.lines[index][other];
                if answer.requests.to & 1 << other != 0 {
                    let set = answer.requests.carried;
                    assert_eq!(line.back(), Some(&Item::Request { set }));
                    assert_eq!(line.len(), old.len() + 1);
                }
            }
            number
        });
        for (zone, body) in zones.iter().zip(&run.zones) {
            assert_eq!(zone.body, *body);
        }
    }
}

/// Random states, most of them untrue: no call panics, a refusal changes nothing, and an
/// accepted call hands back a sound run.
#[test]
fn no_call_panics_on_random_states() {
    let mut random = Random::new(2);
    let mut accepted = 0;
    for turn in 0..1_800 {
        let edition = EDITIONS[turn % 3];
        let count = random.within(2, 8);
        let mut run = opened(edition, &stocks(&mut random, count));
        run.records = vec![0; random.below(1_003)];
        for body in &mut run.zones {
            body.heard = (random.within(0, 255) & ((1 << count) - 1)) as u8;
            body.events = random.within(0, 3);
            let saved = Saved {
                stock: random.within(0, u32::MAX),
                events: random.within(0, u32::MAX),
            };
            body.mark = match random.below(6) {
                0 => Mark::Provisional(saved),
                1 => Mark::Firm(saved),
                _ => Mark::None,
            };
        }
        for line in run.lines.iter_mut().flatten() {
            if random.chance(40) {
                for _ in 0..random.below(17) {
                    line.push_back(match random.below(3) {
                        0 => Item::Request {
                            set: (random.within(0, 255) & ((1 << count) - 1)) as u8,
                        },
                        _ => Item::HandOver {
                            cars: random.within(0, 9) as u8,
                            marked: random.chance(30),
                        },
                    });
                }
            }
        }
        // Some states are unsound by one more field.
        match random.below(14) {
            0 => run.count = random.within(0, u32::MAX),
            1 => run.zones[0].stock = random.within(0, u32::MAX),
            2 => run.zones[0].events = random.within(0, u32::MAX),
            3 => run.zones[0].heard = random.within(0, 255) as u8,
            4 => run.lines[0][1].extend([Item::Request { set: 255 }; 20]),
            5 => run.edition = random.within(0, u32::MAX),
            6 => run.edition = random.within(0, 4),
            _ => (),
        }
        drive(&mut random, edition, count, 20, &mut |call| {
            let before = run.clone();
            let number = run.call(call);
            if number == 0 {
                accepted += 1;
                assert!(before.sound() && run.sound());
                assert_eq!(run.records.len(), before.records.len() + 1);
            } else {
                assert_eq!(number == 1, !before.sound());
                assert!(run == before);
            }
            number
        });
        let mut lent = [0; MOST_BYTES];
        let (refusal, ..) = recording::write(&run, &mut lent);
        assert_eq!(page::write(&run, &mut lent).0, refusal);
        assert!(refusal == 1 || run.true_run());
    }
    assert!(accepted > 15_000);
}

/// Random lists of calls meet each number of each call, in every edition that gives it, often enough
/// not to be luck, and no other number. Alone 10 comes rarely here: tests above make it.
#[test]
fn random_lists_meet_every_question() {
    let mut random = Random::new(11);
    let mut counts: BTreeMap<(&str, u32, u32), u32> = BTreeMap::new();
    for turn in 0..12_000 {
        let edition = edition(&mut random);
        let zones = random.within(2, 8);
        let mut run = opened(edition, &stocks(&mut random, zones));
        let length = if turn % 60 == 0 { 2_500 } else { 80 };
        drive(&mut random, edition, zones, length, &mut |call| {
            let number = run.call(call);
            let name = match call {
                Call::HandOver { .. } => "hand-over",
                Call::Receipt { .. } => "receipt",
                Call::Start { .. } => "start",
                Call::Gate { direction, .. } => match direction {
                    Direction::In => "entry",
                    Direction::Out => "exit",
                },
            };
            *counts.entry((name, edition, number)).or_insert(0) += 1;
            number
        });
    }
    println!("{counts:?}");
    let mut wanted = Vec::new();
    for edition in EDITIONS {
        let gates: [&[u32]; 2] = match edition {
            3 => [&[0, 5, 6, 21], &[0, 5, 6, 7]],
            _ => [&[15], &[15]],
        };
        wanted.extend(gates[0].iter().map(|&number| ("entry", edition, number)));
        wanted.extend(gates[1].iter().map(|&number| ("exit", edition, number)));
        for (name, numbers) in [
            ("hand-over", [0, 5, 6, 7, 8]),
            ("receipt", [0, 5, 6, 9, 10]),
            ("start", [0, 5, 6, 10, 11]),
        ] {
            wanted.extend(numbers.map(|number| (name, edition, number)));
        }
    }
    wanted.sort();
    assert_eq!(counts.keys().copied().collect::<Vec<_>>(), wanted);
    for (&(name, edition, number), &times) in &counts {
        assert!(
            times >= 100 || number == 10,
            "{name} {number} in edition {edition}: {times}"
        );
    }
}

/// The worked states of question 10's search (docs/RULES.md, "Edges"), in each edition: which zone
/// is named after receipts on the full lines from zone 1, and what a start of zone 1 answers there.
#[test]
fn question_10_names_the_highest_full_line() {
    for edition in EDITIONS {
        let mut full = opened(edition, &[10, 20, 30]);
        for other in [2, 3] {
            assert_eq!(full.hand_over(other, 1, 1), 0);
            assert_eq!(full.receipt(other, 1), 0);
            for _ in 0..PLACES {
                assert_eq!(full.hand_over(1, other, 0), 0);
            }
        }
        let worked: [(&[u32], u32, u32); 4] =
            [(&[], 3, 10), (&[3], 2, 10), (&[2], 3, 10), (&[3, 2], 0, 0)];
        for (received, named, answer) in worked {
            let mut run = full.clone();
            for &zone in received {
                assert_eq!(run.receipt(1, zone), 0);
            }
            assert_eq!(run.highest_full(0, 6), named);
            assert_eq!(run.start(1), answer);
        }
    }
}
