//! The cases and edges of docs/RULES.md, section 8.

use second::demand3;
use second::edition::EDITIONS;
use second::generate::{bytes_of, case_b, with_edition, CASE_A, CHECKED, GATED, GATES_REFUSED};
use second::journal;
use second::limits;
use second::print;
use second::recording;
use second::site::{Call, Direction, Item, Run};
use second::zone::{Mark, Saved};

/// The recording of a run, lent more than enough bytes.
fn record(run: &Run) -> (u32, Vec<u8>) {
    let mut lent = [0; print::MOST_BYTES];
    let (refusal, written, _) = recording::write(run, &mut lent);
    (refusal, lent[..written].to_vec())
}

/// The recorded total of a run whose recording is complete.
fn total(run: &Run) -> u32 {
    let mut lent = [0; print::MOST_BYTES];
    let (refusal, _, total) = recording::write(run, &mut lent);
    assert_eq!(refusal, 0);
    total
}

#[test]
fn case_a_prints_its_line() {
    let line = "28 01 80 02 00 04 80 01 00 18 00 00 00 1E 02 02\n";
    assert_eq!(print::line(&CASE_A), line);
}

/// Neither case has a hand-over of 0 cars, so in later editions the header alone is another.
#[test]
fn cases_a_and_b_are_the_same_in_later_editions_but_for_the_header() {
    for journal in [CASE_A.to_vec(), bytes_of(&case_b())] {
        for (edition, first) in [(2, "48"), (3, "68")] {
            let line = print::line(&journal).replacen("28", first, 1);
            assert_eq!(print::line(&with_edition(edition, &journal)), line);
        }
    }
}

/// The recording call answers the total in every edition.
#[test]
fn the_totals_of_cases_a_and_b() {
    for (journal, cars) in [(CASE_A.to_vec(), 60), (bytes_of(&case_b()), 30)] {
        for edition in EDITIONS {
            let reading = journal::read(&with_edition(edition, &journal));
            assert_eq!(total(&reading.run), cars);
        }
    }
}

#[test]
fn case_a_comes_from_calls_too() {
    let (_, mut run) = Run::open(1, 3, &[10, 20, 30]);
    assert_eq!(run.hand_over(1, 2, 4), 0);
    assert_eq!(run.receipt(1, 2), 0);
    assert_eq!(run.hand_over(3, 2, 5), 0);
    assert_eq!(run.hand_over(1, 3, 2), 0);
    assert_eq!(record(&run), (12, vec![]));
    assert_eq!(run.start(2), 0);
    assert_eq!(record(&run), (13, vec![]));
    assert_eq!(run.hand_over(2, 3, 7), 0);
    assert_eq!(run.receipt(2, 3), 0);
    assert_eq!(run.receipt(1, 3), 0);
    assert_eq!(run.receipt(2, 1), 0);
    let mark = Mark::Provisional(Saved {
        stock: 30 - 5,
        events: 1,
    });
    assert_eq!(run.zones[2].mark, mark);
    let mut lent = [0xEE; 30];
    assert_eq!(journal::write(&run, &mut lent), (0, 26));
    assert_eq!(lent[..26], CASE_A);
    assert_eq!(lent[26..], [0xEE; 4]);
}

#[test]
fn case_b_turns_zone_3_firm() {
    let run = case_b();
    assert_eq!(run.records.len(), 9);
    let mark = Mark::Firm(Saved {
        stock: 9,
        events: 1,
    });
    assert_eq!(run.zones[2].mark, mark);
    let (refusal, bytes) = record(&run);
    assert_eq!(refusal, 0);
    let recorded = demand3::parse(1, 3, &bytes).unwrap();
    assert_eq!(recorded.firm, [true, true, true]);
    assert_eq!(recorded.events, [1, 2, 1]);
    assert_eq!(recorded.stocks, [11, 10, 9]);
    assert!(recorded.lines.iter().flatten().all(|line| line.is_empty()));
}

#[test]
fn openings_of_1_2_8_and_9_zones() {
    for (count, refusal) in [(1, 2), (2, 0), (8, 0), (9, 2)] {
        for edition in EDITIONS {
            let (answer, run) = Run::open(edition, count, &vec![1; count as usize]);
            assert_eq!(answer, refusal);
            assert_eq!(run.edition, if refusal == 0 { edition } else { 1 });
            assert_eq!(run.count, if refusal == 0 { count } else { 2 });
            assert_eq!(run.opening[0], if refusal == 0 { 1 } else { 0 });
        }
    }
    for edition in EDITIONS {
        assert_eq!(Run::open(edition, 0, &[]).0, 2);
        assert_eq!(Run::open(edition, u32::MAX, &[]).0, 2);
        assert_eq!(Run::open(edition, 2, &[1]).0, 3);
        assert_eq!(Run::open(edition, 2, &[65_535; 3]).0, 3);
        assert_eq!(Run::open(edition, 9, &[65_535; 3]).0, 2);
    }
}

/// No stocks at all: an empty car park, whose journal has a word for each zone. Any other wrong number of
/// stocks is refused, zeros too, and so are 9 zones or an unknown edition without stocks.
#[test]
fn openings_without_stocks() {
    for edition in EDITIONS {
        for count in 2..=8 {
            let (refusal, run) = Run::open(edition, count, &[]);
            assert_eq!(refusal, 0);
            assert_eq!((run.edition, run.count), (edition, count));
            assert!(run.opening == [0; 8] && run.zones.iter().all(|zone| zone.stock == 0));
            let zeros = vec![0; run.size()];
            assert!(run == Run::open(edition, count, &zeros).1);
            let mut lent = [0xEE; 20];
            assert_eq!(journal::write(&run, &mut lent), (0, 2 + 2 * run.size()));
            assert_eq!(u32::from(lent[0]), edition << 5 | (count - 1) << 2);
            assert!(lent[1..2 + 2 * run.size()].iter().all(|&byte| byte == 0));
            for length in (1..=9).filter(|&length| length != run.size()) {
                assert_eq!(Run::open(edition, count, &vec![0; length]).0, 3);
            }
        }
        for count in [0, 1, 9, 256] {
            assert!(Run::open(edition, count, &[]) == (2, Run::refused()));
        }
    }
    for edition in [0, 4, 7, 255] {
        for count in [0, 2, 3, 8, 9] {
            assert!(Run::open(edition, count, &[]) == (15, Run::refused()));
        }
    }
}

/// The worked openings of docs/OPENING.md: edition, zones and stocks; the refusal; the journal.
#[test]
fn worked_openings() {
    let lines = include_str!("../../../docs/OPENING.md").lines();
    let table = lines.skip_while(|line| !line.starts_with("| Opening (edition, zones, stocks)"));
    let rows: Vec<&str> = table.take_while(|line| line.starts_with('|')).collect();
    assert_eq!(rows.len(), 2 + 8);
    for row in &rows[2..] {
        let cells: Vec<&str> = row.split('|').map(str::trim).collect();
        let opening: Vec<&str> = cells[1].split(", ").collect();
        let number = |text: &str| text.parse::<u32>().expect("a number is there");
        let given = opening[2].split(' ').filter(|&stock| stock != "none");
        let stocks: Vec<u16> = given.map(|stock| number(stock) as u16).collect();
        let (refusal, run) = Run::open(number(opening[0]), number(opening[1]), &stocks);
        assert_eq!(refusal, number(cells[2]), "{row}");
        let journal: Vec<String> = bytes_of(&run)
            .iter()
            .map(|byte| format!("{byte:02X}"))
            .collect();
        assert_eq!(journal.join(" "), cells[3].trim_matches('`'), "{row}");
    }
}

/// Question 15 comes before 2, 3 and 4, and what is handed back has edition 1.
#[test]
fn openings_of_every_edition() {
    for (edition, refusal) in [(0, 15), (1, 0), (2, 0), (3, 0), (4, 15), (7, 15), (255, 15)] {
        for (count, stocks) in [(2, &[3, 4][..]), (2, &[65_535; 2]), (2, &[1]), (9, &[1])] {
            let (answer, run) = Run::open(edition, count, stocks);
            if refusal != 0 {
                assert_eq!(answer, refusal);
                assert!(run == Run::refused());
            } else if answer == 0 {
                assert_eq!((run.edition, run.zones[1].stock), (edition, 4));
            } else {
                assert!([2, 3, 4].contains(&answer) && run == Run::refused());
            }
        }
    }
    assert_eq!((Run::refused().edition, Run::refused().count), (1, 2));
}

#[test]
fn stock_sums_65_535_and_65_536() {
    for edition in EDITIONS {
        assert_eq!(Run::open(edition, 2, &[65_534, 1]).0, 0);
        let (refusal, run) = Run::open(edition, 2, &[65_535, 1]);
        assert_eq!(refusal, 4);
        assert!(run.same(&Run::refused()));
        assert_eq!(Run::open(edition, 8, &[65_535; 8]).0, 4);
        let line = |low: u8| print::line(&with_edition(edition, &[4, 0, 0xFF, low, 0, 1]));
        assert_eq!(line(0xFE), "refused 12\n");
        assert_eq!(line(0xFF), "refused 4\n");
    }
}

#[test]
fn the_16th_and_17th_item_on_a_line() {
    // A line check takes a place as any hand-over does.
    for (edition, cars) in [(1, 1), (2, 1), (3, 1), (1, 0), (2, 0), (3, 0)] {
        let (_, mut run) = Run::open(edition, 2, &[84 + 16 * u16::from(cars), 0]);
        for _ in 0..16 {
            assert_eq!(run.hand_over(1, 2, cars), 0);
        }
        let before = run.clone();
        assert_eq!(run.hand_over(1, 2, cars), 8);
        assert!(run.same(&before));
        // Question 7 comes before question 8.
        assert_eq!(run.hand_over(1, 2, 85), 7);
        assert_eq!(run.receipt(1, 2), 0);
        assert_eq!(run.hand_over(1, 2, 84), 0);
        assert_eq!(run.hand_over(1, 2, 0), 8);
    }
}

#[test]
fn record_1_000_and_the_next() {
    // 500 line checks and their receipts use the records up, and are no own events.
    for (edition, events) in [(1, 500), (2, 0), (3, 0)] {
        let (_, mut run) = Run::open(edition, 2, &[1, 0]);
        for _ in 0..500 {
            assert_eq!(run.hand_over(1, 2, 0), 0);
            assert_eq!(run.receipt(1, 2), 0);
        }
        assert_eq!((run.zones[0].events, run.zones[1].events), (events, events));
        full_at_1_000_records(run);
    }
}

fn full_at_1_000_records(mut run: Run) {
    assert_eq!(run.records.len(), 1_000);
    let before = run.clone();
    // Question 6 comes after 5, and before 7, 9 and 11.
    assert_eq!(run.hand_over(1, 2, 255), 6);
    assert_eq!(run.receipt(1, 2), 6);
    assert_eq!(run.start(1), 6);
    assert_eq!(run.hand_over(1, 3, 1), 5);
    assert_eq!(run.start(3), 5);
    // For gates, 15 comes before 5, and 6 before 7.
    let refused = if run.edition == 3 { [5, 6] } else { [15, 15] };
    assert_eq!([run.enter(3, 0), run.enter(1, 0)], refused);
    assert_eq!([run.leave(3, 0), run.leave(1, 255)], refused);
    assert!(run.same(&before));
    let mut lent = [0; 2_006];
    assert_eq!(journal::write(&run, &mut lent), (0, 2_006));
    let reading = journal::read(&lent);
    assert_eq!(reading.refusal, 0);
    assert!(reading.run.same(&run));
    assert_eq!(record(&run), (12, vec![]));
}

#[test]
fn a_start_as_record_1_000_is_recorded() {
    // Zone 1 is firm; all traffic that it sent stands on the line.
    for (edition, events) in [(1, 500), (2, 1), (3, 1)] {
        let (_, mut run) = Run::open(edition, 2, &[1, 0]);
        for _ in 0..499 {
            run.hand_over(1, 2, 0);
            run.receipt(1, 2);
        }
        run.hand_over(1, 2, 1);
        assert_eq!(run.start(1), 0);
        assert_eq!(run.records.len(), 1_000);
        let (refusal, bytes) = record(&run);
        assert_eq!(refusal, 0);
        let recorded = demand3::parse(edition, 2, &bytes).unwrap();
        assert_eq!(recorded.events, [events, 0]);
        assert_eq!(recorded.stocks, [0, 0]);
        let mut line = vec![0; events as usize - 1];
        line.push(1);
        assert_eq!(recorded.lines[0][1], line);
    }
}

#[test]
fn a_start_that_sends_no_request_is_complete() {
    for (edition, first) in [(1, 0x24), (2, 0x44), (3, 0x64)] {
        let (_, mut run) = Run::open(edition, 2, &[3, 4]);
        assert_eq!(run.start(2), 0);
        assert!(!run.holds_request());
        let bytes = vec![first, 0x00, 0x00, 0x00, 0x00, 0x03, 0x80, 0x00, 0x00, 0x04];
        assert_eq!(record(&run), (0, bytes));
        assert_eq!(run.start(1), 11);
    }
}

/// A run of 3 zones in which zone 1 has a firm mark and sent a marked hand-over of 0 cars to zone
/// 2, and zone 3 an unmarked one.
fn two_checks(edition: u32) -> Run {
    let (_, mut run) = Run::open(edition, 3, &[10, 20, 30]);
    assert_eq!(run.start(1), 0);
    assert_eq!(run.hand_over(1, 2, 0), 0);
    assert_eq!(run.hand_over(3, 2, 0), 0);
    run
}

#[test]
fn a_check_is_sent_with_its_marked_bit_and_counts_in_edition_1_alone() {
    for (edition, events) in [(1, 1), (2, 0), (3, 0)] {
        let run = two_checks(edition);
        for (from, marked) in [(1, true), (3, false)] {
            let item = Item::HandOver { cars: 0, marked };
            assert_eq!(run.lines[from - 1][1], [item]);
            assert_eq!(run.zones[from - 1].events, events);
        }
        assert_eq!(run.records, [0x8000, 0x0100, 0x1100]);
    }
}

#[test]
fn a_check_that_is_taken_is_heard_and_marks_in_edition_1_alone() {
    for (from, marked) in [(1, true), (3, false)] {
        for edition in [2, 3] {
            let before = two_checks(edition);
            let mut run = before.clone();
            assert_eq!(run.receipt(from, 2), 0);
            assert_eq!(run.zones, before.zones, "from edition 2 on no zone changes");
            assert_eq!(run.records.len(), before.records.len() + 1);
        }

        let mut run = two_checks(1);
        let (heard, saved) = (run.zones[1].heard, now(&run, 1));
        assert_eq!(run.receipt(from, 2), 0);
        assert_eq!(run.zones[1].events, 1);
        if marked {
            assert_eq!(run.zones[1].mark, Mark::Provisional(saved));
            assert_eq!(run.zones[1].heard, heard);
        } else {
            assert_eq!(run.zones[1].mark, Mark::None);
            assert_eq!(run.zones[1].heard, heard | 1 << (from - 1));
        }
    }
}

/// What a mark would keep of the zone at an index.
fn now(run: &Run, index: usize) -> Saved {
    Saved {
        stock: run.zones[index].stock,
        events: run.zones[index].events,
    }
}

#[test]
fn a_check_on_its_line_or_taken_later_is_shown_in_edition_1_alone() {
    for (edition, items) in [(1, 2), (2, 1), (3, 1)] {
        let (_, mut run) = Run::open(edition, 2, &[10, 20]);
        run.hand_over(1, 2, 0);
        run.hand_over(1, 2, 7);
        run.start(1);
        run.hand_over(1, 2, 0);
        for _ in 0..3 {
            let (refusal, bytes) = record(&run);
            assert_eq!((refusal, usize::from(bytes[1])), (0, items));
            assert_eq!(bytes[bytes.len() - 2..], [0x01, 0x07]);
            assert_eq!(run.receipt(1, 2), 0);
        }
    }
}

#[test]
fn the_worked_journals_with_line_checks() {
    let lines = [
        [
            "refused 13",
            "44 00 00 00 00 05 80 00 00 07",
            "64 00 00 00 00 05 80 00 00 07",
        ],
        [
            "24 01 80 01 00 05 00 00 00 07 01 00",
            "44 00 80 00 00 05 00 00 00 07",
            "64 00 80 00 00 05 00 00 00 07",
        ],
        [
            "refused 19",
            "48 00 80 01 00 0E 80 02 00 15 80 01 00 19",
            "68 00 80 01 00 0E 80 02 00 15 80 01 00 19",
        ],
        ["refused 19"; 3],
    ];
    for (journal, lines) in CHECKED.iter().zip(lines) {
        for (edition, line) in EDITIONS.iter().zip(lines) {
            let journal = with_edition(*edition, journal);
            assert_eq!(print::line(&journal), format!("{line}\n"));
        }
    }
    let position = |edition: u32, journal: &[u8]| {
        let reading = journal::read(&with_edition(edition, journal));
        assert!(reading.refusal == 19 && reading.run == Run::refused());
        reading.position
    };
    // The marked check had marked zone 3; the 17th check finds its line full.
    assert_eq!(position(1, CHECKED[2]), 8);
    assert_eq!(
        EDITIONS.map(|edition| position(edition, CHECKED[3])),
        [16; 3]
    );
}

#[test]
fn the_worked_journals_with_gates() {
    let lines = [
        ("64 00 00 00 FF FF 80 01 00 FF", 65_790),
        ("68 00 80 03 00 08 80 02 00 0F 00 00 00 1E", 53),
        ("64 00 80 02 00 05 00 00 00 07", 12),
    ];
    for (journal, (line, cars)) in GATED.iter().zip(lines) {
        assert_eq!(print::line(journal), format!("{line}\n"));
        let reading = journal::read(journal);
        assert_eq!((reading.refusal, total(&reading.run)), (0, cars));
        // Without gates the first of these records is refused.
        for edition in [1, 2] {
            let reading = journal::read(&with_edition(edition, journal));
            assert_eq!((reading.refusal, reading.position), (18, 0));
        }
    }
    for (journal, refusal, position) in GATES_REFUSED {
        let reading = journal::read(journal);
        assert_eq!((reading.refusal, reading.position), (refusal, position));
        assert!(reading.run == Run::refused());
        assert_eq!(print::line(journal), format!("refused {refusal}\n"));
    }
    // Each direction but 0 and 1, with a zone of the site, with a wrong one and in every edition.
    for edition in EDITIONS {
        for direction in 2..8 {
            for zone in 0..8 {
                let journal = [4, 1, 0, 5, 0, 7, 0xC0 | zone << 3 | direction, 0];
                let reading = journal::read(&with_edition(edition, &journal));
                assert_eq!((reading.refusal, reading.position), (18, 0));
            }
        }
    }
}

/// The first of these journals, from calls: the total may be above 65,535, though no moment had so
/// many cars.
#[test]
fn a_total_above_65_535_comes_from_calls_too() {
    let (_, mut run) = Run::open(3, 2, &[65_535, 0]);
    assert_eq!(run.enter(2, 1), 21);
    assert_eq!(run.leave(1, 255), 0);
    assert_eq!(run.enter(2, 255), 0);
    assert_eq!((run.enter(2, 1), run.enter(2, 0)), (21, 0));
    assert_eq!(run.start(2), 0);
    assert_eq!(total(&run), 65_790);
    // Zone 1 has let all of its cars out, and zone 2 as many in: 17 bits.
    let mut run = limits::doubled();
    assert_eq!((run.leave(1, 1), run.enter(2, 1)), (7, 21));
    assert_eq!(total(&run), 2 * 65_535);
}

/// Each gate call is an own event, also with 0 cars, and nothing else changes but the stock.
#[test]
fn gates_change_the_stock_and_are_counted() {
    for marked in [false, true] {
        for cars in [0, 1, 10] {
            for direction in [Direction::In, Direction::Out] {
                let mut run = two_checks(3);
                let zone = if marked { 1 } else { 3 };
                let before = run.clone();
                let call = Call::Gate {
                    direction,
                    zone,
                    cars,
                };
                assert_eq!(run.call(call), 0);
                let mut expected = before.clone();
                let body = &mut expected.zones[zone as usize - 1];
                body.events += 1;
                match direction {
                    Direction::In => body.stock += u32::from(cars),
                    Direction::Out => body.stock -= u32::from(cars),
                }
                expected.records.push(journal::encode(call));
                assert!(run == expected);
                assert!(run.true_run());
            }
        }
    }
}

/// Entries up to 65,535 with the cars on lines, and one more; exits of the stock, and one more.
#[test]
fn gates_up_to_their_limits() {
    for (on_line, room) in [(0, 255), (1, 254), (100, 155), (255, 0)] {
        let (_, mut run) = Run::open(3, 2, &[65_535 - room, 0]);
        assert_eq!(run.hand_over(1, 2, on_line), 0);
        let before = run.clone();
        if room < 255 {
            assert_eq!(run.enter(2, room as u8 + 1), 21);
            assert_eq!(run.enter(1, 255), 21);
            assert!(run == before);
        }
        assert_eq!(run.enter(2, room as u8), 0);
        assert_eq!(run.zones[1].stock, u32::from(room));
        assert_eq!((run.enter(1, 1), run.enter(2, 1)), (21, 21));
        assert_eq!((run.enter(1, 0), run.enter(2, 0)), (0, 0));
        // The cars that arrive make no room; those that drive out do.
        assert_eq!((run.receipt(1, 2), run.enter(1, 1)), (0, 21));
        assert_eq!((run.leave(1, 3), run.enter(2, 3)), (0, 0));
        assert_eq!(run.enter(2, 1), 21);
        assert!(run.sound());
    }
    for stock in [0, 1, 100, 254] {
        let (_, mut run) = Run::open(3, 2, &[stock, 255]);
        let cars = stock as u8;
        assert_eq!(run.leave(1, cars + 1), 7);
        assert_eq!((run.leave(1, cars), run.zones[0].stock), (0, 0));
        assert_eq!((run.leave(1, 1), run.leave(1, 0)), (7, 0));
        assert_eq!((run.leave(2, 255), run.leave(2, 255)), (0, 7));
    }
}

/// Gates before a mark are inside the recording, and after it outside; a zone that is not recorded
/// is shown as it opened, whatever went through its gate.
#[test]
fn gates_before_and_after_a_mark() {
    let (_, mut run) = Run::open(3, 3, &[10, 20, 30]);
    assert_eq!(
        (run.enter(1, 5), run.leave(2, 7), run.enter(3, 9)),
        (0, 0, 0)
    );
    assert_eq!((run.hand_over(2, 1, 1), run.receipt(2, 1)), (0, 0));
    assert_eq!(run.start(1), 0);
    // Zone 1 is marked, zone 2 not yet.
    assert_eq!((run.enter(1, 50), run.enter(2, 60)), (0, 0));
    assert_eq!(record(&run), (13, vec![]));
    assert_eq!(run.receipt(1, 2), 0);
    assert_eq!(
        (run.leave(1, 4), run.leave(2, 4), run.leave(3, 4)),
        (0, 0, 0)
    );
    let (refusal, bytes) = record(&run);
    assert_eq!(refusal, 0);
    let recorded = demand3::parse(3, 3, &bytes).unwrap();
    assert_eq!(recorded.firm, [true, true, false]);
    assert_eq!(recorded.events, [2, 3, 0]);
    assert_eq!(recorded.stocks, [16, 72, 30]);
    assert_eq!(total(&run), 60 + 5 - 7 + 60);
}

#[test]
fn the_printed_text() {
    assert_eq!(print::digits(&[]), "\n");
    assert_eq!(print::digits(&[0]), "00\n");
    assert_eq!(print::digits(&[0xAB, 0x01]), "AB 01\n");
    assert_eq!(print::line(&[]), "refused 15\n");
    assert_eq!(print::line(&[0x28]), "refused 15\n");
}

#[test]
fn record_words() {
    let calls = [
        (
            0x0104,
            Call::HandOver {
                from: 1,
                to: 2,
                cars: 4,
            },
        ),
        (0x4A00, Call::Receipt { from: 2, to: 3 }),
        (0x8800, Call::Start { zone: 2 }),
    ];
    for (word, call) in calls {
        assert_eq!(journal::encode(call), word);
        for edition in EDITIONS {
            assert_eq!(journal::decode(edition, word), Some(call));
        }
    }
    // The zone of a gate record is less one as ever, the direction is not.
    for (word, direction) in [(0xD803, Direction::In), (0xD903, Direction::Out)] {
        let call = Call::Gate {
            direction,
            zone: 4,
            cars: 3,
        };
        assert_eq!(journal::encode(call), word);
        let decoded = EDITIONS.map(|edition| journal::decode(edition, word));
        assert_eq!(decoded, [None, None, Some(call)]);
    }
    // A well formed word is the word of its call, and the others are those of question 18.
    for edition in EDITIONS {
        for word in 0..=u16::MAX {
            let well_formed = match word >> 14 {
                0 => true,
                1 => word & 0x00FF == 0,
                2 => word & 0x07FF == 0,
                _ => edition == 3 && word & 0x0600 == 0,
            };
            let call = journal::decode(edition, word);
            assert_eq!(call.is_some(), well_formed);
            if let Some(call) = call {
                assert_eq!(journal::encode(call), word);
            }
        }
    }
}
