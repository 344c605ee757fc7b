//! How many items remain on the line of a receipt, and what the reader tells of the last one.

use second::edition::EDITIONS;
use second::generate::{bytes_of, with_edition, WAITING, WAITING_REFUSED};
use second::journal;
use second::random::{drive, edition, stocks, Random};
use second::site::{Answer, Call, Direction, Item, Run, MOST_RECORDS, PLACES};

fn opened(edition: u32, stocks: &[u16]) -> Run {
    let (refusal, run) = Run::open(edition, stocks.len() as u32, stocks);
    assert_eq!(refusal, 0);
    run
}

fn receipt(from: u32, to: u32) -> Call {
    Call::Receipt { from, to }
}

/// Makes a receipt that is accepted and gives how many items remain.
fn left(run: &mut Run, from: u32, to: u32) -> usize {
    let answer = run.answer(receipt(from, to));
    assert_eq!(answer.refusal, 0);
    answer.remaining
}

/// Hands over one car so many times.
fn send(run: &mut Run, from: u32, to: u32, times: usize) {
    for _ in 0..times {
        assert_eq!(run.hand_over(from, to, 1), 0);
    }
}

/// What reading the journal of a run answers of the items that remain.
fn read(run: &Run) -> usize {
    let reading = journal::read(&bytes_of(run));
    assert_eq!(reading.refusal, 0);
    reading.remaining
}

fn refused(refusal: u32) -> Answer {
    Answer {
        refusal,
        remaining: 0,
    }
}

/// Zone 1 has heard zone 2 and started, so that its request stands first on its line to zone 2.
fn asked(edition: u32) -> Run {
    let mut run = opened(edition, &[9, 9, 9]);
    send(&mut run, 2, 1, 1);
    assert_eq!(left(&mut run, 2, 1), 0);
    assert_eq!(run.start(1), 0);
    run
}

#[test]
fn worked_journals() {
    for edition in EDITIONS {
        for (journal, remaining) in WAITING {
            let reading = journal::read(&with_edition(edition, journal));
            assert_eq!((reading.refusal, reading.remaining), (0, remaining));
        }
        let reading = journal::read(&with_edition(edition, &WAITING_REFUSED));
        assert_eq!((reading.refusal, reading.position), (18, 3));
        assert_eq!(reading.remaining, 0);
    }
    let two = journal::read(&with_edition(1, WAITING[1].0)).run;
    assert_eq!(two.lines[0][1].len(), 2);
    let request = journal::read(&with_edition(1, WAITING[2].0)).run;
    assert_eq!(request.lines[0][1], [Item::Request { set: 3 }]);
}

#[test]
fn a_full_line_is_emptied() {
    for edition in EDITIONS {
        let mut run = opened(edition, &[99, 9]);
        send(&mut run, 1, 2, PLACES);
        for remaining in (0..PLACES).rev() {
            assert_eq!(left(&mut run, 1, 2), remaining);
            assert_eq!(read(&run), remaining);
        }
    }
}

/// Line checks are items too.
#[test]
fn checks_are_counted() {
    for edition in EDITIONS {
        let mut run = opened(edition, &[9, 9]);
        for cars in [0, 3, 0] {
            assert_eq!(run.hand_over(1, 2, cars), 0);
        }
        assert_eq!(left(&mut run, 1, 2), 2);
        assert_eq!(left(&mut run, 1, 2), 1);
        assert_eq!(left(&mut run, 1, 2), 0);
    }
}

#[test]
fn a_request_is_taken_with_a_hand_over_behind_it() {
    for edition in EDITIONS {
        let mut run = asked(edition);
        send(&mut run, 1, 2, 1);
        assert_eq!(left(&mut run, 1, 2), 1);
        assert!(matches!(run.lines[0][1][0], Item::HandOver { .. }));
        assert_eq!(read(&run), 1);
        assert_eq!(left(&mut run, 1, 2), 0);
    }
}

/// The requests that a receipt sends are on the lines from its receiver.
#[test]
fn requests_that_are_sent_on_are_not_counted() {
    for edition in EDITIONS {
        let mut run = opened(edition, &[9, 9, 9]);
        for (from, to) in [(3, 2), (2, 1)] {
            send(&mut run, from, to, 1);
            assert_eq!(left(&mut run, from, to), 0);
        }
        assert_eq!(run.start(1), 0);
        send(&mut run, 1, 2, 2);
        send(&mut run, 2, 3, 4);
        send(&mut run, 2, 1, 5);
        assert_eq!(left(&mut run, 1, 2), 2);
        assert_eq!(run.lines[1][2].len(), 5);
        assert_eq!(left(&mut run, 2, 3), 4);
    }
}

#[test]
fn refused_receipts_answer_0() {
    for edition in EDITIONS {
        let mut run = asked(edition);
        send(&mut run, 1, 2, 3);
        for (from, to) in [(0, 2), (1, 4), (2, 2)] {
            assert_eq!(run.answer(receipt(from, to)), refused(5));
        }
        assert_eq!(run.answer(receipt(2, 1)), refused(9));
        let mut unsound = run.clone();
        unsound.zones[0].events = 900;
        assert_eq!(unsound.answer(receipt(1, 2)), refused(1));
        run.records.resize(MOST_RECORDS, 0);
        assert_eq!(run.answer(receipt(1, 2)), refused(6));
    }
}

/// A receipt that must send a request over a full line, with hand-overs behind what it would take.
#[test]
fn a_receipt_refused_with_10_answers_0() {
    for edition in EDITIONS {
        let mut run = opened(edition, &[9, 99, 9]);
        for (from, to) in [(3, 2), (2, 1)] {
            send(&mut run, from, to, 1);
            assert_eq!(left(&mut run, from, to), 0);
        }
        assert_eq!(run.start(1), 0);
        send(&mut run, 1, 2, 2);
        send(&mut run, 2, 3, PLACES);
        assert_eq!(run.answer(receipt(1, 2)), refused(10));
        assert_eq!(left(&mut run, 2, 3), PLACES - 1);
        assert_eq!(left(&mut run, 1, 2), 2);
    }
}

/// Accepted and refused, with items on every line.
#[test]
fn calls_that_are_no_receipt_answer_0() {
    for edition in EDITIONS {
        let mut run = opened(edition, &[99, 99]);
        send(&mut run, 1, 2, 7);
        send(&mut run, 2, 1, 7);
        let gate = |direction, zone| Call::Gate {
            direction,
            zone,
            cars: 3,
        };
        let hand_over = |cars| Call::HandOver {
            from: 1,
            to: 2,
            cars,
        };
        let gates = if edition == 3 { 0 } else { 15 };
        for (call, refusal) in [
            (hand_over(5), 0),
            (hand_over(255), 7),
            (gate(Direction::In, 1), gates),
            (gate(Direction::Out, 2), gates),
            (Call::Start { zone: 2 }, 0),
            (Call::Start { zone: 1 }, 11),
        ] {
            assert_eq!(run.answer(call), refused(refusal));
        }
        assert_eq!(left(&mut run, 1, 2), 7);
    }
}

#[test]
fn a_journal_without_a_receipt_gives_0() {
    for edition in EDITIONS {
        let mut run = opened(edition, &[9, 9]);
        assert_eq!(read(&run), 0);
        send(&mut run, 1, 2, 3);
        assert_eq!(run.start(1), 0);
        assert_eq!(read(&run), 0);
    }
}

/// The reader gives the last number, whichever line it is of: not the highest, nor the last above 0,
/// and nothing that is no receipt changes it.
#[test]
fn the_last_receipt_counts() {
    for edition in EDITIONS {
        let mut run = opened(edition, &[9, 9, 9]);
        send(&mut run, 1, 2, 5);
        send(&mut run, 3, 1, 3);
        send(&mut run, 2, 3, 1);
        assert_eq!((left(&mut run, 1, 2), read(&run)), (4, 4));
        assert_eq!((left(&mut run, 3, 1), read(&run)), (2, 2));
        send(&mut run, 3, 1, 2);
        assert_eq!((run.start(3), read(&run)), (0, 2));
        assert_eq!((left(&mut run, 2, 3), read(&run)), (0, 0));
        assert_eq!((left(&mut run, 1, 2), read(&run)), (3, 3));
        if edition == 3 {
            assert_eq!((run.enter(2, 0), read(&run)), (0, 3));
        }
    }
}

/// Each accepted receipt of random lists leaves one item fewer than stood on its line, every other call
/// answers 0, and the journal gives the number of the last receipt.
#[test]
fn random_lists() {
    let mut random = Random::new(24);
    for _ in 0..300 {
        let (edition, zones) = (edition(&mut random), random.within(2, 8));
        let mut run = opened(edition, &stocks(&mut random, zones));
        let mut last = 0;
        drive(&mut random, edition, zones, 150, &mut |call| {
            let before = run.lines.clone();
            let Answer { refusal, remaining } = run.answer(call);
            match call {
                Call::Receipt { from, to } if refusal == 0 => {
                    let stood = before[from as usize - 1][to as usize - 1].len();
                    assert_eq!(remaining, stood - 1);
                    last = remaining;
                }
                _ => assert_eq!(remaining, 0),
            }
            refusal
        });
        assert_eq!(read(&run), last);
    }
}
