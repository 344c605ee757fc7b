//! Runs at the limits of what a journal, a recording or a page holds.

use crate::random::{finish, Random};
use crate::site::{Run, MOST_RECORDS, PLACES};

/// Traffic round a ring of 8 zones up to a number of records.
fn ring(run: &mut Run, records: usize) {
    let mut from = 1;
    while run.records.len() + 1 < records {
        let to = from % 8 + 1;
        assert_eq!(run.hand_over(from, to, 1), 0);
        assert_eq!(run.receipt(from, to), 0);
        from = to;
    }
    if run.records.len() < records {
        assert_eq!(run.hand_over(1, 2, 1), 0);
    }
}

/// A run of 8 zones and 1,000 accepted records with a complete recording.
pub fn longest() -> Run {
    let (_, mut run) = Run::open(1, 8, &[1_000; 8]);
    ring(&mut run, 500);
    assert_eq!(run.start(1), 0);
    finish(&mut Random::new(1), &mut run);
    ring(&mut run, MOST_RECORDS);
    run
}

/// A run of 8 zones and 1,000 accepted records, all but one of them gate calls: zone 8 has 999 own
/// events, which its start shows.
pub fn gates() -> Run {
    let (_, mut run) = Run::open(3, 8, &[1_000; 8]);
    while run.records.len() + 1 < MOST_RECORDS {
        let cars = (run.records.len() % 256) as u8;
        let refusal = match run.records.len() % 3 {
            0 => run.leave(8, cars),
            _ => run.enter(8, cars / 2),
        };
        assert_eq!(refusal, 0);
    }
    assert_eq!(run.start(8), 0);
    assert_eq!(run.zones[7].events, 999);
    run
}

/// A run of 8 zones and 1,000 accepted records whose recording has 881 items on 49 lines: zone 1
/// has heard all others and starts; these fill their lines before they take its requests, and zone
/// 1 takes some items after its mark. From edition 2 on the 49 of 0 cars are line checks and not
/// shown.
///
/// No recording has items on more lines. On the line by which a zone's mark came nothing is
/// recorded: what was sent there before its sender's mark was taken before it. There is such a line
/// to each firm zone but the starter, and a zone that is not firm shows no line from it.
pub fn widest(edition: u32) -> Run {
    let (_, mut run) = Run::open(edition, 8, &[8_000; 8]);
    for zone in 2..=8 {
        assert_eq!(run.hand_over(zone, 1, 1), 0);
        assert_eq!(run.receipt(zone, 1), 0);
    }
    assert_eq!(run.start(1), 0);
    for from in 2..=8 {
        for to in (1..=8).filter(|&to| to != from) {
            for cars in 0..PLACES as u8 {
                assert_eq!(run.hand_over(from, to, cars), 0);
            }
        }
    }
    for more in 0..97 {
        let from = 2 + more % 7;
        assert_eq!(run.receipt(from, 1), 0);
        assert_eq!(run.hand_over(from, 1, 255), 0);
    }
    for to in 2..=8 {
        assert_eq!(run.receipt(1, to), 0);
    }
    assert_eq!(run.records.len(), MOST_RECORDS);
    run
}

/// A run whose recorded total is twice 65,535: zone 1, which is not recorded, lets all of its cars
/// out, and zone 2 as many in before it starts.
pub fn doubled() -> Run {
    let (_, mut run) = Run::open(3, 2, &[65_535, 0]);
    for _ in 0..257 {
        assert_eq!((run.leave(1, 255), run.enter(2, 255)), (0, 0));
    }
    assert_eq!(run.start(2), 0);
    run
}

/// A run with more than 65,535 cars on one recorded line: zone 1 has heard zone 2 and starts, takes
/// what zone 2 sends and lets it out, and as much drives in at zone 2 again before it takes the
/// request.
pub fn heaviest() -> Run {
    let (_, mut run) = Run::open(3, 2, &[0, 65_535]);
    assert_eq!((run.hand_over(2, 1, 1), run.receipt(2, 1)), (0, 0));
    assert_eq!(run.start(1), 0);
    while run.records.len() + 5 <= MOST_RECORDS {
        if run.zones[1].stock < 255 {
            assert_eq!((run.leave(1, 255), run.enter(2, 255)), (0, 0));
        }
        assert_eq!((run.hand_over(2, 1, 255), run.receipt(2, 1)), (0, 0));
    }
    assert_eq!(run.receipt(1, 2), 0);
    run
}

/// A run like that with any number of zones, and with any mix of hand-overs and gate calls: many
/// have more than 65,535 cars on the recorded line, or a recorded total of six digits.
pub fn high(random: &mut Random) -> Run {
    let zones = random.within(2, 8);
    let starter = random.within(1, zones);
    let sender = starter % zones + 1;
    let mut stocks = vec![0; zones as usize];
    stocks[sender as usize - 1] = 65_535;
    let (_, mut run) = Run::open(3, zones, &stocks);
    run.hand_over(sender, starter, 1);
    run.receipt(sender, starter);
    run.start(starter);
    let gates = random.within(15, 50);
    while run.records.len() + 4 <= MOST_RECORDS {
        let cars = random.within(200, 255) as u8;
        if random.chance(gates) && run.leave(starter, cars) == 0 {
            run.enter(sender, cars);
        } else {
            run.hand_over(sender, starter, cars);
            run.receipt(sender, starter);
        }
    }
    finish(random, &mut run);
    run
}
