//! Writes states of the lines to one file and what the search for a full line names in each to
//! another: the few that are stored, or one for every sender, set and choice of full lines.

use second::random::Random;
use second::site::{highest_full, Run, PLACES};
use second::zone::only;

const SEED: u64 = 2_026;

/// The numbers of items on all lines, by sender, then receiver; the index of the zone that sends,
/// and the set of those that it must send to.
struct Search {
    items: [[u8; 8]; 8],
    from: u8,
    set: u8,
}

impl Search {
    fn bytes(&self) -> Vec<u8> {
        let mut bytes = self.items.concat();
        bytes.extend([self.from, self.set]);
        bytes
    }

    fn answer(&self) -> u32 {
        let row = self.items[usize::from(self.from)];
        highest_full(row.map(usize::from), self.set)
    }
}

fn main() {
    let arguments: Vec<String> = std::env::args().collect();
    let [_, which, states, answers] = &arguments[..] else {
        usage()
    };
    let searches = match which.as_str() {
        "stored" => stored(),
        "every" => every(),
        _ => usage(),
    };
    let bytes: Vec<u8> = searches.iter().flat_map(Search::bytes).collect();
    let lines: String = searches
        .iter()
        .map(|s| format!("{}\n", s.answer()))
        .collect();
    std::fs::write(states, bytes).expect("the states can be written");
    std::fs::write(answers, lines).expect("the answers can be written");
    println!("searches, {which}: {}", searches.len());
}

fn usage() -> ! {
    eprintln!("usage: searches stored|every STATES-FILE ANSWERS-FILE");
    std::process::exit(2);
}

/// The search that a start of zone 1 of a run makes: among the others that it has heard.
fn search(run: &Run) -> Search {
    let items = run
        .lines
        .each_ref()
        .map(|row| row.each_ref().map(|line| line.len() as u8));
    Search {
        items,
        from: 0,
        set: run.zones[0].heard & !only(1),
    }
}

/// Zone 1 of three has heard both others, and its lines to them are full: as they are, after a
/// receipt on one, on the other, on both. Then zone 8 with all lines full, with each set of one
/// zone, with all and with none.
fn stored() -> Vec<Search> {
    let (_, mut full) = Run::open(1, 3, &[10, 20, 30]);
    for other in [2, 3] {
        assert_eq!(full.hand_over(other, 1, 0), 0);
        assert_eq!(full.receipt(other, 1), 0);
        for _ in 0..PLACES {
            assert_eq!(full.hand_over(1, other, 0), 0);
        }
    }
    let mut searches = Vec::new();
    for received in [&[][..], &[3], &[2], &[2, 3]] {
        let mut run = full.clone();
        for &zone in received {
            assert_eq!(run.receipt(1, zone), 0);
        }
        searches.push(search(&run));
    }
    let sets = (0..8).map(|index| 1 << index).chain([255, 0]);
    let items = [[PLACES as u8; 8]; 8];
    searches.extend(sets.map(|set| Search {
        items,
        from: 7,
        set,
    }));
    searches
}

/// For each sender, set and choice of full lines: full ones have 16 items or more, others fewer, and
/// the lines of other zones any number.
fn every() -> Vec<Search> {
    let mut random = Random::new(SEED);
    let mut searches = Vec::new();
    for from in 0..8 {
        for set in 0..=255 {
            for full in 0..=255 {
                let items = lines(&mut random, from, full);
                let from = from as u8;
                searches.push(Search { items, from, set });
            }
        }
    }
    searches
}

/// Lines of which those from a zone are full to the zones of a set alone.
fn lines(random: &mut Random, from: usize, full: u8) -> [[u8; 8]; 8] {
    let mut items = [[0; 8]; 8].map(|row| row.map(|_: u8| random.below(256) as u8));
    for (to, length) in items[from].iter_mut().enumerate() {
        *length = match full >> to & 1 {
            1 if random.chance(50) => PLACES as u8,
            1 => random.within(16, 255) as u8,
            _ if random.chance(50) => PLACES as u8 - 1,
            _ => random.within(0, 15) as u8,
        };
    }
    items
}
