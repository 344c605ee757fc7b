//! A checker of demand 3 (docs/RULES.md, demand 3) by replay in the plain car park.
//!
//! It looks at a run from outside only: the edition, the opening stocks, the calls with their
//! numbers, the recording call's number, bytes and total, and the present stocks and lines. What each
//! accepted receipt takes, which of it is traffic and when a zone is marked is worked out here, by
//! the rules, with sets of zone numbers and none of the site engine's code.

use crate::print::MOST_BYTES;
use crate::recording;
use crate::site::{Call, Direction, Item as RunItem, Run};
use std::collections::{BTreeSet, VecDeque};

/// Numbers of cars, by sender, then receiver, then order sent.
pub type Lines = Vec<Vec<Vec<u8>>>;

/// What is seen of a run from outside.
#[derive(Clone, Debug)]
pub struct Seen {
    pub edition: u32,
    pub opening: Vec<u16>,
    pub calls: Vec<(Call, u32)>,
    /// The number that the recording call answered after the list.
    pub answer: u32,
    /// The bytes that it wrote.
    pub bytes: Vec<u8>,
    /// The recorded total that it answered.
    pub total: u32,
    /// The present stocks and lines, requests and marked bits left out. Line checks stand among the
    /// hand-overs here; the checker reads the lines without them.
    pub stocks: Vec<u64>,
    pub lines: Lines,
}

/// One way in which a run breaks demand 3.
#[derive(Clone, Copy, Debug, PartialEq, Eq, PartialOrd, Ord)]
pub enum Finding {
    /// By the rules an accepted call names a zone off the site, takes from an empty line, starts a
    /// second recording or goes through a gate in an edition without gates.
    Rules,
    /// The recording call answers 0 although the recording is not complete, or the reverse.
    Completion,
    /// The bytes are no recording of this site.
    Bytes,
    /// The park refuses a step inside the recording.
    InsideStep,
    RecordedStocks,
    RecordedLines,
    /// The park refuses a step outside the recording.
    OutsideStep,
    PresentStocks,
    PresentLines,
    /// The total answered is not that of the stocks and lines that the bytes show, or not 0 beside a
    /// refusal.
    Total,
    /// The total answered is not "the opening total plus entries less exits inside the recording".
    Balance,
    /// The recorded zones are not the smallest set.
    Zones,
    /// The events shown for a recorded zone are not those before its start or mark.
    Events,
    /// A zone that is not recorded is not shown with its opening stock and 0 events. This is
    /// docs/RULES.md, section 5; the replays miss it where the zone has no further events.
    Unrecorded,
    /// A line check is shown. This is docs/RULES.md, section 5; demand 3 reads the recorded lines
    /// without checks.
    CheckShown,
}

/// Says whether a hand-over is a line check, which is no event and is left out of every line.
fn is_check(edition: u32, cars: u8) -> bool {
    edition != 1 && cars == 0
}

/// The lines read without checks.
fn without_checks(edition: u32, lines: &Lines) -> Lines {
    let kept = |line: &Vec<u8>| -> Vec<u8> {
        let cars = line.iter().copied();
        cars.filter(|&cars| !is_check(edition, cars)).collect()
    };
    let row = |row: &Vec<Vec<u8>>| row.iter().map(kept).collect();
    lines.iter().map(row).collect()
}

/// An own event of a zone, and its count among that zone's own events.
#[derive(Clone, Copy, Debug)]
pub enum Event {
    Sent {
        from: usize,
        to: usize,
        cars: u8,
        count: u32,
    },
    Received {
        from: usize,
        to: usize,
        count: u32,
    },
    Gate {
        direction: Direction,
        zone: usize,
        cars: u8,
        count: u32,
    },
}

/// What follows from the opening and the accepted calls.
#[derive(Clone, Debug)]
pub struct Account {
    pub events: Vec<Event>,
    /// The index of the starter and the number of its own events before the start.
    pub starter: Option<(usize, u32)>,
    /// The number of own events of each zone before its mark.
    pub marks: Vec<Option<u32>>,
    pub complete: bool,
    /// False when an accepted call is none by the rules.
    pub by_rules: bool,
}

/// An item on a line of the rules: a hand-over with its marked bit, a line check or a request with
/// its set.
enum Item {
    HandOver(bool),
    Check,
    Request(BTreeSet<usize>),
}

/// The rules (docs/RULES.md, section 4) without stocks, questions and full lines.
struct Rules {
    edition: u32,
    heard: Vec<BTreeSet<usize>>,
    firm: Vec<bool>,
    lines: Vec<Vec<VecDeque<Item>>>,
    /// The number of own events of each zone up to now.
    counts: Vec<u32>,
    account: Account,
}

impl Rules {
    fn new(edition: u32, zones: usize) -> Rules {
        Rules {
            edition,
            heard: (0..zones).map(|zone| BTreeSet::from([zone])).collect(),
            firm: vec![false; zones],
            lines: empty_table(zones),
            counts: vec![0; zones],
            account: Account {
                events: Vec::new(),
                starter: None,
                marks: vec![None; zones],
                complete: false,
                by_rules: true,
            },
        }
    }

    /// Gives the index of a zone of the site.
    fn index(&self, zone: u32) -> Option<usize> {
        let index = (zone as usize).checked_sub(1)?;
        (index < self.heard.len()).then_some(index)
    }

    /// Carries out an accepted call, or gives nothing when it is none by the rules.
    fn step(&mut self, call: Call) -> Option<()> {
        match call {
            Call::HandOver { from, to, cars } => {
                let (from, to) = (self.index(from)?, self.index(to)?);
                if from == to {
                    return None;
                }
                self.send(from, to, cars);
            }
            Call::Receipt { from, to } => {
                let (from, to) = (self.index(from)?, self.index(to)?);
                match self.lines[from][to].pop_front()? {
                    Item::HandOver(marked) => self.take(from, to, marked),
                    Item::Check => (),
                    Item::Request(set) => self.request(to, set),
                }
            }
            Call::Start { zone } => {
                let zone = self.index(zone)?;
                if self.account.starter.is_some() {
                    return None;
                }
                self.account.starter = Some((zone, self.counts[zone]));
                self.account.marks[zone] = Some(self.counts[zone]);
                self.firm[zone] = true;
                let set = self.heard[zone].clone();
                self.send_requests(zone, &BTreeSet::new(), &set);
            }
            Call::Gate {
                direction,
                zone,
                cars,
            } => {
                let zone = self.index(zone)?;
                if self.edition < 3 {
                    return None;
                }
                self.gate(direction, zone, cars);
            }
        }
        Some(())
    }

    /// A gate event, "also with 0 cars": by the rules it is counted, and that is all.
    fn gate(&mut self, direction: Direction, zone: usize, cars: u8) {
        self.counts[zone] += 1;
        let count = self.counts[zone];
        self.account.events.push(Event::Gate {
            direction,
            zone,
            cars,
            count,
        });
    }

    fn send(&mut self, from: usize, to: usize, cars: u8) {
        if is_check(self.edition, cars) {
            self.lines[from][to].push_back(Item::Check);
            return;
        }
        self.lines[from][to].push_back(Item::HandOver(self.account.marks[from].is_some()));
        self.counts[from] += 1;
        let count = self.counts[from];
        self.account.events.push(Event::Sent {
            from,
            to,
            cars,
            count,
        });
    }

    fn take(&mut self, from: usize, to: usize, marked: bool) {
        if self.account.marks[to].is_none() {
            if marked {
                self.account.marks[to] = Some(self.counts[to]);
            } else {
                self.heard[to].insert(from);
            }
        }
        self.counts[to] += 1;
        let count = self.counts[to];
        self.account
            .events
            .push(Event::Received { from, to, count });
    }

    fn request(&mut self, zone: usize, received: BTreeSet<usize>) {
        if self.firm[zone] {
            return;
        }
        self.firm[zone] = true;
        if self.account.marks[zone].is_none() {
            self.account.marks[zone] = Some(self.counts[zone]);
        }
        let both = &self.heard[zone] | &received;
        self.send_requests(zone, &received, &both);
    }

    /// Sends a request to each other heard zone that is not among those already asked.
    fn send_requests(&mut self, zone: usize, asked: &BTreeSet<usize>, carried: &BTreeSet<usize>) {
        for &other in &self.heard[zone] {
            if other != zone && !asked.contains(&other) {
                self.lines[zone][other].push_back(Item::Request(carried.clone()));
            }
        }
    }
}

fn empty_table<T: Default>(zones: usize) -> Vec<Vec<T>> {
    (0..zones)
        .map(|_| (0..zones).map(|_| T::default()).collect())
        .collect()
}

/// Applies the rules to the opening and the accepted calls in order.
pub fn account(edition: u32, zones: usize, calls: &[(Call, u32)]) -> Account {
    let mut rules = Rules::new(edition, zones);
    for &(call, answer) in calls {
        if answer == 0 && rules.step(call).is_none() {
            rules.account.by_rules = false;
        }
    }
    let requests = rules
        .lines
        .iter()
        .flatten()
        .flatten()
        .any(|item| matches!(item, Item::Request(_)));
    let mut account = rules.account;
    account.complete = account.starter.is_some() && !requests;
    account
}

/// The plain car park, which has no marks, no requests and no full lines.
#[derive(Clone, Debug, PartialEq, Eq)]
struct Park {
    stocks: Vec<u64>,
    lines: Vec<Vec<VecDeque<u8>>>,
}

impl Park {
    fn open(opening: &[u16]) -> Park {
        Park {
            stocks: opening.iter().map(|&stock| u64::from(stock)).collect(),
            lines: empty_table(opening.len()),
        }
    }

    /// Carries out an event; false when the park refuses it.
    fn step(&mut self, event: Event) -> bool {
        match event {
            Event::Sent { from, to, cars, .. } => {
                if self.stocks[from] < u64::from(cars) {
                    return false;
                }
                self.stocks[from] -= u64::from(cars);
                self.lines[from][to].push_back(cars);
            }
            Event::Received { from, to, .. } => {
                let Some(cars) = self.lines[from][to].pop_front() else {
                    return false;
                };
                self.stocks[to] += u64::from(cars);
            }
            Event::Gate {
                direction,
                zone,
                cars,
                ..
            } => match direction {
                Direction::In => self.stocks[zone] += u64::from(cars),
                Direction::Out if self.stocks[zone] < u64::from(cars) => return false,
                Direction::Out => self.stocks[zone] -= u64::from(cars),
            },
        }
        true
    }

    fn lines(&self) -> Lines {
        self.lines
            .iter()
            .map(|row| {
                row.iter()
                    .map(|line| line.iter().copied().collect())
                    .collect()
            })
            .collect()
    }
}

/// What the bytes of a recording say.
#[derive(Clone, Debug, PartialEq, Eq)]
pub struct Recorded {
    pub firm: Vec<bool>,
    pub events: Vec<u32>,
    pub stocks: Vec<u64>,
    pub lines: Lines,
}

impl Recorded {
    /// The stocks and the cars on lines together.
    pub fn total(&self) -> u64 {
        let cars = self.lines.iter().flatten().flatten();
        self.stocks.iter().sum::<u64>() + cars.map(|&cars| u64::from(cars)).sum::<u64>()
    }
}

/// The cars of the gate events of one direction.
fn through(events: &[Event], wanted: Direction) -> u64 {
    let cars = events.iter().map(|event| match *event {
        Event::Gate {
            direction, cars, ..
        } if direction == wanted => u64::from(cars),
        _ => 0,
    });
    cars.sum()
}

/// Reads the bytes of a recording of an edition and so many zones, or gives nothing for any other
/// bytes.
pub fn parse(edition: u32, zones: usize, bytes: &[u8]) -> Option<Recorded> {
    let word = |place: usize| -> Option<u16> {
        let pair = bytes.get(2 * place..2 * place + 2)?;
        Some(u16::from(pair[0]) * 256 + u16::from(pair[1]))
    };
    let header = word(0)?;
    let items = usize::from(header % 1_024);
    let front = usize::from(header / 1_024);
    if front != 8 * edition as usize + zones - 1 || bytes.len() != 2 + 4 * zones + 2 * items {
        return None;
    }
    let mut recorded = Recorded {
        firm: Vec::new(),
        events: Vec::new(),
        stocks: Vec::new(),
        lines: empty_table(zones),
    };
    for zone in 0..zones {
        let shown = word(1 + 2 * zone)?;
        if shown / 1_024 % 32 != 0 {
            return None;
        }
        recorded.firm.push(shown >= 32_768);
        recorded.events.push(u32::from(shown % 1_024));
        recorded.stocks.push(u64::from(word(2 + 2 * zone)?));
    }
    let mut last = (0, 0);
    for item in 0..items {
        let item = word(1 + 2 * zones + item)?;
        let line = (usize::from(item / 2_048), usize::from(item / 256 % 8));
        if line < last || line.0 >= zones || line.1 >= zones || line.0 == line.1 {
            return None;
        }
        last = line;
        recorded.lines[line.0][line.1].push((item % 256) as u8);
    }
    Some(recorded)
}

/// Checks demand 3, whole, and gives every way in which it is broken.
pub fn check(seen: &Seen) -> Vec<Finding> {
    let zones = seen.opening.len();
    compare(seen, &account(seen.edition, zones, &seen.calls))
}

/// Checks demand 3 against a given account of the accepted calls.
pub fn compare(seen: &Seen, account: &Account) -> Vec<Finding> {
    let mut findings = Vec::new();
    let mut find = |broken: bool, finding: Finding| {
        if broken {
            findings.push(finding);
        }
    };
    find(!account.by_rules, Finding::Rules);
    find(account.complete != (seen.answer == 0), Finding::Completion);
    if seen.answer != 0 {
        find(seen.total != 0, Finding::Total);
        return findings;
    }
    let zones = seen.opening.len();
    let Some(recorded) = parse(seen.edition, zones, &seen.bytes) else {
        find(true, Finding::Bytes);
        return findings;
    };

    let recorded_lines = without_checks(seen.edition, &recorded.lines);
    let present_lines = without_checks(seen.edition, &seen.lines);
    find(recorded_lines != recorded.lines, Finding::CheckShown);

    // Part the events into those inside the recording and the others.
    let (inside, outside): (Vec<Event>, Vec<Event>) =
        account.events.iter().partition(|event| match **event {
            Event::Sent { from, count, .. } => count <= recorded.events[from],
            Event::Received { to, count, .. } => count <= recorded.events[to],
            Event::Gate { zone, count, .. } => count <= recorded.events[zone],
        });

    // Replay the inside ones from the opening, then the others from where that ended.
    let mut park = Park::open(&seen.opening);
    let refused = inside.iter().filter(|&&event| !park.step(event)).count();
    find(refused != 0, Finding::InsideStep);
    find(park.stocks != recorded.stocks, Finding::RecordedStocks);
    find(park.lines() != recorded_lines, Finding::RecordedLines);
    let refused = outside.iter().filter(|&&event| !park.step(event)).count();
    find(refused != 0, Finding::OutsideStep);
    find(park.stocks != seen.stocks, Finding::PresentStocks);
    find(park.lines() != present_lines, Finding::PresentLines);

    // Compare the total with what is shown, and with the opening and the gate events inside.
    let total = u64::from(seen.total);
    find(total != recorded.total(), Finding::Total);
    let opening: u64 = seen.opening.iter().map(|&stock| u64::from(stock)).sum();
    let (entries, exits) = (
        through(&inside, Direction::In),
        through(&inside, Direction::Out),
    );
    find(total + exits != opening + entries, Finding::Balance);

    // Build the smallest set of zones, adding senders until nothing changes.
    let mut smallest = vec![false; zones];
    if let Some((starter, _)) = account.starter {
        smallest[starter] = true;
    }
    loop {
        let before = smallest.clone();
        for event in &inside {
            if let Event::Received { from, to, .. } = *event {
                smallest[from] |= smallest[to];
            }
        }
        if smallest == before {
            break;
        }
    }
    find(recorded.firm != smallest, Finding::Zones);

    // Compare the events shown with those before the start and before each mark.
    let right = |zone: usize| match account.starter {
        Some((starter, before)) if starter == zone => recorded.events[zone] == before,
        _ => account.marks[zone] == Some(recorded.events[zone]),
    };
    let wrong = (0..zones).any(|zone| recorded.firm[zone] && !right(zone));
    find(wrong, Finding::Events);
    let opened = |zone: usize| {
        recorded.events[zone] == 0 && recorded.stocks[zone] == u64::from(seen.opening[zone])
    };
    let wrong = (0..zones).any(|zone| !recorded.firm[zone] && !opened(zone));
    find(wrong, Finding::Unrecorded);
    findings
}

/// What is seen of a run of this implementation after a list of calls.
pub fn look(opening: &[u16], calls: Vec<(Call, u32)>, run: &Run) -> Seen {
    let mut lent = [0; MOST_BYTES];
    let (answer, written, total) = recording::write(run, &mut lent);
    let mut lines: Lines = empty_table(run.size());
    for (a, b) in run.pairs() {
        for item in &run.lines[a][b] {
            if let RunItem::HandOver { cars, .. } = *item {
                lines[a][b].push(cars);
            }
        }
    }
    Seen {
        edition: run.edition,
        opening: opening.to_vec(),
        calls,
        answer,
        bytes: lent[..written].to_vec(),
        total,
        stocks: run.zones[..run.size()]
            .iter()
            .map(|zone| u64::from(zone.stock))
            .collect(),
        lines,
    }
}

/// Checks the bytes and the total of a complete recording that someone else wrote after a list of
/// calls with any arguments. This implementation tells which of the calls are accepted.
pub fn check_bytes(
    edition: u32,
    opening: &[u16],
    calls: &[Call],
    bytes: &[u8],
    total: u32,
) -> Vec<Finding> {
    let (_, mut run) = Run::open(edition, opening.len() as u32, opening);
    let calls = calls.iter().map(|&call| (call, run.call(call))).collect();
    let mut seen = look(opening, calls, &run);
    seen.answer = 0;
    seen.bytes = bytes.to_vec();
    seen.total = total;
    check(&seen)
}
