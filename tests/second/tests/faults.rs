//! The faults that a fitter would commit, each switched on in a small engine of this file.
//!
//! The checker of demand 3 has to find every one of them that it can see; the others show in the
//! numbers of the calls, in the journal or on the page. The engine without a fault has to agree
//! with the site engine. The faults of a converter are in a small converter, at the end.

use second::archive;
use second::conversion::{convert, Conversion, Converted, CONVERSIONS};
use second::demand3::{check, compare, look, Account, Event, Finding, Lines, Seen};
use second::edition::{is_known, EDITIONS};
use second::generate::{bytes_of, edition_of, journal_of, with_edition, KINDS};
use second::journal::{self, Reading};
use second::page;
use second::random::{drive, stocks, Random};
use second::site::{self, Call, Direction, Run};
use std::collections::{BTreeMap, BTreeSet, VecDeque};

#[derive(Clone, Copy, Debug, PartialEq, Eq)]
enum Fault {
    None,
    /// The stock at the request is recorded, although a provisional mark stood.
    StockAtRequest,
    /// The same, with the number of own events at the request beside it.
    StockAndEventsAtRequest,
    /// Every sender joins the heard set after a provisional mark.
    HearsAfterMark,
    /// The same, for hand-overs with marked bit 0 alone.
    HearsUnmarkedAfterMark,
    /// A marked hand-over is received first, and the mark is taken second.
    MarksSecond,
    /// Requests carry only the zone's own heard set.
    OwnSetOnly,
    /// The recording shows the present lines.
    PresentLines,
    /// The same, without hand-overs sent outside the sender's events.
    PresentInsideLines,
    /// A line check is counted as an own event, in edition 2 as in edition 1.
    CheckCounted,
    /// A hand-over of 0 cars is not counted, in edition 1 as in edition 2.
    CheckUncounted,
    /// The sender of an unmarked line check joins the heard set.
    CheckHeard,
    /// A marked line check causes a mark.
    CheckMarks,
    /// A line check is shown in the recording.
    CheckShown,
    /// The recording's header has edition 1 whatever the run's is.
    HeaderOfEdition1,
    /// An exit beyond the stock is accepted and leaves the zone empty.
    UncoveredExit,
    /// A gate call of 0 cars is no own event, as a line check is none.
    EmptyGateUncounted,
    /// The total is that of the opening less the exits inside.
    EntriesNotInTotal,
    /// The total is that of the opening, as it was before gates.
    OpeningTotal,
    /// The total is that of the present stocks and lines.
    PresentTotal,
    /// 21 asks the stocks alone.
    BlindToLines,
    /// 21 asks the one zone's stock, as 20 does in the zone part.
    BlindToOthers,
    /// 21 refuses an entry up to 65,535.
    RefusesTheLast,
    /// 21 lets one car more in.
    OneMoreIn,
    /// 7 refuses an exit of just the stock.
    RefusesToEmpty,
    /// The record of a gate call has the other direction.
    SwappedInRecord,
    /// A gate call of an unmarked zone gives it a provisional mark, where a recording was started.
    GateMarks,
    /// Gates are open in edition 2 too.
    GatesInEdition2,
    /// The numbers of the page are left-aligned.
    LeftAligned,
    /// The same with zeros in place of the spaces in front of them.
    ZerosInFront,
    /// The page has F for a provisional mark too.
    AnyMarkFirm,
    /// The table of cars is receiver by sender.
    Transposed,
    /// The page leaves lines out that have no cars.
    LeftOutByCars,
    /// The lines of the page are by receiver, then sender.
    ByReceiver,
    /// 14 asks for the bytes of the recording where the page is written.
    RecordingAsked,
    /// A byte of 0 stands behind the page, as behind a string of C.
    EndsWithZero,
}

/// A mark keeps whether it is firm, the stock and the number of own events.
type Mark = Option<(bool, u32, u32)>;

#[derive(Clone, Copy)]
enum Item {
    /// Cars, marked bit, and the count of the hand-over among its sender's events.
    HandOver(u8, bool, u32),
    Request(u8),
}

/// A hand-over that was sent, with its counts among the sender's and the receiver's events.
#[derive(Clone, Copy)]
struct Sent {
    cars: u8,
    sent: u32,
    received: Option<u32>,
}

/// What this engine shows of a complete recording: of each zone whether it is firm, its stock and
/// its events; the lines; and the total.
struct Shown {
    firm: Vec<bool>,
    zones: Vec<(u32, u32)>,
    lines: Lines,
    total: u32,
}

struct Fitter {
    fault: Fault,
    edition: u32,
    opening: Vec<u16>,
    stock: Vec<u32>,
    events: Vec<u32>,
    heard: Vec<u8>,
    mark: Vec<Mark>,
    lines: Vec<Vec<VecDeque<Item>>>,
    sent: Vec<Vec<Vec<Sent>>>,
    records: Vec<u16>,
    /// What this engine did itself, for the reading of demand 3 that trusts it.
    own: Account,
}

impl Fitter {
    fn open(fault: Fault, edition: u32, opening: &[u16]) -> Fitter {
        let zones = opening.len();
        Fitter {
            fault,
            edition,
            opening: opening.to_vec(),
            stock: opening.iter().map(|&stock| u32::from(stock)).collect(),
            events: vec![0; zones],
            heard: (0..zones).map(|zone| 1 << zone).collect(),
            mark: vec![None; zones],
            lines: vec![vec![VecDeque::new(); zones]; zones],
            sent: vec![vec![Vec::new(); zones]; zones],
            records: Vec::new(),
            own: Account {
                events: Vec::new(),
                starter: None,
                marks: vec![None; zones],
                complete: false,
                by_rules: true,
            },
        }
    }

    fn zones(&self) -> usize {
        self.opening.len()
    }

    fn on_site(&self, zone: u32) -> bool {
        zone != 0 && zone as usize <= self.zones()
    }

    /// Makes a call and gives its number.
    fn call(&mut self, call: Call) -> u32 {
        let (from, to) = match call {
            Call::HandOver { from, to, .. } | Call::Receipt { from, to } => (from, Some(to)),
            Call::Start { zone } => (zone, None),
            Call::Gate { zone, .. } => (zone, None),
        };
        if matches!(call, Call::Gate { .. }) && !self.has_gates() {
            return 15;
        }
        let right = |to: u32| self.on_site(to) && from != to;
        if !self.on_site(from) || !to.is_none_or(right) {
            return 5;
        }
        if self.records.len() == 1_000 {
            return 6;
        }
        let a = from as usize - 1;
        let b = to.map_or(a, |to| to as usize - 1);
        let number = match call {
            Call::HandOver { cars, .. } => self.hand_over(a, b, cars),
            Call::Receipt { .. } => self.receipt(a, b),
            Call::Start { .. } => self.start(a),
            Call::Gate {
                direction, cars, ..
            } => self.gate(direction, a, cars),
        };
        if number == 0 {
            self.record(call, a, b);
        }
        number
    }

    /// Adds the record of an accepted call.
    fn record(&mut self, call: Call, a: usize, b: usize) {
        let (kind, second, cars) = match call {
            Call::HandOver { cars, .. } => (0, b, cars),
            Call::Receipt { .. } => (1, b, 0),
            Call::Start { .. } => (2, 0, 0),
            Call::Gate {
                direction, cars, ..
            } => {
                let swapped = self.fault == Fault::SwappedInRecord;
                (
                    3,
                    usize::from(swapped != (direction == Direction::Out)),
                    cars,
                )
            }
        };
        let word = kind << 14 | a << 11 | second << 8 | usize::from(cars);
        self.records.push(word as u16);
    }

    /// The bytes of this engine's journal.
    fn journal(&self) -> Vec<u8> {
        let header = (self.edition as usize) << 13 | (self.zones() - 1) << 10 | self.records.len();
        let mut words = vec![header as u16];
        words.extend(&self.opening);
        words.extend(&self.records);
        words.iter().flat_map(|word| word.to_be_bytes()).collect()
    }

    fn has_gates(&self) -> bool {
        self.edition == 3 || self.fault == Fault::GatesInEdition2 && self.edition == 2
    }

    fn gate(&mut self, direction: Direction, a: usize, cars: u8) -> u32 {
        let (amount, before) = (u32::from(cars), self.stock[a]);
        match direction {
            Direction::In => {
                let asked = match self.fault {
                    Fault::BlindToLines => self.stock.iter().sum(),
                    Fault::BlindToOthers => self.stock[a],
                    _ => self.present_total(),
                };
                let most = match self.fault {
                    Fault::RefusesTheLast => 65_534,
                    Fault::OneMoreIn => 65_536,
                    _ => 65_535,
                };
                if asked + amount > most {
                    return 21;
                }
                self.stock[a] += amount;
            }
            Direction::Out => {
                let covered = match self.fault {
                    Fault::UncoveredExit => true,
                    Fault::RefusesToEmpty => amount < self.stock[a],
                    _ => amount <= self.stock[a],
                };
                if !covered {
                    return 7;
                }
                self.stock[a] = self.stock[a].saturating_sub(amount);
            }
        }
        let started = self.own.starter.is_some();
        if self.fault == Fault::GateMarks && started && self.mark[a].is_none() {
            self.mark[a] = Some((false, before, self.events[a]));
            self.own.marks[a] = Some(self.events[a]);
        }
        self.events[a] += u32::from(self.fault != Fault::EmptyGateUncounted || cars != 0);
        let count = self.events[a];
        self.own.events.push(Event::Gate {
            direction,
            zone: a,
            cars,
            count,
        });
        0
    }

    /// The present stocks and cars on lines.
    fn present_total(&self) -> u32 {
        let on_lines = self.present(|_, _| true);
        let cars = on_lines.iter().flatten().flatten();
        self.stock.iter().sum::<u32>() + cars.map(|&cars| u32::from(cars)).sum::<u32>()
    }

    fn hand_over(&mut self, a: usize, b: usize, cars: u8) -> u32 {
        if self.stock[a] < u32::from(cars) {
            return 7;
        }
        if self.lines[a][b].len() == 16 {
            return 8;
        }
        self.stock[a] -= u32::from(cars);
        self.events[a] += u32::from(self.counts(cars));
        let count = self.events[a];
        self.lines[a][b].push_back(Item::HandOver(cars, self.mark[a].is_some(), count));
        self.sent[a][b].push(Sent {
            cars,
            sent: count,
            received: None,
        });
        if !self.is_check(cars) {
            self.own.events.push(Event::Sent {
                from: a,
                to: b,
                cars,
                count,
            });
        }
        0
    }

    fn is_check(&self, cars: u8) -> bool {
        self.edition > 1 && cars == 0
    }

    /// Says whether a hand-over is an own event.
    fn counts(&self, cars: u8) -> bool {
        match self.fault {
            Fault::CheckCounted => true,
            Fault::CheckUncounted => cars != 0,
            _ => !self.is_check(cars),
        }
    }

    fn receipt(&mut self, a: usize, b: usize) -> u32 {
        match self.lines[a][b].front().copied() {
            None => 9,
            Some(Item::HandOver(cars, marked, _)) => {
                self.lines[a][b].pop_front();
                self.take(a, b, cars, marked);
                0
            }
            Some(Item::Request(set)) => {
                let number = self.request(b, set);
                if number == 0 {
                    self.lines[a][b].pop_front();
                }
                number
            }
        }
    }

    fn take(&mut self, a: usize, b: usize, cars: u8, marked: bool) {
        let (unmarked, before) = (self.mark[b].is_none(), self.events[b]);
        let marks = unmarked && marked && self.heeds(Fault::CheckMarks, cars);
        if self.fault != Fault::MarksSecond && marks {
            self.mark[b] = Some((false, self.stock[b], before));
        }
        let provisional = matches!(self.mark[b], Some((false, _, _)));
        let hears = match self.fault {
            Fault::HearsAfterMark => provisional,
            Fault::HearsUnmarkedAfterMark => provisional && !marked,
            _ => false,
        };
        if (hears || unmarked && !marked) && self.heeds(Fault::CheckHeard, cars) {
            self.heard[b] |= 1 << a;
        }
        self.stock[b] += u32::from(cars);
        self.events[b] += u32::from(self.counts(cars));
        if self.fault == Fault::MarksSecond && marks {
            self.mark[b] = Some((false, self.stock[b], self.events[b]));
        }
        if marks {
            self.own.marks[b] = Some(before);
        }
        let count = self.events[b];
        let first = self.sent[a][b].iter_mut().find(|s| s.received.is_none());
        first.expect("a hand-over on the line was sent").received = Some(count);
        if !self.is_check(cars) {
            self.own.events.push(Event::Received {
                from: a,
                to: b,
                count,
            });
        }
    }

    /// Says whether a hand-over may mark its receiver or be heard: no line check may, but by a fault.
    fn heeds(&self, fault: Fault, cars: u8) -> bool {
        self.fault == fault || !self.is_check(cars)
    }

    fn request(&mut self, b: usize, set: u8) -> u32 {
        let mark = match self.mark[b] {
            Some((true, _, _)) => return 0,
            Some((false, stock, events)) => match self.fault {
                Fault::StockAtRequest => (true, self.stock[b], events),
                Fault::StockAndEventsAtRequest => (true, self.stock[b], self.events[b]),
                _ => (true, stock, events),
            },
            None => (true, self.stock[b], self.events[b]),
        };
        let carried = match self.fault {
            Fault::OwnSetOnly => self.heard[b],
            _ => self.heard[b] | set,
        };
        let number = self.send_requests(b, self.heard[b] & !set, carried);
        if number == 0 {
            self.mark[b] = Some(mark);
            let before = self.own.marks[b].unwrap_or(self.events[b]);
            self.own.marks[b] = Some(before);
        }
        number
    }

    fn start(&mut self, a: usize) -> u32 {
        if self
            .mark
            .iter()
            .any(|mark| matches!(mark, Some((true, _, _))))
        {
            return 11;
        }
        let number = self.send_requests(a, self.heard[a], self.heard[a]);
        if number == 0 {
            self.mark[a] = Some((true, self.stock[a], self.events[a]));
            self.own.marks[a] = Some(self.events[a]);
            self.own.starter = Some((a, self.events[a]));
        }
        number
    }

    /// Sends a request to each zone of the set but itself, or answers 10.
    fn send_requests(&mut self, a: usize, set: u8, carried: u8) -> u32 {
        let to: Vec<usize> = (0..self.zones())
            .filter(|&b| b != a && set & 1 << b != 0)
            .collect();
        if to.iter().any(|&b| self.lines[a][b].len() == 16) {
            return 10;
        }
        for b in to {
            self.lines[a][b].push_back(Item::Request(carried));
        }
        0
    }

    /// What is seen of this run from outside.
    fn look(&mut self, calls: Vec<(Call, u32)>) -> Seen {
        let shown = self.shown();
        self.own.complete = shown.is_ok();
        let (answer, bytes, total) = match shown {
            Ok(shown) => (0, self.recording(&shown), shown.total),
            Err(number) => (number, Vec::new(), 0),
        };
        Seen {
            edition: self.edition,
            opening: self.opening.clone(),
            calls,
            answer,
            bytes,
            total,
            stocks: self.stock.iter().map(|&stock| u64::from(stock)).collect(),
            lines: self.present(|_, _| true),
        }
    }

    /// What a recording or a page shows, or 12 or 13.
    fn shown(&self) -> Result<Shown, u32> {
        let marks = self.mark.iter();
        let firm: Vec<bool> = marks
            .map(|mark| matches!(mark, Some((true, _, _))))
            .collect();
        let mut items = self.lines.iter().flatten().flatten();
        if !firm.contains(&true) {
            return Err(12);
        }
        if items.any(|item| matches!(item, Item::Request(_))) {
            return Err(13);
        }
        let zones: Vec<(u32, u32)> = (0..self.zones())
            .map(|zone| match self.mark[zone] {
                Some((true, stock, events)) => (stock, events),
                _ => (u32::from(self.opening[zone]), 0),
            })
            .collect();
        let lines = match self.fault {
            Fault::PresentLines => self.traffic(|_, _| true),
            Fault::PresentInsideLines => self.traffic(|a, count| count <= zones[a].1),
            _ => self.recorded(&zones),
        };
        let total = self.total(&zones, &lines);
        Ok(Shown {
            firm,
            zones,
            lines,
            total,
        })
    }

    fn total(&self, zones: &[(u32, u32)], lines: &Lines) -> u32 {
        match self.fault {
            Fault::EntriesNotInTotal => self.opening_total() - self.exits(zones),
            Fault::OpeningTotal => self.opening_total(),
            Fault::PresentTotal => self.present_total(),
            _ => {
                let items = lines.iter().flatten().flatten();
                let cars = items.map(|&cars| u32::from(cars));
                zones.iter().map(|zone| zone.0).sum::<u32>() + cars.sum::<u32>()
            }
        }
    }

    /// The bytes of the recording.
    fn recording(&self, shown: &Shown) -> Vec<u8> {
        let items: Vec<u16> = self
            .pairs()
            .flat_map(|(a, b)| {
                let word = (a << 11 | b << 8) as u16;
                let line = shown.lines[a][b].iter();
                line.map(move |&cars| word | u16::from(cars))
            })
            .collect();
        let edition = match self.fault {
            Fault::HeaderOfEdition1 => 1,
            _ => self.edition as usize,
        };
        let front = edition << 13 | (self.zones() - 1) << 10;
        let mut words = vec![(front | items.len()) as u16];
        for (&firm, &(stock, events)) in shown.firm.iter().zip(&shown.zones) {
            words.push(u16::from(firm) << 15 | events as u16);
            words.push(stock as u16);
        }
        words.extend(items);
        words.iter().flat_map(|word| word.to_be_bytes()).collect()
    }

    /// The pairs of zones, by sender, then receiver.
    fn pairs(&self) -> impl Iterator<Item = (usize, usize)> {
        let zones = self.zones();
        (0..zones).flat_map(move |a| (0..zones).map(move |b| (a, b)))
    }

    /// Writes the page and gives the refusal and the number of bytes written.
    fn write_page(&self, lent: &mut [u8]) -> (u32, usize) {
        let shown = match self.shown() {
            Ok(shown) => shown,
            Err(number) => return (number, 0),
        };
        let page = self.page(&shown);
        let asked = match self.fault {
            Fault::RecordingAsked => self.recording(&shown).len(),
            _ => page.len(),
        };
        if lent.len() < asked {
            return (14, 0);
        }
        let written = page.len().min(lent.len());
        lent[..written].copy_from_slice(&page[..written]);
        if self.fault == Fault::EndsWithZero && written < lent.len() {
            lent[written] = 0;
        }
        (0, written)
    }

    /// The bytes of the page.
    fn page(&self, shown: &Shown) -> Vec<u8> {
        let mut page = Vec::new();
        for (index, &(stock, events)) in shown.zones.iter().enumerate() {
            let is_firm = match self.fault {
                Fault::AnyMarkFirm => self.mark[index].is_some(),
                _ => shown.firm[index],
            };
            let front = format!("Z{} {}", index + 1, if is_firm { "F" } else { "-" });
            page.extend(self.row(&front, Some(events), stock));
        }
        let mut pairs: Vec<(usize, usize)> = self.pairs().collect();
        if self.fault == Fault::ByReceiver {
            pairs.sort_by_key(|&(a, b)| (b, a));
        }
        for (a, b) in pairs {
            let (from, to) = match self.fault {
                Fault::Transposed => (b, a),
                _ => (a, b),
            };
            let line = shown.lines[from][to].iter();
            let cars = line.map(|&cars| u32::from(cars)).sum();
            let items = shown.lines[a][b].len() as u32;
            let is_empty = items == 0 || self.fault == Fault::LeftOutByCars && cars == 0;
            if !is_empty {
                let front = format!("L{}{}", a + 1, b + 1);
                page.extend(self.row(&front, Some(items), cars));
            }
        }
        page.extend(self.row("T", None, shown.total));
        page
    }

    /// A line of the page: its front, and numbers that end in its 9th and 16th column.
    fn row(&self, front: &str, first: Option<u32>, second: u32) -> Vec<u8> {
        let mut row = vec![b' '; 16];
        row[..front.len()].copy_from_slice(front.as_bytes());
        for (number, end, width) in [(first, 9, 4), (Some(second), 16, 6)] {
            let column = number.map(|number| match self.fault {
                Fault::LeftAligned => format!("{number:<width$}"),
                Fault::ZerosInFront => format!("{number:0>width$}"),
                _ => format!("{number:>width$}"),
            });
            if let Some(column) = column {
                row[end - width..end].copy_from_slice(column.as_bytes());
            }
        }
        row.push(b'\n');
        row
    }

    fn opening_total(&self) -> u32 {
        self.opening.iter().map(|&stock| u32::from(stock)).sum()
    }

    /// The cars of the exits inside, but no more of them than the opening had.
    fn exits(&self, shown: &[(u32, u32)]) -> u32 {
        let exits = self.own.events.iter().map(|event| match *event {
            Event::Gate {
                direction: Direction::Out,
                zone,
                cars,
                count,
            } if count <= shown[zone].1 => u32::from(cars),
            _ => 0,
        });
        exits.sum::<u32>().min(self.opening_total())
    }

    /// The present hand-overs that a test of sender and count lets through, line checks too.
    fn present(&self, keep: impl Fn(usize, u32) -> bool) -> Lines {
        let mut lines: Lines = vec![vec![Vec::new(); self.zones()]; self.zones()];
        for (a, row) in self.lines.iter().enumerate() {
            for (b, line) in row.iter().enumerate() {
                for item in line {
                    if let Item::HandOver(cars, _, count) = *item {
                        if keep(a, count) {
                            lines[a][b].push(cars);
                        }
                    }
                }
            }
        }
        lines
    }

    /// The same without line checks.
    fn traffic(&self, keep: impl Fn(usize, u32) -> bool) -> Lines {
        let mut lines = self.present(keep);
        for line in lines.iter_mut().flatten() {
            line.retain(|&cars| !self.is_check(cars));
        }
        lines
    }

    /// The hand-overs sent inside the sender's events and not received inside the receiver's, without
    /// line checks.
    fn recorded(&self, shown: &[(u32, u32)]) -> Lines {
        let mut lines: Lines = vec![vec![Vec::new(); self.zones()]; self.zones()];
        for (a, row) in self.sent.iter().enumerate() {
            for (b, line) in row.iter().enumerate() {
                for item in line {
                    let received = item.received.is_some_and(|count| count <= shown[b].1);
                    let is_shown = self.heeds(Fault::CheckShown, item.cars);
                    if is_shown && item.sent <= shown[a].1 && !received {
                        lines[a][b].push(item.cars);
                    }
                }
            }
        }
        lines
    }
}

/// Drives an engine with a fault on random lists and hands over what is seen of each.
fn each_run(fault: Fault, edition: u32, runs: usize, mut then: impl FnMut(Seen, &Fitter)) {
    let mut random = Random::new(9);
    for _ in 0..runs {
        let zones = random.within(2, 6);
        let opening = stocks(&mut random, zones);
        let mut fitter = Fitter::open(fault, edition, &opening);
        let calls = drive(&mut random, edition, zones, 80, &mut |call| {
            fitter.call(call)
        });
        let seen = fitter.look(calls);
        then(seen, &fitter);
    }
}

/// Counts the findings of a fault over random lists, and the complete recordings.
fn findings(fault: Fault, edition: u32) -> BTreeMap<Finding, u32> {
    let mut all = BTreeMap::new();
    let mut complete = 0;
    each_run(fault, edition, 2_000, |seen, _| {
        complete += u32::from(seen.answer == 0);
        for finding in check(&seen) {
            *all.entry(finding).or_insert(0) += 1;
        }
    });
    println!("{fault:?}, edition {edition}: {all:?} on {complete} complete recordings");
    assert!(complete > 800);
    all
}

/// In every edition each of the findings must turn up.
fn must_find(fault: Fault, wanted: &[Finding]) {
    for edition in EDITIONS {
        must_find_in(edition, fault, wanted);
    }
}

/// Every one of the findings must turn up, and often enough not to be luck.
fn must_find_in(edition: u32, fault: Fault, wanted: &[Finding]) {
    let all = findings(fault, edition);
    for finding in wanted {
        assert!(all.get(finding).is_some_and(|&times| times >= 5));
    }
}

/// The findings must be just these.
fn must_find_just(edition: u32, fault: Fault, wanted: &[Finding]) {
    let all = findings(fault, edition);
    assert_eq!(all.keys().copied().collect::<Vec<_>>(), wanted);
}

#[test]
fn without_a_fault_nothing_is_found_and_the_site_agrees() {
    for edition in EDITIONS {
        must_find_just(edition, Fault::None, &[]);
        each_run(Fault::None, edition, 1_000, |seen, fitter| {
            let zones = seen.opening.len() as u32;
            let (_, mut run) = Run::open(edition, zones, &seen.opening);
            for &(call, number) in &seen.calls {
                assert_eq!(run.call(call), number);
            }
            let site = look(&seen.opening, seen.calls.clone(), &run);
            assert_eq!((site.answer, site.bytes), (seen.answer, seen.bytes.clone()));
            assert_eq!(site.total, seen.total);
            assert_eq!(bytes_of(&run), fitter.journal());
            assert_eq!(
                (site.stocks, site.lines),
                (seen.stocks.clone(), seen.lines.clone())
            );
            assert_eq!(compare(&seen, &fitter.own), []);
        });
    }
}

#[test]
fn the_stock_at_the_request_is_caught() {
    must_find(Fault::StockAtRequest, &[Finding::RecordedStocks]);
}

#[test]
fn the_stock_and_events_at_the_request_are_caught() {
    // The park itself refuses some: a receipt is inside, its hand-over is outside.
    let wanted = [Finding::Events, Finding::InsideStep, Finding::Zones];
    must_find(Fault::StockAndEventsAtRequest, &wanted);
}

#[test]
fn hearing_after_a_provisional_mark_is_caught() {
    // A zone is recorded although no inside receipt calls for it, and the rules know of no such
    // request.
    for fault in [Fault::HearsAfterMark, Fault::HearsUnmarkedAfterMark] {
        must_find(fault, &[Finding::Zones, Finding::Rules]);
    }
}

#[test]
fn marking_second_is_caught() {
    let wanted = [Finding::Events, Finding::InsideStep, Finding::Zones];
    must_find(Fault::MarksSecond, &wanted);
}

#[test]
fn passing_on_only_the_own_set_is_caught_by_the_rules() {
    must_find(Fault::OwnSetOnly, &[Finding::Rules]);
}

/// The own set alone makes zones ask again where a request is already under way. Firm zones
/// drop it, so the recording shows the same cut, only later. Demand 3 sees this fault because
/// the rules, not the run, say what a receipt takes: an accepted receipt of the second request
/// takes nothing, or the hand-over behind it. An account that trusted the run would find nothing.
#[test]
fn passing_on_only_the_own_set_passes_an_account_that_trusts_the_run() {
    for edition in EDITIONS {
        each_run(Fault::OwnSetOnly, edition, 2_000, |seen, fitter| {
            assert_eq!(compare(&seen, &fitter.own), []);
        });
    }
}

#[test]
fn present_lines_are_caught() {
    for fault in [Fault::PresentLines, Fault::PresentInsideLines] {
        for edition in EDITIONS {
            let wanted = [Finding::RecordedLines, Finding::Balance];
            must_find_just(edition, fault, &wanted);
        }
    }
}

/// A fault with checks shows in its own editions, and is none in the others.
#[test]
fn checks_that_are_counted_wrongly_are_caught() {
    let wanted = [Finding::InsideStep, Finding::Events];
    for edition in [2, 3] {
        must_find_in(edition, Fault::CheckCounted, &wanted);
        must_find_just(edition, Fault::CheckUncounted, &[]);
    }
    must_find_in(1, Fault::CheckUncounted, &wanted);
    must_find_just(1, Fault::CheckCounted, &[]);
}

#[test]
fn checks_that_are_heard_or_cause_a_mark_are_caught() {
    for edition in [2, 3] {
        must_find_in(
            edition,
            Fault::CheckHeard,
            &[Finding::Rules, Finding::Zones],
        );
        // The mark comes too early: the moment is a possible one, but not the one of the rules.
        must_find_in(edition, Fault::CheckMarks, &[Finding::Events]);
    }
}

#[test]
fn checks_that_are_shown_are_caught() {
    for edition in [2, 3] {
        must_find_just(edition, Fault::CheckShown, &[Finding::CheckShown]);
    }
    must_find_just(1, Fault::CheckShown, &[]);
}

#[test]
fn the_wrong_edition_in_the_header_is_caught() {
    for edition in [2, 3] {
        must_find_just(edition, Fault::HeaderOfEdition1, &[Finding::Bytes]);
    }
    must_find_just(1, Fault::HeaderOfEdition1, &[]);
}

/// A fault at the gates is none in an edition without them.
fn must_find_at_gates(fault: Fault, wanted: &[Finding]) {
    must_find_in(3, fault, wanted);
    for edition in [1, 2] {
        must_find_just(edition, fault, &[]);
    }
}

/// The park refuses the exit, inside or outside, and keeps its stock.
#[test]
fn an_uncovered_exit_is_caught() {
    let wanted = [
        Finding::InsideStep,
        Finding::OutsideStep,
        Finding::RecordedStocks,
        Finding::PresentStocks,
    ];
    must_find_at_gates(Fault::UncoveredExit, &wanted);
}

#[test]
fn a_gate_of_0_cars_that_is_not_counted_is_caught() {
    let wanted = [Finding::Events, Finding::RecordedStocks];
    must_find_at_gates(Fault::EmptyGateUncounted, &wanted);
}

#[test]
fn a_gate_that_marks_is_caught() {
    must_find_at_gates(Fault::GateMarks, &[Finding::Events]);
}

/// Both halves of what is said of the total find each of these: what the bytes show, and the opening
/// with the gate events inside.
#[test]
fn wrong_totals_are_caught() {
    let both = [Finding::Total, Finding::Balance];
    for fault in [
        Fault::EntriesNotInTotal,
        Fault::OpeningTotal,
        Fault::PresentTotal,
    ] {
        must_find_just(3, fault, &both);
        must_find_at_gates(fault, &both);
    }
}

#[test]
fn gates_in_edition_2_are_caught() {
    must_find_in(2, Fault::GatesInEdition2, &[Finding::Rules]);
    must_differ(2, Fault::GatesInEdition2, 15, &[0, 5, 7, 21]);
    must_find_just(1, Fault::GatesInEdition2, &[]);
    must_find_just(3, Fault::GatesInEdition2, &[]);
    // Its journal is refused at the first gate record.
    let mut refused = 0;
    each_run(Fault::GatesInEdition2, 2, 300, |_, fitter| {
        let first = fitter.records.iter().position(|&word| word >= 0xC000);
        if let Some(position) = first {
            let reading = journal::read(&fitter.journal());
            assert_eq!((reading.refusal, reading.position), (18, position));
            refused += 1;
        }
    });
    assert!(refused >= 20);
}

/// The numbers must differ from those of the site in some lists: where they first do, the site gives
/// its number and the faulty engine one of the others.
fn must_differ(edition: u32, fault: Fault, number: u32, others: &[u32]) {
    let mut lists = 0;
    each_run(fault, edition, 2_000, |seen, _| {
        let zones = seen.opening.len() as u32;
        let (_, mut run) = Run::open(edition, zones, &seen.opening);
        let mut numbers = seen.calls.iter().map(|&(call, it)| (run.call(call), it));
        if let Some(pair) = numbers.find(|pair| pair.0 != pair.1) {
            assert!(pair.0 == number && others.contains(&pair.1));
            lists += 1;
        }
    });
    println!("{fault:?}, edition {edition}: other numbers in {lists} lists");
    assert!(lists >= 20);
}

/// Demand 3 has no limit on the sum, and asks nothing of refused calls: what 21 and 7 let through or
/// keep back shows in the numbers. An engine that lets too many cars in has an unsound run.
#[test]
fn limits_at_the_gates_that_are_off_are_caught() {
    for fault in [Fault::BlindToLines, Fault::BlindToOthers, Fault::OneMoreIn] {
        must_differ(3, fault, 21, &[0]);
    }
    must_differ(3, Fault::RefusesTheLast, 0, &[21]);
    must_differ(3, Fault::RefusesToEmpty, 0, &[7]);
    must_differ(3, Fault::UncoveredExit, 7, &[0]);
}

/// The directions are swapped in the records alone: the recording is right, and the journal leads to
/// other stocks, or to none.
#[test]
fn swapped_directions_in_the_record_are_caught() {
    must_find_just(3, Fault::SwappedInRecord, &[]);
    let (mut refused, mut other) = (0, 0);
    each_run(Fault::SwappedInRecord, 3, 1_000, |seen, fitter| {
        let reading = journal::read(&fitter.journal());
        let stocks = reading.run.zones[..reading.run.size()].iter();
        if reading.refusal != 0 {
            assert_eq!(reading.refusal, 19);
            refused += 1;
        } else if !stocks.map(|zone| u64::from(zone.stock)).eq(seen.stocks) {
            other += 1;
        }
    });
    println!("swapped: {refused} journals refused, {other} with other stocks");
    assert!(refused >= 100 && other >= 100);
}

/// In how many lists the page is another one than the site's, or its number or a lent byte is: with
/// one byte too few, just enough and some more.
fn other_pages(fault: Fault, edition: u32) -> u32 {
    let mut lists = 0;
    each_run(fault, edition, 600, |seen, fitter| {
        let zones = seen.opening.len() as u32;
        let (_, mut run) = Run::open(edition, zones, &seen.opening);
        for &(call, _) in &seen.calls {
            run.call(call);
        }
        let (_, needed) = page::write(&run, &mut [0; page::MOST_BYTES]);
        let is_other = |length: usize| {
            let (mut right, mut wrong) = (vec![0xEE; length], vec![0xEE; length]);
            page::write(&run, &mut right) != fitter.write_page(&mut wrong) || right != wrong
        };
        let lengths = [needed.saturating_sub(1), needed, needed + 5];
        lists += u32::from(lengths.into_iter().any(is_other));
    });
    println!("{fault:?}, edition {edition}: other pages in {lists} lists");
    lists
}

/// The fault shows on the page in some editions, often enough not to be luck, and in no others.
fn must_show(fault: Fault, editions: &[u32]) {
    for edition in EDITIONS {
        let lists = other_pages(fault, edition);
        let shows = editions.contains(&edition);
        assert!(if shows { lists >= 20 } else { lists == 0 });
    }
}

#[test]
fn without_a_fault_the_page_is_the_same() {
    must_show(Fault::None, &[]);
}

#[test]
fn wrong_pages_are_caught() {
    for fault in [
        Fault::LeftAligned,
        Fault::ZerosInFront,
        Fault::AnyMarkFirm,
        Fault::Transposed,
        Fault::ByReceiver,
        Fault::RecordingAsked,
        Fault::EndsWithZero,
    ] {
        must_show(fault, &EDITIONS);
    }
}

/// A recorded line without cars is there in edition 1 alone.
#[test]
fn lines_that_are_left_out_for_their_cars_are_caught() {
    must_show(Fault::LeftOutByCars, &[1]);
}

/// Without gates the present total is the recorded one.
#[test]
fn the_present_total_on_the_page_is_caught() {
    must_show(Fault::PresentTotal, &[3]);
}

/// The faults of a converter.
#[derive(Clone, Copy, Debug, PartialEq, Eq)]
enum Slip {
    None,
    /// 15 lets every edition through that reading knows.
    AnyEdition,
    /// 15 is asked once the journal is read.
    EditionLater,
    /// The ways are swapped.
    Swapped,
    /// 22 is asked on the way to edition 1 alone, and to edition 3 alone.
    EmptyUp,
    EmptyDown,
    /// 22 asks for hand-overs of 0 cars that were received.
    ReceivedAlone,
    /// 22 asks for gates of 0 cars too, and for any record of 0 cars.
    EmptyGate,
    EmptyRecord,
    /// 22 and 23 look at the opening stocks too.
    OpeningToo,
    /// 22 and 23 do not look at the first record, and at the last one.
    NotTheFirst,
    NotTheLast,
    /// 23 is asked before 22.
    GatesFirst,
    /// Whichever of both records comes first gives the number.
    FirstRecord,
    /// Gate records come into edition 1.
    GatesPass,
    /// They are left out on the way.
    GatesLeftOut,
    /// 23 asks for gates with cars.
    GatesWithCars,
    /// 22 and 23 tell the position of the record.
    TellsPosition,
    /// 18 and 19 do not.
    NoPosition,
    /// The recording must be complete.
    CompleteAlone,
    /// 14 is asked first, and before 22.
    BytesFirst,
    BytesEarlier,
    /// 14 asks for the bytes of the longest journal.
    LongestAsked,
    /// The bytes are written before there is an answer.
    WritesFirst,
    /// Zeros stand behind the journal.
    ZerosBehind,
    /// The number written is that of the lent bytes.
    CountsLent,
    /// The edition takes the whole first byte, or four bits of it.
    WholeByte,
    FourBits,
    /// The edition stays, or is the next one.
    KeepsEdition,
    NextEdition,
}

/// A journal with its reading.
struct Archived {
    bytes: Vec<u8>,
    reading: Reading,
}

impl Archived {
    fn new(bytes: Vec<u8>) -> Archived {
        let reading = journal::read(&bytes);
        Archived { bytes, reading }
    }

    /// The hand-overs of 0 cars that are still on a line.
    fn waiting(&self) -> usize {
        let items = self.reading.run.lines.iter().flatten().flatten();
        let is_empty = |item: &&site::Item| matches!(item, site::Item::HandOver { cars: 0, .. });
        items.filter(is_empty).count()
    }

    /// The positions of the records that 22 refuses, and of those that 23 does.
    fn refused(&self, slip: Slip) -> (Vec<usize>, Vec<usize>) {
        let run = &self.reading.run;
        let mut words = run.records.clone();
        if slip == Slip::OpeningToo {
            words.splice(0..0, run.opening[..run.size()].to_vec());
        }
        let looked_at = match slip {
            Slip::NotTheFirst => 1..words.len(),
            Slip::NotTheLast => 0..words.len().saturating_sub(1),
            _ => 0..words.len(),
        };
        let places = |holds: &dyn Fn(u16) -> bool| -> Vec<usize> {
            let looked_at = looked_at.clone();
            looked_at.filter(|&place| holds(words[place])).collect()
        };
        let mut empty = places(&|word| {
            let kind = match slip {
                Slip::EmptyGate => word >> 14 == 0 || word >> 14 == 3,
                Slip::EmptyRecord => true,
                _ => word >> 14 == 0,
            };
            kind && word & 255 == 0
        });
        if slip == Slip::ReceivedAlone && empty.len() == self.waiting() {
            empty.clear();
        }
        let with_cars = slip == Slip::GatesWithCars;
        let gates = places(&|word| word >> 14 == 3 && !(with_cars && word & 255 == 0));
        (empty, gates)
    }

    /// The questions in order: whether each says no, its number and the position that it adds.
    fn questions(&self, slip: Slip, way: Conversion, lent: usize) -> Vec<(bool, u32, usize)> {
        let edition = edition_of(&self.bytes);
        let is_source = match slip {
            Slip::AnyEdition => is_known(edition),
            _ => edition == way.source(),
        };
        let passes = match way {
            Conversion::Upgrade => slip == Slip::EmptyUp,
            Conversion::Downgrade => slip == Slip::EmptyDown,
        };
        let (mut empty, mut gates) = self.refused(slip);
        if passes {
            empty.clear();
        }
        if way.target() != 1 || slip == Slip::GatesPass || slip == Slip::GatesLeftOut {
            gates.clear();
        }
        let told = |places: &[usize]| match slip {
            Slip::TellsPosition => places.first().copied().unwrap_or(0),
            _ => 0,
        };
        let needed = match slip {
            Slip::LongestAsked => 2_018,
            _ => self.bytes.len(),
        };
        let Reading {
            refusal, position, ..
        } = self.reading;
        let mut questions = vec![
            (self.bytes.len() < 2 || !is_source, 15, 0),
            (refusal != 0, refusal, position),
            (!empty.is_empty(), 22, told(&empty)),
            (!gates.is_empty(), 23, told(&gates)),
            (lent < needed, 14, 0),
        ];
        self.rearrange(slip, &mut questions, empty < gates);
        questions
    }

    /// Puts the questions into a wrong order, or changes what they are.
    fn rearrange(&self, slip: Slip, questions: &mut Vec<(bool, u32, usize)>, empty_first: bool) {
        let run = &self.reading.run;
        match slip {
            Slip::EditionLater => questions.swap(0, 1),
            Slip::GatesFirst => questions.swap(2, 3),
            Slip::FirstRecord if !empty_first => questions.swap(2, 3),
            Slip::NoPosition => questions[1].2 = 0,
            Slip::CompleteAlone => {
                questions.insert(2, (run.holds_request(), 13, 0));
                questions.insert(2, (!run.started(), 12, 0));
            }
            Slip::BytesFirst => questions.rotate_right(1),
            Slip::BytesEarlier => questions[2..].rotate_right(1),
            _ => (),
        }
    }

    /// The converted bytes.
    fn converted(&self, slip: Slip, way: Conversion) -> Vec<u8> {
        let target = match slip {
            Slip::KeepsEdition => way.source(),
            Slip::NextEdition => 2,
            _ => way.target(),
        };
        let mut bytes = with_edition(target, &self.bytes);
        match slip {
            Slip::WholeByte => bytes[0] &= 0xE0,
            Slip::FourBits => bytes[0] &= 0xEF,
            Slip::GatesLeftOut => {
                let mut run = self.reading.run.clone();
                run.records.retain(|word| word >> 14 != 3);
                let header = journal::header(target, run.count, run.records.len());
                let words = [
                    vec![header],
                    run.opening[..run.size()].to_vec(),
                    run.records,
                ];
                bytes = journal::bytes_of(&words.concat());
            }
            _ => (),
        }
        bytes
    }

    fn convert(&self, slip: Slip, way: Conversion, lent: &mut [u8]) -> Converted {
        let way = if slip == Slip::Swapped {
            way.back()
        } else {
            way
        };
        let mut questions = self.questions(slip, way, lent.len()).into_iter();
        let no = questions.find(|&(says_no, ..)| says_no);
        let fits = !self.bytes.is_empty() && self.bytes.len() <= lent.len();
        if no.is_none() || slip == Slip::WritesFirst && fits {
            let bytes = self.converted(slip, way);
            lent[..bytes.len()].copy_from_slice(&bytes);
            if slip == Slip::ZerosBehind {
                lent[bytes.len()..].fill(0);
            }
        }
        let (_, refusal, position) = no.unwrap_or((false, 0, 0));
        let written = match (refusal, slip) {
            (0, Slip::CountsLent) => lent.len(),
            (0, Slip::GatesLeftOut) => self.converted(slip, way).len(),
            (0, _) => self.bytes.len(),
            _ => 0,
        };
        Converted {
            refusal,
            position,
            written,
        }
    }
}

/// Journals for the converter and others of every kind, in every edition.
fn archived() -> Vec<Archived> {
    let mut random = Random::new(22);
    let mut journals = Vec::new();
    for index in 0..600 {
        let edition = EDITIONS[index % EDITIONS.len()];
        let kind = index % archive::KINDS;
        journals.push(match edition {
            2 => journal_of(&mut random, edition, index % KINDS),
            _ => archive::journal_of(&mut random, edition, kind),
        });
    }
    for index in 0..2 * KINDS {
        journals.push(journal_of(&mut random, [1, 3][index % 2], index / 2));
    }
    journals.into_iter().map(Archived::new).collect()
}

/// How often a converter with a slip answers something else than the right one, by both numbers: with
/// one byte too few, just enough and some more.
fn slips(journals: &[Archived], slip: Slip) -> BTreeMap<(u32, u32), u32> {
    let mut others = BTreeMap::new();
    for journal in journals {
        let needed = journal.bytes.len();
        for way in CONVERSIONS {
            for length in [needed.saturating_sub(1), needed, needed + 5] {
                let (mut right, mut wrong) = (vec![0xEE; length], vec![0xEE; length]);
                let expected = convert(way, &journal.bytes, &mut right);
                let answer = journal.convert(slip, way, &mut wrong);
                if answer != expected || right != wrong {
                    let numbers = (expected.refusal, answer.refusal);
                    *others.entry(numbers).or_insert(0) += 1;
                }
            }
        }
    }
    println!("{slip:?}: {others:?}");
    others
}

/// What a conversion refuses with, lent enough bytes, and what reading refuses with behind 15.
const REFUSED: &[u32] = &[4, 15, 16, 17, 18, 19, 22, 23];
const READ: &[u32] = &[4, 16, 17, 18, 19];
const ANY: &[u32] = &[0, 4, 14, 15, 16, 17, 18, 19, 22, 23];

/// Every slip with the numbers of the right converter at which it shows, and those that it gives there.
const SLIPS: [(Slip, &[u32], &[u32]); 30] = [
    (Slip::None, &[], &[]),
    (Slip::AnyEdition, &[15], &[0, 4, 14, 16, 17, 18, 19, 22]),
    (Slip::EditionLater, &[15], READ),
    (Slip::Swapped, ANY, ANY),
    (Slip::EmptyUp, &[22], &[0, 14]),
    (Slip::EmptyDown, &[22], &[0, 14, 23]),
    (Slip::ReceivedAlone, &[22], &[0, 14, 23]),
    (Slip::EmptyGate, &[23], &[22]),
    (Slip::EmptyRecord, &[0, 14, 23], &[22]),
    (Slip::OpeningToo, &[0, 14, 23], &[22, 23]),
    (Slip::NotTheFirst, &[22, 23], &[0, 14, 23]),
    (Slip::NotTheLast, &[22, 23], &[0, 14, 23]),
    (Slip::GatesFirst, &[22], &[23]),
    (Slip::FirstRecord, &[22], &[23]),
    (Slip::GatesPass, &[23], &[0, 14]),
    (Slip::GatesLeftOut, &[23], &[0, 14]),
    (Slip::GatesWithCars, &[23], &[0, 14]),
    (Slip::TellsPosition, &[22, 23], &[22, 23]),
    (Slip::NoPosition, &[18, 19], &[18, 19]),
    (Slip::CompleteAlone, &[0, 14, 22, 23], &[12, 13]),
    (Slip::BytesFirst, REFUSED, &[14]),
    (Slip::BytesEarlier, &[22, 23], &[14]),
    (Slip::LongestAsked, &[0], &[14]),
    (Slip::WritesFirst, REFUSED, REFUSED),
    (Slip::ZerosBehind, &[0], &[0]),
    (Slip::CountsLent, &[0], &[0]),
    (Slip::WholeByte, &[0], &[0]),
    (Slip::FourBits, &[0], &[0]),
    (Slip::KeepsEdition, &[0], &[0]),
    (Slip::NextEdition, &[0], &[0]),
];

/// Each slip shows where it should and nowhere else, often enough not to be luck.
#[test]
fn wrong_converters_are_caught() {
    let journals = archived();
    for (slip, right, wrong) in SLIPS {
        let others = slips(&journals, slip);
        let set = |numbers: &[u32]| numbers.iter().copied().collect::<BTreeSet<u32>>();
        let rights: BTreeSet<u32> = others.keys().map(|pair| pair.0).collect();
        let wrongs: BTreeSet<u32> = others.keys().map(|pair| pair.1).collect();
        assert_eq!((rights, wrongs), (set(right), set(wrong)));
        assert!(slip == Slip::None || others.values().sum::<u32>() >= 20);
    }
}
