//! Counts of what was compared, and the floors below which a run of the program fails.

use crate::compare::{Answer, Difference};
use second::conversion::{Conversion, CONVERSIONS};
use second::edition::{has_gates, EDITIONS};
use second::site::{MOST_RECORDS, PLACES};

/// The calls of the library.
#[derive(Clone, Copy, Debug, PartialEq, Eq)]
pub enum Entry {
    SiteOpen,
    SiteSend,
    SiteReceive,
    SiteStart,
    SiteEnter,
    SiteLeave,
    SiteRecord,
    SitePage,
    JournalWrite,
    JournalRead,
    JournalRecord,
    JournalPage,
    JournalUpgrade,
    JournalDowngrade,
    ZoneOpen,
    ZoneSend,
    ZoneReceive,
    ZoneRequest,
    ZoneStart,
    ZoneEnter,
    ZoneLeave,
    ZoneRequests,
    ZoneNext,
}

/// A call with the numbers that docs/RULES.md lets it give under each heading.
pub type Numbers = (&'static str, [&'static [u8]; HEADINGS.len()]);

/// A call that gives some numbers under every edition that is defined, and others under any other
/// edition or without one.
const fn call(name: &'static str, known: &'static [u8], other: &'static [u8]) -> Numbers {
    (name, [known, known, known, other])
}

/// A gate call: an edition before the third one has no gates.
const fn gate(name: &'static str, known: &'static [u8]) -> Numbers {
    (name, [&[1, 15], &[1, 15], known, &[1]])
}

/// The numbers of a recording or a page, of a run and of a journal.
const WRITTEN: &[u8] = &[0, 1, 12, 13, 14];
const READ_WRITTEN: &[u8] = &[0, 16, 17, 4, 18, 19, 12, 13, 14];

/// The numbers of a conversion of a journal of its own edition, to edition 3 and to edition 1.
const UPGRADED: &[u8] = &[0, 16, 17, 4, 18, 19, 22, 14];
const DOWNGRADED: &[u8] = &[0, 16, 17, 4, 18, 19, 22, 23, 14];

/// Each call, in the order of `Entry`.
pub const ENTRIES: [Numbers; 23] = [
    call("cut_site_open", &[0, 2, 3, 4], &[15]),
    call("cut_site_send", &[0, 1, 5, 6, 7, 8], &[1]),
    call("cut_site_receive", &[0, 1, 5, 6, 9, 10], &[1]),
    call("cut_site_start", &[0, 1, 5, 6, 11, 10], &[1]),
    gate("cut_site_enter", &[0, 1, 5, 6, 21]),
    gate("cut_site_leave", &[0, 1, 5, 6, 7]),
    call("cut_site_record", WRITTEN, &[1]),
    call("cut_site_page", WRITTEN, &[1]),
    call("cut_journal_write", &[0, 1, 14], &[1]),
    call("cut_journal_read", &[0, 16, 17, 4, 18, 19], &[15]),
    call("cut_journal_record", READ_WRITTEN, &[15]),
    call("cut_journal_page", READ_WRITTEN, &[15]),
    ("cut_journal_upgrade", [UPGRADED, &[15], &[15], &[15]]),
    ("cut_journal_downgrade", [&[15], &[15], DOWNGRADED, &[15]]),
    call("cut_zone_open", &[0, 2, 5], &[15]),
    call("cut_zone_send", &[0, 1, 5, 6, 7], &[1]),
    call("cut_zone_receive", &[0, 1, 5, 6, 20], &[1]),
    call("cut_zone_request", &[0, 1, 5], &[1]),
    call("cut_zone_start", &[0, 1, 11], &[1]),
    gate("cut_zone_enter", &[0, 1, 6, 20]),
    gate("cut_zone_leave", &[0, 1, 6, 7]),
    call("cut_zone_requests", &[], &[0]),
    call("cut_zone_next", &[], &[0]),
];

/// The highest number that a call gives.
pub const HIGHEST: usize = 23;

/// What is counted apart: each edition that is defined, and everything else.
pub const HEADINGS: [&str; EDITIONS.len() + 1] = [
    "edition 1",
    "edition 2",
    "edition 3",
    "another or no edition",
];

/// The place of an edition among the headings.
fn heading(edition: u32) -> usize {
    let place = EDITIONS.iter().position(|&known| known == edition);
    place.unwrap_or(EDITIONS.len())
}

/// A hand-over of 0 cars that was taken.
#[derive(Clone, Copy, Debug)]
pub struct Check {
    pub edition: u32,
    /// Whether a zone of the zone part took it, not one of a site.
    pub alone: bool,
    pub flag: bool,
    /// Whether its receiver had a mark before.
    pub marked: bool,
}

/// How many kinds of such hand-overs there are in an edition.
pub const CHECKS: usize = 8;

impl Check {
    fn kind(self) -> usize {
        4 * usize::from(self.alone) + 2 * usize::from(self.flag) + usize::from(self.marked)
    }
}

/// The name of a kind.
fn check_name(kind: usize) -> String {
    let part = ["site", "zone part"][kind / 4];
    let mark = ["an unmarked", "a marked"][kind % 2];
    format!(
        "0 cars with bit {} taken by {mark} zone, {part}",
        kind / 2 % 2
    )
}

/// A gate call that was accepted.
#[derive(Clone, Copy, Debug)]
pub struct Gate {
    /// Whether it was made on a zone of the zone part, not on one of a site.
    pub alone: bool,
    /// Whether cars drove out, not in.
    pub out: bool,
    /// Whether there were 0 cars.
    pub empty: bool,
    /// Whether its zone had a mark.
    pub marked: bool,
}

/// How many kinds of such calls there are.
pub const GATES: usize = 16;

impl Gate {
    fn kind(self) -> usize {
        let bits = [self.alone, self.out, self.empty, self.marked];
        bits.iter()
            .fold(0, |kind, &bit| 2 * kind + usize::from(bit))
    }
}

/// The name of a kind.
fn gate_name(kind: usize) -> String {
    let part = ["site", "zone part"][kind / 8];
    let way = ["an entry", "an exit"][kind / 4 % 2];
    let cars = ["cars", "0 cars"][kind / 2 % 2];
    let mark = ["an unmarked", "a marked"][kind % 2];
    format!("{way} of {cars} at {mark} zone, {part}")
}

/// The directions that no gate has, by the second field of their records.
pub const WRONG_WAYS: std::ops::Range<usize> = 2..8;

/// What was met of gates.
#[derive(Clone, Debug, Default, PartialEq, Eq)]
pub struct Gates {
    /// Accepted calls by kind.
    pub accepted: [u64; GATES],
    /// Entries refused with 21 that the stocks alone would have allowed: the cars on lines count.
    pub lines: u64,
    /// Readings refused with 18 for a record of kind 3, by edition; in one that has gates, for its
    /// direction.
    pub malformed: [u64; EDITIONS.len()],
    /// The last of these by direction.
    pub wrong_ways: [u64; WRONG_WAYS.end],
    /// Readings refused with 19 at a record of kind 3.
    pub refused: u64,
    /// Complete recordings, each of a list of its own, whose total is not that of the opening.
    pub other_totals: u64,
    /// The same above 65,535.
    pub high_totals: u64,
}

impl Gates {
    /// What must have been met, by name, with the times and how often it is needed.
    fn others(&self) -> Vec<(String, u64, u64)> {
        let mut others = Vec::new();
        let mut other = |name: String, times| others.push((name, times, LEAST_GATES));
        for (kind, &times) in self.accepted.iter().enumerate() {
            other(gate_name(kind), times);
        }
        other(
            "entries refused with 21 for cars on lines".to_string(),
            self.lines,
        );
        for (&edition, &times) in EDITIONS.iter().zip(&self.malformed) {
            let name = format!("readings refused with 18 for kind 3, edition {edition}");
            other(name, times);
        }
        for way in WRONG_WAYS {
            let name = format!("readings refused with 18 for direction {way}");
            other(name, self.wrong_ways[way]);
        }
        other(
            "readings refused with 19 at a gate".to_string(),
            self.refused,
        );
        other(
            "complete recordings with another total than the opening".to_string(),
            self.other_totals,
        );
        other(
            "complete recordings with a total above 65,535".to_string(),
            self.high_totals,
        );
        others
    }
}

/// An accepted receipt.
#[derive(Clone, Copy, Debug)]
pub struct Receipt {
    pub edition: u32,
    /// Whether it took a request.
    pub request: bool,
    /// How many items remain on its line, and whether a request is among them.
    pub left: usize,
    pub leaves_request: bool,
}

/// What was met of how many items remain on the line of a receipt.
#[derive(Clone, Debug, Default, PartialEq, Eq)]
pub struct Remaining {
    /// Accepted receipts by edition, then by how many items they left.
    pub left: [[u64; PLACES]; EDITIONS.len()],
    /// Those that took a request and left something behind it.
    pub behind_requests: u64,
    /// Those that left a request.
    pub requests: u64,
    /// Readings whose last receipt left something.
    pub readings: u64,
    /// Readings whose last receipt left another number than is on its line in the end.
    pub changed: u64,
    /// Readings without a receipt.
    pub without: u64,
    /// Readings refused with 18 or 19 behind a receipt that left something.
    pub refused: u64,
}

impl Remaining {
    /// What must have been met beside the numbers, by name, with the times and how often it is needed.
    fn others(&self) -> Vec<(String, u64, u64)> {
        [
            (
                "receipts of a request with items behind it",
                self.behind_requests,
            ),
            ("receipts that leave a request on the line", self.requests),
            ("readings whose last receipt left items", self.readings),
            (
                "readings whose last receipt left another number than waits in the end",
                self.changed,
            ),
            ("readings without a receipt", self.without),
            (
                "readings refused behind a receipt that left items",
                self.refused,
            ),
        ]
        .map(|(name, times)| (name.to_string(), times, LEAST_REMAINING))
        .to_vec()
    }
}

/// The numbers that an opening without stocks gives under each heading.
pub const EMPTY: [&[u8]; HEADINGS.len()] = [&[0, 2], &[0, 2], &[0, 2], &[15]];

/// What was met of openings without stocks.
#[derive(Clone, Debug, Default, PartialEq, Eq)]
pub struct Empty {
    /// Times by heading, then by refusal number.
    pub times: [[u64; HIGHEST + 1]; HEADINGS.len()],
    /// By edition: openings with zeros alone, not as many as zones, refused with 3.
    pub zeros: [u64; EDITIONS.len()],
    /// By edition: complete recordings, each of a list of its own, that such an opening begins.
    pub complete: [u64; EDITIONS.len()],
}

impl Empty {
    /// What must have been met, by name, with the times and how often it is needed.
    fn others(&self) -> Vec<(String, u64, u64)> {
        let mut others = Vec::new();
        for (place, heading) in HEADINGS.iter().enumerate() {
            for &number in EMPTY[place] {
                let name = format!("openings without stocks answering {number}, {heading}");
                others.push((name, self.times[place][usize::from(number)], LEAST_EMPTY));
            }
        }
        for (place, heading) in HEADINGS.iter().enumerate().take(EDITIONS.len()) {
            let name = format!("openings with too few or too many zeros, {heading}");
            others.push((name, self.zeros[place], LEAST_EMPTY));
            let name = format!("complete recordings from no stocks, {heading}");
            others.push((name, self.complete[place], LEAST_EMPTY));
        }
        others
    }
}

/// What was met of pages, each of a run that was compared.
#[derive(Clone, Debug, Default, PartialEq, Eq)]
pub struct Pages {
    /// Those with 8 zones.
    pub eight_zones: u64,
    /// Those with a line that has items and no cars.
    pub empty_lines: u64,
    /// Those with more than 65,535 cars on a line.
    pub high_lines: u64,
    /// Those with a total above 65,535.
    pub high_totals: u64,
    /// Those with a total of six digits, which fills its column.
    pub widest_totals: u64,
}

impl Pages {
    /// What must have been met, by name, with the times and how often it is needed.
    fn others(&self) -> Vec<(String, u64, u64)> {
        [
            ("pages with 8 zones", self.eight_zones),
            ("pages with a line of 0 cars", self.empty_lines),
            ("pages with a line above 65,535", self.high_lines),
            ("pages with a total above 65,535", self.high_totals),
            ("pages with a total of six digits", self.widest_totals),
        ]
        .map(|(name, times)| (name.to_string(), times, LEAST_PAGES))
        .to_vec()
    }
}

/// What a journal that was read holds of what a conversion looks at.
#[derive(Clone, Debug, Default)]
pub struct Held {
    /// The number of records.
    pub records: usize,
    /// The positions of hand-overs of 0 cars, and how many of these are still on a line.
    pub no_cars: Vec<usize>,
    pub waiting: usize,
    /// The positions of gate records, and how many of these have cars.
    pub gates: Vec<usize>,
    pub gates_with_cars: usize,
    /// Whether the recording was started, and whether it is complete.
    pub started: bool,
    pub complete: bool,
}

/// Says whether there is one position alone, that of the first record; and that of the last one.
fn is_alone(positions: &[usize], records: usize) -> [bool; 2] {
    [0, records.wrapping_sub(1)].map(|place| positions == [place])
}

/// What was met of conversions, each of a journal that was compared. What is an array of two by
/// conversion has the upgrade first.
#[derive(Clone, Debug, Default, PartialEq, Eq)]
pub struct Conversions {
    /// Accepted ones by conversion: of complete recordings, of incomplete and of unstarted ones.
    pub accepted: [[u64; 3]; 2],
    /// Accepted ones with 1,000 records, by conversion.
    pub longest: [u64; 2],
    /// Those refused with 22, by conversion: for the first record alone, for the last one alone, and
    /// for hand-overs none of which was received.
    pub no_cars: [[u64; 3]; 2],
    /// Downgrades refused with 22 whose first hand-over of 0 cars stands behind a gate record, and
    /// before all.
    pub beside_gates: [u64; 2],
    /// Downgrades refused with 23: for the first record alone, for the last one alone, and for gates of
    /// 0 cars alone.
    pub gates: [u64; 3],
}

impl Conversions {
    fn add(&mut self, conversion: Conversion, refusal: u8, held: &Held) {
        let place = CONVERSIONS.iter().position(|&it| it == conversion);
        let place = place.expect("there are two conversions");
        let Held { no_cars, gates, .. } = held;
        match refusal {
            0 => {
                let kind = usize::from(!held.complete) + usize::from(!held.started);
                self.accepted[place][kind] += 1;
                self.longest[place] += u64::from(held.records == MOST_RECORDS);
            }
            22 => {
                let [first, last] = is_alone(no_cars, held.records);
                let kinds = [first, last, held.waiting == no_cars.len()];
                add_all(&mut self.no_cars[place], kinds);
                let behind = gates.first() < no_cars.first();
                let beside = !gates.is_empty();
                add_all(
                    &mut self.beside_gates,
                    [beside && behind, beside && !behind],
                );
            }
            23 => {
                let [first, last] = is_alone(gates, held.records);
                add_all(&mut self.gates, [first, last, held.gates_with_cars == 0]);
            }
            _ => (),
        }
    }

    /// What must have been met, by name, with the times and how often it is needed.
    fn others(&self) -> Vec<(String, u64, u64)> {
        let mut others = Vec::new();
        let mut other = |name: String, times| others.push((name, times, LEAST_CONVERSIONS));
        for (place, conversion) in CONVERSIONS.iter().enumerate() {
            let word = conversion.word();
            for (kind, times) in RECORDINGS.iter().zip(self.accepted[place]) {
                other(format!("{word} of {kind} recording"), times);
            }
            other(format!("{word} of 1,000 records"), self.longest[place]);
            for (kind, times) in NO_CARS_FOR.iter().zip(self.no_cars[place]) {
                other(format!("{word} refused with 22 for {kind}"), times);
            }
        }
        for (kind, times) in ["behind", "before"].iter().zip(self.beside_gates) {
            other(format!("downgrade refused with 22 {kind} a gate"), times);
        }
        for (kind, times) in GATES_FOR.iter().zip(self.gates) {
            other(format!("downgrade refused with 23 for {kind}"), times);
        }
        others
    }
}

/// Adds one to each count whose kind was met.
fn add_all<const N: usize>(times: &mut [u64; N], met: [bool; N]) {
    for (times, met) in times.iter_mut().zip(met) {
        *times += u64::from(met);
    }
}

const RECORDINGS: [&str; 3] = ["a complete", "an incomplete", "an unstarted"];
const NO_CARS_FOR: [&str; 3] = [
    "the first record alone",
    "the last record alone",
    "hand-overs that are not received",
];
const GATES_FOR: [&str; 3] = [
    "the first record alone",
    "the last record alone",
    "gates of 0 cars alone",
];

/// How often each number of each call must be met under each heading.
pub const LEAST_ANSWERS: u64 = 100;
/// How often each kind of hand-over of 0 cars must be taken in each edition.
pub const LEAST_CHECKS: u64 = 100;
/// How often each of what is counted of gates must be met.
pub const LEAST_GATES: u64 = 100;
/// How often each number of items must remain at a receipt of each edition, and what else is counted of
/// them must be met.
pub const LEAST_REMAINING: u64 = 100;
/// How often each of what is counted of openings without stocks must be met.
pub const LEAST_EMPTY: u64 = 100;
/// How often each of what is counted of pages must be met.
pub const LEAST_PAGES: u64 = 100;
/// How often each of what is counted of conversions must be met.
pub const LEAST_CONVERSIONS: u64 = 100;
/// How many complete recordings of each edition must have a provisional mark turned firm.
pub const LEAST_TURNED: u64 = 1_000;
/// How many complete recordings of each edition must have a line above 16.
pub const LEAST_ABOVE: u64 = 100;

/// A difference with the text of both answers.
#[derive(Clone, Debug)]
pub struct Found {
    /// What was compared: a call of the libraries or a demand.
    pub name: &'static str,
    pub difference: Box<Difference>,
    pub expected: String,
    pub proved: String,
}

/// A found difference with the call that led to it and what went before.
#[derive(Debug)]
pub struct Failure {
    pub before: String,
    pub call: String,
    pub found: Found,
}

impl Failure {
    pub fn new(before: String, call: String, found: Found) -> Failure {
        Failure {
            before,
            call,
            found,
        }
    }
}

fn found<A: Answer>(entry: Entry, difference: Difference, expected: &A, proved: &A) -> Found {
    Found {
        name: ENTRIES[entry as usize].0,
        difference: Box::new(difference),
        expected: expected.text(),
        proved: proved.text(),
    }
}

#[derive(Clone, Debug, Default)]
pub struct Counts {
    /// Times by heading, then by call, then by refusal number.
    pub times: [[[u64; HIGHEST + 1]; ENTRIES.len()]; HEADINGS.len()],
    /// Hand-overs of 0 cars taken, by edition, then by kind.
    pub checks: [[u64; CHECKS]; EDITIONS.len()],
    pub gates: Gates,
    pub remaining: Remaining,
    pub empty: Empty,
    pub pages: Pages,
    pub conversions: Conversions,
    /// By edition: complete recordings, each of a list of its own, with a provisional mark turned firm.
    pub turned: [u64; EDITIONS.len()],
    /// By edition: complete recordings, each of a list of its own, with a recorded line above 16.
    pub above: [u64; EDITIONS.len()],
    pub comparisons: u64,
}

impl Counts {
    /// Compares two answers whole and counts the number that both give, under the edition of what
    /// was passed.
    pub fn same<A: Answer>(
        &mut self,
        entry: Entry,
        edition: u32,
        expected: &A,
        proved: &A,
    ) -> Result<(), Found> {
        self.equal(entry, expected, proved)?;
        let counted = self.number(entry, edition, proved.refusal());
        counted.map_err(|difference| found(entry, difference, expected, proved))
    }

    /// Compares two answers whole whose number is counted elsewhere.
    pub fn equal<A: Answer>(
        &mut self,
        entry: Entry,
        expected: &A,
        proved: &A,
    ) -> Result<(), Found> {
        self.comparisons += 1;
        let checked = expected.check(proved);
        checked.map_err(|difference| found(entry, difference, expected, proved))
    }

    /// Counts a number; one that the call cannot give is a difference, whoever gave it.
    fn number(&mut self, entry: Entry, edition: u32, refusal: u8) -> Result<(), Difference> {
        let (heading, call) = (heading(edition), ENTRIES[entry as usize]);
        let numbers = call.1[heading];
        if !numbers.contains(&refusal) {
            return Err(Difference {
                field: format!("refusal, which both give, of {}", call.0),
                expected: format!("one of {numbers:?}, {}", HEADINGS[heading]),
                proved: refusal.to_string(),
            });
        }
        self.times[heading][entry as usize][usize::from(refusal)] += 1;
        Ok(())
    }

    /// Counts an opening by its stocks and its number.
    pub fn opening(&mut self, edition: u32, stocks: &[u16], refusal: u8) {
        let place = heading(edition);
        if stocks.is_empty() {
            self.empty.times[place][usize::from(refusal)] += 1;
        } else if refusal == 3 && stocks.iter().all(|&stock| stock == 0) {
            self.empty.zeros[place] += 1;
        }
    }

    /// Counts a hand-over of 0 cars that was taken.
    pub fn check(&mut self, check: Check) {
        self.checks[heading(check.edition)][check.kind()] += 1;
    }

    /// Counts a gate call that was accepted.
    pub fn gate(&mut self, gate: Gate) {
        self.gates.accepted[gate.kind()] += 1;
    }

    /// Counts a reading that a record of kind 3 made end.
    pub fn gate_record(&mut self, edition: u32, word: u16, refusal: u32) {
        let place = heading(edition);
        if word < 3 << 14 || place >= EDITIONS.len() {
            return;
        }
        match refusal {
            18 => {
                self.gates.malformed[place] += 1;
                if has_gates(edition) {
                    self.gates.wrong_ways[usize::from(word >> 8 & 7)] += 1;
                }
            }
            19 => self.gates.refused += 1,
            _ => (),
        }
    }

    /// Counts an accepted receipt.
    pub fn receipt(&mut self, receipt: Receipt) {
        let remaining = &mut self.remaining;
        remaining.left[heading(receipt.edition)][receipt.left] += 1;
        remaining.behind_requests += u64::from(receipt.request && receipt.left != 0);
        remaining.requests += u64::from(receipt.leaves_request);
    }

    /// Counts an accepted reading by how many items its last receipt left, and how many are on the
    /// line of that receipt in the end; there is no such line without a receipt.
    pub fn reading(&mut self, left: u8, waiting: Option<u8>) {
        let remaining = &mut self.remaining;
        remaining.readings += u64::from(left != 0);
        remaining.changed += u64::from(waiting.is_some_and(|waiting| waiting != left));
        remaining.without += u64::from(waiting.is_none());
    }

    /// Counts a reading that a record made end, by how many items the last receipt before it left.
    pub fn refused_reading(&mut self, left: usize) {
        self.remaining.refused += u64::from(left != 0);
    }

    /// Counts a complete recording that an opening without stocks began.
    pub fn complete_from_empty(&mut self, edition: u32) {
        self.empty.complete[heading(edition)] += 1;
    }

    /// Counts a complete recording with its total and that of its opening.
    pub fn complete(&mut self, edition: u32, turned: bool, above: bool, totals: (u32, u32)) {
        let place = heading(edition);
        self.turned[place] += u64::from(turned);
        self.above[place] += u64::from(above);
        self.gates.other_totals += u64::from(totals.0 != totals.1);
        self.gates.high_totals += u64::from(totals.0 > 65_535);
    }

    /// Counts a page by what its lines say; one without bytes was refused.
    pub fn page(&mut self, page: &[u8]) {
        let lines: Vec<&str> = std::str::from_utf8(page)
            .expect("a page is text")
            .lines()
            .collect();
        let last = |line: &str| -> u32 {
            let column = line[10..].trim_start();
            column.parse().expect("a line ends with a number")
        };
        let numbers = |kind: char| -> Vec<u32> {
            let of_kind = lines.iter().filter(|line| line.starts_with(kind));
            of_kind.map(|line| last(line)).collect()
        };
        let (cars, totals) = (numbers('L'), numbers('T'));
        let pages = &mut self.pages;
        pages.eight_zones += u64::from(numbers('Z').len() == 8);
        pages.empty_lines += u64::from(cars.contains(&0));
        pages.high_lines += u64::from(cars.iter().any(|&cars| cars > 65_535));
        pages.high_totals += u64::from(totals.iter().any(|&total| total > 65_535));
        pages.widest_totals += u64::from(totals.iter().any(|&total| total > 99_999));
    }

    /// Counts a conversion of a journal by its number and by what the journal holds.
    pub fn conversion(&mut self, conversion: Conversion, refusal: u8, held: &Held) {
        self.conversions.add(conversion, refusal, held);
    }

    /// The floors that were not reached, each with what was counted.
    pub fn missed(&self) -> Vec<String> {
        let mut missed = Vec::new();
        let mut floor = |name: String, times: u64, least: u64| {
            if times < least {
                missed.push(format!(
                    "{name}: {times} times, at least {least} are needed"
                ));
            }
        };
        for (place, heading) in HEADINGS.iter().enumerate() {
            for (times, call) in self.times[place].iter().zip(ENTRIES) {
                for &number in call.1[place] {
                    let name = format!("{} answering {number}, {heading}", call.0);
                    floor(name, times[usize::from(number)], LEAST_ANSWERS);
                }
            }
        }
        for (heading, left) in HEADINGS.iter().zip(&self.remaining.left) {
            for (number, &times) in left.iter().enumerate() {
                let name = format!("receipts that leave {number}, {heading}");
                floor(name, times, LEAST_REMAINING);
            }
        }
        for (name, times, least) in self.others() {
            floor(name, times, least);
        }
        missed
    }

    /// What is counted beside the numbers: its name, the times and how often it is needed.
    fn others(&self) -> Vec<(String, u64, u64)> {
        let mut others = Vec::new();
        for (place, heading) in HEADINGS.iter().enumerate().take(EDITIONS.len()) {
            for (kind, &times) in self.checks[place].iter().enumerate() {
                let name = format!("{}, {heading}", check_name(kind));
                others.push((name, times, LEAST_CHECKS));
            }
            let name = format!("complete recordings with a mark turned firm, {heading}");
            others.push((name, self.turned[place], LEAST_TURNED));
            let name = format!("complete recordings with a line above 16, {heading}");
            others.push((name, self.above[place], LEAST_ABOVE));
        }
        others.extend(self.gates.others());
        others.extend(self.remaining.others());
        others.extend(self.empty.others());
        others.extend(self.pages.others());
        others.extend(self.conversions.others());
        others
    }

    pub fn table(&self) -> String {
        let mut lines = String::new();
        for (place, heading) in HEADINGS.iter().enumerate() {
            lines += &format!("{heading:22} number: times\n");
            for (times, call) in self.times[place].iter().zip(ENTRIES) {
                let cells: Vec<String> = call.1[place]
                    .iter()
                    .map(|&number| format!("{number}: {}", times[usize::from(number)]))
                    .collect();
                if !cells.is_empty() {
                    lines += &format!("  {:20} {}\n", call.0, cells.join(", "));
                }
            }
        }
        for (heading, left) in HEADINGS.iter().zip(&self.remaining.left) {
            let cells: Vec<String> = left
                .iter()
                .enumerate()
                .map(|(number, times)| format!("{number}: {times}"))
                .collect();
            let cells = cells.join(", ");
            lines += &format!("receipts by how many items they leave, {heading}: {cells}\n");
        }
        for (name, times, _) in self.others() {
            lines += &format!("{name}: {times}\n");
        }
        lines
    }
}
