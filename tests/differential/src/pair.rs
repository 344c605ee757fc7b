//! One run kept by both implementations, compared after every call.

use crate::compare::{one, Difference};
use crate::count::{Check, Counts, Entry, Failure, Found, Gate, Receipt};
use crate::expect::{self, Made, Writings};
use crate::ffi::{self, PlainAnswer, PlainReading, PlainRun, PlainWritten};
use crate::header::{self, Calls};
use crate::plain;
use crate::text;
use second::demand3::{self, Lines, Seen};
use second::edition::fewest;
use second::journal::decode;
use second::random::{finish, Random};
use second::site::{sum, Answer, Call, Direction, Item, Run, PLACES};
use second::zone::{Body, Mark};

pub struct Pair<'a> {
    /// The second implementation's run.
    pub run: Run,
    /// The proved code's run.
    plain: PlainRun,
    opening: Vec<u16>,
    /// Whether the opening was given no stocks.
    empty: bool,
    calls: Vec<(Call, u32)>,
    /// How many items remained at the last receipt.
    remaining: u8,
    /// Whether a provisional mark has turned firm.
    turned: bool,
    counts: &'a mut Counts,
    /// Draws the lent bytes and the calls after which the writers are tried.
    random: Random,
    wait: u32,
}

/// Compares an opening with any arguments and gives the runs of both.
pub fn open(
    counts: &mut Counts,
    edition: u8,
    count: u8,
    stocks: &[u16],
) -> Result<(Run, PlainRun), Failure> {
    let named = u32::from(edition);
    let (refusal, run) = Run::open(named, u32::from(count), stocks);
    let expected = PlainAnswer {
        refusal: expect::number(refusal),
        remaining: 0,
        run: plain::plain_run(&run),
    };
    let proved = ffi::cut_site_open(edition, count, stocks);
    let compared = counts.same(Entry::SiteOpen, named, &expected, &proved);
    counts.opening(named, stocks, expected.refusal);
    let compared = compared.and_then(|()| {
        for calls in &header::CALLS {
            let open = |run: &mut PlainRun| calls.open(run, edition, count, stocks);
            opened_by_header(counts, &expected, open)?;
            if stocks.is_empty() {
                let open = |run: &mut PlainRun| calls.open_null(run, edition, count);
                opened_by_header(counts, &expected, open)?;
            }
        }
        Ok(())
    });
    let call = || format!("cut_site_open({edition}, {count}, {stocks:?})");
    compared.map_err(|found| Failure::new(String::new(), call(), found))?;
    Ok((run, proved.run))
}

/// Compares C's opening on a struct full of other values, which a refused opening leaves as it was.
fn opened_by_header(
    counts: &mut Counts,
    answer: &PlainAnswer,
    open: impl Fn(&mut PlainRun) -> u8,
) -> Result<(), Found> {
    let (mut expected, mut run) = (*answer, plain::USED);
    if expected.refusal != 0 {
        expected.run = plain::USED;
    }
    let refusal = open(&mut run);
    let by_header = PlainAnswer {
        refusal,
        remaining: 0,
        run,
    };
    counts.equal(Entry::SiteOpen, &expected, &by_header)
}

/// Says whether a provisional mark has turned firm between two moments.
fn turned(before: &[Body], after: &[Body]) -> bool {
    let was_provisional = |body: &Body| matches!(body.mark, Mark::Provisional(_));
    before
        .iter()
        .zip(after)
        .any(|(before, after)| was_provisional(before) && after.is_firm())
}

fn entry(call: Call) -> Entry {
    match call {
        Call::HandOver { .. } => Entry::SiteSend,
        Call::Receipt { .. } => Entry::SiteReceive,
        Call::Start { .. } => Entry::SiteStart,
        Call::Gate { direction, .. } => match direction {
            Direction::In => Entry::SiteEnter,
            Direction::Out => Entry::SiteLeave,
        },
    }
}

/// Counts what a gate call on a struct met.
fn count_gate(counts: &mut Counts, p: &PlainRun, made: Call, refusal: u8) {
    let Call::Gate {
        direction,
        zone,
        cars,
    } = made
    else {
        return;
    };
    let zones = p.zones.get(..usize::from(p.count)).unwrap_or(&[]);
    match refusal {
        0 => counts.gate(Gate {
            alone: false,
            out: direction == Direction::Out,
            empty: cars == 0,
            marked: zones[zone as usize - 1].mark != 0,
        }),
        21 => {
            let stocks: u32 = zones.iter().map(|zone| u32::from(zone.stock)).sum();
            counts.gates.lines += u64::from(stocks + u32::from(cars) <= 65_535);
        }
        _ => (),
    }
}

/// Counts what an accepted receipt on a struct took and left.
fn count_receipt(counts: &mut Counts, p: &PlainRun, made: Call, answer: &PlainAnswer) {
    let Call::Receipt { from, to } = made else {
        return;
    };
    if answer.refusal == 0 {
        let first = PLACES * plain::place(from as usize - 1, to as usize - 1);
        let left = &answer.run.items[first..first + usize::from(answer.remaining)];
        counts.receipt(Receipt {
            edition: u32::from(p.edition),
            request: is_request(p.items[first]),
            left: left.len(),
            leaves_request: left.iter().any(|&word| is_request(word)),
        });
    }
}

fn is_request(word: u16) -> bool {
    word >= 512
}

/// Compares the reading of a journal, and counts it by how many items remained at its last receipt.
pub fn read(
    counts: &mut Counts,
    edition: u32,
    bytes: &[u8],
    expected: &PlainReading,
) -> Result<PlainReading, Found> {
    let proved = ffi::cut_journal_read(bytes);
    counts.same(Entry::JournalRead, edition, expected, &proved)?;
    if proved.refusal == 0 {
        let run = &proved.run;
        let mut records = run.journal[..usize::from(run.records)].iter();
        let receipt = records.rfind(|&&word| word >> 14 == 1);
        let waiting = receipt.map(|word| run.lens[usize::from(word >> 8 & 63)]);
        counts.reading(proved.remaining, waiting);
    }
    Ok(proved)
}

/// Compares a call on one struct and gives the proved code's answer.
pub fn call(
    counts: &mut Counts,
    p: &PlainRun,
    call: Call,
    expected: &PlainAnswer,
) -> Result<PlainAnswer, Found> {
    let proved = expect::proved(p, call);
    counts.same(entry(call), u32::from(p.edition), expected, &proved)?;
    for calls in &header::CALLS {
        let by_header = expect::by_header(calls, p, call);
        counts.equal(entry(call), expected, &by_header)?;
    }
    count_gate(counts, p, call, proved.refusal);
    count_receipt(counts, p, call, &proved);
    Ok(proved)
}

/// A call that writes what it makes of a run into lent bytes, the same among C's calls on a run, and the
/// same of a journal.
type Writer = fn(&PlainRun, &mut [u8]) -> PlainWritten;
type HeaderWriter = fn(&Calls, &PlainRun, &mut [u8]) -> PlainWritten;
pub type JournalWriter = fn(&[u8], &mut [u8]) -> PlainWritten;

/// The bytes that are lent to a call, of several lengths.
fn lents(random: &mut Random, entry: Entry, made: &Made) -> Vec<Vec<u8>> {
    match entry {
        Entry::SitePage | Entry::JournalPage => made.page_lents(random),
        _ => made.lents(random).to_vec(),
    }
}

/// Compares all that is written of one struct, by the proved code and by C's calls on a run.
pub fn writers(
    counts: &mut Counts,
    random: &mut Random,
    p: &PlainRun,
    writings: &Writings,
) -> Result<(), Found> {
    let writers: [(Entry, &Made, Writer, HeaderWriter); 3] = [
        (
            Entry::SiteRecord,
            &writings.recording,
            ffi::cut_site_record,
            Calls::record,
        ),
        (
            Entry::SitePage,
            &writings.page,
            ffi::cut_site_page,
            Calls::page,
        ),
        (
            Entry::JournalWrite,
            &writings.journal,
            ffi::cut_journal_write,
            Calls::write,
        ),
    ];
    for (entry, made, library, write) in writers {
        for lent in lents(random, entry, made) {
            let proved = expect::written(&lent, |out| library(p, out));
            counts.same(entry, u32::from(p.edition), &made.output(&lent), &proved)?;
            for calls in &header::CALLS {
                let by_header = expect::written(&lent, |out| write(calls, p, out));
                counts.equal(entry, &proved, &by_header)?;
            }
        }
    }
    counts.page(&writings.page.bytes);
    Ok(())
}

/// Compares the recording and the page that are written of a journal.
pub fn journal_writers(
    counts: &mut Counts,
    random: &mut Random,
    journal: &[u8],
    writings: &Writings,
) -> Result<(), Found> {
    let edition = expect::edition(journal);
    let calls: [(Entry, &Made, JournalWriter); 2] = [
        (
            Entry::JournalRecord,
            &writings.recording,
            ffi::cut_journal_record,
        ),
        (Entry::JournalPage, &writings.page, ffi::cut_journal_page),
    ];
    for (entry, made, library) in calls {
        for lent in lents(random, entry, made) {
            let proved = expect::written(&lent, |out| library(journal, out));
            counts.same(entry, edition, &made.output(&lent), &proved)?;
        }
    }
    Ok(())
}

impl<'a> Pair<'a> {
    /// Opens a run with an edition and stocks that are accepted; zeros alone are often left out.
    pub fn open(
        counts: &'a mut Counts,
        random: &mut Random,
        edition: u32,
        stocks: &[u16],
    ) -> Result<Pair<'a>, Failure> {
        let empty = stocks.iter().all(|&stock| stock == 0) && random.chance(70);
        let given = if empty { &[] } else { stocks };
        let (run, plain) = open(counts, edition as u8, stocks.len() as u8, given)?;
        Ok(Pair {
            run,
            plain,
            opening: stocks.to_vec(),
            empty,
            calls: Vec::new(),
            remaining: 0,
            turned: false,
            counts,
            random: Random::new(u64::from(random.within(0, u32::MAX))),
            wait: random.within(5, 300),
        })
    }

    fn failure(&self, call: String, found: Found) -> Failure {
        let (edition, stocks) = (self.run.edition, &self.opening);
        let given = if self.empty { "not given" } else { "given" };
        let opening =
            format!("  cut_site_open with edition {edition}, stocks {stocks:?} {given} -> 0\n");
        Failure::new(opening + &text::calls(&self.calls), call, found)
    }

    /// Makes a call on both and gives its number.
    pub fn call(&mut self, made: Call) -> Result<u32, Failure> {
        let before = self.run.zones;
        let check = self.check(made);
        let Answer { refusal, remaining } = self.run.answer(made);
        let expected = PlainAnswer {
            refusal: expect::number(refusal),
            remaining: expect::number(remaining),
            run: plain::plain_run(&self.run),
        };
        let proved = call(self.counts, &self.plain, made, &expected);
        let proved = proved.map_err(|found| self.failure(text::call(made), found))?;
        self.plain = proved.run;
        self.calls.push((made, refusal));
        if refusal == 0 && matches!(made, Call::Receipt { .. }) {
            self.remaining = expected.remaining;
        }
        self.turned |= turned(&before, &self.run.zones);
        if let Some(check) = check.filter(|_| refusal == 0) {
            self.counts.check(check);
        }
        self.wait -= 1;
        if self.wait == 0 {
            self.wait = self.random.within(50, 800);
            self.write()?;
        }
        Ok(refusal)
    }

    /// The hand-over of 0 cars that a receipt would take.
    fn check(&self, call: Call) -> Option<Check> {
        let Call::Receipt { from, to } = call else {
            return None;
        };
        let (a, b) = (from.wrapping_sub(1) as usize, to.wrapping_sub(1) as usize);
        match self.run.lines.get(a)?.get(b)?.front()? {
            &Item::HandOver { cars: 0, marked } => Some(Check {
                edition: self.run.edition,
                alone: false,
                flag: marked,
                marked: self.run.zones[b].mark != Mark::None,
            }),
            _ => None,
        }
    }

    /// Sends the fewest cars that are traffic and receives, so that the receiver hears the sender.
    pub fn hear(&mut self, from: u32, to: u32) -> Result<(), Failure> {
        self.send(from, to, fewest(self.run.edition))?;
        self.receive(from, to)?;
        Ok(())
    }

    pub fn send(&mut self, from: u32, to: u32, cars: u8) -> Result<u32, Failure> {
        self.call(Call::HandOver { from, to, cars })
    }

    pub fn receive(&mut self, from: u32, to: u32) -> Result<u32, Failure> {
        self.call(Call::Receipt { from, to })
    }

    pub fn start(&mut self, zone: u32) -> Result<u32, Failure> {
        self.call(Call::Start { zone })
    }

    pub fn enter(&mut self, zone: u32, cars: u8) -> Result<u32, Failure> {
        self.gate(Direction::In, zone, cars)
    }

    pub fn leave(&mut self, zone: u32, cars: u8) -> Result<u32, Failure> {
        self.gate(Direction::Out, zone, cars)
    }

    pub fn gate(&mut self, direction: Direction, zone: u32, cars: u8) -> Result<u32, Failure> {
        self.call(Call::Gate {
            direction,
            zone,
            cars,
        })
    }

    /// Receives until no line holds a request, or no receipt is accepted.
    pub fn finish(&mut self, random: &mut Random) -> Result<(), Failure> {
        let mut ahead = self.run.clone();
        finish(random, &mut ahead);
        let records = self.run.records.len();
        for &word in &ahead.records[records..] {
            let call = decode(self.run.edition, word);
            self.call(call.expect("a record of a run is well formed"))?;
        }
        Ok(())
    }

    /// Compares everything that writes and reads at this moment, and checks demand 3 on the bytes
    /// that the proved code wrote. Gives the recording.
    fn write(&mut self) -> Result<Made, Failure> {
        let writings = Writings::of(Some(&self.run));
        self.write_all(&writings)
            .map_err(|found| self.failure("the writers and the reader".to_string(), found))?;
        Ok(writings.recording)
    }

    fn write_all(&mut self, writings: &Writings) -> Result<(), Found> {
        let random = &mut self.random;
        writers(self.counts, random, &self.plain, writings)?;

        // The journal that was written reads back as the same run and has the same recording and
        // page.
        let mut bytes = vec![0; writings.journal.bytes.len()];
        ffi::cut_journal_write(&self.plain, &mut bytes);
        let expected = PlainReading {
            refusal: 0,
            position: 0,
            remaining: self.remaining,
            run: self.plain,
        };
        read(self.counts, self.run.edition, &bytes, &expected)?;
        journal_writers(self.counts, random, &bytes, writings)?;
        self.demand_3()
    }

    /// Checks demand 3 on nothing but what the proved code showed.
    fn demand_3(&mut self) -> Result<(), Found> {
        let mut bytes = [0; 2_034];
        let answer = ffi::cut_site_record(&self.plain, &mut bytes);
        let zones = self.opening.len();
        let seen = Seen {
            edition: self.run.edition,
            opening: self.opening.clone(),
            calls: self.calls.clone(),
            answer: u32::from(answer.refusal),
            bytes: bytes[..answer.written].to_vec(),
            total: answer.total,
            stocks: self.plain.zones[..zones]
                .iter()
                .map(|zone| u64::from(zone.stock))
                .collect(),
            lines: lines(&self.plain, zones),
        };
        self.counts.comparisons += 1;
        one("findings", vec![], demand3::check(&seen)).map_err(|difference: Difference| Found {
            name: "demand 3",
            expected: difference.expected.clone(),
            proved: difference.proved.clone(),
            difference: Box::new(difference),
        })
    }

    /// Writes and reads once more after the last call, and counts a complete recording.
    pub fn end(mut self) -> Result<(), Failure> {
        let recording = self.write()?;
        if recording.refusal != 0 {
            return Ok(());
        }
        let edition = self.run.edition;
        let recorded = demand3::parse(edition, self.opening.len(), &recording.bytes)
            .expect("demand 3 has looked at the recording");
        let above = recorded.lines.iter().flatten().any(|line| line.len() > 16);
        let totals = (recording.total, sum(&self.opening) as u32);
        self.counts.complete(edition, self.turned, above, totals);
        if self.empty {
            self.counts.complete_from_empty(edition);
        }
        Ok(())
    }
}

/// The hand-overs on the lines of a run, as numbers of cars.
fn lines(p: &PlainRun, zones: usize) -> Lines {
    let line = |a: usize, b: usize| -> Vec<u8> {
        let first = 16 * plain::place(a, b);
        let length = usize::from(p.lens[plain::place(a, b)]);
        let words = &p.items[first..first + length];
        let hand_overs = words.iter().filter(|&&word| !is_request(word));
        hand_overs.map(|&word| (word % 256) as u8).collect()
    };
    (0..zones)
        .map(|a| (0..zones).map(|b| line(a, b)).collect())
        .collect()
}
