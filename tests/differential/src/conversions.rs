//! Conversions of journals: the answers and the lent bytes of both calls, and what the library says of
//! a journal and of its conversion.

use crate::compare::Output;
use crate::count::{Counts, Entry, Failure, Found, Held};
use crate::expect::{self, Made};
use crate::ffi;
use crate::header;
use crate::journals;
use crate::pair::JournalWriter;
use second::archive;
use second::conversion::{Conversion, CONVERSIONS};
use second::generate::with_edition;
use second::journal::Reading;
use second::print::MOST_BYTES;
use second::random::Random;
use second::site::{Item, Run};

/// A journal for the converter, and the same with any edition.
pub fn trial(counts: &mut Counts, random: &mut Random, index: usize) -> Result<(), Failure> {
    let edition = [1, 3][index % 2];
    let bytes = archive::journal_of(random, edition, index / 2 % archive::KINDS);
    journals::check(counts, random, &bytes)?;
    let other = with_edition(random.within(0, 7), &bytes);
    journals::check(counts, random, &other)
}

/// Compares both conversions of a journal with this reading.
pub fn both(
    counts: &mut Counts,
    random: &mut Random,
    journal: &[u8],
    reading: &Reading,
) -> Result<(), Found> {
    for conversion in CONVERSIONS {
        let made = expect::conversion(conversion, journal);
        compare(counts, random, conversion, journal, &made)?;
        let refusal = expect::number(made.refusal);
        counts.conversion(conversion, refusal, &held(&reading.run));
    }
    Ok(())
}

/// The calls of a conversion: that of the library, and the same as the header declares it.
fn calls(conversion: Conversion) -> (Entry, JournalWriter, JournalWriter) {
    match conversion {
        Conversion::Upgrade => (
            Entry::JournalUpgrade,
            ffi::cut_journal_upgrade,
            header::upgrade,
        ),
        Conversion::Downgrade => (
            Entry::JournalDowngrade,
            ffi::cut_journal_downgrade,
            header::downgrade,
        ),
    }
}

/// Compares one conversion of a journal with what it should make of it, lent one byte less than the
/// journal has, as many, more and any number up to those.
pub fn compare(
    counts: &mut Counts,
    random: &mut Random,
    conversion: Conversion,
    journal: &[u8],
    made: &Made,
) -> Result<(), Found> {
    let edition = expect::edition(journal);
    let (entry, library, declared) = calls(conversion);
    for lent in expect::lents(random, journal.len()) {
        let proved = expect::written(&lent, |out| library(journal, out));
        counts.same(entry, edition, &made.output(&lent), &proved)?;
        let by_header = expect::written(&lent, |out| declared(journal, out));
        counts.equal(entry, &proved, &by_header)?;
    }
    if made.refusal == 0 {
        alike(counts, conversion, journal, library)?;
    }
    Ok(())
}

/// Compares what the library says of a journal and of what it converts it to: the same but for the
/// edition, and converted back the same journal.
pub fn alike(
    counts: &mut Counts,
    conversion: Conversion,
    journal: &[u8],
    library: JournalWriter,
) -> Result<(), Found> {
    let target = conversion.target();
    let mut converted = vec![0; journal.len()];
    library(journal, &mut converted);
    let mut reading = ffi::cut_journal_read(journal);
    reading.run.edition = target as u8;
    let proved = ffi::cut_journal_read(&converted);
    counts.equal(Entry::JournalRead, &reading, &proved)?;
    let made = |writer: JournalWriter, journal: &[u8]| {
        expect::written(&[0; MOST_BYTES], |out| writer(journal, out))
    };
    let mut recording = made(ffi::cut_journal_record, journal);
    if recording.answer.refusal == 0 {
        recording.bytes = with_edition(target, &recording.bytes);
    }
    let proved = made(ffi::cut_journal_record, &converted);
    counts.equal(Entry::JournalRecord, &recording, &proved)?;
    let page = made(ffi::cut_journal_page, journal);
    let proved = made(ffi::cut_journal_page, &converted);
    counts.equal(Entry::JournalPage, &page, &proved)?;
    let (entry, back, _) = calls(conversion.back());
    let expected = whole(journal);
    let proved = expect::written(&vec![0; journal.len()], |out| back(&converted, out));
    counts.equal(entry, &expected, &proved)
}

/// What a conversion to these bytes answers, lent just enough.
fn whole(bytes: &[u8]) -> Output {
    let made = Made {
        refusal: 0,
        position: 0,
        bytes: bytes.to_vec(),
        total: 0,
    };
    made.output(&vec![0; bytes.len()])
}

/// What a run that was read holds of what a conversion looks at.
fn held(run: &Run) -> Held {
    let places = |holds: fn(u16) -> bool| -> Vec<usize> {
        let records = run.records.iter().enumerate();
        let holding = records.filter(|(_, &word)| holds(word));
        holding.map(|(place, _)| place).collect()
    };
    let has_no_cars = |item: &&Item| matches!(item, Item::HandOver { cars: 0, .. });
    let on_lines = run.lines.iter().flatten().flatten();
    Held {
        records: run.records.len(),
        no_cars: places(|word| word < 1 << 14 && word & 255 == 0),
        waiting: on_lines.filter(has_no_cars).count(),
        gates: places(|word| word >= 3 << 14),
        gates_with_cars: places(|word| word >= 3 << 14 && word & 255 != 0).len(),
        started: run.started(),
        complete: run.started() && !run.holds_request(),
    }
}
