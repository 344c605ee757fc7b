//! Comparison of two answers, field by field and byte by byte.

use crate::ffi::{
    PlainAnswer, PlainLocal, PlainOpening, PlainReading, PlainRun, PlainStep, PlainWritten,
    PlainZone,
};
use crate::text;
use std::fmt::Debug;

/// The first field in which an answer differs, with both values.
#[derive(Clone, Debug, PartialEq, Eq)]
pub struct Difference {
    pub field: String,
    pub expected: String,
    pub proved: String,
}

pub type Check = Result<(), Difference>;

/// An answer of a call: what must be compared of it, and what a report says of it.
pub trait Answer {
    fn refusal(&self) -> u8;
    /// Compares the expected answer with the one of the proved code.
    fn check(&self, proved: &Self) -> Check;
    fn text(&self) -> String;
}

/// What a call that writes answers, with the lent bytes after it.
#[derive(Clone, Debug, PartialEq, Eq)]
pub struct Output {
    pub answer: PlainWritten,
    pub bytes: Vec<u8>,
}

/// Compares one field.
pub fn one<T: PartialEq + Debug>(field: &str, expected: T, proved: T) -> Check {
    if expected == proved {
        return Ok(());
    }
    Err(Difference {
        field: field.to_string(),
        expected: format!("{expected:?}"),
        proved: format!("{proved:?}"),
    })
}

/// Compares two lists and names the first place that differs.
fn list<T: PartialEq + Debug>(field: &str, expected: &[T], proved: &[T]) -> Check {
    if expected == proved {
        return Ok(());
    }
    for (index, (a, b)) in expected.iter().zip(proved).enumerate() {
        one(&format!("{field}[{index}]"), a, b)?;
    }
    one(&format!("length of {field}"), expected.len(), proved.len())
}

fn locals(index: usize, expected: &PlainLocal, proved: &PlainLocal) -> Check {
    if expected == proved {
        return Ok(());
    }
    let name = |field: &str| format!("run.zones[{index}].{field}");
    one(&name("stock"), expected.stock, proved.stock)?;
    one(&name("events"), expected.events, proved.events)?;
    one(&name("deps"), expected.deps, proved.deps)?;
    one(&name("mark"), expected.mark, proved.mark)?;
    one(&name("saved"), expected.saved, proved.saved)
}

/// Compares every field of two runs, storage off the site included.
pub fn runs(expected: &PlainRun, proved: &PlainRun) -> Check {
    one("run.count", expected.count, proved.count)?;
    one("run.edition", expected.edition, proved.edition)?;
    one("run.records", expected.records, proved.records)?;
    for (index, zone) in expected.zones.iter().enumerate() {
        locals(index, zone, &proved.zones[index])?;
    }
    list("run.opening", &expected.opening, &proved.opening)?;
    list("run.lens", &expected.lens, &proved.lens)?;
    list("run.items", &expected.items, &proved.items)?;
    list("run.journal", &expected.journal, &proved.journal)
}

fn zones(expected: &PlainZone, proved: &PlainZone) -> Check {
    one("zone.number", expected.number, proved.number)?;
    one("zone.count", expected.count, proved.count)?;
    one("zone.deps", expected.deps, proved.deps)?;
    one("zone.mark", expected.mark, proved.mark)?;
    one("zone.stock", expected.stock, proved.stock)?;
    one("zone.events", expected.events, proved.events)?;
    one("zone.saved", expected.saved, proved.saved)?;
    one("zone.edition", expected.edition, proved.edition)
}

impl Answer for PlainAnswer {
    fn refusal(&self) -> u8 {
        self.refusal
    }

    fn check(&self, proved: &Self) -> Check {
        one("refusal", self.refusal, proved.refusal)?;
        one("remaining", self.remaining, proved.remaining)?;
        runs(&self.run, &proved.run)
    }

    fn text(&self) -> String {
        let run = text::run(&self.run);
        format!(
            "refusal {}, remaining {}, run:\n{run}",
            self.refusal, self.remaining
        )
    }
}

impl Answer for PlainReading {
    fn refusal(&self) -> u8 {
        self.refusal
    }

    fn check(&self, proved: &Self) -> Check {
        one("refusal", self.refusal, proved.refusal)?;
        one("position", self.position, proved.position)?;
        one("remaining", self.remaining, proved.remaining)?;
        runs(&self.run, &proved.run)
    }

    fn text(&self) -> String {
        let run = text::run(&self.run);
        format!(
            "refusal {}, position {}, remaining {}, run:\n{run}",
            self.refusal, self.position, self.remaining
        )
    }
}

impl Answer for Output {
    fn refusal(&self) -> u8 {
        self.answer.refusal
    }

    fn check(&self, proved: &Self) -> Check {
        one("refusal", self.answer.refusal, proved.answer.refusal)?;
        one("total", self.answer.total, proved.answer.total)?;
        one("position", self.answer.position, proved.answer.position)?;
        one("written", self.answer.written, proved.answer.written)?;
        list("bytes", &self.bytes, &proved.bytes)
    }

    fn text(&self) -> String {
        let PlainWritten {
            refusal,
            total,
            position,
            written,
        } = self.answer;
        let bytes = text::bytes(&self.bytes);
        format!(
            "refusal {refusal}, total {total}, position {position}, written {written}, lent bytes {bytes}"
        )
    }
}

impl Answer for PlainOpening {
    fn refusal(&self) -> u8 {
        self.refusal
    }

    fn check(&self, proved: &Self) -> Check {
        one("refusal", self.refusal, proved.refusal)?;
        zones(&self.zone, &proved.zone)
    }

    fn text(&self) -> String {
        format!("{self:?}")
    }
}

impl Answer for PlainStep {
    fn refusal(&self) -> u8 {
        self.refusal
    }

    fn check(&self, proved: &Self) -> Check {
        one("refusal", self.refusal, proved.refusal)?;
        one("flag", self.flag, proved.flag)?;
        one("to", self.to, proved.to)?;
        one("carried", self.carried, proved.carried)?;
        zones(&self.zone, &proved.zone)
    }

    fn text(&self) -> String {
        format!("{self:?}")
    }
}

/// A bare number, as counting a set's zones answers it; such a call refuses nothing.
impl Answer for u32 {
    fn refusal(&self) -> u8 {
        0
    }

    fn check(&self, proved: &Self) -> Check {
        one("number", self, proved)
    }

    fn text(&self) -> String {
        self.to_string()
    }
}
