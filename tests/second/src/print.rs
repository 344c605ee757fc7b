//! The texts that the programs print for a journal.

use crate::conversion::{convert, Conversion, CONVERSIONS};
use crate::site::Run;
use crate::{journal, page, recording};

/// More bytes than any recording, page or accepted journal has.
pub const MOST_BYTES: usize = 2 + 4 * 8 + 2 * 1_023;

/// Bytes as two upper-case digits each, with single spaces and a line feed.
pub fn digits(bytes: &[u8]) -> String {
    let pairs: Vec<String> = bytes.iter().map(|byte| format!("{byte:02X}")).collect();
    pairs.join(" ") + "\n"
}

/// The printed line of a journal: its recording, or the refusal of reading or recording.
pub fn line(bytes: &[u8]) -> String {
    let record = |run: &Run, lent: &mut [u8]| {
        let (refusal, written, _) = recording::write(run, lent);
        (refusal, written)
    };
    printed(bytes, record).map_or_else(refused, |bytes| digits(&bytes))
}

/// The printed page of a journal, or the refusal, which is that of its line.
pub fn page(bytes: &[u8]) -> String {
    let text = |bytes| String::from_utf8(bytes).expect("a page is text");
    printed(bytes, page::write).map_or_else(refused, text)
}

/// The printed answer of a conversion that is lent so many bytes: the converted journal in the form of
/// a recording, or the refusal.
pub fn conversion(conversion: Conversion, bytes: &[u8], lent: usize) -> String {
    let mut lent = vec![0; lent];
    let answer = convert(conversion, bytes, &mut lent);
    match answer.refusal {
        0 => digits(&lent[..answer.written]),
        refusal => refused(refusal),
    }
}

/// The texts of a journal as crates/cases prints them: its line, its page, and both conversions, lent
/// enough bytes.
pub fn all(bytes: &[u8]) -> String {
    let converted = CONVERSIONS.map(|way| conversion(way, bytes, bytes.len()));
    line(bytes) + &page(bytes) + &converted.concat()
}

/// The printed line of a refusal.
pub fn refused(refusal: u32) -> String {
    format!("refused {refusal}\n")
}

/// What a writer makes of a journal's run, or the refusal of reading or writing.
fn printed(bytes: &[u8], write: impl Fn(&Run, &mut [u8]) -> (u32, usize)) -> Result<Vec<u8>, u32> {
    let reading = journal::read(bytes);
    if reading.refusal != 0 {
        return Err(reading.refusal);
    }
    let mut lent = [0; MOST_BYTES];
    match write(&reading.run, &mut lent) {
        (0, written) => Ok(lent[..written].to_vec()),
        (refusal, _) => Err(refusal),
    }
}
