//! The recording of a run as a page of text, which control rooms pin up.

use crate::journal;
use crate::recording::{self, Shown};
use crate::site::Run;

/// "16 characters and a line feed".
const LINE_BYTES: usize = 17;

/// Enough for any page: a line for each of 8 zones and of the 56 lines between them, and the total.
pub const MOST_BYTES: usize = LINE_BYTES * (8 + 8 * 7 + 1);

/// Writes the page and gives the refusal and the number of bytes written. "Questions are those of
/// the recording, 14 for the page's bytes."
pub fn write(run: &Run, lent: &mut [u8]) -> (u32, usize) {
    match recording::shown(run) {
        Ok(shown) => journal::lend(text(&shown).as_bytes(), lent),
        Err(refusal) => (refusal, 0),
    }
}

/// The page of what a recording shows. "Order: zones, lines by sender then receiver, total."
pub fn text(shown: &Shown) -> String {
    let mut page = String::new();
    for (index, zone) in shown.zones.iter().enumerate() {
        let (number, mark) = (index + 1, if zone.firm { 'F' } else { '-' });
        page += &format!("Z{number} {mark} {:>4} {:>6}\n", zone.events, zone.stock);
    }
    let table = cars(shown);
    for (a, row) in shown.lines.iter().enumerate() {
        for (b, line) in row.iter().enumerate() {
            // "Empty lines are left out": those without an item, not those without a car.
            if !line.is_empty() {
                let (from, to, items, cars) = (a + 1, b + 1, line.len(), table[a][b]);
                page += &format!("L{from}{to}  {items:>4} {cars:>6}\n");
            }
        }
    }
    page + &format!("T         {:>6}\n", shown.total)
}

/// "An 8 by 8 table of cars, sender by receiver".
fn cars(shown: &Shown) -> [[u32; 8]; 8] {
    let sum = |line: &Vec<u8>| line.iter().map(|&cars| u32::from(cars)).sum();
    shown.lines.each_ref().map(|row| row.each_ref().map(sum))
}
