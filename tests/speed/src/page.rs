//! The lines of a page.

/// 16 characters and a line feed.
pub(crate) const LINE_BYTES: usize = 17;

/// Writes a number into a column of spaces, right-aligned.
#[inline(always)]
fn write_number(column: &mut [u8], mut number: u32) {
    for byte in column.iter_mut().rev() {
        *byte = b'0' + (number % 10) as u8;
        number /= 10;
        if number == 0 {
            return;
        }
    }
}

/// Writes a line: its front, in most a number in 4 characters, and one in 6.
#[inline(always)]
fn write_line(out: &mut [u8], front: [u8; 4], first: Option<u16>, second: u32) {
    let mut line = *b"                \n";
    line[..4].copy_from_slice(&front);
    if let Some(first) = first {
        write_number(&mut line[5..9], first.into());
    }
    write_number(&mut line[10..16], second);
    out.copy_from_slice(&line);
}

/// The line of the zone at an index.
#[inline(always)]
pub(crate) fn write_zone(out: &mut [u8], zone: usize, is_firm: bool, events: u16, stock: u16) {
    let mark = if is_firm { b'F' } else { b'-' };
    let front = [b'Z', b'1' + zone as u8, b' ', mark];
    write_line(out, front, Some(events), stock.into());
}

/// The line of the recorded items from the zone at one index to that at another.
#[inline(always)]
pub(crate) fn write_items(out: &mut [u8], a: usize, b: usize, items: u16, cars: u32) {
    let front = [b'L', b'1' + a as u8, b'1' + b as u8, b' '];
    write_line(out, front, Some(items), cars);
}

/// The last line.
#[inline(always)]
pub(crate) fn write_total(out: &mut [u8], total: u32) {
    write_line(out, *b"T   ", None, total);
}
