//! A peer of the proved code, written for speed: the same calls by docs/RULES.md, in
//! place on lent values, with fixed arrays, no heap and no unsafe code. Every question is asked,
//! question 1 of every call included; its fuller form is one replay.
//!
//! A call answers 0 or the number of the first question that says no; then nothing is changed. An
//! accepted receipt also answers how many items remain on its line. A set of zones is a byte in which
//! zone k is the bit of weight 2 to the power k - 1.

#![forbid(unsafe_code)]

pub mod conversion;
mod page;
mod replay;
pub mod site;
pub mod zone;

/// The edition of a run or zone whose opening was refused, and that in which every hand-over is
/// traffic. From the next one on, one of 0 cars is a line check.
const FIRST_EDITION: u8 = 1;

/// The first edition that has gates.
const GATES_EDITION: u8 = 3;

/// Questions 1 and 15, for the edition: it is 1 to 3.
#[inline]
fn is_edition(edition: u8) -> bool {
    edition.wrapping_sub(FIRST_EDITION) < 3
}

/// The fewest cars of a hand-over that is traffic, in a sound edition: 0 in the first, 1 in the others.
#[inline]
fn fewest(edition: u8) -> u16 {
    u16::from(edition / 2)
}

/// Question 15 at a gate, in a sound edition.
#[inline]
fn has_gates(edition: u8) -> bool {
    edition >= GATES_EDITION
}

/// The most cars in stocks and on lines together.
const MOST_CARS: u32 = 65_535;

/// The set of all zones of a site of at most 8.
#[inline]
fn everybody(count: u8) -> u8 {
    !(0xFF_u32 << count) as u8
}

/// The indices of a set's zones, from the lowest on.
#[inline]
fn members(mut set: u8) -> impl Iterator<Item = usize> {
    std::iter::from_fn(move || {
        let index = set.trailing_zeros() as usize;
        set &= set.wrapping_sub(1);
        (index < 8).then_some(index)
    })
}
