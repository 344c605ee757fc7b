//! The calls of the C headers: those on a run, which take its parts to the library's functions and back,
//! inline in a program in C and as the library has them for other languages, the conversions as they are
//! declared, the parts of words, and sums over the fields of the structs by the names that C has.

use crate::ffi::{
    PlainAnswer, PlainHeadAnswer, PlainOpening, PlainReading, PlainReceived, PlainRun, PlainStep,
    PlainWritten,
};
use std::ffi::{c_char, CStr};

type Gate = unsafe extern "C" fn(*mut PlainRun, u8, u8) -> u8;
type Writer = unsafe extern "C" fn(*const PlainRun, *mut u8, usize) -> PlainWritten;

/// The calls on a run.
pub struct Calls {
    open: unsafe extern "C" fn(*mut PlainRun, u8, u8, *const u16, usize) -> u8,
    send: unsafe extern "C" fn(*mut PlainRun, u8, u8, u8) -> u8,
    receive: unsafe extern "C" fn(*mut PlainRun, u8, u8) -> PlainReceived,
    start: unsafe extern "C" fn(*mut PlainRun, u8) -> u8,
    enter: Gate,
    leave: Gate,
    record: Writer,
    page: Writer,
    write: Writer,
}

/// The calls whose names in C begin with a word.
macro_rules! calls {
    ($word:literal) => {{
        extern "C" {
            #[link_name = concat!($word, "_open")]
            fn open(run: *mut PlainRun, edition: u8, count: u8, stocks: *const u16, n: usize)
                -> u8;
            #[link_name = concat!($word, "_send")]
            fn send(run: *mut PlainRun, from: u8, to: u8, cars: u8) -> u8;
            #[link_name = concat!($word, "_receive")]
            fn receive(run: *mut PlainRun, from: u8, to: u8) -> PlainReceived;
            #[link_name = concat!($word, "_start")]
            fn start(run: *mut PlainRun, zone: u8) -> u8;
            #[link_name = concat!($word, "_enter")]
            fn enter(run: *mut PlainRun, zone: u8, cars: u8) -> u8;
            #[link_name = concat!($word, "_leave")]
            fn leave(run: *mut PlainRun, zone: u8, cars: u8) -> u8;
            #[link_name = concat!($word, "_record")]
            fn record(run: *const PlainRun, out: *mut u8, size: usize) -> PlainWritten;
            #[link_name = concat!($word, "_page")]
            fn page(run: *const PlainRun, out: *mut u8, size: usize) -> PlainWritten;
            #[link_name = concat!($word, "_write")]
            fn write(run: *const PlainRun, out: *mut u8, size: usize) -> PlainWritten;
        }
        Calls {
            open,
            send,
            receive,
            start,
            enter,
            leave,
            record,
            page,
            write,
        }
    }};
}

/// The calls inline in a program, in src/header.c, and those that the library has under their own names.
pub const CALLS: [Calls; 2] = [calls!("header"), calls!("cut")];

/// The parts of a word that the headers' functions give: as an item, as a header, as a record and as a
/// zone's first word in a recording.
#[repr(C)]
#[derive(Clone, Copy, Debug, PartialEq, Eq)]
pub struct WordParts {
    pub is_request: u16,
    pub is_above: u16,
    pub cars: u16,
    pub flag: u16,
    pub set: u16,
    pub edition: u16,
    pub zones: u16,
    pub number: u16,
    pub kind: u16,
    pub first: u16,
    pub second: u16,
    pub direction: u16,
    pub record_cars: u16,
    pub permanent: u16,
    pub events: u16,
}

/// The words that the headers' names of what parts weigh make of such parts.
#[repr(C)]
#[derive(Clone, Copy, Debug, PartialEq, Eq)]
pub struct PartWords {
    pub item: u16,
    pub header: u16,
    pub record: u16,
    pub shown: u16,
}

mod raw {
    use super::*;

    extern "C" {
        pub fn header_page_bytes() -> usize;
        pub fn header_refusal_words(refusal: u8) -> *const c_char;
        pub fn cut_refusal_words(refusal: u8) -> *const c_char;
        pub fn header_compatible() -> u8;
        pub fn header_version() -> u32;
        pub fn cut_version() -> u32;
        pub static header_kinds: [u8; 4];
        pub static header_directions: [u8; 2];
        pub fn header_parts(bytes: *const u8) -> WordParts;
        pub fn header_words(of: *const WordParts) -> PartWords;
        pub fn header_upgrade(
            bytes: *const u8,
            size: usize,
            out: *mut u8,
            room: usize,
        ) -> PlainWritten;
        pub fn header_downgrade(
            bytes: *const u8,
            size: usize,
            out: *mut u8,
            room: usize,
        ) -> PlainWritten;
        pub fn header_opening_sum(opening: *const PlainOpening) -> u64;
        pub fn header_step_sum(step: *const PlainStep) -> u64;
        pub fn header_answer_sum(answer: *const PlainAnswer) -> u64;
        pub fn header_head_answer_sum(answer: *const PlainHeadAnswer) -> u64;
        pub fn header_received_sum(received: *const PlainReceived) -> u64;
        pub fn header_reading_sum(reading: *const PlainReading) -> u64;
        pub fn header_written_sum(written: *const PlainWritten) -> u64;
    }
}

// Each pointer is that of a Rust reference or slice, but for the null one that an opening without stocks
// may have, so the calls are safe.

impl Calls {
    pub fn open(&self, run: &mut PlainRun, edition: u8, count: u8, stocks: &[u16]) -> u8 {
        unsafe { (self.open)(run, edition, count, stocks.as_ptr(), stocks.len()) }
    }

    pub fn open_null(&self, run: &mut PlainRun, edition: u8, count: u8) -> u8 {
        unsafe { (self.open)(run, edition, count, std::ptr::null(), 0) }
    }

    pub fn send(&self, run: &mut PlainRun, from: u8, to: u8, cars: u8) -> u8 {
        unsafe { (self.send)(run, from, to, cars) }
    }

    pub fn receive(&self, run: &mut PlainRun, from: u8, to: u8) -> PlainReceived {
        unsafe { (self.receive)(run, from, to) }
    }

    pub fn start(&self, run: &mut PlainRun, zone: u8) -> u8 {
        unsafe { (self.start)(run, zone) }
    }

    pub fn enter(&self, run: &mut PlainRun, zone: u8, cars: u8) -> u8 {
        unsafe { (self.enter)(run, zone, cars) }
    }

    pub fn leave(&self, run: &mut PlainRun, zone: u8, cars: u8) -> u8 {
        unsafe { (self.leave)(run, zone, cars) }
    }

    pub fn record(&self, run: &PlainRun, out: &mut [u8]) -> PlainWritten {
        unsafe { (self.record)(run, out.as_mut_ptr(), out.len()) }
    }

    pub fn page(&self, run: &PlainRun, out: &mut [u8]) -> PlainWritten {
        unsafe { (self.page)(run, out.as_mut_ptr(), out.len()) }
    }

    pub fn write(&self, run: &PlainRun, out: &mut [u8]) -> PlainWritten {
        unsafe { (self.write)(run, out.as_mut_ptr(), out.len()) }
    }
}

/// As many bytes as the header says are enough for any page.
pub fn page_bytes() -> usize {
    unsafe { raw::header_page_bytes() }
}

/// The words of a refusal, inline in a program and by the library.
pub fn refusal_words(refusal: u8) -> [&'static CStr; 2] {
    let of = [raw::header_refusal_words, raw::cut_refusal_words];
    of.map(|words| unsafe { CStr::from_ptr(words(refusal)) })
}

/// Whether the library has every call of the header, as this asks; the versions of both.
pub fn versions() -> (bool, u32, u32) {
    let compatible = unsafe { raw::header_compatible() } == 1;
    unsafe { (compatible, raw::header_version(), raw::cut_version()) }
}

/// The numbers of the kinds of a record, hand-over, receipt, start and gate, and of the directions.
pub fn kinds() -> ([u8; 4], [u8; 2]) {
    unsafe { (raw::header_kinds, raw::header_directions) }
}

pub fn parts(bytes: [u8; 2]) -> WordParts {
    unsafe { raw::header_parts(bytes.as_ptr()) }
}

pub fn words(parts: &WordParts) -> PartWords {
    unsafe { raw::header_words(parts) }
}

pub fn upgrade(bytes: &[u8], out: &mut [u8]) -> PlainWritten {
    unsafe { raw::header_upgrade(bytes.as_ptr(), bytes.len(), out.as_mut_ptr(), out.len()) }
}

pub fn downgrade(bytes: &[u8], out: &mut [u8]) -> PlainWritten {
    unsafe { raw::header_downgrade(bytes.as_ptr(), bytes.len(), out.as_mut_ptr(), out.len()) }
}

/// The sum that C makes of a struct's fields by their names.
pub trait Summed {
    fn sum(&self) -> u64;
}

macro_rules! summed {
    ($($plain:ty => $sum:ident),* $(,)?) => {
        $(impl Summed for $plain {
            fn sum(&self) -> u64 {
                unsafe { raw::$sum(self) }
            }
        })*
    };
}

summed! {
    PlainOpening => header_opening_sum,
    PlainStep => header_step_sum,
    PlainAnswer => header_answer_sum,
    PlainHeadAnswer => header_head_answer_sum,
    PlainReceived => header_received_sum,
    PlainReading => header_reading_sum,
    PlainWritten => header_written_sum,
}
