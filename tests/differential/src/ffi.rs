//! The calls of the proved code as c/cut/zone.h and c/cut/site.h declare them, and the same made safe.

use std::mem::{offset_of, size_of};

#[repr(C)]
#[derive(Clone, Copy, Debug, PartialEq, Eq)]
pub struct PlainSaved {
    pub stock: u16,
    pub events: u16,
}

#[repr(C)]
#[derive(Clone, Copy, Debug, PartialEq, Eq)]
pub struct PlainZone {
    pub number: u8,
    pub count: u8,
    pub deps: u8,
    pub edition: u8,
    pub stock: u16,
    pub events: u16,
    pub saved: PlainSaved,
    pub mark: u32,
}

#[repr(C)]
#[derive(Clone, Copy, Debug, PartialEq, Eq)]
pub struct PlainOpening {
    pub zone: PlainZone,
    pub refusal: u8,
}

#[repr(C)]
#[derive(Clone, Copy, Debug, PartialEq, Eq)]
pub struct PlainStep {
    pub zone: PlainZone,
    pub refusal: u8,
    pub flag: u8,
    pub to: u8,
    pub carried: u8,
}

#[repr(C)]
#[derive(Clone, Copy, Debug, PartialEq, Eq)]
pub struct PlainLocal {
    pub stock: u16,
    pub events: u16,
    pub deps: u8,
    pub mark: u8,
    pub saved: PlainSaved,
}

#[repr(C)]
#[derive(Clone, Copy, Debug, PartialEq, Eq)]
pub struct PlainRun {
    pub count: u8,
    pub edition: u8,
    pub records: u16,
    pub zones: [PlainLocal; 8],
    pub opening: [u16; 8],
    pub items: [u16; 1024],
    pub lens: [u8; 64],
    pub journal: [u16; 1000],
}

/// The first fields of a run, which the library takes and hands back by value.
#[repr(C)]
#[derive(Clone, Copy, Debug, PartialEq, Eq)]
pub struct PlainHead {
    pub count: u8,
    pub edition: u8,
    pub records: u16,
    pub zones: [PlainLocal; 8],
    pub opening: [u16; 8],
}

#[repr(C)]
#[derive(Clone, Copy, Debug, PartialEq, Eq)]
pub struct PlainHeadAnswer {
    pub head: PlainHead,
    pub refusal: u8,
    pub remaining: u8,
}

/// What `cut_receive` answers, and any call on a run beside the run.
#[repr(C)]
#[derive(Clone, Copy, Debug, PartialEq, Eq)]
pub struct PlainReceived {
    pub refusal: u8,
    pub remaining: u8,
}

impl PlainRun {
    pub fn head(&self) -> PlainHead {
        PlainHead {
            count: self.count,
            edition: self.edition,
            records: self.records,
            zones: self.zones,
            opening: self.opening,
        }
    }

    /// Stores the head that a call handed back beside the lent arrays, and gives the rest.
    fn store(&mut self, answer: PlainHeadAnswer) -> PlainReceived {
        self.count = answer.head.count;
        self.edition = answer.head.edition;
        self.records = answer.head.records;
        self.zones = answer.head.zones;
        self.opening = answer.head.opening;
        PlainReceived {
            refusal: answer.refusal,
            remaining: answer.remaining,
        }
    }
}

#[repr(C)]
#[derive(Clone, Copy, Debug, PartialEq, Eq)]
pub struct PlainAnswer {
    pub run: PlainRun,
    pub refusal: u8,
    pub remaining: u8,
}

#[repr(C)]
#[derive(Clone, Copy, Debug, PartialEq, Eq)]
pub struct PlainReading {
    pub run: PlainRun,
    pub position: usize,
    pub refusal: u8,
    pub remaining: u8,
}

#[repr(C)]
#[derive(Clone, Copy, Debug, PartialEq, Eq)]
pub struct PlainWritten {
    pub refusal: u8,
    pub total: u32,
    pub position: usize,
    pub written: usize,
}

// The sizes and offsets that a C compiler gives the structs of the headers.
const _: () = assert!(size_of::<PlainZone>() == 16);
const _: () = assert!(size_of::<PlainOpening>() == 20);
const _: () = assert!(size_of::<PlainStep>() == 20);
const _: () = assert!(size_of::<PlainLocal>() == 10);
const _: () = assert!(size_of::<PlainRun>() == 4_212);
const _: () = assert!(size_of::<PlainHead>() == 100);
const _: () = assert!(size_of::<PlainHeadAnswer>() == 102);
const _: () = assert!(size_of::<PlainReceived>() == 2);
const _: () = assert!(size_of::<PlainAnswer>() == 4_214);
const _: () = assert!(size_of::<PlainReading>() == 4_232);
const _: () = assert!(size_of::<PlainWritten>() == 24);
const _: () = assert!(offset_of!(PlainZone, mark) == 12);
const _: () = assert!(offset_of!(PlainRun, edition) == 1);
const _: () = assert!(offset_of!(PlainRun, items) == 100);
const _: () = assert!(offset_of!(PlainRun, journal) == 2_212);
const _: () = assert!(offset_of!(PlainHeadAnswer, remaining) == 101);
const _: () = assert!(offset_of!(PlainAnswer, remaining) == 4_213);
const _: () = assert!(offset_of!(PlainReading, remaining) == 4_225);
const _: () = assert!(offset_of!(PlainWritten, total) == 4);
const _: () = assert!(offset_of!(PlainWritten, position) == 8);
const _: () = assert!(offset_of!(PlainWritten, written) == 16);

mod raw {
    use super::*;

    extern "C" {
        pub fn cut_zone_open(edition: u8, count: u8, number: u8, stock: u16) -> PlainOpening;
        pub fn cut_zone_send(zone: PlainZone, to: u8, cars: u8) -> PlainStep;
        pub fn cut_zone_receive(zone: PlainZone, from: u8, cars: u8, flag: u8) -> PlainStep;
        pub fn cut_zone_request(zone: PlainZone, set: u8) -> PlainStep;
        pub fn cut_zone_start(zone: PlainZone) -> PlainStep;
        pub fn cut_zone_enter(zone: PlainZone, cars: u8) -> PlainStep;
        pub fn cut_zone_leave(zone: PlainZone, cars: u8) -> PlainStep;
        pub fn cut_zone_requests(to: u8) -> u32;
        pub fn cut_zone_next(set: u8) -> u8;
        pub fn cut_site_open(edition: u8, count: u8, stocks: *const u16, n: usize) -> PlainAnswer;
        pub fn cut_site_send(
            head: PlainHead,
            items: *mut u16,
            lens: *mut u8,
            journal: *mut u16,
            from: u8,
            to: u8,
            cars: u8,
        ) -> PlainHeadAnswer;
        pub fn cut_site_receive(
            head: PlainHead,
            items: *mut u16,
            lens: *mut u8,
            journal: *mut u16,
            from: u8,
            to: u8,
        ) -> PlainHeadAnswer;
        pub fn cut_site_start(
            head: PlainHead,
            items: *mut u16,
            lens: *mut u8,
            journal: *mut u16,
            zone: u8,
        ) -> PlainHeadAnswer;
        pub fn cut_site_enter(
            head: PlainHead,
            items: *mut u16,
            lens: *mut u8,
            journal: *mut u16,
            zone: u8,
            cars: u8,
        ) -> PlainHeadAnswer;
        pub fn cut_site_leave(
            head: PlainHead,
            items: *mut u16,
            lens: *mut u8,
            journal: *mut u16,
            zone: u8,
            cars: u8,
        ) -> PlainHeadAnswer;
        pub fn cut_site_record(
            head: PlainHead,
            items: *const u16,
            lens: *const u8,
            journal: *const u16,
            out: *mut u8,
            size: usize,
        ) -> PlainWritten;
        pub fn cut_site_page(
            head: PlainHead,
            items: *const u16,
            lens: *const u8,
            journal: *const u16,
            out: *mut u8,
            size: usize,
        ) -> PlainWritten;
        pub fn cut_journal_write(
            head: PlainHead,
            items: *const u16,
            lens: *const u8,
            journal: *const u16,
            out: *mut u8,
            size: usize,
        ) -> PlainWritten;
        pub fn cut_journal_read(bytes: *const u8, size: usize) -> PlainReading;
        pub fn cut_journal_record(
            bytes: *const u8,
            size: usize,
            out: *mut u8,
            room: usize,
        ) -> PlainWritten;
        pub fn cut_journal_page(
            bytes: *const u8,
            size: usize,
            out: *mut u8,
            room: usize,
        ) -> PlainWritten;
        pub fn cut_journal_upgrade(
            bytes: *const u8,
            size: usize,
            out: *mut u8,
            room: usize,
        ) -> PlainWritten;
        pub fn cut_journal_downgrade(
            bytes: *const u8,
            size: usize,
            out: *mut u8,
            room: usize,
        ) -> PlainWritten;
    }
}

// Every value of every field may be passed, so the calls with values alone are safe. The others
// get a pointer and a length of one slice, and Rust keeps a mutable one apart from all else.

pub fn cut_zone_open(edition: u8, count: u8, number: u8, stock: u16) -> PlainOpening {
    unsafe { raw::cut_zone_open(edition, count, number, stock) }
}

pub fn cut_zone_send(zone: PlainZone, to: u8, cars: u8) -> PlainStep {
    unsafe { raw::cut_zone_send(zone, to, cars) }
}

pub fn cut_zone_receive(zone: PlainZone, from: u8, cars: u8, flag: u8) -> PlainStep {
    unsafe { raw::cut_zone_receive(zone, from, cars, flag) }
}

pub fn cut_zone_request(zone: PlainZone, set: u8) -> PlainStep {
    unsafe { raw::cut_zone_request(zone, set) }
}

pub fn cut_zone_start(zone: PlainZone) -> PlainStep {
    unsafe { raw::cut_zone_start(zone) }
}

pub fn cut_zone_enter(zone: PlainZone, cars: u8) -> PlainStep {
    unsafe { raw::cut_zone_enter(zone, cars) }
}

pub fn cut_zone_leave(zone: PlainZone, cars: u8) -> PlainStep {
    unsafe { raw::cut_zone_leave(zone, cars) }
}

pub fn cut_zone_requests(to: u8) -> u32 {
    unsafe { raw::cut_zone_requests(to) }
}

pub fn cut_zone_next(set: u8) -> u8 {
    unsafe { raw::cut_zone_next(set) }
}

pub fn cut_site_open(edition: u8, count: u8, stocks: &[u16]) -> PlainAnswer {
    unsafe { raw::cut_site_open(edition, count, stocks.as_ptr(), stocks.len()) }
}

/// The arrays of a run, to be lent.
macro_rules! lent {
    ($run:ident) => {
        (
            $run.items.as_mut_ptr(),
            $run.lens.as_mut_ptr(),
            $run.journal.as_mut_ptr(),
        )
    };
}

pub fn cut_site_send(run: &mut PlainRun, from: u8, to: u8, cars: u8) -> PlainReceived {
    let (items, lens, journal) = lent!(run);
    let answer = unsafe { raw::cut_site_send(run.head(), items, lens, journal, from, to, cars) };
    run.store(answer)
}

pub fn cut_site_receive(run: &mut PlainRun, from: u8, to: u8) -> PlainReceived {
    let (items, lens, journal) = lent!(run);
    let answer = unsafe { raw::cut_site_receive(run.head(), items, lens, journal, from, to) };
    run.store(answer)
}

pub fn cut_site_start(run: &mut PlainRun, zone: u8) -> PlainReceived {
    let (items, lens, journal) = lent!(run);
    let answer = unsafe { raw::cut_site_start(run.head(), items, lens, journal, zone) };
    run.store(answer)
}

pub fn cut_site_enter(run: &mut PlainRun, zone: u8, cars: u8) -> PlainReceived {
    let (items, lens, journal) = lent!(run);
    let answer = unsafe { raw::cut_site_enter(run.head(), items, lens, journal, zone, cars) };
    run.store(answer)
}

pub fn cut_site_leave(run: &mut PlainRun, zone: u8, cars: u8) -> PlainReceived {
    let (items, lens, journal) = lent!(run);
    let answer = unsafe { raw::cut_site_leave(run.head(), items, lens, journal, zone, cars) };
    run.store(answer)
}

/// A call that writes what it makes of the parts of a run.
type RunWriter = unsafe extern "C" fn(
    PlainHead,
    *const u16,
    *const u8,
    *const u16,
    *mut u8,
    usize,
) -> PlainWritten;

fn write(writer: RunWriter, run: &PlainRun, out: &mut [u8]) -> PlainWritten {
    let (items, lens, journal) = (run.items.as_ptr(), run.lens.as_ptr(), run.journal.as_ptr());
    let (bytes, size) = (out.as_mut_ptr(), out.len());
    unsafe { writer(run.head(), items, lens, journal, bytes, size) }
}

pub fn cut_site_record(run: &PlainRun, out: &mut [u8]) -> PlainWritten {
    write(raw::cut_site_record, run, out)
}

pub fn cut_site_page(run: &PlainRun, out: &mut [u8]) -> PlainWritten {
    write(raw::cut_site_page, run, out)
}

pub fn cut_journal_write(run: &PlainRun, out: &mut [u8]) -> PlainWritten {
    write(raw::cut_journal_write, run, out)
}

pub fn cut_journal_read(bytes: &[u8]) -> PlainReading {
    unsafe { raw::cut_journal_read(bytes.as_ptr(), bytes.len()) }
}

/// A call that writes what it makes of a journal.
type JournalWriter = unsafe extern "C" fn(*const u8, usize, *mut u8, usize) -> PlainWritten;

fn write_of(writer: JournalWriter, bytes: &[u8], out: &mut [u8]) -> PlainWritten {
    unsafe { writer(bytes.as_ptr(), bytes.len(), out.as_mut_ptr(), out.len()) }
}

pub fn cut_journal_record(bytes: &[u8], out: &mut [u8]) -> PlainWritten {
    write_of(raw::cut_journal_record, bytes, out)
}

pub fn cut_journal_page(bytes: &[u8], out: &mut [u8]) -> PlainWritten {
    write_of(raw::cut_journal_page, bytes, out)
}

pub fn cut_journal_upgrade(bytes: &[u8], out: &mut [u8]) -> PlainWritten {
    write_of(raw::cut_journal_upgrade, bytes, out)
}

pub fn cut_journal_downgrade(bytes: &[u8], out: &mut [u8]) -> PlainWritten {
    write_of(raw::cut_journal_downgrade, bytes, out)
}
