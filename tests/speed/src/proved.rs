//! The calls of the proved code, through src/proved.c and libcut.a.

use speed::site::{Local, Read, Received, Run, Written};
use speed::zone::{Answer, Zone};
use std::mem::{offset_of, size_of};

mod raw {
    use super::{Numbers, Run, Told, Zone};

    extern "C" {
        pub static proved_layout: [usize; 26];
        pub fn proved_open(
            run: *mut Run,
            edition: u8,
            count: u8,
            stocks: *const u16,
            n: usize,
        ) -> u8;
        pub fn proved_open_any(
            run: *mut Run,
            edition: u8,
            count: u8,
            stocks: *const u16,
            n: usize,
        ) -> u8;
        pub fn proved_send(run: *mut Run, from: u8, to: u8, cars: u8) -> u8;
        pub fn proved_receive(run: *mut Run, from: u8, to: u8, remaining: *mut u8) -> u8;
        pub fn proved_start(run: *mut Run, zone: u8) -> u8;
        pub fn proved_enter(run: *mut Run, zone: u8, cars: u8) -> u8;
        pub fn proved_leave(run: *mut Run, zone: u8, cars: u8) -> u8;
        pub fn proved_record(
            run: *const Run,
            out: *mut u8,
            size: usize,
            numbers: *mut Numbers,
        ) -> u8;
        pub fn proved_page(run: *const Run, out: *mut u8, size: usize, numbers: *mut Numbers)
            -> u8;
        pub fn proved_write(
            run: *const Run,
            out: *mut u8,
            size: usize,
            numbers: *mut Numbers,
        ) -> u8;
        pub fn proved_read_record(
            bytes: *const u8,
            n: usize,
            out: *mut u8,
            size: usize,
            numbers: *mut Numbers,
        ) -> u8;
        pub fn proved_read_page(
            bytes: *const u8,
            n: usize,
            out: *mut u8,
            size: usize,
            numbers: *mut Numbers,
        ) -> u8;
        pub fn proved_upgrade(
            bytes: *const u8,
            n: usize,
            out: *mut u8,
            size: usize,
            numbers: *mut Numbers,
        ) -> u8;
        pub fn proved_downgrade(
            bytes: *const u8,
            n: usize,
            out: *mut u8,
            size: usize,
            numbers: *mut Numbers,
        ) -> u8;
        pub fn proved_read(
            bytes: *const u8,
            n: usize,
            run: *mut Run,
            position: *mut usize,
            remaining: *mut u8,
        ) -> u8;
        pub fn proved_read_here(bytes: *const u8, n: usize) -> u8;
        pub fn proved_zone_open(
            zone: *mut Zone,
            edition: u8,
            count: u8,
            number: u8,
            stock: u16,
        ) -> u8;
        pub fn proved_zone_send(zone: *mut Zone, told: *mut Told, to: u8, cars: u8) -> u8;
        pub fn proved_zone_receive(
            zone: *mut Zone,
            told: *mut Told,
            from: u8,
            cars: u8,
            flag: u8,
        ) -> u8;
        pub fn proved_zone_request(zone: *mut Zone, told: *mut Told, set: u8) -> u8;
        pub fn proved_zone_start(zone: *mut Zone, told: *mut Told) -> u8;
        pub fn proved_zone_enter(zone: *mut Zone, told: *mut Told, cars: u8) -> u8;
        pub fn proved_zone_leave(zone: *mut Zone, told: *mut Told, cars: u8) -> u8;
        pub fn idle_run(run: *mut Run, first: u8, second: u8, third: u8) -> u8;
        pub fn idle_bytes(
            bytes: *const u8,
            n: usize,
            out: *mut u8,
            size: usize,
            numbers: *mut Numbers,
        ) -> u8;
        pub fn idle_zone(zone: *mut Zone, told: *mut Told, first: u8, second: u8, third: u8) -> u8;
    }
}

/// What a step answers beside the zone and the refusal.
#[repr(C)]
#[derive(Default)]
pub struct Told {
    flag: u8,
    to: u8,
    carried: u8,
}

impl Told {
    /// The whole answer.
    pub fn with(self, refusal: u8) -> Answer {
        Answer {
            refusal,
            flag: self.flag,
            to: self.to,
            carried: self.carried,
        }
    }
}

/// Says whether the peer's run and zone lie in memory as those of the headers.
pub fn same_layout() -> bool {
    let mine = [
        size_of::<Run>(),
        offset_of!(Run, count),
        offset_of!(Run, edition),
        offset_of!(Run, records),
        offset_of!(Run, zones),
        offset_of!(Run, opening),
        offset_of!(Run, items),
        offset_of!(Run, lens),
        offset_of!(Run, journal),
        size_of::<Local>(),
        offset_of!(Local, stock),
        offset_of!(Local, events),
        offset_of!(Local, deps),
        offset_of!(Local, mark),
        offset_of!(Local, saved.stock),
        offset_of!(Local, saved.events),
        size_of::<Zone>(),
        offset_of!(Zone, number),
        offset_of!(Zone, count),
        offset_of!(Zone, deps),
        offset_of!(Zone, mark),
        offset_of!(Zone, stock),
        offset_of!(Zone, events),
        offset_of!(Zone, saved.stock),
        offset_of!(Zone, saved.events),
        offset_of!(Zone, edition),
    ];
    mine == unsafe { raw::proved_layout }
}

// Every value of every field may be passed, and each pointer is that of a Rust reference or slice, so
// the calls are safe.

pub fn open(run: &mut Run, edition: u8, count: u8, stocks: &[u16]) -> u8 {
    unsafe { raw::proved_open(run, edition, count, stocks.as_ptr(), stocks.len()) }
}

/// Opens a site; refused, the run is that of 2 zones with stock 0 and edition 1.
pub fn open_any(run: &mut Run, edition: u8, count: u8, stocks: &[u16]) -> u8 {
    unsafe { raw::proved_open_any(run, edition, count, stocks.as_ptr(), stocks.len()) }
}

pub fn send(run: &mut Run, from: u8, to: u8, cars: u8) -> u8 {
    unsafe { raw::proved_send(run, from, to, cars) }
}

pub fn receive(run: &mut Run, from: u8, to: u8) -> Received {
    let mut remaining = 0;
    let refusal = unsafe { raw::proved_receive(run, from, to, &mut remaining) };
    Received { refusal, remaining }
}

pub fn start(run: &mut Run, zone: u8) -> u8 {
    unsafe { raw::proved_start(run, zone) }
}

pub fn enter(run: &mut Run, zone: u8, cars: u8) -> u8 {
    unsafe { raw::proved_enter(run, zone, cars) }
}

pub fn leave(run: &mut Run, zone: u8, cars: u8) -> u8 {
    unsafe { raw::proved_leave(run, zone, cars) }
}

/// What a call that writes answers beside the refusal.
#[repr(C)]
#[derive(Default)]
pub struct Numbers {
    total: u32,
    position: usize,
    written: usize,
}

impl Numbers {
    /// The whole answer.
    pub fn with(self, refusal: u8) -> Written {
        Written {
            refusal,
            total: self.total,
            position: self.position,
            written: self.written,
        }
    }
}

pub fn record(run: &Run, out: &mut [u8], numbers: &mut Numbers) -> u8 {
    unsafe { raw::proved_record(run, out.as_mut_ptr(), out.len(), numbers) }
}

pub fn page(run: &Run, out: &mut [u8], numbers: &mut Numbers) -> u8 {
    unsafe { raw::proved_page(run, out.as_mut_ptr(), out.len(), numbers) }
}

pub fn write(run: &Run, out: &mut [u8], numbers: &mut Numbers) -> u8 {
    unsafe { raw::proved_write(run, out.as_mut_ptr(), out.len(), numbers) }
}

pub fn read_record(journal: &[u8], out: &mut [u8], numbers: &mut Numbers) -> u8 {
    let (bytes, size) = (out.as_mut_ptr(), out.len());
    unsafe { raw::proved_read_record(journal.as_ptr(), journal.len(), bytes, size, numbers) }
}

pub fn read_page(journal: &[u8], out: &mut [u8], numbers: &mut Numbers) -> u8 {
    let (bytes, size) = (out.as_mut_ptr(), out.len());
    unsafe { raw::proved_read_page(journal.as_ptr(), journal.len(), bytes, size, numbers) }
}

pub fn upgrade(journal: &[u8], out: &mut [u8], numbers: &mut Numbers) -> u8 {
    let (bytes, size) = (out.as_mut_ptr(), out.len());
    unsafe { raw::proved_upgrade(journal.as_ptr(), journal.len(), bytes, size, numbers) }
}

pub fn downgrade(journal: &[u8], out: &mut [u8], numbers: &mut Numbers) -> u8 {
    let (bytes, size) = (out.as_mut_ptr(), out.len());
    unsafe { raw::proved_downgrade(journal.as_ptr(), journal.len(), bytes, size, numbers) }
}

pub fn read(run: &mut Run, bytes: &[u8]) -> Read {
    let (mut position, mut remaining) = (0, 0);
    let (bytes, n) = (bytes.as_ptr(), bytes.len());
    let refusal = unsafe { raw::proved_read(bytes, n, run, &mut position, &mut remaining) };
    Read {
        refusal,
        position,
        remaining,
    }
}

/// Reads a journal into a struct of the caller's in C.
pub fn read_here(bytes: &[u8]) -> u8 {
    unsafe { raw::proved_read_here(bytes.as_ptr(), bytes.len()) }
}

pub fn zone_open(zone: &mut Zone, edition: u8, count: u8, number: u8, stock: u16) -> u8 {
    unsafe { raw::proved_zone_open(zone, edition, count, number, stock) }
}

pub fn zone_send(zone: &mut Zone, told: &mut Told, to: u8, cars: u8) -> u8 {
    unsafe { raw::proved_zone_send(zone, told, to, cars) }
}

pub fn zone_receive(zone: &mut Zone, told: &mut Told, from: u8, cars: u8, flag: u8) -> u8 {
    unsafe { raw::proved_zone_receive(zone, told, from, cars, flag) }
}

pub fn zone_request(zone: &mut Zone, told: &mut Told, set: u8) -> u8 {
    unsafe { raw::proved_zone_request(zone, told, set) }
}

pub fn zone_start(zone: &mut Zone, told: &mut Told) -> u8 {
    unsafe { raw::proved_zone_start(zone, told) }
}

pub fn zone_enter(zone: &mut Zone, told: &mut Told, cars: u8) -> u8 {
    unsafe { raw::proved_zone_enter(zone, told, cars) }
}

pub fn zone_leave(zone: &mut Zone, told: &mut Told, cars: u8) -> u8 {
    unsafe { raw::proved_zone_leave(zone, told, cars) }
}

/// The calls that do nothing.
pub mod idle {
    use super::{raw, Numbers, Run, Told, Zone};

    pub fn run(run: &mut Run, first: u8, second: u8, third: u8) -> u8 {
        unsafe { raw::idle_run(run, first, second, third) }
    }

    pub fn bytes(journal: &[u8], out: &mut [u8], numbers: &mut Numbers) -> u8 {
        let (bytes, size) = (out.as_mut_ptr(), out.len());
        unsafe { raw::idle_bytes(journal.as_ptr(), journal.len(), bytes, size, numbers) }
    }

    pub fn zone(zone: &mut Zone, told: &mut Told, first: u8, second: u8, third: u8) -> u8 {
        unsafe { raw::idle_zone(zone, told, first, second, third) }
    }
}
