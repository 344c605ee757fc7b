//! The calls of the proved code.

use crate::Once;
use differential::ffi::{self, PlainRun, PlainZone};
use second::print::MOST_BYTES;
use std::hint::black_box;

/// The call of a name, on what a journal gives.
pub fn call(name: &str, bytes: Vec<u8>) -> Option<Once> {
    let run = ffi::cut_journal_read(&bytes).run;
    let zone = ffi::cut_zone_open(run.edition, run.count, 1, 100).zone;
    on_run(name, run)
        .or_else(|| on_zone(name, zone))
        .or_else(|| on_bytes(name, bytes))
}

fn changed(run: PlainRun, call: fn(&mut PlainRun) -> u8) -> Once {
    Box::new(move || {
        let mut copy = *black_box(&run);
        let refusal = call(&mut copy);
        black_box(&copy);
        u32::from(refusal)
    })
}

fn on_run(name: &str, run: PlainRun) -> Option<Once> {
    let opened = move || {
        let stocks = &black_box(&run.opening)[..usize::from(run.count)];
        let answer = ffi::cut_site_open(run.edition, run.count, stocks);
        u32::from(black_box(&answer).refusal)
    };
    Some(match name {
        "copy" => changed(run, |_| 0),
        "open" => Box::new(opened),
        "send" => changed(run, |copy| ffi::cut_site_send(copy, 1, 2, 3).refusal),
        "receive" => changed(run, |copy| ffi::cut_site_receive(copy, 1, 2).refusal),
        "start" => changed(run, |copy| ffi::cut_site_start(copy, 1).refusal),
        "enter" => changed(run, |copy| ffi::cut_site_enter(copy, 1, 3).refusal),
        "leave" => changed(run, |copy| ffi::cut_site_leave(copy, 1, 3).refusal),
        "record" => writing(move |lent| ffi::cut_site_record(black_box(&run), lent).refusal),
        "page" => writing(move |lent| ffi::cut_site_page(black_box(&run), lent).refusal),
        "write" => writing(move |lent| ffi::cut_journal_write(black_box(&run), lent).refusal),
        _ => return None,
    })
}

/// A call that writes into lent bytes.
fn writing(write: impl Fn(&mut [u8]) -> u8 + 'static) -> Once {
    Box::new(move || {
        let mut lent = [0; MOST_BYTES];
        let refusal = write(&mut lent);
        black_box(&lent);
        u32::from(refusal)
    })
}

fn on_bytes(name: &str, bytes: Vec<u8>) -> Option<Once> {
    Some(match name {
        "read" => Box::new(move || u32::from(black_box(&ffi::cut_journal_read(&bytes)).refusal)),
        "read-record" => writing(move |lent| ffi::cut_journal_record(&bytes, lent).refusal),
        "read-page" => writing(move |lent| ffi::cut_journal_page(&bytes, lent).refusal),
        "upgrade" => writing(move |lent| ffi::cut_journal_upgrade(&bytes, lent).refusal),
        "downgrade" => writing(move |lent| ffi::cut_journal_downgrade(&bytes, lent).refusal),
        _ => return None,
    })
}

fn on_zone(name: &str, zone: PlainZone) -> Option<Once> {
    let stepped = |step: fn(PlainZone) -> ffi::PlainStep| -> Once {
        Box::new(move || u32::from(black_box(&step(*black_box(&zone))).refusal))
    };
    let opened = move || {
        let opening = ffi::cut_zone_open(zone.edition, black_box(zone.count), 1, 100);
        u32::from(black_box(&opening).refusal)
    };
    Some(match name {
        "zone-open" => Box::new(opened),
        "zone-send" => stepped(|zone| ffi::cut_zone_send(zone, 2, 3)),
        "zone-receive" => stepped(|zone| ffi::cut_zone_receive(zone, 2, 3, 1)),
        "zone-request" => stepped(|zone| ffi::cut_zone_request(zone, 2)),
        "zone-start" => stepped(ffi::cut_zone_start),
        "zone-enter" => stepped(|zone| ffi::cut_zone_enter(zone, 3)),
        "zone-leave" => stepped(|zone| ffi::cut_zone_leave(zone, 3)),
        _ => return None,
    })
}
