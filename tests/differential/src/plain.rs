//! Conversions between the second implementation's values and the plain structs of C.
//!
//! Storage that the site lacks, places behind a line's last item and words behind the last record
//! have no meaning, so the way back takes them from the struct that went in.

use crate::ffi::{PlainLocal, PlainRun, PlainSaved, PlainZone};
use second::site::{Item, Run, MOST_RECORDS, PLACES};
use second::zone::{Body, Mark, Saved, Zone};
use std::array::from_fn;
use std::collections::VecDeque;

/// The values that a mark of kind 0 comes back with.
pub const NOTHING_SAVED: PlainSaved = PlainSaved {
    stock: 0,
    events: 0,
};

const NO_ZONE: PlainLocal = PlainLocal {
    stock: 0,
    events: 0,
    deps: 0,
    mark: 0,
    saved: NOTHING_SAVED,
};

/// A struct with 0 everywhere.
pub const ZEROS: PlainRun = PlainRun {
    count: 0,
    edition: 0,
    records: 0,
    zones: [NO_ZONE; 8],
    opening: [0; 8],
    items: [0; 1024],
    lens: [0; 64],
    journal: [0; 1000],
};

/// A struct full of other values.
pub const USED: PlainRun = PlainRun {
    count: 8,
    edition: 1,
    records: 1,
    zones: [PlainLocal {
        stock: 9,
        ..NO_ZONE
    }; 8],
    opening: [9; 8],
    items: [9; 1024],
    lens: [1; 64],
    journal: [9; 1000],
};

/// The place of a line among the 64.
pub fn place(a: usize, b: usize) -> usize {
    8 * a + b
}

/// Narrows a number of the second implementation, whose answers fit where the run was sound.
fn word(number: u32) -> u16 {
    u16::try_from(number).expect("a number of an accepted answer fits 16 bits")
}

/// The same for a zone number, a zone count or an edition.
fn byte(number: u32) -> u8 {
    u8::try_from(number).expect("a number of an accepted answer fits 8 bits")
}

fn mark_of(kind: u32, saved: PlainSaved) -> Option<Mark> {
    let saved = Saved {
        stock: u32::from(saved.stock),
        events: u32::from(saved.events),
    };
    match kind {
        0 => Some(Mark::None),
        1 => Some(Mark::Provisional(saved)),
        2 => Some(Mark::Firm(saved)),
        _ => None,
    }
}

fn plain_mark(mark: Mark) -> (u8, PlainSaved) {
    let plain = |saved: Saved| PlainSaved {
        stock: word(saved.stock),
        events: word(saved.events),
    };
    match mark {
        Mark::None => (0, NOTHING_SAVED),
        Mark::Provisional(saved) => (1, plain(saved)),
        Mark::Firm(saved) => (2, plain(saved)),
    }
}

fn local_of(p: &PlainLocal) -> Option<Body> {
    Some(Body {
        stock: u32::from(p.stock),
        events: u32::from(p.events),
        heard: p.deps,
        mark: mark_of(u32::from(p.mark), p.saved)?,
    })
}

fn plain_local(body: &Body) -> PlainLocal {
    let (mark, saved) = plain_mark(body.mark);
    PlainLocal {
        stock: word(body.stock),
        events: word(body.events),
        deps: body.heard,
        mark,
        saved,
    }
}

/// A zone of the zone part, or nothing for a mark kind above 2, which is unsound.
pub fn zone_of(p: &PlainZone) -> Option<Zone> {
    Some(Zone {
        edition: u32::from(p.edition),
        number: u32::from(p.number),
        count: u32::from(p.count),
        body: Body {
            stock: u32::from(p.stock),
            events: u32::from(p.events),
            heard: p.deps,
            mark: mark_of(p.mark, p.saved)?,
        },
    })
}

pub fn plain_zone(zone: &Zone) -> PlainZone {
    let local = plain_local(&zone.body);
    PlainZone {
        number: byte(zone.number),
        count: byte(zone.count),
        deps: local.deps,
        edition: byte(zone.edition),
        stock: local.stock,
        events: local.events,
        saved: local.saved,
        mark: u32::from(local.mark),
    }
}

/// The item of a word, or nothing above 767: a request whose set names a zone that no site has.
pub fn item_of(word: u16) -> Option<Item> {
    let low = (word % 256) as u8;
    match word / 256 {
        0 | 1 => Some(Item::HandOver {
            cars: low,
            marked: word >= 256,
        }),
        2 => Some(Item::Request { set: low }),
        _ => None,
    }
}

pub fn word_of(item: &Item) -> u16 {
    match *item {
        Item::HandOver { cars, marked } => u16::from(cars) + 256 * u16::from(marked),
        Item::Request { set } => 512 + u16::from(set),
    }
}

/// The items of a line, or nothing where it has more than its places or a word above 767.
fn line_of(p: &PlainRun, a: usize, b: usize) -> Option<VecDeque<Item>> {
    let length = usize::from(p.lens[place(a, b)]);
    if length > PLACES {
        return None;
    }
    let first = PLACES * place(a, b);
    let words = &p.items[first..first + length];
    words.iter().map(|&word| item_of(word)).collect()
}

/// The second implementation's run of a plain one. Nothing where its types cannot hold the state:
/// that state is unsound by question 1. Storage off the site is looked at only for mark kinds.
pub fn run_of(p: &PlainRun) -> Option<Run> {
    let records = usize::from(p.records);
    if records > MOST_RECORDS {
        return None;
    }
    let mut run = Run {
        edition: u32::from(p.edition),
        count: u32::from(p.count),
        zones: from_fn(|index| Body::opened(index as u32 + 1, 0)),
        lines: Default::default(),
        opening: p.opening,
        records: p.journal[..records].to_vec(),
    };
    for (zone, plain) in run.zones.iter_mut().zip(&p.zones) {
        *zone = local_of(plain)?;
    }
    if p.count <= 8 {
        for (a, b) in run.pairs() {
            run.lines[a][b] = line_of(p, a, b)?;
        }
    }
    Some(run)
}

/// The struct that an accepted call hands back where it got `p` and the second implementation
/// came to `run`. A receipt moves all places of its line down and clears the last.
pub fn after(p: &PlainRun, run: &Run, popped: Option<(usize, usize)>) -> PlainRun {
    let mut next = *p;
    next.count = byte(run.count);
    next.edition = byte(run.edition);
    next.records = run.records.len() as u16;
    next.zones = from_fn(|index| plain_local(&run.zones[index]));
    next.opening = run.opening;
    next.journal[..run.records.len()].copy_from_slice(&run.records);
    if let Some((a, b)) = popped {
        let first = PLACES * place(a, b);
        next.items.copy_within(first + 1..first + PLACES, first);
        next.items[first + PLACES - 1] = 0;
    }
    for a in 0..run.size() {
        for b in (0..run.size()).filter(|&b| b != a) {
            let line = &run.lines[a][b];
            next.lens[place(a, b)] = line.len() as u8;
            for (index, item) in line.iter().enumerate() {
                next.items[PLACES * place(a, b) + index] = word_of(item);
            }
        }
    }
    next
}

/// The struct of a run that an opening and calls have led to: all unused storage is as the
/// opening left it.
pub fn plain_run(run: &Run) -> PlainRun {
    after(&ZEROS, run, None)
}
