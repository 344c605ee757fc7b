//! Measures each call of the proved code and of the peer on the same values.
//!
//! `nothing` makes a call that does nothing, with the same arguments; what it takes is taken off. Lent
//! bytes are not cleared between calls; a run or zone that a call changes is set back before it, in
//! `nothing` too.

use crate::proved::{self, idle, Numbers, Told};
use crate::scenes;
use speed::conversion;
use speed::site::{self, Run, RECORDING_BYTES};
use speed::zone::{Answer, Saved, Zone};
use std::array::from_fn;
use std::hint::black_box;
use std::time::Instant;

/// The values that a call works on.
struct Scene {
    run: Run,
    /// The run that a call changes.
    work: Run,
    bytes: Vec<u8>,
    out: [u8; RECORDING_BYTES],
    numbers: Numbers,
    written: site::Written,
    received: site::Received,
    read: site::Read,
    zone: Zone,
    /// The zone that a step changes.
    zone_work: Zone,
    told: Told,
    answer: Answer,
    first: u8,
    second: u8,
    third: u8,
}

impl Scene {
    fn new(run: Run) -> Scene {
        let mut bytes = vec![0; site::JOURNAL_BYTES];
        let written = run.write(&mut bytes);
        assert_eq!(written.refusal, 0, "a scene is a run that calls have made");
        bytes.truncate(written.written);
        Scene {
            run,
            work: run,
            bytes,
            out: [0; RECORDING_BYTES],
            numbers: Numbers::default(),
            written,
            received: site::Received::default(),
            read: site::Read::default(),
            zone: Zone {
                number: 1,
                count: run.count,
                deps: 3,
                mark: 0,
                stock: 100,
                events: 7,
                saved: Saved::default(),
                edition: run.edition,
            },
            zone_work: Zone::default(),
            told: Told::default(),
            answer: Answer::default(),
            first: 1,
            second: 2,
            third: 3,
        }
    }

    /// Sets back what a call on the run may have changed; the places behind the last items and the
    /// records behind the last one are written anew by the call itself.
    #[inline(always)]
    fn set_back(&mut self) {
        let line = 8 * usize::from(self.first - 1) + usize::from(self.second - 1);
        self.work.records = self.run.records;
        self.work.zones = self.run.zones;
        self.work.lens = self.run.lens;
        self.work.items[line % 64] = self.run.items[line % 64];
        black_box(&mut self.work);
    }

    #[inline(always)]
    fn set_zone_back(&mut self) {
        self.zone_work = self.zone;
        black_box(&mut self.zone_work);
    }
}

/// A call on a scene; it gives the refusal.
type Op = fn(&mut Scene) -> u8;

/// A call by nobody, by the proved code and by the peer.
struct Call {
    name: &'static str,
    ops: [Op; 3],
}

const WHO: [&str; 3] = ["nothing", "proved", "peer"];

const READ: Call = Call {
    name: "read",
    ops: [
        |s| idle::bytes(&s.bytes, &mut s.out, &mut s.numbers),
        |s| proved::read_here(&s.bytes),
        |s| {
            s.read = s.work.read(&s.bytes);
            s.read.refusal
        },
    ],
};

/// A call that writes, on a scene's run or on its journal.
macro_rules! writing {
    ($name:literal, $on:ident, $proved:ident, $peer:path) => {
        Call {
            name: $name,
            ops: [
                |s| idle::bytes(&s.bytes, &mut s.out, &mut s.numbers),
                |s| proved::$proved(&s.$on, &mut s.out, &mut s.numbers),
                |s| {
                    s.written = $peer(&s.$on, &mut s.out);
                    s.written.refusal
                },
            ],
        }
    };
}

const RECORD: Call = writing!("record", run, record, Run::record);
const READ_RECORD: Call = writing!("read-record", bytes, read_record, site::read_record);
const PAGE: Call = writing!("page", run, page, Run::page);
const READ_PAGE: Call = writing!("read-page", bytes, read_page, site::read_page);
const WRITE: Call = writing!("write", run, write, Run::write);

/// Each conversion with the edition that it converts from: accepted, refused with 22 and with 15.
const CONVERSIONS: [(u8, [Call; 3]); 2] = [
    (
        1,
        [
            writing!("upgrade", bytes, upgrade, conversion::upgrade),
            writing!("upgrade, 22", bytes, upgrade, conversion::upgrade),
            writing!("upgrade, 15", bytes, upgrade, conversion::upgrade),
        ],
    ),
    (
        3,
        [
            writing!("downgrade", bytes, downgrade, conversion::downgrade),
            writing!("downgrade, 22", bytes, downgrade, conversion::downgrade),
            writing!("downgrade, 15", bytes, downgrade, conversion::downgrade),
        ],
    ),
];

const OPEN: Call = Call {
    name: "open",
    ops: [
        |s| idle::run(&mut s.work, s.run.count, 0, 0),
        |s| proved::open(&mut s.work, s.run.edition, s.run.count, stocks(&s.run)),
        |s| s.work.open(s.run.edition, s.run.count, stocks(&s.run)),
    ],
};

const OPEN_EMPTY: Call = Call {
    name: "open without stocks",
    ops: [
        |s| idle::run(&mut s.work, s.run.count, 0, 0),
        |s| proved::open(&mut s.work, s.run.edition, s.run.count, &[]),
        |s| s.work.open(s.run.edition, s.run.count, &[]),
    ],
};

#[inline(always)]
fn stocks(run: &Run) -> &[u16] {
    &run.opening[..usize::from(run.count.min(8))]
}

const SEND: Call = Call {
    name: "send",
    ops: [
        |s| {
            s.set_back();
            idle::run(&mut s.work, s.first, s.second, s.third)
        },
        |s| {
            s.set_back();
            proved::send(&mut s.work, s.first, s.second, s.third)
        },
        |s| {
            s.set_back();
            s.work.send(s.first, s.second, s.third)
        },
    ],
};

const RECEIVE: Call = Call {
    name: "receive",
    ops: [
        |s| {
            s.set_back();
            idle::run(&mut s.work, s.first, s.second, 0)
        },
        |s| {
            s.set_back();
            s.received = proved::receive(&mut s.work, s.first, s.second);
            s.received.refusal
        },
        |s| {
            s.set_back();
            s.received = s.work.receive(s.first, s.second);
            s.received.refusal
        },
    ],
};

const RECEIVE_REQUEST: Call = Call {
    name: "receive a request",
    ops: RECEIVE.ops,
};

const SEND_CHECK: Call = Call {
    name: "send a check",
    ops: SEND.ops,
};

const RECEIVE_CHECK: Call = Call {
    name: "receive a check",
    ops: RECEIVE.ops,
};

const START: Call = Call {
    name: "start",
    ops: [
        |s| {
            s.set_back();
            idle::run(&mut s.work, s.first, 0, 0)
        },
        |s| {
            s.set_back();
            proved::start(&mut s.work, s.first)
        },
        |s| {
            s.set_back();
            s.work.start(s.first)
        },
    ],
};

const ENTER: Call = Call {
    name: "enter",
    ops: [
        |s| {
            s.set_back();
            idle::run(&mut s.work, s.first, s.third, 0)
        },
        |s| {
            s.set_back();
            proved::enter(&mut s.work, s.first, s.third)
        },
        |s| {
            s.set_back();
            s.work.enter(s.first, s.third)
        },
    ],
};

const LEAVE: Call = Call {
    name: "leave",
    ops: [
        |s| {
            s.set_back();
            idle::run(&mut s.work, s.first, s.third, 0)
        },
        |s| {
            s.set_back();
            proved::leave(&mut s.work, s.first, s.third)
        },
        |s| {
            s.set_back();
            s.work.leave(s.first, s.third)
        },
    ],
};

const ZONE_OPEN: Call = Call {
    name: "zone open",
    ops: [
        |s| idle::zone(&mut s.zone_work, &mut s.told, s.zone.count, s.first, 100),
        |s| proved::zone_open(&mut s.zone_work, s.zone.edition, s.zone.count, s.first, 100),
        |s| s.zone_work.open(s.zone.edition, s.zone.count, s.first, 100),
    ],
};

/// A step on the zone by each.
macro_rules! step {
    ($name:literal, $proved:ident, $peer:ident, $first:expr, $second:expr, $third:expr,
     ($($p:expr),*), ($($q:expr),*)) => {
        Call {
            name: $name,
            ops: [
                |s| {
                    s.set_zone_back();
                    idle::zone(&mut s.zone_work, &mut s.told, $first, $second, $third)
                },
                |s| {
                    s.set_zone_back();
                    proved::$proved(&mut s.zone_work, &mut s.told, $($p),*)
                },
                |s| {
                    s.set_zone_back();
                    s.answer = s.zone_work.$peer($($q),*);
                    s.answer.refusal
                },
            ],
        }
    };
}

const STEPS: [Call; 5] = [
    step!("zone send", zone_send, send, 2, 3, 0, (2, 3), (2, 3)),
    step!(
        "zone receive",
        zone_receive,
        receive,
        2,
        3,
        0,
        (2, 3, 0),
        (2, 3, false)
    ),
    step!(
        "zone receive marked",
        zone_receive,
        receive,
        2,
        3,
        1,
        (2, 3, 1),
        (2, 3, true)
    ),
    step!("zone request", zone_request, request, 1, 0, 0, (1), (1)),
    step!("zone start", zone_start, start, 0, 0, 0, (), ()),
];

/// Steps on a zone of edition 2.
const CHECK_STEPS: [Call; 2] = [
    step!(
        "zone send a check",
        zone_send,
        send,
        2,
        0,
        0,
        (2, 0),
        (2, 0)
    ),
    step!(
        "zone receive a check",
        zone_receive,
        receive,
        2,
        0,
        1,
        (2, 0, 1),
        (2, 0, true)
    ),
];

/// Steps on a zone of edition 3.
const GATE_STEPS: [Call; 2] = [
    step!("zone enter", zone_enter, enter, 3, 0, 0, (3), (3)),
    step!("zone leave", zone_leave, leave, 3, 0, 0, (3), (3)),
];

/// A call on a scene with its label: call, lines, zones, records; and the number that it answers.
struct Case {
    label: String,
    ops: [Op; 3],
    scene: Box<Scene>,
    refusal: u8,
}

fn case(call: &Call, lines: &str, run: Run) -> Case {
    let (zones, records) = (run.count, run.records);
    Case {
        label: format!("{}\t{lines}\t{zones}\t{records}", call.name),
        ops: call.ops,
        scene: Box::new(Scene::new(run)),
        refusal: 0,
    }
}

/// A call that is refused.
fn refused(call: &Call, refusal: u8, lines: &str, run: Run) -> Case {
    Case {
        refusal,
        ..case(call, lines, run)
    }
}

/// A step of the zone part, on a zone of the run's edition.
fn zone_case(call: &Call, run: Run) -> Case {
    let mut case = case(call, "-", run);
    case.label = format!("{}\t-\t8\t0", call.name);
    case
}

/// All that is measured. Each case is tried: both must answer its number and come to the same.
fn cases() -> Vec<Case> {
    let mut cases = Vec::new();
    for call in [READ, RECORD, READ_RECORD, WRITE] {
        for (lines, make) in [
            ("ring", scenes::ring as fn(u8, usize) -> Run),
            ("full", scenes::full),
        ] {
            for zones in [2, 4, 8] {
                for records in [10, 100, 1_000] {
                    cases.push(case(&call, lines, make(zones, records)));
                }
            }
        }
    }
    for zones in [2, 8] {
        cases.push(case(&OPEN, "-", scenes::calm(zones)));
        cases.push(case(&OPEN_EMPTY, "-", scenes::calm(zones)));
        for (lines, run) in [
            ("empty", scenes::calm(zones)),
            ("full", scenes::crowded(1, zones)),
        ] {
            for call in [SEND, RECEIVE, START] {
                cases.push(case(&call, lines, run));
            }
        }
        cases.push(case(&RECEIVE_REQUEST, "empty", scenes::asked(zones)));
        let mut check = case(&SEND_CHECK, "empty", scenes::checked(zones));
        check.scene.third = 0;
        cases.push(check);
        cases.push(case(&RECEIVE_CHECK, "empty", scenes::checked(zones)));
    }
    for call in [ZONE_OPEN].iter().chain(&STEPS) {
        cases.push(zone_case(call, scenes::calm(8)));
    }
    for call in &CHECK_STEPS {
        cases.push(zone_case(call, scenes::checked(8)));
    }
    gates(&mut cases);
    pages(&mut cases);
    conversions(&mut cases);
    for case in &mut cases {
        try_out(case);
    }
    cases
}

/// The cases of edition 3.
fn gates(cases: &mut Vec<Case>) {
    for call in [READ, RECORD, READ_RECORD, WRITE] {
        for zones in [2, 8] {
            for records in [100, 1_000] {
                cases.push(case(&call, "gates", scenes::gates(zones, records)));
            }
        }
    }
    for zones in [2, 8] {
        for (lines, run) in [
            ("empty", scenes::gated(zones)),
            ("full", scenes::crowded(3, zones)),
        ] {
            for call in [ENTER, LEAVE] {
                cases.push(case(&call, lines, run));
            }
        }
    }
    for call in &GATE_STEPS {
        cases.push(zone_case(call, scenes::gated(8)));
    }
}

/// The pages of case A and of the longest runs of 8 zones.
fn pages(cases: &mut Vec<Case>) {
    for call in [PAGE, READ_PAGE] {
        cases.push(case(&call, "case A", scenes::case_a()));
        cases.push(case(&call, "ring", scenes::ring(8, 1_000)));
        cases.push(case(&call, "full", scenes::full(8, 1_000)));
        cases.push(case(&call, "gates", scenes::gates(8, 1_000)));
    }
}

/// The conversions of case A, of the longest runs of 8 zones, of one that ends with a hand-over of 0
/// cars, and of one of edition 2.
fn conversions(cases: &mut Vec<Case>) {
    for (edition, [accepted, empty, other]) in &CONVERSIONS {
        cases.push(case(accepted, "case A", scenes::case_a_in(*edition)));
        let ring = scenes::ring_in(*edition, 8, 1_000);
        cases.push(case(accepted, "ring", ring));
        let full = scenes::full_in(*edition, 8, 1_000, 1);
        cases.push(case(accepted, "full", full));
        let emptied = scenes::emptied(*edition, 8, 1_000);
        cases.push(refused(empty, 22, "ring", emptied));
        let ring = scenes::ring_in(2, 8, 1_000);
        cases.push(refused(other, 15, "ring", ring));
    }
}

fn try_out(case: &mut Case) {
    let [_, proved, peer] = case.ops;
    let scene = &mut *case.scene;
    let mut shown = |op: Op| {
        scene.work = scene.run;
        scene.out = [0; RECORDING_BYTES];
        assert_eq!(op(scene), case.refusal, "{}", case.label);
        let mut zone = scene.zone_work;
        if zone.mark == 0 {
            zone.saved = Saved::default();
        }
        (scene.work, scene.out, zone, scene.received)
    };
    let (theirs, mine) = (shown(proved), shown(peer));
    let reads = case.label.starts_with("read\t");
    assert!(reads || theirs.0 == mine.0, "{}: the runs", case.label);
    assert!(theirs.1 == mine.1, "{}: the bytes", case.label);
    assert!(theirs.2 == mine.2, "{}: the zones", case.label);
    assert!(theirs.3 == mine.3, "{}: what remains", case.label);
}

/// One call, alone in a function that callgrind can name.
#[no_mangle]
#[inline(never)]
fn speed_once(op: Op, scene: &mut Scene) -> u8 {
    black_box(op)(scene)
}

/// Makes each call once inside `speed_once` and prints its label, in the order of the calls.
pub fn count() {
    for case in &mut cases() {
        for (who, op) in WHO.iter().zip(case.ops) {
            black_box(op)(&mut case.scene);
            black_box(speed_once(op, &mut case.scene));
            println!("{}\t{who}", case.label);
        }
    }
}

/// How long a batch of calls should take, in nanoseconds.
const BATCH: u128 = 30_000;

fn batch(op: Op, scene: &mut Scene, times: u32) -> u128 {
    let start = Instant::now();
    for _ in 0..times {
        black_box(black_box(op)(scene));
    }
    start.elapsed().as_nanos()
}

/// So many calls that a batch takes long enough.
fn size(op: Op, scene: &mut Scene) -> u32 {
    let mut times = 1;
    while times < 1 << 20 && batch(op, scene, times) < BATCH {
        times *= 2;
    }
    times
}

fn median(mut values: Vec<f64>) -> f64 {
    values.sort_by(f64::total_cmp);
    values.get(values.len() / 2).copied().unwrap_or(0.0)
}

/// How often all is measured, so that a while in which the machine does other work does not tell.
const PASSES: usize = 10;

/// The medians of one pass for a case, in nanoseconds a call: the three take turns.
fn pass(case: &mut Case, sizes: [u32; 3], rounds: usize) -> [f64; 3] {
    let mut times = [const { Vec::new() }; 3];
    for _ in 0..rounds {
        for (who, op) in case.ops.into_iter().enumerate() {
            let spent = batch(op, &mut case.scene, sizes[who]);
            times[who].push(spent as f64 / f64::from(sizes[who]));
        }
    }
    times.map(median)
}

/// Prints each call's time in nanoseconds: the median of so many batches, the least of all passes.
pub fn time(rounds: usize) {
    let mut cases = cases();
    let sizes: Vec<[u32; 3]> = cases
        .iter_mut()
        .map(|case| case.ops.map(|op| size(op, &mut case.scene)))
        .collect();
    let mut least = vec![[f64::INFINITY; 3]; cases.len()];
    for _ in 0..PASSES {
        for ((case, sizes), least) in cases.iter_mut().zip(&sizes).zip(&mut least) {
            let times = pass(case, *sizes, rounds);
            *least = from_fn(|who| times[who].min(least[who]));
        }
    }
    for (case, [nothing, proved, peer]) in cases.iter().zip(least) {
        for (who, time) in [("proved", proved), ("peer", peer)] {
            println!("{}\t{who}\t{:.2}", case.label, time - nothing);
        }
    }
}
