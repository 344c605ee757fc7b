//! Random runs and generated journals: round trips and demand 3.

use second::demand3::{account, check, check_bytes, look, parse, Finding};
use second::edition::EDITIONS;
use second::generate::{bytes_of, edition_of, journals, traits, Traits, STORED};
use second::journal;
use second::print;
use second::random::{drive, edition, finish, stocks, Random};
use second::recording;
use second::site::{Call, Run, DIRECTIONS};
use std::collections::BTreeMap;

/// A run of any edition after a random list of calls, with the opening and the list.
fn random_run(random: &mut Random, length: usize) -> (Vec<u16>, Vec<(Call, u32)>, Run) {
    let edition = edition(random);
    let zones = random.within(2, 8);
    let opening = stocks(random, zones);
    let (refusal, mut run) = Run::open(edition, zones, &opening);
    assert_eq!(refusal, 0);
    let calls = drive(random, edition, zones, length, &mut |call| run.call(call));
    (opening, calls, run)
}

#[test]
fn journals_of_random_runs_read_back_as_the_same_run() {
    let mut random = Random::new(3);
    for turn in 0..600 {
        let length = if turn % 20 == 0 { 2_500 } else { 90 };
        let (_, _, run) = random_run(&mut random, length);
        let bytes = bytes_of(&run);
        let reading = journal::read(&bytes);
        assert_eq!((reading.refusal, reading.position), (0, 0));
        assert!(reading.run.same(&run));
        assert_eq!(bytes_of(&reading.run), bytes);
    }
}

#[test]
fn accepted_journals_are_written_back_as_the_same_bytes() {
    let mut random = Random::new(4);
    let mut accepted = 0;
    for mut bytes in journals(5, STORED) {
        for _ in 0..3 {
            let reading = journal::read(&bytes);
            if reading.refusal == 0 {
                accepted += 1;
                assert_eq!(bytes_of(&reading.run), bytes);
            }
            // The next turn has one more bit turned.
            if !bytes.is_empty() {
                let place = random.below(bytes.len());
                bytes[place] ^= 1 << random.below(8);
            }
        }
    }
    assert!(accepted > 400);
}

#[test]
fn demand_3_holds_on_thousands_of_random_complete_runs() {
    let mut random = Random::new(6);
    let (mut complete, mut incomplete, mut unstarted, mut turned) = ([0; 3], 0, 0, [0; 3]);
    let (mut inside, mut outside, mut above) = (0, 0, 0);
    for turn in 0..9_000 {
        let length = match turn % 50 {
            0 => 1_500,
            1..=20 => 30,
            _ => 100,
        };
        let (opening, calls, run) = random_run(&mut random, length);
        let seen = look(&opening, calls, &run);
        assert_eq!(check(&seen), []);
        let edition = run.edition as usize - 1;
        match seen.answer {
            0 => complete[edition] += 1,
            12 => unstarted += 1,
            13 => incomplete += 1,
            other => panic!("a true run was refused with {other}"),
        }
        if seen.answer == 0 {
            let traits = traits(&bytes_of(&run));
            turned[edition] += u32::from(traits.turned_firm);
            inside += u32::from(traits.gate_inside);
            outside += u32::from(traits.gate_outside);
            above += u32::from(traits.total > 65_535);
            assert_eq!(traits.total, u64::from(seen.total));
        }
    }
    println!("by edition {complete:?} complete, {turned:?} of them turned firm; {incomplete} incomplete, {unstarted} unstarted");
    println!("{inside} with gates inside, {outside} with gates outside, {above} with a total above 65,535");
    assert!(inside > 1_000 && outside > 1_000 && above > 20);
    assert!(complete.iter().all(|&times| times > 1_200) && turned.iter().all(|&times| times > 100));
    assert!(incomplete > 100 && unstarted > 100);
}

/// Every list of accepted calls up to a length, on two zones with one car each and on three, with
/// hand-overs of 1 car alone and with such of 0 cars too, and with gates of so many cars in edition 3.
#[test]
fn demand_3_holds_on_every_short_list() {
    let mut checked = 0;
    every_list(1, &[1, 1], &[1], 10, &mut checked);
    every_list(1, &[1, 0, 1], &[1], 7, &mut checked);
    every_list(2, &[1, 1], &[0, 1], 6, &mut checked);
    every_list(2, &[1, 0, 1], &[0, 1], 4, &mut checked);
    every_list(3, &[1, 1], &[1], 6, &mut checked);
    every_list(3, &[65_534, 1], &[0, 1], 5, &mut checked);
    every_list(3, &[1, 0, 1], &[1], 4, &mut checked);
    println!("{checked} complete lists");
    assert!(checked > 10_000);
}

fn every_list(edition: u32, opening: &[u16], loads: &[u8], length: usize, checked: &mut u32) {
    let zones = opening.len() as u32;
    let mut choices = Vec::new();
    for from in 1..=zones {
        choices.push(Call::Start { zone: from });
        for direction in DIRECTIONS {
            // Without gates these are refused, and no list has them.
            choices.extend(loads.iter().map(|&cars| Call::Gate {
                direction,
                zone: from,
                cars,
            }));
        }
        for to in (1..=zones).filter(|&to| to != from) {
            choices.push(Call::Receipt { from, to });
            let sent = loads.iter().map(|&cars| Call::HandOver { from, to, cars });
            choices.extend(sent);
        }
    }
    let (_, run) = Run::open(edition, zones, opening);
    extend(opening, &choices, &mut Vec::new(), &run, length, checked);
}

fn extend(
    opening: &[u16],
    choices: &[Call],
    calls: &mut Vec<(Call, u32)>,
    run: &Run,
    left: usize,
    checked: &mut u32,
) {
    let seen = look(opening, calls.clone(), run);
    assert_eq!(check(&seen), []);
    *checked += u32::from(seen.answer == 0);
    if left == 0 {
        return;
    }
    for &call in choices {
        let mut next = run.clone();
        if next.call(call) == 0 {
            calls.push((call, 0));
            extend(opening, choices, calls, &next, left - 1, checked);
            calls.pop();
        }
    }
}

/// The checker is no rubber stamp: a recording with any one bit turned is found out, and so are
/// a shorter and a longer one.
#[test]
fn the_checker_finds_every_turned_bit() {
    let mut random = Random::new(7);
    let mut by_demand_3_alone = 0;
    let mut by_the_layout_alone = 0;
    for _ in 0..300 {
        let (opening, mut calls, mut run) = random_run(&mut random, 60);
        if !run.started() {
            let call = Call::Start { zone: 1 };
            calls.push((call, run.call(call)));
        }
        let records = run.records.len();
        finish(&mut random, &mut run);
        for &word in &run.records[records..] {
            calls.push((journal::decode(run.edition, word).unwrap(), 0));
        }
        let seen = look(&opening, calls, &run);
        if seen.answer != 0 {
            continue;
        }
        assert_eq!(check(&seen), []);
        for bit in 0..8 * seen.bytes.len() {
            let mut other = seen.clone();
            other.bytes[bit / 8] ^= 1 << (bit % 8);
            // The total follows the bytes, so that it does not give the bit away.
            if let Some(recorded) = parse(seen.edition, opening.len(), &other.bytes) {
                other.total = recorded.total() as u32;
            }
            let findings = check(&other);
            assert!(!findings.is_empty());
            if findings == [Finding::Unrecorded] {
                by_the_layout_alone += 1;
            } else {
                by_demand_3_alone += 1;
            }
        }
        for bit in 0..32 {
            let mut other = seen.clone();
            other.total ^= 1 << bit;
            assert_eq!(check(&other), [Finding::Total, Finding::Balance]);
        }
        let mut other = seen.clone();
        other.bytes.pop();
        assert_eq!(check(&other), [Finding::Bytes]);
        let mut other = seen.clone();
        other.bytes.extend([0, 0]);
        assert_eq!(check(&other), [Finding::Bytes]);
        let mut other = seen.clone();
        other.stocks[0] += 1;
        assert_eq!(check(&other), [Finding::PresentStocks]);
        let mut other = seen.clone();
        other.lines[0][1].insert(0, 1);
        assert_eq!(check(&other), [Finding::PresentLines]);
        // One more hand-over of 0 cars on a present line is seen in edition 1 alone.
        other.lines[0][1][0] = 0;
        let found: &[Finding] = match seen.edition {
            1 => &[Finding::PresentLines],
            _ => &[],
        };
        assert_eq!(check(&other), found);
        // A refusal here is found, and so is a total beside it.
        let mut other = seen.clone();
        other.answer = 13;
        let total = (seen.total != 0).then_some(Finding::Total);
        let found: Vec<Finding> = [Finding::Completion].into_iter().chain(total).collect();
        assert_eq!(check(&other), found);
        other.total = 0;
        assert_eq!(check(&other), [Finding::Completion]);
    }
    println!("{by_demand_3_alone} found by demand 3, {by_the_layout_alone} by the layout alone");
    assert!(by_demand_3_alone > 10_000);
}

/// The checker works out the same marks as the run, and takes bytes that someone else wrote.
#[test]
fn the_checker_takes_bytes_of_others() {
    let mut random = Random::new(8);
    for _ in 0..300 {
        let (opening, calls, run) = random_run(&mut random, 60);
        let account = account(run.edition, opening.len(), &calls);
        assert!(account.by_rules);
        assert_eq!(account.complete, run.started() && !run.holds_request());
        let mut lent = [0; print::MOST_BYTES];
        let (refusal, written, total) = recording::write(&run, &mut lent);
        let calls: Vec<Call> = calls.iter().map(|&(call, _)| call).collect();
        let findings = check_bytes(run.edition, &opening, &calls, &lent[..written], total);
        assert_eq!(findings.is_empty(), refusal == 0);
    }
}

#[test]
fn generated_journals_have_every_kind() {
    let all = journals(2_026, STORED);
    assert!(
        all == journals(2_026, STORED),
        "the generator is deterministic"
    );
    let length: usize = all.iter().map(|journal| 2 + journal.len()).sum();
    assert!(length < 300_000);
    // crates/cases takes no longer ones.
    assert!(all.iter().all(|journal| journal.len() <= 4_096));
    assert!(refusals(&all)[&15] > 16);
    for edition in EDITIONS {
        let of = |journal: &&Vec<u8>| edition_of(journal) == edition;
        let journals: Vec<Vec<u8>> = all.iter().filter(of).cloned().collect();
        assert!(journals.len() > 180);
        has_every_kind(&journals);
        has_gates(edition, &journals);
    }
}

/// Recordings with gates are of edition 3.
fn has_gates(edition: u32, journals: &[Vec<u8>]) {
    let traits: Vec<_> = journals.iter().map(|journal| traits(journal)).collect();
    let times = |has: fn(&Traits) -> bool| traits.iter().filter(|traits| has(traits)).count();
    let (inside, outside, above) = (
        times(|traits| traits.gate_inside),
        times(|traits| traits.gate_outside),
        times(|traits| traits.total > 65_535),
    );
    if edition == 3 {
        assert!(inside >= 80 && outside >= 80 && above >= 4);
    } else {
        assert_eq!((inside, outside, above), (0, 0, 0));
    }
}

/// How often each number is printed, 0 for a recording.
fn refusals(journals: &[Vec<u8>]) -> BTreeMap<u32, u32> {
    let mut numbers = BTreeMap::new();
    for journal in journals {
        *numbers.entry(traits(journal).refusal).or_insert(0) += 1;
    }
    numbers
}

fn has_every_kind(journals: &[Vec<u8>]) {
    let numbers = refusals(journals);
    let kinds: Vec<u32> = numbers.keys().copied().collect();
    assert_eq!(kinds, [0, 4, 12, 13, 15, 16, 17, 18, 19]);
    // A journal of a known edition meets 15 only where it has one byte.
    let often = |(&number, &times): (&u32, &u32)| times >= 4 || number == 15;
    assert!(numbers.iter().all(often));
    let traits: Vec<_> = journals.iter().map(|journal| traits(journal)).collect();
    let times = |has: fn(&Traits) -> bool| traits.iter().filter(|traits| has(traits)).count();
    assert!(times(|traits| traits.turned_firm) >= 15 && times(|traits| traits.above_16) >= 10);
    assert!(times(|traits| traits.took_unmarked_check) >= 40);
    assert!(times(|traits| traits.took_marked_check) >= 40);
}

#[test]
fn generated_complete_journals_meet_demand_3() {
    for bytes in journals(2_026, STORED) {
        let reading = journal::read(&bytes);
        if reading.refusal == 0 {
            let run = reading.run;
            let calls = run
                .records
                .iter()
                .map(|&word| (journal::decode(run.edition, word).unwrap(), 0))
                .collect();
            let seen = look(&run.opening[..run.size()], calls, &run);
            assert_eq!(check(&seen), []);
        }
    }
}
