//! Many cases from fixed seeds, on all kinds of calls. Every outcome that a kind can have must have come up: what is never tried proves nothing.

use boundary::cases::{Kind, KINDS};
use std::collections::BTreeMap;

const SEED: u64 = 26_421;
const CASES: u64 = 10_000;

fn attempt(kind: &Kind) {
    let mut outcomes = BTreeMap::new();
    for seed in SEED..SEED + CASES {
        match kind.case(seed) {
            Ok(outcome) => *outcomes.entry(outcome).or_insert(0) += 1,
            Err(difference) => panic!("{} with seed {seed}: {difference}; again with: fuzz 0 {seed}", kind.name),
        }
    }
    println!("{}: {CASES} cases from seed {SEED}, outcomes {outcomes:?}", kind.name);
    for outcome in kind.outcomes {
        assert!(outcomes.get(outcome).is_some_and(|&times| times >= 10), "{}: outcome {outcome} is hardly tried: {outcomes:?}", kind.name);
    }
    assert_eq!(outcomes.len(), kind.outcomes.len(), "{}: outcomes nobody named: {outcomes:?}", kind.name);
}

fn named(name: &str) {
    attempt(KINDS.iter().find(|kind| kind.name == name).expect("a kind of this name"));
}

#[test]
fn one_message() {
    ["check", "read_header", "read_observation", "read_all", "start", "set", "to_new", "to_old"].into_iter().for_each(named);
}

#[test]
fn numbers() {
    named("numbers");
}

#[test]
fn plain_reader() {
    named("next");
}

#[test]
fn reasons() {
    named("why");
}

#[test]
fn feed_in_any_state() {
    named("feed");
}

#[test]
fn finish_in_any_state() {
    named("finish");
}

#[test]
fn whole_runs() {
    named("run");
}

#[test]
fn records() {
    ["rangecmp_read", "rangecmp_write", "rangecmp_adr", "rangecmp_deviations"].into_iter().for_each(named);
}

#[test]
fn histories() {
    named("breaks");
}
