//! What was compared: inputs by kind, answers by outcome, and every difference.

use crate::library::*;
use std::collections::BTreeMap;
use std::fmt::Debug;

/// Each function with the outcomes that it has.
const OUTCOMES: [(&str, &[u32]); 5] = [
    ("read_block", &[OK, WRONG_SIZE, MALFORMED, FEWER]),
    ("open_block", &[OK, WRONG_SIZE, MALFORMED]),
    ("next_message", &[OK, FEWER, ASTRAY]),
    ("read_message", &[OK, UNREADABLE]),
    ("write_message", &[OK, UNREADABLE, WRONG_SIZE, CONTENTS_OVER]),
];

/// More differences of a group than these are counted and not printed: one fault shows in very many inputs.
const PRINTED: u64 = 3;

/// The group that is being compared.
#[derive(Default)]
struct Group {
    name: &'static str,
    kinds: BTreeMap<&'static str, u64>,
    inputs: u64,
    comparisons: u64,
    differences: u64,
}

pub struct Tally {
    seed: u64,
    outcomes: BTreeMap<(&'static str, u32), u64>,
    passed: u64,
    failed: u64,
    inputs: u64,
    group: Group,
}

pub fn hex(octets: &[u8]) -> String {
    if octets.is_empty() {
        return "-".into();
    }
    octets.iter().map(|octet| format!("{octet:02x}")).collect()
}

/// Octets that are printed in hex.
#[derive(PartialEq)]
pub struct Octets<'a>(pub &'a [u8]);

impl Debug for Octets<'_> {
    fn fmt(&self, to: &mut std::fmt::Formatter) -> std::fmt::Result {
        to.write_str(&hex(self.0))
    }
}

impl Tally {
    pub fn new(seed: u64) -> Tally {
        Tally { seed, outcomes: BTreeMap::new(), passed: 0, failed: 0, inputs: 0, group: Group::default() }
    }

    /// Runs a group of inputs; it has passed if it meets no difference. A group that compares nothing shows nothing, and fails.
    pub fn group(&mut self, name: &'static str, run: impl FnOnce(&mut Tally)) {
        self.group = Group { name, ..Default::default() };
        run(self);
        if self.group.comparisons == 0 {
            self.difference(|| "the group compared nothing".into());
        }
        let Group { kinds, inputs, differences, .. } = &self.group;
        let verdict = if *differences == 0 { "ok  " } else { "FAIL" };
        println!("{verdict} {name}: {inputs} inputs, {differences} differences");
        for (kind, count) in kinds {
            println!("       {count:8} {kind}");
        }
        self.inputs += inputs;
        self.failed += differences;
        self.passed += (*differences == 0) as u64;
    }

    /// Counts an input under its kind.
    pub fn input(&mut self, kind: &'static str) {
        self.group.inputs += 1;
        *self.group.kinds.entry(kind).or_default() += 1;
    }

    /// Compares two answers; what the input was is only told of a difference.
    pub fn compare<T: PartialEq + Debug>(&mut self, expected: T, came: T, input: impl FnOnce() -> String) {
        self.group.comparisons += 1;
        if expected != came {
            self.difference(|| format!("{}\n  expected {expected:?}\n  came     {came:?}", input()));
        }
    }

    /// Compares the answers of a function and counts their outcome.
    pub fn answer<T: Answer>(&mut self, function: &'static str, expected: T, came: T, input: impl FnOnce() -> String) {
        *self.outcomes.entry((function, expected.outcome())).or_default() += 1;
        self.compare(expected, came, || format!("{function}, {}", input()));
    }

    fn difference(&mut self, what: impl FnOnce() -> String) {
        let group = &mut self.group;
        group.differences += 1;
        if group.differences <= PRINTED {
            println!("DIFFERENCE, seed {}, {}, input {}: {}", self.seed, group.name, group.inputs, what());
        } else if group.differences == PRINTED + 1 {
            println!("further differences are counted and not printed");
        }
    }

    /// A comparison is worth little if it never meets an outcome: prints how often each came, and counts one that did not as a difference.
    pub fn outcomes(&mut self) {
        for (function, outcomes) in OUTCOMES {
            println!("     {function}");
            for &outcome in outcomes {
                let count = self.outcomes.get(&(function, outcome)).copied().unwrap_or(0);
                println!("       {count:8} {}", name_of(outcome));
                self.compare(true, count > 0, || format!("{function} has the outcome {}", name_of(outcome)));
            }
        }
    }

    /// The last line; says whether all passed.
    pub fn end(&self) -> bool {
        println!("{} inputs in all", self.inputs);
        println!("rust: {} passed, {} failed", self.passed, self.failed);
        self.failed == 0
    }
}

fn name_of(outcome: u32) -> &'static str {
    match outcome {
        OK => "ok",
        WRONG_SIZE => "wrong size",
        UNREADABLE => "unreadable",
        CONTENTS_OVER => "contents over",
        MALFORMED => "malformed",
        FEWER => "fewer",
        ASTRAY => "astray",
        _ => "unknown",
    }
}
