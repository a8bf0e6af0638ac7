//! What was compared, and what differed.

use std::collections::BTreeMap;
use std::fmt::Debug;

/// The calls of the boundary.
pub const KINDS: [&str; 40] = [
    "count",
    "number",
    "point",
    "successor",
    "parent",
    "load",
    "adopt",
    "unload",
    "forward",
    "back",
    "run",
    "whole forward",
    "whole back",
    "component",
    "estimate",
    "margin",
    "read",
    "write",
    "rewrite",
    "file shape",
    // on an account
    "empty account",
    "open table",
    "close table",
    "usage",
    "table under",
    // on shapes with border values
    "bordered count",
    "bordered number",
    "bordered point",
    "bordered successor",
    "bordered parent",
    "bordered load",
    "bordered adopt",
    "bordered unload",
    "bordered forward",
    "bordered back",
    "bordered run",
    "bordered whole forward",
    "bordered whole back",
    "bordered estimate",
    "bordered margin",
];

#[derive(Default)]
struct Tally {
    calls: u64,
    walked: u64,
    comparisons: u64,
    refusals: BTreeMap<u32, u64>,
}

impl Tally {
    fn add(&mut self, other: &Tally) {
        self.calls += other.calls;
        self.walked += other.walked;
        self.comparisons += other.comparisons;
        for (number, times) in &other.refusals {
            *self.refusals.entry(*number).or_default() += times;
        }
    }
}

#[derive(Default)]
pub struct Report {
    kinds: BTreeMap<&'static str, Tally>,
    /// How many calls show each wrong reading.
    shown: BTreeMap<&'static str, u64>,
    pub differences: u64,
}

/// Differences beyond this are counted and not printed.
const SHOWN: u64 = 25;

impl Report {
    /// One call was made, and separate code answers this refusal number, 0 for none.
    pub fn case(&mut self, kind: &'static str, number: u32) {
        let tally = self.kinds.entry(kind).or_default();
        tally.calls += 1;
        *tally.refusals.entry(number).or_default() += 1;
    }

    /// So many calls were made that none refuses.
    pub fn made(&mut self, kind: &'static str, times: u64) {
        let tally = self.kinds.entry(kind).or_default();
        tally.calls += times;
        *tally.refusals.entry(0).or_default() += times;
    }

    /// One call of a walk over the points of a shape.
    pub fn walked(&mut self, kind: &'static str) {
        self.kinds.entry(kind).or_default().walked += 1;
    }

    /// One call is answered otherwise by this wrong reading.
    pub fn shown(&mut self, reading: &'static str) {
        *self.shown.entry(reading).or_default() += 1;
    }

    pub fn times_shown(&self, reading: &str) -> u64 {
        self.shown.get(reading).copied().unwrap_or(0)
    }

    pub fn same<T: PartialEq + Debug + ?Sized>(
        &mut self,
        call: &'static str,
        what: &str,
        expected: &T,
        got: &T,
        input: &dyn Fn() -> String,
    ) {
        self.kinds.entry(call).or_default().comparisons += 1;
        if expected != got {
            self.differences += 1;
            if self.differences <= SHOWN {
                println!("DIFFERS: {call}, {what}");
                println!("  input:        {}", input());
                println!("  separate code: {}", cut(format!("{expected:?}")));
                println!("  library:       {}", cut(format!("{got:?}")));
            }
        }
    }

    pub fn merge(&mut self, other: Report) {
        self.differences += other.differences;
        for (kind, theirs) in other.kinds {
            self.kinds.entry(kind).or_default().add(&theirs);
        }
        for (reading, times) in other.shown {
            *self.shown.entry(reading).or_default() += times;
        }
    }

    /// A refusal, or success as 0, that a call can give and that no case gave.
    pub fn never_met(&self, kind: &str, numbers: &[u32]) -> Vec<u32> {
        let met = |n: &u32| self.kinds.get(kind).is_some_and(|t| t.refusals.contains_key(n));
        numbers.iter().copied().filter(|n| !met(n)).collect()
    }

    /// The calls by kind, what they were answered with, and the calls of walks.
    pub fn print(&self) {
        println!("{:22}{:>9}{:>11}  answered with", "calls", "", "in walks");
        for kind in KINDS {
            let Some(tally) = self.kinds.get(kind) else { continue };
            let answers: Vec<String> = tally
                .refusals
                .iter()
                .map(|(n, times)| format!("{}: {times}", if *n == 0 { "done".into() } else { n.to_string() }))
                .collect();
            println!("{kind:22}{:9}{:11}  {}", tally.calls, tally.walked, answers.join(", "));
        }
    }

    pub fn last_line(&self) -> String {
        let mut all = Tally::default();
        self.kinds.values().for_each(|tally| all.add(tally));
        format!(
            "independent: {} differences in {} comparisons; {} calls, and {} more in walks over all points",
            self.differences, all.comparisons, all.calls, all.walked
        )
    }
}

/// A long text cut, with its length.
pub fn cut(text: String) -> String {
    if text.chars().count() <= 600 {
        return text;
    }
    let head: String = text.chars().take(600).collect();
    format!("{head} .. ({} characters)", text.chars().count())
}
