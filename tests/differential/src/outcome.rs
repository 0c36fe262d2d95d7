//! What comes of a call, and how many of each sort there were.

use std::collections::BTreeMap;

use crate::areas::{Areas, Wrong};
use crate::case::KINDS;

/// A call that answered as it should.
pub struct Done {
    pub kind: usize,
    /// 0 where it was accepted.
    pub number: usize,
    /// It built the index.
    pub built: bool,
    /// Its answer area was too short for an answer.
    pub silent: bool,
    /// It was given the note 1 and an index that no call left.
    pub stray: bool,
    /// How many sources an accepted annotation has.
    pub sources: usize,
    /// How many locators it answered, and of how many value and suffix were not compared, since document 02's rule parts from the Rust's.
    pub locators: usize,
    pub parted: usize,
    /// The note after it.
    pub note: u8,
}

/// A call of a case that did not: the first element that is wrong, and the answer as it should be and as it is.
#[derive(Clone)]
pub struct Difference {
    pub call: usize,
    pub wrong: Wrong,
    pub expected: Vec<u32>,
    pub held: Vec<u32>,
}

impl Difference {
    /// Of the call at hand, with these areas.
    pub fn of(wrong: Wrong, areas: &Areas) -> Box<Difference> {
        Box::new(Difference { call: 0, wrong, expected: areas.answer.expected_content().to_vec(), held: areas.answer.content().to_vec() })
    }

    pub fn shown(&self, reference: &str) -> String {
        let Wrong { area, at, expected, held } = &self.wrong;
        format!(
            "call {} differs: {area}, place {at}: {expected} by {reference}, {held} by the library\n  \
             answer by {reference}: {:?}\n  answer by the library: {:?}\n",
            self.call + 1,
            self.expected,
            self.held
        )
    }
}

/// From how many sources on accepted annotations are counted.
const SOURCES: [usize; 3] = [10, 100, 1_000];

/// Calls by kind and number, and cases.
#[derive(Clone, Default)]
pub struct Counts {
    pub cases: u64,
    pub calls: u64,
    numbers: [BTreeMap<usize, u64>; KINDS.len()],
    built: [u64; KINDS.len()],
    silent: [u64; KINDS.len()],
    stray: [u64; KINDS.len()],
    sources: [u64; SOURCES.len()],
    locators: u64,
    parted: u64,
}

impl Counts {
    pub fn count(&mut self, done: &Done) {
        self.calls += 1;
        self.stray[done.kind] += u64::from(done.stray);
        if done.silent {
            self.silent[done.kind] += 1;
            return;
        }
        *self.numbers[done.kind].entry(done.number).or_default() += 1;
        self.built[done.kind] += u64::from(done.built);
        for (count, least) in self.sources.iter_mut().zip(SOURCES) {
            *count += u64::from(done.sources >= least);
        }
        self.locators += done.locators as u64;
        self.parted += done.parted as u64;
    }

    pub fn add(&mut self, other: &Counts) {
        self.cases += other.cases;
        self.calls += other.calls;
        for kind in 0..KINDS.len() {
            for (number, count) in &other.numbers[kind] {
                *self.numbers[kind].entry(*number).or_default() += count;
            }
            self.built[kind] += other.built[kind];
            self.silent[kind] += other.silent[kind];
            self.stray[kind] += other.stray[kind];
        }
        for (count, more) in self.sources.iter_mut().zip(other.sources) {
            *count += more;
        }
        self.locators += other.locators;
        self.parted += other.parted;
    }

    /// A line for each kind: its calls, and how many had each answer.
    pub fn table(&self) -> String {
        let mut out = String::new();
        for (kind, name) in KINDS.iter().enumerate() {
            let row = &self.numbers[kind];
            let all = row.values().sum::<u64>() + self.silent[kind];
            if all == 0 {
                continue;
            }
            out.push_str(&format!("  {name:12}{:>13}: accepted {}", grouped(all), grouped(row.get(&0).copied().unwrap_or(0))));
            for (number, count) in row.iter().filter(|(number, _)| **number != 0) {
                out.push_str(&format!("; {number}: {}", grouped(*count)));
            }
            let sorts = [
                ("answer area too short", self.silent[kind]),
                ("built the index", self.built[kind]),
                ("note 1 with an index that no call left", self.stray[kind]),
            ];
            for (sort, count) in sorts.into_iter().filter(|sort| sort.1 > 0) {
                out.push_str(&format!("; {sort}: {}", grouped(count)));
            }
            out.push('\n');
        }
        let sources =
            SOURCES.iter().zip(self.sources).map(|(least, count)| format!("{} or more: {}", grouped(*least as u64), grouped(count)));
        out.push_str(&format!("  accepted annotations by their sources: {}\n", sources.collect::<Vec<_>>().join("; ")));
        if self.locators > 0 {
            let (parted, all) = (grouped(self.parted), grouped(self.locators));
            out.push_str(&format!("  value and suffix not compared, where the two rules of a value part: {parted} of {all} locators\n"));
        }
        out
    }
}

/// A number with a comma before every three digits.
pub fn grouped(number: u64) -> String {
    match number {
        0..1000 => number.to_string(),
        _ => format!("{},{:03}", grouped(number / 1000), number % 1000),
    }
}
