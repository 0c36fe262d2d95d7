//! The areas that a call is lent, each between guards, and what they should hold after it.

use citations::raw::{self, Bracket, Lent};
use inputs::random::Random;

use crate::case::{Call, Case, What};

/// Elements before and after each area, which no call may change.
const GUARD: usize = 16;

/// An area between its guards: what it holds, and what it should hold.
pub struct Area<T> {
    held: Vec<T>,
    expected: Vec<T>,
}

/// An element that is not as it should be: the area, the place in it (negative or past its end: a guard), what it should be, what it is.
#[derive(Clone, PartialEq)]
pub struct Wrong {
    pub area: &'static str,
    pub at: isize,
    pub expected: String,
    pub held: String,
}

impl<T: Copy + Default + PartialEq + std::fmt::Debug> Area<T> {
    fn new() -> Self {
        Area { held: vec![T::default(); 2 * GUARD], expected: vec![T::default(); 2 * GUARD] }
    }

    /// Takes another length, all elements and guards drawn anew.
    fn draw(&mut self, length: usize, value: impl FnMut() -> T) {
        self.held.clear();
        self.held.extend(std::iter::repeat_with(value).take(length + 2 * GUARD));
        self.settle();
    }

    /// Takes this content, between guards of one value.
    fn put(&mut self, content: &[T], guard: T) {
        self.held.clear();
        self.held.resize(GUARD, guard);
        self.held.extend_from_slice(content);
        self.held.resize(content.len() + 2 * GUARD, guard);
        self.settle();
    }

    fn settle(&mut self) {
        self.expected.clear();
        self.expected.extend_from_slice(&self.held);
    }

    /// What the area holds, without its guards.
    pub fn content(&self) -> &[T] {
        &self.held[GUARD..self.held.len() - GUARD]
    }

    /// What the area should hold, without its guards.
    pub fn expected_content(&self) -> &[T] {
        &self.expected[GUARD..self.expected.len() - GUARD]
    }

    fn lend(&mut self, length: usize) -> &mut [T] {
        &mut self.held[GUARD..GUARD + length]
    }

    fn lend_all(&mut self) -> &mut [T] {
        let end = self.held.len() - GUARD;
        &mut self.held[GUARD..end]
    }

    /// The area should hold these at its front.
    pub fn expect(&mut self, values: &[T]) {
        self.expected[GUARD..GUARD + values.len()].copy_from_slice(values);
    }

    /// The first elements, so many, should be this.
    pub fn expect_first(&mut self, count: usize, value: T) {
        self.expected[GUARD..GUARD + count].fill(value);
    }

    /// All elements should be this.
    pub fn expect_all(&mut self, value: T) {
        let end = self.expected.len() - GUARD;
        self.expected[GUARD..end].fill(value);
    }

    /// The first elements, so many, may be anything: what they are is right.
    pub fn accept(&mut self, count: usize) {
        self.accept_from(0, count);
    }

    /// So many elements from a place on may be anything.
    pub fn accept_from(&mut self, at: usize, count: usize) {
        let part = GUARD + at..GUARD + at + count;
        self.expected[part.clone()].copy_from_slice(&self.held[part]);
    }

    /// The first element that is not as it should be.
    fn wrong(&self, area: &'static str) -> Option<Wrong> {
        if self.held == self.expected {
            return None;
        }
        let at = (0..self.held.len()).find(|&i| self.held[i] != self.expected[i])?;
        Some(Wrong {
            area,
            at: at as isize - GUARD as isize,
            expected: format!("{:?}", self.expected[at]),
            held: format!("{:?}", self.held[at]),
        })
    }

    // For the self-test: another value at a place, which may be a guard.
    fn spoil(&mut self, at: isize, other: impl Fn(T) -> T) {
        let at = (at + GUARD as isize) as usize;
        self.held[at] = other(self.held[at]);
    }
}

/// The lengths of the areas that a call is lent.
#[derive(Clone, Copy)]
pub struct Lengths {
    pub index: usize,
    pub records: usize,
    pub items: usize,
    pub groups: usize,
    pub references: usize,
    pub labels: usize,
    pub answer: usize,
}

/// What is needed of the answer areas, in numbers.
#[derive(Clone, Copy, Default)]
pub struct Need {
    pub items: usize,
    pub groups: usize,
    pub references: usize,
    pub labels: usize,
}

impl Lengths {
    /// The lengths of a call's areas where it needs so much.
    pub fn of(call: &Call, case: &Case, need: Need) -> Lengths {
        let bytes = case.text.len();
        let rooms = &call.rooms;
        Lengths {
            index: rooms.index.of(bytes).min(bytes + case.beyond),
            records: rooms.records.of(bytes),
            items: rooms.items.of(need.items),
            groups: rooms.groups.of(need.groups),
            references: rooms.references.of(need.references),
            labels: rooms.labels.of(need.labels),
            answer: rooms.answer.of(call.what.answer_length()),
        }
    }
}

/// A change that the self-test makes after each call, as a faulty library would: of the element before an area, of its last or of the one
/// behind it; or of an index that is built.
#[derive(Clone, Copy, Debug, PartialEq)]
pub enum Fault {
    Before(&'static str),
    Last(&'static str),
    Behind(&'static str),
    /// The index has no entry.
    NoEntries,
    /// Every entry is the first one.
    OneEntry,
    /// The note is 1, and nothing is built.
    NoteAlone,
}

/// The names of the areas; `source` is that of the source text call.
pub const AREAS: [&str; 10] = ["text", "pool", "index", "records", "items", "groups", "references", "labels", "source", "answer"];

/// All areas of a case.
pub struct Areas {
    pub text: Area<u8>,
    pub pool: Area<u8>,
    pub index: Area<u16>,
    pub records: Area<Bracket>,
    pub items: Area<u16>,
    pub groups: Area<u16>,
    pub references: Area<u16>,
    pub labels: Area<u8>,
    pub answer: Area<u32>,
    pub fault: Option<Fault>,
}

// What stands around texts and pools: a call that read past their ends would answer otherwise.
const AROUND: [u8; 6] = [b']', b'@', b'a', b'\\', 0, 0xBF];

impl Areas {
    pub fn new() -> Areas {
        Areas {
            text: Area::new(),
            pool: Area::new(),
            index: Area::new(),
            records: Area::new(),
            items: Area::new(),
            groups: Area::new(),
            references: Area::new(),
            labels: Area::new(),
            answer: Area::new(),
            fault: None,
        }
    }

    /// Takes a case's text and draws its index area: places of the text, of its closes, or any numbers.
    pub fn start(&mut self, case: &Case) {
        let mut random = Random::new(case.seed);
        self.text.put(&case.text, random.of(&AROUND));
        let closes: Vec<u16> = case.text.iter().enumerate().filter(|(_, b)| **b == b']').map(|(at, _)| at as u16).collect();
        let places = case.text.len() + 2;
        let sort = random.below(3);
        self.index.draw(case.text.len() + case.beyond, || match sort {
            0 => random.below(places) as u16,
            1 if !closes.is_empty() => random.of(&closes),
            _ => random.next() as u16,
        });
    }

    /// Draws the areas of a call, and takes its pool.
    pub fn prepare(&mut self, call: &Call, lengths: Lengths) {
        let mut random = Random::new(call.seed);
        self.pool.put(call.what.pool(), random.of(&AROUND));
        self.answer.draw(lengths.answer, || random.next() as u32);
        match call.what {
            What::LookUp { .. } => self.draw_first(&mut random, lengths),
            What::Annotate { .. } => {
                self.draw_first(&mut random, lengths);
                self.groups.draw(lengths.groups, || random.next() as u16);
                self.references.draw(lengths.references, || random.next() as u16);
                self.labels.draw(lengths.labels, || random.next() as u8);
            }
            What::SourceText { .. } => self.labels.draw(lengths.labels, || random.next() as u8),
            What::Size | What::Locator => {}
        }
    }

    fn draw_first(&mut self, random: &mut Random, lengths: Lengths) {
        self.records.draw(lengths.records, || {
            let four = random.next();
            Bracket { place: four as u16, seen: (four >> 16) as u16, good: (four >> 32) as u16, bad: (four >> 48) as u16 }
        });
        self.items.draw(lengths.items, || random.next() as u16);
    }

    /// Calls the library.
    pub fn call(&mut self, call: &Call, lengths: Lengths, note: u8) {
        let text = self.text.content();
        let answer = self.answer.lend_all();
        let mut lent = Lent {
            index: self.index.lend(lengths.index),
            records: self.records.lend_all(),
            items: self.items.lend_all(),
            groups: self.groups.lend_all(),
            references: self.references.lend_all(),
            labels: self.labels.lend_all(),
        };
        match &call.what {
            What::LookUp { at } => raw::look_up(text, *at, note, &mut lent, answer),
            What::Annotate { mode, .. } => raw::annotate(text, *mode, self.pool.content(), note, &mut lent, answer),
            What::Size => raw::size(text, answer),
            What::Locator => raw::locator(text, answer),
            What::SourceText { entry, .. } => raw::source_text(self.pool.content(), *entry, lent.labels, answer),
        }
        if let Some(fault) = self.fault {
            self.spoil(fault, call, lengths);
        }
    }

    /// The first element of the areas of a call that is not as it should be.
    pub fn wrong(&self, call: &Call) -> Option<Wrong> {
        let always = || self.answer.wrong("answer").or_else(|| self.text.wrong("text")).or_else(|| self.pool.wrong("pool"));
        let first =
            || self.index.wrong("index").or_else(|| self.records.wrong("bracket records")).or_else(|| self.items.wrong("item records"));
        let rest = || self.groups.wrong("group records").or_else(|| self.references.wrong("reference records"));
        let labels = || self.labels.wrong("label bytes");
        match call.what {
            What::LookUp { .. } => always().or_else(first),
            What::Annotate { .. } => always().or_else(first).or_else(rest).or_else(labels),
            What::SourceText { .. } => always().or_else(|| self.labels.wrong("source text's area")),
            What::Size | What::Locator => always(),
        }
    }

    fn spoil(&mut self, fault: Fault, call: &Call, lengths: Lengths) {
        let note = call.what.note_place().filter(|_| call.what.answer_length() <= lengths.answer);
        let built = note.is_some_and(|place| self.answer.content()[place] == 1);
        match fault {
            Fault::Before(area) => self.spoil_at(area, |_| -1, call, lengths),
            Fault::Last(area) => self.spoil_at(area, |length| length as isize - 1, call, lengths),
            Fault::Behind(area) => self.spoil_at(area, |length| length as isize, call, lengths),
            Fault::NoEntries if built => self.index.lend(lengths.index).fill(0),
            Fault::OneEntry if built => {
                let first = self.index.content().iter().copied().find(|close| *close > 0).unwrap_or(0);
                self.index.lend(lengths.index).iter_mut().filter(|close| **close > 0).for_each(|close| *close = first);
            }
            Fault::NoteAlone => {
                if let Some(place) = note {
                    self.answer.lend_all()[place] = 1;
                }
            }
            _ => {}
        }
    }

    fn spoil_at(&mut self, area: &str, at: impl Fn(usize) -> isize, call: &Call, lengths: Lengths) {
        let annotates = matches!(call.what, What::Annotate { .. });
        let looks = call.what.note_place().is_some();
        match area {
            "text" => self.text.spoil(at(self.text.content().len()), |x| x ^ 1),
            "pool" => self.pool.spoil(at(self.pool.content().len()), |x| x ^ 1),
            "index" if looks => self.index.spoil(at(lengths.index), |x| x ^ 1),
            "records" if looks => self.records.spoil(at(lengths.records), |x| Bracket { bad: x.bad ^ 1, ..x }),
            "items" if looks => self.items.spoil(at(lengths.items), |x| x ^ 1),
            "groups" if annotates => self.groups.spoil(at(lengths.groups), |x| x ^ 1),
            "references" if annotates => self.references.spoil(at(lengths.references), |x| x ^ 1),
            "labels" if annotates => self.labels.spoil(at(lengths.labels), |x| x ^ 1),
            "source" if matches!(call.what, What::SourceText { .. }) => self.labels.spoil(at(lengths.labels), |x| x ^ 1),
            "answer" => self.answer.spoil(at(lengths.answer), |x| x ^ 1),
            _ => {}
        }
    }
}
