//! The comparison of a case with the Rust: each call's answer, and every byte that it is lent.

use citations::raw::Bracket;
use citations::ITEM_RECORD;
use oracle::answers::{self, Session};

use crate::areas::{Areas, Lengths, Need};
use crate::case::{Call, Case, What};
use crate::outcome::{Difference, Done};
use crate::run::Runner;

/// What document 01 has a call answer: the Rust's answer where it has one, and what the paper adds.
#[derive(Default)]
struct Answer {
    /// The number, then the values without the note. On refusal zeros.
    number: usize,
    values: Vec<usize>,
    /// The call builds the index.
    builds: bool,
    /// The records and bytes at the front of the answer areas; `labels` is the source text too.
    items: Vec<u16>,
    groups: Vec<u16>,
    references: Vec<u16>,
    labels: Vec<u8>,
}

impl Answer {
    // How many sources an accepted annotation has.
    fn sources(&self, what: &What) -> usize {
        match what {
            What::Annotate { .. } if self.number == 0 => self.references.len(),
            _ => 0,
        }
    }

    // The locators of an accepted call, each by where the value pair and the suffix pair behind it stand: in the answer for the locator call,
    // else in the item records.
    fn locators(&self, what: &What) -> Vec<usize> {
        match what {
            _ if self.number != 0 => Vec::new(),
            What::Locator => vec![2],
            _ => (0..self.items.len()).step_by(ITEM_RECORD).filter(|item| self.items[item + 5] > 0).map(|item| item + 6).collect(),
        }
    }

    // Whether document 02's rule parts from the Rust's in the locator whose pairs stand there.
    fn rules_part(&self, what: &What, text: &[u8], at: usize) -> bool {
        let number = |i: usize| match what {
            What::Locator => self.values[i - 1],
            _ => usize::from(self.items[i]),
        };
        answers::rules_part(text, [number(at), number(at + 1)], [number(at + 2), number(at + 3)])
    }
}

/// Areas and a session that are used for case after case.
pub struct Comparison {
    areas: Areas,
    session: Session,
}

impl Comparison {
    pub fn new() -> Comparison {
        Comparison { areas: Areas::new(), session: Session::default() }
    }

    // The call's answer, but for 10 by the lengths of its areas.
    fn answer(&self, case: &Case, call: &Call, lengths: Lengths) -> Answer {
        let short = lengths.index < case.text.len() || lengths.records < case.text.len();
        match &call.what {
            What::LookUp { at } => self.look_up(*at, short),
            What::Annotate { mode, pool } => self.annotate(usize::from(*mode), pool, short),
            What::Size => {
                let number = answers::text_refusal(&case.text);
                Answer { number, values: vec![if number == 0 { case.text.len() / 3 } else { 0 }], ..Answer::default() }
            }
            What::Locator => {
                let [number, values @ ..] = answers::locator(&case.text);
                Answer { number, values: values.to_vec(), ..Answer::default() }
            }
            What::SourceText { pool, entry } => {
                let (number, text) = answers::source_text(pool, *entry);
                Answer { number, values: vec![text.len()], labels: text.into_bytes(), ..Answer::default() }
            }
        }
    }

    fn look_up(&self, at: usize, short: bool) -> Answer {
        let refusal = self.session.look_up_refusal(at);
        if refusal != 0 || short {
            return Answer { number: if refusal != 0 { refusal } else { 9 }, values: vec![0; 2], ..Answer::default() };
        }
        let before = self.session.note();
        let found = self.session.look_up(at, false);
        Answer {
            number: found.number,
            values: vec![found.close, found.items.len()],
            builds: found.note > before,
            items: numbers(found.items.concat()),
            ..Answer::default()
        }
    }

    fn annotate(&self, mode: usize, pool: &[u8], short: bool) -> Answer {
        let refusal = self.session.annotate_refusal(mode, pool);
        if refusal != 0 || short {
            return Answer { number: if refusal != 0 { refusal } else { 9 }, values: vec![0; 4], ..Answer::default() };
        }
        let before = self.session.note();
        let found = self.session.annotate(mode, pool, false);
        let a = found.answer;
        Answer {
            number: found.number,
            values: vec![a.groups.len(), a.items.len(), a.references.len(), a.labels.len()],
            builds: found.note > before,
            items: numbers(a.items.concat()),
            groups: numbers(a.groups.concat()),
            references: numbers(a.references),
            labels: a.labels,
        }
    }

    // Value and suffix of these locators are right as they are.
    fn accept(&mut self, what: &What, parted: &[usize]) {
        for &at in parted {
            match what {
                What::Locator => self.areas.answer.accept_from(at, 4),
                _ => self.areas.items.accept_from(at, 4),
            }
        }
    }

    // What the areas should hold after the call.
    fn expect(&mut self, case: &Case, call: &Call, answer: &Answer, note: u8) {
        let areas = &mut self.areas;
        let mut numbers: Vec<u32> = vec![answer.number as u32];
        numbers.extend(answer.values.iter().map(|&value| value as u32));
        if let Some(place) = call.what.note_place() {
            numbers.insert(place, u32::from(note));
        }
        areas.answer.expect(&numbers);
        if answer.builds {
            let entries: Vec<u16> = self.session.index().into_iter().map(|close| close as u16).collect();
            areas.index.expect(&entries);
            areas.records.expect_first(case.text.len(), Bracket::default());
        }
        match (&call.what, answer.number) {
            (What::LookUp { .. }, 0) => areas.items.expect(&answer.items),
            (What::Annotate { .. }, 0) => {
                areas.items.expect(&answer.items);
                areas.groups.expect(&answer.groups);
                areas.references.expect(&answer.references);
                areas.labels.expect(&answer.labels);
            }
            (What::Annotate { .. }, 10) => {
                areas.items.expect_all(0);
                areas.groups.expect_all(0);
                areas.references.expect_all(0);
                areas.labels.expect_all(0);
            }
            (What::SourceText { .. }, 0) => areas.labels.expect(&answer.labels),
            _ => {}
        }
    }
}

impl Runner for Comparison {
    const REFERENCE: &'static str = "the Rust";

    fn start(&mut self, case: &Case) {
        self.areas.start(case);
        self.session.set_text(&case.text);
        if case.note == 1 {
            self.session.set_index(&self.areas.index.content()[..case.text.len()]);
        }
    }

    fn compare(&mut self, case: &Case, call: &Call, note: u8) -> Result<Done, Box<Difference>> {
        let before = Lengths::of(call, case, Need::default());
        let silent = before.answer < call.what.answer_length();
        let mut answer = if silent { Answer::default() } else { self.answer(case, call, before) };
        let need = needed(&answer);
        let lengths = Lengths::of(call, case, at_least(need, call));
        if !silent {
            refuse_short(&mut answer, &call.what, need, lengths);
        }
        let note_after = if answer.builds { 1 } else { note };
        self.areas.prepare(call, lengths);
        if !silent {
            self.expect(case, call, &answer, note_after);
        }
        self.areas.call(call, lengths, note);
        let locators = if silent { Vec::new() } else { answer.locators(&call.what) };
        let parted: Vec<usize> = locators.iter().copied().filter(|&at| answer.rules_part(&call.what, &case.text, at)).collect();
        self.accept(&call.what, &parted);
        match self.areas.wrong(call) {
            None => Ok(Done {
                kind: call.what.kind(),
                number: answer.number,
                built: answer.builds,
                silent,
                stray: case.note == 1 && call.what.note_place().is_some(),
                sources: answer.sources(&call.what),
                locators: locators.len(),
                parted: parted.len(),
                note: note_after,
            }),
            Some(wrong) => Err(Difference::of(wrong, &self.areas)),
        }
    }

    fn areas(&mut self) -> &mut Areas {
        &mut self.areas
    }
}

fn numbers(values: Vec<usize>) -> Vec<u16> {
    values.into_iter().map(|value| u16::try_from(value).expect("a number of 16 bits")).collect()
}

fn needed(answer: &Answer) -> Need {
    Need { items: answer.items.len(), groups: answer.groups.len(), references: answer.references.len(), labels: answer.labels.len() }
}

// A refused call needs nothing: its areas are some of a usual length.
fn at_least(need: Need, call: &Call) -> Need {
    let usual = (call.seed % 40) as usize;
    Need {
        items: if need.items == 0 { usual } else { need.items },
        groups: if need.groups == 0 { usual } else { need.groups },
        references: if need.references == 0 { usual } else { need.references },
        labels: if need.labels == 0 { usual } else { need.labels },
    }
}

// 10: an accepted answer that is longer than its area.
fn refuse_short(answer: &mut Answer, what: &What, need: Need, lengths: Lengths) {
    let short = match what {
        What::LookUp { .. } => need.items > lengths.items,
        What::Annotate { .. } => {
            need.items > lengths.items
                || need.groups > lengths.groups
                || need.references > lengths.references
                || need.labels > lengths.labels
        }
        What::SourceText { .. } => need.labels > lengths.labels,
        What::Size | What::Locator => false,
    };
    if answer.number == 0 && short {
        answer.number = 10;
        answer.values.fill(0);
    }
}
