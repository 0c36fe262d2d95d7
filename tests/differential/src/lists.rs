//! Lists of calls that share an index and a note: what each answers, the note apart, and the final bytes of its answer areas must be
//! those of the same call on a fresh index.

use citations::raw::{self, Ample};
use citations::{GROUP_RECORD, ITEM_RECORD};

use crate::areas::{Areas, Lengths, Need};
use crate::case::{Call, Case, What};
use crate::outcome::{Difference, Done};
use crate::run::Runner;

/// More than any text has.
const BYTES: usize = 66_000;

pub struct Lists {
    shared: Areas,
    fresh: Areas,
    // to see how long an answer is
    ample: Ample,
}

impl Lists {
    pub fn new() -> Lists {
        Lists { shared: Areas::new(), fresh: Areas::new(), ample: Ample::new(BYTES) }
    }

    // The same call on an index area with other content and a note other than 1.
    fn run_fresh(&mut self, case: &Case, call: &Call, lengths: Lengths) {
        let note = [0, 2, 77, 255][(call.seed % 4) as usize];
        let alone = Case { text: case.text.clone(), note, beyond: case.beyond, seed: case.seed ^ call.seed, calls: Vec::new() };
        self.fresh.start(&alone);
        self.fresh.prepare(call, lengths);
        self.fresh.call(call, lengths, note);
    }

    // The answer areas should hold what the fresh call left there, but for the note, which is answered.
    fn expect_fresh(&mut self, call: &Call, lengths: Lengths, note: u8) -> u8 {
        let (shared, fresh) = (&mut self.shared, &self.fresh);
        shared.items.expect(fresh.items.content());
        shared.groups.expect(fresh.groups.content());
        shared.references.expect(fresh.references.content());
        shared.labels.expect(fresh.labels.content());
        let mut answer = fresh.answer.content().to_vec();
        let mut after = note;
        if let Some(place) = call.what.note_place().filter(|_| call.what.answer_length() <= lengths.answer) {
            // 1 where a call has built the index, else as it was given
            after = if shared.answer.content()[place] == 1 { 1 } else { note };
            answer[place] = u32::from(after);
        }
        shared.answer.expect(&answer);
        after
    }
}

impl Runner for Lists {
    const REFERENCE: &'static str = "a fresh call";

    fn start(&mut self, case: &Case) {
        self.shared.start(case);
    }

    fn compare(&mut self, case: &Case, call: &Call, note: u8) -> Result<Done, Box<Difference>> {
        let need = need_of(&mut self.ample, &case.text, call);
        let lengths = Lengths::of(call, case, need);
        self.run_fresh(case, call, lengths);
        accept(&mut self.fresh, lengths);
        accept_answer(&mut self.fresh);
        if let Some(wrong) = self.fresh.wrong(call) {
            return Err(Difference::of(wrong, &self.fresh));
        }
        self.shared.prepare(call, lengths);
        self.shared.call(call, lengths, note);
        accept(&mut self.shared, lengths);
        let after = self.expect_fresh(call, lengths, note);
        if let Some(wrong) = self.shared.wrong(call) {
            return Err(Difference::of(wrong, &self.shared));
        }
        let silent = lengths.answer < call.what.answer_length();
        let answer = self.shared.answer.content();
        let number = if silent { 0 } else { answer[raw::NUMBER] as usize };
        let sources = match call.what {
            What::Annotate { .. } if !silent && number == 0 => answer[raw::ANNOTATION_SOURCES] as usize,
            _ => 0,
        };
        Ok(Done {
            kind: call.what.kind(),
            number,
            built: after != note,
            silent,
            stray: false,
            sources,
            locators: 0,
            parted: 0,
            note: after,
        })
    }

    fn areas(&mut self) -> &mut Areas {
        &mut self.shared
    }
}

// Index and bracket records are not compared; what is around them is.
fn accept(areas: &mut Areas, lengths: Lengths) {
    areas.index.accept(lengths.index);
    areas.records.accept(areas.records.content().len());
}

// Whatever a fresh call answers is right.
fn accept_answer(areas: &mut Areas) {
    areas.items.accept(areas.items.content().len());
    areas.groups.accept(areas.groups.content().len());
    areas.references.accept(areas.references.content().len());
    areas.labels.accept(areas.labels.content().len());
    areas.answer.accept(areas.answer.content().len());
}

// What the call needs; some where it is refused.
fn need_of(ample: &mut Ample, text: &[u8], call: &Call) -> Need {
    let mut answer = vec![raw::NO_ANSWER; call.what.answer_length()];
    let mut lent = ample.lent(text.len());
    let usual = (call.seed % 40) as usize;
    let mut need = Need { items: usual, groups: usual, references: usual, labels: usual };
    match &call.what {
        What::LookUp { at } => {
            raw::look_up(text, *at, 0, &mut lent, &mut answer);
            if answer[raw::NUMBER] == 0 {
                need.items = ITEM_RECORD * answer[raw::LOOK_UP_ITEMS] as usize;
            }
        }
        What::Annotate { mode, pool } => {
            raw::annotate(text, *mode, pool, 0, &mut lent, &mut answer);
            if answer[raw::NUMBER] == 0 {
                let count = |place: usize| answer[place] as usize;
                need = Need {
                    items: ITEM_RECORD * count(raw::ANNOTATION_ITEMS),
                    groups: GROUP_RECORD * count(raw::ANNOTATION_GROUPS),
                    references: count(raw::ANNOTATION_SOURCES),
                    labels: count(raw::ANNOTATION_LABEL_BYTES),
                };
            }
        }
        _ => {}
    }
    need
}
