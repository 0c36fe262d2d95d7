//! Areas for the tests: filled with a pattern, so that what a call touches is seen.
#![allow(dead_code)] // each test file uses a part

use citations::{annotate, look_up, AnnotationCounts, Bracket, LookedUp, Refused};

/// What every number of an area holds before a call.
pub const SET: u16 = 0xA5A5;
/// The same for a byte.
pub const SET_BYTE: u8 = 0xA5;
/// The same for a bracket record.
pub const SET_BRACKET: Bracket = Bracket { place: SET, seen: SET, good: SET, bad: SET };

/// The areas of a call.
#[derive(Clone, Debug, PartialEq, Eq)]
pub struct Areas {
    pub index: Vec<u16>,
    pub records: Vec<Bracket>,
    pub items: Vec<u16>,
    pub groups: Vec<u16>,
    pub references: Vec<u16>,
    pub labels: Vec<u8>,
}

impl Areas {
    /// Areas that are somewhat longer than any call on the text needs.
    pub fn of(text: &[u8]) -> Areas {
        let (n, room) = (text.len() + 3, text.len() / 3 + 2);
        Areas {
            index: vec![SET; n],
            records: vec![SET_BRACKET; n],
            items: vec![SET; 16 * room + 15],
            groups: vec![SET; 5 * room],
            references: vec![SET; room],
            labels: vec![SET_BYTE; 65_535],
        }
    }

    pub fn look_up(&mut self, text: &[u8], at: usize, note: u8) -> Result<LookedUp, Refused> {
        look_up(text, at, note, &mut self.index, &mut self.records, &mut self.items)
    }

    pub fn annotate(&mut self, text: &[u8], mode: u8, pool: &[u8], note: u8) -> Result<AnnotationCounts, Refused> {
        annotate(
            text, mode, pool, note, &mut self.index, &mut self.records, &mut self.items, &mut self.groups, &mut self.references,
            &mut self.labels,
        )
    }

    /// The areas as a build and nothing else would leave them, given the index entries that it writes.
    pub fn built(&self, entries: &[u16]) -> Areas {
        let mut after = self.clone();
        after.index[..entries.len()].copy_from_slice(entries);
        after.records[..entries.len()].fill(Bracket::default());
        after
    }
}
