//! Document 01's calls, answered by the Rust. What the Rust has no say in (the refusals 1 to 4 and 6 to 8, and the labels above
//! 65,535 bytes of 10) is added here as the paper has it; 9 and 10 by the lengths of areas are in tests/differential/src/rust.rs.

use std::cell::OnceCell;
use std::collections::HashMap;

use crate::citations::probe::{self, Annotated, Record};
use crate::citations::{CitationMode, CslEntry};
use crate::extension::{MatcherContext, Options};
use crate::pool;

/// A text with the index that earlier calls on it left.
pub struct Session {
    options: Options<'static>,
    text: String,
    refusal: usize,
    index: OnceCell<HashMap<usize, usize>>,
}

/// What a look-up answers: number, place of the close, item records, note.
pub struct LookUp {
    pub number: usize,
    pub close: usize,
    pub items: Vec<Record>,
    pub note: usize,
}

/// What an annotation answers: number, records, note.
pub struct Annotation {
    pub number: usize,
    pub answer: Annotated,
    pub note: usize,
}

/// 1: text above 65,535 bytes. 2: text not UTF-8. 0: a text.
pub fn text_refusal(bytes: &[u8]) -> usize {
    if bytes.len() > 65_535 {
        1
    } else if std::str::from_utf8(bytes).is_err() {
        2
    } else {
        0
    }
}

/// The locator call: number, label code, value pair, suffix pair.
pub fn locator(bytes: &[u8]) -> [usize; 6] {
    let number = text_refusal(bytes);
    let mut out = [number, 0, 0, 0, 0, 0];
    if number == 0 {
        out[1..].copy_from_slice(&probe::locator(std::str::from_utf8(bytes).unwrap()));
    }
    out
}

/// Whether document 02's rule of a value (W2) parts from the Rust's in a locator that the Rust gives this value and this suffix, pairs into
/// `text`: they stand side by side, with an ASCII letter on each side.
pub fn rules_part(text: &[u8], value: [usize; 2], suffix: [usize; 2]) -> bool {
    let end = value[0] + value[1];
    value[1] > 0 && suffix[1] > 0 && end == suffix[0] && text[end - 1].is_ascii_alphabetic() && text[end].is_ascii_alphabetic()
}

/// The same of an item by its record.
pub fn rules_part_in(text: &[u8], item: &Record) -> bool {
    rules_part(text, [item[6], item[7]], [item[8], item[9]])
}

/// The source text call: number and text.
pub fn source_text(bytes: &[u8], entry: usize) -> (usize, String) {
    if bytes.is_empty() {
        return (8, String::new());
    }
    match pool::entries(bytes) {
        None => (7, String::new()),
        Some(entries) => match entries.get(entry) {
            None => (8, String::new()),
            Some(e) => (0, probe::source_text(e)),
        },
    }
}

/// Whether the character that holds byte `at` is white space.
pub fn white(text: &str, at: usize) -> bool {
    let mut start = at;
    while !text.is_char_boundary(start) {
        start -= 1;
    }
    at < text.len() && text[start..].chars().next().is_some_and(char::is_whitespace)
}

/// Where `text[from..to]` begins by `trim_start` and ends by `trim_end`: `to` and `from` where all of it is white space.
pub fn trim(text: &str, from: usize, to: usize) -> [usize; 2] {
    let part = &text[from..to];
    let out = [to - part.trim_start().len(), from + part.trim_end().len()];
    assert_eq!(part.trim().len(), out[1].saturating_sub(out[0]));
    out
}

impl Default for Session {
    fn default() -> Self {
        Session { options: Options::default(), text: String::new(), refusal: 0, index: OnceCell::new() }
    }
}

impl Session {
    /// Takes another text, with no index, and answers its refusal.
    pub fn set_text(&mut self, bytes: &[u8]) -> usize {
        self.refusal = text_refusal(bytes);
        self.text.clear();
        if self.refusal == 0 {
            self.text.push_str(std::str::from_utf8(bytes).unwrap());
        }
        self.index = OnceCell::new();
        self.refusal
    }

    /// 1 where the index is built, else 0.
    pub fn note(&self) -> usize {
        usize::from(self.index.get().is_some())
    }

    /// Builds the index as a look-up would, and answers the note.
    pub fn build(&self) -> usize {
        self.index.get_or_init(|| probe::pairs(&self.text));
        self.note()
    }

    /// Takes an index as a caller may lend it, one number a byte, as built. A stored place that is not after its bracket, outside the
    /// text or not at `]` counts as none: so document 01 has it.
    pub fn set_index(&mut self, entries: &[u16]) {
        let bytes = self.text.as_bytes();
        let places = entries.iter().map(|&close| usize::from(close)).enumerate();
        let stored = places.filter(|&(open, close)| open < close && bytes.get(open) == Some(&b'[') && bytes.get(close) == Some(&b']'));
        self.index = OnceCell::from(stored.collect::<HashMap<_, _>>());
    }

    /// `bracket_pairs` of the text, one number a byte.
    pub fn index(&self) -> Vec<usize> {
        let entries = probe::index(&self.text);
        if let Some(pairs) = self.index.get() {
            assert!(entries.iter().enumerate().all(|(open, &close)| pairs.get(&open).copied().unwrap_or(0) == close));
        }
        entries
    }

    // The context of the calls on this text: `citation_close_bracket` over the kept index, or the unlimited scan.
    fn context(&self, unlimited: bool) -> MatcherContext<'_> {
        if unlimited {
            MatcherContext::new(&self.options)
        } else {
            MatcherContext::for_inline(&self.options, &self.text, &self.index)
        }
    }

    /// The look-up at `at`, over the kept index or by the unlimited scan.
    pub fn look_up(&self, at: usize, unlimited: bool) -> LookUp {
        let (number, close, items) = self.looked_up(at, unlimited);
        LookUp { number, close, items, note: self.note() }
    }

    /// 1 to 4 where a look-up at `at` is refused by one of them, else 0.
    pub fn look_up_refusal(&self, at: usize) -> usize {
        if self.refusal != 0 {
            self.refusal
        } else if self.text.as_bytes().get(at) != Some(&b'[') {
            3
        } else if probe::escaped(&self.text, at) {
            4
        } else {
            0
        }
    }

    fn looked_up(&self, at: usize, unlimited: bool) -> (usize, usize, Vec<Record>) {
        let refusal = self.look_up_refusal(at);
        if refusal != 0 {
            return (refusal, 0, Vec::new());
        }
        match probe::group(&self.text, at, &self.context(unlimited)) {
            None => (5, 0, Vec::new()),
            Some(found) => (0, found.close, found.items),
        }
    }

    /// The item between two places of the text, outside any group.
    pub fn item(&self, from: usize, to: usize) -> Option<Record> {
        probe::item(&self.text, from, to, &self.context(true))
    }

    /// The annotation of the text, over the kept index or by the unlimited scan.
    pub fn annotate(&self, mode: usize, bytes: &[u8], unlimited: bool) -> Annotation {
        let (number, answer) = self.annotated(mode, bytes, unlimited);
        Annotation { number, answer, note: self.note() }
    }

    /// 1, 2, 6 or 7 where an annotation is refused by one of them, else 0.
    pub fn annotate_refusal(&self, mode: usize, bytes: &[u8]) -> usize {
        self.arguments(mode, bytes).err().unwrap_or(0)
    }

    // The mode and the pool's entries as the Rust has them, or the refusal.
    fn arguments(&self, mode: usize, bytes: &[u8]) -> Result<(CitationMode, Option<Vec<CslEntry>>), usize> {
        if self.refusal != 0 {
            return Err(self.refusal);
        }
        let mode = match mode {
            0 => CitationMode::Numbered,
            1 => CitationMode::AuthorDate,
            _ => return Err(6),
        };
        match bytes {
            [] => Ok((mode, None)),
            _ => pool::entries(bytes).map(|entries| (mode, Some(entries))).ok_or(7),
        }
    }

    fn annotated(&self, mode: usize, bytes: &[u8], unlimited: bool) -> (usize, Annotated) {
        let (mode, pool) = match self.arguments(mode, bytes) {
            Ok(arguments) => arguments,
            Err(refusal) => return (refusal, Annotated::default()),
        };
        let answer = probe::annotate(&self.text, &self.context(unlimited), &self.options, mode, pool);
        if answer.labels.len() > 65_535 {
            return (10, Annotated::default());
        }
        (0, answer)
    }
}
