//! A case: a text, what the index area and the note are at first, and calls in a row. It has all that a run needs, so that it can be run
//! again and made smaller.

use std::fmt::Write;

use citations::raw;

#[derive(Clone, PartialEq)]
pub struct Case {
    pub text: Vec<u8>,
    /// The note that the first call is given.
    pub note: u8,
    /// How many numbers the index area has beyond the text's bytes.
    pub beyond: usize,
    /// Where the index area's first content is drawn from.
    pub seed: u64,
    pub calls: Vec<Call>,
}

#[derive(Clone, PartialEq)]
pub struct Call {
    pub what: What,
    pub rooms: Rooms,
    /// Where the areas' content before the call is drawn from.
    pub seed: u64,
}

#[derive(Clone, PartialEq)]
pub enum What {
    LookUp { at: usize },
    Annotate { mode: u8, pool: Vec<u8> },
    Size,
    Locator,
    SourceText { pool: Vec<u8>, entry: usize },
}

/// The kinds of calls, in the order of `What::kind`.
pub const KINDS: [&str; 5] = ["look_up", "annotate", "size", "locator", "source_text"];

/// How long an area is, by what the call needs.
#[derive(Clone, Copy, PartialEq)]
pub enum Room {
    Exact,
    Less(usize),
    More(usize),
}

/// The lengths of the areas. `labels` is the source text call's area too.
#[derive(Clone, PartialEq)]
pub struct Rooms {
    pub index: Room,
    pub records: Room,
    pub items: Room,
    pub groups: Room,
    pub references: Room,
    pub labels: Room,
    pub answer: Room,
}

impl Rooms {
    pub const EXACT: Rooms = Rooms {
        index: Room::Exact,
        records: Room::Exact,
        items: Room::Exact,
        groups: Room::Exact,
        references: Room::Exact,
        labels: Room::Exact,
        answer: Room::Exact,
    };

    /// Each room, to be changed.
    pub fn each(&mut self) -> [&mut Room; 7] {
        [&mut self.index, &mut self.records, &mut self.items, &mut self.groups, &mut self.references, &mut self.labels, &mut self.answer]
    }
}

impl Room {
    /// The length, where so many numbers are needed.
    pub fn of(self, need: usize) -> usize {
        match self {
            Room::Exact => need,
            Room::Less(fewer) => need.saturating_sub(fewer),
            Room::More(more) => need + more,
        }
    }
}

impl What {
    pub fn kind(&self) -> usize {
        match self {
            What::LookUp { .. } => 0,
            What::Annotate { .. } => 1,
            What::Size => 2,
            What::Locator => 3,
            What::SourceText { .. } => 4,
        }
    }

    /// How many numbers the call's answer has.
    pub fn answer_length(&self) -> usize {
        match self {
            What::LookUp { .. } => raw::LOOK_UP,
            What::Annotate { .. } => raw::ANNOTATION,
            What::Size => raw::SIZE,
            What::Locator => raw::LOCATOR,
            What::SourceText { .. } => raw::SOURCE_TEXT,
        }
    }

    /// The place of the note in the call's answer, where the call is given an index with a note.
    pub fn note_place(&self) -> Option<usize> {
        match self {
            What::LookUp { .. } => Some(raw::LOOK_UP_NOTE),
            What::Annotate { .. } => Some(raw::ANNOTATION_NOTE),
            What::Size | What::Locator | What::SourceText { .. } => None,
        }
    }

    /// The pool, where the call has one.
    pub fn pool_mut(&mut self) -> Option<&mut Vec<u8>> {
        match self {
            What::Annotate { pool, .. } | What::SourceText { pool, .. } => Some(pool),
            _ => None,
        }
    }

    pub fn pool(&self) -> &[u8] {
        match self {
            What::Annotate { pool, .. } | What::SourceText { pool, .. } => pool,
            _ => &[],
        }
    }
}

impl Case {
    /// The case for a reader: the text, readable and in hex, and the calls.
    pub fn shown(&self) -> String {
        let mut out = format!("text, {} bytes: {}\n", self.text.len(), readable(&self.text));
        let _ = writeln!(out, "  in hex: {}", hex(&self.text));
        let _ =
            writeln!(out, "index area: {} numbers, drawn from seed {}; first note {}", self.text.len() + self.beyond, self.seed, self.note);
        for (i, call) in self.calls.iter().enumerate() {
            let _ = writeln!(out, "call {}: {}", i + 1, call.shown());
        }
        out
    }
}

impl Call {
    fn shown(&self) -> String {
        let name = KINDS[self.what.kind()];
        let what = match &self.what {
            What::LookUp { at } => format!("{name} at {at}"),
            What::Annotate { mode, pool } => format!("{name} mode {mode}, pool of {} bytes: {}", pool.len(), hex(pool)),
            What::Size | What::Locator => name.to_string(),
            What::SourceText { pool, entry } => format!("{name} entry {entry}, pool of {} bytes: {}", pool.len(), hex(pool)),
        };
        format!("{what}{}, areas drawn from seed {}", self.rooms.shown(), self.seed)
    }
}

impl Rooms {
    // The areas that are not of the length that is needed.
    fn shown(&self) -> String {
        let names = ["index", "records", "items", "groups", "references", "labels", "answer"];
        let mut out = String::new();
        for (name, room) in names.iter().zip(self.clone().each()) {
            match room {
                Room::Exact => {}
                Room::Less(fewer) => out.push_str(&format!(", {name} {fewer} too few")),
                Room::More(more) => out.push_str(&format!(", {name} {more} more")),
            }
        }
        out
    }
}

fn readable(bytes: &[u8]) -> String {
    format!("\"{}\"", bytes.escape_ascii())
}

fn hex(bytes: &[u8]) -> String {
    if bytes.is_empty() {
        return "-".to_string();
    }
    bytes.iter().fold(String::new(), |mut out, byte| {
        let _ = write!(out, "{byte:02x}");
        out
    })
}
