//! Every text over a small alphabet, the shortest first; and every short row of a pool's fields, and every short pool. Among the rows of one
//! length the seed says with which a run begins, so that the rows that it comes to of its longest length are others for every seed.

use std::sync::atomic::{AtomicU64, Ordering};

use inputs::pools;
use inputs::random::Random;

use crate::case::{Call, Case, Room, Rooms, What};
use crate::outcome::grouped;

/// How many rows are taken at once.
const BLOCK: u64 = 128;

/// An alphabet, what is made of a row of its symbols, and how many rows are taken so far.
struct Alphabet {
    name: &'static str,
    symbols: &'static [&'static [u8]],
    case: fn(Vec<u8>, &mut Random) -> Case,
    taken: AtomicU64,
}

/// All alphabets.
pub struct Exhaustive {
    alphabets: Vec<Alphabet>,
    turn: AtomicU64,
    /// A number of the seed.
    first: u64,
}

const BRACKETS: &[&[u8]] = &[b"[", b"]", b"@", b"a", b";", b",", b"\\", b"-", b"+", b" ", b"\n", b":"];
const INNER: &[&[u8]] = &[b"@a", b"@", b"-", b"\\", b";", b",", b" ", b"\xC2\xA0", b"x", b"+", b"[", b"]"];
const NESTING: &[&[u8]] = &[b"[", b"]", b"@a", b";", b",", b"\\"];
const LOCATORS: &[&[u8]] =
    &[b"p.", b"v.", b"\xC2\xA7", b"\xC2\xB6", b"s", b".", b"3", b"i", b",", b"-", b" ", b"\t", b"\n", b"&", b"\xC2\xA0"];
const LINES: &[&[u8]] = &[b"[@a]", b"[@b]", b"[-@a]", b":", b" ", b"\n", b"{", b"}", b"author=", b"year=", b"B", b"\"", b"'", b"\xC2\xA0"];
// Fields of a pool's entry.
const FIELDS: &[&[u8]] = &[
    b"\x01\x01\x00a",
    b"\x02\x00\x00",
    b"\x03\x01\x00F",
    b"\x03\x00\x00",
    b"\x04\x01\x00G",
    b"\x04\x00\x00",
    b"\x05\x01\x00L",
    b"\x05\x00\x00",
    b"\x06\x08\x00\xD4\xFF\xFF\xFF\xFF\xFF\xFF\xFF",
    b"\x07\x01\x00d",
    b"\x07\x00\x00",
    b"\x08\x01\x00T",
    b"\x08\x00\x00",
];
const BYTES: &[&[u8]] = &[b"\x00", b"\x01", b"\x02", b"\x03", b"\x05", b"\x06", b"\x08", b"\xFF"];

impl Exhaustive {
    pub fn new(seed: u64) -> Exhaustive {
        let alphabets = vec![
            alphabet("texts of `[` `]` `@` `a` `;` `,` `\\` `-` `+` space LF `:`", BRACKETS, brackets),
            alphabet("groups of `@a` `@` `-` `\\` `;` `,` space U+00A0 `x` `+` `[` `]`", INNER, inner),
            alphabet("texts of `[` `]` `@a` `;` `,` `\\` with a bracket behind that builds the index", NESTING, indexed),
            alphabet("locators of `p.` `v.` `§` `¶` `s` `.` `3` `i` `,` `-` space tab LF `&` U+00A0", LOCATORS, locator),
            alphabet("lines of groups, `:` `{` `}` `author=` `year=` and others", LINES, line),
            alphabet("entries of a pool: an id, then fields, empty and not", FIELDS, entry),
            alphabet("pools of the bytes 00 01 02 03 05 06 08 FF", BYTES, pool),
        ];
        Exhaustive { alphabets, turn: AtomicU64::new(0), first: Random::new(seed).next() }
    }

    /// The next cases of the next alphabet.
    pub fn cases(&self) -> Vec<Case> {
        let which = self.turn.fetch_add(1, Ordering::Relaxed) as usize % self.alphabets.len();
        let alphabet = &self.alphabets[which];
        let from = alphabet.taken.fetch_add(BLOCK, Ordering::Relaxed);
        (from..from + BLOCK).map(|row| (alphabet.case)(alphabet.row(row, self.first), &mut Random::new(self.first ^ row))).collect()
    }

    /// How far each alphabet was gone through.
    pub fn table(&self) -> String {
        self.alphabets.iter().map(Alphabet::line).collect()
    }
}

fn alphabet(name: &'static str, symbols: &'static [&'static [u8]], case: fn(Vec<u8>, &mut Random) -> Case) -> Alphabet {
    Alphabet { name, symbols, case, taken: AtomicU64::new(0) }
}

impl Alphabet {
    // The row of that number: all rows of no symbol, of one, of two, and on; those of a length from the one at `first` on, around.
    fn row(&self, mut number: u64, first: u64) -> Vec<u8> {
        let count = self.symbols.len() as u64;
        let mut length = 0;
        while number >= count.pow(length) {
            number -= count.pow(length);
            length += 1;
        }
        number = (number + first % count.pow(length)) % count.pow(length);
        let mut out = Vec::new();
        for _ in 0..length {
            out.extend_from_slice(self.symbols[(number % count) as usize]);
            number /= count;
        }
        out
    }

    fn line(&self) -> String {
        let taken = self.taken.load(Ordering::Relaxed);
        let count = self.symbols.len() as u64;
        let (mut length, mut all) = (0, 1);
        while all + count.pow(length + 1) <= taken {
            length += 1;
            all += count.pow(length);
        }
        let more = 100 * (taken - all) / count.pow(length + 1);
        format!("  {}: {}, all of up to {length} symbols, and {more} % of those of {}\n", self.name, grouped(taken), length + 1)
    }
}

// A call whose areas are of the length needed, or a little longer.
fn roomy(random: &mut Random, what: What) -> Call {
    let room = if random.below(2) == 0 { Room::Exact } else { Room::More(random.below(20)) };
    Call { what, rooms: Rooms { items: room, groups: room, labels: room, ..Rooms::EXACT }, seed: random.next() }
}

fn on_text(random: &mut Random, text: Vec<u8>, whats: Vec<What>) -> Case {
    let calls = whats.into_iter().map(|what| roomy(random, what)).collect();
    Case { text, note: random.of(&[0, 2]), beyond: 0, seed: random.next(), calls }
}

fn look_ups(text: &[u8]) -> impl Iterator<Item = What> + '_ {
    (0..text.len()).filter(|&at| text[at] == b'[').map(|at| What::LookUp { at })
}

// With a pool that defines `a`, with one that defines nothing, or with none.
fn annotation(random: &mut Random) -> What {
    let defined = pools::pool_of(&[b"\x01\x01\x00a\x02\x00\x00\x03\x01\x00F\x06\x08\x00\x07\x00\x00\x00\x00\x00\x00\x00".to_vec()]);
    let pool = match random.below(4) {
        0 => Vec::new(),
        1 => pools::pool_of(&[]),
        _ => defined,
    };
    What::Annotate { mode: random.below(2) as u8, pool }
}

// Every bracket looked up, and the text annotated.
fn brackets(text: Vec<u8>, random: &mut Random) -> Case {
    let mut whats: Vec<What> = look_ups(&text).collect();
    if whats.is_empty() {
        whats.push(What::LookUp { at: random.below(text.len() + 1) });
    }
    whats.push(annotation(random));
    on_text(random, text, whats)
}

// The same between a bracket and a close.
fn inner(row: Vec<u8>, random: &mut Random) -> Case {
    brackets([b"[".as_slice(), &row, b"]"].concat(), random)
}

// A bracket behind the text with 64 bytes and no close builds the index; then every bracket is looked up by it.
fn indexed(mut text: Vec<u8>, random: &mut Random) -> Case {
    let last = text.len();
    let mut whats = vec![What::LookUp { at: last }];
    whats.extend(look_ups(&text));
    whats.push(annotation(random));
    text.push(b'[');
    text.resize(last + 65, b'x');
    on_text(random, text, whats)
}

fn locator(text: Vec<u8>, random: &mut Random) -> Case {
    on_text(random, text, vec![What::Locator])
}

fn line(text: Vec<u8>, random: &mut Random) -> Case {
    let whats = vec![annotation(random)];
    on_text(random, [text.as_slice(), b"\n[@a][-@b]"].concat(), whats)
}

fn entry(fields: Vec<u8>, random: &mut Random) -> Case {
    let pool = pools::pool_of(&[[b"\x01\x01\x00a".as_slice(), &fields].concat()]);
    let whats = vec![What::SourceText { pool: pool.clone(), entry: 0 }, What::Annotate { mode: 1, pool }];
    on_text(random, b"[@a][-@a]".to_vec(), whats)
}

fn pool(pool: Vec<u8>, random: &mut Random) -> Case {
    let entry = random.below(2);
    on_text(random, Vec::new(), vec![What::SourceText { pool, entry }])
}
