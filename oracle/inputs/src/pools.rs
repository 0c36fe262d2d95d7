//! Made-up pools, whole and damaged.

use crate::random::Random;
use crate::texts::KEYS;

/// Adds a field.
pub fn field(tag: u8, bytes: &[u8], out: &mut Vec<u8>) {
    out.push(tag);
    out.extend((bytes.len() as u16).to_le_bytes());
    out.extend(bytes);
}

/// An entry, with names, years and titles or without.
pub fn entry(random: &mut Random) -> Vec<u8> {
    let id = if random.below(8) == 0 { "" } else { random.of(&KEYS) };
    entry_of(random, id)
}

/// The same with this id.
pub fn entry_of(random: &mut Random, id: &str) -> Vec<u8> {
    const WORDS: [&str; 8] = ["", "Ant", "Bee", "Le Guin", "é", " ", "A; B", "𝄞\u{2003}"];
    let mut out = Vec::new();
    field(1, id.as_bytes(), &mut out);
    for _ in 0..random.of(&[0, 1, 1, 2, 3]) {
        field(2, b"", &mut out);
        for tag in 3..=5 {
            if random.below(if tag == 5 { 4 } else { 2 }) == 0 {
                field(tag, random.of(&WORDS).as_bytes(), &mut out);
            }
        }
    }
    if random.below(2) == 0 {
        field(6, &year(random).to_le_bytes(), &mut out);
    }
    if random.below(3) == 0 {
        field(7, random.of(&["", "1999a", "n.d.", "é"]).as_bytes(), &mut out);
    }
    if random.below(2) == 0 {
        field(8, random.of(&["", "Title", "On <x>", "€"]).as_bytes(), &mut out);
    }
    out
}

// A year of any number of digits, with either sign.
fn year(random: &mut Random) -> i64 {
    match random.below(3) {
        0 => random.of(&[1999, 0, -44, i64::MIN, i64::MAX, 7, -1, 10, 99, 100]),
        _ => random.next() as i64 >> random.below(64),
    }
}

/// An entry of exactly so many bytes, at least 7: an id, then perhaps a long name, and a title.
pub fn long_entry(random: &mut Random, size: usize) -> Vec<u8> {
    let mut out = Vec::new();
    field(1, &random.of(&KEYS).as_bytes()[..1], &mut out);
    if size > out.len() + 3 + 3 + 3 && random.below(2) == 0 {
        field(2, b"", &mut out);
        let most = size - out.len() - 3 - 3;
        field(random.of(&[3, 5]), &vec![b'x'; random.of(&[0, most / 2, most])], &mut out);
    }
    let title = size - out.len() - 3;
    field(8, &vec![b't'; title], &mut out);
    out
}

/// The pool of these entries.
pub fn pool_of(entries: &[Vec<u8>]) -> Vec<u8> {
    let mut out = (entries.len() as u16).to_le_bytes().to_vec();
    let mut at = 2 + 4 * entries.len();
    for e in entries {
        out.extend((at as u16).to_le_bytes());
        out.extend((e.len() as u16).to_le_bytes());
        at += e.len();
    }
    out.extend(entries.concat());
    out
}

/// A pool of so many entries at most.
pub fn whole(random: &mut Random, most: usize) -> Vec<u8> {
    let entries: Vec<Vec<u8>> = (0..random.below(most + 1)).map(|_| entry(random)).collect();
    pool_of(&entries)
}

/// A pool, one time in six with a byte changed, taken off or added.
pub fn pool(random: &mut Random) -> Vec<u8> {
    let mut out = whole(random, 4);
    let place = random.below(out.len());
    match random.below(18) {
        0 => out[place] = (random.next() & 255) as u8,
        1 => out.truncate(place),
        2 => out.insert(place, random.of(&[0, 1, 2, 3, 8, 255])),
        _ => {}
    }
    out
}

/// A pool with the byte at `at` changed: one more, one less, one bit other, another tag, or any.
pub fn damaged(random: &mut Random, pool: &[u8], at: usize) -> Vec<u8> {
    let mut out = pool.to_vec();
    let byte = out[at];
    out[at] = match random.below(5) {
        0 => byte.wrapping_add(1),
        1 => byte.wrapping_sub(1),
        2 => byte ^ (1 << random.below(8)),
        3 => random.below(10) as u8,
        _ => (random.next() & 255) as u8,
    };
    out
}
