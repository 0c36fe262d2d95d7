//! Texts and pools about the limits: the 64 bytes of the short look, lengths of texts and pools, bytes that are no UTF-8.

use crate::pools;
use crate::random::{Random, BROKEN};
use crate::texts::{self, KEYS};

/// A text with a bracket whose close, or whose text's end, stands 58 to 70 bytes after it.
pub fn near_64(random: &mut Random) -> String {
    let mut text = random.of(&["", "", "x", "\\", "\\\\", "[@a]", "[", "\n", "é"]).to_string();
    let open = text.len();
    text.push_str(&format!("[{}@{},", random.of(&["", "", "+", "x ", "@a;"]), random.of(&KEYS)));
    let close = open + 58 + random.below(13);
    fill(random, &mut text, close);
    text.push_str(random.of(&["]", "]", "]", "]]", "\\]", "];", "](", ""]));
    let end = match random.below(3) {
        0 => text.len(),
        1 => open + 58 + random.below(13),
        _ => text.len() + random.below(80),
    };
    fill(random, &mut text, end);
    text
}

// Goes on with marks and letters to a length.
fn fill(random: &mut Random, text: &mut String, length: usize) {
    let marks = 10 + random.below(60);
    while text.len() < length {
        let left = length - text.len();
        let piece = match random.below(marks) {
            0 => "[x]",
            1 => "\\]",
            2 => "[@b]",
            3 => ";@b,",
            4 => "\u{2003}",
            5 => "[",
            6 => "\\",
            7 => "€",
            8 => "]",
            9 => ";",
            _ => "x",
        };
        text.push_str(if piece.len() > left { "x" } else { piece });
    }
}

/// A text of exactly so many bytes: texts in a row, then one character again and again.
pub fn of_length(random: &mut Random, length: usize) -> String {
    let mut whole = String::with_capacity(length);
    let most = if random.below(2) == 0 { length } else { random.below(length + 1) };
    loop {
        let more = if random.below(3) == 0 { texts::text(random) } else { texts::prose(random) };
        if whole.len() + more.len() > most {
            break;
        }
        whole.push_str(&more);
    }
    let last = random.of(&["x", "x", "[", "]", ";", "\\", "@", "[@a]", "[@a", "@a;", "\n"]);
    while whole.len() + last.len() <= length {
        whole.push_str(last);
    }
    whole.extend(std::iter::repeat_n('x', length - whole.len()));
    whole
}

/// The lengths of texts that limits stand at, and those next to them.
pub fn length(random: &mut Random) -> usize {
    random.of(&[64, 4_096, 32_768, 65_535, 65_535]) + random.below(4) - random.below(3)
}

/// A pool of 32,768 bytes or a few less or more, of short entries and one long one; now and then damaged.
pub fn large_pool(random: &mut Random) -> Vec<u8> {
    let size = 32_768 + random.below(5) - random.below(8);
    let mut entries = Vec::new();
    let mut used = 2;
    let most = random.of(&[0, 3, 50, 2_000]);
    while entries.len() < most {
        let entry = pools::entry(random);
        if used + 4 + entry.len() + 4 + 7 > size {
            break;
        }
        used += 4 + entry.len();
        entries.push(entry);
    }
    let place = random.below(entries.len() + 1);
    entries.insert(place, pools::long_entry(random, size - used - 4));
    let mut pool = pools::pool_of(&entries);
    if random.below(6) == 0 {
        let at = random.below(pool.len());
        pool = pools::damaged(random, &pool, at);
    }
    pool
}

/// The same bytes with some put in that are no UTF-8, or one changed.
pub fn broken(random: &mut Random, mut bytes: Vec<u8>) -> Vec<u8> {
    let at = random.below(bytes.len() + 1);
    match random.below(3) {
        0 if at < bytes.len() => bytes[at] = (random.next() & 255) as u8,
        _ => {
            let broken = random.of(&BROKEN);
            bytes.splice(at..at, broken.iter().copied());
        }
    }
    bytes
}
