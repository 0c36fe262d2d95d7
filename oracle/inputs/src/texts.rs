//! Made-up texts: locators, items, groups, definition lines, and whole texts of them.

use crate::random::{character, Random, NEAR, WHITE};

/// Pieces of texts with citations.
const PIECES: [&str; 48] = [
    "[", "]", "[", "]", "@", "@a", "@b", "@c", "@a.", "@a_1", "@_", "-@a", "[@a]", "[@b]", "[@a, p. 3]", ";", ";", ",", ", ", " ", " ",
    "\\", "\\\\", "-", "+", ":", ": ", "\n", "\n[@a]: ", "\n[@b]: {author=", "(", "{", "}", "x", "see", "3", "p. 12", "\u{a0}", "\u{2003}",
    "\u{85}", "\u{200b}", "é", "€", "𝄞", "§", "\"", "=", "year=7",
];
/// The locators' matchers.
pub const MATCHERS: [&str; 51] = [
    "sub verbo", "paragraph", "section", "chapter", "volume", "figure", "column", "verse", "pages", "folio", "issue", "note", "opus",
    "part", "line", "book", "chaps.", "chap.", "cols.", "col.", "figs.", "fig.", "fols.", "fol.", "opp.", "op.", "pp.", "page", "paras.",
    "para.", "pts.", "pt.", "secs.", "sec.", "s.vv.", "s.v.", "vols.", "vol.", "vv.", "ll.", "nn.", "bk.", "no.", "p.", "v.", "l.", "n.",
    "¶¶", "¶", "§§", "§",
];
/// What may follow a matcher, and go on a locator.
const AFTER: [&str; 30] = [
    "", " ", "  ", "\t", "3", "12", "iv", "XIV", "ci", "3-5", "12, 14", "& 7", ".", ",", "-", "§", "¶", "x", "see", "cited", "\n",
    "\u{a0}", "€", "é", "s", "\\", "p.", "3.", ", see", " \t",
];
/// Keys of sources, and two that end with marks and so are none.
pub const KEYS: [&str; 11] = ["a", "b", "c", "ant", "a.b", "x:1", "_", "k9", "a_", "a.", "a.."];
/// What a damaged text gets in the place of a character.
const MARKS: [&str; 16] = ["[", "]", "@", ";", ",", "\\", "-", "+", "\n", ":", " ", "(", "{", "}", "\u{a0}", "\u{2028}"];

/// A row of pieces, at most so many.
pub fn pieces(random: &mut Random, most: usize) -> String {
    (0..random.below(most + 1)).map(|_| random.of(&PIECES)).collect()
}

/// What may stand after the comma of an item.
pub fn locator(random: &mut Random) -> String {
    let mut text = random.of(&["", "", "", " ", "\t ", "\u{a0}"]).to_string();
    if random.below(4) > 0 {
        for c in random.of(&MATCHERS).chars() {
            text.push(if random.below(5) == 0 { c.to_ascii_uppercase() } else { c });
        }
    }
    for _ in 0..random.below(6) {
        text.push_str(random.of(&AFTER));
    }
    text
}

// No space, one, or white space of every sort and what only looks like it.
fn space(random: &mut Random) -> String {
    match random.below(6) {
        0 => " ".to_string(),
        1 => (0..1 + random.below(3)).map(|_| character(random.of(&WHITE))).collect(),
        2 => character(random.of(&NEAR)).to_string(),
        _ => String::new(),
    }
}

/// An item, mostly a good one.
pub fn item(random: &mut Random) -> String {
    let mut text = space(random);
    text.push_str(random.of(&["", "", "see ", "x\u{a0}", "@a ", "\\@b ", "€"]));
    text.push_str(&space(random));
    text.push_str(random.of(&["@", "@", "@", "@", "-@", "--@", "\\-@", "@@", "\\@"]));
    text.push_str(random.of(&KEYS));
    if random.below(2) == 0 {
        text.push(',');
        text.push_str(&locator(random));
    }
    text.push_str(&space(random));
    text
}

fn group(random: &mut Random) -> String {
    let mut text = random.of(&["[", "[", "[", "[+"]).to_string();
    for i in 0..random.of(&[1, 1, 1, 2, 3, 5]) {
        if i > 0 {
            text.push(';');
        }
        text.push_str(&item(random));
    }
    text.push_str(random.of(&["]", "]", "]", "]", "", "](", "][x]"]));
    text
}

// A group whose close stands about 64 bytes after its bracket.
fn near_limit(random: &mut Random) -> String {
    let mut text = format!("[{}@{},", random.of(&["", "", "+", "x "]), random.of(&KEYS));
    let most = 55 + random.below(18);
    while text.len() < most {
        match random.below(40) {
            0 => text.push_str("[x]"),
            1 => text.push_str("\\]"),
            2 => text.push_str("[@b]"),
            3 => text.push_str(";@b,"),
            4 => text.push_str(&space(random)),
            5 => text.push('\\'),
            6 => text.push('€'),
            _ => text.push('x'),
        }
    }
    text.push_str(random.of(&["]", "]", "]", "]]", "\\]", ""]));
    text
}

// Brackets in brackets, some of them left out.
fn nested(random: &mut Random) -> String {
    let depth = 1 + random.below(9);
    let mut text = String::new();
    for _ in 0..depth {
        text.push_str(random.of(&["[", "[@a,", "[@a;", "[x @b, y", "[+@c;@a,", "[-@a, \\[", "[["]));
    }
    for _ in 0..depth + random.below(2) {
        text.push_str(random.of(&["]", "]", "]", ",]", "; @a]", ";x]", "@b]", "\\]]", "x"]));
    }
    text
}

// Words of attributes between white space, mostly an author and a year.
fn attributes(random: &mut Random) -> String {
    const AUTHORS: [&str; 14] =
        ["Ant", "\"Bee\"", "'C'", "", "\"Le Guin\"", "'\"d\"'", "\"'e'\"", "a=b", "\"", "Ant", "Zoë", "b", "\u{a0}", "ant\\"];
    const OTHERS: [&str; 10] = ["word", "x=1", "=x", "=", "author", "year", "Author=N", "\"x=1", "author =", "[c]"];
    let mut words = Vec::new();
    for _ in 0..random.below(4) {
        words.push(match random.below(5) {
            0 | 1 => format!("author={}", random.of(&AUTHORS)),
            2 | 3 => format!("year={}", random.of(&["1999", "", "\"7\"", "n.d.", "'2001a'", "-44"])),
            _ => random.of(&OTHERS).to_string(),
        });
    }
    let between = if random.below(4) == 0 { space(random) + " " } else { " ".to_string() };
    format!("{}{}{}", space(random), words.join(&between), space(random))
}

fn definition(random: &mut Random) -> String {
    let start = random.of(&["[@", "[@", "[@", "[@", "[+@", "[-@", "[ @", "[x @"]);
    let after = random.of(&[": ", ": ", ": ", ":   ", ":", ":\t", " : ", ":\u{a0}"]);
    let mut text = format!("{start}{}{}]{after}", random.of(&KEYS), random.of(&["", "", "", ",", ",x"]));
    if random.below(2) == 0 {
        let close = random.of(&["}", "}", "}", "}}", "", "\\}", " [@a]}"]);
        text.push_str(&format!("{{{}{close}", attributes(random)));
    }
    text.push_str(random.of(&["", " Title.", " see [@a].", "x}"]));
    text
}

/// A text with groups, definition lines, nesting and stretches without a close, short or past 64 bytes; sometimes a damaged copy.
pub fn text(random: &mut Random) -> String {
    let mut text = String::new();
    let long = random.below(3) == 0;
    for _ in 0..1 + random.below(6) {
        match random.below(9) {
            0 => text.push_str(&pieces(random, 12)),
            1 | 2 => text.push_str(&group(random)),
            3 | 4 => text.push_str(&format!("\n{}\n", definition(random))),
            5 => text.push_str(random.of(&["[", "[[", "]", "\\[", " ", "word ", "[x;"])),
            6 => text.push_str(&near_limit(random)),
            7 => text.push_str(&nested(random)),
            _ if long => text.push_str(&random.of(&["x", " ", "[", "\\", "é", "a;"]).repeat(random.below(70))),
            _ => text.push('\n'),
        }
    }
    if random.below(4) == 0 {
        damage(random, &mut text);
    }
    text
}

// Takes off, doubles or changes up to four characters.
fn damage(random: &mut Random, text: &mut String) {
    for _ in 0..1 + random.below(4) {
        let Some((at, c)) = text.char_indices().nth(random.below(text.chars().count() + 1)) else { continue };
        let mark = match random.below(4) {
            0 => String::new(),
            1 => format!("{c}{c}"),
            2 => random.of(&MARKS).to_string(),
            _ => format!("{}{c}", random.of(&MARKS)),
        };
        text.replace_range(at..at + c.len_utf8(), &mark);
    }
}

/// A text whose few keys are mostly defined, by its own lines or a pool, so that groups are numbered.
pub fn prose(random: &mut Random) -> String {
    let mut lines = Vec::new();
    for _ in 0..random.below(5) {
        lines.push(definition(random));
    }
    for _ in 0..1 + random.below(4) {
        let mut line = random.of(&["See ", "", "x"]).to_string();
        for _ in 0..random.below(5) {
            let key = random.of(&KEYS);
            match random.below(6) {
                0 => line.push_str(&group(random)),
                1 => line.push_str(&format!("[-@{key}] ")),
                2 => line.push_str(&format!("[@{key}, p. 3; @{}].", random.of(&KEYS))),
                _ => line.push_str(&format!("[@{key}] ")),
            }
        }
        lines.insert(random.below(lines.len() + 1), line);
    }
    lines.join("\n")
}

/// A text whose labels by author have 65,535 bytes, or a few less or more.
pub fn labelled(random: &mut Random) -> String {
    let (uses, length) = random.of(&[(255, 257), (257, 255), (256, 256), (254, 258), (51, 1285), (64, 1024), (65, 1008)]);
    format!("[@a]: {{author={}}}\n{}", "x".repeat(length), "[@a] ".repeat(uses))
}

/// A text of up to 65,535 bytes.
pub fn large(random: &mut Random) -> String {
    let most = 1000 + random.below(64_536);
    let mut whole = String::new();
    loop {
        let more = if random.below(3) == 0 { text(random) } else { prose(random) };
        if whole.len() + more.len() > most {
            return whole;
        }
        whole.push_str(&more);
    }
}

/// The places of the brackets.
pub fn brackets(text: &str) -> Vec<usize> {
    text.match_indices('[').map(|(at, _)| at).collect()
}

/// The brackets of a text in order, backwards, or some of them in any order; at most so many.
pub fn brackets_mixed(random: &mut Random, text: &str, most: usize) -> Vec<usize> {
    let mut places = brackets(text);
    match random.below(3) {
        0 => {}
        1 => places.reverse(),
        _ if places.is_empty() => {}
        _ => places = (0..places.len()).map(|_| random.of(&places)).collect(),
    }
    places.truncate(most);
    places
}

/// A text with a bracket, a close before, at or after the limit, and its bracket's place.
pub fn bracketed(random: &mut Random) -> (String, usize) {
    let before = pieces(random, 3);
    let within = match random.below(5) {
        0 => nested(random),
        1 => near_limit(random),
        2 => format!("[{}]", random.of(&["x", "\\", "\\]", "[]", "é"]).repeat(random.below(40))),
        _ => format!("[{}]", pieces(random, 20)),
    };
    let text = format!("{before}{within}{}", pieces(random, 3));
    let at = random.of(&brackets(&text));
    (text, at)
}
