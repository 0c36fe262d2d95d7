//! Texts of many sources, each with a pool: tens of sources, now and then hundreds or thousands, defined by lines, by the pool, by both or
//! by neither, cited again and again, with the author and without.

use crate::pools;
use crate::random::Random;

/// How many keys there are: a prime, so that every step through them comes to each once.
const KEYS: usize = 3_001;
/// The most bytes of a text and of a pool.
const TEXT: usize = 65_535;
const POOL: usize = 32_768;

/// How many sources a text is to have: mostly 10 to 60, one time in twenty some hundreds, one in 800 some thousands.
pub fn count(random: &mut Random) -> usize {
    match random.below(800) {
        0 => 1_000 + random.below(2_001),
        1..=40 => 100 + random.below(501),
        _ => 10 + random.below(51),
    }
}

/// A text that cites about so many keys, at most 3,001 and as far as they fit, and a pool that defines some of them.
pub fn sources(random: &mut Random, count: usize) -> (String, Vec<u8>) {
    let style = Style::draw(random, count);
    let mut cited = citations(random, &style);
    let mut lines = Vec::new();
    let mut entries = Vec::new();
    for key in &style.keys {
        let (line, entry) = match random.below(if style.terse { 1_000 } else { 24 }) {
            0 => (false, false),
            n => style.defined[n % 4],
        };
        if line {
            lines.push(definition(random, &style, key));
        }
        if entry {
            entries.push(pool_entry(random, &style, key));
        }
    }
    // a later line of the same key hides the first, a later entry is hidden
    for _ in 0..random.below(2 + count / 10) {
        let key = style.key(random);
        match random.below(3) {
            0 => entries.push(pool_entry(random, &style, key)),
            _ => lines.push(definition(random, &style, key)),
        }
    }
    if style.longest > 0 && !lines.is_empty() {
        let at = random.below(lines.len());
        lines[at] = long_definition(random, &style);
    }
    shuffle(random, &mut lines);
    shuffle(random, &mut entries);
    match random.below(3) {
        0 => lines.append(&mut cited),
        1 => lines.splice(0..0, cited).for_each(drop),
        _ => {
            lines.append(&mut cited);
            shuffle(random, &mut lines);
        }
    }
    (text_of(&lines), pool_of(entries))
}

// What the keys, authors and citations of a text are like.
struct Style {
    keys: Vec<String>,
    // the authors that lines name: numbers of `author`
    authors: &'static [usize],
    // by a line, by the pool
    defined: [(bool, bool); 4],
    // one item in so many has no author
    suppressed: usize,
    // how many bytes the longest definition line has, 0 for no such line
    longest: usize,
    // most lines and entries have nothing but a key, and few keys are cited again: so thousands fit
    terse: bool,
}

impl Style {
    fn draw(random: &mut Random, count: usize) -> Style {
        const LINE: (bool, bool) = (true, false);
        const ENTRY: (bool, bool) = (false, true);
        const BOTH: (bool, bool) = (true, true);
        let form: fn(usize) -> String = random.of(&[
            (|n| format!("k{n}")) as fn(usize) -> String,
            |n| format!("k{n:04}"),
            |n| n.to_string(),
            |n| format!("{n}."),
            |n| format!("_/{n}"),
            // many of these begin with another one
            |n| format!("{n:b}").replace('0', "a").replace('1', "b"),
        ]);
        let (first, step) = (random.below(KEYS), 1 + random.below(KEYS - 1));
        let terse = count > 600;
        Style {
            keys: (0..count.min(KEYS)).map(|i| form((first + i * step) % KEYS)).collect(),
            authors: random.of(&[&[0, 1, 2, 3, 4, 5, 6, 7][..], &[2], &[0], &[1], &[0, 1, 2], &[3], &[4], &[3, 4, 0]]),
            defined: match terse {
                true => random.of(&[[LINE; 4], [LINE; 4], [LINE, ENTRY, LINE, ENTRY]]),
                false => random.of(&[[LINE, LINE, ENTRY, BOTH], [LINE; 4], [ENTRY; 4], [BOTH; 4], [LINE, ENTRY, ENTRY, BOTH]]),
            },
            suppressed: random.of(&[2, 2, 3, 8, 100]),
            longest: match random.below(if count > 60 { 3 } else { 40 }) {
                0 => 1_000 + random.below(if terse { 10_000 } else { 30_000 }),
                _ => 0,
            },
            terse,
        }
    }

    fn key(&self, random: &mut Random) -> &str {
        &self.keys[random.below(self.keys.len())]
    }
}

// Lines with the citations: every key but a few in mixed order, then some again.
fn citations(random: &mut Random, style: &Style) -> Vec<String> {
    let mut keys: Vec<&str> = style.keys.iter().map(String::as_str).filter(|_| random.below(16) > 0).collect();
    for _ in 0..random.below(if style.terse { style.keys.len() / 8 } else { 2 * style.keys.len() } + 1) {
        // one cited shortly before, or any
        let again = match random.below(2) {
            0 if !keys.is_empty() => keys[keys.len() - 1 - random.below(keys.len().min(4))],
            _ => style.key(random),
        };
        keys.push(again);
    }
    if random.below(2) == 0 {
        shuffle(random, &mut keys);
    }
    let mut lines = Vec::new();
    let mut rest = keys.as_slice();
    while !rest.is_empty() {
        let mut line = random.of(&["", "", "See ", "x"]).to_string();
        for _ in 0..1 + random.below(12) {
            let many = if random.below(if style.terse { 30 } else { 3 }) == 0 { 1 + random.below(6) } else { 1 };
            let (group, after) = rest.split_at(many.min(rest.len()));
            rest = after;
            if !group.is_empty() {
                line.push_str(&group_of(random, style, group));
            }
        }
        lines.push(line);
    }
    lines
}

fn group_of(random: &mut Random, style: &Style, keys: &[&str]) -> String {
    let mut text = random.of(&["[", "[", "[", "[", "[", "[", "[", "[+"]).to_string();
    for (i, key) in keys.iter().enumerate() {
        text.push_str(if i > 0 { "; " } else { "" });
        text.push_str(random.of(&["", "", "", "", "", "", "", "see "]));
        text.push_str(if random.below(style.suppressed) == 0 { "-@" } else { "@" });
        text.push_str(key);
        text.push_str(random.of(&["", "", "", "", "", "", ",", ", p. 3"]));
    }
    text.push_str(random.of(&["] ", "] ", "].", "],", if style.terse { "]\u{a0}" } else { "] and " }]));
    text
}

fn definition(random: &mut Random, style: &Style, key: &str) -> String {
    if style.terse && random.below(8) > 0 {
        return format!("[@{key}]: ");
    }
    let before = random.of(&[0, 0, 0, 1, 3, 20]);
    let attributes = attributes(random, style, before);
    let title = random.of(&["", "", " Title.", " see [@k1]."]);
    format!("[@{key}]: {attributes}{title}")
}

// A line that is long, with author and year at its end.
fn long_definition(random: &mut Random, style: &Style) -> String {
    let attributes = attributes(random, style, style.longest / 4);
    format!("[@{}]: {attributes}", style.key(random))
}

// Attributes, with so many other words before author and year.
fn attributes(random: &mut Random, style: &Style, before: usize) -> String {
    let which = random.of(style.authors);
    let mut words: Vec<String> = (0..before).map(|_| random.of(&["x=1", "a=b", "z=", "=y"]).to_string()).collect();
    words.extend(author(random, style, which).map(|author| format!("author={author}")));
    let year = random.of(&["", " ", "1999", "1999", "2001", "\"7\"", "-44", "n.d."]);
    match year {
        " " => {}
        _ => {
            let at = words.len() - random.below(words.len().min(2) + 1);
            words.insert(at, format!("year={year}"));
        }
    }
    match random.below(12) {
        0 => String::new(),
        // a word that ends the search for what stands behind it
        1 => format!("{{x {}}}", words.join(" ")),
        _ => format!("{{{}}}", words.join(" ")),
    }
}

// An author; none where it is missing.
fn author(random: &mut Random, style: &Style, which: usize) -> Option<String> {
    Some(match which {
        0 => return None,
        1 => random.of(&["", "\"\"", "''"]).to_string(),
        2 => random.of(&["Ant", "Bee", "Bee", "Cicada"]).to_string(),
        3 => format!("A{}", random.below(KEYS)),
        4 => style.key(random).to_string(),
        5 => format!("{}{}", "Long".repeat(1 + random.below(40)), random.below(10)),
        6 => format!("\"B{}\"", random.below(100)),
        _ => random.of(&["Zoë", "Ångström", "é", "Ant,", "ant", "\u{10348}"]).to_string(),
    })
}

fn pool_entry(random: &mut Random, style: &Style, key: &str) -> Vec<u8> {
    let mut out = Vec::new();
    if style.terse && random.below(8) > 0 {
        pools::field(1, key.as_bytes(), &mut out);
        return out;
    }
    let id = if random.below(20) == 0 { "" } else { key };
    if random.below(3) == 0 {
        return pools::entry_of(random, id);
    }
    pools::field(1, id.as_bytes(), &mut out);
    if random.below(6) > 0 {
        let name = match random.below(3) {
            0 => random.of(&["Ant", "Bee", ""]).to_string(),
            1 => key.to_string(),
            _ => format!("A{}", random.below(KEYS)),
        };
        pools::field(2, b"", &mut out);
        pools::field(random.of(&[3, 3, 3, 5]), name.as_bytes(), &mut out);
    }
    if random.below(3) > 0 {
        pools::field(6, &(1_900 + random.below(100) as i64).to_le_bytes(), &mut out);
    }
    out
}

fn shuffle<T>(random: &mut Random, list: &mut [T]) {
    for i in (1..list.len()).rev() {
        list.swap(i, random.below(i + 1));
    }
}

// The lines that fit, one after the other.
fn text_of(lines: &[String]) -> String {
    let mut text = String::new();
    for line in lines {
        if text.len() + line.len() < TEXT {
            text.push_str(line);
            text.push('\n');
        }
    }
    text
}

// The pool of the entries that fit.
fn pool_of(mut entries: Vec<Vec<u8>>) -> Vec<u8> {
    let mut bytes = 2;
    entries.retain(|entry| {
        let fits = bytes + 4 + entry.len() <= POOL;
        bytes += if fits { 4 + entry.len() } else { 0 };
        fits
    });
    pools::pool_of(&entries)
}
