//! The texts that are measured, each of about so many bytes.

use citations::pool::{self, Entry, Name};

/// A text of a sort: its name, the text, and the bracket whose look-up builds the index, its close being more than 64 bytes away.
pub struct Text {
    pub name: String,
    pub bytes: Vec<u8>,
    pub builds_at: usize,
}

impl Text {
    /// The text without the long group behind it; all of it where the text has such a bracket by itself.
    pub fn plain(&self) -> &[u8] {
        match self.builds_at {
            0 => &self.bytes,
            at => &self.bytes[..at],
        }
    }
}

/// What is behind a text that has no such bracket by itself.
const LONG_GROUP: usize = 90;

/// How many sources the ordinary text has.
const SOURCES: usize = 20;

fn with_long_group(name: String, mut text: String) -> Text {
    let builds_at = text.len();
    text.push_str(&format!("[@a, {}]", "x".repeat(LONG_GROUP - 8)));
    Text { name, bytes: text.into_bytes(), builds_at }
}

fn by_itself(name: &str, text: String) -> Text {
    Text { name: name.to_string(), bytes: text.into_bytes(), builds_at: 0 }
}

fn definition_lines() -> String {
    (0..SOURCES).map(|k| format!("[@source{k}]: {{author=Author{:02} year={}}} Title.\n", 7 * k % SOURCES, 1950 + k)).collect()
}

/// Prose with a group every 200 bytes, of one or two items; definition lines of its sources at its end, or none where a pool has them.
pub fn ordinary(size: usize, pool: bool) -> Text {
    const WORDS: &str =
        "It was said in the first of these books that the word had come from the north, where it is still in use among some, ";
    let lines = if pool { String::new() } else { definition_lines() };
    let mut text = String::new();
    let mut group = 0;
    while text.len() + 200 + lines.len() + LONG_GROUP < size {
        let from = text.len();
        let (one, two) = (group % SOURCES, (3 * group + 1) % SOURCES);
        text.push_str(&match group % 3 {
            0 => format!("[@source{one}]"),
            1 => format!("[see @source{one}, p. {group}; -@source{two}]"),
            _ => format!("[@source{one}, chap. 3, and after]"),
        });
        while text.len() < from + 199 {
            text.push_str(&WORDS[..WORDS.len().min(from + 199 - text.len())]);
        }
        text.push('\n');
        group += 1;
    }
    text.push_str(&lines);
    let source = if pool { "pool" } else { "definition lines" };
    with_long_group(format!("ordinary, {source}, {}", kilobytes(size)), text)
}

/// The pool of the ordinary text's sources.
pub fn pool() -> Vec<u8> {
    let words: Vec<(String, String)> = (0..SOURCES).map(|k| (format!("source{k}"), format!("Author{:02}", 7 * k % SOURCES))).collect();
    let names: Vec<Name> = words.iter().map(|(_, family)| Name { family: Some(family), given: Some("A."), ..Name::default() }).collect();
    let entries: Vec<Entry> = (1950..)
        .zip(words.iter().zip(&names))
        .map(|(year, ((id, _), name))| Entry {
            id,
            names: std::slice::from_ref(name),
            year: Some(year),
            title: Some("Title of the book"),
            ..Entry::default()
        })
        .collect();
    pool::encode(&entries).expect("a pool of at most 32,768 bytes")
}

/// The worst texts.
pub fn worst(size: usize) -> Vec<Text> {
    let nested = size / 5;
    let lines = size / 13;
    let sources = (size - LONG_GROUP) / 20;
    let line = |k: usize| format!("[@k{k:04}]: \n");
    let cited = |k: usize| format!("[@k{k:04}] ");
    let mut all = vec![
        by_itself("deep nesting", "[@a,".repeat(nested) + &"]".repeat(nested)),
        by_itself("only `[`", "[".repeat(size)),
        by_itself("`[`, then only `;`", format!("[{}]", ";".repeat(size - 2))),
        by_itself("one locator of `i`", format!("[@a, p. {}]", "i".repeat(size * 15 / 16))),
        by_itself("one group", format!("[@a{}]", ";@a".repeat(size * 15 / 16 / 3))),
        with_long_group(
            format!("{lines} definition lines, {} cited", lines / 5),
            (0..lines).map(line).collect::<String>() + &(0..lines / 5).map(|k| cited(5 * k)).collect::<String>(),
        ),
        with_long_group(format!("{sources} sources, each defined and cited once"), sources_of(sources)),
    ];
    all.extend(worst_annotations(size));
    all
}

// Texts that are bad for an annotation's searches and labels: few definition lines and many citations, and a very long definition line.
fn worst_annotations(size: usize) -> Vec<Text> {
    let between = |first: &str, group: &str, last: &str| {
        let count = (size - LONG_GROUP - first.len() - last.len()) / group.len();
        (count, format!("{first}{}\n{last}", group.repeat(count - 1)))
    };
    let long = format!("[@a]: {{{}author=Ant year=1901}}\n", "x=1 ".repeat(size * 15 / 32 / 4));
    let (ends, of_ends) = between("[@a]: \n", "[@a] ", "[@b]: \n");
    let (uses, of_uses) = between(&long, "[@a] ", "");
    let (pairs, of_pairs) = between(&long, "[@a] [-@a] ", "");
    let (undefined, of_undefined) = between("[@a]: \n", "[@b] ", "[@c]: \n");
    let sources = size / 64;
    vec![
        with_long_group(format!("{ends} citations, a line before and behind"), of_ends),
        with_long_group(format!("a line of {} bytes, cited {uses} times", long.len()), of_uses),
        with_long_group(format!("that line cited {} times, half suppressed", 2 * pairs), of_pairs),
        with_long_group(format!("{sources} sources, one of a line of {} bytes", long.len()), middle_of(sources, &long)),
        with_long_group(format!("{undefined} undefined citations between two lines"), of_undefined),
    ]
}

// So many sources, each cited once: those of even number are sorted before `Ant`, the others behind it, in turns; the long line is the first.
fn middle_of(count: usize, long: &str) -> String {
    let author = |k: usize| if k % 2 == 0 { format!("A{k:04}") } else { format!("B{k:04}") };
    let lines: String = (1..count).map(|k| format!("[@{k:04}]: {{author={}}}\n", author(k))).collect();
    let cited: String = (1..count).map(|k| format!("[@{k:04}]")).collect::<Vec<_>>().join(" ");
    format!("{long}{lines}[@a] {cited}\n")
}

// Every source cited once, in mixed order, and defined in a line of its own.
fn sources_of(count: usize) -> String {
    let mut text: String = (0..count).map(|k| format!("[@k{:04}] ", (k * 7919) % count)).collect();
    text.push('\n');
    text.extend((0..count).map(|k| format!("[@k{k:04}]: \n")));
    text
}

fn kilobytes(size: usize) -> String {
    format!("{} KB", size.div_ceil(1024))
}
