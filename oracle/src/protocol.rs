//! Requests and answers, one a line. Bytes are in hex, `-` for none; numbers are decimal; words are parted by one space.
//!
//! | request | answer |
//! |---|---|
//! | `utf8 BYTES` | 1 where `from_utf8` takes them, else 0 |
//! | `escaped TEXT AT` | `is_escaped_at`: 1 or 0 |
//! | `key TEXT START` | where the key ends by `parse_key`; START where there is none |
//! | `white TEXT AT` | 1 where the character that holds byte AT is white space, else 0 |
//! | `trim TEXT FROM TO` | start by `trim_start`, end by `trim_end` (TO and FROM where all is white space) |
//! | `close TEXT AT LIMIT` | `close_bracket`: 1 and the place, or 0 0; LIMIT `max` for none |
//! | `locator TEXT` | number, label code, value pair, suffix pair |
//! | `item TEXT FROM TO` | `parse_item`: 1 and the record of 16, or 0 |
//! | `pool POOL` | 1 where its layout is kept or it has no bytes, else 0 |
//! | `text TEXT` | takes the text, with no index: number 0, 1 or 2 |
//! | `build` | builds the index, if it is not: note 1 |
//! | `lookup AT` | number, close, item count, note, then the records; over the kept index |
//! | `scan AT` | the same by the unlimited scan |
//! | `index` | note, then `bracket_pairs` as one number a byte |
//! | `annotate MODE POOL` | number, groups, items, sources, label bytes, note, then the records of groups (5), items (16), sources (1), then the labels; over the kept index |
//! | `plain MODE POOL` | the same with every bracket scanned without limit |
//! | `source POOL ENTRY` | number, bytes, then the source text |
//!
//! A request that cannot be read, or that names a place outside its text, is answered by `error` and the reason.

use crate::answers::{self, Annotation, LookUp, Session};
use crate::citations::probe;

pub enum Request {
    Utf8(Vec<u8>),
    Escaped(Vec<u8>, usize),
    Key(Vec<u8>, usize),
    White(Vec<u8>, usize),
    Trim(Vec<u8>, usize, usize),
    Close(Vec<u8>, usize, usize),
    Locator(Vec<u8>),
    Item(Vec<u8>, usize, usize),
    Pool(Vec<u8>),
    Text(Vec<u8>),
    Build,
    LookUp(usize),
    Scan(usize),
    Index,
    Annotate(usize, Vec<u8>),
    Plain(usize, Vec<u8>),
    Source(Vec<u8>, usize),
}

/// Numbers, then bytes where the answer has them.
#[derive(Default)]
pub struct Answer {
    pub numbers: Vec<usize>,
    pub bytes: Option<Vec<u8>>,
}

impl Request {
    /// Reads a line.
    pub fn read(line: &str) -> Result<Request, String> {
        let mut words = Words(line.split(' '));
        let request = match words.word()? {
            "utf8" => Request::Utf8(words.bytes()?),
            "escaped" => Request::Escaped(words.bytes()?, words.number()?),
            "key" => Request::Key(words.bytes()?, words.number()?),
            "white" => Request::White(words.bytes()?, words.number()?),
            "trim" => Request::Trim(words.bytes()?, words.number()?, words.number()?),
            "close" => Request::Close(words.bytes()?, words.number()?, words.number()?),
            "locator" => Request::Locator(words.bytes()?),
            "item" => Request::Item(words.bytes()?, words.number()?, words.number()?),
            "pool" => Request::Pool(words.bytes()?),
            "text" => Request::Text(words.bytes()?),
            "build" => Request::Build,
            "lookup" => Request::LookUp(words.number()?),
            "scan" => Request::Scan(words.number()?),
            "index" => Request::Index,
            "annotate" => Request::Annotate(words.number()?, words.bytes()?),
            "plain" => Request::Plain(words.number()?, words.bytes()?),
            "source" => Request::Source(words.bytes()?, words.number()?),
            other => return Err(format!("no request {other}")),
        };
        match words.0.next() {
            None => Ok(request),
            Some(more) => Err(format!("too much: {more}")),
        }
    }

    /// The line of the request.
    pub fn line(&self) -> String {
        match self {
            Request::Utf8(b) => format!("utf8 {}", hex(b)),
            Request::Escaped(b, at) => format!("escaped {} {at}", hex(b)),
            Request::Key(b, at) => format!("key {} {at}", hex(b)),
            Request::White(b, at) => format!("white {} {at}", hex(b)),
            Request::Trim(b, from, to) => format!("trim {} {from} {to}", hex(b)),
            Request::Close(b, at, usize::MAX) => format!("close {} {at} max", hex(b)),
            Request::Close(b, at, limit) => format!("close {} {at} {limit}", hex(b)),
            Request::Locator(b) => format!("locator {}", hex(b)),
            Request::Item(b, from, to) => format!("item {} {from} {to}", hex(b)),
            Request::Pool(b) => format!("pool {}", hex(b)),
            Request::Text(b) => format!("text {}", hex(b)),
            Request::Build => "build".to_string(),
            Request::LookUp(at) => format!("lookup {at}"),
            Request::Scan(at) => format!("scan {at}"),
            Request::Index => "index".to_string(),
            Request::Annotate(mode, b) => format!("annotate {mode} {}", hex(b)),
            Request::Plain(mode, b) => format!("plain {mode} {}", hex(b)),
            Request::Source(b, entry) => format!("source {} {entry}", hex(b)),
        }
    }

    /// The Rust's answer.
    pub fn answer(&self, session: &mut Session) -> Result<Answer, String> {
        Ok(match self {
            Request::Utf8(b) => Answer::of(&[usize::from(std::str::from_utf8(b).is_ok())]),
            Request::Escaped(b, at) => {
                let text = str_up_to(b, *at)?;
                Answer::of(&[usize::from(probe::escaped(text, *at))])
            }
            Request::Key(b, at) => Answer::of(&[probe::key_end(str_of(b)?, *at)]),
            Request::White(b, at) => {
                let text = str_up_to(b, *at)?;
                Answer::of(&[usize::from(answers::white(text, *at))])
            }
            Request::Trim(b, from, to) => Answer::of(&answers::trim(str_parted(b, *from, *to)?, *from, *to)),
            Request::Close(b, at, limit) => match probe::close(str_up_to(b, *at)?, *at, *limit) {
                None => Answer::of(&[0, 0]),
                Some(close) => Answer::of(&[1, close]),
            },
            Request::Locator(b) => Answer::of(&answers::locator(b)),
            Request::Item(b, from, to) => item(b, *from, *to)?,
            Request::Pool(b) => Answer::of(&[usize::from(b.is_empty() || crate::pool::entries(b).is_some())]),
            Request::Text(b) => Answer::of(&[session.set_text(b)]),
            Request::Build => Answer::of(&[session.build()]),
            Request::LookUp(at) => looked_up(session.look_up(*at, false)),
            Request::Scan(at) => looked_up(session.look_up(*at, true)),
            Request::Index => {
                let mut numbers = vec![session.note()];
                numbers.extend(session.index());
                Answer { numbers, bytes: None }
            }
            Request::Annotate(mode, pool) => annotated(session.annotate(*mode, pool, false)),
            Request::Plain(mode, pool) => annotated(session.annotate(*mode, pool, true)),
            Request::Source(pool, entry) => {
                let (number, text) = answers::source_text(pool, *entry);
                Answer { numbers: vec![number, text.len()], bytes: Some(text.into_bytes()) }
            }
        })
    }
}

impl Answer {
    fn of(numbers: &[usize]) -> Answer {
        Answer { numbers: numbers.to_vec(), bytes: None }
    }

    /// Adds the line of the answer, with its end.
    pub fn write(&self, out: &mut Vec<u8>) {
        for (i, number) in self.numbers.iter().enumerate() {
            if i > 0 {
                out.push(b' ');
            }
            decimal(*number, out);
        }
        if let Some(bytes) = &self.bytes {
            out.push(b' ');
            out.extend(hex(bytes).as_bytes());
        }
        out.push(b'\n');
    }
}

fn decimal(mut number: usize, out: &mut Vec<u8>) {
    let mut digits = [0u8; 20];
    let mut at = digits.len();
    loop {
        at -= 1;
        digits[at] = b'0' + (number % 10) as u8;
        number /= 10;
        if number == 0 {
            break;
        }
    }
    out.extend(&digits[at..]);
}

fn looked_up(answer: LookUp) -> Answer {
    let mut numbers = vec![answer.number, answer.close, answer.items.len(), answer.note];
    numbers.extend(answer.items.iter().flatten());
    Answer { numbers, bytes: None }
}

fn annotated(given: Annotation) -> Answer {
    let a = given.answer;
    let mut numbers = vec![given.number, a.groups.len(), a.items.len(), a.references.len(), a.labels.len(), given.note];
    numbers.extend(a.groups.iter().flatten());
    numbers.extend(a.items.iter().flatten());
    numbers.extend(a.references);
    Answer { numbers, bytes: Some(a.labels) }
}

fn item(bytes: &[u8], from: usize, to: usize) -> Result<Answer, String> {
    str_parted(bytes, from, to)?;
    let mut session = Session::default();
    session.set_text(bytes);
    Ok(match session.item(from, to) {
        None => Answer::of(&[0]),
        Some(record) => {
            let mut numbers = vec![1];
            numbers.extend(record);
            Answer { numbers, bytes: None }
        }
    })
}

fn str_of(bytes: &[u8]) -> Result<&str, String> {
    std::str::from_utf8(bytes).map_err(|_| "text not UTF-8".to_string())
}

// The text, where `at` is at most its length.
fn str_up_to(bytes: &[u8], at: usize) -> Result<&str, String> {
    if at > bytes.len() {
        return Err("place past the end".to_string());
    }
    str_of(bytes)
}

// The text, where `from` and `to` are places between its characters, in order.
fn str_parted(bytes: &[u8], from: usize, to: usize) -> Result<&str, String> {
    let text = str_up_to(bytes, to)?;
    if from <= to && text.is_char_boundary(from) && text.is_char_boundary(to) {
        Ok(text)
    } else {
        Err("no such part".to_string())
    }
}

struct Words<'a>(std::str::Split<'a, char>);

impl<'a> Words<'a> {
    fn word(&mut self) -> Result<&'a str, String> {
        self.0.next().ok_or_else(|| "too few words".to_string())
    }

    fn number(&mut self) -> Result<usize, String> {
        match self.word()? {
            "max" => Ok(usize::MAX),
            word => word.parse().map_err(|_| format!("no number: {word}")),
        }
    }

    fn bytes(&mut self) -> Result<Vec<u8>, String> {
        let word = self.word()?;
        if word == "-" {
            return Ok(Vec::new());
        }
        let digits = word.as_bytes();
        if digits.len() % 2 != 0 {
            return Err("odd hex".to_string());
        }
        digits.chunks_exact(2).map(|two| Ok(digit(two[0])? * 16 + digit(two[1])?)).collect()
    }
}

fn digit(byte: u8) -> Result<u8, String> {
    match byte {
        b'0'..=b'9' => Ok(byte - b'0'),
        b'a'..=b'f' => Ok(byte - b'a' + 10),
        b'A'..=b'F' => Ok(byte - b'A' + 10),
        _ => Err("no hex".to_string()),
    }
}

/// Bytes in hex, `-` for none.
pub fn hex(bytes: &[u8]) -> String {
    if bytes.is_empty() {
        return "-".to_string();
    }
    let mut out = String::with_capacity(2 * bytes.len());
    for byte in bytes {
        for half in [byte >> 4, byte & 15] {
            out.push(char::from(b"0123456789abcdef"[usize::from(half)]));
        }
    }
    out
}
