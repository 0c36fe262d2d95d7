//! The stored list of requests with their answers. crates/replay reads it; docs/DIFFERENCES.md has the layout of each kind.

use crate::answers::{self, Session};
use crate::citations::probe::{Annotated, Record};
use crate::generate;
use crate::protocol::Request;

/// The kinds: number in the list, name, seed, how many turns. `MANY` comes on top of them.
const KINDS: [(u8, &str, u64, usize); 12] = [
    (1, "utf8", 1, 800),
    (2, "escaped", 2, 700),
    (3, "key", 3, 1000),
    (4, "white", 4, 1000),
    (5, "trim", 5, 800),
    (6, "close", 6, 600),
    (7, "locator", 7, 800),
    (8, "item", 8, 800),
    (9, "pool", 9, 8),
    (10, "source", 10, 120),
    (11, "lookup", 11, 400),
    (12, "annotate", 12, 130),
];
/// Annotations of texts of many sources, which the stored list has none of (that of seed 0).
const MANY: (u8, &str, u64, usize) = (12, "many", 13, 40);
/// A record lies within one block, and the rest of a block is filled with zeros.
const BLOCK: usize = 1_048_576;

/// Hands each record to `take`, with other seeds and so many times as many turns where asked for: the number of its kind, its
/// requests, its body. A record with a locator where the two rules of a value part is left out; answers how many are, of how many.
pub fn records(seed: u64, times: usize, take: &mut dyn FnMut(u8, &[Request], Vec<u8>)) -> [usize; 2] {
    let mut session = Session::default();
    let mut count = [0, 0];
    let mut keep = |number, requests: &[Request], body: Option<Vec<u8>>| {
        count[0] += usize::from(body.is_none());
        count[1] += 1;
        if let Some(body) = body {
            take(number, requests, body);
        }
    };
    for (number, kind, own_seed, n) in KINDS.into_iter().chain((seed != 0).then_some(MANY)) {
        let known = generate::turns(own_seed + seed, n * times, kind, &mut |turn| match turn[0] {
            Request::Text(_) => keep(number, &turn, text_body(&turn, &mut session)),
            _ => turn.chunks(1).for_each(|request| keep(number, request, body(&request[0], &mut session))),
        });
        assert!(known);
    }
    count
}

/// The list. A record is the kind's number, the length of its body (three bytes) and its body. All numbers are little-endian.
pub fn list(seed: u64, times: usize) -> Vec<u8> {
    let mut out = Vec::new();
    records(seed, times, &mut |kind, _, body| {
        if out.len() % BLOCK + 4 + body.len() > BLOCK {
            out.resize(out.len().next_multiple_of(BLOCK), 0);
        }
        out.push(kind);
        out.extend(&(body.len() as u32).to_le_bytes()[..3]);
        out.extend(body);
    });
    out
}

/// The lines of the requests of record `n` (from 1) of a kind, each with its answer; none where there is no such record.
pub fn lines(seed: u64, times: usize, name: &str, n: usize) -> Option<String> {
    let wanted = KINDS.iter().find(|kind| kind.1 == name)?.0;
    let mut count = 0;
    let mut out = None;
    records(seed, times, &mut |kind, requests, _| {
        count += usize::from(kind == wanted);
        if kind == wanted && count == n {
            out = Some(asked(requests));
        }
    });
    out
}

/// How many pools and calls the list has, by their answer: a line of the request's word, the answer's first number (for a call its number,
/// 0 where it is accepted) and how many; ` built` where the call built the index. Annotations of many sources are counted again. Then how many
/// records there are, and how many are left out.
pub fn counts(seed: u64, times: usize) -> String {
    let mut counts = std::collections::BTreeMap::new();
    let [left_out, all] = records(seed, times, &mut |_, requests, _| {
        let mut session = Session::default();
        for request in requests {
            let before = session.note();
            let word = match request {
                Request::Text(_) | Request::Build => "",
                Request::Pool(_) => "pool",
                Request::Source(..) => "source",
                Request::LookUp(_) => "lookup",
                Request::Annotate(..) => "annotate",
                _ => continue,
            };
            let numbers = request.answer(&mut session).expect("a request that can be answered").numbers;
            let built = if session.note() > before { " built" } else { "" };
            *counts.entry((word, numbers[0], built)).or_insert(0) += usize::from(!word.is_empty());
            for (least, sort) in [(10, " with 10 sources or more"), (100, " with 100 sources or more")] {
                let many = word == "annotate" && numbers[3] >= least;
                *counts.entry((word, numbers[0], sort)).or_insert(0) += usize::from(many);
            }
        }
    });
    let lines = counts.into_iter().filter(|(_, count)| *count > 0);
    let lines: String = lines.map(|((word, number, built), count)| format!("{word} {number}{built} {count}\n")).collect();
    format!("{lines}records {all}\nrecords left out, where the two rules of a value part {left_out}\n")
}

fn asked(requests: &[Request]) -> String {
    let mut session = Session::default();
    let mut out = Vec::new();
    for request in requests {
        out.extend(format!("{}\n    ", request.line()).bytes());
        request.answer(&mut session).expect("a request that can be answered").write(&mut out);
    }
    String::from_utf8(out).expect("lines of ASCII")
}

// Two bytes a number.
fn put(out: &mut Vec<u8>, numbers: impl IntoIterator<Item = usize>) {
    for number in numbers {
        out.extend(u16::try_from(number).expect("a number of 16 bits").to_le_bytes());
    }
}

// A text with calls on it: where the text begins in the body (three bytes), the note that the first call is given (one byte), what the
// index area holds before it, how many calls, how many entries the index has, those (a place and its close each), the calls, the text.
// None where a locator has the two rules of a value part.
fn text_body(turn: &[Request], session: &mut Session) -> Option<Vec<u8>> {
    let Request::Text(text) = &turn[0] else { panic!("a turn of a text begins with it") };
    session.set_text(text);
    let note = match turn[1] {
        Request::Build => session.build(),
        _ => [0, 0, 2, 255][text.len() % 4],
    };
    let mut items = Vec::new();
    let calls: Vec<Vec<u8>> = turn[1..].iter().filter_map(|request| call(request, note, session, &mut items)).collect();
    if items.iter().any(|item| answers::rules_part_in(text, item)) {
        return None;
    }
    let index = session.index().into_iter().enumerate().filter(|entry| entry.1 > 0);
    let entries: Vec<[usize; 2]> = index.map(|(open, close)| [open, close]).collect();
    let mut out = vec![0, 0, 0, note as u8];
    put(&mut out, [left_over(text), calls.len(), entries.len()]);
    put(&mut out, entries.concat());
    out.extend(calls.concat());
    let start = (out.len() as u32).to_le_bytes();
    out[..3].copy_from_slice(&start[..3]);
    out.extend(text);
    Some(out)
}

// A call on the text; none for a request that is no call. Adds its items to `found`.
fn call(request: &Request, given: usize, session: &Session, found: &mut Vec<Record>) -> Option<Vec<u8>> {
    let note = |note| if note == 1 { 1 } else { given };
    let mut out = Vec::new();
    match request {
        Request::LookUp(at) => {
            let answer = session.look_up(*at, false);
            put(&mut out, [(*at).min(65_535), answer.number, answer.close, answer.items.len(), note(answer.note)]);
            put_found(&mut out, &answer.items);
            found.extend(answer.items);
        }
        Request::Annotate(mode, pool) => {
            let answer = session.annotate(*mode, pool, false);
            put(&mut out, [*mode, pool.len(), answer.number]);
            put_annotated(&mut out, &answer.answer, note(answer.note));
            out.extend(pool);
            found.extend(answer.answer.items);
        }
        _ => return None,
    }
    Some(out)
}

// Twelve numbers a record, whose last four are 0.
fn put_found(out: &mut Vec<u8>, items: &[Record]) {
    for item in items {
        assert_eq!(item[12..], [0; 4]);
        put(out, item[..12].iter().copied());
    }
}

// The counts of groups, items, sources and label bytes, the note, then those.
fn put_annotated(out: &mut Vec<u8>, answer: &Annotated, note: usize) {
    put(out, [answer.groups.len(), answer.items.len(), answer.references.len(), answer.labels.len(), note]);
    put(out, answer.groups.concat());
    put(out, answer.items.concat());
    put(out, answer.references.iter().copied());
    out.extend(&answer.labels);
}

// What the index area holds before the first call: the place of the text's last close, so that it looks like an entry.
fn left_over(text: &[u8]) -> usize {
    text.iter().rposition(|b| *b == b']').unwrap_or(7).min(65_535)
}

// The request's numbers, the answer's numbers, the answer's bytes where it has them, then the request's bytes. None where its locator has the
// two rules of a value part.
fn body(request: &Request, session: &mut Session) -> Option<Vec<u8>> {
    let (bytes, numbers) = match request {
        Request::Utf8(text) | Request::Locator(text) | Request::Pool(text) => (text, vec![]),
        Request::Escaped(text, at) | Request::Key(text, at) | Request::White(text, at) => (text, vec![*at]),
        Request::Trim(text, from, to) | Request::Item(text, from, to) => (text, vec![*from, *to]),
        Request::Close(text, at, limit) => (text, vec![*at, (*limit).min(65_535)]),
        Request::Source(pool, entry) => (pool, vec![*entry]),
        _ => panic!("a kind that is not stored alone"),
    };
    let answer = request.answer(session).expect("a request that can be answered");
    let parts = match (request, &answer.numbers[..]) {
        (Request::Locator(_), &[0, _, value, length, suffix, rest]) => answers::rules_part(bytes, [value, length], [suffix, rest]),
        (Request::Item(..), [1, item @ ..]) => answers::rules_part_in(bytes, item.try_into().expect("a record")),
        _ => false,
    };
    if parts {
        return None;
    }
    let mut out = Vec::new();
    put(&mut out, numbers);
    put(&mut out, answer.numbers);
    out.extend(answer.bytes.unwrap_or_default());
    out.extend(bytes);
    Some(out)
}
