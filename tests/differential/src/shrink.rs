//! Makes a failing case smaller for as long as it still fails.

use std::ops::Range;
use std::time::{Duration, Instant};

use inputs::pools;

use crate::case::{Case, Room, Rooms, What};

/// How long is searched.
const MOST: Duration = Duration::from_secs(30);

/// The smallest case found that fails as `case` does.
pub fn smallest(case: Case, fails: &mut dyn FnMut(&Case) -> bool) -> Case {
    let mut search = Search { best: case, fails, until: Instant::now() + MOST };
    loop {
        let before = search.best.clone();
        search.calls();
        search.text();
        search.pools();
        search.rest();
        if search.best == before || Instant::now() > search.until {
            return search.best;
        }
    }
}

/// Smaller pools, made as they are asked for.
type Pools = Box<dyn Iterator<Item = Vec<u8>>>;

struct Search<'a> {
    best: Case,
    fails: &'a mut dyn FnMut(&Case) -> bool,
    until: Instant,
}

impl Search<'_> {
    // Takes a case where it fails too.
    fn offer(&mut self, case: Case) -> bool {
        let better = case != self.best && Instant::now() < self.until && (self.fails)(&case);
        if better {
            self.best = case;
        }
        better
    }

    fn calls(&mut self) {
        let mut i = 0;
        while i < self.best.calls.len() {
            let mut case = self.best.clone();
            case.calls.remove(i);
            if !self.offer(case) {
                i += 1;
            }
        }
    }

    // Leaves out stretches of the text, long ones first; look-ups behind them move along.
    fn text(&mut self) {
        let mut length = self.best.text.len();
        while length > 0 {
            let mut from = 0;
            while from + length <= self.best.text.len() {
                let case = without(&self.best, from, length);
                if !self.offer(case) {
                    from += length;
                }
            }
            length /= 2;
        }
        self.brackets();
        self.characters();
    }

    // Leaves out each bracket together with its close, and with what stands between them or without.
    fn brackets(&mut self) {
        let mut open = 0;
        while open < self.best.text.len() {
            let smaller = close_of(&self.best.text, open).is_some_and(|close| {
                let (whole, pair) = (without(&self.best, open, close + 1 - open), without(&without(&self.best, close, 1), open, 1));
                self.offer(whole) || self.offer(pair)
            });
            open += usize::from(!smaller);
        }
    }

    // Leaves out each character, or puts as many `x` in its place as it has bytes.
    fn characters(&mut self) {
        let mut at = 0;
        while at < self.best.text.len() {
            let length = width(&self.best.text[at..]);
            let case = without(&self.best, at, length);
            if self.offer(case) {
                continue;
            }
            let mut case = self.best.clone();
            case.text[at..at + length].fill(b'x');
            self.offer(case);
            at += length;
        }
    }

    // Leaves out entries of the pools, then fields, then bytes.
    fn pools(&mut self) {
        for i in 0..self.best.calls.len() {
            self.less_pool(i, entries_left_out);
            self.less_pool(i, fields_left_out);
            self.less_pool(i, bytes_left_out);
        }
    }

    // Takes the first smaller pool of a call that fails too, for as long as there is one.
    fn less_pool(&mut self, i: usize, smaller: fn(Vec<u8>) -> Pools) {
        let mut again = true;
        while again {
            again = false;
            for less in smaller(self.best.calls[i].what.pool().to_vec()) {
                let mut case = self.best.clone();
                if let Some(pool) = case.calls[i].what.pool_mut() {
                    *pool = less;
                }
                if self.offer(case) {
                    again = true;
                    break;
                }
            }
        }
    }

    // No note, no index beyond the text, seeds of 0, areas of the length needed.
    fn rest(&mut self) {
        let case = Case { note: 0, ..self.best.clone() };
        self.offer(case);
        let case = Case { beyond: 0, ..self.best.clone() };
        self.offer(case);
        let case = Case { seed: 0, ..self.best.clone() };
        self.offer(case);
        for i in 0..self.best.calls.len() {
            let mut case = self.best.clone();
            case.calls[i].seed = 0;
            self.offer(case);
            let mut case = self.best.clone();
            case.calls[i].rooms = Rooms::EXACT;
            self.offer(case);
            for room in 0..7 {
                let mut case = self.best.clone();
                *case.calls[i].rooms.each()[room] = Room::Exact;
                self.offer(case);
            }
        }
    }
}

fn without(case: &Case, from: usize, length: usize) -> Case {
    let mut case = case.clone();
    case.text.drain(from..from + length);
    for call in &mut case.calls {
        if let What::LookUp { at } = &mut call.what {
            if *at >= from + length {
                *at -= length;
            }
        }
    }
    case
}

// The close of the bracket at `open`; none where there is no bracket, or no close.
fn close_of(text: &[u8], open: usize) -> Option<usize> {
    let (mut depth, mut at) = (0, open);
    while at < text.len() {
        match text[at] {
            b'\\' => at += 1,
            b'[' => depth += 1,
            b']' if depth == 1 => return Some(at),
            b']' => depth -= 1,
            _ => {}
        }
        if depth == 0 {
            return None;
        }
        at += 1;
    }
    None
}

// How many bytes the first character has; 1 where it is none.
fn width(bytes: &[u8]) -> usize {
    let all = (2..=bytes.len().min(4)).find(|&n| std::str::from_utf8(&bytes[..n]).is_ok_and(|text| text.chars().count() == 1));
    all.unwrap_or(1)
}

// The entries of a pool, by its pairs.
fn entries(pool: &[u8]) -> Option<Vec<Vec<u8>>> {
    let number = |at: usize| Some(usize::from(*pool.get(at)?) + 256 * usize::from(*pool.get(at + 1)?));
    (0..number(0)?)
        .map(|i| {
            let (at, length) = (number(2 + 4 * i)?, number(4 + 4 * i)?);
            Some(pool.get(at..at + length)?.to_vec())
        })
        .collect()
}

fn entries_left_out(pool: Vec<u8>) -> Pools {
    let all = entries(&pool).unwrap_or_default();
    Box::new((0..all.len()).map(move |i| {
        let mut left = all.clone();
        left.remove(i);
        pools::pool_of(&left)
    }))
}

fn fields_left_out(pool: Vec<u8>) -> Pools {
    let all = entries(&pool).unwrap_or_default();
    let places: Vec<_> = all.iter().enumerate().flat_map(|(i, entry)| fields(entry).map(move |field| (i, field))).collect();
    Box::new(places.into_iter().map(move |(i, field)| {
        let mut left = all.clone();
        left[i].drain(field);
        pools::pool_of(&left)
    }))
}

// Where the fields of an entry stand.
fn fields(entry: &[u8]) -> impl Iterator<Item = Range<usize>> + '_ {
    let mut at = 0;
    std::iter::from_fn(move || {
        let length = usize::from(*entry.get(at + 1)?) + 256 * usize::from(*entry.get(at + 2)?);
        let field = at..(at + 3 + length).min(entry.len());
        at = field.end;
        Some(field)
    })
}

fn bytes_left_out(pool: Vec<u8>) -> Pools {
    let lengths = std::iter::successors(Some(pool.len()), |length| Some(length / 2)).take_while(|length| *length > 0);
    Box::new(lengths.flat_map(move |length| {
        let pool = pool.clone();
        (0..=pool.len() - length).step_by(length).map(move |from| [&pool[..from], &pool[from + length..]].concat())
    }))
}
