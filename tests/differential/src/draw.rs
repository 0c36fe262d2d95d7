//! Made-up cases: texts of every sort with calls on them, locators, pools.

use inputs::random::Random;
use inputs::{limits, many, pools, texts};

use crate::case::{Call, Case, Room, Rooms, What};

/// A case.
pub fn case(random: &mut Random) -> Case {
    match random.below(1_000) {
        0..=2 => on_text(random, texts::large),
        3..=4 => labelled(random),
        5..=8 => on_text(random, |random| {
            let length = limits::length(random);
            limits::of_length(random, length)
        }),
        9..=12 => large_pools(random),
        13..=149 => on_text(random, limits::near_64),
        150..=249 => many_sources(random),
        250..=549 => on_text(random, texts::text),
        550..=749 => on_text(random, texts::prose),
        750..=869 => locators(random),
        _ => sources(random),
    }
}

/// A case for a list of calls: a text with 2 to 12 of them.
pub fn list(random: &mut Random) -> Case {
    let (text, pool) = match random.below(400) {
        0 => (texts::large(random), Vec::new()),
        1 => (texts::labelled(random), Vec::new()),
        2..=99 => (limits::near_64(random), Vec::new()),
        100..=229 => (texts::prose(random), Vec::new()),
        230..=249 => {
            let count = many::count(random);
            many::sources(random, count)
        }
        _ => (texts::text(random), Vec::new()),
    };
    let places = texts::brackets(&text);
    let bytes = perhaps_broken(random, text);
    let count = 2 + random.below(11);
    let calls = (0..count).map(|_| list_call(random, &bytes, &places, &pool)).collect();
    Case { note: note(random), ..with_calls(random, bytes, calls) }
}

// A call of a list; annotations have this pool, where it has bytes, or another one.
fn list_call(random: &mut Random, text: &[u8], places: &[usize], pool: &[u8]) -> Call {
    let what = match random.below(16) {
        0 => What::Size,
        1 => What::Locator,
        2 => What::LookUp { at: anywhere(random, text) },
        3..=6 if pool.is_empty() => annotation(random),
        3..=6 => annotation_over(random, pool),
        _ if places.is_empty() => What::LookUp { at: 0 },
        _ => What::LookUp { at: random.of(places) },
    };
    call(random, what)
}

/// A source text call, for the self-test.
pub fn source(random: &mut Random) -> Call {
    let pool = pools::whole(random, 3);
    let entry = random.below(3);
    call(random, What::SourceText { pool, entry })
}

// A text with look-ups, annotations and other calls in any order.
fn on_text(random: &mut Random, text: impl Fn(&mut Random) -> String) -> Case {
    let text = text(random);
    let mut whats: Vec<What> = look_up_places(random, &text).into_iter().map(|at| What::LookUp { at }).collect();
    let bytes = perhaps_broken(random, text);
    for _ in 0..1 + random.below(2) {
        let place = random.below(whats.len() + 1);
        whats.insert(place, annotation(random));
    }
    if random.below(4) == 0 {
        whats.push(if random.below(2) == 0 { What::Size } else { What::Locator });
    }
    let calls = whats.into_iter().map(|what| call(random, what)).collect();
    with_calls(random, bytes, calls)
}

// Brackets of a text, and now and then another place.
fn look_up_places(random: &mut Random, text: &str) -> Vec<usize> {
    let mut places = texts::brackets_mixed(random, text, 8);
    if places.is_empty() || random.below(4) == 0 {
        let at = anywhere(random, text.as_bytes());
        places.insert(random.below(places.len() + 1), at);
    }
    places
}

// Any place: in the text, at its end, or far past it.
fn anywhere(random: &mut Random, text: &[u8]) -> usize {
    match random.below(8) {
        0 => text.len() + random.below(3),
        1 => random.of(&[65_535, 65_536, 1 << 32, usize::MAX / 2, usize::MAX - 1, usize::MAX]),
        _ => random.below(text.len() + 1),
    }
}

fn annotation(random: &mut Random) -> What {
    let mode = if random.below(40) == 0 { random.of(&[2, 3, 128, 255]) } else { random.below(2) as u8 };
    let pool = if random.below(2) == 0 { Vec::new() } else { pools::pool(random) };
    What::Annotate { mode, pool }
}

// An annotation with this pool, another one, or none.
fn annotation_over(random: &mut Random, pool: &[u8]) -> What {
    match (annotation(random), random.below(4)) {
        (What::Annotate { mode, .. }, 0..=2) => What::Annotate { mode, pool: pool.to_vec() },
        (other, _) => other,
    }
}

// A text of many sources: annotations, mostly in areas that are long enough, and a look-up.
fn many_sources(random: &mut Random) -> Case {
    let count = many::count(random);
    let (text, pool) = many::sources(random, count);
    let places = texts::brackets_mixed(random, &text, 1);
    let bytes = perhaps_broken(random, text);
    let mut whats: Vec<What> = places.into_iter().map(|at| What::LookUp { at }).collect();
    let times = if count > 600 { 1 } else { 2 };
    whats.extend((0..times).map(|_| annotation_over(random, &pool)));
    let calls = whats.into_iter().map(|what| {
        let mut call = call(random, what);
        if random.below(4) > 0 {
            call.rooms.each().into_iter().filter(|room| matches!(room, Room::Less(_))).for_each(|room| *room = Room::Exact);
        }
        call
    });
    let calls = calls.collect();
    with_calls(random, bytes, calls)
}

// Labels by author of 65,535 bytes, or a few less or more, in areas that are long enough.
fn labelled(random: &mut Random) -> Case {
    let text = texts::labelled(random).into_bytes();
    let plenty = Room::More(20_000);
    let rooms = Rooms { items: plenty, groups: plenty, references: plenty, labels: Room::More(70_000), ..Rooms::EXACT };
    let exact = Rooms { labels: Room::More(random.below(2)), ..Rooms::EXACT };
    let mode = random.of(&[0, 1, 1, 1]);
    let calls = [rooms, exact].map(|rooms| Call { what: What::Annotate { mode, pool: Vec::new() }, rooms, seed: random.next() });
    with_calls(random, text, calls.into())
}

// Pools of about 32,768 bytes, for an annotation and for source texts.
fn large_pools(random: &mut Random) -> Case {
    let text = texts::prose(random).into_bytes();
    let pool = limits::large_pool(random);
    let entry = anywhere(random, &pool[..pool.len().min(40)]);
    let mode = random.below(2) as u8;
    let whats =
        [What::Annotate { mode, pool: pool.clone() }, What::SourceText { pool: pool.clone(), entry }, What::SourceText { pool, entry: 0 }];
    let calls = whats.map(|what| call(random, what));
    with_calls(random, text, calls.into())
}

fn locators(random: &mut Random) -> Case {
    let text = texts::locator(random);
    let bytes = perhaps_broken(random, text);
    let mut calls = vec![call(random, What::Locator)];
    if random.below(8) == 0 {
        calls.push(call(random, What::Size));
    }
    with_calls(random, bytes, calls)
}

// Each entry of a pool and places past the last, of the pool and of damaged copies.
fn sources(random: &mut Random) -> Case {
    let whole = pools::whole(random, 3);
    let mut all = vec![whole.clone()];
    for _ in 0..random.below(4) {
        let at = random.below(whole.len());
        all.push(match random.below(3) {
            0 => whole[..at].to_vec(),
            _ => pools::damaged(random, &whole, at),
        });
    }
    let mut calls = Vec::new();
    for pool in all {
        for entry in 0..=usize::from(pool.first().copied().unwrap_or(0).min(4)) {
            calls.push(call(random, What::SourceText { pool: pool.clone(), entry }));
        }
        if random.below(8) == 0 {
            let entry = anywhere(random, &pool);
            calls.push(call(random, What::SourceText { pool, entry }));
        }
    }
    with_calls(random, Vec::new(), calls)
}

// One text in thirty is no UTF-8, or another byte.
fn perhaps_broken(random: &mut Random, text: String) -> Vec<u8> {
    match random.below(30) {
        0 => limits::broken(random, text.into_bytes()),
        _ => text.into_bytes(),
    }
}

fn with_calls(random: &mut Random, text: Vec<u8>, calls: Vec<Call>) -> Case {
    // one case in twenty starts with the note 1 and an index that no call left
    let note = if random.below(20) == 0 { 1 } else { note(random) };
    Case { text, note, beyond: random.of(&[0, 0, 1, 7, 24]), seed: random.next(), calls }
}

// A note other than 1.
fn note(random: &mut Random) -> u8 {
    random.of(&[0, 0, 0, 2, 3, 128, 255])
}

/// A call with areas that are mostly long enough.
pub fn call(random: &mut Random, what: What) -> Call {
    let rooms = Rooms {
        index: lent_room(random),
        records: lent_room(random),
        items: answer_room(random),
        groups: answer_room(random),
        references: answer_room(random),
        labels: answer_room(random),
        answer: match random.below(60) {
            0 => Room::Less(1 + random.below(6)),
            1..=6 => Room::More(1 + random.below(5)),
            _ => Room::Exact,
        },
    };
    Call { what, rooms, seed: random.next() }
}

// Of index and bracket records.
fn lent_room(random: &mut Random) -> Room {
    match random.below(40) {
        0 => Room::Less(1),
        1 => Room::Less(1 + random.below(30)),
        2 => Room::Less(usize::MAX),
        3..=12 => Room::More(1 + random.below(24)),
        _ => Room::Exact,
    }
}

// Of an answer area.
fn answer_room(random: &mut Random) -> Room {
    match random.below(40) {
        0 | 1 => Room::Less(1),
        2 => Room::Less(1 + random.below(40)),
        3 => Room::Less(usize::MAX),
        4..=19 => Room::More(1 + random.below(40)),
        _ => Room::Exact,
    }
}
