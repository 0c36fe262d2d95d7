//! Made-up requests, by seed and kind.

use inputs::random::{character, Random, BROKEN, NEAR, WIDE};
use inputs::{many, pools, texts};

use crate::answers::text_refusal;
use crate::protocol::Request;

pub use inputs::random::WHITE;

/// Hands `n` requests of a kind to `take` (turns of several for some kinds), those that are the same for every seed first; false where
/// there is no such kind.
pub fn requests(seed: u64, n: usize, kind: &str, take: &mut dyn FnMut(Request)) -> bool {
    turns(seed, n, kind, &mut |turn| turn.into_iter().for_each(&mut *take))
}

/// The same, a turn at a time.
pub fn turns(seed: u64, n: usize, kind: &str, take: &mut dyn FnMut(Vec<Request>)) -> bool {
    let mut random = Random::new(seed);
    let fixed = fixed(kind);
    let count = fixed.len();
    for request in fixed.into_iter().take(n) {
        take(vec![request]);
    }
    for _ in count.min(n)..n {
        match turn(&mut random, kind) {
            None => return false,
            Some(requests) => take(requests),
        }
    }
    true
}

// One made-up request; for `lookup`, `annotate`, `large` and `many` a text with several, for `pool` and `source` a pool with several.
fn turn(random: &mut Random, kind: &str) -> Option<Vec<Request>> {
    Some(match kind {
        "lookup" => look_ups(random),
        "annotate" => {
            let text = match random.below(600) {
                0 => texts::large(random),
                1 => texts::labelled(random),
                2..=200 => texts::text(random),
                _ => texts::prose(random),
            };
            annotations(random, text)
        }
        "large" => {
            let text = texts::large(random);
            annotations(random, text)
        }
        "many" => many_sources(random),
        "pool" => pools_of_one(random),
        "source" => sources(random),
        _ => vec![request(random, kind)?],
    })
}

// One made-up request of a kind whose turns are of one.
fn request(random: &mut Random, kind: &str) -> Option<Request> {
    Some(match kind {
        "utf8" => Request::Utf8(damaged(random)),
        "escaped" => {
            let text = slashed(random);
            let at = random.below(text.len() + 1);
            Request::Escaped(text, at)
        }
        "key" => {
            let text = keyed(random);
            let at = random.below(text.len() + 2);
            Request::Key(text, at)
        }
        "white" => {
            let text = spaced(random);
            let at = random.below(text.len() + 1);
            Request::White(text.into_bytes(), at)
        }
        "trim" => {
            let text = spaced(random);
            let (from, to) = stretch(random, &text);
            Request::Trim(text.into_bytes(), from, to)
        }
        "close" => {
            let (text, at) = texts::bracketed(random);
            let limit = random.of(&[1, 5, 20, 63, 64, 64, 65, 65, 66, 100, usize::MAX, usize::MAX]);
            Request::Close(text.into_bytes(), at, limit)
        }
        "locator" => {
            let text = texts::locator(random);
            Request::Locator(if random.below(50) == 0 { refused(random, text) } else { text.into_bytes() })
        }
        "item" => {
            let text = if random.below(4) > 0 { texts::item(random) } else { texts::pieces(random, 12) };
            let text = if random.below(3) == 0 { format!("[{text};{}]", texts::item(random)) } else { text };
            let (from, to) = piece(random, &text);
            Request::Item(text.into_bytes(), from, to)
        }
        _ => return None,
    })
}

// The requests that every list of a kind begins with.
fn fixed(kind: &str) -> Vec<Request> {
    let alone = || WHITE.iter().chain(&NEAR).chain(&WIDE).map(|&point| character(point).to_string());
    match kind {
        "utf8" => {
            let broken = BROKEN.iter().map(|b| b.to_vec());
            let cut = BROKEN.iter().map(|b| [b"a", *b, b"a"].concat());
            alone().map(String::into_bytes).chain(broken).chain(cut).map(Request::Utf8).collect()
        }
        "white" => alone().flat_map(|s| (0..=s.len()).map(move |at| Request::White(s.clone().into_bytes(), at))).collect(),
        "trim" => alone()
            .map(|s| format!("{s}a{s}"))
            .chain(alone())
            .map(|s| {
                let to = s.len();
                Request::Trim(s.into_bytes(), 0, to)
            })
            .collect(),
        // every ASCII byte as a key's first byte, as its second, and after its first
        "key" => {
            let keys = |b| [vec![b'@', b], vec![b'@', b'a', b, b'b'], vec![b'@', b'a', b]];
            (0..128u8).flat_map(keys).map(|text| Request::Key(text, 1)).collect()
        }
        "escaped" => (0..9).map(|n| Request::Escaped([vec![b'\\'; n], vec![b'[']].concat(), n)).collect(),
        "locator" => texts::MATCHERS
            .iter()
            .flat_map(|m| [format!("{m} 3"), m.to_uppercase(), format!("{m}3 x"), format!("{m}x")])
            .map(|s| Request::Locator(s.into_bytes()))
            .collect(),
        // a close from 0 to 70 bytes after its bracket, with limits about the short look's
        "close" => (0..70)
            .flat_map(|n| [63, 64, 65].map(|limit| Request::Close(format!("[{}]", "x".repeat(n)).into_bytes(), 0, limit)))
            .filter(|r| matches!(r, Request::Close(text, ..) if text.len() > 60))
            .collect(),
        _ => Vec::new(),
    }
}

// Characters of every width, then, three times in four, damage.
fn damaged(random: &mut Random) -> Vec<u8> {
    let mut bytes = Vec::new();
    for _ in 0..random.below(12) {
        let point = if random.below(3) == 0 { random.of(&NEAR) } else { random.of(&WIDE) };
        bytes.extend(character(point).to_string().as_bytes());
    }
    let at = random.below(bytes.len() + 1);
    match random.below(8) {
        0 | 1 => {}
        2 => bytes.truncate(at),
        3 | 4 if at < bytes.len() => bytes[at] = (random.next() & 255) as u8,
        5 if at < bytes.len() => {
            bytes.remove(at);
        }
        6 => bytes.insert(at, (random.next() & 255) as u8),
        _ => {
            let broken = random.of(&BROKEN);
            bytes.splice(at..at, broken.iter().copied());
        }
    }
    bytes
}

// Runs of backslashes between other characters.
fn slashed(random: &mut Random) -> Vec<u8> {
    let mut text = String::new();
    for _ in 0..1 + random.below(5) {
        text.push_str(&"\\".repeat(random.below(6)));
        text.push_str(random.of(&["[", "]", "@", "a", "é", "", ";", "\n"]));
    }
    text.into_bytes()
}

fn keyed(random: &mut Random) -> Vec<u8> {
    let mut text = String::new();
    for _ in 0..1 + random.below(16) {
        match random.below(4) {
            0 => text.push(char::from(b'!' + random.below(94) as u8)),
            1 => text.push(char::from(random.of(b"_:.#$%&+?<>~/-"))),
            2 => text.push_str(&texts::pieces(random, 1)),
            _ => text.push(char::from(random.of(b"abzAZ059_"))),
        }
    }
    text.into_bytes()
}

fn spaced(random: &mut Random) -> String {
    let mut text = String::new();
    for _ in 0..1 + random.below(8) {
        let point = match random.below(5) {
            0 => random.of(&NEAR),
            1 => random.of(&WIDE),
            _ => random.of(&WHITE),
        };
        text.push(character(point));
    }
    text
}

// Two places between characters, in order.
fn stretch(random: &mut Random, text: &str) -> (usize, usize) {
    let places: Vec<usize> = (0..=text.len()).filter(|&i| text.is_char_boundary(i)).collect();
    let (a, b) = (random.of(&places), random.of(&places));
    (a.min(b), a.max(b))
}

// A piece as a group has them: from the start or after `[`, `+` or `;`, up to the end or a `;` or `]`.
fn piece(random: &mut Random, text: &str) -> (usize, usize) {
    let bytes = text.as_bytes();
    let starts: Vec<usize> = (0..=bytes.len()).filter(|&i| i == 0 || b"[+;".contains(&bytes[i - 1])).collect();
    let from = random.of(&starts);
    let ends: Vec<usize> = (from..=bytes.len()).filter(|&i| i == bytes.len() || b";]".contains(&bytes[i])).collect();
    (from, random.of(&ends))
}

// A text, sometimes with its index built beforehand, look-ups in any order, each also by the unlimited scan, then the index.
fn look_ups(random: &mut Random) -> Vec<Request> {
    let text = match random.below(400) {
        0 => texts::large(random),
        _ => texts::text(random),
    };
    let places = look_up_places(random, &text);
    let bytes = match random.below(200) {
        0 => refused(random, text),
        _ => text.into_bytes(),
    };
    let built = random.below(4) == 0 && text_refusal(&bytes) == 0;
    let mut out = vec![Request::Text(bytes)];
    if built {
        out.push(Request::Build);
    }
    for at in places {
        out.extend([Request::LookUp(at), Request::Scan(at)]);
    }
    out.push(Request::Index);
    out
}

// Brackets of a text, and now and then another place.
fn look_up_places(random: &mut Random, text: &str) -> Vec<usize> {
    let mut places = texts::brackets_mixed(random, text, 16);
    if random.below(8) == 0 {
        places.insert(random.below(places.len() + 1), random.below(text.len() + 2));
    }
    places
}

// Bytes that are refused by 1 or 2.
fn refused(random: &mut Random, text: String) -> Vec<u8> {
    let mut bytes = text.into_bytes();
    let at = random.below(bytes.len() + 1);
    match random.below(200) {
        0 => bytes.resize(65_536 + random.below(3), b'['),
        _ => {
            let broken = random.of(&BROKEN);
            bytes.splice(at..at, broken.iter().copied());
        }
    }
    bytes
}

// A text, perhaps with its index built beforehand, then annotations in either mode with and without a pool, each also by the unlimited scan.
fn annotations(random: &mut Random, text: String) -> Vec<Request> {
    let bytes = match random.below(200) {
        0 => refused(random, text),
        _ => text.into_bytes(),
    };
    let built = random.below(3) == 0 && text_refusal(&bytes) == 0;
    let mut out = vec![Request::Text(bytes)];
    if built {
        out.push(Request::Build);
    }
    for _ in 0..1 + random.below(3) {
        let mode = if random.below(50) == 0 { random.of(&[2, 3, 255]) } else { random.below(2) };
        let pool = if random.below(2) == 0 { Vec::new() } else { pools::pool(random) };
        out.extend([Request::Annotate(mode, pool.clone()), Request::Plain(mode, pool)]);
    }
    out
}

// A text of many sources, perhaps with its index built beforehand, annotated with its pool or without; once where it is long, so that a
// record of the stored list holds it.
fn many_sources(random: &mut Random) -> Vec<Request> {
    let count = many::count(random);
    let (text, pool) = many::sources(random, count);
    let times = if text.len() > 16_384 { 1 } else { 2 };
    let mut out = vec![Request::Text(text.into_bytes())];
    if random.below(3) == 0 {
        out.push(Request::Build);
    }
    for _ in 0..times {
        let mode = random.of(&[0, 1, 1]);
        let pool = if random.below(3) == 0 { Vec::new() } else { pool.clone() };
        out.extend([Request::Annotate(mode, pool.clone()), Request::Plain(mode, pool)]);
    }
    out
}

// A pool, whole, cut at every length, and with every byte changed.
fn pools_of_one(random: &mut Random) -> Vec<Request> {
    let whole = pools::whole(random, 3);
    let mut out: Vec<Request> = (0..=whole.len()).map(|n| Request::Pool(whole[..n].to_vec())).collect();
    out.extend((0..whole.len()).map(|at| Request::Pool(pools::damaged(random, &whole, at))));
    out
}

// Each entry of a pool and one past the last, of the pool and of damaged copies.
fn sources(random: &mut Random) -> Vec<Request> {
    let whole = pools::whole(random, 3);
    let mut out = entries(&whole);
    for _ in 0..random.below(4) {
        let at = random.below(whole.len());
        out.extend(entries(&pools::damaged(random, &whole, at)));
    }
    out
}

fn entries(pool: &[u8]) -> Vec<Request> {
    let count = crate::pool::entries(pool).map_or(0, |entries| entries.len());
    (0..=count).map(|entry| Request::Source(pool.to_vec(), entry)).collect()
}
