//! The time of the compiled library beside that of the Rust's bare calls, in one process and in turns: the best of many calls, or the median
//! of the thread's own time where a call is long. bench/run builds and runs it; docs/PERFORMANCE.md says what each side does.

mod clock;
mod port;
mod texts;

use std::hint::black_box;
use std::time::{Duration, Instant};

use oracle::bare::Bare;

use clock::{Clock, Time};
use port::Port;
use texts::Text;

/// How long a row is measured, and how many calls each side has at least.
const ROW: Duration = Duration::from_millis(600);
const LEAST: usize = 5;
/// From this time on a call is long.
const LONG: Duration = Duration::from_millis(3);
/// How many brackets of a text are looked up in a row, at most, and how many look-ups are measured at once, at least.
const PLACES: usize = 100;
const LOOK_UPS: usize = 400;
/// The larger size, near the limit of 65,535 bytes, and half of it.
const LARGE: usize = 65_530;
const HALF: usize = LARGE / 2;

/// The goals: ratio on ordinary text, growth of a build where the text doubles.
const RATIO: f64 = 1.0;
const GROWTH: f64 = 2.2;

/// A row of the table. Times in microseconds.
struct Row {
    text: String,
    call: &'static str,
    port: f64,
    rust: f64,
    /// The goal of the ratio is for this row.
    judged: bool,
}

impl Row {
    fn ratio(&self) -> f64 {
        self.port / self.rust
    }
}

fn main() {
    let mut port = Port::new();
    let mut rows = Vec::new();
    let mut growths = Vec::new();
    println!("{:<60}{:<32}{:>12}{:>12}{:>8}", "text", "call", "port µs", "Rust µs", "ratio");
    for size in [4_096, LARGE] {
        for pool in [false, true] {
            ordinary(&mut port, size, pool, &mut rows);
        }
    }
    for text in texts::worst(LARGE) {
        worst(&mut port, &text, &mut rows);
    }
    println!("\n{:<60}{:<32}{:>12}{:>12}{:>8}{:>8}", "text", "call, port", "32 KB µs", "64 KB µs", "growth", "Rust's");
    growth(&mut port, &texts::ordinary(HALF, false), &texts::ordinary(LARGE, false), &mut growths);
    for (half, whole) in texts::worst(HALF).iter().zip(&texts::worst(LARGE)) {
        growth(&mut port, half, whole, &mut growths);
    }
    println!("{}", goals(&rows, &growths));
}

fn show(row: Row, rows: &mut Vec<Row>) {
    println!("{:<60}{:<32}{:>12.2}{:>12.2}{:>8.2}", row.text, row.call, row.port, row.rust, row.ratio());
    rows.push(row);
}

// The goal of the ratio is for the Rust's bare calls. Rows with `from_utf8` show how much of a look-up is the check that the port makes.
fn ordinary(port: &mut Port, size: usize, pool: bool, rows: &mut Vec<Row>) {
    let text = texts::ordinary(size, pool);
    let bytes = if pool { texts::pool() } else { Vec::new() };
    let mut add = |call, judged, (port, rust)| show(Row { text: text.name.clone(), call, port, rust, judged }, rows);
    if !pool {
        add("look-up, no index", true, look_up(port, &text, false, false));
        add("look-up, no index, from_utf8", false, look_up(port, &text, false, true));
        add("look-up, index kept", true, look_up(port, &text, true, false));
        add("look-up, index kept, from_utf8", false, look_up(port, &text, true, true));
        add("build", true, build(port, &text));
    }
    add("annotation, mode 0", true, annotation(port, text.plain(), 0, &bytes));
    add("annotation, mode 1", true, annotation(port, text.plain(), 1, &bytes));
    add("annotation that builds, mode 0", true, annotation(port, &text.bytes, 0, &bytes));
    add("annotation that builds, mode 1", true, annotation(port, &text.bytes, 1, &bytes));
}

fn worst(port: &mut Port, text: &Text, rows: &mut Vec<Row>) {
    let name = || format!("{}, {} bytes", text.name, text.bytes.len());
    let mut add = |call, (port, rust)| show(Row { text: name(), call, port, rust, judged: false }, rows);
    add("look-up, index kept", look_up(port, text, true, false));
    add("build", build(port, text));
    add("annotation, mode 0", annotation(port, text.plain(), 0, b""));
    add("annotation, mode 1", annotation(port, text.plain(), 1, b""));
}

fn growth(port: &mut Port, half: &Text, whole: &Text, growths: &mut Vec<(String, bool, f64)>) {
    let times = [build(port, half), build(port, whole)];
    show_growth(half, "build", true, times, growths);
    for (mode, call) in [(0, "annotation, mode 0"), (1, "annotation, mode 1")] {
        let times = [annotation(port, half.plain(), mode, b""), annotation(port, whole.plain(), mode, b"")];
        show_growth(half, call, false, times, growths);
    }
}

fn show_growth(half: &Text, call: &str, build: bool, [a, b]: [(f64, f64); 2], growths: &mut Vec<(String, bool, f64)>) {
    let grown = b.0 / a.0;
    println!("{:<60}{call:<32}{:>12.2}{:>12.2}{grown:>8.2}{:>8.2}", half.name, a.0, b.0, b.1 / a.1);
    growths.push((half.name.clone(), build, grown));
}

// Both sides in turns: the time of each, in microseconds.
fn in_turns(mut port: impl FnMut() -> Time, mut rust: impl FnMut() -> Time) -> (f64, f64) {
    let start = Instant::now();
    let mut times = (Vec::new(), Vec::new());
    while times.0.len() < LEAST || start.elapsed() < ROW {
        times.0.push(port());
        times.1.push(rust());
    }
    (time_of(times.0), time_of(times.1))
}

// The best by the wall clock; where a call is so long that other programs get in between, the median of the thread's own time.
fn time_of(mut times: Vec<Time>) -> f64 {
    let best = times.iter().map(|time| time.wall).min().unwrap_or_default();
    times.sort_by_key(|time| time.own);
    let time = if best < LONG { best } else { times[times.len() / 2].own };
    time.as_secs_f64() * 1e6
}

// Brackets of the text, evenly spread; not the one that builds the index.
fn places(text: &Text) -> Vec<usize> {
    let all: Vec<usize> =
        (0..text.bytes.len()).filter(|&at| text.bytes[at] == b'[' && (text.builds_at == 0 || at != text.builds_at)).collect();
    let step = all.len().div_ceil(PLACES);
    let some: Vec<usize> = all.into_iter().step_by(step).collect();
    match text.builds_at {
        // look-ups in a text that is bad by itself are long
        0 => some,
        _ => some.repeat(LOOK_UPS.div_ceil(some.len())),
    }
}

// One look-up, of many; with the index kept from an earlier call, or none. The Rust with a check of the text's UTF-8, or without.
fn look_up(port: &mut Port, text: &Text, kept: bool, checked: bool) -> (f64, f64) {
    let places = places(text);
    let first = if kept { vec![text.builds_at] } else { Vec::new() };
    let (_, note) = port.look_up(&text.bytes, &first, 0);
    assert_eq!(note, u8::from(kept));
    let (mut ours, mut theirs) = (0, 0);
    let bare = Bare::new(std::str::from_utf8(&text.bytes).unwrap(), 0, b"");
    let mut found = Vec::with_capacity(places.len());
    bare.look_up(&first, &mut found);
    let times = in_turns(
        || {
            let start = Clock::start();
            ours = port.look_up(black_box(&text.bytes), black_box(&places), note).0;
            start.elapsed()
        },
        || {
            found.clear();
            theirs = 0;
            let start = Clock::start();
            if checked {
                for at in black_box(&places).chunks(1) {
                    black_box(std::str::from_utf8(black_box(&text.bytes)).is_ok());
                    theirs += bare.look_up(at, &mut found);
                }
            } else {
                theirs = bare.look_up(black_box(&places), &mut found);
            }
            start.elapsed()
        },
    );
    assert_eq!(ours, theirs, "groups of {}", text.name);
    let count = places.len() as f64;
    (times.0 / count, times.1 / count)
}

// The look-up that builds the index.
fn build(port: &mut Port, text: &Text) -> (f64, f64) {
    let place = [text.builds_at];
    let mut bare = Bare::new(std::str::from_utf8(&text.bytes).unwrap(), 0, b"");
    let mut found = Vec::with_capacity(1);
    let (mut ours, mut theirs) = ((0, 0), 0);
    let times = in_turns(
        || {
            let start = Clock::start();
            ours = port.look_up(black_box(&text.bytes), &place, 0);
            start.elapsed()
        },
        || {
            found.clear();
            bare.forget();
            let start = Clock::start();
            theirs = black_box(&bare).look_up(&place, &mut found);
            start.elapsed()
        },
    );
    assert_eq!(ours, (theirs, 1), "group of {}, and a build", text.name);
    times
}

fn annotation(port: &mut Port, text: &[u8], mode: u8, pool: &[u8]) -> (f64, f64) {
    let mut bare = Bare::new(std::str::from_utf8(text).unwrap(), usize::from(mode), pool);
    let (mut ours, mut theirs) = (0, 0);
    let times = in_turns(
        || {
            let start = Clock::start();
            ours = port.annotate(black_box(text), mode, pool);
            start.elapsed()
        },
        || {
            bare.forget();
            let start = Clock::start();
            let (answer, sources) = black_box(&bare).annotate();
            let time = start.elapsed();
            theirs = sources;
            drop(answer);
            time
        },
    );
    assert_eq!(ours, theirs, "sources");
    times
}

// Which goals are met: the ratio on ordinary text, the growth of every build.
fn goals(rows: &[Row], growths: &[(String, bool, f64)]) -> String {
    let mut missed: Vec<String> = Vec::new();
    for row in rows.iter().filter(|row| row.judged && row.ratio() > RATIO) {
        missed.push(format!("ratio {:.2} for {} of {}", row.ratio(), row.call, row.text));
    }
    for (text, _, grown) in growths.iter().filter(|growth| growth.1 && growth.2 > GROWTH) {
        missed.push(format!("growth {grown:.2} for the build of {text}"));
    }
    match missed.is_empty() {
        true => format!("goals: met (ratio at most {RATIO:.1} on ordinary text, growth at most {GROWTH:.1} on every build)"),
        false => format!("goals: missed: {}", missed.join("; ")),
    }
}
