//! The compiled library against the Rust, and lists of calls against fresh ones. tests/differ builds and runs it.
//!
//!     differential rust SEED SECONDS     every call's answer and every byte lent, against the Rust
//!     differential lists SEED SECONDS    lists of calls on one index, each call against the same one on a fresh index
//!     differential self-test SEED        areas changed after each call: each change must be seen

// Without the Rust only the lists are built, which use a part of the rest.
#![cfg_attr(not(feature = "rust"), allow(dead_code, unused_mut))]

mod areas;
mod case;
mod draw;
#[cfg(feature = "rust")]
mod exhaustive;
mod lists;
mod outcome;
mod run;
#[cfg(feature = "rust")]
mod rust;
mod self_test;
mod shrink;

use std::process::exit;
use std::time::{Duration, Instant};

use inputs::random::Random;

use lists::Lists;
use outcome::{grouped, Counts};
use run::Until;

/// How many lists of calls a run has at least.
const LISTS: u64 = 50_000;
/// How many made-up cases a thread takes at once.
const BATCH: usize = 64;

fn main() {
    run::keep_quiet();
    let words: Vec<String> = std::env::args().skip(1).collect();
    let words: Vec<&str> = words.iter().map(String::as_str).collect();
    let passed = match words.as_slice() {
        ["rust", seed, seconds] => against_rust(number(seed), number(seconds)),
        ["lists", seed, seconds] => lists_of_calls(number(seed), number(seconds)),
        ["self-test", seed] => self_test::all(number(seed)),
        _ => stop("differential rust SEED SECONDS | differential lists SEED SECONDS | differential self-test SEED"),
    };
    exit(i32::from(!passed));
}

fn stop(why: &str) -> ! {
    eprintln!("{why}");
    exit(2)
}

fn number(word: &str) -> u64 {
    word.parse().unwrap_or_else(|_| stop("no number"))
}

// The numbers of a thread, other ones for every seed.
fn numbers(seed: u64, thread: u64) -> Random {
    let mut random = Random::new(seed);
    let first = random.next();
    Random::new(first ^ thread.wrapping_mul(0xD129_0AEF_5B83_1C27))
}

#[cfg(feature = "rust")]
fn against_rust(seed: u64, seconds: u64) -> bool {
    let exhaustive = exhaustive::Exhaustive::new(seed);
    let batch = |thread| {
        let mut random = numbers(seed, thread);
        let exhaustive = &exhaustive;
        // half of the time is for made-up cases
        let (mut made_up, mut every) = (Duration::ZERO, Duration::ZERO);
        let (mut makes_up, mut since) = (false, Instant::now());
        move || {
            let spent = std::mem::replace(&mut since, Instant::now()).elapsed();
            *(if makes_up { &mut made_up } else { &mut every }) += spent;
            makes_up = made_up <= every;
            match makes_up {
                true => (0..BATCH).map(|_| draw::case(&mut random)).collect(),
                false => exhaustive.cases(),
            }
        }
    };
    let start = Instant::now();
    let until = Until { time: Duration::from_secs(seconds), cases: 0 };
    let Some(counts) = run::run(rust::Comparison::new, batch, until) else { return false };
    finish("the Rust", "texts or pools", seed, start, &counts);
    print!("differ: of these, every one of its sort:\n{}", exhaustive.table());
    true
}

#[cfg(not(feature = "rust"))]
fn against_rust(_: u64, _: u64) -> bool {
    stop("built without the Rust")
}

fn lists_of_calls(seed: u64, seconds: u64) -> bool {
    let batch = |thread| {
        let mut random = numbers(seed, thread);
        move || (0..BATCH).map(|_| draw::list(&mut random)).collect()
    };
    let start = Instant::now();
    let until = Until { time: Duration::from_secs(seconds), cases: LISTS };
    let Some(counts) = run::run(Lists::new, batch, until) else { return false };
    finish("fresh calls", "lists of calls", seed, start, &counts);
    true
}

fn finish(reference: &str, cases: &str, seed: u64, start: Instant, counts: &Counts) {
    println!(
        "differ: the library against {reference}, seed {seed}: {} calls in {} {cases}, {:.0} s, 0 differences",
        grouped(counts.calls),
        grouped(counts.cases),
        start.elapsed().as_secs_f64()
    );
    print!("{}", counts.table());
}
