//! The oracle: the given Rust source behind lines of requests and answers.
//!
//!     cargo build --release --offline                 (in this folder; CARVE_SRC names another folder of the Rust source)
//!     oracle < requests > answers                     a request a line, an answer a line; src/protocol.rs has the table
//!     oracle generate SEED N KIND                     N made-up requests of a kind, to be answered or to be sent elsewhere
//!     oracle store > ../crates/replay/data/answers    the stored list that crates/replay replays
//!     oracle store SEED TIMES > answers               a list with other seeds, TIMES as long, to run crates/replay/out/replay beside
//!     oracle count SEED TIMES                         how many calls of each sort that list has, by their answer
//!     oracle show SEED TIMES KIND N                   the requests of the N-th record of a kind in that list, with their answers
//!
//! A place that the Rust's answer does not bear out stops the program.

use std::io::{self, BufRead, Write};

use oracle::answers::Session;
use oracle::protocol::Request;
use oracle::{generate, stored};

fn main() {
    let words: Vec<String> = std::env::args().skip(1).collect();
    let words: Vec<&str> = words.iter().map(String::as_str).collect();
    match words.as_slice() {
        [] => answer_all(),
        ["generate", seed, n, kind] => write_requests(number(seed), number(n) as usize, kind),
        ["store"] => store(0, 1),
        ["store", seed, times] => store(number(seed), number(times) as usize),
        ["count", seed, times] => print!("{}", stored::counts(number(seed), number(times) as usize)),
        ["show", seed, times, kind, n] => show(number(seed), number(times) as usize, kind, number(n) as usize),
        _ => stop(
            "oracle | oracle generate SEED N KIND | oracle store [SEED TIMES] | oracle count SEED TIMES | oracle show SEED TIMES KIND N",
        ),
    }
}

fn stop(why: &str) -> ! {
    eprintln!("{why}");
    std::process::exit(2)
}

fn number(word: &str) -> u64 {
    word.parse().unwrap_or_else(|_| stop("no number"))
}

fn store(seed: u64, times: usize) {
    io::stdout().write_all(&stored::list(seed, times)).expect("output");
}

fn show(seed: u64, times: usize, kind: &str, n: usize) {
    print!("{}", stored::lines(seed, times, kind, n).unwrap_or_else(|| stop("no such record")));
}

fn write_requests(seed: u64, n: usize, kind: &str) {
    let mut out = io::BufWriter::new(io::stdout().lock());
    let known = generate::requests(seed, n, kind, &mut |request| {
        writeln!(out, "{}", request.line()).expect("output");
    });
    if !known {
        stop("no such kind");
    }
}

// Answers are written out when the requests at hand are used up.
fn answer_all() {
    let mut input = io::BufReader::with_capacity(1 << 16, io::stdin().lock());
    let mut output = io::stdout().lock();
    let mut session = Session::default();
    let mut line = String::new();
    let mut out = Vec::new();
    loop {
        line.clear();
        if input.read_line(&mut line).expect("input") == 0 {
            break;
        }
        match Request::read(line.trim_end_matches('\n')).and_then(|r| r.answer(&mut session)) {
            Ok(answer) => answer.write(&mut out),
            Err(why) => out.extend(format!("error {why}\n").as_bytes()),
        }
        if out.len() > 1 << 16 || input.buffer().is_empty() {
            output.write_all(&out).and_then(|()| output.flush()).expect("output");
            out.clear();
        }
    }
    output.write_all(&out).expect("output");
}
