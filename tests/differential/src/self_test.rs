//! That a faulty library would be seen: after each call an element before, at the end of, or behind an area is changed, or the index.

use inputs::random::Random;

use crate::areas::{Fault, AREAS};
use crate::draw;
use crate::lists::Lists;
use crate::run::{run_one, Runner};

/// Lists of calls, each with a source text call behind it, in which a fault must show.
const MOST: usize = 500;

/// Tries every fault, against every reference that is built. False where one is not seen.
pub fn all(seed: u64) -> bool {
    let mut unseen = faults(seed, Lists::new);
    #[cfg(feature = "rust")]
    {
        unseen += faults(seed, crate::rust::Comparison::new);
    }
    unseen == 0
}

fn faults<R: Runner>(seed: u64, new: fn() -> R) -> usize {
    let mut all: Vec<Fault> = AREAS.iter().flat_map(|area| [Fault::Before(area), Fault::Last(area), Fault::Behind(area)]).collect();
    all.extend([Fault::NoEntries, Fault::OneEntry, Fault::NoteAlone]);
    // bracket records are not compared with a fresh call's; an index that is wrong is seen by what later calls answer
    all.retain(|fault| R::REFERENCE != Lists::REFERENCE || ![Fault::Last("records"), Fault::Last("index")].contains(fault));
    let unseen: Vec<&Fault> = all.iter().filter(|fault| !seen(seed, new(), **fault)).collect();
    for fault in &unseen {
        println!("differ: self-test: a fault is not seen: {fault:?}");
    }
    println!("differ: self-test: {} of {} faults are seen in the comparison with {}", all.len() - unseen.len(), all.len(), R::REFERENCE);
    unseen.len()
}

fn seen<R: Runner>(seed: u64, mut runner: R, fault: Fault) -> bool {
    let mut random = Random::new(seed);
    runner.areas().fault = Some(fault);
    (0..MOST).any(|_| {
        let mut case = draw::list(&mut random);
        case.calls.push(draw::source(&mut random));
        run_one(&mut runner, &case, &mut |_| {}).is_some_and(|difference| difference.wrong.area != "no answer")
    })
}
