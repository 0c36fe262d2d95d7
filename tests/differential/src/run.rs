//! Runs cases in as many threads as there are processors, shows progress, and makes a failing case small.

use std::cell::Cell;
use std::panic::{self, AssertUnwindSafe};
use std::process::exit;
use std::sync::atomic::{AtomicBool, AtomicU64, AtomicUsize, Ordering};
use std::sync::{Arc, Mutex};
use std::thread;
use std::time::{Duration, Instant};

use crate::areas::{Areas, Wrong};
use crate::case::{Call, Case};
use crate::outcome::{grouped, Counts, Difference, Done};
use crate::shrink;

/// What runs cases: the comparison with the Rust, or that with fresh calls.
pub trait Runner {
    /// What the library is compared with.
    const REFERENCE: &'static str;

    /// Takes a case's text and index area.
    fn start(&mut self, case: &Case);

    /// Runs one call of the case, with this note.
    fn compare(&mut self, case: &Case, call: &Call, note: u8) -> Result<Done, Box<Difference>>;

    /// The areas that the library is lent.
    fn areas(&mut self) -> &mut Areas;

    /// Runs a case to its end or to the first difference; hands each call that agrees to `done`.
    fn run(&mut self, case: &Case, done: &mut dyn FnMut(Done)) -> Option<Box<Difference>> {
        self.start(case);
        let mut note = case.note;
        for (i, call) in case.calls.iter().enumerate() {
            match self.compare(case, call, note) {
                Ok(one) => {
                    note = one.note;
                    done(one);
                }
                Err(mut difference) => {
                    difference.call = i;
                    return Some(difference);
                }
            }
        }
        None
    }
}

/// How often progress is shown, and after what time a case counts as one that does not end.
const PROGRESS: Duration = Duration::from_secs(10);
const STUCK: Duration = Duration::from_secs(120);

/// How long a run goes on: a time, and a number of cases that it has at least.
#[derive(Clone, Copy)]
pub struct Until {
    pub time: Duration,
    pub cases: u64,
}

/// The cases that a thread has at hand, and how many it has run in all.
#[derive(Default)]
struct Worker {
    cases: Mutex<Arc<Vec<Case>>>,
    at: AtomicUsize,
    run: AtomicU64,
}

/// Runs cases until then. `batch` gives the next ones of a thread. None, and a report, where one differs.
pub fn run<R: Runner, B: FnMut() -> Vec<Case>>(new: fn() -> R, batch: impl Fn(u64) -> B + Sync, until: Until) -> Option<Counts> {
    let start = Instant::now();
    let stop = AtomicBool::new(false);
    let counts = Mutex::new(Counts::default());
    let failed = Mutex::new(None);
    let threads = thread::available_parallelism().map_or(1, usize::from);
    let workers: Vec<Worker> = (0..threads).map(|_| Worker::default()).collect();
    thread::scope(|scope| {
        let handles: Vec<_> = (0u64..)
            .zip(&workers)
            .map(|(number, worker)| {
                let (stop, counts, failed, batch) = (&stop, &counts, &failed, &batch);
                scope.spawn(move || {
                    let mut next = batch(number);
                    let mut runner = new();
                    while !stop.load(Ordering::Relaxed) && !over(start, &counts.lock().unwrap(), until) {
                        if let Err(failure) = worker.run_batch(&mut runner, next(), counts) {
                            stop.store(true, Ordering::Relaxed);
                            failed.lock().unwrap().get_or_insert(failure);
                        }
                    }
                })
            })
            .collect();
        watch(start, &counts, &workers, |number| handles[number].is_finished());
    });
    let failed = failed.into_inner().unwrap();
    if let Some((case, first)) = failed {
        report(&mut new(), case, &first);
        return None;
    }
    Some(counts.into_inner().unwrap())
}

fn over(start: Instant, counts: &Counts, until: Until) -> bool {
    start.elapsed() >= until.time && counts.cases >= until.cases
}

impl Worker {
    // Runs some cases, and hands back the first that fails with its difference.
    fn run_batch<R: Runner>(&self, runner: &mut R, cases: Vec<Case>, counts: &Mutex<Counts>) -> Result<(), (Case, Box<Difference>)> {
        let cases = Arc::new(cases);
        *self.cases.lock().unwrap() = cases.clone();
        let mut own = Counts::default();
        for (at, case) in cases.iter().enumerate() {
            self.at.store(at, Ordering::Relaxed);
            if let Some(difference) = run_one(runner, case, &mut |done| own.count(&done)) {
                return Err((case.clone(), difference));
            }
            own.cases += 1;
            self.run.fetch_add(1, Ordering::Relaxed);
        }
        counts.lock().unwrap().add(&own);
        Ok(())
    }

    // The case at hand.
    fn case(&self) -> Option<Case> {
        self.cases.lock().unwrap().get(self.at.load(Ordering::Relaxed)).cloned()
    }
}

thread_local! {
    // This thread runs a case.
    static RUNS: Cell<bool> = const { Cell::new(false) };
}

/// From now on what stops a case is not printed where it stops, but with the case.
pub fn keep_quiet() {
    let usual = panic::take_hook();
    panic::set_hook(Box::new(move |why| {
        if !RUNS.get() {
            usual(why);
        }
    }));
}

/// Runs a case; where the reference stops instead of answering, that is a difference too.
pub fn run_one<R: Runner>(runner: &mut R, case: &Case, done: &mut dyn FnMut(Done)) -> Option<Box<Difference>> {
    RUNS.set(true);
    let outcome = panic::catch_unwind(AssertUnwindSafe(|| runner.run(case, done)));
    RUNS.set(false);
    match outcome {
        Ok(difference) => difference,
        Err(why) => {
            let why = why.downcast_ref::<String>().cloned().or_else(|| why.downcast_ref::<&str>().map(|why| why.to_string()));
            let wrong = Wrong { area: "no answer", at: 0, expected: why.unwrap_or_default(), held: "not asked".to_string() };
            Some(Box::new(Difference { call: 0, wrong, expected: Vec::new(), held: Vec::new() }))
        }
    }
}

// Shows progress until all threads are finished; a case that does not end is printed, and ends the program.
fn watch(start: Instant, counts: &Mutex<Counts>, workers: &[Worker], finished: impl Fn(usize) -> bool) {
    let mut shown = start;
    let mut last: Vec<(u64, Instant)> = vec![(0, start); workers.len()];
    while !(0..workers.len()).all(&finished) {
        thread::sleep(Duration::from_millis(50));
        for (number, worker) in workers.iter().enumerate() {
            let run = worker.run.load(Ordering::Relaxed);
            if run != last[number].0 || finished(number) {
                last[number] = (run, Instant::now());
            } else if last[number].1.elapsed() > STUCK {
                println!("differ: DIFFERENCE: a case has not ended in {} s", STUCK.as_secs());
                print!("{}", worker.case().map_or(String::new(), |case| case.shown()));
                exit(1);
            }
        }
        if shown.elapsed() >= PROGRESS {
            shown = Instant::now();
            let counts = counts.lock().unwrap();
            let (cases, calls) = (grouped(counts.cases), grouped(counts.calls));
            println!("differ: {} s, {cases} cases, {calls} calls, no difference", start.elapsed().as_secs());
        }
    }
}

// Prints the smallest failing case that is found: one that differs in the same area. Where the case does not differ again, it is printed as
// it was, with the difference that was seen.
fn report<R: Runner>(runner: &mut R, case: Case, first: &Difference) {
    println!("differ: DIFFERENCE in a case of {} bytes and {} calls", case.text.len(), case.calls.len());
    let mut again = |case: &Case| run_one(runner, case, &mut |_| {}).filter(|difference| difference.wrong.area == first.wrong.area);
    if again(&case).is_some() {
        println!("differ: looking for the smallest");
        let small = shrink::smallest(case.clone(), &mut |case| again(case).is_some());
        if let Some(difference) = again(&small) {
            print!("{}{}", small.shown(), difference.shown(R::REFERENCE));
            return;
        }
    }
    println!("differ: run once more, the case does not differ there again; the case as it was, and the difference that was seen:");
    print!("{}{}", case.shown(), first.shown(R::REFERENCE));
}
