//! The comparison: batches of questions, each with a seed of its own, on as many threads as are asked for.

use std::sync::Mutex;
use std::sync::atomic::{AtomicBool, AtomicU64, Ordering};
use std::time::{Duration, Instant};

use lists::draw::Draw;

use crate::difference::Difference;
use crate::tally::{Tally, grouped};
use crate::{builds, floats, rounds, runs, scripts, seats, settle, steps};

type Questions = fn(&mut Draw, &mut Tally) -> Result<(), Box<Difference>>;

/// What a batch asks, and how often; the batches go through these in turn.
const BATCHES: [(Questions, usize); 16] = [
    (seats::pair, 5000),
    (floats::any, 10_000),
    (rounds::sequence, 1500),
    (builds::any, 1500),
    (settle::drawn, 60),
    (scripts::any, 12),
    (runs::any, 4000),
    (steps::hand, 2000),
    (steps::any, 4000),
    (steps::hand, 2000),
    (steps::any, 4000),
    (steps::hand, 2000),
    (steps::any, 4000),
    (steps::hand, 2000),
    (steps::any, 4000),
    (steps::hand, 2000),
];

/// What all threads share.
struct Shared {
    next: AtomicU64,
    stop: AtomicBool,
    tally: Mutex<Tally>,
    found: Mutex<Option<(u64, Box<Difference>)>>,
}

/// True where no difference was found.
pub fn run(seconds: u64, seed: u64, threads: usize) -> bool {
    let shared = Shared {
        next: AtomicU64::new(0),
        stop: AtomicBool::new(false),
        tally: Mutex::default(),
        found: Mutex::default(),
    };
    println!("seed {seed}, {seconds} s, threads: {threads}");
    let start = Instant::now();
    first(&shared);
    std::thread::scope(|scope| {
        for _ in 0..threads {
            scope.spawn(|| batches(&shared, seed));
        }
        watch(&shared, start, Duration::from_secs(seconds));
    });
    let took = start.elapsed().as_secs_f64();
    let tally = shared.tally.into_inner().expect("no thread failed");
    let rate = tally.steps() as f64 / took / 1e6;
    println!("{tally}\n{took:.1} s, {rate:.2} million steps a second");
    match shared.found.into_inner().expect("no thread failed") {
        None => {
            println!("no difference");
            true
        }
        Some((batch, difference)) => {
            println!("DIFFERENT, seed {seed}, batch {batch}\n{}", difference.told);
            false
        }
    }
}

/// What is asked once and whole: every set, the telling floats.
fn first(shared: &Shared) {
    let mut tally = Tally::default();
    let asked = seats::every(&mut tally).and_then(|()| floats::telling(&mut tally));
    report(shared, 0, &tally, asked);
}

fn batches(shared: &Shared, seed: u64) {
    while !shared.stop.load(Ordering::Relaxed) {
        let batch = shared.next.fetch_add(1, Ordering::Relaxed);
        let (questions, count) = BATCHES[batch as usize % BATCHES.len()];
        // One draw of another generator parts the seeds of the batches.
        let mut draw = Draw::new(Draw::new(seed ^ batch.rotate_left(32)).bits());
        let mut tally = Tally::default();
        let asked = (0..count).try_for_each(|_| questions(&mut draw, &mut tally));
        report(shared, batch, &tally, asked);
    }
}

fn report(shared: &Shared, batch: u64, tally: &Tally, asked: Result<(), Box<Difference>>) {
    shared.tally.lock().expect("no thread failed").add(tally);
    if let Err(difference) = asked {
        shared.stop.store(true, Ordering::Relaxed);
        shared.found.lock().expect("no thread failed").get_or_insert((batch, difference));
    }
}

/// Tells how far it is, and stops the others when the time is over.
fn watch(shared: &Shared, start: Instant, time: Duration) {
    let mut told = 0;
    while !shared.stop.load(Ordering::Relaxed) && start.elapsed() < time {
        std::thread::sleep(Duration::from_millis(100));
        let now = start.elapsed().as_secs() / 5;
        if now > told {
            told = now;
            let steps = shared.tally.lock().expect("no thread failed").steps();
            eprintln!("{} s: {} steps, no difference yet", 5 * now, grouped(steps));
        }
    }
    shared.stop.store(true, Ordering::Relaxed);
}
