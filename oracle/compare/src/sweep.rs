//! Every amount there is, 4,294,967,296 of them, bet on one table by both sides.

mod bettor;
mod tables;

use std::sync::Mutex;
use std::sync::atomic::{AtomicU64, Ordering};
use std::time::{Duration, Instant};

use lists::step::Step;

use crate::differing::step_told;
use crate::tally::grouped;
use bettor::{ANSWERS, Bettor};
use tables::{TABLES, Telling};

/// A thread takes so many amounts at a time.
const CHUNK: u64 = 1 << 20;
const ALL: u64 = 1 << 32;

pub fn list() {
    let lines =
        TABLES.iter().zip(1..).map(|(table, number)| format!("{number:2}  {}\n", table.name));
    print!("{}", lines.collect::<String>());
}

/// What all threads share; the amount of the first difference, or none.
struct Shared {
    next: AtomicU64,
    counts: Mutex<[u64; ANSWERS]>,
    different: Mutex<Option<u32>>,
}

/// True where no amount makes a difference.
pub fn run(number: usize, is_forced: bool, threads: usize) -> Result<bool, String> {
    let table = number.checked_sub(1).and_then(|at| TABLES.get(at));
    let table = table.ok_or_else(|| format!("there are tables 1 to {}", TABLES.len()))?;
    let kind = if is_forced { "forced" } else { "voluntary" };
    println!("every amount, {kind}, on table {number}: {}, threads: {threads}", table.name);
    let shared = Shared {
        next: AtomicU64::new(0),
        counts: Mutex::new([0; ANSWERS]),
        different: Mutex::default(),
    };
    let start = Instant::now();
    std::thread::scope(|scope| {
        let workers: Vec<_> =
            (0..threads).map(|_| scope.spawn(|| chunks(&shared, table, is_forced))).collect();
        let mut told = Instant::now();
        while workers.iter().any(|worker| !worker.is_finished()) {
            std::thread::sleep(Duration::from_millis(50));
            if told.elapsed() >= Duration::from_secs(10) {
                told = Instant::now();
                let done = shared.next.load(Ordering::Relaxed).min(ALL);
                eprintln!("{} s: {} amounts", start.elapsed().as_secs(), grouped(done));
            }
        }
    });
    tell(&shared, table, is_forced, start.elapsed().as_secs_f64());
    Ok(shared.different.into_inner().expect("no thread failed").is_none())
}

fn tell(shared: &Shared, table: &Telling, is_forced: bool, took: f64) {
    let counts = shared.counts.lock().expect("no thread failed");
    for (answer, &count) in counts.iter().enumerate().filter(|&(_, &count)| count > 0) {
        match answer {
            0 => println!("taken       {}", grouped(count)),
            number => println!("refused {number:2}  {}", grouped(count)),
        }
    }
    let all: u64 = counts.iter().sum();
    println!("{} amounts in {took:.1} s, {:.1} ns for each", grouped(all), took * 1e9 / all as f64);
    match *shared.different.lock().expect("no thread failed") {
        None => println!("no difference"),
        Some(bits) => {
            let amount = f32::from_bits(bits);
            println!("DIFFERENT at the amount {amount} ({bits:08x})");
            let step = if is_forced { Step::Forced(amount) } else { Step::Bet(amount) };
            println!("{}", step_told(&table.table(), &step).told);
        }
    }
}

fn chunks(shared: &Shared, table: &Telling, is_forced: bool) {
    let mut bettor = Bettor::at(&table.table(), is_forced);
    loop {
        let from = shared.next.fetch_add(CHUNK, Ordering::Relaxed);
        if from >= ALL {
            break;
        }
        let last = (from + CHUNK - 1) as u32;
        let different = bettor.bet_all(from as u32..=last);
        if let Some(bits) = different {
            shared.next.store(ALL, Ordering::Relaxed);
            let mut first = shared.different.lock().expect("no thread failed");
            *first = Some(first.map_or(bits, |other| other.min(bits)));
            break;
        }
    }
    let mut counts = shared.counts.lock().expect("no thread failed");
    counts.iter_mut().zip(bettor.counts).for_each(|(count, more)| *count += more);
}
