//! Repetitions, and of them the least and the median.

use std::time::Instant;

/// Does its work, of a millisecond at most (a script takes longer), and gives how many steps that was.
pub type Measure = fn() -> u64;

/// With the name by which it can be run alone.
pub type Named = (&'static str, Measure);

/// Nanoseconds for a step.
#[derive(Clone, Copy)]
pub struct Figure {
    pub least: f64,
    pub median: f64,
}

impl Figure {
    fn of(mut times: Vec<f64>) -> Self {
        times.sort_by(f64::total_cmp);
        Figure { least: times[0], median: times[times.len() / 2] }
    }

    pub fn written(&self) -> String {
        format!("{} {}", self.least, self.median)
    }

    pub fn read(line: &str) -> Option<Self> {
        let (least, median) = line.split_once(' ')?;
        Some(Figure { least: least.parse().ok()?, median: median.parse().ok()? })
    }
}

/// Each once in every round, in turn; a first round warms up and is not counted.
pub fn take(measures: &[Named], rounds: usize) -> Vec<Figure> {
    let mut times = vec![Vec::new(); measures.len()];
    for round in 0..=rounds {
        for ((_, measure), times) in measures.iter().zip(&mut times) {
            let start = Instant::now();
            let steps = measure();
            let each = start.elapsed().as_nanos() as f64 / steps as f64;
            if round > 0 {
                times.push(each);
            }
        }
        if round % 100 == 0 {
            eprintln!("{round} of {rounds} rounds");
        }
    }
    times.into_iter().map(Figure::of).collect()
}
