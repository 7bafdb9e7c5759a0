//! How far a trial has come, on standard error.

/// Told after each tenth of a trial.
pub fn tell(trial: &str, tried: usize, all: usize) {
    let step = all.div_ceil(10);
    if tried > 0 && tried % step == 0 {
        eprintln!("{trial}: {tried} of {all}");
    }
}
