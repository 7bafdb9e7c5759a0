//! One thing alone, a given number of times, for whoever counts instructions: two runs differ by the steps that one does more than
//! the other.

use std::process::ExitCode;

use crate::figures::Named;

/// Does what the words name, and tells how many steps that was.
pub fn run(all: &[Named], mut words: impl Iterator<Item = String>) -> ExitCode {
    let mut word = || words.next().unwrap_or_default();
    match steps(all, &word(), &word()) {
        Some(steps) => {
            println!("{steps}");
            ExitCode::SUCCESS
        }
        None => {
            let names: Vec<&str> = all.iter().map(|(name, _)| *name).collect();
            eprintln!("bench: --count WHAT TIMES, where WHAT is one of {}", names.join(" "));
            ExitCode::from(2)
        }
    }
}

fn steps(all: &[Named], what: &str, times: &str) -> Option<u64> {
    let (_, measure) = all.iter().find(|(name, _)| *name == what)?;
    let times: u64 = times.parse().ok()?;
    Some((0..times).map(|_| measure()).sum())
}

#[cfg(test)]
mod tests {
    use super::steps;
    use crate::{ours, the_rust};

    #[test]
    fn one_thing_is_done_so_often() {
        let all = [("one", (|| 1) as fn() -> u64), ("two", || 2)];
        assert_eq!(steps(&all, "two", "3"), Some(6));
        assert_eq!(steps(&all, "one", "0"), Some(0));
        assert_eq!(steps(&all, "three", "1"), None);
        assert_eq!(steps(&all, "one", ""), None);
    }

    #[test]
    fn each_thing_has_a_name_of_its_own() {
        let mut names: Vec<&str> =
            [the_rust(), ours()].concat().iter().map(|(name, _)| *name).collect();
        names.sort();
        let count = names.len();
        names.dedup();
        assert_eq!(names.len(), count);
    }
}
