//! Reads the command line.

pub const USAGE: &str = "compare [--seconds N] [--seed S] [--threads T]
compare --sweep N|list [--forced] [--threads T]";

/// What is to be run.
pub enum Run {
    Compare { seconds: u64, seed: u64 },
    Sweep { table: usize, is_forced: bool },
    List,
}

pub struct Options {
    pub run: Run,
    pub threads: usize,
}

pub fn read(mut words: impl Iterator<Item = String>) -> Result<Options, String> {
    let (mut seconds, mut seed, mut sweep, mut is_forced) = (20, 1, None, false);
    let mut threads = std::thread::available_parallelism().map_or(1, usize::from);
    while let Some(option) = words.next() {
        let mut value = || words.next().ok_or_else(|| format!("no value after '{option}'"));
        match option.as_str() {
            "--seconds" => seconds = number(&option, &value()?)?,
            "--seed" => seed = number(&option, &value()?)?,
            "--threads" => threads = number(&option, &value()?)?.max(1) as usize,
            "--sweep" => sweep = Some(value()?),
            "--forced" => is_forced = true,
            _ => return Err(format!("unknown option '{option}'")),
        }
    }
    let run = match sweep.as_deref() {
        None if is_forced => return Err("--forced goes with --sweep".to_string()),
        None => Run::Compare { seconds, seed },
        Some("list") => Run::List,
        Some(text) => Run::Sweep { table: number("--sweep", text)? as usize, is_forced },
    };
    Ok(Options { run, threads })
}

fn number(option: &str, value: &str) -> Result<u64, String> {
    value.parse().map_err(|_| format!("'{value}' is no number for {option}"))
}
