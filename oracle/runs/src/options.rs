//! Reads the command line.

pub const USAGE: &str = "run [--seed S] [--tables N]";

pub struct Options {
    pub seed: u64,
    pub tables: u64,
}

pub fn read(mut words: impl Iterator<Item = String>) -> Result<Options, String> {
    let mut options = Options { seed: 1, tables: 40_000 };
    while let Some(option) = words.next() {
        let value = words.next().ok_or_else(|| format!("no value after '{option}'"));
        match option.as_str() {
            "--seed" => options.seed = number(&option, &value?)?,
            "--tables" => options.tables = number(&option, &value?)?,
            _ => return Err(format!("unknown option '{option}'")),
        }
    }
    Ok(options)
}

fn number(option: &str, value: &str) -> Result<u64, String> {
    value.parse().map_err(|_| format!("'{value}' is no number for {option}"))
}
