//! Reads the command line.

use std::path::PathBuf;

use lists::kinds::{KINDS, Kind};

pub struct Options {
    pub kind: &'static Kind,
    pub seed: u64,
    pub count: u64,
    pub out: Option<PathBuf>,
}

pub fn usage() -> String {
    let names: Vec<&str> = KINDS.iter().map(|kind| kind.name).collect();
    format!("list KIND [--seed S] [--count N] [--out FILE]\nkinds: {}", names.join(" "))
}

pub fn read(mut words: impl Iterator<Item = String>) -> Result<Options, String> {
    let name = words.next().ok_or("no kind given")?;
    let kind = KINDS.iter().find(|kind| kind.name == name);
    let kind = kind.ok_or_else(|| format!("unknown kind '{name}'"))?;
    let mut options = Options { kind, seed: 1, count: kind.count, out: None };
    while let Some(option) = words.next() {
        let value = words.next().ok_or_else(|| format!("no value after '{option}'"));
        match option.as_str() {
            "--seed" => options.seed = number(&option, &value?)?,
            "--count" => options.count = count(kind, &option, &value?)?,
            "--out" => options.out = Some(PathBuf::from(value?)),
            _ => return Err(format!("unknown option '{option}'")),
        }
    }
    Ok(options)
}

fn count(kind: &Kind, option: &str, value: &str) -> Result<u64, String> {
    match (value, kind.all) {
        ("all", Some(all)) => Ok(all),
        _ => number(option, value),
    }
}

fn number(option: &str, value: &str) -> Result<u64, String> {
    value.parse().map_err(|_| format!("'{value}' is no number for {option}"))
}
