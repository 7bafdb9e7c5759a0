//! Writes lists of the oracle's answers. The format stands in oracle/README.md.

mod options;

use std::io;
use std::process::ExitCode;

use lists::draw::Draw;
use lists::list::List;
use options::Options;

fn main() -> ExitCode {
    let options = match options::read(std::env::args().skip(1)) {
        Ok(options) => options,
        Err(message) => {
            eprintln!("list: {message}\n{}", options::usage());
            return ExitCode::from(2);
        }
    };
    match write(&options) {
        Ok(()) => ExitCode::SUCCESS,
        Err(error) => {
            eprintln!("list: cannot write the list: {error}");
            ExitCode::FAILURE
        }
    }
}

fn write(options: &Options) -> io::Result<()> {
    let mut list = match &options.out {
        Some(path) => List::to_file(path)?,
        None => List::to_stdout(),
    };
    (options.kind.write)(&mut list, &mut Draw::new(options.seed), options.count)?;
    list.finish()
}
