//! Where lines go: standard output, or a file that appears only when complete.

use std::fs::{self, File};
use std::io::{self, BufWriter, Write};
use std::path::{Path, PathBuf};

use crate::line::Line;

pub struct List {
    out: BufWriter<Box<dyn Write>>,
    part: Option<Part>,
}

impl List {
    pub fn to_stdout() -> Self {
        List { out: BufWriter::new(Box::new(io::stdout().lock())), part: None }
    }

    pub fn to_file(path: &Path) -> io::Result<Self> {
        let part = Part::beside(path)?;
        let file = File::create(&part.at)?;
        Ok(List { out: BufWriter::new(Box::new(file)), part: Some(part) })
    }

    pub fn put(&mut self, line: Line) -> io::Result<()> {
        self.put_text(line.text())
    }

    pub fn put_all(&mut self, lines: Vec<Line>) -> io::Result<()> {
        lines.into_iter().try_for_each(|line| self.put(line))
    }

    pub fn put_text(&mut self, text: &str) -> io::Result<()> {
        writeln!(self.out, "{text}")
    }

    pub fn finish(mut self) -> io::Result<()> {
        self.out.flush()?;
        self.part.map_or(Ok(()), Part::keep)
    }
}

/// The unfinished file. It is removed unless it is kept.
struct Part {
    at: PathBuf,
    goal: PathBuf,
}

impl Part {
    fn beside(goal: &Path) -> io::Result<Self> {
        // A rename would put a plain file in the place of a folder or a device.
        let plain = fs::metadata(goal).map_or(true, |found| found.is_file());
        let name = goal.file_name().filter(|_| plain);
        let name = name.ok_or_else(|| io::Error::other("not the name of a plain file"))?;
        let unfinished = format!(".{}.{}.part", name.to_string_lossy(), std::process::id());
        Ok(Part { at: goal.with_file_name(unfinished), goal: goal.to_path_buf() })
    }

    fn keep(self) -> io::Result<()> {
        fs::rename(&self.at, &self.goal)
    }
}

impl Drop for Part {
    fn drop(&mut self) {
        // After a rename nothing stands here any more, and that is well.
        let _ = fs::remove_file(&self.at);
    }
}
