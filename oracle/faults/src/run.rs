//! A run of `record` that may be killed.

use std::fs::File;
use std::io::{BufRead, BufReader, Read};
use std::os::unix::process::CommandExt;
use std::path::Path;
use std::process::{Child, Command, Stdio};
use std::thread::sleep;
use std::time::{Duration, Instant};

use crate::journal::Journal;

pub struct Run {
    child: Child,
    begun: Instant,
}

/// What was told, and how long it took to the first line and to the end.
pub struct Ended {
    pub told: String,
    pub first: Duration,
    pub whole: Duration,
}

impl Run {
    /// In a group of its own, so that wrapper and program are killed together.
    pub fn start(journal: &Journal, card: &Path, script: &Path) -> Result<Self, String> {
        let input = File::open(script).map_err(|e| format!("{}: {e}", script.display()))?;
        let mut command = journal.command();
        command.arg("record").arg(card).stdin(input);
        command.stdout(Stdio::piped()).stderr(Stdio::null()).process_group(0);
        let begun = Instant::now();
        let child = command.spawn().map_err(|e| format!("record is not started: {e}"))?;
        Ok(Run { child, begun })
    }

    pub fn kill_after(&self, time: Duration) -> Result<(), String> {
        sleep(time.saturating_sub(self.begun.elapsed()));
        let group = format!("-{}", self.child.id());
        // one that has ended is still there until it is waited for
        let killed = Command::new("kill").args(["-9", "--", &group]).output();
        killed.map(drop).map_err(|e| format!("kill: {e}"))
    }

    /// Its output ends when the wrapper and the program have both ended.
    pub fn end(mut self) -> Result<Ended, String> {
        let out = self.child.stdout.take().ok_or("record has no standard output")?;
        let (mut out, mut told) = (BufReader::new(out), String::new());
        out.read_line(&mut told).map_err(|e| format!("what record tells: {e}"))?;
        let first = self.begun.elapsed();
        out.read_to_string(&mut told).map_err(|e| format!("what record tells: {e}"))?;
        let status = self.child.wait().map_err(|e| format!("record: {e}"))?;
        match status.code() {
            // None where it was killed
            None | Some(0) => Ok(Ended { told, first, whole: self.begun.elapsed() }),
            Some(other) => Err(format!("record ends by itself, with {other}")),
        }
    }
}
