//! The program behind ./journal, asked, and the files that it is asked about.

use std::fs::{self, File};
use std::path::{Path, PathBuf};
use std::process::{Command, Stdio};

use lists::key::Key;

/// How the program ended, and what it wrote.
pub struct Answer {
    pub status: Option<i32>,
    pub out: String,
    pub err: String,
}

pub struct Journal {
    program: PathBuf,
}

impl Journal {
    /// The command that JOURNAL names. A first call is not looked at: it may build the program, and tells so.
    pub fn named() -> Result<Self, String> {
        let program = std::env::var_os("JOURNAL").ok_or("JOURNAL names no program")?;
        let journal = Journal { program: program.into() };
        journal.list(Path::new("/dev/null")).map(|_| journal)
    }

    /// A command that has no words yet.
    pub fn command(&self) -> Command {
        Command::new(&self.program)
    }

    pub fn list(&self, card: &Path) -> Result<Answer, String> {
        self.ask(self.command().arg("list").arg(card))
    }

    pub fn read(&self, card: &Path, key: Key) -> Result<Answer, String> {
        let words = [key.code.into(), key.year.into(), key.hand].map(|word: u32| word.to_string());
        self.ask(self.command().arg("read").arg(card).args(words))
    }

    pub fn record(&self, card: &Path, script: &Path) -> Result<Answer, String> {
        let input = File::open(script).map_err(|e| format!("{}: {e}", script.display()))?;
        self.ask(self.command().arg("record").arg(card).stdin(input))
    }

    fn ask(&self, command: &mut Command) -> Result<Answer, String> {
        let spawned = command.stdout(Stdio::piped()).stderr(Stdio::piped()).spawn();
        let ended = spawned.and_then(|child| child.wait_with_output());
        let ended = ended.map_err(|e| format!("{}: {e}", self.program.display()))?;
        let text = |bytes: Vec<u8>| String::from_utf8_lossy(&bytes).into_owned();
        Ok(Answer { status: ended.status.code(), out: text(ended.stdout), err: text(ended.stderr) })
    }
}

/// A file of this process alone. It stays where a trial ends before it is removed.
pub struct Scratch {
    pub path: PathBuf,
}

impl Scratch {
    pub fn new(name: &str) -> Self {
        let name = format!("faults-{}-{name}", std::process::id());
        Scratch { path: std::env::temp_dir().join(name) }
    }

    pub fn put(&self, bytes: &[u8]) -> Result<(), String> {
        fs::write(&self.path, bytes).map_err(|e| self.why(&e))
    }

    /// What stands there, or None where no file does.
    pub fn bytes(&self) -> Result<Option<Vec<u8>>, String> {
        self.is_there().then(|| fs::read(&self.path).map_err(|e| self.why(&e))).transpose()
    }

    pub fn remove(&self) -> Result<(), String> {
        if self.is_there() { fs::remove_file(&self.path).map_err(|e| self.why(&e)) } else { Ok(()) }
    }

    fn is_there(&self) -> bool {
        self.path.exists()
    }

    fn why(&self, error: &std::io::Error) -> String {
        format!("{}: {error}", self.path.display())
    }
}
