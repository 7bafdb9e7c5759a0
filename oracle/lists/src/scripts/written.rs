//! A case as it stands in the list: what it shows, its script, what is printed, and the key of the table at its end
//! where that has one.

use std::io;

use crate::key::Key;
use crate::list::List;
use crate::scripts::player;

/// A script with a word on what it shows.
pub struct Case {
    pub what: String,
    pub script: Vec<u8>,
}

impl Case {
    pub fn new(what: impl Into<String>, script: impl Into<Vec<u8>>) -> Self {
        Case { what: what.into(), script: script.into() }
    }

    pub fn put(&self, list: &mut List) -> io::Result<()> {
        list.put_text(&format!("# {}", self.what))?;
        for line in self.script.split_inclusive(|&byte| byte == b'\n') {
            match line.strip_suffix(b"\n") {
                Some(line) => list.put_text(&marked('>', line))?,
                None => list.put_text(&marked('|', line))?,
            }
        }
        for line in player::play(&self.script).lines() {
            list.put_text(&marked('<', line.as_bytes()))?;
        }
        let key = player::table_at_end(&self.script).map_or(Key::NONE, |table| Key::of(&table));
        if key != Key::NONE {
            list.put_text(&format!("@ {key}"))?;
        }
        list.put_text("")
    }
}

/// A mark, and a space and the text where there is any.
fn marked(mark: char, text: &[u8]) -> String {
    let space = if text.is_empty() { "" } else { " " };
    format!("{mark}{space}{}", escaped(text))
}

/// From this many equal bytes on, a count stands for them.
const LONG: usize = 64;

/// Printable ASCII stands for itself, but for a backslash and a space that leads,
/// ends or follows one. Other bytes are `\xNN`, a long run of one byte `\COUNTxNN`.
fn escaped(text: &[u8]) -> String {
    let mut out = String::new();
    let mut at = 0;
    for run in text.chunk_by(|one, next| one == next) {
        let lone = run.len() == 1 && at > 0 && at + 1 < text.len();
        out.push_str(&escaped_run(run[0], run.len(), lone));
        at += run.len();
    }
    out
}

/// A run of one byte. A lone space has other bytes on both sides.
fn escaped_run(byte: u8, count: usize, lone: bool) -> String {
    let plain = byte.is_ascii_graphic() && byte != b'\\' || byte == b' ' && lone;
    if count >= LONG {
        format!("\\{count}x{byte:02x}")
    } else if plain {
        char::from(byte).to_string().repeat(count)
    } else {
        format!("\\x{byte:02x}").repeat(count)
    }
}

#[cfg(test)]
mod tests {
    use super::{escaped, marked};

    #[test]
    fn what_cannot_be_seen_is_written_as_a_number() {
        assert_eq!(escaped(b"b 10\r"), "b 10\\x0d");
        assert_eq!(escaped(b" b  1 "), "\\x20b\\x20\\x201\\x20");
        assert_eq!(escaped(b"\\"), "\\x5c");
        assert_eq!(escaped(&[b'0'; 70]), "\\70x30");
        assert_eq!(marked('>', b""), ">");
    }
}
