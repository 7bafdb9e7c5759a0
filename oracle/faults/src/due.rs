//! An answer that is due, and how another one differs from it.

use crate::journal::Answer;

/// The exit status, standard output to the byte, and of each line of standard error the words that it must have.
pub struct Due {
    pub status: i32,
    pub out: String,
    pub says: Vec<Vec<String>>,
}

impl Due {
    /// The first difference.
    pub fn check(&self, asked: &str, answer: &Answer) -> Result<(), String> {
        let differs = self.status_differs(answer);
        let differs = differs.or_else(|| text_differs(&self.out, &answer.out));
        let differs = differs.or_else(|| self.says_differ(answer));
        differs.map_or(Ok(()), |what| Err(format!("{asked}: {what}")))
    }

    fn status_differs(&self, answer: &Answer) -> Option<String> {
        let is_due = answer.status == Some(self.status);
        let ended = answer.status.map_or("by a signal".into(), |status| format!("with {status}"));
        let said = answer.err.trim_end();
        (!is_due).then(|| format!("it ends {ended} and not with {}; it says {said:?}", self.status))
    }

    fn says_differ(&self, answer: &Answer) -> Option<String> {
        let lines: Vec<&str> = answer.err.lines().collect();
        let is_said = |(line, words): (&&str, &Vec<String>)| words.iter().all(|w| says(line, w));
        let all = lines.len() == self.says.len() && lines.iter().zip(&self.says).all(is_said);
        (!all).then(|| format!("it says {:?}; {:?} is to be said", answer.err, self.says))
    }
}

/// Whether a line has these words one after another, whatever else than letters and digits stands between them.
fn says(line: &str, words: &str) -> bool {
    let (line, words) = (split(line), split(words));
    line.windows(words.len()).any(|some| some == words)
}

fn split(text: &str) -> Vec<&str> {
    text.split(|c: char| !c.is_ascii_alphanumeric()).filter(|word| !word.is_empty()).collect()
}

/// The first line that is another, missing, or too many.
pub fn text_differs(due: &str, given: &str) -> Option<String> {
    if due == given {
        return None;
    }
    let (mut of_due, mut of_given) = (due.split_inclusive('\n'), given.split_inclusive('\n'));
    for number in 1.. {
        match (of_due.next(), of_given.next()) {
            (Some(due), Some(given)) if due == given => {}
            (Some(due), Some(given)) => {
                return Some(format!("line {number} that it prints is {given:?} and not {due:?}"));
            }
            (Some(due), None) => {
                return Some(format!("line {number} is not printed, which is due: {due:?}"));
            }
            (None, Some(given)) => return Some(format!("line {number} is too many: {given:?}")),
            (None, None) => break,
        }
    }
    None
}

/// The first byte that is another, or the length. None stands for a file that is not there.
pub fn file_differs(due: Option<&[u8]>, given: Option<&[u8]>) -> Option<String> {
    let (due, given) = match (due, given) {
        (Some(due), Some(given)) => (due, given),
        (None, None) => return None,
        (Some(_), None) => return Some("there is no file".into()),
        (None, Some(_)) => return Some("a file is made".into()),
    };
    let other = due.iter().zip(given).position(|(due, given)| due != given);
    match other {
        Some(at) => Some(format!("byte {at} of the file is {} and not {}", given[at], due[at])),
        None if due.len() == given.len() => None,
        None => Some(format!("the file has {} bytes and not {}", given.len(), due.len())),
    }
}
