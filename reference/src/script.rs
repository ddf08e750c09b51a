//! Scripts: calls on a sheet, one command a line, each with its answer.
//!
//! ```text
//! load S strict TEXT           ok
//! load S tangled TEXT          ok
//! draw S, clear S              ok
//! stage S                      ok empty, ok loaded V E, ok drawn V E P
//! line S n [BUF]               ok LENGTH LINE, without its LF; BUF is the length of the buffer, else it is long enough
//! lines S                      line 0, line 1, .. up to and with the refusal
//! text S n [BUF], texts S      the same of the plan text as it was read
//! mark S n                     ok box X Y HALF-WIDTH, ok bend X Y, ok line X Y X Y; X with one decimal
//! marks S                      mark 0, mark 1, .. up to and with the refusal
//! walk l TEXT                  ok clear N, ok crossed N: the walk along level l of the text, and how many it took
//! placerun ..                  ok and the positions
//! poke S ..                    ok; a poked segment has rating 1 if none is said
//! ```
//!
//! A refused call answers `refused N`, a line in any other form `unknown`. Words have single spaces between; TEXT goes to
//! the end of its line. Empty lines and lines that begin with `#` are passed over. S is the sheet, of which there is one.

use crate::marks::Mark;
use crate::sheet::{Sheet, MAX_LINE};
use crate::walk::{self, Walk};
use crate::words::{number, unescaped};
use crate::{poke, refusal, run_line, Refusal};

/// The answers to a script, a line each.
pub fn answers(script: &[u8]) -> Vec<u8> {
    let mut run = Script::new();
    let lines = script.strip_suffix(b"\n").unwrap_or(script).split(|&byte| byte == b'\n');
    lines.flat_map(|line| run.answers(line)).flat_map(|answer| (answer + "\n").into_bytes()).collect()
}

/// What the commands so far have left.
#[derive(Clone, Debug)]
pub struct Script {
    /// The sheet.
    pub sheet: Sheet,
}

impl Script {
    /// With an empty sheet.
    #[allow(clippy::new_without_default)]
    pub fn new() -> Self {
        Script { sheet: Sheet::empty() }
    }

    /// Does what a line says, and gives the answers: none to an empty line or a remark, several to `lines` and `marks`, else
    /// one.
    pub fn answers(&mut self, line: &[u8]) -> Vec<String> {
        if line.is_empty() || line.starts_with(b"#") {
            return Vec::new();
        }
        self.command(line).unwrap_or_else(|| vec!["unknown".to_string()])
    }

    /// Does what a command says; none, and nothing done, if it is no command.
    fn command(&mut self, line: &[u8]) -> Option<Vec<String>> {
        if let Some(rest) = line.strip_prefix(b"load ") {
            return self.load(rest).map(|answer| vec![answer]);
        }
        if let Some(rest) = line.strip_prefix(b"walk ") {
            return walked(rest).map(|answer| vec![answer]);
        }
        let words: Vec<&str> = std::str::from_utf8(line).ok()?.split(' ').collect();
        match words[..] {
            ["placerun", ref words @ ..] => {
                Some(vec![said(run_line::answer(words)?.map(|positions| spaced(&positions)))])
            }
            [name, s, ref words @ ..] => call(self.sheet(s)?, name, words),
            _ => None,
        }
    }

    /// `S WAY TEXT`, after the word load.
    fn load(&mut self, rest: &[u8]) -> Option<String> {
        let mut parts = rest.splitn(3, |&byte| byte == b' ');
        let sheet = self.sheet(std::str::from_utf8(parts.next()?).ok()?)?;
        let way = parts.next()?;
        let text = unescaped(parts.next()?)?;
        match way {
            b"strict" => Some(said(sheet.load(&text).map(|()| String::new()))),
            b"tangled" => Some(said(sheet.load_tangled(&text).map(|()| String::new()))),
            _ => None,
        }
    }

    /// The sheet of that number.
    fn sheet(&mut self, number: &str) -> Option<&mut Sheet> {
        (number == "1").then_some(&mut self.sheet)
    }
}

/// `l TEXT`, after the word walk.
fn walked(rest: &[u8]) -> Option<String> {
    let mut parts = rest.splitn(2, |&byte| byte == b' ');
    let level = number(std::str::from_utf8(parts.next()?).ok()?)?;
    let text = unescaped(parts.next()?)?;
    Some(said(walk::of_text(&text, level).map(walk_said)))
}

/// Does what a command on a sheet says: its name, and the words after the sheet's number.
fn call(sheet: &mut Sheet, name: &str, words: &[&str]) -> Option<Vec<String>> {
    let one = match (name, words) {
        ("lines", []) => return Some(each(sheet.lines(), |line| line_said(line))),
        ("texts", []) => return Some(each(sheet.text_lines(), |line| line_said(line))),
        ("marks", []) => return Some(each(sheet.marks(), |mark| mark_said(*mark))),
        ("draw", []) => said(sheet.draw().map(|()| String::new())),
        ("clear", []) => {
            sheet.clear();
            done()
        }
        ("stage", []) => said(Ok(sheet.stage.to_string())),
        ("line", [n]) => line_answer(number(n)?, MAX_LINE, |n, buffer| sheet.line(n, buffer)),
        ("line", [n, room]) => line_answer(number(n)?, number(room)?, |n, buffer| sheet.line(n, buffer)),
        ("text", [n]) => line_answer(number(n)?, MAX_LINE, |n, buffer| sheet.text_line(n, buffer)),
        ("text", [n, room]) => line_answer(number(n)?, number(room)?, |n, buffer| sheet.text_line(n, buffer)),
        ("mark", [n]) => said(sheet.mark(number(n)?).map(mark_said)),
        ("poke", words) => {
            poke::poke(sheet, words)?;
            done()
        }
        _ => return None,
    };
    Some(vec![one])
}

// ---------------------------------------------------------------------------------------------------------------------
// Answers

/// `ok` with what there is to say, or the refusal.
fn said(result: Result<String, Refusal>) -> String {
    match result {
        Ok(words) if words.is_empty() => "ok".to_string(),
        Ok(words) => format!("ok {words}"),
        Err(number) => format!("refused {number}"),
    }
}

/// The answer to what is never refused and has nothing to say.
fn done() -> String {
    said(Ok(String::new()))
}

/// The answers to a call for 0, 1, .. up to and with the refusal: when all are told, there is no further one.
fn each<T>(all: Result<Vec<T>, Refusal>, say: impl Fn(&T) -> String) -> Vec<String> {
    match all {
        Ok(all) => {
            let told = all.iter().map(|one| said(Ok(say(one))));
            told.chain([said(Err(refusal::NO_SUCH))]).collect()
        }
        Err(number) => vec![said(Err(number))],
    }
}

/// The answer to a call that writes the n-th line to a buffer of that length; no line needs more than the longest.
fn line_answer(n: usize, room: usize, line: impl Fn(usize, &mut [u8]) -> Result<usize, Refusal>) -> String {
    let mut buffer = vec![0; room.min(MAX_LINE)];
    said(line(n, &mut buffer).map(|length| line_said(&buffer[..length])))
}

/// A line's length, its LF included, and the line without it.
fn line_said(line: &[u8]) -> String {
    format!("{} {}", line.len(), String::from_utf8_lossy(line).trim_end_matches('\n'))
}

fn mark_said(mark: Mark) -> String {
    match mark {
        Mark::Box(p, half_width) => format!("box {:.1} {:.0} {:.0}", p.x, p.y, half_width),
        Mark::Bend(p) => format!("bend {:.1} {:.0}", p.x, p.y),
        Mark::Line(p, q) => format!("line {:.1} {:.0} {:.1} {:.0}", p.x, p.y, q.x, q.y),
    }
}

fn walk_said(Walk { is_crossed, taken }: Walk) -> String {
    format!("{} {taken}", if is_crossed { "crossed" } else { "clear" })
}

fn spaced(numbers: &[i64]) -> String {
    numbers.iter().map(i64::to_string).collect::<Vec<_>>().join(" ")
}
