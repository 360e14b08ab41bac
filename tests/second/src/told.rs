//! A script as the second program plays it: every command with its answer, and
//! how another program's output is held against them.

use processor::choices::COMMANDS;
use processor::console::Console;
use processor::line::{read_line, Line};

/// Whose a line is: the array's, if its first word is one of the array's, and
/// the machine's whatever else it is.
#[derive(Clone, Copy)]
pub enum Side {
    Machine,
    Array,
}

/// A line of the script, its number from 1, whose it is, and what it answers;
/// nothing for a line that prints nothing.
pub struct Told {
    pub number: usize,
    pub line: Vec<u8>,
    pub side: Side,
    pub answer: Option<String>,
}

/// How much of a line or an answer is shown.
const SHOWN: usize = 300;

/// The whole script on the second program.
pub fn tell(script: &[u8]) -> Vec<Told> {
    let mut console = Console::new();
    let mut rest = script;
    let mut told = Vec::new();
    loop {
        let start = rest;
        let line: Line = match read_line(&mut rest) {
            Ok(Some(line)) => line,
            _ => return told,
        };
        let bytes = &start[..start.len() - rest.len()];
        told.push(Told {
            number: told.len() + 1,
            line: bytes.to_vec(),
            side: side_of(bytes),
            answer: console.answer(&line),
        });
    }
}

/// By the first word of the line, however long the line is.
fn side_of(line: &[u8]) -> Side {
    let mut words = line.split(|byte| matches!(byte, b' ' | b'\n'));
    match words.find(|word| !word.is_empty()) {
        Some(first) if COMMANDS.contains(&first) => Side::Array,
        _ => Side::Machine,
    }
}

impl Told {
    /// How many lines the answer has.
    pub fn answer_lines(&self) -> usize {
        let lines = |answer: &String| answer.matches('\n').count() + 1;
        self.answer.as_ref().map_or(0, lines)
    }

    /// The line given to the program that it isn't for: a bad one there.
    pub fn on_the_other_side(&self) -> Told {
        Told {
            number: self.number,
            line: self.line.clone(),
            side: match self.side {
                Side::Machine => Side::Array,
                Side::Array => Side::Machine,
            },
            answer: self.answer.as_ref().map(|_| "bad line".to_string()),
        }
    }
}

/// How many commands were answered.
pub fn commands(told: &[Told]) -> usize {
    told.iter().filter(|line| line.answer.is_some()).count()
}

/// Holds an output against the answers told. The first difference is given
/// with its script line and both answers.
pub fn hold(told: &[Told], output: &[u8]) -> Result<(), String> {
    let mut rest = output;
    for line in told {
        let answer = match &line.answer {
            Some(answer) => answer,
            None => continue,
        };
        let ours = format!("{answer}\n");
        match rest.strip_prefix(ours.as_bytes()) {
            Some(after) => rest = after,
            None => return Err(difference(line, ours.as_bytes(), rest)),
        }
    }
    if rest.is_empty() {
        Ok(())
    } else {
        Err(format!(
            "after the last line the board printed\n  {}",
            shown(first_line(rest), 0)
        ))
    }
}

/// The script line and the first line in which the two answers differ.
fn difference(line: &Told, ours: &[u8], theirs: &[u8]) -> String {
    let alike = ours.iter().zip(theirs).take_while(|(a, b)| a == b).count();
    let begin = ours[..alike]
        .iter()
        .rposition(|byte| *byte == b'\n')
        .map_or(0, |at| at + 1);
    format!(
        "line {}: {}\n  second: {}\n  board:  {}",
        line.number,
        shown(line.line.strip_suffix(b"\n").unwrap_or(&line.line), 0),
        shown(first_line(&ours[begin..]), alike - begin),
        shown(
            first_line(theirs.get(begin..).unwrap_or(b"")),
            alike - begin
        )
    )
}

/// Up to the newline, which counts as part of the line if nothing else does.
fn first_line(bytes: &[u8]) -> &[u8] {
    bytes.split(|byte| *byte == b'\n').next().unwrap_or(b"")
}

/// A line as text; of a long one, the part around a place.
fn shown(line: &[u8], place: usize) -> String {
    let from = if place + 50 > SHOWN { place - 100 } else { 0 };
    let part: String = String::from_utf8_lossy(&line[from.min(line.len())..])
        .chars()
        .take(SHOWN)
        .collect();
    let before = if from > 0 {
        format!("[from byte {from}] ")
    } else {
        String::new()
    };
    let after = if line.len() > from + SHOWN {
        " [and more]"
    } else {
        ""
    };
    format!("{before}{}{after}", part.escape_debug())
}
