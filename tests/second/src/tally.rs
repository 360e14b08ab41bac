//! What random scripts bring out, counted, so that no kind of thing is missing
//! unseen. The counts are of what happened on the second program.

use crate::tally::facts::Facts;
use crate::tally::picked::Picked;
use processor::array::Array;
use processor::console::Console;
use processor::line::{read_line, Line, LONGEST};
use processor::machine::Machine;
use std::collections::BTreeMap;

mod arrayfacts;
mod arrayneeds;
mod comparing;
mod facts;
mod jobfacts;
mod jobneeds;
pub mod jobreasons;
mod meetings;
mod needed;
mod picked;
mod reasons;
mod whyfacts;
mod whyneeds;
mod whyparts;

pub use needed::{needed, unwanted};

/// A round on its way: its X, and what has happened in it.
#[derive(Default)]
struct Round {
    x: Vec<u8>,
    done: u64,
    faulty: u64,
    refused: u64,
    stops: u64,
}

/// What went before on the array and beside it.
#[derive(Default)]
struct Course {
    /// The last operation taken since the array was made.
    operation: Option<String>,
    /// Whether a machine was made or read since the array was listed.
    machine_made: bool,
    /// Whether an array was made since the machine was stored.
    array_made: bool,
}

#[derive(Default)]
pub struct Tally {
    pub counts: BTreeMap<String, u64>,
    pub commands: u64,
    round: Option<Round>,
    course: Course,
    /// What is on its way to be held against a search.
    picked: Option<Picked>,
}

impl Tally {
    /// Counts what a whole script brings out.
    pub fn script(&mut self, script: &[u8]) {
        let mut console = Console::new();
        let mut input = script;
        self.round = None;
        self.course = Course::default();
        self.picked = None;
        while let Ok(Some(line)) = read_line(&mut input) {
            self.line(&mut console, &line);
        }
        if !script.ends_with(b"\n") {
            self.count("line: last without a newline");
        }
    }

    fn count(&mut self, what: impl Into<String>) {
        *self.counts.entry(what.into()).or_insert(0) += 1;
    }

    fn line(&mut self, console: &mut Console, line: &Line) {
        for form in forms(line) {
            self.count(format!("line: {form}"));
        }
        let words = line.words();
        let mut facts = Facts::default();
        if !line.too_long {
            facts.before(console, &words);
        }
        let answer = match console.answer(line) {
            Some(answer) => answer,
            None => {
                self.follow_comment(&line.bytes);
                return self.count("line: silent");
            }
        };
        self.commands += 1;
        if !line.too_long {
            facts.after(console, &words, &answer);
        }
        for fact in facts.found {
            self.count(fact);
        }
        self.verdict(&words, &answer);
        self.follow_round(&words, &answer);
        self.follow_operations(&words, &answer);
        self.follow_both(console, &words, &answer);
        self.follow_picked(&words, &answer);
    }

    /// The command's name and how it went.
    fn verdict(&mut self, words: &[&[u8]], answer: &str) {
        let head: Vec<&str> = answer.split(' ').collect();
        let name = String::from_utf8_lossy(words.first().unwrap_or(&&b""[..])).into_owned();
        match head.as_slice() {
            ["bad", ..] => self.count("line: bad"),
            ["refused", "20" | "21" | "22", _] => {
                self.count(answer);
                self.count(format!("{name}: {answer}"));
            }
            ["refused", number, ..] => {
                self.count(format!("refused {number}"));
                self.count(format!("{name}: refused {number}"));
            }
            _ => self.count(format!("{name}: accepted")),
        }
    }

    /// A round from its first shown word to the answer none.
    fn follow_round(&mut self, words: &[&[u8]], answer: &str) {
        let mut round = self.round.take().unwrap_or_default();
        match words {
            [b"machine", ..] => round = Round::default(),
            [b"show", x] if answer == "none" && round.x == *x => {
                self.end_round(&round);
                return;
            }
            [b"show", x] if answer.starts_with("word") && round.x != *x => {
                round = Round {
                    x: x.to_vec(),
                    ..Round::default()
                };
            }
            [b"done", x, ..] if round.x == *x && answer == "ok" => round.done += 1,
            [b"faulty", x, ..] if round.x == *x && answer == "ok" => round.faulty += 1,
            [b"done" | b"faulty", x, ..] if round.x == *x => round.refused += 1,
            [b"resume", ..] if answer == "ok" => round.stops += 1,
            _ => {}
        }
        self.round = Some(round).filter(|round| !round.x.is_empty());
    }

    /// Operations of the array one after the other.
    fn follow_operations(&mut self, words: &[&[u8]], answer: &str) {
        match words {
            [b"cells3", ..] if answer == "ok" => self.course.operation = None,
            [command @ (b"search3" | b"read3" | b"write3"), ..] if answer.starts_with("count") => {
                let name = String::from_utf8_lossy(command).into_owned();
                if let Some(last) = self.course.operation.replace(name.clone()) {
                    self.count(format!("{name}: after {last}"));
                }
            }
            _ => {}
        }
    }

    /// Commands of the array and of the machine between each other: "no command
    /// of the one changes the other".
    fn follow_both(&mut self, console: &Console, words: &[&[u8]], answer: &str) {
        let (machine, array) = (&console.machine, &console.array);
        let course = &mut self.course;
        match words {
            [b"machine" | b"resume" | b"fit", ..] if answer == "ok" => {
                course.machine_made = true;
            }
            [b"cells3", ..] if answer == "ok" => course.array_made = true,
            [b"list3"] => {
                let blank = Array::blank(array.width, array.ones.len());
                if std::mem::take(&mut course.machine_made) && *array != blank {
                    self.count("list3: after a machine was made or read");
                }
            }
            [b"store"] => {
                let blank = Machine::blank(machine.width, machine.words.len());
                if std::mem::take(&mut course.array_made) && *machine != blank {
                    self.count("store: after an array was made");
                }
            }
            _ => {}
        }
    }

    fn end_round(&mut self, round: &Round) {
        self.count("round: ended");
        let happened = [
            ("done answers", round.done),
            ("faulty answers", round.faulty),
            ("refused answers", round.refused),
            ("stops", round.stops),
        ];
        for (what, times) in happened {
            if times > 0 {
                self.count(format!("round: ended after {what}"));
            }
        }
        if round.done > 0 && round.faulty > 0 && round.stops > 0 {
            self.count("round: ended after done, faulty and a stop");
        }
    }
}

/// The forms a line has that its answer may hang on.
fn forms(line: &Line) -> Vec<&'static str> {
    let bytes = &line.bytes;
    let words = line.words();
    let digits = |word: &&[u8]| word.iter().all(u8::is_ascii_hexdigit);
    let held = [
        ("over 20,000 bytes", line.too_long),
        ("of 20,000 bytes", bytes.len() == LONGEST && !line.too_long),
        ("with a tab", bytes.contains(&b'\t')),
        ("with a carriage return", bytes.contains(&b'\r')),
        (
            "with a byte above 7F",
            bytes.iter().any(|byte| *byte > 0x7F),
        ),
        ("with spaces first", bytes.starts_with(b" ")),
        ("with spaces last", bytes.ends_with(b" ")),
        (
            "with spaces between",
            bytes.windows(2).any(|pair| pair == b"  "),
        ),
        (
            "with 16 digits",
            words.iter().any(|w| w.len() == 16 && digits(w)),
        ),
        (
            "with 17 digits",
            words.iter().any(|w| w.len() == 17 && digits(w)),
        ),
        (
            "with leading zeros",
            words.iter().any(|w| w.starts_with(b"00")),
        ),
        ("a comment", bytes.starts_with(b"#")),
        ("without a word", !line.has_word),
        ("an empty resume", words == [b"resume"]),
        ("an empty fit", words.len() == 3 && words[0] == b"fit"),
        (
            "a command in capitals",
            bytes.first().map_or(false, u8::is_ascii_uppercase),
        ),
    ];
    held.iter()
        .filter(|(_, so)| *so)
        .map(|(name, _)| *name)
        .collect()
}
