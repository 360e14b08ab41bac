//! What the random scripts of the gate have to bring out, and how often at
//! least, so that no kind of command, refusal or job is there in name only.

use super::comparing::{fate, BESIDE, COMPARING, GAPS, STANDINGS};
use super::meetings::{ASKED, MEETINGS};
use super::reasons::CODE_REASONS;
use super::whyfacts::ANOTHER;
use processor::panel::LINE_NAMES;

/// Least counts: of what is sought out, of what comes beside it, and of what
/// comes now and then.
pub const OFTEN: u64 = 100;
pub const REGULARLY: u64 = 50;
pub const SOMETIMES: u64 = 5;

/// The numbers that each command can be turned down for, but for those of a job.
const REFUSALS: [(&[&str], &[u8]); 10] = [
    (&["pulse", "cells"], &[1, 2, 3, 4, 5, 6, 7]),
    (&["resolve", "tree"], &[1, 2, 3]),
    (&["start", "step", "run", "total"], &[1, 2, 3]),
    (&["show"], &[1, 2, 3, 23]),
    (&["done", "faulty"], &[1, 2, 3, 23, 24, 11]),
    (&["store", "list"], &[1, 2, 3]),
    (&["room"], &[1, 2, 3, 10]),
    (&["resume"], &[9]),
    (&["fit"], &[9, 10]),
    (&["search3", "read3", "write3"], &[1, 2, 3, 4, 12]),
];

/// Commands that are never turned down.
const PLAIN: [&str; 13] = [
    "machine", "lend", "word", "response", "load", "job", "drop", "panel", "cells3", "cell3",
    "select3", "load3", "list3",
];

/// Other things by name.
const NAMED: [&str; 44] = [
    "address: n-1",
    "address: n",
    "address: 2^64-1",
    "add: a carry lost at a syllable's top",
    "add: comp has bits outside mor",
    "search: comp equal to a word",
    "search: comp one bit away from a word",
    "search: none of the selected match",
    "search: some of the selected match",
    "search: all of the selected match",
    "search: one syllable",
    "search: some syllables",
    "search: many syllables",
    "search: a syllable of DontCare",
    "search: a syllable of Exact",
    "search: a syllable of Exact with don't-cares",
    "search: a syllable of Larger",
    "search: a syllable of Larger with don't-cares",
    "search: a syllable of Smaller",
    "search: a syllable of Smaller with don't-cares",
    "search: a syllable of AtLeast",
    "search: a syllable of AtLeast with don't-cares",
    "search: a syllable of AtMost",
    "search: a syllable of AtMost with don't-cares",
    "selected: none",
    "selected: some",
    "selected: all",
    "start: A and B apart",
    "start: A and B equal",
    "start: A and B overlapping",
    "fit: exactly",
    "answer: for an earlier word",
    "answer: for a later word",
    "answer: when none would be shown",
    "answer: while a job is held",
    "round: ended after done answers",
    "round: ended after faulty answers",
    "round: ended after refused answers",
    "round: ended after done, faulty and a stop",
    "line: bad",
    "line: silent",
    "line: over 20,000 bytes",
    "line: with a tab",
    "line: with 17 digits",
];

const RARER: [&str; 23] = [
    "line: of 20,000 bytes",
    "line: with a carriage return",
    "line: with a byte above 7F",
    "line: with spaces first",
    "line: with spaces last",
    "line: with spaces between",
    "line: with leading zeros",
    "line: an empty resume",
    "line: an empty fit",
    "line: last without a newline",
    "line: a command in capitals",
    "fit: words alone too short",
    "fit: responses alone too short",
    "start: the widest syllable",
    "stray: comp alone",
    "stray: sdr alone",
    "stray: sc1 alone",
    "stray: sc2 alone",
    "stray: sc3 alone",
    "stray: mor alone",
    "numbers 23 and 11 at once",
    "numbers 24 and 11 at once",
    "numbers 9 and 10 at once",
];

/// The parts of an image where it can be malformed.
const SECTIONS: [&str; 16] = [
    "the width's count",
    "the width's count, cut off",
    "the width",
    "the width, cut off",
    "the words' count",
    "the words' count, cut off",
    "a word",
    "a word, cut off",
    "the responses' count",
    "the responses' count, cut off",
    "a response, cut off",
    "the job's count",
    "the job's count, cut off",
    "the job",
    "the job, cut off",
    "a byte too many",
];

/// Names in the making.
pub struct Needs(Vec<(String, u64)>);

impl Needs {
    pub fn add(&mut self, least: u64, name: impl Into<String>) {
        self.0.push((name.into(), least));
    }

    /// Every command taken, and turned down for each number it can be but for
    /// those of a job.
    fn commands(&mut self) {
        for (names, numbers) in REFUSALS {
            for name in names {
                self.add(OFTEN, format!("{name}: accepted"));
                for number in numbers {
                    self.add(SOMETIMES, format!("{name}: refused {number}"));
                }
            }
        }
        for name in PLAIN {
            self.add(OFTEN, format!("{name}: accepted"));
        }
    }

    /// On both machines: every line and every pair taken, every width, every
    /// number of words up to 40, and 1,023 and 1,024.
    fn pulses(&mut self) {
        for way in ["pulse", "cells"] {
            for (first, name) in LINE_NAMES.iter().enumerate() {
                self.add(OFTEN, format!("{way}: {name}"));
                for other in LINE_NAMES[first + 1..]
                    .iter()
                    .filter(|o| **o != "complement")
                {
                    self.add(OFTEN, format!("{way}: {name}+{other}"));
                }
            }
            for width in 1..=64 {
                let edge = [1, 2, 7, 8, 31, 32, 33, 63, 64].contains(&width);
                let least = if edge { OFTEN } else { SOMETIMES };
                self.add(least, format!("{way}: width {width}"));
            }
            for n in (1..=40).chain([1023, 1024]) {
                self.add(SOMETIMES, format!("{way}: n {n}"));
            }
        }
        for n in [0, 1023, 1024, 1025] {
            self.add(SOMETIMES, format!("machine: n {n}"));
        }
    }

    /// Pairs of an addressed and a selected line where both meet on a word and
    /// where they don't; what a write and an add ask for where they meet, on
    /// both machines; and every two numbers at once.
    fn meetings(&mut self) {
        for lines in [
            "write+multiwrite",
            "write+multiadd",
            "add+multiwrite",
            "add+multiadd",
            "write+add",
        ] {
            self.add(SOMETIMES, format!("addressed word selected: {lines}"));
            self.add(SOMETIMES, format!("addressed word not selected: {lines}"));
        }
        for way in ["pulse", "cells"] {
            for lines in MEETINGS {
                self.add(OFTEN, format!("{way}: {lines} meet"));
                for what in ASKED {
                    self.add(SOMETIMES, format!("{way}: {lines} meet: {what}"));
                }
            }
        }
        for first in 1..=7 {
            for other in first + 1..=7 {
                self.add(SOMETIMES, format!("numbers {first} and {other} at once"));
            }
        }
    }

    /// On both machines: every way to compare over every width of a syllable;
    /// words at its edge that are taken or left by that syllable alone, with
    /// and without don't-care bits where they differ; don't-care bits at every
    /// place among the others; and the ways side by side in one word.
    fn comparing(&mut self) {
        for way in ["pulse", "cells"] {
            for (name, taken) in COMPARING {
                for width in 1..=64 {
                    self.add(SOMETIMES, format!("{way}: {name} over {width} bits"));
                }
                for (standing, taken) in STANDINGS.iter().zip(taken) {
                    let (head, fate) = (format!("{way}: {name}: {standing}"), fate(taken));
                    self.add(OFTEN, format!("{head} {fate}"));
                    self.add(OFTEN, format!("{head} but for don't-cares {fate}"));
                }
                for gap in GAPS {
                    self.add(OFTEN, format!("{way}: {name} with don't-cares {gap}"));
                }
            }
            for (one, other) in BESIDE {
                self.add(REGULARLY, format!("{way}: {one} beside {other}"));
            }
        }
    }

    /// On both machines: every reason for number 5 as the only one, and any two
    /// of them as the only two; and number 4 for SC3 alone, with a search and
    /// without.
    fn wrong_codes(&mut self) {
        for way in ["pulse", "cells"] {
            for (first, reason) in CODE_REASONS.iter().enumerate() {
                self.add(REGULARLY, format!("{way}: 5 for {reason} alone"));
                for other in &CODE_REASONS[first + 1..] {
                    self.add(SOMETIMES, format!("{way}: 5 for {reason} and {other}"));
                }
            }
            self.add(SOMETIMES, format!("{way}: sc3 alone stray with search"));
            self.add(SOMETIMES, format!("{way}: sc3 alone stray without search"));
        }
    }

    /// Every kind of job started, stepped at each phase to and past its end,
    /// run from each phase, told its total and read from an image.
    fn jobs(&mut self) {
        for kind in 1..=4 {
            let extreme = kind <= 2;
            let first = if extreme { 0 } else { 1 };
            self.add(OFTEN, format!("start: kind {kind}"));
            for share in ["none", "some", "all"] {
                self.add(
                    SOMETIMES,
                    format!("start: kind {kind} with {share} selected"),
                );
            }
            self.add(OFTEN, format!("total: kind {kind} phase {first}"));
            self.add(SOMETIMES, format!("step: kind {kind} phase 2 ended"));
            for phase in first..=2 {
                self.add(SOMETIMES, format!("step: kind {kind} phase {phase} held"));
                self.add(SOMETIMES, format!("run: kind {kind} phase {phase}"));
                self.add(SOMETIMES, format!("read: kind {kind} phase {phase}"));
            }
            if extreme {
                self.add(SOMETIMES, format!("step: kind {kind} phase 1 ended"));
            } else {
                self.add(SOMETIMES, format!("start: kind {kind} P touching A"));
                self.add(SOMETIMES, format!("start: kind {kind} P narrower than A"));
            }
        }
    }

    fn images(&mut self) {
        self.add(OFTEN, "read: no job");
        for section in SECTIONS {
            self.add(SOMETIMES, format!("resume: 9 in {section}"));
        }
    }
}

/// Every count that may not be missing, and its least value.
pub fn needed() -> Vec<(String, u64)> {
    let mut needs = Needs(Vec::new());
    needs.commands();
    needs.pulses();
    needs.meetings();
    needs.comparing();
    needs.wrong_codes();
    needs.jobs();
    needs.wrong_jobs();
    needs.images();
    needs.array();
    needs.why();
    for name in NAMED {
        needs.add(OFTEN, name);
    }
    for name in RARER {
        needs.add(SOMETIMES, name);
    }
    needs.0
}

/// What may not come: an answer to `why` that isn't the one found from document 01.
pub fn unwanted() -> [&'static str; 1] {
    [ANOTHER]
}
