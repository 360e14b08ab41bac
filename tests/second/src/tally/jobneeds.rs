//! What the random scripts of the gate have to bring out of request d: each of 20
//! to 25 as the only number, for each reason, and any two numbers that can stand
//! together, in every call that gives them.

use super::jobreasons::{pairs, NOT_FIRST, NUMBERS, REST, UNKNOWN_KIND, USED};
use super::needed::{Needs, SOMETIMES};

/// The calls that judge a held job.
const HELD: [&str; 6] = ["step", "run", "total", "store", "list", "room"];

/// The numbers without a syllable.
const BARE: [&str; 6] = ["20", "21", "22", "23", "24", "25"];

impl Needs {
    pub fn wrong_jobs(&mut self) {
        self.unused_fields();
        self.wrong_starts();
        for name in HELD {
            self.wrong_records(name);
        }
        for (reason, _) in REST {
            self.add(SOMETIMES, format!("25 at step: {}", reason.1));
        }
        // Where an image is written no job need be held.
        for name in ["step", "run", "total"] {
            self.add(SOMETIMES, format!("25 at {name}: no job is held"));
        }
        for kind in 1..=4 {
            let (number, why) = NOT_FIRST;
            self.add(SOMETIMES, format!("{number} at total: {why}, kind {kind}"));
        }
        for number in NUMBERS {
            self.add(SOMETIMES, format!("{number} and 10 at room"));
        }
        self.wrong_answers();
    }

    /// Starts that are taken with a field that would be refused if it were used.
    fn unused_fields(&mut self) {
        for ((number, why), kinds) in USED {
            for kind in (1..=4).filter(|kind| !kinds.contains(kind)) {
                let name = format!("start: kind {kind} but for {number} {why}");
                self.add(SOMETIMES, name);
            }
        }
    }

    /// The job offered, alone, beside another number, and while one is held, which
    /// is not judged.
    fn wrong_starts(&mut self) {
        self.judging("start");
        for (reason, _) in USED {
            self.add(SOMETIMES, format!("{} at start: {}", reason.0, reason.1));
        }
        self.add(SOMETIMES, "25 at start: a job is held");
        for kind in 1..=4 {
            self.add(
                SOMETIMES,
                format!("25 at start: a job is held, kind {kind}"),
            );
        }
        for held in ["sound", "damaged"] {
            self.add(SOMETIMES, format!("25 at start: a {held} job is held"));
            for number in &NUMBERS[..10] {
                let name = format!("{number} at start: a {held} job is held too");
                self.add(SOMETIMES, name);
            }
        }
        for other in ["a lower", "the same", "a higher"] {
            let name = format!("start: wrong, and the held job with {other} number");
            self.add(SOMETIMES, name);
        }
    }

    fn wrong_records(&mut self, name: &str) {
        self.judging(name);
        for ((number, why), kinds) in REST {
            for kind in kinds {
                self.add(SOMETIMES, format!("{number} at {name}: {why}, kind {kind}"));
            }
        }
    }

    /// What holds for starts and for held jobs alike.
    fn judging(&mut self, name: &str) {
        for number in NUMBERS {
            self.add(SOMETIMES, format!("{name}: refused {number}"));
        }
        for ((number, why), kinds) in USED {
            for kind in kinds {
                self.add(SOMETIMES, format!("{number} at {name}: {why}, kind {kind}"));
            }
        }
        let (number, why) = UNKNOWN_KIND;
        self.add(SOMETIMES, format!("{number} at {name}: {why}"));
        for other in ["wrong as any other", "right as another"] {
            self.add(SOMETIMES, format!("{number} at {name}: {why}, {other}"));
        }
        for (one, other) in pairs() {
            self.add(SOMETIMES, format!("{one} and {other} at {name}"));
        }
        for first in 1..=3 {
            for number in BARE {
                self.add(SOMETIMES, format!("{first} and {number} at {name}"));
            }
        }
    }

    /// The round's calls: show judges X alone. With X above 7 nothing is shown, so
    /// that 11 beside 23 is for F.
    fn wrong_answers(&mut self) {
        self.add(SOMETIMES, "23 at show: X above 7");
        for first in 1..=3 {
            self.add(SOMETIMES, format!("{first} and 23 at show"));
        }
        for name in ["done", "faulty"] {
            self.add(SOMETIMES, format!("23 at {name}: X above 7"));
            self.add(SOMETIMES, format!("23 at {name}: F above 7"));
            self.add(SOMETIMES, format!("24 at {name}: X equal to F"));
            self.add(SOMETIMES, format!("23 and 24 at {name}"));
            self.add(SOMETIMES, format!("23 and 11 at {name}"));
            self.add(SOMETIMES, format!("24 and 11 at {name}"));
            for first in 1..=3 {
                self.add(SOMETIMES, format!("{first} and 23 at {name}"));
                self.add(SOMETIMES, format!("{first} and 24 at {name}"));
            }
        }
    }
}
