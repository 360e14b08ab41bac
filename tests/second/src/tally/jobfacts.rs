//! What stands before a call that gives one of 20 to 25, and which of it decided.

use super::facts::{selected_of, share_of, Facts};
use super::jobreasons::{
    numbers_of, record_reasons, total_reasons, unused_reasons, used_reasons, NONE_IS_HELD,
    ONE_IS_HELD, UNKNOWN_KIND,
};
use super::reasons::machine_numbers;
use processor::console::Console;
use processor::image::compose;
use processor::jobs::{Job, Span, PRODUCT, SCALED};

impl Facts {
    pub fn before_start(&mut self, console: &Console, fields: &[&[u8]]) {
        let mut scratch = Console::new();
        let line = [&[&b"job"[..]], fields, &[]].concat();
        let job = match record(&mut scratch, line) {
            Some(job) => job,
            None => return,
        };
        let width = console.machine.width;
        self.machine_numbers = machine_numbers(&console.machine);
        self.reasons = used_reasons(&job, width);
        self.kind = Some(job.kind);
        self.unknown_kind(&job, |other| used_reasons(other, width).is_empty());
        if let Some(held) = &console.job {
            self.reasons.push(ONE_IS_HELD);
            self.held = Some(numbers_of(&record_reasons(held, width)));
        }
        self.started(console, &job);
    }

    /// What counts of a job if its start is taken.
    fn started(&mut self, console: &Console, job: &Job) {
        self.hold_back(format!("start: kind {}", job.kind));
        for (number, why) in unused_reasons(job, console.machine.width) {
            self.hold_back(format!("start: kind {} but for {number} {why}", job.kind));
        }
        if job.kind == SCALED || job.kind == PRODUCT {
            self.hold_back(format!(
                "start: kind {} P {}",
                job.kind,
                beside(job.p, job.a)
            ));
            if job.p.width < job.a.width {
                self.hold_back(format!("start: kind {} P narrower than A", job.kind));
            }
        }
        if job.kind == PRODUCT {
            self.hold_back(format!("start: A and B {}", relation(job.a, job.b)));
        }
        if job.a.width == 64 || job.p.width == 63 {
            self.hold_back("start: the widest syllable".to_string());
        }
        let selected = selected_of(&console.machine, job.key, job.care);
        let share = share_of(selected, console.machine.words.len());
        self.hold_back(format!("start: kind {} with {share} selected", job.kind));
    }

    pub fn before_held(&mut self, console: &Console, name: &[u8]) {
        self.machine_numbers = machine_numbers(&console.machine);
        let width = console.machine.width;
        match &console.job {
            Some(job) => {
                self.reasons = match name {
                    b"total" => total_reasons(job, width),
                    _ => record_reasons(job, width),
                };
                self.kind = Some(job.kind);
                self.kind_and_phase = Some((job.kind, job.phase));
                self.unknown_kind(job, |other| record_reasons(other, width).is_empty());
            }
            None if matches!(name, b"step" | b"run" | b"total") => {
                self.reasons.push(NONE_IS_HELD);
            }
            None => {}
        }
    }

    /// An unknown kind: whether every known one would be wrong in its place, or one
    /// of them right.
    fn unknown_kind(&mut self, job: &Job, is_right: impl Fn(&Job) -> bool) {
        if (1..=4).contains(&job.kind) {
            return;
        }
        let right = (1..=4).any(|kind| is_right(&Job { kind, ..*job }));
        self.as_another = Some(if right {
            "right as another"
        } else {
            "wrong as any other"
        });
    }

    /// An output that is too short stands beside what the job is refused for.
    pub fn before_room(&mut self, console: &Console, size: &[u8]) {
        self.before_held(console, b"room");
        let size = std::str::from_utf8(size).ok().and_then(|s| s.parse().ok());
        let length = compose(&console.machine, &console.job).len();
        if size.map_or(false, |size: usize| size < length) {
            self.reasons.push(("10", "no room"));
        }
    }

    pub fn before_show(&mut self, console: &Console, x: &[u8]) {
        self.machine_numbers = machine_numbers(&console.machine);
        if number(x).map_or(false, |x| x > 7) {
            self.reasons.push(("23", "X above 7"));
        }
    }

    pub fn before_answer(&mut self, console: &Console, x: &[u8], f: &[u8], word: &[u8]) {
        let (x, f, word) = match (number(x), number(f), number(word)) {
            (Some(x), Some(f), Some(word)) => (x, f, word),
            _ => return,
        };
        self.machine_numbers = machine_numbers(&console.machine);
        if x > 7 {
            self.reasons.push(("23", "X above 7"));
        }
        if f > 7 {
            self.reasons.push(("23", "F above 7"));
        }
        if x == f {
            self.reasons.push(("24", "X equal to F"));
        }
        let shown = console
            .machine
            .responses
            .iter()
            .position(|r| x < 8 && (r >> x) & 1 == 1);
        if shown.map(|at| at as u64) != Some(word) {
            for number in numbers_of(&self.reasons) {
                self.found.push(format!("numbers {number} and 11 at once"));
            }
            // With X above 7 there is no word that it could be for.
            if x <= 7 {
                self.reasons.push(("11", "another word"));
            }
        }
        match shown {
            None => self
                .found
                .push("answer: when none would be shown".to_string()),
            Some(at) if (at as u64) < word => {
                self.found.push("answer: for a later word".to_string())
            }
            Some(at) if (at as u64) > word => {
                self.found.push("answer: for an earlier word".to_string())
            }
            _ => {}
        }
        if console.job.is_some() {
            self.hold_back("answer: while a job is held".to_string());
        }
    }

    /// Which number was given, and whether it stood alone or beside one other.
    pub fn after_judged(&mut self, name: &str, answer: &str) {
        let given = match answer.strip_prefix("refused ") {
            Some(given) => given.to_string(),
            None => return,
        };
        let numbers = numbers_of(&self.reasons);
        match (self.machine_numbers.as_slice(), numbers.as_slice()) {
            ([], [only]) if given == *only => self.only(name),
            ([], [first, other]) if given == *first => {
                self.found.push(format!("{first} and {other} at {name}"));
            }
            ([first], [other]) if given.split(' ').next() == Some(&first.to_string()) => {
                let fact = format!("{first} and {} at {name}", &other[..2]);
                self.found.push(fact);
            }
            _ => {}
        }
        if self.machine_numbers.is_empty() {
            self.beside_held(&numbers);
        }
    }

    /// The only number, if there is one reason for it.
    fn only(&mut self, name: &str) {
        if let [(number, why)] = self.reasons.as_slice() {
            let fact = format!("{number} at {name}: {why}");
            if (*number, *why) == UNKNOWN_KIND {
                let other = self.as_another.unwrap_or_default();
                self.found.push(format!("{fact}, {other}"));
            } else if let Some(kind) = self.kind {
                self.found.push(format!("{fact}, kind {kind}"));
            }
            self.found.push(fact);
        }
    }

    /// A start while a job is held: what is wrong with the one offered and, though
    /// it isn't judged, with the one held.
    fn beside_held(&mut self, numbers: &[&str]) {
        let held = match &self.held {
            Some(held) => held,
            None => return,
        };
        let state = if held.is_empty() { "sound" } else { "damaged" };
        match numbers {
            ["25"] if self.reasons == [ONE_IS_HELD] => {
                let fact = format!("25 at start: a {state} job is held");
                self.found.push(fact);
            }
            [number, "25"] => {
                let fact = format!("{number} at start: a {state} job is held too");
                self.found.push(fact);
            }
            _ => {}
        }
        if let ([first, ..], Some(other)) = (numbers, held.first()) {
            let other = match other[..2].cmp(&first[..2]) {
                std::cmp::Ordering::Less => "a lower",
                std::cmp::Ordering::Equal => "the same",
                std::cmp::Ordering::Greater => "a higher",
            };
            let fact = format!("start: wrong, and the held job with {other} number");
            self.found.push(fact);
        }
    }
}

fn number(word: &[u8]) -> Option<u64> {
    std::str::from_utf8(word).ok()?.parse().ok()
}

/// The record that a start's fields stand for, at no place.
fn record(scratch: &mut Console, mut line: Vec<&[u8]>) -> Option<Job> {
    let c = line.pop()?;
    line.extend([&b"0"[..], b"0", b"0", c]);
    let text = line.join(&b' ');
    scratch.answer(&processor::line::Line::of(&text));
    scratch.job
}

/// Whether P stands next to A with no bit between.
fn beside(p: Span, a: Span) -> &'static str {
    let ends = |span: Span| u32::from(span.low) + u32::from(span.width);
    if ends(p) == u32::from(a.low) || ends(a) == u32::from(p.low) {
        "touching A"
    } else {
        "apart from A"
    }
}

fn relation(a: Span, b: Span) -> &'static str {
    let ends = |span: Span| u32::from(span.low) + u32::from(span.width);
    if a == b {
        "equal"
    } else if ends(a) <= u32::from(b.low) || ends(b) <= u32::from(a.low) {
        "apart"
    } else {
        "overlapping"
    }
}
