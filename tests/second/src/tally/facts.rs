//! What stands before one command and what comes of it.

use super::jobreasons::Reason;
use super::reasons::{code_reasons, pulse_numbers};
use processor::choices::COMMANDS;
use processor::console::Console;
use processor::image;
use processor::machine::{is_selected, Machine, MOST_WORDS};
use processor::panel::Lines;
use processor::syllable::{code_at, code_of, syllables, Code};

/// Facts found; those held back count only if the command is accepted.
#[derive(Default)]
pub struct Facts {
    pub found: Vec<String>,
    held_back: Vec<String>,
    selected: usize,
    /// What the numbers 1 to 3 and 20 to 25, 10 and 11 have against the call.
    pub machine_numbers: Vec<u8>,
    pub reasons: Vec<Reason>,
    /// The job that is judged: its kind, and an unknown kind's if it were another.
    pub kind: Option<u8>,
    pub as_another: Option<&'static str>,
    /// The numbers of the job held at a start.
    pub held: Option<Vec<&'static str>>,
    pub kind_and_phase: Option<(u8, u8)>,
}

impl Facts {
    pub fn before(&mut self, console: &Console, words: &[&[u8]]) {
        match words {
            [b"pulse" | b"cells", names @ ..] => self.before_pulse(console, words[0], names),
            [b"start", fields @ ..] => self.before_start(console, fields),
            [name @ (b"step" | b"run" | b"total" | b"store" | b"list")] => {
                self.before_held(console, name);
            }
            [b"show", x] => self.before_show(console, x),
            [b"done" | b"faulty", x, f, word] => self.before_answer(console, x, f, word),
            [b"room", size] => self.before_room(console, size),
            [b"fit", room, other, digits] => self.before_fit(room, other, digits),
            [b"search3" | b"read3" | b"write3", ..] => self.before_operation(&console.array, words),
            _ => {}
        }
    }

    /// A fact that counts only if the command is accepted.
    pub fn hold_back(&mut self, fact: String) {
        self.held_back.push(fact);
    }

    pub fn after(&mut self, console: &Console, words: &[&[u8]], answer: &str) {
        let accepted = !answer.starts_with("refused") && answer != "bad line";
        if accepted {
            self.found.append(&mut self.held_back);
        }
        let name = String::from_utf8_lossy(words.first().unwrap_or(&&b""[..])).into_owned();
        self.after_judged(&name, answer);
        match words {
            [b"pulse" | b"cells", names @ ..] if accepted && names.contains(&&b"search"[..]) => {
                self.after_search(answer);
            }
            [b"machine", ..] if accepted => self.after_machine(console),
            [b"step"] if accepted => self.after_step(answer),
            [b"run" | b"total"] if accepted => self.after_run(&name),
            [b"resume", ..] | [b"fit", ..] => self.after_read(console, &name, words, answer),
            [b"cells3", ..] if accepted => self.array_size(&name, &console.array),
            [b"list3"] => self.array_size(&name, &console.array),
            [command, ..] if answer == "bad line" && COMMANDS.contains(command) => {
                self.bad_array_line(&console.array, words);
            }
            [command, ..] if command.to_ascii_lowercase().starts_with(b"why") => {
                self.why_facts(console, words, answer);
            }
            _ => {}
        }
    }

    fn after_machine(&mut self, console: &Console) {
        let n = console.machine.words.len();
        self.found.push(format!("machine: n {n}"));
        self.found
            .push(format!("machine: width {}", console.machine.width));
    }

    fn before_pulse(&mut self, console: &Console, way: &[u8], names: &[&[u8]]) {
        let lines = match lines_of(names) {
            Some(lines) => lines,
            None => return,
        };
        let way = String::from_utf8_lossy(way);
        let (machine, panel) = (&console.machine, &console.panel);
        let numbers = pulse_numbers(machine, panel, lines);
        for (at, first) in numbers.iter().enumerate() {
            for other in &numbers[at + 1..] {
                self.found
                    .push(format!("numbers {first} and {other} at once"));
            }
        }
        if numbers == [4] {
            self.only_stray(&way, console, lines);
        }
        if numbers.first() == Some(&5) {
            self.wrong_codes(&way, console);
        }
        self.held_back.push(format!("{way}: {}", raised(lines)));
        self.held_back
            .push(format!("{way}: width {}", machine.width));
        self.held_back
            .push(format!("{way}: n {}", machine.words.len()));
        self.selected = selected_of(machine, panel.key, panel.care);
        let share = share_of(self.selected, machine.words.len());
        self.held_back.push(format!("selected: {share}"));
        if numbers.is_empty() {
            self.address_facts(console, lines);
            if lines.search {
                self.search_facts(console);
                self.comparing_facts(&way, console);
            }
            if lines.add || lines.multiadd {
                self.add_facts(console);
                let pulse = format!("{way}: {}", raised(lines));
                self.meeting_facts(&pulse, console, lines);
            }
        } else if lines.read || lines.write || lines.add {
            self.far_address(console, &numbers);
        }
    }

    /// Which register alone is stray. SC3 is used by a search alone and judged
    /// in every pulse.
    fn only_stray(&mut self, way: &str, console: &Console, lines: Lines) {
        let (panel, width) = (&console.panel, console.machine.width);
        let registers = [
            ("comp", panel.comp),
            ("sdr", panel.sdr),
            ("sc1", panel.sc1),
            ("sc2", panel.sc2),
            ("sc3", panel.sc3),
            ("mor", panel.mor),
        ];
        let stray: Vec<_> = registers
            .iter()
            .filter(|(_, value)| processor::machine::is_stray(*value, width))
            .collect();
        if let [(name, _)] = stray.as_slice() {
            self.found.push(format!("stray: {name} alone"));
            let search = if lines.search { "with" } else { "without" };
            self.found
                .push(format!("{way}: {name} alone stray {search} search"));
        }
    }

    /// Why 5 is given: the only reason, or the only two.
    fn wrong_codes(&mut self, way: &str, console: &Console) {
        match code_reasons(&console.panel, console.machine.width).as_slice() {
            [reason] => self.found.push(format!("{way}: 5 for {reason} alone")),
            [one, other] => self.found.push(format!("{way}: 5 for {one} and {other}")),
            _ => {}
        }
    }

    fn far_address(&mut self, console: &Console, numbers: &[u8]) {
        let (n, address) = (console.machine.words.len() as u64, console.panel.address);
        if numbers == [7] && address == n {
            self.found.push("address: n".to_string());
        }
        if numbers == [7] && address == u64::MAX {
            self.found.push("address: 2^64-1".to_string());
        }
    }

    fn address_facts(&mut self, console: &Console, lines: Lines) {
        let (machine, panel) = (&console.machine, &console.panel);
        if !(lines.read || lines.write || lines.add) {
            return;
        }
        let index = panel.address as usize;
        if index + 1 == machine.words.len() {
            self.found.push("address: n-1".to_string());
        }
        let selected = is_selected(machine.responses[index], panel.key, panel.care);
        let standing = if selected { "selected" } else { "not selected" };
        let names = raised(lines);
        self.found
            .push(format!("addressed word {standing}: {names}"));
    }

    fn search_facts(&mut self, console: &Console) {
        let (machine, panel) = (&console.machine, &console.panel);
        let away = machine
            .words
            .iter()
            .map(|word| (word ^ panel.comp).count_ones());
        match away.min() {
            Some(0) => self.found.push("search: comp equal to a word".to_string()),
            Some(1) => self
                .found
                .push("search: comp one bit away from a word".to_string()),
            _ => {}
        }
        let all = syllables(panel.sdr, machine.width);
        let many = match all.len() {
            1 => "one syllable",
            2..=5 => "some syllables",
            _ => "many syllables",
        };
        self.found.push(format!("search: {many}"));
        let mut codes: Vec<String> = Vec::new();
        for syllable in &all {
            let code = code_of(panel, *syllable);
            let holes = syllable
                .places()
                .any(|p| code_at(panel, p) == Code::DontCare);
            let whole = if holes && code != Some(Code::DontCare) {
                " with don't-cares"
            } else {
                ""
            };
            codes.push(
                format!("search: a syllable of {code:?}{whole}")
                    .replace("Some(", "")
                    .replace(')', ""),
            );
        }
        codes.sort();
        codes.dedup();
        self.found.append(&mut codes);
    }

    fn add_facts(&mut self, console: &Console) {
        let (machine, panel) = (&console.machine, &console.panel);
        let addend = panel.comp & panel.mor;
        let carries = |word: &u64| {
            syllables(panel.sdr, machine.width).iter().any(|syllable| {
                let sum = u128::from(syllable.number(*word)) + u128::from(syllable.number(addend));
                sum >> syllable.width > 0
            })
        };
        if machine.words.iter().any(carries) {
            self.found
                .push("add: a carry lost at a syllable's top".to_string());
        }
        if panel.comp & !panel.mor != 0 {
            self.found
                .push("add: comp has bits outside mor".to_string());
        }
    }

    fn after_search(&mut self, answer: &str) {
        let count: usize = answer
            .split(' ')
            .nth(1)
            .and_then(|c| c.parse().ok())
            .unwrap_or(0);
        let share = share_of(count, self.selected);
        self.found
            .push(format!("search: {share} of the selected match"));
    }

    fn after_step(&mut self, answer: &str) {
        let (kind, phase) = match self.kind_and_phase {
            Some(both) => both,
            None => return,
        };
        let end = if answer.ends_with("ended") {
            "ended"
        } else {
            "held"
        };
        self.found
            .push(format!("step: kind {kind} phase {phase} {end}"));
    }

    fn after_run(&mut self, name: &str) {
        if let Some((kind, phase)) = self.kind_and_phase {
            self.found
                .push(format!("{name}: kind {kind} phase {phase}"));
        }
    }

    fn before_fit(&mut self, room: &[u8], other: &[u8], digits: &[u8]) {
        let number = |word: &[u8]| std::str::from_utf8(word).ok()?.parse::<u64>().ok();
        let bytes = bytes_of(digits);
        let n = count_at(&bytes, 5);
        if let (Some(room), Some(other), Some(n)) = (number(room), number(other), n) {
            let malformed = image::read(&bytes, MOST_WORDS, MOST_WORDS).is_err();
            let short = (room < n, other < n);
            match (malformed, short) {
                (true, (true, _)) => self.found.push("numbers 9 and 10 at once".to_string()),
                (false, (true, false)) => self.found.push("fit: words alone too short".to_string()),
                (false, (false, true)) => self
                    .found
                    .push("fit: responses alone too short".to_string()),
                (false, (false, false)) if room == n && other == n => {
                    self.found.push("fit: exactly".to_string());
                }
                _ => {}
            }
        }
    }

    fn after_read(&mut self, console: &Console, name: &str, words: &[&[u8]], answer: &str) {
        if answer == "ok" {
            let held = match &console.job {
                None => "no job".to_string(),
                Some(job) => format!("kind {} phase {}", job.kind, job.phase),
            };
            self.found.push(format!("read: {held}"));
            return;
        }
        let bytes = bytes_of(
            words
                .last()
                .filter(|_| words.len() % 2 == 0)
                .unwrap_or(&&b""[..]),
        );
        let place = answer
            .strip_prefix("refused 9 at ")
            .and_then(|at| at.parse::<usize>().ok());
        if let Some(place) = place {
            let cut = is_cut(&bytes, place);
            self.found
                .push(format!("{name}: 9 in {}{cut}", section(&bytes, place)));
        }
    }
}

/// The part of an image that a place lies in.
fn section(bytes: &[u8], place: usize) -> &'static str {
    let n = count_at(bytes, 5).unwrap_or(0) as usize;
    let whole = place >= 9 && n <= MOST_WORDS;
    match place {
        0 => "the width's count",
        4 => "the width",
        5 => "the words' count",
        _ if whole && place < 9 + 8 * n => "a word",
        _ if whole && place == 9 + 8 * n => "the responses' count",
        _ if whole && place < 13 + 9 * n => "a response",
        _ if whole && place == 13 + 9 * n => "the job's count",
        _ if whole && place == 17 + 9 * n && count_at(bytes, 13 + 9 * n) == Some(1) => "the job",
        _ => "a byte too many",
    }
}

/// Whether the field at the place is cut off.
fn is_cut(bytes: &[u8], place: usize) -> &'static str {
    let field = match section(bytes, place) {
        "a word" => 8,
        "the width" | "a response" => 1,
        "the job" => 22,
        "a byte too many" => 0,
        _ => 4,
    };
    if bytes.len() < place + field {
        ", cut off"
    } else {
        ""
    }
}

fn count_at(bytes: &[u8], place: usize) -> Option<u64> {
    let field = bytes.get(place..place + 4)?;
    Some(
        field
            .iter()
            .rev()
            .fold(0, |sum, byte| sum * 256 + u64::from(*byte)),
    )
}

fn bytes_of(digits: &[u8]) -> Vec<u8> {
    crate::writer::undigits(&String::from_utf8_lossy(digits))
}

/// The lines of a pulse, if the line is not a bad one.
fn lines_of(names: &[&[u8]]) -> Option<Lines> {
    let mut lines = Lines::default();
    for name in names {
        let line = lines.named(name)?;
        if *line {
            return None;
        }
        *line = true;
    }
    Some(lines)
}

/// The raised lines in the document's order.
fn raised(mut lines: Lines) -> String {
    let names = processor::panel::LINE_NAMES;
    let up = names
        .iter()
        .filter(|name| matches!(lines.named(name.as_bytes()), Some(true)));
    up.copied().collect::<Vec<_>>().join("+")
}

pub fn selected_of(machine: &Machine, key: u8, care: u8) -> usize {
    let responses = machine.responses.iter();
    responses
        .filter(|response| is_selected(**response, key, care))
        .count()
}

pub fn share_of(count: usize, all: usize) -> &'static str {
    match count {
        0 => "none",
        _ if count == all => "all",
        _ => "some",
    }
}
