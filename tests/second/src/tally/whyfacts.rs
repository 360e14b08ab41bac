//! Lines that ask why a word is picked or not, request e of document 02: what comes of
//! them. The answer is found once more, from what document 01 says of selection, of the
//! numbers that syllables hold and of refusals; facts are counted of answers that are
//! that one, and any other answer is counted as such and may not come.

use super::facts::Facts;
use super::reasons::{code_reasons, machine_numbers};
use super::whyparts::{parts, End, Part};
use processor::console::Console;
use processor::machine::{is_stray, ones, Machine, MOST_BITS};
use processor::panel::Panel;
use std::collections::BTreeSet;

/// The one thing that may not come.
pub const ANOTHER: &str = "why: another answer than the one counted";

/// What one line asks for.
struct Asked<'a> {
    machine: &'a Machine,
    panel: &'a Panel,
    word: u64,
}

impl Facts {
    /// Each fact counts once for a line.
    pub fn why_facts(&mut self, console: &Console, words: &[&[u8]], answer: &str) {
        let word = match words {
            [b"why", digits] => number(digits),
            _ => None,
        };
        let word = match word {
            Some(word) => word,
            None => return self.bad_why(words, answer),
        };
        let asked = Asked {
            machine: &console.machine,
            panel: &console.panel,
            word,
        };
        let mut facts = BTreeSet::new();
        if asked.facts(&mut facts) != answer {
            return self.found.push(ANOTHER.to_string());
        }
        if !answer.starts_with("refused") {
            facts.extend(beside(console, words[1]));
        }
        let named = facts.iter().map(|fact| format!("why: {fact}"));
        self.found.extend(named);
    }

    /// A line that is no command, by what is wrong with it.
    fn bad_why(&mut self, words: &[&[u8]], answer: &str) {
        let what = match words {
            _ if answer != "bad line" => return self.found.push(ANOTHER.to_string()),
            [b"why"] => "too few words",
            [b"why", _, _, ..] => "too many words",
            [b"why", digits] => wrong_number(digits),
            [first, ..] if first.contains(&b'\t') => "a tab",
            [first, ..] if first.starts_with(b"why") => "a longer name",
            _ => "a name in capitals",
        };
        self.found.push(format!("why: bad for {what}"));
    }
}

/// "Decimal digits with no sign; leading zeros are taken"; below 2^64.
fn number(digits: &[u8]) -> Option<u64> {
    let all = digits.iter().all(u8::is_ascii_digit);
    let text = std::str::from_utf8(digits).ok()?;
    text.parse().ok().filter(|_| all)
}

/// What is wrong with a word that is no such number.
fn wrong_number(digits: &[u8]) -> &'static str {
    if digits.iter().all(u8::is_ascii_digit) {
        "a number of 2^64 or above"
    } else if matches!(digits[0], b'-' | b'+') {
        "a sign"
    } else if digits.iter().all(u8::is_ascii_hexdigit) {
        "hex digits"
    } else {
        "another byte"
    }
}

/// What stands beside an answer that isn't a refusal and has no say in it.
fn beside(console: &Console, digits: &[u8]) -> Vec<String> {
    let (panel, n) = (&console.panel, console.machine.words.len() as u64);
    let held = [
        ("with leading zeros", digits.starts_with(b"00")),
        ("while the address is n", panel.address == n),
        ("while the address is 2^64-1", panel.address == u64::MAX),
        ("while a job is held", console.job.is_some()),
        ("while the target is in care", panel.target & panel.care > 0),
    ];
    let so = held.iter().filter(|(_, so)| *so);
    so.map(|(name, _)| name.to_string()).collect()
}

impl Asked<'_> {
    /// The answer, and what is to be counted of it.
    fn facts(&self, facts: &mut BTreeSet<String>) -> String {
        let numbers = self.numbers();
        match numbers.first() {
            Some(first) => {
                self.refusal_facts(facts, &numbers);
                self.refusal(*first)
            }
            None => {
                self.word_facts(facts);
                self.reason(facts)
            }
        }
    }

    /// "Refusals: as for a search, with 7 for the word number." All that would be
    /// given, each by itself.
    fn numbers(&self) -> Vec<u8> {
        let width = self.machine.width;
        let codes = code_reasons(self.panel, width.min(MOST_BITS));
        let others = [
            (4, !self.stray_registers().is_empty()),
            (5, !codes.is_empty()),
            (7, self.word >= self.machine.words.len() as u64),
        ];
        let others = others.iter().filter(|(_, so)| *so);
        let mut numbers = machine_numbers(self.machine);
        numbers.extend(others.map(|(number, _)| *number));
        numbers
    }

    fn stray_registers(&self) -> Vec<&'static str> {
        let panel = self.panel;
        let registers = [
            ("comp", panel.comp),
            ("sdr", panel.sdr),
            ("sc1", panel.sc1),
            ("sc2", panel.sc2),
            ("sc3", panel.sc3),
            ("mor", panel.mor),
        ];
        let stray = registers.iter();
        let stray = stray.filter(|(_, value)| is_stray(*value, self.machine.width));
        stray.map(|(name, _)| *name).collect()
    }

    fn refusal(&self, number: u8) -> String {
        let is_wrong = |word: &u64| is_stray(*word, self.machine.width);
        match self.machine.words.iter().position(is_wrong) {
            Some(lowest) if number == 3 => format!("refused 3 word {lowest}"),
            _ => format!("refused {number}"),
        }
    }

    fn refusal_facts(&self, facts: &mut BTreeSet<String>, numbers: &[u8]) {
        for (at, first) in numbers.iter().enumerate() {
            for other in &numbers[at + 1..] {
                facts.insert(format!("numbers {first} and {other} at once"));
            }
        }
        if let [number] = numbers {
            facts.insert(format!("{number} alone"));
            self.alone_facts(facts, *number);
        }
    }

    /// Why the only number is given, where there are several reasons for it.
    fn alone_facts(&self, facts: &mut BTreeSet<String>, number: u8) {
        let reasons = match number {
            4 => self.stray_registers(),
            5 => code_reasons(self.panel, self.machine.width),
            _ => Vec::new(),
        };
        if let [reason] = reasons.as_slice() {
            facts.insert(format!("{number} for {reason} alone"));
        }
        if number == 7 {
            self.far_word_facts(facts);
        }
    }

    /// Words past the last.
    fn far_word_facts(&self, facts: &mut BTreeSet<String>) {
        let n = self.machine.words.len() as u64;
        let held = [
            ("word n", self.word == n),
            ("word 2^64-1", self.word == u64::MAX),
            ("a word but for its upper 32 bits", self.word & ones(32) < n),
        ];
        let so = held.iter().filter(|(_, so)| *so);
        facts.extend(so.map(|(name, _)| name.to_string()));
    }

    /// The first and the last word, where they are two.
    fn word_facts(&self, facts: &mut BTreeSet<String>) {
        let last = self.machine.words.len() as u64 - 1;
        match self.word {
            0 if last > 0 => drop(facts.insert("word 0".to_string())),
            word if word == last => drop(facts.insert("word n-1".to_string())),
            _ => {}
        }
    }

    /// Why the word is picked or not, where no number is given.
    fn reason(&self, facts: &mut BTreeSet<String>) -> String {
        let (panel, width) = (self.panel, self.machine.width);
        let index = self.word as usize;
        let parts = parts(self.machine.words[index], panel, width);
        let differs = self.machine.responses[index] ^ panel.key;
        let told = parts.iter().position(|part| part.end != End::Satisfied);
        let (kind, answer) = if differs & panel.care != 0 {
            let lowest = (differs & panel.care).trailing_zeros();
            selection_facts(facts, differs, panel.care, told.is_none());
            ("not selected", format!("not selected bit {lowest}"))
        } else if let Some(told) = told {
            self.told_facts(facts, &parts, told);
            told_answer(&parts[told])
        } else {
            matched_facts(facts, &parts);
            ("matched", "matched".to_string())
        };
        facts.insert(kind.to_string());
        facts.insert(format!("{kind} at width {width}"));
        answer
    }

    /// Of the topmost syllable that isn't satisfied.
    fn told_facts(&self, facts: &mut BTreeSet<String>, parts: &[Part], told: usize) {
        let part = &parts[told];
        let kind = part.end.name();
        let top = u32::from(self.machine.width) - 1;
        let in_sdr = self.panel.sdr >> part.top & 1 == 1;
        let by = match (part.top == top, in_sdr) {
            (true, false) => "bit N-1 without a one of SDR",
            (true, true) => "bit N-1 with a one of SDR",
            _ => "a bit below N-1",
        };
        facts.insert(format!("{kind}, told by {by}"));
        if part.idle >> part.top & 1 == 1 {
            facts.insert(format!("{kind}, told by a don't-care bit"));
        }
        let way = part.way.unwrap_or("");
        facts.insert(format!("{kind} in {way}"));
        facts.insert(format!("{kind} over {} bits", part.top + 1 - part.low));
        if part.passes_over() {
            facts.insert(format!("{kind} in {way}, a don't-care bit passed over"));
        }
        if let End::Against { at } = part.end {
            place_facts(facts, part, way, at);
        }
        order_facts(facts, parts, told);
    }
}

fn told_answer(part: &Part) -> (&'static str, String) {
    let answer = match part.end {
        End::Against { at } => format!("syllable {} against at {at}", part.top),
        _ => format!("syllable {} equal to the bottom", part.top),
    };
    (part.end.name(), answer)
}

/// The lowest bit that differs: alone or not, whatever the syllables are, and whether
/// bits below it differ that care hasn't.
fn selection_facts(facts: &mut BTreeSet<String>, differs: u8, care: u8, satisfied: bool) {
    let lowest = (differs & care).trailing_zeros();
    let several = (differs & care).count_ones() > 1;
    let outside = (differs & !care).trailing_zeros() < lowest;
    let head = format!("not selected bit {lowest}");
    facts.insert(format!(
        "{head}, {}",
        if several { "one of several" } else { "alone" }
    ));
    facts.insert(format!(
        "{head}, syllables {}",
        if satisfied { "satisfied" } else { "not" }
    ));
    if outside {
        facts.insert(format!("{head}, others below outside care"));
    }
}

/// Where in its syllable the bit stands that settles, and where don't-care bits do.
fn place_facts(facts: &mut BTreeSet<String>, part: &Part, way: &str, at: u32) {
    let place = match at {
        _ if part.top == part.low => "the only bit",
        _ if at == part.top => "the top bit",
        _ if at == part.low => "the bottom bit",
        _ => "a bit between",
    };
    facts.insert(format!("against in {way} at {place}"));
    let idle_at = |place: Option<u32>| place.map_or(false, |p| p < 64 && part.idle >> p & 1 == 1);
    let held = [
        ("above", part.idle >> at != 0),
        ("next above", idle_at(at.checked_add(1))),
        ("next below", idle_at(at.checked_sub(1))),
        ("below", part.idle & ((1 << at) - 1) != 0),
    ];
    for (name, _) in held.iter().filter(|(_, so)| *so) {
        facts.insert(format!("against in {way}, a don't-care bit {name}"));
    }
    // Below it a difference counts no more.
    if part.differs & part.kept & ((1 << at) - 1) != 0 {
        facts.insert(format!("against in {way}, a lower bit differing too"));
    }
}

/// The syllables above and below the one told.
fn order_facts(facts: &mut BTreeSet<String>, parts: &[Part], told: usize) {
    let kind = parts[told].end.name();
    let wrong = parts.iter().filter(|part| part.end != End::Satisfied);
    let many = match wrong.count() {
        1 => "the only one",
        2 => "the topmost of 2",
        3 => "the topmost of 3",
        _ => "the topmost of more",
    };
    facts.insert(format!("{kind}, {many}"));
    for above in &parts[..told] {
        let way = above.way.unwrap_or("don't-cares");
        facts.insert(format!("{kind}, below one of {way} satisfied"));
    }
    for below in &parts[told + 1..] {
        let cares = below.way.is_some();
        match below.end {
            End::Satisfied if !cares => continue,
            end => facts.insert(format!("{kind}, above one {}", end.name())),
        };
    }
}

/// What satisfied a word that is picked.
fn matched_facts(facts: &mut BTreeSet<String>, parts: &[Part]) {
    if parts.iter().all(|part| part.way.is_none()) {
        facts.insert("matched with don't-cares alone".to_string());
    }
    for part in parts {
        let way = match part.way {
            Some(way) => way,
            None => continue,
        };
        let how = if part.settled().is_none() {
            "equal"
        } else {
            "settled for"
        };
        facts.insert(format!("matched with {way}"));
        facts.insert(format!("matched with {way} {how}"));
        if part.passes_over() {
            facts.insert(format!("matched with {way}, a don't-care bit passed over"));
        }
    }
}
