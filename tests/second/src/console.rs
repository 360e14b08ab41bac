//! The console: one machine and one array of three-state cells, and the
//! language they are driven by.

use crate::array::Array;
use crate::cells::CELLS;
use crate::choices::{Read, Search, Write};
use crate::image;
use crate::jobs::{self, Job, Span, NAMES};
use crate::line::Line;
use crate::machine::{Machine, Refusal, MOST_WORDS};
use crate::panel::{Lines, Panel};
use crate::pulse::{pulse, Way};
use crate::resolve;
use crate::round::{self, Verdict};
use crate::why::{why, Reason};
use crate::wide::WIDE;

/// The board's machine, with its panel and the held job, if any, and beside it
/// the array board's array of three-state cells; no command of the one changes
/// the other.
pub struct Console {
    pub machine: Machine,
    pub panel: Panel,
    pub job: Option<Job>,
    pub array: Array,
}

/// What a well-formed line prints: its answer or a refusal.
type Outcome = Result<String, Refusal>;

/// The most entries of a buffer the host makes.
const MOST_ENTRIES: u64 = 2048;
/// The most bytes of an output for `room`.
const MOST_ROOM: u64 = 20_000;

impl Console {
    /// The one starts as after `machine 8 3`, the other as after `cells3 8 3`.
    pub fn new() -> Console {
        Console {
            machine: Machine::blank(8, 3),
            panel: Panel::default(),
            job: None,
            array: Array::blank(8, 3),
        }
    }

    /// What a line prints, without its last newline, or nothing for a line
    /// that prints nothing.
    pub fn answer(&mut self, line: &Line) -> Option<String> {
        if line.is_silent() {
            return None;
        }
        if line.too_long {
            return Some("bad line".to_string());
        }
        Some(match self.obey(&line.words()) {
            Some(Ok(text)) => text,
            Some(Err(refusal)) => refusal_text(refusal),
            None => "bad line".to_string(),
        })
    }

    /// One command; nothing for a bad line, which changes nothing.
    fn obey(&mut self, words: &[&[u8]]) -> Option<Outcome> {
        match words {
            [b"machine", width, n] => self.make(width, n),
            [b"lend", m] => self.lend(m),
            [b"word", index, value] => self.write_word(index, value),
            [b"response", index, value] => self.write_response(index, value),
            [b"load", register, value] => self.load(register, value),
            [b"pulse", lines @ ..] => self.pulse(&WIDE, lines),
            [b"cells", lines @ ..] => self.pulse(&CELLS, lines),
            [b"resolve"] => Some(self.resolve()),
            [b"tree"] => Some(self.tree()),
            [b"why", word] => self.why(word),
            [b"start", fields @ ..] => self.start(fields),
            [b"job", fields @ ..] => self.write_job(fields),
            [b"drop"] => self.drop_job(),
            [b"step"] => Some(self.step()),
            [b"run"] => Some(self.run()),
            [b"total"] => Some(self.total()),
            [b"show", x] => self.show(x),
            [b"done", x, f, word] => self.answer_round(Verdict::Done, x, f, word),
            [b"faulty", x, f, word] => self.answer_round(Verdict::Faulty, x, f, word),
            [b"store"] => Some(self.store()),
            [b"room", size] => self.room(size),
            [b"resume", digits @ ..] => self.resume(digits),
            [b"fit", words, responses, digits @ ..] => self.fit(words, responses, digits),
            [b"list"] => Some(self.list()),
            [b"panel"] => Some(Ok(self.panel_text())),
            [b"cells3", width, n] => self.make_array(width, n),
            [b"cell3", index, ones, xs] => self.write_cells(index, ones, xs),
            [b"select3", index, value] => self.write_selectors(index, value),
            [b"load3", register, value] => self.load_array(register, value),
            [b"search3", choices @ ..] => self.search_array(choices),
            [b"read3", choices @ ..] => self.read_array(choices),
            [b"write3", choices @ ..] => self.write_array(choices),
            [b"list3"] => Some(Ok(self.array_text())),
            _ => None,
        }
    }

    fn make(&mut self, width: &[u8], n: &[u8]) -> Option<Outcome> {
        let width = small(width)?;
        let n = decimal(n, MOST_ENTRIES)?;
        self.machine = Machine::blank(width, n as usize);
        self.panel = Panel::default();
        self.job = None;
        ok()
    }

    fn lend(&mut self, m: &[u8]) -> Option<Outcome> {
        let m = decimal(m, MOST_ENTRIES)?;
        self.machine.responses = vec![0; m as usize];
        ok()
    }

    fn write_word(&mut self, index: &[u8], value: &[u8]) -> Option<Outcome> {
        let value = hex(value, u64::MAX)?;
        *self.machine.words.get_mut(index_of(index)?)? = value;
        ok()
    }

    fn write_response(&mut self, index: &[u8], value: &[u8]) -> Option<Outcome> {
        let value = hex_byte(value)?;
        *self.machine.responses.get_mut(index_of(index)?)? = value;
        ok()
    }

    /// "Loading one register of the panel changes that register and no other."
    fn load(&mut self, register: &[u8], value: &[u8]) -> Option<Outcome> {
        match register {
            b"comp" => self.panel.comp = hex(value, u64::MAX)?,
            b"sdr" => self.panel.sdr = hex(value, u64::MAX)?,
            b"sc1" => self.panel.sc1 = hex(value, u64::MAX)?,
            b"sc2" => self.panel.sc2 = hex(value, u64::MAX)?,
            b"sc3" => self.panel.sc3 = hex(value, u64::MAX)?,
            b"mor" => self.panel.mor = hex(value, u64::MAX)?,
            b"key" => self.panel.key = hex_byte(value)?,
            b"care" => self.panel.care = hex_byte(value)?,
            b"target" => self.panel.target = hex_byte(value)?,
            b"address" => self.panel.address = decimal(value, u64::MAX)?,
            _ => return None,
        }
        ok()
    }

    fn pulse(&mut self, way: &Way, names: &[&[u8]]) -> Option<Outcome> {
        let lines = lines_of(names)?;
        let answer = pulse(way, &mut self.machine, &self.panel, lines);
        Some(answer.map(|a| format!("count {} read {:016X}", a.count, a.read)))
    }

    fn resolve(&self) -> Outcome {
        resolve::scan(&self.machine, self.panel.key, self.panel.care).map(word_text)
    }

    fn tree(&self) -> Outcome {
        resolve::tree(&self.machine, self.panel.key, self.panel.care).map(word_text)
    }

    fn why(&self, word: &[u8]) -> Option<Outcome> {
        let word = decimal(word, u64::MAX)?;
        Some(why(&self.machine, &self.panel, word).map(reason_text))
    }

    fn start(&mut self, fields: &[&[u8]]) -> Option<Outcome> {
        let wish = wish_of(fields)?;
        let outcome = jobs::start(&self.machine, &mut self.job, &wish);
        Some(outcome.map(|()| "ok".to_string()))
    }

    /// The host writes the record itself; afterwards it is the held one.
    fn write_job(&mut self, fields: &[&[u8]]) -> Option<Outcome> {
        self.job = Some(record_of(fields)?);
        ok()
    }

    fn drop_job(&mut self) -> Option<Outcome> {
        self.job = None;
        ok()
    }

    fn step(&mut self) -> Outcome {
        jobs::step(&mut self.machine, &mut self.job).map(step_text)
    }

    /// "At least one step, then steps until no job is held or a step is
    /// refused"; a refusal of the first step is the answer.
    fn run(&mut self) -> Outcome {
        jobs::step(&mut self.machine, &mut self.job)?;
        let mut pulses = 1;
        while self.job.is_some() && jobs::step(&mut self.machine, &mut self.job).is_ok() {
            pulses += 1;
        }
        Ok(format!("pulses {pulses}"))
    }

    fn total(&self) -> Outcome {
        jobs::total(&self.machine, &self.job).map(|pulses| format!("pulses {pulses}"))
    }

    fn show(&self, x: &[u8]) -> Option<Outcome> {
        let x = small(x)?;
        Some(round::show(&self.machine, x).map(word_text))
    }

    fn answer_round(
        &mut self,
        verdict: Verdict,
        x: &[u8],
        f: &[u8],
        word: &[u8],
    ) -> Option<Outcome> {
        let x = small(x)?;
        let f = small(f)?;
        let word = decimal(word, u64::MAX)?;
        let outcome = round::answer(&mut self.machine, verdict, x, f, word);
        Some(outcome.map(|()| "ok".to_string()))
    }

    fn store(&self) -> Outcome {
        let bytes = image::write(&self.machine, &self.job, MOST_ROOM as usize)?;
        let digits: String = bytes.iter().map(|byte| format!("{byte:02X}")).collect();
        Ok(format!("image {digits}"))
    }

    fn room(&self, size: &[u8]) -> Option<Outcome> {
        let size = decimal(size, MOST_ROOM)?;
        let written = image::write(&self.machine, &self.job, size as usize);
        Some(written.map(|bytes| format!("image {}", bytes.len())))
    }

    /// "Into the machine's own buffers, made 1024 long for it."
    fn resume(&mut self, digits: &[&[u8]]) -> Option<Outcome> {
        let bytes = image_of(digits)?;
        Some(self.read(&bytes, MOST_WORDS, MOST_WORDS))
    }

    fn fit(&mut self, words: &[u8], responses: &[u8], digits: &[&[u8]]) -> Option<Outcome> {
        let words = decimal(words, MOST_ENTRIES)?;
        let responses = decimal(responses, MOST_ENTRIES)?;
        let bytes = image_of(digits)?;
        Some(self.read(&bytes, words as usize, responses as usize))
    }

    /// "The machine is then the one read, the panel stays."
    fn read(&mut self, bytes: &[u8], words: usize, responses: usize) -> Outcome {
        let (machine, job) = image::read(bytes, words, responses)?;
        self.machine = machine;
        self.job = job;
        Ok("ok".to_string())
    }

    /// "The head and one for each word, contents hex, 16 and 2 capital digits,
    /// other numbers decimal, nothing for a job."
    fn list(&self) -> Outcome {
        let bytes = image::write(&self.machine, &self.job, MOST_ROOM as usize)?;
        let (machine, _) = image::read(&bytes, MOST_WORDS, MOST_WORDS)?;
        let mut text = format!("words {} width {}", machine.words.len(), machine.width);
        let entries = machine.words.iter().zip(&machine.responses);
        for (index, (word, response)) in entries.enumerate() {
            text.push_str(&format!("\n{index} {word:016X} {response:02X}"));
        }
        Ok(text)
    }

    fn panel_text(&self) -> String {
        let registers = registers_text(&self.panel);
        format!("{registers} address {}", self.panel.address)
    }

    /// "All cells, selectors and registers 0."
    fn make_array(&mut self, width: &[u8], n: &[u8]) -> Option<Outcome> {
        let width = small(width)?;
        let n = decimal(n, MOST_ENTRIES)?;
        self.array = Array::blank(width, n as usize);
        ok()
    }

    fn write_cells(&mut self, index: &[u8], ones: &[u8], xs: &[u8]) -> Option<Outcome> {
        let index = index_of(index)?;
        let (ones, xs) = (hex(ones, u64::MAX)?, hex(xs, u64::MAX)?);
        *self.array.ones.get_mut(index)? = ones;
        *self.array.xs.get_mut(index)? = xs;
        ok()
    }

    fn write_selectors(&mut self, index: &[u8], value: &[u8]) -> Option<Outcome> {
        let value = hex_byte(value)?;
        *self.array.selectors.get_mut(index_of(index)?)? = value;
        ok()
    }

    fn load_array(&mut self, register: &[u8], value: &[u8]) -> Option<Outcome> {
        let value = hex(value, u64::MAX)?;
        match register {
            b"r1" => self.array.r1 = value,
            b"r2" => self.array.r2 = value,
            b"m" => self.array.m = value,
            _ => return None,
        }
        ok()
    }

    fn search_array(&mut self, choices: &[&[u8]]) -> Option<Outcome> {
        let search = Search::named(choices)?;
        Some(self.array.search(search).map(count_text))
    }

    fn read_array(&mut self, choices: &[&[u8]]) -> Option<Outcome> {
        let read = Read::named(choices)?;
        Some(self.array.read(read).map(count_text))
    }

    fn write_array(&mut self, choices: &[&[u8]]) -> Option<Outcome> {
        let write = Write::named(choices)?;
        Some(self.array.write(write).map(count_text))
    }

    /// "The array as the host holds it, unchecked."
    fn array_text(&self) -> String {
        let array = &self.array;
        let mut text = format!(
            "cells {} width {} r1 {:016X} r2 {:016X} m {:016X}",
            array.ones.len(),
            array.width,
            array.r1,
            array.r2,
            array.m
        );
        for (index, selectors) in array.selectors.iter().enumerate() {
            let (ones, xs) = (array.ones[index], array.xs[index]);
            text.push_str(&format!("\n{index} {ones:016X} {xs:016X} {selectors:02X}"));
        }
        text
    }
}

impl Default for Console {
    fn default() -> Console {
        Console::new()
    }
}

fn ok() -> Option<Outcome> {
    Some(Ok("ok".to_string()))
}

/// "A refusal prints `refused K`, for number 3 `refused 3 word I`, for number
/// 9 `refused 9 at I`." Request d: "20, 21 and 22 name their syllable".
fn refusal_text(refusal: Refusal) -> String {
    match refusal.number {
        3 => format!("refused 3 word {}", refusal.also),
        9 => format!("refused 9 at {}", refusal.also),
        number @ 20..=22 => format!("refused {number} {}", NAMES[refusal.also]),
        number => format!("refused {number}"),
    }
}

fn word_text(found: Option<usize>) -> String {
    match found {
        Some(index) => format!("word {index}"),
        None => "none".to_string(),
    }
}

/// "T is the number of the syllable's top bit."
fn reason_text(reason: Reason) -> String {
    match reason {
        Reason::Matched => "matched".to_string(),
        Reason::NotSelected { differs } => format!("not selected bit {differs}"),
        Reason::Against { top, at } => format!("syllable {top} against at {at}"),
        Reason::EqualToTheBottom { top } => format!("syllable {top} equal to the bottom"),
    }
}

fn count_text(count: usize) -> String {
    format!("count {count}")
}

fn registers_text(panel: &Panel) -> String {
    format!(
        "comp {:016X} sdr {:016X} sc1 {:016X} sc2 {:016X} sc3 {:016X} mor {:016X} key {:02X} care {:02X} target {:02X}",
        panel.comp,
        panel.sdr,
        panel.sc1,
        panel.sc2,
        panel.sc3,
        panel.mor,
        panel.key,
        panel.care,
        panel.target
    )
}

fn step_text(step: jobs::Step) -> String {
    let line = if step.lines.search {
        "search"
    } else {
        "multiadd"
    };
    let registers = registers_text(&step.command);
    let end = if step.held { "held" } else { "ended" };
    format!("{line} {registers} count {} {end}", step.count)
}

/// "Decimal digits with no sign; leading zeros are taken"; at most `most`.
fn decimal(word: &[u8], most: u64) -> Option<u64> {
    let mut value: u128 = 0;
    for byte in word {
        let digit = Some(*byte).filter(u8::is_ascii_digit)?;
        value = value * 10 + u128::from(digit - b'0');
        if value > u128::from(most) {
            return None;
        }
    }
    Some(value as u64).filter(|_| !word.is_empty())
}

/// A decimal number where no range is given: 0 to 255.
fn small(word: &[u8]) -> Option<u8> {
    decimal(word, 255).map(|value| value as u8)
}

/// The number of an entry of a buffer.
fn index_of(word: &[u8]) -> Option<usize> {
    usize::try_from(decimal(word, u64::MAX)?).ok()
}

/// The value of one hex digit, either case.
fn hex_digit(byte: u8) -> Option<u64> {
    (byte as char).to_digit(16).map(u64::from)
}

/// "HEX is 1 to 16 digits, either case, so 17 digits are a bad line even with
/// leading zeros."
fn hex(word: &[u8], most: u64) -> Option<u64> {
    if word.is_empty() || word.len() > 16 {
        return None;
    }
    let mut value = 0;
    for byte in word {
        value = value * 16 + hex_digit(*byte)?;
    }
    Some(value).filter(|value| *value <= most)
}

/// Hex of at most FF.
fn hex_byte(word: &[u8]) -> Option<u8> {
    hex(word, 0xFF).map(|value| value as u8)
}

/// "An image is one word of digit pairs, or no word for an image of no bytes."
fn image_of(words: &[&[u8]]) -> Option<Vec<u8>> {
    let digits: &[u8] = match words {
        [] => &[],
        [digits] => digits,
        _ => return None,
    };
    let mut bytes = Vec::new();
    for pair in digits.chunks(2) {
        match pair {
            [high, low] => bytes.push((hex_digit(*high)? * 16 + hex_digit(*low)?) as u8),
            _ => return None,
        }
    }
    Some(bytes)
}

/// The lines of a pulse, "each at most once, in any order; none is taken too".
fn lines_of(names: &[&[u8]]) -> Option<Lines> {
    let mut lines = Lines::default();
    for name in names {
        let line = lines.named(name)?;
        if *line {
            return None;
        }
        *line = true;
    }
    Some(lines)
}

/// KIND KEY CARE X Y AL AW BL BW PL PW C: a job to be started.
fn wish_of(fields: &[&[u8]]) -> Option<Job> {
    match fields {
        [head @ .., c] if head.len() == 11 => {
            let mut job = head_of(head)?;
            job.c = hex(c, u64::MAX)?;
            Some(job)
        }
        _ => None,
    }
}

/// KIND KEY CARE X Y AL AW BL BW PL PW PHASE I J C: a job's whole record.
fn record_of(fields: &[&[u8]]) -> Option<Job> {
    match fields {
        [head @ .., phase, i, j, c] if head.len() == 11 => {
            let mut job = head_of(head)?;
            job.phase = small(phase)?;
            job.i = small(i)?;
            job.j = small(j)?;
            job.c = hex(c, u64::MAX)?;
            Some(job)
        }
        _ => None,
    }
}

/// The eleven fields that `start` and `job` begin with.
fn head_of(fields: &[&[u8]]) -> Option<Job> {
    match fields {
        [kind, key, care, x, y, spans @ ..] if spans.len() == 6 => Some(Job {
            kind: small(kind)?,
            key: hex_byte(key)?,
            care: hex_byte(care)?,
            x: small(x)?,
            y: small(y)?,
            a: span_of(&spans[0..2])?,
            b: span_of(&spans[2..4])?,
            p: span_of(&spans[4..6])?,
            ..Job::default()
        }),
        _ => None,
    }
}

/// A syllable's lowest bit and width.
fn span_of(fields: &[&[u8]]) -> Option<Span> {
    match fields {
        [low, width] => Some(Span {
            low: small(low)?,
            width: small(width)?,
        }),
        _ => None,
    }
}
