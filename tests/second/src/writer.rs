//! The script in the making. Each line is also given to a console, so that
//! the next line can be chosen by what the machine then is.

use crate::rng::Rng;
use processor::console::Console;
use processor::jobs::Job;
use processor::line::Line;

pub struct Writer {
    pub rng: Rng,
    pub model: Console,
    pub left: usize,
    pub script: Vec<u8>,
    /// The digits of images stored lately.
    pub saved: Vec<String>,
    /// Which width of a syllable is next to be searched in every way. It begins
    /// at the seed, so that scripts of seeds in a row go through all of them.
    pub turn: u64,
    /// The same for the width of the machine where it is asked why.
    pub asked: u64,
    /// Which wrong job is next: alone, with two numbers, on a wrong machine. Each
    /// begins at five times the seed: 5 divides the number of none of them, so that
    /// scripts of seeds in a row begin at all of them.
    pub wrongs: [u64; 3],
}

/// How many stored images are kept.
const MOST_SAVED: usize = 6;

impl Writer {
    pub fn new(seed: u64, left: usize) -> Writer {
        Writer {
            rng: Rng::new(seed),
            model: Console::new(),
            left,
            script: Vec::new(),
            saved: Vec::new(),
            turn: seed,
            asked: seed,
            wrongs: [seed.wrapping_mul(5); 3],
        }
    }

    /// Writes a line, if there is one left to write, and gives its answer.
    pub fn say(&mut self, line: impl AsRef<[u8]>) -> String {
        let line = line.as_ref();
        if self.left == 0 {
            return String::new();
        }
        self.left -= 1;
        self.script.extend_from_slice(line);
        self.script.push(b'\n');
        let answer = self.model.answer(&Line::of(line)).unwrap_or_default();
        if line == b"store" {
            self.keep(&answer);
        }
        answer
    }

    /// Keeps a stored image for later lines.
    fn keep(&mut self, answer: &str) {
        if let Some(digits) = answer.strip_prefix("image ") {
            self.saved.push(digits.to_string());
        }
        if self.saved.len() > MOST_SAVED {
            let oldest = self.rng.below(self.saved.len() as u64) as usize;
            self.saved.swap_remove(oldest);
        }
    }

    /// The number of words, and the machine's width.
    pub fn n(&self) -> usize {
        self.model.machine.words.len()
    }

    pub fn width(&self) -> u8 {
        self.model.machine.width
    }

    /// A number of a word, n-1 often among them, and now and then n.
    pub fn index(&mut self) -> u64 {
        let n = self.n() as u64;
        let any = self.rng.below(n);
        if self.rng.once_in(40) {
            return n;
        }
        self.rng.pick(&[0, n.saturating_sub(1), any, any, any])
    }

    /// An address, at its edges too.
    pub fn address(&mut self) -> u64 {
        let n = self.n() as u64;
        match self.rng.below(12) {
            0 => n,
            1 => u64::MAX,
            2 | 3 => n.saturating_sub(1),
            _ => self.rng.below(n),
        }
    }

    /// Hex in one of the ways the console takes it.
    pub fn hex(&mut self, value: u64) -> String {
        match self.rng.below(5) {
            0 => format!("{value:x}"),
            1 => format!("{value:016X}"),
            2 => format!("{value:04x}"),
            _ => format!("{value:X}"),
        }
    }

    /// Decimal, now and then with leading zeros.
    pub fn decimal(&mut self, value: u64) -> String {
        if self.rng.once_in(15) {
            format!("{value:024}")
        } else {
            format!("{value}")
        }
    }

    pub fn load(&mut self, register: &str, value: u64) {
        let value = self.hex(value);
        self.say(format!("load {register} {value}"));
    }

    /// The eleven fields that `start` and `job` begin with.
    pub fn job_head(job: &Job) -> String {
        format!(
            "{} {:X} {:02x} {} {} {} {} {} {} {} {}",
            job.kind,
            job.key,
            job.care,
            job.x,
            job.y,
            job.a.low,
            job.a.width,
            job.b.low,
            job.b.width,
            job.p.low,
            job.p.width
        )
    }

    pub fn start(&mut self, job: &Job) -> String {
        let head = Writer::job_head(job);
        self.say(format!("start {head} {:X}", job.c))
    }

    pub fn write_job(&mut self, job: &Job) -> String {
        let head = Writer::job_head(job);
        let place = format!("{} {} {}", job.phase, job.i, job.j);
        self.say(format!("job {head} {place} {:X}", job.c))
    }
}

/// The digits of an image.
pub fn digits(image: &[u8]) -> String {
    let digit = |value: u8| char::from(b"0123456789ABCDEF"[usize::from(value)]);
    let mut text = String::with_capacity(2 * image.len());
    for byte in image {
        text.push(digit(byte >> 4));
        text.push(digit(byte & 15));
    }
    text
}

/// The image of some digits.
pub fn undigits(digits: &str) -> Vec<u8> {
    let places = (0..digits.len()).step_by(2);
    places
        .filter_map(|at| u8::from_str_radix(digits.get(at..at + 2)?, 16).ok())
        .collect()
}
