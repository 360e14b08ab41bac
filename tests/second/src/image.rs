//! The image: "four sections in this order, each after its count (4 bytes, low
//! byte first)": width, words, responses, job.

use crate::jobs::{Job, Span};
use crate::machine::{is_stray, refused, refused_at, Machine, Refusal, MOST_BITS, MOST_WORDS};

/// The bytes of a job's record.
pub const JOB_BYTES: usize = 22;

/// Writes the image into an output of `room` bytes. Checked for 1 to 3, 20 to 25
/// (of the held job, if any) and 10: "output shorter than the image".
pub fn write(machine: &Machine, held: &Option<Job>, room: usize) -> Result<Vec<u8>, Refusal> {
    machine.check()?;
    if let Some(job) = held {
        job.check(machine.width)?;
    }
    let bytes = compose(machine, held);
    if room < bytes.len() {
        return refused(10);
    }
    Ok(bytes)
}

/// The image's bytes, of any machine and record, unchecked.
pub fn compose(machine: &Machine, held: &Option<Job>) -> Vec<u8> {
    let mut bytes = Vec::new();
    put_number(&mut bytes, 1, 4);
    bytes.push(machine.width);
    put_number(&mut bytes, machine.words.len() as u64, 4);
    for word in &machine.words {
        put_number(&mut bytes, *word, 8);
    }
    put_number(&mut bytes, machine.responses.len() as u64, 4);
    bytes.extend_from_slice(&machine.responses);
    put_number(&mut bytes, u64::from(held.is_some()), 4);
    if let Some(job) = held {
        put_job(&mut bytes, job);
    }
    bytes
}

/// Puts a number's lowest `count` bytes, low byte first.
fn put_number(bytes: &mut Vec<u8>, number: u64, count: u32) {
    for place in 0..count {
        bytes.push((number >> (8 * place)) as u8);
    }
}

/// "Kind, key, care, X, Y, lowest bit and width of A, B, P, phase, i, j, then
/// c in 8 bytes, low first."
pub fn put_job(bytes: &mut Vec<u8>, job: &Job) {
    bytes.extend_from_slice(&[job.kind, job.key, job.care, job.x, job.y]);
    for span in [job.a, job.b, job.p] {
        bytes.extend_from_slice(&[span.low, span.width]);
    }
    bytes.extend_from_slice(&[job.phase, job.i, job.j]);
    put_number(bytes, job.c, 8);
}

/// The fields of an image, read in order.
struct Fields<'a> {
    bytes: &'a [u8],
    at: usize,
}

impl<'a> Fields<'a> {
    /// The next field and its place. 9: a field "that is cut off" is refused
    /// at its own place.
    fn take(&mut self, count: usize) -> Result<(&'a [u8], usize), Refusal> {
        let place = self.at;
        let rest = &self.bytes[place..];
        if rest.len() < count {
            return refused_at(9, place);
        }
        self.at += count;
        Ok((&rest[..count], place))
    }

    /// A number of `count` bytes, low byte first, that a rule allows. 9: a
    /// field that "breaks a rule" is refused at its own place.
    fn number(&mut self, count: usize, rule: impl Fn(u64) -> bool) -> Result<u64, Refusal> {
        let (field, place) = self.take(count)?;
        let number = number_of(field);
        if !rule(number) {
            return refused_at(9, place);
        }
        Ok(number)
    }

    /// "Job, count 0 or 1, 22 bytes"; "a job is one field", and "a damaged job in
    /// an image stays 9".
    fn job(&mut self, width: u8) -> Result<Option<Job>, Refusal> {
        if self.number(4, |count| count <= 1)? == 0 {
            return Ok(None);
        }
        let (field, place) = self.take(JOB_BYTES)?;
        let job = job_of(field);
        if !job.is_sound(width) {
            return refused_at(9, place);
        }
        Ok(Some(job))
    }

    /// 9: "or of the first byte too many".
    fn end(&self) -> Result<(), Refusal> {
        if self.at < self.bytes.len() {
            return refused_at(9, self.at);
        }
        Ok(())
    }
}

/// The number of some bytes, low byte first.
fn number_of(field: &[u8]) -> u64 {
    field
        .iter()
        .rev()
        .fold(0, |sum, byte| (sum << 8) | u64::from(*byte))
}

/// The record of a job's 22 bytes.
pub fn job_of(field: &[u8]) -> Job {
    let span = |at: usize| Span {
        low: field[at],
        width: field[at + 1],
    };
    Job {
        kind: field[0],
        key: field[1],
        care: field[2],
        x: field[3],
        y: field[4],
        a: span(5),
        b: span(7),
        p: span(9),
        phase: field[11],
        i: field[12],
        j: field[13],
        c: number_of(&field[14..]),
    }
}

/// Reads an image into destinations of so many words and responses. Checked
/// for 9, then 10: "either destination shorter than n".
pub fn read(
    bytes: &[u8],
    words_room: usize,
    responses_room: usize,
) -> Result<(Machine, Option<Job>), Refusal> {
    let (machine, job) = parse(bytes)?;
    let n = machine.words.len();
    if words_room < n || responses_room < n {
        return refused(10);
    }
    Ok((machine, job))
}

/// The machine and the job an image stands for, or number 9 with the place of
/// its first wrong field.
fn parse(bytes: &[u8]) -> Result<(Machine, Option<Job>), Refusal> {
    let mut fields = Fields { bytes, at: 0 };
    fields.number(4, |count| count == 1)?;
    let width = fields.number(1, |width| 1 <= width && width <= u64::from(MOST_BITS))? as u8;
    let n = fields.number(4, |count| 1 <= count && count <= MOST_WORDS as u64)?;
    let mut machine = Machine::blank(width, 0);
    for _ in 0..n {
        let word = fields.number(8, |word| !is_stray(word, width))?;
        machine.words.push(word);
    }
    fields.number(4, |count| count == n)?;
    for _ in 0..n {
        let response = fields.number(1, |_| true)?;
        machine.responses.push(response as u8);
    }
    let job = fields.job(width)?;
    fields.end()?;
    Ok((machine, job))
}
