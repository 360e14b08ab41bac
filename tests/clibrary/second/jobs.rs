//! Jobs by their records: start, step and total.

use crate::calls::{first, unless, Answer, Judged};
use crate::lent::{machine_of, Lent, Open};
use crate::panels::{byte_of, numbers_of, REGISTERS};
use processor::image::{job_of, put_job, JOB_BYTES};
use processor::jobs::{self, Job, Step};
use processor::machine::{Machine, Refusal};

/// That the job is held.
const START_VALUES: usize = 1;
/// The registers, the line byte, the count, and whether a job is held.
const STEP_VALUES: usize = REGISTERS + 3;
/// How many steps the job takes.
const TOTAL_VALUES: usize = 1;

/// The job of a record that must be there. 1: "a job's record of a wrong
/// length".
fn record_of(record: &Lent<u8>) -> Result<Job, Refusal> {
    unless(record.length() == JOB_BYTES, 1)?;
    Ok(job_of(&record.first(JOB_BYTES)))
}

/// The job of a record that may be there: "no job is a record of no bytes",
/// and nothing else is, 22 zeros neither.
pub fn held_of(record: &Lent<u8>) -> Result<Option<Job>, Refusal> {
    match record.length() {
        0 => Ok(None),
        _ => record_of(record).map(Some),
    }
}

/// The record of a held job, "all zeros if there is none".
pub fn bytes_of(held: &Option<Job>) -> Vec<u8> {
    let mut bytes = Vec::new();
    if let Some(job) = held {
        put_job(&mut bytes, job);
    }
    bytes.resize(JOB_BYTES, 0);
    bytes
}

/// The job held after a start. Records of wrong lengths are 1, so nothing that
/// is judged after them could come before it.
fn started(
    machine: &Machine,
    held: &Lent<u8>,
    offered: &Lent<u8>,
    room: Judged,
) -> Result<Option<Job>, Refusal> {
    let mut held = held_of(held)?;
    let offered = record_of(offered)?;
    first(jobs::start(machine, &mut held, &offered), &[room])?;
    Ok(held)
}

/// # Safety
/// Each pointer is good for the length beside it; no two buffers overlap.
#[no_mangle]
pub unsafe extern "C" fn second_start(
    words: *const u64,
    words_length: usize,
    responses: *const u8,
    responses_length: usize,
    width: u32,
    held: *const u8,
    held_length: usize,
    job: *mut u8,
    job_length: usize,
    answer: *mut u64,
    answer_length: usize,
) -> u32 {
    let words = Lent::new(words, words_length);
    let responses = Lent::new(responses, responses_length);
    let machine = machine_of(&words, &responses, width);
    let held = Lent::new(held, held_length);
    let job = Open::new(job, job_length);
    let answer = Answer::new(answer, answer_length, START_VALUES);
    let outcome = started(&machine, &held, &job.seen(), answer.room());
    answer.tell(outcome.map(|held| {
        job.put(&bytes_of(&held));
        vec![u64::from(held.is_some())]
    }))
}

/// A step on a copy of the machine, and the job held after it.
fn stepped(
    machine: &mut Machine,
    job: &Lent<u8>,
    room: Judged,
) -> Result<(Step, Option<Job>), Refusal> {
    let mut held = held_of(job)?;
    let step = first(jobs::step(machine, &mut held), &[room])?;
    Ok((step, held))
}

/// The command's registers, its line byte, the count and held.
fn step_values(step: &Step) -> Vec<u64> {
    let mut values = numbers_of(&step.command);
    values.push(u64::from(byte_of(&step.lines)));
    values.push(step.count as u64);
    values.push(u64::from(step.held));
    values
}

/// # Safety
/// Each pointer is good for the length beside it; no two buffers overlap.
#[no_mangle]
pub unsafe extern "C" fn second_step(
    words: *mut u64,
    words_length: usize,
    responses: *mut u8,
    responses_length: usize,
    width: u32,
    job: *mut u8,
    job_length: usize,
    answer: *mut u64,
    answer_length: usize,
) -> u32 {
    let words = Open::new(words, words_length);
    let responses = Open::new(responses, responses_length);
    let job = Open::new(job, job_length);
    let answer = Answer::new(answer, answer_length, STEP_VALUES);
    let mut machine = machine_of(&words.seen(), &responses.seen(), width);
    let outcome = stepped(&mut machine, &job.seen(), answer.room());
    answer.tell(outcome.map(|(step, held)| {
        words.put(&machine.words);
        responses.put(&machine.responses);
        job.put(&bytes_of(&held));
        step_values(&step)
    }))
}

/// # Safety
/// Each pointer is good for the length beside it; no two buffers overlap.
#[no_mangle]
pub unsafe extern "C" fn second_total(
    words: *const u64,
    words_length: usize,
    responses: *const u8,
    responses_length: usize,
    width: u32,
    job: *const u8,
    job_length: usize,
    answer: *mut u64,
    answer_length: usize,
) -> u32 {
    let words = Lent::new(words, words_length);
    let responses = Lent::new(responses, responses_length);
    let machine = machine_of(&words, &responses, width);
    let job = Lent::new(job, job_length);
    let answer = Answer::new(answer, answer_length, TOTAL_VALUES);
    let outcome =
        held_of(&job).and_then(|held| first(jobs::total(&machine, &held), &[answer.room()]));
    answer.tell(outcome.map(|pulses| vec![pulses]))
}
