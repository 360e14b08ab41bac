//! Images: a machine and its held job as bytes, written and read back.

use crate::calls::{first, unless, Answer, Judged};
use crate::jobs::{bytes_of, held_of};
use crate::lent::{machine_of, Lent, Open};
use processor::image::{self, JOB_BYTES};
use processor::jobs::Job;
use processor::machine::{Machine, Refusal, MOST_WORDS};

/// How many bytes were written.
const WRITE_VALUES: usize = 1;
/// Width, number of words, whether a job is held.
const READ_VALUES: usize = 3;

/// The longest image: four counts, the width, all words with their responses,
/// a job. One byte more is the first too many, so no more are looked at.
const ENOUGH_BYTES: usize = 17 + 9 * MOST_WORDS + JOB_BYTES + 1;

/// # Safety
/// Each pointer is good for the length beside it; no two buffers overlap.
#[no_mangle]
pub unsafe extern "C" fn second_write(
    words: *const u64,
    words_length: usize,
    responses: *const u8,
    responses_length: usize,
    width: u32,
    job: *const u8,
    job_length: usize,
    image: *mut u8,
    image_length: usize,
    answer: *mut u64,
    answer_length: usize,
) -> u32 {
    let words = Lent::new(words, words_length);
    let responses = Lent::new(responses, responses_length);
    let machine = machine_of(&words, &responses, width);
    let job = Lent::new(job, job_length);
    let output = Open::new(image, image_length);
    let answer = Answer::new(answer, answer_length, WRITE_VALUES);
    let outcome = held_of(&job).and_then(|held| {
        let written = image::write(&machine, &held, image_length);
        first(written, &[answer.room()])
    });
    answer.tell(outcome.map(|bytes| {
        output.put(&bytes);
        vec![bytes.len() as u64]
    }))
}

/// The machine and the job of an image. Of the library's own numbers here, 1
/// is judged for the record that the job goes to.
fn taken(
    image: &Lent<u8>,
    room_for: (usize, usize, usize),
    room: Judged,
) -> Result<(Machine, Option<Job>), Refusal> {
    let (words, responses, record) = room_for;
    let read = image::read(&image.first(ENOUGH_BYTES), words, responses);
    first(read, &[unless(record == JOB_BYTES, 1), room])
}

/// # Safety
/// Each pointer is good for the length beside it; no two buffers overlap.
#[no_mangle]
pub unsafe extern "C" fn second_read(
    image: *const u8,
    image_length: usize,
    words: *mut u64,
    words_length: usize,
    responses: *mut u8,
    responses_length: usize,
    job: *mut u8,
    job_length: usize,
    answer: *mut u64,
    answer_length: usize,
) -> u32 {
    let image = Lent::new(image, image_length);
    let words = Open::new(words, words_length);
    let responses = Open::new(responses, responses_length);
    let job = Open::new(job, job_length);
    let answer = Answer::new(answer, answer_length, READ_VALUES);
    let room_for = (words_length, responses_length, job_length);
    let outcome = taken(&image, room_for, answer.room());
    answer.tell(outcome.map(|(machine, held)| {
        words.put(&machine.words);
        responses.put(&machine.responses);
        job.put(&bytes_of(&held));
        read_values(&machine, &held)
    }))
}

/// The width, how many words there are, and whether a job is held.
fn read_values(machine: &Machine, held: &Option<Job>) -> Vec<u64> {
    let n = machine.words.len() as u64;
    vec![u64::from(machine.width), n, u64::from(held.is_some())]
}
