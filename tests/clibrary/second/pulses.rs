//! The two pulses, on the word-wide machine and on the plain one.

use crate::calls::{first, Answer, Judged};
use crate::lent::{machine_of, Lent, Open};
use crate::panels::{bytes_fit, line_byte_fits, lines_of, panel_of, registers_of};
use processor::cells::CELLS;
use processor::machine::{Machine, Refusal};
use processor::pulse::{self, pulse, Way};
use processor::wide::WIDE;

/// The count and the word read.
const VALUES: usize = 2;

/// The pulse on a copy of the machine. A panel of a wrong length is 1, so
/// nothing that is judged after it could come before it.
fn pulsed(
    way: &Way,
    machine: &mut Machine,
    panel: &Lent<u64>,
    lines: u8,
    room: Judged,
) -> Result<pulse::Answer, Refusal> {
    let registers = registers_of(panel)?;
    let added = [bytes_fit(&registers), line_byte_fits(lines), room];
    let given = pulse(way, machine, &panel_of(&registers), lines_of(lines));
    first(given, &added)
}

/// One pulse of either machine on what was lent.
fn give(
    way: &Way,
    (words, responses, width): (Open<u64>, Open<u8>, u32),
    panel: &Lent<u64>,
    lines: u8,
    answer: Answer,
) -> u32 {
    let mut machine = machine_of(&words.seen(), &responses.seen(), width);
    let outcome = pulsed(way, &mut machine, panel, lines, answer.room());
    answer.tell(outcome.map(|found| {
        words.put(&machine.words);
        responses.put(&machine.responses);
        vec![found.count as u64, found.read]
    }))
}

/// # Safety
/// Each pointer is good for the length beside it; no two buffers overlap.
#[no_mangle]
pub unsafe extern "C" fn second_wide_pulse(
    words: *mut u64,
    words_length: usize,
    responses: *mut u8,
    responses_length: usize,
    width: u32,
    panel: *const u64,
    panel_length: usize,
    lines: u8,
    answer: *mut u64,
    answer_length: usize,
) -> u32 {
    let words = Open::new(words, words_length);
    let responses = Open::new(responses, responses_length);
    let panel = Lent::new(panel, panel_length);
    let answer = Answer::new(answer, answer_length, VALUES);
    give(&WIDE, (words, responses, width), &panel, lines, answer)
}

/// # Safety
/// Each pointer is good for the length beside it; no two buffers overlap.
#[no_mangle]
pub unsafe extern "C" fn second_cells_pulse(
    words: *mut u64,
    words_length: usize,
    responses: *mut u8,
    responses_length: usize,
    width: u32,
    panel: *const u64,
    panel_length: usize,
    lines: u8,
    answer: *mut u64,
    answer_length: usize,
) -> u32 {
    let words = Open::new(words, words_length);
    let responses = Open::new(responses, responses_length);
    let panel = Lent::new(panel, panel_length);
    let answer = Answer::new(answer, answer_length, VALUES);
    give(&CELLS, (words, responses, width), &panel, lines, answer)
}
