//! Resolution, and the hand-out round: show, an answer, a whole round.

use crate::calls::{first, Answer, Judged};
use crate::lent::{machine_of, Lent, Open, ENOUGH};
use processor::machine::{Machine, Refusal, MOST_BITS};
use processor::resolve;
use processor::round::{self, Verdict};

/// Found and its number.
const FOUND_VALUES: usize = 2;
/// An answer for a word answers nothing more.
const REPLY_VALUES: usize = 0;
/// How many were done and how many faulty.
const ROUND_VALUES: usize = 2;

/// 11, which a whole round never gives.
const NOT_SHOWN: u8 = 11;

/// 1 if there is such a word and its number, or twice 0.
fn found_values(found: Option<usize>) -> Vec<u64> {
    match found {
        Some(word) => vec![1, word as u64],
        None => vec![0, 0],
    }
}

/// Tells of a word found, or of the refusal that comes first.
fn tell_found(found: Result<Option<usize>, Refusal>, answer: Answer) -> u32 {
    answer.tell(first(found, &[answer.room()]).map(found_values))
}

/// # Safety
/// Each pointer is good for the length beside it; no two buffers overlap.
#[no_mangle]
pub unsafe extern "C" fn second_scan(
    words: *const u64,
    words_length: usize,
    responses: *const u8,
    responses_length: usize,
    width: u32,
    key: u8,
    care: u8,
    answer: *mut u64,
    answer_length: usize,
) -> u32 {
    let words = Lent::new(words, words_length);
    let responses = Lent::new(responses, responses_length);
    let machine = machine_of(&words, &responses, width);
    let answer = Answer::new(answer, answer_length, FOUND_VALUES);
    tell_found(resolve::scan(&machine, key, care), answer)
}

/// # Safety
/// Each pointer is good for the length beside it; no two buffers overlap.
#[no_mangle]
pub unsafe extern "C" fn second_network(
    words: *const u64,
    words_length: usize,
    responses: *const u8,
    responses_length: usize,
    width: u32,
    key: u8,
    care: u8,
    answer: *mut u64,
    answer_length: usize,
) -> u32 {
    let words = Lent::new(words, words_length);
    let responses = Lent::new(responses, responses_length);
    let machine = machine_of(&words, &responses, width);
    let answer = Answer::new(answer, answer_length, FOUND_VALUES);
    tell_found(resolve::tree(&machine, key, care), answer)
}

/// # Safety
/// Each pointer is good for the length beside it; no two buffers overlap.
#[no_mangle]
pub unsafe extern "C" fn second_show(
    words: *const u64,
    words_length: usize,
    responses: *const u8,
    responses_length: usize,
    width: u32,
    x: u8,
    answer: *mut u64,
    answer_length: usize,
) -> u32 {
    let words = Lent::new(words, words_length);
    let responses = Lent::new(responses, responses_length);
    let machine = machine_of(&words, &responses, width);
    let answer = Answer::new(answer, answer_length, FOUND_VALUES);
    tell_found(round::show(&machine, x), answer)
}

/// 1 says done. "Any other number says faulty too: no word is called done by
/// mistake."
fn verdict_of(number: u8) -> Verdict {
    if number == 1 {
        Verdict::Done
    } else {
        Verdict::Faulty
    }
}

/// # Safety
/// Each pointer is good for the length beside it; no two buffers overlap.
#[no_mangle]
pub unsafe extern "C" fn second_answer(
    words: *const u64,
    words_length: usize,
    responses: *mut u8,
    responses_length: usize,
    width: u32,
    x: u8,
    f: u8,
    word: usize,
    verdict: u8,
    answer: *mut u64,
    answer_length: usize,
) -> u32 {
    let words = Lent::new(words, words_length);
    let responses = Open::new(responses, responses_length);
    let answer = Answer::new(answer, answer_length, REPLY_VALUES);
    let mut machine = machine_of(&words, &responses.seen(), width);
    let given = round::answer(&mut machine, verdict_of(verdict), x, f, word as u64);
    answer.tell(first(given, &[answer.room()]).map(|()| {
        responses.put(&machine.responses);
        Vec::new()
    }))
}

/// A round is turned down as an answer is, but for 11. The answer asked is for
/// a word that no machine has, so it changes nothing.
fn may_go_round(machine: &mut Machine, x: u8, f: u8) -> Judged {
    match round::answer(machine, Verdict::Done, x, f, u64::MAX) {
        Err(refusal) if refusal.number != NOT_SHOWN => Err(refusal),
        _ => Ok(()),
    }
}

/// "Every word with bit x is answered, the lowest first, with the verdict at
/// its number; a word that the list of verdicts doesn't reach is faulty."
/// Gives how many were done and how many faulty. The words were judged before
/// and a round doesn't look at them: at the greatest width the second program
/// has nothing to judge of them again at each show and each answer.
fn go_round(machine: &mut Machine, x: u8, f: u8, verdicts: &[u8]) -> Result<Vec<u64>, Refusal> {
    machine.width = MOST_BITS;
    let (mut done, mut faulty) = (0, 0);
    while let Some(word) = round::show(machine, x)? {
        let verdict = match verdicts.get(word) {
            Some(number) => verdict_of(*number),
            None => Verdict::Faulty,
        };
        match verdict {
            Verdict::Done => done += 1,
            Verdict::Faulty => faulty += 1,
        }
        round::answer(machine, verdict, x, f, word as u64)?;
    }
    Ok(vec![done, faulty])
}

/// # Safety
/// Each pointer is good for the length beside it; no two buffers overlap.
#[no_mangle]
pub unsafe extern "C" fn second_round(
    words: *const u64,
    words_length: usize,
    responses: *mut u8,
    responses_length: usize,
    width: u32,
    x: u8,
    f: u8,
    verdicts: *const u8,
    verdicts_length: usize,
    answer: *mut u64,
    answer_length: usize,
) -> u32 {
    let words = Lent::new(words, words_length);
    let responses = Open::new(responses, responses_length);
    let verdicts = Lent::new(verdicts, verdicts_length).first(ENOUGH);
    let answer = Answer::new(answer, answer_length, ROUND_VALUES);
    let mut machine = machine_of(&words, &responses.seen(), width);
    let outcome = first(may_go_round(&mut machine, x, f), &[answer.room()])
        .and_then(|()| go_round(&mut machine, x, f, &verdicts));
    answer.tell(outcome.map(|values| {
        responses.put(&machine.responses);
        values
    }))
}
