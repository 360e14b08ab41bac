//! The explainer: why a word is picked by a search under the panel, or why it
//! is not.

use crate::calls::{first, Answer, Judged};
use crate::lent::{machine_of, Lent};
use crate::panels::{bytes_fit, panel_of, registers_of};
use processor::machine::{Machine, Refusal};
use processor::why::{why, Reason};

/// The reason, the syllable and the bit.
const VALUES: usize = 3;

/// Each reason's number, with 0 for what goes with another reason only.
fn values_of(reason: Reason) -> Vec<u64> {
    let (number, syllable, bit) = match reason {
        Reason::Matched => (1, 0, 0),
        Reason::NotSelected { differs } => (2, 0, differs),
        Reason::Against { top, at } => (3, top, at),
        Reason::EqualToTheBottom { top } => (4, top, 0),
    };
    vec![number, u64::from(syllable), u64::from(bit)]
}

/// A panel of a wrong length is 1, so nothing that is judged after it could come
/// before it.
fn explained(
    machine: &Machine,
    panel: &Lent<u64>,
    word: usize,
    room: Judged,
) -> Result<Reason, Refusal> {
    let registers = registers_of(panel)?;
    let told = why(machine, &panel_of(&registers), word as u64);
    first(told, &[bytes_fit(&registers), room])
}

/// # Safety
/// Each pointer is good for the length beside it; no two buffers overlap.
#[no_mangle]
pub unsafe extern "C" fn second_explain(
    words: *const u64,
    words_length: usize,
    responses: *const u8,
    responses_length: usize,
    width: u32,
    panel: *const u64,
    panel_length: usize,
    word: usize,
    answer: *mut u64,
    answer_length: usize,
) -> u32 {
    let words = Lent::new(words, words_length);
    let responses = Lent::new(responses, responses_length);
    let machine = machine_of(&words, &responses, width);
    let panel = Lent::new(panel, panel_length);
    let answer = Answer::new(answer, answer_length, VALUES);
    let outcome = explained(&machine, &panel, word, answer.room());
    answer.tell(outcome.map(values_of))
}
