//! Resolution: "the lowest-numbered selected word, or none exactly if no word
//! is selected". Resolving is no pulse and is checked for 1 to 3 alone.

use crate::machine::{is_selected, Machine, Refusal};

/// The scan from word 0.
pub fn scan(machine: &Machine, key: u8, care: u8) -> Result<Option<usize>, Refusal> {
    machine.check()?;
    for (index, response) in machine.responses.iter().enumerate() {
        if is_selected(*response, key, care) {
            return Ok(Some(index));
        }
    }
    Ok(None)
}

/// The network.
pub fn tree(machine: &Machine, key: u8, care: u8) -> Result<Option<usize>, Refusal> {
    machine.check()?;
    Ok(halve(&machine.responses, 0, key, care))
}

/// "The tree halves the words until one is left, and answers as a scan from
/// word 0 does": the lower half's answer goes first. `first` is the number of
/// the first word of these responses.
fn halve(responses: &[u8], first: usize, key: u8, care: u8) -> Option<usize> {
    match responses {
        [] => None,
        [one] => Some(first).filter(|_| is_selected(*one, key, care)),
        _ => {
            let half = responses.len() / 2;
            let (lower, upper) = responses.split_at(half);
            let below = halve(lower, first, key, care);
            below.or_else(|| halve(upper, first + half, key, care))
        }
    }
}
