//! The hand-out round: show and its two answers. Neither looks at a held job.

use crate::machine::{refused, Machine, Refusal};

/// The host's answer for a shown word.
#[derive(Clone, Copy, Debug, PartialEq, Eq)]
pub enum Verdict {
    Done,
    Faulty,
}

/// "Show answers the lowest word with response bit X, or none; it changes
/// nothing." Checked for 1 to 3 and 23, of which it "judges X".
pub fn show(machine: &Machine, x: u8) -> Result<Option<usize>, Refusal> {
    machine.check()?;
    if x > 7 {
        return refused(23);
    }
    Ok(next_word(machine, x))
}

/// The word show would give now.
fn next_word(machine: &Machine, x: u8) -> Option<usize> {
    machine.responses.iter().position(|r| (r >> x) & 1 == 1)
}

/// "Done" clears the shown word's X; "faulty" clears its X and sets its F.
/// Checked for 1 to 3, 23 and 24 ("an answer X and F"), and 11.
pub fn answer(
    machine: &mut Machine,
    verdict: Verdict,
    x: u8,
    f: u8,
    word: u64,
) -> Result<(), Refusal> {
    machine.check()?;
    if x > 7 || f > 7 {
        return refused(23);
    }
    if x == f {
        return refused(24);
    }
    // 11: "answer for a word other than the one show would give now".
    let index = match next_word(machine, x) {
        Some(index) if index as u64 == word => index,
        _ => return refused(11),
    };
    machine.responses[index] &= !(1 << x);
    if verdict == Verdict::Faulty {
        machine.responses[index] |= 1 << f;
    }
    Ok(())
}
