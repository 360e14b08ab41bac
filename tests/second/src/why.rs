//! Request e of document 02, "Why was she not picked?": why a search under the
//! panel matches a word or doesn't. It is found by going down the cells of the
//! plain machine with their statuses.

use crate::cells::{pass, wanted, Status};
use crate::machine::{bit, refused, Machine, Refusal};
use crate::panel::Panel;
use crate::pulse::check_search;
use crate::syllable::{code_at, syllables, Code, Syllable};

/// "Matched; or not selected, with the lowest response bit that differs; or the
/// topmost syllable not satisfied, with the bit where it was settled against, or
/// "equal to the bottom"." A syllable is named by its top bit.
#[derive(Clone, Copy, Debug, PartialEq, Eq)]
pub enum Reason {
    Matched,
    NotSelected { differs: u32 },
    Against { top: u32, at: u32 },
    EqualToTheBottom { top: u32 },
}

/// "For a machine, a panel and a word number." "Refusals: as for a search, with 7
/// for the word number." 6 and the panel's address have no part in it: a search
/// alone is one line, and one that uses no address.
pub fn why(machine: &Machine, panel: &Panel, word: u64) -> Result<Reason, Refusal> {
    check_search(machine, panel)?;
    if word >= machine.words.len() as u64 {
        return refused(7);
    }
    Ok(reason(machine, panel, word as usize))
}

/// A word that isn't selected is told so whatever its syllables are: the answers
/// stand in this order in the request.
fn reason(machine: &Machine, panel: &Panel, index: usize) -> Reason {
    if let Some(differs) = lowest_difference(machine.responses[index], panel) {
        return Reason::NotSelected { differs };
    }
    let from_the_top = syllables(panel.sdr, machine.width).into_iter().rev();
    let mut wrong = from_the_top.filter_map(|s| fault(machine.words[index], panel, s));
    wrong.next().unwrap_or(Reason::Matched)
}

/// The lowest response bit that care has and that isn't the key's.
fn lowest_difference(response: u8, panel: &Panel) -> Option<u32> {
    let (response, key, care) = (
        u64::from(response),
        u64::from(panel.key),
        u64::from(panel.care),
    );
    (0..8).find(|place| bit(care, *place) == 1 && bit(response, *place) != bit(key, *place))
}

/// What is wrong with one syllable, if it isn't satisfied. Against is told at the
/// cell that turns the status so, which then stays. One that is not against and
/// still not satisfied has found no difference.
fn fault(word: u64, panel: &Panel, syllable: Syllable) -> Option<Reason> {
    let top = syllable.low + syllable.width - 1;
    let mut status = Status::Equal;
    let mut wish = Code::DontCare;
    for place in syllable.places().rev() {
        let code = code_at(panel, place);
        if code != Code::DontCare {
            wish = code;
        }
        status = pass(status, code, bit(word, place), bit(panel.comp, place));
        if status == Status::Against {
            return Some(Reason::Against { top, at: place });
        }
    }
    Some(Reason::EqualToTheBottom { top }).filter(|_| !wanted(status, wish))
}
