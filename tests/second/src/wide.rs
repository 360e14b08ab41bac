//! The word-wide machine: each syllable is read and changed as one number.

use crate::machine::one_at;
use crate::panel::Panel;
use crate::pulse::Way;
use crate::syllable::{code_at, code_of, syllables, Code, Syllable};

pub const WIDE: Way = Way {
    satisfies,
    written,
    added,
};

/// The bits of a syllable that are not don't-care ones.
fn cared(panel: &Panel, syllable: Syllable) -> u64 {
    let caring = syllable
        .places()
        .filter(|place| code_at(panel, *place) != Code::DontCare);
    caring.fold(0, |sum, place| sum | one_at(place))
}

/// "Read word and COMP over that syllable with don't-care bits taken as 0: the
/// word's number must be equal to, larger than or smaller than COMP's. A
/// syllable of don't-cares is satisfied." 02 c: for at least and at most an
/// equal number "also satisfies".
fn satisfied(word: u64, panel: &Panel, syllable: Syllable) -> bool {
    let kept = cared(panel, syllable);
    let ours = syllable.number(word & kept);
    let theirs = syllable.number(panel.comp & kept);
    match code_of(panel, syllable) {
        Some(Code::DontCare) => true,
        Some(Code::Exact) => ours == theirs,
        Some(Code::Larger) => ours > theirs,
        Some(Code::Smaller) => ours < theirs,
        Some(Code::AtLeast) => ours >= theirs,
        Some(Code::AtMost) => ours <= theirs,
        None => false,
    }
}

/// Whether all syllables of a word are satisfied.
fn satisfies(word: u64, panel: &Panel, width: u8) -> bool {
    syllables(panel.sdr, width)
        .into_iter()
        .all(|syllable| satisfied(word, panel, syllable))
}

/// "Each bit under a one of MOR takes COMP's bit."
fn written(word: u64, panel: &Panel, _width: u8) -> u64 {
    (word & !panel.mor) | (panel.comp & panel.mor)
}

/// "The addend is COMP with bits outside MOR as 0. Each syllable becomes word
/// plus addend modulo 2 to its width; no carry crosses a syllable's top."
fn added(word: u64, panel: &Panel, width: u8) -> u64 {
    let addend = panel.comp & panel.mor;
    let mut result = 0;
    for syllable in syllables(panel.sdr, width) {
        let ours = u128::from(syllable.number(word));
        let theirs = u128::from(syllable.number(addend));
        let sum = (ours + theirs) % (1u128 << syllable.width);
        result |= (sum as u64) << syllable.low;
    }
    result
}
