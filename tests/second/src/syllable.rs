//! Syllables of a word, and the search codes within them.

use crate::machine::{bit, one_at};
use crate::panel::Panel;

/// A syllable: its lowest bit and its width.
#[derive(Clone, Copy, Debug, PartialEq, Eq)]
pub struct Syllable {
    pub low: u32,
    pub width: u32,
}

impl Syllable {
    /// The syllable's bits, from the bottom up.
    pub fn places(&self) -> std::ops::Range<u32> {
        self.low..self.low + self.width
    }

    /// The number with ones at the syllable's bits and nowhere else.
    pub fn bits(&self) -> u64 {
        self.places().fold(0, |sum, place| sum | one_at(place))
    }

    /// The number a word holds in this syllable.
    pub fn number(&self, word: u64) -> u64 {
        if self.low < 64 {
            (word & self.bits()) >> self.low
        } else {
            0
        }
    }
}

/// "A one in SDR makes that bit the top bit of a syllable, which runs down to
/// the bit above the next such one, or to bit 0. Bit N-1 always starts a
/// syllable." From the bottom up: a syllable ends at each top bit.
pub fn syllables(sdr: u64, width: u8) -> Vec<Syllable> {
    let width = u32::from(width);
    let mut found = Vec::new();
    let mut low = 0;
    for place in 0..width {
        if bit(sdr, place) == 1 || place + 1 == width {
            found.push(Syllable {
                low,
                width: place + 1 - low,
            });
            low = place + 1;
        }
    }
    found
}

/// The code of one bit, with its setting of SC3.
#[derive(Clone, Copy, Debug, PartialEq, Eq)]
pub enum Code {
    DontCare,
    Exact,
    Larger,
    Smaller,
    AtLeast,
    AtMost,
}

/// "(SC1, SC2): 00 don't care, 01 exact, 10 larger, 11 smaller". 02 c: "With a
/// one there" in SC3 "larger becomes at least and smaller at most"; over the
/// other two codes a one has no meaning, and a search with it is turned down.
pub fn code_at(panel: &Panel, place: u32) -> Code {
    let also_equal = bit(panel.sc3, place) == 1;
    match (bit(panel.sc1, place), bit(panel.sc2, place)) {
        (0, 0) => Code::DontCare,
        (0, _) => Code::Exact,
        (_, 0) if also_equal => Code::AtLeast,
        (_, 0) => Code::Larger,
        (_, _) if also_equal => Code::AtMost,
        (_, _) => Code::Smaller,
    }
}

/// Whether SC3 has "a one over an exact or don't-care bit" of a syllable.
pub fn has_idle_one(panel: &Panel, syllable: Syllable) -> bool {
    syllable.places().any(|place| {
        let idle = [Code::Exact, Code::DontCare].contains(&code_at(panel, place));
        idle && bit(panel.sc3, place) == 1
    })
}

/// The one code of a syllable's bits other than don't-care ones: don't care
/// if it has none, and nothing if it has two. "Two SC3 settings among one
/// syllable's cared bits" are two codes, since larger and at least are.
pub fn code_of(panel: &Panel, syllable: Syllable) -> Option<Code> {
    let mut found = Code::DontCare;
    for place in syllable.places() {
        let code = code_at(panel, place);
        if code == Code::DontCare || code == found {
            continue;
        }
        if found != Code::DontCare {
            return None;
        }
        found = code;
    }
    Some(found)
}
