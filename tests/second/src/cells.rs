//! The plain machine: one cell for each bit, handing a status down a syllable
//! in a search and a carry up a syllable in an add.

use crate::machine::bit;
use crate::panel::Panel;
use crate::pulse::Way;
use crate::syllable::{code_at, Code};

pub const CELLS: Way = Way {
    satisfies,
    written,
    added,
};

/// What a cell passes on in a search.
#[derive(Clone, Copy, PartialEq, Eq)]
pub enum Status {
    Equal,
    For,
    Against,
}

/// One cell. "A don't-care bit passes it on. Exact: a difference settles
/// against. Larger: word 1 with COMP 0 settles for, word 0 with COMP 1
/// against; smaller is the mirror. A settled status stays." At least settles as
/// larger does, and at most as smaller.
pub fn pass(status: Status, code: Code, word_bit: u64, comp_bit: u64) -> Status {
    if status != Status::Equal || word_bit == comp_bit {
        return status;
    }
    let word_has_one = word_bit == 1;
    match code {
        Code::DontCare => status,
        Code::Exact => Status::Against,
        Code::Larger | Code::AtLeast if word_has_one => Status::For,
        Code::Larger | Code::AtLeast => Status::Against,
        Code::Smaller | Code::AtMost if word_has_one => Status::Against,
        Code::Smaller | Code::AtMost => Status::For,
    }
}

/// "Exact wants "equal" at the bottom, larger and smaller want "settled for"."
/// A syllable of don't-cares wants nothing. 02 c: for at least and at most "equal
/// at the bottom also satisfies".
pub fn wanted(status: Status, code: Code) -> bool {
    match code {
        Code::DontCare => true,
        Code::Exact => status == Status::Equal,
        Code::Larger | Code::Smaller => status == Status::For,
        Code::AtLeast | Code::AtMost => status != Status::Against,
    }
}

/// Whether bit `place` is the top bit of a syllable: a one in SDR, or bit N-1.
fn is_top(panel: &Panel, width: u8, place: u32) -> bool {
    bit(panel.sdr, place) == 1 || place + 1 == u32::from(width)
}

/// Whether bit `place` is the bottom bit of a syllable: the bit below it is a
/// top bit, or there is none.
fn is_bottom(panel: &Panel, width: u8, place: u32) -> bool {
    place == 0 || is_top(panel, width, place - 1)
}

/// "From top bit to bottom a syllable passes on one of three statuses. It
/// starts equal." All syllables have to end with the status wanted.
fn satisfies(word: u64, panel: &Panel, width: u8) -> bool {
    let mut status = Status::Equal;
    let mut wish = Code::DontCare;
    let mut all = true;
    for place in (0..u32::from(width)).rev() {
        if is_top(panel, width, place) {
            status = Status::Equal;
            wish = Code::DontCare;
        }
        let code = code_at(panel, place);
        if code != Code::DontCare {
            wish = code;
        }
        status = pass(status, code, bit(word, place), bit(panel.comp, place));
        if is_bottom(panel, width, place) {
            all = all && wanted(status, wish);
        }
    }
    all
}

/// "Each bit under a one of MOR takes COMP's bit."
fn written(word: u64, panel: &Panel, width: u8) -> u64 {
    let mut result = 0;
    for place in 0..u32::from(width) {
        let source = if bit(panel.mor, place) == 1 {
            panel.comp
        } else {
            word
        };
        result |= bit(source, place) << place;
    }
    result
}

/// "Add goes bottom up: carry 0 in, each cell keeps the sum's low bit and
/// passes its carry on." The carry out of a syllable's top is lost.
fn added(word: u64, panel: &Panel, width: u8) -> u64 {
    let mut result = 0;
    let mut carry = 0;
    for place in 0..u32::from(width) {
        if is_bottom(panel, width, place) {
            carry = 0;
        }
        let addend = bit(panel.comp, place) * bit(panel.mor, place);
        let sum = bit(word, place) + addend + carry;
        result |= (sum % 2) << place;
        carry = sum / 2;
    }
    result
}
