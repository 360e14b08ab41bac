//! Codes for a search, fair and wrong, and words at the edge of what it takes.

use crate::rng::Rng;
use processor::machine::{bit, one_at, ones};
use processor::panel::Panel;
use processor::syllable::{code_of, syllables, Code, Syllable};

/// The three search registers.
#[derive(Clone, Copy, Default)]
pub struct Codes {
    pub sc1: u64,
    pub sc2: u64,
    pub sc3: u64,
}

/// Codes that 5 has nothing against: in each syllable one code and one setting
/// of SC3, and don't-care bits among them. Where many syllables care, hardly a
/// word matches, so half of the time one alone does.
pub fn fair(rng: &mut Rng, sdr: u64, width: u8) -> Codes {
    let mut codes = Codes::default();
    let all = syllables(sdr, width.min(64));
    let alone = rng.once_in(2).then(|| rng.below(all.len() as u64) as usize);
    for (index, syllable) in all.into_iter().enumerate() {
        if alone.map_or(false, |chosen| chosen != index) {
            continue;
        }
        let kept = match rng.below(4) {
            0 => rng.next(),
            1 => rng.next() | rng.next(),
            _ => u64::MAX,
        };
        let bits = syllable.bits() & kept;
        let code = rng.pick(&[0, 1, 1, 2, 2, 2, 3, 3, 3]);
        codes.sc1 |= if code >= 2 { bits } else { 0 };
        codes.sc2 |= if code % 2 == 1 { bits } else { 0 };
        codes.sc3 |= if code >= 2 && rng.once_in(2) { bits } else { 0 };
    }
    codes
}

/// Codes most often fair: now and then all is left to chance, or one bit's code
/// is another, or SC3 is wrong, and sometimes several of these at once.
pub fn any(rng: &mut Rng, sdr: u64, width: u8) -> Codes {
    let mask = ones(u32::from(width.min(64)));
    let mut codes = fair(rng, sdr, width);
    if rng.once_in(12) {
        codes = by_chance(rng, mask);
    }
    if rng.once_in(15) {
        codes.sc2 ^= one_at(rng.below(u64::from(width)) as u32) & mask;
    }
    if rng.once_in(7) {
        spoil_setting(rng, &mut codes, mask);
    }
    codes
}

/// Codes that 5 is given for, for one reason or for two, each in a syllable of
/// its own as far as there are so many that are wide enough.
pub fn wrong(rng: &mut Rng, sdr: u64, width: u8) -> Codes {
    let mut codes = fair(rng, sdr, width);
    let mut left = syllables(sdr, width.min(64));
    rng.shuffle(&mut left);
    for _ in 0..rng.between(1, 2) {
        let fault = rng.pick(&FAULTS);
        let fits = |syllable: &Syllable| syllable.width >= least_width(fault);
        if let Some(at) = left.iter().position(fits) {
            put_fault(rng, &mut codes, left.swap_remove(at).bits(), fault);
        }
    }
    codes
}

/// What can be wrong with the codes of one syllable.
#[derive(Clone, Copy)]
enum Fault {
    TwoCodes,
    TwoSettings,
    OverExact,
    OverOneUncared,
    OverAllUncared,
}

const FAULTS: [Fault; 5] = [
    Fault::TwoCodes,
    Fault::TwoSettings,
    Fault::OverExact,
    Fault::OverOneUncared,
    Fault::OverAllUncared,
];

/// A bit that differs from the others of its syllable needs another one there.
fn least_width(fault: Fault) -> u32 {
    match fault {
        Fault::OverExact | Fault::OverAllUncared => 1,
        Fault::TwoCodes | Fault::TwoSettings | Fault::OverOneUncared => 2,
    }
}

/// The codes of a syllable's bits with one thing wrong and nothing else: where
/// SC3 itself is not what is wrong, its setting is one that could stand there.
fn put_fault(rng: &mut Rng, codes: &mut Codes, bits: u64, fault: Fault) {
    let one = one_of(rng, bits);
    let few = rng.pick(&[one, bits]);
    let mirror = rng.pick(&[0, bits]);
    let (sc1, sc2, sc3) = match fault {
        Fault::TwoCodes => rng.pick(&[
            (bits, one, 0),
            (bits, one, bits),
            (one, bits, 0),
            (bits & !one, one, 0),
        ]),
        Fault::TwoSettings => (bits, mirror, rng.pick(&[one, bits & !one])),
        Fault::OverExact => (0, bits, bits),
        Fault::OverOneUncared => (bits & !one, mirror & !one, few),
        Fault::OverAllUncared => (0, 0, few),
    };
    codes.sc1 = (codes.sc1 & !bits) | sc1;
    codes.sc2 = (codes.sc2 & !bits) | sc2;
    codes.sc3 = (codes.sc3 & !bits) | sc3;
}

/// Codes left to chance, SC3 often over nothing but larger and smaller.
fn by_chance(rng: &mut Rng, mask: u64) -> Codes {
    let sc1 = rng.next() & mask;
    let sc2 = rng.next() & mask;
    let sc3 = rng.next() & mask;
    let sc3 = rng.pick(&[0, sc1, sc3 & sc1, sc3]);
    Codes { sc1, sc2, sc3 }
}

/// SC3 made wrong: at one bit of larger or smaller other than at the rest of its
/// syllable, a one over one exact or don't-care bit, over all of them, or left
/// to chance. Where there is no such bit it stays as it was.
fn spoil_setting(rng: &mut Rng, codes: &mut Codes, mask: u64) {
    let exact = codes.sc2 & !codes.sc1;
    let uncared = mask & !(codes.sc1 | codes.sc2);
    match rng.below(8) {
        0 | 1 => codes.sc3 ^= one_of(rng, codes.sc1),
        2 => codes.sc3 |= one_of(rng, exact),
        3 => codes.sc3 |= one_of(rng, uncared),
        4 => codes.sc3 |= exact,
        5 => codes.sc3 |= uncared,
        6 => codes.sc3 = mask,
        _ => codes.sc3 = rng.next() & mask,
    }
}

/// One of a number's ones; 0 if it has none.
pub fn one_of(rng: &mut Rng, number: u64) -> u64 {
    let places: Vec<u32> = (0..64).filter(|place| bit(number, *place) == 1).collect();
    if places.is_empty() {
        0
    } else {
        one_at(rng.pick(&places))
    }
}

/// A definition with one syllable of these bits: its top, and the top of the
/// one below it. What else there is of the word is left to chance.
pub fn around(rng: &mut Rng, syllable: Syllable, width: u8) -> u64 {
    let top = one_at(syllable.low + syllable.width - 1);
    let below = one_at(syllable.low) >> 1;
    let few = rng.next() & rng.next() & rng.next();
    let others = rng.pick(&[0, few]) & !syllable.bits();
    (top | below | others) & ones(u32::from(width.min(64)))
}

/// The bits of a syllable that a search cares for.
fn cared(panel: &Panel, syllable: Syllable) -> u64 {
    (panel.sc1 | panel.sc2) & syllable.bits()
}

/// COMP over the bits that are cared for, the number next above it there and
/// the one next below; the last is followed by 0.
fn neighbours(comp: u64, kept: u64) -> [u64; 3] {
    let equal = comp & kept;
    // Ones at the other bits hand the carry on to the next bit cared for.
    let above = (equal | !kept).wrapping_add(1) & kept;
    let below = equal.wrapping_sub(1) & kept;
    [equal, above, below]
}

/// A word at the edge of what the panel's search takes: in one syllable equal
/// to COMP or the number next to it.
pub fn word_at_the_edge(rng: &mut Rng, panel: &Panel, width: u8) -> u64 {
    let all = syllables(panel.sdr, width.min(64));
    let caring: Vec<Syllable> = all
        .into_iter()
        .filter(|syllable| cared(panel, *syllable) != 0)
        .collect();
    let edge = rng.below(caring.len() as u64) as usize;
    let which = rng.pick(&[0, 0, 1, 2]);
    word_near(rng, panel, width, caring.get(edge).copied(), which)
}

/// A word that in the syllable `edge` is equal to COMP (0), next above it (1)
/// or next below it (2), in the others such as is taken, if there is one next
/// to COMP. Don't-care bits are left to chance.
pub fn word_near(
    rng: &mut Rng,
    panel: &Panel,
    width: u8,
    edge: Option<Syllable>,
    which: usize,
) -> u64 {
    let mut word = rng.next() & ones(u32::from(width.min(64)));
    for syllable in syllables(panel.sdr, width.min(64)) {
        let kept = cared(panel, syllable);
        let near = neighbours(panel.comp, kept);
        let [equal, above, below] = near;
        let part = match code_of(panel, syllable) {
            _ if Some(syllable) == edge => near[which],
            Some(Code::Larger) => above,
            Some(Code::Smaller) => below,
            Some(Code::AtLeast) => rng.pick(&[equal, above]),
            Some(Code::AtMost) => rng.pick(&[equal, below]),
            _ => equal,
        };
        word = (word & !kept) | part;
    }
    word
}

/// Codes that 5 has nothing against, drawn a few times until a syllable is larger or
/// smaller.
pub fn to_ask(rng: &mut Rng, sdr: u64, width: u8) -> Codes {
    let mut codes = fair(rng, sdr, width);
    for _ in 0..4 {
        if codes.sc1 & !codes.sc3 != 0 {
            break;
        }
        codes = fair(rng, sdr, width);
    }
    codes
}

/// How a word to ask about is to end, as far as the search lets it.
#[derive(Clone, Copy, PartialEq, Eq)]
pub enum Wish {
    Taken,
    Against,
    Equal,
    Any,
}

/// A word that ends as wished by one of its syllables, the others such as is taken, if
/// there is one next to COMP.
pub fn word_wished(rng: &mut Rng, panel: &Panel, width: u8, wish: Wish) -> u64 {
    let mut fit = syllables(panel.sdr, width.min(64));
    fit.retain(|syllable| against(panel, *syllable) != 0);
    if wish == Wish::Equal {
        fit = syllables(panel.sdr, width.min(64));
        fit.retain(|s| matches!(code_of(panel, *s), Some(Code::Larger | Code::Smaller)));
    }
    let edge = rng.below(fit.len() as u64) as usize;
    let edge = fit.get(edge).copied();
    match (wish, edge) {
        (Wish::Any, _) => word_to_ask(rng, panel, width),
        (Wish::Equal, Some(_)) => word_near(rng, panel, width, edge, 0),
        (Wish::Against, Some(edge)) => {
            let word = word_near(rng, panel, width, None, 0);
            let place = one_of(rng, against(panel, edge));
            let kept = cared(panel, edge);
            (word & !kept) | (parted(rng, panel.comp, place) & kept)
        }
        _ => word_near(rng, panel, width, None, 0),
    }
}

/// The bits of a syllable where a difference settles against: any for exact, for the
/// others those where COMP stands at the end that is wanted.
fn against(panel: &Panel, syllable: Syllable) -> u64 {
    let kept = cared(panel, syllable);
    match code_of(panel, syllable) {
        Some(Code::Larger | Code::AtLeast) => kept & panel.comp,
        Some(Code::Smaller | Code::AtMost) => kept & !panel.comp,
        _ => kept,
    }
}

/// A word to ask about: in each syllable such as is taken, if there is one next to
/// COMP, but in some of them equal to COMP or parting from it at one bit.
pub fn word_to_ask(rng: &mut Rng, panel: &Panel, width: u8) -> u64 {
    let mut word = word_near(rng, panel, width, None, 0);
    let mut kept: Vec<u64> = syllables(panel.sdr, width.min(64))
        .into_iter()
        .map(|syllable| cared(panel, syllable))
        .filter(|kept| *kept != 0)
        .collect();
    rng.shuffle(&mut kept);
    let several = rng.between(2, 5) as usize;
    let some = rng.pick(&[0, 1, 1, several]);
    for kept in kept.into_iter().take(some) {
        word = (word & !kept) | parting(rng, panel.comp, kept);
    }
    word
}

/// Over the bits that are cared for COMP down to one of them, there the other bit
/// and below it anything; or COMP to the bottom.
fn parting(rng: &mut Rng, comp: u64, kept: u64) -> u64 {
    let place = one_of(rng, kept);
    let parted = parted(rng, comp, place);
    rng.pick(&[comp, parted, parted]) & kept
}

/// COMP down to one bit, there the other bit and below it anything.
fn parted(rng: &mut Rng, comp: u64, place: u64) -> u64 {
    let below = place.wrapping_sub(1);
    ((comp ^ place) & !below) | (rng.next() & below)
}

/// SC3 with one syllable's setting turned over; as it was, if no bit is larger
/// or smaller.
pub fn turned(rng: &mut Rng, panel: &Panel, width: u8) -> u64 {
    let all = syllables(panel.sdr, width.min(64)).into_iter();
    let ordered: Vec<u64> = all
        .map(|syllable| syllable.bits() & panel.sc1)
        .filter(|bits| *bits != 0)
        .collect();
    if ordered.is_empty() {
        panel.sc3
    } else {
        panel.sc3 ^ rng.pick(&ordered)
    }
}
