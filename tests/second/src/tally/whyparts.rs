//! What a search makes of each syllable of one word, for the counts of request e. The
//! second program goes down the cells to say why; here the same is read off the
//! numbers: "Read word and COMP over that syllable with don't-care bits taken as 0:
//! the word's number must be equal to, larger than or smaller than COMP's." So a
//! mistake in the one isn't one in the other.

use processor::panel::Panel;

/// The ways of a syllable that cares for a bit.
pub const WAYS: [&str; 5] = ["exact", "larger", "smaller", "at least", "at most"];

/// How a syllable ends.
#[derive(Clone, Copy, PartialEq, Eq)]
pub enum End {
    Satisfied,
    Against { at: u32 },
    Equal,
}

impl End {
    pub fn name(self) -> &'static str {
        match self {
            End::Satisfied => "satisfied",
            End::Against { .. } => "against",
            End::Equal => "equal to the bottom",
        }
    }
}

/// One syllable with its end.
pub struct Part {
    pub top: u32,
    pub low: u32,
    /// Its bits that are cared for, and all the others.
    pub kept: u64,
    pub idle: u64,
    /// One of the ways, or nothing if no bit is cared for.
    pub way: Option<&'static str>,
    pub end: End,
    /// Where word and COMP differ, over all its bits.
    pub differs: u64,
}

impl Part {
    /// The first difference from the top that counts, if there is one.
    pub fn settled(&self) -> Option<u32> {
        highest(self.differs & self.kept)
    }

    /// Whether a difference at a don't-care bit above that one is passed over, or any
    /// where there is none that counts.
    pub fn passes_over(&self) -> bool {
        highest(self.differs & self.idle) > self.settled()
    }
}

/// A word's syllables from the top one down. Number 5 isn't given for the panel.
pub fn parts(word: u64, panel: &Panel, width: u8) -> Vec<Part> {
    let last = u32::from(width) - 1;
    let is_top = |place: &u32| *place == last || panel.sdr >> place & 1 == 1;
    let tops: Vec<u32> = (0..=last).rev().filter(is_top).collect();
    let lows = tops.iter().skip(1).map(|next| next + 1).chain([0]);
    let both = tops.iter().zip(lows);
    both.map(|(top, low)| part(word, panel, *top, low))
        .collect()
}

fn part(word: u64, panel: &Panel, top: u32, low: u32) -> Part {
    let bits = (u64::MAX >> (63 - top)) & (u64::MAX << low);
    let kept = (panel.sc1 | panel.sc2) & bits;
    let way = way_of(panel, kept);
    Part {
        top,
        low,
        kept,
        idle: bits & !kept,
        way,
        end: end_of(word & kept, panel.comp & kept, way),
        differs: (word ^ panel.comp) & bits,
    }
}

/// All cared bits of a syllable carry the same code and the same setting of SC3.
fn way_of(panel: &Panel, kept: u64) -> Option<&'static str> {
    let over = |register: u64| register & kept != 0;
    match (over(panel.sc1), over(panel.sc2), over(panel.sc3)) {
        (false, false, _) => None,
        (false, true, _) => Some("exact"),
        (true, false, false) => Some("larger"),
        (true, true, false) => Some("smaller"),
        (true, false, true) => Some("at least"),
        (true, true, true) => Some("at most"),
    }
}

/// By the word's number and COMP's. Of two that differ the topmost difference is the
/// one that settles.
fn end_of(ours: u64, theirs: u64, way: Option<&str>) -> End {
    let satisfied = match way {
        Some("exact") => ours == theirs,
        Some("larger") => ours > theirs,
        Some("smaller") => ours < theirs,
        Some("at least") => ours >= theirs,
        Some("at most") => ours <= theirs,
        _ => true,
    };
    match highest(ours ^ theirs) {
        _ if satisfied => End::Satisfied,
        Some(at) => End::Against { at },
        None => End::Equal,
    }
}

/// The place of a number's topmost one.
fn highest(number: u64) -> Option<u32> {
    63u32.checked_sub(number.leading_zeros())
}
