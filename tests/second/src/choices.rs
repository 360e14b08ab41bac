//! What an operation of the array of three-state cells chooses from: the
//! registers, masks, selector latches and forms of source document 001, each
//! with the console's word for it.

/// The first word of each of the array's lines.
pub const COMMANDS: [&[u8]; 8] = [
    b"cells3", b"cell3", b"select3", b"load3", b"search3", b"read3", b"write3", b"list3",
];

/// "The specified data register (R1, R2)."
#[derive(Clone, Copy, Debug, PartialEq, Eq)]
pub enum Data {
    R1,
    R2,
}

/// "The specified mask (M, all 1's, all 0's)."
#[derive(Clone, Copy, Debug, PartialEq, Eq)]
pub enum Mask {
    M,
    Ones,
    Zeros,
}

/// "Word mismatch signals, in true or complement form": the words that have
/// none agree.
#[derive(Clone, Copy, Debug, PartialEq, Eq)]
pub enum Words {
    Agree,
    Disagree,
}

/// "One of two sets of selector latches (P and S)."
#[derive(Clone, Copy, Debug, PartialEq, Eq)]
pub enum Latches {
    P,
    S,
}

/// "They may be ANDed or ORed with, or replace the contents."
#[derive(Clone, Copy, Debug, PartialEq, Eq)]
pub enum How {
    Replace,
    And,
    Or,
}

/// "A specified set of selector latches (P, S, all 0's)."
#[derive(Clone, Copy, Debug, PartialEq, Eq)]
pub enum Selector {
    P,
    S,
    None,
}

/// "In true or complement form."
#[derive(Clone, Copy, Debug, PartialEq, Eq)]
pub enum Sense {
    True,
    Complement,
}

/// "Used to load a specified register (R1, R2, M)."
#[derive(Clone, Copy, Debug, PartialEq, Eq)]
pub enum Sink {
    R1,
    R2,
    M,
}

/// "Two write commands are provided: Write Normal, and Write Special."
#[derive(Clone, Copy, Debug, PartialEq, Eq)]
pub enum Kind {
    Normal,
    Special,
}

pub const DATA: [(&str, Data); 2] = [("r1", Data::R1), ("r2", Data::R2)];
pub const MASKS: [(&str, Mask); 3] = [("m", Mask::M), ("ones", Mask::Ones), ("zeros", Mask::Zeros)];
pub const WORDS: [(&str, Words); 2] = [("agree", Words::Agree), ("disagree", Words::Disagree)];
pub const LATCHES: [(&str, Latches); 2] = [("p", Latches::P), ("s", Latches::S)];
pub const HOWS: [(&str, How); 3] = [
    ("replace", How::Replace),
    ("and", How::And),
    ("or", How::Or),
];
pub const SELECTORS: [(&str, Selector); 3] = [
    ("p", Selector::P),
    ("s", Selector::S),
    ("none", Selector::None),
];
pub const SENSES: [(&str, Sense); 2] = [("true", Sense::True), ("complement", Sense::Complement)];
pub const SINKS: [(&str, Sink); 3] = [("r1", Sink::R1), ("r2", Sink::R2), ("m", Sink::M)];
pub const KINDS: [(&str, Kind); 2] = [("normal", Kind::Normal), ("special", Kind::Special)];

/// The choice that a word of the console names.
pub fn chosen<T: Copy>(word: &[u8], choices: &[(&str, T)]) -> Option<T> {
    let mut found = choices.iter().filter(|(name, _)| name.as_bytes() == word);
    found.next().map(|(_, choice)| *choice)
}

/// `search3 DATA MASK WORDS SET HOW`.
#[derive(Clone, Copy, Debug, PartialEq, Eq)]
pub struct Search {
    pub data: Data,
    pub mask: Mask,
    pub words: Words,
    pub latches: Latches,
    pub how: How,
}

/// `read3 SET SENSE SINK MASK`.
#[derive(Clone, Copy, Debug, PartialEq, Eq)]
pub struct Read {
    pub selector: Selector,
    pub sense: Sense,
    pub sink: Sink,
    pub mask: Mask,
}

/// `write3 KIND DATA MASK SET SENSE`.
#[derive(Clone, Copy, Debug, PartialEq, Eq)]
pub struct Write {
    pub kind: Kind,
    pub data: Data,
    pub mask: Mask,
    pub selector: Selector,
    pub sense: Sense,
}

impl Search {
    pub fn named(words: &[&[u8]]) -> Option<Search> {
        match words {
            [data, mask, agreeing, latches, how] => Some(Search {
                data: chosen(data, &DATA)?,
                mask: chosen(mask, &MASKS)?,
                words: chosen(agreeing, &WORDS)?,
                latches: chosen(latches, &LATCHES)?,
                how: chosen(how, &HOWS)?,
            }),
            _ => None,
        }
    }
}

impl Read {
    pub fn named(words: &[&[u8]]) -> Option<Read> {
        match words {
            [selector, sense, sink, mask] => Some(Read {
                selector: chosen(selector, &SELECTORS)?,
                sense: chosen(sense, &SENSES)?,
                sink: chosen(sink, &SINKS)?,
                mask: chosen(mask, &MASKS)?,
            }),
            _ => None,
        }
    }
}

impl Write {
    pub fn named(words: &[&[u8]]) -> Option<Write> {
        match words {
            [kind, data, mask, selector, sense] => Some(Write {
                kind: chosen(kind, &KINDS)?,
                data: chosen(data, &DATA)?,
                mask: chosen(mask, &MASKS)?,
                selector: chosen(selector, &SELECTORS)?,
                sense: chosen(sense, &SENSES)?,
            }),
            _ => None,
        }
    }
}
