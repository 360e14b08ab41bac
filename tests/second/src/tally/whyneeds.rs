//! What the random scripts of the gate have to bring out of request e: each answer at
//! every width, for every code, at every bit where it can stand, and what hides or is
//! hidden by it; and each number alone and beside any other.

use super::needed::{Needs, OFTEN, REGULARLY, SOMETIMES};
use super::reasons::CODE_REASONS;
use super::whyparts::WAYS;

/// Least counts between those of the other needs: there are many of these that come by
/// several chances at once.
const NOW_AND_THEN: u64 = 25;
const SELDOM: u64 = 10;

const ANSWERS: [&str; 4] = ["matched", "not selected", "against", "equal to the bottom"];

/// The answers that tell a syllable.
const TOLD: [&str; 2] = ["against", "equal to the bottom"];

/// The ways that an equal number doesn't satisfy, and those that it does beside others.
const BEYOND: [&str; 2] = ["larger", "smaller"];
const FROM: [&str; 2] = ["at least", "at most"];

/// The numbers that can be given.
const NUMBERS: [u8; 6] = [1, 2, 3, 4, 5, 7];

const REGISTERS: [&str; 6] = ["comp", "sdr", "sc1", "sc2", "sc3", "mor"];

/// Other things by name.
const NAMED: [&str; 6] = [
    "word 0",
    "word n-1",
    "while the address is n",
    "while the address is 2^64-1",
    "while a job is held",
    "while the target is in care",
];

const RARER: [&str; 3] = ["word n", "word 2^64-1", "with leading zeros"];

/// What a line can be bad for.
const BAD: [&str; 8] = [
    "too few words",
    "too many words",
    "a sign",
    "hex digits",
    "a number of 2^64 or above",
    "another byte",
    "a tab",
    "a name in capitals",
];

impl Needs {
    pub fn why(&mut self) {
        self.why_answers();
        self.why_selection();
        self.why_ways();
        self.why_against();
        self.why_syllables();
        self.why_refusals();
        self.why_held();
        for name in NAMED {
            self.add(OFTEN, format!("why: {name}"));
        }
        for name in RARER {
            self.add(REGULARLY, format!("why: {name}"));
        }
        self.add(SELDOM, "why: a word but for its upper 32 bits");
        for what in BAD {
            self.add(SOMETIMES, format!("why: bad for {what}"));
        }
    }

    fn why_answers(&mut self) {
        self.add(OFTEN, "why: accepted");
        for answer in ANSWERS {
            self.add(OFTEN, format!("why: {answer}"));
            for width in 1..=64 {
                self.add(SOMETIMES, format!("why: {answer} at width {width}"));
            }
        }
    }

    /// Bit 7 is the lowest of several bits never, and bit 0 has none below it.
    fn why_selection(&mut self) {
        for bit in 0..8 {
            let head = format!("why: not selected bit {bit}");
            self.add(NOW_AND_THEN, format!("{head}, alone"));
            self.add(NOW_AND_THEN, format!("{head}, syllables satisfied"));
            self.add(NOW_AND_THEN, format!("{head}, syllables not"));
            if bit < 7 {
                self.add(NOW_AND_THEN, format!("{head}, one of several"));
            }
            if bit > 0 {
                self.add(NOW_AND_THEN, format!("{head}, others below outside care"));
            }
        }
    }

    /// Of each way every end that it can have, with a difference where nobody cares.
    fn why_ways(&mut self) {
        for way in WAYS {
            self.add(OFTEN, format!("why: against in {way}"));
            self.add(OFTEN, format!("why: matched with {way}"));
        }
        for way in BEYOND {
            let head = format!("why: equal to the bottom in {way}");
            self.add(OFTEN, format!("{head}, a don't-care bit passed over"));
            self.add(OFTEN, head);
        }
        for way in FROM {
            self.add(OFTEN, format!("why: matched with {way} equal"));
            self.add(OFTEN, format!("why: matched with {way} settled for"));
        }
        for way in WAYS {
            for (least, head) in [(NOW_AND_THEN, "against in"), (REGULARLY, "matched with")] {
                let name = format!("why: {head} {way}, a don't-care bit passed over");
                self.add(least, name);
            }
        }
        self.add(OFTEN, "why: matched with don't-cares alone");
        for told in TOLD {
            for width in 1..=64 {
                self.add(SOMETIMES, format!("why: {told} over {width} bits"));
            }
        }
    }

    /// The bit that settles, and the don't-care bits around it.
    fn why_against(&mut self) {
        for way in WAYS {
            let head = format!("why: against in {way}");
            for place in [
                "the only bit",
                "the top bit",
                "the bottom bit",
                "a bit between",
            ] {
                self.add(NOW_AND_THEN, format!("{head} at {place}"));
            }
            for place in ["above", "next above", "next below", "below"] {
                self.add(SELDOM, format!("{head}, a don't-care bit {place}"));
            }
            self.add(OFTEN, format!("{head}, a lower bit differing too"));
        }
    }

    /// Which syllable is told of several, and by which bit.
    fn why_syllables(&mut self) {
        for told in TOLD {
            let head = format!("why: {told}");
            self.add(OFTEN, format!("{head}, the only one"));
            self.add(REGULARLY, format!("{head}, the topmost of 2"));
            self.add(NOW_AND_THEN, format!("{head}, the topmost of 3"));
            self.add(REGULARLY, format!("{head}, the topmost of more"));
            for way in WAYS {
                self.add(SELDOM, format!("{head}, below one of {way} satisfied"));
            }
            self.add(OFTEN, format!("{head}, below one of don't-cares satisfied"));
            for end in ["satisfied", "against", "equal to the bottom"] {
                self.add(REGULARLY, format!("{head}, above one {end}"));
            }
            for by in [
                "a don't-care bit",
                "bit N-1 without a one of SDR",
                "bit N-1 with a one of SDR",
                "a bit below N-1",
            ] {
                self.add(OFTEN, format!("{head}, told by {by}"));
            }
        }
    }

    /// Every number as the only one, for each reason alone, and any two of them.
    fn why_refusals(&mut self) {
        for (at, first) in NUMBERS.iter().enumerate() {
            self.add(NOW_AND_THEN, format!("why: {first} alone"));
            for other in &NUMBERS[at + 1..] {
                self.add(SELDOM, format!("why: numbers {first} and {other} at once"));
            }
        }
        for register in REGISTERS {
            self.add(SELDOM, format!("why: 4 for {register} alone"));
        }
        for reason in CODE_REASONS {
            self.add(REGULARLY, format!("why: 5 for {reason} alone"));
        }
    }

    /// What the promise `# picked B` holds against a search on each machine.
    fn why_held(&mut self) {
        for way in ["pulse", "cells"] {
            for answer in ANSWERS {
                self.add(OFTEN, format!("why: {answer} held against {way}"));
            }
            for number in NUMBERS {
                self.add(
                    NOW_AND_THEN,
                    format!("why: refused {number} held against {way}"),
                );
            }
        }
    }
}
