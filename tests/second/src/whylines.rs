//! Scenes that ask why a word is picked or not, request e of document 02: of words
//! that are not selected in one bit or in several, whose syllables are satisfied,
//! settled against at any bit or equal to the bottom, and where a search is turned
//! down. A comment line `# picked B` promises of the `why` lines after it, and of
//! the search and the `list` that follow them, that "matched" was said of the very
//! words in which the search sets response bit B.

use crate::codes::{self, Wish};
use crate::values;
use crate::writer::Writer;

/// Lines that are nearly one, but for a number outside its range; and lines that ask
/// for a word far past the last, which were one there is if 32 or 16 bits were kept.
const ODD: [&str; 15] = [
    "why",
    "why 0 0",
    "why 0 1",
    "why -1",
    "why +0",
    "why 0x0",
    "why A",
    "why FF",
    "why 1.",
    "Why 0",
    "why\t0",
    "why 18446744073709551616",
    "why 4294967296",
    "why 4294967297",
    "why 65536",
];

impl Writer {
    /// Words made for a fair search, most of them asked for, and the search itself.
    pub fn asked_why(&mut self) {
        if self.n() > 12 || self.model.machine.check().is_err() || !self.rng.once_in(4) {
            self.machine_to_ask();
        }
        self.load_search_to_ask();
        let mut wishes = [Wish::Taken, Wish::Against, Wish::Equal, Wish::Any];
        self.rng.shuffle(&mut wishes);
        let left_out = self.rng.below(4) as usize;
        for (index, wish) in wishes.into_iter().enumerate().take(self.n()) {
            self.put_word_to_ask(index, wish, index == left_out);
        }
        self.why_and_search();
        for _ in 0..2 {
            self.why_left_out();
        }
        if self.rng.once_in(3) {
            let odd = self.rng.pick(&ODD);
            self.say(odd);
        }
    }

    /// The same where the search is turned down for the machine, the panel or both. What is
    /// wrong with a machine a resolution is turned down for as well.
    pub fn asked_in_vain(&mut self) {
        let wrong = self.rng.pick(&[0, 0, 0, 1, 2, 3, 4]);
        match wrong {
            0 if self.n() > 40 => self.machine_to_search(),
            0 => {}
            4 => self.machine_without_bits(),
            _ => self.make_machine_wrong(wrong),
        }
        let wrong_codes = self.rng.once_in(2);
        if wrong_codes {
            self.load_wrong_codes();
        }
        // Something is to be wrong.
        if self.rng.once_in(2) || (wrong == 0 && !wrong_codes) {
            self.load_stray_register();
        }
        self.why_and_search();
        if wrong > 0 && self.rng.once_in(3) {
            self.two_resolutions();
        }
        if wrong > 0 && !self.rng.once_in(4) {
            self.read_sound_machine();
        }
    }

    /// A line that asks, most often for a word that there is.
    pub fn why(&mut self) {
        let word = self.address();
        let word = self.decimal(word);
        self.say(format!("why {word}"));
    }

    /// A line that asks for a word that there is, if there is any.
    pub fn why_of_a_word(&mut self) {
        let n = self.n() as u64;
        let word = self.rng.below(n);
        self.say(format!("why {word}"));
    }

    /// A machine of width 0, where any one is a stray one: 2 and 3 at once, 2 and 4 if
    /// a register is loaded, and 1 too if the responses are too many or too few.
    fn machine_without_bits(&mut self) {
        let n = self.rng.between(1, 5);
        self.say(format!("machine 0 {n}"));
        if !self.rng.once_in(3) {
            let index = self.rng.below(n);
            self.say(format!("word {index} 1"));
        }
        if self.rng.once_in(3) {
            self.lend();
        }
    }

    /// A machine of the width whose turn it is, and an address for it at times.
    fn machine_to_ask(&mut self) {
        let width = self.asked % 64 + 1;
        self.asked = self.asked.wrapping_add(1);
        let n = self.rng.between(3, 5);
        self.say(format!("machine {width} {n}"));
        if self.rng.once_in(3) {
            let address = self.address();
            self.say(format!("load address {address}"));
        }
    }

    /// A search fair in all registers, most often with a syllable that has to be larger
    /// or smaller, and a care of several bits.
    fn load_search_to_ask(&mut self) {
        let width = self.width();
        let several = values::definition(&mut self.rng, width);
        let sdr = self.rng.pick(&[several, several, 0]);
        self.load("sdr", sdr);
        let comp = values::number(&mut self.rng, width, &[]);
        self.load("comp", comp);
        let codes = codes::to_ask(&mut self.rng, sdr, width);
        self.load_codes(codes);
        if self.rng.once_in(3) {
            let mor = values::number(&mut self.rng, width, &[u64::MAX]);
            self.load("mor", mor);
        }
        let key = u64::from(values::byte(&mut self.rng));
        self.load("key", key);
        let some = self.rng.next() & 0xFF;
        let upper = some & (0xFF << self.rng.below(8));
        let care = self.rng.pick(&[some, some, upper | 0x80, 0xFF, 0]);
        self.load("care", care);
    }

    /// A word by the panel's search, and its response by the key: for one of them so
    /// that it isn't selected, if care has a bit.
    fn put_word_to_ask(&mut self, index: usize, wish: Wish, left_out: bool) {
        let width = self.width();
        let word = codes::word_wished(&mut self.rng, &self.model.panel, width, wish);
        let word = self.hex(word);
        self.say(format!("word {index} {word}"));
        let turned = if left_out { self.turned_response() } else { 0 };
        self.put_response(index, turned);
    }

    /// Any word with a response that isn't selected, asked for again.
    fn why_left_out(&mut self) {
        let index = self.rng.below(self.n().min(4) as u64) as usize;
        let turned = self.turned_response();
        self.put_response(index, turned);
        self.say(format!("why {index}"));
    }

    /// The key with these bits turned over; what care doesn't have is left to chance.
    fn put_response(&mut self, index: usize, turned: u8) {
        let panel = self.model.panel;
        let other = self.rng.next() as u8;
        let response = ((panel.key ^ turned) & panel.care) | (other & !panel.care);
        self.say(format!("response {index} {response:X}"));
    }

    /// One of care's bits, and half of the time some of those above it too.
    fn turned_response(&mut self) -> u8 {
        let care = self.model.panel.care;
        let lowest = codes::one_of(&mut self.rng, u64::from(care)) as u8;
        let above = !(lowest | lowest.wrapping_sub(1));
        let several = self.rng.next() as u8 & above;
        lowest | (self.rng.pick(&[0, several, above]) & care)
    }

    /// Several words asked for, then the search with a target of one bit, and what it
    /// left. A held job that can't be stored would hide that. Words may be changed in
    /// the same pulse: those selected before it, though the target is often in care.
    fn why_and_search(&mut self) {
        if self.model.machine.check().is_ok() && !self.is_storable() {
            self.say("drop");
        }
        let target = self.rng.below(8);
        self.load("target", 1 << target);
        self.say(format!("# picked {target}"));
        self.ask_in_turn();
        let way = self.rng.pick(&["pulse", "cells"]);
        let lines = ["search", "search", "search multiwrite", "multiadd search"];
        let lines = self.rng.pick(&lines);
        self.say(format!("{way} {lines}"));
        self.say("list");
    }

    /// The first words, or as many as the promise reaches to, and one left to chance.
    fn ask_in_turn(&mut self) {
        for word in 0..self.n().min(4) {
            self.say(format!("why {word}"));
        }
        self.why();
    }

    /// One register of the panel gets a one at or above bit N.
    fn load_stray_register(&mut self) {
        let width = self.width();
        if width >= 64 {
            return;
        }
        let name = self.rng.pick(&["comp", "sdr", "sc1", "sc2", "sc3", "mor"]);
        let value = values::number(&mut self.rng, width, &[]);
        let stray = values::stray_bit(&mut self.rng, width);
        self.load(name, value | stray);
    }
}
