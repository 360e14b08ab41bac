//! Scenes with searches at their edge: words equal to COMP over a syllable, and
//! next to it, where at least and larger part; and with codes that 5 is given
//! for.

use crate::codes::{self, Codes};
use crate::values;
use crate::writer::Writer;
use processor::syllable::Syllable;

/// Larger, at least, at most and smaller, by SC2 and SC3: from each to the next
/// one register changes, and from the last to the first.
const WAYS: [(bool, bool); 4] = [(false, false), (false, true), (true, true), (true, false)];

impl Writer {
    /// One search on both machines, and then with one syllable's setting of SC3
    /// turned over: the words that are equal there tell the two apart.
    pub fn search_at_its_edge(&mut self) {
        if self.n() > 40 || self.model.machine.check().is_err() || self.rng.once_in(2) {
            self.machine_to_search();
        }
        self.load_fair_search();
        for _ in 0..self.rng.between(2, 5) {
            self.put_word_at_the_edge();
        }
        let lines = self.search_lines();
        self.on_both(&lines);
        self.why_of_a_word();
        for _ in 0..self.rng.between(1, 2) {
            let width = self.width();
            let sc3 = codes::turned(&mut self.rng, &self.model.panel, width);
            self.load("sc3", sc3);
            let way = self.rng.pick(&["pulse", "cells"]);
            self.say(format!("{way} search"));
        }
    }

    /// One syllable of every width in turn, searched in all four ways that compare,
    /// each on both machines: on words equal to COMP there and next to it. A new
    /// machine's care is 0, so that the two searches of a way select the same.
    pub fn every_way(&mut self) {
        let syllable = self.machine_with_a_syllable();
        let width = self.width();
        let comp = values::number(&mut self.rng, width, &[]);
        self.load("comp", comp);
        let others = codes::fair(&mut self.rng, self.model.panel.sdr, width);
        let some = self.rng.next() | self.rng.next();
        let kept = syllable.bits() & self.rng.pick(&[some, u64::MAX]);
        let first = self.rng.below(4) as usize;
        let ways = WAYS.iter().cycle().skip(first).take(4);
        for (turn, (sc2, sc3)) in ways.enumerate() {
            self.load_changed(Codes {
                sc1: with(others.sc1, syllable, kept),
                sc2: with(others.sc2, syllable, if *sc2 { kept } else { 0 }),
                sc3: with(others.sc3, syllable, if *sc3 { kept } else { 0 }),
            });
            if turn == 0 {
                self.put_words_near(syllable);
            }
            self.load("target", 1 << turn);
            self.say("# same 1 2");
            self.say("pulse search");
            self.say("cells search");
            self.why_of_a_word();
        }
        self.look();
    }

    /// A machine of a few words, its SDR with one syllable of the width whose
    /// turn it is, at the bottom, at the top or between others.
    fn machine_with_a_syllable(&mut self) -> Syllable {
        let size = self.turn % 64 + 1;
        self.turn = self.turn.wrapping_add(1);
        let more = self.rng.between(size, 64);
        let width = self.rng.pick(&[size, more, more, 64]);
        let slack = width - size;
        let any = self.rng.between(0, slack);
        let syllable = Syllable {
            low: self.rng.pick(&[0, slack, any]) as u32,
            width: size as u32,
        };
        let n = self.rng.between(3, 5);
        self.say(format!("machine {width} {n}"));
        let sdr = codes::around(&mut self.rng, syllable, width as u8);
        self.load("sdr", sdr);
        syllable
    }

    /// The search registers, those alone that are to be others than they are.
    fn load_changed(&mut self, codes: Codes) {
        let panel = self.model.panel;
        let registers = [
            ("sc1", panel.sc1, codes.sc1),
            ("sc2", panel.sc2, codes.sc2),
            ("sc3", panel.sc3, codes.sc3),
        ];
        for (name, now, wanted) in registers {
            if now != wanted {
                self.load(name, wanted);
            }
        }
    }

    /// Every word equal to COMP over the syllable, next above it or next below.
    fn put_words_near(&mut self, syllable: Syllable) {
        let width = self.width();
        for index in 0..self.n() {
            let panel = self.model.panel;
            let word = codes::word_near(&mut self.rng, &panel, width, Some(syllable), index % 3);
            let word = self.hex(word);
            self.say(format!("word {index} {word}"));
        }
    }

    /// A search that 5 is given for, on both machines, and then the same panel
    /// without a search. A machine that is wrong itself is often left so.
    pub fn wrong_search(&mut self) {
        let unsound = self.model.machine.check().is_err() && self.rng.once_in(2);
        if self.n() > 40 || unsound {
            self.machine_to_search();
        }
        self.load_wrong_codes();
        self.why();
        let lines = self.search_lines();
        self.on_both(&lines);
        let way = self.rng.pick(&["pulse", "cells"]);
        let other = self.rng.pick(&["read", "multiadd", "complement"]);
        self.say(format!("{way} {other}"));
    }

    pub fn load_wrong_codes(&mut self) {
        let width = self.width();
        let sdr = values::definition(&mut self.rng, width);
        self.load("sdr", sdr);
        let wrong = codes::wrong(&mut self.rng, sdr, width);
        self.load_codes(wrong);
    }

    /// A small machine, its width often 64, else any width alike.
    pub fn machine_to_search(&mut self) {
        let any = self.rng.between(1, 64);
        let width = self.rng.pick(&[64, any, any, any, any]);
        let n = self.rng.between(2, 8);
        self.say(format!("machine {width} {n}"));
    }

    /// Registers that no number is given for, and most often all words
    /// selected.
    pub fn load_fair_search(&mut self) {
        let width = self.width();
        if !self.rng.once_in(4) {
            let several = values::definition(&mut self.rng, width);
            let sdr = self.rng.pick(&[several, 0]);
            self.load("sdr", sdr);
        }
        let comp = values::comparand(&mut self.rng, width, &self.model.machine.words);
        self.load("comp", comp);
        let fair = codes::fair(&mut self.rng, self.model.panel.sdr, width);
        self.load_codes(fair);
        if !self.rng.once_in(4) {
            self.load("care", 0);
        }
        let target = 1 << self.rng.below(8);
        self.load("target", target);
    }

    fn put_word_at_the_edge(&mut self) {
        let width = self.width();
        let index = self.index();
        let word = codes::word_at_the_edge(&mut self.rng, &self.model.panel, width);
        let word = self.hex(word);
        self.say(format!("word {index} {word}"));
    }

    /// A search alone, or with one of the lines it may be raised with.
    fn search_lines(&mut self) -> String {
        let other = self
            .rng
            .pick(&["read", "write", "add", "multiwrite", "multiadd"]);
        match self.rng.below(4) {
            0 => format!("{other} search"),
            1 => format!("search {other}"),
            _ => "search".to_string(),
        }
    }
}

/// A register with these bits in the place of those over one syllable.
fn with(register: u64, syllable: Syllable, bits: u64) -> u64 {
    (register & !syllable.bits()) | bits
}
