//! Scenes with hand-out rounds: one that is kept as the document says, with
//! stops, and one of answers that are often turned down.

use crate::values;
use crate::writer::Writer;

/// Most answers that a kept round is followed for.
const MOST_ANSWERS: usize = 30;

impl Writer {
    /// A response bit for the round and another for the faulty words.
    fn round_bits(&mut self) -> (u64, u64) {
        let x = self.rng.below(8);
        (x, (x + self.rng.between(1, 7)) % 8)
    }

    /// Some words get X, so that there is something to hand out.
    fn mark(&mut self, x: u64, words: u64) {
        for _ in 0..words {
            let index = self.index();
            let response = values::byte(&mut self.rng) | (1 << x) as u8;
            self.say(format!("response {index} {response:X}"));
        }
    }

    /// A round to its end: an image before the first show and after each
    /// answer. At a stop the machine is read from its last image, and the word
    /// that stood unanswered is shown again.
    pub fn kept_round(&mut self) {
        let (x, f) = self.round_bits();
        let marked = self.rng.between(1, 9);
        self.mark(x, marked);
        if !self.is_storable() || self.n() > 100 {
            return;
        }
        let mut image = self.say("store").replacen("image", "resume", 1);
        for _ in 0..MOST_ANSWERS {
            let stops = self.rng.once_in(5);
            if stops {
                self.say("# same 1 3");
            }
            let shown = self.say(format!("show {x}"));
            if stops {
                self.say(&image);
                self.say(format!("show {x}"));
            }
            let word = match shown.strip_prefix("word ") {
                Some(word) => word,
                None => return,
            };
            self.answer_kept(&image, x, f, word);
            image = self.say("store").replacen("image", "resume", 1);
        }
    }

    /// An answer for the shown word. If the stop comes before the image is
    /// stored, the same word is shown and answered a second time.
    fn answer_kept(&mut self, image: &str, x: u64, f: u64, word: &str) {
        let verdict = self.rng.pick(&["done", "done", "faulty"]);
        self.say(format!("{verdict} {x} {f} {word}"));
        if self.rng.once_in(8) {
            self.say(image);
            self.say(format!("show {x}"));
            self.say(format!("{verdict} {x} {f} {word}"));
        }
    }

    /// A looser round: answers for other words too, stops at older images or
    /// at those of other machines, and sometimes no end.
    pub fn loose_round(&mut self) {
        let (x, f) = self.round_bits();
        let marked = self.rng.between(0, 3);
        self.mark(x, marked);
        let small = self.n() <= 40;
        if small {
            self.say("store");
        }
        for _ in 0..self.rng.between(1, 8) {
            let shown = self.say(format!("show {x}"));
            if shown == "none" && !self.rng.once_in(4) {
                return;
            }
            self.answer_shown(&shown, x, f);
            if small && !self.rng.once_in(5) {
                self.say("store");
            }
            if self.rng.once_in(6) {
                self.resume_saved();
            }
        }
        self.say(format!("show {x}"));
    }

    /// An answer for the shown word, now and then for another or twice.
    pub fn answer_shown(&mut self, shown: &str, x: u64, f: u64) {
        let word = shown.strip_prefix("word ").unwrap_or("0").to_string();
        let verdict = self.rng.pick(&["done", "faulty"]);
        let wrong = self.address();
        match self.rng.below(20) {
            0 => drop(self.say(format!("{verdict} {x} {f} {wrong}"))),
            1 => drop(self.say(format!("{verdict} {x} {x} {word}"))),
            2 => drop(self.say(format!("{verdict} {f} {x} {word}"))),
            3 => drop(self.say(format!("{verdict} {x} 8 {word}"))),
            4 => drop(self.say(format!("{verdict} {x} {f} 18446744073709551615"))),
            5 => drop(self.say(format!("{verdict} {x} {x} {wrong}"))),
            6 => drop(self.say(format!("{verdict} {x} 255 {wrong}"))),
            7 => drop(self.say(format!("{verdict} 8 8 {word}"))),
            8 => drop(self.say(format!("{verdict} 8 {f} {word}"))),
            _ => {}
        }
        self.say(format!("{verdict} {x} {f} {word}"));
        if self.rng.once_in(10) {
            self.say(format!("{verdict} {x} {f} {word}"));
        }
    }
}
