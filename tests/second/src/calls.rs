//! Scenes of single calls: one with hardly any thought for what went before,
//! and several on a machine that every call turns down.

use crate::values;
use crate::writer::Writer;

impl Writer {
    /// A machine that 1, 2 or 3 is given for, several calls on it, and then
    /// perhaps a sound one again.
    pub fn turned_down(&mut self) {
        self.load_panel();
        match self.rng.below(4) {
            0 => self.stray_words(),
            1 => {
                self.lend();
                self.stray_words();
            }
            2 => self.wrong_machine(),
            _ => self.stray_words(),
        }
        for _ in 0..self.rng.between(4, 10) {
            self.single();
        }
        self.mend();
    }

    /// A width or a size that is turned down, or both.
    fn wrong_machine(&mut self) {
        let width = self.rng.pick(&[0, 1, 8, 64, 65, 66, 255]);
        let n = self.rng.pick(&[0, 1, 3, 5, 1025, 1025]);
        self.say(format!("machine {width} {n}"));
        if self.rng.once_in(2) {
            self.fill();
            self.load_panel();
            self.load_search();
            let lines = self.lines();
            self.say(format!("pulse {lines}"));
        }
    }

    /// Some words get a one at or above bit N.
    fn stray_words(&mut self) {
        let width = self.width();
        if width >= 64 {
            return;
        }
        for _ in 0..self.rng.between(1, 3) {
            let value = values::number(&mut self.rng, width, &[]);
            let value = value | values::stray_bit(&mut self.rng, width);
            let index = self.index();
            self.say(format!("word {index} {value:X}"));
        }
    }

    /// Every stray word is written again; any other fault needs a new machine.
    fn mend(&mut self) {
        let width = self.width();
        for _ in 0..3 {
            match self.model.machine.check() {
                Err(refusal) if refusal.number == 3 => {
                    let value = values::number(&mut self.rng, width, &[]);
                    self.say(format!("word {} {value:X}", refusal.also));
                }
                Err(_) if self.rng.once_in(2) => self.new_machine(),
                _ => return,
            }
        }
    }

    /// One command with hardly any thought for what went before.
    pub fn single(&mut self) {
        let x = self.rng.pick(&[0, 1, 2, 3, 7, 8, 255]);
        let f = self.rng.pick(&[0, 1, 2, 3, 7, 8, 255]);
        let word = self.address();
        match self.rng.below(19) {
            0 => drop(self.say("step")),
            1 => drop(self.say("run")),
            2 => drop(self.say("total")),
            3 => drop(self.say("drop")),
            4 => drop(self.say("panel")),
            5 => drop(self.say(format!("show {x}"))),
            6 => drop(self.say(format!("done {x} {f} {word}"))),
            7 => drop(self.say(format!("faulty {x} {f} {word}"))),
            8 => drop(self.say("resolve")),
            9 => drop(self.say("tree")),
            10 => self.look(),
            11 => self.lend(),
            12 => {
                let job = self.wish();
                self.start(&job);
            }
            13 => self.room(),
            14..=16 => {
                let lines = self.lines();
                let way = self.rng.pick(&["pulse", "cells"]);
                self.say(format!("{way} {lines}"));
            }
            17 => self.why(),
            _ => self.load_panel(),
        }
    }
}
