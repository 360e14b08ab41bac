//! Scenes with the array of three-state cells: sound arrays that are filled,
//! searched, read and written, arrays with one or more of the numbers 1, 2, 3,
//! 12 and 4 against them, and lines of its commands that are hardly any.

use crate::values;
use crate::writer::Writer;
use processor::choices::{DATA, HOWS, KINDS, LATCHES, SELECTORS, SENSES, SINKS, WORDS};
use processor::machine::{is_stray, one_at, ones};

/// Up to so many words an array is listed whenever it may have changed.
const FEW: usize = 40;

/// The registers' names.
const REGISTERS: [&str; 3] = ["r1", "r2", "m"];

/// The faults an array can have, by their numbers.
const FAULTS: [u8; 5] = [1, 2, 3, 12, 4];

/// Words that stand in no place of an operation.
const NO_CHOICES: [&str; 14] = [
    "r3", "r", "x", "q", "all", "none0", "one", "zero", "not", "xor", "0", "1", "m1", "\u{3b2}",
];

impl Writer {
    /// One scene of the array, after what may be out of order has been set
    /// right.
    pub fn array_scene(&mut self) {
        if self.rng.once_in(4) {
            self.look_at_array();
        }
        self.heal_array();
        match self.rng.below(20) {
            0..=2 => self.new_array(),
            3 | 4 => self.fill_array(),
            5..=12 => self.some_operations(),
            13..=16 => self.spoiled_array(),
            17 => drop(self.say("list3")),
            _ => self.bad_array_line(),
        }
    }

    /// The number of the array's words, and its width.
    fn array_n(&self) -> usize {
        self.model.array.ones.len()
    }

    fn array_width(&self) -> u8 {
        self.model.array.width
    }

    /// The number of a word, the last often among them, and now and then n.
    fn array_index(&mut self) -> u64 {
        let n = self.array_n() as u64;
        let any = self.rng.below(n);
        if self.rng.once_in(40) {
            return n;
        }
        self.rng.pick(&[0, n.saturating_sub(1), any, any, any])
    }

    /// Sets right, sooner or later, what makes every operation be turned down.
    fn heal_array(&mut self) {
        for _ in 0..4 {
            let refusal = self.model.array.check().err();
            match refusal.map(|refusal| (refusal.number, refusal.also)) {
                _ if self.rng.once_in(5) => return,
                Some((3, index)) => self.write_sound_cells(index as u64),
                Some((12, _)) => self.mend_cells(),
                Some((4, _)) => self.mend_registers(),
                Some(_) => self.new_array(),
                None if self.array_n() > FEW && self.rng.once_in(3) => self.new_array(),
                None => return,
            }
        }
    }

    /// The first word with a cell that is none of the three is written again.
    fn mend_cells(&mut self) {
        let array = &self.model.array;
        let mut planes = array.ones.iter().zip(&array.xs);
        if let Some(index) = planes.position(|(ones, xs)| ones & xs != 0) {
            self.write_sound_cells(index as u64);
        }
    }

    fn mend_registers(&mut self) {
        let width = self.array_width();
        for name in REGISTERS {
            let value = self.register3(name);
            if is_stray(value, width) {
                self.load3(name, value & ones(u32::from(width)));
            }
        }
    }

    fn register3(&self, name: &str) -> u64 {
        match name {
            "r1" => self.model.array.r1,
            "r2" => self.model.array.r2,
            _ => self.model.array.m,
        }
    }

    fn load3(&mut self, register: &str, value: u64) {
        let value = self.hex(value);
        self.say(format!("load3 {register} {value}"));
    }

    /// A fresh array. A small one gets all its words, a large one a few and
    /// then a write to many, since a script has no room for each.
    fn new_array(&mut self) {
        let width = values::array_width(&mut self.rng);
        let n = values::array_size(&mut self.rng);
        self.say(format!("cells3 {width} {n}"));
        if n <= 8 {
            for index in 0..n as u64 {
                self.write_sound_cells(index);
            }
        }
        self.fill_array();
        self.load_some();
        if n > FEW {
            let kind = self.rng.pick(&KINDS).0;
            self.say(format!("write3 {kind} r1 m none complement"));
            if self.rng.once_in(3) {
                self.say("list3");
            }
        }
    }

    /// The host writes some words' cells and selectors.
    fn fill_array(&mut self) {
        for _ in 0..self.rng.between(1, 6) {
            let index = self.array_index();
            if self.rng.once_in(2) {
                self.write_sound_cells(index);
            } else {
                self.write_selectors(index);
            }
        }
    }

    /// Two planes within the width with no one in common.
    fn write_sound_cells(&mut self, index: u64) {
        let width = self.array_width();
        let xs = values::xs(&mut self.rng, width);
        let known = &self.model.array.ones;
        let ones = values::number(&mut self.rng, width, known) & !xs;
        self.write_cells(index, ones, xs);
    }

    fn write_cells(&mut self, index: u64, ones: u64, xs: u64) {
        let index = self.decimal(index);
        let (ones, xs) = (self.hex(ones), self.hex(xs));
        self.say(format!("cell3 {index} {ones} {xs}"));
    }

    /// P and S by chance, now and then with some of the other bits.
    fn write_selectors(&mut self, index: u64) {
        let others = self.rng.pick(&[0, 0, 0xFC, 4, 0x80, 0x54]);
        let value = self.rng.below(4) | others;
        let index = self.decimal(index);
        let value = self.hex(value);
        self.say(format!("select3 {index} {value}"));
    }

    /// Some of the registers: data that a word agrees with or nearly, and a
    /// mask of few bits or many.
    fn load_some(&mut self) {
        for name in ["r1", "r2"] {
            if self.rng.once_in(2) {
                let value = self.data();
                self.load3(name, value);
            }
        }
        if self.rng.once_in(2) {
            let width = self.array_width();
            let mask = values::mask(&mut self.rng, width);
            let mask = values::perhaps_stray(&mut self.rng, width, mask);
            self.load3("m", mask);
        }
    }

    fn data(&mut self) -> u64 {
        let width = self.array_width();
        let index = self.rng.below(self.array_n() as u64) as usize;
        let array = &self.model.array;
        let value = match (array.ones.get(index), array.xs.get(index)) {
            (Some(ones), Some(xs)) => ones | (xs & self.rng.next()),
            _ => 0,
        };
        let value = values::comparand(&mut self.rng, width, &[value]);
        values::perhaps_stray(&mut self.rng, width, value)
    }

    /// The words of an operation, each of its choices as likely as another but
    /// for the mask M, which says more than the two others.
    fn operation(&mut self) -> Vec<&'static str> {
        let mask = self.rng.pick(&["m", "m", "ones", "zeros"]);
        let data = self.rng.pick(&DATA).0;
        let selector = self.rng.pick(&SELECTORS).0;
        let sense = self.rng.pick(&SENSES).0;
        match self.rng.below(3) {
            0 => {
                let words = self.rng.pick(&WORDS).0;
                let latches = self.rng.pick(&LATCHES).0;
                let how = self.rng.pick(&HOWS).0;
                vec!["search3", data, mask, words, latches, how]
            }
            1 => {
                let sink = self.rng.pick(&SINKS).0;
                vec!["read3", selector, sense, sink, mask]
            }
            _ => {
                let kind = self.rng.pick(&KINDS).0;
                vec!["write3", kind, data, mask, selector, sense]
            }
        }
    }

    fn operate(&mut self) {
        let words = self.operation();
        self.say(words.join(" "));
    }

    /// Some operations, one after the other on what the last one left.
    fn some_operations(&mut self) {
        self.load_some();
        if self.rng.once_in(3) {
            self.fill_array();
        }
        for _ in 0..self.rng.between(2, 8) {
            self.operate();
            if self.rng.once_in(2) {
                self.look_at_array();
            }
            if self.rng.once_in(4) {
                self.load_some();
            }
        }
        self.look_at_array();
    }

    /// What the array is now; a large one is seldom listed.
    fn look_at_array(&mut self) {
        let n = self.array_n();
        if n <= FEW || (n <= 1024 && self.rng.once_in(8)) || self.rng.once_in(30) {
            self.say("list3");
        }
    }

    /// An array with one, two or three of its faults at once, and some
    /// operations on it.
    fn spoiled_array(&mut self) {
        let mut faults = FAULTS;
        self.rng.shuffle(&mut faults);
        let many = self.rng.pick(&[1, 2, 2, 2, 3]);
        let faults = &faults[..many];
        self.make_for(faults);
        for fault in faults {
            match fault {
                3 => self.stray_cells(),
                12 => self.both_planes(),
                4 => self.stray_register(),
                _ => {}
            }
        }
        for _ in 0..self.rng.between(2, 5) {
            self.operate();
        }
        self.look_at_array();
    }

    /// An array of a wrong size or width, or one that has room for ones
    /// outside the width.
    fn make_for(&mut self, faults: &[u8]) {
        let outside = faults.contains(&3) || faults.contains(&4);
        let mut width = if outside {
            self.rng.pick(&[1, 2, 8, 32, 62, 63])
        } else {
            values::good_width(&mut self.rng)
        };
        let mut n = self.rng.between(1, 6);
        if faults.contains(&2) {
            width = if outside {
                0
            } else {
                self.rng.pick(&[0, 65, 66, 255])
            };
        }
        if faults.contains(&1) {
            n = self.rng.pick(&[0, 1025, 1025, 2048]);
        }
        let wrong = faults.contains(&1) || faults.contains(&2);
        if wrong || (outside && self.array_width() > 63) || self.array_n() == 0 {
            self.say(format!("cells3 {width} {n}"));
            self.fill_array();
        }
    }

    /// A one at or above the width in one plane or in both, in some words.
    fn stray_cells(&mut self) {
        let width = self.array_width();
        if width >= 64 {
            return;
        }
        for _ in 0..self.rng.between(1, 2) {
            let stray = values::stray_bit(&mut self.rng, width);
            let another = values::stray_bit(&mut self.rng, width);
            let other = self.rng.pick(&[0, 0, stray, another]);
            if self.rng.once_in(2) {
                self.add_ones(stray, other);
            } else {
                self.add_ones(other, stray);
            }
        }
    }

    /// A one in both planes at the same place, the lowest and the highest
    /// often among them.
    fn both_planes(&mut self) {
        let width = u64::from(self.array_width().clamp(1, 64));
        let any = self.rng.below(width);
        let place = one_at(self.rng.pick(&[0, width - 1, any]) as u32);
        self.add_ones(place, place);
    }

    /// More ones in a word's planes.
    fn add_ones(&mut self, ones: u64, xs: u64) {
        let index = self.array_index();
        let array = &self.model.array;
        let at = index as usize;
        let held = |plane: &[u64]| plane.get(at).copied().unwrap_or(0);
        let (old_ones, old_xs) = (held(&array.ones), held(&array.xs));
        self.write_cells(index, old_ones | ones, old_xs | xs);
    }

    fn stray_register(&mut self) {
        let width = self.array_width();
        if width >= 64 {
            return;
        }
        let name = self.rng.pick(&REGISTERS);
        let value = self.register3(name) | values::stray_bit(&mut self.rng, width);
        self.load3(name, value);
    }

    /// An operation with a word changed, one too few or too many, or a write
    /// of the host's that is out of range.
    fn bad_array_line(&mut self) {
        let mut words: Vec<String> = self.operation().iter().map(|w| w.to_string()).collect();
        let place = self.rng.between(1, words.len() as u64 - 1) as usize;
        match self.rng.below(14) {
            0 | 1 => words[place].make_ascii_uppercase(),
            2 => drop(words.remove(place)),
            3 => words.insert(place, words[place].clone()),
            4 => words.push(self.rng.pick(&["0", "p", "true", "and"]).to_string()),
            5 => words.swap(place, 1),
            6..=8 => words[place] = self.rng.pick(&NO_CHOICES).to_string(),
            9..=11 => words[place] = self.other_choice(),
            _ => return self.host_out_of_range(),
        }
        self.say(words.join(" "));
    }

    /// A word that has its place in some operation.
    fn other_choice(&mut self) -> String {
        let other = self.operation();
        let place = self.rng.between(1, other.len() as u64 - 1) as usize;
        other[place].to_string()
    }

    /// The host's own lines with a number out of range, or just within.
    fn host_out_of_range(&mut self) {
        let n = self.array_n();
        let index = self.array_index();
        let register = self.rng.pick(&["r1", "r2", "m", "M", "r3", "s", ""]);
        let line = match self.rng.below(12) {
            0 => format!("cell3 {n} 0 0"),
            1 => format!("select3 {n} 1"),
            2 => format!("select3 {index} 100"),
            3 => format!("select3 {index} FF"),
            4 => format!("cell3 {index} {:017X} 0", 1),
            5 => format!("cell3 {index} 0 {:017X}", 0),
            6 => format!("cell3 {index} 1"),
            7 => format!("load3 {register} {:017X}", 1),
            8 => format!("load3 {register} 1"),
            _ => format!("list3 {n}"),
        };
        self.say(line);
    }
}
