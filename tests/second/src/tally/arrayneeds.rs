//! What the random scripts of the gate have to bring out of the array of
//! three-state cells.

use super::arrayfacts::operations;
use super::needed::{Needs, OFTEN, SOMETIMES};

const OPERATIONS: [&str; 3] = ["search3", "read3", "write3"];

/// The three states, of a cell and of an argument.
const STATES: [&str; 3] = ["0", "1", "X"];

/// Other things by name.
const NAMED: [&str; 16] = [
    "search3: a word with one cell that disagrees",
    "search3: a selector byte with other bits",
    "search3: none agree",
    "search3: some agree",
    "search3: all agree",
    "read3: X and no 1 under the mask",
    "read3: 1 and another under the mask",
    "read3: none selected",
    "read3: some selected",
    "read3: all selected",
    "write3: a word passed over that differs",
    "write3: none selected",
    "write3: some selected",
    "write3: all selected",
    "list3: after a machine was made or read",
    "store: after an array was made",
];

const RARER: [&str; 18] = [
    "read3: m under m loses a bit",
    "array: 3 in the ones alone",
    "array: 3 in the xs alone",
    "array: 3 in both planes",
    "array: 3 for bit N alone",
    "array: 3 for bit 63 alone",
    "array: 3 above word 0",
    "array: 3 in two words",
    "array: 12 for one cell at bit 0",
    "array: 12 for one cell at bit N-1",
    "array: 12 for one cell in word 0",
    "array: 12 for one cell in the last word",
    "array: 12 in a word before that of 3",
    "cell3: index n",
    "select3: index n",
    "cell3: 17 digits",
    "load3: 17 digits",
    "load3: another register",
];

impl Needs {
    pub fn array(&mut self) {
        self.array_sizes();
        self.array_numbers();
        self.array_tables();
        self.array_lines();
        for name in NAMED {
            self.add(OFTEN, name);
        }
        for name in RARER {
            self.add(SOMETIMES, name);
        }
    }

    /// Every width and every number of words up to 8 operated on, and the
    /// edges of both made and listed.
    fn array_sizes(&mut self) {
        for width in 1..=64 {
            self.add(SOMETIMES, format!("array: width {width}"));
        }
        for n in (1..=8).chain([1023, 1024]) {
            self.add(SOMETIMES, format!("array: n {n}"));
        }
        for n in [0, 1, 1023, 1024, 1025, 2048] {
            self.add(SOMETIMES, format!("cells3: n {n}"));
            self.add(SOMETIMES, format!("list3: n {n}"));
        }
        for width in [0, 1, 63, 64, 65, 255] {
            self.add(SOMETIMES, format!("cells3: width {width}"));
            self.add(SOMETIMES, format!("list3: width {width}"));
        }
    }

    /// Any two of the numbers at once, and each register alone stray.
    fn array_numbers(&mut self) {
        let numbers = [1, 2, 3, 12, 4];
        for (at, first) in numbers.iter().enumerate() {
            for other in &numbers[at + 1..] {
                self.add(SOMETIMES, format!("array: {first} and {other} at once"));
            }
        }
        for operation in OPERATIONS {
            for register in ["r1", "r2", "m"] {
                self.add(SOMETIMES, format!("{operation}: {register} alone stray"));
            }
        }
    }

    /// Every place of the truth tables, and every way a signal can meet its
    /// latch.
    fn array_tables(&mut self) {
        for argument in STATES {
            for cell in STATES {
                self.add(OFTEN, format!("search3: {argument} on {cell}"));
                self.add(OFTEN, format!("write3: Normal {argument} on {cell}"));
                self.add(OFTEN, format!("write3: Special {argument} on {cell}"));
            }
        }
        for bits in 0..8 {
            let [mask, bus, before] = [bits / 4, bits / 2 % 2, bits % 2];
            self.add(OFTEN, format!("read3: mask {mask} bus {bus} on {before}"));
        }
        for how in ["Replace", "And", "Or"] {
            for latches in ["P", "S"] {
                for bits in 0..4 {
                    let (held, signal) = (bits / 2, bits % 2);
                    self.add(
                        SOMETIMES,
                        format!("search3: {how} {latches} holding {held}, signal {signal}"),
                    );
                }
            }
        }
        for first in OPERATIONS {
            for then in OPERATIONS {
                self.add(OFTEN, format!("{then}: after {first}"));
            }
        }
    }

    /// Every line of each operation taken; and turned down as a bad one for a
    /// wrong word in each place, for too few and too many words.
    fn array_lines(&mut self) {
        for operation in OPERATIONS {
            for line in operations(operation) {
                self.add(SOMETIMES, line);
            }
            let last = if operation == "read3" { 4 } else { 5 };
            for place in 1..=last {
                self.add(
                    SOMETIMES,
                    format!("{operation}: a wrong word in place {place}"),
                );
            }
            for what in ["too few words", "too many words", "a choice in capitals"] {
                self.add(SOMETIMES, format!("{operation}: {what}"));
            }
        }
        for name in ["cells3", "cell3", "select3", "load3", "list3"] {
            self.add(SOMETIMES, format!("{name}: bad line"));
        }
        self.add(SOMETIMES, "select3: byte 100");
    }
}
