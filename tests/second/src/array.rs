//! The array of three-state cells, cell by cell over the truth tables of source
//! document 001, 'Associative processing array', and the numbers its three
//! operations are turned down for.

use crate::choices::{Data, How, Kind, Latches, Mask, Read, Search, Selector, Sense, Sink};
use crate::choices::{Words, Write};
use crate::machine::{bit, is_stray, one_at, ones, refused, refused_at, Refusal};
use crate::machine::{MOST_BITS, MOST_WORDS};

/// "Three state (0, 1, X="don't care") associative storage cells." A search or
/// write argument is ternary too.
#[derive(Clone, Copy, Debug, PartialEq, Eq)]
pub enum State {
    Zero,
    One,
    X,
}

/// The array as its host holds it: each word's cells in two planes, and its
/// selector latches in one byte, bit 0 P and bit 1 S.
#[derive(Clone, Debug, PartialEq, Eq)]
pub struct Array {
    pub width: u8,
    pub ones: Vec<u64>,
    pub xs: Vec<u64>,
    pub selectors: Vec<u8>,
    pub r1: u64,
    pub r2: u64,
    pub m: u64,
}

/// "0 is (0,0), 1 is (1,0), X is (0,1), and (1,1) is no cell."
pub fn cell_of(one: u64, x: u64) -> Option<State> {
    match (one, x) {
        (0, 0) => Some(State::Zero),
        (1, 0) => Some(State::One),
        (0, 1) => Some(State::X),
        _ => None,
    }
}

/// Generation of search arguments.
pub fn argument_of(mask: u64, data: u64) -> State {
    match (mask, data) {
        (0, _) => State::X,
        (_, 0) => State::Zero,
        _ => State::One,
    }
}

/// Generation of mismatch signals.
pub fn is_mismatch(argument: State, cell: State) -> bool {
    match (argument, cell) {
        (State::Zero, State::One) => true,
        (State::One, State::Zero) => true,
        (State::Zero, State::Zero) | (State::One, State::One) => false,
        (State::X, _) | (_, State::X) => false,
    }
}

/// What a cell puts onto the read bus: "an X state reads as zero".
pub fn reads_as_one(cell: State) -> bool {
    cell == State::One
}

/// A cell after a write, by the two tables.
pub fn written(kind: Kind, argument: State, cell: State) -> State {
    match (kind, argument) {
        (_, State::X) => cell,
        (Kind::Normal, State::Zero) => State::Zero,
        (Kind::Normal, State::One) => State::One,
        (Kind::Special, _) => State::X,
    }
}

/// The bit of a selector byte that is a latch.
fn place_of(latches: Latches) -> u8 {
    match latches {
        Latches::P => 1,
        Latches::S => 2,
    }
}

/// A selector byte with one latch put; "its other bits neither read nor
/// changed".
fn with_latch(byte: u8, latches: Latches, value: bool) -> u8 {
    let others = byte & !place_of(latches);
    if value {
        others | place_of(latches)
    } else {
        others
    }
}

/// A word's cells, from bit 0 up.
pub type Cells = Vec<State>;

impl Array {
    /// An array all of whose cells, selectors and registers are 0.
    pub fn blank(width: u8, n: usize) -> Array {
        Array {
            width,
            ones: vec![0; n],
            xs: vec![0; n],
            selectors: vec![0; n],
            r1: 0,
            r2: 0,
            m: 0,
        }
    }

    /// All words are searched; the count is that of the words that agree.
    pub fn search(&mut self, ask: Search) -> Result<usize, Refusal> {
        let words = self.check()?;
        let argument = self.argument(ask.data, ask.mask);
        let mut count = 0;
        for (index, cells) in words.iter().enumerate() {
            let mut pairs = argument.iter().zip(cells);
            let mismatch = pairs.any(|(argument, cell)| is_mismatch(*argument, *cell));
            if !mismatch {
                count += 1;
            }
            let signal = match ask.words {
                Words::Agree => !mismatch,
                Words::Disagree => mismatch,
            };
            self.latch(index, ask.latches, ask.how, signal);
        }
        Ok(count)
    }

    /// The signal of a word meets what its latch holds.
    fn latch(&mut self, index: usize, latches: Latches, how: How, signal: bool) {
        let byte = self.selectors[index];
        let held = byte & place_of(latches) != 0;
        let value = match how {
            How::Replace => signal,
            How::And => held && signal,
            How::Or => held || signal,
        };
        self.selectors[index] = with_latch(byte, latches, value);
    }

    /// "The contents of cells from selected words are ORed in the bit direction
    /// onto a read bus"; the register's bits under the mask are loaded from it.
    pub fn read(&mut self, ask: Read) -> Result<usize, Refusal> {
        let words = self.check()?;
        let selected = self.selected(ask.selector, ask.sense);
        let mut bus = 0;
        for index in &selected {
            for (place, cell) in words[*index].iter().enumerate() {
                bus |= if reads_as_one(*cell) {
                    one_at(place as u32)
                } else {
                    0
                };
            }
        }
        let loads = self.mask(ask.mask);
        let sink = match ask.sink {
            Sink::R1 => &mut self.r1,
            Sink::R2 => &mut self.r2,
            Sink::M => &mut self.m,
        };
        *sink = loaded(*sink, bus, loads);
        Ok(selected.len())
    }

    /// The argument acts on every cell of the selected words.
    pub fn write(&mut self, ask: Write) -> Result<usize, Refusal> {
        let words = self.check()?;
        let argument = self.argument(ask.data, ask.mask);
        let selected = self.selected(ask.selector, ask.sense);
        for index in &selected {
            let pairs = argument.iter().zip(&words[*index]);
            let after: Cells = pairs
                .map(|(a, cell)| written(ask.kind, *a, *cell))
                .collect();
            self.put(*index, &after);
        }
        Ok(selected.len())
    }

    /// The mask's bits, within the width.
    fn mask(&self, mask: Mask) -> u64 {
        match mask {
            Mask::M => self.m,
            Mask::Ones => ones(u32::from(self.width)),
            Mask::Zeros => 0,
        }
    }

    /// The ternary argument, "on a bit by bit basis".
    pub fn argument(&self, data: Data, mask: Mask) -> Cells {
        let mask = self.mask(mask);
        let data = match data {
            Data::R1 => self.r1,
            Data::R2 => self.r2,
        };
        let places = 0..u32::from(self.width);
        places
            .map(|place| argument_of(bit(mask, place), bit(data, place)))
            .collect()
    }

    /// The words that a set of latches, or all 0's, selects in true or
    /// complement form.
    pub fn selected(&self, selector: Selector, sense: Sense) -> Vec<usize> {
        let holds = |byte: u8| match selector {
            Selector::P => byte & place_of(Latches::P) != 0,
            Selector::S => byte & place_of(Latches::S) != 0,
            Selector::None => false,
        };
        let wanted = sense == Sense::True;
        (0..self.selectors.len())
            .filter(|index| holds(self.selectors[*index]) == wanted)
            .collect()
    }

    /// Writes a word's cells back to its two planes.
    fn put(&mut self, index: usize, cells: &[State]) {
        let plane = |state: State| {
            let places = (0..cells.len()).filter(|place| cells[*place] == state);
            places.fold(0, |sum, place| sum | one_at(place as u32))
        };
        self.ones[index] = plane(State::One);
        self.xs[index] = plane(State::X);
    }

    /// The cells of all words, if no number is given: "1, 2, 3, then 12, then
    /// 4".
    pub fn check(&self) -> Result<Vec<Cells>, Refusal> {
        self.check_lengths()?;
        self.check_width()?;
        self.check_planes()?;
        let words = self.cells()?;
        self.check_registers()?;
        Ok(words)
    }

    /// 1: "n, or either other lent buffer not n long".
    fn check_lengths(&self) -> Result<(), Refusal> {
        let n = self.ones.len();
        let alike = self.xs.len() == n && self.selectors.len() == n;
        if n == 0 || n > MOST_WORDS || !alike {
            return refused(1);
        }
        Ok(())
    }

    /// 2: "N not 1 to 64".
    fn check_width(&self) -> Result<(), Refusal> {
        if self.width == 0 || self.width > MOST_BITS {
            return refused(2);
        }
        Ok(())
    }

    /// 3: "a one at or above N in either plane, with the lowest word".
    fn check_planes(&self) -> Result<(), Refusal> {
        for index in 0..self.ones.len() {
            let planes = [self.ones[index], self.xs[index]];
            if planes.iter().any(|plane| is_stray(*plane, self.width)) {
                return refused_at(3, index);
            }
        }
        Ok(())
    }

    /// 12: "a cell that is neither 0, 1 nor X", in any word.
    fn cells(&self) -> Result<Vec<Cells>, Refusal> {
        let mut words = Vec::new();
        for (one, x) in self.ones.iter().zip(&self.xs) {
            let places = 0..u32::from(self.width);
            let cells: Option<Cells> = places
                .map(|place| cell_of(bit(*one, place), bit(*x, place)))
                .collect();
            match cells {
                Some(cells) => words.push(cells),
                None => return refused(12),
            }
        }
        Ok(words)
    }

    /// 4: "R1, R2 or M", whichever of them the operation uses.
    fn check_registers(&self) -> Result<(), Refusal> {
        let registers = [self.r1, self.r2, self.m];
        if registers.iter().any(|r| is_stray(*r, self.width)) {
            return refused(4);
        }
        Ok(())
    }
}

/// Effect of the read operation on a register: where the mask is 0 no change,
/// where it is 1 the read bus.
fn loaded(register: u64, bus: u64, mask: u64) -> u64 {
    let bit_after = |place: u32| match bit(mask, place) {
        0 => bit(register, place),
        _ => bit(bus, place),
    };
    (0..64)
        .filter(|place| bit_after(*place) == 1)
        .fold(0, |sum, place| sum | one_at(place))
}
