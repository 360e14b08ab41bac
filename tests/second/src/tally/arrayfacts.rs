//! What stands before one command of the array of three-state cells and what
//! comes of it.

use super::facts::{share_of, Facts};
use super::reasons::array_numbers;
use processor::array::{is_mismatch, reads_as_one, written, Array, Cells, State};
use processor::choices::{Latches, Mask, Read, Search, Sink, Words, Write};
use processor::choices::{DATA, HOWS, KINDS, LATCHES, MASKS, SELECTORS, SENSES, SINKS, WORDS};
use processor::machine::{bit, is_stray, one_at, ones};
use std::collections::BTreeSet;

/// The words that each place of an operation takes.
fn places(operation: &[u8]) -> Vec<Vec<&'static str>> {
    fn names<T>(choices: &[(&'static str, T)]) -> Vec<&'static str> {
        choices.iter().map(|(name, _)| *name).collect()
    }
    let (data, masks) = (names(&DATA), names(&MASKS));
    let (selectors, senses) = (names(&SELECTORS), names(&SENSES));
    match operation {
        b"search3" => vec![data, masks, names(&WORDS), names(&LATCHES), names(&HOWS)],
        b"read3" => vec![selectors, senses, names(&SINKS), masks],
        _ => vec![names(&KINDS), data, masks, selectors, senses],
    }
}

/// Every line of an operation, its words apart by one space.
pub fn operations(operation: &str) -> Vec<String> {
    let mut lines = vec![operation.to_string()];
    for choices in places(operation.as_bytes()) {
        let longer = |line: &String| -> Vec<String> {
            choices
                .iter()
                .map(|word| format!("{line} {word}"))
                .collect()
        };
        lines = lines.iter().flat_map(longer).collect();
    }
    lines
}

fn sign(state: State) -> &'static str {
    match state {
        State::Zero => "0",
        State::One => "1",
        State::X => "X",
    }
}

impl Facts {
    pub fn before_operation(&mut self, array: &Array, words: &[&[u8]]) {
        if !is_operation(words) {
            return;
        }
        let numbers = array_numbers(array);
        for (at, first) in numbers.iter().enumerate() {
            for other in &numbers[at + 1..] {
                self.found
                    .push(format!("array: {first} and {other} at once"));
            }
        }
        match numbers.as_slice() {
            [] => self.sound_operation(array, words),
            [3] => self.only_stray_cells(array),
            [12] => self.only_no_cells(array),
            [4] => self.only_stray_registers(array, words),
            [3, 12] => self.no_cell_before_stray(array),
            _ => {}
        }
    }

    /// In which plane, where, and in which word a one outside the width is.
    fn only_stray_cells(&mut self, array: &Array) {
        let is_wide = |plane: &[u64], at: usize| is_stray(plane[at], array.width);
        let too_wide = |at: &usize| is_wide(&array.ones, *at) || is_wide(&array.xs, *at);
        let stray: Vec<usize> = (0..array.ones.len()).filter(too_wide).collect();
        let lowest = match stray.first().copied() {
            Some(lowest) => lowest,
            None => return,
        };
        let planes = match (is_wide(&array.ones, lowest), is_wide(&array.xs, lowest)) {
            (true, true) => "both planes",
            (true, false) => "the ones alone",
            _ => "the xs alone",
        };
        self.found.push(format!("array: 3 in {planes}"));
        let both = array.ones[lowest] | array.xs[lowest];
        let outside = both & !ones(u32::from(array.width));
        for (place, name) in [(u32::from(array.width), "N"), (63, "63")] {
            if outside == one_at(place) {
                self.found.push(format!("array: 3 for bit {name} alone"));
            }
        }
        if lowest > 0 {
            self.found.push("array: 3 above word 0".to_string());
        }
        if stray.len() > 1 {
            self.found.push("array: 3 in two words".to_string());
        }
    }

    /// Where the only cell is that is none of the three.
    fn only_no_cells(&mut self, array: &Array) {
        let wrong: Vec<u64> = both_planes(array).collect();
        let places: u32 = wrong.iter().map(|both| both.count_ones()).sum();
        if places != 1 {
            return;
        }
        let index = wrong.iter().position(|both| *both != 0).unwrap_or(0);
        let both = wrong[index];
        let held = [
            ("at bit 0", both == 1),
            ("at bit N-1", both == 1 << (array.width - 1)),
            ("in word 0", index == 0),
            ("in the last word", index + 1 == wrong.len()),
        ];
        for (name, _) in held.iter().filter(|(_, so)| *so) {
            self.found.push(format!("array: 12 for one cell {name}"));
        }
    }

    /// Which register alone is stray, in which operation.
    fn only_stray_registers(&mut self, array: &Array, words: &[&[u8]]) {
        let registers = [("r1", array.r1), ("r2", array.r2), ("m", array.m)];
        let mut stray = registers
            .iter()
            .filter(|(_, value)| is_stray(*value, array.width));
        if let (Some((name, _)), None) = (stray.next(), stray.next()) {
            let operation = String::from_utf8_lossy(words[0]);
            self.found.push(format!("{operation}: {name} alone stray"));
        }
    }

    /// 3 is given though 12 stands in a word before it.
    fn no_cell_before_stray(&mut self, array: &Array) {
        let mut planes = array.ones.iter().zip(&array.xs);
        let stray = planes.position(|(one, x)| is_stray(one | x, array.width));
        let wrong = both_planes(array).position(|both| both != 0);
        if wrong < stray {
            self.found
                .push("array: 12 in a word before that of 3".to_string());
        }
    }

    /// An operation that no number is against.
    fn sound_operation(&mut self, array: &Array, words: &[&[u8]]) {
        let cells = match array.check() {
            Ok(cells) => cells,
            Err(_) => return,
        };
        let line = words.join(&b' ');
        self.hold_back(String::from_utf8_lossy(&line).into_owned());
        self.hold_back(format!("array: width {}", array.width));
        self.hold_back(format!("array: n {}", cells.len()));
        match words[0] {
            b"search3" => self.search_cells(array, &cells, Search::named(&words[1..])),
            b"read3" => self.read_cells(array, &cells, Read::named(&words[1..])),
            _ => self.write_cells(array, &cells, Write::named(&words[1..])),
        }
    }

    /// The pairs of the mismatch table, and what a signal meets in its latch.
    fn search_cells(&mut self, array: &Array, words: &[Cells], ask: Option<Search>) {
        let ask = match ask {
            Some(ask) => ask,
            None => return,
        };
        let argument = array.argument(ask.data, ask.mask);
        let mut seen = BTreeSet::new();
        let mut agreeing = 0;
        for (index, cells) in words.iter().enumerate() {
            let pairs = argument.iter().zip(cells);
            let wrong = pairs.clone().filter(|(a, c)| is_mismatch(**a, **c)).count();
            if wrong == 1 {
                seen.insert("search3: a word with one cell that disagrees".to_string());
            }
            seen.extend(pairs.map(|(a, c)| pair_text("search3: ", *a, *c)));
            agreeing += usize::from(wrong == 0);
            let signal = (wrong == 0) == (ask.words == Words::Agree);
            let byte = array.selectors[index];
            let held = byte >> u8::from(ask.latches == Latches::S) & 1;
            let (latches, how) = (ask.latches, ask.how);
            seen.insert(format!(
                "search3: {how:?} {latches:?} holding {held}, signal {}",
                u8::from(signal)
            ));
            if byte > 3 {
                seen.insert("search3: a selector byte with other bits".to_string());
            }
        }
        let share = share_of(agreeing, words.len());
        seen.insert(format!("search3: {share} agree"));
        self.found.extend(seen);
    }

    /// The read table on each bit before, X on the bus, words ORed.
    fn read_cells(&mut self, array: &Array, words: &[Cells], ask: Option<Read>) {
        let ask = match ask {
            Some(ask) => ask,
            None => return,
        };
        let selected = array.selected(ask.selector, ask.sense);
        let mask = match ask.mask {
            Mask::M => array.m,
            Mask::Ones => u64::MAX,
            Mask::Zeros => 0,
        };
        let register = match ask.sink {
            Sink::R1 => array.r1,
            Sink::R2 => array.r2,
            Sink::M => array.m,
        };
        let mut seen = BTreeSet::new();
        for place in 0..u32::from(array.width) {
            let states: Vec<State> = selected
                .iter()
                .map(|at| words[*at][place as usize])
                .collect();
            let bus = states.iter().any(|state| reads_as_one(*state));
            let (masked, before) = (bit(mask, place), bit(register, place));
            seen.insert(format!(
                "read3: mask {masked} bus {} on {before}",
                u8::from(bus)
            ));
            if masked == 1 && !bus && states.contains(&State::X) {
                seen.insert("read3: X and no 1 under the mask".to_string());
            }
            if masked == 1 && bus && states.iter().any(|state| !reads_as_one(*state)) {
                seen.insert("read3: 1 and another under the mask".to_string());
            }
            if masked == 1 && before == 1 && !bus && ask.sink == Sink::M && ask.mask == Mask::M {
                seen.insert("read3: m under m loses a bit".to_string());
            }
        }
        let share = share_of(selected.len(), words.len());
        seen.insert(format!("read3: {share} selected"));
        self.found.extend(seen);
    }

    /// Every column of the write tables on every content, and words that are
    /// not selected and would have changed.
    fn write_cells(&mut self, array: &Array, words: &[Cells], ask: Option<Write>) {
        let ask = match ask {
            Some(ask) => ask,
            None => return,
        };
        let argument = array.argument(ask.data, ask.mask);
        let selected = array.selected(ask.selector, ask.sense);
        let mut seen = BTreeSet::new();
        for (index, cells) in words.iter().enumerate() {
            let mut pairs = argument.iter().zip(cells);
            if selected.contains(&index) {
                let kind = format!("write3: {:?} ", ask.kind);
                seen.extend(pairs.map(|(a, c)| pair_text(&kind, *a, *c)));
            } else if pairs.any(|(a, c)| written(ask.kind, *a, *c) != *c) {
                seen.insert("write3: a word passed over that differs".to_string());
            }
        }
        let share = share_of(selected.len(), words.len());
        seen.insert(format!("write3: {share} selected"));
        self.found.extend(seen);
    }

    /// The size of an array that is made or listed.
    pub fn array_size(&mut self, name: &str, array: &Array) {
        self.found.push(format!("{name}: n {}", array.ones.len()));
        self.found.push(format!("{name}: width {}", array.width));
    }

    /// A bad line that begins as a command of the array.
    pub fn bad_array_line(&mut self, array: &Array, words: &[&[u8]]) {
        let name = String::from_utf8_lossy(words[0]).into_owned();
        let what = match words {
            [b"search3" | b"read3" | b"write3", ..] => wrong_choice(words),
            [b"cell3" | b"select3", index, ..] if is_index(index, array.ones.len()) => {
                Some("index n".to_string())
            }
            [b"select3", _, b"100"] => Some("byte 100".to_string()),
            [b"cell3" | b"load3", _, rest @ ..] if rest.iter().any(|w| w.len() == 17) => {
                Some("17 digits".to_string())
            }
            [b"load3", _, _] => Some("another register".to_string()),
            _ => None,
        };
        self.found.push(format!("{name}: bad line"));
        self.found
            .extend(what.map(|what| format!("{name}: {what}")));
    }
}

/// Whether each place has one of its words.
fn is_operation(words: &[&[u8]]) -> bool {
    match words {
        [b"search3", choices @ ..] => Search::named(choices).is_some(),
        [b"read3", choices @ ..] => Read::named(choices).is_some(),
        [b"write3", choices @ ..] => Write::named(choices).is_some(),
        _ => false,
    }
}

/// The ones that stand in both planes of each word.
fn both_planes(array: &Array) -> impl Iterator<Item = u64> + '_ {
    array.ones.iter().zip(&array.xs).map(|(one, x)| one & x)
}

fn pair_text(before: &str, argument: State, cell: State) -> String {
    format!("{before}{} on {}", sign(argument), sign(cell))
}

fn is_index(word: &[u8], index: usize) -> bool {
    word == index.to_string().as_bytes()
}

/// What is wrong with an operation's line, if it is one thing.
fn wrong_choice(words: &[&[u8]]) -> Option<String> {
    let places = places(words[0]);
    let given = &words[1..];
    if given.len() != places.len() {
        let few = given.len() < places.len();
        return Some(
            if few {
                "too few words"
            } else {
                "too many words"
            }
            .to_string(),
        );
    }
    let takes = |place: &usize| {
        let mut names = places[*place].iter();
        names.any(|name| name.as_bytes() == given[*place])
    };
    let wrong: Vec<usize> = (0..places.len()).filter(|place| !takes(place)).collect();
    match wrong.as_slice() {
        [place] if given[*place].iter().any(u8::is_ascii_uppercase) => {
            Some("a choice in capitals".to_string())
        }
        [place] => Some(format!("a wrong word in place {}", place + 1)),
        _ => None,
    }
}
