//! Lines that are no command, or hardly one: bad lines of many kinds, lines at
//! the longest length, and lines that print nothing.

use crate::writer::Writer;
use processor::line::LONGEST;

/// One good line of each command.
const GOOD: [&str; 36] = [
    "machine 8 3",
    "lend 3",
    "word 0 35",
    "response 0 FF",
    "load comp 34",
    "load sc3 0F",
    "load key 7f",
    "load address 2",
    "pulse search read",
    "cells add",
    "resolve",
    "tree",
    "why 2",
    "start 1 0 0 0 1 0 4 0 0 0 0 0",
    "job 3 0 0 0 1 0 4 0 0 4 4 2 3 0 FF",
    "drop",
    "step",
    "run",
    "total",
    "show 0",
    "done 0 1 0",
    "faulty 0 1 0",
    "store",
    "room 44",
    "resume 0100000008010000003500000000000000010000000100000000",
    "fit 1 1 0100000008010000003500000000000000010000000100000000",
    "list",
    "panel",
    "cells3 8 3",
    "cell3 0 35 40",
    "select3 0 fF",
    "load3 r1 35",
    "search3 r1 m agree p replace",
    "read3 p true r2 ones",
    "write3 normal r2 zeros none complement",
    "list3",
];

/// Words that are no number, or a number at or beyond some range.
const ODD: [&str; 26] = [
    "256",
    "255",
    "00000255",
    "2048",
    "2049",
    "20000",
    "20001",
    "65536",
    "18446744073709551615",
    "18446744073709551616",
    "99999999999999999999999999",
    "0018446744073709551615",
    "FFFFFFFFFFFFFFFF",
    "0000000000000000F",
    "00000000000000000",
    "00000000000000FF",
    "100",
    "-1",
    "+1",
    "0x1",
    "1.0",
    "G",
    "fF",
    "search",
    "#",
    "\u{661}",
];

/// The ranges of the language: a line's beginning, a word at the edge of its
/// range, one beyond it, and the line's end.
const RANGES: [[&str; 4]; 32] = [
    ["machine ", "255", "256", " 3"],
    ["machine 8 ", "2048", "2049", ""],
    ["lend ", "2048", "2049", ""],
    ["word 0 ", "FFFFFFFFFFFFFFFF", "10000000000000000", ""],
    ["word 0 ", "0000000000000001", "00000000000000001", ""],
    ["response 0 ", "FF", "100", ""],
    ["load comp ", "ffffffffffffffff", "0ffffffffffffffff", ""],
    ["load sc3 ", "00000000000000f0", "000000000000000f0", ""],
    ["load key ", "ff", "100", ""],
    ["load care ", "00000000000000fF", "000000000000000fF", ""],
    ["load target ", "0FF", "FFF", ""],
    [
        "load address ",
        "18446744073709551615",
        "18446744073709551616",
        "",
    ],
    ["why ", "18446744073709551615", "18446744073709551616", ""],
    ["pulse ", "search read", "search search", ""],
    ["cells ", "read multiadd", "read read", ""],
    ["show ", "255", "256", ""],
    ["done ", "255", "256", " 1 0"],
    ["done 0 ", "255", "256", " 0"],
    [
        "faulty 0 1 ",
        "18446744073709551615",
        "18446744073709551616",
        "",
    ],
    ["room ", "20000", "20001", ""],
    ["fit ", "2048", "2049", " 2048"],
    ["fit 2048 ", "2048", "2049", ""],
    ["resume ", "0A", "0A0", ""],
    ["fit 1 1 ", "01", "1", ""],
    ["cells3 ", "255", "256", " 3"],
    ["cells3 8 ", "2048", "2049", ""],
    ["cell3 0 ", "FFFFFFFFFFFFFFFF", "0FFFFFFFFFFFFFFFF", " 0"],
    ["cell3 0 0 ", "0000000000000001", "00000000000000001", ""],
    ["select3 0 ", "FF", "100", ""],
    ["select3 0 ", "00000000000000fF", "000000000000000fF", ""],
    ["load3 r2 ", "ffffffffffffffff", "0ffffffffffffffff", ""],
    ["load3 m ", "00000000000000FF", "000000000000000FF", ""],
];

/// Words at and beyond the edges of a job's fields.
const FIELDS: [&str; 6] = [
    "255",
    "256",
    "FF",
    "100",
    "0000000000000001",
    "00000000000000001",
];

impl Writer {
    /// A word at or beyond the edge of its range.
    pub fn edge_of_a_range(&mut self) {
        if self.rng.once_in(4) {
            self.edge_of_a_field();
            return;
        }
        let [head, within, beyond, tail] = self.rng.pick(&RANGES);
        let word = self.rng.pick(&[within, beyond]);
        self.say(format!("{head}{word}{tail}"));
    }

    /// The same for a field of a job.
    fn edge_of_a_field(&mut self) {
        let line = self.rng.pick(&[
            "start 3 0 0 0 1 0 1 0 0 1 1 3",
            "job 1 0 0 0 1 0 1 0 0 0 0 0 0 0 0",
        ]);
        let mut words: Vec<&str> = line.split(' ').collect();
        let place = self.rng.between(1, words.len() as u64 - 1) as usize;
        words[place] = self.rng.pick(&FIELDS);
        self.say(words.join(" "));
    }

    /// A good line with something changed; a few changes leave it good.
    pub fn bad_line(&mut self) {
        let mut line = self.rng.pick(&GOOD).as_bytes().to_vec();
        for _ in 0..self.rng.pick(&[1, 1, 1, 2]) {
            self.change(&mut line);
        }
        self.say(line);
    }

    fn change(&mut self, line: &mut Vec<u8>) {
        match self.rng.below(14) {
            0 => line.extend_from_slice(
                self.rng
                    .pick(&[" 1", " x", " 00", " \t", " read"])
                    .as_bytes(),
            ),
            1 => drop_last_word(line),
            2 => line.make_ascii_uppercase(),
            3 => swap_byte(line, b' ', b'\t'),
            4 => line.push(self.rng.pick(&[b'\r', b'\t', 0, 0xFF, b'#', b'0'])),
            5 => self.change_byte(line),
            6 => self.insert_byte(line),
            7 => self.remove_byte(line),
            8 => *line = spread(line),
            9 => line.insert(0, self.rng.pick(b"  \t#")),
            10 => line.push(b' '),
            _ => self.odd_word(line),
        }
    }

    /// Any byte but a newline.
    fn any_byte(&mut self) -> u8 {
        match self.rng.next() as u8 {
            b'\n' => b' ',
            byte => byte,
        }
    }

    fn place_in(&mut self, line: &[u8]) -> usize {
        self.rng.below(line.len() as u64) as usize
    }

    fn change_byte(&mut self, line: &mut [u8]) {
        let place = self.place_in(line);
        let byte = self.any_byte();
        if let Some(old) = line.get_mut(place) {
            *old = byte;
        }
    }

    fn insert_byte(&mut self, line: &mut Vec<u8>) {
        let place = self.place_in(line);
        let byte = self.any_byte();
        line.insert(place, byte);
    }

    fn remove_byte(&mut self, line: &mut Vec<u8>) {
        let place = self.place_in(line);
        if place < line.len() {
            line.remove(place);
        }
    }

    /// Puts an odd word in the place of one of the line's words.
    fn odd_word(&mut self, line: &mut Vec<u8>) {
        let mut words: Vec<Vec<u8>> = line.split(|b| *b == b' ').map(<[u8]>::to_vec).collect();
        let last = words.len() as u64 - 1;
        let any = self.rng.between(0, last);
        let place = self.rng.pick(&[last, any, last.min(1)]) as usize;
        words[place] = self.rng.pick(&ODD).as_bytes().to_vec();
        *line = words.join(&b' ');
    }

    /// A line of the longest length, or one byte longer, or far longer.
    pub fn edge_of_a_line(&mut self) {
        let length = self
            .rng
            .pick(&[LONGEST - 1, LONGEST, LONGEST + 1, 2 * LONGEST, 70_000]);
        let line = match self.rng.below(7) {
            0 => filled("lend ", b'0', "3", length),
            1 => filled("resume ", b'0', "", length),
            2 => filled("", b' ', "panel", length),
            3 => filled("panel", b' ', "", length),
            4 => filled("#", b'x', "", length),
            5 => filled("", b' ', "", length),
            _ => filled("", 0xFE, "", length),
        };
        self.say(line);
    }

    /// A line that prints nothing, or nearly such a one.
    pub fn quiet_line(&mut self) {
        let line = self.rng.pick(&[
            "", " ", "     ", "#", "# list", "#list", " # list", "\t", "\r",
        ]);
        self.say(line);
    }
}

fn drop_last_word(line: &mut Vec<u8>) {
    let end = line.iter().rposition(|byte| *byte == b' ').unwrap_or(0);
    line.truncate(end);
}

/// Puts another byte in the place of the first such one.
fn swap_byte(line: &mut [u8], old: u8, new: u8) {
    if let Some(byte) = line.iter_mut().find(|byte| **byte == old) {
        *byte = new;
    }
}

/// The same line with three spaces for each.
fn spread(line: &[u8]) -> Vec<u8> {
    let words: Vec<&[u8]> = line.split(|byte| *byte == b' ').collect();
    words.join(&b"   "[..])
}

/// A line of a length: a beginning, one byte many times, and an end.
fn filled(head: &str, byte: u8, tail: &str, length: usize) -> Vec<u8> {
    let mut line = head.as_bytes().to_vec();
    line.resize(length - tail.len(), byte);
    line.extend_from_slice(tail.as_bytes());
    line
}
