//! A host as a C caller would be one: a machine or an array in buffers of its
//! own, and each second_ function called on them with an answer's buffer.

use second::arrays::{second_array_cells, second_array_wide};
use second::explainer::second_explain;
use second::images::{second_read, second_write};
use second::jobs::{second_start, second_step, second_total};
use second::panels::second_load;
use second::pulses::{second_cells_pulse, second_wide_pulse};
use second::rounds::{second_answer, second_network, second_round, second_scan, second_show};
use std::fmt::Debug;

/// The places of a panel's registers.
pub const COMP: usize = 0;
pub const SDR: usize = 1;
pub const SC1: usize = 2;
pub const SC2: usize = 3;
pub const MOR: usize = 4;
pub const KEY: usize = 5;
pub const CARE: usize = 6;
pub const TARGET: usize = 7;
pub const ADDRESS: usize = 8;
pub const SC3: usize = 9;

/// How many registers a panel has, and how many numbers a step's answer: two,
/// the registers, and three more.
pub const PANEL: usize = 10;
pub const STEP_ANSWER: usize = 2 + PANEL + 3;

/// The line byte's bits.
pub const SEARCH: u8 = 1;
pub const READ: u8 = 2;
pub const WRITE: u8 = 4;
pub const ADD: u8 = 8;
pub const MULTIWRITE: u8 = 16;
pub const MULTIADD: u8 = 32;
pub const COMPLEMENT: u8 = 64;

/// What an answer's buffer holds before a call, and still holds behind the
/// answer or where it is too short.
pub const OLD: u64 = 0xDEAD;

/// What passed and failed.
#[derive(Default)]
pub struct Tally {
    pub passed: u32,
    pub failed: u32,
}

impl Tally {
    pub fn same<T: PartialEq + Debug>(&mut self, name: &str, found: T, expected: T) {
        if found == expected {
            self.passed += 1;
        } else {
            self.failed += 1;
            println!("{name}: {found:?}, not {expected:?}");
        }
    }
}

/// A machine and a panel to call with.
#[derive(Clone, Debug, PartialEq)]
pub struct Host {
    pub words: Vec<u64>,
    pub responses: Vec<u8>,
    pub width: u32,
    pub panel: Vec<u64>,
}

/// The two pulses have one signature.
pub type Pulse = unsafe extern "C" fn(
    *mut u64,
    usize,
    *mut u8,
    usize,
    u32,
    *const u64,
    usize,
    u8,
    *mut u64,
    usize,
) -> u32;

/// Both machines: every figure of a pulse is for the two.
pub const PULSES: [(&str, Pulse); 2] = [("wide", second_wide_pulse), ("cells", second_cells_pulse)];

impl Host {
    pub fn new(width: u32, words: &[u64]) -> Host {
        Host {
            words: words.to_vec(),
            responses: vec![0; words.len()],
            width,
            panel: vec![0; PANEL],
        }
    }

    /// "N=8, words 35 9C 35 (hex), responses 0, SDR 88, all else 0."
    pub fn of_the_figures() -> Host {
        Host::new(8, &[0x35, 0x9C, 0x35]).with(SDR, 0x88)
    }

    /// The same with a register loaded through the call.
    pub fn with(mut self, register: usize, value: u64) -> Host {
        let number = self.load(register as u8, value);
        assert_eq!(number, 0);
        self
    }

    pub fn load(&mut self, register: u8, value: u64) -> u32 {
        let panel = &mut self.panel;
        unsafe { second_load(panel.as_mut_ptr(), panel.len(), register, value) }
    }

    /// A pulse with an answer's buffer of so many numbers.
    pub fn pulse_into(&mut self, pulse: Pulse, lines: u8, room: usize) -> (u32, Vec<u64>) {
        let mut answer = vec![OLD; room];
        let number = unsafe {
            pulse(
                self.words.as_mut_ptr(),
                self.words.len(),
                self.responses.as_mut_ptr(),
                self.responses.len(),
                self.width,
                self.panel.as_ptr(),
                self.panel.len(),
                lines,
                answer.as_mut_ptr(),
                answer.len(),
            )
        };
        (number, answer)
    }

    pub fn pulse(&mut self, pulse: Pulse, lines: u8) -> (u32, Vec<u64>) {
        self.pulse_into(pulse, lines, 4)
    }

    /// An explanation with an answer's buffer of so many numbers.
    pub fn explain_into(&self, word: usize, room: usize) -> (u32, Vec<u64>) {
        let mut answer = vec![OLD; room];
        let number = unsafe {
            second_explain(
                self.words.as_ptr(),
                self.words.len(),
                self.responses.as_ptr(),
                self.responses.len(),
                self.width,
                self.panel.as_ptr(),
                self.panel.len(),
                word,
                answer.as_mut_ptr(),
                answer.len(),
            )
        };
        (number, answer)
    }

    pub fn explain(&self, word: usize) -> (u32, Vec<u64>) {
        self.explain_into(word, 5)
    }

    /// The resolution's two calls under key and care.
    pub fn resolve(&self, key: u8, care: u8) -> [(u32, Vec<u64>); 2] {
        [second_scan, second_network].map(|call| {
            let mut answer = vec![OLD; 4];
            let number = unsafe {
                call(
                    self.words.as_ptr(),
                    self.words.len(),
                    self.responses.as_ptr(),
                    self.responses.len(),
                    self.width,
                    key,
                    care,
                    answer.as_mut_ptr(),
                    answer.len(),
                )
            };
            (number, answer)
        })
    }

    /// Show with an answer's buffer of so many numbers.
    pub fn show_into(&self, x: u8, room: usize) -> (u32, Vec<u64>) {
        let mut answer = vec![OLD; room];
        let number = unsafe {
            second_show(
                self.words.as_ptr(),
                self.words.len(),
                self.responses.as_ptr(),
                self.responses.len(),
                self.width,
                x,
                answer.as_mut_ptr(),
                answer.len(),
            )
        };
        (number, answer)
    }

    pub fn show(&self, x: u8) -> (u32, Vec<u64>) {
        self.show_into(x, 4)
    }

    pub fn answer(
        &mut self,
        x: u8,
        f: u8,
        word: usize,
        verdict: u8,
        room: usize,
    ) -> (u32, Vec<u64>) {
        let mut answer = vec![OLD; room];
        let number = unsafe {
            second_answer(
                self.words.as_ptr(),
                self.words.len(),
                self.responses.as_mut_ptr(),
                self.responses.len(),
                self.width,
                x,
                f,
                word,
                verdict,
                answer.as_mut_ptr(),
                answer.len(),
            )
        };
        (number, answer)
    }

    /// A whole round with an answer's buffer of so many numbers.
    pub fn round_into(&mut self, x: u8, f: u8, verdicts: &[u8], room: usize) -> (u32, Vec<u64>) {
        let mut answer = vec![OLD; room];
        let number = unsafe {
            second_round(
                self.words.as_ptr(),
                self.words.len(),
                self.responses.as_mut_ptr(),
                self.responses.len(),
                self.width,
                x,
                f,
                verdicts.as_ptr(),
                verdicts.len(),
                answer.as_mut_ptr(),
                answer.len(),
            )
        };
        (number, answer)
    }

    pub fn round(&mut self, x: u8, f: u8, verdicts: &[u8]) -> (u32, Vec<u64>) {
        self.round_into(x, f, verdicts, 4)
    }

    /// A start with an answer's buffer of so many numbers.
    pub fn start_into(&self, held: &[u8], job: &mut [u8], room: usize) -> (u32, Vec<u64>) {
        let mut answer = vec![OLD; room];
        let number = unsafe {
            second_start(
                self.words.as_ptr(),
                self.words.len(),
                self.responses.as_ptr(),
                self.responses.len(),
                self.width,
                held.as_ptr(),
                held.len(),
                job.as_mut_ptr(),
                job.len(),
                answer.as_mut_ptr(),
                answer.len(),
            )
        };
        (number, answer)
    }

    pub fn start(&self, held: &[u8], job: &mut [u8]) -> (u32, Vec<u64>) {
        self.start_into(held, job, 3)
    }

    /// A step with an answer's buffer of so many numbers.
    pub fn step_into(&mut self, job: &mut [u8], room: usize) -> (u32, Vec<u64>) {
        let mut answer = vec![OLD; room];
        let number = unsafe {
            second_step(
                self.words.as_mut_ptr(),
                self.words.len(),
                self.responses.as_mut_ptr(),
                self.responses.len(),
                self.width,
                job.as_mut_ptr(),
                job.len(),
                answer.as_mut_ptr(),
                answer.len(),
            )
        };
        (number, answer)
    }

    pub fn step(&mut self, job: &mut [u8]) -> (u32, Vec<u64>) {
        self.step_into(job, STEP_ANSWER)
    }

    /// A total with an answer's buffer of so many numbers.
    pub fn total_into(&self, job: &[u8], room: usize) -> (u32, Vec<u64>) {
        let mut answer = vec![OLD; room];
        let number = unsafe {
            second_total(
                self.words.as_ptr(),
                self.words.len(),
                self.responses.as_ptr(),
                self.responses.len(),
                self.width,
                job.as_ptr(),
                job.len(),
                answer.as_mut_ptr(),
                answer.len(),
            )
        };
        (number, answer)
    }

    pub fn total(&self, job: &[u8]) -> (u32, Vec<u64>) {
        self.total_into(job, 3)
    }

    /// A writing with an answer's buffer of so many numbers.
    pub fn write_into(&self, job: &[u8], image: &mut [u8], room: usize) -> (u32, Vec<u64>) {
        let mut answer = vec![OLD; room];
        let number = unsafe {
            second_write(
                self.words.as_ptr(),
                self.words.len(),
                self.responses.as_ptr(),
                self.responses.len(),
                self.width,
                job.as_ptr(),
                job.len(),
                image.as_mut_ptr(),
                image.len(),
                answer.as_mut_ptr(),
                answer.len(),
            )
        };
        (number, answer)
    }

    pub fn write(&self, job: &[u8], image: &mut [u8]) -> (u32, Vec<u64>) {
        self.write_into(job, image, 3)
    }

    pub fn read(&mut self, image: &[u8], job: &mut [u8]) -> (u32, Vec<u64>) {
        let mut answer = vec![OLD; 5];
        let number = unsafe {
            second_read(
                image.as_ptr(),
                image.len(),
                self.words.as_mut_ptr(),
                self.words.len(),
                self.responses.as_mut_ptr(),
                self.responses.len(),
                job.as_mut_ptr(),
                job.len(),
                answer.as_mut_ptr(),
                answer.len(),
            )
        };
        (number, answer)
    }
}

/// An accepted call's return and answer.
pub fn accepted(values: &[u64]) -> (u32, Vec<u64>) {
    (0, [&[0, 0], values].concat())
}

/// A refused call's, with an answer of so many numbers.
pub fn refused(number: u32, also: u64, size: usize) -> (u32, Vec<u64>) {
    let mut answer = vec![0; size];
    answer[0] = u64::from(number);
    answer[1] = also;
    (number, answer)
}

/// An array of three-state cells to call with.
#[derive(Clone, Debug, PartialEq)]
pub struct Cells {
    pub ones: Vec<u64>,
    pub xs: Vec<u64>,
    pub selectors: Vec<u8>,
    pub registers: Vec<u64>,
    pub width: u32,
}

/// The array's two functions have one signature.
pub type Operate = unsafe extern "C" fn(
    *mut u64,
    usize,
    *mut u64,
    usize,
    *mut u8,
    usize,
    *mut u64,
    usize,
    u32,
    u32,
    *mut u64,
    usize,
) -> u32;

pub const ARRAYS: [Operate; 2] = [second_array_wide, second_array_cells];

impl Cells {
    /// The three rules of docs/BOARD.md and household 53 in R1.
    pub fn of_the_rules() -> Cells {
        Cells {
            ones: vec![0x03, 0x05, 0x00],
            xs: vec![0xF0, 0x70, 0xFF],
            selectors: vec![0, 0, 0],
            registers: vec![0x53, 0, 0x0F],
            width: 8,
        }
    }

    pub fn operate(&mut self, operate: Operate, code: u32, room: usize) -> (u32, Vec<u64>) {
        let mut answer = vec![OLD; room];
        let number = unsafe {
            operate(
                self.ones.as_mut_ptr(),
                self.ones.len(),
                self.xs.as_mut_ptr(),
                self.xs.len(),
                self.selectors.as_mut_ptr(),
                self.selectors.len(),
                self.registers.as_mut_ptr(),
                self.registers.len(),
                self.width,
                code,
                answer.as_mut_ptr(),
                answer.len(),
            )
        };
        (number, answer)
    }
}

/// An operation's code from its digits, the lowest first, as the header's
/// macros put it.
pub fn code(digits: &[u32]) -> u32 {
    let places = digits.iter().enumerate();
    places.fold(0, |code, (place, digit)| code | (digit << (2 * place)))
}

/// A job's record with X 0 and Y 1, its place and unused fields left wild, so
/// that a start has something to set.
pub fn wish(kind: u8, criterion: u8, spans: [[u8; 2]; 3], c: u64) -> Vec<u8> {
    let mut record = vec![kind, criterion, criterion, 0, 1];
    record.extend(spans.concat());
    record.extend([77, 88, 99]);
    record.extend(c.to_le_bytes());
    record
}

/// The record of figure 9's jobs once started: bits 3 to 0 are A, so the place
/// is i = 3 of phase 0; B, P, j and c are unused.
pub fn extreme(kind: u8, criterion: u8) -> Vec<u8> {
    let mut record = vec![kind, criterion, criterion, 0, 1, 0, 4, 0, 0, 0, 0, 0, 3, 0];
    record.resize(22, 0);
    record
}

/// Figure 13's bytes: counts, width 8, the word 35, the response 01, no job.
pub const IMAGE: [u8; 26] = [
    1, 0, 0, 0, 8, 1, 0, 0, 0, 0x35, 0, 0, 0, 0, 0, 0, 0, 1, 0, 0, 0, 1, 0, 0, 0, 0,
];
