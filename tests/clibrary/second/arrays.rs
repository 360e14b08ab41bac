//! The array of three-state cells: one operation, named by a code. The second
//! program has one array, cell by cell, and it stands for both functions.

use crate::calls::{unless, Answer, Judged};
use crate::lent::{width_of, Lent, Open, ENOUGH};
use processor::array::Array;
use processor::choices::{Read, Search, Write};
use processor::choices::{DATA, HOWS, KINDS, LATCHES, MASKS, SELECTORS, SENSES, SINKS, WORDS};
use processor::machine::{refused, Refusal};

/// R1, R2 and M after the operation, and the count.
const VALUES: usize = 4;

/// R1, R2 and M.
const REGISTERS: usize = 3;

/// An operation with its choices.
enum Operation {
    Search(Search),
    Read(Read),
    Write(Write),
}

/// A code's digits to the base 4, the lowest first.
struct Digits(u32);

impl Digits {
    fn next(&mut self) -> u32 {
        let digit = self.0 % 4;
        self.0 /= 4;
        digit
    }

    /// The choice whose place in its list the next digit is.
    fn choice<T: Copy>(&mut self, choices: &[(&str, T)]) -> Option<T> {
        let place = self.next() as usize;
        choices.get(place).map(|(_, choice)| *choice)
    }

    fn search(&mut self) -> Option<Search> {
        Some(Search {
            data: self.choice(&DATA)?,
            mask: self.choice(&MASKS)?,
            words: self.choice(&WORDS)?,
            latches: self.choice(&LATCHES)?,
            how: self.choice(&HOWS)?,
        })
    }

    fn read(&mut self) -> Option<Read> {
        Some(Read {
            selector: self.choice(&SELECTORS)?,
            sense: self.choice(&SENSES)?,
            sink: self.choice(&SINKS)?,
            mask: self.choice(&MASKS)?,
        })
    }

    fn write(&mut self) -> Option<Write> {
        Some(Write {
            kind: self.choice(&KINDS)?,
            data: self.choice(&DATA)?,
            mask: self.choice(&MASKS)?,
            selector: self.choice(&SELECTORS)?,
            sense: self.choice(&SENSES)?,
        })
    }
}

/// The operation that a code names. A digit above the last choice names none,
/// "so each operation has one code".
fn named(code: u32) -> Option<Operation> {
    let mut digits = Digits(code);
    let operation = match digits.next() {
        0 => Operation::Search(digits.search()?),
        1 => Operation::Read(digits.read()?),
        2 => Operation::Write(digits.write()?),
        _ => return None,
    };
    Some(operation).filter(|_| digits.0 == 0)
}

/// The array that a call is lent, copied out. 1: registers that are not three.
fn array_of(
    (ones, xs, selectors): (&Lent<u64>, &Lent<u64>, &Lent<u8>),
    registers: &Lent<u64>,
    width: u32,
) -> Result<Array, Refusal> {
    unless(registers.length() == REGISTERS, 1)?;
    let registers = registers.first(REGISTERS);
    Ok(Array {
        width: width_of(width),
        ones: ones.first(ENOUGH),
        xs: xs.first(ENOUGH),
        selectors: selectors.first(ENOUGH),
        r1: registers[0],
        r2: registers[1],
        m: registers[2],
    })
}

/// The operation on a copy of the array, judged "in this order, 1, 2, 3, 12,
/// 4, then 6 for a code that names no operation, and 10". Gives the count.
fn operated(array: &mut Array, code: u32, room: Judged) -> Result<usize, Refusal> {
    array.check()?;
    let operation = match named(code) {
        Some(operation) => operation,
        None => return refused(6),
    };
    room?;
    match operation {
        Operation::Search(search) => array.search(search),
        Operation::Read(read) => array.read(read),
        Operation::Write(write) => array.write(write),
    }
}

/// One operation on what was lent.
fn operate(
    (ones, xs, selectors): (Open<u64>, Open<u64>, Open<u8>),
    registers: Open<u64>,
    width: u32,
    code: u32,
    answer: Answer,
) -> u32 {
    let planes = (&ones.seen(), &xs.seen(), &selectors.seen());
    let outcome = array_of(planes, &registers.seen(), width).and_then(|mut array| {
        let count = operated(&mut array, code, answer.room())?;
        Ok((array, count))
    });
    answer.tell(outcome.map(|(array, count)| {
        ones.put(&array.ones);
        xs.put(&array.xs);
        selectors.put(&array.selectors);
        registers.put(&[array.r1, array.r2, array.m]);
        vec![array.r1, array.r2, array.m, count as u64]
    }))
}

/// # Safety
/// Each pointer is good for the length beside it; no two buffers overlap.
#[no_mangle]
pub unsafe extern "C" fn second_array_wide(
    ones: *mut u64,
    ones_length: usize,
    xs: *mut u64,
    xs_length: usize,
    selectors: *mut u8,
    selectors_length: usize,
    registers: *mut u64,
    registers_length: usize,
    width: u32,
    code: u32,
    answer: *mut u64,
    answer_length: usize,
) -> u32 {
    let ones = Open::new(ones, ones_length);
    let xs = Open::new(xs, xs_length);
    let selectors = Open::new(selectors, selectors_length);
    let registers = Open::new(registers, registers_length);
    let answer = Answer::new(answer, answer_length, VALUES);
    operate((ones, xs, selectors), registers, width, code, answer)
}

/// # Safety
/// Each pointer is good for the length beside it; no two buffers overlap.
#[no_mangle]
pub unsafe extern "C" fn second_array_cells(
    ones: *mut u64,
    ones_length: usize,
    xs: *mut u64,
    xs_length: usize,
    selectors: *mut u8,
    selectors_length: usize,
    registers: *mut u64,
    registers_length: usize,
    width: u32,
    code: u32,
    answer: *mut u64,
    answer_length: usize,
) -> u32 {
    let ones = Open::new(ones, ones_length);
    let xs = Open::new(xs, xs_length);
    let selectors = Open::new(selectors, selectors_length);
    let registers = Open::new(registers, registers_length);
    let answer = Answer::new(answer, answer_length, VALUES);
    operate((ones, xs, selectors), registers, width, code, answer)
}
