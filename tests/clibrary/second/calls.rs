//! What all calls do alike: they are turned down with the number that comes
//! first, of all that apply, and tell it, or what they found, in the answer's
//! buffer.

use crate::lent::Open;
use processor::machine::{refused, Refusal};

/// What one condition says.
pub type Judged = Result<(), Refusal>;

/// Refuses with a number where a condition isn't met.
pub fn unless(met: bool, number: u8) -> Judged {
    if met {
        Ok(())
    } else {
        refused(number)
    }
}

/// "In the order 1 to 7, 20 to 25, 9, 10, 11": not that of the numbers
/// themselves, since 20 to 25 stand where 8 stood.
const ORDER: [u8; 16] = [1, 2, 3, 4, 5, 6, 7, 20, 21, 22, 23, 24, 25, 9, 10, 11];

/// A number's place in that order. 12 has none: the array's calls, which alone
/// give it, have an order of their own.
fn place_of(number: u8) -> usize {
    let place = ORDER.iter().position(|other| *other == number);
    place.expect("a number that has a place in the order")
}

/// "Always the one that comes first, of all that apply": of document 01's call,
/// which gives its own first, and of the conditions that the header adds to it.
pub fn first<T>(call: Result<T, Refusal>, added: &[Judged]) -> Result<T, Refusal> {
    let own = call.as_ref().err().copied();
    let others = added.iter().filter_map(|judged| judged.err());
    let all = others.chain(own);
    match all.min_by_key(|refusal| place_of(refusal.number)) {
        Some(refusal) => Err(refusal),
        None => call,
    }
}

/// What a refusal also answers. The second program counts a job's syllables from
/// 0; the header from 1, so that 0 is nothing here too.
fn also_of(refusal: Refusal) -> u64 {
    match refusal.number {
        20..=22 => refusal.also as u64 + 1,
        _ => refusal.also as u64,
    }
}

/// Two numbers stand before a call's values in every answer: the number
/// returned, and what a refusal also answers.
const BEFORE_VALUES: usize = 2;

/// The answer's buffer of a call, and how many numbers its answer has.
pub struct Answer {
    buffer: Open<u64>,
    size: usize,
}

impl Answer {
    /// # Safety
    /// The pointer is good for reading and writing `length` numbers.
    pub unsafe fn new(pointer: *mut u64, length: usize, values: usize) -> Answer {
        Answer {
            buffer: Open::new(pointer, length),
            size: BEFORE_VALUES + values,
        }
    }

    /// 10: "the answer's buffer, of any call".
    pub fn room(&self) -> Judged {
        unless(self.size <= self.buffer.seen().length(), 10)
    }

    /// Tells the outcome and gives the number to be returned.
    pub fn tell(&self, outcome: Result<Vec<u64>, Refusal>) -> u32 {
        match outcome {
            Ok(values) => self.put(0, 0, &values),
            Err(refusal) => self.put(refusal.number, also_of(refusal), &[]),
        }
    }

    /// "The others are the call's values, all 0 on a refusal"; a buffer that
    /// is too short "stays as it was".
    fn put(&self, number: u8, also: u64, values: &[u64]) -> u32 {
        if self.room().is_ok() {
            let mut numbers = vec![u64::from(number), also];
            numbers.extend_from_slice(values);
            numbers.resize(self.size, 0);
            self.buffer.put(&numbers);
        }
        u32::from(number)
    }
}
