//! The buffers that a caller lends, a pointer and a length each. They are
//! copied out and put back entry by entry: no reference to the caller's memory
//! is ever made, so a null pointer of length 0 is as good as any, and a call
//! works on copies until nothing can refuse it any more.

use processor::machine::{Machine, MOST_WORDS};

/// A buffer that a call only looks at.
pub struct Lent<T> {
    pointer: *const T,
    length: usize,
}

/// A buffer that an accepted call may change.
pub struct Open<T> {
    pointer: *mut T,
    length: usize,
}

impl<T: Copy> Lent<T> {
    /// # Safety
    /// The pointer is good for reading `length` entries.
    pub unsafe fn new(pointer: *const T, length: usize) -> Lent<T> {
        Lent { pointer, length }
    }

    pub fn length(&self) -> usize {
        self.length
    }

    /// A copy of the first entries, `most` at most.
    pub fn first(&self, most: usize) -> Vec<T> {
        let places = 0..self.length.min(most);
        // The place is below the length that the pointer is good for.
        places
            .map(|place| unsafe { self.pointer.add(place).read() })
            .collect()
    }
}

impl<T: Copy> Open<T> {
    /// # Safety
    /// The pointer is good for reading and writing `length` entries.
    pub unsafe fn new(pointer: *mut T, length: usize) -> Open<T> {
        Open { pointer, length }
    }

    /// The same buffer, to look at.
    pub fn seen(&self) -> Lent<T> {
        Lent {
            pointer: self.pointer,
            length: self.length,
        }
    }

    /// Puts entries to the front; what is behind them stays.
    pub fn put(&self, entries: &[T]) {
        assert!(entries.len() <= self.length);
        for (place, entry) in entries.iter().enumerate() {
            // The place is below the length that the pointer is good for.
            unsafe { self.pointer.add(place).write(*entry) }
        }
    }
}

/// One entry more than a machine may have shows that there are too many, so
/// no call needs to look at more.
pub const ENOUGH: usize = MOST_WORDS + 1;

/// The machine that a call is lent, copied out.
pub fn machine_of(words: &Lent<u64>, responses: &Lent<u8>, width: u32) -> Machine {
    Machine {
        width: width_of(width),
        words: words.first(ENOUGH),
        responses: responses.first(ENOUGH),
    }
}

/// The second program keeps a width in a byte. A width that has no byte is
/// turned down as the widest byte is.
pub fn width_of(width: u32) -> u8 {
    u8::try_from(width).unwrap_or(u8::MAX)
}
