//! The machine: n words of N bits with 8 response bits each, and the numbers
//! 1 to 3 that every call but the reading of an image checks first.

/// The number given when a call is turned down, and what it also answers: the
/// lowest wrong word for number 3, the place for number 9, the syllable for the
/// numbers 20 to 22 (A, B and P as 0, 1 and 2), else 0.
#[derive(Clone, Copy, Debug, PartialEq, Eq)]
pub struct Refusal {
    pub number: u8,
    pub also: usize,
}

/// A refusal whose other answer fields are 0.
pub fn refused<T>(number: u8) -> Result<T, Refusal> {
    Err(Refusal { number, also: 0 })
}

/// A refusal that also answers a word, a place or a syllable.
pub fn refused_at<T>(number: u8, also: usize) -> Result<T, Refusal> {
    Err(Refusal { number, also })
}

#[derive(Clone, Debug, PartialEq, Eq)]
pub struct Machine {
    pub width: u8,
    pub words: Vec<u64>,
    pub responses: Vec<u8>,
}

/// "n words, 1 to 1,024, each of N bits, 1 to 64."
pub const MOST_WORDS: usize = 1024;
pub const MOST_BITS: u8 = 64;

/// The bit of a number at a place; bit 0 is least significant. Above bit 63
/// every bit is 0.
pub fn bit(number: u64, place: u32) -> u64 {
    if place < 64 {
        (number >> place) & 1
    } else {
        0
    }
}

/// The number whose only one stands at a place.
pub fn one_at(place: u32) -> u64 {
    if place < 64 {
        1 << place
    } else {
        0
    }
}

/// The number with `width` ones at the bottom.
pub fn ones(width: u32) -> u64 {
    (0..width).fold(0, |sum, place| sum | one_at(place))
}

/// Whether a number has a one at or above bit `width`.
pub fn is_stray(number: u64, width: u8) -> bool {
    (u32::from(width)..64).any(|place| bit(number, place) == 1)
}

/// "A word is selected if its response bits equal the key at every bit that
/// care has."
pub fn is_selected(response: u8, key: u8, care: u8) -> bool {
    (0..8).all(|place| {
        let cared = bit(u64::from(care), place) == 1;
        !cared || bit(u64::from(response), place) == bit(u64::from(key), place)
    })
}

impl Machine {
    /// A machine all of whose words and responses are 0.
    pub fn blank(width: u8, n: usize) -> Machine {
        Machine {
            width,
            words: vec![0; n],
            responses: vec![0; n],
        }
    }

    /// The numbers 1 to 3, in their order.
    pub fn check(&self) -> Result<(), Refusal> {
        self.check_lengths()?;
        self.check_width()?;
        self.check_words()
    }

    /// 1: "n is 0 or above 1,024, or the response buffer isn't n long".
    fn check_lengths(&self) -> Result<(), Refusal> {
        let n = self.words.len();
        if n == 0 || n > MOST_WORDS || self.responses.len() != n {
            return refused(1);
        }
        Ok(())
    }

    /// 2: "N not 1 to 64".
    fn check_width(&self) -> Result<(), Refusal> {
        if self.width == 0 || self.width > MOST_BITS {
            return refused(2);
        }
        Ok(())
    }

    /// 3: "a word has a one at or above bit N", with the lowest such word.
    fn check_words(&self) -> Result<(), Refusal> {
        for (index, word) in self.words.iter().enumerate() {
            if is_stray(*word, self.width) {
                return refused_at(3, index);
            }
        }
        Ok(())
    }
}
