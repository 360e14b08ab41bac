//! Lines of the console's input: bytes split at newlines, of any length.

use std::io::{BufRead, ErrorKind, Result};

/// The most bytes a command line may have before its newline.
pub const LONGEST: usize = 20_000;

/// One line. Of a line that is too long only the beginning is kept, with what
/// still matters of the rest.
#[derive(Default)]
pub struct Line {
    /// The line's bytes, at most LONGEST of them.
    pub bytes: Vec<u8>,
    /// Whether the line had more bytes than are kept.
    pub too_long: bool,
    /// Whether any byte of the whole line was other than a space.
    pub has_word: bool,
}

impl Line {
    /// A line of these bytes.
    pub fn of(bytes: &[u8]) -> Line {
        let mut line = Line::default();
        line.append(bytes);
        line
    }

    /// Puts more bytes to the line's end.
    fn append(&mut self, more: &[u8]) {
        let room = LONGEST - self.bytes.len();
        self.bytes.extend(more.iter().take(room));
        self.too_long = self.too_long || more.len() > room;
        self.has_word = self.has_word || more.iter().any(|byte| *byte != b' ');
    }

    /// "A line with no word, and one whose first byte is `#`, prints nothing,
    /// however long."
    pub fn is_silent(&self) -> bool {
        !self.has_word || self.bytes.first() == Some(&b'#')
    }

    /// "Words of a line stand apart by one or more spaces, and by nothing
    /// else."
    pub fn words(&self) -> Vec<&[u8]> {
        self.bytes
            .split(|byte| *byte == b' ')
            .filter(|word| !word.is_empty())
            .collect()
    }
}

/// The next line of an input, or nothing at its end. "A last line with no
/// newline counts."
pub fn read_line(input: &mut impl BufRead) -> Result<Option<Line>> {
    let mut line = Line::default();
    let mut any = false;
    loop {
        let chunk = match input.fill_buf() {
            Ok(chunk) => chunk,
            Err(error) if error.kind() == ErrorKind::Interrupted => continue,
            Err(error) => return Err(error),
        };
        if chunk.is_empty() {
            return Ok(Some(line).filter(|_| any));
        }
        any = true;
        let newline = chunk.iter().position(|byte| *byte == b'\n');
        let end = newline.unwrap_or(chunk.len());
        line.append(&chunk[..end]);
        input.consume(newline.map_or(end, |at| at + 1));
        if newline.is_some() {
            return Ok(Some(line));
        }
    }
}
