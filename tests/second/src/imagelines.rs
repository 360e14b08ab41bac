//! Scenes with images: whole, damaged and cut, read into enough room and too
//! little, and written into enough room and too little.

use crate::values;
use crate::writer::{digits, undigits, Writer};
use processor::image::compose;

impl Writer {
    /// Reads an image stored before.
    pub fn resume_saved(&mut self) {
        if let Some(image) = self.saved_image() {
            self.say(format!("resume {image}"));
        }
    }

    /// One of the images stored lately, as digits.
    pub fn saved_image(&mut self) -> Option<String> {
        let index = self.rng.below(self.saved.len() as u64) as usize;
        self.saved.get(index).cloned()
    }

    /// An image: stored before, or of the machine now, or from nothing; then
    /// perhaps damaged.
    pub fn some_image(&mut self) -> String {
        let mut image = match self.rng.below(4) {
            0 => undigits(&self.saved_image().unwrap_or_default()),
            1 if self.n() <= 40 || self.rng.once_in(3) => {
                compose(&self.model.machine, &self.model.job)
            }
            _ => values::image(&mut self.rng),
        };
        if self.rng.once_in(2) {
            values::damage(&mut self.rng, &mut image);
        }
        let text = digits(&image);
        if self.rng.once_in(4) {
            text.to_lowercase()
        } else {
            text
        }
    }

    pub fn images(&mut self) {
        for _ in 0..self.rng.between(1, 3) {
            self.one_image();
        }
        if self.rng.once_in(3) {
            self.look();
        }
    }

    pub fn one_image(&mut self) {
        match self.rng.below(7) {
            0 => self.look(),
            1 => self.room(),
            2 | 3 => {
                let image = self.some_image();
                self.say(format!("resume {image}"));
            }
            4 => self.resume_saved(),
            _ => self.fit(),
        }
    }

    /// An output beside the image's own length.
    pub fn room(&mut self) {
        let length = compose(&self.model.machine, &self.model.job).len() as u64;
        let near = self.rng.between(length.saturating_sub(2), length + 1);
        let size = self
            .rng
            .pick(&[length, length - 1, length + 1, near, 0, 20_000, 20_001]);
        let size = self.decimal(size);
        self.say(format!("room {size}"));
    }

    /// Destinations beside the image's own number of words.
    pub fn fit(&mut self) {
        let image = self.some_image();
        let bytes = undigits(&image);
        let count = bytes.get(5..7).unwrap_or(&[0, 0]);
        let n = (u64::from(count[0]) + 256 * u64::from(count[1])).min(2047);
        let sizes = [n, n, n, n, n, n + 1, n.saturating_sub(1), 0, 1024, 2048];
        let words = self.rng.pick(&sizes);
        let responses = self.rng.pick(&sizes);
        self.say(format!("fit {words} {responses} {image}"));
    }
}
