//! Every damaged form of one small image: each of its prefixes, and each
//! change of one byte to each other value, read one after the other. After
//! each that is taken the machine is stored again, which has to give the same
//! bytes: so what was read is seen, and not only that it was. The comment
//! `# stored` promises it.

use crate::rng::Rng;
use crate::values;
use crate::writer::digits;
use processor::image::{self, compose};
use processor::jobs::Job;
use processor::machine::MOST_WORDS;

/// A script in the making, and the number of words of the image.
struct Reads {
    script: String,
    n: usize,
    count: usize,
}

impl Reads {
    fn say(&mut self, line: &str) {
        self.script.push_str(line);
        self.script.push('\n');
    }

    /// Reads some bytes: into the machine's own buffers, or into destinations
    /// of the image's own length. What was taken is the image to store.
    fn read(&mut self, bytes: &[u8]) {
        let text = digits(bytes);
        let taken = image::read(bytes, MOST_WORDS, MOST_WORDS).is_ok();
        self.count += 1;
        if taken {
            self.say("# stored");
        }
        if self.count % 5 == 0 {
            self.say(&format!("fit {} {} {text}", self.n, self.n));
        } else {
            self.say(&format!("resume {text}"));
        }
        if taken {
            self.say("store");
        }
    }

    /// One byte more than the image, and one less room than it needs.
    fn beside(&mut self, bytes: &[u8]) {
        let longer = [bytes, &[0]].concat();
        self.read(&longer);
        let (text, n) = (digits(bytes), self.n);
        self.say(&format!("fit {} {n} {text}", n - 1));
        self.say(&format!("fit {n} {} {text}", n - 1));
    }
}

/// A job that may be held at a width, if the seed wants one: kinds, and within
/// them phases and places, by chance.
fn sound_job(rng: &mut Rng, width: u8) -> Option<Job> {
    if rng.once_in(4) {
        return None;
    }
    let drawn = (0..200).map(|_| values::record(rng, width));
    drawn.filter(|job| job.is_sound(width)).next()
}

/// The image of a seed: one to four words.
fn small_image(rng: &mut Rng) -> (Vec<u8>, usize) {
    let width = values::good_width(rng);
    let n = rng.pick(&[1, 1, 2, 2, 3, 4]);
    let machine = values::machine(rng, width, n);
    let job = sound_job(rng, width);
    (compose(&machine, &job), n)
}

/// The script of a seed.
pub fn image_script(seed: u64) -> Vec<u8> {
    // Other numbers than a random script of the same seed has.
    let mut rng = Rng::new(!seed);
    let (bytes, n) = small_image(&mut rng);
    let mut reads = Reads {
        script: String::new(),
        n,
        count: 0,
    };
    reads.read(&bytes);
    for length in 0..bytes.len() {
        reads.read(&bytes[..length]);
    }
    let mut changed = bytes.clone();
    for place in 0..bytes.len() {
        for value in (0..=255).filter(|value| *value != bytes[place]) {
            changed[place] = value;
            reads.read(&changed);
        }
        changed[place] = bytes[place];
    }
    reads.beside(&bytes);
    reads.script.into_bytes()
}
