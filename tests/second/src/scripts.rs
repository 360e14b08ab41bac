//! The scripts that both programs are given: random ones, and those that read
//! every damaged form of one image. The same number gives the same script.

mod arraylines;
mod badlines;
mod calls;
mod changes;
mod codes;
mod imagelines;
mod joblines;
mod rng;
mod roundlines;
mod scenes;
mod searchlines;
pub mod tally;
mod values;
mod whylines;
mod writer;
mod wronglines;
mod wrongs;

pub use changes::image_script;
use writer::Writer;

/// A random script of `count` lines. The last line of some has no newline.
pub fn random_script(seed: u64, count: usize) -> Vec<u8> {
    let mut writer = Writer::new(seed, count);
    while writer.left > 0 {
        writer.scene();
    }
    if writer.rng.once_in(4) {
        writer.script.pop();
    }
    writer.script
}
