//! The program `generate`: prints a script, the same for the same seed.
//! `generate SEED COUNT` gives a random one of COUNT lines, `generate image
//! SEED` the one that reads every damaged form of the image of that seed.

use scripts::{image_script, random_script};
use std::io::{stdout, Write};
use std::process::ExitCode;

/// The script that the command line asks for.
fn wanted() -> Option<Vec<u8>> {
    let words: Vec<String> = std::env::args().skip(1).collect();
    let words: Vec<&str> = words.iter().map(String::as_str).collect();
    match words.as_slice() {
        ["image", seed] => Some(image_script(seed.parse().ok()?)),
        [seed, count] => Some(random_script(seed.parse().ok()?, count.parse().ok()?)),
        _ => None,
    }
}

fn main() -> ExitCode {
    let script = match wanted() {
        Some(script) => script,
        None => {
            eprintln!("usage: generate SEED COUNT, generate image SEED");
            return ExitCode::from(2);
        }
    };
    match stdout().lock().write_all(&script) {
        Ok(()) => ExitCode::SUCCESS,
        Err(_) => ExitCode::FAILURE,
    }
}
