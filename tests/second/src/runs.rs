//! The program `runs`: plays scripts on the second program and on the two that
//! are tested, and compares every answer. BOARD is given the machine's lines,
//! ARRAY the array's. A BOARD called `none` leaves the second program to its own
//! checks.
//!
//! - `runs figures DIR BOARD ARRAY`: each script of DIR prints what stands
//!   beside it.
//! - `runs scripts BOARD ARRAY FIRST COUNT LINES`: random scripts of COUNT seeds.
//! - `runs strangers BOARD ARRAY FIRST COUNT LINES`: the same, each line on the
//!   program that it isn't for, where it is a bad one.
//! - `runs images BOARD ARRAY FIRST COUNT`: every damaged form of COUNT images.
//! - `runs tally FIRST COUNT LINES`: prints what those random scripts bring out.
//! - `runs needs FIRST COUNT LINES`: checks that nothing they should is missing.
//! - `runs hunt BOARD ARRAY FIRST COUNT LINES`: the first difference, or none.
//!
//! The last line is 'N passed, M failed', a script counting as one; the status
//! is 0 only if M is 0.

mod ends;
mod figures;
mod picks;
mod player;
mod promises;
mod told;

use player::Boards;
use scripts::tally::{needed, unwanted, Tally};
use scripts::{image_script, random_script};
use std::ops::Range;
use std::process::ExitCode;
use std::time::Instant;
use told::Told;

/// After so many scripts that failed, no more are shown.
const MOST_SHOWN: usize = 20;

/// Every so many scripts one is played line by line.
const STEPPED: u64 = 25;

/// What passed and failed, and how many commands were answered.
#[derive(Default)]
pub struct Score {
    passed: usize,
    failed: usize,
    commands: usize,
}

impl Score {
    /// Counts one check, and shows what was wrong with it.
    pub fn count(&mut self, name: &str, verdict: Result<(), String>) {
        match verdict {
            Ok(()) => self.passed += 1,
            Err(wrong) => {
                self.failed += 1;
                if self.failed <= MOST_SHOWN {
                    println!("{name} {wrong}");
                }
            }
        }
    }
}

/// One script on the programs that are tested; how many commands it had is
/// counted first.
fn compare(score: &mut Score, boards: Boards, script: &[u8], stepped: bool) -> Result<(), String> {
    let told = told::tell(script);
    score.commands += told::commands(&told);
    if boards.machine != "none" {
        held(boards, &told, stepped)?;
    }
    promises::hold(&told)
}

/// What the programs print of these lines is what is told of them.
fn held(boards: Boards, told: &[Told], stepped: bool) -> Result<(), String> {
    let (output, end) = if stepped {
        player::play_in_step(boards, told)?
    } else {
        player::play(boards, told)?
    };
    match (told::hold(told, &output), end) {
        (Err(wrong), Err(late)) => Err(format!("{wrong}\n  {late}")),
        (held, end) => held.and(end),
    }
}

fn scripts(score: &mut Score, boards: Boards, seeds: Range<u64>, lines: usize, hunt: bool) {
    for seed in seeds {
        let script = random_script(seed, lines);
        let verdict = compare(score, boards, &script, seed % STEPPED == 0);
        score.count(&format!("seed {seed} of {lines} lines,"), verdict);
        if hunt && score.failed > 0 {
            return;
        }
    }
}

/// Random scripts, each line on the program that it isn't for.
fn strangers(score: &mut Score, boards: Boards, seeds: Range<u64>, lines: usize) {
    for seed in seeds {
        let told = told::tell(&random_script(seed, lines));
        let swapped: Vec<Told> = told.iter().map(Told::on_the_other_side).collect();
        let name = format!("seed {seed} of {lines} lines, on the other program,");
        score.count(&name, held(boards, &swapped, false));
    }
}

fn images(score: &mut Score, boards: Boards, seeds: Range<u64>, hunt: bool) {
    for seed in seeds {
        let script = image_script(seed);
        let verdict = compare(score, boards, &script, false);
        score.count(&format!("image {seed},"), verdict);
        if hunt && score.failed > 0 {
            return;
        }
    }
}

/// What random scripts bring out.
fn tally(seeds: Range<u64>, lines: usize) -> Tally {
    let mut tally = Tally::default();
    for seed in seeds {
        tally.script(&random_script(seed, lines));
    }
    tally
}

fn print(tally: &Tally) {
    for (name, count) in &tally.counts {
        println!("{count:9} {name}");
    }
}

/// Every need counts as one check.
fn needs(score: &mut Score, tally: &Tally) {
    for (name, least) in needed() {
        let count = tally.counts.get(&name).copied().unwrap_or(0);
        let verdict = if count >= least {
            Ok(())
        } else {
            Err(format!("came {count} times, not {least}"))
        };
        score.count(&name, verdict);
    }
    for name in unwanted() {
        let verdict = match tally.counts.get(name) {
            None => Ok(()),
            Some(count) => Err(format!("came {count} times")),
        };
        score.count(name, verdict);
    }
}

/// Does what the command line asks for; nothing if it isn't understood.
fn obey(score: &mut Score, words: &[&str]) -> Option<()> {
    let number = |word: &str| word.parse::<u64>().ok();
    let seeds = |first: &str, count: &str| {
        let first = number(first)?;
        Some(first..first.checked_add(number(count)?)?)
    };
    let length = |lines: &str| lines.parse::<usize>().ok();
    match *words {
        ["figures", at, machine, array] => figures::all(score, at, Boards { machine, array }),
        ["scripts", machine, array, first, count, lines] => {
            let boards = Boards { machine, array };
            scripts(score, boards, seeds(first, count)?, length(lines)?, false);
        }
        ["strangers", machine, array, first, count, lines] => {
            let boards = Boards { machine, array };
            strangers(score, boards, seeds(first, count)?, length(lines)?);
        }
        ["images", machine, array, first, count] => {
            let boards = Boards { machine, array };
            images(score, boards, seeds(first, count)?, false);
        }
        ["tally", first, count, lines] => print(&tally(seeds(first, count)?, length(lines)?)),
        ["needs", first, count, lines] => {
            needs(score, &tally(seeds(first, count)?, length(lines)?));
        }
        ["hunt", machine, array, first, count, lines] => {
            let boards = Boards { machine, array };
            scripts(score, boards, seeds(first, count)?, length(lines)?, true);
            if score.failed == 0 {
                images(score, boards, seeds(first, count)?, true);
            }
        }
        _ => return None,
    }
    Some(())
}

fn main() -> ExitCode {
    let words: Vec<String> = std::env::args().skip(1).collect();
    let words: Vec<&str> = words.iter().map(String::as_str).collect();
    let began = Instant::now();
    let mut score = Score::default();
    if obey(&mut score, &words).is_none() {
        eprintln!("usage: runs figures|scripts|strangers|images|tally|needs|hunt ..");
        return ExitCode::from(2);
    }
    if score.commands > 0 {
        let seconds = began.elapsed().as_secs_f64();
        println!("{} commands, {seconds:.1} s", score.commands);
    }
    println!("{} passed, {} failed", score.passed, score.failed);
    if score.failed == 0 {
        ExitCode::SUCCESS
    } else {
        ExitCode::FAILURE
    }
}
