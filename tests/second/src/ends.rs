//! The stated end of a job, held against the images before and after it. It
//! is worked out from the words' numbers at once, without any pulse.

use crate::told::Told;
use processor::image;
use processor::machine::{is_selected, Machine, MOST_WORDS};
use processor::syllable::Syllable;

/// The fields of a `start` line: all decimal but key, care and c.
struct Start {
    kind: u64,
    key: u8,
    care: u8,
    x: u64,
    y: u64,
    a: Syllable,
    b: Syllable,
    p: Syllable,
    c: u64,
}

/// Holds the end of an accepted job against its start.
pub fn hold(before: &Told, start: &Told, end: &Told) -> Result<(), String> {
    if start.answer.as_deref() != Some("ok") {
        return Ok(());
    }
    let told = (machine_of(before), start_of(start), machine_of(end));
    let good = match told {
        (Some(before), Some(start), Some(end)) => is_end(&before, &start, &end),
        _ => false,
    };
    if good {
        Ok(())
    } else {
        Err(format!("line {}: not the stated end", end.number))
    }
}

/// The machine of a stored image that holds no job.
fn machine_of(told: &Told) -> Option<Machine> {
    let digits = told.answer.as_deref()?.strip_prefix("image ")?;
    let mut bytes = Vec::new();
    for at in (0..digits.len()).step_by(2) {
        bytes.push(u8::from_str_radix(digits.get(at..at + 2)?, 16).ok()?);
    }
    let (machine, job) = image::read(&bytes, MOST_WORDS, MOST_WORDS).ok()?;
    Some(machine).filter(|_| job.is_none())
}

fn start_of(told: &Told) -> Option<Start> {
    let text = std::str::from_utf8(&told.line).ok()?;
    let words: Vec<&str> = text.split_ascii_whitespace().collect();
    let decimal = |at: usize| words.get(at)?.parse::<u64>().ok();
    let hex = |at: usize| u64::from_str_radix(words.get(at)?, 16).ok();
    let span = |at: usize| {
        Some(Syllable {
            low: decimal(at)? as u32,
            width: decimal(at + 1)? as u32,
        })
    };
    Some(Start {
        kind: decimal(1)?,
        key: hex(2)? as u8,
        care: hex(3)? as u8,
        x: decimal(4)?,
        y: decimal(5)?,
        a: span(6)?,
        b: span(8)?,
        p: span(10)?,
        c: hex(12)?,
    })
}

/// "X marks exactly the selected words with the extreme value. P holds the
/// stated value in selected words; all other data bits, and response bits but
/// the job's working ones, are unchanged."
fn is_end(before: &Machine, start: &Start, end: &Machine) -> bool {
    let extreme = start.kind <= 2;
    let best = best_of(before, start);
    let alike = before.width == end.width && before.words.len() == end.words.len();
    alike
        && (0..before.words.len()).all(|index| {
            let (word, response) = (before.words[index], before.responses[index]);
            let (new_word, new_response) = (end.words[index], end.responses[index]);
            let selected = is_selected(response, start.key, start.care);
            let marked = selected && Some(start.a.number(word)) == best;
            if extreme {
                let working = 1 << start.x | 1 << start.y;
                new_word == word
                    && (response ^ new_response) & !working == 0
                    && ((new_response >> start.x) & 1 == 1) == marked
            } else {
                new_word == if selected { summed(word, start) } else { word }
                    && (response ^ new_response) & !(1 << start.y) == 0
            }
        })
}

/// The greatest or the smallest A of the selected words, if there is one.
fn best_of(machine: &Machine, start: &Start) -> Option<u64> {
    let entries = machine.words.iter().zip(&machine.responses);
    let selected = entries.filter(|(_, r)| is_selected(**r, start.key, start.care));
    let values = selected.map(|(word, _)| start.a.number(*word));
    if start.kind == 1 {
        values.max()
    } else {
        values.min()
    }
}

/// A word whose P has become P+c·A or P+A·B, modulo 2^p.
fn summed(word: u64, start: &Start) -> u64 {
    let factor = if start.kind == 3 {
        start.c
    } else {
        start.b.number(word)
    };
    let product = u128::from(start.a.number(word)) * u128::from(factor);
    let modulus = 1u128 << start.p.width;
    let sum = (u128::from(start.p.number(word)) + product % modulus) % modulus;
    (word & !start.p.bits()) | ((sum as u64) << start.p.low)
}
