//! What a script's own comments promise, held against the answers: `# same A B`
//! that the A-th and B-th commands after it answer the same, `# ends` that the
//! five commands after it show a job from its start to its stated end,
//! `# stored` that the second command after it stores the bytes the first read,
//! `# picked B` that the `why` lines after it say "matched" of the very words in
//! which the search after them sets response bit B, as the `list` after it tells.

use crate::ends;
use crate::picks;
use crate::told::Told;

type Verdict = Result<(), String>;

/// A promise about the commands after it, which it counts from 0.
enum Promise {
    Same(usize, usize),
    Ends,
    Stored,
    Picked(u32),
}

/// The promise a line makes, if it makes one.
fn promise_of(line: &[u8]) -> Option<Promise> {
    if !line.starts_with(b"# ") {
        return None;
    }
    let text = std::str::from_utf8(line).ok()?;
    let place = |word: &str| word.parse::<usize>().ok()?.checked_sub(1);
    match text.trim_end().split(' ').collect::<Vec<_>>().as_slice() {
        ["#", "same", first, other] => Some(Promise::Same(place(first)?, place(other)?)),
        ["#", "ends"] => Some(Promise::Ends),
        ["#", "stored"] => Some(Promise::Stored),
        ["#", "picked", bit] => Some(Promise::Picked(bit.parse().ok()?)),
        _ => None,
    }
}

/// Holds a promise against the commands after it; one that the script's end
/// cut short promises nothing.
fn keeps(promise: &Promise, after: &[&Told]) -> Verdict {
    match promise {
        Promise::Same(first, other) => match (after.get(*first), after.get(*other)) {
            (Some(a), Some(b)) if a.answer != b.answer => {
                Err(format!("lines {} and {} differ", a.number, b.number))
            }
            _ => Ok(()),
        },
        Promise::Stored => match after {
            [read, store, ..] => stored(read, store),
            _ => Ok(()),
        },
        Promise::Picked(bit) => picks::hold(*bit, after),
        Promise::Ends => match after {
            [before, start, _, _, end, ..] => ends::hold(before, start, end),
            _ => Ok(()),
        },
    }
}

/// The image stored is the one read.
fn stored(read: &Told, store: &Told) -> Verdict {
    let text = String::from_utf8_lossy(&read.line);
    let digits = text.trim_end().rsplit(' ').next().unwrap_or("");
    let image = store.answer.as_deref().unwrap_or("").strip_prefix("image ");
    if image == Some(digits) {
        Ok(())
    } else {
        Err(format!("line {}: not the image read", store.number))
    }
}

/// How many commands after it a promise may speak of.
const REACH: usize = 8;

/// Holds all promises of a script.
pub fn hold(told: &[Told]) -> Verdict {
    for (index, line) in told.iter().enumerate() {
        if let Some(promise) = promise_of(&line.line) {
            let after = told[index..].iter().filter(|line| line.answer.is_some());
            keeps(&promise, &after.take(REACH).collect::<Vec<_>>())?;
        }
    }
    Ok(())
}
