//! Request e of document 02: ""matched" is said exactly when the search matches",
//! and "Refusals: as for a search, with 7 for the word number". The answers of `why`
//! lines are held against a search after them and the list of what it left.

use crate::told::Told;
use processor::machine;

/// Holds the `why` lines that `after` begins with against the search and the list
/// that follow. The search's target is response bit `bit` alone, which then stands
/// in matching words and in no others.
pub fn hold(bit: u32, after: &[&Told]) -> Result<(), String> {
    let asked = after.iter().map_while(|why| Some((why, word_of(why)?)));
    let asked: Vec<_> = asked.collect();
    let (search, list) = match &after[asked.len()..] {
        [search, list, ..] => (search, list),
        _ => return Ok(()),
    };
    let marks = marks_of(list, bit);
    for (why, word) in asked {
        if !keeps(why, word, search, &marks) {
            return Err(format!("line {}: not what the search says", why.number));
        }
    }
    Ok(())
}

/// The word that a line asks for.
fn word_of(told: &Told) -> Option<usize> {
    let text = std::str::from_utf8(&told.line).ok()?;
    text.trim_end().strip_prefix("why ")?.parse().ok()
}

/// Whether one answer is what the search says of that word.
fn keeps(why: &Told, word: usize, search: &Told, marks: &[bool]) -> bool {
    let answer = why.answer.as_deref().unwrap_or("");
    let searched = search.answer.as_deref().unwrap_or("");
    match marks.get(word) {
        _ if searched.starts_with("refused") => answer == searched,
        None => answer == "refused 7",
        Some(true) => answer == "matched",
        Some(false) => answer.starts_with("not selected") || answer.starts_with("syllable"),
    }
}

/// Which words of a list have a response bit.
fn marks_of(list: &Told, bit: u32) -> Vec<bool> {
    let words = list.answer.as_deref().unwrap_or("").lines().skip(1);
    let responses = words.map(|line| line.rsplit(' ').next().unwrap_or(""));
    let values = responses.map(|digits| u64::from_str_radix(digits, 16).unwrap_or(0));
    values.map(|value| machine::bit(value, bit) == 1).collect()
}
