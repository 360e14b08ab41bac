//! The figures of the document: scripts whose output is typed beside them, and
//! an image given as bytes.

use crate::player::{play, Boards};
use crate::told::tell;
use crate::Score;
use std::fs;
use std::path::{Path, PathBuf};

/// Every script of a directory.
pub fn all(score: &mut Score, at: &str, boards: Boards) {
    let mut found: Vec<PathBuf> = match fs::read_dir(at) {
        Ok(entries) => entries.flatten().map(|entry| entry.path()).collect(),
        Err(error) => return score.count(at, Err(error.to_string())),
    };
    found.sort();
    for path in found.iter().filter(|path| is_kind(path, "script")) {
        let name = format!("figure {} on {}:", path.display(), boards.machine);
        score.count(&name, figure(path, boards));
    }
}

fn is_kind(path: &Path, kind: &str) -> bool {
    path.extension().map_or(false, |ending| ending == kind)
}

fn bytes_of(path: &Path) -> Result<Vec<u8>, String> {
    fs::read(path).map_err(|error| format!("{}: {error}", path.display()))
}

/// A figure's script, and its image if it has one: read, then listed.
fn figure(path: &Path, boards: Boards) -> Result<(), String> {
    let script = bytes_of(path)?;
    expect(
        boards,
        &script,
        &bytes_of(&path.with_extension("expected"))?,
    )?;
    let image = path.with_extension("image");
    if !image.exists() {
        return Ok(());
    }
    let digits: String = bytes_of(&image)?
        .iter()
        .map(|b| format!("{b:02x}"))
        .collect();
    let script = format!("resume {digits}\nlist\n");
    expect(
        boards,
        script.as_bytes(),
        &bytes_of(&path.with_extension("listed"))?,
    )
}

/// The programs print these bytes and no others.
fn expect(boards: Boards, script: &[u8], expected: &[u8]) -> Result<(), String> {
    let (output, end) = play(boards, &tell(script))?;
    if output != expected {
        let lines = |bytes: &[u8]| -> Vec<String> {
            String::from_utf8_lossy(bytes)
                .lines()
                .map(str::to_string)
                .collect()
        };
        let (ours, theirs) = (lines(expected), lines(&output));
        let alike = ours.iter().zip(&theirs).take_while(|(a, b)| a == b).count();
        let nothing = "nothing".to_string();
        return Err(format!(
            "answer {}\n  expected: {}\n  printed:  {}",
            alike + 1,
            ours.get(alike).unwrap_or(&nothing),
            theirs.get(alike).unwrap_or(&nothing)
        ));
    }
    end
}
