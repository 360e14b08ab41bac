//! Answers to `why` lines that are held against a search: those after a comment
//! `# picked B`, with the search and the list that follow them.

use super::Tally;

/// What has come after the comment.
#[derive(Default)]
pub struct Picked {
    answers: Vec<String>,
    /// On which machine the search was, and its answer.
    search: Option<(String, String)>,
}

impl Tally {
    pub fn follow_comment(&mut self, comment: &[u8]) {
        if comment.starts_with(b"# picked ") {
            self.picked = Some(Picked::default());
        }
    }

    /// The lines in their order; after any other nothing is held against a search.
    pub fn follow_picked(&mut self, words: &[&[u8]], answer: &str) {
        let mut picked = match self.picked.take() {
            Some(picked) => picked,
            None => return,
        };
        match (words, &picked.search) {
            ([b"why", _], None) => picked.answers.push(answer.to_string()),
            ([way @ (b"pulse" | b"cells"), lines @ ..], None)
                if lines.contains(&&b"search"[..]) =>
            {
                let way = String::from_utf8_lossy(way).into_owned();
                picked.search = Some((way, answer.to_string()));
            }
            ([b"list"], Some((way, searched))) => {
                return self.end_picked(&picked.answers, way, searched, answer);
            }
            _ => return,
        }
        self.picked = Some(picked);
    }

    /// Where the search is taken, the list tells what it left.
    fn end_picked(&mut self, answers: &[String], way: &str, searched: &str, list: &str) {
        let taken = !searched.starts_with("refused");
        if taken && !list.starts_with("words") {
            return;
        }
        for answer in answers {
            let kind = kind_of(answer);
            if taken || answer == searched {
                self.count(format!("why: {kind} held against {way}"));
            }
        }
    }
}

/// An answer without its places.
fn kind_of(answer: &str) -> String {
    let words: Vec<&str> = answer.split(' ').collect();
    match words.as_slice() {
        ["not", "selected", ..] => "not selected".to_string(),
        ["syllable", _, "against", ..] => "against".to_string(),
        ["syllable", _, rest @ ..] => rest.join(" "),
        ["refused", number, ..] => format!("refused {number}"),
        _ => answer.to_string(),
    }
}
