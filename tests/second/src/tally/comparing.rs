//! Searches that are taken, and in them the syllables that compare: how wide
//! they are, the words equal to COMP there and next to it, where larger and at
//! least part, the don't-care bits, and which ways stand side by side.

use super::facts::Facts;
use processor::cells::CELLS;
use processor::console::Console;
use processor::machine::{bit, is_selected, ones};
use processor::panel::Panel;
use processor::pulse::Way;
use processor::syllable::{code_of, syllables, Code, Syllable};
use processor::wide::WIDE;
use std::collections::BTreeSet;

/// The ways of a syllable that compares, and whether each takes the number
/// next below COMP's, the one equal to it and the one next above.
pub const COMPARING: [(&str, [bool; 3]); 4] = [
    ("larger", [false, false, true]),
    ("smaller", [true, false, false]),
    ("at least", [false, true, true]),
    ("at most", [true, true, false]),
];

/// Where a word's number stands to COMP's.
pub const STANDINGS: [&str; 3] = ["next below", "equal", "next above"];

/// Where don't-care bits can stand among the bits that are cared for.
pub const GAPS: [&str; 3] = ["above", "between", "below"];

/// Ways side by side in one word.
pub const BESIDE: [(&str, &str); 10] = [
    ("at least", "larger"),
    ("at least", "smaller"),
    ("at least", "at most"),
    ("at least", "exact"),
    ("at most", "larger"),
    ("at most", "smaller"),
    ("at most", "exact"),
    ("larger", "smaller"),
    ("larger", "exact"),
    ("smaller", "exact"),
];

/// The name of a way that cares.
fn name_of(code: Code) -> Option<&'static str> {
    match code {
        Code::DontCare => None,
        Code::Exact => Some("exact"),
        Code::Larger => Some("larger"),
        Code::Smaller => Some("smaller"),
        Code::AtLeast => Some("at least"),
        Code::AtMost => Some("at most"),
    }
}

/// What happened to a word.
pub fn fate(taken: bool) -> &'static str {
    if taken {
        "taken"
    } else {
        "left"
    }
}

/// One search that is taken, on the machine of that name.
struct Search<'a> {
    machine: &'a str,
    way: Way,
    panel: &'a Panel,
    width: u8,
    /// The words that are selected.
    words: Vec<u64>,
}

impl Facts {
    /// Each fact counts once in a pulse, on however many words or syllables it
    /// comes.
    pub fn comparing_facts(&mut self, machine: &str, console: &Console) {
        let search = Search::of(machine, console);
        let mut facts = BTreeSet::new();
        let mut ways = BTreeSet::new();
        for syllable in syllables(search.panel.sdr, search.width) {
            let way = code_of(search.panel, syllable).and_then(name_of);
            let way = match way {
                Some(way) => way,
                None => continue,
            };
            ways.insert(way);
            if way != "exact" {
                search.syllable_facts(&mut facts, way, syllable);
            }
        }
        search.beside(&mut facts, &ways);
        self.found.extend(facts);
    }
}

impl<'a> Search<'a> {
    fn of(machine: &'a str, console: &'a Console) -> Search<'a> {
        let panel = &console.panel;
        let both = console.machine.words.iter().zip(&console.machine.responses);
        let selected = both.filter(|(_, response)| is_selected(**response, panel.key, panel.care));
        Search {
            machine,
            way: if machine == "pulse" { WIDE } else { CELLS },
            panel,
            width: console.machine.width,
            words: selected.map(|(word, _)| *word).collect(),
        }
    }

    fn takes(&self, word: u64) -> bool {
        (self.way.satisfies)(word, self.panel, self.width)
    }

    fn syllable_facts(&self, facts: &mut BTreeSet<String>, way: &str, syllable: Syllable) {
        let head = format!("{}: {way}", self.machine);
        facts.insert(format!("{head} over {} bits", syllable.width));
        let kept = (self.panel.sc1 | self.panel.sc2) & syllable.bits();
        for gap in gaps(kept, syllable) {
            facts.insert(format!("{head} with don't-cares {gap}"));
        }
        for word in &self.words {
            if let Some(standing) = standing(*word, self.panel.comp, kept) {
                if self.hangs_on(*word, syllable) {
                    let fate = fate(self.takes(*word));
                    facts.insert(format!("{head}: {standing} {fate}"));
                    if (word ^ self.panel.comp) & syllable.bits() & !kept != 0 {
                        facts.insert(format!("{head}: {standing} but for don't-cares {fate}"));
                    }
                }
            }
        }
    }

    /// Whether a word matches or not by this syllable alone: all others are
    /// satisfied. It is left out of the search to see that.
    fn hangs_on(&self, word: u64, syllable: Syllable) -> bool {
        let others = !syllable.bits();
        let panel = Panel {
            sc1: self.panel.sc1 & others,
            sc2: self.panel.sc2 & others,
            sc3: self.panel.sc3 & others,
            ..*self.panel
        };
        (self.way.satisfies)(word, &panel, self.width)
    }

    /// Two ways side by side where a word satisfies both; with any other, no
    /// difference between them would be seen.
    fn beside(&self, facts: &mut BTreeSet<String>, ways: &BTreeSet<&str>) {
        if !self.words.iter().any(|word| self.takes(*word)) {
            return;
        }
        for (one, other) in BESIDE {
            if ways.contains(one) && ways.contains(other) {
                facts.insert(format!("{}: {one} beside {other}", self.machine));
            }
        }
    }
}

/// Where a word stands to COMP over the bits that are kept, if it is near.
fn standing(word: u64, comp: u64, kept: u64) -> Option<&'static str> {
    let (ours, theirs) = (squeezed(word, kept), squeezed(comp, kept));
    if ours == theirs {
        Some("equal")
    } else if theirs.checked_add(1) == Some(ours) {
        Some("next above")
    } else if ours.checked_add(1) == Some(theirs) {
        Some("next below")
    } else {
        None
    }
}

/// The number that the kept bits of a word make when the others are taken out
/// from between them.
fn squeezed(word: u64, kept: u64) -> u64 {
    let places = (0..64).rev().filter(|place| bit(kept, *place) == 1);
    places.fold(0, |sum, place| sum << 1 | bit(word, place))
}

/// Where a syllable has don't-care bits. At least one of its bits is kept.
fn gaps(kept: u64, syllable: Syllable) -> Vec<&'static str> {
    let missing = syllable.bits() & !kept;
    let low = ones(kept.trailing_zeros());
    let high = !ones(64 - kept.leading_zeros());
    let held = [missing & high, missing & !high & !low, missing & low];
    let both = GAPS.iter().zip(held).filter(|(_, bits)| *bits != 0);
    both.map(|(gap, _)| *gap).collect()
}
