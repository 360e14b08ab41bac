//! One pulse: its numbers, and how its lines work together.

use crate::machine::{is_selected, is_stray, refused, Machine, Refusal};
use crate::panel::{Lines, Panel};
use crate::syllable::{code_of, has_idle_one, syllables};

/// How one word is searched, written and added to. Each takes the word, the
/// panel and the width.
pub struct Way {
    pub satisfies: fn(u64, &Panel, u8) -> bool,
    pub written: fn(u64, &Panel, u8) -> u64,
    pub added: fn(u64, &Panel, u8) -> u64,
}

/// What a pulse answers.
#[derive(Clone, Copy, Debug, PartialEq, Eq)]
pub struct Answer {
    pub count: usize,
    pub read: u64,
}

/// One pulse, "checked for 1 to 7 in number order".
pub fn pulse(
    way: &Way,
    machine: &mut Machine,
    panel: &Panel,
    lines: Lines,
) -> Result<Answer, Refusal> {
    machine.check()?;
    check_registers(machine, panel)?;
    check_codes(machine, panel, lines)?;
    check_lines(lines)?;
    check_address(machine, panel, lines)?;
    Ok(apply(way, machine, panel, lines))
}

/// What is checked of a search raised alone: 1 to 5. It is one line, and none that
/// uses the address, so that 6 and 7 have nothing against it.
pub fn check_search(machine: &Machine, panel: &Panel) -> Result<(), Refusal> {
    let search = Lines {
        search: true,
        ..Lines::default()
    };
    machine.check()?;
    check_registers(machine, panel)?;
    check_codes(machine, panel, search)
}

/// 4: "a panel register has such a one", at or above bit N.
fn check_registers(machine: &Machine, panel: &Panel) -> Result<(), Refusal> {
    let registers = [
        panel.comp, panel.sdr, panel.sc1, panel.sc2, panel.sc3, panel.mor,
    ];
    if registers.iter().any(|r| is_stray(*r, machine.width)) {
        return refused(4);
    }
    Ok(())
}

/// 5: "search raised, a syllable with two codes". 02 c: "5 also covers two SC3
/// settings among one syllable's cared bits, or a one of SC3 over an exact or
/// don't-care bit".
fn check_codes(machine: &Machine, panel: &Panel, lines: Lines) -> Result<(), Refusal> {
    let mut all = syllables(panel.sdr, machine.width).into_iter();
    let is_wrong = |syllable| code_of(panel, syllable).is_none() || has_idle_one(panel, syllable);
    if lines.search && all.any(is_wrong) {
        return refused(5);
    }
    Ok(())
}

/// 6: "no line, three or more, or complement with another".
fn check_lines(lines: Lines) -> Result<(), Refusal> {
    let raised = lines.raised();
    if raised == 0 || raised >= 3 || (lines.complement && raised > 1) {
        return refused(6);
    }
    Ok(())
}

/// 7: "read, write or add raised, address n or more".
fn check_address(machine: &Machine, panel: &Panel, lines: Lines) -> Result<(), Refusal> {
    let uses_address = lines.read || lines.write || lines.add;
    if uses_address && panel.address >= machine.words.len() as u64 {
        return refused(7);
    }
    Ok(())
}

/// The pulse itself. "All results are worked out from the machine before the
/// pulse."
pub fn apply(way: &Way, machine: &mut Machine, panel: &Panel, lines: Lines) -> Answer {
    let before = machine.clone();
    let mut answer = Answer { count: 0, read: 0 };
    for (index, word) in before.words.iter().enumerate() {
        let response = before.responses[index];
        let addressed = panel.address == index as u64;
        let selected = is_selected(response, panel.key, panel.care);
        let matches = lines.search && selected && (way.satisfies)(*word, panel, before.width);
        // "The count: matching words if search is raised, else selected words."
        if if lines.search { matches } else { selected } {
            answer.count += 1;
        }
        // "Read gives the word before the pulse", 0 if it isn't raised.
        if lines.read && addressed {
            answer.read = *word;
        }
        let writes = (lines.write && addressed) || (lines.multiwrite && selected);
        let adds = (lines.add && addressed) || (lines.multiadd && selected);
        machine.words[index] = word_after(way, panel, before.width, *word, writes, adds);
        machine.responses[index] = response_after(panel, lines, response, selected, matches);
    }
    answer
}

/// "Two writes on one word write once; two adds add once." 02 b: "Where a write
/// and an add meet on one word, each asks for certain bits to flip, and a bit
/// flips if either asks." Each asks for the bits that it alone would change.
fn word_after(way: &Way, panel: &Panel, width: u8, word: u64, writes: bool, adds: bool) -> u64 {
    match (writes, adds) {
        (false, false) => word,
        (true, false) => (way.written)(word, panel, width),
        (false, true) => (way.added)(word, panel, width),
        (true, true) => {
            let write_asks = word ^ (way.written)(word, panel, width);
            let add_asks = word ^ (way.added)(word, panel, width);
            word ^ (write_asks | add_asks)
        }
    }
}

/// Search: "each target bit becomes 1 in matching words and 0 in all others".
/// Complement: "in selected words the target bits flip".
fn response_after(panel: &Panel, lines: Lines, response: u8, selected: bool, matches: bool) -> u8 {
    if lines.search && matches {
        response | panel.target
    } else if lines.search {
        response & !panel.target
    } else if lines.complement && selected {
        response ^ panel.target
    } else {
        response
    }
}
