//! Where a write and an add meet on one word, and which bits each of them asks
//! to flip there.

use super::facts::Facts;
use processor::console::Console;
use processor::machine::is_selected;
use processor::panel::Lines;
use processor::syllable::syllables;
use processor::wide::WIDE;

/// The four pairs of lines by which a write and an add can meet.
pub const MEETINGS: [&str; 4] = [
    "write+add",
    "write+multiadd",
    "add+multiwrite",
    "multiwrite+multiadd",
];

/// What can happen on a word where they do.
pub const ASKED: [&str; 5] = [
    "a carry past mor",
    "a bit that both ask for",
    "a bit that the write alone asks for",
    "a bit that the add alone asks for",
    "the 64-bit syllable wraps",
];

impl Facts {
    /// `pulse` names the machine and the lines; each fact counts once in a
    /// pulse, on however many words it comes.
    pub fn meeting_facts(&mut self, pulse: &str, console: &Console, lines: Lines) {
        let (machine, panel) = (&console.machine, &console.panel);
        let whole = machine.width == 64 && syllables(panel.sdr, 64).len() == 1;
        let mut met = false;
        let mut seen = [false; 5];
        for (index, word) in machine.words.iter().enumerate() {
            let addressed = panel.address == index as u64;
            let selected = is_selected(machine.responses[index], panel.key, panel.care);
            let writes = (lines.write && addressed) || (lines.multiwrite && selected);
            let adds = (lines.add && addressed) || (lines.multiadd && selected);
            if !(writes && adds) {
                continue;
            }
            met = true;
            let by_write = word ^ (WIDE.written)(*word, panel, machine.width);
            let by_add = word ^ (WIDE.added)(*word, panel, machine.width);
            let here = [
                by_add & !panel.mor != 0,
                by_write & by_add != 0,
                by_write & !by_add != 0,
                by_add & !by_write != 0,
                whole && word.checked_add(panel.comp & panel.mor).is_none(),
            ];
            for (seen, here) in seen.iter_mut().zip(here) {
                *seen |= here;
            }
        }
        if met {
            self.found.push(format!("{pulse} meet"));
        }
        for (what, _) in ASKED.iter().zip(seen).filter(|(_, seen)| *seen) {
            self.found.push(format!("{pulse} meet: {what}"));
        }
    }
}
