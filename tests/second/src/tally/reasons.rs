//! All the numbers that a pulse or an operation of the array would be turned
//! down for, and all the reasons why number 5 would be given for a search: each by
//! itself, so that it is seen which were met alone and which together.

use processor::array::Array;
use processor::machine::{bit, is_stray, Machine, MOST_BITS, MOST_WORDS};
use processor::panel::{Lines, Panel};
use processor::syllable::{code_of, has_idle_one, syllables, Syllable};

/// The reasons for number 5: the first of document 01, the others of request c.
pub const CODE_REASONS: [&str; 5] = [
    "two codes",
    "two settings of sc3",
    "sc3 over an exact bit",
    "sc3 over a don't-care bit",
    "sc3 over a syllable of don't-cares",
];

/// Those of 1 to 3 that are given for a machine.
pub fn machine_numbers(machine: &Machine) -> Vec<u8> {
    let n = machine.words.len();
    let width = machine.width;
    let held = [
        n == 0 || n > MOST_WORDS || machine.responses.len() != n,
        width == 0 || width > MOST_BITS,
        machine.words.iter().any(|word| is_stray(*word, width)),
    ];
    let numbers = (1..=3).zip(held).filter(|(_, so)| *so);
    numbers.map(|(number, _)| number).collect()
}

pub fn pulse_numbers(machine: &Machine, panel: &Panel, lines: Lines) -> Vec<u8> {
    let n = machine.words.len();
    let width = machine.width;
    let registers = [
        panel.comp, panel.sdr, panel.sc1, panel.sc2, panel.sc3, panel.mor,
    ];
    let mut all = syllables(panel.sdr, width.min(MOST_BITS)).into_iter();
    let wrong = all.any(|s| code_of(panel, s).is_none() || has_idle_one(panel, s));
    let raised = lines.raised();
    let addressed = lines.read || lines.write || lines.add;
    let held = [
        registers.iter().any(|register| is_stray(*register, width)),
        lines.search && wrong,
        raised == 0 || raised > 2 || (lines.complement && raised > 1),
        addressed && panel.address >= n as u64,
    ];
    let mut numbers = machine_numbers(machine);
    let others = (4..=7).zip(held).filter(|(_, so)| *so);
    numbers.extend(others.map(|(number, _)| number));
    numbers
}

/// What 5 has against the panel's search. It is read off the three registers
/// bit by bit, without the second program's own codes.
pub fn code_reasons(panel: &Panel, width: u8) -> Vec<&'static str> {
    let mut held = [false; 5];
    for syllable in syllables(panel.sdr, width) {
        for (held, here) in held.iter_mut().zip(reasons_of(panel, syllable)) {
            *held |= here;
        }
    }
    let reasons = CODE_REASONS.iter().zip(held).filter(|(_, so)| *so);
    reasons.map(|(name, _)| *name).collect()
}

/// Which of the reasons one syllable gives, in their order.
fn reasons_of(panel: &Panel, syllable: Syllable) -> [bool; 5] {
    let code = |place: &u32| (bit(panel.sc1, *place), bit(panel.sc2, *place));
    let setting = |place: &u32| bit(panel.sc3, *place);
    let (idle, cared): (Vec<u32>, Vec<u32>) = syllable.places().partition(|p| code(p) == (0, 0));
    let over_idle = idle.iter().any(|p| setting(p) == 1);
    [
        cared.iter().any(|p| code(p) != code(&cared[0])),
        cared.iter().any(|p| setting(p) != setting(&cared[0])),
        cared.iter().any(|p| code(p) == (0, 1) && setting(p) == 1),
        over_idle && !cared.is_empty(),
        over_idle && cared.is_empty(),
    ]
}

/// The array's numbers in the order in which they are judged.
pub fn array_numbers(array: &Array) -> Vec<u8> {
    let n = array.ones.len();
    let width = array.width;
    let planes = || array.ones.iter().zip(&array.xs);
    let registers = [array.r1, array.r2, array.m];
    let held = [
        (1, n == 0 || n > MOST_WORDS),
        (2, width == 0 || width > MOST_BITS),
        (3, planes().any(|(one, x)| is_stray(one | x, width))),
        (12, planes().any(|(one, x)| one & x != 0)),
        (4, registers.iter().any(|r| is_stray(*r, width))),
    ];
    let numbers = held.iter().filter(|(_, so)| *so);
    numbers.map(|(number, _)| *number).collect()
}
