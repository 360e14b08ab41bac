//! Figures of request c of document 02, "At least, at most", worked out by hand
//! from its sentences and the header.

use crate::hosts::*;

/// All figures of request c.
pub fn run(tally: &mut Tally) {
    searches(tally);
    greatest_width(tally);
    refusals(tally);
    whichever_line(tally);
    loads(tally);
    step_answers(tally);
}

/// The registers that make a search: COMP, SDR, SC1, SC2, SC3.
type Search = [u64; 5];

/// The words 89, 90 and 91, which are 59, 5A and 5B, at width 8.
fn days(search: Search) -> Host {
    asked(Host::new(8, &[89, 90, 91]), search)
}

/// A host with a search loaded that marks response bit 0.
fn asked(host: Host, [comp, sdr, sc1, sc2, sc3]: Search) -> Host {
    host.with(COMP, comp)
        .with(SDR, sdr)
        .with(SC1, sc1)
        .with(SC2, sc2)
        .with(SC3, sc3)
        .with(TARGET, 1)
}

/// A search that is taken, on both machines: which words it marks.
fn marks(tally: &mut Tally, name: &str, host: Host, marked: [u8; 3]) {
    for (machine, pulse) in PULSES {
        let mut host = host.clone();
        let mut after = host.clone();
        after.responses = marked.to_vec();
        let count = marked.iter().map(|mark| u64::from(*mark)).sum();
        let name = format!("{name}, {machine}");
        tally.same(&name, host.pulse(pulse, SEARCH), accepted(&[count, 0]));
        tally.same(&name, host, after);
    }
}

/// "With a one there over a cared bit, larger becomes at least and smaller at
/// most: equal at the bottom also satisfies."
///
/// - Bits 1 and 0 don't care: 59, 5A, 5B and COMP 5A all read 58, so all are
///   equal, and none is larger.
/// - SDR 88: the upper digit is 5 in all words and in COMP, at most takes it;
///   of the lower ones, 9, A and B, B alone is larger than A.
/// - SDR 01: bits 7 to 1 are 44, 45 and 45, at least COMP's 45 in the last two,
///   and of these 91 alone has a bit 0 larger than COMP's 0. Each syllable has
///   one setting, so this is no 5.
fn searches(tally: &mut Tally) {
    let cases: [(&str, Search, [u8; 3]); 9] = [
        ("larger than 90", [90, 0, 0xFF, 0, 0], [0, 0, 1]),
        ("at least 90", [90, 0, 0xFF, 0, 0xFF], [0, 1, 1]),
        ("smaller than 90", [90, 0, 0xFF, 0xFF, 0], [1, 0, 0]),
        ("at most 90", [90, 0, 0xFF, 0xFF, 0xFF], [1, 1, 0]),
        ("larger, uncared", [90, 0, 0xFC, 0, 0], [0, 0, 0]),
        ("at least, uncared", [90, 0, 0xFC, 0, 0xFC], [1, 1, 1]),
        ("at most, uncared", [90, 0, 0xFC, 0xFC, 0xFC], [1, 1, 1]),
        ("by digits", [90, 0x88, 0xFF, 0xF0, 0xF0], [0, 0, 1]),
        ("bit 0 apart", [90, 0x01, 0xFF, 0, 0xFE], [0, 0, 1]),
    ];
    for (name, search, marked) in cases {
        marks(tally, name, days(search), marked);
    }
}

/// One syllable of 64 bits: no number is larger than the last one or smaller
/// than 0, but each is at least and at most itself.
fn greatest_width(tally: &mut Tally) {
    let last = u64::MAX;
    let cases: [(&str, Search, [u8; 3]); 4] = [
        ("larger than the last", [last, 0, last, 0, 0], [0, 0, 0]),
        ("at least the last", [last, 0, last, 0, last], [0, 0, 1]),
        ("smaller than 0", [0, 0, last, last, 0], [0, 0, 0]),
        ("at most 0", [0, 0, last, last, last], [1, 0, 0]),
    ];
    for (name, search, marked) in cases {
        let host = Host::new(64, &[0, last - 1, last]);
        marks(tally, name, asked(host, search), marked);
    }
}

/// "5 also covers two SC3 settings among one syllable's cared bits, or a one of
/// SC3 over an exact or don't-care bit": each of these as the only thing wrong,
/// and each is no search's business where none is raised.
///
/// - FE over eight bits of larger: bit 0 alone has the other setting.
/// - FC with bit 1 don't care: bit 0 has another setting than the bits 7 to 2,
///   whatever lies between.
/// - SDR 88 and SC1 FF, SC2 F0, SC3 F1: the lower digit, larger, has a one at
///   bit 0 alone.
/// - In the last, bit 0 is don't care among bits of at least.
fn refusals(tally: &mut Tally) {
    let cases: [(&str, Search); 7] = [
        ("two settings", [90, 0, 0xFF, 0, 0xFE]),
        ("two settings, a gap", [90, 0, 0xFD, 0, 0xFC]),
        ("two settings, a digit", [90, 0x88, 0xFF, 0xF0, 0xF1]),
        ("over an exact bit", [90, 0x88, 0xF0, 0x0F, 0xF8]),
        ("over all exact bits", [90, 0, 0, 0xFF, 0xFF]),
        ("over nothing cared for", [90, 0, 0, 0, 0x01]),
        ("over a don't-care bit", [90, 0, 0xFE, 0, 0xFF]),
    ];
    for (name, search) in cases {
        for (machine, pulse) in PULSES {
            let mut host = days(search);
            let before = host.clone();
            let name = format!("{name}, {machine}");
            tally.same(&name, host.pulse(pulse, SEARCH), refused(5, 0, 4));
            let more = SEARCH | READ | ADD;
            tally.same(&name, host.pulse(pulse, more), refused(5, 0, 4));
            tally.same(&name, host.pulse(pulse, READ), accepted(&[3, 89]));
            tally.same(&name, host, before);
        }
    }
}

/// "4 covers SC3", at bit N "whichever lines are raised", none and too many
/// among them, and before the 5 that the search would be given: bits 7 to 0 are
/// exact under SC3 1FF.
fn whichever_line(tally: &mut Tally) {
    let lines = [
        0, SEARCH, READ, WRITE, ADD, MULTIWRITE, MULTIADD, COMPLEMENT, 127, 128,
    ];
    for (name, sc3) in [("SC3 at bit N", 0x100), ("4 before 5", 0x1FF)] {
        for (machine, pulse) in PULSES {
            for line in lines {
                let mut host = days([90, 0, 0, 0xFF, sc3]);
                let before = host.clone();
                let name = format!("{name}, {machine}, {line}");
                tally.same(&name, host.pulse(pulse, line), refused(4, 0, 4));
                tally.same(&name, host, before);
            }
        }
    }
}

/// Register 9 is no byte and takes any number; there is no register 10.
fn loads(tally: &mut Tally) {
    let mut host = Host::new(8, &[0]);
    tally.same("load of SC3", host.load(9, u64::MAX), 0);
    let after = [&[0; 9][..], &[u64::MAX]].concat();
    tally.same("load of SC3", host.panel.clone(), after.clone());
    tally.same("load of register 10", host.load(10, 0), 4);
    tally.same("load of register 10", host.panel.clone(), after);
    host.panel.truncate(9);
    tally.same("load without SC3", host.load(0, 1), 1);
    tally.same("load without SC3", host.panel, vec![0; 9]);
}

/// A step's answer is longer by SC3: 14 numbers are one too few, and nothing
/// is done then.
fn step_answers(tally: &mut Tally) {
    let mut host = Host::of_the_figures();
    let before = host.clone();
    let mut job = extreme(1, 0);
    let short = host.step_into(&mut job, 14);
    tally.same("step into 14", short, (10, vec![OLD; 14]));
    tally.same("step into 14", (host, job), (before, extreme(1, 0)));
}
