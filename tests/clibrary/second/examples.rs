//! What the header adds to document 01, by examples: which of several numbers
//! comes first, what stands in every buffer afterwards, wrong lengths, whole
//! rounds, and the array's operations by their codes.

use crate::hosts::*;
use second::panels::second_load;
use second::pulses::second_wide_pulse;
use second::rounds::second_scan;

/// All examples.
pub fn run(tally: &mut Tally) {
    bad_images(tally);
    held_image(tally);
    first_of_a_pulse(tally);
    room_for_answers(tally);
    empty_buffers(tally);
    loads(tally);
    rounds(tally);
    whole_rounds(tally);
    resolutions(tally);
    job_refusals(tally);
    for operate in ARRAYS {
        operations(tally, operate);
        array_numbers(tally, operate);
        array_codes(tally, operate);
    }
}

/// What reading turns down, and that nothing changes then.
fn bad_images(tally: &mut Tally) {
    let mut wide = IMAGE.to_vec();
    wide[4] = 5;
    let long = [&IMAGE[..], &[0]].concat();
    let cases: [(&str, &[u8], usize, usize, u32, u64); 7] = [
        ("no bytes", &[], 1, 22, 9, 0),
        ("word too wide", &wide, 1, 22, 9, 9),
        ("cut off", &IMAGE[..25], 1, 22, 9, 22),
        ("a byte too many", &long, 1, 22, 9, 26),
        ("no room", &IMAGE, 0, 22, 10, 0),
        ("9 before 10", &long, 0, 22, 9, 26),
        ("record of 21", &long, 0, 21, 1, 0),
    ];
    for (name, image, n, record, number, also) in cases {
        let mut host = Host::new(8, &vec![7; n]);
        let before = host.clone();
        let mut job = vec![5; record];
        tally.same(name, host.read(image, &mut job), refused(number, also, 5));
        tally.same(name, (host, job), (before, vec![5; record]));
    }
}

/// The image of a machine with a held job, there and back.
fn held_image(tally: &mut Tally) {
    let host = Host::of_the_figures();
    let job = extreme(1, 0);
    let mut image = vec![0; 66];
    tally.same("held image", host.write(&job, &mut image), accepted(&[66]));
    tally.same("held image", image[44..].to_vec(), job.clone());
    let mut other = Host::new(0, &[0; 3]);
    let mut record = vec![9; 22];
    tally.same(
        "held image",
        other.read(&image, &mut record),
        accepted(&[8, 3, 1]),
    );
    tally.same(
        "held image",
        (other.words, record),
        (host.words.clone(), job),
    );
    let zeros = host.write(&[0; 22], &mut image);
    tally.same("22 zeros: kind 0", zeros, refused(25, 0, 3));
}

/// Of two or more numbers the first is given, and nothing lent changes.
fn first_of_a_pulse(tally: &mut Tally) {
    type Spoil = fn(&mut Host);
    let two_codes: Spoil = |host| {
        host.panel[SC1] = 0x01;
        host.panel[SC2] = 0x02;
    };
    let wide_key: Spoil = |host| host.panel[KEY] = 256;
    let wide_target: Spoil = |host| host.panel[TARGET] = u64::MAX;
    let no_width: Spoil = |host| host.width = 0;
    let great_width: Spoil = |host| host.width = 256 + 8;
    let wide_word: Spoil = |host| host.words[1] = 0x100;
    let short_panel: Spoil = |host| host.panel.truncate(9);
    let no_responses: Spoil = |host| host.responses.clear();
    let nothing: Spoil = |_| {};
    let cases: [(&str, &[Spoil], u8, u32, u64); 14] = [
        ("two codes and bit 7", &[two_codes], 128 | SEARCH, 5, 0),
        ("bit 7 alone", &[nothing], 128, 6, 0),
        ("bit 7 with a line", &[nothing], 128 | COMPLEMENT, 6, 0),
        ("two codes, no search", &[two_codes], 128 | READ, 6, 0),
        ("wide key and no width", &[wide_key, no_width], SEARCH, 2, 0),
        ("width beyond a byte", &[great_width], SEARCH, 2, 0),
        ("wide key, two codes", &[wide_key, two_codes], SEARCH, 4, 0),
        ("wide target, bit 7", &[wide_target], 128, 4, 0),
        ("wide word, wide key", &[wide_word, wide_key], SEARCH, 3, 1),
        (
            "short panel, wide word",
            &[short_panel, wide_word],
            128,
            1,
            0,
        ),
        ("no responses, no width", &[no_responses, no_width], 0, 1, 0),
        ("no line", &[nothing], 0, 6, 0),
        ("three lines", &[nothing], SEARCH | READ | ADD, 6, 0),
        (
            "complement with another",
            &[nothing],
            COMPLEMENT | SEARCH,
            6,
            0,
        ),
    ];
    for (name, spoils, lines, number, also) in cases {
        for (machine, pulse) in PULSES {
            let mut host = Host::of_the_figures();
            spoils.iter().for_each(|spoil| spoil(&mut host));
            let before = host.clone();
            let name = format!("{name}, {machine}");
            tally.same(&name, host.pulse(pulse, lines), refused(number, also, 4));
            let short = host.pulse_into(pulse, lines, 3);
            tally.same(&name, short, (number, vec![OLD; 3]));
            tally.same(&name, host, before);
        }
    }
}

/// An answer's buffer that is longer, too short, or not there at all.
fn room_for_answers(tally: &mut Tally) {
    let mut host = Host::of_the_figures().with(CARE, 1);
    let long = host.pulse_into(second_wide_pulse, READ, 6);
    let told = vec![0, 0, 3, 0x35, OLD, OLD];
    tally.same("long answer", long, (0, told));
    let long = host.pulse_into(second_wide_pulse, 0, 6);
    tally.same("long refusal", long, (6, vec![6, 0, 0, 0, OLD, OLD]));
    host = host.with(COMP, 0xFF).with(MOR, 0xFF);
    let before = host.clone();
    let short = host.pulse_into(second_wide_pulse, MULTIWRITE, 3);
    tally.same("short answer", short, (10, vec![OLD; 3]));
    tally.same("short answer", &host, &before);
    let none = host.pulse_into(second_wide_pulse, MULTIWRITE, 0);
    tally.same("no answer", none, (10, vec![]));
}

/// Null pointers of length 0 are empty buffers.
fn empty_buffers(tally: &mut Tally) {
    use std::ptr::{null, null_mut};
    let load = unsafe { second_load(null_mut(), 0, 0, 0) };
    tally.same("load of nothing", load, 1);
    let mut answer = [OLD; 4];
    let scan = unsafe { second_scan(null(), 0, null(), 0, 8, 0, 0, answer.as_mut_ptr(), 4) };
    tally.same("scan of nothing", (scan, answer), (1, [1, 0, 0, 0]));
    let words = [0x35];
    let scan = unsafe { second_scan(words.as_ptr(), 1, [0].as_ptr(), 1, 8, 0, 0, null_mut(), 0) };
    tally.same("no answer", scan, 10);
}

/// A load changes one register, or none.
fn loads(tally: &mut Tally) {
    let mut host = Host::new(8, &[0]);
    for register in 0..10 {
        host.panel = vec![3; PANEL];
        tally.same("load", host.load(register, 200), 0);
        let mut after = vec![3; PANEL];
        after[usize::from(register)] = 200;
        tally.same("load", host.panel.clone(), after);
    }
    let cases: [(&str, u8, u64, u64, u32); 5] = [
        ("wide load", 6, 256, 3, 4),
        ("address", 8, u64::MAX, 3, 0),
        ("no such register", 10, 0, 3, 4),
        ("panel too wide", 0, 1, 256, 4),
        ("no mending", 5, 1, 256, 4),
    ];
    for (name, register, value, key, number) in cases {
        host.panel = vec![3; PANEL];
        host.panel[KEY] = key;
        let before = host.panel.clone();
        tally.same(name, host.load(register, value), number);
        if number != 0 {
            tally.same(name, host.panel.clone(), before);
        }
    }
}

/// Show, answer, show again, until there is none.
fn rounds(tally: &mut Tally) {
    let mut host = Host::of_the_figures();
    host.responses = vec![0b100, 0b1000, 0b100];
    tally.same("show", host.show(2), accepted(&[1, 0]));
    tally.same("show", host.show(8), refused(23, 0, 4));
    tally.same("not shown", host.answer(2, 5, 2, 1, 2), refused(11, 0, 2));
    let short = host.answer(2, 5, 2, 1, 1);
    tally.same("not shown and short", short, (10, vec![OLD]));
    tally.same("x is f", host.answer(2, 2, 2, 1, 1), (24, vec![OLD]));
    tally.same("untouched", host.responses.clone(), vec![4, 8, 4]);
    tally.same("done", host.answer(2, 5, 0, 1, 2), accepted(&[]));
    tally.same("show", host.show(2), accepted(&[1, 2]));
    tally.same("faulty", host.answer(2, 5, 2, 2, 2), accepted(&[]));
    tally.same("none", host.show(2), accepted(&[0, 0]));
    tally.same("none", host.answer(2, 5, 2, 1, 2), refused(11, 0, 2));
    tally.same("at the end", host.responses, vec![0, 8, 0x20]);
}

/// Whole rounds: verdicts by word number, faulty beyond the list.
fn whole_rounds(tally: &mut Tally) {
    let mut host = Host::new(8, &[0; 4]);
    host.responses = vec![1, 3, 0, 1];
    let before = host.responses.clone();
    tally.same("bad round", host.round(0, 0, &[]), refused(24, 0, 4));
    tally.same("bad round", host.round(0, 8, &[]), refused(23, 0, 4));
    tally.same("bad round", host.responses.clone(), before);
    tally.same("round", host.round(0, 7, &[2, 1, 1]), accepted(&[1, 2]));
    tally.same("round", host.responses.clone(), vec![0x80, 2, 0, 0x80]);
    tally.same("round", host.round(0, 7, &[]), accepted(&[0, 0]));
    tally.same("no round", host.round(0, 9, &[]), refused(23, 0, 4));
}

/// Resolution: the lowest selected word, or none.
fn resolutions(tally: &mut Tally) {
    let mut host = Host::of_the_figures();
    host.responses = vec![0, 6, 2];
    let twice = |told: (u32, Vec<u64>)| [told.clone(), told];
    tally.same("resolve", host.resolve(2, 2), twice(accepted(&[1, 1])));
    tally.same("resolve", host.resolve(2, 6), twice(accepted(&[1, 2])));
    tally.same("resolve", host.resolve(1, 1), twice(accepted(&[0, 0])));
    host.words[2] = 0x100;
    tally.same("resolve", host.resolve(1, 1), twice(refused(3, 2, 4)));
}

/// What start, step and total turn down by what is lent to them. 25 is for a
/// start while one is held, 22 zeros too; a step or a total while none is; a job
/// of kind 0, as a job that ended leaves the record; a total after a step; c of
/// an extreme.
fn job_refusals(tally: &mut Tally) {
    let mut host = Host::of_the_figures();
    let offer = wish(1, 0, [[0, 4], [0, 0], [0, 0]], 0);
    let held_lengths: [(usize, u32); 4] = [(0, 0), (22, 25), (21, 1), (23, 1)];
    for (length, number) in held_lengths {
        let told = host.start(&vec![0; length], &mut offer.clone());
        let expected = match number {
            0 => accepted(&[1]),
            number => refused(number, 0, 3),
        };
        tally.same("start by what is held", told, expected);
    }
    for length in [0, 21, 23] {
        let mut job = vec![1; length];
        tally.same("start", host.start(&[0; 22], &mut job), refused(1, 0, 3));
        tally.same("start", job, vec![1; length]);
    }
    let mut first = extreme(1, 0);
    tally.same("no step", host.step(&mut []), refused(25, 0, STEP_ANSWER));
    tally.same(
        "short record",
        host.step(&mut first[..21]),
        refused(1, 0, STEP_ANSWER),
    );
    tally.same("no total", host.total(&[]), refused(25, 0, 3));
    tally.same("short record", host.total(&first[..1]), refused(1, 0, 3));
    tally.same(
        "ended",
        host.step(&mut [0; 22]),
        refused(25, 0, STEP_ANSWER),
    );
    host.step(&mut first);
    tally.same("total later", host.total(&first), refused(25, 0, 3));
    let mut unused = extreme(1, 0);
    unused[21] = 1;
    tally.same(
        "unused field",
        host.step(&mut unused),
        refused(25, 0, STEP_ANSWER),
    );
}

/// The example of docs/BOARD.md, operation by operation.
fn operations(tally: &mut Tally, operate: Operate) {
    let mut cells = Cells::of_the_rules();
    let search = code(&[0, 0, 1, 0, 0, 0]);
    let told = cells.operate(operate, search, 6);
    tally.same("search", told, accepted(&[0x53, 0, 0x0F, 2]));
    tally.same("search", cells.selectors.clone(), vec![1, 0, 1]);
    let search = code(&[0, 0, 0, 1, 1, 0]);
    let told = cells.operate(operate, search, 6);
    tally.same("search", told, accepted(&[0x53, 0, 0x0F, 2]));
    tally.same("search", cells.selectors.clone(), vec![1, 2, 1]);
    let read = code(&[1, 0, 0, 1, 0]);
    let told = cells.operate(operate, read, 6);
    tally.same("read", told, accepted(&[0x53, 3, 0x0F, 2]));
    tally.same("read", cells.registers.clone(), vec![0x53, 3, 0x0F]);
    let special = code(&[2, 1, 0, 0, 1, 0]);
    let told = cells.operate(operate, special, 6);
    tally.same("special", told, accepted(&[0x53, 3, 0x0F, 1]));
    tally.same("special", (cells.ones[1], cells.xs[1]), (0, 0x7F));
    let normal = code(&[2, 0, 0, 0, 2, 1]);
    let told = cells.operate(operate, normal, 6);
    tally.same("normal", told, accepted(&[0x53, 3, 0x0F, 3]));
    tally.same("normal", cells.ones.clone(), vec![3, 3, 3]);
    tally.same("normal", cells.xs, vec![0xF0, 0x70, 0xF0]);
}

/// The array's numbers in their order: each case has all that follow it too.
fn array_numbers(tally: &mut Tally, operate: Operate) {
    let mut cells = Cells::of_the_rules();
    let wrong = code(&[3]);
    tally.same("10", cells.operate(operate, 0, 5), (10, vec![OLD; 5]));
    tally.same("6", cells.operate(operate, wrong, 6), refused(6, 0, 6));
    cells.registers[1] = 0x100;
    tally.same("4", cells.operate(operate, wrong, 6), refused(4, 0, 6));
    cells.ones[2] = 1;
    tally.same("12", cells.operate(operate, wrong, 6), refused(12, 0, 6));
    cells.xs[1] = 0x170;
    tally.same("3", cells.operate(operate, wrong, 6), refused(3, 1, 6));
    cells.width = 65;
    tally.same("2", cells.operate(operate, wrong, 6), refused(2, 0, 6));
    cells.registers.push(0);
    tally.same("1", cells.operate(operate, wrong, 6), refused(1, 0, 6));
    tally.same("1", cells.operate(operate, wrong, 5), (1, vec![OLD; 5]));
}

/// Digits that no choice has, and digits above the last choice.
fn array_codes(tally: &mut Tally, operate: Operate) {
    let none: [&[u32]; 8] = [
        &[0, 2],
        &[0, 0, 3],
        &[0, 0, 0, 0, 2],
        &[0, 0, 0, 0, 0, 0, 1],
        &[1, 0, 0, 0, 0, 1],
        &[1, 3],
        &[2, 0, 0, 0, 0, 2],
        &[2, 0, 0, 0, 0, 0, 0, 0, 0, 0, 0, 0, 0, 0, 0, 2],
    ];
    for digits in none {
        let mut cells = Cells::of_the_rules();
        let told = cells.operate(operate, code(digits), 6);
        tally.same("code of nothing", told, refused(6, 0, 6));
        tally.same("code of nothing", cells, Cells::of_the_rules());
    }
}
