//! Document 01's figures 1 to 13 through the second_ functions, figures of
//! request c of document 02 (at_least.rs), examples of its requests d
//! (job_refusals.rs) and e (explains.rs) and of what the header adds
//! (examples.rs). All expected values were worked out by hand from the documents
//! and the header, none was copied from a run.
//! Prints each difference and, last, 'N passed, M failed'.

mod at_least;
mod examples;
mod explains;
mod hosts;
mod job_refusals;

use hosts::*;

/// Figures 1 to 3: one search each, with what it marks and its count.
fn searches(tally: &mut Tally) {
    let figures: [(&str, u64, u64, [u8; 3], u64); 3] = [
        ("figure 1", 0x34, 0x0F, [1, 0, 1], 2),
        ("figure 2", 0x35, 0x0F, [0, 0, 0], 0),
        ("figure 3", 0x34, 0x0C, [0, 0, 0], 0),
    ];
    for (figure, comp, sc1, marks, count) in figures {
        for (machine, pulse) in PULSES {
            let mut host = Host::of_the_figures()
                .with(COMP, comp)
                .with(SC1, sc1)
                .with(SC2, 0xF0)
                .with(TARGET, 1);
            let mut after = host.clone();
            after.responses = marks.to_vec();
            let name = format!("{figure}, {machine}");
            tally.same(&name, host.pulse(pulse, SEARCH), accepted(&[count, 0]));
            tally.same(&name, host, after);
        }
    }
}

/// One word, one pulse, and the word after it.
struct Change {
    name: &'static str,
    width: u32,
    word: u64,
    registers: [u64; 3],
    lines: u8,
    after: u64,
}

/// Figures 4 to 8. Figure 7 as request b of document 02 has it: the write asks
/// for 09, the add for 04, and 35 with 0D flipped is 38. The registers are COMP,
/// SDR and MOR.
const CHANGES: [Change; 8] = [
    Change {
        name: "figure 4, SDR 88",
        width: 8,
        word: 0x35,
        registers: [0x0C, 0x88, 0xFF],
        lines: MULTIADD,
        after: 0x31,
    },
    Change {
        name: "figure 4, SDR 80",
        width: 8,
        word: 0x35,
        registers: [0x0C, 0x80, 0xFF],
        lines: MULTIADD,
        after: 0x41,
    },
    Change {
        name: "figure 4, SDR FF",
        width: 8,
        word: 0x35,
        registers: [0x0C, 0xFF, 0xFF],
        lines: MULTIADD,
        after: 0x39,
    },
    Change {
        name: "figure 5",
        width: 8,
        word: 0x9C,
        registers: [0xAA, 0x88, 0x0F],
        lines: MULTIWRITE,
        after: 0x9A,
    },
    Change {
        name: "figure 6, OR",
        width: 6,
        word: 0b000101,
        registers: [0b110010, 0, 0b110010],
        lines: MULTIWRITE,
        after: 0b110111,
    },
    Change {
        name: "figure 6, AND",
        width: 6,
        word: 0b111111,
        registers: [0b110010, 0, 0b001101],
        lines: MULTIWRITE,
        after: 0b110010,
    },
    Change {
        name: "figure 7",
        width: 8,
        word: 0x35,
        registers: [0x0C, 0x88, 0x0F],
        lines: WRITE | ADD,
        after: 0x38,
    },
    Change {
        name: "figure 8",
        width: 64,
        word: u64::MAX,
        registers: [1, 0, u64::MAX],
        lines: MULTIADD,
        after: 0,
    },
];

fn changes(tally: &mut Tally) {
    for change in CHANGES {
        for (machine, pulse) in PULSES {
            let [comp, sdr, mor] = change.registers;
            let mut host = Host::new(change.width, &[change.word])
                .with(COMP, comp)
                .with(SDR, sdr)
                .with(MOR, mor);
            let mut after = host.clone();
            after.words[0] = change.after;
            let name = format!("{}, {machine}", change.name);
            tally.same(&name, host.pulse(pulse, change.lines), accepted(&[1, 0]));
            tally.same(&name, host, after);
        }
    }
}

/// A job's start and all its steps.
struct Work {
    name: &'static str,
    host: Host,
    wish: Vec<u8>,
    started: Vec<u8>,
    pulses: u64,
    words: Vec<u64>,
    responses: Vec<u8>,
}

/// Starts a job and steps it to its end: its record, its total, its pulses,
/// the machine it leaves.
fn work(tally: &mut Tally, work: Work) {
    let name = work.name;
    let mut host = work.host;
    let mut job = work.wish;
    tally.same(name, host.start(&[], &mut job), accepted(&[1]));
    tally.same(name, job.clone(), work.started);
    tally.same(name, host.total(&job), accepted(&[work.pulses]));
    let mut pulses = 0;
    loop {
        let (number, answer) = host.step(&mut job);
        assert_eq!(number, 0, "{name}");
        pulses += 1;
        if answer[STEP_ANSWER - 1] == 0 {
            break;
        }
    }
    tally.same(name, pulses, work.pulses);
    tally.same(name, job, vec![0; 22]);
    tally.same(name, host.words, work.words);
    tally.same(name, host.responses, work.responses);
}

/// Figure 9: Y is 0 everywhere at the end, since the trial at place 0 finds
/// none: C has no one there, and 5 no zero.
fn figure_9(tally: &mut Tally) {
    let figures: [(&str, u8, u8, u64, [u8; 3]); 4] = [
        ("figure 9, greatest", 1, 0, 7, [0, 1, 0]),
        ("figure 9, smallest", 2, 0, 7, [1, 0, 1]),
        ("figure 9, greatest of none", 1, 4, 5, [0, 0, 0]),
        ("figure 9, smallest of none", 2, 4, 5, [0, 0, 0]),
    ];
    for (name, kind, criterion, pulses, responses) in figures {
        work(
            tally,
            Work {
                name,
                host: Host::of_the_figures(),
                wish: wish(kind, criterion, [[0, 4], [55, 66], [44, 33]], 9),
                started: extreme(kind, criterion),
                pulses,
                words: vec![0x35, 0x9C, 0x35],
                responses: responses.to_vec(),
            },
        );
    }
}

/// Figure 10: Y is last 1 where A's bit 3 is, in 9C alone.
fn figure_10(tally: &mut Tally) {
    let mut started = vec![3, 0, 0, 0, 1, 0, 4, 0, 0, 4, 4, 1, 0, 0, 3];
    started.resize(22, 0);
    work(
        tally,
        Work {
            name: "figure 10",
            host: Host::of_the_figures(),
            wish: wish(3, 0, [[0, 4], [55, 66], [4, 4]], 3),
            started,
            pulses: 8,
            words: vec![0x25, 0xDC, 0x25],
            responses: vec![0, 2, 0],
        },
    );
}

/// Figure 11: in 0B A is 3 and B is 2, so the last pair, i = 1 and j = 1, is
/// found and leaves Y.
fn figure_11(tally: &mut Tally) {
    let mut started = vec![4, 0, 0, 0, 1, 0, 2, 2, 2, 4, 4, 1, 0, 0];
    started.resize(22, 0);
    work(
        tally,
        Work {
            name: "figure 11",
            host: Host::new(8, &[0x0B]),
            wish: wish(4, 0, [[0, 2], [2, 2], [4, 4]], 12345),
            started,
            pulses: 8,
            words: vec![0x6B],
            responses: vec![2],
        },
    );
}

/// The first three commands of figure 9's greatest, number by number: the
/// opening; the trial of bit 3, which word 1 alone has; the narrowing to it. Of
/// each SC3, the last register, is told as 0: "Jobs set it to 0."
fn commands(tally: &mut Tally) {
    let mut host = Host::of_the_figures();
    let mut job = extreme(1, 0);
    let search = u64::from(SEARCH);
    let opening = [0, 0, 0, 0, 0, 0, 0, 1, 0, 0, search, 3, 1];
    tally.same("opening", host.step(&mut job), accepted(&opening));
    tally.same("opening", host.responses.clone(), vec![1, 1, 1]);
    tally.same("opening", job[11..14].to_vec(), vec![1, 3, 0]);
    let trial = [8, 0, 0, 8, 0, 1, 1, 2, 0, 0, search, 1, 1];
    tally.same("trial", host.step(&mut job), accepted(&trial));
    tally.same("trial", host.responses.clone(), vec![1, 3, 1]);
    tally.same("trial", job[11..14].to_vec(), vec![2, 3, 0]);
    let narrowing = [0, 0, 0, 0, 0, 2, 2, 1, 0, 0, search, 1, 1];
    tally.same("narrowing", host.step(&mut job), accepted(&narrowing));
    tally.same("narrowing", host.responses.clone(), vec![0, 3, 0]);
    tally.same("narrowing", job[11..14].to_vec(), vec![1, 2, 0]);
}

/// The second command of figure 10: 3 is added to P, bits 7 to 4, under Y; the
/// trial before it finds bit 0 in the words 0 and 2.
fn adding_command(tally: &mut Tally) {
    let mut host = Host::of_the_figures();
    let mut job = wish(3, 0, [[0, 4], [0, 0], [4, 4]], 3);
    host.start(&[], &mut job);
    let trial = [1, 0, 0, 1, 0, 0, 0, 2, 0, 0, u64::from(SEARCH), 2, 1];
    tally.same("adding trial", host.step(&mut job), accepted(&trial));
    let sum = [
        0x30,
        0x80,
        0,
        0,
        0xF0,
        2,
        2,
        0,
        0,
        0,
        u64::from(MULTIADD),
        2,
        1,
    ];
    tally.same("sum", host.step(&mut job), accepted(&sum));
    tally.same("sum", host.words.clone(), vec![0x65, 0x9C, 0x65]);
}

/// Figure 12: the greatest address, width and number of words.
fn figure_12(tally: &mut Tally) {
    for (machine, pulse) in PULSES {
        let name = format!("figure 12, {machine}");
        let mut host = Host::of_the_figures().with(ADDRESS, 2);
        tally.same(&name, host.pulse(pulse, READ), accepted(&[3, 0x35]));
        host.load(ADDRESS as u8, 3);
        for lines in [READ, WRITE, ADD] {
            tally.same(&name, host.pulse(pulse, lines), refused(7, 0, 4));
        }
        let search = |width, n| Host::new(width, &vec![0; n]).pulse(pulse, SEARCH);
        tally.same(&name, search(64, 3), accepted(&[3, 0]));
        tally.same(&name, search(65, 3), refused(2, 0, 4));
        tally.same(&name, search(8, 1024), accepted(&[1024, 0]));
        tally.same(&name, search(8, 1025), refused(1, 0, 4));
    }
    let resolved = |width, n| Host::new(width, &vec![0; n]).resolve(0, 0);
    tally.same(
        "figure 12",
        resolved(64, 3),
        [(); 2].map(|()| accepted(&[1, 0])),
    );
    tally.same(
        "figure 12",
        resolved(65, 3),
        [(); 2].map(|()| refused(2, 0, 4)),
    );
    tally.same(
        "figure 12",
        resolved(8, 1025),
        [(); 2].map(|()| refused(1, 0, 4)),
    );
}

fn figure_13(tally: &mut Tally) {
    let mut host = Host::new(8, &[0x35]);
    host.responses[0] = 1;
    let mut image = vec![0xEE; 28];
    tally.same("figure 13", host.write(&[], &mut image), accepted(&[26]));
    tally.same("figure 13", image, [&IMAGE[..], &[0xEE; 2]].concat());
    let mut short = vec![0xEE; 25];
    tally.same("figure 13", host.write(&[], &mut short), refused(10, 0, 3));
    tally.same("figure 13", short, vec![0xEE; 25]);

    let mut other = Host::new(0, &[7, 7]);
    let mut job = vec![5; 22];
    tally.same(
        "figure 13",
        other.read(&IMAGE, &mut job),
        accepted(&[8, 1, 0]),
    );
    tally.same(
        "figure 13",
        (other.words, other.responses),
        (vec![0x35, 7], vec![1, 0]),
    );
    tally.same("figure 13", job, vec![0; 22]);
}

fn main() {
    let mut tally = Tally::default();
    searches(&mut tally);
    changes(&mut tally);
    figure_9(&mut tally);
    figure_10(&mut tally);
    figure_11(&mut tally);
    commands(&mut tally);
    adding_command(&mut tally);
    figure_12(&mut tally);
    figure_13(&mut tally);
    at_least::run(&mut tally);
    job_refusals::run(&mut tally);
    explains::run(&mut tally);
    examples::run(&mut tally);
    println!("{} passed, {} failed", tally.passed, tally.failed);
    std::process::exit(i32::from(tally.failed > 0));
}
