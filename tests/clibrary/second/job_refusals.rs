//! Examples of request d of document 02, "Say what is wrong with the job":
//! each of 20 to 25 alone, where two numbers meet, and beside the numbers that
//! the header adds, 1 for a record's length and 10 for too little room. Worked
//! out by hand from the request's sentences, document 01 and the header: "in
//! the order 1 to 7, 20 to 25, 9, 10, 11".

use crate::hosts::*;

/// All examples of request d.
pub fn run(tally: &mut Tally) {
    sound_records(tally);
    edges(tally);
    for cases in [EMPTY, BEYOND, OVERLAP, BITS, KINDS, MEETINGS] {
        for (kind, edits, told) in cases {
            refused_everywhere(tally, *kind, edits, *told);
        }
    }
    for (kind, lasting, passing) in HELD_ALONE {
        refused_while_held(tally, *kind, lasting, passing);
    }
    later_places(tally);
    no_job(tally);
    one_is_held(tally);
    before_the_job(tally);
    records_of_wrong_lengths(tally);
    damaged_images(tally);
    shows(tally);
    answers_and_rounds(tally);
    before_the_bits(tally);
}

/// What a refusal's answer tells first: its number, and what it also answers.
type Told = (u32, u64);

/// A field's place in the record, and what stands there instead.
type Edit = (usize, u8);

/// Where a record's fields stand.
const KIND: usize = 0;
const CARED: usize = 2;
const X: usize = 3;
const Y: usize = 4;
const A_LOW: usize = 5;
const A_WIDTH: usize = 6;
const B_LOW: usize = 7;
const B_WIDTH: usize = 8;
const P_LOW: usize = 9;
const P_WIDTH: usize = 10;
const PHASE: usize = 11;
const I: usize = 12;
const J: usize = 13;
const C: usize = 14;

/// The syllables by the header's numbers; what 23, 24 and 25 also answer.
const A: u64 = 1;
const B: u64 = 2;
const P: u64 = 3;
const NOTHING: u64 = 0;

/// How many numbers each answer has; a step's is STEP_ANSWER.
const START_ANSWER: usize = 3;
const TOTAL_ANSWER: usize = 3;
const WRITE_ANSWER: usize = 3;
const SHOW_ANSWER: usize = 4;
const REPLY_ANSWER: usize = 2;
const ROUND_ANSWER: usize = 4;

/// The image of three words with a job: 17 + 9 * 3 + 22.
const IMAGE_BYTES: usize = 66;

/// A job of each kind that fits a machine of width 8, at its first place, with
/// X 0, Y 1 and no criterion: an extreme of bits 3 to 0; bits 3 to 0 times 3 into
/// bits 7 to 4; bits 1 to 0 times bits 3 to 2 into bits 7 to 4.
fn sound(kind: u8) -> Vec<u8> {
    let mut record = match kind {
        3 => vec![3, 0, 0, 0, 1, 0, 4, 0, 0, 4, 4, 1, 0, 0, 3],
        4 => vec![4, 0, 0, 0, 1, 0, 2, 2, 2, 4, 4, 1, 0, 0],
        kind => extreme(kind, 0),
    };
    record.resize(22, 0);
    record
}

/// The same with some fields other than they were.
fn edited(kind: u8, edits: &[Edit]) -> Vec<u8> {
    let mut record = sound(kind);
    for (place, value) in edits {
        record[*place] = *value;
    }
    record
}

/// A refusal as it is told in an answer of so many numbers, and in one that is
/// one too short, which "stays as it was".
fn told_in(told: Told, size: usize) -> [(u32, Vec<u64>); 2] {
    let short = (told.0, vec![OLD; size - 1]);
    [refused(told.0, told.1, size), short]
}

/// A start that is turned down, whatever room its answer has: nothing lent
/// changes.
fn start_refused(tally: &mut Tally, name: &str, host: &Host, held: &[u8], job: &[u8], told: Told) {
    let name = format!("{name}, start, {} held", held.len());
    let mut offered = job.to_vec();
    let rooms = [START_ANSWER, START_ANSWER - 1];
    let found = rooms.map(|room| host.start_into(held, &mut offered, room));
    tally.same(&name, found, told_in(told, START_ANSWER));
    tally.same(&name, offered, job.to_vec());
}

/// A step that is turned down.
fn step_refused(tally: &mut Tally, name: &str, host: &Host, job: &[u8], told: Told) {
    let name = format!("{name}, step");
    let mut after = (host.clone(), job.to_vec());
    let rooms = [STEP_ANSWER, STEP_ANSWER - 1];
    let found = rooms.map(|room| after.0.step_into(&mut after.1, room));
    tally.same(&name, found, told_in(told, STEP_ANSWER));
    tally.same(&name, after, (host.clone(), job.to_vec()));
}

/// A total that is turned down.
fn total_refused(tally: &mut Tally, name: &str, host: &Host, job: &[u8], told: Told) {
    let name = format!("{name}, total");
    let rooms = [TOTAL_ANSWER, TOTAL_ANSWER - 1];
    let found = rooms.map(|room| host.total_into(job, room));
    tally.same(&name, found, told_in(told, TOTAL_ANSWER));
}

/// A writing that is turned down, with room for the image and with too little.
fn write_refused(tally: &mut Tally, name: &str, host: &Host, job: &[u8], told: Told) {
    for bytes in [IMAGE_BYTES, IMAGE_BYTES - 1, 0] {
        let name = format!("{name}, write into {bytes}");
        let mut image = vec![0xEE; bytes];
        let rooms = [WRITE_ANSWER, WRITE_ANSWER - 1];
        let found = rooms.map(|room| host.write_into(job, &mut image, room));
        tally.same(&name, found, told_in(told, WRITE_ANSWER));
        tally.same(&name, image, vec![0xEE; bytes]);
    }
}

/// Step, total and write turn a held job down alike.
fn held_refused(tally: &mut Tally, name: &str, host: &Host, job: &[u8], told: Told) {
    step_refused(tally, name, host, job, told);
    total_refused(tally, name, host, job, told);
    write_refused(tally, name, host, job, told);
}

/// What is wrong with a field that the job uses is told by a start as well, and
/// there "comes before 25 for one that is held".
fn refused_everywhere(tally: &mut Tally, kind: u8, edits: &[Edit], told: Told) {
    let name = format!("kind {kind} {edits:?}");
    let host = Host::of_the_figures();
    let job = edited(kind, edits);
    start_refused(tally, &name, &host, &[], &job, told);
    start_refused(tally, &name, &host, &sound(1), &job, told);
    held_refused(tally, &name, &host, &job, told);
}

/// A job that is taken as offered and as held: what it will take in all.
fn taken(tally: &mut Tally, name: &str, job: &[u8], pulses: u64) {
    let mut host = Host::of_the_figures();
    let mut record = job.to_vec();
    tally.same(name, host.start(&[], &mut record), accepted(&[1]));
    tally.same(name, record.clone(), job.to_vec());
    tally.same(name, host.total(job), accepted(&[pulses]));
    let mut image = vec![0; IMAGE_BYTES];
    let size = IMAGE_BYTES as u64;
    tally.same(name, host.write(job, &mut image), accepted(&[size]));
    tally.same(name, host.step(&mut record).0, 0);
}

/// The records from which the others differ are taken, and with too little room
/// they are 10. Of the words 35, 9C and 35 the greatest last digit is C, with two
/// ones, the smallest 5, with two zeros: 1 + 4 + 2. The scaled add takes 2 * 4,
/// and the product has the pairs 00, 01, 10 and 11.
fn sound_records(tally: &mut Tally) {
    let host = Host::of_the_figures();
    for (kind, pulses) in [(1, 7), (2, 7), (3, 8), (4, 8)] {
        let name = format!("kind {kind}");
        let job = sound(kind);
        taken(tally, &name, &job, pulses);
        let mut record = job.clone();
        let short = host.start_into(&[], &mut record, 2);
        tally.same(&name, short, (10, vec![OLD; 2]));
        let short = host.clone().step_into(&mut record, 14);
        tally.same(&name, short, (10, vec![OLD; 14]));
        tally.same(&name, host.total_into(&job, 2), (10, vec![OLD; 2]));
        let mut image = vec![0xEE; IMAGE_BYTES - 1];
        tally.same(&name, host.write(&job, &mut image), refused(10, 0, 3));
        tally.same(&name, (record, image), (job, vec![0xEE; 65]));
    }
}

/// Right at the edge of what is turned down, and not turned down.
///
/// - A up to the top bit, of which 3 and 9 are the numbers: 9 has two ones. A
///   over the whole word: 9C has four.
/// - X 7 and Y 1 with all other bits in care: all responses are 0 as the key is.
/// - X is no field of the jobs that add: 0 there is no bit, and so neither the
///   same as Y nor in care.
/// - A and B may be equal. In the last P stands right below B: the pairs with
///   i + j below 2 are 00, 01 and 10.
fn edges(tally: &mut Tally) {
    let cases: [(u8, &[Edit], u64); 9] = [
        (1, &[(A_LOW, 4)], 7),
        (1, &[(A_WIDTH, 8), (I, 7)], 13),
        (1, &[(X, 7), (CARED, 0x7D)], 7),
        (3, &[(Y, 0)], 8),
        (4, &[(Y, 0)], 8),
        (3, &[(CARED, 1)], 8),
        (4, &[(CARED, 0xFD)], 8),
        (4, &[(B_LOW, 0)], 8),
        (4, &[(A_LOW, 6), (P_LOW, 0), (P_WIDTH, 2)], 6),
    ];
    for (kind, edits, pulses) in cases {
        let name = format!("edge, kind {kind} {edits:?}");
        taken(tally, &name, &edited(kind, edits), pulses);
    }
}

/// 20. Of a held job the place is wrong with it each time, since i, j or i + j
/// has to be below the width: 20 comes before 25. Where the empty syllable
/// starts beyond the word, it is still 20.
const EMPTY: &[(u8, &[Edit], Told)] = &[
    (1, &[(A_WIDTH, 0)], (20, A)),
    (2, &[(A_WIDTH, 0)], (20, A)),
    (3, &[(A_WIDTH, 0)], (20, A)),
    (4, &[(A_WIDTH, 0)], (20, A)),
    (4, &[(B_WIDTH, 0)], (20, B)),
    (3, &[(P_WIDTH, 0)], (20, P)),
    (4, &[(P_WIDTH, 0)], (20, P)),
    (1, &[(A_LOW, 9), (A_WIDTH, 0)], (20, A)),
];

/// 21: bits 8 to 5, 8 to 4, 8 to 0, or 8 and 7; P is moved down where it would
/// overlap as well. Lowest bit and width are added as numbers: 252 + 4 and
/// 255 + 255 are no bytes.
const BEYOND: &[(u8, &[Edit], Told)] = &[
    (1, &[(A_LOW, 5)], (21, A)),
    (2, &[(A_LOW, 5)], (21, A)),
    (1, &[(A_WIDTH, 9), (I, 8)], (21, A)),
    (2, &[(A_LOW, 252)], (21, A)),
    (1, &[(A_LOW, 255), (A_WIDTH, 255), (I, 254)], (21, A)),
    (3, &[(A_LOW, 5), (P_LOW, 0)], (21, A)),
    (4, &[(A_LOW, 7), (B_LOW, 4), (P_LOW, 0)], (21, A)),
    (4, &[(A_LOW, 4), (B_LOW, 7), (P_LOW, 0)], (21, B)),
    (3, &[(P_WIDTH, 5)], (21, P)),
    (4, &[(P_WIDTH, 5)], (21, P)),
    (3, &[(P_LOW, 252)], (21, P)),
];

/// 22: P's bits 6 to 3 over A's bit 3; P and A the same; P's bits 4 to 0 over
/// A's bit 4; A's bits 4 to 0 or B's bits 4 to 2 over P's bit 4; P within B.
const OVERLAP: &[(u8, &[Edit], Told)] = &[
    (3, &[(P_LOW, 3)], (22, A)),
    (3, &[(P_LOW, 0)], (22, A)),
    (3, &[(A_LOW, 4), (P_LOW, 0), (P_WIDTH, 5)], (22, A)),
    (4, &[(A_WIDTH, 5)], (22, A)),
    (4, &[(B_WIDTH, 3)], (22, B)),
    (4, &[(B_WIDTH, 6), (P_LOW, 5), (P_WIDTH, 1)], (22, B)),
];

/// 23: X or Y is no response bit; 9 is not bit 1 again. 24: X is Y, or one of
/// them is in care.
const BITS: &[(u8, &[Edit], Told)] = &[
    (1, &[(X, 8)], (23, NOTHING)),
    (2, &[(X, 8)], (23, NOTHING)),
    (1, &[(X, 9)], (23, NOTHING)),
    (2, &[(X, 255)], (23, NOTHING)),
    (1, &[(Y, 8)], (23, NOTHING)),
    (2, &[(Y, 8)], (23, NOTHING)),
    (3, &[(Y, 8)], (23, NOTHING)),
    (4, &[(Y, 8)], (23, NOTHING)),
    (1, &[(X, 1)], (24, NOTHING)),
    (2, &[(X, 1)], (24, NOTHING)),
    (1, &[(X, 7), (Y, 7)], (24, NOTHING)),
    (1, &[(CARED, 1)], (24, NOTHING)),
    (2, &[(CARED, 1)], (24, NOTHING)),
    (1, &[(CARED, 2)], (24, NOTHING)),
    (2, &[(CARED, 2)], (24, NOTHING)),
    (3, &[(CARED, 2)], (24, NOTHING)),
    (4, &[(CARED, 2)], (24, NOTHING)),
];

/// 25: "The job's kind is unknown, and then nothing else of it is judged".
const KINDS: &[(u8, &[Edit], Told)] = &[
    (1, &[(KIND, 0)], (25, NOTHING)),
    (2, &[(KIND, 5)], (25, NOTHING)),
    (3, &[(KIND, 255)], (25, NOTHING)),
    (4, &[(KIND, 5)], (25, NOTHING)),
    (1, &[(KIND, 5), (A_WIDTH, 0)], (25, NOTHING)),
    (3, &[(KIND, 0), (A_LOW, 9), (P_LOW, 9)], (25, NOTHING)),
    (4, &[(KIND, 6), (P_LOW, 1)], (25, NOTHING)),
    (2, &[(KIND, 7), (X, 8), (Y, 8)], (25, NOTHING)),
    (1, &[(KIND, 9), (X, 1), (CARED, 255)], (25, NOTHING)),
];

/// Two numbers at once, or one number for two syllables: the number first, then
/// "A before B before P".
const MEETINGS: &[(u8, &[Edit], Told)] = &[
    // 20 for two syllables or three
    (3, &[(A_WIDTH, 0), (P_WIDTH, 0)], (20, A)),
    (4, &[(A_WIDTH, 0), (B_WIDTH, 0)], (20, A)),
    (4, &[(B_WIDTH, 0), (P_WIDTH, 0)], (20, B)),
    (4, &[(A_WIDTH, 0), (B_WIDTH, 0), (P_WIDTH, 0)], (20, A)),
    // 20 of a later syllable before 21 of an earlier one
    (3, &[(A_LOW, 5), (P_WIDTH, 0)], (20, P)),
    (4, &[(A_LOW, 7), (B_WIDTH, 0)], (20, B)),
    (4, &[(B_LOW, 7), (P_WIDTH, 0)], (20, P)),
    // 20 before 22, 23, 24
    (4, &[(A_WIDTH, 0), (B_WIDTH, 3)], (20, A)),
    (1, &[(A_WIDTH, 0), (X, 8)], (20, A)),
    (3, &[(P_WIDTH, 0), (CARED, 2)], (20, P)),
    // 21 for two syllables or three
    (3, &[(A_LOW, 5), (P_LOW, 5)], (21, A)),
    (4, &[(A_LOW, 7), (B_LOW, 7)], (21, A)),
    (4, &[(B_LOW, 7), (P_LOW, 5)], (21, B)),
    (4, &[(A_LOW, 7), (B_LOW, 7), (P_LOW, 5)], (21, A)),
    // 21 before 22: P's bits 8 to 3 over A; A over P and B beyond
    (3, &[(P_LOW, 3), (P_WIDTH, 6)], (21, P)),
    (4, &[(A_WIDTH, 5), (B_LOW, 7)], (21, B)),
    // 21 before 23, 24
    (4, &[(P_LOW, 5), (Y, 8)], (21, P)),
    (2, &[(A_LOW, 5), (X, 1)], (21, A)),
    // 22 for both sources, before 23, 24
    (4, &[(A_WIDTH, 5), (B_WIDTH, 3)], (22, A)),
    (3, &[(P_LOW, 3), (Y, 8)], (22, A)),
    (4, &[(B_WIDTH, 3), (CARED, 2)], (22, B)),
    // 23 before 24: both above 7 and the same; one above, the other in care
    (1, &[(X, 8), (Y, 8)], (23, NOTHING)),
    (1, &[(X, 8), (CARED, 2)], (23, NOTHING)),
    (2, &[(Y, 9), (CARED, 1)], (23, NOTHING)),
    // each before 25: a place or an unused field, which a start passes over
    (3, &[(P_WIDTH, 0), (X, 5)], (20, P)),
    (4, &[(P_LOW, 5), (C, 1)], (21, P)),
    (3, &[(P_LOW, 3), (PHASE, 0)], (22, A)),
    (1, &[(Y, 8), (J, 1)], (23, NOTHING)),
    (2, &[(X, 1), (P_WIDTH, 1)], (24, NOTHING)),
];

/// 25 of a held job alone: a kind, what stays of the record when it is offered,
/// and what a start sets: its place, and the fields that it doesn't use. Those
/// are not judged as if they were used: X 1 is Y's bit, X 8 no bit, B over P.
/// Of a product whose P has two bits, i and j 1 are no place.
const HELD_ALONE: &[(u8, &[Edit], &[Edit])] = &[
    (1, &[], &[(PHASE, 3)]),
    (1, &[], &[(I, 2)]),
    (2, &[], &[(I, 4)]),
    (1, &[], &[(PHASE, 1), (I, 4)]),
    (2, &[], &[(PHASE, 2), (I, 4)]),
    (1, &[], &[(J, 1)]),
    (2, &[], &[(PHASE, 1), (J, 1)]),
    (1, &[], &[(B_LOW, 1)]),
    (2, &[], &[(B_WIDTH, 1)]),
    (1, &[], &[(P_LOW, 1)]),
    (2, &[], &[(P_WIDTH, 1)]),
    (1, &[], &[(P_WIDTH, 4)]),
    (1, &[], &[(C, 1)]),
    (2, &[], &[(C + 7, 1)]),
    (3, &[], &[(PHASE, 0)]),
    (3, &[], &[(PHASE, 3)]),
    (3, &[], &[(I, 4)]),
    (3, &[(P_WIDTH, 2)], &[(PHASE, 2), (I, 2)]),
    (3, &[], &[(J, 1)]),
    (3, &[], &[(X, 1)]),
    (3, &[], &[(X, 8)]),
    (3, &[], &[(B_LOW, 1)]),
    (3, &[], &[(B_WIDTH, 1)]),
    (3, &[], &[(B_LOW, 4), (B_WIDTH, 4)]),
    (4, &[], &[(PHASE, 0)]),
    (4, &[], &[(PHASE, 255)]),
    (4, &[], &[(I, 2)]),
    (4, &[], &[(PHASE, 2), (J, 2)]),
    (4, &[(P_WIDTH, 2)], &[(I, 1), (J, 1)]),
    (4, &[], &[(X, 1)]),
    (4, &[], &[(X, 255)]),
    (4, &[], &[(C, 1)]),
];

fn refused_while_held(tally: &mut Tally, kind: u8, lasting: &[Edit], passing: &[Edit]) {
    let name = format!("held alone, kind {kind} {lasting:?} {passing:?}");
    let host = Host::of_the_figures();
    let all = [lasting, passing].concat();
    let mut job = edited(kind, &all);
    held_refused(tally, &name, &host, &job, (25, NOTHING));
    tally.same(&name, host.start(&[], &mut job), accepted(&[1]));
    tally.same(&name, job, edited(kind, lasting));
}

/// A place that is not the first is wrong for a total alone.
fn later_places(tally: &mut Tally) {
    let cases: [(u8, &[Edit]); 8] = [
        (1, &[(PHASE, 1)]),
        (1, &[(PHASE, 2)]),
        (2, &[(PHASE, 1), (I, 0)]),
        (3, &[(PHASE, 2)]),
        (3, &[(I, 1)]),
        (4, &[(J, 1)]),
        (4, &[(PHASE, 2)]),
        (4, &[(I, 1)]),
    ];
    for (kind, edits) in cases {
        let name = format!("later, kind {kind} {edits:?}");
        let mut host = Host::of_the_figures();
        let mut job = edited(kind, edits);
        total_refused(tally, &name, &host, &job, (25, NOTHING));
        let mut image = vec![0; IMAGE_BYTES];
        tally.same(&name, host.write(&job, &mut image), accepted(&[66]));
        tally.same(&name, host.step(&mut job).0, 0);
    }
}

/// 25: "a step or a total while none is"; an image needs no job. 22 zeros are a
/// job whose kind is unknown.
fn no_job(tally: &mut Tally) {
    let host = Host::of_the_figures();
    step_refused(tally, "no job", &host, &[], (25, NOTHING));
    total_refused(tally, "no job", &host, &[], (25, NOTHING));
    let mut image = vec![0; IMAGE_BYTES - 22];
    tally.same("no job", host.write(&[], &mut image), accepted(&[44]));
    held_refused(tally, "22 zeros", &host, &[0; 22], (25, NOTHING));
}

/// 25: "a start while a job is held", whatever the record held says, since it "is
/// not judged itself".
fn one_is_held(tally: &mut Tally) {
    let host = Host::of_the_figures();
    let beyond = edited(1, &[(A_LOW, 5)]);
    for kind in 1..=4 {
        for held in [&sound(kind)[..], &[0; 22], &[255; 22], &beyond] {
            let name = format!("kind {kind}, {held:?}");
            start_refused(tally, &name, &host, held, &sound(kind), (25, NOTHING));
        }
    }
}

/// The machine's own numbers come before all of the job's. A word that is too
/// wide is what 3 also answers, not the syllable.
fn before_the_job(tally: &mut Tally) {
    type Spoil = fn(&mut Host);
    let spoils: [(&str, Spoil, Told); 6] = [
        ("no responses", |host| host.responses.clear(), (1, 0)),
        ("a response more", |host| host.responses.push(0), (1, 0)),
        ("no width", |host| host.width = 0, (2, 0)),
        ("width 65", |host| host.width = 65, (2, 0)),
        ("word 0 too wide", |host| host.words[0] = 0x100, (3, 0)),
        ("word 2 too wide", |host| host.words[2] = 0x100, (3, 2)),
    ];
    let jobs: [(u8, &[Edit]); 7] = [
        (4, &[(A_WIDTH, 0)]),
        (3, &[(P_LOW, 5)]),
        (4, &[(B_WIDTH, 3)]),
        (1, &[(X, 8)]),
        (2, &[(CARED, 1)]),
        (1, &[(KIND, 0)]),
        (1, &[]),
    ];
    for (name, spoil, told) in spoils {
        let mut host = Host::of_the_figures();
        spoil(&mut host);
        for (kind, edits) in jobs {
            let name = format!("{name}, kind {kind} {edits:?}");
            let job = edited(kind, edits);
            start_refused(tally, &name, &host, &[], &job, told);
            start_refused(tally, &name, &host, &sound(1), &job, told);
            held_refused(tally, &name, &host, &job, told);
        }
        step_refused(tally, name, &host, &[], told);
        total_refused(tally, name, &host, &[], told);
    }
}

/// 1: "a job's record of a wrong length", before all else, the width too. Of the
/// record held a start looks at the length alone.
fn records_of_wrong_lengths(tally: &mut Tally) {
    let mut host = Host::of_the_figures();
    let empty = edited(3, &[(A_WIDTH, 0)]);
    for width in [8, 0] {
        host.width = width;
        for length in [1, 21, 23] {
            let name = format!("record of {length}, width {width}");
            let mut record = empty.clone();
            record.resize(length, 0);
            held_refused(tally, &name, &host, &record, (1, 0));
            start_refused(tally, &name, &host, &[], &record, (1, 0));
            start_refused(tally, &name, &host, &sound(1), &record, (1, 0));
            start_refused(tally, &name, &host, &record, &empty, (1, 0));
            start_refused(tally, &name, &host, &record, &[5; 22], (1, 0));
        }
        start_refused(tally, "nothing offered", &host, &[], &[], (1, 0));
    }
}

/// "A damaged job in an image stays 9", at the record's place, which is behind
/// the counts, the width, three words and three responses; and before 10.
fn damaged_images(tally: &mut Tally) {
    let words = [0x35u64, 0x9C, 0x35].map(u64::to_le_bytes).concat();
    let machine = [
        &[1, 0, 0, 0, 8, 3, 0, 0, 0][..],
        &words,
        &[3, 0, 0, 0, 0, 0, 0, 1, 0, 0, 0],
    ]
    .concat();
    let jobs: [(u8, &[Edit]); 7] = [
        (4, &[(B_WIDTH, 0)]),
        (3, &[(P_LOW, 5)]),
        (4, &[(A_WIDTH, 5)]),
        (3, &[(Y, 8)]),
        (1, &[(X, 1)]),
        (2, &[(KIND, 5)]),
        (1, &[(I, 2)]),
    ];
    for (kind, edits) in jobs {
        let image = [&machine[..], &edited(kind, edits)].concat();
        for n in [3, 2] {
            let name = format!("image into {n}, kind {kind} {edits:?}");
            let mut host = Host::new(0, &vec![7; n]);
            let mut record = vec![5; 22];
            tally.same(&name, host.read(&image, &mut record), refused(9, 44, 5));
            let after = (host.words, record);
            tally.same(&name, after, (vec![7; n], vec![5; 22]));
        }
    }
}

/// Show gives 23 for X, before 10.
fn shows(tally: &mut Tally) {
    let mut host = Host::of_the_figures();
    host.responses = vec![0, 0x80, 1];
    tally.same("show 7", host.show(7), accepted(&[1, 1]));
    tally.same("show 7 short", host.show_into(7, 3), (10, vec![OLD; 3]));
    for x in [8, 15, 255] {
        let name = format!("show {x}");
        let found = [SHOW_ANSWER, SHOW_ANSWER - 1].map(|room| host.show_into(x, room));
        tally.same(&name, found, told_in((23, 0), SHOW_ANSWER));
    }
}

/// An answer and a round give 23 for X or F above 7, and 24 for X that is F: the
/// same above 7 is 23. Both come before 10, and for an answer before 11: word 1
/// is the one that show would give, word 2 is not, and there is no word 9.
fn answers_and_rounds(tally: &mut Tally) {
    let mut host = Host::of_the_figures();
    host.responses = vec![0, 4, 4];
    let before = host.clone();
    let cases: [(u8, u8, u32); 9] = [
        (8, 5, 23),
        (255, 5, 23),
        (10, 2, 23),
        (2, 8, 23),
        (2, 10, 23),
        (8, 8, 23),
        (255, 255, 23),
        (2, 2, 24),
        (7, 7, 24),
    ];
    for (x, f, number) in cases {
        let name = format!("X {x}, F {f}");
        for word in [1, 2, 9] {
            let rooms = [REPLY_ANSWER, REPLY_ANSWER - 1];
            let found = rooms.map(|room| host.answer(x, f, word, 1, room));
            tally.same(&name, found, told_in((number, 0), REPLY_ANSWER));
        }
        let rooms = [ROUND_ANSWER, ROUND_ANSWER - 1];
        let found = rooms.map(|room| host.round_into(x, f, &[1, 1, 1], room));
        tally.same(&name, found, told_in((number, 0), ROUND_ANSWER));
        tally.same(&name, &host, &before);
    }
    tally.same("10, 11", host.answer(2, 5, 2, 1, 1), (10, vec![OLD]));
    tally.same("11", host.answer(2, 5, 2, 1, 2), refused(11, 0, 2));
    let short = host.round_into(2, 5, &[1, 1, 1], 3);
    tally.same("10", (short, &host), ((10, vec![OLD; 3]), &before));
}

/// 1 to 3 come before 23 and 24.
fn before_the_bits(tally: &mut Tally) {
    type Spoil = fn(&mut Host);
    let spoils: [(&str, Spoil, Told); 3] = [
        ("no responses", |host| host.responses.clear(), (1, 0)),
        ("no width", |host| host.width = 0, (2, 0)),
        ("word 1 too wide", |host| host.words[1] = 0x100, (3, 1)),
    ];
    for (name, spoil, (number, also)) in spoils {
        let mut host = Host::of_the_figures();
        spoil(&mut host);
        for (x, f) in [(8, 5), (2, 8), (2, 2)] {
            let name = format!("{name}, X {x}, F {f}");
            let told = host.answer(x, f, 0, 1, REPLY_ANSWER);
            tally.same(&name, told, refused(number, also, REPLY_ANSWER));
            let told = host.round(x, f, &[]);
            tally.same(&name, told, refused(number, also, ROUND_ANSWER));
        }
        tally.same(name, host.show(8), refused(number, also, SHOW_ANSWER));
    }
}
