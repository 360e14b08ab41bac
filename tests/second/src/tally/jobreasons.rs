//! All the reasons why one of the numbers 20 to 25 would be given for a job: each
//! by itself, so that it is seen which were met alone and which together. They are
//! read off the record without the second program's own judgement of it.

use processor::jobs::{Job, Span, GREATEST, PRODUCT, SCALED, SMALLEST};

/// The number that a reason is given with, for 20 to 22 with the syllable, and
/// the reason.
pub type Reason = (&'static str, &'static str);

const EVERY: &[u8] = &[GREATEST, SMALLEST, SCALED, PRODUCT];
const EXTREMES: &[u8] = &[GREATEST, SMALLEST];
const ADDING: &[u8] = &[SCALED, PRODUCT];
const PRODUCTS: &[u8] = &[PRODUCT];

pub const UNKNOWN_KIND: Reason = ("25", "a kind not in the table");
pub const ONE_IS_HELD: Reason = ("25", "a job is held");
pub const NONE_IS_HELD: Reason = ("25", "no job is held");
pub const NOT_FIRST: Reason = ("25", "a place that is not the first");

/// The reasons that the used fields give, in the order in which they are judged,
/// and the kinds of jobs that use them.
pub const USED: [(Reason, &[u8]); 13] = [
    (("20 A", "of width 0"), EVERY),
    (("20 B", "of width 0"), PRODUCTS),
    (("20 P", "of width 0"), ADDING),
    (("21 A", "beyond N"), EVERY),
    (("21 B", "beyond N"), PRODUCTS),
    (("21 P", "beyond N"), ADDING),
    (("22 A", "overlapped by P"), ADDING),
    (("22 B", "overlapped by P"), PRODUCTS),
    (("23", "X above 7"), EXTREMES),
    (("23", "Y above 7"), EVERY),
    (("24", "X equal to Y"), EXTREMES),
    (("24", "X in care"), EXTREMES),
    (("24", "Y in care"), EVERY),
];

/// The reasons for 25 that the rest of a held job's record gives: its place and
/// the fields that its kind does not use.
pub const REST: [(Reason, &[u8]); 11] = [
    (("25", "a phase above 2"), EVERY),
    (("25", "phase 0 of an adding job"), ADDING),
    (("25", "phase 0 not at the top"), EXTREMES),
    (("25", "i not in the table"), EVERY),
    (("25", "j not 0"), &[GREATEST, SMALLEST, SCALED]),
    (("25", "j not in the table"), PRODUCTS),
    (("25", "i+j not in the table"), PRODUCTS),
    (("25", "an unused X"), ADDING),
    (("25", "an unused B"), &[GREATEST, SMALLEST, SCALED]),
    (("25", "an unused P"), EXTREMES),
    (("25", "an unused c"), &[GREATEST, SMALLEST, PRODUCT]),
];

/// How many of those for 25 are reasons against the place.
const PLACES: usize = 7;

/// The numbers, with the syllables that can be named, in their order.
pub const NUMBERS: [&str; 11] = [
    "20 A", "20 B", "20 P", "21 A", "21 B", "21 P", "22 A", "22 B", "23", "24", "25",
];

/// Every two of them that can stand together in one call.
pub fn pairs() -> Vec<(&'static str, &'static str)> {
    let mut all = Vec::new();
    for (at, one) in NUMBERS.iter().enumerate() {
        for other in &NUMBERS[at + 1..] {
            if can_meet(one, other) {
                all.push((*one, *other));
            }
        }
    }
    all
}

/// An empty syllable has no bit: none beyond the word, and none that another one
/// shares, so neither 21 of itself stands beside 20 nor 22 of a source that is
/// empty or of an empty P. All others can: 25 beside any of 20 to 24 is a place or
/// an unused field, or a job held at the start; not an unknown kind, which gets
/// only 25. 23 and 24 meet in the extremes alone, since the other jobs work with Y
/// alone, which is not above 7 and in care at once.
fn can_meet(one: &str, other: &str) -> bool {
    let same_syllable = one[2..] == other[2..];
    match (&one[..2], &other[..2]) {
        ("20", "21") => !same_syllable,
        ("20", "22") => !same_syllable && one != "20 P",
        _ => true,
    }
}

/// The numbers among some reasons, each once.
pub fn numbers_of(reasons: &[Reason]) -> Vec<&'static str> {
    let mut numbers: Vec<&str> = reasons.iter().map(|(number, _)| *number).collect();
    numbers.dedup();
    numbers
}

/// What 20 to 25 have against the used fields of a job. Of an unknown kind it is
/// not known which are used: it "gets only 25".
pub fn used_reasons(job: &Job, width: u8) -> Vec<Reason> {
    if !EVERY.contains(&job.kind) {
        return vec![UNKNOWN_KIND];
    }
    that_hold(&USED, &field_faults(job, width), job.kind)
}

/// What they would have against the unused fields, if those were used.
pub fn unused_reasons(job: &Job, width: u8) -> Vec<Reason> {
    let held = field_faults(job, width);
    let both = USED.iter().zip(held);
    both.filter(|((_, kinds), so)| *so && !kinds.contains(&job.kind))
        .map(|((reason, _), _)| *reason)
        .collect()
}

/// What is wrong with a job's fields, used or not, in the order of their reasons.
fn field_faults(job: &Job, width: u8) -> [bool; USED.len()] {
    let in_care = |bit: u8| bit < 8 && (job.care >> bit) & 1 == 1;
    [
        job.a.width == 0,
        job.b.width == 0,
        job.p.width == 0,
        is_beyond(job.a, width),
        is_beyond(job.b, width),
        is_beyond(job.p, width),
        share(job.p, job.a),
        share(job.p, job.b),
        job.x > 7,
        job.y > 7,
        job.x == job.y,
        in_care(job.x),
        in_care(job.y),
    ]
}

/// What 20 to 25 have against a held job's whole record. Where a syllable is empty
/// no place is in the table, and of those against the place only that of the phase
/// is given: the others would come with each 20.
pub fn record_reasons(job: &Job, width: u8) -> Vec<Reason> {
    let mut reasons = used_reasons(job, width);
    if reasons == [UNKNOWN_KIND] {
        return reasons;
    }
    let empty = reasons.iter().any(|(number, _)| number.starts_with("20"));
    reasons.extend(rest_reasons(job, empty));
    reasons
}

fn rest_reasons(job: &Job, empty: bool) -> Vec<Reason> {
    let none = Span::default();
    let (i, j) = (u32::from(job.i), u32::from(job.j));
    let width = |span: Span| u32::from(span.width);
    let places = if ADDING.contains(&job.kind) {
        width(job.a).min(width(job.p))
    } else {
        width(job.a)
    };
    let held = [
        job.phase > 2,
        job.phase == 0,
        !empty && job.phase == 0 && i + 1 != width(job.a),
        !empty && job.phase > 0 && i >= places,
        j != 0,
        !empty && j >= width(job.b),
        !empty && i < places && j < width(job.b) && i + j >= width(job.p),
        job.x != 0,
        job.b != none,
        job.p != none,
        job.c != 0,
    ];
    that_hold(&REST, &held, job.kind)
}

/// The reasons that hold, of those that the kind can give.
fn that_hold(reasons: &[(Reason, &[u8])], held: &[bool], kind: u8) -> Vec<Reason> {
    let both = reasons.iter().zip(held);
    both.filter(|((_, kinds), so)| **so && kinds.contains(&kind))
        .map(|((reason, _), _)| *reason)
        .collect()
}

/// Those that `total` has: the place must also be the first, if it is one of the
/// table at all.
pub fn total_reasons(job: &Job, width: u8) -> Vec<Reason> {
    let mut reasons = record_reasons(job, width);
    let against_place = |reason: &Reason| {
        let places = &REST[..PLACES];
        reason.0.starts_with("20")
            || *reason == UNKNOWN_KIND
            || places.iter().any(|(other, _)| other == reason)
    };
    let first = match job.kind {
        GREATEST | SMALLEST => (0, job.a.width.wrapping_sub(1), 0),
        _ => (1, 0, 0),
    };
    if (job.phase, job.i, job.j) != first && !reasons.iter().any(against_place) {
        reasons.push(NOT_FIRST);
    }
    reasons
}

fn is_beyond(span: Span, width: u8) -> bool {
    span.width > 0 && u32::from(span.low) + u32::from(span.width) > u32::from(width)
}

fn share(one: Span, other: Span) -> bool {
    let ends = |span: Span| u32::from(span.low) + u32::from(span.width);
    let meet = u32::from(one.low) < ends(other) && u32::from(other.low) < ends(one);
    meet && one.width > 0 && other.width > 0
}
