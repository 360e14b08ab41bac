//! Jobs that are wrong for one chosen reason, or for two chosen numbers, and for
//! nothing else.

use crate::rng::Rng;
use crate::tally::jobreasons::{
    numbers_of, record_reasons, Reason, NUMBERS, REST, UNKNOWN_KIND, USED,
};
use crate::values;
use processor::jobs::{Job, Span, PRODUCT, SCALED};

/// A job is made wrong so often until it is so in the chosen way alone, which
/// hangs on the widths that chance gave. A machine may be too narrow for it.
const TRIES: usize = 150;

/// Every reason with every kind of job that it can be wrong for; an unknown kind
/// stands for itself.
pub fn all_alone() -> Vec<(Reason, u8)> {
    let mut all = vec![(UNKNOWN_KIND, 0), (UNKNOWN_KIND, 5), (UNKNOWN_KIND, 255)];
    for (reason, kinds) in USED.iter().chain(&REST) {
        all.extend(kinds.iter().map(|kind| (*reason, *kind)));
    }
    all
}

/// A record that is wrong for this reason.
pub fn for_reason(rng: &mut Rng, width: u8, reason: Reason, kind: u8) -> Job {
    if reason == UNKNOWN_KIND {
        return of_unknown_kind(rng, width, kind);
    }
    let mut job = Job::default();
    for _ in 0..TRIES {
        job = sound(rng, width, kind);
        make_wrong(rng, &mut job, width, reason);
        if record_reasons(&job, width) == [reason] {
            break;
        }
    }
    job
}

/// A record that is wrong for this number, whatever the reason, but for an unknown
/// kind.
pub fn for_number(rng: &mut Rng, width: u8, number: &str) -> Job {
    for_numbers(rng, width, &[number])
}

/// A record that is wrong for these numbers.
pub fn for_numbers(rng: &mut Rng, width: u8, numbers: &[&str]) -> Job {
    let mut job = Job::default();
    for _ in 0..TRIES {
        let kind = rng.between(1, 4) as u8;
        job = sound(rng, width, kind);
        for number in numbers {
            make_wrong_for(rng, &mut job, width, number);
        }
        if numbers_of(&record_reasons(&job, width)) == numbers {
            break;
        }
    }
    job
}

/// One of the numbers that a start judges the offered job by.
pub fn used_number(rng: &mut Rng) -> &'static str {
    rng.pick(&NUMBERS[..10])
}

/// A record with nothing wrong, most often at its first place, where alone its total
/// is told.
pub fn sound(rng: &mut Rng, width: u8, kind: u8) -> Job {
    let mut job = values::job_of(rng, width, kind);
    values::clear_unused(&mut job);
    if rng.once_in(12) {
        values::put_place(rng, &mut job);
    } else {
        values::put_first_place(&mut job);
    }
    job
}

/// The same job with its unused fields left to chance, as a start takes it: often
/// such as would be refused if they were used.
pub fn offered(rng: &mut Rng, width: u8, job: &Job) -> Job {
    let mut offer = *job;
    if job.kind < SCALED {
        offer.b = unused(rng, width, job.a);
        offer.p = unused(rng, width, job.a);
    } else {
        offer.x = rng.pick(&[0, job.y, job.care.trailing_zeros() as u8, 8, 255]);
    }
    if job.kind == SCALED {
        offer.b = unused(rng, width, job.p);
    } else {
        offer.c = rng.next();
    }
    offer
}

/// A syllable that is empty, that is a used one, or that lies beyond the word.
fn unused(rng: &mut Rng, width: u8, used: Span) -> Span {
    let (low, wide) = rng.pick(&[
        (0, 0),
        (width, 0),
        (used.low, used.width),
        (width, 1),
        (255, 255),
    ]);
    Span { low, width: wide }
}

/// An unknown kind in a record that would do for another one, or that would not do
/// for any.
fn of_unknown_kind(rng: &mut Rng, width: u8, kind: u8) -> Job {
    let known = rng.between(1, 4) as u8;
    let mut job = sound(rng, width, known);
    if rng.once_in(2) {
        let number = used_number(rng);
        job = for_number(rng, width, number);
        // Y is used by every kind, A as well.
        make_wrong_for(rng, &mut job, width, "23");
        job.y = rng.pick(&[8, 255, job.y]);
        job.a.width = rng.pick(&[0, 255, job.a.width]);
    }
    job.kind = kind;
    job
}

fn make_wrong_for(rng: &mut Rng, job: &mut Job, width: u8, number: &str) {
    let all = USED.iter().chain(&REST);
    let fit = all.filter(|((other, _), kinds)| *other == number && kinds.contains(&job.kind));
    let reasons: Vec<Reason> = fit.map(|(reason, _)| *reason).collect();
    if !reasons.is_empty() {
        let reason = rng.pick(&reasons);
        make_wrong(rng, job, width, reason);
    }
}

fn make_wrong(rng: &mut Rng, job: &mut Job, width: u8, reason: Reason) {
    match reason {
        ("20 A", _) => job.a.width = 0,
        ("20 B", _) => job.b.width = 0,
        ("20 P", _) => job.p.width = 0,
        ("21 A", _) => put_beyond(rng, &mut job.a, width),
        ("21 B", _) => put_beyond(rng, &mut job.b, width),
        ("21 P", _) => put_beyond(rng, &mut job.p, width),
        ("22 A", _) => put_over(rng, &mut job.p, &mut job.a),
        ("22 B", _) => put_over(rng, &mut job.p, &mut job.b),
        (_, "X above 7") => job.x = rng.pick(&[8, 9, 255]),
        (_, "Y above 7") => job.y = rng.pick(&[8, 9, 255]),
        // The one that is above 7 stays so.
        (_, "X equal to Y") if job.y > 7 => job.x = job.y,
        (_, "X equal to Y") => job.y = job.x,
        (_, "X in care") => job.care |= 1 << (job.x % 8),
        (_, "Y in care") => job.care |= 1 << (job.y % 8),
        (_, "an unused X") => job.x = rng.pick(&[1, 7, 8, 255, job.y]),
        (_, "an unused B") => unused_span(rng, &mut job.b, job.a),
        (_, "an unused P") => unused_span(rng, &mut job.p, job.a),
        (_, "an unused c") => job.c = rng.pick(&[1, 3, 1 << 63]),
        (_, place) => misplace(rng, job, place),
    }
}

fn misplace(rng: &mut Rng, job: &mut Job, reason: &str) {
    let places = match job.kind {
        SCALED | PRODUCT => job.a.width.min(job.p.width),
        _ => job.a.width,
    };
    match reason {
        "a phase above 2" => job.phase = rng.pick(&[3, 4, 255]),
        "phase 0 of an adding job" => job.phase = 0,
        "phase 0 not at the top" => {
            job.phase = 0;
            job.i = rng.pick(&[0, places.wrapping_sub(2), places, 255]);
        }
        "i not in the table" => {
            job.phase = rng.pick(&[1, 2]);
            job.i = rng.pick(&[places, places.wrapping_add(1), 255]);
        }
        "j not 0" => job.j = rng.pick(&[1, 2, 255]),
        "j not in the table" => job.j = rng.pick(&[job.b.width, 255]),
        _ => {
            job.i = places.saturating_sub(1);
            job.j = job.p.width.wrapping_sub(job.i);
        }
    }
}

/// Beyond the word by one bit, by all of them, or as far as a record can say.
fn put_beyond(rng: &mut Rng, span: &mut Span, width: u8) {
    let by_one = width.wrapping_sub(span.width).wrapping_add(1);
    match rng.below(6) {
        0..=2 => span.low = by_one,
        3 => span.low = width,
        4 => span.low = 255,
        _ => span.width = width.wrapping_sub(span.low).wrapping_add(1),
    }
}

/// The result and a source on the same bits: one bit of the other, or from the same
/// lowest bit up.
fn put_over(rng: &mut Rng, result: &mut Span, source: &mut Span) {
    match rng.below(6) {
        0 | 1 => *source = values::within(rng, *result),
        2 | 3 => *result = values::within(rng, *source),
        4 => source.low = result.low,
        _ => result.low = source.low,
    }
}

/// Anything but 0: a place, a width, or both, as a syllable that might be used.
fn unused_span(rng: &mut Rng, span: &mut Span, used: Span) {
    match rng.below(4) {
        0 => span.low = rng.pick(&[1, 255]),
        1 => span.width = rng.pick(&[1, 255]),
        _ => *span = used,
    }
}
