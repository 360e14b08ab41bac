//! Values that reach the edges: widths, sizes, words, registers, jobs and
//! images.

use crate::rng::Rng;
use processor::image::compose;
use processor::jobs::{Job, Span, PRODUCT, SCALED};
use processor::machine::{one_at, ones, Machine};

/// A width the machine takes, most often one at an edge.
pub fn good_width(rng: &mut Rng) -> u8 {
    if rng.once_in(2) {
        rng.between(1, 64) as u8
    } else {
        rng.pick(&[1, 2, 7, 8, 31, 32, 33, 63, 64])
    }
}

/// A width, now and then one that number 2 is given for.
pub fn any_width(rng: &mut Rng) -> u8 {
    if rng.once_in(25) {
        rng.pick(&[0, 65, 66, 128, 255])
    } else {
        good_width(rng)
    }
}

/// A width for an array of three-state cells: any alike more often than for a
/// machine, since each is operated on for a few scenes only.
pub fn array_width(rng: &mut Rng) -> u8 {
    if rng.once_in(3) {
        any_width(rng)
    } else {
        rng.between(1, 64) as u8
    }
}

/// A number of words, now and then at an edge.
pub fn any_size(rng: &mut Rng) -> usize {
    match rng.below(40) {
        0 => 0,
        1 | 2 => rng.pick(&[1023, 1024]),
        3 => rng.pick(&[1025, 1025, 2048]),
        4..=10 => rng.pick(&[1, 2, 3, 4, 5]),
        _ => rng.between(1, 40) as usize,
    }
}

/// A number of words for an array of three-state cells: few, since its host
/// writes them one by one, and now and then at an edge.
pub fn array_size(rng: &mut Rng) -> usize {
    match rng.below(40) {
        0 => 0,
        1 | 2 => rng.pick(&[1023, 1024, 1024]),
        3 => rng.pick(&[1025, 2048]),
        4..=9 => rng.between(9, 40) as usize,
        _ => rng.between(1, 8) as usize,
    }
}

/// The plane of a word's X cells: none of them, all, few or many.
pub fn xs(rng: &mut Rng, width: u8) -> u64 {
    let chosen = match rng.below(6) {
        0 | 1 => 0,
        2 => u64::MAX,
        3 => rng.next() & rng.next() & rng.next(),
        4 => rng.next() | rng.next(),
        _ => rng.next(),
    };
    chosen & ones(u32::from(width.min(64)))
}

/// A mask register: of one bit, of few, of many or of all.
pub fn mask(rng: &mut Rng, width: u8) -> u64 {
    let top = u64::from(width.clamp(1, 64));
    let chosen = match rng.below(8) {
        0 => 0,
        1 => u64::MAX,
        2 | 3 => one_at(rng.below(top) as u32),
        4 => rng.next() & rng.next() & rng.next(),
        5 => 0xFF << rng.below(top),
        6 => rng.next() | rng.next(),
        _ => rng.next(),
    };
    chosen & ones(u32::from(width.min(64)))
}

/// A number within a width: one of the known words, one bit away from one, or
/// something new.
pub fn number(rng: &mut Rng, width: u8, known: &[u64]) -> u64 {
    let width = u32::from(width.clamp(1, 64));
    let known_word = if known.is_empty() { 0 } else { rng.pick(known) };
    let chosen = match rng.below(12) {
        0 => 0,
        1 => u64::MAX,
        2 => one_at(width - 1),
        3 => rng.below(4),
        4 => rng.next() & rng.next() & rng.next(),
        5 => rng.next() | rng.next(),
        6 | 7 => rng.next(),
        8 | 9 => known_word,
        _ => known_word ^ one_at(rng.below(u64::from(width)) as u32),
    };
    chosen & ones(width)
}

/// A number to hold against the words: most often equal to one of them, or one
/// bit or one number away from it.
pub fn comparand(rng: &mut Rng, width: u8, known: &[u64]) -> u64 {
    if known.is_empty() || rng.once_in(4) {
        return number(rng, width, known);
    }
    let width = u32::from(width.clamp(1, 64));
    let word = rng.pick(known);
    let chosen = match rng.below(8) {
        0..=3 => word,
        4 => word.wrapping_add(1),
        5 => word.wrapping_sub(1),
        _ => word ^ one_at(rng.below(u64::from(width)) as u32),
    };
    chosen & ones(width)
}

/// The same number, now and then with a one at or above the width.
pub fn perhaps_stray(rng: &mut Rng, width: u8, value: u64) -> u64 {
    if width >= 64 || !rng.once_in(50) {
        return value;
    }
    value | stray_bit(rng, width)
}

/// A one at or above a width below 64.
pub fn stray_bit(rng: &mut Rng, width: u8) -> u64 {
    let anywhere = rng.between(u64::from(width), 63);
    let place = rng.pick(&[u64::from(width), 63, anywhere]);
    one_at(place as u32)
}

/// A response or an 8-bit register: few bits, so that selections differ.
pub fn byte(rng: &mut Rng) -> u8 {
    match rng.below(6) {
        0 | 1 => 0,
        2 => 1 << rng.below(8),
        3 => (1 << rng.below(3)) | (1 << rng.below(8)),
        4 => rng.below(4) as u8,
        _ => rng.next() as u8,
    }
}

/// A care register: most often of one or no bit.
pub fn care(rng: &mut Rng) -> u8 {
    match rng.below(8) {
        0 => 0,
        1..=3 => 1 << rng.below(3),
        4 => byte(rng),
        5 => (1 << rng.below(3)) | (1 << rng.below(8)),
        _ => 1 << rng.below(8),
    }
}

/// A syllable definition: sparse, dense or something between.
pub fn definition(rng: &mut Rng, width: u8) -> u64 {
    let mask = ones(u32::from(width.min(64)));
    let chosen = match rng.below(6) {
        0 => 0,
        1 => u64::MAX,
        2 => rng.next() & rng.next() & rng.next(),
        3 => 0x8888_8888_8888_8888,
        4 => one_at(rng.below(64) as u32) | one_at(rng.below(64) as u32),
        _ => rng.next(),
    };
    chosen & mask
}

/// A machine that 1 to 3 have nothing against.
pub fn machine(rng: &mut Rng, width: u8, n: usize) -> Machine {
    let mut machine = Machine::blank(width, n);
    for index in 0..n {
        machine.words[index] = number(rng, width, &machine.words[..index]);
        machine.responses[index] = byte(rng);
    }
    machine
}

/// A syllable within the bits from `least` to below `most`.
fn span_within(rng: &mut Rng, least: u8, most: u8) -> Span {
    let whole = most - least;
    let width = match rng.below(4) {
        0 => whole,
        1 => 1,
        _ => rng.between(1, u64::from(whole)) as u8,
    };
    let slack = u64::from(whole - width);
    let offset = match rng.below(3) {
        0 => 0,
        1 => slack,
        _ => rng.between(0, slack),
    };
    Span {
        low: least + offset as u8,
        width,
    }
}

/// A syllable within these bits that shares none with another one there, if
/// there is room for such a one.
fn span_apart(rng: &mut Rng, within: (u8, u8), other: Span) -> Span {
    let (least, most) = within;
    let sides = [(least, other.low), (other.low + other.width, most)];
    let room: Vec<(u8, u8)> = sides.into_iter().filter(|(from, to)| from < to).collect();
    let (from, to) = if room.is_empty() {
        within
    } else {
        rng.pick(&room)
    };
    span_within(rng, from, to)
}

/// The syllables A, B and P: P beside the two others, often touching them; A
/// and B apart, overlapping or equal. A width of 1 has no room for both.
fn spans(rng: &mut Rng, width: u8) -> (Span, Span, Span) {
    if width < 2 {
        let only = Span { low: 0, width: 1 };
        return (only, only, only);
    }
    let cut = rng.between(1, u64::from(width) - 1) as u8;
    let below = rng.once_in(2);
    let (factors, sum) = if below {
        ((0, cut), (cut, width))
    } else {
        ((cut, width), (0, cut))
    };
    let a = span_within(rng, factors.0, factors.1);
    let b = match rng.below(8) {
        0 | 1 => a,
        2 => span_apart(rng, factors, a),
        _ => span_within(rng, factors.0, factors.1),
    };
    (a, b, span_within(rng, sum.0, sum.1))
}

/// A job that can be started on a machine of this width (but for adds at width
/// 1); its unused fields are left to chance.
pub fn job(rng: &mut Rng, width: u8) -> Job {
    let kind = rng.between(1, 4) as u8;
    job_of(rng, width, kind)
}

/// The same of a chosen kind.
pub fn job_of(rng: &mut Rng, width: u8, kind: u8) -> Job {
    let width = width.clamp(1, 64);
    let x = rng.below(8) as u8;
    let y = (x + rng.between(1, 7) as u8) % 8;
    let (mut a, b, p) = spans(rng, width);
    if kind < SCALED {
        a = span_within(rng, 0, width);
    }
    Job {
        kind,
        key: byte(rng),
        care: care(rng) & !(1 << x) & !(1 << y),
        x,
        y,
        a,
        b,
        p,
        c: number(rng, 64, &[3, 1 << 63]),
        ..Job::default()
    }
}

/// One bit of a syllable, its lowest or its highest.
pub fn within(rng: &mut Rng, span: Span) -> Span {
    let highest = span.low.wrapping_add(span.width).wrapping_sub(1);
    Span {
        low: rng.pick(&[span.low, highest]),
        width: 1,
    }
}

/// The same job with one field at or beyond an edge.
pub fn spoil(rng: &mut Rng, job: &mut Job, width: u8) {
    match rng.below(19) {
        0 => job.kind = rng.pick(&[0, 5, 255]),
        1 => job.x = rng.pick(&[8, 255, job.y]),
        2 if rng.once_in(3) => (job.x, job.y) = rng.pick(&[(8, 8), (255, 255)]),
        2 => job.y = rng.pick(&[8, 255, job.x]),
        3 => job.care |= 1 << (job.y % 8),
        4 => job.care |= 1 << (job.x % 8),
        5 => job.a.width = rng.pick(&[0, 255]),
        6 => job.b.width = rng.pick(&[0, 255]),
        7 => job.p.width = rng.pick(&[0, 255]),
        8 => job.a.low = width.wrapping_sub(job.a.width).wrapping_add(1),
        9 => job.b.low = width.wrapping_sub(job.b.width).wrapping_add(1),
        10 => job.p.low = width.wrapping_sub(job.p.width).wrapping_add(1),
        11 => job.p = job.a,
        12 => job.p = job.b,
        13 => job.p.low = job.p.low.wrapping_sub(1),
        14 => job.p.width = job.p.width.wrapping_add(1),
        15 | 16 => job.b = within(rng, job.p),
        17 => job.a = within(rng, job.p),
        _ => job.a.low = rng.pick(&[64, 128, 255]),
    }
}

/// One of the syllables that the job's kind uses; B often, which products alone do.
fn used_span<'a>(rng: &mut Rng, job: &'a mut Job) -> &'a mut Span {
    let which = match job.kind {
        PRODUCT => rng.pick(&["A", "B", "B", "P"]),
        SCALED => rng.pick(&["A", "P"]),
        _ => "A",
    };
    match which {
        "A" => &mut job.a,
        "B" => &mut job.b,
        _ => &mut job.p,
    }
}

/// The same job with something in a used field that one of the numbers 20 to 24 is
/// given for.
pub fn spoil_used(rng: &mut Rng, job: &mut Job, width: u8) {
    let extreme = job.kind < SCALED;
    match rng.below(8) {
        0 | 1 => used_span(rng, job).width = 0,
        2 | 3 => {
            let span = used_span(rng, job);
            let beyond = width.wrapping_sub(span.width).wrapping_add(1);
            span.low = rng.pick(&[beyond, beyond, 255]);
        }
        4 if !extreme => job.a = within(rng, job.p),
        5 if job.kind == PRODUCT => job.b = within(rng, job.p),
        4 if rng.once_in(2) => job.x = rng.pick(&[8, 255]),
        4 => job.care |= 1 << (job.x % 8),
        5 if extreme => {
            job.x = rng.pick(&[job.x, 8, 255]);
            job.y = job.x;
        }
        6 => job.y = rng.pick(&[8, 255]),
        _ => job.care |= 1 << (job.y % 8),
    }
}

/// The fields a kind doesn't use as 0.
pub fn clear_unused(job: &mut Job) {
    let none = Span::default();
    if job.kind < SCALED {
        job.b = none;
        job.p = none;
    } else {
        job.x = 0;
    }
    if job.kind == SCALED {
        job.b = none;
    } else {
        job.c = 0;
    }
}

/// One of the fields that some kinds don't use, not 0.
fn spoil_unused(rng: &mut Rng, job: &mut Job) {
    match rng.below(4) {
        0 => job.c |= 1 << 63,
        1 => job.b.low = 1,
        2 => job.p.width = 1,
        _ => job.x = job.x.wrapping_add(1),
    }
}

/// A place for a job, most often one of its table, at its edges too.
pub fn put_place(rng: &mut Rng, job: &mut Job) {
    let extreme = job.kind < SCALED;
    job.phase = rng.between(1, 2) as u8;
    let places = if extreme {
        job.a.width
    } else {
        job.a.width.min(job.p.width)
    };
    job.i = below_or_edge(rng, places);
    if job.kind == PRODUCT {
        let rest = job.p.width.saturating_sub(job.i);
        job.j = below_or_edge(rng, rest.min(job.b.width));
    }
    if rng.once_in(4) {
        put_first_place(job);
    }
}

/// The place at which a job starts.
pub fn put_first_place(job: &mut Job) {
    let extreme = job.kind < SCALED;
    job.phase = if extreme { 0 } else { 1 };
    job.i = if extreme {
        job.a.width.wrapping_sub(1)
    } else {
        0
    };
    job.j = 0;
}

/// A number below a bound, often the least or the greatest such.
fn below_or_edge(rng: &mut Rng, bound: u8) -> u8 {
    let any = rng.below(u64::from(bound)) as u8;
    rng.pick(&[0, bound.saturating_sub(1), any])
}

/// The same job at a place just beyond its table.
fn spoil_place(rng: &mut Rng, job: &mut Job) {
    match rng.below(8) {
        6 | 7 if job.kind == PRODUCT => {
            job.i = job.a.width.min(job.p.width).saturating_sub(1);
            job.j = job.p.width.wrapping_sub(job.i);
        }
        0 => job.phase = rng.pick(&[0, 3, 255]),
        1 => job.i = rng.pick(&[job.a.width, job.p.width, 64, 255]),
        2 => job.j = rng.pick(&[job.b.width, 1, 255]),
        3 => job.i = job.i.wrapping_add(1),
        4 => job.j = job.j.wrapping_add(1),
        _ => job.phase = 0,
    }
}

/// A job's whole record, most often one that may be stepped.
pub fn record(rng: &mut Rng, width: u8) -> Job {
    let mut job = job(rng, width);
    clear_unused(&mut job);
    if rng.once_in(8) {
        spoil_unused(rng, &mut job);
    }
    put_place(rng, &mut job);
    if rng.once_in(4) {
        spoil_place(rng, &mut job);
    }
    if rng.once_in(12) {
        spoil(rng, &mut job, width);
    }
    job
}

/// An image from nothing, most often a whole one.
pub fn image(rng: &mut Rng) -> Vec<u8> {
    let width = good_width(rng);
    let n = match rng.below(40) {
        0 => rng.pick(&[1023, 1024, 1025]),
        1..=8 => 1,
        _ => rng.between(1, 12) as usize,
    };
    let job = if rng.once_in(2) {
        Some(record(rng, width))
    } else {
        None
    };
    compose(&machine(rng, width, n), &job)
}

/// The number at a count's place, changed.
fn change_count(rng: &mut Rng, image: &mut [u8], place: usize) {
    let far: u32 = rng.pick(&[0, 1, 2, 1024, 1025, 0x100, 0x1_0000, 0x0100_0001, u32::MAX]);
    let near = u32::from(image.get(place).copied().unwrap_or(0));
    let chosen = rng.pick(&[far, near.wrapping_sub(1), near + 1, near + 2]);
    for (byte, new) in image.iter_mut().skip(place).zip(chosen.to_le_bytes()) {
        *byte = new;
    }
}

/// The places of an image's four counts, as far as its word count tells.
fn count_places(image: &[u8]) -> [usize; 4] {
    let n = image.get(5).copied().unwrap_or(0) as usize;
    let n = n + 256 * image.get(6).copied().unwrap_or(0) as usize;
    [0, 5, 9 + 8 * n, 13 + 9 * n]
}

/// The same image damaged: a byte or a count changed, bytes cut off or put to
/// the end.
pub fn damage(rng: &mut Rng, image: &mut Vec<u8>) {
    let counts = count_places(image);
    let length = image.len() as u64;
    match rng.below(10) {
        0 => image.truncate(rng.below(length) as usize),
        1 | 9 => image.truncate(rng.pick(&counts) + rng.pick(&[0, 1, 2, 3, 4, 4, 4, 5])),
        2 => image.truncate(length.saturating_sub(rng.between(1, 23)) as usize),
        3 => image.extend((0..rng.between(1, 23)).map(|place| place as u8)),
        4 | 5 => {
            let place = rng.pick(&counts);
            change_count(rng, image, place);
        }
        6 => change_byte(image, 4, rng.pick(&[0, 1, 7, 63, 64, 65, 255])),
        7 => {
            let back = rng.between(1, 22);
            let value = rng.pick(&[0, 1, 2, 3, 7, 8, 64, 255]);
            change_byte(image, length.saturating_sub(back) as usize, value);
        }
        _ => {
            let place = rng.below(length) as usize;
            let old = image.get(place).copied().unwrap_or(0);
            change_byte(image, place, old ^ (1 << rng.below(8)));
        }
    }
}

fn change_byte(image: &mut [u8], place: usize, value: u8) {
    if let Some(byte) = image.get_mut(place) {
        *byte = value;
    }
}
