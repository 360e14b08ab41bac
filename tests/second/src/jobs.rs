//! Jobs: their record, what the numbers 20 to 25 judge of it, their commands,
//! their places and their totals.

use crate::machine::{bit, is_selected, one_at, ones, refused, refused_at, Machine, Refusal};
use crate::panel::{Lines, Panel};
use crate::pulse::apply;
use crate::syllable::Syllable;
use crate::wide::WIDE;

/// The kinds, "1 to 4 as in the table".
pub const GREATEST: u8 = 1;
pub const SMALLEST: u8 = 2;
pub const SCALED: u8 = 3;
pub const PRODUCT: u8 = 4;

/// The phases: "0 opening search, 1 trial search, 2 the pulse after it".
pub const OPENING: u8 = 0;
pub const TRIAL: u8 = 1;
pub const AFTER: u8 = 2;

/// The names of a job's syllables, in the order in which 20 to 22 judge them: "A
/// before B before P".
pub const NAMES: [&str; 3] = ["A", "B", "P"];
const A: usize = 0;
const B: usize = 1;
const P: usize = 2;

/// A syllable as a record holds it: lowest bit and width, unchecked.
#[derive(Clone, Copy, Debug, Default, PartialEq, Eq)]
pub struct Span {
    pub low: u8,
    pub width: u8,
}

/// A job's record.
#[derive(Clone, Copy, Debug, Default, PartialEq, Eq)]
pub struct Job {
    pub kind: u8,
    pub key: u8,
    pub care: u8,
    pub x: u8,
    pub y: u8,
    pub a: Span,
    pub b: Span,
    pub p: Span,
    pub phase: u8,
    pub i: u8,
    pub j: u8,
    pub c: u64,
}

/// What a job step answers: the command it gave, its count, and whether the
/// job is still held.
#[derive(Clone, Copy, Debug, PartialEq, Eq)]
pub struct Step {
    pub lines: Lines,
    pub command: Panel,
    pub count: usize,
    pub held: bool,
}

const NO_SPAN: Span = Span { low: 0, width: 0 };

impl Span {
    fn is_beyond(&self, width: u8) -> bool {
        u32::from(self.low) + u32::from(self.width) > u32::from(width)
    }

    fn syllable(&self) -> Syllable {
        Syllable {
            low: u32::from(self.low),
            width: u32::from(self.width),
        }
    }

    /// Whether two syllables share a bit.
    fn overlaps(&self, other: &Span) -> bool {
        self.syllable()
            .places()
            .any(|place| other.syllable().places().contains(&place))
    }
}

impl Job {
    pub fn is_extreme(&self) -> bool {
        self.kind == GREATEST || self.kind == SMALLEST
    }

    /// The syllables that the job reads: B is used by products alone.
    fn sources(&self) -> Vec<(usize, Span)> {
        match self.kind {
            PRODUCT => vec![(A, self.a), (B, self.b)],
            _ => vec![(A, self.a)],
        }
    }

    /// All syllables that the job uses: P by the two adding jobs alone.
    fn syllables(&self) -> Vec<(usize, Span)> {
        let mut used = self.sources();
        if !self.is_extreme() {
            used.push((P, self.p));
        }
        used
    }

    /// The response bits that the job uses: X by the extremes alone.
    fn working_bits(&self) -> Vec<u8> {
        if self.is_extreme() {
            vec![self.x, self.y]
        } else {
            vec![self.y]
        }
    }

    /// The used fields, which every call with a job judges, "lowest first"; but
    /// "an unknown kind gets only 25", since it is not known what it uses.
    fn check_used(&self, width: u8) -> Result<(), Refusal> {
        if !(GREATEST..=PRODUCT).contains(&self.kind) {
            return refused(25);
        }
        self.check_empty()?;
        self.check_beyond(width)?;
        self.check_result()?;
        self.check_response_bits()?;
        self.check_working_bits()
    }

    /// 20: "syllable empty".
    fn check_empty(&self) -> Result<(), Refusal> {
        for (name, span) in self.syllables() {
            if span.width == 0 {
                return refused_at(20, name);
            }
        }
        Ok(())
    }

    /// 21: "syllable beyond the word".
    fn check_beyond(&self, width: u8) -> Result<(), Refusal> {
        for (name, span) in self.syllables() {
            if span.is_beyond(width) {
                return refused_at(21, name);
            }
        }
        Ok(())
    }

    /// 22: "result overlaps a source", which is the one named.
    fn check_result(&self) -> Result<(), Refusal> {
        for (name, source) in self.sources() {
            if !self.is_extreme() && self.p.overlaps(&source) {
                return refused_at(22, name);
            }
        }
        Ok(())
    }

    /// 23: "response bit above 7".
    fn check_response_bits(&self) -> Result<(), Refusal> {
        if self.working_bits().iter().any(|place| *place > 7) {
            return refused(23);
        }
        Ok(())
    }

    /// 24: "working bits clash or stand in care"; after 23 they are bits of care.
    fn check_working_bits(&self) -> Result<(), Refusal> {
        let clash = self.is_extreme() && self.x == self.y;
        let in_care = |place: &u8| (self.care >> place) & 1 == 1;
        if clash || self.working_bits().iter().any(in_care) {
            return refused(24);
        }
        Ok(())
    }

    /// Whether the place is one of the job's table.
    pub fn place_fits(&self) -> bool {
        let beyond_opening = self.phase == TRIAL || self.phase == AFTER;
        match self.kind {
            GREATEST | SMALLEST => self.extreme_place_fits(),
            SCALED => {
                beyond_opening && self.i < self.a.width && self.i < self.p.width && self.j == 0
            }
            PRODUCT => beyond_opening && self.is_pair(u32::from(self.i), u32::from(self.j)),
            _ => false,
        }
    }

    /// "In phase 0, i is a-1"; "for extremes i counts within A; j is 0 but
    /// for products".
    fn extreme_place_fits(&self) -> bool {
        let in_a = self.i < self.a.width && self.j == 0;
        match self.phase {
            OPENING => in_a && self.i == self.a.width - 1,
            TRIAL | AFTER => in_a,
            _ => false,
        }
    }

    /// Whether a product has the pair of places i and j: i below a, j below b
    /// and i+j below p.
    fn is_pair(&self, i: u32, j: u32) -> bool {
        i < u32::from(self.a.width)
            && j < u32::from(self.b.width)
            && i + j < u32::from(self.p.width)
    }

    /// The record with its unused fields 0.
    fn with_unused_zero(&self) -> Job {
        let mut job = *self;
        match self.kind {
            GREATEST | SMALLEST => {
                job.b = NO_SPAN;
                job.p = NO_SPAN;
                job.c = 0;
            }
            SCALED => {
                job.x = 0;
                job.b = NO_SPAN;
            }
            PRODUCT => {
                job.x = 0;
                job.c = 0;
            }
            _ => {}
        }
        job
    }

    /// The record at the job's first place: "phase 0 is for extremes only, the
    /// others begin at phase 1 with i and j 0".
    fn at_first_place(&self) -> Job {
        let mut job = *self;
        job.phase = if self.is_extreme() { OPENING } else { TRIAL };
        job.i = if self.is_extreme() {
            self.a.width.saturating_sub(1)
        } else {
            0
        };
        job.j = 0;
        job
    }

    /// All that 20 to 25 judge of a job after its start: its used fields, then 25,
    /// "unknown kind or place, unused field not 0".
    pub fn check(&self, width: u8) -> Result<(), Refusal> {
        self.check_used(width)?;
        if !self.place_fits() || *self != self.with_unused_zero() {
            return refused(25);
        }
        Ok(())
    }

    pub fn is_sound(&self, width: u8) -> bool {
        self.check(width).is_ok()
    }

    /// A's or B's or P's bit number `place` within the word.
    fn mark(span: Span, place: u8) -> u64 {
        one_at(u32::from(span.low) + u32::from(place))
    }

    /// The command of the place the job stands at: the line and the registers;
    /// "registers not mentioned are 0".
    fn command(&self) -> (Lines, Panel) {
        let search = Lines {
            search: true,
            ..Lines::default()
        };
        let multiadd = Lines {
            multiadd: true,
            ..Lines::default()
        };
        match (self.is_extreme(), self.phase) {
            (true, OPENING) => (search, self.opening()),
            (true, TRIAL) => (search, self.extreme_trial()),
            (true, _) => (search, self.narrowing()),
            (false, TRIAL) => (search, self.adding_trial()),
            (false, _) => (multiadd, self.sum()),
        }
    }

    /// "Search, all don't care, under the criterion, target X".
    fn opening(&self) -> Panel {
        Panel {
            key: self.key,
            care: self.care,
            target: 1 << self.x,
            ..Panel::default()
        }
    }

    /// "Search that bit exact 1 under X=1, target Y"; for the smallest "the
    /// same with exact 0".
    fn extreme_trial(&self) -> Panel {
        let place = Job::mark(self.a, self.i);
        Panel {
            comp: if self.kind == GREATEST { place } else { 0 },
            sc2: place,
            key: 1 << self.x,
            care: 1 << self.x,
            target: 1 << self.y,
            ..Panel::default()
        }
    }

    /// "Search all don't care under Y=1, target X".
    fn narrowing(&self) -> Panel {
        Panel {
            key: 1 << self.y,
            care: 1 << self.y,
            target: 1 << self.x,
            ..Panel::default()
        }
    }

    /// "Search A's bit i (and B's bit j) exact 1 under the criterion, target
    /// Y".
    fn adding_trial(&self) -> Panel {
        let mut places = Job::mark(self.a, self.i);
        if self.kind == PRODUCT {
            places |= Job::mark(self.b, self.j);
        }
        Panel {
            comp: places,
            sc2: places,
            key: self.key,
            care: self.care,
            target: 1 << self.y,
            ..Panel::default()
        }
    }

    /// "Multiadd c·2^i mod 2^p into P under Y=1", or 2^(i+j) for a product.
    /// "Adds set MOR to P's bits and SDR to P's top bit."
    fn sum(&self) -> Panel {
        let addend = if self.kind == SCALED {
            let whole = u128::from(self.c) * (1u128 << self.i);
            (whole % (1u128 << self.p.width)) as u64
        } else {
            one_at(u32::from(self.i) + u32::from(self.j))
        };
        Panel {
            comp: addend << self.p.low,
            sdr: Job::mark(self.p, self.p.width - 1),
            mor: self.p.syllable().bits(),
            key: 1 << self.y,
            care: 1 << self.y,
            ..Panel::default()
        }
    }

    /// The job after the pulse of its place, or nothing if that was its last.
    /// The pulse after an extreme's trial is given only "if any matched".
    fn advanced(&self, count: usize) -> Option<Job> {
        let mut next = *self;
        match self.phase {
            OPENING => {
                next.phase = TRIAL;
                Some(next)
            }
            TRIAL if !self.is_extreme() || count > 0 => {
                next.phase = AFTER;
                Some(next)
            }
            _ => self.next_place(),
        }
    }

    /// The trial search of the next place of the table.
    fn next_place(&self) -> Option<Job> {
        let mut next = *self;
        next.phase = TRIAL;
        match self.kind {
            SCALED => next.i += 1,
            PRODUCT if self.is_pair(u32::from(self.i), u32::from(self.j) + 1) => next.j += 1,
            PRODUCT => {
                next.i += 1;
                next.j = 0;
            }
            // An extreme goes from the top down and ends after place 0.
            _ if self.i == 0 => return None,
            _ => next.i -= 1,
        }
        Some(next).filter(Job::place_fits)
    }

    /// An extreme's pulses: "1+a plus, if any word is selected, the number of
    /// ones in the greatest syllable (of zeros in the smallest)".
    fn extreme_total(&self, machine: &Machine) -> u64 {
        let a = u32::from(self.a.width);
        let selected = machine
            .words
            .iter()
            .zip(&machine.responses)
            .filter(|(_, response)| is_selected(**response, self.key, self.care));
        let values = selected.map(|(word, _)| self.a.syllable().number(*word));
        let marks = if self.kind == GREATEST {
            values.max()
        } else {
            values.min().map(|least| ones(a) & !least)
        };
        let found = (0..a).filter(|place| bit(marks.unwrap_or(0), *place) == 1);
        1 + u64::from(a) + found.count() as u64
    }

    /// A product's pulses: "twice the number of pairs with i+j below p".
    fn product_total(&self) -> u64 {
        let mut pairs = 0;
        for i in 0..u32::from(self.a.width) {
            for j in 0..u32::from(self.b.width) {
                pairs += u64::from(self.is_pair(i, j));
            }
        }
        2 * pairs
    }
}

/// Starts a job: "sets its first place, and its unused fields to 0". Checked
/// for 1 to 3 and 20 to 25. It "judges the job offered", of which it looks at the
/// used fields alone, and then 25: "start while one is held".
pub fn start(machine: &Machine, held: &mut Option<Job>, wish: &Job) -> Result<(), Refusal> {
    machine.check()?;
    wish.check_used(machine.width)?;
    if held.is_some() {
        return refused(25);
    }
    *held = Some(wish.with_unused_zero().at_first_place());
    Ok(())
}

/// The held job, if it is one a step may take. 25: "step while none is".
fn held_job(machine: &Machine, held: &Option<Job>) -> Result<Job, Refusal> {
    machine.check()?;
    match held {
        Some(job) => job.check(machine.width).map(|()| *job),
        None => refused(25),
    }
}

/// One job step: the command of the job's place, given as a pulse. "A job that
/// has given its last pulse is no longer held."
pub fn step(machine: &mut Machine, held: &mut Option<Job>) -> Result<Step, Refusal> {
    let job = held_job(machine, held)?;
    let (lines, command) = job.command();
    let answer = apply(&WIDE, machine, &command, lines);
    *held = job.advanced(answer.count);
    Ok(Step {
        lines,
        command,
        count: answer.count,
        held: held.is_some(),
    })
}

/// The pulses of a job that stands at its first place, without running it; at
/// another place 25.
pub fn total(machine: &Machine, held: &Option<Job>) -> Result<u64, Refusal> {
    let job = held_job(machine, held)?;
    if job != job.at_first_place() {
        return refused(25);
    }
    Ok(match job.kind {
        SCALED => 2 * u64::from(job.a.width.min(job.p.width)),
        PRODUCT => job.product_total(),
        _ => job.extreme_total(machine),
    })
}
