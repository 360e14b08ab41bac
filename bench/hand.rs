// Loops written by hand, for words and panels known to be sound: no checks. Only the top of the top syllable depends on
// the width; sums and comparisons of sound words stay below it.
use crate::data::{ones, Panel};

// The top bit of each syllable.
fn tops(p: &Panel) -> u64 {
    p.sdr | 1 << (p.width - 1)
}

#[inline(always)]
fn selected(p: &Panel, r: u8) -> bool {
    r & p.care == p.key & p.care
}

// ---- whether a word satisfies the panel, in two ways

// At least is not smaller, at most is not larger: under SC3 the two codes are swapped and the contrary is wanted at the
// syllable's top, which is worked out once, before the loop.

// A one at the top of each syllable that is not 0.
fn filled(t: u64, q: u64) -> u64 {
    (q | (q & !t).wrapping_add(!t)) & t
}

// Exact bits and comparisons apart, as one would write it down.
struct Plain {
    t: u64,
    care: u64,
    comp: u64,
    exact: u64,
    smaller: u64,
    compare: u64,
    want: u64,
}

fn plain(p: &Panel) -> Plain {
    let (t, care) = (tops(p), p.sc1 | p.sc2);
    let compare = filled(t, p.sc1);
    Plain {
        t,
        care,
        comp: p.comp & care,
        exact: p.sc2 & !p.sc1,
        smaller: p.sc1 & (p.sc2 ^ p.sc3),
        compare,
        want: compare ^ filled(t, p.sc3),
    }
}

// A one at the top of each syllable where q is larger than p.
#[inline(always)]
fn above(t: u64, q: u64, p: u64) -> u64 {
    ((q & !p) | ((q | !p) & (q & !t).wrapping_add(!p & !t))) & t
}

#[inline(always)]
fn exact(m: &Plain, w: u64) -> bool {
    (w & m.care ^ m.comp) & m.exact == 0
}

// Word and COMP change sides where smaller is asked for.
#[inline(always)]
fn compared(m: &Plain, w: u64) -> bool {
    let e = (w & m.care ^ m.comp) & m.smaller;
    above(m.t, w & m.care ^ e, m.comp ^ e) & m.compare == m.want
}

// All three codes as one comparison, worked out once: the cared bits of a word, turned by `flip`, are held against
// `limit` by the carry out of each syllable; `need` are the tops of the syllables that ask for anything. There the carry
// out is the limit's bit, flipped where the word's bit and the carry in both differ from it; `want` says where they are to.
struct Masks {
    t: u64,
    care: u64,
    flip: u64,
    limit: u64,
    need: u64,
    want: u64,
}

fn masks(p: &Panel) -> Masks {
    let t = tops(p);
    let (smaller, care) = (p.sc1 & (p.sc2 ^ p.sc3), p.sc1 | p.sc2);
    let (exact, larger) = (p.sc2 & !p.sc1, p.sc1 & !smaller);
    // exact less one in each syllable: only its lowest cared bit is left after the AND with the complement
    let less = (exact & !t).wrapping_add(!t) ^ ((exact ^ u64::MAX) & t);
    let lowest = exact & !less;
    let limit = lowest ^ ((p.comp & p.sc1) ^ larger);
    let need = filled(t, care);
    Masks {
        t,
        care,
        flip: !(larger ^ (p.comp & exact)),
        limit,
        need,
        want: (need & !limit) ^ filled(t, p.sc3),
    }
}

#[inline(always)]
fn satisfied(m: &Masks, w: u64) -> bool {
    let u = (w & m.care) ^ m.flip;
    let low = (m.limit & !m.t).wrapping_add(u & !m.t);
    (m.limit ^ u) & (m.limit ^ low) & m.need == m.want
}

pub fn satisfies(p: &Panel, w: u64) -> bool {
    satisfied(&masks(p), w)
}

// ---- search

// The plain loop: a constant number of operations for each word.
pub fn search(p: &Panel, w: &mut [u64], r: &mut [u8]) -> u64 {
    let m = plain(p);
    let mut count = 0;
    for (w, r) in w.iter().zip(r.iter_mut()) {
        let hit = exact(&m, *w) & compared(&m, *w) & selected(p, *r);
        *r = if hit { *r | p.target } else { *r & !p.target };
        count += hit as u64;
    }
    count
}

// The same loop with all three codes as one comparison.
pub fn sharp_search(p: &Panel, w: &mut [u64], r: &mut [u8]) -> u64 {
    let m = masks(p);
    let mut count = 0;
    for (w, r) in w.iter().zip(r.iter_mut()) {
        let hit = satisfied(&m, *w) & selected(p, *r);
        *r = if hit { *r | p.target } else { *r & !p.target };
        count += hit as u64;
    }
    count
}

// That in blocks of 64 words: flags first, then the response bytes.
pub fn blocked_search(p: &Panel, w: &mut [u64], r: &mut [u8]) -> u64 {
    let m = masks(p);
    let mut count = 0;
    let mut flags = [0u8; 64];
    for (ws, rs) in w.chunks(64).zip(r.chunks_mut(64)) {
        for (f, w) in flags.iter_mut().zip(ws) {
            *f = satisfied(&m, *w) as u8;
        }
        let mut some = 0u8;
        for (f, r) in flags.iter().zip(rs.iter_mut()) {
            let hit = (*f == 1) & selected(p, *r);
            *r = if hit { *r | p.target } else { *r & !p.target };
            some += hit as u8;
        }
        count += some as u64;
    }
    count
}

// The plain loop with branches: a word that is not selected is not read, and one whose exact bits differ is not
// compared. The compiler keeps the branches by itself, the tests being too long to be done in vain: the assembly has a
// jump for each `&&`.
pub fn branching_search(p: &Panel, w: &mut [u64], r: &mut [u8]) -> u64 {
    let m = plain(p);
    let mut count = 0;
    for (w, r) in w.iter().zip(r.iter_mut()) {
        if selected(p, *r) && exact(&m, *w) && compared(&m, *w) {
            *r |= p.target;
            count += 1;
        } else {
            *r &= !p.target;
        }
    }
    count
}

// The same with all three codes as one comparison.
pub fn sharp_branching_search(p: &Panel, w: &mut [u64], r: &mut [u8]) -> u64 {
    let m = masks(p);
    let mut count = 0;
    for (w, r) in w.iter().zip(r.iter_mut()) {
        if selected(p, *r) && satisfied(&m, *w) {
            *r |= p.target;
            count += 1;
        } else {
            *r &= !p.target;
        }
    }
    count
}

pub struct Syllable {
    pub low: u32,
    pub mask: u64,
    pub code: u8,
    pub comp: u64,
}

pub fn syllables(p: &Panel) -> Vec<Syllable> {
    let t = tops(p);
    let mut all = Vec::new();
    let mut low = 0;
    for top in 0..p.width {
        if t >> top & 1 == 1 {
            let mask = ones(top + 1 - low) & (p.sc1 | p.sc2) >> low;
            let (a, b) = (p.sc1 >> low & mask, p.sc2 >> low & mask);
            let code = if mask == 0 { 0 } else if a == 0 { 1 } else if b == 0 { 2 } else { 3 };
            let equal = if p.sc3 >> low & mask == 0 { 0 } else { 4 };
            all.push(Syllable { low, mask, code: code | equal, comp: p.comp >> low & mask });
            low = top + 1;
        }
    }
    all
}

#[inline(always)]
fn asks(code: u8, w: u64, c: u64) -> bool {
    match code {
        0 => true,
        1 => w == c,
        2 => w > c,
        3 => w < c,
        6 => w >= c,
        _ => w <= c,
    }
}

// Syllable by syllable.
pub fn syllable_search(p: &Panel, w: &mut [u64], r: &mut [u8]) -> u64 {
    let all = syllables(p);
    let mut count = 0;
    for (w, r) in w.iter().zip(r.iter_mut()) {
        let hit = selected(p, *r) && all.iter().all(|s| asks(s.code, *w >> s.low & s.mask, s.comp));
        *r = if hit { *r | p.target } else { *r & !p.target };
        count += hit as u64;
    }
    count
}

// An array of records, as an application would keep them, and a filter over it.
pub struct Record<const K: usize> {
    fields: [u64; K],
    pub response: u8,
}

pub fn records<const K: usize>(p: &Panel, w: &[u64], r: &[u8]) -> Vec<Record<K>> {
    let all = syllables(p);
    let fields = |w: u64| std::array::from_fn(|i| w >> all[i].low & all[i].mask);
    w.iter().zip(r).map(|(w, r)| Record { fields: fields(*w), response: *r }).collect()
}

// What is asked of each field.
pub fn codes<const K: usize>(p: &Panel) -> [(u8, u64); K] {
    let all = syllables(p);
    std::array::from_fn(|i| (all[i].code, all[i].comp))
}

pub fn record_search<const K: usize>(p: &Panel, codes: &[(u8, u64); K], all: &mut [Record<K>]) -> u64 {
    let mut count = 0;
    for x in all.iter_mut() {
        let mut hit = selected(p, x.response);
        for i in 0..K {
            hit = hit && asks(codes[i].0, x.fields[i], codes[i].1);
        }
        x.response = if hit { x.response | p.target } else { x.response & !p.target };
        count += hit as u64;
    }
    count
}

// Only touches the buffers.
pub fn touch(_: &Panel, w: &mut [u64], r: &mut [u8]) -> u64 {
    let mut all = 0u64;
    for w in w.iter() {
        all |= *w;
    }
    for r in r.iter_mut() {
        *r ^= 1;
    }
    all
}

// ---- multiadd, multiwrite, and multiadd with search

// What to add, with the tops of the syllables.
fn addend(p: &Panel) -> (u64, u64) {
    (tops(p), p.comp & p.mor)
}

#[inline(always)]
fn sum((t, a): (u64, u64), w: u64) -> u64 {
    (w & !t).wrapping_add(a & !t) ^ ((w ^ a) & t)
}

#[inline(always)]
fn written(p: &Panel, w: u64) -> u64 {
    w ^ ((w ^ p.comp) & p.mor)
}

fn count(p: &Panel, r: &[u8]) -> u64 {
    let mut count = 0;
    for b in r.chunks(64) {
        let mut some = 0u8;
        for r in b {
            some += selected(p, *r) as u8;
        }
        count += some as u64;
    }
    count
}

// Without a branch: the new word is worked out and a word stored in any case.
pub fn multiadd(p: &Panel, w: &mut [u64], r: &mut [u8]) -> u64 {
    let a = addend(p);
    for (w, r) in w.iter_mut().zip(r.iter()) {
        let new = sum(a, *w);
        *w = if selected(p, *r) { new } else { *w };
    }
    count(p, r)
}

pub fn multiwrite(p: &Panel, w: &mut [u64], r: &mut [u8]) -> u64 {
    for (w, r) in w.iter_mut().zip(r.iter()) {
        let new = written(p, *w);
        *w = if selected(p, *r) { new } else { *w };
    }
    count(p, r)
}

// A bit flips if the written word or the sum differs from the word there.
pub fn multiwrite_multiadd(p: &Panel, w: &mut [u64], r: &mut [u8]) -> u64 {
    let a = addend(p);
    for (w, r) in w.iter_mut().zip(r.iter()) {
        let new = *w ^ ((*w ^ written(p, *w)) | (*w ^ sum(a, *w)));
        *w = if selected(p, *r) { new } else { *w };
    }
    count(p, r)
}

// With a branch: a word that is not selected is neither read nor stored. The compiler keeps it by itself, because it
// must not store where the loop doesn't: the assembly has the jump.
pub fn branching_multiadd(p: &Panel, w: &mut [u64], r: &mut [u8]) -> u64 {
    let a = addend(p);
    let mut count = 0;
    for (w, r) in w.iter_mut().zip(r.iter()) {
        if selected(p, *r) {
            *w = sum(a, *w);
            count += 1;
        }
    }
    count
}

pub fn branching_multiwrite(p: &Panel, w: &mut [u64], r: &mut [u8]) -> u64 {
    let mut count = 0;
    for (w, r) in w.iter_mut().zip(r.iter()) {
        if selected(p, *r) {
            *w = written(p, *w);
            count += 1;
        }
    }
    count
}

pub fn search_multiadd(p: &Panel, w: &mut [u64], r: &mut [u8]) -> u64 {
    let (m, a) = (masks(p), addend(p));
    let mut count = 0;
    for (w, r) in w.iter_mut().zip(r.iter_mut()) {
        let chosen = selected(p, *r);
        let hit = satisfied(&m, *w) & chosen;
        let new = sum(a, *w);
        *w = if chosen { new } else { *w };
        *r = if hit { *r | p.target } else { *r & !p.target };
        count += hit as u64;
    }
    count
}
