// The array of three-state cells: both proved machines, called with numbers and lent buffers, held against loops written by hand,
// and the time of whole calls. `array agree` does only the first.
mod opaque;

use opaque::black_box;
use std::time::Instant;

type Operate = unsafe extern "C" fn(
    ones: *mut u64, n: usize, xs: *mut u64, m: usize, selectors: *mut u8, k: usize, registers: *mut u64, r: usize, width: u32,
    code: u32, answer: *mut u64, room: usize,
) -> u32;

extern "C" {
    fn dushvaneth_array_wide(
        ones: *mut u64, n: usize, xs: *mut u64, m: usize, selectors: *mut u8, k: usize, registers: *mut u64, r: usize,
        width: u32, code: u32, answer: *mut u64, room: usize,
    ) -> u32;
    fn dushvaneth_array_cells(
        ones: *mut u64, n: usize, xs: *mut u64, m: usize, selectors: *mut u8, k: usize, registers: *mut u64, r: usize,
        width: u32, code: u32, answer: *mut u64, room: usize,
    ) -> u32;
}

#[derive(Clone, Debug, PartialEq)]
struct Array {
    width: u32,
    ones: Vec<u64>,
    xs: Vec<u64>,
    selectors: Vec<u8>,
    registers: Vec<u64>,
}

type Call = fn(&mut Array, u32) -> u64;

// The count, or a refusal's number above it.
fn called(operate: Operate, a: &mut Array, code: u32) -> u64 {
    let mut answer = [0; 6];
    let number = unsafe {
        operate(
            a.ones.as_mut_ptr(), a.ones.len(), a.xs.as_mut_ptr(), a.xs.len(), a.selectors.as_mut_ptr(),
            a.selectors.len(), a.registers.as_mut_ptr(), a.registers.len(), a.width, code, answer.as_mut_ptr(), answer.len(),
        )
    };
    number as u64 * REFUSED + answer[5]
}

fn wide(a: &mut Array, code: u32) -> u64 {
    called(dushvaneth_array_wide, a, code)
}

fn cells(a: &mut Array, code: u32) -> u64 {
    called(dushvaneth_array_cells, a, code)
}

// ---- by hand, with whole words

const REFUSED: u64 = 1 << 32;

// Digit k of a code to the base 4.
fn digit(code: u32, k: u32) -> u32 {
    code >> (2 * k) & 3
}

// How many names the choices of a search, a read and a write have, in order.
const NAMES: [&[u32]; 3] = [&[2, 3, 2, 2, 3], &[3, 2, 3, 3], &[2, 2, 3, 3, 2]];

// Each digit has a name, and there is none above the last.
fn is_code(code: u32) -> bool {
    NAMES.get(digit(code, 0) as usize).map_or(false, |names| {
        names.iter().zip(1..).all(|(n, k)| digit(code, k) < *n) && code >> (2 * names.len() + 2) == 0
    })
}

fn all_ones(width: u32) -> u64 {
    u64::MAX >> (64 - width)
}

// 0 where nothing is wrong.
fn refusal(a: &Array) -> u64 {
    let n = a.ones.len();
    if a.registers.len() != 3 || n == 0 || n > 1024 || a.xs.len() != n || a.selectors.len() != n {
        return 1;
    }
    if a.width == 0 || a.width > 64 {
        return 2;
    }
    let outside = !all_ones(a.width);
    if a.ones.iter().chain(&a.xs).any(|x| x & outside != 0) {
        return 3;
    }
    if a.ones.iter().zip(&a.xs).any(|(o, x)| o & x != 0) {
        return 12;
    }
    if a.registers.iter().any(|r| r & outside != 0) {
        return 4;
    }
    0
}

fn mask_of(a: &Array, choice: u32) -> u64 {
    [a.registers[2], all_ones(a.width), 0][choice as usize]
}

fn selected(choice: u32, complement: u32, byte: u8) -> bool {
    let latch = match choice {
        0 => byte & 1 != 0,
        1 => byte & 2 != 0,
        _ => false,
    };
    latch != (complement == 1)
}

fn hand_search(a: &mut Array, code: u32) -> u64 {
    let data = a.registers[digit(code, 1) as usize];
    let mask = mask_of(a, digit(code, 2));
    let latch = 1u8 << digit(code, 4);
    let mut count = 0;
    for k in 0..a.ones.len() {
        let agree = (a.ones[k] ^ data) & mask & !a.xs[k] == 0;
        count += agree as u64;
        let new = if agree == (digit(code, 3) == 0) { latch } else { 0 };
        let byte = a.selectors[k];
        let old = byte & latch;
        let put = match digit(code, 5) {
            0 => new,
            1 => old & new,
            _ => old | new,
        };
        a.selectors[k] = byte & !latch | put;
    }
    count
}

fn hand_read(a: &mut Array, code: u32) -> u64 {
    let (mut bus, mut count) = (0, 0);
    for k in 0..a.ones.len() {
        if selected(digit(code, 1), digit(code, 2), a.selectors[k]) {
            bus |= a.ones[k];
            count += 1;
        }
    }
    let mask = mask_of(a, digit(code, 4));
    let sink = &mut a.registers[digit(code, 3) as usize];
    *sink = *sink & !mask | bus & mask;
    count
}

fn hand_write(a: &mut Array, code: u32) -> u64 {
    let data = a.registers[digit(code, 2) as usize];
    let mask = mask_of(a, digit(code, 3));
    let special = digit(code, 1) == 1;
    let (ones, xs) = if special { (0, mask) } else { (data & mask, 0) };
    let mut count = 0;
    for k in 0..a.ones.len() {
        if selected(digit(code, 4), digit(code, 5), a.selectors[k]) {
            a.ones[k] = a.ones[k] & !mask | ones;
            a.xs[k] = a.xs[k] & !mask | xs;
            count += 1;
        }
    }
    count
}

fn hand(a: &mut Array, code: u32) -> u64 {
    match refusal(a) {
        0 if !is_code(code) => 6 * REFUSED,
        0 => match digit(code, 0) {
            0 => hand_search(a, code),
            1 => hand_read(a, code),
            _ => hand_write(a, code),
        },
        number => number * REFUSED,
    }
}

const CALLS: [(&str, Call); 3] = [("wide", wide), ("hand", hand), ("cells", cells)];

// ---- agreement

struct Random(u64);

impl Random {
    fn next(&mut self) -> u64 {
        self.0 ^= self.0 << 13;
        self.0 ^= self.0 >> 7;
        self.0 ^= self.0 << 17;
        self.0.wrapping_mul(0x2545F4914F6CDD1D)
    }

    fn below(&mut self, n: u64) -> u64 {
        self.next() % n
    }
}

// Words near the data, so that some agree; X's in a third of the cells.
fn array(random: &mut Random, width: u32, n: usize) -> Array {
    let bits = all_ones(width);
    let registers: Vec<u64> = (0..3).map(|_| random.next() & bits).collect();
    let (mut ones, mut xs, mut selectors) = (Vec::new(), Vec::new(), Vec::new());
    for _ in 0..n {
        let x = random.next() & random.next() & bits;
        let noise = [0, random.next() & random.next() & random.next(), random.next()][random.below(3) as usize];
        ones.push((registers[0] ^ noise) & bits & !x);
        xs.push(x);
        selectors.push(random.next() as u8);
    }
    Array { width, ones, xs, selectors, registers }
}

// One thing wrong, or none.
fn spoil(random: &mut Random, a: &mut Array) {
    let k = random.below(a.ones.len() as u64) as usize;
    let i = random.below(64);
    match random.below(24) {
        0 => a.width = [0, 65, 255][random.below(3) as usize],
        1 => a.ones[k] |= 1 << i,
        2 => a.xs[k] |= 1 << i,
        3 => a.registers[random.below(3) as usize] |= 1 << i,
        4 => drop(a.xs.pop()),
        5 => a.selectors.push(0),
        6 => drop(a.registers.pop()),
        _ => {}
    }
}

// The code of an operation, now and then with one bit wrong.
fn code(random: &mut Random) -> u32 {
    let which = random.below(3);
    let digits = NAMES[which as usize].iter().rev().fold(0, |above, n| above * 4 + random.below(*n as u64));
    let wrong = if random.below(12) == 0 { 1 << random.below(32) } else { 0 };
    (digits * 4 + which) as u32 ^ wrong
}

const ROUNDS: usize = 20_000;

// How many outcomes were held against the first machine's, and how many of these were refusals.
fn agree(random: &mut Random) -> (usize, usize) {
    let (mut held, mut refused) = (0, 0);
    for round in 0..ROUNDS {
        let width = if round % 4 == 0 { 64 } else { 1 + random.below(64) as u32 };
        let n = if round % 500 == 0 { 1024 } else { 1 + random.below(12) as usize };
        let mut a = array(random, width, n);
        spoil(random, &mut a);
        let code = code(random);
        let run = |call: Call| {
            let mut b = a.clone();
            (call(&mut b, code), b)
        };
        let first = run(wide);
        assert!(first.0 < REFUSED || first.1 == a, "a refusal changed what was lent: {a:?}");
        refused += (first.0 >= REFUSED) as usize;
        for (name, call) in &CALLS[1..] {
            assert!(run(*call) == first, "{name} differs on code {code:x} of {a:?}");
            held += 1;
        }
    }
    (held, refused)
}

// ---- times

const OPERATIONS: [(&str, u32); 4] = [
    // R1, M, those that agree, P replaced
    ("search", 0),
    // R1, M, those that agree, S ANDed
    ("search, and", 4 << 6 | 4 << 8),
    // P, true, into R2, under all ones
    ("read", 1 | 1 << 6 | 1 << 8),
    // normal, R1, M, P, true
    ("write", 2),
];

// Nanoseconds of a whole call: a quarter of the rounds took less. Variants take turns.
fn times(random: &mut Random, code: u32) -> [f64; 3] {
    let mut a = array(random, 64, 1024);
    let mut all = [Vec::new(), Vec::new(), Vec::new()];
    for round in 0..201 {
        for i in 0..3 {
            let v = (i + round) % 3;
            let calls = if v == 2 { 1 } else { 40 };
            let start = Instant::now();
            for _ in 0..calls {
                black_box(CALLS[v].1(black_box(&mut a), black_box(code)));
            }
            all[v].push(start.elapsed().as_nanos() as f64 / calls as f64);
        }
    }
    all.map(|mut t| {
        t.sort_by(|x, y| x.partial_cmp(y).unwrap());
        t[t.len() / 4]
    })
}

fn main() {
    let mut random = Random(0x9E3779B97F4A7C15);
    let (held, refused) = agree(&mut random);
    if std::env::args().nth(1).as_deref() == Some("agree") {
        println!("array: both machines agree with the loops written by hand; {refused} of {ROUNDS} operations refused");
        println!("{held} passed, 0 failed");
        return;
    }
    println!("{:<20}{:>8}{:>8}{:>10}{:>12}", "1,024 words, N = 64", "wide", "hand", "cells", "wide / hand");
    for (name, code) in OPERATIONS {
        let [w, h, c] = times(&mut random, code);
        println!("{name:<20}{w:>8.0}{h:>8.0}{c:>10.0}{:>12.2}", w / h);
    }
}
