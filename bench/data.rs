// The data: panels and words of any width, for the tables and for agreement.
use crate::hand;

#[derive(Clone, Copy, Debug)]
pub struct Panel {
    pub width: u32,
    pub comp: u64,
    pub sdr: u64,
    pub sc1: u64,
    pub sc2: u64,
    pub sc3: u64,
    pub mor: u64,
    pub key: u8,
    pub care: u8,
    pub target: u8,
}

// The bits of a word.
pub fn ones(width: u32) -> u64 {
    u64::MAX >> (64 - width)
}

pub struct Random(pub u64);

impl Random {
    pub fn next(&mut self) -> u64 {
        self.0 ^= self.0 << 13;
        self.0 ^= self.0 >> 7;
        self.0 ^= self.0 << 17;
        self.0.wrapping_mul(0x2545F4914F6CDD1D)
    }
}

// ---- for the tables

pub const N: usize = 1024;

// Which words are selected.
#[derive(Clone, Copy, PartialEq)]
pub enum Select {
    // 15 of 16, at random
    Most,
    // the rest for a branch prediction to learn: all
    All,
    // every other run of 128
    Runs,
    // one run of 64
    Few,
}

// k syllables, equal as far as the width allows, with the four codes in turn; SC3 is 0.
pub fn panel(random: &mut Random, width: u32, k: u32) -> Panel {
    let mut p = Panel {
        width,
        comp: random.next() & ones(width),
        sdr: 0,
        sc1: 0,
        sc2: 0,
        sc3: 0,
        mor: ones(width),
        key: 0x10,
        care: 0x10,
        target: 1,
    };
    for s in 0..k {
        let (low, next) = (s * width / k, (s + 1) * width / k);
        let mask = ones(next - low) << low;
        p.sdr |= 1 << (next - 1);
        let code = (s + 1) % 4;
        if code & 2 == 2 {
            p.sc1 |= mask;
        }
        if code & 1 == 1 {
            p.sc2 |= mask;
        }
    }
    p
}

// The same with SC3 over every comparing syllable, at least and at most in turn.
pub fn least_panel(random: &mut Random, width: u32, k: u32) -> Panel {
    let p = panel(random, width, k);
    Panel { sc3: p.sc1, ..p }
}

// One syllable, at most.
pub fn most_panel(random: &mut Random, width: u32) -> Panel {
    let all = ones(width);
    Panel { sc1: all, sc2: all, sc3: all, ..panel(random, width, 1) }
}

// Words of which half, at random, agree with COMP wherever it is to be met exactly. Where a branch prediction is to learn
// which are selected it is to learn the hits as well: those that agree come first, and of these those that are hits.
pub fn words(random: &mut Random, p: &Panel, select: Select) -> (Vec<u64>, Vec<u8>) {
    let exact = p.sc2 & !p.sc1;
    let mut w: Vec<u64> = (0..N)
        .map(|_| {
            let x = random.next() & ones(p.width);
            if random.next() % 2 == 0 { (x & !exact) | (p.comp & exact) } else { x }
        })
        .collect();
    if select != Select::Most {
        w.sort_by_key(|w| ((w ^ p.comp) & exact != 0, !hand::satisfies(p, *w)));
    }
    let r = (0..N)
        .map(|i| {
            let x = random.next() as u8;
            let selected = match select {
                Select::Most => x & 0x10 > 0 || random.next() % 8 > 0,
                Select::All => true,
                Select::Runs => i / 128 % 2 == 0,
                Select::Few => i / 64 == 7,
            };
            if selected { x | 0x10 } else { x & !0x10 }
        })
        .collect();
    (w, r)
}

// ---- for agreement

// A panel of any syllables, any bits cared for, with one code in each syllable and, where it compares, one setting of SC3.
pub fn any_panel(random: &mut Random, width: u32) -> Panel {
    let mut p = Panel {
        width,
        comp: random.next() & ones(width),
        sdr: random.next() & random.next() & random.next() & ones(width),
        sc1: 0,
        sc2: 0,
        sc3: 0,
        mor: random.next() & ones(width),
        key: random.next() as u8,
        care: random.next() as u8 & 3,
        target: random.next() as u8,
    };
    let care = random.next() | random.next();
    let mut code = random.next();
    for i in 0..width {
        if care >> i & 1 == 1 {
            p.sc1 |= (code >> 1 & 1) << i;
            p.sc2 |= (code & 1) << i;
            p.sc3 |= (code >> 1 & code >> 2 & 1) << i;
        }
        if p.sdr >> i & 1 == 1 {
            code = random.next();
        }
    }
    p
}

// Up to 130 words, most of them COMP or one bit away from it, with any responses.
pub fn any_words(random: &mut Random, p: &Panel) -> (Vec<u64>, Vec<u8>) {
    let n = 1 + random.next() % 130;
    let w = (0..n)
        .map(|_| match random.next() % 16 {
            0 => ones(p.width),
            1..=3 => random.next() & ones(p.width),
            4..=7 => p.comp,
            _ => p.comp ^ (1 << (random.next() % p.width as u64)),
        })
        .collect();
    let r = (0..n).map(|_| random.next() as u8).collect();
    (w, r)
}
