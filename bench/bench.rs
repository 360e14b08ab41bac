// The benchmark: whole calls of both proved machines beside loops a programmer would write by hand, over the same
// words. Everything is compared as a ratio within one run; nothing here is asserted about time.
// Usage: bench (the tables), bench agree (only that all variants give the same, on random panels), bench names (of the
// variants), bench count NAME WIDTH CALLS [least] (that many calls and nothing else, for an instruction counter, with
// `least` on the panel of that column).
mod data;
mod hand;
mod opaque;
mod proved;
#[cfg(sqlite)]
mod sqlite;

use data::{any_panel, any_words, least_panel, most_panel, panel, words, Panel, Random, Select, N};
use opaque::black_box;
use std::env;
use std::time::Instant;

type Call = fn(&Panel, &mut [u64], &mut [u8]) -> u64;

// Those of a group give the same.
const GROUPS: [&[(&str, Call)]; 5] = [
    &[
        ("wide search", proved::wide_search),
        ("hand search, plain", hand::search),
        ("hand search, one comparison", hand::sharp_search),
        ("hand search, blocked", hand::blocked_search),
        ("hand search, branching", hand::branching_search),
        ("hand search, one comparison, branching", hand::sharp_branching_search),
        ("hand search, per syllable", hand::syllable_search),
        ("cells search", proved::cells_search),
    ],
    &[
        ("wide multiadd", proved::wide_multiadd),
        ("hand multiadd", hand::multiadd),
        ("hand multiadd, branching", hand::branching_multiadd),
        ("cells multiadd", proved::cells_multiadd),
    ],
    &[
        ("wide multiwrite", proved::wide_multiwrite),
        ("hand multiwrite", hand::multiwrite),
        ("hand multiwrite, branching", hand::branching_multiwrite),
    ],
    &[
        ("wide multiwrite+multiadd", proved::wide_both),
        ("hand multiwrite+multiadd", hand::multiwrite_multiadd),
        ("cells multiwrite+multiadd", proved::cells_both),
    ],
    &[("wide search+multiadd", proved::wide_pair), ("hand search+multiadd", hand::search_multiadd)],
];

fn variants() -> Vec<(&'static str, Call)> {
    let mut all = GROUPS.concat();
    all.push(("touch", hand::touch));
    all
}

// ---- agreement

// Holds each call of a group against the first; how many were held.
fn hold(p: &Panel, w: &[u64], r: &[u8]) -> usize {
    let mut held = 0;
    for group in GROUPS {
        let run = |call: Call| {
            let (mut w, mut r) = (w.to_vec(), r.to_vec());
            (call(p, &mut w, &mut r), w, r)
        };
        let first = run(group[0].1);
        for (name, call) in &group[1..] {
            assert!(run(*call) == first, "{name} differs from {} on {p:?}", group[0].0);
            held += 1;
        }
    }
    held
}

const PANELS: u64 = 2000;

// A third of the panels has 64 bits, a third 60, the rest any width.
fn agree(random: &mut Random) -> usize {
    let mut held = 0;
    for round in 0..PANELS {
        let width = match round % 3 {
            0 => 64,
            1 => 60,
            _ => 1 + (random.next() % 64) as u32,
        };
        let p = any_panel(random, width);
        let (w, r) = any_words(random, &p);
        held += hold(&p, &w, &r);
    }
    held
}

// ---- times

const SETS: usize = 4;
const ROUNDS: usize = 201;

// A quarter of the rounds took less.
fn quartile(mut times: Vec<f64>) -> f64 {
    times.sort_by(|a, b| a.partial_cmp(b).unwrap());
    times[times.len() / 4]
}

// One column: a panel, words in four sets, and the times of a call of each variant and, last, of the record filter.
struct Column {
    heading: String,
    panel: Panel,
    sets: Vec<(Vec<u64>, Vec<u8>)>,
    filter: Box<dyn FnMut(&Panel, usize) -> u64>,
    times: Vec<Vec<f64>>,
}

fn column<const K: usize>(p: Panel, random: &mut Random, select: Select, heading: &str) -> Column {
    let sets: Vec<(Vec<u64>, Vec<u8>)> = (0..SETS).map(|_| words(random, &p, select)).collect();
    let mut rows: Vec<_> = sets.iter().map(|(w, r)| hand::records::<K>(&p, w, r)).collect();
    let codes = hand::codes::<K>(&p);
    // the words of the tables are held too: a call that is turned down would be quick
    for ((w, r), rows) in sets.iter().zip(rows.iter_mut()) {
        hold(&p, w, r);
        let (mut w, mut r) = (w.clone(), r.clone());
        assert!(hand::record_search(&p, &codes, rows) == proved::wide_search(&p, &mut w, &mut r));
        assert!(rows.iter().zip(&r).all(|(x, r)| x.response == *r));
    }
    Column {
        heading: heading.to_string(),
        panel: p,
        sets,
        filter: Box::new(move |p, set| hand::record_search(p, &codes, &mut rows[set])),
        times: vec![Vec::new(); variants().len() + 1],
    }
}

// Every variant once, 40 calls in one time; those cell by cell, one.
fn measure(c: &mut Column, round: usize) {
    let variants = variants();
    let set = round % SETS;
    let (mut w, mut r) = c.sets[set].clone();
    for i in 0..=variants.len() {
        let v = (i + round) % (variants.len() + 1);
        // what the variants before changed is set back, outside the time
        w.copy_from_slice(&c.sets[set].0);
        r.copy_from_slice(&c.sets[set].1);
        let slow = v < variants.len() && variants[v].0.starts_with("cells");
        let calls = if slow { 1 } else { 40 };
        let start = Instant::now();
        for _ in 0..calls {
            if v < variants.len() {
                black_box(variants[v].1(black_box(&c.panel), &mut w, &mut r));
            } else {
                black_box((c.filter)(black_box(&c.panel), set));
            }
        }
        c.times[v].push(start.elapsed().as_nanos() as f64 / calls as f64);
    }
}

// ---- tables

const RATIOS: [(&str, &str); 18] = [
    ("wide search", "hand search, plain"),
    ("wide search", "hand search, one comparison"),
    ("wide search", "hand search, blocked"),
    ("wide search", "hand search, branching"),
    ("wide search", "hand search, one comparison, branching"),
    ("wide search", "hand search, per syllable"),
    ("wide search", "record filter"),
    ("wide search", "touch"),
    ("cells search", "wide search"),
    ("cells multiadd", "wide multiadd"),
    ("wide multiadd", "hand multiadd"),
    ("wide multiadd", "hand multiadd, branching"),
    ("wide multiwrite", "hand multiwrite"),
    ("wide multiwrite", "hand multiwrite, branching"),
    ("wide multiwrite+multiadd", "hand multiwrite+multiadd"),
    ("wide search+multiadd", "hand search+multiadd"),
    ("wide search+multiadd", "hand search, plain"),
    ("wide search+multiadd", "hand search, branching"),
];

// The first five columns by number of syllables, the next three by selection with 8 syllables, the last two with SC3.
fn columns<const TOP: usize>(random: &mut Random, width: u32) -> [Column; 10] {
    [
        column::<1>(panel(random, width, 1), random, Select::Most, "1"),
        column::<4>(panel(random, width, 4), random, Select::Most, "4"),
        column::<8>(panel(random, width, 8), random, Select::Most, "8"),
        column::<16>(panel(random, width, 16), random, Select::Most, "16"),
        column::<TOP>(panel(random, width, TOP as u32), random, Select::Most, &TOP.to_string()),
        column::<8>(panel(random, width, 8), random, Select::All, "all"),
        column::<8>(panel(random, width, 8), random, Select::Runs, "runs"),
        column::<8>(panel(random, width, 8), random, Select::Few, "few"),
        column::<8>(least_panel(random, width, 8), random, Select::Most, "least"),
        column::<1>(most_panel(random, width), random, Select::Most, "most"),
    ]
}

fn line(name: &str, columns: &[Column; 10], value: impl Fn(&Column) -> String) {
    let values: String = columns.iter().map(|c| format!("{:>8}", value(c))).collect();
    println!("{name:54}{values}");
}

fn print(columns: &[Column; 10]) {
    line(&format!("N = {}", columns[0].panel.width), columns, |c| c.heading.clone());
    for name in names() {
        line(name, columns, |c| format!("{:.0}", time(c, name)));
    }
    println!("ratios:");
    for (a, b) in RATIOS {
        line(&format!("{a} / {b}"), columns, |c| format!("{:.2}", time(c, a) / time(c, b)));
    }
}

fn names() -> Vec<&'static str> {
    variants().iter().map(|v| v.0).chain(["record filter"]).collect()
}

fn time(c: &Column, name: &str) -> f64 {
    quartile(c.times[names().iter().position(|x| *x == name).unwrap()].clone())
}

// All columns are measured in turn, so that each has its share of every moment of the run.
fn tables(random: &mut Random) {
    let mut tables = [columns::<64>(random, 64), columns::<60>(random, 60)];
    for round in 0..ROUNDS {
        for c in tables.iter_mut().flatten() {
            measure(c, round);
        }
    }
    println!("n = {N}, nanoseconds of a whole call, lower quartiles of {ROUNDS} rounds, by number of syllables, most words");
    println!("selected, at random; with 8 syllables, all words selected, half of them in runs, few in one run; and, again with most");
    println!("selected, 8 syllables with SC3 set wherever they compare (least), and one that asks for at most (most):");
    for t in &tables {
        print(t);
    }
    #[cfg(sqlite)]
    sqlite::run(random, time(&tables[0][1], "wide search"));
}

fn main() {
    let args: Vec<String> = env::args().skip(1).collect();
    let args: Vec<&str> = args.iter().map(|s| s.as_str()).collect();
    let mut random = Random(0x9E3779B97F4A7C15);
    match args[..] {
        [] => {
            agree(&mut random);
            println!("All variants agree on {PANELS} random panels.");
            tables(&mut random);
        }
        ["agree"] => println!("{} passed, 0 failed", agree(&mut random)),
        ["names"] => variants().iter().for_each(|v| println!("{}", v.0)),
        ["count", name, width, calls] | ["count", name, width, calls, "least"] => {
            let make = if args.len() == 5 { least_panel } else { panel };
            let p = make(&mut random, width.parse().unwrap(), 8);
            let (mut w, mut r) = words(&mut random, &p, Select::Most);
            let call = variants().iter().find(|v| v.0 == name).unwrap().1;
            for _ in 0..calls.parse().unwrap() {
                black_box(call(black_box(&p), &mut w, &mut r));
            }
        }
        _ => {
            eprintln!("usage: bench, bench agree, bench names, bench count NAME WIDTH CALLS [least]");
            std::process::exit(2);
        }
    }
}
