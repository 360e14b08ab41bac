// The same 1,024 rows in SQLite, in memory: a prepared SELECT count(*) and a marking UPDATE, for 4 syllables.
use crate::data::{panel, words, Random, Select};
use crate::{hand, quartile, ROUNDS};
use std::ffi::CString;
use std::os::raw::{c_char, c_int, c_void};
use std::ptr::null_mut;
use std::time::Instant;

extern "C" {
    fn sqlite3_open(name: *const c_char, db: *mut *mut c_void) -> c_int;
    fn sqlite3_exec(db: *mut c_void, sql: *const c_char, f: *const c_void, x: *mut c_void, e: *mut *mut c_char) -> c_int;
    fn sqlite3_prepare_v2(db: *mut c_void, sql: *const c_char, n: c_int, s: *mut *mut c_void, t: *mut *const c_char) -> c_int;
    fn sqlite3_step(s: *mut c_void) -> c_int;
    fn sqlite3_reset(s: *mut c_void) -> c_int;
    fn sqlite3_column_int64(s: *mut c_void, i: c_int) -> i64;
}

fn exec(db: *mut c_void, sql: &str) {
    let sql = CString::new(sql).unwrap();
    assert!(unsafe { sqlite3_exec(db, sql.as_ptr(), null_mut(), null_mut(), null_mut()) } == 0);
}

fn prepare(db: *mut c_void, sql: &str) -> *mut c_void {
    let sql = CString::new(sql).unwrap();
    let mut statement = null_mut();
    assert!(unsafe { sqlite3_prepare_v2(db, sql.as_ptr(), -1, &mut statement, null_mut()) } == 0);
    statement
}

pub fn run(random: &mut Random, wide: f64) {
    let p = panel(random, 64, 4);
    let (mut w, mut r) = words(random, &p, Select::Most);
    let all = hand::syllables(&p);
    let mut db = null_mut();
    let name = CString::new(":memory:").unwrap();
    assert!(unsafe { sqlite3_open(name.as_ptr(), &mut db) } == 0);
    exec(db, "CREATE TABLE household (id INTEGER PRIMARY KEY, f0 INT, f1 INT, f2 INT, f3 INT, response INT, mark INT)");
    for (i, (w, r)) in w.iter().zip(&r).enumerate() {
        let f: Vec<u64> = all.iter().map(|s| *w >> s.low & 0xFFFF).collect();
        exec(db, &format!("INSERT INTO household VALUES ({i}, {}, {}, {}, {}, {r}, 0)", f[0], f[1], f[2], f[3]));
    }
    let signs = ["", "=", ">", "<"];
    let mut test = format!("response & {} = {}", p.care, p.key & p.care);
    for (i, s) in all.iter().enumerate() {
        if s.code > 0 {
            test += &format!(" AND f{i} {} {}", signs[s.code as usize], s.comp);
        }
    }
    let count = prepare(db, &format!("SELECT count(*) FROM household WHERE {test}"));
    let mark = prepare(db, &format!("UPDATE household SET mark = ({test})"));
    let mut times = [Vec::new(), Vec::new()];
    let expected = hand::search(&p, &mut w, &mut r) as i64;
    for _ in 0..ROUNDS {
        for (statement, times) in [count, mark].into_iter().zip(times.iter_mut()) {
            let start = Instant::now();
            unsafe {
                sqlite3_step(statement);
                if statement == count {
                    assert!(sqlite3_column_int64(statement, 0) == expected);
                }
                sqlite3_reset(statement);
            }
            times.push(start.elapsed().as_nanos() as f64);
        }
    }
    let [a, b] = times.map(quartile);
    println!("SQLite, 4 syllables: SELECT count(*) {a:.0} ns, {:.0} times wide search; marking UPDATE {b:.0} ns, {:.0} times", a / wide, b / wide);
}
