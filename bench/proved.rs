// The proved library for C hosts (include/dushvaneth.h): whole calls of both machines, with all their checks.
use crate::data::Panel;

type Pulse = unsafe extern "C" fn(
    words: *mut u64, n: usize, responses: *mut u8, m: usize, width: u32, panel: *const u64, registers: usize, lines: u8,
    answer: *mut u64, room: usize,
) -> u32;

extern "C" {
    fn dushvaneth_wide_pulse(
        words: *mut u64, n: usize, responses: *mut u8, m: usize, width: u32, panel: *const u64, registers: usize, lines: u8,
        answer: *mut u64, room: usize,
    ) -> u32;
    fn dushvaneth_cells_pulse(
        words: *mut u64, n: usize, responses: *mut u8, m: usize, width: u32, panel: *const u64, registers: usize, lines: u8,
        answer: *mut u64, room: usize,
    ) -> u32;
}

const SEARCH: u8 = 1;
const MULTIWRITE: u8 = 16;
const MULTIADD: u8 = 32;

// The count, with a refusal's number above it.
fn called(pulse: Pulse, p: &Panel, lines: u8, w: &mut [u64], r: &mut [u8]) -> u64 {
    let panel = [p.comp, p.sdr, p.sc1, p.sc2, p.mor, p.key as u64, p.care as u64, p.target as u64, 0, p.sc3];
    let mut answer = [0; 4];
    let number = unsafe {
        pulse(
            w.as_mut_ptr(), w.len(), r.as_mut_ptr(), r.len(), p.width, panel.as_ptr(), panel.len(), lines,
            answer.as_mut_ptr(), answer.len(),
        )
    };
    (number as u64) << 32 | answer[2]
}

fn wide(p: &Panel, lines: u8, w: &mut [u64], r: &mut [u8]) -> u64 {
    called(dushvaneth_wide_pulse, p, lines, w, r)
}

fn cells(p: &Panel, lines: u8, w: &mut [u64], r: &mut [u8]) -> u64 {
    called(dushvaneth_cells_pulse, p, lines, w, r)
}

pub fn wide_search(p: &Panel, w: &mut [u64], r: &mut [u8]) -> u64 {
    wide(p, SEARCH, w, r)
}

pub fn wide_multiadd(p: &Panel, w: &mut [u64], r: &mut [u8]) -> u64 {
    wide(p, MULTIADD, w, r)
}

pub fn wide_multiwrite(p: &Panel, w: &mut [u64], r: &mut [u8]) -> u64 {
    wide(p, MULTIWRITE, w, r)
}

pub fn wide_pair(p: &Panel, w: &mut [u64], r: &mut [u8]) -> u64 {
    wide(p, SEARCH | MULTIADD, w, r)
}

pub fn wide_both(p: &Panel, w: &mut [u64], r: &mut [u8]) -> u64 {
    wide(p, MULTIWRITE | MULTIADD, w, r)
}

pub fn cells_search(p: &Panel, w: &mut [u64], r: &mut [u8]) -> u64 {
    cells(p, SEARCH, w, r)
}

pub fn cells_multiadd(p: &Panel, w: &mut [u64], r: &mut [u8]) -> u64 {
    cells(p, MULTIADD, w, r)
}

pub fn cells_both(p: &Panel, w: &mut [u64], r: &mut [u8]) -> u64 {
    cells(p, MULTIWRITE | MULTIADD, w, r)
}
