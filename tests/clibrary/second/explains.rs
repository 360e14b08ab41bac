//! Examples of request e of document 02, "Why was she not picked?": each answer
//! under each code, which syllable and which bit is told where several could be,
//! what plays no part, and each refusal alone and beside another. Worked out by
//! hand from the request's sentences, document 01 and the header: "1 to 5 as for
//! a search, 7 if the word's number is the number of words or more, 10".

use crate::hosts::*;
use second::explainer::second_explain;

/// All examples of request e.
pub fn run(tally: &mut Tally) {
    one_syllable(tally);
    first_difference(tally);
    dont_cares(tally);
    figures_1_to_3(tally);
    two_syllables(tally);
    three_syllables(tally);
    one_bit_syllables(tally);
    one_bit_words(tally);
    greatest_width(tally);
    halves_of_64(tally);
    response_bits(tally);
    own_response(tally);
    not_selected_first(tally);
    no_part(tally);
    word_numbers(tally);
    each_refusal(tally);
    pairs(tally);
    codes_of_any_word(tally);
    wide_words(tally);
    panel_lengths(tally);
    wide_registers(tally);
    answer_lengths(tally);
    empty_buffers(tally);
}

/// The registers that make a search: COMP, SDR, SC1, SC2, SC3.
type Search = [u64; 5];

/// What is told of a word: the reason, the syllable and the bit.
type Told = [u64; 3];

/// "0 where none is told": nothing goes with matched, no syllable with a response
/// bit, and no bit with equal to the bottom.
const MATCHED: Told = [1, 0, 0];

const fn not_selected(bit: u64) -> Told {
    [2, 0, bit]
}

const fn against(syllable: u64, bit: u64) -> Told {
    [3, syllable, bit]
}

const fn equal(syllable: u64) -> Told {
    [4, syllable, 0]
}

/// How many numbers the answer has.
const SIZE: usize = 5;

/// One syllable of eight bits that is asked so: COMP, then the bits cared for.
const fn exact(comp: u64, care: u64) -> Search {
    [comp, 0, 0, care, 0]
}

const fn larger(comp: u64, care: u64) -> Search {
    [comp, 0, care, 0, 0]
}

const fn smaller(comp: u64, care: u64) -> Search {
    [comp, 0, care, care, 0]
}

const fn at_least(comp: u64, care: u64) -> Search {
    [comp, 0, care, 0, care]
}

const fn at_most(comp: u64, care: u64) -> Search {
    [comp, 0, care, care, care]
}

/// A host with a search loaded.
fn asked(width: u32, words: &[u64], [comp, sdr, sc1, sc2, sc3]: Search) -> Host {
    Host::new(width, words)
        .with(COMP, comp)
        .with(SDR, sdr)
        .with(SC1, sc1)
        .with(SC2, sc2)
        .with(SC3, sc3)
}

/// What is told of each word. A search must mark the words that are matched and
/// no others, on both machines.
fn tells(tally: &mut Tally, name: &str, host: &Host, told: &[Told]) {
    for (word, expected) in told.iter().enumerate() {
        let found = host.explain(word);
        tally.same(&format!("{name}, word {word}"), found, accepted(expected));
    }
    for (machine, pulse) in PULSES {
        let mut marked = host.clone();
        marked.panel[TARGET] = 0x80;
        let count = told.iter().filter(|told| **told == MATCHED).count() as u64;
        let name = format!("{name}, {machine}");
        tally.same(&name, marked.pulse(pulse, SEARCH), accepted(&[count, 0]));
        let marks = marked.responses.iter().map(|response| response >> 7 == 1);
        let matched = told.iter().map(|told| *told == MATCHED);
        tally.same(&name, marks.collect(), matched.collect::<Vec<_>>());
    }
}

/// Searches of one word of eight bits.
fn tells_of(tally: &mut Tally, word: u64, cases: &[(&str, Search, Told)]) {
    for (name, search, told) in cases {
        let name = format!("{name} {search:X?}");
        tells(tally, &name, &asked(8, &[word], *search), &[*told]);
    }
}

/// A call that is turned down, whatever room its answer has; a buffer that is too
/// short "stays as it was".
fn refuses(tally: &mut Tally, name: &str, host: &Host, word: usize, (number, also): (u32, u64)) {
    let told = host.explain(word);
    tally.same(name, told, refused(number, also, SIZE));
    let short = host.explain_into(word, SIZE - 1);
    tally.same(name, short, (number, vec![OLD; SIZE - 1]));
}

/// Each code on the words 59, 5A and 5B, which end in 01, 10 and 11, with COMP
/// 5A. 59 differs from it in the bits 1 and 0, of which bit 1 is the first from
/// the top, 5B in bit 0 alone. Bit 0 of 59 is 1 over COMP's 0: it is no smaller
/// number for that, and no larger one.
fn one_syllable(tally: &mut Tally) {
    let cases: [(&str, Search, [Told; 3]); 6] = [
        (
            "exact",
            exact(0x5A, 0xFF),
            [against(7, 1), MATCHED, against(7, 0)],
        ),
        (
            "larger",
            larger(0x5A, 0xFF),
            [against(7, 1), equal(7), MATCHED],
        ),
        (
            "smaller",
            smaller(0x5A, 0xFF),
            [MATCHED, equal(7), against(7, 0)],
        ),
        (
            "at least",
            at_least(0x5A, 0xFF),
            [against(7, 1), MATCHED, MATCHED],
        ),
        (
            "at most",
            at_most(0x5A, 0xFF),
            [MATCHED, MATCHED, against(7, 0)],
        ),
        ("don't care", exact(0x5A, 0), [MATCHED, MATCHED, MATCHED]),
    ];
    for (name, search, told) in cases {
        tells(tally, name, &asked(8, &[0x59, 0x5A, 0x5B], search), &told);
    }
}

/// The first difference from the top settles, whatever comes below it.
///
/// - 80 and COMP 7F, 7F and COMP 80 differ in all bits: bit 7 settles.
/// - 3C is 0011 1100 and COMP 35 is 0011 0101: bit 3 settles, where the word has
///   the one; at bit 0, where COMP has it, nothing is settled any more.
fn first_difference(tally: &mut Tally) {
    let words = [0x80, 0x7F, 0x3C];
    let comps = [0x7F, 0x80, 0x35];
    type Ask = fn(u64, u64) -> Search;
    let cases: [(&str, Ask, [Told; 3]); 5] = [
        (
            "exact",
            exact,
            [against(7, 7), against(7, 7), against(7, 3)],
        ),
        ("larger", larger, [MATCHED, against(7, 7), MATCHED]),
        ("smaller", smaller, [against(7, 7), MATCHED, against(7, 3)]),
        ("at least", at_least, [MATCHED, against(7, 7), MATCHED]),
        ("at most", at_most, [against(7, 7), MATCHED, against(7, 3)]),
    ];
    for (name, ask, told) in cases {
        for k in 0..3 {
            let name = format!("{name}, first difference");
            tells_of(tally, words[k], &[(&name, ask(comps[k], 0xFF), told[k])]);
        }
    }
}

/// Don't-care bits are passed over above the settling place, at it and below it,
/// and the syllable is still told by its top bit. The word A9 is 1010 1001 and
/// COMP 5A is 0101 1010: they differ in the bits 7, 6, 5, 4, 1 and 0, and are
/// both 10 in the bits 3 and 2. The word has the one at 7, 5 and 0, COMP at 6, 4
/// and 1.
fn dont_cares(tally: &mut Tally) {
    let cases: [(&str, Search, Told); 41] = [
        ("exact", exact(0x5A, 0xFF), against(7, 7)),
        ("exact", exact(0x5A, 0x7F), against(7, 6)),
        ("exact", exact(0x5A, 0x3F), against(7, 5)),
        ("exact", exact(0x5A, 0x1F), against(7, 4)),
        ("exact", exact(0x5A, 0x0F), against(7, 1)),
        ("exact", exact(0x5A, 0x0D), against(7, 0)),
        ("exact", exact(0x5A, 0x80), against(7, 7)),
        ("exact", exact(0x5A, 0x4C), against(7, 6)),
        ("exact", exact(0x5A, 0x02), against(7, 1)),
        ("exact", exact(0x5A, 0x01), against(7, 0)),
        ("exact", exact(0x5A, 0x0C), MATCHED),
        ("larger", larger(0x5A, 0xFF), MATCHED),
        ("larger", larger(0x5A, 0x7F), against(7, 6)),
        ("larger", larger(0x5A, 0x5F), against(7, 6)),
        ("larger", larger(0x5A, 0x3F), MATCHED),
        ("larger", larger(0x5A, 0x1F), against(7, 4)),
        ("larger", larger(0x5A, 0x0F), against(7, 1)),
        ("larger", larger(0x5A, 0x02), against(7, 1)),
        ("larger", larger(0x5A, 0x0D), MATCHED),
        ("larger", larger(0x5A, 0x0C), equal(7)),
        ("larger", larger(0x5A, 0x04), equal(7)),
        ("smaller", smaller(0x5A, 0xFF), against(7, 7)),
        ("smaller", smaller(0x5A, 0xAF), against(7, 7)),
        ("smaller", smaller(0x5A, 0x7F), MATCHED),
        ("smaller", smaller(0x5A, 0x3F), against(7, 5)),
        ("smaller", smaller(0x5A, 0x1F), MATCHED),
        ("smaller", smaller(0x5A, 0x0F), MATCHED),
        ("smaller", smaller(0x5A, 0x0D), against(7, 0)),
        ("smaller", smaller(0x5A, 0x0C), equal(7)),
        ("smaller", smaller(0x5A, 0x08), equal(7)),
        ("at least", at_least(0x5A, 0xBF), MATCHED),
        ("at least", at_least(0x5A, 0x7F), against(7, 6)),
        ("at least", at_least(0x5A, 0x1F), against(7, 4)),
        ("at least", at_least(0x5A, 0x0E), against(7, 1)),
        ("at least", at_least(0x5A, 0x0D), MATCHED),
        ("at least", at_least(0x5A, 0x0C), MATCHED),
        ("at most", at_most(0x5A, 0xFF), against(7, 7)),
        ("at most", at_most(0x5A, 0x3F), against(7, 5)),
        ("at most", at_most(0x5A, 0x0D), against(7, 0)),
        ("at most", at_most(0x5A, 0x0F), MATCHED),
        ("at most", at_most(0x5A, 0x0C), MATCHED),
    ];
    tells_of(tally, 0xA9, &cases);
}

/// Document 01's first figures. In 9C the upper digit 9 is 1001 where COMP has
/// 0011. Figure 2 asks for a lower digit above 5, and 5 is equal; in figure 3
/// the bits 3 and 2 are 01 in both.
fn figures_1_to_3(tally: &mut Tally) {
    let cases: [(&str, Search, Told); 3] = [
        ("figure 1", [0x34, 0x88, 0x0F, 0xF0, 0], MATCHED),
        ("figure 2", [0x35, 0x88, 0x0F, 0xF0, 0], equal(3)),
        ("figure 3", [0x34, 0x88, 0x0C, 0xF0, 0], equal(3)),
    ];
    for (name, search, told) in cases {
        let host = asked(8, &[0x35, 0x9C, 0x35], search);
        tells(tally, name, &host, &[told, against(7, 7), told]);
    }
}

/// The word 35 in two digits, SDR 88: the topmost syllable that is not satisfied
/// is told, though the other may be wrong too, and for another reason.
///
/// - 3 is 0011: against 2, 0010, it differs in bit 4, against 4, 0100, in bit 6
///   first, where COMP has the one.
/// - 5 is 0101: against A, 1010, it differs in bit 3 first, against 6, 0110, in
///   bit 1, against 4, 0100, in bit 0; COMP has the one but in the last.
fn two_syllables(tally: &mut Tally) {
    let cases: [(&str, Search, Told); 13] = [
        ("equal, against", [0x34, 0x88, 0xF0, 0x0F, 0], equal(7)),
        ("against, equal", [0x25, 0x88, 0x0F, 0xF0, 0], against(7, 4)),
        ("equal, equal", [0x35, 0x88, 0xFF, 0, 0], equal(7)),
        ("against, against", [0x4A, 0x88, 0xFF, 0, 0], against(7, 6)),
        (
            "satisfied, against",
            [0x2A, 0x88, 0xFF, 0, 0],
            against(3, 3),
        ),
        ("satisfied, equal", [0x25, 0x88, 0xFF, 0, 0], equal(3)),
        ("equal, satisfied", [0x34, 0x88, 0xFF, 0, 0], equal(7)),
        (
            "against, satisfied",
            [0x44, 0x88, 0xFF, 0, 0],
            against(7, 6),
        ),
        ("uncared, against", [0x4A, 0x88, 0x0F, 0, 0], against(3, 3)),
        ("uncared, equal", [0x45, 0x88, 0x0F, 0x0F, 0], equal(3)),
        ("at least 3", [0x35, 0x88, 0xFF, 0, 0xF0], equal(3)),
        ("at most 3", [0x36, 0x88, 0xFF, 0xF0, 0xFF], against(3, 1)),
        ("both satisfied", [0x24, 0x88, 0xFF, 0, 0], MATCHED),
    ];
    tells_of(tally, 0x35, &cases);
    let smaller_digit = [0x34, 0x88, 0x0F, 0xFF, 0];
    tells_of(tally, 0x35, &[("smaller", smaller_digit, against(3, 0))]);
}

/// The word 35 as 00 110 101, SDR 24: bit 7 starts a syllable though SDR hasn't
/// it, and A4 cuts no other syllables.
///
/// - COMP 35 is the same, 75 is 01 110 101, 7D is 01 111 101, 7E is 01 111 110.
/// - COMP 5C is 01 011 100: 110 is larger at bit 5, which is the syllable's top.
/// - COMP 67 is 01 100 111: 110 is larger at bit 4; 7C is 01 111 100: 101 is
///   larger at bit 0.
fn three_syllables(tally: &mut Tally) {
    for sdr in [0x24, 0xA4] {
        let cases: [(&str, Search, Told); 7] = [
            ("all equal", [0x35, sdr, 0xFF, 0xFF, 0], equal(7)),
            ("two equal", [0x75, sdr, 0xFF, 0xFF, 0], equal(5)),
            ("one equal", [0x7D, sdr, 0xFF, 0xFF, 0], equal(2)),
            ("none equal", [0x7E, sdr, 0xFF, 0xFF, 0], MATCHED),
            ("two against", [0x5C, sdr, 0xFF, 0xFF, 0], against(5, 5)),
            ("middle", [0x67, sdr, 0xFF, 0xFF, 0], against(5, 4)),
            ("bottom", [0x7C, sdr, 0xFF, 0xFF, 0xC0], against(2, 0)),
        ];
        tells_of(tally, 0x35, &cases);
    }
}

/// SDR FF makes every bit a syllable, told by itself. The word 35 is 0011 0101.
///
/// - Exact: COMP 34 differs in bit 0, B5 in bit 7, CA in all, 05 in the bits 5
///   and 4.
/// - Larger with COMP 0 asks for a one: the word has it at all bits of 35, not at
///   bit 6. With COMP 40, bit 6 is 0 over 1.
/// - Smaller with COMP FF asks for a 0, which the word has at all bits of CA.
/// - At least COMP 15: bit 5 is 1 over 0. 37: bit 1 is 0 over 1. At most COMP 25:
///   bit 4 is 1 over 0.
fn one_bit_syllables(tally: &mut Tally) {
    let cases: [(&str, Search, Told); 17] = [
        ("bits, exact", [0x35, 0xFF, 0, 0xFF, 0], MATCHED),
        ("bits, exact", [0x34, 0xFF, 0, 0xFF, 0], against(0, 0)),
        ("bits, exact", [0xB5, 0xFF, 0, 0xFF, 0], against(7, 7)),
        ("bits, exact", [0xCA, 0xFF, 0, 0xFF, 0], against(7, 7)),
        ("bits, exact", [0xCA, 0xFF, 0, 0x7E, 0], against(6, 6)),
        ("bits, exact", [0x05, 0xFF, 0, 0xFF, 0], against(5, 5)),
        ("bits, larger", [0x35, 0xFF, 0xFF, 0, 0], equal(7)),
        ("bits, larger", [0x35, 0xFF, 0x01, 0, 0], equal(0)),
        ("bits, larger", [0x00, 0xFF, 0x35, 0, 0], MATCHED),
        ("bits, larger", [0x00, 0xFF, 0x75, 0, 0], equal(6)),
        ("bits, larger", [0x40, 0xFF, 0x75, 0, 0], against(6, 6)),
        ("bits, smaller", [0xFF, 0xFF, 0xCA, 0xCA, 0], MATCHED),
        ("bits, smaller", [0xFF, 0xFF, 0xCB, 0xCB, 0], equal(0)),
        ("bits, at least", [0x15, 0xFF, 0xFF, 0, 0xFF], MATCHED),
        ("bits, at least", [0x37, 0xFF, 0xFF, 0, 0xFF], against(1, 1)),
        (
            "bits, at most",
            [0x25, 0xFF, 0xFF, 0xFF, 0xFF],
            against(4, 4),
        ),
        ("bits, at most", [0x37, 0xFF, 0xFF, 0xFF, 0xFF], MATCHED),
    ];
    tells_of(tally, 0x35, &cases);
}

/// Words of one bit, 0 and 1: what is told beside the reason is always 0.
fn one_bit_words(tally: &mut Tally) {
    let (lost, same) = (against(0, 0), equal(0));
    let cases: [(&str, Search, [Told; 2]); 10] = [
        ("exact 0", exact(0, 1), [MATCHED, lost]),
        ("exact 1", exact(1, 1), [lost, MATCHED]),
        ("larger than 0", larger(0, 1), [same, MATCHED]),
        ("larger than 1", larger(1, 1), [lost, same]),
        ("smaller than 0", smaller(0, 1), [same, lost]),
        ("smaller than 1", smaller(1, 1), [MATCHED, same]),
        ("at least 1", at_least(1, 1), [lost, MATCHED]),
        ("at least 0", at_least(0, 1), [MATCHED, MATCHED]),
        ("at most 0", at_most(0, 1), [MATCHED, lost]),
        ("at most 1", at_most(1, 1), [MATCHED, MATCHED]),
    ];
    for (name, search, told) in cases {
        tells(tally, name, &asked(1, &[0, 1], search), &told);
    }
}

/// One syllable of 64 bits with the words 0, 2^64-2 and 2^64-1: 2^64-2 differs
/// from the last number in bit 0 alone, 0 in all bits.
///
/// - Below bit 63, which is don't care, 0 and the last differ first in bit 62.
/// - At the ends only, bits 63 and 0, COMP has 1 and 0: the words have 00, 10 and
///   11.
fn greatest_width(tally: &mut Tally) {
    let last = u64::MAX;
    let below = last >> 1;
    let ends = 1 << 63 | 1;
    let top = 1 << 63;
    let cases: [(&str, Search, [Told; 3]); 11] = [
        (
            "exact",
            exact(last, last),
            [against(63, 63), against(63, 0), MATCHED],
        ),
        (
            "larger than the last",
            larger(last, last),
            [against(63, 63), against(63, 0), equal(63)],
        ),
        (
            "smaller than 0",
            smaller(0, last),
            [equal(63), against(63, 63), against(63, 63)],
        ),
        (
            "at least the last",
            at_least(last, last),
            [against(63, 63), against(63, 0), MATCHED],
        ),
        (
            "at most 0",
            at_most(0, last),
            [MATCHED, against(63, 63), against(63, 63)],
        ),
        (
            "below the top",
            larger(last, below),
            [against(63, 62), against(63, 0), equal(63)],
        ),
        (
            "at the bottom",
            exact(1, 1),
            [against(63, 0), against(63, 0), MATCHED],
        ),
        (
            "larger at the ends",
            larger(top, ends),
            [against(63, 63), equal(63), MATCHED],
        ),
        (
            "smaller at the ends",
            smaller(top, ends),
            [MATCHED, equal(63), against(63, 0)],
        ),
        (
            "64 bits, exact",
            [last, last, 0, last, 0],
            [against(63, 63), against(0, 0), MATCHED],
        ),
        (
            "64 bits, larger",
            [0, last, last, 0, 0],
            [equal(63), equal(0), MATCHED],
        ),
    ];
    for (name, search, told) in cases {
        tells(tally, name, &asked(64, &[0, last - 1, last], search), &told);
    }
}

/// Two syllables of 32 bits, whose tops are 63 and 31: the upper half at most all
/// ones, which each number is, the lower one larger than 7. Of the lower halves 6
/// is 0110 and 7 is 0111.
fn halves_of_64(tally: &mut Tally) {
    let (upper, lower) = (0xFFFF_FFFF_0000_0000, 0xFFFF_FFFF);
    let search = [upper | 7, 1 << 31, u64::MAX, upper, upper];
    let words = [upper | 6, 7, upper | 8];
    let told = [against(31, 0), equal(31), MATCHED];
    tells(tally, "halves", &asked(64, &words, search), &told);
    let search = [upper | 7, 1 << 31, lower, upper, 0];
    let told = [against(31, 0), against(63, 63), MATCHED];
    tells(tally, "exact half", &asked(64, &words, search), &told);
}

/// "The lowest response bit that differs from the key, of those that care has".
/// The response is 65, 0110 0101. Key 9A differs in all bits, 64 in bit 0, 45 in
/// bit 5, and E1, 1110 0001, in bit 7, where the key has the one, and in bit 2,
/// where the word has it. All bits of the word are don't care, so that a word
/// that is selected matches.
fn response_bits(tally: &mut Tally) {
    let cases: [(u64, u64, Told); 21] = [
        (0x65, 0xFF, MATCHED),
        (0x9A, 0xFF, not_selected(0)),
        (0x9A, 0xFE, not_selected(1)),
        (0x9A, 0xFC, not_selected(2)),
        (0x9A, 0x88, not_selected(3)),
        (0x9A, 0xF0, not_selected(4)),
        (0x9A, 0x60, not_selected(5)),
        (0x9A, 0xC0, not_selected(6)),
        (0x9A, 0x80, not_selected(7)),
        (0x9A, 0x00, MATCHED),
        (0x64, 0xFF, not_selected(0)),
        (0x64, 0x01, not_selected(0)),
        (0x64, 0xFE, MATCHED),
        (0x45, 0xFF, not_selected(5)),
        (0x45, 0xDF, MATCHED),
        (0xE1, 0xFF, not_selected(2)),
        (0xE1, 0xFB, not_selected(7)),
        (0xE1, 0x7F, not_selected(2)),
        (0xE1, 0x7B, MATCHED),
        (0xFF, 0x65, MATCHED),
        (0x00, 0x9A, MATCHED),
    ];
    for (key, care, told) in cases {
        let mut host = Host::new(8, &[0x35]).with(KEY, key).with(CARE, care);
        host.responses = vec![0x65];
        tells(tally, &format!("key {key:X} care {care:X}"), &host, &[told]);
    }
}

/// Each word is judged by its own response bits: 0, 1 and 2 are 00, 01 and 10.
fn own_response(tally: &mut Tally) {
    let (first, second) = (not_selected(0), not_selected(1));
    let cases: [(u64, u64, [Told; 3]); 4] = [
        (1, 3, [first, MATCHED, first]),
        (2, 3, [second, first, MATCHED]),
        (2, 2, [second, second, MATCHED]),
        (0, 2, [MATCHED, MATCHED, second]),
    ];
    for (key, care, told) in cases {
        let mut host = Host::new(8, &[7; 3]).with(KEY, key).with(CARE, care);
        host.responses = vec![0, 1, 2];
        tells(tally, &format!("key {key} care {care}"), &host, &told);
    }
}

/// A word that is not selected is told so, whatever its syllables are: satisfied,
/// settled against, equal to the bottom. Once selected, it is told of these.
fn not_selected_first(tally: &mut Tally) {
    let cases: [(Search, Told); 3] = [
        (exact(0x35, 0xFF), MATCHED),
        (exact(0x95, 0xFF), against(7, 7)),
        (larger(0x35, 0xFF), equal(7)),
    ];
    for (search, told) in cases {
        let mut host = asked(8, &[0x35, 0x35], search).with(CARE, 0x28);
        host.responses = vec![0x20, 0x17];
        let name = format!("not selected first, {search:X?}");
        tells(tally, &name, &host, &[not_selected(5), told]);
    }
}

/// A machine with all four reasons: 35 and 36 under larger than 35, of which 36
/// matches; 35 again, without the response bit that is asked for; and 34, which is
/// 0100 at its end where COMP has 0101.
fn of_all_reasons() -> (Host, [Told; 4]) {
    let mut host = asked(8, &[0x35, 0x36, 0x35, 0x34], larger(0x35, 0xFF))
        .with(KEY, 0x10)
        .with(CARE, 0x10);
    host.responses = vec![0x10, 0x10, 0x02, 0x1F];
    (host, [equal(7), MATCHED, not_selected(4), against(7, 0)])
}

/// "The panel's address, target and MOR play no part", nor does a target that
/// overlaps care.
fn no_part(tally: &mut Tally) {
    let values: [(usize, &[u64]); 3] = [
        (ADDRESS, &[0, 1, 3, 4, 1024, 1 << 32, u64::MAX]),
        (TARGET, &[0, 0x10, 0x40, 0xFF]),
        (MOR, &[0, 0x01, 0x80, 0xFF]),
    ];
    for (register, values) in values {
        for value in values {
            let (host, told) = of_all_reasons();
            let host = host.with(register, *value);
            let name = format!("register {register} is {value}");
            tells(tally, &name, &host, &told);
        }
    }
}

/// 7: "the word's number is the number of words or more", and no number of fewer
/// bits stands for it; the address doesn't matter then either.
fn word_numbers(tally: &mut Tally) {
    for address in [0, 3, u64::MAX] {
        let (host, told) = of_all_reasons();
        let host = host.with(ADDRESS, address);
        tally.same("word n-1", host.explain(3), accepted(&told[3]));
        for word in [4, 5, 256, 1 << 16, 1 << 32, 1 << 63, usize::MAX] {
            refuses(tally, &format!("word {word}"), &host, word, (7, 0));
        }
    }
    for (n, last) in [(1, 0), (1023, 1022), (1024, 1023)] {
        let mut host = asked(8, &vec![0x35; n], exact(0x35, 0xFF));
        host.words[last] = 0x15;
        let name = format!("{n} words");
        tally.same(&name, host.explain(last), accepted(&against(7, 5)));
        refuses(tally, &name, &host, n, (7, 0));
        refuses(tally, &name, &host, usize::MAX, (7, 0));
    }
}

/// Something wrong, and the number for it. The last is no fault of the machine's:
/// word 3 of the three is asked for.
type Spoil = (&'static str, fn(&mut Host), u32);

const SPOILS: [Spoil; 19] = [
    ("no words", |host| host.words.clear(), 1),
    ("no responses", |host| host.responses.clear(), 1),
    ("a response too few", |host| host.responses.truncate(2), 1),
    ("a response too many", |host| host.responses.push(0), 1),
    ("1,025 words", many_words, 1),
    ("a short panel", |host| host.panel.truncate(9), 1),
    ("a long panel", |host| host.panel.push(0), 1),
    ("no width", |host| host.width = 0, 2),
    ("width 65", |host| host.width = 65, 2),
    ("width 256 + 8", |host| host.width = 256 + 8, 2),
    ("word 1 too wide", |host| host.words[1] = 0x100, 3),
    ("SC2 too wide", |host| host.panel[SC2] |= 0x100, 4),
    ("MOR too wide", |host| host.panel[MOR] |= 0x100, 4),
    ("key 256", |host| host.panel[KEY] = 256, 4),
    ("two codes", |host| host.panel[SC1] ^= 0x01, 5),
    ("two settings", |host| host.panel[SC3] ^= 0x40, 5),
    ("SC3 over exact", |host| host.panel[SC3] |= 0x02, 5),
    ("SC3 over don't care", |host| host.panel[SC3] |= 0x08, 5),
    ("word 3 asked for", |_| {}, 7),
];

fn many_words(host: &mut Host) {
    host.words.resize(1025, 0);
    host.responses.resize(1025, 0);
}

/// The machine to be spoilt: words 35, 9C and 35, in which the digits are asked
/// apart, the upper one for larger, of the lower one the bits 2 to 0 for exact.
/// Bit 0 is asked for smaller where SC1 has it too, so that the digit has two codes.
fn to_spoil() -> Host {
    asked(8, &[0x35, 0x9C, 0x35], [0x25, 0x88, 0xF0, 0x07, 0])
}

/// 35 is satisfied in both digits: 3 is larger than 2, 5 is 5 at the bits 2 to 0.
/// 9C is so in the upper one; in the lower one C is 100 there, COMP 101.
fn each_refusal(tally: &mut Tally) {
    tells(
        tally,
        "to spoil",
        &to_spoil(),
        &[MATCHED, against(3, 0), MATCHED],
    );
    for (name, spoil, number) in SPOILS {
        let mut host = to_spoil();
        spoil(&mut host);
        let words: &[usize] = if number == 7 { &[3] } else { &[0, 1, 2] };
        for word in words {
            refuses(tally, name, &host, *word, (number, also_of(number)));
        }
    }
}

/// Word 1 is too wide where one is.
fn also_of(number: u32) -> u64 {
    u64::from(number == 3)
}

/// Two things wrong at once, for which there are two numbers: "always the one that
/// comes first", and SPOILS stand in that order. The later one is done first, since
/// a panel that is cut short has no SC3. Of 1,025 words there is a word 3 to ask for:
/// the number is 1 all the same.
fn pairs(tally: &mut Tally) {
    for (k, (first, spoil, number)) in SPOILS.iter().enumerate() {
        let others = SPOILS[k + 1..].iter();
        for (second, another, later) in others.filter(|other| other.2 != *number) {
            let mut host = to_spoil();
            another(&mut host);
            spoil(&mut host);
            let words: &[usize] = if *later == 7 { &[3, usize::MAX] } else { &[0] };
            for word in words {
                let name = format!("{first}, {second}");
                refuses(tally, &name, &host, *word, (*number, also_of(*number)));
            }
        }
    }
}

/// 5 is for the panel, whichever word is asked for: one that is not selected, and
/// one whose upper digit, 3 where COMP has 2, is settled against before the lower
/// one with its two codes is come to.
fn codes_of_any_word(tally: &mut Tally) {
    let searches: [Search; 4] = [
        [0x25, 0x88, 0x01, 0xFE, 0],
        [0x25, 0x88, 0x0F, 0xF0, 0x0E],
        [0x25, 0x88, 0x00, 0xFF, 0x01],
        [0x25, 0x88, 0x07, 0xF0, 0x0F],
    ];
    for search in searches {
        let name = format!("5 of any word, {search:X?}");
        let mut host = asked(8, &[0x35, 0x35], search).with(CARE, 0x01);
        host.responses = vec![0, 1];
        refuses(tally, &name, &host, 0, (5, 0));
        refuses(tally, &name, &host, 1, (5, 0));
        refuses(tally, &name, &host, 2, (5, 0));
    }
}

/// 3 also says the lowest word that is too wide, be it the one asked for or not.
fn wide_words(tally: &mut Tally) {
    let cases: [([u64; 3], u64); 4] = [
        ([0x100, 0, 0], 0),
        ([0, 0, 1 << 63], 2),
        ([0, 0x1FF, 0x100], 1),
        ([0x80, 0x100, 0xFF], 1),
    ];
    for (words, also) in cases {
        for word in [0, 1, 2, 3, usize::MAX] {
            let name = format!("{words:X?}, word {word}");
            refuses(tally, &name, &Host::new(8, &words), word, (3, also));
        }
    }
}

/// 1: any length but ten, though what stands in the panel would be taken, or be
/// refused with another number.
fn panel_lengths(tally: &mut Tally) {
    for length in [0, 1, 5, 8, 9, 11, 20] {
        for value in [0, 0xFF, 256] {
            let mut host = Host::new(8, &[0x35]);
            host.panel = vec![value; length];
            let name = format!("a panel of {length} times {value}");
            refuses(tally, &name, &host, 0, (1, 0));
            refuses(tally, &name, &host, 1, (1, 0));
        }
    }
}

/// 4: each register of the word's width with a one outside it, MOR too, and each
/// of the bytes above 255, target too; the address can't be too wide. At width 64
/// no register can, but the bytes still are.
fn wide_registers(tally: &mut Tally) {
    for register in [COMP, SDR, SC1, SC2, MOR, SC3] {
        for value in [0x100, 0x1FF, 1 << 63] {
            let mut host = Host::new(8, &[0x35]);
            host.panel[register] = value;
            let name = format!("register {register} is {value:X}");
            refuses(tally, &name, &host, 0, (4, 0));
            refuses(tally, &name, &host, 1, (4, 0));
        }
    }
    for register in [KEY, CARE, TARGET] {
        for value in [256, 257, 1 << 32, u64::MAX] {
            for width in [8, 64] {
                let mut host = Host::new(width, &[0x35]);
                host.panel[register] = value;
                let name = format!("register {register} is {value}, width {width}");
                refuses(tally, &name, &host, 0, (4, 0));
                refuses(tally, &name, &host, 1, (4, 0));
            }
        }
    }
}

/// 10 alone: an answer of fewer than five numbers stays as it was. What is behind
/// a longer one stays, on a refusal too.
fn answer_lengths(tally: &mut Tally) {
    let (host, told) = of_all_reasons();
    for (word, told) in told.iter().enumerate() {
        for room in 0..SIZE {
            let found = host.explain_into(word, room);
            tally.same("short answer", found, (10, vec![OLD; room]));
        }
        for room in SIZE..SIZE + 3 {
            let mut answer = accepted(told);
            answer.1.resize(room, OLD);
            tally.same("long answer", host.explain_into(word, room), answer);
        }
    }
    let long = host.explain_into(4, 7);
    tally.same("long refusal", long, (7, vec![7, 0, 0, 0, 0, OLD, OLD]));
    tally.same("no answer", host.explain_into(4, 0), (7, vec![]));
}

/// Null pointers of length 0 are empty buffers.
fn empty_buffers(tally: &mut Tally) {
    use std::ptr::{null, null_mut};
    let (words, responses, panel) = ([0x35], [0], [0; PANEL]);
    let (words, responses, panel) = (words.as_ptr(), responses.as_ptr(), panel.as_ptr());
    let mut answer = [OLD; SIZE];
    let into = answer.as_mut_ptr();
    let told = [
        unsafe { second_explain(null(), 0, null(), 0, 8, null(), 0, 0, into, 0) },
        unsafe { second_explain(null(), 0, null(), 0, 8, panel, PANEL, 0, null_mut(), 0) },
        unsafe { second_explain(words, 1, null(), 0, 8, panel, PANEL, 0, null_mut(), 0) },
        unsafe { second_explain(words, 1, responses, 1, 8, null(), 0, 0, null_mut(), 0) },
        unsafe { second_explain(words, 1, responses, 1, 8, panel, PANEL, 1, null_mut(), 0) },
        unsafe { second_explain(words, 1, responses, 1, 8, panel, PANEL, 0, null_mut(), 0) },
    ];
    tally.same("empty buffers", told, [1, 1, 1, 1, 7, 10]);
    tally.same("empty buffers", answer, [OLD; SIZE]);
    let told = unsafe { second_explain(null(), 0, null(), 0, 8, null(), 0, 0, into, SIZE) };
    tally.same("nothing lent", (told, answer), (1, [1, 0, 0, 0, 0]));
}
