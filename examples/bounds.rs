// The bounds of what a gate reads, case by case: what stands in the memory, the call, and the answer that document 01 gives, with the sentence
// that decides it. Each figure stands once at the end of its range, where nothing is refused for it, and once behind it, where the answer is 1. Nothing
// here is drawn, and nothing is judged by the ranges of damage.rs.
//
// Most cases follow from a range of "Money and names". Those marked C1, C2 and C3 follow from a reading in docs/DECISIONS.md alone, and so does the choice
// of words (10,000,000 for a maximum of none, holders from 100,000 on for a filed withdrawal, 200,000 for nobody):
//   C1: a group number of 63 or less that is not enrolled is out of its range ("Whose ranges are those of a figure in memory?")
//   C2: a price in a place that breaks its kind's price rule is out of its range ("When is a figure of a place out of its range?")
//   C3: a figure that does not stand is held to its range, and an emergency figure that nobody holds is 0 ("What is in its range?")
use crate::gate::{Gate, BOOK, MOST_GROUPS, PLACE, REGISTER, ROW_BYTES, ROW_WORDS};
use crate::{table, FIRST_DECLARER, FIRST_FIGURE, FIRST_SCALAR, FIRST_UNIT, FIRST_UNIT_GROUP, HEADER, L, OLD_RATIOS, RATIOS};

const GROUPS: usize = 0;
const UNITS: usize = 1;
const CODE: usize = 0;
const CLASS: usize = 1;
const MAXIMUM: usize = 2;
const OWN: usize = 3;
const HOLDER: usize = 4;
const EMERGENCY: usize = 5;
const STANDING: usize = 6;
const NOBODY: u32 = 200_000;

const N: usize = 0;
const ACCEPTED: usize = 1;

fn scalar(word: usize, group: usize) -> usize {
    FIRST_SCALAR + 64 * word + group
}

// The first of a group's three money words: open buys, bought, sold.
fn money(group: u64) -> usize {
    2 + 3 * group as usize
}

// ---- gates

fn opened(n: usize) -> Gate {
    let mut gate = Gate::lent(REGISTER, BOOK, PLACE * n, 7);
    assert_eq!(gate.open(), 0, "N = {n}");
    gate
}

// Three groups, three units and N places. Group 0 has maximum 8, group 1 two figures and an emergency of 200 held by declarer 5, group 2 nothing;
// orders 1 and 2 are sells of 100 by units 11 and 12.
fn small(n: usize) -> Gate {
    let mut gate = opened(n);
    let day = [
        ([1, 1, 1, 0, 0], 0),
        ([1, 2, 3, 0, 0], 1),
        ([1, 3, 4, 0, 0], 2),
        ([2, 10, 0, 0, 0], 0),
        ([2, 11, 1, 0, 0], 0),
        ([2, 12, 2, 0, 0], 0),
        ([4, 1, 0, 3, 8], 0),
        ([4, 5, 1, 70, 70], 0),
        ([4, 6, 1, 20, 20], 0),
        ([11, 0, 0, 0, 0], 0),
        ([5, 5, 1, 200, 0], 0),
        ([8, 11, 4, 10_000, 100], 1),
        ([8, 12, 4, 10_000, 100], 2),
    ];
    for (call, number) in day {
        accepted(&mut gate, call, number, "a day without damage");
    }
    gate
}

// One call of each code. On the small gate, undamaged, none is refused; so a check that overlooks a damage is seen at any of them.
const EACH: [([u64; 5], u64); 11] = [
    ([1, 9, 3, 0, 0], 3),
    ([2, 50_000, 0, 0, 0], 0),
    ([3, 12, 0, 0, 0], 0),
    ([4, 1, 0, 3, 8], 0),
    ([5, 5, 1, 300, 0], 0),
    ([6, 5, 1, 0, 0], 0),
    ([7, 0, 5, 0, 0], 0),
    ([8, 11, 4, 10_000, 100], 3),
    ([9, 1, 10_000, 1, 0], 0),
    ([10, 1, 0, 0, 0], 0),
    ([11, 0, 0, 0, 0], 0),
];

// Those that no figure of a group decides: 4 and 5 look at units, 6 at numbers, 17 to 20 at orders. (Call 1 could meet 4, calls 4 to 7 look at figures.)
const WHATEVER_FIGURES: [usize; 5] = [2, 8, 9, 10, 11];

// 64 groups, codes 0 to 63 of class 3, and 256 units, 0 to 255, four a group.
fn full(n: usize) -> Gate {
    let mut gate = opened(n);
    for code in 0..64 {
        accepted(&mut gate, [1, code, 3, 0, 0], code, "at most 64 groups");
    }
    for unit in 0..256 {
        accepted(&mut gate, [2, unit, unit % 64, 0, 0], 0, "at most 256 attached units");
    }
    gate
}

// ---- answers

fn accepted(gate: &mut Gate, call: [u64; 5], number: u64, why: &str) {
    let answer = gate.call(call);
    assert_eq!((answer.refusal, answer.number), (0, number), "{call:?}: {why}");
}

fn refused(gate: &Gate, call: [u64; 5], refusal: u64, why: &str) {
    let mut tried = gate.clone();
    let answer = tried.call(call);
    assert_eq!((answer.refusal, answer.number), (refusal, 0), "{call:?}: {why}");
    assert!(tried == *gate, "{call:?} is refused and changed the memory: {why}");
}

// A call on a copy.
fn answered(gate: &Gate, call: [u64; 5], refusal: u64, number: u64, why: &str) {
    if refusal == 0 {
        accepted(&mut gate.clone(), call, number, why);
    } else {
        refused(gate, call, refusal, why);
    }
}

fn row(gate: &Gate, group: u64, words: usize, refusal: u64, why: &str) {
    let mut out = vec![7; words];
    assert_eq!(gate.row(group, &mut out), refusal, "row of group {group}, {words} words: {why}");
    assert!(refusal == 0 || out.iter().all(|&w| w == 7), "row of group {group} is refused and wrote: {why}");
}

fn listing(gate: &Gate, bytes: usize, refusal: u64, why: &str) {
    let mut out = vec![7; bytes];
    assert_eq!(gate.listing(&mut out).refusal, refusal, "listing of {bytes} bytes: {why}");
    assert!(refusal == 0 || out.iter().all(|&b| b == 7), "the listing is refused and wrote: {why}");
}

// "a figure of the gate out of its range": 1 at every call, listing and row, also where a smaller buffer or another group number would be refused.
fn unsound(gate: &Gate, why: &str) {
    for (call, _) in EACH {
        refused(gate, call, 1, why);
    }
    refused(gate, [8, 100_000, 0, 0, 0], 1, why);
    refused(gate, [12, 0, 0, 0, 0], 1, why);
    for group in [0, 2, 63, 64, 65] {
        row(gate, group, ROW_WORDS, 1, why);
        row(gate, group, 0, 1, why);
    }
    listing(gate, ROW_BYTES * MOST_GROUPS, 1, why);
    listing(gate, 0, 1, why);
    // before 2 and 23 too
    for text in [table(OLD_RATIOS), table([101, 1, 1, 1, 1, 1]), Vec::new()] {
        loaded(gate, &text, 1, why);
    }
}

// A load on a copy: refused, it leaves every word; accepted, it writes the six ratios and nothing else.
fn loaded(gate: &Gate, text: &[u8], refusal: u64, why: &str) {
    let mut tried = gate.clone();
    let shown = String::from_utf8_lossy(text).into_owned();
    assert_eq!(tried.load(text), refusal, "load of {shown:?}: {why}");
    tried.register[RATIOS].copy_from_slice(&gate.register[RATIOS]);
    assert!(tried == *gate, "load of {shown:?} changed more than the ratios: {why}");
}

// No figure is out of its range.
fn sound(gate: &Gate, calls: &[usize], why: &str) {
    for &code in calls {
        let (call, number) = EACH[code - 1];
        accepted(&mut gate.clone(), call, number, why);
    }
}

// ---- the register

// Each word of a group with the greatest value of its range. The holder is looked at by itself.
fn group_words(group: usize) -> Vec<(usize, u32, &'static str)> {
    let mut words = vec![
        (scalar(CODE, group), 99_999, "institution code .. 0 to 99,999"),
        (scalar(CLASS, group), 4, "control class 1 to 4"),
        (scalar(MAXIMUM, group), 10_000_000, "quota 0 to 9,999,999 millions, or none"),
        (scalar(OWN, group), 10_000_000, "quota 0 to 9,999,999 millions, or not declared"),
        (scalar(EMERGENCY, group), 9_999_999, "quota 0 to 9,999,999 millions: the emergency figure, held"),
        (scalar(STANDING, group), 8, "at most eight declarers a group have a figure standing"),
    ];
    for k in 0..8 {
        words.push((FIRST_DECLARER + 8 * group + k, 99_999, "declarer 0 to 99,999 (C3 where its figure does not stand)"));
        words.push((FIRST_FIGURE + 8 * group + k, 9_999_999, "quota 0 to 9,999,999 millions (C3 where the figure does not stand)"));
    }
    words
}

fn with_word(gate: &Gate, word: usize, value: u32) -> Gate {
    let mut other = gate.clone();
    other.register[word] = value;
    other
}

fn register_bounds() {
    let gate = small(4);
    sound(&gate, &[1, 2, 3, 4, 5, 6, 7, 8, 9, 10, 11], "a day without damage");

    // group 1 holds an emergency, and two figures stand: words 0 and 1 of eight
    for (word, greatest, why) in group_words(1) {
        sound(&with_word(&gate, word, greatest), &WHATEVER_FIGURES, why);
        for above in [greatest + 1, u32::MAX] {
            unsound(&with_word(&gate, word, above), why);
        }
    }
    unsound(&with_word(&gate, scalar(CLASS, 1), 0), "control class 1 to 4");

    // who holds: 0 to 99,999; 100,000 more where the withdrawal is filed; nobody
    for (holder, figure, in_range, why) in [
        (0, 9_999_999, true, "declarer 0 to 99,999"),
        (0, 10_000_000, false, "an emergency figure of 0 to 9,999,999, held by declarer 0"),
        (99_999, 9_999_999, true, "declarer 0 to 99,999"),
        (99_999, 10_000_000, false, "an emergency figure of 0 to 9,999,999, held by declarer 99,999"),
        (100_000, 9_999_999, true, "filed by declarer 0"),
        (100_000, 10_000_000, false, "an emergency figure of 0 to 9,999,999, filed by declarer 0"),
        (199_999, 9_999_999, true, "filed by declarer 99,999"),
        (199_999, 10_000_000, false, "an emergency figure of 0 to 9,999,999, filed by declarer 99,999"),
        (NOBODY, 0, true, "nobody holds"),
        (NOBODY, 1, false, "C3: nobody holds the figure"),
        (NOBODY + 1, 0, false, "declarer 0 to 99,999"),
        (u32::MAX, 0, false, "declarer 0 to 99,999"),
    ] {
        let held = with_word(&with_word(&gate, scalar(HOLDER, 1), holder), scalar(EMERGENCY, 1), figure);
        if in_range {
            sound(&held, &WHATEVER_FIGURES, why);
        } else {
            unsound(&held, why);
        }
    }

    // units 10, 11 and 12 with their groups; the calls of EACH name units 11 and 12
    sound(&with_word(&gate, FIRST_UNIT, 99_999), &WHATEVER_FIGURES, "trading unit 0 to 99,999");
    sound(&with_word(&gate, FIRST_UNIT_GROUP, 2), &WHATEVER_FIGURES, "group number 0 to 63, and enrolled");
    for unit in 0..3 {
        unsound(&with_word(&gate, FIRST_UNIT + unit, 100_000), "trading unit 0 to 99,999");
        for (group, why) in [(3, "C1: not enrolled"), (63, "C1: not enrolled"), (64, "group number 0 to 63"), (65, "group number 0 to 63")] {
            unsound(&with_word(&gate, FIRST_UNIT_GROUP + unit, group), why);
        }
    }

    // "Records above the counts may hold anything" (docs/DECISIONS.md)
    for word in [FIRST_UNIT + 3, FIRST_UNIT_GROUP + 3, scalar(CODE, 3), scalar(EMERGENCY, 3), FIRST_DECLARER + 24, FIRST_FIGURE + 24] {
        sound(&with_word(&gate, word, u32::MAX), &[1, 2, 3, 4, 5, 6, 7, 8, 9, 10, 11], "not in use");
    }
}

// "numerator and denominator (both 1 to 100)" (2026-01): six words of the header, looked at though no group is enrolled; the eight behind them never.
fn ratio_bounds() {
    let why = "numerator and denominator (both 1 to 100)";
    for gate in [opened(4), small(4), full(3)] {
        assert_eq!(gate.register[RATIOS], OLD_RATIOS, "by the old ratios before any");
        let before_any = gate.register[GROUPS] == 0;
        for word in RATIOS {
            for value in [1, 2, 99, 100] {
                let other = with_word(&gate, word, value);
                answered(&other, [11, 0, 0, 0, 0], 0, 0, why);
                loaded(&other, &table(OLD_RATIOS), if before_any { 0 } else { 23 }, why);
                listing(&other, ROW_BYTES * MOST_GROUPS, 0, why);
            }
            for value in [0, 101, 1 << 16, u32::MAX] {
                unsound(&with_word(&gate, word, value), why);
            }
        }
        for word in RATIOS.end..HEADER {
            answered(&with_word(&gate, word, u32::MAX), [11, 0, 0, 0, 0], 0, 0, "not in use");
        }
    }
    // a register that an older edition opened has 0 there
    let mut older = opened(4);
    older.register[RATIOS].fill(0);
    unsound(&older, "a register of an older edition");

    // "The quota is then base × numerator ÷ denominator, rounded half up": groups 0, 1 and 2 of the small gate are of classes 1, 3 and 4
    let gate = small(4);
    for (group, declarer, word) in [(0, 1, RATIOS.start), (1, 5, RATIOS.start + 2), (2, 7, RATIOS.start + 4)] {
        for (numerator, denominator, base, quota) in [
            (7, 3, 1, 2),
            (7, 3, 2, 5),
            (7, 3, 3, 7),
            (3, 2, 3, 5),
            (1, 100, 49, 0),
            (1, 100, 50, 1),
            (1, 100, 9_999_999, 100_000),
            (100, 1, 99_999, 9_999_900),
            (100, 99, 9_899_999, 9_999_999),
            (99, 100, 9_999_999, 9_899_999),
            (100, 100, 9_999_999, 9_999_999),
        ] {
            let other = with_word(&with_word(&gate, word, numerator), word + 1, denominator);
            answered(&other, [4, declarer, group, base, quota], 0, 0, why);
            answered(&other, [4, declarer, group, base, quota + 1], if quota == 9_999_999 { 2 } else { 8 }, 0, why);
            if quota > 0 {
                answered(&other, [4, declarer, group, base, quota - 1], 8, 0, why);
            }
        }
        // no quota of the range follows: 8, and no product wraps (100 × 9,999,999)
        let other = with_word(&with_word(&gate, word, 100), word + 1, 1);
        answered(&other, [4, declarer, group, 100_000, 9_999_999], 8, 0, "quota 0 to 9,999,999 millions");
        answered(&other, [4, declarer, group, 100_000, 10_000_000], 2, 0, "quota 0 to 9,999,999 millions");
        answered(&other, [4, declarer, group, 9_999_999, 9_999_999], 8, 0, "quota 0 to 9,999,999 millions");
    }
}

// Loads: each of the six numbers at the ends of its range and behind them; the classes; 23 from the first group on, after 2.
fn loads() {
    let fresh = opened(4);
    for k in 0..6 {
        for (value, refusal) in [(0, 2), (1, 0), (100, 0), (101, 2), (9_999, 2)] {
            let mut numbers = [3, 5, 7, 11, 13, 17];
            numbers[k] = value;
            let why = "numerator and denominator (both 1 to 100)";
            loaded(&fresh, &table(numbers), refusal, why);
            for gate in [small(4), full(3)] {
                loaded(&gate, &table(numbers), if refusal == 0 { 23 } else { 2 }, "23 .. when .. a group is already enrolled, after 2");
            }
            let mut gate = fresh.clone();
            assert_eq!(gate.load(&table(numbers)), refusal);
            assert_eq!(gate.register[RATIOS], if refusal == 0 { numbers } else { OLD_RATIOS }, "{why}");
        }
    }
    let good = table(OLD_RATIOS);
    // the classes stand in bytes 1 to 2, 12 to 13 and 23 to 24
    for (line, class, refusal, why) in [
        (0, b" 0", 2, "control class 1 to 4"),
        (0, b" 2", 23, "for classes 1, 3 and 4 in that order"),
        (0, b" 3", 23, "for classes 1, 3 and 4 in that order"),
        (1, b" 1", 23, "for classes 1, 3 and 4 in that order"),
        (1, b" 4", 23, "for classes 1, 3 and 4 in that order"),
        (2, b" 3", 23, "for classes 1, 3 and 4 in that order"),
        (2, b" 5", 2, "control class 1 to 4"),
        (2, b"99", 2, "control class 1 to 4"),
        (2, b"04", 23, "no leading zeros"),
        (2, b"4 ", 23, "right-justified with blanks"),
        (2, b"  ", 23, "class, numerator and denominator"),
    ] {
        let mut text = good.clone();
        text[11 * line..][..2].copy_from_slice(class);
        loaded(&fresh, &text, refusal, why);
        loaded(&small(4), &text, refusal, why);
    }
    // every byte decides: none can be an x
    for at in 0..good.len() {
        let mut text = good.clone();
        text[at] = b'x';
        loaded(&fresh, &text, 23, "23, and not 21, when the file isn't of this form");
    }
    // and every length but 33
    for bytes in 0..good.len() {
        loaded(&fresh, &good[..bytes], 23, "three lines");
    }
    for behind in [&b"\n"[..], b" ", b"\0", b" 4   1   1\n"] {
        loaded(&fresh, &[&good[..], behind].concat(), 23, "three lines");
    }
    // the last load counts, a refused one changes nothing, and the table lasts over closes
    let mut gate = fresh.clone();
    for (text, refusal, after) in [
        (table([7, 3, 2, 1, 3, 1]), 0, [7, 3, 2, 1, 3, 1]),
        (table([0, 3, 2, 1, 3, 1]), 2, [7, 3, 2, 1, 3, 1]),
        (Vec::new(), 23, [7, 3, 2, 1, 3, 1]),
        (table([1, 100, 1, 100, 1, 100]), 0, [1, 100, 1, 100, 1, 100]),
        (table([7, 3, 2, 1, 3, 1]), 0, [7, 3, 2, 1, 3, 1]),
    ] {
        assert_eq!(gate.load(&text), refusal);
        assert_eq!(gate.register[RATIOS], after, "the table loaded last");
    }
    refused(&gate, [1, 1, 2, 0, 0], 3, "a refused enrolment closes no door");
    loaded(&gate, &good, 0, "a group is already enrolled");
    accepted(&mut gate, [1, 1, 1, 0, 0], 0, "enrol");
    accepted(&mut gate, [11, 0, 0, 0, 0], 0, "close");
    loaded(&gate, &good, 23, "a group is already enrolled");
    assert_eq!(gate.register[RATIOS], [7, 3, 2, 1, 3, 1], "the table loaded last");
}

// The same at the end of each column.
fn last_of_each_column() {
    let gate = full(3);
    let mut held = with_word(&gate, scalar(HOLDER, 63), 5);
    held.register[scalar(STANDING, 63)] = 8;
    let close = [11, 0, 0, 0, 0];
    answered(&held, close, 0, 0, "a full gate");
    for (word, greatest, why) in group_words(63) {
        answered(&with_word(&held, word, greatest), close, 0, 0, why);
        unsound(&with_word(&held, word, greatest + 1), why);
    }
    for (word, greatest, why) in [
        (GROUPS, 64, "at most 64 groups"),
        (UNITS, 256, "256 attached units"),
        (FIRST_UNIT, 99_999, "trading unit 0 to 99,999"),
        (FIRST_UNIT + 255, 99_999, "trading unit 0 to 99,999"),
        (FIRST_UNIT_GROUP, 63, "group number 0 to 63"),
        (FIRST_UNIT_GROUP + 255, 63, "group number 0 to 63"),
    ] {
        answered(&with_word(&gate, word, greatest), close, 0, 0, why);
        unsound(&with_word(&gate, word, greatest + 1), why);
    }
}

// ---- group numbers 63, 64 and 65

fn group_numbers() {
    // a place for a unit is free, so that 5 does not come first
    let mut gate = full(3);
    accepted(&mut gate, [3, 255, 0, 0, 0], 0, "detach");
    let few = small(4);
    for (group, refusal, refusal_of_few, why) in [
        (63, 0, 6, "group number 0 to 63; group not enrolled"),
        (64, 2, 2, "group number 0 to 63"),
        (65, 2, 2, "group number 0 to 63"),
        (1 << 32, 2, 2, "group number 0 to 63"),
        (u64::MAX, 2, 2, "group number 0 to 63"),
    ] {
        let mut raised = gate.clone();
        accepted(&mut raised, [5, 7, 63, 20, 0], 0, "a maximum of 20, held by declarer 7");
        for (whole, expected) in [(&raised, refusal), (&few, refusal_of_few)] {
            for call in [[2, 255, group, 0, 0], [4, 7, group, 10, 10], [5, 7, group, 30, 0], [6, 7, group, 0, 0], [7, group, 5, 0, 0]] {
                answered(whole, call, expected, 0, why);
            }
            row(whole, group, ROW_WORDS, expected, why);
            // "Of several that apply the smallest is returned": 2 and 6 before 22
            row(whole, group, ROW_WORDS - 1, if expected == 0 { 22 } else { expected }, why);
        }
    }
    for (group, refusal) in [(0, 0), (2, 0), (3, 6)] {
        row(&few, group, ROW_WORDS, refusal, "group not enrolled");
    }
    listing(&gate, 64 * ROW_BYTES, 0, "108 bytes a group");
    listing(&gate, 64 * ROW_BYTES - 1, 22, "listing buffer shorter than 108 bytes a group");
    listing(&few, 3 * ROW_BYTES, 0, "108 bytes a group");
    listing(&few, 3 * ROW_BYTES - 1, 22, "listing buffer shorter than 108 bytes a group");
}

// "when a listing is written, a row would break its rules below": every figure is in its range, and calls pass.
fn row_rules() {
    let gate = small(4);
    let mut broken = vec![
        (with_word(&gate, scalar(CLASS, 0), 2), "class 1, 3 or 4"),
        (with_word(&gate, scalar(OWN, 0), 9), "own quota at most maximum, which is 8"),
        (with_word(&with_word(&gate, scalar(MAXIMUM, 0), 0), scalar(OWN, 0), 1), "own quota at most maximum, which is 0"),
    ];
    let mut above = gate.clone();
    above.book[money(0)..][..3].copy_from_slice(&[L, 1, 0]);
    broken.push((above, "open + bought + sold at most L"));
    for (gate, why) in broken {
        sound(&gate, &WHATEVER_FIGURES, why);
        row(&gate, 0, ROW_WORDS, 1, why);
        row(&gate, 0, 0, 1, why);
        row(&gate, 1, ROW_WORDS, 0, "the row of another group");
        row(&gate, 64, ROW_WORDS, 2, "group number 0 to 63");
        listing(&gate, 3 * ROW_BYTES, 1, why);
        listing(&gate, 0, 1, why);
    }
    // "listing rows, written or read, may show maximum 0 from now on" (2026-01)
    for (word, value) in [(scalar(CLASS, 0), 3), (scalar(MAXIMUM, 0), 0), (scalar(MAXIMUM, 0), 1), (scalar(OWN, 0), 8)] {
        row(&with_word(&gate, word, value), 0, ROW_WORDS, 0, "a row that keeps its rules");
    }
    let mut most = gate.clone();
    most.book[money(0)..][..3].copy_from_slice(&[L - 2, 1, 1]);
    row(&most, 0, ROW_WORDS, 0, "open + bought + sold at most L");
    listing(&with_word(&with_word(&gate, scalar(CODE, 2), 2), scalar(CLASS, 2), 3), 3 * ROW_BYTES, 1, "code with class not repeated");
}

// ---- N, orders accepted and money

fn book_bounds() {
    // N and the places lent agree, so that its range alone decides; no order is accepted
    for (n, in_range) in [(0, false), (1, true), (65_536, true), (65_537, false)] {
        let mut gate = small(4);
        gate.book[ACCEPTED] = 0;
        gate.book[N] = n;
        gate.places = vec![7; PLACE * n as usize];
        if in_range {
            answered(&gate, [8, 11, 4, 10_000, 100], 0, 1, "The host lends N order places, 1 to 65,536");
            answered(&gate, [11, 0, 0, 0, 0], 0, 0, "The host lends N order places, 1 to 65,536");
            row(&gate, 0, ROW_WORDS, 0, "The host lends N order places, 1 to 65,536");
        } else {
            unsound(&gate, "The host lends N order places, 1 to 65,536");
        }
        let mut fresh = Gate::lent(REGISTER, BOOK, PLACE * n as usize, 7);
        assert_eq!(fresh.open(), if in_range { 0 } else { 1 }, "an opening with N = {n}");
    }
    // N other than at opening: the places lent are more or fewer, by a place or a word
    for (n, words) in [(0, 16), (3, 16), (5, 16), (65_537, 16), (1 << 62, 0), (4, 0), (4, 12), (4, 15), (4, 17), (4, 20), (4, PLACE * 65_537)] {
        let mut gate = small(4);
        gate.book[N] = n;
        gate.places.resize(words, 7);
        unsound(&gate, "N .. other than at opening");
    }
    // orders accepted 0 to N
    for (accepted, refusal, number, why) in [
        (0, 0, 1, "order number .. 65,536"),
        (65_535, 0, 65_536, "order number 1 to 65,536"),
        (65_536, 17, 0, "N orders accepted since the close"),
        (65_537, 1, 0, "orders accepted 0 to N"),
        (u64::MAX, 1, 0, "orders accepted 0 to N"),
    ] {
        let mut gate = small(65_536);
        gate.book[ACCEPTED] = accepted;
        answered(&gate, [8, 11, 4, 10_000, 100], refusal, number, why);
        if refusal == 1 {
            unsound(&gate, why);
        }
    }
    // "L is 6,553,599,344,640,000,000 mils: no group's total passes it"; of enrolled groups
    for word in 2..BOOK {
        let mut gate = small(4);
        gate.book[word] = L;
        sound(&gate, &[2, 3, 11], "no group's total passes L");
        gate.book[word] = L + 1;
        if word < money(3) {
            unsound(&gate, "no group's total passes L");
        } else {
            sound(&gate, &[1, 2, 3, 4, 5, 6, 7, 8, 9, 10, 11], "money of a group that is not enrolled");
        }
    }
}

// "in a call that no other number refuses, a group's total, or its open + bought + sold, would leave 0 to L"
fn totals() {
    const HALF: u64 = L / 2;
    let buy = [8, 10, 1, 10_000, 100];
    let cost = 10_000 * 100;
    // unit 10 is of group 0, whose own quota is 8 million yuan: net stays below it
    for (held, refusal) in [
        ([HALF - cost, 0, HALF], 0),
        ([HALF - cost + 1, 0, HALF], 1),
        ([0, HALF - cost, HALF], 0),
        ([0, HALF - cost + 1, HALF], 1),
        ([0, 0, L - cost], 0),
        ([0, 0, L - cost + 1], 1),
    ] {
        let mut gate = small(4);
        gate.book[money(0)..][..3].copy_from_slice(&held);
        answered(&gate, buy, refusal, if refusal == 0 { 3 } else { 0 }, "open + bought + sold at most L");
    }
    // order 1 is a sell of group 1: what is sold at 20,000 is added
    for (held, refusal) in [([0, 0, L - 20_000], 0), ([0, 0, L - 19_999], 1), ([1, 2, L - 20_003], 0), ([1, 2, L - 20_002], 1)] {
        let mut gate = small(4);
        gate.book[money(1)..][..3].copy_from_slice(&held);
        answered(&gate, [9, 1, 20_000, 1, 0], refusal, 0, "sold, and open + bought + sold, at most L");
        refused(&gate, [9, 1, 20_000, 101, 0], 19, "1 last, where no other number refuses");
        refused(&gate, [9, 1, 9_999, 1, 0], 20, "1 last, where no other number refuses");
    }
    // order 3 is a buy of group 0: a fill of 40 takes 400,000 off the open buys, the cancel 1,000,000
    for (call, least) in [([9, 3, 9_000, 40, 0], 400_000), ([10, 3, 0, 0, 0], 1_000_000)] {
        for (open, refusal) in [(least, 0), (least - 1, 1), (0, 1)] {
            let mut gate = small(4);
            accepted(&mut gate, buy, 3, "net is 0, the own quota 8");
            gate.book[money(0)] = open;
            answered(&gate, call, refusal, 0, "a group's total would leave 0 to L");
        }
    }
}

// ---- places

// What stands in place 1 (group, kind, price, open quantity), and the answer to its fill and to its cancel.
const PLACES: [([u64; 4], u64, u64, &str); 63] = [
    // group: 0 to 2 are enrolled
    ([0, 4, 10_000, 100], 0, 0, "group number 0 to 63"),
    ([2, 4, 10_000, 100], 0, 0, "group number 0 to 63"),
    ([2, 1, 10_000, 100], 0, 0, "group number 0 to 63"),
    ([3, 4, 10_000, 100], 1, 1, "C1: not enrolled"),
    ([3, 1, 10_000, 100], 1, 1, "C1: not enrolled"),
    ([63, 4, 10_000, 100], 1, 1, "C1: not enrolled"),
    ([64, 4, 10_000, 100], 1, 1, "group number 0 to 63"),
    ([65, 1, 10_000, 100], 1, 1, "group number 0 to 63"),
    ([u64::MAX, 4, 10_000, 100], 1, 1, "group number 0 to 63"),
    // kind, with each price that some kind may bear
    ([0, 0, 0, 100], 1, 1, "Kinds: 1 limit buy; .. 6 repo borrowing"),
    ([0, 0, 10_000, 100], 1, 1, "Kinds: 1 limit buy; .. 6 repo borrowing"),
    ([0, 0, 100_000, 100], 1, 1, "Kinds: 1 limit buy; .. 6 repo borrowing"),
    ([0, 7, 0, 100], 1, 1, "Kinds: 1 limit buy; .. 6 repo borrowing"),
    ([0, 7, 10_000, 100], 1, 1, "Kinds: 1 limit buy; .. 6 repo borrowing"),
    ([0, 7, 100_000, 100], 1, 1, "Kinds: 1 limit buy; .. 6 repo borrowing"),
    ([0, u64::MAX, 10_000, 100], 1, 1, "Kinds: 1 limit buy; .. 6 repo borrowing"),
    // price of limit buys, market buys and limit sells
    ([0, 1, 0, 100], 1, 1, "price 1 to 9,999,999"),
    ([0, 1, 1, 100], 0, 0, "price 1 to 9,999,999"),
    ([0, 1, 9_999_999, 100], 0, 0, "price 1 to 9,999,999"),
    ([0, 1, 10_000_000, 100], 1, 1, "price 1 to 9,999,999"),
    ([0, 1, u64::MAX, 100], 1, 1, "price 1 to 9,999,999"),
    ([0, 2, 0, 100], 1, 1, "price 1 to 9,999,999"),
    ([0, 2, 1, 100], 0, 0, "price 1 to 9,999,999"),
    ([0, 2, 9_999_999, 100], 0, 0, "price 1 to 9,999,999"),
    ([0, 2, 10_000_000, 100], 1, 1, "price 1 to 9,999,999"),
    ([0, 4, 0, 100], 1, 1, "price 1 to 9,999,999"),
    ([0, 4, 1, 100], 0, 0, "price 1 to 9,999,999"),
    ([0, 4, 9_999_999, 100], 0, 0, "price 1 to 9,999,999"),
    ([0, 4, 10_000_000, 100], 1, 1, "price 1 to 9,999,999"),
    // of repo lending and borrowing
    ([0, 3, 0, 100], 1, 1, "price 1 to 9,999,999"),
    ([0, 3, 99_999, 100], 1, 1, "C2: kinds 3 and 6 bear price 100,000"),
    ([0, 3, 100_000, 100], 0, 0, "kinds 3 and 6 bear price 100,000"),
    ([0, 3, 100_001, 100], 1, 1, "C2: kinds 3 and 6 bear price 100,000"),
    ([0, 3, 10_000_000, 100], 1, 1, "price 1 to 9,999,999"),
    ([0, 6, 0, 100], 1, 1, "price 1 to 9,999,999"),
    ([0, 6, 99_999, 100], 1, 1, "C2: kinds 3 and 6 bear price 100,000"),
    ([0, 6, 100_000, 100], 0, 0, "kinds 3 and 6 bear price 100,000"),
    ([0, 6, 100_001, 100], 1, 1, "C2: kinds 3 and 6 bear price 100,000"),
    ([0, 6, 10_000_000, 100], 1, 1, "price 1 to 9,999,999"),
    // of market sells
    ([0, 5, 0, 100], 0, 0, "market sell (price 0, the one exception to the range)"),
    ([0, 5, 1, 100], 1, 1, "C2: market sell (price 0)"),
    ([0, 5, 9_999_999, 100], 1, 1, "C2: market sell (price 0)"),
    ([0, 5, 10_000_000, 100], 1, 1, "price 1 to 9,999,999"),
    // open quantity
    ([0, 1, 10_000, 0], 19, 19, "quantity above the open quantity; cancel with none open"),
    ([0, 1, 10_000, 1], 0, 0, "open quantity 0 to 10,000,000"),
    ([0, 1, 10_000, 10_000_000], 0, 0, "open quantity 0 to 10,000,000"),
    ([0, 1, 10_000, 10_000_001], 1, 1, "open quantity 0 to 10,000,000"),
    ([0, 1, 10_000, u64::MAX], 1, 1, "open quantity 0 to 10,000,000"),
    ([0, 2, 10_000, 10_000_001], 1, 1, "open quantity 0 to 10,000,000"),
    ([0, 3, 100_000, 10_000_001], 1, 1, "open quantity 0 to 10,000,000"),
    ([0, 4, 10_000, 0], 19, 19, "quantity above the open quantity; cancel with none open"),
    ([0, 4, 10_000, 10_000_000], 0, 0, "open quantity 0 to 10,000,000"),
    ([0, 4, 10_000, 10_000_001], 1, 1, "open quantity 0 to 10,000,000"),
    ([0, 5, 0, 10_000_000], 0, 0, "open quantity 0 to 10,000,000"),
    ([0, 5, 0, 10_000_001], 1, 1, "open quantity 0 to 10,000,000"),
    ([0, 6, 100_000, 10_000_000], 0, 0, "open quantity 0 to 10,000,000"),
    ([0, 6, 100_000, 10_000_001], 1, 1, "open quantity 0 to 10,000,000"),
    // the greatest amount of all, and each of its factors one more
    ([0, 1, 9_999_999, 10_000_000], 0, 0, "price 1 to 9,999,999; open quantity 0 to 10,000,000"),
    ([0, 1, 10_000_000, 10_000_000], 1, 1, "price 1 to 9,999,999"),
    ([0, 1, 9_999_999, 10_000_001], 1, 1, "open quantity 0 to 10,000,000"),
    // two figures at once
    ([3, 7, 10_000_000, 10_000_001], 1, 1, "any figure"),
    ([0, 7, 0, 0], 1, 1, "1 before 19"),
    ([0, 1, 0, 0], 1, 1, "1 before 19"),
];

// Open buys of every group: more than the greatest amount, 9,999,999 × 10,000,000, so that no total falls below 0.
const PLENTY: u64 = 200_000_000_000_000;

// A fill and a cancel of place 1; accepted ones by every word that they leave.
fn fill_and_cancel(gate: &Gate, fill: u64, cancel: u64, why: &str) {
    let [group, kind, price, open] = [gate.places[0], gate.places[1], gate.places[2], gate.places[3]];
    // as much as may be filled in a call, at a price that the kind takes and the range of fills has
    let quantity = open.clamp(1, 10_000_000);
    let filled_at = match kind {
        3 | 6 => 100_000,
        5 => 9_000,
        _ => price.clamp(1, 9_999_999),
    };
    for quantity in [1, quantity] {
        let call = [9, 1, filled_at, quantity, 0];
        if fill != 0 {
            refused(gate, call, fill, why);
            continue;
        }
        let mut after = gate.clone();
        after.places[3] -= quantity;
        if kind <= 3 {
            after.book[money(group)] -= price * quantity;
            after.book[money(group) + 1] += filled_at * quantity;
        } else {
            after.book[money(group) + 2] += filled_at * quantity;
        }
        let mut tried = gate.clone();
        accepted(&mut tried, call, 0, why);
        assert!(tried == after, "{call:?} of {:?}: {why}", &gate.places[..4]);
    }
    let call = [10, 1, 0, 0, 0];
    if cancel != 0 {
        refused(gate, call, cancel, why);
    } else {
        let mut after = gate.clone();
        after.places[3] = 0;
        if kind <= 3 {
            after.book[money(group)] -= price * open;
        }
        let mut tried = gate.clone();
        accepted(&mut tried, call, 0, why);
        assert!(tried == after, "{call:?} of {:?}: {why}", &gate.places[..4]);
    }
}

fn place_bounds() {
    let mut gate = small(4);
    for group in 0..64 {
        gate.book[money(group)] = PLENTY;
    }
    for (place, fill, cancel, why) in PLACES {
        let mut hurt = gate.clone();
        hurt.places[..4].copy_from_slice(&place);
        fill_and_cancel(&hurt, fill, cancel, why);
        // "one in the place of the order named by the call": no other call looks at it
        for call in [[9, 2, 10_000, 1, 0], [10, 2, 0, 0, 0], [2, 50_000, 0, 0, 0], [11, 0, 0, 0, 0]] {
            answered(&hurt, call, 0, 0, why);
        }
        answered(&hurt, [8, 11, 4, 10_000, 100], 0, 3, why);
        row(&hurt, 0, ROW_WORDS, 0, why);
        // "if that number was given since the close"
        let mut closed = hurt.clone();
        accepted(&mut closed, [11, 0, 0, 0, 0], 0, why);
        refused(&closed, [9, 1, 10_000, 1, 0], 18, why);
        refused(&closed, [10, 1, 0, 0, 0], 18, why);
        // 1 before a field out of its range
        if fill == 1 {
            refused(&hurt, [9, 1, 0, 0, 0], 1, why);
        } else {
            refused(&hurt, [9, 1, 0, 0, 0], 2, "price 1 to 9,999,999; quantity 1 to 10,000,000");
        }
        // as the next place, not given yet
        let mut next = gate.clone();
        next.places[8..12].copy_from_slice(&place);
        refused(&next, [9, 3, 10_000, 1, 0], 18, "order number not given since the close");
        refused(&next, [10, 3, 0, 0, 0], 18, "order number not given since the close");
    }

    // with 64 groups enrolled the last number is 63, and the paper's range alone decides
    let mut gate = full(3);
    accepted(&mut gate, [8, 0, 4, 10_000, 100], 1, "a sell needs no maximum");
    gate.book[money(63)] = PLENTY;
    for (group, refusal) in [(63, 0), (64, 1), (65, 1), (1 << 32, 1)] {
        for (kind, price) in [(1, 10_000), (2, 10_000), (3, 100_000), (4, 10_000), (5, 0), (6, 100_000)] {
            gate.places[..4].copy_from_slice(&[group, kind, price, 100]);
            fill_and_cancel(&gate, refusal, refusal, "group number 0 to 63");
        }
    }

    // order numbers: 0 and 65,537 are no numbers, 65,536 is one
    for call in [9, 10] {
        for (order, refusal) in [(0, 2), (2, 18), (4, 18), (65_536, 18), (65_537, 2), (u64::MAX, 2)] {
            refused(&gate, [call, order, 10_000, 1, 0], refusal, "order number 1 to 65,536; 18 not given since the close");
        }
    }
    let mut most = small(65_536);
    most.book[ACCEPTED] = 65_536;
    for (kind, refusal) in [(4, 0), (7, 1)] {
        most.places[4 * 65_535..].copy_from_slice(&[1, kind, 10_000, 100]);
        answered(&most, [9, 65_536, 10_000, 100, 0], refusal, 0, "order number 1 to 65,536");
        answered(&most, [10, 65_536, 0, 0, 0], refusal, 0, "order number 1 to 65,536");
    }
}

// ---- refusals that need a full gate, or eight declarers

fn no_room() {
    let mut gate = full(3);
    for (call, refusal, why) in [
        ([1, 64, 3, 0, 0], 5, "64 groups .. already"),
        ([1, 63, 4, 0, 0], 5, "a group is an institution code with a control class: 63 with class 4 is another"),
        ([1, 63, 3, 0, 0], 4, "4 before 5: group already enrolled"),
        ([1, 64, 2, 0, 0], 3, "3 before 5: class 2"),
        ([1, 100_000, 3, 0, 0], 2, "2 before 5: institution code 0 to 99,999"),
        ([2, 256, 0, 0, 0], 5, "256 units already"),
        ([2, 255, 0, 0, 0], 4, "4 before 5: unit already attached"),
        ([2, 256, 64, 0, 0], 2, "2 before 5: group number 0 to 63"),
        ([2, 100_000, 0, 0, 0], 2, "2 before 5: trading unit 0 to 99,999"),
        ([3, 256, 0, 0, 0], 6, "unit not attached"),
    ] {
        refused(&gate, call, refusal, why);
    }
    accepted(&mut gate, [3, 0, 0, 0, 0], 0, "detach unit");
    accepted(&mut gate, [2, 256, 63, 0, 0], 0, "255 units, one is free");
    refused(&gate, [2, 0, 63, 0, 0], 5, "256 units already");

    let mut units = opened(3);
    accepted(&mut units, [1, 1, 1, 0, 0], 0, "enrol");
    for unit in 0..256 {
        accepted(&mut units, [2, unit, 0, 0, 0], 0, "256 attached units");
    }
    refused(&units, [2, 256, 1, 0, 0], 5, "5 before 6: group not enrolled");
    refused(&units, [2, 256, 63, 0, 0], 5, "5 before 6: group not enrolled");
}

fn eight_stand() {
    let mut gate = small(4);
    // group 2 is of class 4, and nobody has declared for it
    for declarer in 20..28 {
        accepted(&mut gate, [4, declarer, 2, 10, 10], 0, "at most eight declarers");
    }
    for (call, refusal, why) in [
        ([4, 28, 2, 10, 10], 10, "new declarer while eight stand"),
        ([4, 28, 2, 0, 0], 9, "9 before 10: no figure of that declarer standing"),
        ([4, 28, 2, 10, 11], 8, "8 before 10: quota doesn't follow from base"),
        ([4, 28, 3, 10, 10], 6, "6 before 10: group not enrolled"),
        ([4, 100_000, 2, 10, 10], 2, "2 before 10: declarer 0 to 99,999"),
    ] {
        refused(&gate, call, refusal, why);
    }
    accepted(&mut gate, [4, 27, 2, 20, 20], 0, "not a new declarer: the last figure of each stands");
    refused(&gate, [4, 28, 2, 10, 10], 10, "eight stand still");
    accepted(&mut gate, [4, 20, 2, 0, 0], 0, "withdraws the declarer's figure");
    accepted(&mut gate, [4, 28, 2, 10, 10], 0, "a withdrawn place is used again");
    refused(&gate, [4, 20, 2, 10, 10], 10, "new declarer while eight stand");
    // 7 × 10 + 20
    accepted(&mut gate, [11, 0, 0, 0, 0], 0, "close");
    let mut out = [7; ROW_WORDS];
    assert_eq!(gate.row(2, &mut out), 0);
    assert_eq!(out, [3, 4, 90, 90, 0, 0, 0, 0, 0], "the sum of standing figures");
}

pub fn check() {
    register_bounds();
    ratio_bounds();
    loads();
    last_of_each_column();
    group_numbers();
    row_rules();
    book_bounds();
    totals();
    place_bounds();
    no_room();
    eight_stand();
}
