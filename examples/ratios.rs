// A broker's own ratios through the library (request 2026-01), as examples/ratios.c, and what a load leaves in the gate's memory. Each answer is printed as
// gateday prints it, then the listing. Build: rustc -O --edition 2021 examples/ratios.rs -L target/lib -l static=ekhurtza -o ratios
mod gate;

use gate::{Gate, BOOK, MOST_GROUPS, PLACE, RATIO_BYTES, REGISTER, ROW_BYTES};
use std::io::Write;

const OLD: &[u8; RATIO_BYTES] = b" 1   5   2\n 3   1   1\n 4   1   1\n";
const HOUSE: &[u8; RATIO_BYTES] = b" 1   7   3\n 3   3   2\n 4   1 100\n";
const OUT_OF_RANGE: &[u8; RATIO_BYTES] = b" 1 101   3\n 3   3   2\n 4   1 100\n";

const DAY: [[u64; 5]; 10] = [
    [1, 601, 1, 0, 0],
    [1, 601, 3, 0, 0],
    [1, 701, 4, 0, 0],
    [4, 601, 0, 2, 5], // 2 × 7 ÷ 3 = 4.67: 5
    [4, 501, 1, 3, 4], // 3 × 3 ÷ 2 = 4.5, half up: 5, so 4 is refused by 8
    [4, 501, 1, 3, 5],
    [4, 801, 2, 49, 0], // 49 ÷ 100 = 0.49: a standing figure of 0
    [2, 30001, 2, 0, 0],
    [11, 0, 0, 0, 0],
    [8, 30001, 1, 10000, 100], // the maximum is 0, and net 0 is not below it: 16
];

// A load, printed; one that is refused leaves every word as it was, and book and places are left by any.
fn loaded(gate: &mut Gate, text: &[u8]) -> u64 {
    let before = gate.clone();
    let refusal = gate.load(text);
    println!("{refusal:3}{:6}", 0);
    assert!(refusal == 0 || *gate == before, "a refused load changed the memory");
    assert!(gate.book == before.book && gate.places == before.places, "a load changed book or places");
    refusal
}

// "With 5/2, 1/1, 1/1 every answer to call 4 is the old one": a gate that loaded them is word for word one that loaded nothing.
fn check_old() {
    let mut fresh = Gate::lent(REGISTER, BOOK, PLACE, 7);
    assert_eq!(fresh.open(), 0);
    let mut gate = fresh.clone();
    assert_eq!(gate.load(HOUSE), 0);
    assert!(gate != fresh);
    assert_eq!(gate.load(OLD), 0, "a load may come again before the first enrolment, and the last one counts");
    assert!(gate == fresh);
    // a refused enrolment (3: class 2) and a close shut no door, an accepted enrolment does
    assert_eq!(gate.call([1, 601, 2, 0, 0]).refusal, 3);
    assert_eq!(gate.call([11, 0, 0, 0, 0]).refusal, 0);
    assert_eq!(gate.load(HOUSE), 0);
    assert_eq!(gate.call([1, 601, 1, 0, 0]).refusal, 0);
    assert_eq!(gate.load(OLD), 23);
    assert_eq!(gate.load(OUT_OF_RANGE), 2, "2 before 23");
    assert_eq!(gate.load(b""), 23);
    // 3 × 7 ÷ 3 = 7; by the old ratio 8. The same after the close.
    for _ in 0..2 {
        assert_eq!(gate.call([4, 601, 0, 3, 8]).refusal, 8);
        assert_eq!(gate.call([4, 601, 0, 3, 7]).refusal, 0);
        assert_eq!(gate.call([11, 0, 0, 0, 0]).refusal, 0);
    }
}

fn main() {
    check_old();
    let mut gate = Gate::lent(REGISTER, BOOK, PLACE * 2048, 0);
    assert_eq!(gate.open(), 0);
    assert_eq!(gate.register[..8], [0, 0, 5, 2, 1, 1, 1, 1], "no group, no unit, the old ratios");
    assert_eq!(loaded(&mut gate, OUT_OF_RANGE), 2);
    assert_eq!(loaded(&mut gate, &HOUSE[..RATIO_BYTES - 1]), 23);
    assert_eq!(loaded(&mut gate, HOUSE), 0);
    assert_eq!(gate.register[..8], [0, 0, 7, 3, 3, 2, 1, 100]);
    for call in DAY {
        let answer = gate.call(call);
        println!("{:3}{:6}", answer.refusal, answer.number);
    }
    assert_eq!(loaded(&mut gate, HOUSE), 23);
    let mut buffer = [0u8; ROW_BYTES * MOST_GROUPS];
    let listed = gate.listing(&mut buffer);
    assert_eq!(listed.refusal, 0);
    std::io::stdout().write_all(&buffer[..listed.number as usize]).unwrap();
}
