// Document 01's day through the library: a gate of 2,048 places is opened, eleven calls are made, each answer is printed as gateday prints
// it, then the listing. Build: rustc -O --edition 2021 examples/day.rs -L target/lib -l static=ekhurtza -o day
mod gate;

use gate::{Gate, BOOK, MOST_GROUPS, PLACE, REGISTER, ROW_BYTES, ROW_WORDS};
use std::io::Write;

const DAY: [[u64; 5]; 11] = [
    [1, 1, 1, 0, 0],
    [2, 20001, 0, 0, 0],
    [4, 1, 0, 3, 8],
    [11, 0, 0, 0, 0],
    [7, 0, 5, 0, 0],
    [8, 20001, 1, 12500, 300000],
    [8, 20001, 1, 10000, 200000],
    [8, 20001, 1, 10000, 200000],
    [9, 1, 12400, 100000, 0],
    [10, 2, 0, 0, 0],
    [9, 1, 12600, 1, 0],
];

fn main() {
    let mut gate = Gate::lent(REGISTER, BOOK, PLACE * 2048, 0);
    assert_eq!(gate.open(), 0);
    for call in DAY {
        let answer = gate.call(call);
        println!("{:3}{:6}", answer.refusal, answer.number);
    }
    let mut buffer = [0u8; ROW_BYTES * MOST_GROUPS];
    let listed = gate.listing(&mut buffer);
    assert_eq!(listed.refusal, 0);
    std::io::stdout().write_all(&buffer[..listed.number as usize]).unwrap();

    // the same row as plain numbers, which a router reads without parsing
    let mut row = [0u64; ROW_WORDS];
    assert_eq!(gate.row(0, &mut row), 0);
    assert_eq!(row, [1, 1, 8, 5, 0, 3740000000, 2500000000, 1240000000, 0]);
}
