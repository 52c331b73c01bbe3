//! Texts through the library that `scripts/build library` makes, in nanoseconds: a listing of 64 groups written, each of its rows read, a call line written.
//! Each figure is the median of interleaved rounds.

use std::hint::black_box;
use std::time::Instant;

#[path = "../examples/gate.rs"]
mod gate;
use gate::{call_line, read_row, Gate, BOOK, CALL_BYTES, MOST_GROUPS, PLACE, REGISTER, ROW_BYTES, ROW_WORDS};

const N: usize = 2_048;

/// A gate of 64 groups whose open buys, bought and sold have 12 and 13 digits.
fn full() -> Gate {
    let mut gate = Gate::lent(REGISTER, BOOK, PLACE * N, 7);
    assert_eq!(gate.open(), 0);
    let mut put = |call: [u64; 5]| assert_eq!(gate.call(call).refusal, 0, "{call:?}");
    for i in 0..MOST_GROUPS as u64 {
        put([1, 1_000 + i, 3, 0, 0]);
        put([4, 1, i, 9_000, 9_000]);
        put([2, 20_000 + i, i, 0, 0]);
    }
    put([11, 0, 0, 0, 0]);
    let mut order = 0;
    for i in 0..MOST_GROUPS as u64 {
        for (kind, price, filled) in [(1, 98_765, 4_321_098 + i), (4, 43_210, 3_456_789 - i)] {
            put([8, 20_000 + i, kind, price, 10_000_000]);
            order += 1;
            put([9, order, price, filled, 0]);
        }
    }
    gate
}

/// Nanoseconds a turn.
fn timed(turns: u32, mut turn: impl FnMut()) -> f64 {
    let start = Instant::now();
    for _ in 0..turns {
        turn();
    }
    start.elapsed().as_nanos() as f64 / f64::from(turns)
}

fn median(mut times: Vec<f64>) -> f64 {
    times.sort_by(f64::total_cmp);
    times[times.len() / 2]
}

fn main() {
    const ROUNDS: usize = 15;
    let gate = full();
    let mut text = vec![b'x'; MOST_GROUPS * ROW_BYTES];
    assert_eq!(gate.listing(&mut text).refusal, 0);
    let listing = text.clone();
    let mut row = [0; ROW_WORDS];
    let mut line = [0; CALL_BYTES];
    let [mut written, mut read, mut called] = [vec![], vec![], vec![]];
    for _ in 0..ROUNDS {
        written.push(timed(400, || assert_eq!(black_box(&gate).listing(black_box(&mut text)).refusal, 0)));
        let mut k = 0;
        read.push(timed(640, || {
            assert_eq!(read_row(black_box(&listing), k % MOST_GROUPS as u64, black_box(&mut row)), 0);
            k += 1;
        }));
        called.push(timed(40_000, || assert_eq!(call_line(black_box([8, 20_001, 1, 12_500, 300_000]), black_box(&mut line)), 0)));
    }
    println!("Nanoseconds through the library: a listing of 64 groups written, a row of it read, a call line written\n");
    println!("| Listing | Row read | Call line |\n|---|---|---|");
    println!("| {:.0} | {:.0} | {:.0} |", median(written), median(read), median(called));
}
