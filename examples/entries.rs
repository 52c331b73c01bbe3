// A day with loads in the middle, through the library: what tests/compare-entries holds to the independent model.
//
//   entries FILE
//
// A line `L NAME` of FILE loads the ratio file NAME, every other line is a call line (docs/FORMATS.md). Each is answered as gateday answers, refusal in 3
// columns and number in 6; at the end stands the listing. N is 2,048, as gateday's. A ratio file that can't be read is loaded as no bytes (23).
// Build: rustc -O --edition 2021 examples/entries.rs -L target/lib -l static=ekhurtza -o entries
mod gate;

use gate::{call_line, Answer, Gate, BOOK, CALL_BYTES, MOST_GROUPS, PLACE, REGISTER, ROW_BYTES};
use std::io::Write;

const MALFORMED: Answer = Answer { refusal: 21, number: 0 };

// A column: blanks, then digits; whether they are written as they should be is seen by `call_of`.
fn column(text: &[u8]) -> Option<u64> {
    std::str::from_utf8(text).ok()?.trim_start_matches(' ').parse().ok()
}

// The call of a line, its line feed included. A line is well formed exactly where it is the line that the library writes for its numbers: that one has
// leading zeros, signs and numbers in unused fields nowhere.
fn call_of(line: &[u8]) -> Option<[u64; 5]> {
    if line.len() != CALL_BYTES {
        return None;
    }
    let call = [column(&line[..2])?, column(&line[2..11])?, column(&line[11..20])?, column(&line[20..29])?, column(&line[29..38])?];
    let mut written = [0u8; CALL_BYTES];
    (call_line(call, &mut written) == 0 && written[..] == *line).then_some(call)
}

fn entry(gate: &mut Gate, line: &[u8]) -> Answer {
    let file = line.strip_suffix(b"\n").and_then(|text| text.strip_prefix(b"L "));
    if let Some(name) = file {
        let name = std::str::from_utf8(name).expect("L NAME: a name in UTF-8");
        let text = std::fs::read(name).unwrap_or_default();
        return Answer { refusal: gate.load(&text), number: 0 };
    }
    call_of(line).map_or(MALFORMED, |call| gate.call(call))
}

fn main() {
    let file = std::env::args().nth(1).expect("entries FILE");
    let day = std::fs::read(file).expect("entries FILE: a file that can be read");
    let mut gate = Gate::lent(REGISTER, BOOK, PLACE * 2048, 0);
    assert_eq!(gate.open(), 0);
    let mut printed = Vec::new();
    for line in day.split_inclusive(|&byte| byte == b'\n') {
        let answer = entry(&mut gate, line);
        writeln!(printed, "{:3}{:6}", answer.refusal, answer.number).unwrap();
    }
    let mut buffer = [0u8; ROW_BYTES * MOST_GROUPS];
    let listed = gate.listing(&mut buffer);
    assert_eq!(listed.refusal, 0);
    printed.extend_from_slice(&buffer[..listed.number as usize]);
    std::io::stdout().write_all(&printed).unwrap();
}
