// `pieces BYTES < FILE | PROGRAM` writes a file in pieces, and each only when the one before has been read: the program gets one at a time, as
// from a slow line. (A pipe in packet mode, as tests/examples has it, would drop what is left of a packet read with a shorter buffer.) Where the
// system doesn't say how much is unread, the pieces may come together. Ends when the program reads no longer.

use std::io::{Read, Write};

#[repr(C)]
struct Poll {
    file: i32,
    events: i16,
    found: i16,
}

extern "C" {
    fn ioctl(file: i32, request: u64, unread: *mut i32) -> i32;
    fn poll(files: *mut Poll, count: u64, milliseconds: i32) -> i32;
}

const FIONREAD: u64 = 0x541b; // Linux
const POLLERR: i16 = 8;

fn unread() -> bool {
    let mut bytes = 0;
    (unsafe { ioctl(1, FIONREAD, &mut bytes) }) == 0 && bytes > 0
}

fn reader_is_gone() -> bool {
    let mut output = Poll { file: 1, events: 0, found: 0 };
    (unsafe { poll(&mut output, 1, 0) }) == 1 && output.found & POLLERR != 0
}

fn main() {
    let bytes = std::env::args().nth(1).and_then(|n| n.parse().ok()).expect("pieces BYTES");
    let mut text = Vec::new();
    std::io::stdin().read_to_end(&mut text).unwrap();
    let mut output = std::io::stdout();
    for piece in text.chunks(bytes) {
        if output.write_all(piece).and_then(|_| output.flush()).is_err() { return; }
        while unread() {
            if reader_is_gone() { return; }
            std::thread::yield_now();
        }
    }
}
