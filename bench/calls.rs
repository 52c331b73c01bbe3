//! Calls through the library that `scripts/build library` makes, in nanoseconds a call: an accepted sell, a refused order, a fill; over groups, over N and
//! over the orders so far. Each figure is the median of interleaved rounds. Between calls the host puts back the two words that a call has moved on, so that
//! every call of a row meets the same gate.

use std::hint::black_box;
use std::time::Instant;

#[repr(C)]
struct Answer {
    refusal: u64,
    number: u64,
}

extern "C" {
    fn ekhurtza_open(register: *mut u32, words: usize, book: *mut u64, book_words: usize, places: *const u64, places_words: usize) -> u64;
    #[rustfmt::skip]
    fn ekhurtza_call(
        register: *mut u32, words: usize, book: *mut u64, book_words: usize, places: *mut u64, places_words: usize,
        code: u64, a: u64, b: u64, c: u64, d: u64,
    ) -> Answer;
}

/// A host that lends its memory.
struct Host {
    register: Vec<u32>,
    book: Vec<u64>,
    places: Vec<u64>,
    units: u64,
}

const ACCEPTED: usize = 1;
const OPEN_OF_FIRST: usize = 3;
const FULL_QUANTITY: u64 = 10_000_000;

impl Host {
    fn call(&mut self, code: u64, a: u64, b: u64, c: u64, d: u64) -> (u64, u64) {
        let Host { register, book, places, .. } = self;
        // SAFETY: each pointer is valid for its length, and the three do not overlap.
        let answer = unsafe {
            ekhurtza_call(
                register.as_mut_ptr(), register.len(), book.as_mut_ptr(), book.len(), places.as_mut_ptr(), places.len(), code, a, b, c, d,
            )
        };
        (answer.refusal, answer.number)
    }

    /// A gate with these groups, units and order places, and as many orders since the close.
    fn new(groups: u64, units: u64, n: usize, orders: u64) -> Host {
        let mut host = Host { register: vec![7; 2000], book: vec![7; 194], places: vec![7; 4 * n], units };
        let Host { register, book, places, .. } = &mut host;
        // SAFETY: as above.
        let refusal = unsafe {
            ekhurtza_open(register.as_mut_ptr(), register.len(), book.as_mut_ptr(), book.len(), places.as_ptr(), places.len())
        };
        assert_eq!(refusal, 0);
        for i in 0..groups {
            assert_eq!(host.call(1, 1_000 + i, 3, 0, 0), (0, i));
            for declarer in 0..8 {
                assert_eq!(host.call(4, declarer, i, 300, 300), (0, 0));
            }
        }
        for k in 0..units {
            assert_eq!(host.call(2, 20_000 + k, k % groups, 0, 0), (0, 0));
        }
        assert_eq!(host.call(11, 0, 0, 0, 0), (0, 0));
        for k in 0..orders {
            assert_eq!(host.call(8, 20_000 + k % units, 4, 10_000, FULL_QUANTITY), (0, k + 1));
        }
        host
    }
}

#[derive(Clone, Copy)]
enum What {
    Sell,
    Refused,
    Fill,
}

/// Nanoseconds a call, over one round.
fn round(host: &mut Host, what: What, calls: u64) -> f64 {
    let accepted = host.book[ACCEPTED];
    let mut unexpected = 0;
    let start = Instant::now();
    for i in 0..calls {
        let unit = 20_000 + i % host.units;
        match what {
            What::Sell => {
                unexpected |= host.call(8, unit, 4, 10_000, 100).0;
                host.book[ACCEPTED] = accepted;
            }
            What::Refused => unexpected |= host.call(8, unit, 4, 10_000, 0).0 ^ 2,
            What::Fill => {
                unexpected |= host.call(9, 1, 10_000, 1, 0).0;
                host.places[OPEN_OF_FIRST] = FULL_QUANTITY;
            }
        }
        black_box(&mut host.book);
    }
    let ns = start.elapsed().as_nanos() as f64 / calls as f64;
    assert_eq!(unexpected, 0);
    ns
}

fn median(mut times: Vec<f64>) -> f64 {
    times.sort_by(f64::total_cmp);
    times[times.len() / 2]
}

/// A gate of the table: groups, units, N, orders so far.
type Case = (u64, u64, usize, u64);

fn table(title: &str, cases: &[Case]) {
    const ROUNDS: usize = 15;
    const CALLS: u64 = 4_000;
    let whats = [What::Sell, What::Refused, What::Fill];
    let mut hosts: Vec<Host> = cases.iter().map(|&(g, u, n, k)| Host::new(g, u, n, k)).collect();
    let mut times = vec![vec![vec![]; whats.len()]; cases.len()];
    for turn in 0..ROUNDS + 1 {
        for (host, of) in hosts.iter_mut().zip(&mut times) {
            for (what, of) in whats.iter().zip(of) {
                // A fill wants an order.
                if matches!(what, What::Fill) && host.book[ACCEPTED] == 0 {
                    continue;
                }
                let ns = round(host, *what, CALLS);
                if turn > 0 {
                    of.push(ns);
                }
            }
        }
    }
    println!("\n{title}\n");
    println!("| Groups | Units | N | Orders so far | Sell, accepted | Order, refused | Fill |");
    println!("|---|---|---|---|---|---|---|");
    for (&(groups, units, n, orders), of) in cases.iter().zip(times) {
        print!("| {groups} | {units} | {n} | {orders} |");
        for times in of {
            if times.is_empty() {
                print!(" |");
            } else {
                print!(" {:.0} |", median(times));
            }
        }
        println!();
    }
}

fn main() {
    println!("Nanoseconds a call through the library");
    table("With a full gate, and with one group and one unit", &[(64, 256, 2_048, 1_000), (1, 1, 2_048, 1_000)]);
    let growing: Vec<Case> = [1, 2, 4, 8, 16, 32, 64].iter().map(|&g| (g, 4 * g, 2_048, 1_000)).collect();
    table("Over groups, four units each", &growing);
    table("Over N", &[(64, 256, 64, 60), (64, 256, 2_048, 60), (64, 256, 65_536, 60)]);
    table("Over the orders so far", &[(64, 256, 65_536, 0), (64, 256, 65_536, 1_000), (64, 256, 65_536, 60_000)]);
}
