//! Times programs over one input, interleaved: `timer ROUNDS NAME INPUT PROGRAM...`. Prints a table line: the day's name, then for each program the median of
//! user + system time in ms, then for each program but the first the ratio of the first to it: the median of the rounds' ratios, in brackets their quartiles.
//! Processor time, not wall time, since the machine may be in use by others.

use std::fs::File;
use std::process::{Command, Stdio};

extern "C" {
    fn getrusage(who: i32, usage: *mut [i64; 18]) -> i32;
}

/// User and system time of all children that have ended, in ms.
fn children_ms() -> f64 {
    let mut usage = [0i64; 18];
    // SAFETY: struct rusage of x86-64 Linux is eighteen longs, the first four user and system time in seconds and microseconds.
    let status = unsafe { getrusage(-1, &mut usage) };
    assert_eq!(status, 0, "getrusage");
    (usage[0] + usage[2]) as f64 * 1e3 + (usage[1] + usage[3]) as f64 / 1e3
}

fn run_ms(program: &str, input: &str) -> f64 {
    let before = children_ms();
    let status = Command::new(program)
        .stdin(Stdio::from(File::open(input).expect("the input")))
        .stdout(Stdio::null())
        .status()
        .expect("the program");
    assert!(status.success(), "{program} failed");
    children_ms() - before
}

/// The lower quartile, the median and the upper quartile.
fn quartiles(mut values: Vec<f64>) -> [f64; 3] {
    values.sort_by(f64::total_cmp);
    [1, 2, 3].map(|k| values[k * (values.len() - 1) / 4])
}

fn main() {
    let args: Vec<String> = std::env::args().skip(1).collect();
    let [rounds, name, input, programs @ ..] = &args[..] else {
        eprintln!("timer ROUNDS NAME INPUT PROGRAM...");
        std::process::exit(2);
    };
    let rounds: usize = rounds.parse().expect("a number");
    let mut times = vec![vec![]; programs.len()];
    for round in 0..rounds + 1 {
        // Each round begins with another program.
        for k in 0..programs.len() {
            let p = (round + k) % programs.len();
            let ms = run_ms(&programs[p], input);
            // The first round warms up.
            if round > 0 {
                times[p].push(ms);
            }
        }
    }
    print!("| {name} |");
    for of in &times {
        print!(" {:.1} |", quartiles(of.clone())[1]);
    }
    for of in &times[1..] {
        let [low, middle, high] = quartiles(times[0].iter().zip(of).map(|(a, b)| a / b).collect());
        print!(" {middle:.2} ({low:.2} to {high:.2}) |");
    }
    println!();
}
