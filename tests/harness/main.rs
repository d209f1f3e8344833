//! Compares the library with the reference over random jobs, valid and damaged, in memories that are never cleared.

mod examples;
mod generate;
mod interface;
mod jobs;
mod lend;
mod random;
mod reference;
mod stack;
mod tally;

use jobs::{Harness, Spoil, CURRENT};
use std::sync::atomic::Ordering;
use std::time::Instant;

const USAGE: &str = "usage: tests/harness/run [JOBS [SEED]]
HARNESS_SPOIL=answers changes one bit of an answer or of a lent byte in 1 of 10,000 jobs, HARNESS_SPOIL=fault reads past a store:
both show that the harness notices.";

/// Files in binary form of which every prefix and every change of a byte is loaded.
const BINARY: [&[u8]; 4] = [
    b"aig 0 0 0 0 0\n",
    b"aig 5 2 0 2 3\n10\n6\n\x02\x02\x03\x02\x01\x02",
    b"aig 4 1 2 0 1 1\n2\n4 6\n8\n\x02\x02c\nany",
    b"aig 3 1 1 0 1 1 1\n7 1\n6\n3\n\x81\x80\x00\x03",
];

extern "C" {
    fn signal(number: i32, handler: extern "C" fn(i32)) -> usize;
    fn write(file: i32, bytes: *const u8, length: usize) -> isize;
    fn _exit(status: i32) -> !;
}

/// Says in which job an inaccessible page was touched. Only what a signal handler may call is called.
extern "C" fn fault(_: i32) {
    let mut digits = [b'0'; 20];
    let mut number = CURRENT.load(Ordering::Relaxed);
    for digit in digits.iter_mut().rev() {
        *digit += (number % 10) as u8;
        number /= 10;
    }
    let first = digits.iter().position(|&digit| digit != b'0').unwrap_or(19);
    for part in [b"fault in job ".as_slice(), &digits[first..], b": a page was touched that was not lent\n"] {
        unsafe { write(1, part.as_ptr(), part.len()) };
    }
    unsafe { _exit(1) }
}

fn arguments() -> Option<(u64, u64, Spoil)> {
    let numbers: Option<Vec<u64>> = std::env::args().skip(1).map(|argument| argument.parse().ok()).collect();
    let spoil = match std::env::var("HARNESS_SPOIL").as_deref() {
        Err(_) => Spoil::Nothing,
        Ok("answers") => Spoil::Answers,
        Ok("fault") => Spoil::Fault,
        Ok(_) => return None,
    };
    match numbers?[..] {
        [] => Some((1_000_000, 1, spoil)),
        [jobs] => Some((jobs, 1, spoil)),
        [jobs, seed] => Some((jobs, seed, spoil)),
        _ => None,
    }
}

fn main() {
    let Some((jobs, seed, spoil)) = arguments() else {
        eprintln!("{USAGE}");
        std::process::exit(2);
    };
    for number in [7, 11] {
        unsafe { signal(number, fault) };
    }
    let Some(examples) = examples::agree() else {
        println!("the reference does not give document 01's examples");
        std::process::exit(1);
    };
    if unsafe { interface::yunverok_version() } != interface::VERSION {
        println!("the library is not of version {}", interface::VERSION);
        std::process::exit(1);
    }
    println!("examples agree      {examples:>9}\nseed                {seed:>9}");
    let start = Instant::now();
    let mut harness = Harness::new(seed, spoil);
    for file in BINARY {
        harness.damaged(file);
    }
    println!("damaged files       {:>9}", harness.tally.damaged);
    while harness.tally.jobs < jobs {
        harness.job();
    }
    harness.tally.report(start.elapsed().as_secs_f64());
    std::process::exit(i32::from(harness.tally.differences > 0));
}
