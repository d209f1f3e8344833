//! search FILE b k D: searches the circuit in FILE for bad line b, frames 0 to k, with a budget of D sequences for each frame. Prints
//! `found t` and the witness, `none k`, `spent t R` or `refused n`. Exit status: 0 for an answer, 1 for a refusal, 2 for a wrong call.

use std::io::{self, Read, Write};
use std::process::exit;
use std::ptr::null_mut;

#[rustfmt::skip]
#[link(name = "yunverok", kind = "static")]
extern "C" {
    fn yunverok_load(user: u64, shared: *mut u8, shared_len: u64, circuit: *mut u32, circuit_len: u64, file: *const u8, file_len: u64,
                     answer: *mut u64, answer_len: u64) -> u64;
    fn yunverok_search(user: u64, shared: *const u8, shared_len: u64, circuit: *const u32, circuit_len: u64, b: u64, k: u64, d: u64,
                       work: *mut u32, work_len: u64, out: *mut u8, out_len: u64, answer: *mut u64, answer_len: u64) -> u64;
}

/// The places of an answer and the kinds that are used here: library/yunverok.h has all of them.
const KIND: usize = 0;
const FRAME: usize = 1;
const LENGTH: usize = 2;
const REACHED: usize = 4;
const FOUND: u64 = 1;
const NONE: u64 = 2;

/// The sixteen places, or the number of a refusal.
type Answer = Result<[u64; 16], u64>;

/// The functions of library/yunverok.h on slices, for one user, who shares nothing: a borrow of Rust keeps the slices of a call from
/// overlapping.
fn load(circuit: &mut [u32], file: &[u8]) -> Answer {
    let (mut answer, len) = ([0; 16], circuit.len() as u64);
    let number = unsafe {
        yunverok_load(0, null_mut(), 0, circuit.as_mut_ptr(), len, file.as_ptr(), file.len() as u64, answer.as_mut_ptr(), 16)
    };
    if number == 0 { Ok(answer) } else { Err(number) }
}

fn search(circuit: &[u32], [b, k, d]: [u64; 3], work: &mut [u32], out: &mut [u8]) -> Answer {
    let (len, work_len, out_len) = (circuit.len() as u64, work.len() as u64, out.len() as u64);
    let mut answer = [0; 16];
    let (work, out) = (work.as_mut_ptr(), out.as_mut_ptr());
    let number = unsafe {
        yunverok_search(0, null_mut(), 0, circuit.as_ptr(), len, b, k, d, work, work_len, out, out_len, answer.as_mut_ptr(), 16)
    };
    if number == 0 { Ok(answer) } else { Err(number) }
}

fn arguments() -> Option<(String, [u64; 3])> {
    let mut words = std::env::args().skip(1);
    let name = words.next()?;
    let number = |word: String| if word.starts_with('+') { None } else { word.parse().ok() };
    let numbers: Vec<u64> = words.map(number).collect::<Option<_>>()?;
    Some((name, numbers.try_into().ok()?))
}

/// The bytes of the file, at most one more than a file may have, so that a longer one is seen and refused.
fn contents(name: &str) -> io::Result<Vec<u8>> {
    let mut file = Vec::new();
    std::fs::File::open(name)?.take(65_537).read_to_end(&mut file)?;
    Ok(file)
}

fn main() -> io::Result<()> {
    let Some((name, terms)) = arguments() else {
        eprintln!("usage: search FILE b k D");
        exit(2);
    };
    let file = contents(&name).unwrap_or_else(|error| {
        eprintln!("{name}: {error}");
        exit(2)
    });
    let (mut circuit, mut work, mut out) = (vec![0; 33_032], vec![0; 1_048_576], vec![0; 66_825]);
    let answer = load(&mut circuit, &file).and_then(|_| search(&circuit, terms, &mut work, &mut out));
    let answer = answer.unwrap_or_else(|number| {
        println!("refused {number}");
        exit(1)
    });
    match answer[KIND] {
        FOUND => {
            println!("found {}", answer[FRAME]);
            io::stdout().write_all(&out[..answer[LENGTH] as usize])?;
        }
        NONE => println!("none {}", answer[FRAME]),
        _ => println!("spent {} {}", answer[FRAME], answer[REACHED]),
    }
    Ok(())
}
