//! Sequences of random calls of two users through the C interface, compared with two analysers that are kept apart: each has a circuit
//! memory and pins of its own, and learns of the other user's calls only the loads and joins that were accepted. Clause 12.7.
//! HARNESS_SPOIL=1 changes a pin in 1 of 200 calls without telling the analysers, which must be noticed.

#![allow(dead_code)]

mod analyser;
mod generate;
mod interface;
mod lend;
mod random;
mod reference;
mod shared;
mod stack;

use analyser::{own, Analyser};
use random::Random;
use reference::Circuit;
use shared::{Reply, Shared};
use stack::Painted;
use std::collections::BTreeMap;

/// What both users lend: it is never cleared between calls.
const WORK: usize = 40_000;

struct Run {
    random: Random,
    spoil: bool,
    shared: Shared,
    analysers: [Analyser; 2],
    /// What the bytes after the pins must hold.
    rest: Vec<u8>,
    tally: BTreeMap<&'static str, [u64; 2]>,
    /// The greatest depth of stack of each function, where the user holds no input of the circuit and where one is held.
    depth: BTreeMap<&'static str, [usize; 2]>,
    differences: u64,
    calls: u64,
}

impl Run {
    fn new(seed: u64, spoil: bool) -> Run {
        let mut random = Random(seed);
        let words = 256 + 8 * (20 + random.below(60)) as usize;
        let memory: Vec<u32> = (0..words).map(|_| random.word() as u32).collect();
        let work = (0..WORK).map(|_| random.word() as u32).collect();
        let length = random.choose(&[512, 512, 2560, 2560, 600, 300, 257, 2, 0]);
        let bytes: Vec<u8> = (0..length).map(|_| random.below(4) as u8).collect();
        let analysers = [0, 1].map(|user| Analyser::new(user, &memory, &bytes));
        let rest = bytes[bytes.len().min(512)..].to_vec();
        Run { random, spoil, shared: Shared { memory, work, bytes, painted: Painted::new(), paints: false }, analysers, rest, tally: BTreeMap::new(), depth: BTreeMap::new(), differences: 0, calls: 0 }
    }

    fn circuit(&mut self) -> Circuit {
        let r = &mut self.random;
        let mut plan = generate::small_plan(r, 600);
        plan.inputs = 1 + r.below(3);
        plan.latches = plan.latches.min(3);
        plan.bads = plan.bads.max(1).min(3);
        plan.gates = plan.gates.min(12);
        generate::circuit(r, &plan)
    }

    fn file(&mut self) -> Vec<u8> {
        let circuit = self.circuit();
        let mut text = generate::text(&mut self.random, &circuit);
        if self.random.one_in(6) {
            generate::damage_text(&mut self.random, &mut text);
        }
        text
    }

    fn output(&mut self, near: u64) -> Vec<u8> {
        let length = match self.random.below(8) {
            0 => near.saturating_sub(1 + self.random.below(3)),
            _ => near + self.random.below(20),
        };
        (0..length).map(|_| self.random.word() as u8).collect()
    }

    /// A witness for the circuit that the user sees, often one that obeys the pins, with some `x`.
    fn witness(&mut self, user: usize) -> Vec<u8> {
        let Some(c) = self.analysers[user & 1].circuit() else {
            return b"1\nb0\n\n\n.\n".to_vec();
        };
        let most = c.bads.len() as u64 + u64::from(self.random.one_in(9));
        let b = self.random.below(most);
        let rows = 1 + self.random.below(3);
        let mut text = generate::witness(&mut self.random, &c, b, rows);
        if !self.random.one_in(3) {
            text = self.analysers[user & 1].obedient(&c, &text);
        }
        let places: Vec<usize> = (0..text.len()).filter(|&i| text[i] == b'0' || text[i] == b'1').collect();
        for _ in 0..self.random.choose(&[0, 0, 1, 2, 4]) {
            let at = self.random.choose(&places);
            if at > 3 {
                text[at] = b'x';
            }
        }
        if self.random.one_in(12) {
            generate::damage_text(&mut self.random, &mut text);
        }
        text
    }

    fn call(&mut self) {
        if self.spoil && self.random.one_in(200) {
            let at = 256 * self.random.below(2) + self.random.below(2);
            if let Some(pin) = self.shared.bytes.get_mut(at as usize) {
                *pin ^= 1;
            }
        }
        let user = self.random.choose(&[0, 0, 0, 0, 1, 1, 1, 1, 1, 2]);
        let me = user as usize & 1;
        self.shared.paints = self.random.one_in(8);
        let holds = self.analysers[me].holds();
        let (name, got, expected): (&'static str, Reply, Reply) = match self.random.below(24) {
            0 => {
                let file = self.file();
                let expected = self.analysers[me].load(user, &file);
                ("load", self.shared.load(user, &file), expected)
            }
            1 => {
                let (first, second) = (self.circuit(), self.circuit());
                let images = [reference::image(&first), reference::image(&second)];
                let expected = self.analysers[me].join(user, &images[0], &images[1]);
                ("join", self.shared.join(user, &images[0], &images[1]), expected)
            }
            2..=6 => {
                let (input, value) = (self.random.below(4), self.random.choose(&[0, 1, 2, 2, 3]));
                let expected = self.analysers[me].pin(user, input, value);
                ("pin", self.shared.pin(user, input, value), expected)
            }
            7..=10 => {
                let (b, k, d) = (self.random.below(3), self.random.below(3), self.random.choose(&[0, 1, 2, 5, 40, 1000, 4096]));
                let need = self.analysers[me].circuit().map_or(20, |c| c.witness_length(b, k));
                let out = self.output(need);
                let got = self.shared.search(user, b, k, d, &out);
                ("search", got.clone(), self.analysers[me].search(user, b, k, d, WORK as u64, &out, &got))
            }
            11..=13 => {
                let (b, t) = (self.random.below(3), self.random.below(3));
                let need = self.analysers[me].circuit().map_or(20, |c| 24 * c.size(t) + 64);
                let out = self.output(need);
                let got = self.shared.fold(user, b, t, &out);
                let word = self.random.word();
                ("fold", got.clone(), self.analysers[me].fold(user, b, t, WORK as u64, &out, &got, word))
            }
            14..=16 => {
                let text = self.witness(me);
                let expected = self.analysers[me].replay(user, &text);
                ("replay", self.shared.replay(user, &text), expected)
            }
            17..=19 => {
                let text = self.witness(me);
                let out = self.output(text.len() as u64);
                let expected = self.analysers[me].widen(user, &text, &out);
                ("widen", self.shared.widen(user, &text, &out), expected)
            }
            20 => {
                let form = generate::form(&mut self.random);
                let text = if form == 1 { reference::binary_text } else { reference::text };
                let need = self.analysers[me].circuit().map_or(20, |c| text(&c).len() as u64);
                let out = self.output(need);
                let expected = self.analysers[me].write(user, form, &out);
                ("write", self.shared.write(user, form, &out), expected)
            }
            21 => {
                let file = self.file();
                let expected = self.analysers[me].preview(user, &file);
                ("preview", self.shared.preview(user, &file), expected)
            }
            _ => {
                let (text, only) = (self.witness(me), self.random.below(2));
                let out = self.output(1500);
                let expected = self.analysers[me].waveform(user, &text, only, &out);
                ("waveform", self.shared.waveform(user, &text, only, &out), expected)
            }
        };
        if expected.replaces {
            let memory = self.analysers[me].memory.clone();
            self.analysers[1 - me].replaced(&memory);
            self.rest.fill(0);
        }
        let depth = &mut self.depth.entry(name).or_insert([0, 0])[usize::from(holds)];
        *depth = got.depth.max(*depth);
        self.compare(name, user, &got, &expected);
    }

    fn compare(&mut self, name: &'static str, user: u64, got: &Reply, expected: &Reply) {
        self.calls += 1;
        let counts = self.tally.entry(kind(name, expected)).or_insert([0, 0]);
        counts[usize::from(expected.number != 0)] += 1;
        let mut faults = Vec::new();
        if got.number != expected.number || got.answer != expected.answer || got.out != expected.out {
            let all = |reply: &Reply| format!("{}, {:?} and {:?}", reply.number, reply.answer, reply.out);
            faults.push(format!("answered {}, expected {}", all(got), all(expected)));
        }
        for analyser in &self.analysers {
            if self.shared.memory != analyser.memory {
                faults.push(format!("circuit memory is not that of user {}", analyser.user));
            }
            if own(&self.shared.bytes, analyser.user) != analyser.pins {
                faults.push(format!("the pins of user {} changed", analyser.user));
            }
        }
        if !self.shared.bytes.ends_with(&self.rest) {
            faults.push("the bytes after the pins changed".to_string());
        }
        if !faults.is_empty() {
            self.differences += 1;
            println!("call {} {name} of user {user}: {}", self.calls, faults.join("; "));
        }
    }
}

/// The operation, and for search and replay what it said.
fn kind(name: &'static str, reply: &Reply) -> &'static str {
    match (name, reply.number, reply.answer[0]) {
        ("replay", 0, interface::NO) => "replay no",
        ("replay", 0, interface::ALL) => "replay all",
        ("replay", 0, _) => "replay mixed",
        ("search", 0, interface::FOUND) => "search found",
        ("search", 0, interface::NONE) => "search none",
        ("search", 0, interface::SPENT) => "search spent",
        _ => name,
    }
}

fn main() {
    let numbers: Vec<u64> = std::env::args().skip(1).map(|word| word.parse().expect("a number")).collect();
    let (runs, calls, seed) = match numbers[..] {
        [] => (40, 1000, 1),
        [runs] => (runs, 1000, 1),
        [runs, calls] => (runs, calls, 1),
        _ => (numbers[0], numbers[1], numbers[2]),
    };
    let spoil = std::env::var("HARNESS_SPOIL").is_ok();
    let mut total: BTreeMap<&'static str, [u64; 2]> = BTreeMap::new();
    let mut depth: BTreeMap<&'static str, [usize; 2]> = BTreeMap::new();
    let mut differences = 0;
    for number in 0..runs {
        let mut run = Run::new(seed.wrapping_mul(1_000_003).wrapping_add(number), spoil);
        while run.calls < calls {
            run.call();
        }
        differences += run.differences;
        for (name, counts) in run.tally {
            let sum = total.entry(name).or_insert([0, 0]);
            sum[0] += counts[0];
            sum[1] += counts[1];
        }
        for (name, bytes) in run.depth {
            let greatest = depth.entry(name).or_insert([0, 0]);
            *greatest = [0, 1].map(|holds| greatest[holds].max(bytes[holds]));
        }
    }
    println!("sequences of calls  {runs:>9}\ncalls in each       {calls:>9}");
    for (name, [answered, refused]) in total {
        println!("{name:<19} {answered:>9} answered, {refused:>8} refused");
    }
    println!("\ngreatest depth of stack, bytes\n{:<19} {:>9} {:>9}", "", "free", "held");
    for (name, [free, held]) in depth {
        println!("{name:<19} {free:>9} {held:>9}");
    }
    println!("\ndifferences         {differences:>9}");
    std::process::exit(i32::from(differences > 0));
}
