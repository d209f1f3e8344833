//! Random circuits, their files, witnesses, and damage to them. Nothing here knows what an operation answers. A circuit without outputs,
//! constraints, spare variables and free starts is one that the library generates.

use crate::interface;
use crate::random::Random;
use crate::reference::{self, Circuit, Gate, Latch};

/// How many of each kind a circuit has; `spare` variables are defined by nothing.
#[derive(Clone, Default)]
pub struct Plan {
    pub inputs: u64,
    pub latches: u64,
    pub gates: u64,
    pub outputs: u64,
    pub bads: u64,
    pub constraints: u64,
    pub spare: u64,
    /// One latch in this many starts free; 0 for none.
    pub free_one_in: u64,
}

impl Plan {
    /// Whether the operation generate has circuits of this plan.
    fn is_plain(&self) -> bool {
        let others = self.outputs + self.constraints + self.spare + self.free_one_in;
        self.inputs + self.latches > 0 && self.gates > 0 && self.bads == 1 && others == 0
    }
}

/// A plan whose circuit needs at most `words` words, mostly far fewer. One in three is plain, where there is room for it.
pub fn small_plan(r: &mut Random, words: u64) -> Plan {
    let most = (words.saturating_sub(256) / 8).saturating_sub(1).min(4096);
    let scale = if r.one_in(12) { 8 } else { 1 };
    let inputs = r.choose(&[0, 0, 1, 1, 1, 2, 2, 3]).min(most);
    let latches = r.below(5 * scale).min(most - inputs);
    let gates = r.below(14 * scale).min(most - inputs - latches);
    let spare = r.choose(&[0, 0, 0, 1, 3]).min(most - inputs - latches - gates);
    if r.one_in(3) {
        return Plan { inputs, latches, gates, bads: 1, ..Plan::default() };
    }
    Plan {
        inputs,
        latches,
        gates,
        spare,
        outputs: r.below(3),
        bads: r.choose(&[0, 1, 1, 1, 1, 1, 2, 3, 16]),
        constraints: r.choose(&[0, 0, 0, 1, 2, 4]),
        free_one_in: r.choose(&[0, 2, 2, 3, 5]),
    }
}

/// A plan at document 01's limits, or one whose frames reach the greatest size.
pub fn large_plan(r: &mut Random) -> Plan {
    let bads = 1 + r.below(16);
    let (inputs, latches, gates, constraints, free_one_in) = match r.below(10) {
        0 | 1 => (0, 1024, 3072, 0, r.choose(&[0, 100])),
        2 | 3 => (256, 768, 3072, 16, 2),
        4 => (8, 8, 300, 1, 3),
        5 => (256, r.below(100), r.below(200), 2, 4),
        6 => (0, 24, 254, r.below(2), 2),
        7 => (1, 12, 250, 1, 0),
        8 => (0, 255 + r.below(2), 254, 0, 1),
        _ => (r.below(257), r.below(700), r.below(3073), r.below(17), 3),
    };
    let spare = r.below(4097 - inputs - latches - gates);
    let outputs = r.choose(&[0, 1, 64]);
    if r.one_in(3) {
        return Plan { inputs, latches, gates, bads: 1, ..Plan::default() };
    }
    Plan { inputs, latches, gates, outputs, bads, constraints, free_one_in, spare: r.choose(&[0, spare]) }
}

/// One of the literals or its complement, recent ones preferred, or now and then a constant.
fn operand(r: &mut Random, literals: &[u64]) -> u64 {
    if literals.is_empty() || r.one_in(24) {
        return r.below(2);
    }
    let recent = literals.len().min(8);
    let from = if r.one_in(2) { &literals[literals.len() - recent..] } else { literals };
    r.choose(from) + r.below(2)
}

/// A bad line or constraint: mostly a gate or a latch, so that its value changes from frame to frame.
fn property(r: &mut Random, literals: &[u64]) -> u64 {
    let recent = literals.len().min(4);
    match r.below(3) {
        0 => operand(r, literals),
        _ if recent > 0 => r.choose(&literals[literals.len() - recent..]) + u64::from(r.one_in(4)),
        _ => operand(r, literals),
    }
}

fn reset(r: &mut Random, lit: u64, free_one_in: u64) -> u64 {
    if free_one_in > 0 && r.one_in(free_one_in) {
        return lit;
    }
    u64::from(r.one_in(4))
}

/// The circuit that the library generates of a seed and a plain plan, as the reference reads it.
fn generated(seed: u64, p: &Plan) -> Circuit {
    let (mut out, mut answer) = (vec![0; 55_798], [0; 16]);
    let room = out.len() as u64;
    let number = unsafe { interface::yunverok_generate(seed, p.inputs, p.latches, p.gates, out.as_mut_ptr(), room, answer.as_mut_ptr(), 16) };
    assert_eq!(number, 0, "generate of seed {seed} is refused");
    reference::load(&out[..answer[2] as usize], 33_032).expect("a generated circuit loads")
}

pub fn circuit(r: &mut Random, p: &Plan) -> Circuit {
    if p.is_plain() {
        return generated(r.word(), p);
    }
    let max_var = p.inputs + p.latches + p.gates + p.spare;
    let mut variables: Vec<u64> = (1..=max_var).collect();
    if r.one_in(2) {
        r.shuffle(&mut variables);
    }
    let mut unused = variables.into_iter().map(|v| 2 * v);
    let inputs: Vec<u64> = unused.by_ref().take(p.inputs as usize).collect();
    let mut latches: Vec<Latch> = unused.by_ref().take(p.latches as usize).map(|lit| Latch { lit, next: 0, reset: 0 }).collect();
    let mut literals: Vec<u64> = inputs.iter().copied().chain(latches.iter().map(|latch| latch.lit)).collect();
    let mut gates = Vec::new();
    for lit in unused.take(p.gates as usize) {
        gates.push(Gate { lit, left: operand(r, &literals), right: operand(r, &literals) });
        literals.push(lit);
    }
    for latch in &mut latches {
        latch.next = operand(r, &literals);
        latch.reset = reset(r, latch.lit, p.free_one_in);
    }
    if r.one_in(2) {
        r.shuffle(&mut gates);
    }
    let outputs = (0..p.outputs).map(|_| operand(r, &literals)).collect();
    let bads = (0..p.bads).map(|_| property(r, &literals)).collect();
    let constraints = (0..p.constraints).map(|_| property(r, &literals) ^ u64::from(r.one_in(2))).collect();
    Circuit { max_var, inputs, latches, outputs, bads, constraints, gates }
}

/// A chain of latches that begins at an input, each with a reset of 0 or now and then a free start, and the conjunction of some of
/// them as bad line: the first hit comes late, in frames and in counting order.
pub fn chain(r: &mut Random, length: u64) -> Circuit {
    let free_one_in = r.choose(&[4, 1000]);
    let lit = |i: u64| 2 * (i + 1);
    let latches: Vec<Latch> = (1..=length).map(|i| Latch { lit: lit(i), next: lit(i - 1), reset: 0 }).collect();
    let mut c = Circuit { max_var: 1 + 2 * length, inputs: vec![2], latches, ..Circuit::default() };
    let mut all = 1;
    for i in 1..=length {
        let gate = lit(length + i);
        c.gates.push(Gate { lit: gate, left: lit(i) + u64::from(r.one_in(4)), right: all });
        c.latches[i as usize - 1].reset = if r.one_in(free_one_in) { lit(i) } else { 0 };
        all = gate;
    }
    c.bads = vec![all];
    c
}

/// A counter of `bits` latches with an enable input, whose bad line is true when all latches are: the first hit comes late. Each bit
/// has four gates: latch and carry, neither, their exclusive or (the next value), and the conjunction of the latches so far.
pub fn counter(bits: u64) -> Circuit {
    let latch = |i: u64| 2 * (2 + i);
    let gate = |i: u64| 2 * (2 + bits + i);
    let (mut gates, mut latches, mut carry) = (Vec::new(), Vec::new(), 2);
    for i in 0..bits {
        let at = 4 * i;
        gates.push(Gate { lit: gate(at), left: latch(i), right: carry });
        gates.push(Gate { lit: gate(at + 1), left: latch(i) + 1, right: carry + 1 });
        gates.push(Gate { lit: gate(at + 2), left: gate(at) + 1, right: gate(at + 1) + 1 });
        let all = if i == 0 { 1 } else { gate(4 * i - 1) };
        gates.push(Gate { lit: gate(at + 3), left: latch(i), right: all });
        latches.push(Latch { lit: latch(i), next: gate(at + 2), reset: 0 });
        carry = gate(at);
    }
    let max_var = 1 + 5 * bits;
    Circuit { max_var, inputs: vec![2], latches, bads: vec![gate(4 * bits - 1)], gates, ..Circuit::default() }
}

/// Breaks a rule on definitions, uses, resets or the order of gates.
pub fn damage_circuit(r: &mut Random, c: &mut Circuit) {
    let wild = r.choose(&[0, 1, 2, 3, 2 * c.max_var, 2 * c.max_var + 1, 2 * c.max_var + 2, 4_294_967_298, 9_999_999_999]);
    let some = if r.one_in(3) { wild } else { r.below(2 * c.max_var + 2) };
    let gates = c.gates.len() as u64;
    match r.below(10) {
        8 | 9 if gates > 0 => drop(c.gates.remove(r.below(gates) as usize)),
        0 if gates > 0 => c.gates[r.below(gates) as usize].lit = some,
        1 | 2 if gates > 0 => c.gates[r.below(gates) as usize].left = some,
        3 if gates > 0 => {
            let (one, other) = (r.below(gates) as usize, r.below(gates) as usize);
            c.gates[one].right = c.gates[other].lit;
            c.gates[other].right = c.gates[one].lit;
        }
        4 if !c.inputs.is_empty() => c.inputs[0] = some,
        5 if !c.latches.is_empty() => c.latches[0].reset = some,
        6 if !c.latches.is_empty() => c.latches[0].next = some,
        _ if !c.bads.is_empty() => c.bads[0] = some,
        _ => c.outputs.push(some),
    }
}

/// The circuit's text in one of the forms that a file may have: fewer or more header numbers, resets of 0, a tail.
pub fn text(r: &mut Random, c: &Circuit) -> Vec<u8> {
    let canonical = reference::text(c);
    let mut lines: Vec<Vec<u8>> = canonical.split(|&byte| byte == b'\n').map(<[u8]>::to_vec).collect();
    lines.pop();
    while lines[0].ends_with(b" 0") && lines[0].split(|&byte| byte == b' ').count() > 6 && r.one_in(2) {
        let shorter = lines[0].len() - 2;
        lines[0].truncate(shorter);
    }
    if lines[0].split(|&byte| byte == b' ').count() == 8 && r.one_in(8) {
        let more = r.choose(&[" 0", " 0 0"]);
        lines[0].extend(more.bytes());
    }
    for (i, latch) in c.latches.iter().enumerate() {
        if latch.reset == 0 && r.one_in(3) {
            lines[1 + c.inputs.len() + i].extend(b" 0");
        }
    }
    let mut text: Vec<u8> = lines.iter().flat_map(|line| [line, b"\n".as_slice()].concat()).collect();
    if r.one_in(6) {
        text.extend(b"c\n");
        text.extend((0..r.below(20)).map(|_| r.word() as u8));
    }
    text
}

/// The circuit's text in binary form: some header numbers fewer, some differences in more groups than they need, a tail.
pub fn binary(r: &mut Random, c: &Circuit) -> Vec<u8> {
    let c = reference::renumbered(c);
    let mut text = reference::binary_lines(&c);
    let padded = r.one_in(3);
    for gate in &c.gates {
        for difference in [gate.lit - gate.left, gate.left - gate.right] {
            let mut groups = reference::groups(difference);
            if padded && r.one_in(4) {
                *groups.last_mut().unwrap() += 128;
                groups.extend((0..r.below(5 - groups.len() as u64)).map(|_| 128));
                groups.push(0);
            }
            text.extend(groups);
        }
    }
    if r.one_in(6) {
        text.extend(b"c\n");
        text.extend((0..r.below(20)).map(|_| r.word() as u8));
    }
    text
}

fn lines_of(text: &[u8]) -> Vec<Vec<u8>> {
    text.split_inclusive(|&byte| byte == b'\n').map(<[u8]>::to_vec).collect()
}

/// The number tokens: where each begins and ends.
fn tokens(text: &[u8]) -> Vec<(usize, usize)> {
    let mut found = Vec::new();
    let mut at = 0;
    while at < text.len() {
        let digits = text[at..].iter().take_while(|byte| byte.is_ascii_digit()).count();
        if digits > 0 {
            found.push((at, at + digits));
        }
        at += digits + 1;
    }
    found
}

/// Puts another number in the place of one: `first` is above 0 for one of the first tokens, that is the header.
fn change_number(r: &mut Random, text: &mut Vec<u8>, first: usize) {
    let all = tokens(text);
    let limit = if first > 0 { first.min(all.len()) } else { all.len() };
    if limit == 0 {
        return;
    }
    let (from, to) = all[r.below(limit as u64) as usize];
    let value: u64 = std::str::from_utf8(&text[from..to]).ok().and_then(|token| token.parse().ok()).unwrap_or(0);
    let other = match r.below(10) {
        0 => "0".to_string(),
        1 => "1".to_string(),
        2 => format!("0{value}"),
        3 => format!("{}", value.wrapping_add(4_294_967_296)),
        4 => r.choose(&["9999999999", "4294967295", "4294967296", "10000000000", "65537", "4097", "257", "17"]).to_string(),
        5 | 6 => format!("{}", value.saturating_sub(1)),
        7 => format!("{}", r.below(2 * value.min(9000) + 4)),
        _ => format!("{}", value.saturating_add(1)),
    };
    text.splice(from..to, other.bytes());
}

fn change_lines(r: &mut Random, text: &mut Vec<u8>) {
    let mut lines = lines_of(text);
    let count = lines.len() as u64;
    if count == 0 {
        return;
    }
    let (one, other) = (r.below(count) as usize, r.below(count) as usize);
    match r.below(3) {
        0 => lines.swap(one, other),
        1 => drop(lines.remove(one)),
        _ => {
            let doubled = lines[one].clone();
            lines.insert(other, doubled);
        }
    }
    *text = lines.concat();
}

fn change_byte(r: &mut Random, text: &mut Vec<u8>) {
    let byte = if r.one_in(4) { r.word() as u8 } else { r.choose(b"0123456789 \nacbg.x1010\r\t\0") };
    let at = r.below(text.len() as u64) as usize;
    match r.below(4) {
        _ if text.is_empty() => text.push(byte),
        0 => text[at] ^= 1 << r.below(8),
        1 => text[at] = byte,
        2 => text.insert(at, byte),
        _ => drop(text.remove(at)),
    }
}

/// A form of write: 0 or 1, or a number that is none.
pub fn form(r: &mut Random) -> u64 {
    match r.below(12) {
        0 => r.choose(&[2, 3, 256, 257, 4_294_967_295, 4_294_967_296, 4_294_967_297, 9_999_999_999, u64::MAX]),
        1 => r.word(),
        _ => r.below(2),
    }
}

/// One change to a text: bytes, numbers, lines, an early end or a wrong tail.
pub fn damage_text(r: &mut Random, text: &mut Vec<u8>) {
    match r.below(8) {
        0 | 1 => change_byte(r, text),
        2 => change_number(r, text, 9),
        3 => change_number(r, text, 0),
        4 => change_lines(r, text),
        5 => text.truncate(r.below(text.len() as u64) as usize),
        6 => text.extend(r.choose(&["c", "cx\n", " ", "\n", "i0 x\n", "0", "c \n", "c\r\n", "\nc\n", ".\n", "\0"]).bytes()),
        _ => text.extend_from_slice(&text[..r.below(text.len() as u64 + 1) as usize].to_vec()),
    }
}

/// A short text of any bytes, or of those that files have.
pub fn noise(r: &mut Random) -> Vec<u8> {
    let any = r.one_in(2);
    let length = 1 + r.below(60);
    (0..length).map(|_| if any { r.word() as u8 } else { r.choose(b"ag 0123456789\n \n") }).collect()
}

/// A file near the greatest length: a tail brings it there.
pub fn lengthen(r: &mut Random, text: &mut Vec<u8>) {
    text.extend(b"c\n");
    let length = r.choose(&[65_536, 65_537, 65_535, 70_000]);
    text.resize(length, r.word() as u8);
}

/// A witness of `rows` frames with random inputs whose start mostly agrees with the resets.
pub fn witness(r: &mut Random, c: &Circuit, b: u64, rows: u64) -> Vec<u8> {
    let mut text = format!("1\nb{b}\n").into_bytes();
    let wrong = r.one_in(8);
    for latch in &c.latches {
        let random = latch.free() || (wrong && r.one_in(2));
        text.push(b'0' + if random { r.below(2) as u8 } else { latch.reset as u8 });
    }
    text.push(b'\n');
    for _ in 0..rows {
        text.extend((0..c.inputs.len()).map(|_| b'0' + r.below(2) as u8));
        text.push(b'\n');
    }
    text.extend(b".\n");
    text
}
