//! The operations as documents 01 and 02 describe them, in plain Rust. For load, join, write and replay this computes the answer and every lent
//! word; of search and fold, where several answers are permitted, it judges the one that was given. Circuit memory has the layout of
//! docs/MEMORY.md. It is written from these documents alone, to be seen to be right; speed does not matter.

use std::collections::{HashMap, HashSet};

#[derive(Clone, PartialEq, Debug)]
pub struct Latch {
    pub lit: u64,
    pub next: u64,
    pub reset: u64,
}

#[derive(Clone, PartialEq, Debug)]
pub struct Gate {
    pub lit: u64,
    pub left: u64,
    pub right: u64,
}

#[derive(Clone, PartialEq, Default, Debug)]
pub struct Circuit {
    pub max_var: u64,
    pub inputs: Vec<u64>,
    pub latches: Vec<Latch>,
    pub outputs: Vec<u64>,
    pub bads: Vec<u64>,
    pub constraints: Vec<u64>,
    pub gates: Vec<Gate>,
}

impl Latch {
    pub fn free(&self) -> bool {
        self.reset == self.lit
    }
}

impl Circuit {
    pub fn counts(&self) -> [u64; 7] {
        let lengths = [&self.inputs, &self.outputs, &self.bads, &self.constraints].map(|list| list.len() as u64);
        let [i, o, b, c] = lengths;
        [self.max_var, i, self.latches.len() as u64, o, self.gates.len() as u64, b, c]
    }

    pub fn free_latches(&self) -> u64 {
        self.latches.iter().filter(|latch| latch.free()).count() as u64
    }

    /// n = U + I × (t+1)
    pub fn free_bits(&self, t: u64) -> u64 {
        self.free_latches() + self.inputs.len() as u64 * (t + 1)
    }

    /// (k+1) × (I+A+C+1) + U + 1
    pub fn size(&self, k: u64) -> u64 {
        let frame = self.inputs.len() + self.gates.len() + self.constraints.len() + 1;
        (k + 1) * frame as u64 + self.free_latches() + 1
    }

    pub fn witness_length(&self, b: u64, k: u64) -> u64 {
        let heading = "1\n".len() + format!("b{b}\n").len() + self.latches.len() + 1;
        heading as u64 + (k + 1) * (self.inputs.len() as u64 + 1) + ".\n".len() as u64
    }
}

/// The words of circuit memory that a circuit with greatest variable M needs.
pub fn needed(max_var: u64) -> u64 {
    8 * (max_var + 1) + 256
}

// Reading text

struct Text<'a> {
    bytes: &'a [u8],
    at: usize,
}

impl Text<'_> {
    fn peek(&self) -> Option<u8> {
        self.bytes.get(self.at).copied()
    }

    fn byte(&mut self) -> Option<u8> {
        let byte = self.peek()?;
        self.at += 1;
        Some(byte)
    }

    fn expect(&mut self, wanted: &[u8]) -> Option<()> {
        wanted.iter().try_for_each(|&w| if self.byte()? == w { Some(()) } else { None })
    }

    fn at_end(&self) -> bool {
        self.at == self.bytes.len()
    }

    /// 1 to 10 decimal digits with no leading zero, except 0 itself.
    fn number(&mut self) -> Option<u64> {
        let rest = &self.bytes[self.at..];
        let digits = rest.iter().take_while(|byte| byte.is_ascii_digit()).count();
        let leading_zero = digits > 1 && rest[0] == b'0';
        if digits == 0 || digits > 10 || leading_zero {
            return None;
        }
        self.at += digits;
        Some(rest[..digits].iter().fold(0, |value, digit| 10 * value + u64::from(digit - b'0')))
    }

    /// Numbers with one space between them, then a line feed; at least `least` of them and at most `most`.
    fn numbers(&mut self, least: usize, most: usize) -> Option<Vec<u64>> {
        let mut line = Vec::new();
        loop {
            line.push(self.number()?);
            match self.byte()? {
                b' ' => continue,
                b'\n' => break,
                _ => return None,
            }
        }
        (least <= line.len() && line.len() <= most).then_some(line)
    }

    /// A line of exactly `length` values 0 or 1.
    fn values(&mut self, length: usize) -> Option<Vec<bool>> {
        let mut row = Vec::new();
        for _ in 0..length {
            match self.byte()? {
                b'0' => row.push(false),
                b'1' => row.push(true),
                _ => return None,
            }
        }
        self.expect(b"\n")?;
        Some(row)
    }
}

// Load

/// Whether the header's first word is that of the binary form.
pub fn is_binary(file: &[u8]) -> bool {
    file.starts_with(b"aig ")
}

fn header(text: &mut Text) -> Option<Vec<u64>> {
    text.expect(if is_binary(text.bytes) { b"aig " } else { b"aag " })?;
    let mut counts = text.numbers(5, 9)?;
    counts.resize(9, 0);
    Some(counts)
}

fn counts_fit(counts: &[u64]) -> bool {
    let greatest = [4096, 256, 1024, 64, 3072, 16, 16, 0, 0];
    let each = counts.iter().zip(greatest).all(|(&count, most)| count <= most);
    each && counts[1] + counts[2] + counts[4] <= counts[0]
}

/// In binary form every variable has a definition.
fn counts_right(counts: &[u64], binary: bool) -> bool {
    counts_fit(counts) && (!binary || counts[1] + counts[2] + counts[4] == counts[0])
}

fn one_a_line(text: &mut Text, count: u64) -> Option<Vec<u64>> {
    (0..count).map(|_| Some(text.numbers(1, 1)?[0])).collect()
}

fn latch_line(text: &mut Text) -> Option<Latch> {
    let line = text.numbers(2, 3)?;
    Some(Latch { lit: line[0], next: line[1], reset: line.get(2).copied().unwrap_or(0) })
}

fn gate_line(text: &mut Text) -> Option<Gate> {
    let line = text.numbers(3, 3)?;
    Some(Gate { lit: line[0], left: line[1], right: line[2] })
}

fn tail(text: &mut Text) -> Option<()> {
    if text.at_end() {
        return Some(());
    }
    text.expect(b"c\n")
}

fn body(text: &mut Text, counts: &[u64]) -> Option<Circuit> {
    let circuit = Circuit {
        max_var: counts[0],
        inputs: one_a_line(text, counts[1])?,
        latches: (0..counts[2]).map(|_| latch_line(text)).collect::<Option<_>>()?,
        outputs: one_a_line(text, counts[3])?,
        bads: one_a_line(text, counts[5])?,
        constraints: one_a_line(text, counts[6])?,
        gates: (0..counts[4]).map(|_| gate_line(text)).collect::<Option<_>>()?,
    };
    tail(text)?;
    Some(circuit)
}

/// A difference: up to five groups of seven bits, lowest first, of up to 32 bits.
fn difference(text: &mut Text) -> Option<u64> {
    let mut value = 0;
    for group in 0..5 {
        let byte = u64::from(text.byte()?);
        value |= (byte & 127) << (7 * group);
        if byte < 128 {
            return (value < 1 << 32).then_some(value);
        }
    }
    None
}

fn binary_gate(text: &mut Text, lit: u64) -> Option<Gate> {
    let left = lit.checked_sub(difference(text)?)?;
    let right = left.checked_sub(difference(text)?)?;
    (left < lit).then_some(Gate { lit, left, right })
}

/// The sections of a file in binary form. The first fault counts: 5 in a line or the tail, 15 in a gate.
fn binary_body(text: &mut Text, counts: &[u64]) -> Result<Circuit, u32> {
    let (inputs, latches) = (counts[1], counts[2]);
    let mut circuit = Circuit { max_var: counts[0], inputs: (1..=inputs).map(|v| 2 * v).collect(), ..Circuit::default() };
    for i in 0..latches {
        let line = text.numbers(1, 2).ok_or(5u32)?;
        let reset = line.get(1).copied().unwrap_or(0);
        circuit.latches.push(Latch { lit: 2 * (inputs + 1 + i), next: line[0], reset });
    }
    circuit.outputs = one_a_line(text, counts[3]).ok_or(5u32)?;
    circuit.bads = one_a_line(text, counts[5]).ok_or(5u32)?;
    circuit.constraints = one_a_line(text, counts[6]).ok_or(5u32)?;
    for i in 0..counts[4] {
        circuit.gates.push(binary_gate(text, 2 * (inputs + latches + 1 + i)).ok_or(15u32)?);
    }
    tail(text).ok_or(5u32)?;
    Ok(circuit)
}

/// The literals that stand where a variable is defined.
fn defined(c: &Circuit) -> Vec<u64> {
    let latches = c.latches.iter().map(|latch| latch.lit);
    let gates = c.gates.iter().map(|gate| gate.lit);
    c.inputs.iter().copied().chain(latches).chain(gates).collect()
}

/// The literals that stand where a value is used.
fn used(c: &Circuit) -> Vec<u64> {
    let next = c.latches.iter().map(|latch| latch.next);
    let lists = [&c.outputs, &c.bads, &c.constraints].into_iter().flatten().copied();
    let operands = c.gates.iter().flat_map(|gate| [gate.left, gate.right]);
    next.chain(lists).chain(operands).collect()
}

fn literals_right(c: &Circuit) -> bool {
    let most = 2 * c.max_var + 1;
    let definitions = defined(c);
    let distinct: HashSet<u64> = definitions.iter().copied().collect();
    definitions.iter().all(|&lit| lit % 2 == 0 && 2 <= lit && lit <= most)
        && distinct.len() == definitions.len()
        && used(c).iter().all(|&lit| lit <= most)
        && c.latches.iter().all(|latch| latch.reset <= 1 || latch.free())
}

fn used_are_defined(c: &Circuit) -> bool {
    let variables: HashSet<u64> = defined(c).iter().map(|lit| lit / 2).collect();
    used(c).iter().all(|lit| *lit < 2 || variables.contains(&(lit / 2)))
}

/// The gates in an order in which each stands after the gates that it uses; none if gates depend on themselves.
pub fn gate_order(c: &Circuit) -> Option<Vec<usize>> {
    let mut users: Vec<Vec<usize>> = vec![Vec::new(); c.max_var as usize + 1];
    let gates: HashSet<u64> = c.gates.iter().map(|gate| gate.lit / 2).collect();
    let mut waits_for = vec![0; c.gates.len()];
    for (i, gate) in c.gates.iter().enumerate() {
        for operand in [gate.left / 2, gate.right / 2] {
            if gates.contains(&operand) {
                users[operand as usize].push(i);
                waits_for[i] += 1;
            }
        }
    }
    let mut order: Vec<usize> = (0..c.gates.len()).filter(|&i| waits_for[i] == 0).collect();
    let mut done = 0;
    while done < order.len() {
        for &user in &users[c.gates[order[done]].lit as usize / 2] {
            waits_for[user] -= 1;
            if waits_for[user] == 0 {
                order.push(user);
            }
        }
        done += 1;
    }
    (order.len() == c.gates.len()).then_some(order)
}

/// The circuit that a load of `file` into `memory_len` words accepts, or the number of the refusal.
pub fn load(file: &[u8], memory_len: u64) -> Result<Circuit, u32> {
    if file.is_empty() || file.len() > 65_536 {
        return Err(1);
    }
    let mut text = Text { bytes: file, at: 0 };
    let counts = header(&mut text).ok_or(2u32)?;
    if !counts_right(&counts, is_binary(file)) {
        return Err(3);
    }
    if memory_len < needed(counts[0]) {
        return Err(4);
    }
    let circuit = if is_binary(file) { binary_body(&mut text, &counts)? } else { body(&mut text, &counts).ok_or(5u32)? };
    if !literals_right(&circuit) {
        return Err(6);
    }
    if !used_are_defined(&circuit) {
        return Err(7);
    }
    gate_order(&circuit).ok_or(8u32)?;
    Ok(circuit)
}

/// The words that a file's circuit needs, 0 where its length, its header or its counts are wrong.
pub fn words_needed(file: &[u8]) -> u64 {
    if file.is_empty() || file.len() > 65_536 {
        return 0;
    }
    match header(&mut Text { bytes: file, at: 0 }) {
        Some(counts) if counts_right(&counts, is_binary(file)) => needed(counts[0]),
        _ => 0,
    }
}

// Circuit memory

/// The needed words of circuit memory after an accepted load.
pub fn image(c: &Circuit) -> Vec<u32> {
    let mut words: Vec<u64> = c.counts().to_vec();
    words.extend(&c.inputs);
    words.extend(c.latches.iter().flat_map(|latch| [latch.lit, latch.next, latch.reset]));
    words.extend(&c.outputs);
    words.extend(&c.bads);
    words.extend(&c.constraints);
    words.extend(c.gates.iter().flat_map(|gate| [gate.lit, gate.left, gate.right]));
    words.resize(needed(c.max_var) as usize, 0);
    words.into_iter().map(|word| word as u32).collect()
}

/// What stands in memory, read by the layout and not judged.
fn circuit_in(memory: &[u32]) -> Option<Circuit> {
    let counts = memory.get(..7)?;
    let mut at = 7;
    let mut section = |length: u32, width: usize| {
        let end = at + length as usize * width;
        let words: Vec<u64> = memory.get(at..end)?.iter().map(|&word| u64::from(word)).collect();
        at = end;
        Some(words)
    };
    Some(Circuit {
        max_var: u64::from(counts[0]),
        inputs: section(counts[1], 1)?,
        latches: section(counts[2], 3)?.chunks(3).map(|w| Latch { lit: w[0], next: w[1], reset: w[2] }).collect(),
        outputs: section(counts[3], 1)?,
        bads: section(counts[5], 1)?,
        constraints: section(counts[6], 1)?,
        gates: section(counts[4], 3)?.chunks(3).map(|w| Gate { lit: w[0], left: w[1], right: w[2] }).collect(),
    })
}

/// The circuit of an accepted load whose needed words stand in memory. If there is one, its own text is a file that loads to it.
pub fn held(memory: &[u32]) -> Option<Circuit> {
    let circuit = load(&text(&circuit_in(memory)?), memory.len() as u64).ok()?;
    let words = image(&circuit);
    (memory[..words.len()] == words).then_some(circuit)
}

// Join

/// The variables of a circuit and their new numbers: inputs from 1 on, latches and gates from the given numbers on. Variable 0 stays.
fn new_numbers(c: &Circuit, latch: u64, gate: u64) -> HashMap<u64, u64> {
    let mut numbers = HashMap::from([(0, 0)]);
    numbers.extend(c.inputs.iter().zip(1..).map(|(lit, number)| (lit / 2, number)));
    numbers.extend(c.latches.iter().zip(latch..).map(|(l, number)| (l.lit / 2, number)));
    numbers.extend(c.gates.iter().zip(gate..).map(|(g, number)| (g.lit / 2, number)));
    numbers
}

/// One circuit of two: shared inputs; latches, gates and constraints of the first, then of the second; three gates and a bad line a pair.
pub fn joined(c: &Circuit, d: &Circuit) -> Circuit {
    let count = |list: usize| list as u64;
    let latches = count(c.inputs.len()) + 1;
    let gates = latches + count(c.latches.len() + d.latches.len());
    let pairs = gates + count(c.gates.len() + d.gates.len());
    let mut both = Circuit { inputs: (1..latches).map(|v| 2 * v).collect(), ..Circuit::default() };
    let mut outputs = Vec::new();
    for (circuit, latch, gate) in [(c, latches, gates), (d, latches + count(c.latches.len()), gates + count(c.gates.len()))] {
        let numbers = new_numbers(circuit, latch, gate);
        let lit = |l: u64| 2 * numbers[&(l / 2)] + l % 2;
        both.latches.extend(circuit.latches.iter().map(|l| Latch { lit: lit(l.lit), next: lit(l.next), reset: lit(l.reset) }));
        both.constraints.extend(circuit.constraints.iter().map(|&l| lit(l)));
        both.gates.extend(circuit.gates.iter().map(|g| Gate { lit: lit(g.lit), left: lit(g.left), right: lit(g.right) }));
        outputs.push(circuit.outputs.iter().map(|&l| lit(l)).collect::<Vec<u64>>());
    }
    for (j, (&p, &q)) in outputs[0].iter().zip(&outputs[1]).enumerate() {
        let v = 2 * (pairs + 3 * count(j));
        both.gates.push(Gate { lit: v, left: p, right: q ^ 1 });
        both.gates.push(Gate { lit: v + 2, left: p ^ 1, right: q });
        both.gates.push(Gate { lit: v + 4, left: v + 1, right: v + 3 });
        both.bads.push(v + 5);
    }
    both.max_var = count(both.inputs.len() + both.latches.len() + both.gates.len());
    both
}

pub fn join(first: &[u32], second: &[u32], third_len: u64) -> Result<Circuit, u32> {
    let (c, d) = (held(first).ok_or(9u32)?, held(second).ok_or(9u32)?);
    if !(1..=16).contains(&c.outputs.len()) || c.inputs.len() != d.inputs.len() || c.outputs.len() != d.outputs.len() {
        return Err(17);
    }
    let both = joined(&c, &d);
    let [m, i, l, o, a, b, k] = both.counts();
    if !counts_fit(&[m, i, l, o, a, b, k, 0, 0]) {
        return Err(3);
    }
    if third_len < needed(both.max_var) {
        return Err(4);
    }
    Ok(both)
}

// Write

/// Seven header numbers, definitions in file order, a reset only where it is not 0, and no tail.
pub fn text(c: &Circuit) -> Vec<u8> {
    let counts = c.counts().map(|count| count.to_string()).join(" ");
    let mut lines = vec![format!("aag {counts}")];
    lines.extend(c.inputs.iter().map(u64::to_string));
    lines.extend(c.latches.iter().map(|latch| match latch.reset {
        0 => format!("{} {}", latch.lit, latch.next),
        reset => format!("{} {} {reset}", latch.lit, latch.next),
    }));
    lines.extend([&c.outputs, &c.bads, &c.constraints].into_iter().flatten().map(u64::to_string));
    lines.extend(c.gates.iter().map(|gate| format!("{} {} {}", gate.lit, gate.left, gate.right)));
    lines.iter().flat_map(|line| format!("{line}\n").into_bytes()).collect()
}

/// The circuit with its variables numbered in the order of the binary form: inputs, latches, then each time the earliest listed gate whose
/// operands have numbers; of a gate's operands the larger one first.
pub fn renumbered(c: &Circuit) -> Circuit {
    let mut numbers: HashMap<u64, u64> = HashMap::from([(0, 0)]);
    let leaves = c.inputs.iter().copied().chain(c.latches.iter().map(|latch| latch.lit));
    for lit in leaves {
        numbers.insert(lit / 2, numbers.len() as u64);
    }
    let mut waiting: Vec<&Gate> = c.gates.iter().collect();
    let mut order = Vec::new();
    while let Some(first) = waiting.iter().position(|g| [g.left, g.right].iter().all(|lit| numbers.contains_key(&(lit / 2)))) {
        let gate = waiting.remove(first);
        numbers.insert(gate.lit / 2, numbers.len() as u64);
        order.push(gate);
    }
    let to = |lit: &u64| 2 * numbers[&(lit / 2)] + lit % 2;
    let all = |list: &[u64]| list.iter().map(to).collect();
    Circuit {
        max_var: numbers.len() as u64 - 1,
        inputs: all(&c.inputs),
        latches: c.latches.iter().map(|l| Latch { lit: to(&l.lit), next: to(&l.next), reset: if l.reset < 2 { l.reset } else { to(&l.reset) } }).collect(),
        outputs: all(&c.outputs),
        bads: all(&c.bads),
        constraints: all(&c.constraints),
        gates: order.iter().map(|g| Gate { lit: to(&g.lit), left: to(&g.left).max(to(&g.right)), right: to(&g.left).min(to(&g.right)) }).collect(),
    }
}

/// A difference in the fewest groups.
pub fn groups(mut value: u64) -> Vec<u8> {
    let mut bytes = Vec::new();
    while value > 127 {
        bytes.push(128 + (value % 128) as u8);
        value /= 128;
    }
    bytes.push(value as u8);
    bytes
}

/// The text of a renumbered circuit in binary form, up to the gates.
pub fn binary_lines(c: &Circuit) -> Vec<u8> {
    let counts = c.counts().map(|count| count.to_string()).join(" ");
    let mut lines = vec![format!("aig {counts}")];
    lines.extend(c.latches.iter().map(|latch| match latch.reset {
        0 => format!("{}", latch.next),
        reset => format!("{} {reset}", latch.next),
    }));
    lines.extend([&c.outputs, &c.bads, &c.constraints].into_iter().flatten().map(u64::to_string));
    lines.iter().flat_map(|line| format!("{line}\n").into_bytes()).collect()
}

/// The text of a circuit in binary form, with new numbers.
pub fn binary_text(c: &Circuit) -> Vec<u8> {
    let c = renumbered(c);
    let differences = c.gates.iter().flat_map(|gate| [gate.lit - gate.left, gate.left - gate.right]);
    [binary_lines(&c), differences.flat_map(groups).collect()].concat()
}

/// Form 0 is the text, form 1 the binary form.
pub fn write(memory: &[u32], form: u64, out_len: u64) -> Result<Vec<u8>, u32> {
    if form > 1 {
        return Err(21);
    }
    let circuit = held(memory).ok_or(9u32)?;
    let text = if form == 1 { binary_text(&circuit) } else { text(&circuit) };
    if out_len < text.len() as u64 {
        return Err(13);
    }
    Ok(text)
}

// Generate

/// Clause 12.12: the text of the circuit of a seed and counts. A draw is the state after its step, and its upper half chooses a literal.
pub fn generate(seed: u64, [i, l, a]: [u64; 3], out_len: u64) -> Result<Vec<u8>, u32> {
    let all = u128::from(i) + u128::from(l) + u128::from(a);
    if i > 256 || l > 1024 || a > 3072 || all > 4096 || i + l == 0 || a == 0 {
        return Err(3);
    }
    let (top, mut state) = (i + l + a, seed);
    let mut literal = |allowed: u64| {
        state = state.wrapping_mul(6_364_136_223_846_793_005).wrapping_add(1_442_695_040_888_963_407);
        (state >> 32) % allowed
    };
    let mut lines = vec![format!("aag {top} {i} {l} 0 {a} 1")];
    lines.extend((1..=i).map(|v| format!("{}", 2 * v)));
    lines.extend((i + 1..=i + l).map(|v| format!("{} {}", 2 * v, literal(2 * top + 2))));
    lines.push(format!("{}", 2 * top));
    for v in i + l + 1..=top {
        let (first, second) = (literal(2 * v), literal(2 * v));
        lines.push(format!("{} {first} {second}", 2 * v));
    }
    let text: Vec<u8> = lines.iter().flat_map(|line| format!("{line}\n").into_bytes()).collect();
    if out_len < text.len() as u64 { Err(13) } else { Ok(text) }
}

// Frames

/// Computes the values of frames. Each of the 64 bits of a word is a run of its own.
struct Evaluator<'a> {
    circuit: &'a Circuit,
    order: Vec<usize>,
    values: Vec<u64>,
}

impl<'a> Evaluator<'a> {
    fn new(circuit: &'a Circuit) -> Self {
        let order = gate_order(circuit).expect("an accepted circuit has an order");
        Evaluator { circuit, order, values: vec![0; circuit.max_var as usize + 1] }
    }

    fn value(&self, lit: u64) -> u64 {
        let value = self.values[lit as usize / 2];
        if lit % 2 == 1 { !value } else { value }
    }

    /// Sets the values of one frame from those of its latches and inputs.
    fn frame(&mut self, latches: &[u64], inputs: &[u64]) {
        let c = self.circuit;
        for (latch, &value) in c.latches.iter().zip(latches) {
            self.values[latch.lit as usize / 2] = value;
        }
        for (&lit, &value) in c.inputs.iter().zip(inputs) {
            self.values[lit as usize / 2] = value;
        }
        for &i in &self.order {
            let gate = &c.gates[i];
            self.values[gate.lit as usize / 2] = self.value(gate.left) & self.value(gate.right);
        }
    }

    /// The runs in which every constraint is true in the frame.
    fn allowed(&self) -> u64 {
        self.circuit.constraints.iter().fold(!0, |all, &lit| all & self.value(lit))
    }

    /// The runs that hit b in the last of the frames whose input values `rows` gives, frame by frame: every constraint is true in each frame.
    fn hits(&mut self, b: u64, start: &[u64], rows: &[u64], frames: u64) -> u64 {
        let c = self.circuit;
        let width = c.inputs.len();
        let mut latches = start.to_vec();
        let mut allowed = !0;
        for frame in 0..frames as usize {
            self.frame(&latches, &rows[frame * width..][..width]);
            allowed &= self.allowed();
            latches = c.latches.iter().map(|latch| self.value(latch.next)).collect();
        }
        allowed & self.value(c.bads[b as usize])
    }

    /// The same for the sequences of frame t that the words of `free` give to its free bits.
    fn hits_of(&mut self, b: u64, t: u64, free: &[u64]) -> u64 {
        let (start, rows) = start_and_rows(self.circuit, free);
        self.hits(b, &start, rows, t + 1)
    }
}

/// The start values of the latches, and the rows: free bits are first those of the free latches, then the inputs frame by frame.
fn start_and_rows<'f>(c: &Circuit, free: &'f [u64]) -> (Vec<u64>, &'f [u64]) {
    let (of_latches, rows) = free.split_at(c.free_latches() as usize);
    let mut next_free = of_latches.iter();
    let start = c.latches.iter().map(|latch| match latch.reset {
        0 => 0,
        1 => !0,
        _ => *next_free.next().expect("a bit for each free latch"),
    });
    (start.collect(), rows)
}

/// Sequence x of n free bits in counting order, the first free bit the most significant one.
fn sequence(n: u64, x: u64) -> Vec<u64> {
    let bit = |place: u64| if place < 64 && x >> place & 1 == 1 { !0 } else { 0 };
    (0..n).map(|j| bit(n - 1 - j)).collect()
}

// Search

#[derive(Clone, Copy, PartialEq, Debug)]
pub enum Said {
    Found(u64),
    Nothing(u64),
    /// The frame, and the place that was reached in it.
    Spent(u64, u64),
}

/// The circuit to search, or the number of the refusal.
pub fn search_tests(memory: &[u32], b: u64, k: u64, d: u64, work_len: u64, out_len: u64) -> Result<Circuit, u32> {
    let c = held(memory).ok_or(9u32)?;
    let budget_wrong = d == 0 || d > 4_294_967_296;
    bounds_tests(&c, b, k, budget_wrong, work_len)?;
    if out_len < c.witness_length(b, k) {
        return Err(13);
    }
    Ok(c)
}

/// The tests 10, 11 and 12 of search and fold.
fn bounds_tests(c: &Circuit, b: u64, k: u64, budget_wrong: bool, work_len: u64) -> Result<(), u32> {
    if b >= c.bads.len() as u64 {
        return Err(10);
    }
    if k > 255 || budget_wrong {
        return Err(11);
    }
    let size = c.size(k);
    if size > 65_536 || work_len < 16 * size {
        return Err(12);
    }
    Ok(())
}

/// No more than 2 to the power of this many sequences are tried in a frame.
const MOST_BITS: u64 = 14;

/// The first hit among the first `count` sequences of frame t.
fn first_hit(evaluator: &mut Evaluator, b: u64, t: u64, count: u64) -> Option<u64> {
    let n = evaluator.circuit.free_bits(t);
    (0..count).find(|&x| evaluator.hits_of(b, t, &sequence(n, x)) & 1 == 1)
}

/// The greatest place that is told.
const GREATEST: u64 = 1 << 62;

/// Whether a frame of n free bits may be spent with a budget of d and this place, as far as no hit matters.
pub fn reached_fits(n: u64, d: u64, reached: u64) -> Result<(), String> {
    if reached < d.min(GREATEST) || reached > GREATEST || (n < 64 && reached >= 1 << n) {
        return Err(format!("place {reached} cannot be reached in a frame of {n} free bits with budget {d}"));
    }
    Ok(())
}

/// The number of a sequence, or 2 to the power 63 where it is not below.
fn number_of(free: &[u64]) -> u64 {
    free.iter().fold(0u64, |x, &bit| if x >> 62 != 0 { 1 << 63 } else { 2 * x + (bit & 1) })
}

/// Whether frame t may be spent with this place: none of the sequences before it hits, as far as they can be tried or the states tell.
fn reached_permitted(evaluator: &mut Evaluator, b: u64, t: u64, d: u64, reached: u64, states: Option<&[Reached]>) -> Result<(), String> {
    reached_fits(evaluator.circuit.free_bits(t), d, reached)?;
    if let Some(x) = first_hit(evaluator, b, t, reached.min(d.max(1 << MOST_BITS))) {
        return Err(format!("sequence {x} of frame {t} is a hit before place {reached}"));
    }
    match states.and_then(|states| step(evaluator, b, states)) {
        Some((Some(free), _)) if number_of(&free) < reached => Err(format!("frame {t} has a hit before place {reached}")),
        _ => Ok(()),
    }
}

/// A state of a frame, and the free bits of the first prefix in counting order that leads to it.
struct Reached {
    latches: Vec<u64>,
    free: Vec<u64>,
}

/// No more than this many pairs of a state and a row are tried in a frame.
const MOST_PAIRS: u64 = 1 << 16;

/// The start states, each once, in counting order.
fn starts(c: &Circuit) -> Option<Vec<Reached>> {
    let n = c.free_latches();
    if n > 12 {
        return None;
    }
    let free = (0..1 << n).map(|x| sequence(n, x));
    Some(free.map(|free| Reached { latches: start_and_rows(c, &free).0, free }).collect())
}

/// The free bits of the first hit of a frame whose states are given in counting order, and the states of the next frame, each once. A row
/// that breaks a constraint leads to no state.
fn step(evaluator: &mut Evaluator, b: u64, states: &[Reached]) -> Option<(Option<Vec<u64>>, Vec<Reached>)> {
    let c = evaluator.circuit;
    let width = c.inputs.len() as u64;
    if width > 16 || (states.len() as u64) << width > MOST_PAIRS {
        return None;
    }
    let mut met = std::collections::HashSet::new();
    let mut next = Vec::new();
    for state in states {
        for first in (0..1u64 << width).step_by(64) {
            let rows = sequences_from(width, first);
            evaluator.frame(&state.latches, &rows);
            let allowed = evaluator.allowed();
            let hits = allowed & evaluator.value(c.bads[b as usize]);
            let after: Vec<u64> = c.latches.iter().map(|latch| evaluator.value(latch.next)).collect();
            for p in 0..(1u64 << width).min(64) {
                let of = |word: &u64| if word >> p & 1 == 1 { !0 } else { 0 };
                let free = || state.free.iter().copied().chain(rows.iter().map(of)).collect::<Vec<u64>>();
                if hits >> p & 1 == 1 {
                    return Some((Some(free()), next));
                }
                let latches: Vec<u64> = after.iter().map(of).collect();
                if allowed >> p & 1 == 1 && met.insert(latches.clone()) {
                    next.push(Reached { latches, free: free() });
                }
            }
        }
    }
    Some((None, next))
}

/// What is known of an answer: the text that goes with it, or that it cannot be judged here.
pub enum Judged {
    Text(Vec<u8>),
    Unjudged,
}

/// Whether a search that is not refused may say `said`: then the text that it writes, else why not. A frame is judged by its states, or, where
/// they are too many, by its sequences.
pub fn search_permits(c: &Circuit, b: u64, k: u64, d: u64, said: Said) -> Result<Judged, String> {
    let mut evaluator = Evaluator::new(c);
    let mut states = starts(c);
    for t in 0..=k {
        let n = c.free_bits(t);
        let more_than_budget = n > 32 || 1 << n > d;
        if let Said::Spent(at, reached) = said {
            if at == t && more_than_budget {
                reached_permitted(&mut evaluator, b, t, d, reached, states.as_deref())?;
                return Ok(Judged::Text(Vec::new()));
            }
        }
        let stepped = states.as_deref().and_then(|states| step(&mut evaluator, b, states));
        let hit = match stepped {
            Some((hit, next)) => {
                states = Some(next);
                hit
            }
            None if n <= MOST_BITS => {
                states = None;
                first_hit(&mut evaluator, b, t, 1 << n).map(|x| sequence(n, x))
            }
            None => return Ok(Judged::Unjudged),
        };
        if let Some(free) = hit {
            let expected = Said::Found(t);
            return if said == expected { Ok(Judged::Text(witness_of(c, b, t, &free))) } else { Err(format!("expected {expected:?}")) };
        }
    }
    let expected = Said::Nothing(k);
    if said == expected { Ok(Judged::Text(Vec::new())) } else { Err(format!("expected {expected:?}")) }
}

/// Whether some frame has a hit, however late, where the states are few enough to tell.
pub fn some_frame_hits(c: &Circuit, b: u64) -> Option<bool> {
    let mut evaluator = Evaluator::new(c);
    let mut states = starts(c)?;
    let mut met: HashSet<Vec<u64>> = states.iter().map(|state| state.latches.clone()).collect();
    while !states.is_empty() {
        let (hit, next) = step(&mut evaluator, b, &states)?;
        if hit.is_some() {
            return Some(true);
        }
        states = next.into_iter().filter(|state| met.insert(state.latches.clone())).collect();
        if met.len() > 1 << 12 {
            return None;
        }
    }
    Some(false)
}

/// The frame and number of the first hit, if the first `limit` sequences of each frame up to k show it.
pub fn early_hit(c: &Circuit, b: u64, k: u64, limit: u64) -> Option<(u64, u64)> {
    let mut evaluator = Evaluator::new(c);
    for t in 0..=k {
        let n = c.free_bits(t);
        let all = n < 63 && 1 << n <= limit;
        let count = if all { 1 << n } else { limit };
        match first_hit(&mut evaluator, b, t, count) {
            Some(x) => return Some((t, x)),
            None if all => continue,
            None => return None,
        }
    }
    None
}

fn row(values: &[u64]) -> String {
    values.iter().map(|value| if value & 1 == 1 { '1' } else { '0' }).collect()
}

/// AIGER's witness of sequence x of frame t.
pub fn witness(c: &Circuit, b: u64, t: u64, x: u64) -> Vec<u8> {
    witness_of(c, b, t, &sequence(c.free_bits(t), x))
}

/// The same for the sequence whose free bits are given.
fn witness_of(c: &Circuit, b: u64, t: u64, free: &[u64]) -> Vec<u8> {
    let (start, rows) = start_and_rows(c, free);
    let width = c.inputs.len();
    let mut lines = vec!["1".to_string(), format!("b{b}"), row(&start)];
    lines.extend((0..=t as usize).map(|frame| row(&rows[frame * width..][..width])));
    lines.push(".".to_string());
    lines.iter().flat_map(|line| format!("{line}\n").into_bytes()).collect()
}

// Replay

struct Witness {
    b: u64,
    start: Vec<bool>,
    rows: Vec<Vec<bool>>,
}

fn read_witness(c: &Circuit, bytes: &[u8]) -> Option<Witness> {
    let mut text = Text { bytes, at: 0 };
    text.expect(b"1\nb")?;
    let b = text.number()?;
    text.expect(b"\n")?;
    let start = text.values(c.latches.len())?;
    let mut rows = Vec::new();
    while text.peek()? != b'.' {
        rows.push(text.values(c.inputs.len())?);
    }
    text.expect(b".\n")?;
    let well_formed = text.at_end() && 1 <= rows.len() && rows.len() <= 256 && b < c.bads.len() as u64;
    well_formed.then_some(Witness { b, start, rows })
}

/// What replay says of the completions of a witness.
#[derive(Clone, Copy, Debug, PartialEq)]
pub enum Verdict {
    No,
    All,
    Mixed,
}

/// Where `x` stands after the second line.
pub fn either_places(bytes: &[u8]) -> Vec<usize> {
    let feeds: Vec<usize> = (0..bytes.len()).filter(|&i| bytes[i] == b'\n').collect();
    let body = feeds.get(1).map_or(bytes.len(), |&at| at + 1);
    (body..bytes.len()).filter(|&i| bytes[i] == b'x').collect()
}

pub fn completion(bytes: &[u8], places: &[usize], v: u64) -> Vec<u8> {
    let mut text = bytes.to_vec();
    for (i, &place) in places.iter().enumerate() {
        text[place] = if v >> i & 1 == 1 { b'1' } else { b'0' };
    }
    text
}

/// Whether a text without `x` is a hit.
pub fn is_hit(c: &Circuit, text: &[u8]) -> bool {
    let witness = read_witness(c, text).expect("a witness");
    let agrees = c.latches.iter().zip(&witness.start).all(|(latch, &value)| latch.free() || (latch.reset == 1) == value);
    let words = |row: &[bool]| row.iter().map(|&value| if value { !0 } else { 0 }).collect::<Vec<u64>>();
    let rows = witness.rows.concat();
    let hits = Evaluator::new(c).hits(witness.b, &words(&witness.start), &words(&rows), witness.rows.len() as u64);
    agrees && hits & 1 == 1
}

fn verdict(c: &Circuit, bytes: &[u8]) -> Verdict {
    let places = either_places(bytes);
    let mut seen = [false; 2];
    for v in 0..1u64 << places.len() {
        seen[usize::from(is_hit(c, &completion(bytes, &places, v)))] = true;
        if seen[0] && seen[1] {
            return Verdict::Mixed;
        }
    }
    if seen[1] { Verdict::All } else { Verdict::No }
}

pub fn witness_tests(memory: &[u32], bytes: &[u8]) -> Result<Circuit, u32> {
    let c = held(memory).ok_or(9u32)?;
    let places = either_places(bytes);
    read_witness(&c, &completion(bytes, &places, 0)).ok_or(14u32)?;
    if places.len() > 16 { Err(16) } else { Ok(c) }
}

pub fn replay(memory: &[u32], bytes: &[u8]) -> Result<Verdict, u32> {
    Ok(verdict(&witness_tests(memory, bytes)?, bytes))
}

/// The widened witness, by trying each text with one `x` more.
pub fn widen(memory: &[u32], bytes: &[u8], out_len: u64) -> Result<Vec<u8>, u32> {
    let c = witness_tests(memory, bytes)?;
    if out_len < bytes.len() as u64 {
        return Err(13);
    }
    let mut text = bytes.to_vec();
    if verdict(&c, &text) != Verdict::All {
        return Ok(text);
    }
    let body = bytes.iter().enumerate().filter(|(_, &byte)| byte == b'\n').nth(1).map_or(0, |(at, _)| at + 1);
    for i in (body..text.len()).rev() {
        let byte = text[i];
        if (byte == b'0' || byte == b'1') && either_places(&text).len() < 16 {
            text[i] = b'x';
            if verdict(&c, &text) != Verdict::All {
                text[i] = byte;
            }
        }
    }
    Ok(text)
}

// Waveform

/// The wires that are shown, each with its literal.
fn wires(c: &Circuit, only: bool) -> Vec<(String, u64)> {
    let parts: [(char, Vec<u64>); 5] = [
        ('i', c.inputs.clone()),
        ('l', c.latches.iter().map(|latch| latch.lit).collect()),
        ('o', c.outputs.clone()),
        ('b', c.bads.clone()),
        ('c', c.constraints.clone()),
    ];
    let named = |(kind, lits): &(char, Vec<u64>)| lits.iter().enumerate().map(|(i, &lit)| (format!("{kind}{i}"), lit)).collect::<Vec<_>>();
    parts[..if only { 1 } else { 5 }].iter().flat_map(named).collect()
}

/// The values of the wires in the run of a witness without `x`, frame after frame.
fn levels(c: &Circuit, wires: &[(String, u64)], witness: &Witness) -> Vec<u8> {
    let mut evaluator = Evaluator::new(c);
    let mut latches: Vec<u64> = witness.start.iter().map(|&value| u64::from(value)).collect();
    let mut values = Vec::new();
    for row in &witness.rows {
        evaluator.frame(&latches, &row.iter().map(|&value| u64::from(value)).collect::<Vec<u64>>());
        values.extend(wires.iter().map(|(_, lit)| b'0' + (evaluator.value(*lit) & 1) as u8));
        latches = c.latches.iter().map(|latch| evaluator.value(latch.next)).collect();
    }
    values
}

/// The text: each wire is declared, and after each time mark stand the values of all.
fn waveform_text(wires: &[(String, u64)], frames: usize, levels: &[u8]) -> Vec<u8> {
    let identifier = |k: usize| String::from_utf8(vec![b'!' + (k / 94) as u8, b'!' + (k % 94) as u8]).expect("printable characters");
    let mut text = String::from("$timescale 1 ns $end\n$scope module trigger $end\n");
    for (k, (name, _)) in wires.iter().enumerate() {
        text += &format!("$var wire 1 {} {name} $end\n", identifier(k));
    }
    text += "$upscope $end\n$enddefinitions $end\n";
    for t in 0..frames {
        text += &format!("#{t}\n");
        for k in 0..wires.len() {
            text += &format!("{}{}\n", levels[t * wires.len() + k] as char, identifier(k));
        }
    }
    text += &format!("#{frames}\n");
    text.into_bytes()
}

/// The completions are run one by one, and a value that differs between two of them is `x`.
pub fn waveform(memory: &[u32], bytes: &[u8], only: bool, out_len: u64) -> Result<Vec<u8>, u32> {
    let c = witness_tests(memory, bytes)?;
    let wires = wires(&c, only);
    let places = either_places(bytes);
    let witness = |v| read_witness(&c, &completion(bytes, &places, v)).expect("a witness");
    let frames = witness(0).rows.len();
    let mut all = levels(&c, &wires, &witness(0));
    if out_len < waveform_text(&wires, frames, &all).len() as u64 {
        return Err(13);
    }
    for v in 1..1u64 << places.len() {
        for (level, value) in all.iter_mut().zip(levels(&c, &wires, &witness(v))) {
            if *level != value {
                *level = b'x';
            }
        }
    }
    Ok(waveform_text(&wires, frames, &all))
}

// Fold

pub fn fold_tests(memory: &[u32], b: u64, t: u64, work_len: u64, out_len: u64) -> Result<Circuit, u32> {
    let c = held(memory).ok_or(9u32)?;
    bounds_tests(&c, b, t, false, work_len)?;
    if out_len < 24 * c.size(t) + 64 {
        return Err(13);
    }
    Ok(c)
}

struct Folded {
    n: u64,
    output: u64,
    gates: Vec<Gate>,
}

/// A text of the form of a folded frame: n inputs numbered from 1, no latch, one output, gates numbered upward from n+1.
fn read_folded(n: u64, bytes: &[u8]) -> Option<Folded> {
    let mut text = Text { bytes, at: 0 };
    text.expect(b"aag ")?;
    let counts = text.numbers(7, 7)?;
    let gate_count = counts[4];
    let inputs = one_a_line(&mut text, n)?;
    let output = text.numbers(1, 1)?[0];
    let gates: Vec<Gate> = (0..gate_count).map(|_| gate_line(&mut text)).collect::<Option<_>>()?;
    let well_formed = text.at_end()
        && counts == [n + gate_count, n, 0, 1, gate_count, 0, 0]
        && inputs.iter().zip(1..).all(|(&lit, v)| lit == 2 * v)
        && gates.iter().zip(n + 1..).all(|(gate, v)| gate.lit == 2 * v)
        && output <= 2 * (n + gate_count) + 1;
    well_formed.then_some(Folded { n, output, gates })
}

fn operands_right(d: &Folded) -> Result<(), &'static str> {
    let mut seen = HashSet::new();
    for gate in &d.gates {
        let (left, right) = (gate.left, gate.right);
        if left / 2 >= gate.lit / 2 || right / 2 >= gate.lit / 2 {
            return Err("an operand is not defined earlier");
        }
        if left < 2 || right < 2 {
            return Err("a gate has a constant operand");
        }
        if left / 2 == right / 2 {
            return Err("a gate has equal or opposite operands");
        }
        if left < right {
            return Err("the smaller operand stands first");
        }
        if !seen.insert((left, right)) {
            return Err("two gates have the same operands");
        }
        if repeats(d, left, right) || repeats(d, right, left) {
            return Err("a gate repeats an operand one gate down");
        }
    }
    Ok(())
}

/// Whether operand a stands again, in the way that makes a rule apply, among the operands of the gate that the other operand e is or complements: as it is or as
/// its complement where e is the gate, as its complement where e is the gate's complement.
fn repeats(d: &Folded, a: u64, e: u64) -> bool {
    let Some(lower) = (e / 2).checked_sub(d.n + 1).and_then(|i| d.gates.get(i as usize)) else {
        return false;
    };
    let among = |l: u64| lower.left == l || lower.right == l;
    among(a ^ 1) || (e % 2 == 0 && among(a))
}

fn all_lead_to_output(d: &Folded) -> bool {
    let mut leads = vec![false; d.n as usize + d.gates.len() + 1];
    leads[d.output as usize / 2] = true;
    for gate in d.gates.iter().rev() {
        if leads[gate.lit as usize / 2] {
            leads[gate.left as usize / 2] = true;
            leads[gate.right as usize / 2] = true;
        }
    }
    d.gates.iter().all(|gate| leads[gate.lit as usize / 2])
}

fn literal(values: &[u64], lit: u64) -> u64 {
    let value = values[lit as usize / 2];
    if lit % 2 == 1 { !value } else { value }
}

/// The values of the folded circuit's variables, variable 0 the constant false.
fn folded_values(d: &Folded, free: &[u64]) -> Vec<u64> {
    let mut values = vec![0];
    values.extend(free);
    for gate in &d.gates {
        values.push(literal(&values, gate.left) & literal(&values, gate.right));
    }
    values
}

/// Sequences `first` to `first` + 63 of n free bits, one in each bit.
fn sequences_from(n: u64, first: u64) -> Vec<u64> {
    let of = |place: u64| (0..64).fold(0, |word, p| word | ((first + p) >> place & 1) << p);
    (0..n).map(|j| of(n - 1 - j)).collect()
}

/// Compares the output with the hit for all sequences, and no function may occur two times, complements counted as the same.
fn compare_all(c: &Circuit, b: u64, t: u64, d: &Folded) -> Result<(), &'static str> {
    let all = 1u64 << d.n;
    let real = if all < 64 { (1 << all) - 1 } else { !0 };
    let mut evaluator = Evaluator::new(c);
    let mut tables: Vec<Vec<u64>> = vec![Vec::new(); d.n as usize + d.gates.len() + 1];
    for first in (0..all).step_by(64) {
        let free = sequences_from(d.n, first);
        let values = folded_values(d, &free);
        if (literal(&values, d.output) ^ evaluator.hits_of(b, t, &free)) & real != 0 {
            return Err("the output differs from the hit");
        }
        tables.iter_mut().zip(values).for_each(|(table, value)| table.push(value & real));
    }
    let mut seen = HashSet::new();
    for table in tables {
        let complemented = table[0] & 1 == 1;
        if !seen.insert(table.iter().map(|word| if complemented { !word & real } else { *word }).collect::<Vec<u64>>()) {
            return Err("a gate is constant, or equal or opposite to an input or to another gate");
        }
    }
    Ok(())
}

/// Compares the output with the hit for random sequences of several densities, the all-0 and the all-1 sequence among them.
fn compare_some(c: &Circuit, b: u64, t: u64, d: &Folded, random: &mut dyn FnMut() -> u64) -> Result<(), &'static str> {
    let mut evaluator = Evaluator::new(c);
    for round in 0..5 {
        let mut word = || match round {
            0 => random(),
            1 => random() & random(),
            2 => random() | random(),
            3 => random() & random() & random() & random(),
            _ => random() | random() | random() | random(),
        };
        let free: Vec<u64> = (0..d.n).map(|_| word() & !1 | 2).collect();
        if literal(&folded_values(d, &free), d.output) != evaluator.hits_of(b, t, &free) {
            return Err("the output differs from the hit");
        }
    }
    Ok(())
}

/// Whether a fold of b at frame t may write this text.
pub fn fold_permits(c: &Circuit, b: u64, t: u64, bytes: &[u8], random: &mut dyn FnMut() -> u64) -> Result<(), &'static str> {
    let n = c.free_bits(t);
    let folded = read_folded(n, bytes).ok_or("the text does not have the form of a folded frame")?;
    operands_right(&folded)?;
    if !all_lead_to_output(&folded) {
        return Err("a gate does not lead to the output");
    }
    if n <= 12 {
        compare_all(c, b, t, &folded)
    } else {
        compare_some(c, b, t, &folded, random)
    }
}
