//! An analyser of one user's own: a circuit memory, and pins. A search, for which several answers are permitted, is judged by trying all
//! sequences that obey the pins on the circuit itself; a fold by that of the circuit with constants; the other answers are computed.

use crate::interface;
use crate::reference::{self, Circuit, Said, Verdict};
use crate::shared::{refused, told, Reply};

/// The pins of the inputs: as many bytes as the users share for this user.
pub struct Analyser {
    pub user: usize,
    pub memory: Vec<u32>,
    pub pins: Vec<u8>,
}

/// The bytes of a user among those that users share.
pub fn own(shared: &[u8], user: usize) -> &[u8] {
    let (from, to) = (256 * user, 256 * user + 256);
    &shared[from.min(shared.len())..to.min(shared.len())]
}

fn text_reply(text: Result<Vec<u8>, u32>, out: &[u8]) -> Reply {
    match text {
        Err(n) => refused(n, out),
        Ok(text) => {
            let mut left = out.to_vec();
            left[..text.len()].copy_from_slice(&text);
            told(interface::text(text.len()), left)
        }
    }
}

impl Analyser {
    pub fn new(user: usize, memory: &[u32], shared: &[u8]) -> Analyser {
        Analyser { user, memory: memory.to_vec(), pins: own(shared, user).to_vec() }
    }

    pub fn circuit(&self) -> Option<Circuit> {
        reference::held(&self.memory)
    }

    /// Whether a pin holds an input of the circuit.
    pub fn holds(&self) -> bool {
        self.circuit().is_some_and(|c| (0..c.inputs.len()).any(|i| self.held(i).is_some()))
    }

    fn held(&self, i: usize) -> Option<bool> {
        self.pins.get(i).filter(|&&pin| pin < 2).map(|&pin| pin == 1)
    }

    /// The circuit was replaced by an accepted load or join.
    pub fn replaced(&mut self, memory: &[u32]) {
        self.memory = memory.to_vec();
        self.pins.fill(2);
    }

    fn replace(&mut self, circuit: Result<Circuit, u32>) -> Reply {
        match circuit {
            Err(n) => refused(n, &[]),
            Ok(c) => {
                let image = reference::image(&c);
                self.memory[..image.len()].copy_from_slice(&image);
                self.pins.fill(2);
                Reply { replaces: true, ..told(interface::counts(reference::needed(c.max_var), &c.counts()), vec![]) }
            }
        }
    }

    pub fn load(&mut self, user: u64, file: &[u8]) -> Reply {
        if user > 0 {
            return refused(18, &[]);
        }
        self.replace(reference::load(file, self.memory.len() as u64))
    }

    pub fn join(&mut self, user: u64, first: &[u32], second: &[u32]) -> Reply {
        if user > 0 {
            return refused(18, &[]);
        }
        self.replace(reference::join(first, second, self.memory.len() as u64))
    }

    pub fn pin(&mut self, user: u64, input: u64, value: u64) -> Reply {
        if user > 1 || value > 2 {
            return refused(18, &[]);
        }
        match self.circuit() {
            None => refused(9, &[]),
            Some(c) if input >= c.inputs.len() as u64 || input >= self.pins.len() as u64 => refused(18, &[]),
            Some(_) => {
                self.pins[input as usize] = value as u8;
                told(interface::done(), vec![])
            }
        }
    }

    /// The rows of a witness with the pins' values at the held inputs.
    pub fn obedient(&self, c: &Circuit, text: &[u8]) -> Vec<u8> {
        let mut text = text.to_vec();
        for (place, column) in input_places(c, &text) {
            if let Some(value) = self.held(column) {
                text[place] = if value { b'1' } else { b'0' };
            }
        }
        text
    }

    /// Whether a text without `x` is a hit that obeys the pins.
    fn hits(&self, c: &Circuit, text: &[u8]) -> bool {
        self.obedient(c, text) == text && reference::is_hit(c, text)
    }

    /// The witness of sequence x among the sequences of frame t that obey the pins.
    fn witness(&self, c: &Circuit, b: u64, t: u64, x: u64) -> Vec<u8> {
        let n = self.free_bits(c, t);
        let mut bits = (0..n).map(|j| x >> (n - 1 - j) & 1 == 1);
        let line = |bits: Vec<bool>| bits.iter().map(|&bit| if bit { b'1' } else { b'0' }).chain([b'\n']).collect::<Vec<u8>>();
        let mut text = format!("1\nb{b}\n").into_bytes();
        text.extend(line(c.latches.iter().map(|latch| if latch.free() { bits.next().unwrap() } else { latch.reset == 1 }).collect()));
        for _ in 0..=t {
            text.extend(line((0..c.inputs.len()).map(|i| self.held(i).unwrap_or_else(|| bits.next().unwrap())).collect()));
        }
        text.extend(b".\n");
        text
    }

    fn free_bits(&self, c: &Circuit, t: u64) -> u64 {
        let free = (0..c.inputs.len()).filter(|&i| self.held(i).is_none()).count() as u64;
        c.free_latches() + free * (t + 1)
    }

    fn first(&self, c: &Circuit, b: u64, t: u64, most: u64) -> Option<Vec<u8>> {
        let count = (1u64 << self.free_bits(c, t)).min(most);
        (0..count).map(|x| self.witness(c, b, t, x)).find(|text| reference::is_hit(c, text))
    }

    /// Whether a search of frame t with budget d may tell this place.
    fn reaches(&self, c: &Circuit, b: u64, t: u64, d: u64, reached: u64) -> bool {
        reference::reached_fits(self.free_bits(c, t), d, reached).is_ok() && self.first(c, b, t, reached).is_none()
    }

    /// The given answer where it is permitted, else one that is not given.
    pub fn search(&self, user: u64, b: u64, k: u64, d: u64, work: u64, out: &[u8], got: &Reply) -> Reply {
        if user > 1 {
            return refused(18, out);
        }
        let c = match reference::search_tests(&self.memory, b, k, d, work, out.len() as u64) {
            Err(n) => return refused(n, out),
            Ok(c) => c,
        };
        let said = match got.answer[0] {
            interface::FOUND => Said::Found(got.answer[1]),
            interface::NONE => Said::Nothing(got.answer[1]),
            _ => Said::Spent(got.answer[1], got.answer[interface::REACHED]),
        };
        let none_before = |t: u64| (0..t).all(|u| self.first(&c, b, u, u64::MAX).is_none());
        let wrong = told(interface::searched(u64::MAX, 0, 0), out.to_vec());
        match said {
            Said::Found(t) if t <= k && none_before(t) => match self.first(&c, b, t, u64::MAX) {
                Some(text) => {
                    let mut left = out.to_vec();
                    left[..text.len()].copy_from_slice(&text);
                    told(interface::searched(interface::FOUND, t, text.len()), left)
                }
                None => wrong,
            },
            Said::Nothing(n) if n == k && none_before(k + 1) => {
                let mut places = interface::searched(interface::NONE, k, 0);
                let always = got.answer[interface::ALWAYS] == 1 && reference::some_frame_hits(&self.tied(&c), b) != Some(true);
                places[interface::ALWAYS] = always.into();
                told(places, out.to_vec())
            }
            Said::Spent(t, reached) if t <= k && none_before(t) && d < 1 << self.free_bits(&c, t) && self.reaches(&c, b, t, d, reached) => {
                let mut places = interface::searched(interface::SPENT, t, 0);
                places[interface::REACHED] = reached;
                told(places, out.to_vec())
            }
            _ => wrong,
        }
    }

    /// The circuit with a constant for each held input.
    fn tied(&self, c: &Circuit) -> Circuit {
        let constant = |lit: u64| match c.inputs.iter().position(|&input| input == lit & !1).and_then(|i| self.held(i)) {
            Some(value) => u64::from(value) ^ (lit & 1),
            None => lit,
        };
        let mut d = c.clone();
        d.inputs = (0..c.inputs.len()).filter(|&i| self.held(i).is_none()).map(|i| c.inputs[i]).collect();
        d.latches.iter_mut().for_each(|latch| latch.next = constant(latch.next));
        d.gates.iter_mut().for_each(|gate| (gate.left, gate.right) = (constant(gate.left), constant(gate.right)));
        for list in [&mut d.outputs, &mut d.bads, &mut d.constraints] {
            list.iter_mut().for_each(|lit| *lit = constant(*lit));
        }
        d
    }

    pub fn fold(&self, user: u64, b: u64, t: u64, work: u64, out: &[u8], got: &Reply, word: u64) -> Reply {
        if user > 1 {
            return refused(18, out);
        }
        let c = match reference::fold_tests(&self.memory, b, t, work, out.len() as u64) {
            Err(n) => return refused(n, out),
            Ok(c) => c,
        };
        let length = got.answer[2].min(out.len() as u64) as usize;
        let mut state = word;
        let mut random = || {
            state = state.wrapping_mul(6364136223846793005).wrapping_add(1442695040888963407);
            state
        };
        let judged = reference::fold_permits(&self.tied(&c), b, t, &got.out[..length], &mut random);
        let rest = got.out[length..] == out[length..];
        let expected = if judged.is_ok() && rest { length } else { usize::MAX };
        told(interface::text(expected), got.out.clone())
    }

    fn verdict(&self, c: &Circuit, text: &[u8]) -> Verdict {
        let places = reference::either_places(text);
        let hits = (0..1u64 << places.len()).filter(|&v| self.hits(c, &reference::completion(text, &places, v))).count() as u64;
        match hits {
            0 => Verdict::No,
            n if n == 1 << places.len() => Verdict::All,
            _ => Verdict::Mixed,
        }
    }

    pub fn replay(&self, user: u64, text: &[u8]) -> Reply {
        if user > 1 {
            return refused(18, &[]);
        }
        match reference::witness_tests(&self.memory, text) {
            Err(n) => refused(n, &[]),
            Ok(c) => {
                let kind = match self.verdict(&c, text) {
                    Verdict::No => interface::NO,
                    Verdict::All => interface::ALL,
                    Verdict::Mixed => interface::MIXED,
                };
                told(interface::kind(kind), vec![])
            }
        }
    }

    pub fn widen(&self, user: u64, text: &[u8], out: &[u8]) -> Reply {
        if user > 1 {
            return refused(18, out);
        }
        let c = match reference::witness_tests(&self.memory, text) {
            Err(n) => return refused(n, out),
            Ok(c) => c,
        };
        if out.len() < text.len() {
            return refused(13, out);
        }
        let mut wide = text.to_vec();
        if self.verdict(&c, &wide) == Verdict::All {
            let body = text.iter().enumerate().filter(|(_, &byte)| byte == b'\n').nth(1).map_or(0, |(at, _)| at + 1);
            for i in (body..wide.len()).rev() {
                let byte = wide[i];
                if (byte == b'0' || byte == b'1') && reference::either_places(&wide).len() < 16 {
                    wide[i] = b'x';
                    if self.verdict(&c, &wide) != Verdict::All {
                        wide[i] = byte;
                    }
                }
            }
        }
        text_reply(Ok(wide), out)
    }

    pub fn write(&self, user: u64, form: u64, out: &[u8]) -> Reply {
        let text = if user > 1 { Err(18) } else { reference::write(&self.memory, form, out.len() as u64) };
        text_reply(text, out)
    }

    pub fn waveform(&self, user: u64, text: &[u8], inputs: u64, out: &[u8]) -> Reply {
        let shown = if user > 1 { Err(18) } else { reference::waveform(&self.memory, text, inputs != 0, out.len() as u64) };
        text_reply(shown, out)
    }

    pub fn preview(&self, user: u64, file: &[u8]) -> Reply {
        if user > 1 {
            return refused(18, &[]);
        }
        let words = reference::words_needed(file);
        let places = match reference::load(file, self.memory.len() as u64) {
            Err(n) => interface::unloaded(words, n),
            Ok(c) => interface::counts(words, &c.counts()),
        };
        told(places, vec![])
    }
}

/// The places of the inputs in the rows of a well-formed witness, with their numbers.
fn input_places(c: &Circuit, text: &[u8]) -> Vec<(usize, usize)> {
    let body = text.iter().enumerate().filter(|(_, &byte)| byte == b'\n').nth(1).map_or(text.len(), |(at, _)| at + 1);
    let (first, width) = (body + c.latches.len() + 1, c.inputs.len() + 1);
    let end = text.len().saturating_sub(2);
    (first..end).map(|place| (place, (place - first) % width)).filter(|&(_, column)| column < c.inputs.len()).collect()
}
