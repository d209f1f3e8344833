//! One job: an operation with what is lent to it, its answer and every lent byte compared with the reference.

use crate::generate;
use crate::interface::{self, Places};
use crate::lend::{Kind, Loan, Store, PAGE};
use crate::random::Random;
use crate::reference::{self, Circuit, Judged, Said, Verdict};
use crate::stack::Painted;
use crate::tally::{Operation, Tally, NAMES};
use std::sync::atomic::{AtomicU64, Ordering};

/// The number of the job that runs, for the message of a fault.
pub static CURRENT: AtomicU64 = AtomicU64::new(0);

/// Differences beyond these are counted and not shown.
const SHOWN: u64 = 3;

/// What is damaged on purpose after a call, to see that it is noticed.
#[derive(PartialEq)]
pub enum Spoil {
    Nothing,
    Answers,
    Fault,
}

/// What a call gave back: the number that it returned, and the places of its answer.
#[derive(Clone, PartialEq, Debug)]
struct Told {
    number: u64,
    places: Places,
}

/// Who calls, what users share, and the answer that is lent.
#[derive(Clone, Copy)]
struct Caller {
    user: u64,
    shared: Loan,
    answer: Loan,
}

pub struct Harness {
    pub seed: u64,
    pub spoil: Spoil,
    pub tally: Tally,
    random: Random,
    spoiler: Random,
    spoiled: bool,
    stores: [Vec<Store>; 6],
    caller: Caller,
    /// What was noticed while a call was made.
    noticed: Vec<String>,
    painted: Painted,
    last_witness: Vec<u8>,
}

fn stores(pages: &[usize]) -> Vec<Store> {
    pages.iter().map(|&count| Store::new(count)).collect()
}

/// Circuit memories: most are small, the last three hold the greatest circuits.
const MEMORIES: [usize; 23] = [1, 1, 1, 1, 1, 1, 1, 1, 1, 1, 1, 1, 1, 1, 1, 1, 4, 4, 4, 4, 33, 33, 36];
const SMALL_MEMORIES: u64 = 16;
const LARGE_MEMORIES: u64 = 3;

/// The bytes of the largest store for files and witnesses.
const LONGEST_TEXT: usize = 32 * PAGE;

impl Harness {
    pub fn new(seed: u64, spoil: Spoil) -> Harness {
        let works = [2, 2, 2, 2, 8, 8, 8, 64, 64, 64, 1025, 1025];
        let outputs = [1, 1, 1, 1, 4, 4, 4, 20, 20, 20, 400, 400];
        let texts = [1, 1, 1, 18, 18, 32];
        let nothing = |kind| Loan { kind, index: 0, offset: 0, len: 0, width: 1, pointer: std::ptr::null_mut() };
        let caller = Caller { user: 0, shared: nothing(Kind::Shared), answer: nothing(Kind::Answer) };
        Harness {
            seed,
            spoil,
            tally: Tally::default(),
            random: Random(seed),
            spoiler: Random(!seed),
            spoiled: false,
            stores: [stores(&MEMORIES), stores(&works), stores(&outputs), stores(&texts), stores(&[1, 1]), stores(&[1, 1])],
            caller,
            noticed: Vec::new(),
            painted: Painted::new(),
            last_witness: Vec::new(),
        }
    }

    pub fn job(&mut self) {
        self.disturb();
        let large = self.random.one_in(400);
        match self.random.below(100) {
            0..=29 => self.load_job(large),
            30..=33 => self.on_memory(large, Harness::pin_job),
            34..=57 => self.on_memory(large, Harness::search_job),
            58..=71 => self.on_memory(large, Harness::fold_job),
            72..=80 => self.on_memory(large, Harness::replay_job),
            81..=85 => self.on_memory(large, Harness::widen_job),
            86..=90 => self.on_memory(large, Harness::join_job),
            91..=94 => self.on_memory(large, Harness::write_job),
            95 | 96 => self.generate_job(large),
            _ => self.on_memory(large, Harness::waveform_job),
        }
    }

    // What is lent

    fn store(&mut self, loan: &Loan) -> &mut Store {
        &mut self.stores[loan.kind as usize][loan.index]
    }

    /// Now and then a store gets random contents.
    fn disturb(&mut self) {
        let kind = match self.random.below(400) {
            0 => Kind::Memory,
            1..=4 => Kind::Work,
            5..=8 => Kind::Output,
            _ => return,
        };
        let list = &mut self.stores[kind as usize];
        let index = self.random.below(list.len() as u64) as usize;
        list[index].fill(&mut self.random);
    }

    fn lend(&mut self, kind: Kind, index: usize, len: usize, width: usize) -> Loan {
        let store = &self.stores[kind as usize][index];
        let offset = store.place(&mut self.random, len, width);
        let pointer = store.pointer(&mut self.random, offset, len);
        self.tally.empty_loans += u64::from(len == 0);
        Loan { kind, index, offset, len, width, pointer }
    }

    /// A loan of `len` elements from one of the smallest stores that hold them, now and then from a larger one.
    fn lend_some(&mut self, kind: Kind, len: u64, width: usize) -> Loan {
        let list = &self.stores[kind as usize];
        let largest = list[list.len() - 1].size;
        let bytes = (len as usize * width).min(largest);
        let mut least = list.iter().map(|store| store.size).find(|&size| bytes <= size).unwrap_or(largest);
        if self.random.one_in(64) {
            least = list[list.len() - 3].size.max(least);
        }
        let fitting: Vec<usize> = (0..list.len()).filter(|&i| list[i].size == least).collect();
        let index = self.random.choose(&fitting);
        self.lend(kind, index, bytes / width, width)
    }

    fn lend_text(&mut self, text: &[u8]) -> Loan {
        let loan = self.lend_some(Kind::Text, text.len() as u64, 1);
        self.store(&loan).bytes_mut()[loan.offset..loan.offset + text.len()].copy_from_slice(text);
        loan
    }

    /// The length that is needed, or one near it.
    fn near(&mut self, exact: u64) -> u64 {
        match self.random.below(24) {
            0 | 1 => exact.saturating_sub(1),
            2 => self.random.below(exact + 1),
            3 if self.random.one_in(4) => 0,
            4..=9 => exact + self.random.below(64),
            _ => exact,
        }
    }

    fn pick_memory(&mut self, large: bool) -> usize {
        let count = MEMORIES.len() as u64;
        let index = match self.random.below(32) {
            _ if large => count - 1 - self.random.below(LARGE_MEMORIES),
            0 | 1 => SMALL_MEMORIES + self.random.below(count - SMALL_MEMORIES - LARGE_MEMORIES),
            _ => self.random.below(SMALL_MEMORIES),
        };
        index as usize
    }

    /// Circuit memory where the last accepted load put a circuit: as many words as it lent, or as the circuit needs, or others.
    fn lend_held(&mut self, large: bool) -> Loan {
        let index = self.pick_memory(large);
        let store = &self.stores[Kind::Memory as usize][index];
        let (offset, home_len) = store.home;
        let room = ((store.size - offset) / 4) as u64;
        let needed = reference::needed(u64::from(store.word(offset)));
        let len = match self.random.below(40) {
            0 => needed - 1,
            1..=9 => needed,
            10 => self.random.below(room + 1),
            11 if self.random.one_in(4) => 0,
            12 => room,
            _ => home_len as u64,
        };
        let len = len.min(room) as usize;
        let pointer = self.stores[Kind::Memory as usize][index].pointer(&mut self.random, offset, len);
        self.tally.empty_loans += u64::from(len == 0);
        Loan { kind: Kind::Memory, index, offset, len, width: 4, pointer }
    }

    fn words(&mut self, loan: &Loan) -> Vec<u32> {
        let (from, to) = (loan.offset, loan.offset + loan.byte_len());
        let bytes = &self.store(loan).bytes()[from..to];
        bytes.chunks(4).map(|word| u32::from_le_bytes(word.try_into().expect("four bytes"))).collect()
    }

    /// A job on circuit memory; in some of them one word is changed before and mostly put back after.
    fn on_memory(&mut self, large: bool, job: fn(&mut Harness, bool, Loan)) {
        let memory = self.lend_held(large);
        if memory.len == 0 || !self.random.one_in(10) {
            return job(self, large, memory);
        }
        let used = if self.random.one_in(3) { memory.len } else { memory.len.min(60) };
        let at = memory.offset + 4 * self.random.below(used as u64) as usize;
        let old = self.store(&memory).word(at);
        let new = match self.random.below(5) {
            0 => old ^ 1,
            1 => old.wrapping_add(1),
            2 => old.wrapping_sub(1),
            3 => self.random.below(16) as u32,
            _ => self.random.word() as u32,
        };
        self.store(&memory).set_word(at, new);
        job(self, large, memory);
        if !self.random.one_in(4) {
            self.store(&memory).set_word(at, old);
        }
    }

    // Calls

    /// Who calls: mostly user 0. What users share has some length, and no pin in it holds an input. The answer has all places.
    fn lend_to_all(&mut self) {
        let user = match self.random.below(24) {
            0 => 1,
            1 => self.random.choose(&[2, 3, 1 << 32, u64::MAX]),
            _ => 0,
        };
        let some = self.random.below(3000);
        let shared_len = self.random.choose(&[0, 512, 512, 2560, 2560, 256, 511, some]) as usize;
        let shared = self.lend(Kind::Shared, 0, shared_len, 1);
        let bytes: Vec<u8> = (0..shared.len).map(|i| if i < 512 { 2 + self.random.below(254) as u8 } else { self.random.word() as u8 }).collect();
        self.store(&shared).bytes_mut()[shared.offset..][..shared_len].copy_from_slice(&bytes);
        let answer_len = 16 + self.random.choose(&[0, 0, 0, 1, 5]);
        let answer = self.lend(Kind::Answer, 0, answer_len, 8);
        self.store(&answer).fill(&mut Random(some));
        self.caller = Caller { user, shared, answer };
    }

    /// Whether the user may call an operation that users up to `last` may call.
    fn may(&self, last: u64) -> Result<(), u32> {
        if self.caller.user <= last { Ok(()) } else { Err(18) }
    }

    fn numbers(&mut self, loan: &Loan) -> Vec<u64> {
        let (from, to) = (loan.offset, loan.offset + loan.byte_len());
        let bytes = &self.store(loan).bytes()[from..to];
        bytes.chunks(8).map(|number| u64::from_le_bytes(number.try_into().expect("eight bytes"))).collect()
    }

    /// Makes the call, on the painted stack for some jobs, and remembers what the lent stores held before it. Some calls are made before with
    /// an answer of fewer places too.
    fn perform(&mut self, operation: Operation, large: bool, loans: &[Loan], call: &mut dyn FnMut(&Caller) -> u64) -> Told {
        self.lend_to_all();
        let caller = self.caller;
        for loan in loans.iter().chain([&caller.shared, &caller.answer]) {
            self.store(loan).snapshot();
        }
        self.tally.job(operation, large);
        CURRENT.store(self.tally.jobs, Ordering::Relaxed);
        let short = self.random.one_in(16).then(|| self.short(&caller, call));
        let number = if large || self.random.one_in(64) {
            let (number, depth) = self.painted.run(&mut || call(&caller));
            self.tally.depth(operation, large, depth);
            number
        } else {
            call(&caller)
        };
        let places = self.numbers(&caller.answer)[..16].try_into().expect("sixteen places");
        if let Some((said, before, after)) = short {
            let expected = before.iter().zip(&places).map(|(&before, &place)| if number == 0 { place } else { before });
            if said != number || after != expected.collect::<Vec<u64>>() {
                self.noticed.push(format!("with {} places: {said} and {after:?}", before.len()));
            }
        }
        self.spoil(loans, Told { number, places })
    }

    /// The call with an answer of fewer than sixteen places: its number, and the places before and after it.
    fn short(&mut self, caller: &Caller, call: &mut dyn FnMut(&Caller) -> u64) -> (u64, Vec<u64>, Vec<u64>) {
        let len = self.random.below(16) as usize;
        let answer = self.lend(Kind::Answer, 1, len, 8);
        let before = self.numbers(&answer);
        let number = call(&Caller { answer, ..*caller });
        (number, before, self.numbers(&answer))
    }

    fn spoil(&mut self, loans: &[Loan], told: Told) -> Told {
        if self.spoil == Spoil::Nothing || !self.spoiler.one_in(10_000) {
            return told;
        }
        self.spoiled = true;
        let all = loans.iter().chain([&self.caller.shared, &self.caller.answer]);
        let lent: Vec<Loan> = all.filter(|loan| loan.kind != Kind::Work && loan.len > 0).copied().collect();
        if self.spoil == Spoil::Fault {
            let store = &self.stores[loans[0].kind as usize][loans[0].index];
            let past = store.bytes().as_ptr().wrapping_add(store.size);
            return Told { number: unsafe { std::ptr::read_volatile(past) }.into(), ..told };
        }
        if self.spoiler.one_in(2) {
            return Told { number: told.number ^ 1 << self.spoiler.below(34), ..told };
        }
        let loan = self.spoiler.choose(&lent);
        let at = loan.offset + self.spoiler.below(loan.byte_len() as u64) as usize;
        let bit = 1 << self.spoiler.below(8);
        self.store(&loan).bytes_mut()[at] ^= bit;
        told
    }

    /// What was told otherwise than expected. The answer must then hold the expected places, or what it held where the call is refused.
    fn differs(&mut self, told: &Told, expected: &Result<Places, u32>) -> Vec<String> {
        let number = expected.as_ref().err().copied().unwrap_or(0);
        if let Ok(places) = expected {
            let bytes: Vec<u8> = places.iter().flat_map(|place| place.to_le_bytes()).collect();
            let answer = self.caller.answer;
            self.store(&answer).expect(answer.offset, &bytes);
        }
        let wrong = told.number != u64::from(number) || expected.as_ref().is_ok_and(|places| *places != told.places);
        if wrong { vec![format!("answered {} and {:?}, expected {expected:?}", told.number, told.places)] } else { vec![] }
    }

    /// All pins of both users are free, and what follows them is 0.
    fn freed(&mut self) {
        let shared = self.caller.shared;
        let bytes: Vec<u8> = (0..shared.len).map(|i| if i < 512 { 2 } else { 0 }).collect();
        self.store(&shared).expect(shared.offset, &bytes);
    }

    /// Compares every byte of the lent stores with what they must hold, and shows the first few differences.
    fn settle(&mut self, operation: Operation, loans: &[Loan], mut faults: Vec<String>, inputs: &dyn Fn() -> String) {
        faults.append(&mut self.noticed);
        let caller = self.caller;
        let with_caller = [caller.shared, caller.answer];
        for loan in loans.iter().chain(if loans.is_empty() { &[][..] } else { &with_caller[..] }) {
            if let Some(difference) = self.store(loan).difference() {
                faults.push(format!("{:?}: {difference}; lent from {} on, {} elements", loan.kind, loan.offset, loan.len));
            }
        }
        self.tally.settled(std::mem::take(&mut self.spoiled), !faults.is_empty());
        if faults.is_empty() {
            return;
        }
        if self.tally.differences <= SHOWN {
            let number = self.tally.jobs;
            println!("difference in job {number}, {}: {}", NAMES[operation as usize], faults.join("; "));
            println!("{}", inputs());
            println!("to repeat it: tests/harness/run {number} {}, with HARNESS_SPOIL as it was\n", self.seed);
        }
    }

    // Load

    fn file(&mut self, circuit: &mut Circuit) -> Vec<u8> {
        let damage = self.random.below(20);
        if let 10..=13 = damage {
            generate::damage_circuit(&mut self.random, circuit);
        }
        let binary = self.random.one_in(3) && reference::load(&reference::text(circuit), 33_032).is_ok();
        let mut text = if binary { generate::binary(&mut self.random, circuit) } else { generate::text(&mut self.random, circuit) };
        match damage {
            14..=18 => generate::damage_text(&mut self.random, &mut text),
            19 if self.random.one_in(4) => generate::lengthen(&mut self.random, &mut text),
            19 if self.random.one_in(4) => text.clear(),
            19 if self.random.one_in(4) => text = generate::noise(&mut self.random),
            19 => (0..3).for_each(|_| generate::damage_text(&mut self.random, &mut text)),
            _ => (),
        }
        text.truncate(LONGEST_TEXT);
        text
    }

    /// Every prefix of a file, and every byte of it changed to every other: the answer of load and what it leaves.
    pub fn damaged(&mut self, file: &[u8]) {
        let prefixes = (0..file.len()).map(|end| file[..end].to_vec());
        let changed = (0..file.len() * 256).map(|i| {
            let mut text = file.to_vec();
            text[i / 256] = i as u8;
            text
        });
        for text in prefixes.chain(changed) {
            let mut words = vec![0xdead_beefu32; 300];
            let expected = reference::load(&text, 300);
            let mut after = words.clone();
            if let Ok(circuit) = &expected {
                let image = reference::image(circuit);
                after[..image.len()].copy_from_slice(&image);
            }
            let (nothing, len) = (std::ptr::null_mut(), text.len() as u64);
            let code = unsafe { interface::yunverok_load(0, nothing, 0, words.as_mut_ptr(), 300, text.as_ptr(), len, nothing.cast(), 0) };
            self.tally.damaged += 1;
            if code != u64::from(expected.err().unwrap_or(0)) || words != after {
                self.tally.differences += 1;
                println!("difference: file {} answered {code}", text.escape_ascii());
            }
        }
    }

    fn load_job(&mut self, large: bool) {
        let index = self.pick_memory(large);
        let room = (self.stores[Kind::Memory as usize][index].size / 4) as u64;
        let plan = if large { generate::large_plan(&mut self.random) } else { generate::small_plan(&mut self.random, room) };
        let mut circuit = match self.random.below(16) {
            0 if !large => generate::counter(1 + self.random.below(3)),
            1 | 2 if !large => {
                let length = 1 + self.random.below(6);
                generate::chain(&mut self.random, length)
            }
            _ => generate::circuit(&mut self.random, &plan),
        };
        let len = self.near(reference::needed(circuit.max_var)).min(room) as usize;
        let text = self.file(&mut circuit);
        let (memory, file) = (self.lend(Kind::Memory, index, len, 4), self.lend_text(&text));
        let expected = reference::load(&text, memory.len as u64);
        let before = self.words(&memory);
        let loans = [memory, file];
        let mut faults = self.preview_faults(&text, &memory, &file, &expected);
        if self.words(&memory) != before {
            faults.push("the preview changed circuit memory".to_string());
        }
        let told = self.perform(Operation::Load, large, &loans, &mut |by| unsafe {
            let (shared, answer) = (by.shared, by.answer);
            interface::yunverok_load(
                by.user,
                shared.pointer,
                shared.count(),
                memory.words(),
                memory.count(),
                file.pointer,
                file.count(),
                answer.numbers(),
                answer.count(),
            )
        });
        let expected = self.may(0).and(expected);
        faults.extend(self.differs(&told, &expected.as_ref().map(counted).map_err(|&number| number)));
        match expected {
            Ok(circuit) => self.loaded(&memory, &circuit),
            Err(number) => self.tally.refusal(Operation::Load, number),
        }
        self.settle(Operation::Load, &loans, faults, &|| format!("file: {}\n{}", text.escape_ascii(), shown(&before)));
    }

    /// What a preview of the load tells otherwise than expected, with 0 to 17 places lent.
    fn preview_faults(&mut self, text: &[u8], memory: &Loan, file: &Loan, expected: &Result<Circuit, u32>) -> Vec<String> {
        const BEFORE: u64 = 0xdead_beef;
        let mut answer = [BEFORE; 18];
        let (room, user) = (self.random.below(18), self.random.choose(&[0, 1, 2]));
        let number = unsafe {
            interface::yunverok_preview(user, memory.words(), memory.count(), file.pointer, file.count(), answer.as_mut_ptr(), room)
        };
        let words = reference::words_needed(text);
        let places = match expected {
            Ok(circuit) => interface::counts(words, &circuit.counts()),
            Err(number) => interface::unloaded(words, *number),
        };
        let mut left = [BEFORE; 18];
        if user < 2 {
            left.iter_mut().zip(places).take(room as usize).for_each(|(left, place)| *left = place);
        }
        let mut faults = Vec::new();
        if number != if user < 2 { 0 } else { 18 } || answer != left {
            faults.push(format!("preview of user {user} answered {number} and {answer:?}, expected {left:?}"));
        }
        faults
    }

    fn loaded(&mut self, memory: &Loan, circuit: &Circuit) {
        let bytes: Vec<u8> = reference::image(circuit).iter().flat_map(|word| word.to_le_bytes()).collect();
        let store = self.store(memory);
        store.expect(memory.offset, &bytes);
        store.home = (memory.offset, memory.len);
        self.freed();
        self.tally.answer(Operation::Load, "accepted");
        self.tally.load_with("in order", reference::renumbered(circuit) == *circuit);
        self.tally.load_with("with constraints", !circuit.constraints.is_empty());
        self.tally.load_with("with free latches", circuit.free_latches() > 0);
        self.tally.load_with("with resets 1", circuit.latches.iter().any(|latch| latch.reset == 1));
        self.tally.load_with("of M 4096", circuit.max_var == 4096);
        self.tally.load_with("of A 3072", circuit.gates.len() == 3072);
    }

    // Pins

    fn pin_job(&mut self, large: bool, memory: Loan) {
        let words = self.words(&memory);
        let held = reference::held(&words);
        let inputs = held.as_ref().map_or(0, |c| c.inputs.len() as u64);
        let input = match self.random.below(8) {
            0 => self.random.choose(&[inputs, 256, 512, 1 << 32, u64::MAX]),
            _ => self.random.below(inputs),
        };
        let value = self.random.choose(&[0, 1, 2, 2, 0, 1, 3, 256, u64::MAX]);
        let told = self.perform(Operation::Pin, large, &[memory], &mut |by| unsafe {
            let (shared, answer) = (by.shared, by.answer);
            interface::yunverok_pin(
                by.user,
                shared.pointer,
                shared.count(),
                memory.words(),
                memory.count(),
                input,
                value,
                answer.numbers(),
                answer.count(),
            )
        });
        let (user, shared) = (self.caller.user, self.caller.shared);
        let at = user.wrapping_mul(256).wrapping_add(input);
        let expected = match () {
            _ if user > 1 || value > 2 => Err(18),
            _ if held.is_none() => Err(9),
            _ if input >= inputs || at >= shared.count() => Err(18),
            _ => Ok(interface::done()),
        };
        let faults = self.differs(&told, &expected);
        match expected {
            Ok(_) => {
                self.store(&shared).expect(shared.offset + at as usize, &[value as u8]);
                self.tally.answer(Operation::Pin, "set");
            }
            Err(number) => self.tally.refusal(Operation::Pin, number),
        }
        self.settle(Operation::Pin, &[memory], faults, &|| format!("input {input}, value {value}\n{}", shown(&words)));
    }

    // Search

    fn bad_line(&mut self, c: &Circuit) -> u64 {
        let count = c.bads.len() as u64;
        match self.random.below(24) {
            0 => count,
            1 => self.random.choose(&[count + 1, 4_294_967_296, u64::MAX]),
            _ => self.random.below(count),
        }
    }

    /// A bound or frame: mostly small, else at a limit; for a large job near the one with the greatest permitted size.
    fn bound(&mut self, c: &Circuit, large: bool) -> u64 {
        let frame = c.size(0) - c.free_latches() - 1;
        let fullest = (65_535 - c.free_latches()).checked_div(frame).map_or(255, |frames| frames.clamp(1, 256) - 1);
        match self.random.below(40) {
            0 => 255,
            1 => self.random.choose(&[256, 257, 4_294_967_296, u64::MAX]),
            2 => self.random.below(256),
            _ if large => self.random.choose(&[fullest, fullest, fullest + 1, fullest / 2]),
            3..=12 => self.random.below(12),
            _ => self.random.below(5),
        }
    }

    fn budget(&mut self) -> u64 {
        match self.random.below(24) {
            0 => self.random.choose(&[0, 4_294_967_297, 4_294_967_296 * 2, u64::MAX]),
            1..=3 => self.random.choose(&[4_294_967_296, 4_294_967_295]),
            4..=12 => 1 + self.random.below(20),
            13..=18 => (1 << self.random.below(13)) + self.random.below(2),
            _ => 4096,
        }
    }

    /// The bound and budget, lowered until the reference can try all sequences that the budget asks for. Where the first hit comes
    /// early no budget is too large.
    fn affordable(&mut self, c: &Circuit, b: u64, mut k: u64, mut d: u64, large: bool) -> (u64, u64) {
        let refused = k > 255 || d == 0 || d > 4_294_967_296 || b >= c.bads.len() as u64;
        let limit = if large { 10_000_000 } else { self.random.choose(&[20_000, 20_000, 100_000, 1_000_000]) };
        if refused || (self.random.one_in(16) && cost(c, k, 8) < limit && reference::early_hit(c, b, k, 8).is_some()) {
            return (k, d);
        }
        while cost(c, k, d) > limit && (d > 1 || k > 0) {
            (k, d) = if d > 1 { (k, d / 2) } else { (k / 2, d) };
        }
        (k, d)
    }

    fn search_job(&mut self, large: bool, memory: Loan) {
        let c = reference::held(&self.words(&memory)).unwrap_or_default();
        let b = self.bad_line(&c);
        let (k, d) = (self.bound(&c, large), self.budget());
        let (k, d) = self.affordable(&c, b, k, d, large);
        let work_len = self.near(16 * c.size(k.min(300)));
        let out_len = self.near(c.witness_length(b, k.min(300)));
        let work = self.lend_some(Kind::Work, work_len, 4);
        let out = self.lend_some(Kind::Output, out_len, 1);
        let loans = [memory, work, out];
        let first = self.search(large, &loans, b, k, d);
        if self.random.one_in(16) {
            self.store(&work).fill(&mut Random(first.places[1] ^ b));
            let second = self.search(large, &loans, b, k, d);
            self.tally.repeated += 1;
            if [first.number, second.number].iter().all(|&number| number == 0) && first.places != second.places {
                let fault = format!("answered {first:?}, and over other working memory {second:?}");
                self.settle(Operation::Search, &[], vec![fault], &|| format!("b {b}, k {k}, D {d}"));
            }
        }
    }

    fn search(&mut self, large: bool, loans: &[Loan; 3], b: u64, k: u64, d: u64) -> Told {
        let [memory, work, out] = *loans;
        let words = self.words(&memory);
        let told = self.perform(Operation::Search, large, loans, &mut |by| unsafe {
            let (shared, answer) = (by.shared, by.answer);
            interface::yunverok_search(
                by.user,
                shared.pointer,
                shared.count(),
                memory.words(),
                memory.count(),
                b,
                k,
                d,
                work.words(),
                work.count(),
                out.pointer,
                out.count(),
                answer.numbers(),
                answer.count(),
            )
        });
        let tested = self.may(1).and_then(|()| reference::search_tests(&words, b, k, d, work.count(), out.count()));
        let faults = match tested {
            Err(number) => {
                self.tally.refusal(Operation::Search, number);
                self.differs(&told, &Err(number))
            }
            Ok(c) => self.searched(&work, &out, &told, said(&told), &c, (b, k, d)),
        };
        let inputs = || format!("b {b}, k {k}, D {d}, work {} words, output {} bytes\n{}", work.len, out.len, shown(&words));
        self.settle(Operation::Search, loans, faults, &inputs);
        told
    }

    /// What is wrong with an answer that is no refusal. Of several permitted answers the given one is expected.
    fn searched(&mut self, work: &Loan, out: &Loan, told: &Told, said: Option<Said>, c: &Circuit, (b, k, d): (u64, u64, u64)) -> Vec<String> {
        self.store(work).expect_anything(work.offset, work.byte_len());
        let Some(said) = said else {
            return vec![format!("answered {told:?}")];
        };
        let length = match said {
            Said::Found(t) => c.witness_length(b, t) as usize,
            _ => 0,
        };
        let mut expected = interface::searched(told.places[0], told.places[1], length);
        if told.places[0] == interface::NONE {
            expected[interface::ALWAYS] = told.places[interface::ALWAYS];
        }
        if told.places[0] == interface::SPENT {
            expected[interface::REACHED] = told.places[interface::REACHED];
        }
        let mut faults = self.differs(told, &Ok(expected));
        if expected[interface::ALWAYS] == 1 && reference::some_frame_hits(c, b) == Some(true) {
            faults.push("none for every bound, but a frame has a hit".to_string());
        }
        match reference::search_permits(c, b, k, d, said) {
            Ok(Judged::Text(text)) => self.found(out, said, expected[interface::ALWAYS] == 1, text),
            Ok(Judged::Unjudged) => {
                self.store(out).expect_anything(out.offset, out.byte_len());
                self.tally.answer(Operation::Search, "unjudged");
            }
            Err(why) => faults.push(format!("answered {said:?}, which is not permitted: {why}")),
        }
        faults
    }

    fn found(&mut self, out: &Loan, said: Said, always: bool, text: Vec<u8>) {
        self.store(out).expect(out.offset, &text);
        match said {
            Said::Found(t) => {
                self.tally.answer(Operation::Search, "found");
                self.tally.found_at(t);
                self.last_witness = text;
            }
            Said::Nothing(_) => self.tally.answer(Operation::Search, if always { "none for every bound" } else { "none" }),
            _ => self.tally.answer(Operation::Search, "spent"),
        }
    }

    // Fold

    fn fold_job(&mut self, large: bool, memory: Loan) {
        let c = reference::held(&self.words(&memory)).unwrap_or_default();
        let b = self.bad_line(&c);
        let t = self.bound(&c, large);
        let size = c.size(t.min(300));
        let (work_len, out_len) = (self.near(16 * size), self.near(24 * size + 64));
        let work = self.lend_some(Kind::Work, work_len, 4);
        let out = self.lend_some(Kind::Output, out_len, 1);
        let loans = [memory, work, out];
        let first = self.fold(large, &loans, b, t);
        if self.random.one_in(16) {
            self.store(&work).fill(&mut Random(b));
            let second = self.fold(large, &loans, b, t);
            self.tally.repeated += 1;
            let both = first.0 == 0 && second.0 == 0;
            self.tally.fold_repeated_otherwise += u64::from(both && first != second);
        }
    }

    /// The answer and the text that was written.
    fn fold(&mut self, large: bool, loans: &[Loan; 3], b: u64, t: u64) -> (u64, Vec<u8>) {
        let [memory, work, out] = *loans;
        let words = self.words(&memory);
        let told = self.perform(Operation::Fold, large, loans, &mut |by| unsafe {
            let (shared, answer) = (by.shared, by.answer);
            interface::yunverok_fold(
                by.user,
                shared.pointer,
                shared.count(),
                memory.words(),
                memory.count(),
                b,
                t,
                work.words(),
                work.count(),
                out.pointer,
                out.count(),
                answer.numbers(),
                answer.count(),
            )
        });
        let mut text = Vec::new();
        let tested = self.may(1).and_then(|()| reference::fold_tests(&words, b, t, work.count(), out.count()));
        let faults = match tested {
            Err(number) => {
                self.tally.refusal(Operation::Fold, number);
                self.differs(&told, &Err(number))
            }
            Ok(c) => {
                let length = told.places[2].min(out.count()) as usize;
                let mut faults = self.differs(&told, &Ok(interface::text(length)));
                text = self.store(&out).bytes()[out.offset..out.offset + length].to_vec();
                self.store(&out).expect(out.offset, &text);
                self.store(&work).expect_anything(work.offset, work.byte_len());
                let random = &mut self.random;
                match reference::fold_permits(&c, b, t, &text, &mut || random.word()) {
                    Ok(()) => self.tally.answer(Operation::Fold, "folded"),
                    Err(why) => faults.push(format!("the text is not permitted: {why}: {}", text.escape_ascii())),
                }
                self.tally.fold_of(c.free_bits(t));
                faults
            }
        };
        let inputs = || format!("b {b}, t {t}, work {} words, output {} bytes\n{}", work.len, out.len, shown(&words));
        self.settle(Operation::Fold, loans, faults, &inputs);
        (told.number, text)
    }

    // Replay

    fn witness(&mut self, c: &Circuit, large: bool) -> Vec<u8> {
        let b = self.bad_line(c);
        let rows = match self.random.below(20) {
            0 => self.random.choose(&[0, 255, 256, 257]),
            1 => self.random.below(40),
            _ if large => 256,
            _ => 1 + self.random.below(5),
        };
        let k = rows.min(4);
        let made = match self.random.below(4) {
            0 => self.last_witness.clone(),
            1 if b < c.bads.len() as u64 && cost(c, k, 16) < 100_000 => match reference::early_hit(c, b, k, 16) {
                Some((t, x)) => reference::witness(c, b, t, x),
                None => generate::witness(&mut self.random, c, b, rows),
            },
            _ => generate::witness(&mut self.random, c, b, rows),
        };
        let mut text = made;
        self.put_eithers(c, &mut text);
        if self.random.one_in(5) {
            generate::damage_text(&mut self.random, &mut text);
        }
        text.truncate(LONGEST_TEXT);
        text
    }

    /// Puts `x` for some bits, few enough that the reference ends soon, or more than 16.
    fn put_eithers(&mut self, c: &Circuit, text: &mut [u8]) {
        let mut bits = bit_places(text);
        let cost = run_cost(c, text);
        let most = (0..=16).rev().find(|&n| (cost << n) < 1_000_000).unwrap_or(0);
        let n = match self.random.below(12) {
            0..=5 => 0,
            6..=9 => (1 + self.random.below(4)).min(most),
            10 => self.random.below(most + 1),
            _ if cost < 2_000 && 16 < bits.len() => self.random.choose(&[16, 17, 18]),
            _ => most,
        };
        for i in 0..bits.len().min(n as usize) {
            let j = i + self.random.below((bits.len() - i) as u64) as usize;
            bits.swap(i, j);
            text[bits[i]] = b'x';
        }
    }

    fn replay_job(&mut self, large: bool, memory: Loan) {
        let words = self.words(&memory);
        let c = reference::held(&words).unwrap_or_default();
        let text = self.witness(&c, large);
        let witness = self.lend_text(&text);
        let loans = [memory, witness];
        let told = self.perform(Operation::Replay, large, &loans, &mut |by| unsafe {
            let (shared, answer) = (by.shared, by.answer);
            interface::yunverok_replay(
                by.user,
                shared.pointer,
                shared.count(),
                memory.words(),
                memory.count(),
                witness.pointer,
                witness.count(),
                answer.numbers(),
                answer.count(),
            )
        });
        let expected = self.may(1).and_then(|()| reference::replay(&words, &text));
        let faults = self.differs(&told, &expected.map(|verdict| interface::kind(kind_of(verdict))));
        match expected {
            Ok(verdict) => self.tally.answer(Operation::Replay, ["no", "all", "mixed"][verdict as usize]),
            Err(number) => self.tally.refusal(Operation::Replay, number),
        }
        self.settle(Operation::Replay, &loans, faults, &|| format!("witness: {}\n{}", text.escape_ascii(), shown(&words)));
    }

    // Widen

    fn widen_job(&mut self, large: bool, memory: Loan) {
        let words = self.words(&memory);
        let c = reference::held(&words).unwrap_or_default();
        let text = self.witness(&c, large);
        let bits = text.iter().filter(|byte| b"01x".contains(byte)).count() as u64;
        if eithers(&text) <= 16 && run_cost(&c, &text) << bits.min(17) > 30_000_000 {
            return;
        }
        let witness = self.lend_text(&text);
        let out_len = self.near(text.len() as u64);
        let out = self.lend_some(Kind::Output, out_len, 1);
        let loans = [memory, witness, out];
        let told = self.perform(Operation::Widen, large, &loans, &mut |by| unsafe {
            let (shared, answer) = (by.shared, by.answer);
            interface::yunverok_widen(
                by.user,
                shared.pointer,
                shared.count(),
                memory.words(),
                memory.count(),
                witness.pointer,
                witness.count(),
                out.pointer,
                out.count(),
                answer.numbers(),
                answer.count(),
            )
        });
        let expected = self.may(1).and_then(|()| reference::widen(&words, &text, out.count()));
        let faults = self.differs(&told, &lengthened(&expected));
        match expected {
            Ok(wide) => {
                self.store(&out).expect(out.offset, &wide);
                let said = if wide == text { "unchanged" } else if eithers(&wide) == 16 { "widened to 16" } else { "widened" };
                self.tally.answer(Operation::Widen, said);
            }
            Err(number) => self.tally.refusal(Operation::Widen, number),
        }
        self.settle(Operation::Widen, &loans, faults, &|| format!("witness: {}\n{}", text.escape_ascii(), shown(&words)));
    }

    // Join

    /// A circuit to join with c: c itself, c with one gate's operand or one output complemented, or any circuit with as many inputs and outputs.
    fn partner(&mut self, c: &Circuit) -> Circuit {
        let mut d = c.clone();
        match self.random.below(6) {
            0 => (),
            1 if !d.outputs.is_empty() => d.outputs[0] ^= 1,
            2 | 3 if !d.gates.is_empty() => {
                let gate = self.random.below(d.gates.len() as u64) as usize;
                d.gates[gate].left ^= 1;
            }
            _ => {
                let mut plan = generate::small_plan(&mut self.random, 1024);
                plan.inputs = c.inputs.len() as u64 + u64::from(self.random.one_in(12));
                plan.outputs = c.outputs.len() as u64 + u64::from(self.random.one_in(12));
                d = generate::circuit(&mut self.random, &plan);
            }
        }
        d
    }

    /// The circuit in memory gets a partner, which is put into a second memory as a load leaves it, over what that held, and the two are joined
    /// into a third memory that holds whatever it held.
    fn join_job(&mut self, large: bool, first: Loan) {
        let words = self.words(&first);
        let Some(c) = reference::held(&words).filter(|_| !self.random.one_in(30)) else {
            let second = self.lend_held(false);
            if second.index != first.index {
                self.join_into(large, first, second);
            }
            return;
        };
        let d = self.partner(&c);
        let len = reference::needed(d.max_var);
        let second = self.lend_some(Kind::Memory, len, 4);
        if second.index == first.index || (second.len as u64) < len {
            return;
        }
        let image: Vec<u8> = reference::image(&d).iter().flat_map(|word| word.to_le_bytes()).collect();
        self.store(&second).bytes_mut()[second.offset..second.offset + image.len()].copy_from_slice(&image);
        self.store(&second).home = (second.offset, second.len);
        self.join_into(large, first, second);
    }

    fn join_into(&mut self, large: bool, first: Loan, second: Loan) {
        let (one, two) = (self.words(&first), self.words(&second));
        let exact = reference::join(&one, &two, u64::MAX).map_or(300, |c| reference::needed(c.max_var));
        let third_len = self.near(exact);
        let third = self.lend_some(Kind::Memory, third_len, 4);
        if third.index == first.index || third.index == second.index {
            return;
        }
        let loans = [first, second, third];
        let told = self.perform(Operation::Join, large, &loans, &mut |by| unsafe {
            let (shared, answer) = (by.shared, by.answer);
            interface::yunverok_join(
                by.user,
                shared.pointer,
                shared.count(),
                third.words(),
                third.count(),
                first.words(),
                first.count(),
                second.words(),
                second.count(),
                answer.numbers(),
                answer.count(),
            )
        });
        let expected = self.may(0).and_then(|()| reference::join(&one, &two, third.count()));
        let faults = self.differs(&told, &expected.as_ref().map(counted).map_err(|&number| number));
        match expected {
            Ok(circuit) => {
                let bytes: Vec<u8> = reference::image(&circuit).iter().flat_map(|word| word.to_le_bytes()).collect();
                let store = self.store(&third);
                store.expect(third.offset, &bytes);
                store.home = (third.offset, third.len);
                self.freed();
                self.tally.answer(Operation::Join, "joined");
            }
            Err(number) => self.tally.refusal(Operation::Join, number),
        }
        self.settle(Operation::Join, &loans, faults, &|| format!("first {}\nsecond {}\nthird {} words", shown(&one), shown(&two), third.len));
    }

    // Write

    fn write_job(&mut self, large: bool, memory: Loan) {
        let words = self.words(&memory);
        let form = generate::form(&mut self.random);
        let length = reference::write(&words, form, u64::MAX).map_or(100, |text| text.len());
        let out_len = self.near(length as u64);
        let out = self.lend_some(Kind::Output, out_len, 1);
        let loans = [memory, out];
        let told = self.perform(Operation::Write, large, &loans, &mut |by| unsafe {
            let (answer, places) = (by.answer.numbers(), by.answer.count());
            interface::yunverok_write(by.user, memory.words(), memory.count(), form, out.pointer, out.count(), answer, places)
        });
        let expected = self.may(1).and_then(|()| reference::write(&words, form, out.count()));
        let faults = self.differs(&told, &lengthened(&expected));
        match expected {
            Ok(text) => {
                self.store(&out).expect(out.offset, &text);
                self.tally.answer(Operation::Write, if form == 0 { "text" } else { "binary" });
            }
            Err(number) => self.tally.refusal(Operation::Write, number),
        }
        self.settle(Operation::Write, &loans, faults, &|| format!("form {form}, output {} bytes\n{}", out.len, shown(&words)));
    }

    // Generate

    /// A count: mostly small, or at the limit, or next to it, or one whose sum with others does not fit in 64 bits.
    fn count(&mut self, large: bool, most: u64) -> u64 {
        match self.random.below(24) {
            0 => self.random.choose(&[most, most + 1, most - 1]),
            1 => self.random.choose(&[1 << 32, u64::MAX, u64::MAX - most, 1 << 63]),
            _ if large => self.random.below(most + 1),
            _ => self.random.below(most.min(30)),
        }
    }

    fn generate_job(&mut self, large: bool) {
        let seed = if self.random.one_in(4) { self.random.choose(&[0, 1, 1 << 63, u64::MAX]) } else { self.random.word() };
        let counts = [256, 1024, 3072].map(|most| self.count(large, most));
        let length = reference::generate(seed, counts, u64::MAX).map_or(100, |text| text.len());
        let out_len = self.near(length as u64);
        let out = self.lend_some(Kind::Output, out_len, 1);
        let told = self.perform(Operation::Generate, large, &[out], &mut |by| unsafe {
            let [inputs, latches, gates] = counts;
            interface::yunverok_generate(seed, inputs, latches, gates, out.pointer, out.count(), by.answer.numbers(), by.answer.count())
        });
        let expected = reference::generate(seed, counts, out.count());
        let faults = self.differs(&told, &lengthened(&expected));
        match expected {
            Ok(text) => {
                self.store(&out).expect(out.offset, &text);
                self.tally.answer(Operation::Generate, "generated");
            }
            Err(number) => self.tally.refusal(Operation::Generate, number),
        }
        self.settle(Operation::Generate, &[out], faults, &|| format!("seed {seed}, counts {counts:?}, output {} bytes", out.len));
    }

    // Waveform

    fn waveform_job(&mut self, large: bool, memory: Loan) {
        let words = self.words(&memory);
        let c = reference::held(&words).unwrap_or_default();
        let text = self.witness(&c, large);
        let inputs = if self.random.one_in(3) { self.random.word() } else { 0 };
        let complete = text.iter().map(|&byte| if byte == b'x' { b'0' } else { byte }).collect::<Vec<u8>>();
        let length = reference::waveform(&words, &complete, inputs != 0, u64::MAX).map_or(100, |shown| shown.len());
        let out_len = self.near(length as u64);
        let out = self.lend_some(Kind::Output, out_len, 1);
        let witness = self.lend_text(&text);
        let loans = [memory, witness, out];
        let told = self.perform(Operation::Waveform, large, &loans, &mut |by| unsafe {
            interface::yunverok_waveform(
                by.user,
                memory.words(),
                memory.count(),
                witness.pointer,
                witness.count(),
                inputs,
                out.pointer,
                out.count(),
                by.answer.numbers(),
                by.answer.count(),
            )
        });
        let expected = self.may(1).and_then(|()| reference::waveform(&words, &text, inputs != 0, out.count()));
        let faults = self.differs(&told, &lengthened(&expected));
        match expected {
            Ok(shown) => {
                self.store(&out).expect(out.offset, &shown);
                let said = match (inputs == 0, eithers(&text) == 0) {
                    (true, true) => "all wires",
                    (true, false) => "all wires, x",
                    (false, true) => "inputs",
                    (false, false) => "inputs, x",
                };
                self.tally.answer(Operation::Waveform, said);
            }
            Err(number) => self.tally.refusal(Operation::Waveform, number),
        }
        self.settle(Operation::Waveform, &loans, faults, &|| {
            format!("witness: {}, inputs {inputs}, output {} bytes\n{}", text.escape_ascii(), out.len, shown(&words))
        });
    }
}

/// Where bits stand after the second line.
fn bit_places(text: &[u8]) -> Vec<usize> {
    let body = text.iter().enumerate().filter(|(_, &byte)| byte == b'\n').nth(1).map_or(text.len(), |(at, _)| at);
    (body..text.len()).filter(|&i| b"01".contains(&text[i])).collect()
}

/// How many `x` a text holds.
fn eithers(text: &[u8]) -> usize {
    text.iter().filter(|&&byte| byte == b'x').count()
}

/// About what one completion of a witness costs.
fn run_cost(c: &Circuit, text: &[u8]) -> u64 {
    let rows = text.iter().filter(|&&byte| byte == b'\n').count();
    ((c.gates.len() + c.latches.len() + c.inputs.len() + 4) * (rows + 1)) as u64
}

/// What a search says that is not refused.
fn said(told: &Told) -> Option<Said> {
    match told.places[0] {
        interface::FOUND => Some(Said::Found(told.places[1])),
        interface::NONE => Some(Said::Nothing(told.places[1])),
        interface::SPENT => Some(Said::Spent(told.places[1], told.places[interface::REACHED])),
        _ => None,
    }
}

fn kind_of(verdict: Verdict) -> u64 {
    match verdict {
        Verdict::All => interface::ALL,
        Verdict::No => interface::NO,
        Verdict::Mixed => interface::MIXED,
    }
}

/// What is told of a circuit that is loaded or joined.
fn counted(c: &Circuit) -> Places {
    interface::counts(reference::needed(c.max_var), &c.counts())
}

/// What is told of a text that was written.
fn lengthened(text: &Result<Vec<u8>, u32>) -> Result<Places, u32> {
    text.as_ref().map(|text| interface::text(text.len())).map_err(|&number| number)
}

/// About how many gates are evaluated by a search that stops at the first frame with more sequences than the budget.
fn cost(c: &Circuit, k: u64, d: u64) -> u64 {
    let frame = (c.gates.len() + c.latches.len() + c.inputs.len() + 4) as u64;
    let mut total = 0u64;
    for t in 0..=k {
        let n = c.free_bits(t);
        let all = if n > 32 { u64::MAX } else { 1 << n };
        total = total.saturating_add(all.min(d).saturating_mul((t + 1) * frame));
        if all > d {
            break;
        }
    }
    total
}

/// Circuit memory without its zeros at the end.
fn shown(words: &[u32]) -> String {
    let used = words.iter().rposition(|&word| word != 0).map_or(0, |last| last + 1);
    format!("circuit memory, {} words, zeros from {used} on: {:?}", words.len(), &words[..used])
}
