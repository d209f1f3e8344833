//! The functions of library/yunverok.h, and the places of their answers.

// A lent slice is a pointer and a length in elements.
#[rustfmt::skip]
extern "C" {
    pub fn yunverok_version() -> u64;
    pub fn yunverok_load(user: u64, shared: *mut u8, shared_len: u64, circuit: *mut u32, circuit_len: u64, file: *const u8, file_len: u64,
                         answer: *mut u64, answer_len: u64) -> u64;
    pub fn yunverok_join(user: u64, shared: *mut u8, shared_len: u64, circuit: *mut u32, circuit_len: u64, first: *const u32,
                         first_len: u64, second: *const u32, second_len: u64, answer: *mut u64, answer_len: u64) -> u64;
    pub fn yunverok_preview(user: u64, circuit: *const u32, circuit_len: u64, file: *const u8, file_len: u64, answer: *mut u64,
                            answer_len: u64) -> u64;
    pub fn yunverok_pin(user: u64, shared: *mut u8, shared_len: u64, circuit: *const u32, circuit_len: u64, input: u64, value: u64,
                        answer: *mut u64, answer_len: u64) -> u64;
    pub fn yunverok_search(user: u64, shared: *const u8, shared_len: u64, circuit: *const u32, circuit_len: u64, b: u64, k: u64, d: u64,
                           work: *mut u32, work_len: u64, out: *mut u8, out_len: u64, answer: *mut u64, answer_len: u64) -> u64;
    pub fn yunverok_fold(user: u64, shared: *const u8, shared_len: u64, circuit: *const u32, circuit_len: u64, b: u64, t: u64,
                         work: *mut u32, work_len: u64, out: *mut u8, out_len: u64, answer: *mut u64, answer_len: u64) -> u64;
    pub fn yunverok_replay(user: u64, shared: *const u8, shared_len: u64, circuit: *const u32, circuit_len: u64, text: *const u8,
                           text_len: u64, answer: *mut u64, answer_len: u64) -> u64;
    pub fn yunverok_widen(user: u64, shared: *const u8, shared_len: u64, circuit: *const u32, circuit_len: u64, text: *const u8,
                          text_len: u64, out: *mut u8, out_len: u64, answer: *mut u64, answer_len: u64) -> u64;
    pub fn yunverok_waveform(user: u64, circuit: *const u32, circuit_len: u64, text: *const u8, text_len: u64, inputs: u64, out: *mut u8,
                             out_len: u64, answer: *mut u64, answer_len: u64) -> u64;
    pub fn yunverok_write(user: u64, circuit: *const u32, circuit_len: u64, form: u64, out: *mut u8, out_len: u64, answer: *mut u64,
                          answer_len: u64) -> u64;
    pub fn yunverok_generate(seed: u64, inputs: u64, latches: u64, gates: u64, out: *mut u8, out_len: u64, answer: *mut u64,
                             answer_len: u64) -> u64;
}

/// The places of an answer: kind, frame, length, words, reached, seven counts, whether a none holds for every bound, load's number, two
/// that are 0.
pub type Places = [u64; 16];

pub const VERSION: u64 = 2;

pub const DONE: u64 = 0;
pub const FOUND: u64 = 1;
pub const NONE: u64 = 2;
pub const SPENT: u64 = 3;
pub const ALL: u64 = 4;
pub const NO: u64 = 5;
pub const MIXED: u64 = 6;

pub const REACHED: usize = 4;
pub const ALWAYS: usize = 12;

pub fn kind(kind: u64) -> Places {
    let mut places = [0; 16];
    places[0] = kind;
    places
}

pub fn done() -> Places {
    kind(DONE)
}

pub fn text(length: usize) -> Places {
    let mut places = done();
    places[2] = length as u64;
    places
}

pub fn counts(words: u64, counts: &[u64; 7]) -> Places {
    let mut places = done();
    places[3] = words;
    places[5..12].copy_from_slice(counts);
    places
}

/// What a preview tells of a file that load would refuse.
pub fn unloaded(words: u64, number: u32) -> Places {
    let mut places = done();
    places[3] = words;
    places[13] = number.into();
    places
}

/// What a search tells: its kind, the frame, and the length of the witness.
pub fn searched(of: u64, frame: u64, length: usize) -> Places {
    let mut places = kind(of);
    places[1] = frame;
    places[2] = length as u64;
    places
}
