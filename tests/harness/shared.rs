//! The functions of library/yunverok.h on memories that two users share.

use crate::interface::*;
use crate::stack::Painted;

/// What an answer holds before a call, and two numbers past its places that no call changes.
pub const BEFORE: [u64; 18] = [7; 18];

/// What a call gives back: the number that it returned, its answer and its output. Where the circuit is replaced the other user must learn
/// of it.
#[derive(Clone)]
pub struct Reply {
    pub number: u64,
    pub answer: [u64; 18],
    pub out: Vec<u8>,
    pub replaces: bool,
    /// The bytes of stack that it used, where that was looked at.
    pub depth: usize,
}

/// A call that was not refused.
pub fn told(places: Places, out: Vec<u8>) -> Reply {
    let mut answer = BEFORE;
    answer[..16].copy_from_slice(&places);
    Reply { number: 0, answer, out, replaces: false, depth: 0 }
}

pub fn refused(number: u32, out: &[u8]) -> Reply {
    Reply { number: number.into(), answer: BEFORE, out: out.to_vec(), replaces: false, depth: 0 }
}

/// What both users share.
pub struct Shared {
    pub memory: Vec<u32>,
    pub work: Vec<u32>,
    pub bytes: Vec<u8>,
    pub painted: Painted,
    /// Whether the next call is made on the painted stack.
    pub paints: bool,
}

type Stack<'a> = Option<&'a mut Painted>;

fn reply(stack: Stack, mut out: Vec<u8>, mut call: impl FnMut(*mut u64, u64, &mut Vec<u8>) -> u64) -> Reply {
    let mut answer = BEFORE;
    let mut call = || call(answer.as_mut_ptr(), 16, &mut out);
    let (number, depth) = match stack {
        Some(painted) => painted.run(&mut call),
        None => (call(), 0),
    };
    Reply { number, answer, out, replaces: false, depth }
}

fn len<T>(slice: &[T]) -> u64 {
    slice.len() as u64
}

#[rustfmt::skip]
impl Shared {
    pub fn load(&mut self, user: u64, file: &[u8]) -> Reply {
        let stack = self.paints.then_some(&mut self.painted);
        let (m, s) = (&mut self.memory, &mut self.bytes);
        reply(stack, vec![], |answer, places, _| unsafe {
            yunverok_load(user, s.as_mut_ptr(), len(s), m.as_mut_ptr(), len(m), file.as_ptr(), len(file), answer, places)
        })
    }

    pub fn join(&mut self, user: u64, first: &[u32], second: &[u32]) -> Reply {
        let stack = self.paints.then_some(&mut self.painted);
        let (m, s) = (&mut self.memory, &mut self.bytes);
        reply(stack, vec![], |answer, places, _| unsafe {
            yunverok_join(user, s.as_mut_ptr(), len(s), m.as_mut_ptr(), len(m), first.as_ptr(), len(first), second.as_ptr(), len(second),
                           answer, places)
        })
    }

    pub fn preview(&mut self, user: u64, file: &[u8]) -> Reply {
        let stack = self.paints.then_some(&mut self.painted);
        let m = &self.memory;
        reply(stack, vec![], |answer, places, _| unsafe {
            yunverok_preview(user, m.as_ptr(), len(m), file.as_ptr(), len(file), answer, places)
        })
    }

    pub fn pin(&mut self, user: u64, input: u64, value: u64) -> Reply {
        let stack = self.paints.then_some(&mut self.painted);
        let (m, s) = (&self.memory, &mut self.bytes);
        reply(stack, vec![], |answer, places, _| unsafe {
            yunverok_pin(user, s.as_mut_ptr(), len(s), m.as_ptr(), len(m), input, value, answer, places)
        })
    }

    pub fn search(&mut self, user: u64, b: u64, k: u64, d: u64, out: &[u8]) -> Reply {
        let stack = self.paints.then_some(&mut self.painted);
        let (m, s, w) = (&self.memory, &self.bytes, &mut self.work);
        reply(stack, out.to_vec(), |answer, places, out| unsafe {
            yunverok_search(user, s.as_ptr(), len(s), m.as_ptr(), len(m), b, k, d, w.as_mut_ptr(), len(w), out.as_mut_ptr(), len(out),
                             answer, places)
        })
    }

    pub fn fold(&mut self, user: u64, b: u64, t: u64, out: &[u8]) -> Reply {
        let stack = self.paints.then_some(&mut self.painted);
        let (m, s, w) = (&self.memory, &self.bytes, &mut self.work);
        reply(stack, out.to_vec(), |answer, places, out| unsafe {
            yunverok_fold(user, s.as_ptr(), len(s), m.as_ptr(), len(m), b, t, w.as_mut_ptr(), len(w), out.as_mut_ptr(), len(out), answer,
                           places)
        })
    }

    pub fn replay(&mut self, user: u64, text: &[u8]) -> Reply {
        let stack = self.paints.then_some(&mut self.painted);
        let (m, s) = (&self.memory, &self.bytes);
        reply(stack, vec![], |answer, places, _| unsafe {
            yunverok_replay(user, s.as_ptr(), len(s), m.as_ptr(), len(m), text.as_ptr(), len(text), answer, places)
        })
    }

    pub fn widen(&mut self, user: u64, text: &[u8], out: &[u8]) -> Reply {
        let stack = self.paints.then_some(&mut self.painted);
        let (m, s) = (&self.memory, &self.bytes);
        reply(stack, out.to_vec(), |answer, places, out| unsafe {
            yunverok_widen(user, s.as_ptr(), len(s), m.as_ptr(), len(m), text.as_ptr(), len(text), out.as_mut_ptr(), len(out), answer,
                            places)
        })
    }

    pub fn waveform(&mut self, user: u64, text: &[u8], inputs: u64, out: &[u8]) -> Reply {
        let stack = self.paints.then_some(&mut self.painted);
        let m = &self.memory;
        reply(stack, out.to_vec(), |answer, places, out| unsafe {
            yunverok_waveform(user, m.as_ptr(), len(m), text.as_ptr(), len(text), inputs, out.as_mut_ptr(), len(out), answer, places)
        })
    }

    pub fn write(&mut self, user: u64, form: u64, out: &[u8]) -> Reply {
        let stack = self.paints.then_some(&mut self.painted);
        let m = &self.memory;
        reply(stack, out.to_vec(), |answer, places, out| unsafe {
            yunverok_write(user, m.as_ptr(), len(m), form, out.as_mut_ptr(), len(out), answer, places)
        })
    }
}
