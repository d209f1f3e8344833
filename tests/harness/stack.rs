//! The depth of stack that a call uses: its thread runs on a stack of known contents, and afterwards the lowest byte that changed is
//! looked for.

use crate::lend::{map_between_guards, PAGE};
use std::ffi::c_void;

const PAGES: usize = 128;
const PAINT: u64 = 0xa5c3_5a3c_96e1_1e69;

#[repr(C, align(16))]
struct Attributes([u64; 8]);

type Entry = extern "C" fn(*mut c_void) -> *mut c_void;

extern "C" {
    fn pthread_attr_init(attributes: *mut Attributes) -> i32;
    fn pthread_attr_setstack(attributes: *mut Attributes, base: *mut c_void, size: usize) -> i32;
    fn pthread_create(thread: *mut u64, attributes: *const Attributes, entry: Entry, argument: *mut c_void) -> i32;
    fn pthread_join(thread: u64, result: *mut *mut c_void) -> i32;
}

struct Call<'a> {
    call: &'a mut dyn FnMut() -> u64,
    answer: u64,
    top: usize,
}

extern "C" fn entry(argument: *mut c_void) -> *mut c_void {
    let call = unsafe { &mut *(argument as *mut Call) };
    let mark = 0u8;
    call.top = std::hint::black_box(&mark) as *const u8 as usize;
    call.answer = (call.call)();
    std::ptr::null_mut()
}

pub struct Painted {
    base: *mut u64,
}

impl Painted {
    pub fn new() -> Painted {
        let mut painted = Painted { base: map_between_guards(PAGES) as *mut u64 };
        painted.words().fill(PAINT);
        painted
    }

    fn words(&mut self) -> &mut [u64] {
        unsafe { std::slice::from_raw_parts_mut(self.base, PAGES * PAGE / 8) }
    }

    /// The answer of the call, and the bytes of stack below the frame that made it.
    pub fn run(&mut self, call: &mut dyn FnMut() -> u64) -> (u64, usize) {
        let mut call = Call { call, answer: 0, top: 0 };
        let mut attributes = Attributes([0; 8]);
        let mut thread = 0;
        unsafe {
            assert!(pthread_attr_init(&mut attributes) == 0);
            assert!(pthread_attr_setstack(&mut attributes, self.base as *mut c_void, PAGES * PAGE) == 0);
            let argument = &mut call as *mut Call as *mut c_void;
            assert!(pthread_create(&mut thread, &attributes, entry, argument) == 0);
            assert!(pthread_join(thread, std::ptr::null_mut()) == 0);
        }
        let words = self.words();
        let lowest = words.iter().position(|&word| word != PAINT).unwrap_or(words.len());
        words[lowest..].fill(PAINT);
        (call.answer, call.top - (self.base as usize + 8 * lowest))
    }
}
