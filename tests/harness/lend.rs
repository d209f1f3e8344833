//! Memories to lend. Each lies between two inaccessible pages, so that an access past its end or before its front faults. They are
//! never cleared: a job finds what the jobs before it left.

use crate::random::Random;
use std::ffi::c_void;

pub const PAGE: usize = 4096;

extern "C" {
    fn mmap(address: *mut c_void, length: usize, protection: i32, flags: i32, file: i32, offset: i64) -> *mut c_void;
    fn mprotect(address: *mut c_void, length: usize, protection: i32) -> i32;
}

/// Accessible pages between two that are not.
pub fn map_between_guards(pages: usize) -> *mut u8 {
    const PRIVATE_ANONYMOUS: i32 = 0x22;
    const READ_WRITE: i32 = 3;
    unsafe {
        let whole = mmap(std::ptr::null_mut(), (pages + 2) * PAGE, 0, PRIVATE_ANONYMOUS, -1, 0);
        assert!(whole as isize != -1, "mmap failed");
        let base = (whole as *mut u8).add(PAGE);
        assert!(mprotect(base as *mut c_void, pages * PAGE, READ_WRITE) == 0, "mprotect failed");
        base
    }
}

/// A part of a store: `len` elements of `width` bytes from `offset` on. Where `len` is 0 the pointer may be anything.
#[derive(Clone, Copy)]
pub struct Loan {
    pub kind: Kind,
    pub index: usize,
    pub offset: usize,
    pub len: usize,
    pub width: usize,
    pub pointer: *mut u8,
}

#[derive(Clone, Copy, PartialEq, Debug)]
pub enum Kind {
    Memory,
    Work,
    Output,
    Text,
    Shared,
    Answer,
}

pub struct Store {
    base: *mut u8,
    pub size: usize,
    /// What the store must hold after the job.
    expected: Vec<u8>,
    /// Of circuit memory: where the last accepted load put a circuit, and how many words were lent to it.
    pub home: (usize, usize),
}

impl Store {
    pub fn new(pages: usize) -> Store {
        let size = pages * PAGE;
        Store { base: map_between_guards(pages), size, expected: vec![0; size], home: (0, size / 4) }
    }

    pub fn bytes(&self) -> &[u8] {
        unsafe { std::slice::from_raw_parts(self.base, self.size) }
    }

    pub fn bytes_mut(&mut self) -> &mut [u8] {
        unsafe { std::slice::from_raw_parts_mut(self.base, self.size) }
    }

    pub fn word(&self, offset: usize) -> u32 {
        u32::from_le_bytes(self.bytes()[offset..offset + 4].try_into().expect("four bytes"))
    }

    pub fn set_word(&mut self, offset: usize, word: u32) {
        self.bytes_mut()[offset..offset + 4].copy_from_slice(&word.to_le_bytes());
    }

    pub fn fill(&mut self, random: &mut Random) {
        let small = random.one_in(2);
        for chunk in self.bytes_mut().chunks_mut(4) {
            let word = if small { random.below(8) as u32 } else { random.word() as u32 };
            chunk.copy_from_slice(&word.to_le_bytes());
        }
    }

    /// Most parts end at the inaccessible page behind the store, some begin at the one before it, the others lie between.
    pub fn place(&self, random: &mut Random, len: usize, width: usize) -> usize {
        let room = (self.size - len * width) / width;
        match random.below(8) {
            0 => 0,
            1 => width * random.below(room as u64 + 1) as usize,
            _ => self.size - len * width,
        }
    }

    pub fn pointer(&self, random: &mut Random, offset: usize, len: usize) -> *mut u8 {
        match random.below(4) {
            0 if len == 0 => std::ptr::null_mut(),
            1 if len == 0 => std::ptr::dangling_mut(),
            2 if len == 0 => self.base.wrapping_add(self.size + 4),
            _ => self.base.wrapping_add(offset),
        }
    }

    pub fn snapshot(&mut self) {
        let actual = unsafe { std::slice::from_raw_parts(self.base, self.size) };
        self.expected.copy_from_slice(actual);
    }

    pub fn expect(&mut self, offset: usize, bytes: &[u8]) {
        self.expected[offset..offset + bytes.len()].copy_from_slice(bytes);
    }

    /// Nothing is promised of these bytes.
    pub fn expect_anything(&mut self, offset: usize, length: usize) {
        let actual = unsafe { std::slice::from_raw_parts(self.base.add(offset), length) };
        self.expected[offset..offset + length].copy_from_slice(actual);
    }

    pub fn difference(&self) -> Option<String> {
        if self.bytes() == self.expected {
            return None;
        }
        let at = self.bytes().iter().zip(&self.expected).position(|(a, b)| a != b)?;
        Some(format!("byte {at} of the store is {}, expected {}", self.bytes()[at], self.expected[at]))
    }
}

impl Loan {
    pub fn byte_len(&self) -> usize {
        self.len * self.width
    }

    /// The length as the library takes it.
    pub fn count(&self) -> u64 {
        self.len as u64
    }

    pub fn words(&self) -> *mut u32 {
        self.pointer as *mut u32
    }

    pub fn numbers(&self) -> *mut u64 {
        self.pointer as *mut u64
    }
}
