//! The functions of the archive, as `pslink.h` declares them.

use std::ffi::{c_char, c_void};

/// A file: `pslink_file`.
#[repr(C)]
#[derive(Clone, Copy)]
pub struct File {
    pub name: *const c_char,
    pub bytes: *const c_void,
    pub length: usize,
}

/// What a call answers: `pslink_answer`.
#[repr(C)]
#[derive(Clone, Copy, Default)]
pub struct Answer {
    pub status: u32,
    pub fault: u32,
    pub file: isize,
    pub record: isize,
    pub reference: isize,
    pub slot: i32,
    pub kind: i32,
    pub about: [u8; 9],
    pub segments: u32,
    pub private_words: u32,
    pub blocks: u32,
    pub warnings: u32,
    pub size: usize,
    pub reserved: [u32; 8],
}

extern "C" {
    pub fn pslink_link(
        files: *const File,
        count: usize,
        out: *mut c_void,
        room: usize,
        answer: *mut Answer,
    ) -> u32;
    pub fn pslink_text(
        what: u32,
        files: *const File,
        count: usize,
        out: *mut c_void,
        room: usize,
        answer: *mut Answer,
    ) -> u32;
    pub fn pslink_fault_text(answer: *const Answer, out: *mut c_char, room: usize) -> usize;
    pub fn pslink_fault(fault: u32, part: u32) -> *const c_char;
    pub fn pslink_release_number() -> u32;
}
