//! The C library's calls over slices: the one place with `unsafe`. A slice is never null and is good for its length, and a
//! `&mut` one overlaps no other, which is all that the calls ask for.
#![allow(unsafe_code)]

use crate::sys;

pub fn read(symbols: &[u8], word: &mut [u8], numbers: &mut [i64]) -> sys::Line {
    let (word_len, numbers_len) = (word.len(), numbers.len());
    // SAFETY: pointers and lengths of live slices; the two written are borrowed alone.
    unsafe { sys::navic_read(symbols.as_ptr(), symbols.len(), word.as_mut_ptr(), word_len, numbers.as_mut_ptr(), numbers_len) }
}

pub fn write(numbers: &[i64], symbols: &mut [u8]) -> sys::Written {
    let symbols_len = symbols.len();
    // SAFETY: pointers and lengths of live slices; the one written is borrowed alone.
    unsafe { sys::navic_write(numbers.as_ptr(), numbers.len(), symbols.as_mut_ptr(), symbols_len) }
}

pub fn pair(first: &[i64], second: &[i64]) -> sys::Paired {
    // SAFETY: pointers and lengths of live slices, which are only read.
    unsafe { sys::navic_pair(first.as_ptr(), first.len(), second.as_ptr(), second.len()) }
}

pub fn is_idle_pattern(numbers: &[i64]) -> bool {
    // SAFETY: pointer and length of a live slice, which is only read.
    unsafe { sys::navic_is_idle_pattern(numbers.as_ptr(), numbers.len()) }
}

pub fn find(recording: &[u8], from: usize) -> sys::Found {
    // SAFETY: pointer and length of a live slice, which is only read.
    unsafe { sys::navic_find(recording.as_ptr(), recording.len(), from) }
}

pub fn began_at(towc: u32) -> sys::Began {
    // SAFETY: takes a number and gives numbers.
    unsafe { sys::navic_began_at(towc) }
}

pub fn count_in(second: u32) -> sys::Counted {
    // SAFETY: takes a number and gives numbers.
    unsafe { sys::navic_count_in(second) }
}

pub fn nearest(coded: &[u8], word: &mut [u8]) -> sys::NearestWord {
    let word_len = word.len();
    // SAFETY: pointers and lengths of live slices; the one written is borrowed alone.
    unsafe { sys::navic_nearest(coded.as_ptr(), coded.len(), word.as_mut_ptr(), word_len) }
}
