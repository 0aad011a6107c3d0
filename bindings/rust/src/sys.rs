//! The archive's functions as include/murghidossu.h declares them, each behind a safe one that takes slices. All `unsafe` of the crate is here.
//!
//! Why each call is safe: a slice is handed over as its own pointer and length, so what the header asks of a caller holds by Rust's rules (as
//! many entries as the length says, aligned; a `&mut` slice overlaps nothing else that is lent). The functions are proved to touch nothing
//! else, for any content and any numbers.

#![allow(unsafe_code)]

use crate::Forbid;

/// What every call on a table and a grid is lent.
#[derive(Clone, Copy)]
pub struct Given<'a> {
    pub count: usize,
    pub offsets: &'a [u32],
    pub ids: &'a [u8],
    pub weights: &'a [u32],
    pub width: usize,
    pub height: usize,
    pub mode: usize,
}

/// The five slices that a run writes.
pub struct Written<'a> {
    pub domains: &'a mut [u64],
    pub counts: &'a mut [u8],
    pub pending: &'a mut [u32],
    pub floats: &'a mut [f32],
    pub marks: &'a mut [u8],
}

/// Declares the functions of the archive: each slice is a pointer and a length.
mod c {
    extern "C" {
        pub fn murghidossu_check_table(count: usize, weights: *const u32, weights_len: usize, offsets: *const u32, offsets_len: usize, ids: *const u8, ids_len: usize) -> u64;
        pub fn murghidossu_list(count: usize, offsets: *const u32, offsets_len: usize, ids: *const u8, ids_len: usize, pattern: usize, direction: usize) -> u64;
        pub fn murghidossu_list_refusal(count: usize, offsets: *const u32, offsets_len: usize, ids: *const u8, ids_len: usize, pattern: usize, direction: usize) -> u64;
        pub fn murghidossu_neighbour(width: usize, height: usize, mode: usize, cell: usize, direction: usize) -> u64;
        pub fn murghidossu_entropy_of(count: usize, weights: *const u32, weights_len: usize, domain: u64) -> u64;
        pub fn murghidossu_choice_of(count: usize, weights: *const u32, weights_len: usize, domain: u64, word: u32) -> u64;
        pub fn murghidossu_propagate(
            count: usize,
            offsets: *const u32, offsets_len: usize,
            ids: *const u8, ids_len: usize,
            width: usize, height: usize, mode: usize,
            domains: *mut u64, domains_len: usize,
            counts: *mut u8, counts_len: usize,
            pending: *mut u32, pending_len: usize,
        ) -> u64;
        pub fn murghidossu_run(
            forbids: *const u32, forbids_len: usize,
            count: usize, width: usize, height: usize, mode: usize,
            weights: *const u32, weights_len: usize,
            offsets: *const u32, offsets_len: usize,
            ids: *const u8, ids_len: usize,
            noise: *const u32, noise_len: usize,
            words: *const u32, words_len: usize,
            domains: *mut u64, domains_len: usize,
            counts: *mut u8, counts_len: usize,
            pending: *mut u32, pending_len: usize,
            floats: *mut f32, floats_len: usize,
            marks: *mut u8, marks_len: usize,
        ) -> u64;
        pub fn murghidossu_run_result(
            forbids: *const u32, forbids_len: usize,
            count: usize, width: usize, height: usize, mode: usize,
            weights: *const u32, weights_len: usize,
            offsets: *const u32, offsets_len: usize,
            ids: *const u8, ids_len: usize,
            noise: *const u32, noise_len: usize,
            words: *const u32, words_len: usize,
            domains: *mut u64, domains_len: usize,
            counts: *mut u8, counts_len: usize,
            pending: *mut u32, pending_len: usize,
            floats: *mut f32, floats_len: usize,
            marks: *mut u8, marks_len: usize,
            out: *mut u8, out_len: usize,
        ) -> u64;
        pub fn murghidossu_sizes(sheet: *const u8, sheet_len: usize, measures: *mut usize, measures_len: usize) -> u64;
        pub fn murghidossu_read(
            sheet: *const u8, sheet_len: usize,
            weights: *mut u32, weights_len: usize,
            offsets: *mut u32, offsets_len: usize,
            ids: *mut u8, ids_len: usize,
            forbids: *mut u32, forbids_len: usize,
        ) -> u64;
        pub fn murghidossu_write(
            count: usize,
            weights: *const u32, weights_len: usize,
            offsets: *const u32, offsets_len: usize,
            ids: *const u8, ids_len: usize,
            width: usize, height: usize, mode: usize,
            forbids: *const u32, forbids_len: usize,
            out: *mut u8, out_len: usize,
        ) -> u64;
    }
}

/// Forbids as the numbers that they are in memory: `Forbid` is three u32 in a row (`repr(C)`), and a slice has at most isize::MAX bytes.
pub fn numbers(forbids: &[Forbid]) -> &[u32] {
    unsafe { core::slice::from_raw_parts(forbids.as_ptr().cast(), forbids.len().wrapping_mul(3)) }
}

/// The same, to be written: any three numbers are a forbid.
pub fn numbers_mut(forbids: &mut [Forbid]) -> &mut [u32] {
    unsafe { core::slice::from_raw_parts_mut(forbids.as_mut_ptr().cast(), forbids.len().wrapping_mul(3)) }
}

pub fn check_table(t: Given) -> u64 {
    unsafe { c::murghidossu_check_table(t.count, t.weights.as_ptr(), t.weights.len(), t.offsets.as_ptr(), t.offsets.len(), t.ids.as_ptr(), t.ids.len()) }
}

pub fn list(t: Given, pattern: usize, direction: usize) -> u64 {
    unsafe { c::murghidossu_list(t.count, t.offsets.as_ptr(), t.offsets.len(), t.ids.as_ptr(), t.ids.len(), pattern, direction) }
}

pub fn list_refusal(t: Given, pattern: usize, direction: usize) -> u64 {
    unsafe { c::murghidossu_list_refusal(t.count, t.offsets.as_ptr(), t.offsets.len(), t.ids.as_ptr(), t.ids.len(), pattern, direction) }
}

pub fn neighbour(width: usize, height: usize, mode: usize, cell: usize, direction: usize) -> u64 {
    unsafe { c::murghidossu_neighbour(width, height, mode, cell, direction) }
}

pub fn entropy_of(count: usize, weights: &[u32], domain: u64) -> u64 {
    unsafe { c::murghidossu_entropy_of(count, weights.as_ptr(), weights.len(), domain) }
}

pub fn choice_of(count: usize, weights: &[u32], domain: u64, word: u32) -> u64 {
    unsafe { c::murghidossu_choice_of(count, weights.as_ptr(), weights.len(), domain, word) }
}

pub fn propagate(t: Given, domains: &mut [u64], counts: &mut [u8], pending: &mut [u32]) -> u64 {
    unsafe {
        c::murghidossu_propagate(
            t.count,
            t.offsets.as_ptr(), t.offsets.len(),
            t.ids.as_ptr(), t.ids.len(),
            t.width, t.height, t.mode,
            domains.as_mut_ptr(), domains.len(),
            counts.as_mut_ptr(), counts.len(),
            pending.as_mut_ptr(), pending.len(),
        )
    }
}

pub fn run(forbids: &[u32], t: Given, noise: &[u32], words: &[u32], m: Written) -> u64 {
    unsafe {
        c::murghidossu_run(
            forbids.as_ptr(), forbids.len(),
            t.count, t.width, t.height, t.mode,
            t.weights.as_ptr(), t.weights.len(),
            t.offsets.as_ptr(), t.offsets.len(),
            t.ids.as_ptr(), t.ids.len(),
            noise.as_ptr(), noise.len(),
            words.as_ptr(), words.len(),
            m.domains.as_mut_ptr(), m.domains.len(),
            m.counts.as_mut_ptr(), m.counts.len(),
            m.pending.as_mut_ptr(), m.pending.len(),
            m.floats.as_mut_ptr(), m.floats.len(),
            m.marks.as_mut_ptr(), m.marks.len(),
        )
    }
}

pub fn run_result(forbids: &[u32], t: Given, noise: &[u32], words: &[u32], m: Written, out: &mut [u8]) -> u64 {
    unsafe {
        c::murghidossu_run_result(
            forbids.as_ptr(), forbids.len(),
            t.count, t.width, t.height, t.mode,
            t.weights.as_ptr(), t.weights.len(),
            t.offsets.as_ptr(), t.offsets.len(),
            t.ids.as_ptr(), t.ids.len(),
            noise.as_ptr(), noise.len(),
            words.as_ptr(), words.len(),
            m.domains.as_mut_ptr(), m.domains.len(),
            m.counts.as_mut_ptr(), m.counts.len(),
            m.pending.as_mut_ptr(), m.pending.len(),
            m.floats.as_mut_ptr(), m.floats.len(),
            m.marks.as_mut_ptr(), m.marks.len(),
            out.as_mut_ptr(), out.len(),
        )
    }
}

pub fn sizes(sheet: &[u8], measures: &mut [usize]) -> u64 {
    unsafe { c::murghidossu_sizes(sheet.as_ptr(), sheet.len(), measures.as_mut_ptr(), measures.len()) }
}

pub fn read(sheet: &[u8], weights: &mut [u32], offsets: &mut [u32], ids: &mut [u8], forbids: &mut [u32]) -> u64 {
    unsafe {
        c::murghidossu_read(
            sheet.as_ptr(), sheet.len(),
            weights.as_mut_ptr(), weights.len(),
            offsets.as_mut_ptr(), offsets.len(),
            ids.as_mut_ptr(), ids.len(),
            forbids.as_mut_ptr(), forbids.len(),
        )
    }
}

pub fn write(t: Given, forbids: &[u32], out: &mut [u8]) -> u64 {
    unsafe {
        c::murghidossu_write(
            t.count,
            t.weights.as_ptr(), t.weights.len(),
            t.offsets.as_ptr(), t.offsets.len(),
            t.ids.as_ptr(), t.ids.len(),
            t.width, t.height, t.mode,
            forbids.as_ptr(), forbids.len(),
            out.as_mut_ptr(), out.len(),
        )
    }
}
