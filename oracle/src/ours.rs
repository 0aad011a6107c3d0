//! Murghidossu's side: a run from a static library, called as a C program calls it.

use crate::cases::Case;

extern "C" {
    // each slice is a pointer and how many entries there are
    fn murghidossu_run(
        forbids: *const u32,
        forbids_len: usize,
        count: usize,
        width: usize,
        height: usize,
        mode: usize,
        weights: *const u32,
        weights_len: usize,
        offsets: *const u32,
        offsets_len: usize,
        ids: *const u8,
        ids_len: usize,
        noise: *const u32,
        noise_len: usize,
        words: *const u32,
        words_len: usize,
        domains: *mut u64,
        domains_len: usize,
        counts: *mut u8,
        counts_len: usize,
        pending: *mut u32,
        pending_len: usize,
        floats: *mut f32,
        floats_len: usize,
        marks: *mut u8,
        marks_len: usize,
    ) -> u64;
}

/// The five slices that a run writes, as they are lent.
pub struct Slices<'a> {
    pub domains: &'a mut [u64],
    pub counts: &'a mut [u8],
    pub pending: &'a mut [u32],
    pub floats: &'a mut [f32],
    pub marks: &'a mut [u8],
}

/// One call, and nothing else: the refusal's number, the end, and how many words were used.
pub fn run(case: &Case, m: Slices) -> (u32, u32, usize) {
    let code = unsafe {
        murghidossu_run(
            case.forbids.as_ptr(),
            case.forbids.len(),
            case.count,
            case.width,
            case.height,
            case.mode,
            case.weights.as_ptr(),
            case.weights.len(),
            case.offsets.as_ptr(),
            case.offsets.len(),
            case.ids.as_ptr(),
            case.ids.len(),
            case.noise.as_ptr(),
            case.noise.len(),
            case.words.as_ptr(),
            case.words.len(),
            m.domains.as_mut_ptr(),
            m.domains.len(),
            m.counts.as_mut_ptr(),
            m.counts.len(),
            m.pending.as_mut_ptr(),
            m.pending.len(),
            m.floats.as_mut_ptr(),
            m.floats.len(),
            m.marks.as_mut_ptr(),
            m.marks.len(),
        )
    };
    // the refusal's number in the lowest byte, the end above it, the words used in the upper half
    (
        (code & 255) as u32,
        (code >> 8 & 0xff_ffff) as u32,
        (code >> 32) as usize,
    )
}
