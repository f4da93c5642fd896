//! The Rattle side: three functions of the static libraries. A slice crosses as its pointer and its length.
use crate::forms::{End, Run};
use crate::machine::U256;

extern "C" {
    fn bench_listing(
        lines: *const u32,
        lines_len: usize,
        limit: u32,
        ergs: u32,
        cycles: u64,
        store: *mut u32,
        store_len: usize,
        end: *mut End,
    );
    fn bench_opaque(
        lines: *const u64,
        lines_len: usize,
        code: *const [u64; 4],
        source: *const [u64; 4],
        limit: u32,
        ergs: u32,
        cycles: u64,
        store: *mut u32,
        store_len: usize,
        end: *mut End,
    );
    fn bench_staged(
        lines: *const u64,
        lines_len: usize,
        words: *const u64,
        words_len: usize,
        limit: u32,
        ergs: u32,
        cycles: u64,
        store: *mut u32,
        store_len: usize,
        end: *mut End,
    );
}

pub fn listing(lines: &[u32], run: Run, store: &mut [u32]) -> End {
    let mut end = [0; 8];
    // Each pointer goes with the length of its own slice, and nothing is kept after the call.
    unsafe {
        bench_listing(
            lines.as_ptr(),
            lines.len(),
            run.limit,
            run.ergs,
            run.cycles,
            store.as_mut_ptr(),
            store.len(),
            &mut end,
        );
    }
    end
}

pub fn opaque(lines: &[u64], code: &U256, source: &U256, run: Run, store: &mut [u32]) -> End {
    let mut end = [0; 8];
    // As above; the two words are four numbers each.
    unsafe {
        bench_opaque(
            lines.as_ptr(),
            lines.len(),
            &code.0,
            &source.0,
            run.limit,
            run.ergs,
            run.cycles,
            store.as_mut_ptr(),
            store.len(),
            &mut end,
        );
    }
    end
}

pub fn staged(lines: &[u64], words: &[U256], run: Run, store: &mut [u32]) -> End {
    let mut end = [0; 8];
    // As above; a word is four numbers without a gap, the lowest first.
    unsafe {
        bench_staged(
            lines.as_ptr(),
            lines.len(),
            words.as_ptr().cast(),
            4 * words.len(),
            run.limit,
            run.ergs,
            run.cycles,
            store.as_mut_ptr(),
            store.len(),
            &mut end,
        );
    }
    end
}
