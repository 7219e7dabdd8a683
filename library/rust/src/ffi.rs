//! The calls of the archive, as it declares them. `library/placelist.h` says the same in C.
//!
//! The archive asks of a caller that pointers are aligned and valid for their length, and null at
//! most where that is 0; that lengths count elements; that what is read is initialised; and that
//! nothing that a call is given overlaps anything else. Every call of this crate keeps this,
//! whatever the arguments of its public function:
//! - a buffer comes from one slice, by `as_ptr` or `as_mut_ptr` with `len` of that same slice. A
//!   slice's pointer is valid for its length, non-null and aligned, also where it is empty, its
//!   elements are initialised, and it has at most `isize::MAX` bytes;
//! - the caller of the public function holds `&mut` to each buffer that is written, so it overlaps
//!   no other, and nothing else reads or writes it during the call; what is read is held by `&`, so
//!   nothing writes it;
//! - `value` and the results are locals of the public function, each its own, initialised before
//!   the call.
//!
//! The archive keeps no pointer and has no state, so nothing is asked of threads or of the time
//! after a call. What it writes are integers, of which every value is allowed. It does not unwind.
//! On a stack that is too small the program ends, as in Rust: compiled code touches each page of a
//! large frame in turn, so that it meets the guard page.

extern "C" {
    pub fn placelist_version() -> u32;

    pub fn placelist_check(
        activities: u8,
        text: *const u8,
        text_len: usize,
        value: *mut u64,
        counts: *mut [u64; 2],
    ) -> u8;

    pub fn placelist_replay(
        activities: u8,
        text: *const u8,
        text_len: usize,
        inputs: u16,
        outputs: u16,
        value: *mut u64,
        least: *mut i16,
        last: *mut i16,
        missing: *mut i32,
    ) -> u8;

    pub fn placelist_judge(
        activities: u8,
        threshold: u16,
        text: *const u8,
        text_len: usize,
        inputs: u16,
        outputs: u16,
        value: *mut u64,
        counts: *mut [u64; 4],
        verdict: *mut u8,
        line: *mut i32,
        event: *mut i32,
    ) -> u8;

    pub fn placelist_summarize(
        activities: u8,
        text: *const u8,
        text_len: usize,
        entries: *mut u64,
        entries_len: usize,
        value: *mut u64,
        count: *mut u64,
    ) -> u8;

    pub fn placelist_search(
        activities: u8,
        most_inputs: u8,
        most_outputs: u8,
        threshold: u16,
        text: *const u8,
        text_len: usize,
        budget: u32,
        rejected: *mut u64,
        rejected_len: usize,
        found: *mut u32,
        found_len: usize,
        value: *mut u64,
        run: *mut [u64; 5],
    ) -> u8;

    pub fn placelist_reduce(
        words: *const u32,
        words_len: usize,
        kept: *mut u32,
        kept_len: usize,
        value: *mut u64,
        count: *mut u64,
    ) -> u8;

    pub fn placelist_write(
        words: *const u32,
        words_len: usize,
        text: *mut u8,
        text_len: usize,
        value: *mut u64,
        count: *mut u64,
    ) -> u8;

    pub fn placelist_report(
        input: *const u8,
        input_len: usize,
        output: *mut u8,
        output_len: usize,
        value: *mut u64,
        count: *mut u64,
    ) -> u8;
}
