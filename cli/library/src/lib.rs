//! The proved calls of the static library, as safe functions on slices. `include/fovaheju.h` says what they answer, and which order of
//! words a number stands for. Nothing is tested before a call, since their contracts ask nothing of a caller.
//!
//! A new call has its place here: its answer as a `#[repr(C)]` struct where it is a new one, its line in `extern`, and a safe function.

/// The four numbers. All are 0 where a call accepts.
#[repr(C)]
#[derive(Clone, Copy, PartialEq, Eq, Debug)]
pub struct Verdict {
    pub number: u64,
    pub file: u64,
    pub at: u64,
    pub word: u64,
}

impl Verdict {
    pub const ACCEPTED: Verdict = Verdict { number: 0, file: 0, at: 0, word: 0 };

    /// The four numbers in their order.
    pub fn numbers(self) -> [u64; 4] {
        [self.number, self.file, self.at, self.word]
    }

    pub fn accepts(self) -> bool {
        self.number == 0
    }
}

impl std::fmt::Display for Verdict {
    /// As the programs print it.
    fn fmt(&self, f: &mut std::fmt::Formatter) -> std::fmt::Result {
        write!(f, "{} {} {} {}", self.number, self.file, self.at, self.word)
    }
}

/// A switching report: behind the last word all lines and names are 0.
#[repr(C)]
pub struct Report {
    pub verdict: Verdict,
    pub words: u64,
    pub total: u64,
    pub lines: [u16; 1024],
    pub names: [u16; 1024],
}

/// The answer of a join, with how many bytes were written into each buffer.
#[repr(C)]
#[derive(Clone, Copy, PartialEq, Eq, Debug)]
pub struct Joined {
    pub verdict: Verdict,
    pub stage_count: u64,
    pub reference_count: u64,
}

/// The answer of a call that writes one file, with how many bytes were written.
#[repr(C)]
#[derive(Clone, Copy, PartialEq, Eq, Debug)]
pub struct Written {
    pub verdict: Verdict,
    pub count: u64,
}

/// A run that a call hands out: the fall begins at place `rise` of the list, and both have `count` switchings.
#[repr(C)]
#[derive(Clone, Copy, PartialEq, Eq, Debug)]
pub struct Run {
    pub verdict: Verdict,
    pub rise: u64,
    pub count: u64,
}

/// A list of switchings that was judged: how many steps come before the first that the rules bar.
#[repr(C)]
#[derive(Clone, Copy, PartialEq, Eq, Debug)]
pub struct Played {
    pub verdict: Verdict,
    pub steps: u64,
}

/// A list of this length has room for every run.
pub const RUN: usize = 552;

/// A buffer of this length has room for every joined stage, and one of the next for every joined reference.
pub const JOINED_STAGE: usize = 5_715;
pub const JOINED_REFERENCE: usize = 3_123;

/// A buffer of this length has room for every stage that is made of a reference, or read from a text.
pub const MADE_STAGE: usize = 2_643;

/// A buffer of this length has room for the text of every stage.
pub const TEXT: usize = 10_012;

/// A buffer of this length has room for every small stage.
pub const SMALL_STAGE: usize = 28;

/// A buffer of this length has room for every drawn reference.
pub const DRAWN_REFERENCE: usize = 291;

extern "C" {
    fn fovaheju_check(order: u64, stage: *const u8, stage_len: usize, reference: *const u8, reference_len: usize) -> Verdict;
    fn fovaheju_report(order: u64, stage: *const u8, stage_len: usize, reference: *const u8, reference_len: usize) -> Report;
    fn fovaheju_settled_row(stage: *const u8, stage_len: usize, row: *mut u8, row_len: usize) -> Verdict;
    fn fovaheju_join(
        order: u64,
        stage1: *const u8,
        stage1_len: usize,
        reference1: *const u8,
        reference1_len: usize,
        stage2: *const u8,
        stage2_len: usize,
        reference2: *const u8,
        reference2_len: usize,
        stage_out: *mut u8,
        stage_out_len: usize,
        reference_out: *mut u8,
        reference_out_len: usize,
    ) -> Joined;
    fn fovaheju_make_stage(reference: *const u8, reference_len: usize, stage_out: *mut u8, stage_out_len: usize) -> Written;
    fn fovaheju_read_text(text: *const u8, text_len: usize, stage_out: *mut u8, stage_out_len: usize) -> Written;
    fn fovaheju_write_text(stage: *const u8, stage_len: usize, text_out: *mut u8, text_out_len: usize) -> Written;
    fn fovaheju_next_stage(stage: *const u8, stage_len: usize, stage_out: *mut u8, stage_out_len: usize) -> Written;
    fn fovaheju_draw_reference(seed: u32, inputs: usize, gates: usize, reference_out: *mut u8, reference_out_len: usize) -> Written;
    fn fovaheju_witness(
        order: u64,
        stage: *const u8,
        stage_len: usize,
        reference: *const u8,
        reference_len: usize,
        asked: usize,
        list: *mut u16,
        list_len: usize,
    ) -> Run;
    fn fovaheju_play(
        order: u64,
        stage: *const u8,
        stage_len: usize,
        name: usize,
        fall: usize,
        list: *const u16,
        list_len: usize,
        row: *mut u8,
        row_len: usize,
    ) -> Played;
    fn fovaheju_run_by_keys(
        order: u64,
        stage: *const u8,
        stage_len: usize,
        name: usize,
        keys: *const u32,
        keys_len: usize,
        list: *mut u16,
        list_len: usize,
    ) -> Run;
}

/// The verdict on a stage file and a reference file.
pub fn check(order: u64, stage: &[u8], reference: &[u8]) -> Verdict {
    // Safety: the contract has no `requires`, and each pointer and length are of a slice.
    unsafe { fovaheju_check(order, stage.as_ptr(), stage.len(), reference.as_ptr(), reference.len()) }
}

/// The switching report of a stage file against a reference file.
pub fn report(order: u64, stage: &[u8], reference: &[u8]) -> Report {
    // Safety: the contract has no `requires`, and each pointer and length are of a slice.
    unsafe { fovaheju_report(order, stage.as_ptr(), stage.len(), reference.as_ptr(), reference.len()) }
}

/// The verdict on a stage file and a row, which is settled in place.
pub fn settled_row(stage: &[u8], row: &mut [u8]) -> Verdict {
    // Safety: the contract has no `requires`, and each pointer and length are of a slice; the row is lent to be written.
    unsafe { fovaheju_settled_row(stage.as_ptr(), stage.len(), row.as_mut_ptr(), row.len()) }
}

/// The join of two parts, each a stage and its reference, into two buffers.
pub fn join(order: u64, first: [&[u8]; 2], second: [&[u8]; 2], stage_out: &mut [u8], reference_out: &mut [u8]) -> Joined {
    // Safety: the contract has no `requires`, and each pointer and length are of a slice; the buffers are lent to be written.
    unsafe {
        fovaheju_join(
            order,
            first[0].as_ptr(),
            first[0].len(),
            first[1].as_ptr(),
            first[1].len(),
            second[0].as_ptr(),
            second[0].len(),
            second[1].as_ptr(),
            second[1].len(),
            stage_out.as_mut_ptr(),
            stage_out.len(),
            reference_out.as_mut_ptr(),
            reference_out.len(),
        )
    }
}

/// The stage of a reference file, into a buffer.
pub fn make_stage(reference: &[u8], stage_out: &mut [u8]) -> Written {
    // Safety: the contract has no `requires`, and each pointer and length are of a slice; the buffer is lent to be written.
    unsafe { fovaheju_make_stage(reference.as_ptr(), reference.len(), stage_out.as_mut_ptr(), stage_out.len()) }
}

/// The stage file of a text in the line form, into a buffer.
pub fn read_text(text: &[u8], stage_out: &mut [u8]) -> Written {
    // Safety: the contract has no `requires`, and each pointer and length are of a slice; the buffer is lent to be written.
    unsafe { fovaheju_read_text(text.as_ptr(), text.len(), stage_out.as_mut_ptr(), stage_out.len()) }
}

/// The text of a stage file, into a buffer.
pub fn write_text(stage: &[u8], text_out: &mut [u8]) -> Written {
    // Safety: the contract has no `requires`, and each pointer and length are of a slice; the buffer is lent to be written.
    unsafe { fovaheju_write_text(stage.as_ptr(), stage.len(), text_out.as_mut_ptr(), text_out.len()) }
}

/// The small stage that comes after a file, into a buffer.
pub fn next_stage(stage: &[u8], stage_out: &mut [u8]) -> Written {
    // Safety: the contract has no `requires`, and each pointer and length are of a slice; the buffer is lent to be written.
    unsafe { fovaheju_next_stage(stage.as_ptr(), stage.len(), stage_out.as_mut_ptr(), stage_out.len()) }
}

/// The reference that is drawn from a seed, with so many inputs and gates, into a buffer.
pub fn draw_reference(seed: u32, inputs: usize, gates: usize, reference_out: &mut [u8]) -> Written {
    // Safety: the contract has no `requires`, and pointer and length are of a slice; the buffer is lent to be written.
    unsafe { fovaheju_draw_reference(seed, inputs, gates, reference_out.as_mut_ptr(), reference_out.len()) }
}

/// The witness of the verdict on two files, for the name that is asked for, into a list.
pub fn witness(order: u64, stage: &[u8], reference: &[u8], asked: usize, list: &mut [u16]) -> Run {
    // Safety: the contract has no `requires`, and each pointer and length are of a slice; the list is lent to be written.
    unsafe {
        fovaheju_witness(
            order,
            stage.as_ptr(),
            stage.len(),
            reference.as_ptr(),
            reference.len(),
            asked,
            list.as_mut_ptr(),
            list.len(),
        )
    }
}

/// A list of switchings of the word that a name spells, whose fall begins at a place, judged; the row holds the levels before the first step that is barred.
pub fn play(order: u64, stage: &[u8], name: usize, fall: usize, list: &[u16], row: &mut [u8]) -> Played {
    // Safety: the contract has no `requires`, and each pointer and length are of a slice; the row is lent to be written.
    unsafe {
        fovaheju_play(
            order,
            stage.as_ptr(),
            stage.len(),
            name,
            fall,
            list.as_ptr(),
            list.len(),
            row.as_mut_ptr(),
            row.len(),
        )
    }
}

/// A full rise and a full fall of the word that a name spells, by keys, into a list.
pub fn run_by_keys(order: u64, stage: &[u8], name: usize, keys: &[u32], list: &mut [u16]) -> Run {
    // Safety: the contract has no `requires`, and each pointer and length are of a slice; the list is lent to be written.
    unsafe {
        fovaheju_run_by_keys(
            order,
            stage.as_ptr(),
            stage.len(),
            name,
            keys.as_ptr(),
            keys.len(),
            list.as_mut_ptr(),
            list.len(),
        )
    }
}
