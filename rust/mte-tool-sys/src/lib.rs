//! The C interface of `mte_tool`, `mte_tool.h`, as it is: that header says what each call does, its units, ranges and ends. The crate
//! `mte-tool` is safe.
//!
//! ```
//! let version = unsafe { std::ffi::CStr::from_ptr(mte_tool_sys::mte_tool_version()) };
//! assert_eq!(version.to_str(), Ok(env!("CARGO_PKG_VERSION")));
//! ```
#![no_std]
#![warn(missing_docs)]
#![allow(non_camel_case_types)]

use core::ffi::c_void;

// core::ffi has them since Rust 1.64
type c_char = i8;
type c_int = i32;

/// `mte_tool_end`: how a call ended.
pub type mte_tool_end = u32;

// ends and codes
/// Done.
pub const MTE_TOOL_DONE: mte_tool_end = 0;
/// The verdict is no.
pub const MTE_TOOL_NO: mte_tool_end = 1;
/// The input is refused.
pub const MTE_TOOL_REFUSED: mte_tool_end = 2;
/// Memory ran out.
pub const MTE_TOOL_OUT_OF_MEMORY: mte_tool_end = 3;
/// An option is out of its range, or not known to this library.
pub const MTE_TOOL_BAD_OPTION: mte_tool_end = 4;
/// The call is not as it has to be.
pub const MTE_TOOL_MISUSE: mte_tool_end = 5;
/// There is none.
pub const MTE_TOOL_CODE_NONE: u32 = 0;
/// There are more than 32 classes.
pub const MTE_TOOL_CODE_TOO_MANY_CLASSES: u32 = 20;
/// A class is not from 2 to 1024.
pub const MTE_TOOL_CODE_CLASS_OUT_OF_RANGE: u32 = 21;
/// A class is not above the one before it.
pub const MTE_TOOL_CODE_CLASSES_NOT_ASCENDING: u32 = 22;
/// The class line is not `classes` and then numbers.
pub const MTE_TOOL_CODE_BAD_CLASS_LINE: u32 = 23;
/// A line is not a size up to 16,368, or `large`, and then counts.
pub const MTE_TOOL_CODE_BAD_COUNT_LINE: u32 = 30;
/// A size is not above the one before it.
pub const MTE_TOOL_CODE_SIZES_NOT_ASCENDING: u32 = 31;
/// A count is above 1,000,000,000, or all of a line are 0.
pub const MTE_TOOL_CODE_COUNT_OUT_OF_RANGE: u32 = 32;
/// The count is 1,000,000,000, and no request more is counted.
pub const MTE_TOOL_CODE_COUNT_FULL: u32 = 33;
/// The history's first line is not `snapshots T`, T from 1 to 1024.
pub const MTE_TOOL_CODE_BAD_SNAPSHOTS: u32 = 34;
/// A line does not have T numbers, one for each snapshot.
pub const MTE_TOOL_CODE_WRONG_LENGTH: u32 = 35;
/// A line is not of a fit's form, or is missing.
pub const MTE_TOOL_CODE_BAD_FIT: u32 = 36;
/// A line of the timeline is none of its four forms.
pub const MTE_TOOL_CODE_BAD_TIMELINE: u32 = 37;
/// A free of a size of which no block is live.
pub const MTE_TOOL_CODE_SIZE_NOT_LIVE: u32 = 38;
/// This is not so: each class is a multiple of the step.
pub const MTE_TOOL_CODE_OFF_STEP: u32 = 39;
/// This is not so: the table has at most K classes.
pub const MTE_TOOL_CODE_OVER_LIMIT: u32 = 40;
/// This is not so: each counted size has a class.
pub const MTE_TOOL_CODE_NOT_SERVING: u32 = 41;
/// This is not so: the waste is the table's on the profile.
pub const MTE_TOOL_CODE_WASTE_WRONG: u32 = 42;
/// This is not so: there are K rows, with a number for each distinct need.
pub const MTE_TOOL_CODE_SHAPE: u32 = 43;
/// A number of the first row is above the cost of one class on all that comes after its place.
pub const MTE_TOOL_CODE_LAST_CLASS: u32 = 44;
/// A number is above the one at its place in the row before.
pub const MTE_TOOL_CODE_STAGE_DROP: u32 = 45;
/// A number is above the cost of one class up to a later place, and the number there in the row before.
pub const MTE_TOOL_CODE_EDGE: u32 = 46;
/// The first number of the last row is not the cost of the table.
pub const MTE_TOOL_CODE_NOT_TIGHT: u32 = 47;
/// A line is not of a sheet's form, or is missing.
pub const MTE_TOOL_CODE_BAD_SHEET: u32 = 48;
/// This is not so: the footprint is the table's over the history.
pub const MTE_TOOL_CODE_FOOTPRINT_WRONG: u32 = 49;
/// A byte is not in the region, or one of the bits 60 to 63 of the address is 1.
pub const MTE_TOOL_CODE_UNMAPPED: u32 = 50;
/// An address is not aligned.
pub const MTE_TOOL_CODE_ALIGNMENT: u32 = 51;
/// A granule's tag differs from the address's.
pub const MTE_TOOL_CODE_TAG_CHECK: u32 = 52;
/// This is not so: no number of `moments` is above the number of events.
pub const MTE_TOOL_CODE_NOT_MOMENTS: u32 = 53;
/// More than 16,368 bytes are requested.
pub const MTE_TOOL_CODE_LARGE: u32 = 60;
/// No class of the table serves the request.
pub const MTE_TOOL_CODE_NO_CLASS: u32 = 61;
/// No slot of the request's class is left.
pub const MTE_TOOL_CODE_EXHAUSTED: u32 = 62;
/// No chunk of a slot begins at the address.
pub const MTE_TOOL_CODE_MISPLACED: u32 = 63;
/// The chunk there is not live.
pub const MTE_TOOL_CODE_CHUNK_NOT_LIVE: u32 = 64;
/// The address has another tag than the chunk.
pub const MTE_TOOL_CODE_WRONG_TAG: u32 = 65;
/// A line is no event, or has a word too many or too few.
pub const MTE_TOOL_CODE_BAD_WORD: u32 = 70;
/// A word is no number of its kind, or not in its one spelling.
pub const MTE_TOOL_CODE_BAD_NUMBER: u32 = 71;
/// A number is not in its range.
pub const MTE_TOOL_CODE_NUMBER_OUT_OF_RANGE: u32 = 72;
/// A line has more than 80 bytes.
pub const MTE_TOOL_CODE_LINE_TOO_LONG: u32 = 73;
/// There is a line after 1,000,000 events.
pub const MTE_TOOL_CODE_TOO_MANY_EVENTS: u32 = 74;
/// There are more than 67,108,864 bytes.
pub const MTE_TOOL_CODE_INPUT_TOO_LONG: u32 = 80;
/// A read failed.
pub const MTE_TOOL_CODE_READ_FAULT: u32 = 81;
/// A write failed, or took no byte.
pub const MTE_TOOL_CODE_WRITE_FAULT: u32 = 82;
/// The step is 3, 5, 6 or 7; nothing is read then.
pub const MTE_TOOL_CODE_BAD_OPTION: u32 = 83;

/// `mte_tool_options`.
#[repr(C)]
#[derive(Debug, Clone, Copy)]
#[allow(missing_docs)]
pub struct mte_tool_options {
    pub size: usize,
    pub granules: u64,
    pub quarantine: u64,
    pub seed: u64,
    pub limit: u64,
    pub step: u64,
    pub largest_class: u64,
}

/// `mte_tool_result`.
#[repr(C)]
#[derive(Debug, Clone, Copy)]
#[allow(missing_docs)]
pub struct mte_tool_result {
    pub size: usize,
    pub code: u32,
    pub classes: u32,
    pub line: u64,
    pub at: u64,
    pub bytes: u64,
    pub bound: u64,
    pub places: u32,
    pub moments: u32,
}

/// `mte_tool_text`.
#[repr(C)]
#[derive(Debug)]
#[allow(missing_docs)]
pub struct mte_tool_text {
    pub bytes: *mut c_char,
    pub length: usize,
    pub room: usize,
}

/// `mte_tool_claim`.
#[repr(C)]
#[derive(Debug, Clone, Copy)]
#[allow(missing_docs)]
pub struct mte_tool_claim {
    pub size: usize,
    pub kind: u64,
    pub cost: u64,
    pub limit: u64,
    pub step: u64,
    pub forced: u64,
    pub sizes: u64,
    pub requests: u64,
    pub bytes: u64,
    pub large: u64,
    pub snapshots: u64,
    pub events: u64,
}

/// There is no claim.
pub const MTE_TOOL_CLAIM_NONE: u64 = 0;
/// A claim of a profile.
pub const MTE_TOOL_CLAIM_PROFILE: u64 = 1;
/// A claim of a history.
pub const MTE_TOOL_CLAIM_HISTORY: u64 = 2;
/// A claim of a timeline.
pub const MTE_TOOL_CLAIM_TIMELINE: u64 = 3;

/// `mte_tool_profile_arrays`.
#[repr(C)]
#[derive(Debug, Clone, Copy)]
#[allow(missing_docs)]
pub struct mte_tool_profile_arrays {
    pub sizes: *const u32,
    pub counts: *const u32,
    pub length: usize,
}

/// `mte_tool_history_arrays`.
#[repr(C)]
#[derive(Debug, Clone, Copy)]
#[allow(missing_docs)]
pub struct mte_tool_history_arrays {
    pub sizes: *const u32,
    pub counts: *const u32,
    pub length: usize,
    pub snapshots: usize,
}

/// `mte_tool_timeline_arrays`.
#[repr(C)]
#[derive(Debug, Clone, Copy)]
#[allow(missing_docs)]
pub struct mte_tool_timeline_arrays {
    pub sizes: *const u32,
    pub frees: *const u8,
    pub length: usize,
}

/// `mte_tool_heap`, of which the library alone knows what it is.
#[repr(C)]
#[derive(Debug)]
pub struct mte_tool_heap {
    _of_the_library: [u8; 0],
}

/// `mte_tool_allocator`.
#[repr(C)]
#[derive(Debug, Clone, Copy)]
#[allow(missing_docs)]
pub struct mte_tool_allocator {
    pub size: usize,
    pub take: Option<unsafe extern "C" fn(context: *mut c_void, bytes: usize) -> *mut c_void>,
    pub resize: Option<unsafe extern "C" fn(context: *mut c_void, block: *mut c_void, bytes: usize) -> *mut c_void>,
    pub give: Option<unsafe extern "C" fn(context: *mut c_void, block: *mut c_void)>,
    pub context: *mut c_void,
}

/// `mte_tool_outcome`.
#[repr(C)]
#[derive(Debug, Clone, Copy)]
#[allow(missing_docs)]
pub struct mte_tool_outcome {
    pub size: usize,
    pub value: u64,
    pub code: u32,
    pub granule: u32,
    pub memory_tag: u32,
    pub pointer_tag: u32,
    pub granule_kind: u32,
    pub reserved: u32,
}

/// A command over a text.
pub type Command =
    unsafe extern "C" fn(*const mte_tool_options, *const c_void, usize, *mut mte_tool_text, *mut mte_tool_result) -> mte_tool_end;

/// A command over a first text and another.
pub type CommandOn = unsafe extern "C" fn(
    *const mte_tool_options,
    *const c_void,
    usize,
    *const c_void,
    usize,
    *mut mte_tool_text,
    *mut mte_tool_result,
) -> mte_tool_end;

/// A check that also gives what it showed.
pub type CheckClaim = unsafe extern "C" fn(
    *const mte_tool_options,
    *const c_void,
    usize,
    *const c_void,
    usize,
    *mut mte_tool_text,
    *mut mte_tool_claim,
    *mut mte_tool_result,
) -> mte_tool_end;

#[allow(missing_docs)]
extern "C" {
    pub fn mte_tool_version() -> *const c_char;
    pub fn mte_tool_version_number() -> u32;
    pub fn mte_tool_end_sentence(end: mte_tool_end) -> *const c_char;
    pub fn mte_tool_code_sentence(code: u32) -> *const c_char;
    pub fn mte_tool_code_name(code: u32) -> *const c_char;
    pub fn mte_tool_set_allocator(allocator: *const mte_tool_allocator) -> mte_tool_end;
    pub fn mte_tool_score(
        options: *const mte_tool_options,
        first: *const c_void,
        first_length: usize,
        input: *const c_void,
        length: usize,
        output: *mut mte_tool_text,
        result: *mut mte_tool_result,
    ) -> mte_tool_end;
    pub fn mte_tool_tune(
        options: *const mte_tool_options,
        input: *const c_void,
        length: usize,
        output: *mut mte_tool_text,
        result: *mut mte_tool_result,
    ) -> mte_tool_end;
    pub fn mte_tool_check(
        options: *const mte_tool_options,
        first: *const c_void,
        first_length: usize,
        input: *const c_void,
        length: usize,
        output: *mut mte_tool_text,
        result: *mut mte_tool_result,
    ) -> mte_tool_end;
    pub fn mte_tool_footprint(
        options: *const mte_tool_options,
        first: *const c_void,
        first_length: usize,
        input: *const c_void,
        length: usize,
        output: *mut mte_tool_text,
        result: *mut mte_tool_result,
    ) -> mte_tool_end;
    pub fn mte_tool_fit(
        options: *const mte_tool_options,
        input: *const c_void,
        length: usize,
        output: *mut mte_tool_text,
        result: *mut mte_tool_result,
    ) -> mte_tool_end;
    pub fn mte_tool_check_fit(
        options: *const mte_tool_options,
        first: *const c_void,
        first_length: usize,
        input: *const c_void,
        length: usize,
        output: *mut mte_tool_text,
        result: *mut mte_tool_result,
    ) -> mte_tool_end;
    pub fn mte_tool_profile(
        options: *const mte_tool_options,
        input: *const c_void,
        length: usize,
        output: *mut mte_tool_text,
        result: *mut mte_tool_result,
    ) -> mte_tool_end;
    pub fn mte_tool_replay(
        options: *const mte_tool_options,
        first: *const c_void,
        first_length: usize,
        input: *const c_void,
        length: usize,
        output: *mut mte_tool_text,
        result: *mut mte_tool_result,
    ) -> mte_tool_end;
    pub fn mte_tool_run(
        options: *const mte_tool_options,
        input: *const c_void,
        length: usize,
        output: *mut mte_tool_text,
        result: *mut mte_tool_result,
    ) -> mte_tool_end;
    pub fn mte_tool_peaks(
        options: *const mte_tool_options,
        first: *const c_void,
        first_length: usize,
        input: *const c_void,
        length: usize,
        output: *mut mte_tool_text,
        result: *mut mte_tool_result,
    ) -> mte_tool_end;
    pub fn mte_tool_text_append(text: *mut mte_tool_text, piece: *const c_void, length: usize) -> mte_tool_end;
    pub fn mte_tool_timeline_append(timeline: *mut mte_tool_text, size: usize, is_free: c_int) -> mte_tool_end;
    pub fn mte_tool_text_free(text: *mut mte_tool_text);
    pub fn mte_tool_check_claim(
        options: *const mte_tool_options,
        first: *const c_void,
        first_length: usize,
        input: *const c_void,
        length: usize,
        output: *mut mte_tool_text,
        claim: *mut mte_tool_claim,
        result: *mut mte_tool_result,
    ) -> mte_tool_end;
    pub fn mte_tool_check_fit_claim(
        options: *const mte_tool_options,
        first: *const c_void,
        first_length: usize,
        input: *const c_void,
        length: usize,
        output: *mut mte_tool_text,
        claim: *mut mte_tool_claim,
        result: *mut mte_tool_result,
    ) -> mte_tool_end;

    pub fn mte_tool_score_profile(
        options: *const mte_tool_options,
        classes: *const u16,
        class_count: usize,
        profile: *const mte_tool_profile_arrays,
        result: *mut mte_tool_result,
    ) -> mte_tool_end;
    pub fn mte_tool_footprint_history(
        options: *const mte_tool_options,
        classes: *const u16,
        class_count: usize,
        history: *const mte_tool_history_arrays,
        result: *mut mte_tool_result,
    ) -> mte_tool_end;
    pub fn mte_tool_footprint_timeline(
        options: *const mte_tool_options,
        classes: *const u16,
        class_count: usize,
        timeline: *const mte_tool_timeline_arrays,
        result: *mut mte_tool_result,
    ) -> mte_tool_end;
    pub fn mte_tool_tune_profile(
        options: *const mte_tool_options,
        profile: *const mte_tool_profile_arrays,
        classes: *mut u16,
        class_room: usize,
        rows: *mut u64,
        row_room: usize,
        result: *mut mte_tool_result,
    ) -> mte_tool_end;
    pub fn mte_tool_fit_history(
        options: *const mte_tool_options,
        history: *const mte_tool_history_arrays,
        classes: *mut u16,
        class_room: usize,
        rows: *mut u64,
        row_room: usize,
        result: *mut mte_tool_result,
    ) -> mte_tool_end;
    pub fn mte_tool_fit_timeline(
        options: *const mte_tool_options,
        timeline: *const mte_tool_timeline_arrays,
        classes: *mut u16,
        class_room: usize,
        rows: *mut u64,
        row_room: usize,
        moments: *mut u32,
        moment_room: usize,
        result: *mut mte_tool_result,
    ) -> mte_tool_end;
    pub fn mte_tool_check_profile(
        options: *const mte_tool_options,
        classes: *const u16,
        class_count: usize,
        waste: u64,
        rows: *const u64,
        row_count: usize,
        profile: *const mte_tool_profile_arrays,
        result: *mut mte_tool_result,
    ) -> mte_tool_end;
    pub fn mte_tool_check_fit_history(
        options: *const mte_tool_options,
        classes: *const u16,
        class_count: usize,
        footprint: u64,
        rows: *const u64,
        row_count: usize,
        history: *const mte_tool_history_arrays,
        result: *mut mte_tool_result,
    ) -> mte_tool_end;
    pub fn mte_tool_check_fit_timeline(
        options: *const mte_tool_options,
        classes: *const u16,
        class_count: usize,
        footprint: u64,
        rows: *const u64,
        row_count: usize,
        moments: *const u32,
        moment_count: usize,
        timeline: *const mte_tool_timeline_arrays,
        result: *mut mte_tool_result,
    ) -> mte_tool_end;

    pub fn mte_tool_class_of(classes: *const u16, class_count: usize, size: usize) -> c_int;

    pub fn mte_tool_heap_new(
        heap: *mut *mut mte_tool_heap,
        options: *const mte_tool_options,
        classes: *const u16,
        class_count: usize,
        outcome: *mut mte_tool_outcome,
    ) -> mte_tool_end;
    pub fn mte_tool_heap_malloc(heap: *mut mte_tool_heap, size: usize, outcome: *mut mte_tool_outcome) -> mte_tool_end;
    pub fn mte_tool_heap_calloc(heap: *mut mte_tool_heap, size: usize, outcome: *mut mte_tool_outcome) -> mte_tool_end;
    pub fn mte_tool_heap_realloc(heap: *mut mte_tool_heap, address: u64, size: usize, outcome: *mut mte_tool_outcome) -> mte_tool_end;
    pub fn mte_tool_heap_free(heap: *mut mte_tool_heap, address: u64, outcome: *mut mte_tool_outcome) -> mte_tool_end;
    pub fn mte_tool_heap_load(
        heap: *mut mte_tool_heap,
        address: u64,
        room: *mut c_void,
        length: usize,
        outcome: *mut mte_tool_outcome,
    ) -> mte_tool_end;
    pub fn mte_tool_heap_store(
        heap: *mut mte_tool_heap,
        address: u64,
        bytes: *const c_void,
        length: usize,
        outcome: *mut mte_tool_outcome,
    ) -> mte_tool_end;
    pub fn mte_tool_heap_granule(heap: *mut mte_tool_heap, granule: u64, outcome: *mut mte_tool_outcome) -> mte_tool_end;
    pub fn mte_tool_heap_addg(
        heap: *mut mte_tool_heap,
        address: u64,
        granules: u64,
        step: u64,
        outcome: *mut mte_tool_outcome,
    ) -> mte_tool_end;
    pub fn mte_tool_heap_close(heap: *mut mte_tool_heap);
}
