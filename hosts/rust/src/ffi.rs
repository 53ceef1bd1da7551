//! The C interface of the library, as it stands in `hosts/c/comvizga.h`.

use std::ffi::c_void;

/// What C code calls `comvizga`: all zero where it holds nothing.
#[repr(C)]
pub(crate) struct RawHandle {
    pub(crate) at: *mut c_void,
}

/// The settings as the proved library takes them, without the size that `comvizga_settings` of C
/// begins with.
#[repr(C)]
#[derive(Clone, Debug, PartialEq, Eq)]
pub(crate) struct RawSettings {
    pub(crate) max_history_size: usize,
    pub(crate) completion_prompt_limit: usize,
    pub(crate) columns: u16,
    pub(crate) rows: u16,
    pub(crate) vi: u8,
    pub(crate) list_completions: u8,
    pub(crate) show_all_if_ambiguous: u8,
    pub(crate) hints: u8,
    pub(crate) brackets: u8,
    pub(crate) colors: u8,
    pub(crate) auto_add_history: u8,
    pub(crate) history_ignore_dups: u8,
    pub(crate) history_ignore_space: u8,
    pub(crate) bracketed_paste: u8,
    pub(crate) synchronized_output: u8,
    pub(crate) indent_size: u8,
}

/// What a call answers.
pub(crate) mod status {
    pub(crate) const OK: u32 = 0;
    pub(crate) const SUBMITTED: u32 = 1;
    pub(crate) const ENDED: u32 = 2;
    pub(crate) const INTERRUPTED: u32 = 3;
    pub(crate) const SUSPENDED: u32 = 4;
    pub(crate) const NO_MEMORY: u32 = 16;
    pub(crate) const FAILED: u32 = 17;
    pub(crate) const NOT_TEXT: u32 = 18;
    pub(crate) const NO_LINE: u32 = 19;
    pub(crate) const HAS_LINE: u32 = 20;
    pub(crate) const TOO_SMALL: u32 = 21;
    pub(crate) const NO_KEY: u32 = 22;
    pub(crate) const NO_COMMAND: u32 = 23;
    pub(crate) const EMPTY: u32 = 24;
    pub(crate) const IN_USE: u32 = 25;
    pub(crate) const NULL: u32 = 26;
    pub(crate) const BAD_SETTING: u32 = 27;
}

// No pointer that is handed to these may be null, also where the length is 0.
unsafe extern "C" {
    pub(crate) fn line_c_new(settings: *const RawSettings, handle: *mut RawHandle) -> u32;
    pub(crate) fn line_c_free(handle: *mut RawHandle) -> u32;
    pub(crate) fn line_c_begin_with(
        handle: *mut RawHandle,
        prompt: *const u8,
        prompt_length: usize,
        styled: *const u8,
        styled_length: usize,
        left: *const u8,
        left_length: usize,
        right: *const u8,
        right_length: usize,
    ) -> u32;
    pub(crate) fn line_c_feed(handle: *mut RawHandle, bytes: *const u8, length: usize) -> u32;
    pub(crate) fn line_c_flush(handle: *mut RawHandle) -> u32;
    pub(crate) fn line_c_finish(handle: *mut RawHandle) -> u32;
    pub(crate) fn line_c_abandon(handle: *mut RawHandle) -> u32;
    pub(crate) fn line_c_resize(handle: *mut RawHandle, columns: u16, rows: u16) -> u32;
    pub(crate) fn line_c_is_waiting(handle: *mut RawHandle, waiting: *mut u8) -> u32;
    pub(crate) fn line_c_output(
        handle: *mut RawHandle,
        buffer: *mut u8,
        size: usize,
        taken: *mut usize,
    ) -> u32;
    pub(crate) fn line_c_line(
        handle: *mut RawHandle,
        buffer: *mut u8,
        size: usize,
        length: *mut usize,
    ) -> u32;
    pub(crate) fn line_c_cursor(handle: *mut RawHandle, cursor: *mut usize) -> u32;
    pub(crate) fn line_c_history_add(handle: *mut RawHandle, text: *const u8, length: usize)
    -> u32;
    pub(crate) fn line_c_history_load(
        handle: *mut RawHandle,
        text: *const u8,
        length: usize,
    ) -> u32;
    pub(crate) fn line_c_history_save(handle: *mut RawHandle, append: u8) -> u32;
    pub(crate) fn line_c_saved(
        handle: *mut RawHandle,
        buffer: *mut u8,
        size: usize,
        taken: *mut usize,
    ) -> u32;
    pub(crate) fn line_c_set_words(handle: *mut RawHandle, words: *const u8, length: usize) -> u32;
    pub(crate) fn line_c_bind(
        handle: *mut RawHandle,
        keys: *const u8,
        keys_length: usize,
        command: *const u8,
        command_length: usize,
    ) -> u32;
}
