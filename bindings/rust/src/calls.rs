//! The functions and structs of `include/precopy.h`, as they are in C. Made by `dev/interface`.

use crate::{Page, Round, Taken, Trace, Write};
use std::os::raw::c_char;

pub const TEXT_BOUND: usize = 320;
pub const REPORT_BOUND: [usize; 4] = [72, 11, 128, 67];

#[repr(C)]
#[derive(Clone, Copy, Default)]
pub struct Sizes {
    pub shift: u32,
    pub pages: u32,
    pub writes: u32,
}

#[repr(C)]
#[derive(Clone, Copy, Default)]
pub struct Settings {
    pub size: u64,
    pub min: u64,
    pub max: u64,
    pub increment: u64,
    pub threshold: u64,
    pub rounds: u64,
    pub start: u64,
    pub window: u64,
    pub hot: u64,
    pub base: u64,
    pub has_base: u32,
    pub skip: u32,
}

#[repr(C)]
#[derive(Clone, Copy, Default)]
pub struct Sums {
    pub rounds: u64,
    pub reason: u64,
    pub stop: u64,
    pub down: u64,
    pub total: u64,
}

#[repr(C)]
#[derive(Clone, Copy, Default)]
pub struct Frame {
    pub page: u32,
    pub stamp: u32,
    pub size: usize,
}

#[repr(C)]
#[derive(Clone, Copy, Default)]
pub struct Finding {
    pub stream: usize,
    pub frame: usize,
    pub offset: usize,
    pub tick: u64,
    pub page: u32,
    pub stamp: u32,
    pub wanted: u32,
    pub missing: u32,
}

#[repr(C)]
#[derive(Clone, Copy, Default)]
pub struct Progress {
    pub stream: usize,
    pub frames: usize,
    pub bytes: usize,
    pub stop: u32,
}

#[repr(C)]
#[derive(Clone, Copy, Default)]
pub struct Question {
    pub size: u64,
    pub link: u64,
    pub first: u64,
    pub downtime: u64,
    pub reserve: u64,
    pub tick: u64,
    pub page: u64,
    pub sampled: u64,
    pub guest: u64,
    pub increment: u64,
    pub rounds: u64,
    pub start: u64,
    pub base: u64,
    pub has_first: u32,
    pub has_increment: u32,
    pub has_base: u32,
    pub skip: u32,
    pub clark: u32,
}

#[repr(C)]
#[derive(Clone, Copy, Default)]
pub struct Prediction {
    pub rounds: u64,
    pub reason: u64,
    pub stop: u64,
    pub down: u64,
    pub total: u64,
    pub left: u64,
    pub time: u64,
    pub bytes: u64,
    pub downtime: u64,
    pub recorded: u64,
    pub converges: u32,
    pub kept: u32,
}

#[repr(C)]
#[derive(Clone, Copy, Default)]
pub struct Errors {
    pub bytes: u64,
    pub time: u64,
    pub downtime: u64,
    pub has_errors: u32,
}

#[repr(C)]
#[derive(Clone, Copy, Default)]
pub struct Agreement {
    pub draws: u64,
    pub draws_known: u64,
    pub draws_converging: u64,
    pub draws_kept: u64,
    pub starts: u64,
    pub starts_converging: u64,
    pub starts_kept: u64,
    pub converges: u32,
    pub kept: u32,
}

#[repr(C)]
#[derive(Clone, Copy, Default)]
pub struct Amounts {
    pub link: u64,
    pub downtime: u64,
    pub speed: u64,
    pub ending_link: u64,
    pub ending_start: u64,
    pub has_link: u32,
    pub has_downtime: u32,
    pub has_speed: u32,
    pub has_ending_link: u32,
    pub has_ending_start: u32,
    pub is_kept: u32,
    pub ends: u32,
}

#[repr(C)]
#[derive(Clone, Copy, Default)]
pub struct Forecast {
    pub looks: u64,
    pub time: u64,
    pub bytes: u64,
    pub left: u64,
    pub downtime: u64,
    pub end: u32,
    pub kept: u32,
}

#[repr(C)]
#[derive(Clone, Copy, Default)]
pub struct LinkShares {
    pub percent: u64,
    pub converges: u32,
    pub below: u32,
}

#[repr(C)]
#[derive(Clone, Copy, Default)]
pub struct Starts {
    pub size: u64,
    pub to: u64,
    pub every: u64,
    pub has_to: u32,
    pub has_every: u32,
}

#[repr(C)]
#[derive(Clone, Copy, Default)]
pub struct BestStart {
    pub start: u64,
    pub rounds: u64,
    pub time: u64,
    pub bytes: u64,
    pub downtime: u64,
    pub kept: u32,
    pub is_likely: u32,
}

#[repr(C)]
#[derive(Clone, Copy, Default)]
pub struct Recording {
    pub length: usize,
    pub last_tick: u64,
    pub writes: u32,
    pub pages: u32,
    pub shift: u32,
}

extern "C" {
    pub fn precopy_strerror(status: u32) -> *const c_char;
    pub fn precopy_version() -> *const c_char;
    pub fn precopy_refusal_text(cause: u32, record: u32, text: *mut u8, text_length: usize, needed: *mut usize) -> u32;
    pub fn precopy_finding_text(
        status: u32,
        found: *const Finding,
        text: *mut u8,
        text_length: usize,
        needed: *mut usize,
    ) -> u32;
    pub fn precopy_abi() -> u32;
    pub fn precopy_check_trace(trace: *const u8, trace_length: usize, sizes: *mut Sizes, record: *mut u32) -> u32;
    pub fn precopy_check_settings(settings: *const Settings) -> u32;
    pub fn precopy_plan(
        trace: *const u8,
        trace_length: usize,
        settings: *const Settings,
        sums: *mut Sums,
        record: *mut u32,
    ) -> u32;
    pub fn precopy_report(
        trace: *const u8,
        trace_length: usize,
        settings: *const Settings,
        text: *mut u8,
        text_length: usize,
        needed: *mut usize,
        record: *mut u32,
    ) -> u32;
    pub fn precopy_memory(
        trace: *const u8,
        trace_length: usize,
        memory: *mut u8,
        memory_length: usize,
        needed: *mut usize,
        record: *mut u32,
    ) -> u32;
    pub fn precopy_encode_frame(
        sizes: *const Sizes,
        page: u32,
        stamp: u32,
        bytes: *const u8,
        bytes_length: usize,
        frame: *mut u8,
        frame_length: usize,
        needed: *mut usize,
    ) -> u32;
    pub fn precopy_decode_frame(
        sizes: *const Sizes,
        bytes: *const u8,
        bytes_length: usize,
        frame: *mut Frame,
        content: *mut u8,
        content_length: usize,
    ) -> u32;
    pub fn precopy_accept(
        sizes: *const Sizes,
        stream: *const u8,
        stream_length: usize,
        memory: *mut u8,
        memory_length: usize,
        pages: *mut Page,
        pages_length: usize,
        taken: *mut Taken,
    ) -> u32;
    pub fn precopy_missing(pages: *const Page, pages_length: usize, page: *mut usize) -> u32;
    pub fn precopy_check_streams(
        trace: *const u8,
        trace_length: usize,
        stop: u32,
        bytes: *const u8,
        bytes_length: usize,
        sizes: *const usize,
        sizes_length: usize,
        found: *mut Finding,
        record: *mut u32,
    ) -> u32;
    pub fn precopy_trace_open(
        bytes: *const u8,
        bytes_length: usize,
        words: *mut u32,
        words_length: usize,
        trace: *mut Trace,
        needed: *mut usize,
        record: *mut u32,
    ) -> u32;
    pub fn precopy_trace_writes_before(trace: *const Trace, tick: u64, count: *mut u32) -> u32;
    pub fn precopy_trace_memory_before(
        trace: *const Trace,
        tick: u64,
        memory: *mut u8,
        memory_length: usize,
        needed: *mut usize,
    ) -> u32;
    pub fn precopy_trace_memory_step(
        trace: *const Trace,
        from: u32,
        to: u32,
        memory: *mut u8,
        memory_length: usize,
    ) -> u32;
    pub fn precopy_trace_page_writes(
        trace: *const Trace,
        page: u32,
        writes: *mut Write,
        writes_length: usize,
        count: *mut usize,
    ) -> u32;
    pub fn precopy_trace_version_after(trace: *const Trace, page: u32, count: u32, version: *mut u32) -> u32;
    pub fn precopy_trace_versions_after(
        trace: *const Trace,
        count: u32,
        versions: *mut u32,
        versions_length: usize,
        needed: *mut usize,
    ) -> u32;
    pub fn precopy_trace_versions_before(
        trace: *const Trace,
        tick: u64,
        versions: *mut u32,
        versions_length: usize,
        needed: *mut usize,
    ) -> u32;
    pub fn precopy_trace_page_at(
        trace: *const Trace,
        page: u32,
        stamp: u32,
        content: *mut u8,
        content_length: usize,
    ) -> u32;
    pub fn precopy_trace_check_piece(
        trace: *const Trace,
        piece: *const u8,
        piece_length: usize,
        progress: *mut Progress,
        last: *mut u32,
        last_length: usize,
        greatest: *mut u32,
        greatest_length: usize,
        memory: *mut u8,
        memory_length: usize,
        found: *mut Finding,
    ) -> u32;
    pub fn precopy_end_stream(progress: *const Progress, left: usize, found: *mut Finding) -> u32;
    pub fn precopy_trace_check_pages(
        trace: *const Trace,
        progress: *const Progress,
        greatest: *const u32,
        greatest_length: usize,
        found: *mut Finding,
    ) -> u32;
    pub fn precopy_trace_check_base(
        trace: *const Trace,
        tick: u64,
        greatest: *mut u32,
        greatest_length: usize,
        memory: *mut u8,
        memory_length: usize,
    ) -> u32;
    pub fn precopy_trace_check_bytes(
        trace: *const Trace,
        stop: u32,
        page: u32,
        content: *const u8,
        content_length: usize,
        greatest: *mut u32,
        greatest_length: usize,
        memory: *mut u8,
        memory_length: usize,
    ) -> u32;
    pub fn precopy_trace_differs(
        trace: *const Trace,
        count: u32,
        memory: *const u8,
        memory_length: usize,
        room: *mut u8,
        room_length: usize,
        found: *mut Finding,
    ) -> u32;
    pub fn precopy_trace_plan(trace: *const Trace, settings: *const Settings, sums: *mut Sums) -> u32;
    pub fn precopy_trace_report(
        trace: *const Trace,
        settings: *const Settings,
        text: *mut u8,
        text_length: usize,
        needed: *mut usize,
    ) -> u32;
    pub fn precopy_trace_rounds(
        trace: *const Trace,
        settings: *const Settings,
        rounds: *mut Round,
        rounds_length: usize,
        count: *mut usize,
    ) -> u32;
    pub fn precopy_trace_sweep(
        trace: *const Trace,
        cases: *const Settings,
        cases_length: usize,
        sums: *mut Sums,
        sums_length: usize,
        best: *mut usize,
    ) -> u32;
    pub fn precopy_trace_predict(
        trace: *const Trace,
        question: *const Question,
        prediction: *mut Prediction,
        errors: *mut Errors,
    ) -> u32;
    pub fn precopy_trace_agreement(trace: *const Trace, question: *const Question, agreement: *mut Agreement) -> u32;
    pub fn precopy_trace_enough(trace: *const Trace, question: *const Question, amounts: *mut Amounts) -> u32;
    pub fn precopy_trace_forecast(trace: *const Trace, question: *const Question, forecast: *mut Forecast) -> u32;
    pub fn precopy_trace_link_shares(trace: *const Trace, question: *const Question, shares: *mut LinkShares) -> u32;
    pub fn precopy_trace_best_start(
        trace: *const Trace,
        question: *const Question,
        starts: *const Starts,
        best: *mut BestStart,
        errors: *mut Errors,
    ) -> u32;
    pub fn precopy_record_begin(
        trace: *mut u8,
        trace_length: usize,
        shift: u32,
        pages: u32,
        recording: *mut Recording,
    ) -> u32;
    pub fn precopy_record_write(
        trace: *mut u8,
        trace_length: usize,
        recording: *mut Recording,
        tick: u64,
        page: u32,
        offset: u32,
        bytes: *const u8,
        bytes_length: usize,
    ) -> u32;
    pub fn precopy_record_release(
        trace: *mut u8,
        trace_length: usize,
        recording: *mut Recording,
        tick: u64,
        page: u32,
    ) -> u32;
    pub fn precopy_is_zero(bytes: *const u8, bytes_length: usize) -> bool;
}
