//! What `include/fdb_read_version.h` declares, under its names. The header says what each is and what
//! a caller has to keep; the crate `fdb_read_version` keeps it.
#![allow(non_camel_case_types)]

use std::ffi::c_void;
use std::ptr;

/// The version of the header; `fdb_read_version_version` says that of the library.
pub const FDB_READ_VERSION_VERSION: u32 = 400;

pub const FDB_OK: u8 = 0;
pub const FDB_BAD_EPOCH: u8 = 1;
pub const FDB_NO_PROXY: u8 = 2;
pub const FDB_UNKNOWN_PROXY: u8 = 3;
pub const FDB_EARLY: u8 = 4;
pub const FDB_FORGOTTEN: u8 = 5;
pub const FDB_EXHAUSTED: u8 = 6;
pub const FDB_MEMORY: u8 = 7;
pub const FDB_ROOM: u8 = 8;
pub const FDB_BAD_OP: u8 = 16;
pub const FDB_BAD_CONFIG: u8 = 17;
pub const FDB_BAD_COUNT: u8 = 18;
pub const FDB_BATCH_THROTTLED: u8 = 19;
pub const FDB_FULL: u8 = 20;
pub const FDB_TAG_TOO_LONG: u8 = 21;
pub const FDB_FAULT: u8 = 32;
pub const FDB_TOO_LONG: u8 = 33;
pub const FDB_TOO_MANY: u8 = 34;
pub const FDB_NOT_JSON: u8 = 35;
pub const FDB_NO_CALL: u8 = 36;
pub const FDB_TWO_CALLS: u8 = 37;
pub const FDB_SOME_TIMES: u8 = 38;
pub const FDB_BAD_MEMBER: u8 = 39;
pub const FDB_EMPTY: u8 = 40;
pub const FDB_OVER: u8 = 41;
pub const FDB_UNJUDGED: u8 = 42;
pub const FDB_NOT_KEPT: u8 = 43;

pub const FDB_SYSTEM: u8 = 0;
pub const FDB_DEFAULT: u8 = 1;
pub const FDB_BATCH: u8 = 2;

pub const FDB_OP_OFFER: u8 = 0;
pub const FDB_OP_WINDOW: u8 = 1;
pub const FDB_OP_POP: u8 = 2;

pub const FDB_CLIENT: u8 = 1;
pub const FDB_READ: u8 = 2;
pub const FDB_COMMIT: u8 = 3;
pub const FDB_ASK: u8 = 4;
pub const FDB_REPORT: u8 = 5;
pub const FDB_LEARN: u8 = 6;
pub const FDB_BEGAN: u8 = 7;
pub const FDB_ENDED: u8 = 8;
pub const FDB_KEY: u8 = 9;

pub const FDB_FAULT_ORDER: u8 = 1;
pub const FDB_FAULT_WRONG: u8 = 2;
pub const FDB_FAULT_NOT_ABOVE: u8 = 3;
pub const FDB_FAULT_TWICE: u8 = 4;
pub const FDB_FAULT_STRAY: u8 = 5;

pub const FDB_REASON_KNOWN: u8 = 1;
pub const FDB_REASON_UNREPORTED: u8 = 2;
pub const FDB_REASON_REPORTED: u8 = 3;
pub const FDB_REASON_DRAWN: u8 = 4;
pub const FDB_REASON_UNDRAWN: u8 = 5;

pub const FDB_MEANS_START: u8 = 1;
pub const FDB_MEANS_ENDED: u8 = 2;
pub const FDB_MEANS_OWN: u8 = 3;
pub const FDB_MEANS_LEARNT: u8 = 4;

#[repr(C)]
#[derive(Clone, Copy, Debug, Default)]
pub struct fdb_ask {
    pub num: u64,
    pub processed: u64,
    pub at: u64,
    pub proxy: u32,
}

#[repr(C)]
#[derive(Clone, Copy, Debug, Default)]
pub struct fdb_answer {
    pub ordinal: u64,
    pub num: u64,
    pub processed: u64,
    pub prev: u64,
    pub version: u64,
    pub at: u64,
    pub proxy: u32,
    pub status: u8,
    pub fresh: bool,
}

#[repr(C)]
#[derive(Debug)]
pub struct fdb_chain {
    pub at: *mut c_void,
}
pub const FDB_CHAIN_NONE: fdb_chain = fdb_chain { at: ptr::null_mut() };

#[repr(C)]
#[derive(Clone, Copy, Debug, Default)]
pub struct fdb_record {
    pub version: u64,
    pub min_known: u64,
    pub metadata: [u8; 10],
    pub has_metadata: bool,
    pub locked: bool,
}

#[repr(C)]
#[derive(Clone, Copy, Debug, Default)]
pub struct fdb_queue_config {
    pub normal: u64,
    pub batch: u64,
    pub room: u64,
}

#[repr(C)]
#[derive(Clone, Copy, Debug, Default)]
pub struct fdb_request {
    pub count: u64,
    pub payload: u64,
    pub priority: u8,
}

#[repr(C)]
#[derive(Clone, Copy, Debug, Default)]
pub struct fdb_outcome {
    pub normal: u64,
    pub batch: u64,
    pub system_waits: u64,
    pub default_waits: u64,
    pub batch_waits: u64,
    pub started: u64,
    pub out: fdb_request,
    pub has_out: bool,
    pub status: u8,
}

#[repr(C)]
#[derive(Debug)]
pub struct fdb_queue {
    pub at: *mut c_void,
}
pub const FDB_QUEUE_NONE: fdb_queue = fdb_queue { at: ptr::null_mut() };

#[repr(C)]
#[derive(Clone, Copy, Debug, Default)]
pub struct fdb_turned_away {
    pub request: fdb_request,
    pub cause: u8,
}

#[repr(C)]
#[derive(Clone, Copy, Debug, Default)]
pub struct fdb_limit {
    pub rate: u64,
    pub expires: u64,
    pub holds: bool,
}

#[repr(C)]
#[derive(Clone, Copy, Debug, Default)]
pub struct fdb_op {
    pub amount: u64,
    pub payload: u64,
    pub kind: u8,
    pub priority: u8,
}

#[repr(C)]
#[derive(Clone, Copy, Debug, Default)]
pub struct fdb_call {
    pub version: u64,
    pub began: u64,
    pub ended: u64,
    pub client: u32,
    pub teller: u32,
    pub kind: u8,
    pub has_client: bool,
    pub has_times: bool,
    pub has_ended: bool,
}

#[repr(C)]
#[derive(Clone, Copy, Debug, Default)]
pub struct fdb_audit_options {
    pub start: u64,
    pub margin: u64,
    pub complete: bool,
    pub all: bool,
    pub history: bool,
    pub totals: bool,
    pub json: bool,
}

#[repr(C)]
#[derive(Clone, Copy, Debug, Default)]
pub struct fdb_refused {
    pub line: u64,
    pub member: u8,
}

#[repr(C)]
#[derive(Clone, Copy, Debug, Default)]
pub struct fdb_fault {
    pub known: u64,
    pub late: u64,
    pub place: u32,
    pub other: u32,
    pub by: u32,
    pub learnt: u32,
    pub first: u32,
    pub kind: u8,
    pub reason: u8,
    pub means: u8,
    pub has_late: bool,
}

#[repr(C)]
#[derive(Debug)]
pub struct fdb_audit {
    pub at: *mut c_void,
}
pub const FDB_AUDIT_NONE: fdb_audit = fdb_audit { at: ptr::null_mut() };

#[repr(C)]
#[derive(Clone, Copy, Debug, Default)]
pub struct fdb_watch_options {
    pub behind: u64,
    pub margin: u64,
    pub totals: bool,
    pub json: bool,
}

#[repr(C)]
#[derive(Debug)]
pub struct fdb_watch {
    pub at: *mut c_void,
}
pub const FDB_WATCH_NONE: fdb_watch = fdb_watch { at: ptr::null_mut() };

#[repr(C)]
#[derive(Clone, Copy, Debug, Default)]
pub struct fdb_watch_counted {
    pub lines: u64,
    pub reads: u64,
    pub commits: u64,
    pub asks: u64,
    pub reports: u64,
    pub refused: u64,
    pub early: u64,
    pub judged: u64,
    pub ahead: u64,
    pub open: u64,
    pub kept: u64,
    pub newest_end: u64,
    pub settled_to: u64,
}

extern "C" {
    pub fn fdb_read_version_version() -> u32;
    pub fn fdb_chain_new(epoch_end: u64, recovery: u64, proxies: u32, chain: *mut fdb_chain) -> u8;
    pub fn fdb_chain_ask(chain: *mut fdb_chain, ask: *const fdb_ask, answer: *mut fdb_answer)
        -> u8;
    pub fn fdb_chain_free(chain: *mut fdb_chain);
    pub fn fdb_chain_answers(
        epoch_end: u64,
        recovery: u64,
        proxies: u32,
        asks: *const fdb_ask,
        asks_length: usize,
        answers: *mut fdb_answer,
        answers_length: usize,
    ) -> u8;
    pub fn fdb_record_after_report(kept: *mut fdb_record, reported: *const fdb_record);
    pub fn fdb_record_version_for(kept: *const fdb_record, use_min: bool) -> u64;
    pub fn fdb_queue_new(config: *const fdb_queue_config, queue: *mut fdb_queue) -> u8;
    pub fn fdb_queue_offer(
        queue: *mut fdb_queue,
        request: *const fdb_request,
        outcome: *mut fdb_outcome,
    ) -> u8;
    pub fn fdb_queue_window(
        queue: *mut fdb_queue,
        elapsed: u64,
        outcome: *mut fdb_outcome,
        started: *mut fdb_request,
        started_length: usize,
    ) -> u8;
    pub fn fdb_queue_pop(queue: *mut fdb_queue, outcome: *mut fdb_outcome);
    pub fn fdb_queue_set_rates(
        queue: *mut fdb_queue,
        normal: u64,
        batch: u64,
        turned_away: *mut fdb_turned_away,
        turned_away_length: usize,
        size: *mut u64,
    ) -> u8;
    pub fn fdb_queue_waits(queue: *mut fdb_queue, elapsed: u64, windows: *mut u64) -> bool;
    pub fn fdb_queue_set_throttle(
        queue: *mut fdb_queue,
        priority: u8,
        tag: *const u8,
        tag_length: usize,
        rate: u64,
        expires: u64,
    ) -> u8;
    pub fn fdb_queue_throttle(
        queue: *mut fdb_queue,
        priority: u8,
        tag: *const u8,
        tag_length: usize,
        at: u64,
        limit: *mut fdb_limit,
    ) -> u8;
    pub fn fdb_queue_forget_throttles(queue: *mut fdb_queue, at: u64);
    pub fn fdb_queue_free(queue: *mut fdb_queue);
    pub fn fdb_queue_outcomes(
        config: *const fdb_queue_config,
        ops: *const fdb_op,
        ops_length: usize,
        outcomes: *mut fdb_outcome,
        outcomes_length: usize,
        started: *mut fdb_request,
        started_length: usize,
        size: *mut u64,
    ) -> u8;
    pub fn fdb_audit_log_text(
        log: *const u8,
        log_length: usize,
        options: *const fdb_audit_options,
        text: *mut u8,
        text_length: usize,
        size: *mut u64,
        refused: *mut fdb_refused,
    ) -> u8;
    pub fn fdb_audit_log_faults(
        log: *const u8,
        log_length: usize,
        options: *const fdb_audit_options,
        faults: *mut fdb_fault,
        faults_length: usize,
        size: *mut u64,
        refused: *mut fdb_refused,
    ) -> u8;
    pub fn fdb_audit_calls_text(
        calls: *const fdb_call,
        calls_length: usize,
        options: *const fdb_audit_options,
        text: *mut u8,
        text_length: usize,
        size: *mut u64,
        refused: *mut fdb_refused,
    ) -> u8;
    pub fn fdb_audit_calls_faults(
        calls: *const fdb_call,
        calls_length: usize,
        options: *const fdb_audit_options,
        faults: *mut fdb_fault,
        faults_length: usize,
        size: *mut u64,
        refused: *mut fdb_refused,
    ) -> u8;
    pub fn fdb_audit_new(
        options: *const fdb_audit_options,
        key: *const u8,
        key_length: usize,
        shown: *const u8,
        shown_length: usize,
        audit: *mut fdb_audit,
    ) -> u8;
    pub fn fdb_audit_push(
        audit: *mut fdb_audit,
        bytes: *const u8,
        bytes_length: usize,
        refused: *mut fdb_refused,
    ) -> u8;
    pub fn fdb_audit_end(audit: *mut fdb_audit, refused: *mut fdb_refused) -> u8;
    pub fn fdb_audit_text(
        audit: *mut fdb_audit,
        text: *mut u8,
        text_length: usize,
        size: *mut u64,
    ) -> u8;
    pub fn fdb_audit_faults(
        audit: *mut fdb_audit,
        faults: *mut fdb_fault,
        faults_length: usize,
        size: *mut u64,
    ) -> u8;
    pub fn fdb_audit_free(audit: *mut fdb_audit);
    pub fn fdb_watch_new(
        options: *const fdb_watch_options,
        key: *const u8,
        key_length: usize,
        shown: *const u8,
        shown_length: usize,
        watch: *mut fdb_watch,
    ) -> u8;
    pub fn fdb_watch_restore(
        options: *const fdb_watch_options,
        key: *const u8,
        key_length: usize,
        shown: *const u8,
        shown_length: usize,
        kept: *const u8,
        kept_length: usize,
        watch: *mut fdb_watch,
        refused: *mut fdb_refused,
    ) -> u8;
    pub fn fdb_watch_push(watch: *mut fdb_watch, bytes: *const u8, bytes_length: usize) -> u8;
    pub fn fdb_watch_tell(watch: *mut fdb_watch, is_idle: bool) -> u8;
    pub fn fdb_watch_end(watch: *mut fdb_watch, refused: *mut fdb_refused) -> u8;
    pub fn fdb_watch_text(
        watch: *mut fdb_watch,
        text: *mut u8,
        text_length: usize,
        size: *mut u64,
    ) -> u8;
    pub fn fdb_watch_warnings(
        watch: *mut fdb_watch,
        text: *mut u8,
        text_length: usize,
        size: *mut u64,
    ) -> u8;
    pub fn fdb_watch_keep(
        watch: *mut fdb_watch,
        text: *mut u8,
        text_length: usize,
        size: *mut u64,
    ) -> u8;
    pub fn fdb_watch_counts(watch: *mut fdb_watch, counts: *mut fdb_watch_counted) -> u8;
    pub fn fdb_watch_free(watch: *mut fdb_watch);
}
