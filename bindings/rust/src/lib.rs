//! The part of FoundationDB's read-version path that one thread runs, proved, from Rust.
//!
//! [`Chain`] issues commit versions as the sequencer does, [`Record`] is the live committed version
//! with what belongs to it, and [`GrvQueue`] says which requests for a read version wait at a GRV
//! proxy and which start. [`audit_log`] and [`audit_lines`] find the faults of a log of calls, of
//! any system; [`Audit`] takes a log piece by piece, and [`Watch`] tells of one that grows what has
//! become certain. What each answers is proved; this crate, which calls them, is tested.
#![deny(missing_debug_implementations, missing_docs, unsafe_op_in_unsafe_fn)]

/// The samples of the README, which `cargo test` runs.
#[cfg(doctest)]
#[doc = include_str!("../README.md")]
struct Readme;

mod audit;
mod chain;
mod grv_queue;
mod handle;
mod log;
mod record;
mod watch;

pub use audit::Audit;
pub use chain::{answers, Ask, Chain, ChainError, Issued};
pub use grv_queue::{
    outcomes, GrvQueue, Limit, Op, Outcome, Priority, QueueConfig, QueueError, Request, State,
    TurnedAway,
};
pub use log::{
    audit_lines, audit_lines_text, audit_log, audit_log_text, AuditOptions, Call, Fault, FaultKind,
    Late, Line, LogError, Means, Member, Reason, Times, Wanted, Wrong,
};
pub use record::Record;
pub use watch::{Watch, WatchCounts, WatchOptions};

#[cfg(test)]
mod tests {
    use fdb_read_version_sys as sys;

    #[test]
    fn versions() {
        // SAFETY: it takes nothing.
        assert_eq!(unsafe { sys::fdb_read_version_version() }, sys::FDB_READ_VERSION_VERSION);
    }
}
