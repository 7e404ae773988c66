//! The register.

use fdb_read_version_sys as sys;

/// What the sequencer keeps of the newest commit that was reported.
///
/// ```
/// use fdb_read_version::Record;
///
/// let kept = Record { version: 100, ..Record::default() };
/// let reported = Record { version: 200, locked: true, ..kept };
/// assert_eq!(kept.after_report(&reported), reported);
/// assert_eq!(reported.after_report(&kept), reported);
/// ```
#[derive(Clone, Copy, Debug, Default, PartialEq, Eq, Hash, PartialOrd, Ord)]
pub struct Record {
    /// The live committed version.
    pub version: u64,
    /// Whether the database is locked.
    pub locked: bool,
    /// The metadata version, if there is one.
    pub metadata: Option<[u8; 10]>,
    /// The minimum known committed version.
    pub min_known: u64,
}

impl Record {
    fn raw(&self) -> sys::fdb_record {
        sys::fdb_record {
            version: self.version,
            min_known: self.min_known,
            metadata: self.metadata.unwrap_or_default(),
            has_metadata: self.metadata.is_some(),
            locked: self.locked,
        }
    }

    /// The record after a report: one of a greater version replaces version, lock and metadata
    /// version, and the greater minimum stays.
    #[must_use]
    pub fn after_report(&self, reported: &Record) -> Record {
        let mut kept = self.raw();
        // SAFETY: both are records, and apart.
        unsafe { sys::fdb_record_after_report(&mut kept, &reported.raw()) };
        Record {
            version: kept.version,
            locked: kept.locked,
            metadata: kept.has_metadata.then_some(kept.metadata),
            min_known: kept.min_known,
        }
    }

    /// The read version that it gives: its version, or with `use_min` its minimum.
    #[must_use]
    pub fn version_for(&self, use_min: bool) -> u64 {
        // SAFETY: it is a record.
        unsafe { sys::fdb_record_version_for(&self.raw(), use_min) }
    }
}
