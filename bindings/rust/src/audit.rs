//! The audit of a log that comes piece by piece.

use crate::handle::has_handle;
use crate::log::{done, ended, fault_of, raw_options, text, written};
use crate::{AuditOptions, Fault, LogError, Wanted};
use fdb_read_version_sys as sys;

/// An audit of JSON Lines that come piece by piece, and then what it found. It keeps the log's
/// lines and not their bytes.
///
/// ```
/// use fdb_read_version::{Audit, AuditOptions, LogError, Wanted};
///
/// let mut audit = Audit::new(&AuditOptions::default(), Wanted::default())?;
/// for piece in ["{\"client\":\"a\",\"re", "ad\":2}\n{\"client\":\"a\",", "\"read\":1}"] {
///     audit.push(piece.as_bytes())?;
/// }
/// assert!(audit.end()?, "it has a fault");
/// assert_eq!(audit.faults()?[0].place, 1);
/// assert!(audit.text().starts_with("audit fault: Order 2: client \"a\" read 1, but 2 was known: "));
/// assert_eq!(audit.push(b"\n"), Err(LogError::Over));
/// # Ok::<(), LogError>(())
/// ```
pub struct Audit {
    handle: sys::fdb_audit,
}

has_handle!(Audit, sys::fdb_audit_free);

impl Audit {
    /// An audit of a log of which nothing has come.
    ///
    /// # Errors
    /// `Memory`.
    pub fn new(options: &AuditOptions<'_>, wanted: Wanted) -> Result<Audit, LogError> {
        let (key, shown) = (options.key, options.shown);
        let (options, mut handle) = (raw_options(options, wanted), sys::FDB_AUDIT_NONE);
        let (name, names) = (key.as_ptr(), shown.as_ptr());
        // SAFETY: the handle is none, and the lengths are those of the names.
        let status = unsafe {
            sys::fdb_audit_new(&options, name, key.len(), names, shown.len(), &mut handle)
        };
        done(status, &sys::fdb_refused::default()).map(|()| Audit { handle })
    }

    /// Takes the next bytes of the log, cut anywhere.
    ///
    /// # Errors
    /// `Refused` as soon as a line is wrong, whatever may come after it, or `Memory`: either ends
    /// the audit. `Over` where it was over before.
    pub fn push(&mut self, bytes: &[u8]) -> Result<(), LogError> {
        let mut refused = sys::fdb_refused::default();
        let (at, length) = (bytes.as_ptr(), bytes.len());
        // SAFETY: the handle is an audit, from `new` to `drop`; the length is that of the bytes.
        let status = unsafe { sys::fdb_audit_push(&mut self.handle, at, length, &mut refused) };
        done(status, &refused)
    }

    /// Audits the log, which ends here, and says whether it has a fault. The audit is then over.
    ///
    /// # Errors
    /// As [`push`](Audit::push), and `Refused` where no line came.
    pub fn end(&mut self) -> Result<bool, LogError> {
        // SAFETY: the handle is an audit.
        ended(|refused| unsafe { sys::fdb_audit_end(&mut self.handle, refused) })
    }

    /// What `fdb_audit` prints of it: nothing where nothing was found yet.
    #[must_use]
    pub fn text(&mut self) -> String {
        // SAFETY: the handle is an audit, and the length that of the array.
        text(|at, length, size| unsafe { sys::fdb_audit_text(&mut self.handle, at, length, size) })
    }

    /// All faults that were found, by line.
    ///
    /// # Errors
    /// `Unknown`.
    pub fn faults(&mut self) -> Result<Vec<Fault>, LogError> {
        let found: Vec<sys::fdb_fault> = written(|at, length, size| {
            // SAFETY: the handle is an audit, and the length that of the array.
            unsafe { sys::fdb_audit_faults(&mut self.handle, at, length, size) }
        });
        found.iter().map(fault_of).collect()
    }
}
