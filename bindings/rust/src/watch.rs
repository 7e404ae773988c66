//! The watch of a log that grows.

use crate::handle::has_handle;
use crate::log::{done, ended, text};
use crate::LogError;
use fdb_read_version_sys as sys;

/// How a log is watched, and what is told of it.
///
/// ```
/// use fdb_read_version::{LogError, Watch, WatchOptions};
///
/// let options = WatchOptions { totals: true, json: true, ..WatchOptions::default() };
/// let mut watch = Watch::new(&options)?;
/// watch.push(b"{\"read\":7,\"began\":1,\"ended\":2}\n")?;
/// assert!(!watch.end()?, "it has no fault");
/// assert!(watch.text().starts_with("{\"total\":{\"lines\":1,\"reads\":1,"));
/// # Ok::<(), LogError>(())
/// ```
#[derive(Clone, Copy, Debug, Default, PartialEq, Eq, Hash, PartialOrd, Ord)]
pub struct WatchOptions<'a> {
    /// How far behind the newest end a line may begin, in the unit of the times.
    pub behind: u64,
    /// How far the clocks of two clients may be apart, in that unit.
    pub margin: u64,
    /// The member that has a line's key, and each key is then watched by itself; where it is empty
    /// there are no keys.
    pub key: &'a str,
    /// The members that are told beside each line, parted by commas, as `fdb_audit --show` takes
    /// them; where it is empty there are none.
    pub shown: &'a str,
    /// Whether the end tells how much was read, and how many faults of each kind: where a fault was
    /// told, or with `json`.
    pub totals: bool,
    /// Whether JSON objects are told, and not sentences.
    pub json: bool,
}

/// How far a log has been followed: what `fdb_audit --follow --json` tells in `watched`. Lines that
/// were kept of others ([`Watch::restore`]) are among `open` and `kept` alone.
#[derive(Clone, Copy, Debug, Default, PartialEq, Eq, Hash, PartialOrd, Ord)]
pub struct WatchCounts {
    /// Lines that were not refused.
    pub lines: u64,
    /// How many of them were reads.
    pub reads: u64,
    /// How many were commits.
    pub commits: u64,
    /// How many drew a commit version.
    pub asks: u64,
    /// How many reported one as committed.
    pub reports: u64,
    /// Lines that were refused.
    pub refused: u64,
    /// How many lines had begun before what was settled when they came.
    pub early: u64,
    /// How many of the early lines were judged.
    pub judged: u64,
    /// How often an end was found to be ahead of a line that came later.
    pub ahead: u64,
    /// Lines of which not all is told that there is to tell.
    pub open: u64,
    /// Lines that are kept, those that are open among them.
    pub kept: u64,
    /// The newest end that is believed, in the unit of the times; 0 where none is.
    pub newest_end: u64,
    /// The moment up to which all is told.
    pub settled_to: u64,
}

/// A watch of JSON Lines that come piece by piece: what `fdb_audit --follow` is. It keeps the lines
/// that may yet come to matter, the name of each client and key, 8 bytes for each line that was
/// refused and, with `totals`, counts of at most 65,536 clients, keys and texts of each shown
/// member.
///
/// ```
/// use fdb_read_version::{LogError, Watch, WatchOptions};
///
/// let mut watch = Watch::new(&WatchOptions::default())?;
/// watch.push(b"{\"client\":\"a\",\"commit\":200,\"began\":10,\"ended\":14}\n{}\n")?;
/// assert_eq!(watch.tell(true)?, "");
/// assert!(watch.warnings().starts_with("fdb_audit: logs refused: NoCall 2: "));
/// watch.push(b"{\"client\":\"b\",\"read\":100,\"began\":15,\"ended\":16}\n")?;
/// // (what ends at 16 is believed where another client says so too)
/// watch.push(b"{\"client\":\"a\",\"read\":200,\"began\":15,\"ended\":16}\n")?;
/// assert!(watch.tell(true)?.starts_with("audit fault: Order 3: client \"b\" read 100, but 200 "));
/// assert_eq!(watch.tell(true)?, "");
/// assert!(watch.end()?, "a fault was told");
/// assert_eq!(watch.push(b"\n"), Err(LogError::Over));
/// # Ok::<(), LogError>(())
/// ```
pub struct Watch {
    handle: sys::fdb_watch,
}

has_handle!(Watch, sys::fdb_watch_free);

fn raw_options(options: &WatchOptions<'_>) -> sys::fdb_watch_options {
    sys::fdb_watch_options {
        behind: options.behind,
        margin: options.margin,
        totals: options.totals,
        json: options.json,
    }
}

/// What a call answers that refuses no line.
fn taken(status: u8) -> Result<(), LogError> {
    done(status, &sys::fdb_refused::default())
}

impl Watch {
    /// A watch of a log of which nothing has come.
    ///
    /// # Errors
    /// `Memory`.
    pub fn new(options: &WatchOptions<'_>) -> Result<Watch, LogError> {
        let (key, shown) = (options.key, options.shown);
        let (options, mut handle) = (raw_options(options), sys::FDB_WATCH_NONE);
        let (name, names) = (key.as_ptr(), shown.as_ptr());
        // SAFETY: the handle is none, and the lengths are those of the names.
        let status = unsafe {
            sys::fdb_watch_new(&options, name, key.len(), names, shown.len(), &mut handle)
        };
        taken(status).map(|()| Watch { handle })
    }

    /// A watch that goes on from what [`keep`](Watch::keep) gave, or a file of `fdb_audit --keep` has:
    /// it tells of the lines that come, which are those behind the first `kept_lines` lines of the
    /// log, what the watch that kept them would have told. But for `totals` and `json` the options are
    /// those of that one, which had no `--position`. A text without a line is a new watch; a file that
    /// keeps no line is refused, as `NoCall`.
    ///
    /// # Errors
    /// `Refused` with the first line of `kept` that is not as it was kept: as `NotKept`, which of line
    /// 1 may also say that it was kept by other options, or, as of a line that was cut off, `NotJson`.
    /// `Memory`.
    ///
    /// ```
    /// use fdb_read_version::{LogError, Watch, WatchOptions, Wrong};
    ///
    /// let options = WatchOptions { behind: 10, ..WatchOptions::default() };
    /// let mut watch = Watch::new(&options)?;
    /// watch.push(b"{\"client\":\"a\",\"commit\":200,\"began\":10,\"ended\":14}\n")?;
    /// let kept = watch.keep()?;
    /// let mut watch = Watch::restore(&options, kept.as_bytes())?;
    /// assert_eq!((watch.counts()?.lines, watch.counts()?.kept), (0, 1));
    /// watch.push(b"{\"client\":\"b\",\"read\":100,\"began\":15,\"ended\":16}\n")?;
    /// assert!(watch.end()?);
    /// assert!(watch.text().starts_with("audit fault: Order 2: client \"b\" read 100, but 200 "));
    /// let others = WatchOptions { behind: 11, ..options };
    /// let refused = Watch::restore(&others, kept.as_bytes()).unwrap_err();
    /// assert_eq!(refused, LogError::Refused { line: 1, wrong: Wrong::NotKept });
    /// # Ok::<(), LogError>(())
    /// ```
    pub fn restore(options: &WatchOptions<'_>, kept: &[u8]) -> Result<Watch, LogError> {
        let (key, shown) = (options.key, options.shown);
        let (options, mut handle) = (raw_options(options), sys::FDB_WATCH_NONE);
        let (name, names) = (key.as_ptr(), shown.as_ptr());
        let mut refused = sys::fdb_refused::default();
        // SAFETY: the handle is none, and the lengths are those of the names and the text.
        let status = unsafe {
            sys::fdb_watch_restore(
                &options,
                name,
                key.len(),
                names,
                shown.len(),
                kept.as_ptr(),
                kept.len(),
                &mut handle,
                &mut refused,
            )
        };
        done(status, &refused).map(|()| Watch { handle })
    }

    /// Takes the next bytes of the log, cut anywhere. A line that is refused, also one without times,
    /// is left out, and told by [`warnings`](Watch::warnings) after the next `tell` or `end`.
    ///
    /// # Errors
    /// `Memory`, which ends the watch; `Over` where it was over before.
    pub fn push(&mut self, bytes: &[u8]) -> Result<(), LogError> {
        // SAFETY: the handle is a watch, from `new` to `drop`; the length is that of the bytes.
        taken(unsafe { sys::fdb_watch_push(&mut self.handle, bytes.as_ptr(), bytes.len()) })
    }

    /// Says what has become certain since it said so last, each fault once; that is the text from
    /// then on.
    ///
    /// Where `is_idle` holds, which is always allowed, it looks for it at once, and else, where
    /// more is there to be read, once 8,192 lines came since it last did, and were not refused: at
    /// each call that began more than `behind` before the newest end. A line that comes later and
    /// began as early came early: it is not refused and its version counts, but it is judged only if
    /// it began at most `behind` before that or, with a `key`, before where its own key settled last.
    ///
    /// # Errors
    /// As [`push`](Watch::push); what was said last then stays.
    pub fn tell(&mut self, is_idle: bool) -> Result<String, LogError> {
        // SAFETY: the handle is a watch.
        taken(unsafe { sys::fdb_watch_tell(&mut self.handle, is_idle) })?;
        Ok(self.text())
    }

    /// Says, as the text, what is left where the log ends here, and says whether a fault was told,
    /// at any time. Without one the text is `audit ok`, or `audit early` where lines came early, and
    /// how many lines were not refused, or with `json` empty but for `totals`. The watch is then
    /// over.
    ///
    /// # Errors
    /// `Refused`, where no fault was told and lines were left out, with the last of them, or where
    /// no line came; else `Unjudged`, where none was told and lines came early, with the last of
    /// them: `behind` is too small, or a clock is ahead. Text and warnings are there all the same.
    /// Else as [`push`](Watch::push).
    pub fn end(&mut self) -> Result<bool, LogError> {
        // SAFETY: the handle is a watch.
        ended(|refused| unsafe { sys::fdb_watch_end(&mut self.handle, refused) })
    }

    /// What was said last: a line for each sentence or object.
    #[must_use]
    pub fn text(&mut self) -> String {
        // SAFETY: the handle is a watch, and the length that of the array.
        text(|at, length, size| unsafe { sys::fdb_watch_text(&mut self.handle, at, length, size) })
    }

    /// What came with that: a line for each line that was left out, with its number and why, and for
    /// the first, second, fourth, eighth and so on that came early.
    #[must_use]
    pub fn warnings(&mut self) -> String {
        // SAFETY: the handle is a watch, and the length that of the array.
        text(|at, length, size| unsafe {
            sys::fdb_watch_warnings(&mut self.handle, at, length, size)
        })
    }

    /// The text of what is kept: the lines that may yet come to matter, for
    /// [`restore`](Watch::restore); `fdb_audit --follow --keep` goes on from it too, as a file.
    ///
    /// Ask for it once what was said has been written where it is to go: neither that nor warnings
    /// are said again. A line that has come without its end is not kept, and is to come again.
    ///
    /// # Errors
    /// `Memory`, which leaves the watch as it was; `Over`; `Refused` as `NotKept` with line 0: the text
    /// is read back, and does not say what is kept.
    pub fn keep(&mut self) -> Result<String, LogError> {
        let mut status = sys::FDB_OK;
        let kept = text(|at, length, size| {
            // SAFETY: the handle is a watch, and the length that of the array.
            status = unsafe { sys::fdb_watch_keep(&mut self.handle, at, length, size) };
            status
        });
        taken(status).map(|()| kept)
    }

    /// How far the log has been followed, in constant time.
    ///
    /// # Errors
    /// `Over`.
    pub fn counts(&mut self) -> Result<WatchCounts, LogError> {
        let mut counted = sys::fdb_watch_counted::default();
        // SAFETY: the handle is a watch.
        taken(unsafe { sys::fdb_watch_counts(&mut self.handle, &mut counted) })?;
        Ok(counts_of(&counted))
    }
}

fn counts_of(it: &sys::fdb_watch_counted) -> WatchCounts {
    WatchCounts {
        lines: it.lines,
        reads: it.reads,
        commits: it.commits,
        asks: it.asks,
        reports: it.reports,
        refused: it.refused,
        early: it.early,
        judged: it.judged,
        ahead: it.ahead,
        open: it.open,
        kept: it.kept,
        newest_end: it.newest_end,
        settled_to: it.settled_to,
    }
}
