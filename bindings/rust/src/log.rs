//! The audit of a log of calls.

use crate::audit::Audit;
use fdb_read_version_sys as sys;
use std::error::Error;
use std::fmt;

/// What a line says that was done.
///
/// ```
/// use fdb_read_version::{audit_lines, AuditOptions, Call, Line};
///
/// let line = |client, call| Line { client: Some(client), call, times: None };
/// // A client that learnt what client 1 knew reads below it.
/// let lines = [line(1, Call::Commit(5)), line(2, Call::Learn(1)), line(2, Call::Read(4))];
/// assert_eq!(audit_lines(&lines, &AuditOptions::default())?.len(), 1);
/// # Ok::<(), fdb_read_version::LogError>(())
/// ```
#[derive(Clone, Copy, Debug, PartialEq, Eq, Hash, PartialOrd, Ord)]
#[non_exhaustive]
pub enum Call {
    /// A read got this version.
    Read(u64),
    /// A commit got this version: it was drawn and reported meanwhile.
    Commit(u64),
    /// A commit version was drawn.
    Ask(u64),
    /// A version was reported as committed.
    Report(u64),
    /// From here on the client knows what this one knew by the lines above, of which one is its.
    Learn(u32),
}

/// When a call was made, in any one unit.
///
/// ```
/// use fdb_read_version::{audit_lines, AuditOptions, Call, Line, Times};
///
/// let line = |call, began, ended| Line { client: None, call, times: Some(Times { began, ended }) };
/// // Nobody knows when the commit ended: the read may have been before it.
/// let lines = [line(Call::Commit(200), 10, None), line(Call::Read(100), 15, Some(16))];
/// assert_eq!(audit_lines(&lines, &AuditOptions::default())?, []);
/// # Ok::<(), fdb_read_version::LogError>(())
/// ```
#[derive(Clone, Copy, Debug, PartialEq, Eq, Hash, PartialOrd, Ord)]
pub struct Times {
    /// When it began.
    pub began: u64,
    /// When it ended, where that is known; else it comes before no other call, not of its own client
    /// either.
    pub ended: Option<u64>,
}

/// A line of a log: all have times, or none has.
///
/// ```
/// use fdb_read_version::{audit_lines, AuditOptions, Call, Line, Times};
///
/// let line = |client, call, began, ended| Line {
///     client: Some(client),
///     call,
///     times: Some(Times { began, ended: Some(ended) }),
/// };
/// let lines = [line(1, Call::Commit(200), 10, 14), line(2, Call::Read(100), 15, 16)];
/// assert_eq!(audit_lines(&lines, &AuditOptions::default())?[0].place, 1);
/// # Ok::<(), fdb_read_version::LogError>(())
/// ```
#[derive(Clone, Copy, Debug, PartialEq, Eq, Hash, PartialOrd, Ord)]
pub struct Line {
    /// Whose call it was, by any number; without times it has to be known.
    pub client: Option<u32>,
    /// What was done.
    pub call: Call,
    /// When.
    pub times: Option<Times>,
}

/// What an audit is told beside the log.
///
/// ```
/// use fdb_read_version::{audit_log, AuditOptions};
///
/// let log = br#"{"client":"a","read":7}"#;
/// assert_eq!(audit_log(log, &AuditOptions::default())?, []);
/// // All calls are here, and all began with version 5: nobody reported 7.
/// let options = AuditOptions { complete: Some(5), ..AuditOptions::default() };
/// assert_eq!(audit_log(log, &options)?.len(), 1);
/// // Each register by itself is read at one version alone.
/// let log = br#"{"client":"a","read":7,"register":"x"}
/// {"client":"a","read":6,"register":"y"}"#;
/// let options = AuditOptions { key: "register", ..AuditOptions::default() };
/// assert_eq!(audit_log(log, &AuditOptions::default())?.len(), 1);
/// assert_eq!(audit_log(log, &options)?, []);
/// # Ok::<(), fdb_read_version::LogError>(())
/// ```
#[derive(Clone, Copy, Debug, Default, PartialEq, Eq, Hash, PartialOrd, Ord)]
pub struct AuditOptions<'a> {
    /// The version that all began with, where the log has all calls.
    pub complete: Option<u64>,
    /// How far the clocks of two clients may be apart, in the unit of the times.
    pub margin: u64,
    /// The member that has a line's key, and each key is then judged by itself, as one register;
    /// where it is empty there are no keys. A [`Line`] has no members: this is passed over there.
    pub key: &'a str,
    /// The members that a text has beside each line that it tells, parted by commas, as
    /// `fdb_audit --show` takes them; where it is empty there are none.
    pub shown: &'a str,
}

/// What a text has besides the verdict. `fdb_audit --all` is `all` and `totals`, `--summary` is
/// `totals` alone, and `--json` is `json`, `all` and `totals`.
///
/// ```
/// use fdb_read_version::{audit_log_text, AuditOptions, Wanted};
///
/// let wanted = Wanted { history: true, ..Wanted::default() };
/// let text = audit_log_text(br#"{"client":"a","read":7}"#, &AuditOptions::default(), wanted)?;
/// assert!(text.ends_with("read 7 line 1 client \"a\"\n"));
/// let log = b"{\"client\":\"a\",\"read\":7}\n{\"client\":\"a\",\"read\":6}\n";
/// let wanted = Wanted { totals: true, json: true, ..Wanted::default() };
/// let text = audit_log_text(log, &AuditOptions::default(), wanted)?;
/// assert!(text.starts_with("{\"total\":{\"lines\":2,"));
/// # Ok::<(), fdb_read_version::LogError>(())
/// ```
#[derive(Clone, Copy, Debug, Default, PartialEq, Eq, Hash, PartialOrd, Ord)]
pub struct Wanted {
    /// All faults, and not the first alone.
    pub all: bool,
    /// Of a log without a fault an order that explains it.
    pub history: bool,
    /// Where a fault stands, how much was judged and how many faults there are of each kind;
    /// without `all` these alone. With `json` they come too where none stands.
    pub totals: bool,
    /// JSON objects, one a line, and not sentences.
    pub json: bool,
}

/// What can be wrong with a line; docs/LOG.md says more of each.
///
/// ```
/// use fdb_read_version::{audit_log, AuditOptions, FaultKind};
///
/// let log = br#"{"client":"a","read":2}
/// {"client":"a","read":1}"#;
/// assert_eq!(audit_log(log, &AuditOptions::default())?[0].kind, FaultKind::Order);
/// # Ok::<(), fdb_read_version::LogError>(())
/// ```
#[derive(Clone, Copy, Debug, PartialEq, Eq, Hash, PartialOrd, Ord)]
#[non_exhaustive]
pub enum FaultKind {
    /// A stale read: it is below a version that its caller knew.
    Order,
    /// A read of a version that is not there.
    Wrong,
    /// A version was drawn that is not above all that its caller knew.
    NotAbove,
    /// A version was drawn twice, and not by commits alone.
    Twice,
    /// A report of a version that others drew, or that nobody can have drawn.
    Stray,
}

/// How a version was known, by the places of lines, counted from 0.
///
/// ```
/// use fdb_read_version::{audit_log, AuditOptions, Means, Reason};
///
/// let log = br#"{"client":"a","read":2}
/// {"client":"a","read":1}"#;
/// let reason = Reason::Known { version: 2, means: Means::Own(0) };
/// assert_eq!(audit_log(log, &AuditOptions::default())?[0].reason, reason);
/// # Ok::<(), fdb_read_version::LogError>(())
/// ```
#[derive(Clone, Copy, Debug, PartialEq, Eq, Hash, PartialOrd, Ord)]
#[non_exhaustive]
pub enum Means {
    /// All began with it.
    Start,
    /// The line there had ended by more than the margin before.
    Ended(u32),
    /// The line there is an earlier one of the same client.
    Own(u32),
    /// The client had learnt of a line, by one of its own.
    Learnt {
        /// Of the line that let it be known.
        of: u32,
        /// Of its own line, a [`Call::Learn`], by which it had learnt of that.
        by: u32,
    },
}

/// Why a fault stands, by the places of lines, counted from 0.
///
/// ```
/// use fdb_read_version::{audit_log, AuditOptions, Reason};
///
/// let options = AuditOptions { complete: Some(5), ..AuditOptions::default() };
/// let found = audit_log(br#"{"client":"a","read":7}"#, &options)?;
/// assert_eq!(found[0].reason, Reason::Unreported);
/// # Ok::<(), fdb_read_version::LogError>(())
/// ```
#[derive(Clone, Copy, Debug, PartialEq, Eq, Hash, PartialOrd, Ord)]
#[non_exhaustive]
pub enum Reason {
    /// `Order` and `NotAbove`: the caller knew this version.
    Known {
        /// The version.
        version: u64,
        /// How it was known.
        means: Means,
    },
    /// `Wrong`: no line reports the version.
    Unreported,
    /// `Wrong`: the first line that reports the version knew it before, or a newer one.
    Reported {
        /// Of the line that reports it.
        place: u32,
        /// The version that it knew.
        version: u64,
        /// How it was known.
        means: Means,
    },
    /// `Twice` and `Stray`: the line there drew the version.
    Drawn(u32),
    /// `Stray`: no line drew the version.
    Undrawn,
}

/// By how much a call was late, and the place of the line by which it was, counted from 0.
///
/// ```
/// use fdb_read_version::{audit_log, AuditOptions, Late};
///
/// let log = br#"{"client":"a","commit":200,"began":10,"ended":14}
/// {"client":"b","read":100,"began":30,"ended":31}"#;
/// let options = AuditOptions { margin: 15, ..AuditOptions::default() };
/// assert_eq!(audit_log(log, &options)?[0].late, Some(Late { place: 0, by: 16 }));
/// assert_eq!(audit_log(log, &AuditOptions { margin: 16, ..options })?, []);
/// # Ok::<(), fdb_read_version::LogError>(())
/// ```
#[derive(Clone, Copy, Debug, PartialEq, Eq, Hash, PartialOrd, Ord)]
pub struct Late {
    /// Of the lines that outdate the call, with a newer version than a read's, or one as new as was
    /// drawn, the first to end; where that is the call itself, there is none.
    pub place: u32,
    /// From its end to where the call began, in the unit of the times: the fault stands under each
    /// lesser margin. 0 where it had not ended by then.
    pub by: u64,
}

/// A fault, and why it stands.
///
/// ```
/// use fdb_read_version::{audit_log, AuditOptions, Fault, FaultKind, Means, Reason};
///
/// let log = br#"{"client":"a","read":2}
/// {"client":"a","read":1}"#;
/// let reason = Reason::Known { version: 2, means: Means::Own(0) };
/// let fault = Fault { place: 1, kind: FaultKind::Order, reason, late: None };
/// assert_eq!(audit_log(log, &AuditOptions::default())?, [fault]);
/// # Ok::<(), fdb_read_version::LogError>(())
/// ```
#[derive(Clone, Copy, Debug, PartialEq, Eq, Hash, PartialOrd, Ord)]
pub struct Fault {
    /// The place of the line at which it stands, counted from 0.
    pub place: u32,
    /// What is wrong with it.
    pub kind: FaultKind,
    /// Why.
    pub reason: Reason,
    /// By how much the call was late: of `Order` and `NotAbove` in a log with times, where a line
    /// of another call outdates it.
    pub late: Option<Late>,
}

/// A member of a line.
///
/// ```
/// use fdb_read_version::{audit_log, AuditOptions, LogError, Member, Wrong};
///
/// let refused = LogError::Refused { line: 1, wrong: Wrong::BadMember(Member::Client) };
/// assert_eq!(audit_log(br#"{"read":1}"#, &AuditOptions::default()), Err(refused));
/// ```
#[derive(Clone, Copy, Debug, PartialEq, Eq, Hash, PartialOrd, Ord)]
#[non_exhaustive]
pub enum Member {
    /// Whose call it was.
    Client,
    /// The version of a read.
    Read,
    /// The version of a commit.
    Commit,
    /// A commit version that was drawn.
    Ask,
    /// A version that was reported.
    Report,
    /// From whom was learnt.
    Learn,
    /// When a call began.
    Began,
    /// When it ended.
    Ended,
    /// The key: it has the name that [`AuditOptions`] gives.
    Key,
}

/// What is wrong with a log, or with a line of it.
///
/// ```
/// use fdb_read_version::{audit_log, AuditOptions, LogError, Wrong};
///
/// let refused = audit_log(b"[", &AuditOptions::default()).unwrap_err();
/// assert_eq!(refused, LogError::Refused { line: 1, wrong: Wrong::NotJson });
/// ```
#[derive(Clone, Copy, Debug, PartialEq, Eq, Hash, PartialOrd, Ord)]
#[non_exhaustive]
pub enum Wrong {
    /// A text has no line.
    Empty,
    /// It has more than 1,048,576 bytes.
    TooLong,
    /// There are 4,294,967,295 lines above.
    TooMany,
    /// It is no JSON.
    NotJson,
    /// It names no call.
    NoCall,
    /// It names more than one.
    TwoCalls,
    /// Some lines have times, and some have none.
    SomeTimes,
    /// This member is missing, of another kind, or may not stand there.
    BadMember(Member),
    /// It is not what a [`Watch`](crate::Watch) of these arguments keeps.
    NotKept,
}

/// Why a log is not audited.
///
/// ```
/// use fdb_read_version::{audit_log, AuditOptions};
///
/// let refused = audit_log(b"[", &AuditOptions::default()).unwrap_err();
/// assert_eq!(refused.to_string(), "line 1: it is no JSON");
/// ```
#[derive(Clone, Copy, Debug, PartialEq, Eq, Hash, PartialOrd, Ord)]
#[non_exhaustive]
pub enum LogError {
    /// A line is wrong, or there is none.
    Refused {
        /// The first such line, of the end of a [`Watch`](crate::Watch) the last, counted from 1; 0
        /// for `Wrong::Empty`.
        line: u64,
        /// What is wrong.
        wrong: Wrong,
    },
    /// No fault was told of a log that was watched, but lines came early, and so not all of it was
    /// judged.
    Unjudged {
        /// The last line that came early, counted from 1.
        line: u64,
    },
    /// It has ended or was refused before, or memory was.
    Over,
    /// Memory was refused.
    Memory,
    /// A number that this crate does not know: the library is another one.
    Unknown(u8),
}

impl fmt::Display for Member {
    fn fmt(&self, f: &mut fmt::Formatter<'_>) -> fmt::Result {
        f.write_str(match self {
            Member::Client => "client",
            Member::Read => "read",
            Member::Commit => "commit",
            Member::Ask => "ask",
            Member::Report => "report",
            Member::Learn => "learn",
            Member::Began => "began",
            Member::Ended => "ended",
            Member::Key => "key",
        })
    }
}

impl fmt::Display for Wrong {
    fn fmt(&self, f: &mut fmt::Formatter<'_>) -> fmt::Result {
        f.write_str(match self {
            Wrong::Empty => "the log has no line",
            Wrong::TooLong => "the line is too long",
            Wrong::TooMany => "there are too many lines",
            Wrong::NotJson => "it is no JSON",
            Wrong::NoCall => "it names no call",
            Wrong::TwoCalls => "it names two calls",
            Wrong::SomeTimes => "some lines have times, and some have none",
            Wrong::BadMember(member) => return write!(f, "its member {member} is bad"),
            Wrong::NotKept => "it is not what a watch of these arguments keeps",
        })
    }
}

impl fmt::Display for LogError {
    fn fmt(&self, f: &mut fmt::Formatter<'_>) -> fmt::Result {
        match self {
            LogError::Refused { line: 0, wrong } => write!(f, "{wrong}"),
            LogError::Refused { line, wrong } => write!(f, "line {line}: {wrong}"),
            LogError::Unjudged { line } => write!(f, "not all was judged: line {line} came early"),
            LogError::Over => f.write_str("it is over"),
            LogError::Memory => f.write_str("out of memory"),
            LogError::Unknown(number) => write!(f, "the library answers {number}"),
        }
    }
}

impl Error for LogError {}

fn member_of(number: u8) -> Result<Member, LogError> {
    Ok(match number {
        sys::FDB_CLIENT => Member::Client,
        sys::FDB_READ => Member::Read,
        sys::FDB_COMMIT => Member::Commit,
        sys::FDB_ASK => Member::Ask,
        sys::FDB_REPORT => Member::Report,
        sys::FDB_LEARN => Member::Learn,
        sys::FDB_BEGAN => Member::Began,
        sys::FDB_ENDED => Member::Ended,
        sys::FDB_KEY => Member::Key,
        other => return Err(LogError::Unknown(other)),
    })
}

fn wrong_of(status: u8, refused: &sys::fdb_refused) -> Result<Wrong, LogError> {
    Ok(match status {
        sys::FDB_TOO_LONG => Wrong::TooLong,
        sys::FDB_TOO_MANY => Wrong::TooMany,
        sys::FDB_NOT_JSON => Wrong::NotJson,
        sys::FDB_NO_CALL => Wrong::NoCall,
        sys::FDB_TWO_CALLS => Wrong::TwoCalls,
        sys::FDB_SOME_TIMES => Wrong::SomeTimes,
        sys::FDB_BAD_MEMBER => Wrong::BadMember(member_of(refused.member)?),
        sys::FDB_EMPTY => Wrong::Empty,
        sys::FDB_NOT_KEPT => Wrong::NotKept,
        sys::FDB_UNJUDGED => return Err(LogError::Unjudged { line: refused.line }),
        sys::FDB_OVER => return Err(LogError::Over),
        sys::FDB_MEMORY => return Err(LogError::Memory),
        other => return Err(LogError::Unknown(other)),
    })
}

pub(crate) fn error_of(status: u8, refused: &sys::fdb_refused) -> LogError {
    match wrong_of(status, refused) {
        Ok(wrong) => LogError::Refused { line: refused.line, wrong },
        Err(error) => error,
    }
}

fn raw_line(line: &Line) -> sys::fdb_call {
    let (kind, version, teller) = match line.call {
        Call::Read(version) => (sys::FDB_READ, version, 0),
        Call::Commit(version) => (sys::FDB_COMMIT, version, 0),
        Call::Ask(version) => (sys::FDB_ASK, version, 0),
        Call::Report(version) => (sys::FDB_REPORT, version, 0),
        Call::Learn(teller) => (sys::FDB_LEARN, 0, teller),
    };
    let ended = line.times.and_then(|it| it.ended);
    sys::fdb_call {
        version,
        began: line.times.map_or(0, |it| it.began),
        ended: ended.unwrap_or(0),
        client: line.client.unwrap_or(0),
        teller,
        kind,
        has_client: line.client.is_some(),
        has_times: line.times.is_some(),
        has_ended: ended.is_some(),
    }
}

pub(crate) fn raw_options(options: &AuditOptions<'_>, wanted: Wanted) -> sys::fdb_audit_options {
    sys::fdb_audit_options {
        start: options.complete.unwrap_or(0),
        margin: options.margin,
        complete: options.complete.is_some(),
        all: wanted.all,
        history: wanted.history,
        totals: wanted.totals,
        json: wanted.json,
    }
}

fn means_of(fault: &sys::fdb_fault) -> Result<Means, LogError> {
    Ok(match fault.means {
        sys::FDB_MEANS_START => Means::Start,
        sys::FDB_MEANS_ENDED => Means::Ended(fault.by),
        sys::FDB_MEANS_OWN => Means::Own(fault.by),
        sys::FDB_MEANS_LEARNT => Means::Learnt { of: fault.by, by: fault.learnt },
        other => return Err(LogError::Unknown(other)),
    })
}

fn reason_of(fault: &sys::fdb_fault) -> Result<Reason, LogError> {
    let (place, version) = (fault.other, fault.known);
    Ok(match fault.reason {
        sys::FDB_REASON_KNOWN => Reason::Known { version, means: means_of(fault)? },
        sys::FDB_REASON_UNREPORTED => Reason::Unreported,
        sys::FDB_REASON_REPORTED => Reason::Reported { place, version, means: means_of(fault)? },
        sys::FDB_REASON_DRAWN => Reason::Drawn(place),
        sys::FDB_REASON_UNDRAWN => Reason::Undrawn,
        other => return Err(LogError::Unknown(other)),
    })
}

pub(crate) fn fault_of(fault: &sys::fdb_fault) -> Result<Fault, LogError> {
    let kind = match fault.kind {
        sys::FDB_FAULT_ORDER => FaultKind::Order,
        sys::FDB_FAULT_WRONG => FaultKind::Wrong,
        sys::FDB_FAULT_NOT_ABOVE => FaultKind::NotAbove,
        sys::FDB_FAULT_TWICE => FaultKind::Twice,
        sys::FDB_FAULT_STRAY => FaultKind::Stray,
        other => return Err(LogError::Unknown(other)),
    };
    let late = fault.has_late.then_some(Late { place: fault.first, by: fault.late });
    Ok(Fault { place: fault.place, kind, reason: reason_of(fault)?, late })
}

/// What a call answers that only refuses.
pub(crate) fn done(status: u8, refused: &sys::fdb_refused) -> Result<(), LogError> {
    match status {
        sys::FDB_OK => Ok(()),
        status => Err(error_of(status, refused)),
    }
}

/// What the end of a log answers: whether there is a fault.
pub(crate) fn ended(end: impl FnOnce(&mut sys::fdb_refused) -> u8) -> Result<bool, LogError> {
    let mut refused = sys::fdb_refused::default();
    match end(&mut refused) {
        sys::FDB_FAULT => Ok(true),
        status => done(status, &refused).map(|()| false),
    }
}

/// What a call writes, with as much room as that needs.
fn told<T: Clone + Default>(
    mut room: usize,
    call: impl Fn(&mut [T], &mut u64, &mut sys::fdb_refused) -> u8,
) -> Result<Vec<T>, LogError> {
    loop {
        let (mut found, mut size) = (vec![T::default(); room], 0);
        let mut refused = sys::fdb_refused::default();
        match call(&mut found, &mut size, &mut refused) {
            sys::FDB_OK | sys::FDB_FAULT => {
                found.truncate(size as usize);
                return Ok(found);
            }
            sys::FDB_ROOM => room = size as usize,
            status => return Err(error_of(status, &refused)),
        }
    }
}

/// All that a handle has to write.
pub(crate) fn written<T: Clone + Default>(
    mut call: impl FnMut(*mut T, usize, &mut u64) -> u8,
) -> Vec<T> {
    let (mut found, mut size) = (Vec::new(), 0);
    while call(found.as_mut_ptr(), found.len(), &mut size) == sys::FDB_ROOM {
        found = vec![T::default(); size as usize];
    }
    found
}

fn said(text: Vec<u8>) -> String {
    String::from_utf8(text).expect("a text is UTF-8")
}

/// The text that a handle has to write.
pub(crate) fn text(call: impl FnMut(*mut u8, usize, &mut u64) -> u8) -> String {
    said(written(call))
}

/// What is found of a log of JSON Lines, once, whatever room it needs.
fn found(log: &[u8], options: &AuditOptions<'_>, wanted: Wanted) -> Result<Audit, LogError> {
    let mut audit = Audit::new(options, wanted)?;
    audit.push(log)?;
    audit.end()?;
    Ok(audit)
}

/// All faults of a log of JSON Lines, by line: none exactly where some history explains it, or by
/// key the lines of each.
///
/// # Errors
/// `Refused` for the first line that is wrong or for a text without a line, or `Memory`.
pub fn audit_log(log: &[u8], options: &AuditOptions<'_>) -> Result<Vec<Fault>, LogError> {
    if !options.key.is_empty() {
        return found(log, options, Wanted::default())?.faults();
    }
    let options = raw_options(options, Wanted::default());
    let found = told(64, |found: &mut [sys::fdb_fault], size, refused| {
        let (at, length) = (found.as_mut_ptr(), found.len());
        // SAFETY: the lengths are those of the two.
        unsafe {
            sys::fdb_audit_log_faults(log.as_ptr(), log.len(), &options, at, length, size, refused)
        }
    })?;
    found.iter().map(fault_of).collect()
}

/// What `fdb_audit` prints of a log of JSON Lines.
///
/// # Errors
/// As [`audit_log`].
pub fn audit_log_text(
    log: &[u8],
    options: &AuditOptions<'_>,
    wanted: Wanted,
) -> Result<String, LogError> {
    let has_members = !options.key.is_empty() || !options.shown.is_empty();
    if wanted.all || wanted.history || has_members {
        return Ok(found(log, options, wanted)?.text());
    }
    let options = raw_options(options, wanted);
    let text = told(4096, |text: &mut [u8], size, refused| {
        let (at, length) = (text.as_mut_ptr(), text.len());
        // SAFETY: the lengths are those of the two.
        unsafe {
            sys::fdb_audit_log_text(log.as_ptr(), log.len(), &options, at, length, size, refused)
        }
    })?;
    Ok(said(text))
}

/// All faults of a log with these lines, as [`audit_log`].
///
/// # Errors
/// As [`audit_log`].
pub fn audit_lines(lines: &[Line], options: &AuditOptions<'_>) -> Result<Vec<Fault>, LogError> {
    let given: Vec<sys::fdb_call> = lines.iter().map(raw_line).collect();
    let options = raw_options(options, Wanted::default());
    let found = told(64, |found: &mut [sys::fdb_fault], size, refused| {
        let (from, count) = (given.as_ptr(), given.len());
        let (at, length) = (found.as_mut_ptr(), found.len());
        // SAFETY: the lengths are those of the two.
        unsafe { sys::fdb_audit_calls_faults(from, count, &options, at, length, size, refused) }
    })?;
    found.iter().map(fault_of).collect()
}

/// What `fdb_audit` prints of a log with these lines; it names a client by its number.
///
/// # Errors
/// As [`audit_log`].
pub fn audit_lines_text(
    lines: &[Line],
    options: &AuditOptions<'_>,
    wanted: Wanted,
) -> Result<String, LogError> {
    let given: Vec<sys::fdb_call> = lines.iter().map(raw_line).collect();
    let options = raw_options(options, wanted);
    let text = told(4096, |text: &mut [u8], size, refused| {
        let (from, count) = (given.as_ptr(), given.len());
        let (at, length) = (text.as_mut_ptr(), text.len());
        // SAFETY: the lengths are those of the two.
        unsafe { sys::fdb_audit_calls_text(from, count, &options, at, length, size, refused) }
    })?;
    Ok(said(text))
}

#[cfg(test)]
mod tests {
    use super::*;

    #[test]
    fn numbers_of_refusals() {
        let refused = |member| sys::fdb_refused { line: 77, member };
        for status in 1..=u8::MAX {
            let wrong = match status {
                33 => Wrong::TooLong,
                34 => Wrong::TooMany,
                35 => Wrong::NotJson,
                36 => Wrong::NoCall,
                37 => Wrong::TwoCalls,
                38 => Wrong::SomeTimes,
                39 => Wrong::BadMember(Member::Client),
                40 => Wrong::Empty,
                43 => Wrong::NotKept,
                other => {
                    let wanted = match other {
                        7 => LogError::Memory,
                        41 => LogError::Over,
                        42 => LogError::Unjudged { line: 77 },
                        _ => LogError::Unknown(other),
                    };
                    assert_eq!(error_of(status, &refused(1)), wanted);
                    continue;
                }
            };
            let wanted = LogError::Refused { line: 77, wrong };
            assert_eq!(error_of(status, &refused(1)), wanted);
        }
        let members = [
            (Member::Client, "client"),
            (Member::Read, "read"),
            (Member::Commit, "commit"),
            (Member::Ask, "ask"),
            (Member::Report, "report"),
            (Member::Learn, "learn"),
            (Member::Began, "began"),
            (Member::Ended, "ended"),
            (Member::Key, "key"),
        ];
        for (number, (member, name)) in (1..).zip(members) {
            let wanted = LogError::Refused { line: 77, wrong: Wrong::BadMember(member) };
            assert_eq!(error_of(39, &refused(number)), wanted);
            assert_eq!(wanted.to_string(), format!("line 77: its member {name} is bad"));
        }
        for number in [0, 10] {
            assert_eq!(error_of(39, &refused(number)), LogError::Unknown(number));
        }
    }

    #[test]
    fn numbers_of_faults() {
        let fault = |kind, reason, means| {
            let (known, late, place, other, by, learnt, first) = (1 << 40, 1 << 41, 2, 3, 4, 5, 6);
            let has_late = kind != 2;
            fault_of(&sys::fdb_fault {
                known,
                late,
                place,
                other,
                by,
                learnt,
                first,
                kind,
                reason,
                means,
                has_late,
            })
        };
        let version = 1 << 40;
        let kinds = [
            FaultKind::Order,
            FaultKind::Wrong,
            FaultKind::NotAbove,
            FaultKind::Twice,
            FaultKind::Stray,
        ];
        for (number, kind) in (1..).zip(kinds) {
            let late = (kind != FaultKind::Wrong).then_some(Late { place: 6, by: 1 << 41 });
            let wanted = Fault { place: 2, kind, reason: Reason::Unreported, late };
            assert_eq!(fault(number, 2, 0), Ok(wanted));
        }
        let all = [Means::Start, Means::Ended(4), Means::Own(4), Means::Learnt { of: 4, by: 5 }];
        for (number, means) in (1..).zip(all) {
            let known = Reason::Known { version, means };
            let reported = Reason::Reported { place: 3, version, means };
            assert_eq!(fault(1, 1, number).map(|it| it.reason), Ok(known));
            assert_eq!(fault(1, 3, number).map(|it| it.reason), Ok(reported));
        }
        assert_eq!(fault(1, 4, 0).map(|it| it.reason), Ok(Reason::Drawn(3)));
        assert_eq!(fault(1, 5, 0).map(|it| it.reason), Ok(Reason::Undrawn));
        for (kind, reason, means) in [(6, 2, 0), (0, 2, 0), (1, 6, 0), (1, 0, 0), (1, 1, 5)] {
            assert!(matches!(fault(kind, reason, means), Err(LogError::Unknown(_))));
        }
    }

    #[test]
    fn numbers_of_calls() {
        let calls = [Call::Read(7), Call::Commit(7), Call::Ask(7), Call::Report(7), Call::Learn(7)];
        for (number, call) in (2..).zip(calls) {
            let raw = raw_line(&Line { client: Some(8), call, times: None });
            assert_eq!(
                (raw.kind, raw.client, raw.has_client, raw.has_times),
                (number, 8, true, false)
            );
            let given = if number == 6 { (0, 7) } else { (7, 0) };
            assert_eq!((raw.version, raw.teller), given);
        }
        for (ended, given) in [(None, (9, 0, true, false)), (Some(10), (9, 10, true, true))] {
            let times = Some(Times { began: 9, ended });
            let raw = raw_line(&Line { client: None, call: calls[0], times });
            assert_eq!((raw.began, raw.ended, raw.has_times, raw.has_ended), given);
            assert!(!raw.has_client);
        }
        for (number, complete) in [None, Some(0), Some(1 << 41), None].into_iter().enumerate() {
            let [all, history, totals, json] = [0, 1, 2, 3].map(|it| it == number);
            let options = AuditOptions { complete, margin: 1 << 40, ..AuditOptions::default() };
            let raw = raw_options(&options, Wanted { all, history, totals, json });
            assert_eq!((raw.complete, raw.start), (complete.is_some(), complete.unwrap_or(0)));
            assert_eq!(raw.margin, 1 << 40);
            assert_eq!((raw.all, raw.history, raw.totals, raw.json), (all, history, totals, json));
        }
    }
}
