//! The queue of a GRV proxy.

use crate::handle::has_handle;
use fdb_read_version_sys as sys;
use std::error::Error;
use std::fmt;

/// The most requests that one window starts.
const MOST_STARTED: u64 = 10_000;

/// No rate holds the first, the normal rate the second, both rates the third.
///
/// ```
/// use fdb_read_version::Priority;
///
/// assert!(Priority::System < Priority::Default && Priority::Default < Priority::Batch);
/// ```
#[derive(Clone, Copy, Debug, PartialEq, Eq, Hash, PartialOrd, Ord)]
pub enum Priority {
    /// `IMMEDIATE`.
    System = 0,
    /// `DEFAULT`.
    Default = 1,
    /// `BATCH`.
    Batch = 2,
}

/// The most requests that wait, and the rates: how many transactions a window may start beside what
/// the rate's budget has, which gains as many in two seconds.
///
/// ```
/// use fdb_read_version::{GrvQueue, QueueConfig, QueueError};
///
/// let config = QueueConfig { normal: 100, batch: 10, room: 50 };
/// assert!(GrvQueue::new(config).is_ok());
/// let none = QueueConfig { room: 0, ..config };
/// assert_eq!(GrvQueue::new(none).unwrap_err(), QueueError::BadConfig);
/// ```
#[derive(Clone, Copy, Debug, PartialEq, Eq, Hash, PartialOrd, Ord)]
pub struct QueueConfig {
    /// 1 to 100,000.
    pub normal: u64,
    /// 0 to 100,000.
    pub batch: u64,
    /// 1 to 100,000.
    pub room: u64,
}

/// A request for a read version.
///
/// ```
/// use fdb_read_version::{GrvQueue, Priority, QueueConfig, Request};
///
/// let mut queue = GrvQueue::new(QueueConfig { normal: 10, batch: 5, room: 2 })?;
/// let request = Request { priority: Priority::Default, count: 3, payload: 17 };
/// queue.offer(request)?;
/// assert_eq!(queue.pop(), Some(request));
/// # Ok::<(), fdb_read_version::QueueError>(())
/// ```
#[derive(Clone, Copy, Debug, PartialEq, Eq, Hash, PartialOrd, Ord)]
pub struct Request {
    /// The list that it waits in, and the rates that hold it.
    pub priority: Priority,
    /// How many transactions it starts: 1 to 100,000; of a batch request at most `normal` + 10.
    pub count: u64,
    /// What it carries.
    pub payload: u64,
}

/// The budgets, of which 2,000,000 are a transaction, and how many requests wait.
///
/// ```
/// use fdb_read_version::{GrvQueue, Priority, QueueConfig, Request, State};
///
/// let mut queue = GrvQueue::new(QueueConfig { normal: 10, batch: 5, room: 2 })?;
/// let request = Request { priority: Priority::Batch, count: 3, payload: 17 };
/// assert_eq!(queue.offer(request)?.state, State { normal: 0, batch: 0, waits: [0, 0, 1] });
/// # Ok::<(), fdb_read_version::QueueError>(())
/// ```
#[derive(Clone, Copy, Debug, PartialEq, Eq, Hash, PartialOrd, Ord)]
pub struct State {
    /// The budget of the normal rate.
    pub normal: u64,
    /// The budget of the batch rate.
    pub batch: u64,
    /// How many system, default and batch requests wait.
    pub waits: [u64; 3],
}

/// What came of an operation, and what the queue then is.
///
/// ```
/// use fdb_read_version::{GrvQueue, Priority, QueueConfig, Request};
///
/// let mut queue = GrvQueue::new(QueueConfig { normal: 10, batch: 5, room: 2 })?;
/// let request = |priority, payload| Request { priority, count: 1, payload };
/// queue.offer(request(Priority::Batch, 1))?;
/// queue.offer(request(Priority::Batch, 2))?;
/// let pushed = queue.offer(request(Priority::System, 3))?;
/// assert_eq!(pushed.out, Some(request(Priority::Batch, 1)));
/// let started = queue.window(1_000_000)?.started;
/// assert_eq!(started, [request(Priority::System, 3), request(Priority::Batch, 2)]);
/// # Ok::<(), fdb_read_version::QueueError>(())
/// ```
#[derive(Clone, Debug, PartialEq, Eq, Hash, PartialOrd, Ord)]
pub struct Outcome {
    /// The queue.
    pub state: State,
    /// The requests that a window started, in order.
    pub started: Vec<Request>,
    /// The request that was pushed out or taken out.
    pub out: Option<Request>,
}

/// A batch request that new rates turned away.
///
/// ```
/// use fdb_read_version::{GrvQueue, Priority, QueueConfig, QueueError, Request, TurnedAway};
///
/// let mut queue = GrvQueue::new(QueueConfig { normal: 10, batch: 5, room: 2 })?;
/// let request = Request { priority: Priority::Batch, count: 3, payload: 17 };
/// queue.offer(request)?;
/// let gone = TurnedAway { cause: QueueError::BatchThrottled, request };
/// assert_eq!(queue.set_rates(10, 0)?, [gone]);
/// # Ok::<(), fdb_read_version::QueueError>(())
/// ```
#[derive(Clone, Copy, Debug, PartialEq, Eq, Hash, PartialOrd, Ord)]
pub struct TurnedAway {
    /// What a new queue of these rates would refuse it for: `BadCount` or `BatchThrottled`.
    pub cause: QueueError,
    /// The request.
    pub request: Request,
}

/// The throttle of a tag.
///
/// ```
/// use fdb_read_version::{GrvQueue, Limit, Priority, QueueConfig};
///
/// let mut queue = GrvQueue::new(QueueConfig { normal: 10, batch: 5, room: 2 })?;
/// let limit = Limit { rate: 9, expires: 50 };
/// queue.set_throttle(Priority::Default, b"tag", limit)?;
/// assert_eq!(queue.throttle(Priority::Default, b"tag", 49)?, Some(limit));
/// assert_eq!(queue.throttle(Priority::Default, b"tag", 50)?, None);
/// # Ok::<(), fdb_read_version::QueueError>(())
/// ```
#[derive(Clone, Copy, Debug, PartialEq, Eq, Hash, PartialOrd, Ord)]
pub struct Limit {
    /// Transactions per second.
    pub rate: u64,
    /// The moment from which on it holds no longer, in microseconds.
    pub expires: u64,
}

/// An operation, for [`outcomes`].
///
/// ```
/// use fdb_read_version::{outcomes, Op, Priority, QueueConfig, Request};
///
/// let request = Request { priority: Priority::Default, count: 3, payload: 17 };
/// let ops = [Op::Offer(request), Op::Window(1_000_000), Op::Pop];
/// let all = outcomes(QueueConfig { normal: 10, batch: 5, room: 2 }, &ops)?;
/// assert_eq!(all[1].as_ref().map(|it| it.started.as_slice()), Ok(&[request][..]));
/// assert_eq!(all[2].as_ref().map(|it| it.out), Ok(None));
/// # Ok::<(), fdb_read_version::QueueError>(())
/// ```
#[derive(Clone, Copy, Debug, PartialEq, Eq, Hash, PartialOrd, Ord)]
#[non_exhaustive]
pub enum Op {
    /// A request is offered.
    Offer(Request),
    /// A window is held, so many microseconds (1 to 10,000,000) after the last one.
    Window(u64),
    /// The first request of the row is taken out.
    Pop,
}

/// Why a queue is not made, a request not let in, or a window not held.
///
/// ```
/// use fdb_read_version::{GrvQueue, QueueConfig, QueueError};
///
/// let mut queue = GrvQueue::new(QueueConfig { normal: 10, batch: 5, room: 2 })?;
/// assert_eq!(queue.window(0), Err(QueueError::BadConfig));
/// # Ok::<(), fdb_read_version::QueueError>(())
/// ```
#[derive(Clone, Copy, Debug, PartialEq, Eq, Hash, PartialOrd, Ord)]
#[non_exhaustive]
pub enum QueueError {
    /// The configuration, or the time since the last window, is out of range.
    BadConfig,
    /// The count is out of range.
    BadCount,
    /// No batch request is let in.
    BatchThrottled,
    /// The queue is full of requests that this one may not push out.
    Full,
    /// The tag has more than 16 bytes.
    TagTooLong,
    /// Memory was refused.
    Memory,
    /// A status that this crate does not know: the library is another one.
    Unknown(u8),
}

impl fmt::Display for QueueError {
    fn fmt(&self, f: &mut fmt::Formatter<'_>) -> fmt::Result {
        f.write_str(match self {
            QueueError::BadConfig => "the configuration, or the time, is out of range",
            QueueError::BadCount => "the request's count is out of range",
            QueueError::BatchThrottled => "batch requests are not let in",
            QueueError::Full => "the queue is full",
            QueueError::TagTooLong => "the tag is too long",
            QueueError::Memory => "out of memory",
            QueueError::Unknown(status) => return write!(f, "the library answers {status}"),
        })
    }
}

impl Error for QueueError {}

fn error_of(status: u8) -> QueueError {
    match status {
        sys::FDB_BAD_CONFIG => QueueError::BadConfig,
        sys::FDB_BAD_COUNT => QueueError::BadCount,
        sys::FDB_BATCH_THROTTLED => QueueError::BatchThrottled,
        sys::FDB_FULL => QueueError::Full,
        sys::FDB_TAG_TOO_LONG => QueueError::TagTooLong,
        sys::FDB_MEMORY => QueueError::Memory,
        other => QueueError::Unknown(other),
    }
}

fn raw_config(config: &QueueConfig) -> sys::fdb_queue_config {
    sys::fdb_queue_config { normal: config.normal, batch: config.batch, room: config.room }
}

fn raw_request(request: &Request) -> sys::fdb_request {
    sys::fdb_request {
        count: request.count,
        payload: request.payload,
        priority: request.priority as u8,
    }
}

fn raw_op(op: &Op) -> sys::fdb_op {
    match op {
        Op::Offer(request) => sys::fdb_op {
            amount: request.count,
            payload: request.payload,
            kind: sys::FDB_OP_OFFER,
            priority: request.priority as u8,
        },
        Op::Window(elapsed) => {
            sys::fdb_op { amount: *elapsed, kind: sys::FDB_OP_WINDOW, ..sys::fdb_op::default() }
        }
        Op::Pop => sys::fdb_op { kind: sys::FDB_OP_POP, ..sys::fdb_op::default() },
    }
}

fn request_of(request: &sys::fdb_request) -> Request {
    let priority = match request.priority {
        sys::FDB_SYSTEM => Priority::System,
        sys::FDB_DEFAULT => Priority::Default,
        sys::FDB_BATCH => Priority::Batch,
        other => unreachable!("a queue gives back what it was given, and not priority {other}"),
    };
    Request { priority, count: request.count, payload: request.payload }
}

fn turned_away_of(gone: &sys::fdb_turned_away) -> TurnedAway {
    TurnedAway { cause: error_of(gone.cause), request: request_of(&gone.request) }
}

fn outcome_of(
    outcome: &sys::fdb_outcome,
    started: &[sys::fdb_request],
) -> Result<Outcome, QueueError> {
    if outcome.status != sys::FDB_OK {
        return Err(error_of(outcome.status));
    }
    Ok(Outcome {
        state: State {
            normal: outcome.normal,
            batch: outcome.batch,
            waits: [outcome.system_waits, outcome.default_waits, outcome.batch_waits],
        },
        started: started.iter().map(request_of).collect(),
        out: outcome.has_out.then(|| request_of(&outcome.out)),
    })
}

/// The requests that wait at a GRV proxy, and the budgets by which they start.
///
/// The *row* is all that wait, in the order in which they start: the system requests, then the
/// default ones, then the batch ones, each as they came. A throttle is kept for its tag, and changes
/// nothing of what starts.
///
/// ```
/// use fdb_read_version::{GrvQueue, Priority, QueueConfig, Request};
///
/// let mut queue = GrvQueue::new(QueueConfig { normal: 10, batch: 5, room: 2 })?;
/// let request = Request { priority: Priority::Default, count: 30, payload: 17 };
/// queue.offer(request)?;
/// // A window lets 10 transactions start, and each second grants 5 to the budget.
/// assert_eq!(queue.waits(1_000_000), Some(4));
/// # Ok::<(), fdb_read_version::QueueError>(())
/// ```
pub struct GrvQueue {
    handle: sys::fdb_queue,
    started: Vec<sys::fdb_request>,
    // (as long as the most that waited for batch at new rates)
    turned_away: Vec<sys::fdb_turned_away>,
}

has_handle!(GrvQueue, sys::fdb_queue_free);

impl GrvQueue {
    /// A queue in which nothing waits, with budgets of 0.
    ///
    /// # Errors
    /// `BadConfig` or `Memory`.
    pub fn new(config: QueueConfig) -> Result<GrvQueue, QueueError> {
        let mut handle = sys::FDB_QUEUE_NONE;
        // SAFETY: the handle is none.
        match unsafe { sys::fdb_queue_new(&raw_config(&config), &mut handle) } {
            sys::FDB_OK => {
                let room = config.room.min(MOST_STARTED) as usize;
                let started = vec![sys::fdb_request::default(); room];
                Ok(GrvQueue { handle, started, turned_away: Vec::new() })
            }
            status => Err(error_of(status)),
        }
    }

    /// Lets a request in; where the queue is full, `out` is who is pushed out: the oldest of a lower
    /// priority, batch requests first. A refused one leaves the queue as it was.
    ///
    /// # Errors
    /// `BadCount`, `BatchThrottled`, `Full` or `Memory`, the first that stands.
    pub fn offer(&mut self, request: Request) -> Result<Outcome, QueueError> {
        let mut outcome = sys::fdb_outcome::default();
        let given = raw_request(&request);
        // SAFETY: the handle is a queue, from `new` to `drop`.
        match unsafe { sys::fdb_queue_offer(&mut self.handle, &given, &mut outcome) } {
            sys::FDB_OK => outcome_of(&outcome, &[]),
            status => Err(error_of(status)),
        }
    }

    /// Holds a window, `elapsed` microseconds (1 to 10,000,000) after the last one. A refused one
    /// leaves the queue as it was.
    ///
    /// It starts the first requests of the row, up to the first that may not start, and 10,000 at
    /// most. Let `sum` be the transactions of a request and of all that start before it in this
    /// window. A system request may always start; a default one where the normal rate lets it, and a
    /// batch one where both do. A rate does where
    ///
    /// ```text
    /// sum * 2_000_000 <= rate * 2_000_000 + budget   and   sum <= 100_000
    /// ```
    ///
    /// Then a rate's budget becomes `budget + elapsed * (rate - paid)`, where `paid` are the
    /// transactions that started: for the batch rate all, for the normal rate those of system and
    /// default requests. It is 0 where that is below 0, and at most 100,000 transactions, or 10 where
    /// no request waits any more that this rate would pay for.
    ///
    /// # Errors
    /// `BadConfig`, for a time out of range, or `Memory`.
    pub fn window(&mut self, elapsed: u64) -> Result<Outcome, QueueError> {
        let mut outcome = sys::fdb_outcome::default();
        let (started, room) = (self.started.as_mut_ptr(), self.started.len());
        // SAFETY: the handle is a queue, and the length is that of the list.
        let status = unsafe {
            sys::fdb_queue_window(&mut self.handle, elapsed, &mut outcome, started, room)
        };
        match status {
            sys::FDB_OK => outcome_of(&outcome, &self.started[..outcome.started as usize]),
            status => Err(error_of(status)),
        }
    }

    /// Sets the two rates, as in [`QueueConfig`], from the next window on; the capacity, the budgets
    /// and the throttles stay. It gives the batch requests that wait and that a new queue of these
    /// rates would refuse, in order; all others wait on. Refused, it leaves the queue as it was.
    ///
    /// # Errors
    /// `BadConfig`, for a rate out of range, or `Memory`.
    pub fn set_rates(&mut self, normal: u64, batch: u64) -> Result<Vec<TurnedAway>, QueueError> {
        let mut size = 0;
        let mut status = self.rates_set(normal, batch, &mut size);
        if status == sys::FDB_ROOM {
            self.turned_away.resize(size as usize, sys::fdb_turned_away::default());
            status = self.rates_set(normal, batch, &mut size);
        }
        match status {
            sys::FDB_OK => {
                Ok(self.turned_away[..size as usize].iter().map(turned_away_of).collect())
            }
            status => Err(error_of(status)),
        }
    }

    fn rates_set(&mut self, normal: u64, batch: u64, size: &mut u64) -> u8 {
        let (turned_away, room) = (self.turned_away.as_mut_ptr(), self.turned_away.len());
        // SAFETY: the handle is a queue, and the length is that of the list.
        unsafe {
            sys::fdb_queue_set_rates(&mut self.handle, normal, batch, turned_away, room, size)
        }
    }

    /// How many windows of `elapsed` microseconds start nothing before one starts the first of the
    /// row, where that one waits for its own rate alone. It does not in an empty row, for a system
    /// request, for a batch one that the normal rate may hold or whose own rate is 0, and for a time
    /// out of range.
    pub fn waits(&mut self, elapsed: u64) -> Option<u64> {
        let mut windows = 0;
        // SAFETY: the handle is a queue.
        let told = unsafe { sys::fdb_queue_waits(&mut self.handle, elapsed, &mut windows) };
        told.then_some(windows)
    }

    /// Sets the throttle of a tag, of at most 16 bytes, at a priority, in the place of an older one.
    /// A refused one leaves the queue as it was.
    ///
    /// # Errors
    /// `TagTooLong` or `Memory`.
    pub fn set_throttle(
        &mut self,
        priority: Priority,
        tag: &[u8],
        limit: Limit,
    ) -> Result<(), QueueError> {
        // SAFETY: the handle is a queue, and the length is that of the tag.
        let status = unsafe {
            sys::fdb_queue_set_throttle(
                &mut self.handle,
                priority as u8,
                tag.as_ptr(),
                tag.len(),
                limit.rate,
                limit.expires,
            )
        };
        match status {
            sys::FDB_OK => Ok(()),
            status => Err(error_of(status)),
        }
    }

    /// The throttle of a tag at a priority that holds at a moment, in microseconds, if there is one.
    ///
    /// # Errors
    /// `Memory`.
    pub fn throttle(
        &mut self,
        priority: Priority,
        tag: &[u8],
        at: u64,
    ) -> Result<Option<Limit>, QueueError> {
        let mut found = sys::fdb_limit::default();
        // SAFETY: the handle is a queue, and the length is that of the tag.
        let status = unsafe {
            sys::fdb_queue_throttle(
                &mut self.handle,
                priority as u8,
                tag.as_ptr(),
                tag.len(),
                at,
                &mut found,
            )
        };
        match status {
            sys::FDB_OK => {
                Ok(found.holds.then_some(Limit { rate: found.rate, expires: found.expires }))
            }
            status => Err(error_of(status)),
        }
    }

    /// Forgets each throttle that expires at this moment, in microseconds, or before: from it on
    /// all answers are as if none were forgotten.
    pub fn forget_throttles(&mut self, at: u64) {
        // SAFETY: the handle is a queue.
        unsafe { sys::fdb_queue_forget_throttles(&mut self.handle, at) }
    }

    /// Takes the first request of the row out, whatever the rates say of it; the budgets stay.
    pub fn pop(&mut self) -> Option<Request> {
        let mut outcome = sys::fdb_outcome::default();
        // SAFETY: the handle is a queue.
        unsafe { sys::fdb_queue_pop(&mut self.handle, &mut outcome) };
        outcome.has_out.then(|| request_of(&outcome.out))
    }
}

/// The outcomes of these operations on a new queue, in order.
///
/// # Errors
/// `BadConfig` where the configuration is out of range, or `Memory`.
pub fn outcomes(
    config: QueueConfig,
    ops: &[Op],
) -> Result<Vec<Result<Outcome, QueueError>>, QueueError> {
    let given: Vec<sys::fdb_op> = ops.iter().map(raw_op).collect();
    let mut found = vec![sys::fdb_outcome::default(); given.len()];
    // (no more start than are offered)
    let mut started = vec![sys::fdb_request::default(); given.len()];
    let mut size = 0;
    // SAFETY: the lengths are those of the lists.
    let status = unsafe {
        sys::fdb_queue_outcomes(
            &raw_config(&config),
            given.as_ptr(),
            given.len(),
            found.as_mut_ptr(),
            found.len(),
            started.as_mut_ptr(),
            started.len(),
            &mut size,
        )
    };
    if status != sys::FDB_OK {
        return Err(error_of(status));
    }
    let mut rest = &started[..size as usize];
    let mut made = Vec::with_capacity(found.len());
    for outcome in &found {
        let (own, others) = rest.split_at(outcome.started as usize);
        made.push(outcome_of(outcome, own));
        rest = others;
    }
    Ok(made)
}

#[cfg(test)]
mod tests {
    use super::*;

    #[test]
    fn numbers() {
        for status in 1..=u8::MAX {
            let wanted = match status {
                7 => QueueError::Memory,
                17 => QueueError::BadConfig,
                18 => QueueError::BadCount,
                19 => QueueError::BatchThrottled,
                20 => QueueError::Full,
                21 => QueueError::TagTooLong,
                other => QueueError::Unknown(other),
            };
            assert_eq!(error_of(status), wanted);
        }
        for (number, priority) in
            [(0, Priority::System), (1, Priority::Default), (2, Priority::Batch)]
        {
            let request = Request { priority, count: 3, payload: 4 };
            let raw = sys::fdb_request { count: 3, payload: 4, priority: number };
            assert_eq!(request_of(&raw), request);
            assert_eq!(raw_request(&request).priority, number);
            assert_eq!(raw_op(&Op::Offer(request)).priority, number);
        }
        let ops = [Op::Offer(request_of(&sys::fdb_request::default())), Op::Window(5), Op::Pop];
        assert_eq!(ops.map(|it| raw_op(&it).kind), [0, 1, 2]);
    }
}
