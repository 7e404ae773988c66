//! The chain of commit versions.

use crate::handle::has_handle;
use fdb_read_version_sys as sys;
use std::error::Error;
use std::fmt;

/// A commit proxy's request for a commit version.
///
/// ```
/// use fdb_read_version::{answers, Ask};
///
/// let asks = [1, 2].map(|num| Ask { proxy: 0, num, processed: 0, at: 5 });
/// let versions: Vec<u64> =
///     answers(100, 200, 1, &asks)?.into_iter().flatten().map(|it| it.version).collect();
/// assert_eq!(versions, [200, 201]);
/// # Ok::<(), fdb_read_version::ChainError>(())
/// ```
#[derive(Clone, Copy, Debug, Default, PartialEq, Eq, Hash, PartialOrd, Ord)]
pub struct Ask {
    /// The commit proxy, from 0 on.
    pub proxy: u32,
    /// The request's number among those of its proxy, from 1 on.
    pub num: u64,
    /// The number up to which the proxy has processed its answers.
    pub processed: u64,
    /// The moment, in microseconds.
    pub at: u64,
}

/// A commit version.
///
/// ```
/// use fdb_read_version::{Ask, Chain};
///
/// let mut chain = Chain::new(100, 200, 1)?;
/// let first = chain.ask(Ask { proxy: 0, num: 1, processed: 0, at: 5 })?;
/// assert_eq!((first.prev, first.version, first.ordinal, first.fresh), (100, 200, 0, true));
/// # Ok::<(), fdb_read_version::ChainError>(())
/// ```
#[derive(Clone, Copy, Debug, PartialEq, Eq, Hash, PartialOrd, Ord)]
pub struct Issued {
    /// Its place in the chain, from 0 on.
    pub ordinal: u64,
    /// The commit proxy that it was issued to.
    pub proxy: u32,
    /// The number of the request.
    pub num: u64,
    /// What the request that drew it said is processed.
    pub processed: u64,
    /// The version before.
    pub prev: u64,
    /// The version.
    pub version: u64,
    /// The moment of the request that drew it.
    pub at: u64,
    /// Whether this request drew it; else its kept answer came again.
    pub fresh: bool,
}

/// Why a chain is not opened, or a request not answered.
///
/// ```
/// use fdb_read_version::{Chain, ChainError};
///
/// assert_eq!(Chain::new(100, 100, 1).unwrap_err(), ChainError::BadEpoch);
/// assert_eq!(Chain::new(100, 200, 0).unwrap_err(), ChainError::NoProxy);
/// ```
#[derive(Clone, Copy, Debug, PartialEq, Eq, Hash, PartialOrd, Ord)]
#[non_exhaustive]
pub enum ChainError {
    /// The recovery version is not above the epoch's end, or is 2^63 or more.
    BadEpoch,
    /// There are not 1 to 64 commit proxies.
    NoProxy,
    /// There is no such commit proxy.
    UnknownProxy,
    /// The number is beyond the proxy's next one.
    Early {
        /// The next one.
        expected: u64,
    },
    /// The answer is not kept any more.
    Forgotten,
    /// The versions are used up: it would be 2^63 or more.
    Exhausted,
    /// Memory was refused.
    Memory,
    /// A status that this crate does not know: the library is another one.
    Unknown(u8),
}

impl fmt::Display for ChainError {
    fn fmt(&self, f: &mut fmt::Formatter<'_>) -> fmt::Result {
        match self {
            ChainError::BadEpoch => f.write_str("the recovery version is out of range"),
            ChainError::NoProxy => f.write_str("the number of commit proxies is out of range"),
            ChainError::UnknownProxy => f.write_str("there is no such commit proxy"),
            ChainError::Early { expected } => write!(f, "{expected} is the next number"),
            ChainError::Forgotten => f.write_str("the answer is not kept any more"),
            ChainError::Exhausted => f.write_str("the versions are used up"),
            ChainError::Memory => f.write_str("out of memory"),
            ChainError::Unknown(status) => write!(f, "the library answers {status}"),
        }
    }
}

impl Error for ChainError {}

fn error_of(status: u8, expected: u64) -> ChainError {
    match status {
        sys::FDB_BAD_EPOCH => ChainError::BadEpoch,
        sys::FDB_NO_PROXY => ChainError::NoProxy,
        sys::FDB_UNKNOWN_PROXY => ChainError::UnknownProxy,
        sys::FDB_EARLY => ChainError::Early { expected },
        sys::FDB_FORGOTTEN => ChainError::Forgotten,
        sys::FDB_EXHAUSTED => ChainError::Exhausted,
        sys::FDB_MEMORY => ChainError::Memory,
        other => ChainError::Unknown(other),
    }
}

fn raw_ask(ask: &Ask) -> sys::fdb_ask {
    sys::fdb_ask { num: ask.num, processed: ask.processed, at: ask.at, proxy: ask.proxy }
}

fn answer_of(answer: &sys::fdb_answer) -> Result<Issued, ChainError> {
    if answer.status != sys::FDB_OK {
        return Err(error_of(answer.status, answer.num));
    }
    Ok(Issued {
        ordinal: answer.ordinal,
        proxy: answer.proxy,
        num: answer.num,
        processed: answer.processed,
        prev: answer.prev,
        version: answer.version,
        at: answer.at,
        fresh: answer.fresh,
    })
}

/// The commit versions of an epoch, as the sequencer issues them.
///
/// ```
/// use fdb_read_version::{Ask, Chain, ChainError};
///
/// let mut chain = Chain::new(100, 200, 2)?;
/// let ask = Ask { proxy: 0, num: 1, processed: 0, at: 5 };
/// let (first, again) = (chain.ask(ask)?, chain.ask(ask)?);
/// assert_eq!((first.version, again.version, again.fresh), (200, 200, false));
/// assert_eq!(chain.ask(Ask { num: 7, ..ask }), Err(ChainError::Early { expected: 2 }));
/// # Ok::<(), ChainError>(())
/// ```
pub struct Chain {
    handle: sys::fdb_chain,
}

has_handle!(Chain, sys::fdb_chain_free);

impl Chain {
    /// A chain with no answers yet, for an epoch that comes after one which ended with version
    /// `epoch_end`, begins with `recovery` and has this many commit proxies, 1 to 64.
    ///
    /// # Errors
    /// `BadEpoch`, `NoProxy` or `Memory`, the first that stands.
    pub fn new(epoch_end: u64, recovery: u64, proxies: u32) -> Result<Chain, ChainError> {
        let mut handle = sys::FDB_CHAIN_NONE;
        // SAFETY: the handle is none.
        match unsafe { sys::fdb_chain_new(epoch_end, recovery, proxies, &mut handle) } {
            sys::FDB_OK => Ok(Chain { handle }),
            status => Err(error_of(status, 0)),
        }
    }

    /// Answers a request; a refused one leaves the chain as it was.
    ///
    /// One with its proxy's next number draws the next version; one whose answer is kept gets it
    /// again, not `fresh`, which changes nothing. The first version is the recovery version. Each
    /// other is above the one before by the microseconds from the request that drew that one to
    /// this, by 1 at least and 5,000,000 at most: by 1 where this moment is the earlier one, from
    /// which the next step then counts. A request that draws lets the answers of its proxy that are
    /// kept, up to its `processed`, go, never its own: these numbers are then forgotten, as 0
    /// always is.
    ///
    /// # Errors
    /// `UnknownProxy`, `Early`, `Forgotten`, `Exhausted` or `Memory`, the first that stands.
    pub fn ask(&mut self, ask: Ask) -> Result<Issued, ChainError> {
        let mut answer = sys::fdb_answer::default();
        // SAFETY: the handle is a chain, from `new` to `drop`.
        match unsafe { sys::fdb_chain_ask(&mut self.handle, &raw_ask(&ask), &mut answer) } {
            sys::FDB_OK => answer_of(&answer),
            status => Err(error_of(status, answer.num)),
        }
    }
}

/// The answers of a new chain to these requests, in order.
///
/// # Errors
/// As [`Chain::new`]; `Memory` also where a request was refused for memory.
pub fn answers(
    epoch_end: u64,
    recovery: u64,
    proxies: u32,
    asks: &[Ask],
) -> Result<Vec<Result<Issued, ChainError>>, ChainError> {
    let given: Vec<sys::fdb_ask> = asks.iter().map(raw_ask).collect();
    let mut found = vec![sys::fdb_answer::default(); given.len()];
    // SAFETY: the lengths are those of the two.
    let status = unsafe {
        sys::fdb_chain_answers(
            epoch_end,
            recovery,
            proxies,
            given.as_ptr(),
            given.len(),
            found.as_mut_ptr(),
            found.len(),
        )
    };
    if status != sys::FDB_OK {
        return Err(error_of(status, 0));
    }
    Ok(found.iter().map(answer_of).collect())
}

#[cfg(test)]
mod tests {
    use super::*;

    #[test]
    fn numbers() {
        let named = [
            ChainError::BadEpoch,
            ChainError::NoProxy,
            ChainError::UnknownProxy,
            ChainError::Early { expected: 77 },
            ChainError::Forgotten,
            ChainError::Exhausted,
            ChainError::Memory,
        ];
        for status in 1..=u8::MAX {
            let unknown = ChainError::Unknown(status);
            let wanted = named.get(usize::from(status) - 1).unwrap_or(&unknown);
            assert_eq!(error_of(status, 77), *wanted);
        }
    }
}
