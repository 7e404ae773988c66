//! The chain of commit versions, and the answers that are kept for repeated requests.

use std::collections::VecDeque;

pub const MAX_VERSION: u64 = i64::MAX as u64;
pub const MAX_STEP: u64 = 5_000_000;

#[derive(Clone, Copy)]
pub struct Ask {
    pub proxy: u32,
    pub num: u64,
    pub processed: u64,
    pub at: u64,
}

#[derive(Clone, Copy, Debug, PartialEq, Eq)]
pub struct Issued {
    pub ordinal: u64,
    pub proxy: u32,
    pub num: u64,
    pub processed: u64,
    pub prev: u64,
    pub version: u64,
    pub at: u64,
    pub fresh: bool,
}

#[derive(Clone, Copy, Debug, PartialEq, Eq)]
#[allow(dead_code)]
pub enum ChainError {
    UnknownProxy,
    Early { expected: u64 },
    Forgotten,
    Exhausted,
}

/// The answers that are kept for a proxy. Those up to number `erased` are gone.
#[derive(Default)]
struct Replies {
    kept: VecDeque<Issued>,
    erased: u64,
}

impl Replies {
    fn latest(&self) -> u64 {
        self.erased + self.kept.len() as u64
    }

    fn reply(&self, num: u64) -> Option<Issued> {
        if num <= self.erased {
            return None;
        }
        self.kept.get((num - self.erased - 1) as usize).copied()
    }

    fn keep(&mut self, issued: Issued) {
        while self.erased < issued.processed && self.kept.pop_front().is_some() {
            self.erased += 1;
        }
        self.kept.push_back(issued);
    }
}

pub struct Chain {
    epoch_end: u64,
    recovery: u64,
    last: Option<Issued>,
    replies: Vec<Replies>,
}

impl Chain {
    pub fn new(epoch_end: u64, recovery: u64, proxies: u32) -> Chain {
        let replies = (0..proxies).map(|_| Replies::default()).collect();
        Chain { epoch_end, recovery, last: None, replies }
    }

    // (as the crate has it)
    #[inline(always)]
    pub fn ask(&mut self, ask: Ask) -> Result<Issued, ChainError> {
        let replies = self.replies.get_mut(ask.proxy as usize).ok_or(ChainError::UnknownProxy)?;
        let expected = replies.latest() + 1;
        if ask.num > expected {
            return Err(ChainError::Early { expected });
        }
        if ask.num < expected {
            let kept = replies.reply(ask.num).ok_or(ChainError::Forgotten)?;
            return Ok(Issued { fresh: false, ..kept });
        }
        let (ordinal, prev, version) = match self.last {
            None => (0, self.epoch_end, self.recovery),
            Some(last) => {
                let step = ask.at.saturating_sub(last.at).clamp(1, MAX_STEP);
                (last.ordinal + 1, last.version, last.version + step)
            }
        };
        if version > MAX_VERSION {
            return Err(ChainError::Exhausted);
        }
        let Ask { proxy, num, processed, at } = ask;
        let issued = Issued { ordinal, proxy, num, processed, prev, version, at, fresh: true };
        replies.keep(issued);
        self.last = Some(issued);
        Ok(issued)
    }
}
