//! The queue of a GRV proxy.

use std::collections::{BTreeMap, VecDeque};

const RATE_WINDOW: u64 = 2_000_000;
const MAX_RATE: u64 = 100_000;
const MAX_ROOM: u64 = 100_000;
const MAX_COUNT: u64 = 100_000;
const MAX_ELAPSED: u64 = 10_000_000;
const MAX_STARTED: usize = 10_000;
const MAX_BURST: u64 = 100_000;
const IDLE_BURST: u64 = 10;
const MAX_TAG: usize = 16;

#[derive(Clone, Copy, Debug, PartialEq, Eq)]
pub enum Priority {
    System,
    Default,
    Batch,
}

#[derive(Clone, Copy)]
pub struct QueueConfig {
    pub normal: u64,
    pub batch: u64,
    pub room: u64,
}

#[derive(Clone, Copy, Debug, PartialEq, Eq)]
pub enum QueueError {
    BadConfig,
    BadCount,
    BatchThrottled,
    Full,
    TagTooLong,
}

pub struct Req<T> {
    pub priority: Priority,
    pub count: u64,
    pub payload: T,
}

#[derive(Clone, PartialEq, Eq)]
pub struct TagLimit {
    pub tag: Vec<u8>,
    pub rate: u64,
    pub expires: u64,
}

#[derive(Clone, Copy)]
struct Limit {
    rate: u64,
    expires: u64,
}

pub struct GrvQueue<T> {
    config: QueueConfig,
    /// By priority, as the next.
    waiting: [VecDeque<Req<T>>; 3],
    throttles: [BTreeMap<Vec<u8>, Limit>; 3],
    normal: u64,
    batch: u64,
}

impl<T> GrvQueue<T> {
    pub fn new(config: QueueConfig) -> Result<GrvQueue<T>, QueueError> {
        let is_config = (1..=MAX_RATE).contains(&config.normal)
            && config.batch <= MAX_RATE
            && (1..=MAX_ROOM).contains(&config.room);
        if !is_config {
            return Err(QueueError::BadConfig);
        }
        let (waiting, throttles) = Default::default();
        Ok(GrvQueue { config, waiting, throttles, normal: 0, batch: 0 })
    }

    pub fn offer(&mut self, request: Req<T>) -> Result<Option<Req<T>>, (QueueError, Req<T>)> {
        let most = match request.priority {
            Priority::Batch => MAX_COUNT.min(self.config.normal + IDLE_BURST),
            _ => MAX_COUNT,
        };
        if request.count == 0 || request.count > most {
            return Err((QueueError::BadCount, request));
        }
        if request.priority == Priority::Batch && self.config.batch == 0 {
            return Err((QueueError::BatchThrottled, request));
        }
        let mut out = None;
        if self.len() as u64 == self.config.room {
            out = self.pop_below(request.priority);
            if out.is_none() {
                return Err((QueueError::Full, request));
            }
        }
        self.waiting[request.priority as usize].push_back(request);
        Ok(out)
    }

    pub fn window(&mut self, elapsed: u64) -> Result<Vec<Req<T>>, QueueError> {
        if elapsed == 0 || elapsed > MAX_ELAPSED {
            return Err(QueueError::BadConfig);
        }
        let normal_most = most(self.config.normal, self.normal);
        let batch_most = most(self.config.batch, self.batch).min(normal_most);
        let (mut all, mut unbatched) = (0, 0);
        let mut started = Vec::new();
        let limits = [u64::MAX, normal_most, batch_most];
        'row: for (list, limit) in self.waiting.iter_mut().zip(limits) {
            while let Some(request) = list.front() {
                let with_it = all + request.count;
                if started.len() == MAX_STARTED || with_it > limit {
                    break 'row;
                }
                all = with_it;
                if request.priority != Priority::Batch {
                    unbatched = with_it;
                }
                started.extend(list.pop_front());
            }
        }
        let [system, default, batch] = &self.waiting;
        let is_idle = system.is_empty() && default.is_empty();
        self.normal = after(elapsed, self.config.normal, unbatched, self.normal, is_idle);
        let is_idle = is_idle && batch.is_empty();
        self.batch = after(elapsed, self.config.batch, all, self.batch, is_idle);
        Ok(started)
    }

    pub fn waits(&self, elapsed: u64) -> Option<u64> {
        if elapsed == 0 || elapsed > MAX_ELAPSED {
            return None;
        }
        let head = self.waiting.iter().find_map(VecDeque::front)?;
        let (limit, budget) = match head.priority {
            Priority::Default => (self.config.normal, self.normal),
            Priority::Batch if head.count <= self.config.normal && self.config.batch > 0 => {
                (self.config.batch, self.batch)
            }
            _ => return None,
        };
        let missing = (head.count * RATE_WINDOW).saturating_sub(limit * RATE_WINDOW + budget);
        Some(missing.div_ceil(elapsed * limit))
    }

    pub fn set_throttle(
        &mut self,
        priority: Priority,
        tag: Vec<u8>,
        rate: u64,
        expires: u64,
    ) -> Result<(), QueueError> {
        if tag.len() > MAX_TAG {
            return Err(QueueError::TagTooLong);
        }
        self.throttles[priority as usize].insert(tag, Limit { rate, expires });
        Ok(())
    }

    pub fn throttles(&self, priority: Priority, tags: &[Vec<u8>], at: u64) -> Vec<TagLimit> {
        let throttles = &self.throttles[priority as usize];
        let mut limits = Vec::new();
        for tag in tags {
            match throttles.get(tag) {
                Some(&Limit { rate, expires }) if expires > at => {
                    limits.push(TagLimit { tag: tag.clone(), rate, expires });
                }
                _ => {}
            }
        }
        limits
    }

    fn len(&self) -> usize {
        self.waiting.iter().map(VecDeque::len).sum()
    }

    /// Takes out the oldest request of the lowest priority below this one.
    fn pop_below(&mut self, priority: Priority) -> Option<Req<T>> {
        let below = &mut self.waiting[priority as usize + 1..];
        below.iter_mut().rev().find_map(VecDeque::pop_front)
    }
}

/// The most transactions that a rate lets start in a window.
fn most(limit: u64, budget: u64) -> u64 {
    (limit * RATE_WINDOW + budget).min(MAX_BURST * RATE_WINDOW) / RATE_WINDOW
}

/// The budget of a rate after a window.
fn after(elapsed: u64, limit: u64, started: u64, budget: u64, is_idle: bool) -> u64 {
    let burst = if is_idle { IDLE_BURST } else { MAX_BURST };
    (budget + elapsed * limit).saturating_sub(elapsed * started).min(burst * RATE_WINDOW)
}
