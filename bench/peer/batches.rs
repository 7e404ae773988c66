//! Requests for a read version and the batch server of a GRV proxy, as crates/fdb_proxy has them.

use crate::live::{LiveRecord, Record, Seen};
use crate::queue::{GrvQueue, Priority, QueueError, Req, TagLimit};
use std::sync::mpsc::SyncSender;

#[allow(dead_code)]
pub struct GrvOpts {
    pub priority: Priority,
    pub count: u64,
    pub tags: Vec<Vec<u8>>,
    pub lock_aware: bool,
    pub at: u64,
    pub use_min: bool,
}

impl GrvOpts {
    /// A read of which nothing is said.
    pub fn plain() -> GrvOpts {
        let (priority, tags) = (Priority::Default, Vec::new());
        GrvOpts { priority, count: 1, tags, lock_aware: false, at: 0, use_min: false }
    }
}

#[allow(dead_code)] // (the answers are handed back)
pub struct Request {
    pub client: u32,
    pub serial: u64,
    pub asked: u64,
    pub seen: Seen,
    pub opts: GrvOpts,
    pub reply: SyncSender<Answer>,
}

#[allow(dead_code)]
pub enum Answer {
    Reply(Reply),
    Refused(QueueError),
}

#[allow(dead_code)]
pub struct Reply {
    pub client: u32,
    pub serial: u64,
    pub asked: u64,
    pub seen: Seen,
    pub rec: Record,
    pub position: u64,
    pub limits: Vec<TagLimit>,
}

/// Answers all requests with one read.
pub fn serve_batch(
    live: &LiveRecord,
    seen: &mut Seen,
    queue: &GrvQueue<Request>,
    requests: Vec<Req<Request>>,
) -> Vec<Answer> {
    if requests.is_empty() {
        return Vec::new();
    }
    for request in &requests {
        live.learn(seen, live.split(&request.payload.seen));
    }
    let fetched = live.read(seen);
    let reply_to = |Req { payload, .. }: Req<Request>| {
        let opts = &payload.opts;
        Answer::Reply(Reply {
            client: payload.client,
            serial: payload.serial,
            asked: payload.asked,
            seen: live.split(seen),
            rec: fetched.rec,
            position: fetched.position,
            limits: queue.throttles(opts.priority, &opts.tags, opts.at),
        })
    };
    requests.into_iter().map(reply_to).collect()
}
