//! Handles and arrays answer the same, and what was worked out by hand, at random and at the edges.

use fdb_read_version::{
    answers, outcomes, Ask, Audit, Chain, ChainError, GrvQueue, Issued, Limit, Op, Outcome,
    Priority, QueueConfig, QueueError, Record, Request, State, TurnedAway, Watch,
};
use std::collections::BTreeSet;
use std::sync::Mutex;
use std::thread;

/// The same numbers on each machine (xorshift).
struct Drawn(u64);

impl Drawn {
    fn below(&mut self, limit: u64) -> u64 {
        self.0 ^= self.0 << 13;
        self.0 ^= self.0 >> 7;
        self.0 ^= self.0 << 17;
        self.0 % limit
    }
}

#[test]
fn chains_agree() {
    let (mut drawn, mut latest, mut at) = (Drawn(7), [0; 3], 0);
    let mut asks = Vec::new();
    for _ in 0..5000 {
        let proxy = drawn.below(3) as usize;
        let mut num = latest[proxy] + 1;
        match drawn.below(10) {
            0 => num += 1 + drawn.below(3),
            1 | 2 => num = drawn.below(num + 1),
            _ => {}
        }
        latest[proxy] = if num == latest[proxy] + 1 { num } else { latest[proxy] };
        at += drawn.below(6_000_000);
        let processed = latest[proxy].saturating_sub(1 + drawn.below(4));
        asks.push(Ask { proxy: proxy as u32, num, processed, at });
    }
    let all = answers(100, 200, 3, &asks).unwrap();
    let mut chain = Chain::new(100, 200, 3).unwrap();
    for (ask, answer) in asks.iter().zip(&all) {
        assert_eq!(chain.ask(*ask), *answer);
    }
    assert!(all.iter().any(|it| matches!(it, Err(ChainError::Early { .. }))));
    assert!(all.contains(&Err(ChainError::Forgotten)));
}

#[test]
fn the_chain_by_hand() {
    let ask = |proxy, num, at, processed| Ask { proxy, num, processed, at };
    let issued = |ordinal, proxy, num, processed, prev, version, at, fresh| {
        Ok(Issued { ordinal, proxy, num, processed, prev, version, at, fresh })
    };
    let rows = [
        (ask(1, 1, 50, 0), issued(0, 1, 1, 0, 100, 200, 50, true)),
        (ask(1, 1, 99, 7), issued(0, 1, 1, 0, 100, 200, 50, false)),
        (ask(0, 1, 80, 0), issued(1, 0, 1, 0, 200, 230, 80, true)),
        (ask(1, 2, 81, 1), issued(2, 1, 2, 1, 230, 231, 81, true)),
        (ask(1, 1, 82, 0), Err(ChainError::Forgotten)),
        (ask(1, 9, 82, 0), Err(ChainError::Early { expected: 3 })),
        (ask(2, 1, 82, 0), Err(ChainError::UnknownProxy)),
    ];
    let asks = rows.map(|it| it.0);
    assert_eq!(answers(100, 200, 2, &asks), Ok(rows.map(|it| it.1).to_vec()));
    let mut chain = Chain::new(100, 200, 2).unwrap();
    for (ask, answer) in rows {
        assert_eq!(chain.ask(ask), answer);
    }
    for (status, epoch_end, recovery, proxies) in [
        (ChainError::BadEpoch, 100, 100, 1),
        (ChainError::BadEpoch, 0, 1 << 63, 1),
        (ChainError::NoProxy, 100, 200, 0),
        (ChainError::NoProxy, 100, 200, 65),
    ] {
        assert_eq!(Chain::new(epoch_end, recovery, proxies).unwrap_err(), status);
        assert_eq!(answers(epoch_end, recovery, proxies, &[]), Err(status));
    }
    let mut last = Chain::new(0, (1 << 63) - 1, 64).unwrap();
    assert_eq!(last.ask(ask(63, 1, 0, 0)).unwrap().version, (1 << 63) - 1);
    assert_eq!(last.ask(ask(0, 1, 0, 0)), Err(ChainError::Exhausted));
    assert_eq!(format!("{last:?}"), "Chain { .. }");
}

#[test]
fn queues_agree() {
    let (mut drawn, config) = (Drawn(3), QueueConfig { normal: 100, batch: 20, room: 40 });
    let priorities = [Priority::System, Priority::Default, Priority::Batch];
    let ops: Vec<Op> = (0..5000)
        .map(|payload| match drawn.below(10) {
            0 => Op::Window(drawn.below(10_000_002)),
            1 if drawn.below(5) == 0 => Op::Pop,
            _ => Op::Offer(Request {
                priority: priorities[drawn.below(3) as usize],
                count: drawn.below(13),
                payload,
            }),
        })
        .collect();
    let all = outcomes(config, &ops).unwrap();
    let mut queue = GrvQueue::new(config).unwrap();
    for (op, outcome) in ops.iter().zip(&all) {
        match op {
            Op::Offer(request) => assert_eq!(queue.offer(*request), *outcome),
            Op::Window(elapsed) => assert_eq!(queue.window(*elapsed), *outcome),
            Op::Pop => assert_eq!(queue.pop(), outcome.clone().unwrap().out),
            other => unreachable!("{other:?}"),
        }
    }
    assert!(all.contains(&Err(QueueError::Full)));
    assert!(all.iter().flatten().any(|it| it.started.len() > 1));
}

#[test]
fn offers_and_windows_by_hand() {
    let config = QueueConfig { normal: 10, batch: 5, room: 3 };
    let request = |priority, count, payload| Request { priority, count, payload };
    let (system, batch) = (Priority::System, Priority::Batch);
    let outcome = |normal, batch, waits, started: &[Request], out| {
        let state = State { normal, batch, waits };
        Ok(Outcome { state, started: started.to_vec(), out })
    };
    let (first, second) = (request(Priority::Default, 3, 1), request(batch, 2, 2));
    let (third, fourth) = (request(system, 1, 3), request(system, 1, u64::MAX));
    let rows = [
        (Op::Offer(first), outcome(0, 0, [0, 1, 0], &[], None)),
        (Op::Offer(second), outcome(0, 0, [0, 1, 1], &[], None)),
        (Op::Offer(third), outcome(0, 0, [1, 1, 1], &[], None)),
        (Op::Offer(fourth), outcome(0, 0, [2, 1, 0], &[], Some(second))),
        (Op::Offer(second), Err(QueueError::Full)),
        (Op::Offer(request(batch, 21, 5)), Err(QueueError::BadCount)),
        // Of 10 transactions in two seconds 5 start, and of 5 as many.
        (Op::Window(1_000_000), outcome(5_000_000, 0, [0; 3], &[third, fourth, first], None)),
        (Op::Window(10_000_001), Err(QueueError::BadConfig)),
        (Op::Offer(second), outcome(5_000_000, 0, [0, 0, 1], &[], None)),
        (Op::Pop, outcome(5_000_000, 0, [0; 3], &[], Some(second))),
        (Op::Pop, outcome(5_000_000, 0, [0; 3], &[], None)),
    ];
    let (ops, wanted) = rows.into_iter().unzip::<_, _, Vec<_>, Vec<_>>();
    assert_eq!(outcomes(config, &ops), Ok(wanted));
    assert_eq!(outcomes(QueueConfig { room: 0, ..config }, &ops), Err(QueueError::BadConfig));
}

#[test]
fn a_window_starts_10_000_at_most() {
    let mut queue = GrvQueue::new(QueueConfig { normal: 1, batch: 0, room: 10_001 }).unwrap();
    let request = |payload| Request { priority: Priority::System, count: 1, payload };
    for payload in 0..10_001 {
        queue.offer(request(payload)).unwrap();
    }
    let started: Vec<u64> =
        queue.window(1000).unwrap().started.iter().map(|it| it.payload).collect();
    assert_eq!(started, Vec::from_iter(0..10_000));
    assert_eq!(queue.pop(), Some(request(10_000)));
}

#[test]
fn the_queue_by_hand() {
    let bad = QueueConfig { normal: 0, batch: 0, room: 1 };
    assert_eq!(GrvQueue::new(bad).err(), Some(QueueError::BadConfig));
    let mut queue = GrvQueue::new(QueueConfig { normal: 10, batch: 0, room: 2 }).unwrap();
    let request = Request { priority: Priority::Default, count: 30, payload: 1 };
    assert_eq!(queue.waits(1_000_000), None);
    queue.offer(request).unwrap();
    // It needs 30 transactions. A window grants 10 by its limit, and 5 each second to the budget.
    assert_eq!(queue.waits(1_000_000), Some(4));
    let limit = Limit { rate: 9, expires: 50 };
    queue.set_throttle(Priority::Default, b"tag", limit).unwrap();
    assert_eq!(queue.throttle(Priority::Default, b"tag", 49), Ok(Some(limit)));
    assert_eq!(queue.throttle(Priority::Default, b"tag", 50), Ok(None));
    assert_eq!(queue.throttle(Priority::Batch, b"tag", 49), Ok(None));
    let long = queue.set_throttle(Priority::Default, &[b't'; 17], limit);
    assert_eq!(long, Err(QueueError::TagTooLong));
}

#[test]
fn new_rates_by_hand() {
    let mut queue = GrvQueue::new(QueueConfig { normal: 20, batch: 5, room: 10 }).unwrap();
    let batch = |count, payload| Request { priority: Priority::Batch, count, payload };
    let gone = |count, payload, cause| TurnedAway { cause, request: batch(count, payload) };
    // A batch request has at most normal + 10 transactions: 30, then 20.
    for request in [batch(30, 1), batch(5, 2), batch(21, 3)] {
        queue.offer(request).unwrap();
    }
    assert_eq!(queue.set_rates(0, 5), Err(QueueError::BadConfig));
    assert_eq!(queue.set_rates(20, 1), Ok(vec![]));
    let two = vec![gone(30, 1, QueueError::BadCount), gone(21, 3, QueueError::BadCount)];
    assert_eq!(queue.set_rates(10, 1), Ok(two));
    assert_eq!(queue.set_rates(10, 0), Ok(vec![gone(5, 2, QueueError::BatchThrottled)]));
    assert_eq!(queue.offer(batch(5, 4)), Err(QueueError::BatchThrottled));
    assert_eq!(queue.pop(), None);
}

#[test]
fn forgotten_throttles_by_hand() {
    let mut queue = GrvQueue::new(QueueConfig { normal: 20, batch: 5, room: 10 }).unwrap();
    let limit = |expires| Limit { rate: 9, expires };
    queue.set_throttle(Priority::Batch, b"early", limit(50)).unwrap();
    queue.set_throttle(Priority::Batch, b"late", limit(51)).unwrap();
    queue.forget_throttles(50);
    assert_eq!(queue.throttle(Priority::Batch, b"early", 49), Ok(None));
    assert_eq!(queue.throttle(Priority::Batch, b"late", 50), Ok(Some(limit(51))));
}

#[test]
fn threads_share_all() {
    fn shared<T: Send + Sync>() {}
    shared::<(Chain, GrvQueue, Audit, Watch)>();
    let chain = Mutex::new(Chain::new(100, 200, 4).unwrap());
    let drawn = |proxy, num| {
        let ask = Ask { proxy, num, processed: num - 1, at: num };
        chain.lock().unwrap().ask(ask).unwrap().version
    };
    let versions: BTreeSet<u64> = thread::scope(|scope| {
        let threads = [0, 1, 2, 3].map(|proxy| {
            let drawn = &drawn;
            scope.spawn(move || (1..=500).map(|num| drawn(proxy, num)).collect::<Vec<_>>())
        });
        threads.into_iter().flat_map(|it| it.join().unwrap()).collect()
    });
    assert_eq!(versions.len(), 2000);
}

#[test]
fn handles_move_between_threads() {
    let made = thread::spawn(|| {
        let config = QueueConfig { normal: 100, batch: 10, room: 10 };
        (Chain::new(100, 200, 1).unwrap(), GrvQueue::new(config).unwrap())
    });
    let (mut chain, mut queue) = made.join().unwrap();
    let ask = Ask { proxy: 0, num: 1, processed: 0, at: 5 };
    let request = Request { priority: Priority::System, count: 1, payload: 17 };
    assert_eq!(chain.ask(ask).unwrap().version, 200);
    queue.offer(request).unwrap();
    // (both are dropped there)
    let used = thread::spawn(move || {
        let next = chain.ask(Ask { num: 2, at: 6, ..ask }).unwrap();
        (next.version, queue.window(1000).unwrap().started)
    });
    assert_eq!(used.join().unwrap(), (201, vec![request]));
}

#[test]
fn the_register_by_hand() {
    let kept = Record { version: 100, ..Record::default() };
    let metadata = Some([1, 2, 3, 4, 5, 6, 7, 8, 9, 10]);
    let second = Record { version: 200, locked: true, metadata, min_known: 150 };
    assert_eq!(kept.after_report(&second), second);
    assert_eq!(second.after_report(&kept), second);
    let zeros = Record { version: 160, metadata: Some([0; 10]), ..Record::default() };
    assert_eq!(kept.after_report(&zeros), zeros);
    let third = Record { version: 150, min_known: 180, ..Record::default() };
    assert_eq!(second.after_report(&third), Record { min_known: 180, ..second });
    assert_eq!((second.version_for(false), second.version_for(true)), (200, 150));
}
