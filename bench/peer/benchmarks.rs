//! The benchmarks, as crates/fdb_bench has them.

use crate::audit::{Call, CallAnswer, Event, Input, Log, audit};
use crate::batches::{Answer, GrvOpts, Request, serve_batch};
use crate::chain::{Ask, Chain, Issued};
use crate::live::{LiveRecord, Record, Seen};
use crate::measuring::{Checksum, Draws, Measured, Stopwatch, Tally, side_by_side};
use crate::queue::{GrvQueue, Priority, QueueConfig, Req};
use std::hint::black_box;
use std::sync::Mutex;
use std::sync::atomic::{AtomicU64, Ordering};
use std::sync::mpsc::sync_channel;
use std::time::Instant;

pub const MANY: u32 = 64;
pub const FEW: u32 = 4;
const RECOVERY: u64 = 100;
const STEPS_PER_ROOM: u32 = 20;
const STEPS_PER_WINDOW: u32 = 10;
const ELAPSED: u32 = 10_000;
const PASSES: u32 = 10;
const TAGS_PER_REQUEST: usize = 4;
const LAST_MOMENT: u32 = 1_000;
const READS_PER_RAISE: u64 = 100;
const FIRST_VERSION: u64 = Record::START.version + 1;
const REQUESTS: u32 = 20_000;
const MOST: u64 = 100_000;
const AUDITS: u32 = 10;

// Requests for commit versions, by one thread or by several that share a chain behind a lock.

pub fn fresh(size: u32, proxies: u32, processes: bool) -> Measured {
    let mut chain = Chain::new(0, RECOVERY, proxies);
    let watch = Stopwatch::start();
    let checksum = ask_fresh(&mut chain, size, proxies, processes);
    watch.measured(size.into(), checksum)
}

fn ask_fresh(chain: &mut Chain, size: u32, proxies: u32, processes: bool) -> Checksum {
    let mut checksum = Checksum::default();
    for place in 0..size {
        let before = place / proxies;
        let processed = if processes { before } else { 0 };
        ask(chain, &mut checksum, place, place % proxies, before, processed);
    }
    checksum
}

pub fn repeats(size: u32) -> Measured {
    let mut chain = Chain::new(0, RECOVERY, MANY);
    let mut checksum = ask_fresh(&mut chain, size, MANY, false);
    let mut draws = Draws::START;
    let share = (size / MANY).max(1);
    let watch = Stopwatch::start();
    for place in 0..size {
        let before = draws.next_number() % share;
        ask(&mut chain, &mut checksum, place, place % MANY, before, 0);
    }
    watch.measured(size.into(), checksum)
}

#[inline(always)]
fn ask(
    chain: &mut Chain,
    checksum: &mut Checksum,
    place: u32,
    proxy: u32,
    before: u32,
    processed: u32,
) {
    let num = u64::from(before) + 1;
    let ask = Ask { proxy, num, processed: processed.into(), at: u64::from(place) * 3 };
    let issued = chain.ask(ask).expect("a number of its proxy");
    let word = issued.version.wrapping_mul(3).wrapping_add(issued.prev);
    checksum.add(word.wrapping_add(issued.fresh.into()));
}

pub fn asks(size: u32, threads: u32) -> Measured {
    let sequencer = Mutex::new(Chain::new(0, RECOVERY, threads));
    let all = side_by_side(threads, |proxy| ask_in_turn(&sequencer, proxy, size / threads));
    all.measured(all.sum)
}

fn ask_in_turn(sequencer: &Mutex<Chain>, proxy: u32, asks: u32) -> Tally {
    let begun = Instant::now();
    let mut tally = Tally::default();
    for before in 0..u64::from(asks) {
        let ask = Ask { proxy, num: before + 1, processed: before, at: 0 };
        let answered = sequencer.lock().expect("no panic").ask(ask);
        let issued = answered.expect("a fresh request");
        tally.add(issued.version, issued.fresh);
    }
    tally.since(begun)
}

// The queue of a GRV proxy, and its throttles.

fn new_queue(normal: u64, batch: u64, room: u32) -> GrvQueue<u64> {
    GrvQueue::new(QueueConfig { normal, batch, room: room.into() }).expect("a configuration")
}

pub fn mix(room: u32) -> Measured {
    let mut queue = new_queue(13, 12, room);
    let mut checksum = Checksum::default();
    for place in 0..room {
        let priority = if place % 2 == 0 { Priority::Batch } else { Priority::Default };
        offer(&mut queue, request(priority, place % 4 + 1, place), &mut checksum);
    }
    let mut draws = Draws::START;
    let steps = room * STEPS_PER_ROOM;
    let watch = Stopwatch::start();
    for place in 0..steps {
        if place % STEPS_PER_WINDOW == 0 {
            start(&mut queue, ELAPSED, &mut checksum);
        } else {
            offer(&mut queue, mixed(&mut draws, place), &mut checksum);
        }
    }
    watch.measured(steps.into(), checksum)
}

pub fn waits(size: u32) -> Measured {
    let mut queue = new_queue(10, 10, 1);
    let mut checksum = Checksum::default();
    offer(&mut queue, request(Priority::Default, 100_000, 0), &mut checksum);
    let mut draws = Draws::START;
    let watch = Stopwatch::start();
    for place in 0..size {
        let elapsed = u64::from(draws.next_number() % ELAPSED) + 1;
        checksum.add(queue.waits(elapsed).unwrap_or(0));
        if place % STEPS_PER_WINDOW == 0 {
            start(&mut queue, 1, &mut checksum);
        }
    }
    watch.measured(size.into(), checksum)
}

fn mixed(draws: &mut Draws, place: u32) -> Req<u64> {
    let drawn = draws.next_number();
    let priority = match drawn % 10 {
        0 => Priority::System,
        1..=6 => Priority::Default,
        _ => Priority::Batch,
    };
    request(priority, drawn / 10 % 4 + 1, place)
}

fn request(priority: Priority, count: u32, place: u32) -> Req<u64> {
    Req { priority, count: count.into(), payload: place.into() }
}

fn offer(queue: &mut GrvQueue<u64>, request: Req<u64>, checksum: &mut Checksum) {
    checksum.add(match queue.offer(request) {
        Ok(None) => 0,
        Ok(Some(out)) => request_word(&out).wrapping_add(1),
        Err((_, refused)) => request_word(&refused).wrapping_add(2),
    });
}

fn start(queue: &mut GrvQueue<u64>, elapsed: u32, checksum: &mut Checksum) {
    for request in queue.window(elapsed.into()).expect("a time in range") {
        checksum.add(request_word(&request));
    }
}

fn request_word(request: &Req<u64>) -> u64 {
    let word = request.payload.wrapping_mul(31).wrapping_add(request.count.wrapping_mul(3));
    word.wrapping_add(request.priority as u64)
}

pub fn throttles(size: u32) -> Measured {
    let mut queue = new_queue(1, 1, 1);
    let mut draws = Draws::START;
    let numbers = (0..size).map(|place| u64::from(draws.next_number()) << 32 | u64::from(place));
    let tags: Vec<Vec<u8>> = numbers.map(|number| number.to_be_bytes().to_vec()).collect();
    let given = tags.clone();
    let mut checksum = Checksum::default();
    let (mut draws, mut rates) = (Draws::START, Draws::START);
    let watch = Stopwatch::start();
    for tag in given {
        let drawn = rates.next_number();
        let rate = u64::from(drawn % 100);
        let set =
            queue.set_throttle(priority_of(drawn), tag, rate, u64::from(drawn / 100 % LAST_MOMENT));
        set.expect("a short tag");
    }
    for _ in 0..PASSES {
        for some in tags.chunks(TAGS_PER_REQUEST) {
            let drawn = draws.next_number();
            for limit in
                queue.throttles(priority_of(drawn), some, u64::from(drawn / 100 % LAST_MOMENT))
            {
                let last = limit.tag.last().copied().unwrap_or(0);
                let word = limit.expires.wrapping_mul(31).wrapping_add(limit.rate);
                checksum.add(word.wrapping_mul(31).wrapping_add(last.into()));
            }
        }
    }
    watch.measured(u64::from(size) * u64::from(PASSES + 1), checksum)
}

fn priority_of(drawn: u32) -> Priority {
    match drawn % 3 {
        0 => Priority::System,
        1 => Priority::Default,
        _ => Priority::Batch,
    }
}

// Reads, reports and tokens of the live record.

/// Reads by so many threads, after so many raises; maybe beside a thread that reports.
pub fn reads(raises: u32, threads: u32, beside: bool) -> Measured {
    let live = raised_live(raises);
    let reads = u64::from(raises) * READS_PER_RAISE;
    let reading = AtomicU64::new(threads.into());
    let all = side_by_side(threads + u32::from(beside), |place| {
        if place == threads {
            report_beside(&live, &reading, FIRST_VERSION + u64::from(raises));
            return Tally::default();
        }
        let tally = read_in_turn(&live, reads);
        reading.fetch_sub(1, Ordering::SeqCst);
        tally
    });
    all.measured(if beside { 0 } else { all.sum })
}

pub fn reports(reports: u32, threads: u32) -> Measured {
    let live = LiveRecord::open(Record::START);
    let mut all = side_by_side(threads, |place| {
        report_in_turn(&live, FIRST_VERSION + u64::from(place), threads.into(), reports)
    });
    let last = live.read(&mut Seen::default());
    all.marked = u64::from(all.marked == last.position);
    all.measured(last.rec.version)
}

pub fn tokens(times: u32) -> Measured {
    let live = raised_live(times);
    let (mut teller, mut hearer) = (Seen::default(), Seen::default());
    live.read(&mut teller);
    let mut checksum = Checksum::default();
    let watch = Stopwatch::start();
    for _ in 0..times {
        // else nothing of a telling would be left
        let (teller, hearer) = black_box((&mut teller, &mut hearer));
        live.learn(hearer, live.split(teller));
        live.meet(teller, hearer);
        checksum.add(hearer.position);
    }
    watch.measured(u64::from(times) * 3, checksum)
}

/// A live record that was raised so many times.
fn raised_live(raises: u32) -> LiveRecord {
    let live = LiveRecord::open(Record::START);
    report_in_turn(&live, FIRST_VERSION, 1, raises);
    live
}

fn record_word(rec: &Record) -> u64 {
    rec.version
        .wrapping_add(u64::from(rec.locked))
        .wrapping_add(rec.metadata.map_or(0, |[.., last]| u64::from(last)))
        .wrapping_add(rec.min_known)
}

fn read_in_turn(live: &LiveRecord, reads: u64) -> Tally {
    let begun = Instant::now();
    let mut seen = Seen::default();
    let mut tally = Tally::default();
    for _ in 0..reads {
        let before = seen.position;
        let fetched = live.read(&mut seen);
        tally.add(record_word(&fetched.rec), fetched.position < before);
    }
    tally.since(begun)
}

fn report_beside(live: &LiveRecord, reading: &AtomicU64, first: u64) {
    let mut seen = Seen::default();
    let mut version = first;
    while reading.load(Ordering::SeqCst) != 0 {
        live.report(&mut seen, Record { version, ..Record::START });
        version += 1;
    }
}

fn report_in_turn(live: &LiveRecord, first: u64, step: u64, reports: u32) -> Tally {
    let begun = Instant::now();
    let mut seen = Seen::default();
    let mut tally = Tally::default();
    let mut version = first;
    for _ in 0..reports {
        let ack = live.report(&mut seen, Record { version, ..Record::START });
        tally.add(version, ack.raised);
        version += step;
    }
    tally.since(begun)
}

// Batches of requests for a read version.

pub fn batches(size: u32) -> Measured {
    let live = LiveRecord::open(Record::START);
    let times = (REQUESTS / size).max(1);
    let config = QueueConfig { normal: MOST, batch: MOST, room: MOST };
    let queue = GrvQueue::new(config).expect("a configuration");
    let mut seen = Seen::default();
    let mut waiters = Vec::new();
    let mut batches = Vec::new();
    for _ in 0..times {
        let mut batch = Vec::new();
        for serial in 0..size {
            let (reply, waiter) = sync_channel(1);
            waiters.push(waiter);
            let payload = Request {
                client: 0,
                serial: serial.into(),
                asked: seen.position,
                seen: live.split(&seen),
                opts: GrvOpts::plain(),
                reply,
            };
            batch.push(Req { priority: Priority::Default, count: 1, payload });
        }
        batches.push(batch);
    }
    let mut checksum = Checksum::default();
    let watch = Stopwatch::start();
    for batch in batches {
        for answer in serve_batch(&live, &mut seen, &queue, batch) {
            checksum.add(answer_word(&answer));
        }
    }
    watch.measured(u64::from(times) * u64::from(size), checksum)
}

fn answer_word(answer: &Answer) -> u64 {
    match answer {
        Answer::Reply(reply) => {
            let word = reply.rec.version.wrapping_add(reply.position * 31);
            word.wrapping_add(reply.serial * 3)
        }
        Answer::Refused(_) => 0,
    }
}

// Audits of the logs of many clients.

pub fn audits(size: u32) -> Measured {
    let mut chain = Chain::new(0, RECOVERY, MANY);
    let mut logs: Vec<Log> = (0..MANY).map(|_| Vec::new()).collect();
    let answers: Vec<Issued> =
        (0..size / 3).map(|turn| play(&mut chain, turn, &mut logs[(turn % MANY) as usize])).collect();
    let opening = Record { version: 0, ..Record::START };
    let mut checksum = Checksum::default();
    let watch = Stopwatch::start();
    for _ in 0..AUDITS {
        let events = audit(opening, &answers, &logs).expect("logs without a fault");
        for event in events {
            checksum.add(event_word(&event));
        }
    }
    watch.measured(u64::from(size / 3) * u64::from(3 * AUDITS), checksum)
}

fn event_word(event: &Event) -> u64 {
    let (client, call, rec, raised) = match *event {
        Event::Report { client, call, rec, raised, .. } => (client, call, rec, raised),
        Event::Read { client, call, rec } => (client, call, rec, false),
    };
    let word = rec.version.wrapping_mul(31).wrapping_add(call);
    word.wrapping_mul(31).wrapping_add(client.into()) ^ u64::from(raised)
}

/// A client asks for a commit version, reports it, which raises the record, and reads it.
fn play(chain: &mut Chain, turn: u32, log: &mut Log) -> Issued {
    let (proxy, num) = (turn % MANY, u64::from(turn / MANY) + 1);
    let (processed, at) = (num.saturating_sub(8), u64::from(turn) * 3);
    let issued = chain.ask(Ask { proxy, num, processed, at }).expect("a fresh request");
    let rec = Record { version: issued.version, ..Record::START };
    let ask = Input::Ask { num, processed, at };
    add(log, turn, ask, CallAnswer::Answered(issued));
    let report = Input::Report { num, locked: false, metadata: None, min_known: 0 };
    add(log, turn + 1, report, CallAnswer::Acked { rec, raised: true, changed: true });
    let found = CallAnswer::Version { rec, limits: Vec::new(), locked_out: false };
    add(log, turn + 1, Input::Grv(GrvOpts::plain()), found);
    issued
}

fn add(log: &mut Log, position: u32, input: Input, answer: CallAnswer) {
    let asked = log.last().map_or(0, |last| last.position);
    log.push(Call { input, asked, position: position.into(), answer });
}
