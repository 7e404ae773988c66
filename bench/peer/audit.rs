//! The audit of the logs of a run.

use crate::batches::GrvOpts;
use crate::chain::{Issued, MAX_STEP, MAX_VERSION};
use crate::live::Record;
use crate::queue::TagLimit;

#[allow(dead_code)] // (no benchmark has a client that tells another)
pub enum Input {
    Grv(GrvOpts),
    Ask { num: u64, processed: u64, at: u64 },
    Report { num: u64, locked: bool, metadata: Option<[u8; 10]>, min_known: u64 },
    Tell { to: u32 },
    Learn { from: u32 },
}

#[allow(dead_code)]
pub enum CallAnswer {
    Version { rec: Record, limits: Vec<TagLimit>, locked_out: bool },
    Answered(Issued),
    Acked { rec: Record, raised: bool, changed: bool },
    Told,
    Refused(Refusal),
}

#[allow(dead_code)]
#[derive(Clone, Copy, PartialEq, Eq)]
pub enum Refusal {
    Early { expected: u64 },
    Forgotten,
    Exhausted,
    BadCount,
    BatchThrottled,
    Full,
    ProxyClosed,
    NotIssued,
    Stranger,
    MinAbove,
}

pub struct Call {
    pub input: Input,
    pub asked: u64,
    pub position: u64,
    pub answer: CallAnswer,
}

pub type Log = Vec<Call>;

pub enum Event {
    Report { client: u32, call: u64, rec: Record, raised: bool, changed: bool },
    Read { client: u32, call: u64, rec: Record },
}

#[allow(dead_code)]
#[derive(Debug)]
pub enum AuditFault {
    Order { client: u32, call: u64 },
    Clash { position: u64 },
    Gap { position: u64 },
    Wrong { client: u32, call: u64 },
    Stray { client: u32, call: u64 },
    NotAbove { client: u32, call: u64 },
}

/// The one history of the logs, or the first fault that stands.
pub fn audit(start: Record, chain: &[Issued], logs: &[Log]) -> Result<Vec<Event>, AuditFault> {
    if let Some((client, call)) = first_out_of_order(logs) {
        return Err(AuditFault::Order { client, call });
    }
    let registers = registers_of(start, logs)?;
    if let Some((client, call)) = first_call(logs, |call| is_wrong(&registers, call)) {
        return Err(AuditFault::Wrong { client, call });
    }
    if let Some((client, call)) = first_stray(chain, logs) {
        return Err(AuditFault::Stray { client, call });
    }
    if let Some((client, call)) = first_call(logs, |call| is_low(&registers, call)) {
        return Err(AuditFault::NotAbove { client, call });
    }
    Ok(explain(logs))
}

fn first_out_of_order(logs: &[Log]) -> Option<(u32, u64)> {
    for (client, log) in (0..).zip(logs) {
        let mut before = 0;
        for (place, call) in (0..).zip(log) {
            let is_change = matches!(call.answer, CallAnswer::Acked { changed: true, .. });
            let is_late = is_change && call.position == call.asked;
            if call.asked < before || call.position < call.asked || is_late {
                return Some((client, place));
            }
            before = call.position;
        }
    }
    None
}

fn first_call(logs: &[Log], is_fault: impl Fn(&Call) -> bool) -> Option<(u32, u64)> {
    (0..).zip(logs).find_map(|(client, log)| {
        log.iter().position(&is_fault).map(|place| (client, place as u64))
    })
}

/// The register at each position that a call has reached.
fn registers_of(start: Record, logs: &[Log]) -> Result<Vec<Record>, AuditFault> {
    let mut changes = Vec::new();
    let mut greatest = 0;
    for call in logs.iter().flatten() {
        greatest = greatest.max(call.position);
        if let CallAnswer::Acked { rec, changed: true, .. } = call.answer {
            changes.push((call.position, rec));
        }
    }
    changes.sort_unstable_by_key(|change| change.0);
    if let Some(pair) = changes.windows(2).find(|pair| pair[0].0 == pair[1].0) {
        return Err(AuditFault::Clash { position: pair[0].0 });
    }
    let missing = (1..).zip(&changes).find(|(position, change)| change.0 != *position);
    let position = missing.map_or(changes.len() as u64 + 1, |(position, _)| position);
    if position <= greatest {
        return Err(AuditFault::Gap { position });
    }
    let mut registers = Vec::with_capacity(changes.len() + 1);
    let mut current = start;
    registers.push(current);
    for (_, rec) in changes {
        current = current.after_report(rec);
        registers.push(current);
    }
    Ok(registers)
}

fn is_wrong(registers: &[Record], call: &Call) -> bool {
    let at = |position: u64| registers[position as usize];
    match call.answer {
        CallAnswer::Version { rec, .. } => rec != at(call.position),
        CallAnswer::Acked { rec, raised, changed } => {
            let met = at(call.position - u64::from(changed));
            raised != met.raises(rec) || changed != met.changes(rec)
        }
        _ => false,
    }
}

fn is_low(registers: &[Record], call: &Call) -> bool {
    let CallAnswer::Answered(issued) = call.answer else {
        return false;
    };
    let seen = registers[call.asked as usize].version;
    issued.fresh && issued.ordinal != 0 && issued.version <= seen
}

/// What a client has drawn: the places of its answers in the chain, by number, and how many are
/// erased.
#[derive(Default)]
struct Drawn {
    places: Vec<usize>,
    erased: u64,
}

impl Drawn {
    fn kept(&self, num: u64) -> Option<usize> {
        if num <= self.erased { None } else { self.any(num) }
    }

    fn any(&self, num: u64) -> Option<usize> {
        self.places.get(num.checked_sub(1)? as usize).copied()
    }

    fn keep(&mut self, issued: &Issued) {
        let latest = self.places.len() as u64;
        self.places.push(issued.ordinal as usize);
        self.erased = issued.processed.max(self.erased).min(latest);
    }
}

fn first_stray(chain: &[Issued], logs: &[Log]) -> Option<(u32, u64)> {
    let mut entries = vec![0; logs.len()];
    let mut without_log = None;
    for entry in chain {
        match entries.get_mut(entry.proxy as usize) {
            Some(count) => *count += 1,
            None => without_log = Some(without_log.map_or(entry.proxy, |it| entry.proxy.min(it))),
        }
    }
    for ((client, log), entries) in (0..).zip(logs).zip(entries) {
        let mut own = Drawn::default();
        for (place, call) in (0..).zip(log) {
            if !is_borne_out(chain, client, &own, call) {
                return Some((client, place));
            }
            if let CallAnswer::Answered(issued) = &call.answer
                && issued.fresh
            {
                own.keep(issued);
            }
        }
        if own.places.len() < entries {
            return Some((client, log.len() as u64));
        }
    }
    without_log.map(|client| (client, 0))
}

fn is_borne_out(chain: &[Issued], client: u32, own: &Drawn, call: &Call) -> bool {
    match (&call.input, &call.answer) {
        (Input::Grv(opts), CallAnswer::Version { rec, locked_out, .. }) => {
            *locked_out == (rec.locked && !opts.lock_aware)
        }
        (Input::Grv(_), CallAnswer::Refused(cause)) => {
            use Refusal::{BadCount, BatchThrottled, Full, ProxyClosed, Stranger};
            matches!(cause, BadCount | BatchThrottled | Full | ProxyClosed | Stranger)
        }
        (&Input::Ask { num, processed, at }, answer) => {
            is_commit_version(chain, client, own, (num, processed, at), answer)
        }
        (&Input::Report { num, locked, metadata, min_known }, answer) => {
            let drawn = own.any(num).and_then(|place| chain.get(place));
            match (answer, drawn) {
                (CallAnswer::Acked { rec, .. }, Some(&Issued { version, .. })) => {
                    *rec == Record { version, locked, metadata, min_known }
                }
                (CallAnswer::Refused(Refusal::NotIssued), None) => true,
                (CallAnswer::Refused(Refusal::MinAbove), Some(entry)) => entry.version < min_known,
                _ => false,
            }
        }
        (Input::Tell { .. } | Input::Learn { .. }, CallAnswer::Told) => true,
        _ => false,
    }
}

fn is_commit_version(
    chain: &[Issued],
    client: u32,
    own: &Drawn,
    (num, processed, at): (u64, u64, u64),
    answer: &CallAnswer,
) -> bool {
    let expected = own.places.len() as u64 + 1;
    match *answer {
        CallAnswer::Answered(issued) => {
            let is = |entry: &Issued| issued == Issued { fresh: issued.fresh, ..*entry };
            if issued.proxy != client
                || issued.num != num
                || !chain.get(issued.ordinal as usize).is_some_and(is)
            {
                return false;
            }
            if num == expected {
                return issued.fresh && issued.processed == processed && issued.at == at;
            }
            let due = own.kept(num).and_then(|place| chain.get(place));
            !issued.fresh && due.is_some_and(is)
        }
        CallAnswer::Refused(Refusal::Early { expected: said }) => {
            num > expected && said == expected
        }
        CallAnswer::Refused(Refusal::Forgotten) => {
            num < expected && own.kept(num).is_none_or(|place| place >= chain.len())
        }
        CallAnswer::Refused(Refusal::Exhausted) => {
            let is_near = |last: &Issued| last.version > MAX_VERSION - MAX_STEP;
            num == expected && chain.last().is_some_and(is_near)
        }
        _ => false,
    }
}

/// The events position by position: at each the change, and then the others by client and by call.
fn explain(logs: &[Log]) -> Vec<Event> {
    let mut events = Vec::new();
    for (client, log) in (0..).zip(logs) {
        for (call, it) in (0..).zip(log) {
            match it.answer {
                CallAnswer::Version { rec, .. } => {
                    events.push((it.position, Event::Read { client, call, rec }));
                }
                CallAnswer::Acked { rec, raised, changed } => {
                    let report = Event::Report { client, call, rec, raised, changed };
                    events.push((it.position, report));
                }
                _ => {}
            }
        }
    }
    let is_change = |event: &Event| matches!(event, Event::Report { changed: true, .. });
    events.sort_by_key(|(position, event)| (*position, !is_change(event)));
    events.into_iter().map(|(_, event)| event).collect()
}
