"""The library for C with ample memory: nothing is refused for want of it, however much there is.

Each row names the calls that a test makes over the functions that are exported, the test, which
says what is wrong, and the numbers at which they are to succeed. What they are to write is worked
out beside each.
"""
import struct
from ctypes import byref, c_uint64
from typing import Callable, NamedTuple

import ample_audits as audits
import ample_watches as watches
import bindings
from reader import HIGHEST

OK, ROOM, THROTTLED, FAULT = 0, 8, 19, 32
READ, COMMIT = 2, 3
SYSTEM, DEFAULT, BATCH = 0, 1, 2
OFFER, WINDOW = 0, 1
# A queue has room for so many at the most, and a window starts so many.
MOST_ROOM, MOST_STARTED, MOST_RATE = 100_000, 10_000, 100_000
LINES = (0, 1, audits.FEW, *audits.AROUND, 100_000)
CHEAP = (*LINES, 200_000)
DEAR = (1, audits.FEW, 65_537, 100_000)
FEWER = (1, audits.FEW, 65_537)
ROOMS = (1, audits.FEW, MOST_STARTED, MOST_STARTED + 1, *audits.AROUND, MOST_ROOM)
RATES = (1, audits.FEW, *audits.AROUND, MOST_RATE)
MOMENTS = (0, 1, *audits.AROUND, 2**32, 2**63, HIGHEST)
# How the structs lie: an ask, an answer, a request, one that was turned away, an operation, what
# came of it, a call, and a fault.
ASK, ANSWER, REQUEST, TURNED = "<QQQI4x", "<6QI??2x", "<QQB7x", "<QQB7xB7x"
OP, OUTCOME, CALL, A_FAULT = "<QQBB6x", "<6QQQB7x?B6x", "<QQQIIBBBB4x", "<QQ5I3B?"


class Row(NamedTuple):
    """Exported calls, what is wrong with them where they are made by a number, and the numbers."""

    calls: str
    wrong: Callable
    numbers: tuple


def raw():
    """The structs and the functions, as the package for Python declares them."""
    bindings.package()
    from fdb_read_version import _library

    return _library


def array(element, form, rows):
    """An array of structs with these members."""
    rows = list(rows)
    packed = b"".join(struct.pack(form, *it) for it in rows)
    return (element * len(rows)).from_buffer_copy(packed) if rows else (element * 0)()


def members(form, found):
    return list(struct.iter_unpack(form, bytes(found))) if len(found) else []


def unlike(found, wanted):
    """The first place at which two lists differ, or None."""
    if found == wanted:
        return None
    pairs = enumerate(zip(found, wanted))
    at = next((at for at, (it, other) in pairs if it != other), min(len(found), len(wanted)))
    return f"at {at}: {found[at:at + 1]} in place of {wanted[at:at + 1]}, of {len(wanted)}"


def status_of(status, wanted=OK):
    return None if status == wanted else f"status {status} in place of {wanted}"


# ---- chains


def answers_of(count, processes):
    """Requests of one proxy, five microseconds apart; each lets all before it go, or none."""
    it, least = raw(), lambda at: at * processes
    asks = array(it.RawAsk, ASK, ((at + 1, least(at), 5 * at, 0) for at in range(count)))
    found = (it.RawAnswer * count)()
    status = it.library.fdb_chain_answers(99, 100, 1, asks, count, found, count)
    prev = lambda at: 100 + 5 * (at - 1) if at else 99
    wanted = [(at, at + 1, least(at), prev(at), 100 + 5 * at, 5 * at, 0, False, True)
              for at in range(count)]
    return status_of(status) or unlike(members(ANSWER, found), wanted)


def answers_kept(count):
    return answers_of(count, 0)


def answers_let_go(count):
    return answers_of(count, 1)


def opened(new, *given):
    """A handle that a call opens, and its status."""
    handle = raw().RawHandle()
    return handle, new(*given, byref(handle))


def asked(count):
    """As many requests one by one, of 64 proxies in turn, and the first answer of all again."""
    it = raw()
    chain, status = opened(it.library.fdb_chain_new, 99, 100, 64)
    if status:
        return status_of(status)
    answer, wrong = it.RawAnswer(), None
    for at in range(count):
        ask = it.RawAsk(num=at // 64 + 1, processed=0, at=at, proxy=at % 64)
        status = it.library.fdb_chain_ask(byref(chain), byref(ask), byref(answer))
        is_so = (status, answer.ordinal, answer.version) == (OK, at, 100 + at)
        wrong = wrong or (None if is_so else f"ask {at}: {status}, {answer.version}")
    if count:
        ask = it.RawAsk(num=1, processed=0, at=0, proxy=0)
        it.library.fdb_chain_ask(byref(chain), byref(ask), byref(answer))
        wrong = wrong or unlike([(answer.version, answer.fresh)], [(100, False)])
    it.library.fdb_chain_free(byref(chain))
    return wrong


def asked_at(moment):
    """A request at a moment: above 100 by that, by 1 at least and 5,000,000 at most.

    One more at that moment is above it by 1.
    """
    it = raw()
    asks = array(it.RawAsk, ASK, ((1, 0, 0, 0), (2, 0, moment, 0), (3, 0, moment, 0)))
    found = (it.RawAnswer * 3)()
    status = it.library.fdb_chain_answers(99, 100, 1, asks, 3, found, 3)
    step = min(max(moment, 1), 5_000_000)
    versions = [100, 100 + step, 101 + step]
    return status_of(status) or unlike([one.version for one in found], versions)


def recovered(version):
    """A chain whose first version is any, up to the greatest."""
    it = raw()
    chain, status = opened(it.library.fdb_chain_new, version, version + 1, 1)
    ask, answer = it.RawAsk(num=1, processed=0, at=HIGHEST, proxy=0), it.RawAnswer()
    if status:
        return status_of(status)
    status = it.library.fdb_chain_ask(byref(chain), byref(ask), byref(answer))
    it.library.fdb_chain_free(byref(chain))
    return status_of(status) or unlike([(answer.prev, answer.version)], [(version, version + 1)])


# ---- queues


def queue_of(normal, batch, room):
    it = raw()
    config = it.RawConfig(normal, batch, room)
    return opened(it.library.fdb_queue_new, byref(config))


def filled(queue, count, priority, pushes=False):
    """Offers so many requests of one transaction, each with its number; it may push one out."""
    it, outcome = raw(), raw().RawOutcome()
    for at in range(count):
        request = it.RawRequest(1, at, priority)
        status = it.library.fdb_queue_offer(byref(queue), byref(request), byref(outcome))
        out = (outcome.has_out, outcome.out.payload)
        if status or out != (pushes, at * pushes):
            return f"offer {at}: status {status}, out {out}"
    return None


def popped(room):
    """A queue is filled and emptied."""
    it = raw()
    queue, status = queue_of(1, 1, room)
    if status:
        return status_of(status)
    wrong, outcome = filled(queue, room, DEFAULT), it.RawOutcome()
    for at in range(room):
        it.library.fdb_queue_pop(byref(queue), byref(outcome))
        is_so = (outcome.has_out, outcome.out.payload) == (True, at)
        wrong = wrong or (None if is_so else f"pop {at}: {outcome.out.payload}")
    it.library.fdb_queue_free(byref(queue))
    return wrong


def pushed_out(room):
    """Of a full queue each request is pushed out by one of a higher priority, the oldest first."""
    wrong = None
    for low, high in ((DEFAULT, SYSTEM), (BATCH, SYSTEM), (BATCH, DEFAULT)):
        queue, status = queue_of(1, 1, room)
        wrong = wrong or status_of(status) or filled(queue, room, low)
        wrong = wrong or filled(queue, room, high, pushes=True)
        raw().library.fdb_queue_free(byref(queue))
    return wrong


def windowed(queue, elapsed, priority, payloads, waits):
    """A window starts the requests of these numbers, and leaves so many of each priority."""
    it, outcome = raw(), raw().RawOutcome()
    most = min(sum(waits) + len(payloads), MOST_STARTED)
    found = (it.RawRequest * most)()
    status = it.library.fdb_queue_window(byref(queue), elapsed, byref(outcome), found, most)
    left = (outcome.system_waits, outcome.default_waits, outcome.batch_waits)
    return status_of(status) or unlike([outcome.started, *left], [len(payloads), *waits]) or unlike(
        members(REQUEST, found)[:len(payloads)], [(1, at, priority) for at in payloads])


def started(room):
    """A window starts all requests of a priority that wait, or 10,000: the rates let all start."""
    wrong = None
    for priority in (SYSTEM, DEFAULT, BATCH):
        queue, status = queue_of(MOST_RATE, MOST_RATE, room)
        most, waits = min(room, MOST_STARTED), [0, 0, 0]
        waits[priority] = room - most
        wrong = wrong or status_of(status) or filled(queue, room, priority)
        wrong = wrong or windowed(queue, 1, priority, range(most), waits)
        raw().library.fdb_queue_free(byref(queue))
    return wrong


def started_of_each(count):
    """Of as many requests of each priority a window starts the system requests first."""
    queue, status = queue_of(MOST_RATE, MOST_RATE, MOST_ROOM)
    wrong = status_of(status)
    for priority in (BATCH, DEFAULT, SYSTEM):
        wrong = wrong or filled(queue, count, priority)
    most = range(MOST_STARTED)
    wrong = wrong or windowed(queue, 1, SYSTEM, most, (count - MOST_STARTED, count, count))
    raw().library.fdb_queue_free(byref(queue))
    return wrong


def started_in_windows(count):
    """Window after window starts the one request that waits."""
    queue, status = queue_of(1, 1, 1)
    wrong = status_of(status)
    for _ in range(count):
        wrong = wrong or filled(queue, 1, SYSTEM) or windowed(queue, 1, SYSTEM, [0], (0, 0, 0))
    raw().library.fdb_queue_free(byref(queue))
    return wrong


def started_after(elapsed):
    """So does a window so many microseconds after the last one."""
    queue, status = queue_of(1, 1, 1)
    wrong = status_of(status) or filled(queue, 1, DEFAULT)
    wrong = wrong or windowed(queue, elapsed, DEFAULT, [0], (0, 0, 0))
    raw().library.fdb_queue_free(byref(queue))
    return wrong


def counted(count):
    """A request of so many transactions is let in and starts, at each priority."""
    it, outcome, wrong = raw(), raw().RawOutcome(), None
    for priority in (SYSTEM, DEFAULT, BATCH):
        queue, status = queue_of(MOST_RATE, MOST_RATE, 1)
        request, found = it.RawRequest(count, 7, priority), (it.RawRequest * 1)()
        offered = it.library.fdb_queue_offer(byref(queue), byref(request), byref(outcome))
        held = it.library.fdb_queue_window(byref(queue), 1, byref(outcome), found, 1)
        it.library.fdb_queue_free(byref(queue))
        wrong = wrong or unlike([status, offered, held], [OK] * 3) or unlike(
            members(REQUEST, found), [(count, 7, priority)])
    return wrong


def outcomes(count):
    """All operations at once: so many offers, and behind each 10,000 a window that starts them."""
    it, ops = raw(), []
    for at in range(count):
        ops.append((1, at, OFFER, SYSTEM))
        ops += [(1, 0, WINDOW, 0)] * ((at + 1) % MOST_STARTED == 0 or at + 1 == count)
    given, found = array(it.RawOp, OP, ops), (it.RawOutcome * len(ops))()
    begun, size = (it.RawRequest * count)(), c_uint64()
    config = it.RawConfig(1, 0, MOST_ROOM)
    status = it.library.fdb_queue_outcomes(
        byref(config), given, len(ops), found, len(ops), begun, count, byref(size))
    wrong = status_of(status) or unlike([size.value], [count])
    wrong = wrong or unlike(members(REQUEST, begun), [(1, at, SYSTEM) for at in range(count)])
    rows = members(OUTCOME, found)
    held = [row[5] for row, op in zip(rows, ops) if op[2] == WINDOW]
    return wrong or unlike([sum(held), *{row[-1] for row in rows}], [count, *[OK] * (count > 0)])


def turned_away(room):
    """Of batch requests each is turned away where the batch rate is 0."""
    return rated_anew(room, 1)


def turned_away_by(normal):
    """So is one, whatever the normal rate is."""
    return rated_anew(1, normal)


def rated_anew(room, normal):
    it = raw()
    queue, status = queue_of(MOST_RATE, 1, room)
    if status:
        return status_of(status)
    wrong, size = filled(queue, room, BATCH), c_uint64()
    found = (it.RawTurnedAway * room)()
    status = it.library.fdb_queue_set_rates(byref(queue), normal, 0, found, room, byref(size))
    it.library.fdb_queue_free(byref(queue))
    wanted = [(1, at, BATCH, THROTTLED) for at in range(room)]
    return wrong or status_of(status) or unlike([size.value], [room]) or unlike(
        members(TURNED, found), wanted)


def throttled(tags, rate, expires, priorities=(SYSTEM, DEFAULT, BATCH)):
    """Throttles of tags at each priority are told a moment before they expire."""
    it = raw()
    queue, status = queue_of(1, 1, 1)
    if status:
        return status_of(status)
    wrong, limit = None, it.RawLimit()
    for priority in priorities:
        for tag in tags:
            how = (byref(queue), priority, tag, len(tag))
            status = it.library.fdb_queue_set_throttle(*how, rate, expires)
            wrong = wrong or status_of(status)
        for tag in tags:
            how = (byref(queue), priority, tag, len(tag))
            status = it.library.fdb_queue_throttle(*how, expires - 1, byref(limit))
            told = (status, limit.rate, limit.expires, limit.holds)
            wrong = wrong or unlike([told], [(OK, rate, expires, True)])
    it.library.fdb_queue_free(byref(queue))
    return wrong


def set_again(count):
    """The throttle of one tag is set again and again."""
    return throttled([b"t"] * count, 7, 9)


def tags(count):
    return throttled([b"%d" % at for at in range(count)], 7, 9, [BATCH])


def tag_of_bytes(size):
    return throttled([b"t" * size], 7, 9)


def rated(rate):
    return throttled([b"t"], rate, HIGHEST)


def expiring(moment):
    return throttled([b"t"], 0, max(moment, 1))


# ---- audits


def options(**members):
    return raw().RawOptions(**members)


def written(element, call):
    """All that a call writes: where there is no room nothing is, and how much is needed is told."""
    found, size = (element * 0)(), c_uint64()
    status = call(found, 0, byref(size))
    if status != ROOM:
        return status, found if not size.value else f"{size.value} without room"
    found = (element * size.value)()
    status = call(found, len(found), byref(size))
    return status, found


def text_of(said):
    return "".join(f"{it}\n" for it in said)


def is_text(call, said, wanted):
    """What is wrong with a text that a call writes, which is to be these lines."""
    status, found = written(raw().c_uint8, call)
    return status_of(status, wanted) or unlike(bytes(found).decode().splitlines(), said)


def stale_lines(count):
    """The log of stale reads, what is said of each, and each as a fault."""
    _, log, said = audits.all_stale(count)
    faults = [(5, 4 * at - 1, at, 0, 0, 0, 0, 1, 1, 2, True) for at in range(1, count + 1)]
    return log.encode(), said[:count], faults


def is_faults(call, faults):
    status, found = written(raw().RawFault, call)
    wrong = status_of(status, FAULT if faults else OK)
    return wrong or unlike(members(A_FAULT, found), faults)


def of_log(name, log, asked):
    """The call of this name that is given a log."""
    call = getattr(raw().library, f"fdb_audit_{name}")
    refused = raw().RawRefused()
    return lambda found, room, size: call(
        log, len(log), byref(asked), found, room, size, byref(refused))


def log_text(count):
    log, said, _ = stale_lines(count)
    first = is_text(of_log("log_text", log, options()), said[:1], FAULT)
    return first or is_text(of_log("log_text", log, options(all=True)), said, FAULT)


def log_explained(count):
    _, log, said = audits.explained(count)
    return is_text(of_log("log_text", log.encode(), options(history=True)), said, OK)


def log_well(count):
    _, log, said = audits.rising(count)
    return is_text(of_log("log_text", log.encode(), options()), said, OK)


def log_faults(count):
    log, _, faults = stale_lines(count)
    return is_faults(of_log("log_faults", log, options()), faults)


def calls_of(count):
    """The same log as calls, whose clients have numbers."""
    call = lambda version, at, client, kind: (
        version, 4 * at, 4 * at + 1, client, 0, kind, True, True, True)
    reads = (call(0, at, 1, READ) for at in range(1, count + 1))
    return array(raw().RawCall, CALL, [call(5, 0, 0, COMMIT), *reads])


def calls_text(count):
    _, said, _ = stale_lines(count)
    said = [it.replace('"a"', "0").replace('"b"', "1") for it in said]
    asked = options(all=True)
    wanted = (said, FAULT) if count else ([f"audit ok {audits.counted(1, 0, commits=1)}"], OK)
    return is_text(of_log("calls_text", calls_of(count), asked), *wanted)


def calls_faults(count):
    return is_faults(of_log("calls_faults", calls_of(count), options()), stale_lines(count)[2])


def no_calls(_count):
    """No call at all is no fault."""
    none = (raw().RawCall * 0)()
    return is_faults(of_log("calls_faults", none, options()), [])


def audited(pieces, said, faults, key=b"", shown=b"", **asked):
    """An audit of a log that comes in these pieces: what it says and finds."""
    it, refused = raw(), raw().RawRefused()
    names = (key, len(key), shown, len(shown))
    audit, status = opened(it.library.fdb_audit_new, byref(options(**asked)), *names)
    if status:
        return status_of(status)
    wrong = None
    for piece in pieces:
        status = it.library.fdb_audit_push(byref(audit), piece, len(piece), byref(refused))
        wrong = wrong or status_of(status)
    wrong = wrong or status_of(it.library.fdb_audit_end(byref(audit), byref(refused)), FAULT)
    of = lambda call: lambda found, room, size: call(byref(audit), found, room, size)
    wrong = wrong or is_text(of(it.library.fdb_audit_text), said, OK)
    status, found = written(it.RawFault, of(it.library.fdb_audit_faults))
    it.library.fdb_audit_free(byref(audit))
    return wrong or status_of(status) or unlike(members(A_FAULT, found), faults)


def in_pieces(log, size):
    """Its bytes, so many at once, with an empty piece between each two."""
    for at in range(0, len(log), size):
        yield from (log[at : at + size], b"")


def audited_lines(count):
    log, said, faults = stale_lines(count)
    return audited(in_pieces(log, 4_096), said, faults, all=True)


def audited_in_json(count):
    _, log, said = audits.all_stale_in_json(count)
    asked = {"all": True, "totals": True, "json": True}
    return audited([log.encode()], said, stale_lines(count)[2], **asked)


def audited_by_key(count):
    """Of each key a read is stale by that key's commit, which is the first that outdates it."""
    _, log, said = audits.stale_by_key(count)
    faults = [(5, 4 * count - 1, count + at, 0, at, 0, at, 1, 1, 2, True) for at in range(count)]
    return audited([log.encode()], said, faults, key=b"k", all=True, totals=True)


def audited_and_shown(count):
    _, log, said = audits.stale_and_shown(count)
    return audited([log.encode()], said, stale_lines(count)[2], shown=b"x", all=True, totals=True)


def audited_names(size):
    """Names of members of so many bytes."""
    (_, key, _, shown), log, said = audits.long_members(size)
    names = {"key": key.encode(), "shown": shown.encode()}
    return audited([log.encode()], said, stale_lines(1)[2], **names)


def audited_members(count):
    """Names of so many members."""
    (_, shown), log, said = audits.many_shown(count)
    return audited([log.encode()], said, stale_lines(1)[2], shown=shown.encode())


def long_line(count):
    """A log of so many bytes and some more, whose second line is stale."""
    log, said, faults = stale_lines(1)
    return b" " * count + log, said, faults


def audited_pieces(count):
    """Pieces of one byte each, as many as that and more, and as many without any."""
    log, said, faults = long_line(count)
    return audited(in_pieces(log, 1), said, faults)


# ---- watches


def watched(pieces, said, warned=b"", key=b"", shown=b"", **asked):
    """What a watch tells of a log that comes in these pieces, and warns of."""
    it, refused = raw(), raw().RawRefused()
    asked = it.RawWatchOptions(**asked)
    names = (key, len(key), shown, len(shown))
    watch, status = opened(it.library.fdb_watch_new, byref(asked), *names)
    if status:
        return status_of(status)
    wrong, told, warnings = None, [], []
    of = lambda call: lambda found, room, size: call(byref(watch), found, room, size)

    def take():
        for texts, call in ((told, it.library.fdb_watch_text),
                            (warnings, it.library.fdb_watch_warnings)):
            status, found = written(it.c_uint8, of(call))
            texts.append(bytes(found))
            yield status_of(status)

    for piece in pieces:
        status = it.library.fdb_watch_push(byref(watch), piece, len(piece))
        wrong = wrong or status_of(status) or status_of(
            it.library.fdb_watch_tell(byref(watch), len(piece) < 2))
        wrong = wrong or next(filter(None, take()), None)
    wrong = wrong or status_of(it.library.fdb_watch_end(byref(watch), byref(refused)), FAULT)
    wrong = wrong or next(filter(None, take()), None)
    it.library.fdb_watch_free(byref(watch))
    wrong = wrong or unlike(b"".join(told).decode().splitlines(), said)
    return wrong or unlike(b"".join(warnings).splitlines(), warned.splitlines())


def told(count):
    _, log, said = watches.all_told(count)
    return watched(in_pieces(log.encode(), 65_536), said, totals=True)


def told_at_the_end(count):
    _, log, said = watches.all_told(count)
    return watched([log.encode()], said, totals=True, behind=watches.FAR)


def told_by_key(count):
    _, log, said = watches.told_by_key(count)
    return watched([log.encode()], said, key=b"k", behind=watches.FAR)


def told_and_shown(count):
    (_, _, _, shown, *_), log, said = watches.told_and_shown(count)
    return watched([log.encode()], said, shown=shown.encode(), behind=watches.FAR, totals=True)


def told_in_pieces(count):
    log, said, _ = long_line(count)
    return watched(in_pieces(log, 1), said)


def warned(count):
    _, log, said = watches.all_refused(count)
    lines = watches.refused_at(range(2, count + 2))
    return watched(in_pieces(log.encode(), 65_536), said, lines)


def kept_on(made, count, key=b"", shown=b""):
    """What a watch tells that goes on from what another kept, of as many lines as are counted."""
    it, refused, counts = raw(), raw().RawRefused(), raw().RawWatchCounted()
    _, (log, late), (_, said) = made(count)
    log, late = log.encode(), late.encode()
    asked = it.RawWatchOptions(behind=watches.FAR)
    names = (byref(asked), key, len(key), shown, len(shown))
    first, status = opened(it.library.fdb_watch_new, *names)
    wrong = status_of(status) or status_of(it.library.fdb_watch_push(byref(first), log, len(log)))
    wrong = wrong or status_of(it.library.fdb_watch_counts(byref(first), byref(counts)))
    lines, left_out = log.count(b"commit"), log.count(b"{}")
    of = (counts.lines, counts.commits, counts.refused, counts.open, counts.kept)
    wrong = wrong or unlike([of], [(lines, lines, left_out, lines, lines)])
    keep = lambda found, room, size: it.library.fdb_watch_keep(byref(first), found, room, size)
    status, kept = written(it.c_uint8, keep)
    wrong, kept = wrong or status_of(status), bytes(kept)
    restore = lambda *given: it.library.fdb_watch_restore(*given, byref(refused))
    again, status = opened(restore, *names, kept, len(kept))
    wrong = wrong or status_of(status)
    wrong = wrong or status_of(it.library.fdb_watch_push(byref(again), late, len(late)))
    wrong = wrong or status_of(it.library.fdb_watch_tell(byref(again), True))
    tell = lambda found, room, size: it.library.fdb_watch_text(byref(again), found, room, size)
    told = bytes(written(it.c_uint8, tell)[1]) if not wrong else b""
    it.library.fdb_watch_free(byref(first))
    it.library.fdb_watch_free(byref(again))
    return wrong or unlike(told.decode().splitlines(), said)


def kept(count):
    return kept_on(watches.kept, count)


def kept_by_key(count):
    return kept_on(watches.kept_by_key, count, b"k", b"x")


def kept_behind_refused(count):
    return kept_on(watches.kept_behind_refused, count)


CHAIN = "fdb_chain_new, fdb_chain_ask, RecentChain::new, RecentChain::ask"
OFFERS = "fdb_queue_new, fdb_queue_offer, GrvQueue::offer"
HELD = "fdb_queue_window, GrvQueue::window"
AUDIT = "fdb_audit_new, fdb_audit_push, fdb_audit_end, fdb_audit_text, fdb_audit_faults"
AUDIT = f"{AUDIT}, judge_named"
WATCH = "fdb_watch_new, fdb_watch_push, fdb_watch_tell, fdb_watch_end, fdb_watch_text"
KEPT = "fdb_watch_keep, fdb_watch_restore, fdb_watch_counts"
TABLE = (
    Row("fdb_chain_answers", answers_kept, CHEAP),
    Row("fdb_chain_answers", answers_let_go, CHEAP),
    Row("fdb_chain_answers", asked_at, MOMENTS),
    Row(CHAIN, asked, DEAR),
    Row(CHAIN, recovered, audits.COUNTS),
    Row(OFFERS, popped, ROOMS),
    Row(OFFERS, pushed_out, ROOMS),
    Row(f"{OFFERS}, {HELD}", counted, (*RATES, MOST_RATE - 1)),
    Row(f"{OFFERS}, {HELD}", started, ROOMS),
    Row(f"{OFFERS}, {HELD}", started_of_each, (MOST_STARTED, MOST_STARTED + 1, 33_333)),
    Row(f"{OFFERS}, {HELD}", started_in_windows, (65_538,)),
    Row(HELD, started_after, (1, audits.FEW, *audits.AROUND, 9_999_999, 10_000_000)),
    Row("fdb_queue_outcomes", outcomes, LINES),
    Row("fdb_queue_set_rates, GrvQueue::set_rates", turned_away, ROOMS),
    Row("fdb_queue_set_rates, GrvQueue::set_rates", turned_away_by, RATES),
    Row("fdb_queue_set_throttle, fdb_queue_throttle", set_again, (65_538,)),
    Row("fdb_queue_set_throttle, fdb_queue_throttle", tags, DEAR),
    Row("fdb_queue_set_throttle, fdb_queue_throttle", tag_of_bytes, (0, 1, 2, 15, 16)),
    Row("fdb_queue_set_throttle, fdb_queue_throttle", rated, MOMENTS),
    Row("fdb_queue_set_throttle, fdb_queue_throttle", expiring, MOMENTS),
    Row("fdb_audit_log_text, judge_text, first_finding", log_text, DEAR),
    Row("fdb_audit_log_text, judge_text", log_explained, DEAR),
    Row("fdb_audit_log_text, judge_text, first_finding", log_well, audits.CHEAP),
    Row("fdb_audit_log_faults, read_log", log_faults, DEAR),
    Row("fdb_audit_calls_text, judge", calls_text, (0, *DEAR)),
    Row("fdb_audit_calls_faults, Log::push", calls_faults, CHEAP),
    Row("fdb_audit_calls_faults", no_calls, (0,)),
    Row(AUDIT, audited_lines, DEAR),
    Row(AUDIT, audited_in_json, FEWER),
    Row(AUDIT, audited_by_key, FEWER),
    Row(f"{AUDIT}, member_names", audited_and_shown, FEWER),
    Row(f"{AUDIT}, member_names", audited_names, LINES[1:]),
    Row(f"{AUDIT}, member_names", audited_members, audits.SHOWN),
    Row(AUDIT, audited_pieces, LINES),
    Row(WATCH, told, DEAR),
    Row(WATCH, told_at_the_end, DEAR),
    Row(WATCH, told_by_key, FEWER),
    Row(WATCH, told_and_shown, FEWER),
    Row(WATCH, told_in_pieces, LINES),
    Row(f"{WATCH}, fdb_watch_warnings", warned, DEAR),
    Row(KEPT, kept, DEAR),
    Row(KEPT, kept_by_key, FEWER),
    Row(KEPT, kept_behind_refused, LINES),
)
TABLES = (TABLE,)


def of_library(_program):
    """The calls of the library succeed, and write what was worked out of them."""
    for row in TABLE:
        for number in row.numbers:
            yield f"{row.wrong.__name__} of {number:,}", row.wrong(number)
