"""The shared object, and its structs and functions: each that the header declares stands here."""
from __future__ import annotations

import ctypes
import os
from ctypes import (
    POINTER,
    Structure,
    c_bool,
    c_char_p,
    c_size_t,
    c_uint8,
    c_uint32,
    c_uint64,
    c_void_p,
)
from pathlib import Path
from typing import Any, Dict, List, Tuple

# What the library is called where it is installed, and where programs are linked with it.
FILES = ("libfdb_read_version.so.0", "libfdb_read_version.so")
# That of include/fdb_read_version.h: 10,000 for a major one, 100 for a minor one, 1 for a patch.
VERSION = 400
HOW = "make it with tools/bindings, or set FDB_READ_VERSION_LIB to its path"


def path_of_library() -> Path:
    """The library that the environment names, the package's own, or what the repository built."""
    here = Path(__file__).resolve()
    named = os.environ.get("FDB_READ_VERSION_LIB")
    folders = [Path(named).absolute()] if named else [here.parent]
    if not named and len(here.parents) > 4:
        folders.append(here.parents[4] / "crates" / "fdb_c" / "out")
    if named and not folders[0].is_dir():
        places = folders
    else:
        places = [it / file for it in folders for file in FILES]
    for place in places:
        if place.is_file():
            return place
    raise ImportError(f"{places[-1]} is missing: {HOW}", path=str(places[-1]))


class RawAsk(Structure):
    _fields_ = [
        ("num", c_uint64),
        ("processed", c_uint64),
        ("at", c_uint64),
        ("proxy", c_uint32),
    ]


class RawAnswer(Structure):
    _fields_ = [
        ("ordinal", c_uint64),
        ("num", c_uint64),
        ("processed", c_uint64),
        ("prev", c_uint64),
        ("version", c_uint64),
        ("at", c_uint64),
        ("proxy", c_uint32),
        ("status", c_uint8),
        ("fresh", c_bool),
    ]


class RawHandle(Structure):
    _fields_ = [("at", c_void_p)]


class RawRecord(Structure):
    _fields_ = [
        ("version", c_uint64),
        ("min_known", c_uint64),
        ("metadata", c_uint8 * 10),
        ("has_metadata", c_bool),
        ("locked", c_bool),
    ]


class RawConfig(Structure):
    _fields_ = [("normal", c_uint64), ("batch", c_uint64), ("room", c_uint64)]


class RawOp(Structure):
    _fields_ = [
        ("amount", c_uint64),
        ("payload", c_uint64),
        ("kind", c_uint8),
        ("priority", c_uint8),
    ]


class RawRequest(Structure):
    _fields_ = [("count", c_uint64), ("payload", c_uint64), ("priority", c_uint8)]


class RawOutcome(Structure):
    _fields_ = [
        ("normal", c_uint64),
        ("batch", c_uint64),
        ("system_waits", c_uint64),
        ("default_waits", c_uint64),
        ("batch_waits", c_uint64),
        ("started", c_uint64),
        ("out", RawRequest),
        ("has_out", c_bool),
        ("status", c_uint8),
    ]


class RawTurnedAway(Structure):
    _fields_ = [("request", RawRequest), ("cause", c_uint8)]


class RawLimit(Structure):
    _fields_ = [("rate", c_uint64), ("expires", c_uint64), ("holds", c_bool)]


class RawCall(Structure):
    _fields_ = [
        ("version", c_uint64),
        ("began", c_uint64),
        ("ended", c_uint64),
        ("client", c_uint32),
        ("teller", c_uint32),
        ("kind", c_uint8),
        ("has_client", c_bool),
        ("has_times", c_bool),
        ("has_ended", c_bool),
    ]


class RawOptions(Structure):
    _fields_ = [
        ("start", c_uint64),
        ("margin", c_uint64),
        ("complete", c_bool),
        ("all", c_bool),
        ("history", c_bool),
        ("totals", c_bool),
        ("json", c_bool),
    ]


class RawRefused(Structure):
    _fields_ = [("line", c_uint64), ("member", c_uint8)]


class RawFault(Structure):
    _fields_ = [
        ("known", c_uint64),
        ("late", c_uint64),
        ("place", c_uint32),
        ("other", c_uint32),
        ("by", c_uint32),
        ("learnt", c_uint32),
        ("first", c_uint32),
        ("kind", c_uint8),
        ("reason", c_uint8),
        ("means", c_uint8),
        ("has_late", c_bool),
    ]


class RawWatchOptions(Structure):
    _fields_ = [
        ("behind", c_uint64),
        ("margin", c_uint64),
        ("totals", c_bool),
        ("json", c_bool),
    ]


class RawWatchCounted(Structure):
    _fields_ = [
        ("lines", c_uint64),
        ("reads", c_uint64),
        ("commits", c_uint64),
        ("asks", c_uint64),
        ("reports", c_uint64),
        ("refused", c_uint64),
        ("early", c_uint64),
        ("judged", c_uint64),
        ("ahead", c_uint64),
        ("open", c_uint64),
        ("kept", c_uint64),
        ("newest_end", c_uint64),
        ("settled_to", c_uint64),
    ]


_CHAIN = _QUEUE = _AUDIT = _WATCH = POINTER(RawHandle)
_EPOCH = [c_uint64, c_uint64, c_uint32]
_BYTES = [c_char_p, c_size_t]
_TAG = [c_uint8, *_BYTES]
_SIZE = POINTER(c_uint64)
_REFUSED = POINTER(RawRefused)
_WATCHED = [POINTER(RawWatchOptions), *_BYTES, *_BYTES]


def _array(element: Any) -> List[Any]:
    """What stands for an array of these: where it begins, and its length."""
    return [POINTER(element), c_size_t]


def _audit(log: List[Any], found: Any) -> Tuple[Any, List[Any]]:
    """An audit of such a log, which writes such elements."""
    return c_uint8, [*log, POINTER(RawOptions), *_array(found), _SIZE, _REFUSED]


# Of each function its result and its parameters.
DECLARED: Dict[str, Tuple[Any, List[Any]]] = {
    "fdb_read_version_version": (c_uint32, []),
    "fdb_chain_new": (c_uint8, [*_EPOCH, _CHAIN]),
    "fdb_chain_ask": (c_uint8, [_CHAIN, POINTER(RawAsk), POINTER(RawAnswer)]),
    "fdb_chain_free": (None, [_CHAIN]),
    "fdb_chain_answers": (c_uint8, [*_EPOCH, *_array(RawAsk), *_array(RawAnswer)]),
    "fdb_record_after_report": (None, [POINTER(RawRecord), POINTER(RawRecord)]),
    "fdb_record_version_for": (c_uint64, [POINTER(RawRecord), c_bool]),
    "fdb_queue_new": (c_uint8, [POINTER(RawConfig), _QUEUE]),
    "fdb_queue_offer": (c_uint8, [_QUEUE, POINTER(RawRequest), POINTER(RawOutcome)]),
    "fdb_queue_window": (c_uint8, [_QUEUE, c_uint64, POINTER(RawOutcome), *_array(RawRequest)]),
    "fdb_queue_pop": (None, [_QUEUE, POINTER(RawOutcome)]),
    "fdb_queue_set_rates": (
        c_uint8,
        [_QUEUE, c_uint64, c_uint64, *_array(RawTurnedAway), _SIZE],
    ),
    "fdb_queue_waits": (c_bool, [_QUEUE, c_uint64, POINTER(c_uint64)]),
    "fdb_queue_set_throttle": (c_uint8, [_QUEUE, *_TAG, c_uint64, c_uint64]),
    "fdb_queue_throttle": (c_uint8, [_QUEUE, *_TAG, c_uint64, POINTER(RawLimit)]),
    "fdb_queue_forget_throttles": (None, [_QUEUE, c_uint64]),
    "fdb_queue_free": (None, [_QUEUE]),
    "fdb_queue_outcomes": (
        c_uint8,
        [
            POINTER(RawConfig),
            *_array(RawOp),
            *_array(RawOutcome),
            *_array(RawRequest),
            _SIZE,
        ],
    ),
    "fdb_audit_log_text": _audit(_BYTES, c_uint8),
    "fdb_audit_log_faults": _audit(_BYTES, RawFault),
    "fdb_audit_calls_text": _audit(_array(RawCall), c_uint8),
    "fdb_audit_calls_faults": _audit(_array(RawCall), RawFault),
    "fdb_audit_new": (c_uint8, [POINTER(RawOptions), *_BYTES, *_BYTES, _AUDIT]),
    "fdb_audit_push": (c_uint8, [_AUDIT, *_BYTES, _REFUSED]),
    "fdb_audit_end": (c_uint8, [_AUDIT, _REFUSED]),
    "fdb_audit_text": (c_uint8, [_AUDIT, *_array(c_uint8), _SIZE]),
    "fdb_audit_faults": (c_uint8, [_AUDIT, *_array(RawFault), _SIZE]),
    "fdb_audit_free": (None, [_AUDIT]),
    "fdb_watch_new": (c_uint8, [*_WATCHED, _WATCH]),
    "fdb_watch_restore": (c_uint8, [*_WATCHED, *_BYTES, _WATCH, _REFUSED]),
    "fdb_watch_push": (c_uint8, [_WATCH, *_BYTES]),
    "fdb_watch_tell": (c_uint8, [_WATCH, c_bool]),
    "fdb_watch_end": (c_uint8, [_WATCH, _REFUSED]),
    "fdb_watch_text": (c_uint8, [_WATCH, *_array(c_uint8), _SIZE]),
    "fdb_watch_warnings": (c_uint8, [_WATCH, *_array(c_uint8), _SIZE]),
    "fdb_watch_keep": (c_uint8, [_WATCH, *_array(c_uint8), _SIZE]),
    "fdb_watch_counts": (c_uint8, [_WATCH, POINTER(RawWatchCounted)]),
    "fdb_watch_free": (None, [_WATCH]),
}


def _loaded() -> ctypes.CDLL:
    path = path_of_library()
    try:
        found = ctypes.CDLL(str(path))
        for name, (result, parameters) in DECLARED.items():
            function = getattr(found, name)
            function.restype, function.argtypes = result, parameters
        number = found.fdb_read_version_version()
        # (one that differs in a patch alone declares the same)
        if number // 100 != VERSION // 100:
            raise OSError(f"its version is {number}, and the package's {VERSION}")
    except (OSError, AttributeError) as error:
        raise ImportError(f"{path} cannot be used ({error}): {HOW}", path=str(path)) from error
    return found


library = _loaded()
