"""Audits a log: `python -m fdb_read_version LOG` prints what `fdb_audit` does, by its statuses."""
from __future__ import annotations

import argparse
import os
import sys
from typing import Any, Dict, List, Optional

from . import Audit, LogRefused, Refused, Status, Watch

# (2 is argparse's, of words that are refused)
_FINE, _LOG_REFUSED, _NO_MEMORY, _FAULT, _NO_STREAM = 0, 1, 3, 4, 5

# The most bytes that are read at once of a log that is followed.
_PIECE = 65_536


def _read(name: str) -> bytes:
    with open(0 if name == "-" else name, "rb", closefd=name != "-") as file:
        return file.read()


def _write(text: str) -> None:
    with open(1, "wb", closefd=False) as out:
        out.write(text.encode())


def _audited(given: argparse.Namespace, asked: Dict[str, Any]) -> Status:
    """Audits the whole log, and prints what is found."""
    with Audit(
        complete=given.complete,
        all=(given.all or given.json) and not given.summary,
        history=given.history,
        **asked,
    ) as found:
        found.push(_read(given.log))
        status = found.end()
        _write(found.text())
    return status


def _said(watch: Watch) -> None:
    sys.stderr.write(watch.warnings())
    sys.stderr.flush()
    _write(watch.text())


def _followed(given: argparse.Namespace, asked: Dict[str, Any]) -> Status:
    """Follows the log until it ends, and prints each fault as soon as it is certain."""
    from_input = given.log == "-"
    with Watch(given.follow, **asked) as watch, open(
        0 if from_input else given.log, "rb", closefd=not from_input
    ) as log:
        piece = os.read(log.fileno(), _PIECE)
        while piece:
            watch.push(piece)
            watch.tell(idle=len(piece) < _PIECE)
            _said(watch)
            piece = os.read(log.fileno(), _PIECE)
        try:
            status = watch.end()
        except LogRefused:
            _said(watch)
            raise
        _said(watch)
    return status


def _count(text: str) -> int:
    if not (text.isascii() and text.isdigit() and len(text) < 20 and int(text) < 1 << 63):
        raise argparse.ArgumentTypeError(f"no whole number below 2^63: {text}")
    return int(text)


def main(words: Optional[List[str]] = None) -> int:
    """Audits the log that these words name, and gives the exit status."""
    reader = argparse.ArgumentParser(
        prog="python -m fdb_read_version",
        allow_abbrev=False,
        description="Audits a log of read versions and commit versions.",
        epilog="Exit status: 0 no fault, 1 the log is refused or lines came early, 2 the words are "
        "refused, 3 want of memory, 4 a fault, 5 reading or writing failed.",
    )
    reader.add_argument(
        "log", metavar="LOG", nargs="?", default="-", help="its file, JSON Lines; - is standard input"
    )
    reader.add_argument(
        "--complete", type=_count, metavar="START", help="all calls are here; all began at START"
    )
    reader.add_argument(
        "--margin", type=_count, default=0, metavar="N", help="how far two clocks may be apart"
    )
    reader.add_argument(
        "--follow",
        type=_count,
        metavar="N",
        help="tell each Order and NotAbove as the log grows, until it ends; a line begins at most N "
        "behind the newest end",
    )
    reader.add_argument("--key", metavar="MEMBER", help="judge each key, which it has, by itself")
    reader.add_argument(
        "--show", metavar="MEMBERS", help="members, parted by commas, to write with each line"
    )
    reader.add_argument(
        "--all", action="store_true", help="write all faults, not the first alone, and totals"
    )
    reader.add_argument("--summary", action="store_true", help="write totals in place of faults")
    reader.add_argument(
        "--json", action="store_true", help="write JSON objects, one a line, of all faults"
    )
    reader.add_argument("--history", action="store_true", help="write an order that explains it")
    given = reader.parse_args(words)
    try:
        if given.key == "":
            raise ValueError("--key names no member")
        if given.follow is not None and (given.complete is not None or given.history or given.summary):
            raise ValueError("--complete, --history and --summary do not suit --follow")
        asked = {
            "margin": given.margin,
            "key": given.key,
            "show": () if given.show is None else given.show.split(","),
            "totals": given.all or given.json or given.summary,
            "json": given.json,
        }
        status = (_audited if given.follow is None else _followed)(given, asked)
    except ValueError as error:
        reader.error(str(error))
    except (Refused, MemoryError, OSError) as error:
        print(f"fdb_read_version: {error}", file=sys.stderr)
        if isinstance(error, OSError):
            return _NO_STREAM
        return _LOG_REFUSED if isinstance(error, LogRefused) else _NO_MEMORY
    return _FAULT if status == Status.FAULT else _FINE


if __name__ == "__main__":
    sys.exit(main())
