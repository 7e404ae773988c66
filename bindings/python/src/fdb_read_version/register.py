"""The register: what the sequencer keeps of the newest commit that was reported."""
from __future__ import annotations

from ctypes import byref
from dataclasses import dataclass
from typing import Optional

from ._library import RawRecord, library
from ._values import flag, instance, number, octets


@dataclass(frozen=True)
class Record:
    """The live committed version, with lock, metadata version and minimum known committed version.

    A metadata version is ten bytes, or None. A new register is a record of the recovery version.
    """

    version: int
    locked: bool = False
    metadata: Optional[bytes] = None
    min_known: int = 0

    def __post_init__(self) -> None:
        if self.metadata is not None:
            object.__setattr__(self, "metadata", octets("metadata", self.metadata))
            if len(self.metadata) != 10:
                raise ValueError("a metadata version has ten bytes")

    def _raw(self) -> RawRecord:
        raw = RawRecord(number("version", self.version), number("min_known", self.min_known))
        raw.metadata[:] = self.metadata or bytes(10)
        raw.has_metadata, raw.locked = self.metadata is not None, flag("locked", self.locked)
        return raw

    def after_report(self, reported: Record) -> Record:
        """The record after a report.

        One of a greater version replaces version, lock and metadata version, and the greater
        minimum stays.
        """
        kept, given = self._raw(), instance("reported", reported, Record)._raw()
        library.fdb_record_after_report(byref(kept), byref(given))
        metadata = bytes(kept.metadata) if kept.has_metadata else None
        return Record(kept.version, kept.locked, metadata, kept.min_known)

    def version_for(self, use_min: bool = False) -> int:
        """The read version that it gives: its version, or with `use_min` its minimum."""
        is_min = flag("use_min", use_min)
        return int(library.fdb_record_version_for(byref(self._raw()), is_min))
