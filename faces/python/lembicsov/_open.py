"""The records that are open: who awaits the report of each."""

from __future__ import annotations

import ctypes
import struct
from collections import defaultdict
from typing import Any, Iterable, List, Optional, Sequence, Tuple, Union

from ._futures import ALONE, Many, Part, Pending, Single, delivered
from ._library import kp, native
from ._values import ADVICE, Outcome, Report

RUN = struct.Struct("=QqQII")  # kp_report_run: the number and the detail of the first, how many, the partition and the outcome.
REPORTS = 1024  # How many reports a call fetches, at most.
OUTCOMES = tuple(Outcome)
TOLD = 1024  # So many places of records that were told of a line has at least, and more than others, before it lets go of them.

One = Union[Pending, Single]
Owner = Union[One, Part]
Telling = Tuple[Owner, int, Report]  # An owner is to be told of the record with this number.


class Line:
    """A partition's records in the order of their numbers: who owns each, and nobody once it has its report."""

    owners: List[Optional[Owner]]
    _first: int  # The number of the first.
    _told: int  # So many in front have their report, and then comes one that has not.

    def __init__(self) -> None:
        self.owners, self._first, self._told = [], 0, 0

    @property
    def count(self) -> int:
        """How many there ever were."""
        return self._first + len(self.owners)

    @property
    def oldest(self) -> int:
        """The number of the oldest that is open, or of the next."""
        return self._first + self._told

    def take(self, number: int, count: int) -> List[Any]:
        """Who owned so many records from this number on."""
        owners, place = self.owners, number - self._first
        taken = owners[place : place + count]
        owners[place : place + count] = [None] * count
        if place == self._told:
            told, length = place + count, len(owners)
            while told < length and owners[told] is None:
                told += 1
            if told > TOLD and 2 * told > length:
                del owners[:told]
                self._first += told
                told = 0
            self._told = told
        return taken


class Open:
    """By partition and number, who owns each record that a producer has accepted and that has no report."""

    records: int  # How many there are.
    left: list[Tuple[int, int, int, int, int]]  # Runs that were fetched: partition, outcome, number and detail of the first, how many.
    _lines: defaultdict[int, Line]
    _producer: int  # Where the library's producer lies, and the room for runs of reports.
    _runs_place: int

    def __init__(self, producer: Any) -> None:
        self.records, self.left, self._lines = 0, [], defaultdict(Line)
        runs = bytearray(RUN.size * REPORTS)
        self._runs, self._runs_at = memoryview(runs), (ctypes.c_char * len(runs)).from_buffer(runs)
        self._handle = ctypes.byref(producer)
        self._producer, self._runs_place = ctypes.addressof(producer), ctypes.addressof(self._runs_at)

    def put(self, partition: int, whose: Sequence[One] | Many, count: int) -> None:
        """So many of the next records of the partition are those of the first owners, or of many values."""
        line = self._lines[partition]
        line.owners += [Part(whose, line.count, count)] * count if isinstance(whose, Many) else whose[:count]
        self.records += count

    def recount(self) -> None:
        """Counts anew how many there are."""
        self.records = sum(len(line.owners) - line.owners.count(None) for line in self._lines.values())

    def count(self, partition: int) -> int:
        """How many there ever were of a partition."""
        return self._lines[partition].count

    def counts(self) -> dict[int, int]:
        """By partition, how many were accepted up to now."""
        return {partition: line.count for partition, line in self._lines.items()}

    def is_past(self, counts: dict[int, int]) -> bool:
        """Whether none is open that was accepted before these counts."""
        return all(line.oldest >= counts.get(partition, 0) for partition, line in self._lines.items())

    def fetch_runs(self, keeps: bool) -> None:
        """Fetches the reports that there are, as runs that are left. (`native` takes those out whose owners all keep their reports.)"""
        told = REPORTS
        while told == REPORTS:
            count, told = kp.kp_producer_report_runs(self._handle, self._runs_at, REPORTS), 0
            for number, detail, many, partition, code in RUN.iter_unpack(self._runs[: RUN.size * count]):
                told += many
                self.left.append((partition, code, number, detail, many))

    def fetch(self, keeps: bool) -> list[Telling]:
        """Fetches the reports that there are, and takes out the records that they are of. Owners keep their reports, where they may;
        the others are to be told. The caller has `keeping`."""
        self.fetch_runs(keeps)
        telling: list[Telling] = []
        if self.left:
            left, self.left = self.left, []
            for run in left:
                telling += self._take_run(*run, keeps)
        return telling

    def _take_run(self, partition: int, code: int, number: int, detail: int, count: int, keeps: bool) -> list[Telling]:
        """Takes out so many records of a partition from this number on. The detail is that of the first."""
        self.records -= count
        owners, outcome = self._lines[partition].take(number, count), OUTCOMES[code]
        if outcome is not Outcome.DELIVERED:
            report = Report(partition, None, outcome, ADVICE[outcome], detail)
            return [(owner, number + k, report) for k, owner in enumerate(owners)]
        tell = self._keep if keeps else told
        return tell(owners, number, partition, detail, range(count))

    @staticmethod
    def _keep(owners: list[Any], number: int, partition: int, offset: int, places: Sequence[int]) -> list[Telling]:
        """Has those owners at these places keep the reports of records that were delivered to offsets that go up by one. What is to
        be told of the others."""
        left: List[int] = []
        begin = 0
        while begin < len(places) and type(owners[places[begin]]) is Part:  # (which has all behind it, up to its end)
            place = places[begin]
            count = min(owners[place].end - number, len(owners)) - place
            left += range(place + owners[place].keep(number + place, partition, offset + place, count), place + count)
            begin += count
        for place in places[begin:]:
            owner = owners[place]
            if type(owner) is Pending and owner._partition == ALONE:
                owner.sent = offset + place
                owner._partition = partition
            elif not owner.keep(number + place, partition, offset + place, 1):
                left.append(place)
        return told(owners, number, partition, offset, left)


def told(owners: list[Owner], number: int, partition: int, offset: int, places: Iterable[int]) -> list[Telling]:
    """What is to be told of those records at these places that were delivered to offsets that go up by one."""
    return [(owners[place], number + place, delivered(partition, offset + place)) for place in places]


if native is not None:
    Line, Open = native.lines_and_all(Line, Open)  # type: ignore[misc]
