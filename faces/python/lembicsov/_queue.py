"""Values that are accepted together, which takes a fraction of the time."""

from __future__ import annotations

from time import time
from typing import Optional

from ._given import moment
from ._library import native
from ._open import One

LENGTH, SIZE = 1024, 1024  # How many values there are at most, and how many bytes one of them has.


class Values:
    """Values of one moment, which are as good as accepted. Any threads put them in, and without a lock, since a list takes what is
    appended in one step; who opens, closes and empties it is one at a time, and takes out only in front."""

    records: list[One]
    _until: float  # When their moment is over; 0 where it is closed.
    _room: int  # How many there may be.

    def __init__(self) -> None:
        self.stamp = 0  # Their timestamp.
        self.records, self._until, self._room = [], 0.0, 0

    def put(self, record: One, value: bytes) -> Optional[bool]:
        """Puts in a record that is this value alone, while the moment lasts and there is room: whether it has. None: it has, and the
        queue was closed meanwhile, so that the record is accepted, or still in it."""
        if len(value) > SIZE or len(self.records) >= self._room or time() >= self._until:
            return False
        self.records.append(record)
        return True if self._until else None

    def withdraw(self, record: One) -> bool:
        """Takes the record out, if it is in it: whether it was."""
        if record not in self.records:
            return False
        self.records.remove(record)
        return True

    def open(self, room: int) -> None:
        """Takes values of this moment, so many at most."""
        self.stamp = moment()
        self._room = min(room, LENGTH)
        self._until = (self.stamp + 1) / 1000

    def close(self) -> list[One]:
        """Takes no more. What is in it is the caller's to take out, in front; more may come behind it."""
        self._until = 0.0
        return self.records


Queue: type[Values] = Values if native is None else native.queues(Values)
