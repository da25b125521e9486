"""How threads wait for each other.

Each that waits has a lock of its own, which the other one releases. A condition or an event would do the same, but for a signal's handler
that raises as somebody waits by it: it may leave its own lock as that should not be, for which the other one would wait.
"""

from __future__ import annotations

import threading


def hold_back(those: list[threading.Lock], turn: threading.Lock | None = None) -> threading.Lock:
    """The lock by which a thread waits until those are let go; it may be the one by which it has waited before. Nobody else changes
    those meanwhile."""
    turn = turn or threading.Lock()
    if turn not in those:
        turn.acquire(blocking=False)
        those.append(turn)
    return turn


def let_go(those: list[threading.Lock]) -> None:
    """All that were held back go on. Nobody else changes those meanwhile."""
    while those:
        those.pop().release()
