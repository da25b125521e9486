"""What the program kp_client_runs plays, and what it tells: the lines of a producer's senders, and what came of each."""

import re
from dataclasses import dataclass

PATIENCE = 10_000  # For how many milliseconds a report is waited for at most.
SIZE = 100  # How many bytes a value has where they are counted.


# ---- what is to be played


def block_of(address, steps, **settings):
    """The lines of a producer: its broker or its cluster, its settings (`linger_ms` is linger.ms) and the steps of its senders."""
    words = [f"{name.replace('_', '.')}={value}" for name, value in settings.items()]
    return "\n".join([" ".join([address, *words]), *steps])


def input_of(blocks):
    """The program's input."""
    return "\n\n".join(blocks) + "\n"


def value_of(sender, number):
    """The value of a sender's record, in which it tells the two."""
    return f"{sender}/{number}".ljust(SIZE, ".")


def one_by_one(sender, records, apart=0):
    """A sender's steps: it sends so many records, each once the one before it is told of, and so many milliseconds later."""
    for number in range(records):
        yield f"{sender} send 0 {value_of(sender, number)} 0"
        yield f"{sender} hear {PATIENCE}"
        if apart:
            yield f"{sender} sleep {apart}"


# ---- what came of it


@dataclass
class Told:
    """What came of a sender's step, and when that began and ended, in milliseconds from the opening on."""

    sender: int
    began: float
    ended: float
    what: str
    came: str


@dataclass
class Report:
    """What a sender was told of a record, and when that record's send began and the report was heard, in milliseconds."""

    sender: int
    partition: int
    number: int
    outcome: str
    sent: float
    heard: float

    @property
    def millis(self):
        return self.heard - self.sent


@dataclass
class Played:
    """What came of a producer."""

    told: list
    ended: float  # When its service had ended, in milliseconds from the opening on.
    ending: str
    new_connections: int
    back: int  # How many records came back.
    counts: dict  # Its statistics at the end.

    def what(self, what):
        """What came of the steps of this kind."""
        return [it for it in self.told if it.what == what]

    def reports(self):
        """What the senders were told, in the order in which it came."""
        begun, reports = {}, []
        for it in self.told:
            sent = re.fullmatch(r"Ok\(Ticket \{ partition: (\d+), number: (\d+) \}\)", it.came)
            heard = re.fullmatch(r"Some\(Report \{ sender: (\d+), partition: (\d+), number: (\d+), outcome: (.*) \}\)", it.came)
            if it.what == "sent" and sent:
                begun[it.sender, int(sent[1]), int(sent[2])] = it.began
            if it.what == "heard" and heard:
                whose = tuple(int(heard[place]) for place in (1, 2, 3))
                reports.append(Report(*whose, heard[4], begun[whose], it.ended))
        return reports


def counts_of(text):
    """Statistics, by their names. None where it is no such text."""
    fit = re.fullmatch(r"Statistics \{ (.*) \}", text)
    return fit and {name: int(count) for name, count in (it.split(": ") for it in fit[1].split(", "))}


def read_played(text):
    """What came of each producer: what was played, or the line that says why not."""
    all_came, told, end = [], [], None
    for line in text.splitlines():
        step = re.fullmatch(r"(\d+) (\d+) (\d+) (sent|heard|flushed|counted|read) (.*)", line)
        ending = re.fullmatch(r"(\d+) (\S+), (\d+) new connections, (\d+) records came back", line)
        counts = counts_of(line)
        if step:
            told.append(Told(int(step[1]), int(step[2]) / 1000, int(step[3]) / 1000, step[4], step[5]))
        elif ending:
            end = int(ending[1]) / 1000, ending[2], int(ending[3]), int(ending[4])
        elif counts and end:
            all_came.append(Played(told, *end, counts))
            told, end = [], None
        else:
            all_came.append(line)
            told = []
    return all_came
