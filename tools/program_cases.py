"""Cases of a program, which are text: its words, its input, and what comes of them. A case is a block of lines, with an empty line
before and behind it. A mark begins each of its lines, and a blank stands between the mark and what it says:

    #    The first is the case's name; further ones, and a block that has no others, are for people. A case without one has the
         name of the case above it.
    $    The program's words.
    ?    The same of a call of whose texts only the kind is told: '> ..' where something is printed, and '! error: ..' where
         standard error begins so, '! ..' where it begins with something else.
    <    A line of the input. '<-' is a last one without its end, and '<*N' stands for N such lines.
    >    A line that is printed.
    !    A line of standard error.
    =    The status, where it is not 0.

In words and in the input '\\xNN' is a byte by its number, and the word '""' is an empty one. There and in the texts that are wanted
'X{N}' is the character (or byte) X, N times. In the texts that are wanted the word N is any number but 0. A line may also begin
with a word that whoever plays the cases knows, and says then what stands around the program.
"""

import re
from dataclasses import dataclass, field
from itertools import groupby, zip_longest

MANY = re.compile(rb"(\\x[0-9a-f]{2}|.)\{(\d+)\}")
BYTE = re.compile(rb"\\x([0-9a-f]{2})?")
SHOWN = 200  # How many bytes of a line are shown at most.


# Which program has a command; any other words are kprod's.
PROGRAMS = {it.encode(): f"kprod_{it}" for it in ("pack", "replay", "send")}


class Unclear(Exception):
    """Cases that are not understood."""


def lengthened(text):
    """The bytes of a text, with each X{N} as N times X."""
    return MANY.sub(lambda it: it[1] * int(it[2]), text.encode())


def spelled(text):
    """The bytes that a text spells."""
    return BYTE.sub(lambda it: bytes.fromhex((it[1] or b"?").decode()), lengthened(text))


def program_of(words):
    """The program that a call of kprod with these words runs."""
    return PROGRAMS.get(words[0] if words else b"", "kprod")


def line_of(bytes_of_line):
    return bytes_of_line + b"\n"


@dataclass
class Case:
    """A case: where it begins, what the program is given, and what has to come of it."""

    file: str
    line: int
    name: str = ""
    words: list = None
    given: bytes = b""
    out: bytes = b""
    err: bytes = b""
    status: int = 0
    is_of_kind: bool = False  # Only of which kind its texts are is told.
    around: dict = field(default_factory=dict)  # By word what its further lines say.

    @property
    def place(self):
        return f"{self.file}:{self.line}"

    def take(self, row, known):
        """Adds what a line says; a ValueError where that is not understood."""
        mark, _, text = row.partition(" ")
        if mark == "#":
            self.name = self.name or text
        elif mark in ("$", "?") and self.words is None:
            self.words, self.is_of_kind = [b"" if it == '""' else spelled(it) for it in text.split()], mark == "?"
        elif mark in ("<", "<-"):
            self.given += spelled(text) if mark == "<-" else line_of(spelled(text))
        elif mark.startswith("<*"):
            self.given += int(mark[2:]) * line_of(spelled(text))
        elif mark == ">":
            self.out += line_of(lengthened(text))
        elif mark == "!":
            self.err += line_of(lengthened(text))
        elif mark == "=":
            self.status = int(text)
        elif mark in known:
            self.around.setdefault(mark, []).append(text)
        else:
            raise ValueError(row)

    def differences(self, out, err, status):
        """What came otherwise than it is wanted; nothing where all is as it is wanted."""
        if self.is_of_kind:
            out, err = kind_of(out), kind_of(err)
        found = [difference("what is printed", self.out, out), difference("standard error", self.err, err)]
        if status != self.status:
            found.append(f"the status is {status}, and not {self.status}")
        return "; ".join(filter(None, found))


def kind_of(text):
    return line_of(b"error: .." if text.startswith(b"error: ") else b"..") if text else b""


def difference(what, wanted, came):
    """The first line of a text that is not as it is wanted, or nothing."""
    if wanted == came:
        return ""
    for number, (one, other) in enumerate(zip_longest(wanted.split(b"\n"), came.split(b"\n")), 1):
        if not is_met(one, other):
            return f"line {number} of {what} is {shown(other)}, and not {shown(one)}"
    return ""


def is_met(wanted, came):
    """Whether a line is as it is wanted, of which each word N is any number but 0."""
    if wanted is None or came is None or wanted == came:
        return wanted == came
    words = (rb"[1-9][0-9]*" if it == b"N" else re.escape(it) for it in wanted.split(b" "))
    return re.fullmatch(b" ".join(words), came) is not None


def shown(line):
    if line is None:
        return "none"
    text = repr(line[:SHOWN].decode(errors="backslashreplace"))
    return text if len(line) <= SHOWN else f"{text} and {len(line) - SHOWN} bytes more"


def case_of(file, rows, known):
    """The case of a block of numbered lines, or nothing where it is for people alone."""
    case = Case(file.name, rows[0][0])
    for number, row in rows:
        try:
            case.take(row, known)
        except ValueError:
            raise Unclear(f"{file.name}:{number}: not understood: {row}") from None
    if case.words is None and not all(row.startswith("#") for _, row in rows):
        raise Unclear(f"{case.place}: a case without words")
    return case if case.words is not None else None


def cases_in(file, known=()):
    """The cases of a file, whose lines may begin with these words too."""
    cases, rows = [], enumerate(file.read_text("utf-8").split("\n"), 1)
    for is_block, block in groupby(rows, lambda it: it[1] != ""):
        case = case_of(file, list(block), known) if is_block else None
        if case:
            case.name = case.name or (cases[-1].name if cases else "")
            cases.append(case)
    if not cases:
        raise Unclear(f"{file.name}: no case")
    return cases
