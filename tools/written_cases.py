"""Cases (docs/TESTING.md) that are written out before a program plays them: each step by those that it stands for, with named texts,
shared steps and repeats in their places. What is wrong is told by the file, the line and the case that a person wrote.
"""
from __future__ import annotations

import os
import re
import shlex
import shutil
import subprocess
import sys
import tempfile
from dataclasses import dataclass
from pathlib import Path

TOOLS = Path(__file__).resolve().parent
SECONDS = 600  # A program's time for its files.
FAULT = re.compile(r"([^:]+):(\d+): (.*)")
COUNT = re.compile(r"([^:]+): (\d+) cases, (\d+) wrong")


# What comes of a step whose words are not what its expander looks for.
NOT_UNDERSTOOD = AttributeError, IndexError, KeyError, OverflowError, TypeError, ValueError


class Unclear(Exception):
    """Why a step can't be written out, or what is wrong with it before it is played."""


@dataclass
class Step:
    """A step as it is played, what it has to come to, and how it is told."""

    words: str
    wanted: str
    told: str


def parts_of(step: str) -> tuple[str, str]:
    """The words of a step, and what it has to come to."""
    words, _, wanted = f"{step} ".partition(" = ")
    return words.strip(), wanted.strip()


def as_it_is(words: str, wanted: str) -> list[Step]:
    return [Step(words, wanted, words)]


class CaseFile:
    """A file of cases. `expander()` is made for each of them; called with a step's words and with what it has to come to, it gives the
    steps that are played in its place. What a program tells of a wrong one is told as `legible` has it."""

    def __init__(self, path: Path, expander=lambda: as_it_is, legible=str) -> None:
        self.name, self.legible = path.name, legible
        self.texts, self.shared, self.cases = {}, {}, []
        self.read(path.read_text("utf-8").split("\n"))
        self.text = []  # as it is written out
        self.sources = {}  # of each line that is written out the number of its case, the line that it comes from, and the step
        self.wrong = {}  # by the number of a case the line, and what is wrong
        self.blamed = 0  # cases in which the program found what is wrong
        for case in range(len(self.cases)):
            self.write_out(case, expander())

    def read(self, lines: list[str]) -> None:
        block = None
        for number, line in enumerate(map(str.strip, lines), 1):
            if line.startswith("let "):
                name, _, text = line.removeprefix("let ").partition(" ")
                self.texts.setdefault(name, text)
            elif not line:
                block = None
            elif block is not None:
                block += [] if line.startswith("#") else [(number, line)]
            elif not line.startswith("#"):
                block = []
                if line.startswith("steps "):
                    self.shared.setdefault(line.removeprefix("steps "), block)
                else:
                    self.cases.append((line, block))

    def spelled(self, line: str) -> str:
        """The line with each named text in the place of its name."""
        try:
            return re.sub(r"\$\{([^}]*)\}", lambda it: self.texts[it[1]], line)
        except KeyError as name:
            raise Unclear(f"{line}: no text is named {name}") from None

    def lines_of(self, number: int, line: str):
        """The lines that a line stands for, each with its number."""
        _, times, step = line.split(" ", 2) if re.match(r"times \d+ ", line) else ("", 1, line)
        lines = [(number, step)]
        if step.startswith("do "):
            lines = self.shared.get(step.removeprefix("do "), lines)
        for _ in range(int(times)):
            for at, it in lines:
                yield from [(at, it)] if it == line else self.lines_of(at, it)

    def write_out(self, case: int, expand) -> None:
        name, block = self.cases[case]
        self.text.append(name)
        for number, line in (it for own in block for it in self.lines_of(*own)):
            try:
                steps = expand(*parts_of(self.spelled(line)))
            except Unclear as fault:
                self.wrong[case] = number, str(fault)
                break
            except NOT_UNDERSTOOD:
                self.wrong[case] = number, f"{line}: not understood"
                break
            for step in steps:
                self.text.append(f"{step.words} = {step.wanted}" if step.wanted else step.words)
                self.sources[len(self.text)] = case, number, step
        self.text.append("")

    def blame(self, line: int, text: str) -> bool:
        """Takes down what a program tells of a line that was written out: whether there is one."""
        if line not in self.sources:
            return False
        case, number, step = self.sources[line]
        self.blamed += 1
        text = text.removeprefix(f"{self.cases[case][0]}: ")
        text = step.told + text.removeprefix(step.words) if text.startswith(step.words) else text
        self.wrong[case] = number, self.legible(text)
        return True

    def told(self) -> list[str]:
        """What came of it, as a program tells it of a file."""
        wrong = [f"{self.name}:{number}: {self.cases[case][0]}: {text}" for case, (number, text) in sorted(self.wrong.items())]
        return [*wrong, f"{self.name}: {len(self.cases)} cases, {len(self.wrong)} wrong"]


def play(player: str, subject: str, files: list[CaseFile]) -> list[str]:
    """Has the files, whose cases are of this subject, played by a program, or by a command that takes the same words. What it says beside
    what is wrong with which case."""
    with tempfile.TemporaryDirectory(prefix="cases-") as room:
        for file in files:
            Path(room, file.name).write_text("\n".join(file.text), "utf-8")
        command = shlex.split(player)
        if Path(player).is_file():  # (as rt ci leaves it, which is not marked as a program)
            os.mkdir(f"{room}/by")
            command = [shutil.copyfile(player, f"{room}/by/player")]
            os.chmod(command[0], 0o755)
        names = [it.name for it in files]
        ran = subprocess.run([*command, f"{subject}:", *names], cwd=room, capture_output=True, text=True, timeout=SECONDS)
    named, counted, others = {it.name: it for it in files}, {}, ran.stderr.splitlines()
    for line in ran.stdout.splitlines():
        if count := COUNT.fullmatch(line):
            counted[count[1]] = int(count[2]), int(count[3])
        elif not (fault := FAULT.fullmatch(line)) or fault[1] not in named or not named[fault[1]].blame(int(fault[2]), fault[3]):
            others.append(line)
    for file in files:
        if counted.get(file.name) != (len(file.cases), file.blamed):
            others.append(f"{file.name}: the program tells of {file.blamed} wrong cases, and counts otherwise")
    if (ran.returncode == 0) != all(it.cases and not it.blamed for it in files):
        others.append(f"the program's status is {ran.returncode}")
    return others


def tell(player: str, subject: str, files: list[CaseFile]) -> bool:
    """Has the files played, and says what came of them: whether all is right."""
    others = play(player, subject, files)
    for line in [line for it in files for line in it.told()] + others:
        print(line)
    return not others and all(it.cases and not it.wrong for it in files)


# ---- a script over the cases of tools/NAME


def is_told(player: str, subject: str, folder: str, made, path: Path, old: str, new: str, case: str, said: str) -> bool:
    """Whether, where this is changed in a copy of a file, that case alone is told to be wrong, at the line of the change."""
    before, found, behind = path.read_text("utf-8").partition(old)
    copy = Path(folder, path.name)
    copy.write_text(before + new + behind, "utf-8")
    file = made(copy)
    others = play(player, subject, [file])
    *wrong, _ = file.told()
    at = f"{path.name}:{before.count(chr(10)) + 1}: {case}: "
    return bool(found) and not others and len(wrong) == 1 and wrong[0].startswith(at) and said in wrong[0]


def self_test(name: str, player: str, subject: str, made, tries: list[tuple]) -> int:
    """Tries whether faults are told: of each what is tried, the file, what is changed in it to what, in which case, and what is said."""
    told = []
    with tempfile.TemporaryDirectory(prefix=f"{name}-self-test-") as folder:
        for what, file, *words in tries:
            told.append(is_told(player, subject, folder, made, TOOLS / name / f"{file}.cases", *words))
            print(f"{what}: {'told' if told[-1] else 'not told'}", flush=True)
        empty = Path(folder, "empty.cases")
        empty.write_text("# No case.\n", "utf-8")
        told.append(not tell(player, subject, [made(empty)]))
    print(f"{name}: {sum(told)} of {len(told)} faults told")
    return 0 if all(told) else 1


def main(name: str, subject: str, made, tries: list[tuple], more=lambda _: []) -> int:
    """`NAME_runs PLAYER [FILE..]` and `NAME_runs --self-test PLAYER` over cases of a subject, where `made` makes a file of cases of its path,
    and `more` writes further files to a folder, which are played where none is named."""
    is_self_test = sys.argv[1:2] == ["--self-test"]
    player, *paths = sys.argv[1 + is_self_test:] or [""]
    if not player or is_self_test and paths:
        sys.exit(f"usage: tools/{name}_runs PLAYER [FILE..], or tools/{name}_runs --self-test PLAYER")
    if is_self_test:
        return self_test(name, player, subject, made, tries)
    with tempfile.TemporaryDirectory(prefix=f"{name}-runs-") as folder:
        files = [made(Path(it)) for it in paths or [*sorted((TOOLS / name).glob("*.cases")), *more(Path(folder))]]
        is_right = tell(player, subject, files)
    cases, wrong = sum(len(it.cases) for it in files), sum(len(it.wrong) for it in files)
    print(f"{name}: {cases - wrong} of {cases} cases passed")
    return 0 if is_right else 1
