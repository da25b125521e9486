"""The crates that crates.txt lists, the prover's commands over the libraries that `rt ci` left in crates/*/out, what is kept on this
machine, and processors."""
import contextlib
import hashlib
import os
import re
import subprocess

# What a crate is made of.
PARTS = ("src", "specs", "proofs")
# The most memory that the check of a crate takes, in bytes.
MEMORY = 5_000_000_000


def kit():
    """The folder of the Rattle kit."""
    said = subprocess.run(["rt", "doc"], capture_output=True, text=True, check=True)
    return os.path.dirname(said.stdout.strip())


def text_of(file):
    with open(file, encoding="utf-8") as it:
        return it.read()


class Crate:
    """A crate, as crates.txt has it."""

    def __init__(self, root, name, needs, all):
        self.folder, self.name, self.needs, self.all = f"{root}/crates/{name}", name, needs, all

    def below(self):
        """The repository's libraries below it, each once."""
        found = []
        for name in self.needs:
            if name in self.all:
                found += [it for it in [*self.all[name].below(), self.all[name]] if it not in found]
        return found

    def rlib(self):
        return f"{self.folder}/out/rlib/{self.name}.rlib"

    def sum(self, seen):
        """A sum of the crate's sources and of those below it. Those that were seen are not read again."""
        if self.name not in seen:
            sum = hashlib.sha256(repr((self.name, self.needs)).encode())
            for part in PARTS:
                for at, folders, names in os.walk(f"{self.folder}/{part}"):
                    folders.sort()
                    for name in sorted(names):
                        sum.update(repr((os.path.relpath(f"{at}/{name}", self.folder), text_of(f"{at}/{name}"))).encode())
            sum.update(repr([self.all[it].sum(seen) for it in self.needs if it in self.all]).encode())
            seen[self.name] = sum.hexdigest()
        return seen[self.name]

    def is_program(self):
        return os.path.isfile(f"{self.folder}/src/main.rt")

    def root(self):
        """The file of its root, in its folder."""
        return f"src/{'main' if self.is_program() else 'lib'}.rt"

    def words(self, kit, verb):
        """The prover's command that checks or builds the crate, in its folder."""
        return [f"{kit}/bin/rattle", verb, "--crate-name", self.name, self.root(), *self.words_of_libraries(kit), "--links", f"{self.name}="]

    def words_as_source(self, kit, verb, root):
        """The prover's command that checks a crate, src/lib.rt of the folder that it is called in, over this one as source."""
        above = f"above_{self.name}"
        return [f"{kit}/bin/rattle", verb, "--crate-name", above, "src/lib.rt", "--lib", f"{self.name}={root}", *self.words_of_libraries(kit)]

    def words_of_libraries(self, kit):
        """Where the prover finds the kit's libraries and the repository's, and the logic."""
        words = []
        for name in ["std", *[it for it in self.needs if it not in self.all]]:
            words += ["--extern", f"{name}={kit}/rlibs/{name}.rlib"]
        words += ["-L", f"dependency={kit}/rlibs"]
        for name in self.needs:
            if name in self.all:
                words += ["--extern", f"{name}={self.all[name].rlib()}"]
        for it in self.below():
            words += ["-L", f"dependency={os.path.dirname(it.rlib())}"]
        words += ["--antt-project", f"{kit}/rattle/logic/antt-project.json", "--logic-built", f"{kit}/logic_built"]
        return words


def crates_of(root, kind=Crate):
    """The crates that crates.txt lists, by name."""
    crates = {}
    for line in text_of(f"{root}/crates.txt").split("\n"):
        name, colon, needs = line.partition("#")[0].partition(":")
        if colon:
            crates[name.split()[0]] = kind(root, name.split()[0], needs.split(), crates)
    return crates


def kept_folder():
    """The folder where what passed on this machine is kept."""
    return os.environ.get("LEMBICSOV_KEPT") or os.path.expanduser("~/.cache/lembicsov")


def jobs():
    """How many processors may be used: as RT_JOBS says, or all."""
    number = os.environ.get("RT_JOBS", "")
    return int(number) if number.isdigit() and int(number) else len(os.sched_getaffinity(0))


def lanes():
    """How many crates are proved side by side, by one job each: one a processor, as many as memory holds."""
    free = re.search(r"MemAvailable:\s+(\d+)", text_of("/proc/meminfo"))
    most = max(int(free[1]) * 1024 // MEMORY, 1) if free else 1
    return min(jobs(), most)


def spread(processors, count):
    """So many of these processors, far from each other: neighbours may be threads of one core, whether the system tells or not."""
    cores = {}
    for it in processors:
        with contextlib.suppress(OSError), open(f"/sys/devices/system/cpu/cpu{it}/topology/thread_siblings_list", encoding="utf-8") as told:
            cores.setdefault(told.read(), it)
    apart = list(cores.values()) or processors
    apart = apart[:: max(len(apart) // count, 1)]
    return [*apart, *(it for it in processors if it not in apart)][:count]
