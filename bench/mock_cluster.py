"""librdkafka's mock cluster (bench/c/cluster.c) in a process of its own, what builds it, and faults of its brokers."""
from __future__ import annotations

import os
import random
import shutil
import subprocess
import sys
from pathlib import Path

ROOT = Path(__file__).resolve().parent.parent
SOURCES = ROOT / "bench/c"
FLAGS = ["-std=c11", "-O2", "-Wall", "-Wextra", "-Wpedantic", "-Werror", "-I", str(ROOT / "crates/kp_c/include")]

BROKERS = (1, 2, 3)
APART = 0.05  # seconds between two moves
FIRST, DOWN, UP = 1.0, 2.0, 1.0  # seconds until the first broker goes, that each is down, and until the next one goes


class Wrong(Exception):
    """Why there is nothing to judge."""


def compiler() -> str:
    """A compiler, where librdkafka is here too."""
    found = os.environ.get("CC") or shutil.which("gcc") or shutil.which("clang")
    if not found:
        print(f"{sys.argv[0]}: neither gcc nor clang is here", file=sys.stderr)
        sys.exit(2)
    text = "#include <librdkafka/rdkafka.h>\n#include <librdkafka/rdkafka_mock.h>\n"
    tried = subprocess.run([found, "-E", "-x", "c", "-"], input=text, text=True, capture_output=True)
    if tried.returncode != 0:
        print(f"{sys.argv[0]}: the headers of librdkafka are not installed", file=sys.stderr)
        sys.exit(2)
    return found


def build(folder: Path, programs: dict[str, list[str | Path]]) -> None:
    """Programs of bench/c, by their sources' names, each with what it is linked with."""
    found = compiler()
    for name, others in programs.items():
        done = subprocess.run([found, *FLAGS, "-o", folder / name, SOURCES / f"{name}.c", *others])
        if done.returncode != 0:
            raise Wrong(f"{name} is not built")


class Cluster:
    """A cluster of so many brokers, for as long as it is entered, at these ports, or else at free ones."""

    def __init__(self, folder: Path, partitions: int, brokers: int = len(BROKERS), ports: tuple[int, ...] = ()) -> None:
        words = [folder / "cluster", str(partitions), str(brokers)]
        env = {**os.environ, "CLUSTER_PORTS": ",".join(map(str, ports))}
        self.process = subprocess.Popen(words, stdin=subprocess.PIPE, stdout=subprocess.PIPE, text=True, env=env)
        told = self.process.stdout.readline().split()
        if len(told) != 2:
            raise Wrong("there is no cluster")
        self.addresses, self.version = told

    def __enter__(self) -> Cluster:
        return self

    def __exit__(self, *_: object) -> None:
        self.process.kill()
        self.process.communicate()

    def order(self, words: str) -> None:
        self.process.stdin.write(f"{words}\n")
        self.process.stdin.flush()
        if self.process.stdout.readline() != "done\n":
            raise Wrong(f"the cluster refuses: {words}")


def faults(partitions: int) -> list[tuple[float, str]]:
    """Which order is given when: moves all the time, and in the meantime each broker goes down and comes up again."""
    plan, draw, end = [], random.Random(1), FIRST + len(BROKERS) * (DOWN + UP) - UP
    for n, broker in enumerate(BROKERS):
        plan.append((FIRST + n * (DOWN + UP), f"down {broker}"))
        plan.append((FIRST + n * (DOWN + UP) + DOWN, f"up {broker}"))
    for n in range(1, int(end / APART)):
        plan.append((n * APART, f"move {draw.randrange(partitions)} {draw.choice(BROKERS)}"))
    return sorted(plan)
