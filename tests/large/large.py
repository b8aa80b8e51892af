#!/usr/bin/env python3
"""Large runs, searches and outputs of the built programs: each must end with its own status, and not with out of memory.

large.py DISPSIM DISPFIND [--part N] [--seconds S]
"""

import argparse
import subprocess
import sys
import time
from pathlib import Path

# The sizes of the whole suite. With `--part N` they are divided by N, to try the suite itself.
TICKS = 100_000
THREADS = 2_048
SEARCHED_TICKS = 33_333
SEARCHED_PROCESSORS = 6

# Threads that compute on two processors: in each second each one that waits is aged, which is an entry of its own.
LEAST_ENTRIES = 1_200_000


class Fault(Exception):
    """What came is not what was to come."""


def aged(part: int) -> bytes:
    """More threads than processors, which all compute to the end: those that wait get older."""
    threads = max(8, THREADS // part)
    lines = ["cpus 2", f"limit {TICKS // part}"] + [f"thread t{i} ts {i % 60} 0 0" for i in range(threads)]
    for i in range(threads):
        lines += [f"script t{i}", "run 100000", "end"]
    return ("\n".join(lines) + "\n").encode()


def idle(part: int) -> bytes:
    """Processors without threads. Their counts of ticks differ by one at most, and nothing else of a state changes."""
    return f"cpus {SEARCHED_PROCESSORS}\nlimit {SEARCHED_TICKS // part}\n".encode()


def idle_counts(part: int) -> tuple[int, int]:
    """How many states that workload has, and how many entries a run.

    For each least count below the limit each processor has that count or one more, and not all have one more; at the limit all have it.
    """
    limit = SEARCHED_TICKS // part
    return (2**SEARCHED_PROCESSORS - 1) * limit + 1, SEARCHED_PROCESSORS * limit


def called(command: list[str], text: bytes, status: int, seconds: float) -> bytes:
    """The output of the command, which is to end with this status and no line on the error output."""
    try:
        ended = subprocess.run(command, input=text, capture_output=True, timeout=seconds, check=False)
    except subprocess.TimeoutExpired:
        raise Fault(f"no end after {seconds:.0f} seconds") from None
    if ended.returncode != status or ended.stderr:
        raise Fault(f"status {ended.returncode}, error output {ended.stderr[:200]!r}, and not status {status} alone")
    return ended.stdout


def entries_of(journal: bytes) -> int:
    """How many entries stand above the line `accounts`: each line begins with its number, from 0."""
    count = 0
    for line in journal.split(b"\n"):
        if line == b"accounts":
            return count
        if not line.startswith(b"%d c" % count):
            raise Fault(f"line {count + 1} of the journal is {line[:60]!r}")
        count += 1
    raise Fault("the journal has no accounts")


def wants(found, wanted):
    if found != wanted:
        raise Fault(f"{found!r}, and not {wanted!r}")


class Large:
    """The calls, each of which says what came in a word or two, or raises what was at fault."""

    def __init__(self, dispsim: str, dispfind: str, part: int, seconds: float):
        self.dispsim = dispsim
        self.dispfind = dispfind
        self.part = part
        self.seconds = seconds
        self.workload = aged(part)
        self.journal = b""
        self.entries = 0

    def run(self) -> str:
        """A run of more than 1,200,000 entries."""
        self.journal = called([self.dispsim, "run"], self.workload, 0, self.seconds)
        self.entries = entries_of(self.journal)
        if self.part == 1 and self.entries < LEAST_ENTRIES:
            raise Fault(f"{self.entries} entries, and not {LEAST_ENTRIES} or more")
        return f"{self.entries} entries, {len(self.journal)} bytes"

    def sum(self) -> str:
        """The counts of the same run, and no journal."""
        first = called([self.dispsim, "sum"], self.workload, 0, self.seconds).split(b"\n")[:2]
        wants(first, [b"entries %d" % self.entries, b"ticks %d" % (2 * (TICKS // self.part))])
        return "the same count"

    def audit(self) -> str:
        """The journal of that run, judged."""
        legal = called([self.dispsim, "audit"], self.workload + b"journal\n" + self.journal, 0, self.seconds)
        wants(legal, b"legal %d\n" % self.entries)
        return legal.decode().strip()

    def threads(self) -> str:
        """A run of the same workload on threads of the host."""
        journal = called([self.dispsim, "run", "--threads"], self.workload, 0, self.seconds)
        entries = entries_of(journal)
        if self.part == 1 and entries < LEAST_ENTRIES:
            raise Fault(f"{entries} entries, and not {LEAST_ENTRIES} or more")
        return f"{entries} entries, {len(journal)} bytes"

    def states(self) -> str:
        """A search of more than two million states, whose number is known."""
        states, entries = idle_counts(self.part)
        answer = called([self.dispfind, "states", "--most", "1000000000"], idle(self.part), 0, self.seconds)
        wants(answer, b"all searched\nstates %d\nfinal 1\nentries at most %d\n" % (states, entries))
        return f"{states} states"

    def blocked(self) -> str:
        """The same search for what is in none of these states."""
        states, _ = idle_counts(self.part)
        answer = called([self.dispfind, "blocked", "--most", "1000000000"], idle(self.part), 10, self.seconds)
        wants(answer, b"never\nstates %d\n" % states)
        return "never"

    def generated(self) -> str:
        """The longest of a hundred generated workloads, and its run."""
        texts = [called([self.dispsim, "gen", str(seed)], b"", 0, self.seconds) for seed in range(100)]
        longest = max(texts, key=len)
        entries = entries_of(called([self.dispsim, "run"], longest, 0, self.seconds))
        return f"{len(longest)} bytes, {entries} entries"

    def all(self):
        return [self.run, self.sum, self.audit, self.threads, self.states, self.blocked, self.generated]


def parsed() -> argparse.Namespace:
    parser = argparse.ArgumentParser(description=__doc__.splitlines()[0])
    parser.add_argument("dispsim", type=Path, help="the built program")
    parser.add_argument("dispfind", type=Path, help="the built program")
    parser.add_argument("--part", type=int, default=1, help="divides the sizes by this, to try the suite itself")
    parser.add_argument("--seconds", type=float, default=300, help="how long a call may last")
    options = parser.parse_args()
    for program in (options.dispsim, options.dispfind):
        if not program.is_file():
            sys.exit(f"large.py: no program {program}: build it with 'rt run', or name another")
    return options


def main() -> int:
    options = parsed()
    large = Large(str(options.dispsim.resolve()), str(options.dispfind.resolve()), max(1, options.part), options.seconds)
    failed = 0
    for call in large.all():
        begun = time.monotonic()
        try:
            came = call()
        except Fault as fault:
            failed += 1
            came = f"FAILED: {fault}"
        print(f"{call.__name__}: {came}, {time.monotonic() - begun:.1f} seconds", flush=True)
    print(f"{len(large.all())} tried, {failed} failed")
    return 1 if failed else 0


if __name__ == "__main__":
    sys.exit(main())
