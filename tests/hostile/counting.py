"""What a part of the suite is given, how its work is shared out among processes, and what it counts."""

import collections
import concurrent.futures
import random
import time
from dataclasses import dataclass, field
from pathlib import Path

from running import Ended, Runner


@dataclass(frozen=True)
class Setting:
    """What all parts are given."""

    dispsim: str
    dispview: str
    disptask: str
    dispfind: str
    repository: Path
    scratch: Path
    kept: Path
    jobs: int
    seed: int
    seconds: float

    def command(self, form: str) -> list[str]:
        """The command of a form such as `run --seed 7` or `dispview list`."""
        words = form.split()
        others = {"dispview": self.dispview, "disptask": self.disptask, "dispfind": self.dispfind}
        if words[0] in others:
            return [others[words[0]], *words[1:]]
        return [self.dispsim, *words]

    def examples(self) -> list[Path]:
        return sorted((self.repository / "examples").glob("*.workload"))

    def sets(self) -> list[Path]:
        return sorted((self.repository / "examples").glob("*.set"))


@dataclass
class Count:
    """How many were tried and how many failed, and a number for each kind of answer."""

    tried: int = 0
    failed: int = 0
    kinds: collections.Counter = field(default_factory=collections.Counter)
    notes: list[str] = field(default_factory=list)

    def add(self, other: "Count"):
        self.tried += other.tried
        self.failed += other.failed
        self.kinds.update(other.kinds)
        self.notes += other.notes


class Judge:
    """Counts what one process tries, and keeps each failure as a file with the command that shows it again."""

    def __init__(self, setting: Setting, part: str, seed: int, deadline: float | None = None):
        self.setting = setting
        self.part = part
        self.seed = seed
        self.deadline = time.monotonic() + setting.seconds if deadline is None else deadline
        self.draw = random.Random(f"{setting.seed} {part} {seed}")
        self.runner = Runner(setting.scratch)
        self.count = Count()

    def is_late(self) -> bool:
        """Whether the time of the part is over."""
        return self.deadline < time.monotonic()

    def passes(self, kind: str):
        self.count.tried += 1
        self.count.kinds[kind] += 1

    def fails(self, why: str, command: list[str], text: bytes, ended: Ended | None = None):
        """Keeps the input, the command and what came of it."""
        self.count.tried += 1
        self.count.failed += 1
        self.count.kinds["FAILED"] += 1
        name = f"{self.part}-{self.setting.seed}-{self.seed}-{self.count.failed}"
        self.setting.kept.mkdir(parents=True, exist_ok=True)
        (self.setting.kept / f"{name}.input").write_bytes(text)
        lines = [why, f"{' '.join(command)} < {name}.input"]
        if ended is not None:
            lines += [f"status {ended.status}, {ended.seconds:.2f} seconds of a processor, hung {ended.hung}"]
            lines += [f"error output: {ended.err[:400]!r}", f"output: {ended.out[:400]!r}"]
        (self.setting.kept / f"{name}.txt").write_text("\n".join(lines) + "\n")
        self.count.notes.append(f"{name}: {why}")

    def judge(self, fault: str | None, kind: str, command: list[str], text: bytes, ended: Ended | None = None):
        if fault is None:
            self.passes(kind)
        else:
            self.fails(fault, command, text, ended)


def share_out(work, setting: Setting, size: int, piece: int) -> Count:
    """Calls `work(setting, number, size, deadline)` for each piece of the work, in processes of its own, and adds up what they count."""
    deadline = time.monotonic() + setting.seconds
    sizes = [min(piece, size - begun) for begun in range(0, size, piece)]
    total = Count()
    with concurrent.futures.ProcessPoolExecutor(setting.jobs) as pool:
        for count in pool.map(work, [setting] * len(sizes), range(len(sizes)), sizes, [deadline] * len(sizes)):
            total.add(count)
    return total
