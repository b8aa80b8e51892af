#!/usr/bin/env python3
"""Compares the responses of random task sets with exact response-time analysis, and times a large set.

    tests/tasks/analysis.py [--disptask P] [--dispsim P] [--dispview P] [--seed N] [--sets N] [--kept FOLDER]

Each random set has two to eight tasks on one processor, each with a level and a period of its own, whose jobs only
run, and that all meet their deadlines by the analysis. Responses are counted from the journal that `dispsim run`
prints of the expansion.
"""

import argparse
import random
import subprocess
import sys
import time
from dataclasses import dataclass
from fractions import Fraction
from pathlib import Path

REPOSITORY = Path(__file__).resolve().parents[2]

# A script has 256 operations at most, and a job with one of them has two.
MOST_RELEASES = 128


@dataclass(frozen=True)
class Task:
    """The higher the level, the better. Period and work are ticks."""

    name: str
    level: int
    period: int
    work: int
    cpu: int = 0


def response(task: Task, tasks: list[Task]) -> int | None:
    """The worst response by the analysis of Joseph and Pandya: the least R with R = C + the sum of ceil(R / T) C over
    the better tasks of the processor; none where that is greater than the period."""
    better = [other for other in tasks if other.cpu == task.cpu and task.level < other.level]
    length = task.work
    while length <= task.period:
        wanted = task.work + sum(-(-length // other.period) * other.work for other in better)
        if wanted == length:
            return length
        length = wanted
    return None


def has_tie(task: Task, tasks: list[Task], length: int) -> bool:
    """Whether the worst response ends on a tick at which a better task is released, or the task itself."""
    better = [other for other in tasks if other.cpu == task.cpu and task.level <= other.level]
    return any(length % other.period == 0 for other in better)


def set_text(tasks: list[Task], limit: int, cpus: int = 1) -> bytes:
    """The task set; bound where there are several processors."""
    lines = [f"cpus {cpus}", f"limit {limit}"]
    for task in tasks:
        bound = f" on {task.cpu}" if 1 < cpus else ""
        lines.append(f"task {task.name} rt {task.level} inf period {task.period}{bound}")
    for task in tasks:
        lines += [f"job {task.name}", f"run {task.work}", "end"]
    return ("\n".join(lines) + "\n").encode()


def called(command: list[str], given: bytes) -> bytes:
    """What the command prints, which must end with status 0."""
    return subprocess.run(command, input=given, stdout=subprocess.PIPE, check=True, timeout=60).stdout


def responses(tasks: list[Task], journal: bytes) -> dict[str, list[int]]:
    """The responses of the jobs that are complete: job i of a task has its last tick where the thread has run for
    i + 1 times its work, and is complete at the count of ticks of the processor behind that tick."""
    by_name = {task.name: task for task in tasks}
    counts: dict[str, int] = {}
    run: dict[str, int] = dict.fromkeys(by_name, 0)
    found: dict[str, list[int]] = {task.name: [] for task in tasks}
    for line in journal.decode().splitlines():
        words = line.split()
        if words[0] == "accounts":
            break
        cpu, event = words[1], words[2]
        if event not in ("tick", "spin", "idle"):
            continue
        counts[cpu] = counts.get(cpu, 0) + 1
        if event == "tick" and words[3] in by_name:
            task = by_name[words[3]]
            run[task.name] += 1
            jobs, rest = divmod(run[task.name], task.work)
            if rest == 0:
                found[task.name].append(counts[cpu] - (jobs - 1) * task.period)
    return found


def random_set(draw: random.Random) -> list[Task]:
    """Tasks that meet their deadlines by the analysis, with levels in the order of periods or in any."""
    while True:
        periods = [draw.randint(2, draw.choice([12, 40, 80])) for _ in range(draw.randint(2, 8))]
        levels = sorted(draw.sample(range(59), len(periods)), reverse=True)
        if draw.random() < 0.8:
            periods.sort()
        tasks = []
        for number, (period, level) in enumerate(zip(periods, levels, strict=True)):
            work = max(1, round(period * draw.random() / len(periods) * 2))
            tasks.append(Task(f"t{number}", level, period, work))
        draw.shuffle(tasks)
        busy = sum(Fraction(task.work, task.period) for task in tasks)
        if busy <= 1 and all(response(task, tasks) is not None for task in tasks):
            return tasks


def limit_of(tasks: list[Task]) -> int:
    """Three times the longest period, as far as scripts go; no response is longer than that period."""
    longest = max(task.period for task in tasks)
    return max(longest, min(3 * longest, MOST_RELEASES * min(task.period for task in tasks)))


class Programs:
    """The built programs, and what they make of a set."""

    def __init__(self, options: argparse.Namespace):
        self.disptask = str(options.disptask)
        self.dispsim = str(options.dispsim)
        self.dispview = str(options.dispview)

    def journal(self, text: bytes) -> bytes:
        return called([self.dispsim, "run"], called([self.disptask], text))

    def differences(self, tasks: list[Task], text: bytes) -> list[str]:
        """For each task whose worst response is not that of the analysis, both."""
        found = responses(tasks, self.journal(text))
        told = []
        for task in tasks:
            wanted, worst = response(task, tasks), max(found[task.name], default=None)
            if worst != wanted:
                told.append(f"{task.name}: analysis {wanted}, run {worst}")
        return told


def compare_random(programs: Programs, options: argparse.Namespace) -> tuple[int, int]:
    """How many sets were tried, and how many differ; those are kept."""
    draw = random.Random(options.seed)
    failed = tasks_tried = ties = 0
    for number in range(options.sets):
        tasks = random_set(draw)
        text = set_text(tasks, limit_of(tasks))
        tasks_tried += len(tasks)
        ties += sum(has_tie(task, tasks, response(task, tasks)) for task in tasks)
        told = programs.differences(tasks, text)
        if told:
            failed += 1
            options.kept.mkdir(parents=True, exist_ok=True)
            (options.kept / f"differs-{options.seed}-{number}.set").write_bytes(text)
            print(f"set {number}: {'; '.join(told)}")
    print(f"seed {options.seed}: {options.sets} sets, {tasks_tried} tasks; {ties} worst responses end at a release")
    return options.sets, failed


def compare_textbook(programs: Programs) -> tuple[int, int]:
    """The set of Burns and Wellings, whose worst responses they give as 80, 15 and 5."""
    tasks = [Task("a", 10, 80, 40), Task("b", 20, 40, 10), Task("c", 30, 20, 5)]
    found = responses(tasks, programs.journal(set_text(tasks, 160)))
    worst = [max(found[task.name]) for task in tasks]
    print(f"Burns and Wellings: {worst}")
    return 1, int(worst != [80, 15, 5])


def large_set() -> list[Task]:
    """100 tasks on 8 processors, of which the longest periods have the least levels."""
    return [Task(f"task{i}", 58 - i // 8, 100 + 10 * (i // 8), 1 + i % 7, i % 8) for i in range(100)]


def time_large(programs: Programs) -> tuple[int, int]:
    """The large set expanded, run and reported, with its responses compared; it fails where that takes a second."""
    tasks = large_set()
    text = set_text(tasks, 800, cpus=8)
    begun = time.monotonic()
    workload = called([programs.disptask], text)
    expanded = time.monotonic()
    journal = called([programs.dispsim, "run"], workload)
    run = time.monotonic()
    called([programs.dispview, "report"], text + b"journal\n" + journal)
    reported = time.monotonic()
    found = responses(tasks, journal)
    differ = [task.name for task in tasks if max(found[task.name]) != response(task, tasks)]
    steps = (expanded - begun, run - expanded, reported - run, reported - begun)
    print("100 tasks on 8 processors: expanded {:.3f}, run {:.3f}, reported {:.3f}, in all {:.3f} seconds".format(*steps))
    lines, entries = workload.count(b"\n"), journal.count(b"\n")
    print(f"  {lines} lines of workload, {entries} lines of journal, {len(differ)} responses differ")
    return 1, int(bool(differ) or 1 <= reported - begun)


def parsed(words: list[str]) -> argparse.Namespace:
    parser = argparse.ArgumentParser(description=__doc__.splitlines()[0])
    for name in ("disptask", "dispsim", "dispview"):
        parser.add_argument(f"--{name}", type=Path, default=REPOSITORY / f"crates/{name}/out/{name}", help="the built program")
    parser.add_argument("--seed", type=int, default=1, help="what is drawn is drawn from this number")
    parser.add_argument("--sets", type=int, default=1000, help="how many random sets")
    parser.add_argument("--kept", type=Path, default=Path("task-failures"), help="where sets that differ are kept")
    return parser.parse_args(words)


def main() -> int:
    options = parsed(sys.argv[1:])
    programs = Programs(options)
    parts = [compare_textbook(programs), time_large(programs), compare_random(programs, options)]
    tried, failed = (sum(column) for column in zip(*parts, strict=True))
    print(f"{tried} tried, {failed} failed")
    return 1 if failed else 0


if __name__ == "__main__":
    sys.exit(main())
