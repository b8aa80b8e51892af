#!/usr/bin/env python3
"""Compares what the built programs report of task sets with response-time analysis, or with tables.

Each set goes through `disptask`, `dispsim run` and `dispview report --csv`, which reads the set itself. Random sets
have tasks of class rt with levels of their own and jobs that only run, on one processor or bound on several. The
greatest response of each task has to be that of response-time analysis over its level's busy period (Lehoczky),
and it misses deadlines exactly if that is greater than its period.

    tests/tasks/responses.py DISPTASK DISPSIM DISPVIEW [--sets N] [--seed N]
    tests/tasks/responses.py DISPTASK DISPSIM DISPVIEW --tables FOLDER

A table is NAME.table beside NAME.set, with a row for each task: `task released complete unfinished least mean greatest
misses first`. Each number has to be that of the report, and no other task may be reported.
"""

import argparse
import random
import subprocess
import sys
from fractions import Fraction
from itertools import zip_longest
from math import ceil
from pathlib import Path
from typing import NamedTuple


class Task(NamedTuple):
    name: str
    cpu: int
    level: int
    period: int
    work: int


# What the report says of a task: for each measure its number and its ticks, empty where it has none.
Measures = dict[str, tuple[str, str]]


def call(arguments: list[str], given: bytes) -> bytes:
    """Returns the output of a call that ends with status 0."""
    return subprocess.run(arguments, input=given, capture_output=True, timeout=60, check=True).stdout


def reported(programs: list[str], task_set: bytes) -> dict[str, Measures]:
    """Returns what the report says of each task of a set, by name."""
    disptask, dispsim, dispview = programs
    journal = call([dispsim, "run"], call([disptask], task_set))
    whole = task_set if task_set.endswith(b"\n") else task_set + b"\n"
    sheet = call([dispview, "report", "--csv"], whole + b"journal\n" + journal).decode()
    found: dict[str, Measures] = {}
    for line in sheet.splitlines():
        kind, name, measure, _, number, ticks, *_ = line.split(",")
        if kind == "set task":
            found.setdefault(name, {})[measure] = (number, ticks)
    return found


def columns(name: str, measures: Measures) -> list[str]:
    """Returns the row of a table that the measures of a task make."""
    counts = [measures[word][0] for word in ("released", "complete", "unfinished")]
    jobs, ticks = measures["mean"]
    mean = f"{ticks}/{jobs}" if jobs else "-"
    least, greatest, first = (measures[word][1] or "-" for word in ("least", "greatest", "first miss"))
    return [name, *counts, least, mean, greatest, measures["misses"][0], first]


def random_tasks(source: random.Random, cpus: int) -> list[Task]:
    """Returns tasks with levels of their own, of which each processor has some and no more work than time."""
    tasks: list[Task] = []
    for cpu in range(cpus):
        left = Fraction(1)
        for _ in range(source.randint(1, 4)):
            period = source.choice([4, 5, 6, 8, 10, 12, 15, 20, 24, 30])
            most = int(left * period)
            if most < 1:
                continue
            work = source.randint(1, most)
            left -= Fraction(work, period)
            tasks.append(Task(f"t{len(tasks)}", cpu, 0, period, work))
    levels = source.sample(range(1, 59), len(tasks))
    return [task._replace(level=level) for task, level in zip(tasks, levels, strict=True)]


def busy_period(task: Task, tasks: list[Task]) -> int:
    """Returns how long the processor is busy with the task and those above it, from tick 0."""
    above = [x for x in tasks if x.cpu == task.cpu and x.level >= task.level]
    length = sum(x.work for x in above)
    while True:
        longer = sum(ceil(length / x.period) * x.work for x in above)
        if longer == length:
            return length
        length = longer


def worst_response(task: Task, tasks: list[Task]) -> int:
    """Returns the greatest response over the jobs of the busy period, by response-time analysis."""
    above = [x for x in tasks if x.cpu == task.cpu and x.level > task.level]
    worst = 0
    for job in range(ceil(busy_period(task, tasks) / task.period)):
        end = (job + 1) * task.work
        while True:
            later = (job + 1) * task.work + sum(ceil(end / x.period) * x.work for x in above)
            if later == end:
                break
            end = later
        worst = max(worst, end - job * task.period)
    return worst


def set_of(tasks: list[Task], cpus: int, limit: int) -> bytes:
    """Returns the text of a set."""
    lines = [f"cpus {cpus}", f"limit {limit}"]
    for task in tasks:
        bound = f" on {task.cpu}" if cpus > 1 else ""
        lines.append(f"task {task.name} rt {task.level} inf period {task.period}{bound}")
    for task in tasks:
        lines += [f"job {task.name}", f"run {task.work}", "end"]
    return "\n".join(lines).encode() + b"\n"


def differ_randomly(programs: list[str], sets: int, seed: int) -> tuple[int, int]:
    """Returns how many tasks of random sets were compared, and how many differ."""
    source = random.Random(seed)
    compared = failed = 0
    for _ in range(sets):
        cpus = source.choice([1, 1, 1, 2, 3])
        tasks = random_tasks(source, cpus)
        limit = max(busy_period(task, tasks) for task in tasks)
        text = set_of(tasks, cpus, limit)
        found = reported(programs, text)
        for task in tasks:
            compared += 1
            wanted = worst_response(task, tasks)
            greatest = int(found[task.name]["greatest"][1])
            has_missed = found[task.name]["misses"][0] != "0"
            if greatest != wanted or has_missed != (task.period < wanted):
                failed += 1
                print(f"{task.name}: {greatest} and not {wanted}, misses {has_missed}, in")
                print(text.decode())
    return compared, failed


def differ_from_tables(programs: list[str], folder: Path) -> tuple[int, int]:
    """Returns how many rows of tables were compared, and how many differ."""
    compared = failed = 0
    for table in sorted(folder.glob("*.table")):
        rows = [line.split() for line in table.read_text().splitlines()[1:]]
        found = reported(programs, table.with_suffix(".set").read_bytes())
        told = [columns(name, measures) for name, measures in found.items()]
        for row, wanted in zip_longest(told, rows, fillvalue=["nothing"]):
            compared += 1
            if row != wanted:
                failed += 1
                print(f"{table.name}: reported {' '.join(row)} and not {' '.join(wanted)}")
    return compared, failed


def main() -> int:
    parser = argparse.ArgumentParser(description=__doc__.splitlines()[0])
    parser.add_argument("programs", nargs=3, metavar="PROGRAM")
    parser.add_argument("--sets", type=int, default=1000)
    parser.add_argument("--seed", type=int, default=1)
    parser.add_argument("--tables", type=Path)
    given = parser.parse_args()
    if given.tables:
        compared, failed = differ_from_tables(given.programs, given.tables)
    else:
        compared, failed = differ_randomly(given.programs, given.sets, given.seed)
    print(f"{compared} compared, {failed} differ")
    return 1 if failed or not compared else 0


if __name__ == "__main__":
    sys.exit(main())
