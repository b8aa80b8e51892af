"""Runs in drawn orders over small random workloads: each is legal by the audit, and its accounts are those of its journal.

The accounts are counted here once more, from the lines of the entries alone, as docs/JOURNAL.md says.
"""

import re
from collections import Counter

import answers
from counting import Count, Judge, Setting, share_out
from workloads import random_workload

PIECE = 200

# Which count of the thread that is named an event raises, by the place of the name among the words behind the event.
_NAMED = {
    "tick": [("ticks", 0)],
    "spin": [("ticks", 0)],
    "dispatch": [("dispatches", 0)],
    "steal": [("dispatches", 1)],
    "preempt": [("preempts", 0)],
    "napend": [("wakes", 0)],
    "rouse": [("wakes", 1)],
    "unblock": [("wakes", 1)],
    "grant": [("wakes", 1)],
    "wake": [("wakes", 2)],
    "semav": [("wakes", 2)],
}

_TICKS = {"tick", "spin", "idle"}

_THREAD = re.compile(r"thread (\S+) ticks (\d+) dispatches (\d+) preempts (\d+) wakes (\d+) (running|queued|waiting \S+|asleep \S+|napping|ended)")
_CPU = re.compile(r"cpu (\d+) ticks (\d+) idle (\d+)")


def seeds(setting: Setting, size: int) -> Count:
    """Runs this many workloads, each in an order of its own."""
    return share_out(_piece, setting, size, PIECE)


def _piece(setting: Setting, piece: int, size: int, deadline: float) -> Count:
    judge = Judge(setting, "seeds", piece, deadline)
    for number in range(size):
        if judge.is_late():
            break
        most_cpus = 64 if number % 20 == 0 else 6
        workload = random_workload(judge.draw, most_cpus)
        form = "run --threads" if number % 10 == 0 else f"run --seed {judge.draw.randrange(1 << 32)}"
        _one(judge, form, workload)
    return judge.count


def _one(judge: Judge, form: str, workload: bytes):
    command = judge.setting.command(form)
    ended = judge.runner.run(command, workload)
    fault = answers.fault_of(form, ended)
    if ended.status == 2:
        fault = fault or "a workload was refused that is to be accepted"
    if fault is None:
        fault = accounts_fault(ended.out.decode()) or audit_fault(judge, workload, ended.out)
    judge.judge(fault, f"{' '.join(form.split()[:2])} {ended.status}", command, workload, ended)


def audit_fault(judge: Judge, workload: bytes, journal: bytes) -> str | None:
    """Why the audit does not find the journal legal, or nothing."""
    ended = judge.runner.run(judge.setting.command("audit"), workload + b"journal\n" + journal)
    entries = journal.split(b"accounts\n")[0].count(b"\n")
    if (ended.status, ended.out) == (0, b"legal %d\n" % entries):
        return None
    return f"the audit ends with status {ended.status}: {ended.err!r}"


def accounts_fault(journal: str) -> str | None:
    """What is wrong with the accounts behind the entries, or nothing."""
    head, _, tail = journal.partition("accounts\n")
    counts: Counter = Counter()
    for number, line in enumerate(head.splitlines()):
        words = line.split()
        if words[0] != str(number):
            return f"entry {number} has another number"
        _count(counts, words[1], words[2], words[3:])
    for line in tail.splitlines():
        if not line.startswith("cycle ") and not _is_counted(counts, line):
            return f"not what the entries count: {line}"
    return None


def _count(counts: Counter, cpu: str, event: str, words: list[str]):
    if event in _TICKS:
        counts[cpu, "ticks"] += 1
        counts[cpu, "idle"] += event == "idle"
    for name, place in _NAMED.get(event, []):
        # A wakeup of nobody has the word none, and the count of a semaphore, in place of a thread.
        if place < len(words) and words[place] != "none" and not words[place].isdigit():
            counts[words[place], name] += 1


def _is_counted(counts: Counter, line: str) -> bool:
    if found := _THREAD.fullmatch(line):
        thread, *numbers = found.groups()[:5]
        wanted = [counts[thread, name] for name in ("ticks", "dispatches", "preempts", "wakes")]
        return [int(number) for number in numbers] == wanted
    if found := _CPU.fullmatch(line):
        cpu, ticks, idle = found.groups()
        return (int(ticks), int(idle)) == (counts["c" + cpu, "ticks"], counts["c" + cpu, "idle"])
    return False
