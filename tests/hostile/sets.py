"""Damaged task sets through `disptask`, `dispview` and `dispfind`: no crash and no hang, each refusal with its line, and of a set that
is accepted what is answered of its expansion.

A fault may not be told above the block in which the first change stands: later rounds of a `repeat` are judged at its end, and their
faults are told at the operation.
"""

import answers
from counting import Count, Judge, Setting, share_out
from mutations import JOURNAL_WAYS, SET_WAYS, damaged
from running import Ended
from task_sets import random_set

PIECE = 200

# How many inputs are made of one set before the next is drawn.
OF_ONE = 20

SEARCHES = [
    "dispfind states --most 60",
    "dispfind stuck --most 60",
    "dispfind blocked --most 60",
    "dispfind ends t0 --most 60",
    "dispfind waits t1 --most 60",
]
VIEWS = ["dispview timeline", "dispview trace", "dispview list", "dispview list 2 5", "dispview report", "dispview report --csv"]


def sets(setting: Setting, size: int) -> Count:
    """Damages this many sets, or sets with journals."""
    return share_out(_piece, setting, size, PIECE)


def _piece(setting: Setting, piece: int, size: int, deadline: float) -> Count:
    judge = Judge(setting, "sets", piece, deadline)
    for turn in range(size):
        if judge.is_late():
            break
        if turn % OF_ONE == 0:
            drawn = _accepted(judge, turn)
        if judge.draw.random() < 0.7:
            _of_set(judge, drawn)
        else:
            _of_journal(judge, drawn)
    return judge.count


def _accepted(judge: Judge, turn: int) -> bytes:
    """A set that is accepted: an example for the first inputs of a piece, and else a random one."""
    if turn == 0:
        return judge.draw.choice(judge.setting.sets()).read_bytes()
    while True:
        text = random_set(judge.draw)
        if judge.runner.run(judge.setting.command("disptask"), text).status == 0:
            return text


def _of_set(judge: Judge, whole: bytes):
    """The damaged set expanded, and then searched or shown: the same refusal, or the answers to its expansion."""
    text = damaged(judge.draw, whole, SET_WAYS)
    form = judge.draw.choice(["disptask", "disptask", "disptask --map"])
    expanded = judge.runner.run(judge.setting.command(form), text)
    fault = answers.fault_of(form, expanded) or refused_above(whole, text, expanded)
    judge.judge(fault, f"disptask {expanded.status}", judge.setting.command(form), text, expanded)
    if fault is None:
        workload = expanded.out if expanded.status == 0 else None
        _answered_alike(judge, judge.draw.choice(SEARCHES), text, workload, expanded, b"")
        _answered_alike(judge, judge.draw.choice(VIEWS), text, workload, expanded, b"journal\n0 c0 idle\n")


def _of_journal(judge: Judge, text: bytes):
    """A set with a damaged journal, which is judged as it is behind the expansion."""
    expanded = judge.runner.run(judge.setting.command("disptask"), text)
    journal = judge.runner.run(judge.setting.command("run"), expanded.out).out
    behind = b"journal\n" + (damaged(judge.draw, journal, JOURNAL_WAYS) if judge.draw.random() < 0.7 else journal)
    _answered_alike(judge, judge.draw.choice(VIEWS), text, expanded.out, expanded, behind)


def _answered_alike(judge: Judge, form: str, text: bytes, workload: bytes | None, expanded: Ended, behind: bytes):
    """One form over a set, with what stands behind it: answered as over the workload, or refused as the set was. Where the last line
    of the set has no newline, the line `journal` would belong to it."""
    command = judge.setting.command(form)
    begins = text if not behind or text.endswith(b"\n") else text + b"\n"
    ended = judge.runner.run(command, begins + behind)
    fault = answers.fault_of(form, ended)
    if fault is None and begins == text and b"\njournal\n" not in b"\n" + text:
        fault = _differs(judge, command, ended, workload, expanded, behind)
    judge.judge(fault, f"{answers.kind_of(form)} {ended.status}", command, begins + behind, ended)


def _differs(judge: Judge, command: list[str], ended: Ended, workload: bytes | None, expanded: Ended, behind: bytes) -> str | None:
    if workload is None:
        alike = (ended.status, ended.out, ended.err) == (expanded.status, expanded.out, expanded.err)
        return None if alike else "a set that is refused in another way than by disptask"
    plain = judge.runner.run(command, workload + behind)
    # a report of a set has the deadlines behind the report of its expansion
    told = ended.out[: len(plain.out)] if "report" in command else ended.out
    alike = (ended.status, told, ended.err) == (plain.status, plain.out, plain.err)
    return None if alike else "a set that is answered in another way than its expansion"


def refused_above(whole: bytes, text: bytes, ended: Ended) -> str | None:
    """Whether a refusal names a line above the block of the first change, or none of the text."""
    found = answers.REFUSED_LINE.fullmatch(ended.err)
    if found is None:
        return None
    lines = text.split(b"\n")
    alike = min(sum(1 for _ in _same(whole.split(b"\n"), lines)), len(lines) - 1)
    while alike > 0 and lines[alike - 1].split()[:1] not in ([b"job"], [b"script"]) and _is_inside(lines[alike - 1]):
        alike -= 1
    number = int(found.group(1))
    if alike <= number <= len(lines) + 1:
        return None
    return "refused at a line that was not changed"


def _same(one: list[bytes], other: list[bytes]):
    for left, right in zip(one, other):
        if left != right:
            return
        yield left


def _is_inside(line: bytes) -> bool:
    """Whether this may be a line of a block: no line that declares something."""
    words = line.split()
    declaring = (b"task", b"thread", b"limit", b"cpus", b"set", b"mutex", b"rwlock", b"chan", b"sema", b"hz", b"table")
    return not words or words[0] not in declaring
