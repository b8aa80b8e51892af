"""Damaged inputs through all forms: no status but those of the manual, no crash and no hang, and each refusal with its line.

A fault may not be told above the first line that was changed, since what stands above it was accepted.
"""

import json
import xml.etree.ElementTree

import answers
from counting import Count, Judge, Setting, share_out
from mutations import JOURNAL_WAYS, damaged
from running import Ended
from workloads import random_workload

PIECE = 500

# How many inputs are made of one workload before the next is drawn.
OF_ONE = 25

_WORKLOAD_FORMS = ["run", "run", "run --seed 7", "sum", "tables"]
_JOURNAL_FORMS = ["audit"] * 6 + [
    "dispview timeline",
    "dispview timeline 0 9",
    "dispview trace",
    "dispview list",
    "dispview list 2 5",
    "dispview list t0",
    "dispview report",
    "dispview report --csv",
]


def mutated(setting: Setting, size: int) -> Count:
    """Damages this many inputs."""
    return share_out(_piece, setting, size, PIECE)


def _piece(setting: Setting, piece: int, size: int, deadline: float) -> Count:
    judge = Judge(setting, "mutated", piece, deadline)
    for turn in range(size):
        if judge.is_late():
            break
        if turn % OF_ONE == 0:
            workload = _workload(judge, turn)
            journal = judge.runner.run(setting.command("run"), workload).out
        _one(judge, workload, journal)
    return judge.count


def _workload(judge: Judge, turn: int) -> bytes:
    """A small random workload, and an example of the repository for the first inputs of a piece."""
    if turn == 0:
        return judge.draw.choice(judge.setting.examples()).read_bytes()
    return random_workload(judge.draw, most_cpus=4, most_ticks=25)


def _one(judge: Judge, workload: bytes, journal: bytes):
    if judge.draw.random() < 0.5:
        form = judge.draw.choice(_WORKLOAD_FORMS)
        text = damaged(judge.draw, workload)
        fault, ended = _of_workload(judge, form, workload, text)
    else:
        form = judge.draw.choice(_JOURNAL_FORMS)
        text, fault, ended = _of_journal(judge, form, workload, journal)
    kind = f"{answers.kind_of(form)} {ended.status}"
    judge.judge(fault, kind, judge.setting.command(form), text, ended)


def _of_workload(judge: Judge, form: str, workload: bytes, text: bytes):
    ended = judge.runner.run(judge.setting.command(form), text)
    fault = answers.fault_of(form, ended) or _refused_above(workload, text, ended)
    return fault, ended


def _of_journal(judge: Judge, form: str, workload: bytes, journal: bytes):
    """Damages the whole certificate, or its journal alone."""
    head = workload + b"journal\n"
    if judge.draw.random() < 0.25:
        text = damaged(judge.draw, head + journal)
    else:
        text = head + damaged(judge.draw, journal, JOURNAL_WAYS)
    ended = judge.runner.run(judge.setting.command(form), text)
    fault = answers.fault_of(form, ended) or _refused_above(head + journal, text, ended)
    if fault is None and text.startswith(head):
        fault = _judged_above(journal, text[len(head) :], ended)
    return text, fault or drawing_fault(form, ended), ended


def _refused_above(whole: bytes, text: bytes, ended: Ended) -> str | None:
    found = answers.REFUSED_LINE.fullmatch(ended.err)
    if found is None:
        return None
    lines = text.count(b"\n") + 1
    if _lines_alike(whole, text) < int(found.group(1)) <= lines + 1:
        return None
    return "refused at a line that was not changed"


def _judged_above(whole: bytes, text: bytes, ended: Ended) -> str | None:
    """Whether a journal is found at fault above its first line that was changed."""
    alike = _lines_alike(whole, text)
    for pattern, first in ((answers.NOT_AN_ENTRY, 1), (answers.ACCOUNTS_LINE, 1), (answers.ILLEGAL, 0)):
        found = pattern.fullmatch(ended.err)
        if found is not None and int(found.group(1)) < alike + first:
            return "a journal at fault above its first change"
    if ended.status == 0 and text != whole and text.split(b"accounts\n")[0] == whole.split(b"accounts\n")[0]:
        return "other accounts of the same entries are legal"
    if ended.status == 7 and text == whole:
        return "the journal of a run is not legal"
    return None


def _lines_alike(whole: bytes, text: bytes) -> int:
    """How many lines at the beginning are the same."""
    alike = 0
    for one, other in zip(whole.split(b"\n"), text.split(b"\n")):
        if one != other:
            break
        alike += 1
    return min(alike, whole.count(b"\n"), text.count(b"\n"))


def drawing_fault(form: str, ended: Ended) -> str | None:
    """Whether another reader takes a picture for XML, and a trace for JSON."""
    if ended.status != 0:
        return None
    try:
        if form.startswith("dispview timeline"):
            xml.etree.ElementTree.fromstring(ended.out)
        elif form == "dispview trace":
            json.loads(ended.out)
    except (xml.etree.ElementTree.ParseError, ValueError) as error:
        return f"a drawing that is not well formed: {error}"
    return None
