"""The answers that the manual allows: the statuses of each form, and the line and the output that go with each."""

import re

from running import Ended

# The statuses of a form whose streams do not fail, where there is memory.
STATUSES = {
    "run": {0, 2, 6},
    "sum": {0, 2, 6},
    "tables": {0, 2},
    "audit": {0, 2, 7},
    "dispview": {0, 2, 7},
    "disptask": {0, 2},
    "dispfind": {0, 2, 9, 10, 11},
}

_TABLE_FAULT = rb"table: (not a number|range in column [1-5]|rows: \d+|resolution)"
_SCRIPT_FAULT = rb"script: (unbalanced|too many held|already held|too long|held at exit)"
_CAUSE = rb"(syntax|unknown|twice|range|sets|limits|" + _TABLE_FAULT + rb"|" + _SCRIPT_FAULT + rb")"
REFUSED_LINE = re.compile(rb"refused: line ([1-9]\d*): " + _CAUSE + rb"\n")
_REFUSED = re.compile(rb"refused: (no journal|no thread has this name|input larger than (1048576|134217728) bytes)\n")
NOT_AN_ENTRY = re.compile(rb"journal: line ([1-9]\d*): not an entry\n")
ACCOUNTS_LINE = re.compile(rb"journal: line ([1-9]\d*): accounts\n")
ILLEGAL = re.compile(rb"journal: entry (0|[1-9]\d*): illegal\n")
INCOMPLETE = re.compile(rb"journal: incomplete: c(\d|[1-5]\d|6[0-3])\n")
_JOURNAL_FAULTS = [NOT_AN_ENTRY, ACCOUNTS_LINE, ILLEGAL, INCOMPLETE]
_LEGAL = re.compile(rb"legal (0|[1-9]\d*)\n")

# The whole line of each status that has one line only.
LINES = {3: b"read fault\n", 4: b"write fault\n", 5: b"out of memory\n", 6: b"blocking cycle\n", 8: b"run too long\n"}


def kind_of(form: str) -> str:
    """`run` of `run --seed 7`, and `dispview` of all its forms, as `disptask` and `dispfind`."""
    return form.split()[0]


def line_fault(status: int, err: bytes) -> str | None:
    """What is wrong with the error output of this status, or nothing."""
    if status in (0, 9, 10, 11):
        return "an error output beside what was found" if status != 0 and err else None
    if status == 1:
        fits = err.startswith(b"usage: ") and err.count(b"\n") == 1 and err.endswith(b"\n")
    elif status == 2:
        fits = REFUSED_LINE.fullmatch(err) or _REFUSED.fullmatch(err)
    elif status == 7:
        fits = any(fault.fullmatch(err) for fault in _JOURNAL_FAULTS)
    else:
        fits = LINES.get(status) == err
    return None if fits else f"status {status} without its line"


def output_fault(form: str, status: int, out: bytes, err: bytes) -> str | None:
    """What is wrong with what a run wrote that ended with 0, 2, 6, 7 or more, or nothing."""
    if status in (2, 7):
        return "output beside a refusal" if out else None
    if not out.endswith(b"\n"):
        return "output that does not end with a line"
    if status == 6:
        if kind_of(form) == "run" and not out[out.rfind(b"\n", 0, -1) + 1 :].startswith(b"cycle "):
            return "status 6 without the line of a cycle"
        return None
    if kind_of(form) == "audit" and not _LEGAL.fullmatch(out):
        return "status 0 without the line of a legal journal"
    if kind_of(form) != "dispview" and err:
        return "status 0 with an error output"
    return None


def fault_of(form: str, ended: Ended) -> str | None:
    """What is wrong with an answer to any input: a hang, a crash, a status that the form does not have, or a line that is lacking."""
    if ended.hung:
        return "hung"
    if ended.status < 0:
        return f"ended by signal {-ended.status}"
    if ended.status not in STATUSES[kind_of(form)]:
        return f"status {ended.status}"
    return line_fault(ended.status, ended.err) or output_fault(form, ended.status, ended.out, ended.err)
