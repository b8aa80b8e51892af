"""Runs on threads of the host over small random workloads, each several times: every journal is legal by the audit, and its accounts are
those of its journal. How often the journals of one workload differed is counted beside the statuses.
"""

import answers
from counting import Count, Judge, Setting, share_out
from seeds import accounts_fault, audit_fault
from workloads import random_workload

PIECE = 50

# How often each workload is run, and how many processors it has at most; every fourth has few.
TIMES = 3
MOST_CPUS = 64
FEW_CPUS = 4

FORM = "run --threads"


def threads(setting: Setting, size: int) -> Count:
    """Runs this many workloads, three times each."""
    return share_out(_piece, setting, size, PIECE)


def _piece(setting: Setting, piece: int, size: int, deadline: float) -> Count:
    judge = Judge(setting, "threads", piece, deadline)
    for number in range(size):
        if judge.is_late():
            break
        _several(judge, random_workload(judge.draw, FEW_CPUS if number % 4 == 0 else MOST_CPUS, 20))
    return judge.count


def _several(judge: Judge, workload: bytes):
    journals = [_one(judge, workload) for _ in range(TIMES)]
    differ = len(set(journals)) > 1
    judge.count.kinds["workloads whose journals differed" if differ else "workloads with one journal"] += 1


def _one(judge: Judge, workload: bytes) -> bytes:
    command = judge.setting.command(FORM)
    ended = judge.runner.run(command, workload)
    fault = answers.fault_of(FORM, ended)
    if ended.status == 2:
        fault = fault or "a workload was refused that is to be accepted"
    if fault is None:
        fault = accounts_fault(ended.out.decode()) or audit_fault(judge, workload, ended.out)
    judge.judge(fault, f"{FORM} {ended.status}", command, workload, ended)
    return ended.out
