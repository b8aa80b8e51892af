"""The greatest workload of each limit through all forms: how long each takes, and how much memory.

A run may take minutes of a processor here. A journal that is too long for an audit is refused.
"""

import random

import answers
from counting import Count, Judge, Setting
from host import NoCompiler, host
from running import Ended

WORKLOAD_FORMS = ["tables", "sum", "run", "run --seed 7"]
JOURNAL_FORMS = ["audit", "dispview timeline", "dispview trace", "dispview list", "dispview report"]

# The most bytes that an audit reads.
AUDITED = 134_217_728

# How long one run may last.
LONGEST = 600


def sizes(setting: Setting, size: int) -> Count:
    """Runs the first workloads of the list, as many as are asked for."""
    judge = Judge(setting, "sizes", 0)
    _show("workload", "form", "status", "output bytes", "seconds of a processor", "greatest memory, MiB")
    for name, workload in list(WORKLOADS.items())[:size]:
        _measure(judge, name, workload())
    return judge.count


def _measure(judge: Judge, name: str, workload: bytes):
    if judge.is_late():
        print(f"{name}: not tried, since the time is over")
        return
    for form in WORKLOAD_FORMS:
        ended = _run(judge, name, form, workload)
        if form == "run":
            certificate = workload + b"journal\n" + ended.out
    if len(certificate) > AUDITED:
        _run(judge, name, "audit", certificate)
        return
    for form in JOURNAL_FORMS:
        _run(judge, name, form, certificate)


def _run(judge: Judge, name: str, form: str, text: bytes) -> Ended:
    command = judge.setting.command(form)
    try:
        made = host(judge.setting)
        ended = judge.runner.run(command, text, made.counted(), processor=LONGEST, longest=LONGEST)
        memory = f"{made.numbers()[3] / 1024:.1f}"
    except NoCompiler:
        ended = judge.runner.run(command, text, processor=LONGEST, longest=LONGEST)
        memory = "-"
    fault = answers.fault_of(form, ended) or _unwanted(form, ended, text)
    judge.judge(fault, f"{answers.kind_of(form)} {ended.status}", command, text, ended)
    _show(name, form, str(ended.status), f"{len(ended.out):,}", f"{ended.seconds:.2f}", memory)
    return ended


def _show(*row: str):
    print("| " + " | ".join(row) + " |", flush=True)


def _unwanted(form: str, ended: Ended, text: bytes) -> str | None:
    """Each of these workloads is accepted, and its journal legal, but for one that is too large."""
    if AUDITED < len(text):
        is_told = ended.err == b"refused: input larger than 134217728 bytes\n"
        return None if ended.status == 2 and is_told else f"status {ended.status} for an input that is too large"
    return None if ended.status in (0, 6) else f"status {ended.status}: {ended.err!r}"


def _text(lines: list[str]) -> bytes:
    return ("\n".join(lines) + "\n").encode()


def _script(thread: str, operations: list[str]) -> list[str]:
    return [f"script {thread}", *operations, "end"]


def _threads() -> bytes:
    """2,048 threads, which are all runnable, on 8 processors, with two operations each: 4,096."""
    lines = ["cpus 8", "limit 500"]
    lines += [f"thread t{i} ts {i % 60} 0 0" for i in range(2048)]
    for i in range(2048):
        lines += _script(f"t{i}", [f"run {i % 5 + 1}", "yield"])
    return _text(lines)


def _sleepers() -> bytes:
    """2,047 threads that sleep on one channel, and one that wakes them all."""
    lines = ["limit 10", "chan k"] + [f"thread t{i} fx 60 10 inf" for i in range(2047)] + ["thread z fx 60 5 inf"]
    for i in range(2047):
        lines += _script(f"t{i}", ["sleep k"])
    return _text(lines + _script("z", ["wakeall k"]))


def _locks() -> bytes:
    """256 mutexes and 256 threads, each with 16 operations, in chains of owners."""
    draw = random.Random(1)
    lines = ["cpus 4", "limit 2000"] + [f"mutex m{i}" for i in range(256)]
    lines += [f"thread t{i} fx 60 {i % 60} inf" for i in range(256)]
    for i in range(256):
        taken = sorted(draw.sample(range(256), 7))
        enters = [f"enter m{lock}" for lock in taken]
        lines += _script(f"t{i}", [f"nap {i % 7 + 1}", *enters, "run 1", *[f"exit m{lock}" for lock in taken]])
    return _text(lines)


def _chain() -> bytes:
    """255 owners, each of which waits for the next, and one of the greatest priority that waits for the first."""
    lines = ["limit 20"] + [f"mutex m{i}" for i in range(255)]
    lines += [f"thread t{i} fx 60 10 inf" for i in range(255)] + ["thread r rt 10 inf"]
    for i in range(254):
        lines += _script(f"t{i}", [f"enter m{i}", "nap 1", f"enter m{i + 1}", f"exit m{i + 1}", f"exit m{i}"])
    lines += _script("t254", ["enter m254", "nap 3", "exit m254"])
    return _text(lines + _script("r", ["nap 2", "enter m0", "exit m0"]))


def _channels() -> bytes:
    """256 channels and semaphores, of which 512 threads sleep on each in turn."""
    lines = ["cpus 4", "limit 2000"] + [f"chan k{i}" for i in range(128)] + [f"sema s{i} 1" for i in range(128)]
    lines += [f"thread t{i} ts {i % 60} 0 0" for i in range(512)]
    for i in range(512):
        one, other = i % 128, (i + 1) % 128
        steps = ["run 1", f"wake k{one}", f"semap s{one}", "run 1", f"semav s{other}", f"sleep k{other}", f"wakeall k{one}"]
        lines += _script(f"t{i}", [*steps, "run 1"])
    return _text(lines)


def _processors() -> bytes:
    """64 processors, all with something to run, for 3,125 ticks each: 200,000."""
    lines = ["cpus 64", "limit 3125"] + [f"thread t{i} ts {i % 60} 0 0" for i in range(256)]
    for i in range(256):
        lines += _script(f"t{i}", ["run 400", "nap 3"] * 4)
    return _text(lines)


def _ticks() -> bytes:
    """Two processors for 100,000 ticks each, and four threads that spin, run and nap."""
    lines = ["cpus 2", "limit 100000", "mutex m"] + [f"thread t{i} ts 29 0 0" for i in range(4)]
    for i in range(4):
        lines += _script(f"t{i}", ["enter m", "run 3", "exit m", "nap 2", "run 997"] * 51)
    return _text(lines)


def _contended() -> bytes:
    """1,130 threads on one mutex: each release wakes all waiters, and all but one of them block again. All names have 16 bytes."""
    mutex = "mutex-of-them-al"
    threads = [f"thread-{i:09}" for i in range(1130)]
    lines = ["cpus 2", "limit 52000", f"mutex {mutex}"] + [f"thread {name} rt 10 inf" for name in threads]
    for name in threads:
        lines += _script(name, [f"enter {mutex}", "nap 46", f"exit {mutex}"])
    return _text(lines)


WORKLOADS = {
    "2,048 threads": _threads,
    "2,047 sleepers": _sleepers,
    "256 mutexes": _locks,
    "a chain of 255 owners": _chain,
    "256 channels": _channels,
    "64 processors": _processors,
    "200,000 ticks": _ticks,
    "1,130 on a mutex": _contended,
}
