"""Each growth of memory refused in turn, alone and with all that come after it.

A run ends as it would have, or with status 5 and its line; then its output is a prefix of the text, in whole lines. On threads of the
host a journal may be another one each time: it is legal, or there is status 5 with whole lines.
"""

from counting import Count, Judge, Setting, share_out
from host import Host, NoCompiler, host
from running import Ended
from seeds import audit_fault

# Examples that come first: the smallest run, a chain of three mutexes, and a table in the manner of dispadmin(1M).
FIRST = ["first", "inversion_chain", "own_table"]

WORKLOAD_FORMS = ["run", "run --seed 7", "sum", "tables"]
JOURNAL_FORMS = ["audit", "dispview timeline", "dispview trace", "dispview list", "dispview report", "dispview report --csv"]
SET_FORMS = ["disptask", "disptask --map", "dispfind states --most 20"]
SET_JOURNAL_FORMS = ["dispview timeline", "dispview report"]
INPUTLESS_FORMS = ["gen 7", "dispview --help", "disptask --help", "run fast"]


def growths(setting: Setting, size: int) -> Count:
    """Refuses growths of the runs of this many examples, and of this many task sets."""
    try:
        host(setting)
    except NoCompiler:
        return Count(notes=["not tried: there is no C compiler"])
    return share_out(_of_piece, setting, 2 * size, 1)


def _of_piece(setting: Setting, piece: int, _size: int, deadline: float) -> Count:
    """An example and a task set in turn, as far as there are any."""
    number, is_set = divmod(piece, 2)
    if len(setting.sets() if is_set else setting.examples()) <= number:
        return Count()
    return (_of_set if is_set else _of_example)(setting, number, deadline)


def _in_order(setting: Setting):
    examples = setting.examples()
    return sorted(examples, key=lambda path: (FIRST.index(path.stem) if path.stem in FIRST else len(FIRST), path.stem))


def _of_set(setting: Setting, piece: int, deadline: float) -> Count:
    judge = Judge(setting, "set_growths", piece, deadline)
    text = sorted(setting.sets(), key=lambda path: path.stat().st_size)[piece].read_bytes()
    workload = judge.runner.run(setting.command("disptask"), text).out
    certificate = text + b"journal\n" + judge.runner.run(setting.command("run"), workload).out
    made = Host(setting.scratch)
    made.calls = setting.scratch / f"set_calls{piece}"
    for form in SET_FORMS:
        _refuse_each(judge, made, form, text)
    for form in SET_JOURNAL_FORMS:
        _refuse_each(judge, made, form, certificate)
    return judge.count


def _of_example(setting: Setting, piece: int, deadline: float) -> Count:
    judge = Judge(setting, "growths", piece, deadline)
    workload = _in_order(setting)[piece].read_bytes()
    certificate = workload + b"journal\n" + judge.runner.run(setting.command("run"), workload).out
    inputs = [(form, workload) for form in WORKLOAD_FORMS] + [(form, certificate) for form in JOURNAL_FORMS]
    if piece == 0:
        inputs += [(form, b"") for form in INPUTLESS_FORMS]
    made = Host(setting.scratch)
    made.calls = setting.scratch / f"calls{piece}"
    for form, text in inputs:
        _refuse_each(judge, made, form, text)
    _refuse_each_on_threads(judge, made, workload)
    return judge.count


def _refuse_each(judge: Judge, made: Host, form: str, text: bytes):
    command = judge.setting.command(form)
    whole = judge.runner.run(command, text, made.counted())
    for number in range(1, made.numbers()[0] + 1):
        if judge.is_late():
            return
        for name in ("REFUSE", "REFUSE_FROM"):
            ended = judge.runner.run(command, text, made.changed(**{name: number}))
            shown = ["env", f"LD_PRELOAD=host.so {name}={number}", *command]
            judge.judge(_fault(whole, ended), f"{form.split()[0]} {ended.status}", shown, text, ended)


def _fault(whole: Ended, ended: Ended) -> str | None:
    if ended.hung:
        return "hung"
    if ended.status == whole.status:
        return None if (ended.out, ended.err) == (whole.out, whole.err) else "another answer where memory was refused"
    if ended.status != 5 or ended.err != b"out of memory\n":
        return f"status {ended.status} where memory was refused"
    lines = ended.out == b"" or ended.out.endswith(b"\n")
    return None if lines and whole.out.startswith(ended.out) else "output that is no prefix"


def _refuse_each_on_threads(judge: Judge, made: Host, workload: bytes):
    """One growth of each number up to those of a run in which none is refused: another run may have more of them, or fewer."""
    command = judge.setting.command("run --threads")
    judge.runner.run(command, workload, made.counted())
    for number in range(1, made.numbers()[0] + 1):
        if judge.is_late():
            return
        for name in ("REFUSE", "REFUSE_FROM"):
            ended = judge.runner.run(command, workload, made.changed(**{name: number}))
            shown = ["env", f"LD_PRELOAD=host.so {name}={number}", *command]
            judge.judge(_thread_fault(judge, workload, ended), f"run --threads {ended.status}", shown, workload, ended)


def _thread_fault(judge: Judge, workload: bytes, ended: Ended) -> str | None:
    if ended.hung:
        return "hung"
    if ended.status in (0, 6):
        return audit_fault(judge, workload, ended.out)
    if ended.status != 5 or ended.err != b"out of memory\n":
        return f"status {ended.status} where memory was refused"
    return None if ended.out == b"" or ended.out.endswith(b"\n") else "output that is no whole lines"
