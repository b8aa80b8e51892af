"""Task sets at every limit, and one beyond it: accepted, and refused at the wanted line by the wanted cause, by all three programs."""

import answers
from counting import Count, Judge, Setting

# A set at a limit may take this many seconds of a processor: the greatest expansions are read more than once.
LONGEST = 10

FORMS = ["disptask", "disptask --map", "dispfind states --most 2", "dispview report"]


def set_limits(setting: Setting, size: int) -> Count:
    """Tries the first pairs of the list, as many as are asked for."""
    judge = Judge(setting, "set_limits", 0)
    for name, (at, beyond, cause) in list(LIMITS.items())[:size]:
        for form in FORMS:
            _try(judge, name, form, at, None)
            _try(judge, name, form, beyond, cause)
    return judge.count


def _try(judge: Judge, name: str, form: str, lines: list[str], cause: str | None):
    """What is accepted is expanded or searched, and with no journal behind it refused for that by `dispview`."""
    text = ("\n".join(lines) + "\n").encode()
    command = judge.setting.command(form)
    given = text + b"journal\n" if form.startswith("dispview") else text
    ended = judge.runner.run(command, given, processor=LONGEST, longest=10 * LONGEST)
    fault = answers.fault_of(form, ended)
    if fault is None and cause is not None:
        number = _line_at_fault(lines, cause)
        wanted = f"refused: line {number}: {cause.split('@')[0]}\n".encode()
        fault = None if (ended.status, ended.err) == (2, wanted) else f"{name}: not {wanted!r} but {ended.err!r}"
    elif fault is None:
        wanted_statuses = {"disptask": {0}, "dispfind": {0, 11}, "dispview": {7}}[answers.kind_of(form)]
        fault = None if ended.status in wanted_statuses else f"{name}: status {ended.status}, {ended.err!r}"
    judge.judge(fault, f"{answers.kind_of(form)} {ended.status}", command, given, ended)


def _line_at_fault(lines: list[str], cause: str) -> int:
    """`cause@TEXT` names the last line that begins with the text, `cause` alone the line after the last."""
    _, _, begin = cause.partition("@")
    if not begin:
        return len(lines) + 1
    return max(number for number, line in enumerate(lines, 1) if line.startswith(begin))


def _tasks(count: int, limit: int = 1, period: int = 5) -> list[str]:
    return [f"limit {limit}", *[f"task t{i} ts 0 0 0 period {period}" for i in range(count)]]


def _job(limit: int, operations: list[str]) -> list[str]:
    return [f"limit {limit}", "task t rt 5 inf period 1", "job t", *operations, "end"]


def _script(start: str, count: int) -> list[str]:
    return ["limit 9", f"thread a rt 5 inf{start}", "script a", f"repeat {count}", "yield", "end", "end"]


def _nested(depth: int) -> list[str]:
    opened = ["repeat 1"] * (depth - 1) + [f"repeat {1 + depth % 2}"]
    return ["limit 9", "thread a rt 5 inf", "script a", *opened, "yield", *["end"] * depth, "end"]


def _bound(count: int) -> list[str]:
    return ["cpus 2", "limit 9", *[f"thread t{i} ts 0 0 0 on {i % 2}" for i in range(count)]]


def _numbers(name: str, number: int) -> list[str]:
    numbers = {"period": 5, "offset": 0, "deadline": 5, "jobs": 1} | {name: number}
    words = " ".join(f"{word} {value}" for word, value in numbers.items())
    return ["limit 9", f"task a rt 5 inf {words}"]


def _start(tick: int) -> list[str]:
    return ["limit 9", f"thread a rt 5 inf start {tick}"]


def _channels(count: int) -> list[str]:
    return ["limit 9", *[f"chan k{i}" for i in range(count - 3)], *_tasks(3, 9)[1:]]


def _pairs(threads: int) -> list[str]:
    """256 locks, the task and its clock among the threads."""
    return ["limit 9", *[f"mutex m{i}" for i in range(256)], *[f"thread t{i} ts 0 0 0" for i in range(threads - 2)], "task a rt 5 inf period 9"]


def _operations(count: int) -> list[str]:
    """15 threads with 256 operations, a task with one release, whose clock has one operation, and a thread with the rest."""
    lines = ["limit 9", "task z rt 5 inf period 9"] + [f"thread t{i} ts 0 0 0" for i in range(16)]
    for thread in range(15):
        lines += [f"script t{thread}", "repeat 256", "yield", "end", "end"]
    return [*lines, "script t15", f"repeat {count - 15 * 256 - 2}", "yield", "end", "end"]


# A name; the set at the limit; the set beyond it; and the cause, with the beginning of the line at fault.
LIMITS = {
    "256 tasks, each with a semaphore": (_tasks(256), _tasks(257), "limits@task"),
    "256 channels and semaphores": (_channels(256), _channels(257), "limits@task"),
    "threads times locks": (_pairs(256), _pairs(257), "limits"),
    "all operations": (_operations(4096), _operations(4097), "limits"),
    "operations of a job": (_job(2, ["repeat 127", "run 1", "end"]), _job(2, ["repeat 128", "run 1", "end"]), "script: too long@run"),
    "releases of a job of one operation": (_job(128, ["run 1"]), _job(129, ["run 1"]), "script: too long@run"),
    "releases of a task": (["limit 256", "task t rt 5 inf period 1"], ["limit 257", "task t rt 5 inf period 1"], "script: too long@task"),
    "a script": (_script("", 256), ["limit 9", "thread a rt 5 inf", "script a", "repeat 256", "yield", "end", "run 1", "end"], "script: too long@run"),
    "a script behind a start": (_script(" start 3", 255), _script(" start 3", 256), "script: too long@yield"),
    "rounds": (_script("", 256), _script("", 257), "range@repeat"),
    "open repeats": (_nested(8), _nested(9), "limits@repeat 2"),
    "bound threads of a partition": (_bound(256), _bound(257), "limits"),
    "a period": (_numbers("period", 100_000), _numbers("period", 100_001), "range@task"),
    "an offset": (_numbers("offset", 100_000), _numbers("offset", 100_001), "range@task"),
    "a deadline": (_numbers("deadline", 100_000), _numbers("deadline", 100_001), "range@task"),
    "jobs": (_numbers("jobs", 100_000), _numbers("jobs", 100_001), "range@task"),
    "a start": (_start(100_000), _start(100_001), "range@thread"),
}
