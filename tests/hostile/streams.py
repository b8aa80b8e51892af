"""Streams of the host that are closed, full, slow, short or failing, and signals: the status of the manual, and never a crash."""

import fcntl
import os
import signal
import socket
import subprocess
import time
from dataclasses import dataclass

import growths
from counting import Count, Judge, Setting
from host import Host, NoCompiler, host
from running import Ended
from workloads import random_workload

READ_FAULT, WRITE_FAULT = 3, 4
LINES = {READ_FAULT: b"read fault\n", WRITE_FAULT: b"write fault\n"}

# Signals that end a program that does nothing about them.
ENDING = (signal.SIGTERM, signal.SIGINT, signal.SIGHUP, signal.SIGALRM, signal.SIGUSR1)

# How long a process may last here: some are fed or read slowly.
LONGEST = 60


@dataclass(frozen=True)
class Case:
    """A form with its input, and its answer over streams that work."""

    form: str
    command: list[str]
    text: bytes
    whole: Ended

    def reads(self) -> bool:
        return self.form not in ("gen 7", "dispview --help", "run fast")

    def writes(self) -> bool:
        return self.whole.out != b""


def streams(setting: Setting, size: int) -> Count:
    """Tries each way on each form with this many inputs."""
    judge = Judge(setting, "streams", 0)
    for number in range(size):
        for case in _cases(judge, number):
            if judge.is_late():
                return judge.count
            for way in WAYS:
                _try(judge, case, way.__name__.removeprefix("_"), way)
            for words in SHELL_WAYS:
                _try(judge, case, words, lambda case, words=words: _in_shell(case, words))
    _try_host(judge)
    _try_arguments(judge)
    return judge.count


def _cases(judge: Judge, number: int) -> list[Case]:
    """The first input is the smallest run, the second one that is refused, and the others are random."""
    if number == 0:
        workload = (judge.setting.repository / "examples/first.workload").read_bytes()
    elif number == 1:
        workload = b"limit five\n"
    else:
        workload = random_workload(judge.draw)
    certificate = workload + b"journal\n" + judge.runner.run(judge.setting.command("run"), workload).out
    inputs = [(form, workload) for form in growths.WORKLOAD_FORMS] + [(form, certificate) for form in growths.JOURNAL_FORMS]
    if number == 0:
        inputs += [(form, b"") for form in growths.INPUTLESS_FORMS]
    return [_case(judge, form, text) for form, text in inputs]


def _case(judge: Judge, form: str, text: bytes) -> Case:
    command = judge.setting.command(form)
    return Case(form, command, text, judge.runner.run(command, text))


def _try(judge: Judge, case: Case, name: str, way):
    try:
        fault = way(case)
    except subprocess.TimeoutExpired:
        fault = "hung"
    if fault is not None:
        fault = f"{name}: {fault}"
    judge.judge(fault, name, case.command, case.text, case.whole)


def _same(case: Case, status: int, out: bytes, err: bytes) -> str | None:
    """Whether the answer is the one that came over streams that work."""
    if (status, out, err) == (case.whole.status, case.whole.out, case.whole.err):
        return None
    return f"status {status}, error output {err!r}, and another answer than over streams that work"


def _failed(case: Case, wanted: int, status: int, out: bytes, err: bytes) -> str | None:
    """Whether a fault was answered with its status and line, and a prefix of the output."""
    if status == wanted and err == LINES[wanted] and case.whole.out.startswith(out):
        return None
    return f"status {status}, error output {err!r}, for a stream that fails"


# What a shell does to the streams, with the stream that fails then.
SHELL_WAYS = {
    ">&-": "output",
    ">/dev/full": "output",
    "2>&-": "error output",
    "2>/dev/full": "error output",
    "<&-": "input",
    "</": "input",
    "<&- >&- 2>&-": "all",
    "< /dev/zero": "endless",
}


def _in_shell(case: Case, redirections: str) -> str | None:
    line = f'exec "$@" {redirections}'
    ended = subprocess.run(["/bin/sh", "-c", line, "sh", *case.command], input=case.text, capture_output=True, timeout=LONGEST)
    status, out, err = ended.returncode, ended.stdout, ended.stderr
    stream = SHELL_WAYS[redirections]
    if stream == "output" and case.writes():
        return _failed(case, WRITE_FAULT, status, out, err)
    if stream == "input" and case.reads():
        return _failed(case, READ_FAULT, status, out, err)
    if stream == "all":
        wanted = READ_FAULT if case.reads() else WRITE_FAULT if case.writes() else case.whole.status
        return None if status == wanted else f"status {status} where all streams are closed"
    if stream == "endless" and case.reads():
        fits = status == 2 and err.startswith(b"refused: input larger than") and out == b""
        return None if fits else f"status {status} for an endless input"
    if stream == "error output":
        return _same(case, status, out, case.whole.err)
    return _same(case, status, out, err)


def _started(case: Case, **streams) -> subprocess.Popen:
    given = {"stdin": subprocess.PIPE, "stdout": subprocess.PIPE, "stderr": subprocess.PIPE, **streams}
    return subprocess.Popen(case.command, bufsize=0, preexec_fn=_let_signals_end, **given)


def _let_signals_end():
    """What started this suite, such as nohup, may ignore signals, and a program would ignore them with it."""
    for number in ENDING:
        signal.signal(number, signal.SIG_DFL)


def _communicated(case: Case, process: subprocess.Popen, text: bytes | None) -> str | None:
    out, err = process.communicate(text, timeout=LONGEST)
    return _same(case, process.returncode, out, err)


def _feed(process: subprocess.Popen, pieces):
    """Writes the pieces, as far as the process takes them."""
    try:
        for piece in pieces:
            process.stdin.write(piece)
            time.sleep(0.0005)
    except BrokenPipeError:
        pass


def _slow_writer(case: Case) -> str | None:
    """The input comes in small pieces."""
    process = _started(case)
    step = max(1, len(case.text) // 50)
    _feed(process, [case.text[at : at + step] for at in range(0, len(case.text), step)])
    return _communicated(case, process, None)


def _small_pipe() -> tuple[int, int]:
    """A pipe that holds one page."""
    ours, theirs = os.pipe()
    fcntl.fcntl(theirs, fcntl.F_SETPIPE_SZ, 4096)
    return ours, theirs


def _started_over_small_pipe(case: Case) -> tuple[subprocess.Popen, int]:
    """The program with its whole input, and the end of a small pipe that has its output."""
    ours, theirs = _small_pipe()
    process = _started(case, stdout=theirs)
    os.close(theirs)
    _feed(process, [case.text])
    process.stdin.close()
    return process, ours


def _slow_reader(case: Case) -> str | None:
    """The output goes into a small pipe, which is read slowly."""
    process, ours = _started_over_small_pipe(case)
    out = b""
    while piece := os.read(ours, 1000):
        out += piece
        time.sleep(0.0005)
    os.close(ours)
    err = process.stderr.read()
    return _same(case, process.wait(LONGEST), out, err)


def _closing_pipe(case: Case) -> str | None:
    """The output goes into a small pipe that is closed after a line. What fits into the pipe before may have been written."""
    process, ours = _started_over_small_pipe(case)
    while os.read(ours, 1) not in (b"\n", b""):
        pass
    os.close(ours)
    err = process.stderr.read()
    status = process.wait(LONGEST)
    if (status, err) in ((WRITE_FAULT, LINES[WRITE_FAULT]), (-signal.SIGPIPE, b"")):
        return None
    return None if (status, err) == (case.whole.status, case.whole.err) else f"status {status} for a pipe that was closed"


def _closed_socket(case: Case) -> str | None:
    """The output is a socket whose other end is closed."""
    ours, theirs = socket.socketpair()
    ours.close()
    process = _started(case, stdout=theirs)
    theirs.close()
    _, err = process.communicate(case.text, timeout=LONGEST)
    if not case.writes():
        return _same(case, process.returncode, b"", err)
    return _failed(case, WRITE_FAULT, process.returncode, b"", err)


def _impatient_input(case: Case) -> str | None:
    """The input is a pipe that does not wait, and has nothing yet."""
    ours, theirs = os.pipe()
    os.set_blocking(ours, False)
    process = _started(case, stdin=ours)
    out, err = process.communicate(timeout=LONGEST)
    os.close(ours)
    os.close(theirs)
    if not case.reads():
        return _same(case, process.returncode, out, err)
    return _failed(case, READ_FAULT, process.returncode, out, err)


def _impatient_output(case: Case) -> str | None:
    """The output is a small pipe that does not wait, and that nobody reads."""
    ours, theirs = _small_pipe()
    os.set_blocking(theirs, False)
    process = _started(case, stdout=theirs)
    os.close(theirs)
    _, err = process.communicate(case.text, timeout=LONGEST)
    out = os.read(ours, 1 << 20)
    os.close(ours)
    if process.returncode == case.whole.status:
        return _same(case, process.returncode, out, err)
    return _failed(case, WRITE_FAULT, process.returncode, out, err)


def _full_file(case: Case) -> str | None:
    """The output is a file that may have 512 bytes, and the signal that says so is ignored."""
    line = "trap '' XFSZ; ulimit -f 1; exec \"$@\""
    ours = os.memfd_create("output")
    command = ["/bin/sh", "-c", line, "sh", *case.command]
    process = subprocess.run(command, input=case.text, stdout=ours, stderr=subprocess.PIPE, timeout=LONGEST)
    out = os.pread(ours, 1 << 24, 0)
    os.close(ours)
    if process.returncode == case.whole.status:
        return _same(case, process.returncode, out, process.stderr)
    return _failed(case, WRITE_FAULT, process.returncode, out, process.stderr)


def _stopped_and_continued(case: Case) -> str | None:
    """Stopped and continued while it waits for its input, with signals that are ignored by default."""
    process = _started(case)
    _feed(process, [case.text[: len(case.text) // 2]])
    for number in (signal.SIGSTOP, signal.SIGCONT, signal.SIGWINCH, signal.SIGCHLD, signal.SIGURG):
        process.send_signal(number)
    return _communicated(case, process, case.text[len(case.text) // 2 :])


def _ended_by_signals(case: Case) -> str | None:
    """Signals that end it while it waits for its input. Before it has begun it may have ended by itself."""
    if not case.reads():
        return None
    for number in ENDING:
        process = _started(case)
        process.send_signal(number)
        out, _ = process.communicate(timeout=LONGEST)
        if process.returncode != -number or out:
            return f"status {process.returncode} and {len(out)} bytes of output after signal {number}"
    return None


WAYS = [
    _slow_writer,
    _slow_reader,
    _closing_pipe,
    _closed_socket,
    _impatient_input,
    _impatient_output,
    _full_file,
    _stopped_and_continued,
    _ended_by_signals,
]


def _try_host(judge: Judge):
    """Reads and writes of few bytes, and each that fails in turn."""
    try:
        made = host(judge.setting)
    except NoCompiler:
        judge.count.notes.append("short and failing reads and writes were not tried: there is no C compiler")
        return
    for case in _cases(judge, 0) + _cases(judge, 2):
        if judge.is_late():
            return
        for most in (1, 3):
            ended = judge.runner.run(case.command, case.text, made.changed(READ_MOST=most, WRITE_MOST=most))
            fault = _same(case, ended.status, ended.out, ended.err)
            judge.judge(fault, "short reads and writes", case.command, case.text, ended)
        judge.runner.run(case.command, case.text, made.counted())
        _, reads, writes, _ = made.numbers()
        for number in range(1, reads + 1):
            _try_failing(judge, made, case, "READ_FAIL", number, READ_FAULT)
        outs = writes - (1 if case.whole.err else 0)
        for number in range(1, outs + 1):
            _try_failing(judge, made, case, "WRITE_FAIL", number, WRITE_FAULT)
        for most in (100, 1000):
            _try_failing_on_the_way(judge, made, case, most)


# A write that a signal interrupted is made again.
INTERRUPTED = 4


def _try_failing(judge: Judge, made: Host, case: Case, name: str, number: int, wanted: int):
    """Where a read fails nothing is written, and where a write fails the output is what earlier ones took, and no more."""
    for error in (INTERRUPTED, 5, 11, 28):
        ended = judge.runner.run(case.command, case.text, made.changed(**{name: number, "ERROR": error}))
        if wanted == WRITE_FAULT and error == INTERRUPTED:
            fault = _same(case, ended.status, ended.out, ended.err)
        else:
            fault = _failed(case, wanted, ended.status, ended.out, ended.err)
            if fault is None and wanted == READ_FAULT and ended.out != b"":
                fault = "an output where a read failed"
            if fault is None and wanted == WRITE_FAULT and number == 1 and ended.out != b"":
                fault = "an output where the first write failed"
        fault = None if fault is None else f"{fault} (call {number} failed with error {error})"
        judge.judge(fault, "failing reads and writes", ["env", f"{name}={number}", *case.command], case.text, ended)


def _try_failing_on_the_way(judge: Judge, made: Host, case: Case, most: int):
    """The second write fails, where each takes a few bytes: the first ones stand on the output, once."""
    if len(case.whole.out) <= most:
        return
    ended = judge.runner.run(case.command, case.text, made.changed(WRITE_MOST=most, WRITE_FAIL=2, ERROR=28))
    fault = _failed(case, WRITE_FAULT, ended.status, ended.out, ended.err)
    if fault is None and ended.out != case.whole.out[:most]:
        fault = f"{len(ended.out)} bytes of output where the first write took {most}"
    judge.judge(fault, "a write that fails on the way", ["env", f"WRITE_MOST={most}", "WRITE_FAIL=2", *case.command], case.text, ended)


# Arguments that are of none of the forms.
ARGUMENTS = [
    [],
    [""],
    ["run", ""],
    ["run", "--seed"],
    ["run", "--seed", "-1"],
    ["run", "--seed", "4294967296"],
    ["run", "--seed", "9" * 100_000],
    ["run", "--seed", "0x7"],
    ["RUN"],
    ["gen"],
    ["gen", "4294967296"],
    ["gen", "1", "1"],
    ["run"] * 10_000,
    [b"\xff\xfe"],
    [b"run\xff"],
    ["a" * 100_000],
    ["timeline", "1"],
    ["timeline", "2", "1"],
    ["list", "0", "100001"],
    ["report", "--csv", "--csv"],
    ["--help", "--help"],
    ["-"],
]


def _try_arguments(judge: Judge):
    for program in (judge.setting.dispsim, judge.setting.dispview):
        for arguments in ARGUMENTS:
            command = [program, *arguments]
            ended = judge.runner.run(command, b"limit 1\n")
            fits = ended.status == 1 and ended.out == b"" and ended.err.startswith(b"usage: ") and ended.err.count(b"\n") == 1
            fault = None if fits else f"status {ended.status} for arguments that are of no form"
            judge.judge(fault, "arguments", [program, repr(arguments)[:80]], b"limit 1\n", ended)
