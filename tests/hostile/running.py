"""One run of a program under test: on files of its own, bounded in time, with what it wrote and how it ended."""

import os
import signal
from dataclasses import dataclass
from pathlib import Path

# How much of a processor a run may take before it counts as hanging, and how long it may last on a machine that is busy.
PROCESSOR_SECONDS = 1.0
LONGEST_SECONDS = 30.0


@dataclass(frozen=True)
class Ended:
    """How a run ended. A status below 0 is the number of the signal that ended it."""

    status: int
    out: bytes
    err: bytes
    seconds: float
    hung: bool


class Runner:
    """Runs programs one after another, over three files in a folder that it makes."""

    def __init__(self, scratch: Path):
        folder = scratch / f"run{os.getpid()}"
        folder.mkdir(parents=True, exist_ok=True)
        flags = os.O_RDWR | os.O_CREAT | os.O_TRUNC
        self.files = [os.open(folder / name, flags) for name in ("in", "out", "err")]
        self.actions = [(os.POSIX_SPAWN_DUP2, file, to) for to, file in enumerate(self.files)]
        self.pid = 0
        self.was_killed = False

    def run(self, command, text=b"", environment=None, processor=PROCESSOR_SECONDS, longest=LONGEST_SECONDS) -> Ended:
        """Runs the command on the text. It is killed at the longest time, and hung where it was, or took more of a processor."""
        for file in self.files:
            os.ftruncate(file, 0)
            os.lseek(file, 0, os.SEEK_SET)
        written = 0
        while written < len(text):
            written += os.pwrite(self.files[0], text[written:], written)
        status, usage = self._wait_for(command, environment or {}, longest)
        taken = usage.ru_utime + usage.ru_stime
        return Ended(
            status=os.waitstatus_to_exitcode(status),
            out=self._contents(1),
            err=self._contents(2),
            seconds=taken,
            hung=self.was_killed or processor < taken,
        )

    def _wait_for(self, command, environment, longest):
        self.was_killed = False
        signal.signal(signal.SIGALRM, self._kill)
        self.pid = os.posix_spawn(command[0], command, environment, file_actions=self.actions)
        signal.setitimer(signal.ITIMER_REAL, longest)
        _, status, usage = os.wait4(self.pid, 0)
        signal.setitimer(signal.ITIMER_REAL, 0)
        return status, usage

    def _kill(self, _signal, _frame):
        self.was_killed = True
        os.kill(self.pid, signal.SIGKILL)

    def _contents(self, stream):
        size = os.fstat(self.files[stream]).st_size
        return os.pread(self.files[stream], size, 0)
