"""A library that stands before the C library of a program: it refuses memory, and makes reads and writes fail or short."""

import shutil
import subprocess
from pathlib import Path

from counting import Setting

SOURCE = Path(__file__).parent / "host.c"


class NoCompiler(Exception):
    """There is no C compiler, without which the library cannot be made."""


class Host:
    """Environments in which a program runs over the library."""

    def __init__(self, scratch: Path):
        self.library = scratch / "host.so"
        self.calls = scratch / "calls"

    def changed(self, **settings: int) -> dict[str, str]:
        """The environment of a run with these settings of `host.c`."""
        return {"LD_PRELOAD": str(self.library), **{name: str(number) for name, number in settings.items()}}

    def counted(self) -> dict[str, str]:
        """The environment of a run whose calls are counted."""
        return {"LD_PRELOAD": str(self.library), "CALLS": str(self.calls)}

    def numbers(self) -> list[int]:
        """How many growths, reads and writes the run had that was counted last, and its greatest memory in KiB."""
        return [int(word) for word in self.calls.read_text().split()]


def host(setting: Setting) -> Host:
    """Makes the library, unless it is there."""
    made = Host(setting.scratch)
    if not made.library.exists():
        compiler = shutil.which("cc") or shutil.which("gcc") or shutil.which("clang")
        if compiler is None:
            raise NoCompiler
        subprocess.run([compiler, "-O2", "-shared", "-fPIC", "-o", made.library, SOURCE], check=True)
    return made
