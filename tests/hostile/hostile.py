#!/usr/bin/env python3
"""Hostile inputs, streams and memory for the built programs. README.md says what each part does.

hostile.py [OPTIONS] [PART | PART=SIZE ..]
"""

import argparse
import shutil
import sys
import tempfile
import time
from pathlib import Path

from counting import Count, Setting
from growths import growths
from mutated import mutated
from sanitised import sanitised
from seeds import seeds
from set_limits import set_limits
from sets import sets
from sizes import sizes
from streams import streams
from threads import threads

REPOSITORY = Path(__file__).resolve().parents[2]

PROGRAMS = ("dispsim", "dispview", "disptask", "dispfind")

# Each part, and its size where none is given.
PARTS = {
    "growths": (growths, 3),
    "mutated": (mutated, 20_000),
    "sanitised": (sanitised, 500),
    "seeds": (seeds, 5_000),
    "set_limits": (set_limits, 20),
    "sets": (sets, 5_000),
    "sizes": (sizes, 8),
    "streams": (streams, 3),
    "threads": (threads, 200),
}


def parsed(words: list[str]) -> argparse.Namespace:
    parser = argparse.ArgumentParser(description=__doc__.splitlines()[0], epilog=f"Parts: {' '.join(PARTS)}")
    for name in PROGRAMS:
        parser.add_argument(f"--{name}", default=REPOSITORY / f"crates/{name}/out/{name}", help="the built program")
    parser.add_argument("--seed", type=int, default=1, help="what is drawn is drawn from this number")
    parser.add_argument("--jobs", type=int, default=1, help="how many processes work at once")
    parser.add_argument("--seconds", type=float, default=600, help="how long a part may last")
    parser.add_argument("--kept", type=Path, default=Path("hostile-failures"), help="where failures are kept")
    parser.add_argument("parts", nargs="*", metavar="PART[=SIZE]", help="all where none is given")
    return parser.parse_args(words)


def chosen(words: list[str]) -> list[tuple[str, int]]:
    """The names and sizes of the parts that were asked for."""
    parts = []
    for word in words or PARTS:
        name, _, size = word.partition("=")
        if name not in PARTS or (size and not size.isdigit()):
            sys.exit(f"hostile.py: no part {word}; there are {', '.join(PARTS)}")
        parts.append((name, int(size) if size else PARTS[name][1]))
    return parts


def show(name: str, size: int, count: Count, seconds: float):
    for note in count.notes[:50]:
        print(f"  {note}")
    kinds = ", ".join(f"{kind}: {number}" for kind, number in sorted(count.kinds.items()))
    print(f"{name}={size}: {count.tried} tried, {count.failed} failed, {seconds:.0f} seconds ({kinds})", flush=True)


def main() -> int:
    options = parsed(sys.argv[1:])
    parts = chosen(options.parts)
    programs = {name: getattr(options, name) for name in PROGRAMS}
    for program in programs.values():
        if not Path(program).is_file():
            sys.exit(f"hostile.py: no program {program}: build it with 'rt run', or name another")
    total = Count()
    shared = Path("/dev/shm")
    scratch = Path(tempfile.mkdtemp(prefix="hostile-", dir=shared if shared.is_dir() else None))
    try:
        setting = Setting(
            **{name: str(Path(program).resolve()) for name, program in programs.items()},
            repository=REPOSITORY,
            scratch=scratch,
            kept=options.kept.resolve(),
            jobs=options.jobs,
            seed=options.seed,
            seconds=options.seconds,
        )
        print(f"seed {setting.seed}, {setting.jobs} processes at once", flush=True)
        for name, size in parts:
            begun = time.monotonic()
            count = PARTS[name][0](setting, size)
            show(name, size, count, time.monotonic() - begun)
            total.add(count)
    finally:
        shutil.rmtree(scratch, ignore_errors=True)
    print(f"{total.tried} tried, {total.failed} failed")
    return 1 if total.failed else 0


if __name__ == "__main__":
    sys.exit(main())
