#!/usr/bin/env python3
"""Runs a built `disptask` over a folder of vectors and compares what it answers, byte for byte.

A vector is NAME.set with NAME.workload (the expansion) and NAME.map (the line of the set that each line
of the expansion comes from), or NAME.set with NAME.refused (`line N: CAUSE`).

    tests/tasks/vectors.py crates/disptask/out/disptask FOLDER
"""

import subprocess
import sys
from pathlib import Path


def call(program: str, arguments: list[str], given: bytes) -> tuple[int, bytes, bytes]:
    """Returns the exit status, the output and the error output."""
    ended = subprocess.run(
        [program, *arguments], input=given, capture_output=True, timeout=60, check=False
    )
    return ended.returncode, ended.stdout, ended.stderr


def is_expanded(program: str, source: Path) -> bool:
    """Whether a set expands to its workload, and with `--map` to the same lines with their origins."""
    given = source.read_bytes()
    workload = source.with_suffix(".workload").read_bytes()
    origins = source.with_suffix(".map").read_text().split()
    lines = workload.decode().splitlines()
    mapped = "".join(f"{line} # {origin}\n" for line, origin in zip(lines, origins, strict=True))
    return (
        call(program, [], given) == (0, workload, b"")
        and call(program, ["--map"], given) == (0, mapped.encode(), b"")
        and call(program, [], workload)[0] == 0
    )


def is_refused(program: str, source: Path) -> bool:
    """Whether a set is refused, with the line and the cause."""
    wanted = source.with_suffix(".refused").read_text().strip()
    line = f"refused: {wanted}\n".encode()
    return call(program, [], source.read_bytes()) == (2, b"", line)


def main() -> int:
    program, folder = sys.argv[1], Path(sys.argv[2])
    failed = 0
    sources = sorted(folder.glob("*.set"))
    for source in sources:
        passes = is_refused if source.with_suffix(".refused").exists() else is_expanded
        if not passes(program, source):
            failed += 1
            print(f"{source.name}: failed")
    print(f"{len(sources)} tried, {failed} failed")
    return 1 if failed or not sources else 0


if __name__ == "__main__":
    sys.exit(main())
