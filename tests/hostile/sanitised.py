"""Damaged inputs through an unproved build of the programs with checks: an address sanitiser and traps for what would be undefined.

The toolchain builds each program once for a folder of inputs, and runs it on each of them.
"""

import re
import shutil
import subprocess
import tempfile

import answers
from counting import Count, Judge, Setting
from mutations import damaged
from workloads import random_workload

# The line of a case, on the error output of the toolchain.
_CASE = re.compile(r"case=(\d+) run=(\S+) status=(\d+)")

# The forms of each crate, of which one is drawn for an input.
FORMS = {
    "dispsim": ["run", "run", "run --seed 7", "sum", "tables", "audit", "audit", "audit"],
    "dispview": ["dispview timeline", "dispview trace", "dispview list", "dispview report"],
}


def sanitised(setting: Setting, size: int) -> Count:
    """Runs this many inputs, a fifth of them through `dispview`."""
    judge = Judge(setting, "sanitised", 0)
    if shutil.which("rt") is None:
        judge.count.notes.append("not tried: there is no toolchain")
        return judge.count
    for crate, number in (("dispsim", size - size // 5), ("dispview", size // 5)):
        forms = [judge.draw.choice(FORMS[crate]) for _ in range(number)]
        _run_all(judge, crate, [(form, _input(judge, form)) for form in forms])
    return judge.count


def _input(judge: Judge, form: str) -> bytes:
    """A workload, or a certificate, which is damaged but for three in ten."""
    text = random_workload(judge.draw, most_cpus=4, most_ticks=15)
    if answers.kind_of(form) in ("audit", "dispview"):
        text += b"journal\n" + judge.runner.run(judge.setting.command("run"), text).out
    return text if judge.draw.random() < 0.3 else damaged(judge.draw, text)


def _run_all(judge: Judge, crate: str, inputs: list[tuple[str, bytes]]):
    """Builds the crate with checks, runs it on the inputs, and judges the line of each."""
    folder = judge.setting.scratch / "cases"
    shutil.rmtree(folder, ignore_errors=True)
    folder.mkdir()
    for number, (form, text) in enumerate(inputs):
        arguments = form.removeprefix("dispview ").split()
        (folder / f"{number:06}").write_bytes(text)
        (folder / f"{number:06}.args").write_text("\n".join(arguments) + "\n")
    command = ["rt", "try", "--cases", str(folder)]
    lines = _lines_of(command, judge.setting.repository / "crates" / crate, judge.setting.seconds)
    seen = {int(case[1]): (case[2], int(case[3])) for case in _CASE.finditer(lines)}
    if not seen:
        judge.count.notes.append(f"no input was tried with {crate} in the time of the part")
    for number, (form, text) in enumerate(inputs):
        if number not in seen:
            continue
        run, status = seen[number]
        fits = run == "ended" and status in answers.STATUSES[answers.kind_of(form)]
        fault = None if fits else f"run={run} status={status} of the build with checks"
        judge.judge(fault, f"{answers.kind_of(form)} {status}", [*command, "in", crate, form], text)


def _lines_of(command: list[str], folder, seconds: float) -> str:
    """What the toolchain says of the cases, as far as it comes in this time."""
    with tempfile.TemporaryFile() as err:
        process = subprocess.Popen(command, cwd=folder, stdout=subprocess.DEVNULL, stderr=err)
        try:
            process.wait(seconds)
        except subprocess.TimeoutExpired:
            process.terminate()
            process.wait()
        err.seek(0)
        return err.read().decode(errors="replace")
