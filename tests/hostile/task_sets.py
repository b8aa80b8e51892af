"""Random small task sets, most of them accepted, in which every line of a set occurs."""

from random import Random

from workloads import QUANTA

CLASSES = ["rt {rt} {quantum}", "rt {rt} inf", "ts {ts} 0 0", "fx {fx} {fx} {quantum}", "sys 60"]


def random_set(draw: Random, most_cpus: int = 4, most_ticks: int = 30) -> bytes:
    """A set of a few tasks, threads that arrive late or are bound, and plain threads, with jobs, scripts and repeats."""
    cpus = draw.randint(1, most_cpus)
    lines = [f"cpus {cpus}"] if 1 < cpus or draw.random() < 0.5 else []
    ticks = draw.randint(3, most_ticks)
    lines.append(f"limit {ticks}")
    halves = _sets(draw, cpus, lines)
    mutexes = [f"m{i}" for i in range(draw.randint(0, 2))]
    lines += [f"mutex {name}" for name in mutexes]
    lines += ["chan k"] if draw.random() < 0.3 else []
    lines += ["sema s 1"] if draw.random() < 0.3 else []
    bodies = []
    for number in range(draw.randint(1, 5)):
        declared, opened = _member(draw, f"t{number}", ticks, cpus, halves)
        lines.append(declared)
        if opened and draw.random() < 0.9:
            bodies.append([f"{opened} t{number}", *_operations(draw, mutexes, 0), "end"])
    draw.shuffle(bodies)
    lines += [line for body in bodies for line in body]
    return ("\n".join(lines) + "\n").encode()


def _sets(draw: Random, cpus: int, lines: list[str]) -> dict[str, list[int]]:
    """The processors of each partition by its name; the default one has none."""
    if cpus < 3 or draw.random() < 0.6:
        return {"": list(range(cpus))}
    first = draw.randint(1, cpus - 1)
    lines.append(f"set p {' '.join(map(str, range(first, cpus)))}")
    return {"": list(range(first)), "p": list(range(first, cpus))}


def _member(draw: Random, name: str, ticks: int, cpus: int, halves: dict[str, list[int]]) -> tuple[str, str]:
    """The line of a task or a thread, and the word that opens its block."""
    numbers = {"rt": draw.randint(0, 58), "ts": draw.randint(0, 59), "fx": draw.randint(0, 60), "quantum": draw.choice(QUANTA)}
    partition = draw.choice(sorted(halves))
    line = f"{name} {draw.choice(CLASSES).format(**numbers)}"
    line += " priv" if draw.random() < 0.2 else ""
    line += f" in {partition}" if partition else ""
    on = f" on {draw.choice(halves[partition])}" if draw.random() < 0.5 else ""
    if draw.random() < 0.6:
        options = f" period {draw.randint(2, 12)}"
        options += f" offset {draw.randint(0, 9)}" if draw.random() < 0.4 else ""
        options += f" deadline {draw.randint(1, 20)}" if draw.random() < 0.4 else ""
        options += f" jobs {draw.randint(1, 4)}" if draw.random() < 0.3 else ""
        return f"task {line}{options}{on}", "job"
    start = f" start {draw.randint(0, ticks + 2)}" if draw.random() < 0.4 else ""
    return f"thread {line}{start}{on}", "script"


def _operations(draw: Random, mutexes: list[str], depth: int) -> list[str]:
    """Operations that give up what they take, some of them repeated."""
    made = []
    for _ in range(draw.randint(1, 3)):
        kind = draw.choice(["run", "run", "nap", "yield", "lock", "repeat"])
        if kind == "lock" and mutexes:
            mutex = draw.choice(mutexes)
            made += [f"enter {mutex}", f"run {draw.randint(1, 3)}", f"exit {mutex}"]
        elif kind == "repeat" and depth < 2:
            made += [f"repeat {draw.randint(1, 3)}", *_operations(draw, mutexes, depth + 1), "end"]
        elif kind == "yield":
            made.append("yield")
        else:
            made.append(f"{'nap' if kind == 'nap' else 'run'} {draw.randint(1, 4)}")
    return made
