"""Random small workloads, each of them accepted, in which every line and operation of the workload text occurs."""

from random import Random

# Quanta that a line of a thread may have.
QUANTA = ["def", "inf", "1", "2", "7"]


def random_workload(draw: Random, most_cpus: int = 6, most_ticks: int = 60) -> bytes:
    """A workload of a few processors, threads and locks, with a script for most of its threads."""
    cpus = draw.randint(1, most_cpus)
    lines = [f"cpus {cpus}", f"limit {draw.randint(1, most_ticks)}"]
    if draw.random() < 0.2:
        lines.append("hz 1000")
    sets = _sets(draw, cpus, lines)
    mutexes = [f"m{i}" for i in range(draw.randint(0, 4))]
    rwlocks = [f"w{i}" for i in range(draw.randint(0, 2))]
    channels = [f"k{i}" for i in range(draw.randint(0, 2))]
    semaphores = [f"s{i}" for i in range(draw.randint(0, 2))]
    lines += [f"mutex {name}" for name in mutexes] + [f"rwlock {name}" for name in rwlocks]
    lines += [f"chan {name}" for name in channels]
    lines += [f"sema {name} {draw.randint(0, 2)}" for name in semaphores]
    threads = [f"t{i}" for i in range(draw.randint(1, 9))]
    lines += [_thread(draw, name, sets) for name in threads]
    script = _Script(draw, cpus, sets, mutexes, rwlocks, channels, semaphores, threads)
    for name in threads:
        if draw.random() < 0.9:
            lines += [f"script {name}", *script.operations(), "end"]
    return ("\n".join(lines) + "\n").encode()


def _sets(draw: Random, cpus: int, lines: list[str]) -> list[str]:
    free = list(range(1, cpus))
    draw.shuffle(free)
    sets = []
    while free and draw.random() < 0.4:
        members = [free.pop() for _ in range(draw.randint(1, len(free)))]
        sets.append(f"p{len(sets)}")
        lines.append(f"set {sets[-1]} {' '.join(map(str, members))}")
    return sets


def _thread(draw: Random, name: str, sets: list[str]) -> str:
    kind = draw.choice(["ts", "ts", "fx", "fx", "rt", "sys"])
    if kind == "ts":
        numbers = f"{draw.randint(0, 59)} {draw.randint(-60, 60)} {draw.randint(-60, 60)}"
    elif kind == "fx":
        numbers = f"{draw.randint(0, 60)} {draw.randint(0, 60)} {draw.choice(QUANTA)}"
    elif kind == "rt":
        numbers = f"{draw.randint(0, 59)} {draw.choice(QUANTA)}"
    else:
        numbers = str(draw.randint(60, 99))
    user = f" uid {draw.randint(0, 2)}" if draw.random() < 0.3 else ""
    privileged = " priv" if draw.random() < 0.3 else ""
    inside = f" in {draw.choice(sets)}" if sets and draw.random() < 0.4 else ""
    return f"thread {name} {kind} {numbers}{user}{privileged}{inside}"


class _Script:
    """Makes scripts over the names of a workload."""

    def __init__(self, draw, cpus, sets, mutexes, rwlocks, channels, semaphores, threads):
        self.draw = draw
        self.cpus = cpus
        self.sets = sets
        self.mutexes = mutexes
        self.rwlocks = rwlocks
        self.channels = channels
        self.semaphores = semaphores
        self.threads = threads

    def operations(self) -> list[str]:
        """Operations that give up all locks that they take."""
        held: list[str] = []
        made: list[str] = []
        for _ in range(self.draw.randint(1, 9)):
            made.append(self._operation(held))
        self.draw.shuffle(held)
        return made + [f"exit {lock}" for lock in held]

    def _operation(self, held: list[str]) -> str:
        draw = self.draw
        kind = draw.choice(["run", "nap", "lock", "lock", "lock", "exit", "channel", "semaphore", "cvwait", "yield", "rare"])
        free = [lock for lock in self.mutexes + self.rwlocks if lock not in held]
        owned = [lock for lock in held if lock in self.mutexes]
        if kind == "lock" and free and len(held) < 8:
            return self._lock(draw.choice(free), held)
        if kind == "exit" and held:
            return f"exit {held.pop(draw.randrange(len(held)))}"
        if kind == "channel" and self.channels:
            return f"{draw.choice(['sleep', 'wake', 'wake', 'wakeall'])} {draw.choice(self.channels)}"
        if kind == "semaphore" and self.semaphores:
            return f"{draw.choice(['semap', 'semav', 'semav'])} {draw.choice(self.semaphores)}"
        if kind == "cvwait" and self.channels and owned:
            return f"cvwait {draw.choice(self.channels)} {draw.choice(owned)}"
        if kind == "rare":
            return self._of_classes_and_sets()
        if kind == "yield":
            return "yield"
        return f"{draw.choice(['run', 'nap'])} {draw.randint(1, 5)}"

    def _lock(self, lock: str, held: list[str]) -> str:
        held.append(lock)
        if lock in self.mutexes:
            return f"enter {lock}"
        return f"{self.draw.choice(['read', 'write'])} {lock}"

    def _of_classes_and_sets(self) -> str:
        draw = self.draw
        thread = draw.choice(self.threads)
        kind = draw.choice(["priocntl", "assign", "pbind"])
        if kind == "assign":
            return f"assign {draw.randrange(self.cpus)} {draw.choice(self.sets + ['-'])}"
        if kind == "pbind":
            return f"pbind {thread} {draw.choice(['-', *map(str, range(self.cpus))])}"
        request = draw.choice(
            [
                f"ts {draw.randint(-70, 70)} {draw.randint(-70, 70)}",
                f"fx {draw.randint(-2, 62)} {draw.randint(-2, 62)} {draw.choice(QUANTA)}",
                f"sys {draw.randint(-1, 100)}",
                f"rt {draw.randint(-1, 60)} {draw.choice(QUANTA)}",
            ]
        )
        return f"priocntl {thread} {request}"
