"""Ways to damage a text: bytes, lines, numbers, words and blocks."""

import re
from random import Random

# Bytes that mean something to the reader, and some that may not stand.
BYTES = [0, 9, 10, 11, 13, 32, 35, 45, 48, 57, 58, 61, 97, 127, 128, 255]

# Numbers at the ends of ranges: those of the limits, of machine words, and of the digits that a number may have.
_ENDS = [0, 1, 2, 8, 9, 59, 60, 61, 63, 64, 65, 99, 100, 255, 256, 257, 1000, 2047, 2048, 4096, 65535, 65536, 100000, 100001]
_ENDS += [2**15, 2**31 - 1, 2**31, 2**32 - 1, 2**32, 9999999999, 10**10, 2**63 - 1, 2**63, 2**64 - 1, 2**64, 10**30]

NUMBER = re.compile(rb"-?\d+")

# Lines that open, close and name blocks.
_SET_LINES = [b"repeat N", b"job t0", b"job t1", b"task t0 rt 5 inf period N", b"task x ts 29 0 0 period N offset N", b"thread y rt 5 inf start N"]
_SET_LINES += [b"thread z rt 58 inf on N", b"semav t0", b"semap t0", b"sema clock-N 0", b"limit N", b"cpus N", b"run N", b"script t0"]
_BLOCK_LINES = [b"end", b"script a", b"script t0", b"table ts", b"table fx", b"table rt", b"accounts", b"journal", b"RES=1000"]


def change_byte(draw: Random, text: bytes) -> bytes:
    at = draw.randrange(len(text) + 1)
    byte = draw.choice(BYTES) if draw.random() < 0.7 else draw.randrange(256)
    return text[:at] + bytes([byte]) + text[at + draw.randint(0, 1) :]


def drop_byte(draw: Random, text: bytes) -> bytes:
    at = draw.randrange(len(text) + 1)
    return text[:at] + text[at + 1 :]


def cut_off(draw: Random, text: bytes) -> bytes:
    return text[: draw.randrange(len(text) + 1)]


def drop_line(draw: Random, text: bytes) -> bytes:
    lines = text.splitlines(keepends=True)
    if lines:
        del lines[draw.randrange(len(lines))]
    return b"".join(lines)


def double_line(draw: Random, text: bytes) -> bytes:
    lines = text.splitlines(keepends=True)
    if lines:
        lines.insert(draw.randrange(len(lines) + 1), draw.choice(lines))
    return b"".join(lines)


def exchange_lines(draw: Random, text: bytes) -> bytes:
    lines = text.splitlines(keepends=True)
    if lines:
        one = draw.randrange(len(lines))
        other = min(one + draw.choice([1, 1, 2, 5]), len(lines) - 1)
        lines[one], lines[other] = lines[other], lines[one]
    return b"".join(lines)


def change_number(draw: Random, text: bytes) -> bytes:
    numbers = list(NUMBER.finditer(text))
    if not numbers:
        return text
    found = draw.choice(numbers)
    near = int(found.group()[:30]) + draw.choice([-1, 1])
    number = near if draw.random() < 0.5 else draw.choice(_ENDS) * draw.choice([1, 1, 1, -1])
    return text[: found.start()] + str(number).encode() + text[found.end() :]


def exchange_words(draw: Random, text: bytes) -> bytes:
    words = re.split(rb"(\s+)", text)
    places = range(0, len(words), 2)
    one, other = draw.choice(places), draw.choice(places)
    if draw.random() < 0.5:
        words[one] = words[other]
    else:
        words[one], words[other] = words[other], words[one]
    return b"".join(words)


def insert_block_line(draw: Random, text: bytes) -> bytes:
    lines = text.splitlines(keepends=True)
    at = draw.randrange(len(lines) + 1)
    lines[at:at] = [draw.choice(_BLOCK_LINES) + b"\n"] * draw.choice([1, 1, 2, 300])
    return b"".join(lines)


def insert_set_line(draw: Random, text: bytes) -> bytes:
    """A line that only a task set has, and its end perhaps."""
    lines = text.splitlines(keepends=True)
    number = str(draw.choice([*_ENDS[:24], *range(3, 30)])).encode()
    piece = [draw.choice(_SET_LINES).replace(b"N", number) + b"\n"] * draw.choice([1, 1, 1, 2, 9])
    at = draw.randrange(len(lines) + 1)
    lines[at:at] = piece
    if draw.random() < 0.5:
        below = draw.randint(at, len(lines))
        lines[below:below] = [b"end\n"] * len(piece)
    return b"".join(lines)


def change_option(draw: Random, text: bytes) -> bytes:
    """An option behind a line of a thread or task, or one less."""
    lines = text.splitlines()
    places = [place for place, line in enumerate(lines) if line.startswith((b"task ", b"thread "))]
    if places:
        place = draw.choice(places)
        words = lines[place].split()
        if draw.random() < 0.3:
            del words[-2:]
        else:
            option = draw.choice([b"period", b"offset", b"deadline", b"jobs", b"on", b"start", b"in", b"uid"])
            at = draw.randint(3, max(3, len(words)))
            words[at:at] = [option, str(draw.choice([0, 1, 2, 3, 7, 59, 64, 256, 100000])).encode()]
        lines[place] = b" ".join(words)
    return b"\n".join(lines) + b"\n"


def insert_bytes(draw: Random, text: bytes) -> bytes:
    at = draw.randrange(len(text) + 1)
    return text[:at] + draw.randbytes(draw.randint(1, 40)) + text[at:]


def lengthen_line(draw: Random, text: bytes) -> bytes:
    """One word, blank or comment, many times."""
    at = draw.randrange(len(text) + 1)
    piece = draw.choice([b"a", b"9", b" ", b"#", b"-", b" 1", b" a", b"\t", b"0", b",1", b" h 0"])
    times = draw.choice([17, 300, 5000]) if draw.random() < 0.99 else draw.choice([200_000, 1_100_000])
    return text[:at] + piece * times + text[at:]


WAYS = [
    change_byte,
    change_byte,
    drop_byte,
    cut_off,
    drop_line,
    double_line,
    exchange_lines,
    change_number,
    change_number,
    exchange_words,
    insert_block_line,
    insert_bytes,
    lengthen_line,
]


SET_WAYS = [*WAYS, insert_set_line, insert_set_line, insert_set_line, change_option, change_option, change_number]


def drop_entry(draw: Random, text: bytes) -> bytes:
    """A journal with one entry less, whose numbers have no gap."""
    lines = text.splitlines(keepends=True)
    if lines:
        del lines[draw.randrange(len(lines))]
    return b"".join(renumbered(lines))


def exchange_entries(draw: Random, text: bytes) -> bytes:
    """A journal with two entries exchanged, whose numbers rise."""
    return b"".join(renumbered(exchange_lines(draw, text).splitlines(keepends=True)))


def double_entry(draw: Random, text: bytes) -> bytes:
    return b"".join(renumbered(double_line(draw, text).splitlines(keepends=True)))


def other_processor(draw: Random, text: bytes) -> bytes:
    places = list(re.finditer(rb"(?<=\bc)\d+", text))
    if not places:
        return text
    found = draw.choice(places)
    return text[: found.start()] + str(draw.randint(0, 3)).encode() + text[found.end() :]


def other_hint(draw: Random, text: bytes) -> bytes:
    places = list(re.finditer(rb" h [\d,]+", text))
    if not places:
        return text
    found = draw.choice(places)
    hints = [str(draw.choice([0, 1, 60, 170, 255, 256])) for _ in range(draw.randint(0, 4))]
    return text[: found.start()] + (b" h " + ",".join(hints).encode() if hints else b"") + text[found.end() :]


def renumbered(lines: list[bytes]) -> list[bytes]:
    """The lines, each that is numbered with its place as its number."""
    return [re.sub(rb"^\d+(?= c)", str(place).encode(), line) for place, line in enumerate(lines)]


JOURNAL_WAYS = [drop_entry, exchange_entries, double_entry, other_processor, other_hint, change_number, exchange_words, change_byte, drop_line]


def damaged(draw: Random, text: bytes, ways=WAYS) -> bytes:
    """The text, damaged in one to four ways."""
    for _ in range(draw.choice([1, 1, 1, 2, 3, 4])):
        text = draw.choice(ways)(draw, text)
    return text
