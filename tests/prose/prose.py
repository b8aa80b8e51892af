#!/usr/bin/env python3
"""Measures the English of the documents: sentences, lines, words to avoid, and links.

    tests/prose/prose.py [FILE ..]

Without files it reads README.md and docs/*.md. For each file it prints how many sentences it has, how
many words a sentence has on average, and each finding with its line. The last line is a count. The
exit status is 0 when nothing was found, and 1 otherwise.
"""

import pathlib
import re
import sys

ROOT = pathlib.Path(__file__).resolve().parents[2]
WIDEST_LINE = 100
LONGEST_SENTENCE = 35
AVERAGE_SENTENCE = 20
# What reads like a translation, and what to write instead.
WORDS = {
    r"\bin front of\b": "before",
    r"(?<!there )\b(is|are) none\b": "no ..",
    r"\btells of\b|\bis said of\b|\bsays of\b": "prints, returns, reports",
    r"\bmemory runs out\b|\bfinds no memory\b": "allocation fails, out of memory",
    r"\bthe opening\b": "the initial state",
    r"\bthe processor that acts\b": "the acting processor",
    r"\bin rounds of (rising|drawn) orders\b": "in processor order, in seeded random order",
    r"\bclosed chain\b": "blocking cycle",
}


def paragraphs(text):
    """The running text: (line number, text) of each paragraph or item, without code, tables, headings and quotations."""
    found, lines, start, in_code = [], [], 0, False
    for number, line in enumerate(text.splitlines() + [""], 1):
        if line.startswith("```"):
            in_code = not in_code
            line = ""
        is_text = bool(line.strip()) and not in_code and line.lstrip()[0] not in "|#<![>"
        begins = bool(re.match(r"\s*([-*]|\d+\.) ", line))
        if lines and (not is_text or begins):
            found.append((start, " ".join(lines)))
            lines = []
        if is_text:
            if not lines:
                start = number
            lines.append(re.sub(r"^\s*([-*]|\d+\.) ", "", line).strip())
    return found


def plain(text):
    """The text with each quotation of code as one word, and each link as its words."""
    text = re.sub(r"`[^`]*`", "CODE", text)
    text = re.sub(r"\[([^]]*)\]\([^)]*\)", r"\1", text)
    return text.replace("*", "")


def sentences(text):
    """The sentences of a paragraph: they end with a full stop or a question mark."""
    parts = re.split(r"(?<=[.?!])[\"')]*\s+(?=[A-Z(\"'0-9])", plain(text))
    return [part for part in parts if re.search(r"\w", part)]


def wide_lines(text):
    """Lines outside tables and code that are too wide."""
    in_code = False
    for number, line in enumerate(text.splitlines(), 1):
        if line.startswith("```"):
            in_code = not in_code
        if len(line) > WIDEST_LINE and not in_code and not line.startswith(("|", "![")):
            yield number, f"{len(line)} columns"


def broken_links(path, text):
    """Links to files that are not there."""
    for number, line in enumerate(text.splitlines(), 1):
        for target in re.findall(r"\]\(([^)#]+)[^)]*\)", line):
            if not re.match(r"[a-z]+:", target) and not (path.parent / target).exists():
                yield number, f"no such file: {target}"


def findings(path, text):
    """What is to be mended in a file, and its sentences' lengths."""
    lengths, found = [], []
    for number, paragraph in paragraphs(text):
        for sentence in sentences(paragraph):
            words = len(sentence.split())
            lengths.append(words)
            if words > LONGEST_SENTENCE:
                found.append((number, f"{words} words: {sentence[:60]}.."))
        for pattern, better in WORDS.items():
            for match in re.finditer(pattern, plain(paragraph), re.IGNORECASE):
                found.append((number, f"'{match.group()}': write '{better}'"))
    found += list(wide_lines(text)) + list(broken_links(path, text))
    average = sum(lengths) / len(lengths) if lengths else 0
    if average >= AVERAGE_SENTENCE:
        found.append((1, f"{average:.1f} words a sentence on average"))
    return len(lengths), average, sorted(found)


def main():
    named = [pathlib.Path(name) for name in sys.argv[1:]]
    paths = named or [ROOT / "README.md"] + sorted((ROOT / "docs").glob("*.md"))
    total = 0
    for path in paths:
        count, average, found = findings(path, path.read_text(encoding="utf-8"))
        print(f"{path.name}: {count} sentences, {average:.1f} words on average, {len(found)} findings")
        for number, what in found:
            print(f"  {path.name}:{number}: {what}")
        total += len(found)
    print(f"{len(paths)} files, {total} findings")
    return 1 if total else 0


if __name__ == "__main__":
    sys.exit(main())
