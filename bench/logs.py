"""Logs for the second implementation: reading the text of one, and judging whether it is a legal run.

It follows docs/FORMATS.md (The run log, What check writes). A log is read line by line, and followed in the frames of runs.py: each entry has to be one
that the run so far can make, a pick of any element that is left.
"""

import re

import runs

MOST_ENTRIES = 2_000_000
MOST_NUMBER = 2_147_483_647
LENGTH, SPEED, RATE, VALUE = 200_000_000, 100_000_000, 100_000_000, 10**15

NUMBER = "(0|[1-9][0-9]*)"
SIGNED = "(0|-?[1-9][0-9]*)"
NODE = (1, MOST_NUMBER)
ALONG = (-LENGTH, LENGTH)

# Each form of a line with the ranges of its numbers.
FORMS = [
    (f"D {NUMBER} {NUMBER}", [NODE, (0, 1_000)]),
    (f"B {NUMBER} {NUMBER} T {NUMBER} {SIGNED}", [NODE, (0, 19_999), NODE, (-SPEED, SPEED)]),
    (f"B {NUMBER} {NUMBER} R {SIGNED} {SIGNED} {SIGNED}", [NODE, (0, 19_999), ALONG, ALONG, ALONG]),
    (f"B {NUMBER} {NUMBER} F {SIGNED} {SIGNED} {SIGNED} {NUMBER}", [NODE, (0, 19_999), ALONG, ALONG, ALONG, (1, RATE)]),
    (f"B {NUMBER} {NUMBER} W {NUMBER}", [NODE, (0, 19_999), (1, RATE)]),
    (f"E {NUMBER}", [NODE]),
    (f"P {NUMBER} {NUMBER}", [NODE, (0, 65_534)]),
    (f"T {NUMBER} {NUMBER}", [NODE, (0, 1)]),
    (f"A {NUMBER} {SIGNED}", [NODE, (-VALUE, VALUE)]),
    (f"[SWM] {NUMBER}", [NODE]),
    (f"X {NUMBER} ok", [(0, 999)]),
    (f"X {NUMBER} no J{NUMBER} {NUMBER} {NUMBER}", [(0, 999), (1, 5), (0, MOST_NUMBER), (0, MOST_NUMBER)]),
]
FORMS = [(re.compile(form), ranges) for form, ranges in FORMS]
LAST = re.compile(f"end (done|blocked|limit) {NUMBER}")
WORDS = {"done": runs.DONE, "blocked": runs.BLOCKED, "limit": runs.RUN_LIMIT}


def is_entry(line):
    """Whether a line is one of an entry, each number in its range."""
    for form, ranges in FORMS:
        found = form.fullmatch(line)
        if found:
            return all(least <= int(number) <= most for number, (least, most) in zip(found.groups(), ranges))
    return False


def read(data, refused):
    """The lines of a log's entries and the word of its ending; raises the refusal of the first line that isn't in its place."""
    lines = data.decode("latin-1").split("\n")
    if data == b"":
        raise refused("NoEnd")
    open_end = lines.pop()  # what stands behind the last line feed
    if (lines or [None])[0] != "STEPNC-LOG 1":
        raise refused("BadLine", 1)
    entries = []
    for at, line in enumerate(lines[1:], 2):
        last = LAST.fullmatch(line)
        if last:
            if int(last[2]) != len(entries):
                raise refused("BadLine", at)
            if at < len(lines) or open_end:
                raise refused("BadLine", at + 1)
            return entries, last[1]
        if len(entries) == MOST_ENTRIES or not is_entry(line):
            raise refused("BadLine", at)
        entries.append(line)
    if open_end:
        raise refused("BadLine", len(lines) + 1)
    raise refused("NoEnd")


def misfit(run, entries):
    """The place of the first entry that doesn't fit, or None; the run is then behind the last one."""
    for place, line in enumerate(entries):
        if not run.follow(line):
            return place
    return None


def judge(run, entries, word):
    """What check writes of a log: its own ending, or the place where it isn't legal."""
    place = misfit(run, entries)
    if place is None and run.own_ending() == WORDS[word]:
        return f"legal {word}"
    return f"illegal {len(entries) if place is None else place}"
