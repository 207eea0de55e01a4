"""Random cases: a project, a script of edits, a schedule, and the words of a command."""

import random

import projects
import scripts
from oracle import MOST_BYTES, MOST_ENTRIES

LOOP = 7  # the class of a while

# ---- Schedules. ----


def digits(r):
    """Turns of some of the channels, in a row or one by one."""
    channels = r.choice(["0", "01", "01", "012", "10", "0123", "01234567"])
    turns = []
    for _ in range(r.choice([1, 5, 20, 60, 200])):
        turns += [r.choice(channels)] * r.choice([1, 1, 1, 2, 7])
    return turns


def random_schedule(r):
    """The bytes of a schedule, or None where there is none: mostly a right one."""
    if r.random() < 0.02:
        return None
    if r.random() < 0.004:  # about as large as one may be
        return r.choice([b" ", b"\n", b"7", b"0", b"x"]) * (MOST_BYTES + r.choice([-1, 0, 1, 1]))
    pieces = digits(r) if r.random() < 0.95 else []
    for _ in range(r.choice([0, 0, 1, 5])):
        pieces.insert(r.randint(0, len(pieces)), r.choice([" ", "\n", "\t", "\r\n", "   "]))
    for _ in range(r.choice([0] * 18 + [1, 2])):
        pieces.insert(r.randint(0, len(pieces)), r.choice(["8", "9", "p", "x", "-", "\0", ",", "\x0b", "\x0c", "\xa0", "\xff", "/", "#"]))
    return "".join(pieces).encode("latin-1")


def random_limit(r, may_loop):
    """A limit. Trees may have loops without an end, of which the greatest limit would take minutes here; bench/hostile has such."""
    small = [1, r.randint(1, 30), r.randint(1, 300)]
    if may_loop:
        return r.choice(small + [r.randint(1, 3_000), r.randint(1, 3_000), 20_000]) if r.random() < 0.997 else 100_000
    return r.choice(small + [r.randint(1, 40_000), MOST_ENTRIES, MOST_ENTRIES])


def random_words(r, names, steps, may_loop):
    """The words of a command for the files of these names, project, script and schedule; a few of them are faulty."""
    file_name, script_name, schedule_name = names
    if r.random() < 0.02:
        pool = ["replay", "path", "big", "check", "--help", "--version", "-", "", "0", "1", "007", "1001", "2000000", "2000001", "9999999", "10000000",
                "2147483647", "2147483648", "run", *names, "X", "\udcff", "+5", "5 ", "-1", "99999999999"]
        begin = r.choice([[], ["replay", file_name], ["replay", file_name, "-", "-"], ["replay", file_name, script_name], ["path", file_name], ["big"], ["big", "2"], ["check", file_name], ["check", file_name, script_name], ["--help"]])
        return begin + [r.choice(pool) for _ in range(r.randrange(4))]
    if r.random() < 0.01:
        return ["big", str(r.choice([1, 2, 3, r.randint(1, 12), r.randint(10, 60)])), str(r.choice([0, 7, 9_999_999] + [r.randint(0, 9_999_999) for _ in range(3)]))]
    if r.random() < 0.02:  # the schedule's file, or the project's, in the place of a log: mostly refused
        return ["check", file_name, r.choice([script_name, "-"]), r.choice([schedule_name, file_name, "missing.log"])]
    if r.random() < 0.8:
        script = script_name if r.random() < 0.75 else "-"
        return ["replay", file_name, script, schedule_name if r.random() < 0.7 else "-", str(random_limit(r, may_loop))]
    number = r.choice(steps) if steps and r.random() < 0.8 else r.choice([1, 2, r.randint(1, 200), 2_147_483_647])
    return ["path", file_name, str(number)]


def random_case(seed, index, names):
    """Case `index` of a seed: the bytes of project, script and schedule, None where there is no such file, and the words of the command."""
    r = random.Random(f"{seed} {index}")
    data, project = projects.random_file(r)
    may_loop = project.is_nested or any(instance.code == LOOP for instance in project.instances.values())
    words = random_words(r, names, project.steps, may_loop)
    return [data, scripts.random_script(r, project), random_schedule(r)], words
