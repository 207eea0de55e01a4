"""Worked examples for the second implementation, worked out by hand: bench/compare --self-test.

Beside those typed here, in worked_trees.py and in worked_runs.py, every command with its output in README.md, docs/FORMATS.md and examples/README.md is compared, and so
are the rows of docs/FORMATS.md that change an instance or two of the example of a hole.
"""

import random
import re
import subprocess
import sys
from pathlib import Path

import oracle
import projects
import runs
import whole_lists
import worked_edits
import worked_runs
import worked_trees

ROOT = Path(__file__).resolve().parent.parent
PAGES = ["README.md", "docs/FORMATS.md", "examples/README.md"]


def example(name):
    return (ROOT / "examples" / (name + ".stp")).read_text("latin-1")


def changed(name, instances, without=()):
    """An example with instances put in place of those of their numbers, or added at its end, and others left out."""
    lines = example(name).split("\n")
    for instance in instances:
        begin = instance.split("=")[0] + "="
        at = [i for i, line in enumerate(lines) if line.startswith(begin)]
        if at:
            lines[at[0]] = instance
        else:
            lines.insert(len(lines) - 3, instance)
    return "\n".join(line for line in lines if line.split("=")[0] not in without).encode("latin-1")


REPLAY, PATH = ["replay", "P", "-", "-", "1000"], ["path", "P", "10"]
CROSS_CHECKED = 300  # random files of which those that are accepted and nested are run in whole lists too
HOLE, FACE, POCKET = "drilled_hole", "planar_face", "rectangular_pocket"

# An example, its changes, and the one line that replay answers.
REFUSED = [
    (HOLE, ["#20=ROUND_HOLE('H',$,(),$,#51,10.);"], "Definition 10 Missing 20 4"),
    (HOLE, ["#20=ROUND_HOLE('H',$,(),#60,#51,$);"], "Definition 10 Missing 20 6"),
    (HOLE, ["#20=ROUND_HOLE('H',$,(),#60,#51,#72);"], "Definition 10 Missing 20 6"),
    (HOLE, ["#10=MACHINING_WORKINGSTEP('W',$,#20,#30);", "#20=ROUND_HOLE('H',$,(),$,#51,10.);"], "Definition 10 Missing 10 2"),
    (HOLE, ["#61=AXIS2_PLACEMENT_3D('',#71,#70,$);"], "Definition 10 Missing 61 3"),
    (HOLE, ["#45=MILLING_TECHNOLOGY(0.040,$,$);"], "Definition 10 Missing 45 4"),
    (HOLE, ["#44=MILLING_CUTTING_TOOL('T',$);"], None),  # a drill's body isn't looked up
    (HOLE, ["#30=DRILLING(#44,$,'D',5.,$,#44,#45);"], "Definition 10 HasToolpath 30"),
    (HOLE, ["#60=AXIS2_PLACEMENT_3D('',#70,#74,$);", "#74=DIRECTION('',(0.,1.,0.));"], "Definition 10 BadDirection 74"),
    (HOLE, ["#60=AXIS2_PLACEMENT_3D('',#70,#74,#75);", "#74=DIRECTION('',(0.,0.,.5));"], "BadByte 741"),
    (HOLE, ["#60=AXIS2_PLACEMENT_3D('',#70,#74,#75);", "#74=DIRECTION('',(0.,0.,0.5));", "#75=DIRECTION('',(2.));"], None),
    (HOLE, ["#30=PLANE_ROUGH_MILLING($,$,'D',5.,$,#44,#45);"], "Definition 10 Mismatch 30 20"),
    (HOLE, ["#30=PLANE_ROUGH_MILLING($,$,'D',5.,$,#44,#45);", "#46=TWIST_DRILL($);"], "Definition 10 Missing 46 1"),
    (HOLE, ["#45=MILLING_TECHNOLOGY(0.,$,$,20.);"], "Definition 10 NotPositive 45 1"),
    (HOLE, ["#72=CARTESIAN_POINT('',(0.,0.,15.));"], "Definition 10 NotPositive 20 5"),
    (HOLE, ["#72=CARTESIAN_POINT('',(0.,0.,-100000.001));"], "Definition 10 OutOfRange 72 2"),
    (HOLE, ["#72=CARTESIAN_POINT('',(0.,0.,-100000.));"], None),
    (HOLE, ["#71=CARTESIAN_POINT('',(1.E12,-1.E12,30.));"], None),  # only z is looked at
    (HOLE, ["#30=DRILLING($,$,'D',-5.,$,#44,#45);"], "Definition 10 OutOfRange 30 4"),
    (HOLE, ["#30=DRILLING($,$,'D',5.,$,#44,#45,$,$,$,$,-0.001);"], "Definition 10 OutOfRange 30 12"),
    (HOLE, ["#20=ROUND_HOLE('H',$,(),#60,#51,#90);", "#90=NUMERIC_PARAMETER($,0.);"], "Definition 10 NotPositive 20 6"),
    (FACE, ["#32=BIDIRECTIONAL(1.);"], "Definition 10 OutOfRange 32 1"),
    (FACE, ["#82=DIRECTION('',(1.,1.,0.));"], "Definition 10 BadDirection 82"),
    (FACE, ["#30=PLANE_ROUGH_MILLING($,$,'F',5.,$,#44,#45,$,$,$,$,$,$,2.);"], "Definition 10 OutOfRange 30 14"),
    (FACE, ["#30=PLANE_ROUGH_MILLING($,$,'F',5.,$,#44,#45,$,$,$,$,$,0.,2.);"], "Definition 10 NotPositive 30 13"),
    (POCKET, ["#80=POLYLINE('',());"], "Definition 10 NotRectangle 80"),
    (POCKET, ["#80=GENERAL_CLOSED_PROFILE($,#70);"], "Definition 10 NotRectangle 70"),
    (POCKET, ["#80=GENERAL_CLOSED_PROFILE($,#81);", "#81=POLYLINE('',(#70,#71,#72,#70));"], "Definition 10 NotRectangle 81"),
    (POCKET, ["#80=GENERAL_CLOSED_PROFILE($,#81);", "#81=POLYLINE('',(#70,#80));"], "Definition 10 Missing 81 2"),
    (POCKET, ["#80=RECTANGULAR_CLOSED_PROFILE($,10.,10.);", "#47=MILLING_TOOL_DIMENSION(12.);"], "Definition 10 ToolTooBig 44"),
    (POCKET, ["#80=RECTANGULAR_CLOSED_PROFILE($,10.,9.999);"], "Definition 10 ToolTooBig 44"),
    (POCKET, ["#80=RECTANGULAR_CLOSED_PROFILE($,17.998,40.);",
              "#30=BOTTOM_AND_SIDE_ROUGH_MILLING($,$,'P',5.,$,#44,#45,$,$,$,$,$,$,0.001,$,$);"], "Definition 10 TooManyBlocks 10 20005"),
    (HOLE, ["#2=WORKPLAN('MAIN',(#77),$);", "#77=RAPID_MOVEMENT('R');"], "WrongKind 2 2"),
    (HOLE, ["#20=ROUND_HOLE('H',$,(),#60,#99,10.);"], "Unresolved 20 99"),
    (HOLE, ["#20=ROUND_HOLE('H',$,(),#60,#99,10.);", "#2=WORKPLAN('MAIN',(#20,#98),$);"], "Unresolved 2 98"),
    (HOLE, ["#70=CARTESIAN_POINT('',$);"], "BadAttribute 70 2"),
    (HOLE, ["#70=CARTESIAN_POINT('',(1.E13));"], "BadAttribute 70 2"),
    (HOLE, ["#77=PARALLEL('',());"], "BadAttribute 77 2"),
    (HOLE, ["#77=PROJECT('Q',#2);", "#76=PROJECT('R',#2);"], "ManyProjects 77"),
    (HOLE, ["#0=A();"], "BadName 713"),
    (HOLE, ["#20=ROUND_HOLE('H',$,(),#60,#51," + "1" * 39 + ");"], "NumberTooLong 265"),
    (HOLE, ["#20=ROUND_HOLE('H',$,(),#60,#51,-" + "1" * 38 + ".0);"], "NumberTooLong 265"),
]

FRONT = "ISO-10303-21;HEADER;FILE_DESCRIPTION($,$);FILE_NAME($,$,$,$,$,$,$);FILE_SCHEMA((''));"  # 85 bytes
BACK = "ENDSEC;END-ISO-10303-21;"
EMPTY = "DATA;#1=PROJECT($,#2);#2=WORKPLAN($,());"  # accepted between FRONT with its ENDSEC, and BACK
DONE_EMPTY = "STEPNC-LOG 1\nend done 0\n"

# A whole text, and what replay answers: the refusal behind its first word, or None where an empty plan is run.
TEXTS = [
    ("", "Syntax 0"),
    ("ISO-10303-21;\nHEADER;\nFILE_DESCRIPTION(('AB", "OpenString 40"),
    ("'a''", "OpenString 0"),
    (" 'a\x01", "BadByte 3"),
    ("/*/", "OpenComment 0"),
    ("/**", "OpenComment 0"),
    ("/* */ /* \x02 */", "BadByte 9"),
    ("/", "BadByte 0"),
    ('"0G"', "BadByte 2"),
    ('"0', "OpenString 0"),
    ("!", "BadByte 0"),
    ("#", "BadByte 0"),
    ("#00", "BadName 0"),
    ("#2147483648", "BadName 0"),
    ("#2147483647", "Syntax 0"),
    (".T", "BadByte 0"),
    (".5", "BadByte 0"),
    ("+", "BadByte 0"),
    ("1.E+", "BadByte 3"),
    ("1.E", "Syntax 0"),
    ("1.E" + "1" * 38, "NumberTooLong 0"),
    ("ISO-10303-21", "Syntax 12"),
    ("ISO-10303-21 ", "Syntax 13"),
    ("ISO-10303-21-;", "Syntax 0"),
    (FRONT + "ENDSEC;" + EMPTY + BACK, None),
    (FRONT + "ENDSEC(1);ENDSEC;" + EMPTY + BACK, None),
    (FRONT + "DATA('');ENDSEC;" + EMPTY + BACK, None),
    (FRONT + "EXTRA();ENDSEC;" + EMPTY + BACK, "Syntax 91"),
    (FRONT + "ENDSEC X", "Syntax 92"),
    (FRONT + "A-B(1);ENDSEC;" + EMPTY + BACK, "Syntax 85"),
    (FRONT.replace("$,$,$,$,$,$,$", "$,$,$,$,$,$") + "ENDSEC;" + EMPTY + BACK, "Syntax 63"),
    (FRONT.replace("$,$,$,$,$,$,$", "$,$,$,$,$,$,$,$") + "ENDSEC;" + EMPTY + BACK, "Syntax 65"),
    (FRONT.replace("(''))", "('',1))") + "ENDSEC;" + EMPTY + BACK, "Syntax 83"),
    (FRONT + "ENDSEC;" + EMPTY + "#3=(A()B($));" + BACK, None),
    (FRONT + "ENDSEC;" + EMPTY + "#3=();" + BACK, "Syntax 136"),
    (FRONT + "ENDSEC;" + EMPTY + "#3=A(" + "(" * 31 + ")" * 31 + ");" + BACK, None),
    (FRONT + "ENDSEC;" + EMPTY + "#3=A(" + "(" * 32 + ")" * 32 + ");" + BACK, "TooDeep 168"),
    (FRONT + "ENDSEC;" + EMPTY + "#3=(A(" + "(" * 31 + ")" * 31 + "));" + BACK, None),
    (FRONT + "ENDSEC;" + EMPTY + "#3=A(" + "A(" * 31 + "$" + ")" * 31 + ");" + BACK, None),
    (FRONT + "ENDSEC;" + EMPTY + "#3=A(" + "A(" * 31 + "A,", "Syntax 200"),
    (FRONT + "ENDSEC;" + EMPTY + "#3=A(" + "A(" * 31 + "A(", "TooDeep 200"),
    (FRONT + "X(" + "(" * 32, "TooDeep 118"),
    (FRONT + "ENDSEC;" + EMPTY + "#002=A(;" + BACK, "Duplicate 2"),
    (FRONT + "ENDSEC;" + EMPTY + BACK + "A", "Syntax 156"),
    (FRONT + "ENDSEC;DATA;" + BACK, "NoProject"),
]

WORDS = [
    ([], 0), (["fly"], 0), (["\udcff"], 0), (["replay"], 1), (["replay", "", "-", "-", "1"], 1), (["replay", "P", "-", "-"], 4),
    (["replay", "P", "-", "-", "007"], 4), (["replay", "P", "-", "-", "0"], 4), (["replay", "P", "-", "-", "2000001"], 4),
    (["replay", "P", "", "-", "100"], 2), (["replay", "P", "-", "", "100"], 3), (["replay", "P", "-", "X"], 4), (["replay", "P", "-", "-", "1", "more"], 5),
    (["path", "P"], 2), (["path", "P", "010"], 2), (["path", "P", "2147483648"], 2), (["path", "P", "10", "20"], 3), (["--help", "me"], 1),
    (["replay", "P", "-", "-", "+5"], 4),
]

NUMBERS = [
    ("0.0005", 1), ("-0.0005", -1), ("0.00049", 0), ("+5", 5000), ("1.E12", 10**15), ("1.E13", None), ("-0.", 0), ("1.E-40", 0), ("5", 5000),
    ("0.5E1", 5000), ("0." + "0004" + "9" * 33, 0), ("1000000000000.0004", 10**15), ("1000000000000.0005", None), ("0.E99999999999999999999", 0),
    ("1.E99999999999999999999", None), ("1.E-99999999999999999999", 0), ("-1.0005", -1001), ("2.0005", 2001),
]

TOKENS = [
    ("A-5", [("Word", b"A-5")]), ("!A-5", [("UserWord", b"!A"), ("Int", b"-5")]), ("1.E", [("Real", b"1."), ("Word", b"E")]),
    ("1.E-", [("Real", b"1."), ("Word", b"E-")]), ("1E5", [("Int", b"1"), ("Word", b"E5")]), ("1..T.", [("Real", b"1."), ("Enumeration", b".T.")]),
    ("'a''b'", [("Text", b"a''b")]), ("#0010#7", [("Name", 10), ("Name", 7)]), ('"0F"/**/""', [("Binary", b"0F"), ("Binary", b"")]),
    ("1.5E-3A", [("Real", b"1.5E-3"), ("Word", b"A")]), ("/*/*/ -5", [("Int", b"-5")]), ("''''", [("Text", b"''")]), ("'' ''", [("Text", b"")] * 2),
]

ROW_OF_FACE = ["T 44 20000", "R 0 0 30000", "R 0 0 5000", "F 0 0 -2000 40", "F 100000 0 -2000 40", "F 100000 20000 -2000 40",
               "F 0 20000 -2000 40", "F 0 40000 -2000 40", "F 100000 40000 -2000 40", "F 100000 50000 -2000 40", "F 0 50000 -2000 40",
               "R 0 50000 5000", "R 0 50000 30000"]
ROW_OF_POCKET = ["T 44 20000", "R -11000 -1000 30000", "R -11000 -1000 5000", "F -11000 -1000 -5000 40", "F 11000 -1000 -5000 40",
                 "F 11000 1000 -5000 40", "F -11000 1000 -5000 40", "F -11000 -1000 -5000 40", "F -15000 -5000 -5000 40",
                 "F 15000 -5000 -5000 40", "F 15000 5000 -5000 40", "F -15000 5000 -5000 40", "F -15000 -5000 -5000 40",
                 "R -15000 -5000 5000", "R -15000 -5000 30000"]
# Twice as deep in two levels, in rows that all run along plus x: the course is along minus y, the width 30 along plus x.
TWO_LEVELS = ["#32=UNIDIRECTIONAL($);", "#81=LINEAR_PROFILE($,30.);", "#82=DIRECTION('',(0.,-1.));",
              "#30=PLANE_ROUGH_MILLING($,$,'F',$,$,#44,#45,$,$,$,$,#32,1.5,$);"]
PATH_IN_LEVELS = ["T 44 20000", "R 0 0 30000"] + [block for z in ("-1500", "-2000") for block in [
    "R 0 0 30000", f"F 0 0 {z} 40", f"F 0 -100000 {z} 40", f"F 20000 0 {z} 40", f"F 20000 -100000 {z} 40", f"F 30000 0 {z} 40",
    f"F 30000 -100000 {z} 40", "R 30000 -100000 30000"]] + ["R 30000 -100000 30000"]
AT_A_POINT = ["T 44 20000", "R 0 0 30000", "R 0 0 5000"] + ["F 0 0 -5000 40"] * 5 + ["R 0 0 5000", "R 0 0 30000"]

# Paths of workingstep 10 of a changed example.
PATHS = [
    (FACE, [], ROW_OF_FACE),
    (POCKET, [], ROW_OF_POCKET),
    (FACE, TWO_LEVELS, PATH_IN_LEVELS),
    (POCKET, ["#80=RECTANGULAR_CLOSED_PROFILE($,10.,10.);"], AT_A_POINT),
    (POCKET, ["#80=GENERAL_CLOSED_PROFILE($,#81);", "#81=POLYLINE('',(#82,#83,#84,#85,#82));", "#82=CARTESIAN_POINT('',(20.,10.,3.));",
              "#83=CARTESIAN_POINT('',(-20.,10.));", "#84=CARTESIAN_POINT('',(-20.,-10.));", "#85=CARTESIAN_POINT('',(20.,-10.));"],
     ROW_OF_POCKET),
    (HOLE, ["#30=REAMING($,$,'R',$,$,#44,#45,$,$,$,$,LENGTH(0.25));"],
     ["T 44 20000", "R 10000 20000 30000", "R 10000 20000 30000", "F 10000 20000 -15000 40", "W 250", "R 10000 20000 30000",
      "R 10000 20000 30000"]),
]


def ask(words, data):
    if isinstance(data, str):
        data = data.encode("latin-1")
    return oracle.answer(words, lambda name: data)


def ask_files(words, files):
    return oracle.answer(words, files.get)


def refusal(said, status=oracle.PROJECT_REFUSED):
    return status, f"refused {said}\n".encode()


def short(instances):
    return str(instances)[:300]


def cases():
    """A title, the answer, and the answer that was worked out by hand, for each example."""
    for name, instances, said in REFUSED:
        given = ask(REPLAY, changed(name, instances))
        yield f"{name} with {instances}", given if said else given[0], refusal(said) if said else 0
    for instances, said in worked_trees.REFUSED:
        data = changed(HOLE, instances)
        given = ask(REPLAY, data)
        if said == worked_trees.RUNS:
            yield short(instances), given[0] in (0, 1, 2), True
            continue
        yield short(instances), given if said else given[0], refusal(said) if said else 0
        if said and len(data) < 100_000:  # path has the same faults before it looks for its step
            yield "path of " + short(instances), ask(PATH, data), refusal(said)
    whole = ask(PATH, example(HOLE))
    for instances, number, is_step in worked_trees.STEPS:
        given = ask(["path", "P", str(number)], changed(HOLE, instances))
        yield f"path {number} of {short(instances)}", given, whole if is_step else refusal(f"NoStep {number}")
    for instances, schedule, limit, log in worked_runs.RUNS:
        given = ask_files(["replay", "P", "-", "S", str(limit)], {"P": changed(HOLE, instances), "S": schedule.encode("latin-1")})
        yield f"a run of {short(instances)} by {schedule!r} up to {limit}", given, worked_runs.answer_of(log)
    yield from schedule_cases()
    yield from script_cases()
    yield from large_cases()
    yield from in_whole_lists()
    for text, said in TEXTS:
        yield repr(text), ask(REPLAY, text), refusal(said) if said else (0, DONE_EMPTY.encode())
    for words, place in WORDS:
        yield repr(words), ask(words, ""), refusal(f"BadWords {place}", oracle.BAD_WORDS)
    for number, value in NUMBERS:
        yield number, oracle.thousandths(number.encode()), value
    for text, tokens in TOKENS:
        yield text, [token[:2] for token in oracle.tokens_of(text.encode())], tokens
    for name, instances, blocks in PATHS:
        yield f"path of {name} with {instances}", ask(PATH, changed(name, instances)), (0, "".join(b + "\n" for b in blocks).encode())
    yield "no project", ask(REPLAY, changed(HOLE, [], ["#1"])), refusal("NoProject")
    yield "a line twice", ask(REPLAY, example(HOLE).replace("#72=", "#72=A();\n#72=")), refusal("Duplicate 72")
    yield "no step", ask(["path", "P", "20"], example(HOLE)), refusal("NoStep 20")
    yield "an empty plan", ask(REPLAY, changed(HOLE, ["#2=WORKPLAN('MAIN',(),$);"])), (0, DONE_EMPTY.encode())
    yield "limit 8", ask(REPLAY[:4] + ["8"], example(HOLE))[0], 0
    yield "too long", ask(REPLAY, b" " * (oracle.MOST_BYTES + 1)), refusal("TooLong")
    yield "the longest", ask(REPLAY, b" " * oracle.MOST_BYTES), refusal("Syntax 16777216")
    yield "no file", oracle.answer(REPLAY, lambda name: None), (oracle.READ_FAULT, b"")
    plate = [len(ask(["path", "P", str(n)], example("plate"))[1].splitlines()) for n in (10, 11, 12, 13)]
    yield "blocks of the plate", plate, [35, 6, 7, 88]
    edge = ["#80=RECTANGULAR_CLOSED_PROFILE($,17.996,40.);",
            "#30=BOTTOM_AND_SIDE_ROUGH_MILLING($,$,'P',5.,$,#44,#45,$,$,$,$,$,$,0.001,$,$);"]
    yield "20,000 blocks", len(ask(PATH, changed(POCKET, edge))[1].splitlines()), 20_000
    yield "the table of docs/FORMATS.md", table_of_formats(), [line for line in oracle.TABLE.strip().splitlines()]
    yield from shown_cases()
    yield from outlines()
    yield from rows_of_formats()


def schedule_cases():
    """Schedules that are refused or can't be read, and what hides them."""
    words, hole = ["replay", "P", "-", "S", "8"], changed(HOLE, [])
    for text, said in worked_runs.SCHEDULES:
        yield repr(text), ask_files(words, {"P": hole, "S": text.encode("latin-1")}), refusal(said, oracle.SCRIPT_REFUSED)
    for byte in range(256):
        allowed = byte in b"01234567 \t\r\n"
        wanted = worked_runs.answer_of("step 10 / end done 8") if allowed else refusal("Schedule 1", oracle.SCRIPT_REFUSED)
        yield f"a schedule with byte {byte}", ask_files(words, {"P": hole, "S": b"0" + bytes([byte])}), wanted
    yield "no schedule", ask_files(words, {"P": hole}), (oracle.READ_FAULT, b"")
    yield "a schedule too long", ask_files(words, {"P": hole, "S": b" " * (oracle.MOST_BYTES + 1)}), refusal("TooLong", oracle.SCRIPT_REFUSED)
    yield "the longest schedule", ask_files(words, {"P": hole, "S": b" " * oracle.MOST_BYTES})[0], 0
    for schedule in ({}, {"S": b"x"}):
        yield "a refused project and a bad schedule", ask_files(words, {"P": b"", **schedule}), refusal("Syntax 0")


def script_cases():
    """Runs under scripts, and scripts that are refused or can't be read."""
    words, hole = ["replay", "P", "E", "S", "100"], changed(HOLE, [])
    for text, log in worked_edits.SCRIPTS:
        yield repr(text), ask_files(words, {"P": hole, "E": text.encode(), "S": b""}), worked_runs.answer_of(log)
    for text, said in worked_edits.REFUSED:
        yield repr(text[:60]), ask_files(words, {"P": hole, "E": text.encode(), "S": b"x"}), refusal(said, oracle.SCRIPT_REFUSED)
    yield "no script", ask_files(words, {"P": hole, "S": b"x"}), (oracle.READ_FAULT, b"")
    yield "a script, and no schedule", ask_files(words, {"P": hole, "E": b""}), (oracle.READ_FAULT, b"")
    yield "a script too long", ask_files(words, {"P": hole, "E": b" " * (oracle.MOST_BYTES + 1)}), refusal("TooLong", oracle.SCRIPT_REFUSED)
    yield "a refused project and no script", ask_files(words, {"P": b""}), refusal("Syntax 0")


def large_cases():
    """The line of the large case. `big 1 7` is a pocket of depth 25 on five levels with two rings, and the last workingstep of `big 3 0` a face of depth 3 with
    six rows; beside its blocks each workingstep has two entries, and the two marks and the two waits have one each."""
    for steps, start, entries, blocks in ((1, 0, 12, 6), (1, 7, 69, 63), (3, 0, 39, 29)):
        line = f"big {steps} {start} done entries {entries} blocks {blocks} accepted 0 refused 0\n"
        yield f"big {steps} {start}", oracle.answer(["big", str(steps), str(start)], None), (oracle.DONE, line.encode())
    for words, place in (("0 0", 1), ("1001 0", 1), ("01 0", 1), ("1", 2), ("1 00", 2), ("1 10000000", 2), ("1 0 0", 3)):
        yield f"big {words}", oracle.answer(["big"] + words.split(), None), refusal(f"BadWords {place}", oracle.BAD_WORDS)


def in_whole_lists():
    """Runs of random projects, by the frames of `runs` and in whole lists."""
    for number in range(CROSS_CHECKED):
        r = random.Random(f"whole lists {number}")
        data, project = projects.random_file(r)
        try:
            tree, steps = oracle.accepted(data)
        except oracle.Refused:
            continue
        if not project.is_nested or len(tree.numbers) > 60:
            continue
        schedule, limit = [r.randrange(4) for _ in range(r.choice([0, 10, 60]))], r.choice([1, 20, 100])
        given, wanted = (
            way(tree.store, tree.root(), lambda store, step: oracle.path(oracle.definition(store, step))[:4], schedule, limit, oracle.revisions_of(tree, []))
            for way in (runs.replay, whole_lists.replay)
        )
        yield f"random project {number} in whole lists", given, wanted


def table_of_formats():
    """The table of classes in docs/FORMATS.md, in the form of oracle.TABLE."""
    rows = re.findall(r"^\| (\d+) \| ([A-Z!][^|a-z]*) \| *([^|]*?) *\|$", oracle.FORMATS.read_text(), re.M)
    return [f"{code} {keywords.replace(',', '')}: {used}".strip() for code, keywords, used in rows]


def shown_files(block):
    """The files that a block of commands writes: an answer that is kept by `>`, or a file in which `sed s/ONE/OTHER/` changes each line once."""
    written = {}
    for words, name in re.findall(r"^\$ (.*) >(\S+)$", block, re.M):
        words = words.split()
        if words[0] == "./stepnc":
            written[name] = oracle.answer(words[1:], lambda file: page_file(file, written))[1]
        elif words[0] == "sed":
            _, one, other, _ = words[1].split("/")
            lines = page_file(words[2], written).splitlines(True)
            written[name] = b"".join(line.replace(one.encode(), other.encode(), 1) for line in lines)
    return written


def page_file(name, written):
    """The bytes of a file that a page's command names: one that was written there before, or one of the repository."""
    if name in written:
        return written[name]
    return (ROOT / name).read_bytes() if (ROOT / name).is_file() else None


def shown_cases():
    """The commands shown in the pages with what they write there."""
    for page in PAGES:
        for block in re.findall(r"```\n(.*?)```", (ROOT / page).read_text(), re.S):
            written = shown_files(block)
            for command, output in re.findall(r"^\$ \./stepnc (.*)\n((?:(?!\$ ).*\n)*)", block, re.M):
                front = re.fullmatch(r"(.*) \| head -(\d+)", command)
                without_blocks = re.fullmatch(r"(.*) \| grep -v \^B", command)
                words = ((front or without_blocks).group(1) if front or without_blocks else command).split()
                if any(mark in command for mark in "<>") or "| " in command and not (front or without_blocks):
                    continue
                text = oracle.answer(words, lambda name: page_file(name, written))[1].decode()
                if front:
                    text = "".join(text.splitlines(True)[:int(front.group(2))])
                if without_blocks:
                    text = "".join(line for line in text.splitlines(True) if not line.startswith("B"))
                told = "".join(line for line in output.splitlines(True) if not line.startswith("stepnc: "))  # those go to standard error
                if output:
                    yield f"{page}: {command}", text, told


def outlines():
    """The outlines that examples/README.md shows."""
    for block in re.findall(r"```\n(.*?)```", (ROOT / "examples" / "README.md").read_text(), re.S):
        for file, output in re.findall(r"^\$ examples/tree (\S+)\n((?:(?!\$ ).*\n)*)", block, re.M):
            command = [sys.executable, ROOT / "examples" / "tree", ROOT / file]
            yield f"tree {file}", subprocess.run(command, stdout=subprocess.PIPE, env={"PYTHONIOENCODING": "utf-8"}).stdout.decode(), output


def rows_of_formats():
    """The rows of docs/FORMATS.md that change the example of a hole and give the refusal."""
    for instances, said in re.findall(r"^\| ((?:`#\d+=[^`]*;` ?)+)\| `refused ([^`]+)` \|$", oracle.FORMATS.read_text(), re.M):
        yield instances, ask(REPLAY, changed(HOLE, re.findall("`([^`]*)`", instances))), refusal(said)


def differences():
    global COUNT
    wrong, COUNT = [], 0
    for title, given, wanted in cases():
        COUNT += 1
        if given != wanted:
            wrong.append(f"{title}\n  wanted {wanted!r}\n  given  {given!r}")
    return wrong


COUNT = 0
