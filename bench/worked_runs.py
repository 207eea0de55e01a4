"""Runs worked out by hand, for worked.py.

A row is a list of instances, which are put into examples/drilled_hole.stp in place of those of their numbers or added at its end, a schedule, a limit,
and the log between its first line and its end, with the ending. In a log `step 10` stands for all eight entries of workingstep 10, and of a block its
number alone: all workingsteps have the path of the example's hole.
"""

from worked_trees import main_of

BLOCKS = ["T 44 20000", "R 10000 20000 30000", "R 10000 20000 5000", "F 10000 20000 -15000 40", "R 10000 20000 5000", "R 10000 20000 30000"]
STATUS = {"done": 0, "blocked": 1, "limit": 2}
STEP_9 = "#9=MACHINING_WORKINGSTEP('W',#50,#20,#30);"
TRUE, FALSE = "#4=AND_EXPRESSION(());", "#4=OR_EXPRESSION(());"


def lines_of(entry):
    """The lines that an entry of a row stands for."""
    words = entry.split()
    if words[0] == "step":
        return [f"D {words[1]} 0"] + [f"B {words[1]} {k} {block}" for k, block in enumerate(BLOCKS)] + [f"E {words[1]}"]
    return [f"{entry} {BLOCKS[int(words[2])]}"] if words[0] == "B" and len(words) == 3 else [entry]


def answer_of(log):
    """Status and text of a log as a row has it."""
    *entries, end = log.split(" / ")
    lines = ["STEPNC-LOG 1"] + [line for entry in entries for line in lines_of(entry)] + [end]
    return STATUS[end.split()[1]], "".join(line + "\n" for line in lines).encode()


def notes(*numbers):
    return [f"#{n}=DISPLAY_MESSAGE('');" for n in numbers]


# Three times round, by a variable that begins at 0.
COUNTS = [main_of(3), "#3=WHILE_STATEMENT('W',#4,#6);", "#4=COMPARISON_LESS(#5,3);", "#5=NC_VARIABLE('V',$);", "#6=ASSIGNMENT('A',#5,#7);",
          "#7=!NC_SUM(#5,1);"]
COUNTED = "T 3 1 / A 6 1000 / T 3 1 / A 6 2000 / T 3 1 / A 6 3000 / T 3 0"
# Channel 0 waits for the mark of channel 1.
MEET = [main_of(3), "#3=PARALLEL('P',(#4,#5));", "#4=WORKPLAN('A',(#6),#8);", "#5=WORKPLAN('B',(#7),#9);", "#6=WAIT_FOR_MARK('W',#7);",
        "#7=SET_MARK('S');", "#8=CHANNEL('0');", "#9=CHANNEL('1');"]
# Each of two channels waits for a mark that the other would set behind its own wait.
CROSS = MEET[:2] + ["#4=WORKPLAN('A',(#6,#13),#8);", "#5=WORKPLAN('B',(#7,#11),#9);", "#6=WAIT_FOR_MARK('W',#11);", "#7=WAIT_FOR_MARK('W',#13);",
                    "#11=SET_MARK('S');", "#13=SET_MARK('S');", "#8=CHANNEL('0');", "#9=CHANNEL('1');"]
CROSS_BESIDE = CROSS[:1] + ["#3=PARALLEL('P',(#4,#5,#14));", "#14=WORKPLAN('C',(#15),#16);", "#16=CHANNEL('2');"] + notes(15) + CROSS[2:]
ANY_ORDER = [main_of(3), "#3=NON_SEQUENTIAL('N',(#4,#5,#6));"] + notes(4, 5, 6)
ONE_OF = [main_of(3), "#3=SELECTIVE('N',(#4,#5,#6));"] + notes(4, 5, 6)

SMALL = [
    (COUNTS, "", 1000, COUNTED + " / end done 7"),
    (COUNTS, "", 5, "T 3 1 / A 6 1000 / T 3 1 / A 6 2000 / T 3 1 / end limit 5"),
    (COUNTS, "", 6, "T 3 1 / A 6 1000 / T 3 1 / A 6 2000 / T 3 1 / A 6 3000 / end limit 6"),
    (COUNTS, "", 7, COUNTED + " / end done 7"),
    (COUNTS, "0 0 0", 8, COUNTED + " / end done 7"),
    (MEET, "0011", 1000, "S 7 / W 6 / end done 2"),
    (MEET, "", 1000, "S 7 / W 6 / end done 2"),
    (MEET, "", 1, "S 7 / end limit 1"),
    (CROSS, "", 1000, "end blocked 0"),
    (CROSS, "0101", 1, "end blocked 0"),
    (CROSS_BESIDE, "", 1000, "M 15 / end blocked 1"),
    (CROSS_BESIDE, "", 1, "M 15 / end blocked 1"),  # blocked comes before the limit
    (ANY_ORDER, "", 1000, "P 3 0 / M 4 / P 3 1 / M 5 / P 3 2 / M 6 / end done 6"),
    (ONE_OF, "", 1000, "P 3 0 / M 4 / end done 2"),
    ([], "", 1000, "step 10 / end done 8"),
    ([], "7654321 ", 1000, "step 10 / end done 8"),  # turns of channels that aren't there
    ([main_of()], "0", 1000, "end done 0"),
]

TWO_CHANNELS = [main_of(3), "#3=PARALLEL('',(#4,#5));", "#4=WORKPLAN('',(#10),#8);", "#5=WORKPLAN('',(#9),#11);", STEP_9, "#8=CHANNEL('0');",
                "#11=CHANNEL('1');"]
IN_TURNS = ("B 10 0 / B 9 1 / B 10 1 / B 9 2 / B 10 2 / B 9 3 / B 10 3 / B 9 4 / B 10 4 / B 9 5 / B 10 5 / E 9 / E 10 / end done 16")
# Workingsteps 9 and 10 are both of channel 0, 10 stands first and comes later.
BUSY = [main_of(3), "#3=PARALLEL('',(#4,#9,#5));", "#4=WORKPLAN('',(#6,#10),#11);", "#5=WORKPLAN('',(#7),#8);", "#6=WAIT_FOR_MARK('',#7);",
        "#7=SET_MARK('');", "#8=CHANNEL('1');", "#11=CHANNEL('0');", STEP_9]
# Three messages: of channel 0, of channel 1, and behind both of them one of channel 0.
JOINED = [main_of(3, 6), "#3=PARALLEL('',(#15,#16));", "#15=WORKPLAN('',(#17),#18);", "#16=WORKPLAN('',(#19),#21);", "#18=CHANNEL('');",
          "#21=CHANNEL('');"] + notes(17, 19, 6)
# An order of channel 1 over elements of channel 0 and 1.
ORDERED = [main_of(16, 15), "#16=WORKPLAN('',(#17),#18);", "#15=WORKPLAN('',(#3),#21);", "#3=NON_SEQUENTIAL('',(#4,#5));", "#4=WORKPLAN('',(#6),#18);",
           "#18=CHANNEL('');", "#21=CHANNEL('');"] + notes(17, 5, 6)

CHANNELS = [
    (TWO_CHANNELS, "110", 1000, "D 9 0 / B 9 0 / D 10 0 / " + IN_TURNS),
    (TWO_CHANNELS, " 1\t1\r\n0 ", 1000, "D 9 0 / B 9 0 / D 10 0 / " + IN_TURNS),
    (TWO_CHANNELS, "1" * 20, 1000, "step 9 / step 10 / end done 16"),
    (TWO_CHANNELS, "0" * 7 + "1", 1000, " / ".join(f"B 10 {k}" for k in range(6)).join(["D 10 0 / ", " / D 9 0 / E 10 / "])
     + " / ".join(f"B 9 {k}" for k in range(6)) + " / E 9 / end done 16"),
    (BUSY, "00 1 00", 1000, "D 9 0 / B 9 0 / S 7 / W 6 / B 9 1 / B 9 2 / B 9 3 / B 9 4 / B 9 5 / E 9 / step 10 / end done 18"),
    (BUSY, "1 00", 1000, "S 7 / W 6 / step 10 / step 9 / end done 18"),
    (JOINED, "000", 1000, "M 17 / M 19 / M 6 / end done 3"),
    (JOINED, "1", 1000, "M 19 / M 17 / M 6 / end done 3"),
    (ORDERED, "0101100", 1000, "M 17 / P 3 0 / M 6 / P 3 1 / M 5 / end done 5"),
    (ORDERED, "1000", 1000, "M 17 / P 3 0 / M 6 / P 3 1 / M 5 / end done 5"),
    ([main_of(3), "#3=PARALLEL('',(#6,#10,#7));", "#6=WAIT_FOR_MARK('',#7);", "#7=SET_MARK('');"], "", 1000, "step 10 / S 7 / W 6 / end done 10"),
    ([main_of(3), "#3=PARALLEL('',(#10,#9));", STEP_9], "", 1000, "step 10 / step 9 / end done 16"),
    ([main_of(3), "#3=PARALLEL('',(#4,#5));", "#4=WORKPLAN('',(),$);", "#5=WORKPLAN('',(),$);"], "", 1, "end done 0"),
]

# A mark is set in every round, and one in the first round alone.
MARKED = [main_of(3), "#3=WHILE_STATEMENT('',#4,#5);", "#4=COMPARISON_LESS(#6,2.);", "#6=NC_VARIABLE('V',$);", "#7=SET_MARK('');",
          "#8=WAIT_FOR_MARK('',#7);", "#11=ASSIGNMENT('',#6,#12);", "#12=!NC_SUM(#6,1.);"]
NESTED = [main_of(3), "#3=NON_SEQUENTIAL('',(#4,#5));", "#4=WORKPLAN('',(#6,#7),$);", "#5=SELECTIVE('',(#8,#11));"] + notes(6, 7, 8, 11)

CHOICES = [
    (MARKED + ["#5=WORKPLAN('',(#7,#8,#11),$);"], "", 1000,
     "T 3 1 / S 7 / W 8 / A 11 1000 / T 3 1 / S 7 / W 8 / A 11 2000 / T 3 0 / end done 9"),
    (MARKED + ["#5=WORKPLAN('',(#13,#8,#11),$);", "#13=IF_STATEMENT('',#14,#7,$);", "#14=COMPARISON_EQUAL(#6,0.);"], "", 1000,
     "T 3 1 / T 13 1 / S 7 / W 8 / A 11 1000 / T 3 1 / T 13 0 / W 8 / A 11 2000 / T 3 0 / end done 10"),
    (MARKED + ["#5=WORKPLAN('',(#10,#11),$);"], "", 12, "T 3 1 / step 10 / A 11 1000 / T 3 1 / D 10 0 / end limit 12"),
    (NESTED, "", 1000, "P 3 0 / M 6 / M 7 / P 3 1 / P 5 0 / M 8 / end done 6"),
    ([main_of(3), "#3=NON_SEQUENTIAL('',(#4,#5));", "#4=WORKPLAN('',(),$);"] + notes(5), "", 1000, "P 3 0 / P 3 1 / M 5 / end done 3"),
    ([main_of(3), "#3=SELECTIVE('',(#4,#5));", "#4=WORKPLAN('',(),$);"] + notes(5), "", 1000, "P 3 0 / end done 1"),
    ([main_of(3), "#3=IF_STATEMENT('',#4,#6,$);", FALSE] + notes(6), "", 1000, "T 3 0 / end done 1"),
    ([main_of(3), "#3=IF_STATEMENT('',#4,#6,$);", TRUE] + notes(6), "", 1000, "T 3 1 / M 6 / end done 2"),
    ([main_of(3), "#3=IF_STATEMENT('',#4,#6,#10);", FALSE] + notes(6), "", 1000, "T 3 0 / step 10 / end done 9"),
    ([main_of(3, 6), "#3=WHILE_STATEMENT('',#4,#10);", FALSE] + notes(6), "", 1000, "T 3 0 / M 6 / end done 2"),
    ([main_of(3), "#3=WHILE_STATEMENT('',#4,#5);", TRUE, "#5=WORKPLAN('',(),$);"], "", 3, "T 3 1 / T 3 1 / T 3 1 / end limit 3"),
    ([main_of(6, 3), "#3=WAIT_FOR_MARK('',#5);", "#5=SET_MARK('');"] + notes(6), "", 1000, "M 6 / end blocked 1"),  # for a mark outside of the tree
    ([main_of(3), "#3=IF_STATEMENT('',#4,#6,#10);", "#4=AND_EXPRESSION((#5,#7));", "#5=NOT_EXPRESSION(#8);", "#7=XOR_EXPRESSION(#8,#11);",
      "#8=COMPARISON_LESS(2.,1.);", "#11=OR_EXPRESSION((#8,#12));", "#12=COMPARISON_GREATER_EQUAL(1.,1.);"] + notes(6), "", 1000,
     "T 3 1 / M 6 / end done 2"),
]

# An expression in positions 1 and 2, and its value in thousandths.
SUMS = [
    ("!NC_SUM(1.,2.5)", 3500), ("!NC_DIFFERENCE(1.,2.5)", -1500), ("!NC_PRODUCT(2.5,2.5)", 6250), ("!NC_PRODUCT(-0.5,0.001)", 0),
    ("!NC_PRODUCT(-1.5,0.333)", -499), ("!NC_PRODUCT(1.5,0.333)", 499), ("!NC_SUM(1.E12,1.)", 10**15), ("!NC_DIFFERENCE(-1.E12,1.)", -(10**15)),
    ("!NC_PRODUCT(1.E12,1.E12)", 10**15), ("!NC_PRODUCT(-1.E12,1.E12)", -(10**15)), ("!NC_SUM(#8,#8)", 14_000), ("!NC_PRODUCT(#8,#11)", -3_500),
]
COMPARED = [("EQUAL", 2, 2, 1), ("EQUAL", 2, 3, 0), ("NOT_EQUAL", 2, 2, 0), ("NOT_EQUAL", 2, 3, 1), ("GREATER", 3, 2, 1), ("GREATER", 2, 2, 0),
            ("GREATER_EQUAL", 2, 2, 1), ("GREATER_EQUAL", 1, 2, 0), ("LESS", 1, 2, 1), ("LESS", 2, 2, 0), ("LESS_EQUAL", 2, 2, 1), ("LESS_EQUAL", 3, 2, 0)]
VALUES = [([main_of(3), "#3=ASSIGNMENT('',#5,#6);", "#5=NC_VARIABLE('',7.);", f"#6={text};", "#8=NC_VARIABLE('',7.);", "#11=NC_CONSTANT('',-0.5);"], "", 9,
           f"A 3 {value} / end done 1") for text, value in SUMS]
TESTS = [([main_of(3), "#3=IF_STATEMENT('',#4,#6,$);", f"#4=COMPARISON_{word}({a}.,{b}.);", "#6=WORKPLAN('',(),$);"], "", 9, f"T 3 {holds} / end done 1")
         for word, a, b, holds in COMPARED]

RUNS = SMALL + CHANNELS + CHOICES + VALUES + TESTS

# A schedule on the example itself, and the refusal.
SCHEDULES = [("01x", "Schedule 2"), ("8", "Schedule 0"), ("p", "Schedule 0"), ("0 0\n\n-", "Schedule 5"), ("0,1", "Schedule 1"), ("\0", "Schedule 0"),
             ("7\x0b", "Schedule 1"), ("0\xa0", "Schedule 1")]
