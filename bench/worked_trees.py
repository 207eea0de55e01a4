"""Trees of executables with the answers worked out by hand, for worked.py.

A row is a list of instances, which are put into examples/drilled_hole.stp in place of those of their numbers or added at its end, and the
one line that `replay` answers behind `refused`, None where the project runs to its end, or RUNS where it runs, to whichever end. Workingstep 10 is the
example's own.
"""

RUNS = "runs"


def main_of(*elements, channel="$"):
    """A main workplan with these elements."""
    return f"#2=WORKPLAN('MAIN',({','.join(f'#{n}' for n in elements)}),{channel});"


def numbered(first, count, text="SET_MARK('')"):
    """So many instances, a line to each; `@` is the instance's own number and `@@` the next one."""
    return "\n".join(f"#{n}={text};".replace("@@", str(n + 1)).replace("@", str(n)) for n in range(first, first + count))


def chain(levels, text="WORKPLAN('',(#@@),$)"):
    """Executables 100, 101, .. of which each is in the one before. The main workplan being level 1, 100 is level 2, and what the last
    one refers to is level `levels` + 2."""
    return numbered(100, levels, text)


def notes(count):
    """The numbers of so many marks, from 1001 on, and the marks."""
    return range(1001, 1001 + count), numbered(1001, count)


def main_with_notes(before, count, *behind):
    """A main workplan of some executables, so many marks, and further ones."""
    numbers, marks = notes(count)
    return [main_of(*before, *numbers, *behind), marks]


def nots(times):
    """Condition 4, of so many nodes and one: so many times NOT around an OR of none."""
    return "#4=NOT_EXPRESSION(#100001);\n" + numbered(100_001, times - 1, "NOT_EXPRESSION(#@@)") + f"\n#{100_000 + times}=OR_EXPRESSION(());"


def doubled(levels):
    """Value 500 + `levels`, of 2^(levels + 1) - 1 nodes: each a sum of the one before with itself, the first a number with a number."""
    return "#501=!NC_SUM(1.,1.);\n" + "\n".join(f"#{n}=!NC_SUM(#{n - 1},#{n - 1});" for n in range(502, 501 + levels))


def plans_with_channels(count):
    """Workplans 300, 301, .. that name channels 400, 401, .., and these."""
    return [numbered(300 + i, 1, f"WORKPLAN('',(),#{400 + i})") for i in range(count)] + [numbered(400, count, "CHANNEL('')")]


WHILE, IF = "#3=WHILE_STATEMENT('W',#4,#6);", "#3=IF_STATEMENT('I',#4,#6,$);"
MARK, TRUE, ENDLESS = "#6=SET_MARK('');", "#4=AND_EXPRESSION(());", "#4=NOT_EXPRESSION(#4);"
HOLE_WITHOUT_PLACE = "#20=ROUND_HOLE('H',$,(),$,#51,10.);"
STEP_9 = "#9=MACHINING_WORKINGSTEP('W',$,#20,#30);"  # without a security plane
EIGHT = range(300, 308)

SHARED = [
    ([main_of(10, 10)], "Shared 10"),
    ([main_of(2)], "Shared 2"),
    ([main_of(3), "#3=PARALLEL('',(#4));", "#4=NON_SEQUENTIAL('',(#3));"], "Shared 3"),
    ([main_of(3), "#3=IF_STATEMENT('',#4,#10,#10);", TRUE], "Shared 10"),
    ([main_of(3), "#3=WHILE_STATEMENT('',#4,#3);", TRUE], "Shared 3"),
    # Preorder: 2, 3, 10, 6, 5, and 6 again before 10 again.
    ([main_of(3, 5), "#3=PARALLEL('',(#10,#6));", "#5=SELECTIVE('',(#6,#10));", MARK], "Shared 6"),
    # Preorder goes down before it goes on: 2, 3, 5, 7, 10, and 7 again, before 10 again.
    ([main_of(3, 10), "#3=PARALLEL('',(#5,#7));", "#5=WORKPLAN('',(#7),$);", "#7=SELECTIVE('',(#10));"], "Shared 7"),
    # Marks, variables, channels, conditions and operations may be shared, and what isn't in the tree may be anything.
    ([main_of(3, 5, 7), "#3=WAIT_FOR_MARK('',#7);", "#5=WAIT_FOR_MARK('',#7);", "#7=SET_MARK('');"], RUNS),
    ([main_of(10), "#3=PARALLEL('',(#10,#10));", "#5=WORKPLAN('',(#5),$);"], None),
    ([main_of(3, 5), "#3=WHILE_STATEMENT('',#4,#6);", "#5=WHILE_STATEMENT('',#4,#7);", TRUE, MARK, "#7=SET_MARK('');"], RUNS),
    # A mark that nothing sets is no part of the tree.
    ([main_of(3), "#3=WAIT_FOR_MARK('',#6);", MARK], RUNS),
]

TOO_DEEP = [
    # 100 is level 2, so 162 is level 64 and 163 level 65.
    ([main_of(100), chain(62), "#162=WORKPLAN('',(),$);"], RUNS),
    ([main_of(100), chain(62), "#162=SET_MARK('');"], RUNS),
    ([main_of(100), chain(63), "#163=WORKPLAN('',(),$);"], "TreeTooDeep 163"),
    ([main_of(100), chain(63), "#163=SET_MARK('');"], "TreeTooDeep 163"),
    ([main_of(100), chain(62, "PARALLEL('',(#@@))"), "#162=MACHINING_WORKINGSTEP('W',#50,#20,#30);"], RUNS),
    ([main_of(100), chain(63, "SELECTIVE('',(#@@))"), "#163=MACHINING_WORKINGSTEP('W',#50,#20,#30);"], "TreeTooDeep 163"),
    ([main_of(100), chain(62, "IF_STATEMENT('',#4,#@@,$)"), "#162=SET_MARK('');", TRUE], RUNS),
    ([main_of(100), chain(63, "IF_STATEMENT('',#4,#@@,$)"), "#163=SET_MARK('');", TRUE], "TreeTooDeep 163"),
    ([main_of(100), chain(62, "WHILE_STATEMENT('',#4,#@@)"), "#162=SET_MARK('');", TRUE], RUNS),
    ([main_of(100), chain(63, "WHILE_STATEMENT('',#4,#@@)"), "#163=SET_MARK('');", TRUE], "TreeTooDeep 163"),
    # The branch that isn't taken first is as deep as the other one.
    ([main_of(100), chain(62), "#162=IF_STATEMENT('',#4,#6,$);", TRUE, MARK], "TreeTooDeep 6"),
    ([main_of(100), chain(61), "#161=IF_STATEMENT('',#4,#6,#7);", TRUE, MARK, "#7=WORKPLAN('',(#8),$);", "#8=SET_MARK('');"], "TreeTooDeep 8"),
    ([main_of(3, 100), "#3=SET_MARK('');", chain(63), "#163=SET_MARK('');"], "TreeTooDeep 163"),
]

EXPRESSIONS = [
    ([main_of(3), WHILE, ENDLESS, MARK], "ExprTooBig 3"),
    ([main_of(3), IF, ENDLESS, MARK], "ExprTooBig 3"),
    ([main_of(3), IF, "#4=AND_EXPRESSION((#5,#4));", "#5=OR_EXPRESSION(());", MARK], "ExprTooBig 3"),
    ([main_of(3), IF, "#4=XOR_EXPRESSION(#5,#7);", "#5=OR_EXPRESSION(());", "#7=OR_EXPRESSION((#5,#4));", MARK], "ExprTooBig 3"),
    ([main_of(3), "#3=ASSIGNMENT('',#4,#5);", "#4=NC_VARIABLE('V',$);", "#5=!NC_PRODUCT(2.,#5);"], "ExprTooBig 3"),
    # 999 times NOT and the OR of none are 1,000 nodes.
    ([main_of(3), IF, nots(999), MARK], RUNS),
    ([main_of(3), IF, nots(1_000), MARK], "ExprTooBig 3"),
    ([main_of(3), WHILE, nots(999), MARK], RUNS),
    ([main_of(3), WHILE, nots(1_000), MARK], "ExprTooBig 3"),
    # The AND and 999 conditions of one node each; what is shared counts wherever it stands.
    ([main_of(3), IF, "#4=AND_EXPRESSION((" + ",".join(["#5"] * 999) + "));", "#5=OR_EXPRESSION(());", MARK], RUNS),
    ([main_of(3), IF, "#4=AND_EXPRESSION((" + ",".join(["#5"] * 1_000) + "));", "#5=OR_EXPRESSION(());", MARK], "ExprTooBig 3"),
    # A comparison of three nodes 333 times, and the OR around them: 1,000. A NOT more: 1,001.
    ([main_of(3), IF, "#4=OR_EXPRESSION((" + ",".join(["#5"] * 333) + "));", "#5=COMPARISON_LESS(1.,2.);", MARK], RUNS),
    ([main_of(3), IF, "#4=NOT_EXPRESSION(#5);", "#5=OR_EXPRESSION((" + ",".join(["#7"] * 333) + "));", "#7=COMPARISON_LESS(#8,#8);",
      "#8=NC_VARIABLE('V',2.);", MARK], "ExprTooBig 3"),
    # Sums of 511, 255, 127, 63 and 31 nodes; 1 + 511 + (1 + 255 + (1 + 127 + (1 + 63 + (1 + 31 + 7)))) = 999, and with 9 in place of 7 1,001.
    ([main_of(3), "#3=ASSIGNMENT('',#5,#6);", "#5=NC_VARIABLE('V',$);", doubled(8), "#6=!NC_SUM(#508,#11);", "#11=!NC_DIFFERENCE(#507,#12);",
      "#12=!NC_PRODUCT(#506,#13);", "#13=!NC_SUM(#505,#14);", "#14=!NC_SUM(#504,#502);"], RUNS),
    ([main_of(3), "#3=ASSIGNMENT('',#5,#6);", "#5=NC_VARIABLE('V',$);", doubled(8), "#6=!NC_SUM(#508,#11);", "#11=!NC_DIFFERENCE(#507,#12);",
      "#12=!NC_PRODUCT(#506,#13);", "#13=!NC_SUM(#505,#14);", "#14=!NC_SUM(#504,#15);", "#15=!NC_SUM(#502,#5);"], "ExprTooBig 3"),
    ([main_of(3), IF, "#4=COMPARISON_EQUAL(#508,#508);", doubled(8), MARK], "ExprTooBig 3"),
    ([main_of(3), IF, "#4=COMPARISON_EQUAL(#507,#508);", doubled(8), MARK], RUNS),
    ([main_of(3), IF, "#4=COMPARISON_EQUAL(#560,1.);", doubled(60), MARK], "ExprTooBig 3"),
    # An expression that nobody works out may be of any size, and a note has none.
    ([main_of(10), WHILE, ENDLESS, MARK], None),
    ([main_of(3), "#3=DISPLAY_MESSAGE('',#4);", ENDLESS], RUNS),
]

LOOPS = [numbered(300, 65, "WHILE_STATEMENT('',#4,#90@)"), nots(999), numbered(90_300, 65)]
NODES = [
    (main_with_notes([], 65_534), RUNS),
    (main_with_notes([], 65_535), "TooManyNodes"),
    # The main workplan and 32,767 assignments of a number: 1 + 2 * 32,767 = 65,535. The variable that is assigned is no node.
    ([main_of(*range(1001, 33_768)), "#3=NC_VARIABLE('V',$);", numbered(1001, 32_767, "ASSIGNMENT('',#3,1.)")], RUNS),
    ([main_of(*range(1001, 33_768)), "#3=NC_VARIABLE('V',$);", numbered(1001, 32_766, "ASSIGNMENT('',#3,#3)"),
      "#33767=ASSIGNMENT('',#3,#4);", "#4=!NC_SUM(#3,#3);"], "TooManyNodes"),
    # The main workplan, and 65 loops that share a condition of 1,000 nodes and have a body of one: 1 + 65 * 1,002 = 65,131.
    (main_with_notes(range(300, 365), 404) + LOOPS, RUNS),
    (main_with_notes(range(300, 365), 405) + LOOPS, "TooManyNodes"),
    (main_with_notes([], 405, *range(300, 365)) + LOOPS, "TooManyNodes"),
]

CHANNELS = [
    ([main_of(*EIGHT), *plans_with_channels(8)], RUNS),
    ([main_of(*EIGHT, 308), *plans_with_channels(9)], "TooManyChannels"),
    ([main_of(10, channel="#3"), "#3=CHANNEL('0');"], None),
    ([main_of(*EIGHT, channel="#407"), *plans_with_channels(8)], RUNS),
    ([main_of(*EIGHT, channel="#408"), *plans_with_channels(9)], "TooManyChannels"),
    ([main_of(*EIGHT, 9), *plans_with_channels(8), "#9=WORKPLAN('',(),#400);"], RUNS),
    # A channel that no workplan of the tree names isn't one of the eight.
    ([main_of(*EIGHT), *plans_with_channels(9)], RUNS),
]

ORDER = [
    # At one executable: Shared, then TreeTooDeep, then TooManyNodes, then ExprTooBig, then TooManyChannels.
    ([main_of(10, 100), chain(62), "#162=WORKPLAN('',(#10),$);"], "Shared 10"),
    (main_with_notes([], 65_534, 1001), "Shared 1001"),
    (main_with_notes([], 65_534, 2), "Shared 2"),
    # The main workplan, the marks and the 63 of the chain are 65,535 nodes, and then 65,536 before the one at level 65.
    (main_with_notes([], 65_471, 100) + [chain(63), "#163=SET_MARK('');"], "TreeTooDeep 163"),
    (main_with_notes([], 65_472, 100) + [chain(63), "#163=SET_MARK('');"], "TooManyNodes"),
    ([main_of(100), chain(63), "#163=IF_STATEMENT('',#4,#6,$);", ENDLESS, MARK], "TreeTooDeep 163"),
    ([main_of(*EIGHT, 100), *plans_with_channels(9), chain(63), "#163=WORKPLAN('',(),#408);"], "TreeTooDeep 163"),
    # With the main workplan and 64,533 marks there are 64,534 nodes; a loop whose condition counts 1,000 makes them 65,535.
    (main_with_notes([], 64_533, 3) + [WHILE, ENDLESS, MARK], "ExprTooBig 3"),
    (main_with_notes([], 64_534, 3) + [WHILE, ENDLESS, MARK], "TooManyNodes"),
    (main_with_notes([], 64_533, 3) + [WHILE, nots(999), MARK], "TooManyNodes"),  # by the loop's body
    (main_with_notes([], 64_532, 3) + [WHILE, nots(999), MARK], RUNS),
    (main_with_notes(EIGHT, 65_525, 308) + plans_with_channels(9), "TooManyChannels"),
    (main_with_notes(EIGHT, 65_526, 308) + plans_with_channels(9), "TooManyNodes"),
    # Of several executables the first in preorder, whatever their faults.
    ([main_of(3, 10, 10), WHILE, ENDLESS, MARK], "ExprTooBig 3"),
    ([main_of(10, 10, 3), WHILE, ENDLESS, MARK], "Shared 10"),
    ([main_of(3, 5), WHILE, TRUE, "#6=IF_STATEMENT('',#7,#8,$);", "#7=NOT_EXPRESSION(#7);", "#8=SET_MARK('');", "#5=WORKPLAN('',(#2),$);"],
     "ExprTooBig 6"),
    ([main_of(100, 3), chain(63), "#163=SET_MARK('');", WHILE, ENDLESS, MARK], "TreeTooDeep 163"),
    ([main_of(3, 100), chain(63), "#163=SET_MARK('');", WHILE, ENDLESS, MARK], "ExprTooBig 3"),
    ([main_of(*EIGHT, 308, 10, 10), *plans_with_channels(9)], "TooManyChannels"),
    ([main_of(*EIGHT, 10, 10, 308), *plans_with_channels(9)], "Shared 10"),
    (main_with_notes([3], 65_535) + [WHILE, ENDLESS, MARK], "ExprTooBig 3"),
    # A while with a faulty condition is refused before anything in it.
    ([main_of(3), "#3=WHILE_STATEMENT('',#4,#3);", ENDLESS], "ExprTooBig 3"),
    # Between the project's faults and those of definitions.
    ([main_of(10, 10), "#77=PARALLEL('',());"], "BadAttribute 77 2"),
    ([main_of(10, 10), "#77=PROJECT('Q',#2);"], "ManyProjects 77"),
    ([main_of(10, 10), "#77=SELECTIVE('',(#99));"], "Unresolved 77 99"),
    ([main_of(10, 10), "#77=WAIT_FOR_MARK('',#10);"], "WrongKind 77 2"),
    ([main_of(10, 10), HOLE_WITHOUT_PLACE], "Shared 10"),
    ([main_of(10, 3), WHILE, ENDLESS, MARK, HOLE_WITHOUT_PLACE], "ExprTooBig 3"),
]

BELOW = "#3=PARALLEL('',(#5));"
DEFINITIONS = [
    # Of the workingsteps of the whole tree the least number decides, on whatever level.
    ([main_of(3), BELOW, "#5=WORKPLAN('',(#10),$);", HOLE_WITHOUT_PLACE], "Definition 10 Missing 20 4"),
    ([main_of(10, 3), BELOW, "#5=WORKPLAN('',(#9),$);", STEP_9, HOLE_WITHOUT_PLACE], "Definition 9 Missing 9 2"),
    ([main_of(3, 9), BELOW, "#5=WORKPLAN('',(#10),$);", STEP_9], "Definition 9 Missing 9 2"),
    ([main_of(3), "#3=IF_STATEMENT('',#4,#6,#10);", TRUE, MARK, HOLE_WITHOUT_PLACE], "Definition 10 Missing 20 4"),
    ([main_of(3), "#3=WHILE_STATEMENT('',#4,#10);", TRUE, HOLE_WITHOUT_PLACE], "Definition 10 Missing 20 4"),
    ([main_of(10), BELOW, "#5=WORKPLAN('',(#9),$);", STEP_9], None),
    ([main_of(3), BELOW, "#5=WORKPLAN('',(),$);", STEP_9, HOLE_WITHOUT_PLACE], RUNS),
]

OF_EACH_KIND = [
    ([main_of(3), "#3=WORKPLAN('',(#10),$);"], RUNS),
    ([main_of(3), "#3=WORKPLAN('',(),$);"], RUNS),
    ([main_of(3), "#3=PARALLEL('',(#10));"], RUNS),
    ([main_of(3), "#3=NON_SEQUENTIAL('',(#10));"], RUNS),
    ([main_of(3), "#3=SELECTIVE('',(#10));"], RUNS),
    ([main_of(3), "#3=IF_STATEMENT('',#4,#10,$);", TRUE], RUNS),
    ([main_of(3), "#3=WHILE_STATEMENT('',#4,#10);", TRUE], RUNS),
    ([main_of(10, 3), "#3=ASSIGNMENT('',#4,1.);", "#4=NC_VARIABLE('V',$);"], RUNS),
    ([main_of(10, 6), MARK], RUNS),
    ([main_of(10, 3, 6), MARK, "#3=WAIT_FOR_MARK('',#6);"], RUNS),
    *[([main_of(10, 3), f"#3={keyword}('');"], RUNS) for keyword in
      ["DISPLAY_MESSAGE", "OPTIONAL_STOP", "PROGRAM_STOP", "LOAD_TOOL", "UNLOAD_TOOL", "INDEX_TABLE", "INDEX_PALLET", "EXCHANGE_PALLET"]],
    ([main_of(10)], None),
    ([main_of(10, 9), "#9=MACHINING_WORKINGSTEP('W',#50,#20,#30);"], None),
    ([main_of(9, 10, channel="#3"), "#9=MACHINING_WORKINGSTEP('W',#50,#20,#30);", "#3=CHANNEL('0');"], None),
]

REFUSED = SHARED + TOO_DEEP + EXPRESSIONS + NODES + CHANNELS + ORDER + DEFINITIONS + OF_EACH_KIND

# Trees in which `path` is asked for a number, and whether that is a workingstep of them.
STEPS = [
    ([main_of(3), "#3=WORKPLAN('',(#10),$);"], 10, True),
    ([main_of(3), "#3=PARALLEL('',(#10));"], 10, True),
    ([main_of(3), "#3=NON_SEQUENTIAL('',(#10));"], 10, True),
    ([main_of(3), "#3=SELECTIVE('',(#6,#10));", MARK], 10, True),
    ([main_of(3), "#3=IF_STATEMENT('',#4,#10,$);", TRUE], 10, True),
    ([main_of(3), "#3=IF_STATEMENT('',#4,#6,#10);", TRUE, MARK], 10, True),
    ([main_of(3), "#3=WHILE_STATEMENT('',#4,#10);", TRUE], 10, True),
    ([main_of(100), chain(61), "#161=WORKPLAN('',(#10),$);"], 10, True),
    ([main_of(3, 10, channel="#5"), "#3=DISPLAY_MESSAGE('');", "#5=CHANNEL('');"], 10, True),
    ([main_of(3, *EIGHT), "#3=NON_SEQUENTIAL('',(#10,#6));", MARK, *plans_with_channels(8)], 10, True),
    ([main_of(3), "#3=WORKPLAN('',(#10),$);"], 3, False),
    ([main_of(3), "#3=WORKPLAN('',(#10),$);"], 2, False),
    ([main_of(3), "#3=WORKPLAN('',(),$);"], 10, False),
    ([main_of(6), MARK], 6, False),
    ([main_of(3), "#3=WAIT_FOR_MARK('',#6);", MARK, "#7=PARALLEL('',(#10));"], 10, False),
    ([main_of(3), "#3=PARALLEL('',(#10));"], 77, False),
]
