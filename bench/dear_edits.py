"""Projects and scripts of edits that are dear to judge, for bench/run and bench/hostile.

All edits of a script are due before the first entry and are accepted, so a limit of as many entries as there are edits ends a run behind the last of them.
"""

FRONT = b"ISO-10303-21;HEADER;FILE_DESCRIPTION((''),'2;1');FILE_NAME('A','',(''),(''),'','','');FILE_SCHEMA(('S'));ENDSEC;DATA;#1=PROJECT('P',#2);"
BACK = b"ENDSEC;END-ISO-10303-21;"
# A drilled hole but for its workingstep: a feature, an operation, a tool, planes and their placements.
HOLE = (b"#20=ROUND_HOLE('H',$,(),#60,#51,10.);#30=DRILLING($,$,'D',5.,$,#44,#45,$,$,$,$,$);#45=MILLING_TECHNOLOGY(0.040,$,$,20.);"
        b"#50=PLANE('SEC',#61);#51=PLANE('DEPTH',#62);#60=AXIS2_PLACEMENT_3D('',#70,$,$);#61=AXIS2_PLACEMENT_3D('',#71,$,$);"
        b"#62=AXIS2_PLACEMENT_3D('',#72,$,$);#70=CARTESIAN_POINT('',(10.,20.,0.));#71=CARTESIAN_POINT('',(0.,0.,30.));#72=CARTESIAN_POINT('',(0.,0.,-15.));")
TOOL = b"#44=MILLING_CUTTING_TOOL('T',#46);"
POINT = b"#9=CARTESIAN_POINT('',(1.));"

MOST_EDITS = 1_000
MOST_ITEMS = 1_000
STEPS = 60_000
FIRST, FIRST_FEATURE, FIRST_OTHER, FIRST_UNUSED = 1_000, 101_000, 200_000, 900_000


def names(numbers):
    return b",".join(b"#%d" % n for n in numbers)


def numbered(text, numbers):
    return b"".join(b"#%d=%s;" % (n, text) for n in numbers)


def project(steps, text):
    return FRONT + b"#2=WORKPLAN('MAIN',(" + names(steps) + b"),$);" + HOLE + text + BACK


def many_steps(text, feature=lambda n: 20):
    """A project of many workingsteps that share an operation."""
    steps = range(FIRST, FIRST + STEPS)
    return project(steps, text + b"".join(b"#%d=MACHINING_WORKINGSTEP('WS',#50,#%d,#30);" % (n, feature(n)) for n in steps))


def one_tool(others, text):
    """Many workingsteps of one tool, which names a list of so many others where no drilling looks."""
    others = range(FIRST_OTHER, FIRST_OTHER + others)
    return many_steps(TOOL + b"#46=POLYLINE('',(" + names(others) + b"));" + numbered(text, others))


def own_features():
    """Many workingsteps of one tool, each with a feature of its own."""
    features = range(FIRST_FEATURE, FIRST_FEATURE + STEPS)
    return many_steps(TOOL + b"#46=TWIST_DRILL($);" + numbered(b"ROUND_HOLE('H',$,(),#60,#51,10.)", features), lambda n: n - FIRST + FIRST_FEATURE)


def one_hole(text):
    return project([FIRST], TOOL + b"#46=TWIST_DRILL($);#%d=MACHINING_WORKINGSTEP('WS',#50,#20,#30);" % FIRST + text)


def one_line(times):
    """A line that names one point so many times, beside a hole."""
    return one_hole(POINT + b"#80=POLYLINE('',(" + b",".join([b"#9"] * times) + b"));")


def lines_of_lines(each):
    """So many lines that each name as many others, which all name one point, beside a hole."""
    lower, upper = range(2_000, 2_000 + each), range(5_000, 5_000 + each)
    return one_hole(POINT + numbered(b"POLYLINE('',(#9))", lower) + numbered(b"POLYLINE('',(" + names(lower) + b"))", upper))


def script(texts):
    return b"".join(b"EDIT AT 0;" + text + b"ENDEDIT;" for text in texts)


def points(numbers):
    """An edit for each of these points."""
    return script(b"#%d=CARTESIAN_POINT('',(1.,1.,0.));" % n for n in numbers)


def lines_and(number, times, edits):
    """Edits of a line that names one point so many times, and of the point with this number."""
    line = b"#80=POLYLINE('',(" + b",".join([b"#9"] * times) + b"));"
    return script([line + b"#%d=CARTESIAN_POINT('',(1.));" % number] * edits)


def cases(edits=MOST_EDITS):
    """Title, how many of what an edit makes be looked at, the project, the script, and a script as long whose edits reach nothing."""
    unused, items = points([FIRST_UNUSED] * edits), range(FIRST_OTHER, FIRST_OTHER + MOST_ITEMS)
    yield (f"{MOST_ITEMS} instances of one tool", STEPS, "steps", one_tool(MOST_ITEMS, b"A()"), script([numbered(b"A()", items)] * edits),
           script([numbered(b"A()", range(FIRST_UNUSED, FIRST_UNUSED + MOST_ITEMS))] * edits))
    yield "a point of 130,000 of one tool", STEPS, "steps", one_tool(130_000, b"CARTESIAN_POINT('',(1.))"), points(FIRST_OTHER + i for i in range(edits)), unused
    yield "the tool of 60,000 features", STEPS, "steps", own_features(), script([b"#46=TWIST_DRILL($);"] * edits), unused
    yield "a point that a line names", 5_000_000, "names", one_line(5_000_000), points([9] * edits), unused
    yield "a point that lines of lines name", 1_500 * 1_500, "names", lines_of_lines(1_500), points([9] * edits), unused
    yield "a point that earlier lines named", 5_300 * edits // 2, "names", one_hole(POINT), lines_and(9, 5_300, edits), lines_and(FIRST_UNUSED, 5_300, edits)
