"""The large case of `big`: a project and a script from two numbers, written from docs/FORMATS.md alone."""

FRONT = """ISO-10303-21;
HEADER;
FILE_DESCRIPTION((''),'2;1');
FILE_NAME('','',(''),(''),'','','');
FILE_SCHEMA((''));
ENDSEC;
DATA;
#1=CHANNEL('0');
#2=CHANNEL('1');
#3=CHANNEL('2');
#4=PROJECT('big',#5);
#5=WORKPLAN('main',(#6),$);
#6=PARALLEL('p',(#7,#8,#9));
"""

SHARED = """#10=SET_MARK('m');
#11=SET_MARK('m');
#12=WAIT_FOR_MARK('m',#10);
#13=WAIT_FOR_MARK('m',#11);
#20=PLANE('',#21);
#21=AXIS2_PLACEMENT_3D('',#22,$,$);
#22=CARTESIAN_POINT('',(0.,0.,30.));
#30=MILLING_CUTTING_TOOL('t',#31);
#31=ENDMILL(#32);
#32=MILLING_TOOL_DIMENSION(10.);
#33=MILLING_TECHNOLOGY(0.04,$,$,20.);
"""

END = "ENDSEC;\nEND-ISO-10303-21;\n"

# by kind: a hole, a pocket, a face; n is the number of the workingstep
FEATURES = (
    lambda n: f"ROUND_HOLE('f',$,(),#{n + 3},#{n + 5},10.)",
    lambda n: f"CLOSED_POCKET('f',$,(),#{n + 3},#{n + 5},(),$,$,$,$,#{n + 8})",
    lambda n: f"PLANAR_FACE('f',$,(),#{n + 3},#{n + 5},#{n + 8},#{n + 9})",
)
OPERATIONS = (
    "DRILLING($,$,'o',5.,$,#30,#33)",
    "BOTTOM_AND_SIDE_ROUGH_MILLING($,$,'o',5.,$,#30,#33,$,$,$,$,$,5.,4.,$,$)",
    "PLANE_ROUGH_MILLING($,$,'o',5.,$,#30,#33,$,$,$,$,$,5.,$)",
)
EXTENTS = (
    lambda n: "",
    lambda n: f"#{n + 8}=RECTANGULAR_CLOSED_PROFILE($,40.,20.);\n",
    lambda n: f"#{n + 8}=LINEAR_PATH($,100.,#{n + 10});\n#{n + 9}=LINEAR_PROFILE($,50.);\n#{n + 10}=DIRECTION('',(1.,0.,0.));\n",
)


def draws(start):
    state = start
    while True:
        state = (state * 1103515245 + 12345) % 2**31
        yield state // 65536


def number_of(i):
    return 1000 + 20 * i


def workplans(steps):
    of = [[number_of(i) for i in range(steps) if i % 3 == branch] for branch in range(3)]
    elements = [of[0][:1] + [10] + of[0][1:], [12] + of[1] + [11], of[2] + [13]]
    return "".join(
        f"#{7 + branch}=WORKPLAN('w',({','.join(f'#{n}' for n in elements[branch])}),#{1 + branch});\n" for branch in range(3)
    )


def workingstep(n, kind, x, y, depth):
    return (
        f"#{n}=MACHINING_WORKINGSTEP('s',#20,#{n + 1},#{n + 2});\n"
        f"#{n + 1}={FEATURES[kind](n)};\n"
        f"#{n + 2}={OPERATIONS[kind]};\n"
        f"#{n + 3}=AXIS2_PLACEMENT_3D('',#{n + 4},$,$);\n"
        f"#{n + 4}=CARTESIAN_POINT('',({x}.,{y}.,0.));\n"
        f"#{n + 5}=PLANE('',#{n + 6});\n"
        f"#{n + 6}=AXIS2_PLACEMENT_3D('',#{n + 7},$,$);\n"
        f"#{n + 7}=CARTESIAN_POINT('',(0.,0.,-{depth}.));\n"
        f"{EXTENTS[kind](n)}"
    )


def texts(steps, start):
    """The texts of the project and of the script."""
    drawn = draws(start)
    lines = []
    for i in range(steps):
        kind, x, y = next(drawn) % 3, next(drawn) % 1000, next(drawn) % 1000
        lines.append(workingstep(number_of(i), kind, x, y, 1 + next(drawn) % 50))
    edits = []
    for j in range(steps // 10):
        i = next(drawn) % steps
        edits.append(f"EDIT AT {20 * j}; #{number_of(i) + 7}=CARTESIAN_POINT('',(0.,0.,-{1 + next(drawn) % 50}.)); ENDEDIT;\n")
    return FRONT + workplans(steps) + SHARED + "".join(lines) + END, "".join(edits)
