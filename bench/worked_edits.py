"""Scripts of edits for examples/drilled_hole.stp worked out by hand, for worked.py.

A row has the text of a script and the log of its run, as worked_runs.py has logs. In `hole` stand the six blocks of the hole, in `deeper` those of one of 18 mm.
"""

HOLE = " / ".join(f"B 10 {k}" for k in range(6))
DEEPER = HOLE.replace("B 10 3", "B 10 3 F 10000 20000 -18000 40")
DEEP = "#72=CARTESIAN_POINT('',(0.,0.,-18.));"


def edit(at, items=""):
    return f"EDIT AT {at}; {items} ENDEDIT;"


SCRIPTS = [
    ("", f"D 10 0 / {HOLE} / E 10 / end done 8"),
    (edit(0, DEEP), f"X 0 ok / D 10 1 / {DEEPER} / E 10 / end done 9"),
    (edit(1, DEEP), f"D 10 0 / X 0 no J4 10 0 / {HOLE} / E 10 / end done 9"),
    (edit(1, "#30=DRILLING($,$,'D',5.,$,#99,#45);"), f"D 10 0 / X 0 no J2 30 99 / {HOLE} / E 10 / end done 9"),
    (edit(0, "#2=WORKPLAN('M',(),$);"), f"X 0 no J1 2 2 / D 10 0 / {HOLE} / E 10 / end done 9"),
    (edit(0, "#99=CHANNEL('X');"), f"X 0 no J1 99 13 / D 10 0 / {HOLE} / E 10 / end done 9"),
    (edit(0, "#46=ENDMILL(#47);"), f"X 0 no J1 46 57 / D 10 0 / {HOLE} / E 10 / end done 9"),
    (edit(0, "#10=MACHINING_WORKINGSTEP('W',#50,#20,#44);"), f"X 0 no J3 10 4 / D 10 0 / {HOLE} / E 10 / end done 9"),
    (edit(0, "#72=CARTESIAN_POINT('',(0.,0.,15.));"), f"X 0 no J5 10 6 / D 10 0 / {HOLE} / E 10 / end done 9"),
    (edit(1000, DEEP), f"D 10 0 / {HOLE} / E 10 / X 0 no J4 10 0 / end done 9"),
    (edit(0, DEEP) + edit(0, DEEP), f"X 0 ok / X 1 ok / D 10 2 / {DEEPER} / E 10 / end done 10"),
    (edit(0) + edit(3), "X 0 ok / D 10 0 / B 10 0 / X 1 ok / B 10 1 / B 10 2 / B 10 3 / B 10 4 / B 10 5 / E 10 / end done 10"),
]

REFUSED = [
    ("EDIT AT 5; ENDEDIT; EDIT AT 4; ENDEDIT;", "AtOrder 1"),
    ("EDIT AT 0; #72=PLANE('',$); #72=PLANE('',$); ENDEDIT;", "Repeated 0 72"),
    ("EDIT AT 0; #70=CARTESIAN_POINT('',$); ENDEDIT;", "Attribute 0 70 2"),
    ("EDIT 0;", "Syntax 5"),
    ("EDIT AT 00; ENDEDIT;", "Syntax 8"),
    ("EDIT AT -1; ENDEDIT;", "Syntax 8"),
    ("EDIT AT 12345678; ENDEDIT;", "Syntax 8"),
    ("EDIT AT 0; ENDEDIT", "Syntax 18"),
    ("EDIT AT 0; ENDEDIT; x", "BadByte 20"),
    ("EDIT AT 0; ENDEDIT; ENDEDIT;", "Syntax 20"),
    ("EDIT AT 0; #1=A(); #2=A(); #2=A(); #1=A(); ENDEDIT;", "Repeated 0 2"),
    ("EDIT AT 0; ENDEDIT; " * 1001, "TooMany 20000"),
]
