"""Random projects of drilled holes, faces and pockets in trees of executables, with random faults and a random layout, and random schedules, for
bench/compare.

A project is a dict of instances by number. A parameter is a text that is written as it stands, a Ref, a list, or a Typed. All that
is random comes from one random.Random, so a case is the same for the same seed.
"""

import random

from oracle import (ASSIGNMENT, CLASS_OF, IF, KEYWORDS, MOST_BYTES, MOST_CHANNELS, MOST_ENTRIES, MOST_EXPRESSION, MOST_INSTANCES, MOST_NESTING,
                    MOST_NODES, OPAQUE, TARGETS, USED, WHILE, WORKINGSTEP, WORKPLAN)


class Ref:
    def __init__(self, number):
        self.number = number


class Typed:
    def __init__(self, keyword, inside):
        self.keyword, self.inside = keyword, inside


class Instance:
    """A simple instance of one part, or a complex one of any number."""

    def __init__(self, parts, is_complex=False):
        self.parts, self.is_complex = parts, is_complex

    @property
    def code(self):
        return OPAQUE if self.is_complex else CLASS_OF.get(self.parts[0][0].encode(), OPAQUE)

    @property
    def parameters(self):
        return self.parts[0][1]

    def get(self, position):
        return self.parameters[position - 1] if position <= len(self.parameters) else "$"

    def put(self, position, parameter):
        while len(self.parameters) < position:
            self.parameters.append("$")
        self.parameters[position - 1] = parameter


OTHER_KEYWORDS = ["WORKPIECE", "SETUP", "RAPID_MOVEMENT", "PLUS_MINUS_VALUE", "CONTOUR_PARALLEL", "NC_SUM", "!PLANE", "ENDSEC", "DATA",
                  "A", "_", "HEADER", "PROJECTS", "Z9_"]


# ---- Texts of single parameters. ----


def text(r):
    """A Text: mostly letters, sometimes any byte that may stand in one."""
    length = r.choice([0, 0, 1, 3, 8, 20])
    letters = []
    for _ in range(length):
        letters.append(r.choice("ABC xyz09") if r.random() < 0.8 else
                       r.choice(["''", "/*", "*/", "\\X2\\0041\\X0\\", '"', "#", ";", "(", "\t", "\r\n", chr(r.randrange(127, 256)), "~"]))
    return "'" + "".join(letters) + "'"


def binary(r):
    return '"' + "".join(r.choice("0123456789ABCDEF") for _ in range(r.randrange(5))) + '"'


def enumeration(r):
    return r.choice([".T.", ".F.", ".U.", ".LEFT.", "._.", ".A_1."])


def spelled(r, value):
    """A number that is so many thousandths, in one of the ways to write it."""
    sign, size = ("-" if value < 0 else r.choice(["", "", "", "+"])), abs(value)
    whole, rest = divmod(size, 1000)
    fraction = f"{rest:03d}".rstrip("0")
    way = r.random()
    if way < 0.6:
        return f"{sign}{whole}.{fraction}"
    if way < 0.7 and not rest:
        return f"{sign}{'0' * r.randrange(3)}{whole}"
    if way < 0.8:
        return f"{sign}{whole}.{rest:03d}{'0' * r.randrange(4)}"
    if way < 0.9:  # rounded: just below, or just at, a half
        near = r.choice(["4", "49", "4999999", "0001"])
        return f"{sign}{whole}.{rest:03d}{near}"
    if way < 0.95 and size:
        below = size - 1
        return f"{sign}{below // 1000}.{below % 1000:03d}5"
    power = r.choice([-5, -1, 0, 1, 2, 4])
    digits = f"{size}".rjust(12, "0")
    point = len(digits) - 3 - power
    digits = digits + "0" * max(0, point - len(digits))
    return f"{sign}{digits[:point]}.{digits[point:]}E{r.choice(['', '+']) if power >= 0 else '-'}{'0' * r.randrange(2)}{abs(power)}"


def any_number(r):
    """Any Int or Real, of any size."""
    digits = "".join(r.choice("0123456789") for _ in range(r.choice([1, 2, 5, 18])))
    return r.choice(["", "-", "+"]) + digits + r.choice(["", ".", ".5", ".E5", ".25E-30", ".E29", ".0E+99"])


def junk(r, deep=2):
    """Anything that may stand where nobody looks."""
    choice = r.randrange(12)
    if choice < 5 or deep == 0 and choice > 9:
        return "$"
    if choice == 5:
        return "*"
    if choice == 6:
        return text(r)
    if choice == 7:
        return r.choice([binary, enumeration])(r)
    if choice == 8:
        return any_number(r)
    if choice == 9:
        return Ref(r.choice([1, 2, 3, 10, 77, 2_147_483_647]))
    if choice == 10:
        return [junk(r, deep - 1) for _ in range(r.randrange(4))]
    return Typed(r.choice(["LENGTH_MEASURE", "!OWN", "A"]), junk(r, deep - 1))


# ---- Projects. ----


class Project:
    def __init__(self, r):
        self.r = r
        self.instances = {}
        self.shared = {}
        self.is_sparse = r.random() < 0.1
        self.steps = []
        self.is_nested = False
        self.allowances = []  # operation, position of its bottom allowance, depth
        self.contours = []  # POLYLINE, its corners
        self.sides = []  # operation, profile, least length that its tool needs: of centred pockets

    def fresh(self):
        while True:
            most = 2_147_483_647 if self.is_sparse else 60 + 3 * len(self.instances)
            number = self.r.randint(1, most)
            if number not in self.instances:
                return number

    def add(self, keyword, used):
        """An instance with these parameters at used positions, and anything at the others."""
        r = self.r
        number = self.fresh()
        length = max([0] + [position for position in used if used[position] != "$" or r.random() < 0.5])
        length = length if r.random() < 0.6 else max([length] + list(used)) + r.randrange(3)
        parameters = [used.get(position, None) for position in range(1, length + 1)]
        parameters = [junk(r) if parameter is None else parameter for parameter in parameters]
        self.instances[number] = Instance([(keyword, parameters)])
        return Ref(number)

    def kept(self, purpose, make):
        """An instance made for this purpose before, or a new one."""
        known = self.shared.setdefault(purpose, [])
        if known and self.r.random() < 0.4:
            return self.r.choice(known)
        known.append(make())
        return known[-1]

    def num(self, value):
        number = spelled(self.r, value)
        return Typed(self.r.choice(["LENGTH_MEASURE", "POSITIVE_LENGTH", "!MM"]), number) if self.r.random() < 0.1 else number

    def length(self, value):
        way = self.r.random()
        if way < 0.75:
            return self.num(value)
        if way < 0.88:
            return self.add("TOLERANCED_LENGTH_MEASURE", {1: self.num(value)})
        return self.add("NUMERIC_PARAMETER", {2: self.num(value)})

    def point(self, x, y, z):
        numbers = [x, y, z]
        while len(numbers) > 1 and numbers[-1] == 0 and self.r.random() < 0.5:
            numbers.pop()
        return self.add("CARTESIAN_POINT", {2: [self.num(value) for value in numbers]})

    def direction(self, x, y, z):
        size = self.r.choice([1000, 1000, 1, 707])
        return self.add("DIRECTION", {2: [self.num(size * way) for way in (x, y, z)]})

    def placement(self, x, y, z):
        r = self.r
        axis = self.kept("axis", lambda: self.direction(0, 0, 1)) if r.random() < 0.3 else "$"
        along = self.kept("along", lambda: self.direction(1, 0, 0)) if r.random() < 0.3 else "$"
        return self.add("AXIS2_PLACEMENT_3D", {2: self.point(x, y, z), 3: axis, 4: along})

    def plane(self, z):
        x, y = (self.r.choice([0, 0, 5000, 10**12]) for _ in range(2))  # only z is looked at
        return self.add("PLANE", {2: self.placement(x, y, z)})

    def value(self, least, most):
        """A random number of thousandths, often a round one."""
        value = self.r.randint(least, most)
        return max(least, value // 1000 * 1000) if self.r.random() < 0.6 else value

    def tool(self, diameter):
        body = self.r.choice(KEYWORDS[self.r.randint(53, 57)])
        dimension = self.add("MILLING_TOOL_DIMENSION", {1: self.length(diameter)})
        return self.add("MILLING_CUTTING_TOOL", {2: self.add(body, {1: dimension})})

    def technology(self):
        feed, spindle = self.value(1, 100), self.r.choice([20_000, 0, -5_000, 16_500])
        return self.add("MILLING_TECHNOLOGY", {1: self.num(feed), 4: self.num(spindle)})

    def operation(self, code, tool, used):
        r = self.r
        retract = "$" if r.random() < 0.3 else self.length(self.value(0, 20_000))
        technology = self.kept("technology", self.technology)
        fields = {1: "$", 4: retract, 6: tool, 7: technology}
        fields.update(used)
        return self.add(r.choice(KEYWORDS[code]), fields)

    def drill(self):
        r = self.r
        dwell = r.choice(["$", self.num(0), self.num(self.value(1, 5_000))])
        tool = self.kept("drill", lambda: self.add("MILLING_CUTTING_TOOL", {2: "$"}) if r.random() < 0.2 else self.tool(8_000))
        return self.operation(r.randint(41, 44), tool, {12: dwell})

    def hole(self, place, bottom, depth):
        feature = self.add("ROUND_HOLE", {4: place, 5: bottom, 6: self.length(self.value(1, 30_000))})
        return feature, self.kept("drilling", self.drill)

    def strategy(self):
        r = self.r
        if r.random() < 0.3:
            return "$"
        overlap = r.choice(["$", self.num(0), self.num(r.randint(0, 700)), self.num(999)])
        return self.add(r.choice(["BIDIRECTIONAL", "UNIDIRECTIONAL"]), {1: overlap})

    def depth_of_cut(self, depth):
        return self.r.choice(["$", self.length(depth), self.length(max(1, depth // self.r.randint(1, 7))), self.length(depth + 1)])

    def allowance(self, most):
        return self.r.choice(["$", "$", self.length(0), self.length(self.r.randint(0, most))])

    def face(self, place, bottom, depth):
        r = self.r
        diameter = r.choice([self.value(1_000, 30_000), self.value(1_000, 30_000), r.randint(1, 1_500)])
        width = r.choice([1, diameter, 2 * diameter, self.value(1, 12 * diameter)])
        x, y = r.choice([(1, 0), (-1, 0), (0, 1), (0, -1)])
        course = self.add("LINEAR_PATH", {2: self.length(self.value(1, 200_000)), 3: self.direction(x, y, 0)})
        profile = self.add("LINEAR_PROFILE", {2: self.length(width)})
        feature = self.add("PLANAR_FACE", {4: place, 5: bottom, 6: course, 7: profile})
        used = {12: self.strategy(), 13: self.depth_of_cut(depth), 14: self.allowance(depth - 1)}
        operation = self.operation(r.randint(45, 46), self.tool(diameter), used)
        self.allowances.append((operation.number, 14, depth))
        return feature, operation

    def contour(self, length, width):
        r = self.r
        x, y = self.value(-50_000, 50_000), self.value(-50_000, 50_000)
        corners = [(x, y), (x + length, y), (x + length, y + width), (x, y + width)]
        begin = r.randrange(4)
        corners = corners[begin:] + corners[:begin]
        if r.random() < 0.5:
            corners.reverse()
        points = [self.point(a, b, r.choice([0, 0, 7])) for a, b in corners]
        if r.random() < 0.5:
            points.append(points[0] if r.random() < 0.5 else self.point(*corners[0], 1))
        line = self.add("POLYLINE", {2: points})
        self.contours.append((line.number, corners))
        return self.add("GENERAL_CLOSED_PROFILE", {2: line})

    def pocket(self, place, bottom, depth):
        r = self.r
        diameter, side = self.value(1_000, 20_000), r.choice([0, 0, 500, 1])
        inner = r.choice([0, 1, self.value(0, 80_000)]), self.value(0, 80_000)
        length, width = (value + diameter + diameter % 2 + 2 * side for value in r.sample(inner, 2))
        if r.random() < 0.5:
            profile = self.add("RECTANGULAR_CLOSED_PROFILE", {2: self.length(length), 3: self.length(width)})
        else:
            profile = self.contour(length, width)
        feature = self.add("CLOSED_POCKET", {4: place, 5: bottom, 11: profile})
        radial = r.choice(["$", self.length(self.value(max(1, diameter // 8), diameter)), self.length(100_000)])
        least = diameter + diameter % 2 + 2 * side
        side = "$" if side == 0 and r.random() < 0.5 else self.length(side)
        used = {13: self.depth_of_cut(depth), 14: radial, 15: side, 16: self.allowance(depth - 1)}
        operation = self.operation(r.randint(47, 48), self.tool(diameter), used)
        self.allowances.append((operation.number, 16, depth))
        if self.instances[profile.number].code == 34:
            self.sides.append((operation.number, profile.number, least))
        return feature, operation

    def step(self):
        r = self.r
        depth = r.choice([1, self.value(1, 40_000), self.value(1_000, 40_000)])
        place = self.placement(self.value(-90_000, 90_000), self.value(-90_000, 90_000), r.choice([0, 0, 5_000, -3_000]))
        bottom = self.plane(-depth)
        make = r.choice([self.hole, self.face, self.pocket])
        feature, operation = make(place, bottom, depth)
        security = self.kept("security", lambda: self.plane(self.value(0, 60_000)))
        return self.add("MACHINING_WORKINGSTEP", {2: security, 3: feature, 4: operation})

    # Trees of executables.

    def variable(self):
        return self.kept("variable", lambda: self.add("NC_VARIABLE", {2: self.r.choice(["$", self.num(self.value(-9_000, 9_000))])}))

    def value_of(self, deep):
        """A value: a number, a constant, a variable, or a sum, difference or product; some of them are used in several places."""
        r = self.r
        if deep == 0 or r.random() < 0.4:
            written = r.random()
            if written < 0.4:
                return self.num(self.value(-9_000, 9_000))
            return self.variable() if written < 0.8 else self.add("NC_CONSTANT", {2: self.num(r.randint(-9, 9))})

        def operator():
            return self.add(r.choice(KEYWORDS[r.randint(26, 28)]), {1: self.value_of(deep - 1), 2: self.value_of(deep - 1)})

        return self.kept("value", operator) if r.random() < 0.3 else operator()

    def condition_of(self, deep):
        """A comparison, or conditions joined or turned round; some of them are used in several places."""
        r = self.r
        code = r.randint(16, 21) if deep == 0 or r.random() < 0.4 else r.randint(22, 25)

        def operator():
            if code <= 21:
                return self.add(KEYWORDS[code][0], {1: self.value_of(deep), 2: self.value_of(deep)})
            conditions = [self.condition_of(deep - 1) for _ in range({24: 2, 25: 1}.get(code, r.randrange(4)))]
            return self.add(KEYWORDS[code][0], {1: conditions} if code <= 23 else dict(enumerate(conditions, 1)))

        return self.kept("condition", operator) if r.random() < 0.3 else operator()

    def channel(self):
        return self.add("CHANNEL", {}) if self.r.random() < 0.2 else self.kept("channel", lambda: self.add("CHANNEL", {}))

    def leaf(self):
        """An executable without others in it, other than a workingstep."""
        r = self.r
        code = r.choice([8, 9, 10, 12])
        if code == ASSIGNMENT:
            return self.add("ASSIGNMENT", {2: self.variable(), 3: self.value_of(r.randrange(3))})
        if code == 10:  # for a mark that stands in the tree, or in none
            marks = self.numbers_of({9})
            return self.add("WAIT_FOR_MARK", {2: Ref(r.choice(marks)) if marks and r.random() < 0.7 else self.add("SET_MARK", {})})
        return self.add(r.choice(KEYWORDS[code]), {})

    def around(self, parts):
        """An executable with one or two of these in it where it is an if, one where it is a while, else all of them; and those left over."""
        r = self.r
        code = r.choice([2, 2, 3, 4, 5, 6, 7])
        if code == IF:
            condition = self.condition_of(r.randrange(3))
            otherwise = parts[1] if len(parts) > 1 else "$"
            return self.add("IF_STATEMENT", {2: condition, 3: parts[0], 4: otherwise}), parts[2:]
        if code == WHILE:
            return self.counting(parts[0]) if r.random() < 0.7 else self.add("WHILE_STATEMENT", {2: self.condition_of(r.randrange(3)), 3: parts[0]}), parts[1:]
        if code == WORKPLAN:
            return self.add("WORKPLAN", {2: parts, 3: self.channel() if r.random() < 0.4 else "$"}), []
        return self.add(KEYWORDS[code][0], {2: parts}), []

    def counting(self, body):
        """A loop that counts on a variable of its own, so that it ends after a few rounds."""
        r = self.r
        variable = self.add("NC_VARIABLE", {2: r.choice(["$", self.num(1_000)])})
        more = self.add("!NC_SUM", {1: variable, 2: self.num(1_000)})
        count = self.add("ASSIGNMENT", {2: variable, 3: more})
        body = self.add("WORKPLAN", {2: [body, count] if r.random() < 0.8 else [count, body], 3: "$"})
        condition = self.add("COMPARISON_LESS", {1: variable, 2: self.num(r.choice([1_000, 2_000, 3_000, 5_000]))})
        return self.add("WHILE_STATEMENT", {2: condition, 3: body})

    def lanes(self, elements):
        """A parallel of workplans, each in a channel of its own, that have these elements."""
        r = self.r
        parts = [[] for _ in range(r.choice([2, 2, 3, 4]))]
        for element in elements:
            r.choice(parts).append(element)
        return self.add("PARALLEL", {2: [self.add("WORKPLAN", {2: part, 3: self.add("CHANNEL", {})}) for part in parts]})

    def meeting(self, elements):
        """Marks and waits for them among the elements; a run mostly comes to an end."""
        r = self.r
        for _ in range(r.choice([1, 1, 2])):
            mark = self.add("SET_MARK", {})
            elements.insert(r.randint(0, len(elements) // 2), mark)
            elements.insert(r.randint(len(elements) // 2, len(elements)), self.add("WAIT_FOR_MARK", {2: mark}))

    def nested(self, elements):
        """The elements of a main workplan that has these, and more, at any depth."""
        r = self.r
        elements = elements + [self.leaf() for _ in range(r.choice([0, 1, 2, 4]))]
        r.shuffle(elements)
        for _ in range(r.choice([1, 2, 3, 5, 8])):
            if not elements:
                return [self.add("WORKPLAN", {2: [], 3: "$"})]
            begin = r.randrange(len(elements))
            end = begin + r.randint(1, 3)
            executable, rest = self.around(elements[begin:end])
            elements[begin:end] = [executable] + rest
        if r.random() < 0.4:
            self.meeting(elements)
        return [self.lanes(elements)] if r.random() < 0.4 else elements

    # Instances that nobody runs.

    def numbers_of(self, codes):
        return [number for number, instance in self.instances.items() if instance.code in codes]

    def any_of(self, target):
        """A reference to an instance of the target, which is made where there is none."""
        codes = TARGETS[target] if target else range(1, 62)
        known = self.numbers_of(codes)
        if known:
            return Ref(self.r.choice(known))
        simple = {"Workplan": 2, "Executable": 12, "Mark": 9, "Channel": 13, "Variable": 14, "Value": 15, "Condition": 22, "Feature": 29,
                  "Operation": 41, None: 13}[target]
        if simple in (2, 22):
            return self.add(KEYWORDS[simple][0], {1: [], 2: [], 3: "$"})
        return self.extra(simple)

    def field(self, used):
        """Anything that the table allows at a used position."""
        r = self.r
        if used.free and r.random() < 0.3:
            return "$"
        if used.kind == "flag":
            return junk(r)
        if used.kind == "nums":
            return [self.num(r.randint(-10**6, 10**6)) for _ in range(r.randint(1, 3))]
        if used.kind in ("list", "list1"):
            return [self.any_of(used.target) for _ in range(r.randint(1 if used.kind == "list1" else 0, 4))]
        if used.kind == "ref" or used.kind in ("len", "val") and r.random() < 0.5:
            return self.any_of(used.target)
        return self.num(r.choice([0, -1000, 10**15, -10**15, r.randint(-10**9, 10**9)]))

    def extra(self, code):
        return self.add(self.r.choice(KEYWORDS[code]), {used.position: self.field(used) for used in USED[code]})

    def opaque(self):
        r = self.r
        number = self.fresh()
        if r.random() < 0.5:
            self.instances[number] = Instance([(r.choice(OTHER_KEYWORDS), [junk(r) for _ in range(r.randrange(5))])])
        else:
            words = OTHER_KEYWORDS + ["PLANE", "PROJECT", "CARTESIAN_POINT"]
            parts = [(r.choice(words), [junk(r) for _ in range(r.randrange(3))]) for _ in range(r.randint(1, 3))]
            self.instances[number] = Instance(parts, True)


def random_project(r):
    project = Project(r)
    steps = [project.step() for _ in range(r.choice([0, 1, 1, 1, 2, 2, 3, 4, 6]))]
    project.steps = [step.number for step in steps]
    project.is_nested = r.random() < 0.5
    elements = project.nested(steps) if project.is_nested else steps
    main = project.add("WORKPLAN", {2: elements, 3: project.channel() if r.random() < 0.1 else "$"})
    project.main = project.instances[main.number]
    project.head = project.add("PROJECT", {2: main}).number
    if r.random() < 0.4:
        for _ in range(r.randint(1, 8)):
            project.extra(r.randint(2, 60))
        project.opaque()
    if r.random() < 0.08:
        for code in range(2, 61):
            project.extra(code)
    if r.random() < 0.5:
        order = list(project.instances.items())
        r.shuffle(order)
        project.instances = dict(order)
    return project


# ---- Faults in what a project says. Each changes a project, or leaves it where it finds nothing to change. ----


def reached(project):
    """The numbers that the steps of the main workplan lead to by used positions."""
    found, todo = [], list(project.steps)
    while todo:
        number = todo.pop()
        if number in found or number not in project.instances:
            continue
        found.append(number)
        instance = project.instances[number]
        for used in USED[instance.code]:
            parameter = instance.get(used.position)
            items = parameter if isinstance(parameter, list) else [parameter]
            todo += [item.number for item in items if isinstance(item, Ref)]
    return found


def places(project, numbers, wanted):
    """The instances of these numbers with each used position for which `wanted` holds."""
    return [(project.instances[number], used) for number in numbers for used in USED[project.instances[number].code] if wanted(used)]


def pick(r, items):
    return r.choice(items) if items else None


def of_any_class(project, wanted):
    """A used position of what a step leads to, or of a further instance of any class."""
    r = project.r
    numbers = reached(project) if r.random() < 0.4 else [project.extra(r.randint(2, 60)).number]
    return pick(r, places(project, numbers, wanted))


def wrong_attribute(project):
    """BadAttribute"""
    r = project.r
    found = of_any_class(project, lambda used: used.kind != "flag")
    if found:
        instance, used = found
        anything = ["*", text(r), enumeration(r), binary(r), Typed("A", text(r)), Typed("A", Typed("B", "1.")), [text(r)], [[Ref(1)]], "1.E13"]
        near = [] if used.free else ["$"]
        near += {"ref": ["1.", [], [Ref(1)]], "list": [Ref(1), ["$"], [Ref(1), "1."]], "list1": [[], Ref(1)], "num": [Ref(1), ["1."]],
                  "nums": [[], ["1."] * 4, "1.", ["1.", "$"], ["1.", "2.", "-1.E13"]]}.get(used.kind, [["1."]])
        instance.put(used.position, r.choice(r.choice([anything, near])))


def without_project(project):
    """NoProject"""
    parts = project.instances[project.head].parts
    project.instances[project.head] = project.r.choice([Instance(parts, True), Instance([("PROJECT_", parts[0][1])])])


def two_projects(project):
    """ManyProjects"""
    for _ in range(project.r.randint(1, 2)):
        project.add("PROJECT", {2: Ref(project.r.choice(project.numbers_of({2}) + [1]))})


def lost_reference(project):
    """Unresolved"""
    r = project.r
    found = of_any_class(project, lambda used: used.kind in ("ref", "len", "val", "list", "list1"))
    if found:
        instance, used = found
        lost = Ref(project.fresh())
        now = instance.get(used.position)
        instance.put(used.position, now + [lost] if isinstance(now, list) else [lost] if used.kind in ("list", "list1") else lost)


def wrong_target(project):
    """WrongKind"""
    r = project.r
    found = of_any_class(project, lambda used: used.target)
    if found:
        instance, used = found
        codes = TARGETS[used.target]
        others = project.numbers_of(set(range(1, 62)) - codes)
        near = [code for code in (min(codes) - 1, max(codes) + 1) if code > 1]  # the classes beside the target
        other = project.extra(r.choice(near)) if r.random() < 0.5 or not others else Ref(r.choice(others))
        now = instance.get(used.position)
        instance.put(used.position, now + [other] if isinstance(now, list) else other)


# ---- Faults of the tree, each at its limit or past it. ----


def parts_in(instance):
    """The parameters of an instance that are executables in it."""
    if instance.code in (IF, WHILE):
        return [part for part in (instance.get(position) for position in ((3, 4) if instance.code == IF else (3,))) if isinstance(part, Ref)]
    elements = instance.get(2) if 2 <= instance.code <= 5 else []
    return [part for part in elements if isinstance(part, Ref)] if isinstance(elements, list) else []


def in_tree(project):
    """The numbers of the executables in the tree, each once, in preorder."""
    found, ahead = {}, [number for number, instance in project.instances.items() if instance is project.main]
    while ahead:
        number = ahead.pop()
        if number in project.instances and number not in found:
            found[number] = project.instances[number]
            ahead += [part.number for part in reversed(parts_in(found[number]))]
    return found


def put_in(project, *executables):
    """Puts executables into one of the tree's lists, or in place of a branch or a body."""
    r = project.r
    holders = [instance for instance in in_tree(project).values() if instance.code in (2, 3, 4, 5) and isinstance(instance.get(2), list)]
    branching = [instance for instance in in_tree(project).values() if instance.code in (IF, WHILE)]
    if branching and len(executables) == 1 and r.random() < 0.3:
        instance = r.choice(branching)
        instance.put(r.choice([3, 4]) if instance.code == IF else 3, executables[0])
    elif holders:
        elements = (r.choice(holders) if r.random() < 0.6 else holders[0]).get(2)
        at = r.randint(0, len(elements))
        elements[at:at] = executables


def another_kind(project):
    """No fault: one executable more"""
    put_in(project, project.leaf())


def shared(project):
    """Shared, or a cycle of executables"""
    known = list(in_tree(project))
    if known:
        put_in(project, Ref(project.r.choice(known)))


def wrapped_in(project, executable, levels):
    """An executable in so many others."""
    r = project.r
    condition = project.condition_of(1)
    for _ in range(levels):
        code = r.choice([2, 3, 4, 5, 6, 7])
        parameters = {IF: {2: condition, 3: executable, 4: "$"}, WHILE: {2: condition, 3: executable}}.get(code, {2: [executable], 3: "$"})
        executable = project.add(KEYWORDS[code][0], parameters)
    return executable


def too_deep_tree(project):
    """TreeTooDeep, or as deep as a tree may be"""
    r = project.r
    last = r.choice([project.leaf, lambda: project.add("WORKPLAN", {2: [], 3: "$"}), lambda: faulty_node(project)])()
    put_in(project, wrapped_in(project, last, MOST_NESTING + r.choice([-4, -3, -3, -2, -2, -2, -1, -1, 0, 5])))


def faulty_node(project):
    """An executable that has a fault wherever it stands, or none of its own."""
    r = project.r
    way = r.randrange(4)
    if way == 0:
        return Ref(r.choice(list(in_tree(project)) or [1]))
    if way == 1:
        return project.add("WORKPLAN", {2: [], 3: project.add("CHANNEL", {})})
    condition = project.add("NOT_EXPRESSION", {1: "$"})
    project.instances[condition.number].put(1, condition)
    return project.add("WHILE_STATEMENT", {2: condition, 3: project.leaf()})


def value_of_size(project, size):
    """A value of so many nodes, an odd number, of few instances."""
    r = project.r
    if size <= 1:
        return r.choice([project.num(1_000), project.variable()])
    half = (size - 1) // 2 | 1
    first = value_of_size(project, half)
    second = first if size - 1 - half == half else value_of_size(project, size - 1 - half)
    return project.add(r.choice(KEYWORDS[r.randint(26, 28)]), {1: first, 2: second})


def condition_of_size(project, size):
    """A condition of so many nodes."""
    r = project.r
    if size == 1:
        return project.add(r.choice(["AND_EXPRESSION", "OR_EXPRESSION"]), {1: []})
    way = r.randrange(4)
    if way == 0 and size % 2 == 1:
        first = (size - 1) // 2 | 1
        return project.add(KEYWORDS[r.randint(16, 21)][0], {1: value_of_size(project, first), 2: value_of_size(project, size - 1 - first)})
    if way == 1 and size > 2:
        half = (size - 1) // 2
        return project.add("XOR_EXPRESSION", {1: condition_of_size(project, half), 2: condition_of_size(project, size - 1 - half)})
    if way == 2:
        times = r.choice([1, 2, 7, size - 1])
        each = (size - 1) // times
        if each:
            rest = size - 1 - each * times
            conditions = [condition_of_size(project, each)] * times + ([condition_of_size(project, rest)] if rest else [])
            return project.add(r.choice(["AND_EXPRESSION", "OR_EXPRESSION"]), {1: conditions})
    return project.add("NOT_EXPRESSION", {1: condition_of_size(project, size - 1)})


def endless(project):
    """A condition that leads back to itself, or shares so much that it could as well."""
    r = project.r
    if r.random() < 0.4:  # doubled so many times
        value = project.num(1_000)
        for _ in range(r.choice([8, 9, 10, 30, 60])):
            value = project.add("!NC_SUM", {1: value, 2: value})
        return project.add("COMPARISON_LESS", {1: value, 2: project.value_of(1)})
    first = project.add("NOT_EXPRESSION", {1: "$"})
    last = first
    for _ in range(r.randrange(4)):
        other = project.condition_of(0)
        keyword, used = r.choice([("NOT_EXPRESSION", {1: last}), ("OR_EXPRESSION", {1: [last, other]}), ("XOR_EXPRESSION", {1: other, 2: last})])
        last = project.add(keyword, used)
    project.instances[first.number].put(1, last)
    return r.choice([first, last])


def with_expression(project, size):
    """An executable whose expression has so many nodes."""
    r = project.r
    if size % 2 == 1 and r.random() < 0.3:
        return project.add("ASSIGNMENT", {2: project.variable(), 3: value_of_size(project, size)})
    return conditional(project, condition_of_size(project, size))


def conditional(project, condition):
    """An if or a while with this condition."""
    if project.r.random() < 0.5:
        return project.add("IF_STATEMENT", {2: condition, 3: project.leaf(), 4: "$"})
    return project.add("WHILE_STATEMENT", {2: condition, 3: project.leaf()})


def too_big_expression(project):
    """ExprTooBig, or an expression as big as one may be"""
    r = project.r
    if r.random() < 0.3:
        put_in(project, conditional(project, endless(project)))
    else:
        put_in(project, with_expression(project, MOST_EXPRESSION + r.choice([-1, 0, 0, 1, 1, 2])))


def size_of_tree(project):
    """How many nodes the tree has with its expressions, as far as these are small; what is shared or endless counts once."""
    sizes = {}

    def size(parameter, level):
        if not isinstance(parameter, Ref):
            return 1
        if parameter.number not in sizes:
            instance, sizes[parameter.number] = project.instances.get(parameter.number), MOST_EXPRESSION
            if instance is None or level > 100:
                return MOST_EXPRESSION
            operands = [instance.get(used.position) for used in USED[instance.code]] if 16 <= instance.code <= 28 else []
            items = [item for operand in operands for item in (operand if isinstance(operand, list) else [operand])]
            sizes[parameter.number] = min(MOST_EXPRESSION, 1 + sum(size(item, level + 1) for item in items))
        return sizes[parameter.number]

    weight = 0
    for instance in in_tree(project).values():
        position = {IF: 2, WHILE: 2, ASSIGNMENT: 3}.get(instance.code)
        weight += 1 + (size(instance.get(position), 0) if position else 0)
    return weight


def too_many_nodes(project):
    """TooManyNodes, or as many as a tree may have"""
    r = project.r
    condition, assigned = condition_of_size(project, MOST_EXPRESSION), value_of_size(project, MOST_EXPRESSION - 1)
    variable, executables = project.variable(), []
    left = MOST_NODES - size_of_tree(project) + r.choice([-1, 0, 0, 1, 1, 2])
    while left >= MOST_EXPRESSION + 2:
        if r.random() < 0.5:
            executables.append(project.add("WHILE_STATEMENT", {2: condition, 3: project.add("SET_MARK", {})}))
            left -= MOST_EXPRESSION + 2
        else:
            executables.append(project.add("ASSIGNMENT", {2: variable, 3: assigned}))
            left -= MOST_EXPRESSION
    if left > 2:
        executables.append(project.add("WHILE_STATEMENT", {2: condition_of_size(project, left - 2), 3: project.add("SET_MARK", {})}))
    else:
        executables += [project.add("SET_MARK", {}) for _ in range(left)]
    if r.random() < 0.3:
        executables.insert(r.randint(0, len(executables)), faulty_node(project))
    put_in(project, *executables)


def too_many_channels(project):
    """TooManyChannels, or as many as there may be"""
    r = project.r
    known = {instance.get(3).number for instance in in_tree(project).values() if instance.code == WORKPLAN and isinstance(instance.get(3), Ref)}
    count = max(1, MOST_CHANNELS - len(known) + r.choice([-1, 0, 0, 1, 1, 2]))
    for _ in range(count):
        plan = project.add("WORKPLAN", {2: [project.leaf()] if r.random() < 0.3 else [], 3: project.add("CHANNEL", {})})
        put_in(project, plan)


def two_of_the_tree(project):
    """Two faults of the tree"""
    for fault in project.r.sample([shared, too_deep_tree, too_big_expression, too_many_channels], 2):
        fault(project)


def missing(project):
    """Missing"""
    r = project.r
    found = pick(r, places(project, reached(project), lambda used: used.free))
    if found:
        instance, used = found
        wrong = ["$", project.any_of(None)] if used.kind in ("ref", "len") else ["$"]
        instance.put(used.position, r.choice(wrong))


def lost_corner(project):
    """Missing, of a contour"""
    line = of_steps(project, {36})
    if line and isinstance(line.get(2), list):
        points = line.get(2)
        points.insert(project.r.randint(0, len(points)), project.any_of(None))


def of_steps(project, codes):
    return pick(project.r, [project.instances[number] for number in reached(project) if project.instances[number].code in codes])


def toolpath(project):
    """HasToolpath"""
    operation = of_steps(project, range(41, 49))
    if operation:
        operation.put(1, project.r.choice(["*", "'p'", Ref(1), [], "0."]))


def turned(project):
    """BadDirection"""
    r = project.r
    ways = [(0, 1, 0), (0, 0, -1), (0, 0, 0), (1, 0, 1), (-1, 0, 0), (1, 1, 0), (0, 0, 1), (1, 0, 0)]
    direction = project.direction(*r.choice(ways))
    course, placement = of_steps(project, {32}), of_steps(project, {38})
    if course and r.random() < 0.5:
        course.put(3, direction)
    elif placement:
        placement.put(r.choice([3, 4]), direction)
        if r.random() < 0.3:  # both, so that their order shows
            other = project.direction(*r.choice(ways)) if r.random() < 0.5 else project.any_of(None)
            placement.put(3, other)
            placement.put(4, direction if r.random() < 0.5 else project.any_of(None))


def mismatched(project):
    """Mismatch"""
    r = project.r
    step = of_steps(project, {WORKINGSTEP})
    if step:
        position, codes = r.choice([(3, {29, 30, 31}), (4, set(range(41, 49)))])
        step.put(position, Ref(r.choice(project.numbers_of(codes) or [1])))


def not_rectangle(project):
    """NotRectangle"""
    r = project.r
    way = r.randrange(9)
    pocket, contour, line = (of_steps(project, {code}) for code in (31, 35, 36))
    points = line and line.get(2)
    if way == 0 and pocket:
        pocket.put(11, project.any_of(None))
    elif way == 1 and contour:
        contour.put(2, project.any_of(None))
    elif isinstance(points, list) and points:
        at = r.randrange(len(points))
        if way == 2:
            points[at] = project.point(*(project.value(-90_000, 90_000) for _ in range(3)))
        elif way == 3:
            del points[at]
        elif way == 4:
            points.insert(at, r.choice(points))
        elif way == 5:
            points[at] = r.choice(points)
        elif way == 6:
            points.append(r.choice(points))
        elif way == 7:
            a, b, d = points[0], points[min(1, len(points) - 1)], points[min(3, len(points) - 1)]
            points[:] = r.choice([[a, b, a, d], [a, b, b, a], [a, a, b, b], [a, b, a, b]])  # there and back, or no width
        else:
            r.shuffle(points)


def with_number(project, value):
    """Puts a number, or a length that is so much, in place of one that a step leads to."""
    r = project.r
    found = pick(r, places(project, reached(project), lambda used: used.kind in ("num", "len", "nums")))
    if not found:
        return
    instance, used = found
    number = project.length(value) if used.kind == "len" else project.num(value)
    now = instance.get(used.position)
    if used.kind != "nums":
        instance.put(used.position, number)
    elif isinstance(now, list):
        while len(now) < 3:
            now.append("0.")
        now[r.randrange(3)] = number


def changed_number(project):
    """Any fault of a number, or none"""
    r = project.r
    with_number(project, r.choice([1, 2, 10, 999, 1000, 25_000, 10**8, -10**8, r.randint(-10**5, 10**6)]))


def not_positive(project):
    """NotPositive"""
    with_number(project, project.r.choice([0, 0, -1, -5_000]))


def out_of_range(project):
    """OutOfRange"""
    with_number(project, project.r.choice([10**8, -10**8, 10**8 + 1, -10**8 - 1, 10**15, -1]))


def far_point(project):
    """OutOfRange of a point, or a point just in range"""
    r = project.r
    point = of_steps(project, {39})
    if point and isinstance(point.get(2), list):
        numbers = (point.get(2) + ["0.", "0."])[:3]
        numbers[r.choice([0, 1, 2, 2])] = project.num(r.choice([10**8, -10**8, 10**8 + 1, -10**8 - 1]))
        point.put(2, numbers)


def far_contour(project):
    """OutOfRange of a contour's side, or one just in range"""
    r = project.r
    if project.contours:
        number, corners = r.choice(project.contours)
        side, far = max(corners)[0], 10**8 + r.choice([0, 1])
        project.instances[number].put(2, [project.point(far if x == side else x, y, 0) for x, y in corners])


def edge_of_allowance(project):
    """OutOfRange of a bottom allowance or an overlap, or one just in range"""
    r = project.r
    strategy = of_steps(project, {49, 50})
    if strategy and r.random() < 0.4:
        strategy.put(1, project.num(r.choice([-1, 0, 999, 1000])))
    elif project.allowances:
        number, position, depth = r.choice(project.allowances)
        project.instances[number].put(position, project.length(depth + r.choice([-1, 0, 1])))


def at_edge_of_blocks(project):
    """TooManyBlocks, or a path just below"""
    r = project.r
    if project.sides and r.random() < 0.7:  # one level of 3,999 rings, or one more
        number, profile, least = r.choice(project.sides)
        operation, profile = project.instances[number], project.instances[profile]
        operation.put(13, "$")
        operation.put(14, project.length(1))
        for position in (2, 3):
            profile.put(position, project.length(least + r.choice([7_996, 7_997, 7_998])))
        return
    milling = of_steps(project, {47, 48})
    if milling:
        milling.put(14, project.length(r.choice([1, 2, 5, 20])))
        milling.put(13, project.length(r.choice([1, 20_000, 40_000])))
    facing = of_steps(project, {45, 46})
    if facing:
        facing.put(13, project.length(r.choice([1, 2, 3, 10])))


def tool_too_big(project):
    """ToolTooBig"""
    milling, tool = of_steps(project, {47, 48}), of_steps(project, {58})
    if milling and project.r.random() < 0.5:
        milling.put(15, project.length(project.value(1, 60_000)))
    elif tool:
        tool.put(1, project.length(project.value(1, 90_000)))


def wrapped(parameter, levels, r):
    for _ in range(levels):
        parameter = Typed(r.choice(["A", "!B"]), parameter) if r.random() < 0.3 else [parameter]
    return parameter


def too_deep(project):
    """TooDeep, or a nesting just allowed"""
    r = project.r
    instance = project.instances[r.choice(list(project.instances))]
    keyword, parameters = r.choice(instance.parts)
    deep = wrapped(r.choice(["$", []]), r.choice([29, 30, 31, 31, 32, 40]), r)
    parameters.insert(r.randint(0, len(parameters)) if r.random() < 0.1 else len(parameters), deep)


SAID_FAULTS = [
    (3, wrong_attribute), (1, without_project), (1.5, two_projects), (3, lost_reference), (3, wrong_target), (1, another_kind), (3, missing),
    (2, toolpath), (2.5, turned), (4, mismatched), (4, not_rectangle), (3, changed_number), (4, not_positive), (3, out_of_range),
    (1.5, lost_corner), (2.5, far_point), (1, far_contour), (2, edge_of_allowance), (2, at_edge_of_blocks), (2, tool_too_big),
    (1.5, too_deep), (4, shared), (3, too_deep_tree), (4, too_big_expression), (0.7, too_many_nodes), (3, too_many_channels), (3, two_of_the_tree),
]


# ---- From a project to tokens. ----


def name(r, number):
    return "#" + "0" * r.choice([0, 0, 0, 0, 0, 0, 1, 12]) + str(number)


def tokens_of_parameter(r, parameter):
    if isinstance(parameter, Ref):
        return [name(r, parameter.number)]
    if isinstance(parameter, Typed):
        return [parameter.keyword, "("] + tokens_of_parameter(r, parameter.inside) + [")"]
    if isinstance(parameter, list):
        return tokens_of_list(r, parameter)
    return [parameter]


def tokens_of_list(r, parameters):
    tokens = ["("]
    for i, parameter in enumerate(parameters):
        tokens += ([","] if i else []) + tokens_of_parameter(r, parameter)
    return tokens + [")"]


def tokens_of_instance(r, number, instance):
    tokens = [name(r, number), "="] + (["("] if instance.is_complex else [])
    for keyword, parameters in instance.parts:
        tokens += [keyword] + tokens_of_list(r, parameters)
    return tokens + ([")"] if instance.is_complex else []) + [";"]


def header(r):
    """The tokens of a header: a plain one, or one with anything in it."""
    anything = r.random() < 0.3

    def one():
        return junk(r) if anything else "''"

    entries = [("FILE_DESCRIPTION", [one() for _ in range(2)]), ("FILE_NAME", [one() for _ in range(7)]),
               ("FILE_SCHEMA", [[text(r) for _ in range(r.randint(1, 3))]])]
    while r.random() < (0.3 if anything else 0.03):
        entries.append((r.choice(["FILE_POPULATION", "!OWN", "ENDSEC", "DATA", "FILE_SCHEMA"]), [junk(r) for _ in range(r.randint(1, 3))]))
    tokens = ["HEADER", ";"]
    for keyword, parameters in entries:
        tokens += [keyword] + tokens_of_list(r, parameters) + [";"]
    return tokens + ["ENDSEC", ";"]


def tokens_of(project):
    r = project.r
    tokens = ["ISO-10303-21", ";"] + header(r) + ["DATA", ";"]
    for number, instance in project.instances.items():
        tokens += tokens_of_instance(r, number, instance)
    return tokens + ["ENDSEC", ";", "END-ISO-10303-21", ";"]


# ---- Faults among the tokens. ----


def among(r, tokens):
    return r.randrange(len(tokens))


def bad_byte(r, tokens):
    """BadByte"""
    bad = ["a", "\x01", "?", ".5", "+", "-", "#", "!", "/", ".T", "'a\x02'", '"0G"', "/* \x1f */", "\x7f", "\xe9", "&", "!a", ".A-B.", "''\x00"]
    tokens.insert(among(r, tokens), r.choice(bad))


def bad_name(r, tokens):
    """BadName"""
    names = [i for i, token in enumerate(tokens) if token.startswith("#")]
    if names:
        tokens[r.choice(names)] = r.choice(["#0", "#2147483648", "#000", "#99999999999999999999", "#0002147483648"])


def open_string(r, tokens):
    """OpenString"""
    place = among(r, tokens) if r.random() < 0.5 else len(tokens) - r.randint(0, 5)
    tokens[place:] = [r.choice(["'", "'abc", '"', '"0A', "'it''", "'a\n"])] + (tokens[place:] if r.random() < 0.5 else [])


def open_comment(r, tokens):
    """OpenComment"""
    tokens.insert(among(r, tokens), r.choice(["/*", "/*/", "/* a", "/**"]))


def long_number(r, tokens):
    """NumberTooLong, or a number just short enough"""
    numbers = [i for i, token in enumerate(tokens) if token[0] in "+-0123456789"]
    if numbers:
        digits = "".join(r.choice("0123456789") for _ in range(r.choice([37, 38, 39, 50])))
        cut = r.randint(1, len(digits) - 1)
        tokens[r.choice(numbers)] = r.choice(["", "-"]) + r.choice([digits, digits[:cut] + "." + digits[cut:], digits[:cut] + ".E" + digits[cut:]])


def broken(r, tokens):
    """Syntax"""
    at, to = among(r, tokens), among(r, tokens)
    way = r.randrange(6)
    if way == 0:
        del tokens[at]
    elif way == 1:
        tokens.insert(at, tokens[at])
    elif way == 2:
        tokens[at], tokens[to] = tokens[to], tokens[at]
    elif way == 3:
        tokens.insert(at, r.choice(["(", ")", ",", ";", "=", "$", "*", "A", "A-5", "#1", "1.", "'x'", ".T.", '"0"', "DATA", "ENDSEC"]))
    elif way == 4:
        del tokens[at:]
    else:
        tokens[at] = r.choice(["(", ")", ",", ";", "=", "A-B", "!A", "ISO-10303-21"])


def odd_token(r, tokens):
    """Syntax or BadByte, since a form ends early"""
    odd = {"number": ["1.E", "1.E+", "1.E-", "1E5", "1.5.", "+-1", "1.E5.", "1.E-A", "5-3", "1..T."],
           "word": ["!A-5", "A-5", "!_", "_", "A.", "!A.B.", "A!B", "DATA", "!DATA"]}
    kind = r.choice(list(odd))
    begins = "+-0123456789" if kind == "number" else "ABCDEFGHIJKLMNOPQRSTUVWXYZ_!"
    places = [i for i, token in enumerate(tokens) if token[0] in begins]
    if places:
        tokens[r.choice(places)] = r.choice(odd[kind])


def odd_entry(r, tokens):
    """A further entry of the header that is right, or Syntax in one"""
    if "DATA" in tokens:
        at = max(0, tokens.index("DATA") - 2)
        odd = [["EXTRA", "(", ")"], ["ENDSEC", "(", ")"], ["ENDSEC", "(", "1", ")"], ["A-B", "(", "1", ")"], ["EXTRA"], ["EXTRA", "=", "1"],
               ["ENDSEC"], ["(", "1", ")"], ["!DATA", "(", "$", ",", ")"], ["EXTRA", "(", "$", ")"]]
        tokens[at:at] = r.choice(odd) + [";"]


def doubled_instance(r, tokens):
    """Duplicate"""
    names = [i for i, token in enumerate(tokens) if token.startswith("#") and tokens[i - 1] == ";"]
    if len(names) > 1:
        a, b = r.sample(names, 2)
        tokens[a] = tokens[b]


TOKEN_FAULTS = [(1.5, bad_byte), (1.5, bad_name), (1.5, open_string), (1.5, open_comment), (2, long_number), (4, broken), (2, odd_token),
                (1.5, odd_entry), (2, doubled_instance)]


# ---- From tokens to bytes. ----


def gap(r, is_wild):
    if not is_wild:
        return ""
    if r.random() < 0.6:
        return ""
    return r.choice([" ", "  ", "\t", "\r\n", "\n", "/**/", "/* ' \" */", " /***/ ", "/*\n#1=A();\n*/", "/*\xff*/", "/* / * */"])


def laid_out(r, tokens):
    """The bytes of these tokens, in lines, in one line, or with anything that may stand between."""
    layout = r.choice(["lines", "lines", "one line", "wild"])
    pieces = []
    for token in tokens:
        pieces += [token, gap(r, layout == "wild")]
        if token == ";" and layout == "lines":
            pieces.append("\n")
    return "".join(pieces).encode("latin-1")


def mutated(r, data):
    """One change of a byte, or of a few."""
    if not data:
        return data
    at = r.randrange(len(data))
    way = r.randrange(7)
    if way == 0:
        return data[:at] + bytes([data[at] ^ 1 << r.randrange(8)]) + data[at + 1:]
    if way == 1:
        return data[:at] + data[at + 1:]
    if way == 2:
        return data[:at + 1] + data[at:]
    if way == 3:
        return data[:at] + bytes([r.randrange(256)]) + data[at:]
    if way == 4:
        return data[:at]
    if way == 5:
        return data[:at] + r.choice([b"'", b'"', b"(", b")", b",", b";", b"$", b"#", b"/*", b"*/", b".", b"E", b"0", b"-", b"="]) + data[at:]
    to = min(len(data), at + r.randint(1, 40))
    return data[:at] + data[to:]


def many_instances(r):
    """About as many instances as a file may have."""
    count = MOST_INSTANCES + r.choice([-3, -2, -1, 0])  # with the two at the front
    lines = ["ISO-10303-21;HEADER;FILE_DESCRIPTION('','');FILE_NAME('','','','','','','');FILE_SCHEMA(('S'));ENDSEC;DATA;",
             "#1=PROJECT($,#2);#2=WORKPLAN($,());"]
    numbers = list(range(3, 3 + count))
    if r.random() < 0.5:
        numbers[-1] = 7
    lines += [f"#{number}=A();" for number in numbers]
    return ("".join(lines) + "ENDSEC;END-ISO-10303-21;").encode()


def filled_up(r, data):
    """A file of about as many bytes as one may have."""
    size = MOST_BYTES + r.choice([-1, 0, 1])
    cut = data.index(b";") + 1
    return data[:cut] + r.choice([b" ", b"\n"]) * (size - len(data)) + data[cut:]


def chosen(r, weighted):
    return r.choices([item for _, item in weighted], [weight for weight, _ in weighted])[0]


def random_file(r):
    """The bytes of a random project file, and the project that it began with: its steps, and whether these are nested."""
    if r.random() < 0.001:
        return many_instances(r), Project(r)
    project = random_project(r)
    for _ in range(r.choices([0, 1, 2, 3], [50, 30, 13, 7])[0]):
        chosen(r, SAID_FAULTS)(project)
    tokens = tokens_of(project)
    for _ in range(r.choices([0, 1, 2], [82, 13, 5])[0]):
        chosen(r, TOKEN_FAULTS)(r, tokens)
    data = laid_out(r, tokens)
    for _ in range(r.choices([0, 1, 2, 5], [90, 6, 2, 2])[0]):
        data = mutated(r, data)
    if r.random() < 0.008 and b";" in data:
        data = filled_up(r, data)
    return data, project
