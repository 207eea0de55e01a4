"""A second implementation of stepnc, after docs/FORMATS.md, to compare the program with.

It is a plain reading: whole lists, whole numbers and fractions, no cleverness. `answer` takes the words of a command and gives
status and standard output. bench/compare and bench/hostile use it.
"""

import re
from fractions import Fraction
from pathlib import Path

import big_case
import edits
import logs
import runs

FORMATS = Path(__file__).resolve().parent.parent / "docs" / "FORMATS.md"

MOST_BYTES = 16_777_216
MOST_NUMBER = 2_147_483_647
MOST_INSTANCES = 200_000
MOST_LEVELS = 32
MOST_DIGITS = 38
MOST_VALUE = 10**15
MOST_IN_DEFINITION = 10**8
MOST_BLOCKS = 20_000
MOST_ENTRIES = 2_000_000
MOST_NESTING = 64
MOST_NODES = 65_535
MOST_EXPRESSION = 1_000
MOST_CHANNELS = 8

DONE, BLOCKED, RUN_LIMIT, BAD_WORDS, PROJECT_REFUSED, SCRIPT_REFUSED, LOG_REFUSED, READ_FAULT = 0, 1, 2, 3, 4, 5, 6, 7
MOST_LOG_BYTES = 268_435_456


class Refused(Exception):
    """A refusal: its name and numbers."""

    def __init__(self, *said):
        super().__init__(*said)
        self.line = " ".join(["refused"] + [str(word) for word in said]) + "\n"


# ---- Tokens. A token is (kind, text, place); a Name has its number in place of its text. ----

GAP = re.compile(rb"[ \t\r\n]+")
FORMS = [
    ("Word", re.compile(rb"[A-Z_][A-Z0-9_-]*")),
    ("UserWord", re.compile(rb"![A-Z_][A-Z0-9_]*")),
    ("Name", re.compile(rb"#[0-9]+")),
    ("Real", re.compile(rb"[+-]?[0-9]+\.[0-9]*(?:E[+-]?[0-9]+)?")),
    ("Int", re.compile(rb"[+-]?[0-9]+")),
    ("Enumeration", re.compile(rb"\.[A-Z_][A-Z0-9_]*\.")),
]
# By the first byte, the kinds that may begin there, the longer form first.
BEGINS = {}
for byte in range(256):
    first = bytes([byte])
    BEGINS[byte] = [(kind, form) for kind, form in FORMS if {
        "Word": first in b"ABCDEFGHIJKLMNOPQRSTUVWXYZ_",
        "UserWord": first == b"!",
        "Name": first == b"#",
        "Real": first in b"+-0123456789",
        "Int": first in b"+-0123456789",
        "Enumeration": first == b".",
    }[kind]]

MARKS = {byte: bytes([byte]) for byte in b"(),;=$*"}
BLANKS = b" \t\r\n"

NOT_IN_TEXT = rb"\x00-\x08\x0b\x0c\x0e-\x1f"
TEXT_STOP = re.compile(rb"['" + NOT_IN_TEXT + rb"]")
COMMENT_STOP = re.compile(rb"\*/|[" + NOT_IN_TEXT + rb"]")
BINARY_STOP = re.compile(rb"[^0-9A-F]")


def text_end(data, opening):
    """The place behind the text that opens there."""
    at = opening + 1
    while True:
        stop = TEXT_STOP.search(data, at)
        if stop is None:
            raise Refused("OpenString", opening)
        if stop.group() != b"'":
            raise Refused("BadByte", stop.start())
        if data[stop.end():stop.end() + 1] != b"'":
            return stop.end()
        at = stop.end() + 1


def binary_end(data, opening):
    stop = BINARY_STOP.search(data, opening + 1)
    if stop is None:
        raise Refused("OpenString", opening)
    if stop.group() != b'"':
        raise Refused("BadByte", stop.start())
    return stop.end()


def comment_end(data, opening):
    stop = COMMENT_STOP.search(data, opening + 2)
    if stop is None:
        raise Refused("OpenComment", opening)
    if stop.group() != b"*/":
        raise Refused("BadByte", stop.start())
    return stop.end()


def name_number(text, place):
    digits = text[1:].lstrip(b"0")
    if not digits or len(digits) > 10 or int(digits) > MOST_NUMBER:
        raise Refused("BadName", place)
    return int(digits)


def one_token(data, at):
    """The token that begins at a place, and the place behind it."""
    if data[at] in MARKS:
        return ("mark", MARKS[data[at]], at), at + 1
    if data[at] == 39:
        end = text_end(data, at)
        return ("Text", data[at + 1:end - 1], at), end
    if data[at] == 34:
        end = binary_end(data, at)
        return ("Binary", data[at + 1:end - 1], at), end
    for kind, form in BEGINS[data[at]]:
        found = form.match(data, at)
        if found is None:
            continue
        text = found.group()
        if kind == "Name":
            return (kind, name_number(text, at), at), found.end()
        if kind in ("Int", "Real") and sum(48 <= byte <= 57 for byte in text) > MOST_DIGITS:
            raise Refused("NumberTooLong", at)
        return (kind, text, at), found.end()
    raise Refused("BadByte", at)


def tokens_of(data):
    tokens, at = [], 0
    while at < len(data):
        if data[at] in BLANKS:
            at = GAP.match(data, at).end()
        elif data.startswith(b"/*", at):
            at = comment_end(data, at)
        else:
            token, at = one_token(data, at)
            tokens.append(token)
    return tokens


# ---- Grammar. A parameter is (kind, value): of a list its parameters, of a typed one the one parameter in it. ----

VALUES = {"Int", "Real", "Text", "Enumeration", "Binary", "Name"}
END = ("end", b"", None)


class Grammar:
    """Reads the tokens of a file once from the left, and refuses at the first that does not go on."""

    def __init__(self, data):
        self.tokens = tokens_of(data)
        self.at = 0
        self.size = len(data)
        self.levels = 0

    def now(self):
        return self.tokens[self.at] if self.at < len(self.tokens) else END

    def take(self):
        token = self.now()
        self.at += 1
        return token

    def syntax(self):
        place = self.now()[2]
        return Refused("Syntax", self.size if place is None else place)

    def is_mark(self, mark):
        return self.now()[:2] == ("mark", mark)

    def mark(self, mark):
        if not self.is_mark(mark):
            raise self.syntax()
        self.take()

    def word(self, word):
        if self.now()[:2] != ("Word", word):
            raise self.syntax()
        self.take()

    def is_keyword(self):
        kind, text, _ = self.now()
        return kind == "UserWord" or kind == "Word" and b"-" not in text

    def keyword(self):
        if not self.is_keyword():
            raise self.syntax()
        return self.take()[1]

    def opening(self):
        if not self.is_mark(b"("):
            raise self.syntax()
        if self.levels == MOST_LEVELS:
            raise Refused("TooDeep", self.now()[2])
        self.levels += 1
        self.take()

    def closing(self):
        self.mark(b")")
        self.levels -= 1

    def parameter(self):
        kind, text, _ = self.now()
        if kind in VALUES:
            self.take()
            return (kind, text)
        if kind == "mark" and text in (b"$", b"*"):
            self.take()
            return (text.decode(), None)
        if self.is_mark(b"("):
            self.opening()
            return ("list", self.rest_or_none())
        self.keyword()
        self.opening()
        inside = self.parameter()
        self.closing()
        return ("typed", inside)

    def parameters(self):
        """One or more parameters and the closing parenthesis."""
        found = [self.parameter()]
        while self.is_mark(b","):
            self.take()
            found.append(self.parameter())
        self.closing()
        return found

    def rest_or_none(self):
        if self.is_mark(b")"):
            self.closing()
            return []
        return self.parameters()

    def part(self):
        keyword = self.keyword()
        self.opening()
        return (keyword, self.rest_or_none())

    def counted_entry(self, word, count):
        self.word(word)
        self.opening()
        for i in range(count):
            if i > 0:
                self.mark(b",")
            self.parameter()
        self.closing()
        self.mark(b";")

    def schema_entry(self):
        self.word(b"FILE_SCHEMA")
        self.opening()
        self.opening()
        while True:
            if self.now()[0] != "Text":
                raise self.syntax()
            self.take()
            if not self.is_mark(b","):
                break
            self.take()
        self.closing()
        self.closing()
        self.mark(b";")

    def header(self):
        self.word(b"HEADER")
        self.mark(b";")
        self.counted_entry(b"FILE_DESCRIPTION", 2)
        self.counted_entry(b"FILE_NAME", 7)
        self.schema_entry()
        while True:
            word = self.keyword()
            if word == b"ENDSEC" and self.is_mark(b";"):
                self.take()
                return
            self.opening()
            self.parameters()
            self.mark(b";")

    def instance(self):
        """The parts of an instance, and whether it is complex; its name was taken."""
        self.mark(b"=")
        if self.is_mark(b"("):
            self.take()
            parts = [self.part()]
            while not self.is_mark(b")"):
                parts.append(self.part())
            self.take()
            self.mark(b";")
            return (True, parts)
        parts = [self.part()]
        self.mark(b";")
        return (False, parts)

    def instances(self):
        found = {}
        while self.now()[0] == "Name":
            _, number, place = self.now()
            if len(found) == MOST_INSTANCES:
                raise Refused("TooMany", place)
            if number in found:
                raise Refused("Duplicate", number)
            self.take()
            found[number] = self.instance()
        return found

    def file(self):
        """The instances by number, in the order of the file."""
        self.word(b"ISO-10303-21")
        self.mark(b";")
        self.header()
        self.word(b"DATA")
        self.mark(b";")
        instances = self.instances()
        self.word(b"ENDSEC")
        self.mark(b";")
        self.word(b"END-ISO-10303-21")
        self.mark(b";")
        if self.now() is not END:
            raise self.syntax()
        return instances


# ---- Numbers. ----

NUMBER = re.compile(rb"([+-]?)([0-9]+)(?:\.([0-9]*)(?:E([+-]?[0-9]+))?)?")
FAR = 1000  # with at most 38 digits an exponent past this leaves 0 or is out of range, as all further ones


def thousandths(text):
    """The number in thousandths, or None where it is out of range."""
    sign, whole, behind, exponent = NUMBER.fullmatch(text).groups()
    behind = behind or b""
    power = max(-FAR, min(FAR, int(exponent or b"0")))
    size = Fraction(int(whole + behind), 10 ** len(behind)) * Fraction(10) ** power * 1000
    nearest = (size + Fraction(1, 2)).__floor__()
    if nearest > MOST_VALUE:
        return None
    return -nearest if sign == b"-" else nearest


# ---- Classes and used positions. ----

TABLE = """
1 PROJECT: 2 ref to Workplan
2 WORKPLAN: 2 list to Executable, 3 ref? to Channel
3 PARALLEL: 2 list1 to Executable
4 NON_SEQUENTIAL: 2 list1 to Executable
5 SELECTIVE: 2 list1 to Executable
6 IF_STATEMENT: 2 ref to Condition, 3 ref to Executable, 4 ref? to Executable
7 WHILE_STATEMENT: 2 ref to Condition, 3 ref to Executable
8 ASSIGNMENT: 2 ref to Variable, 3 val to Value
9 SET_MARK:
10 WAIT_FOR_MARK: 2 ref to Mark
11 MACHINING_WORKINGSTEP: 2 ref?, 3 ref to Feature, 4 ref to Operation
12 DISPLAY_MESSAGE OPTIONAL_STOP PROGRAM_STOP LOAD_TOOL UNLOAD_TOOL INDEX_TABLE INDEX_PALLET EXCHANGE_PALLET:
13 CHANNEL:
14 NC_VARIABLE: 2 num?
15 NC_CONSTANT: 2 num
16 COMPARISON_EQUAL: 1 val to Value, 2 val to Value
17 COMPARISON_NOT_EQUAL: 1 val to Value, 2 val to Value
18 COMPARISON_GREATER: 1 val to Value, 2 val to Value
19 COMPARISON_GREATER_EQUAL: 1 val to Value, 2 val to Value
20 COMPARISON_LESS: 1 val to Value, 2 val to Value
21 COMPARISON_LESS_EQUAL: 1 val to Value, 2 val to Value
22 AND_EXPRESSION: 1 list to Condition
23 OR_EXPRESSION: 1 list to Condition
24 XOR_EXPRESSION: 1 ref to Condition, 2 ref to Condition
25 NOT_EXPRESSION: 1 ref to Condition
26 !NC_SUM: 1 val to Value, 2 val to Value
27 !NC_DIFFERENCE: 1 val to Value, 2 val to Value
28 !NC_PRODUCT: 1 val to Value, 2 val to Value
29 ROUND_HOLE: 4 ref?, 5 ref?, 6 len?
30 PLANAR_FACE: 4 ref?, 5 ref?, 6 ref?, 7 ref?
31 CLOSED_POCKET: 4 ref?, 5 ref?, 11 ref?
32 LINEAR_PATH: 2 len?, 3 ref?
33 LINEAR_PROFILE: 2 len?
34 RECTANGULAR_CLOSED_PROFILE: 2 len?, 3 len?
35 GENERAL_CLOSED_PROFILE: 2 ref?
36 POLYLINE: 2 list
37 PLANE: 2 ref?
38 AXIS2_PLACEMENT_3D: 2 ref?, 3 ref?, 4 ref?
39 CARTESIAN_POINT: 2 nums
40 DIRECTION: 2 nums
41 DRILLING: 1 flag, 4 len?, 6 ref?, 7 ref?, 12 num?
42 CENTER_DRILLING: 1 flag, 4 len?, 6 ref?, 7 ref?, 12 num?
43 REAMING: 1 flag, 4 len?, 6 ref?, 7 ref?, 12 num?
44 BORING: 1 flag, 4 len?, 6 ref?, 7 ref?, 12 num?
45 PLANE_ROUGH_MILLING: 1 flag, 4 len?, 6 ref?, 7 ref?, 12 ref?, 13 len?, 14 len?
46 PLANE_FINISH_MILLING: 1 flag, 4 len?, 6 ref?, 7 ref?, 12 ref?, 13 len?, 14 len?
47 BOTTOM_AND_SIDE_ROUGH_MILLING: 1 flag, 4 len?, 6 ref?, 7 ref?, 13 len?, 14 len?, 15 len?, 16 len?
48 BOTTOM_AND_SIDE_FINISH_MILLING: 1 flag, 4 len?, 6 ref?, 7 ref?, 13 len?, 14 len?, 15 len?, 16 len?
49 BIDIRECTIONAL: 1 num?
50 UNIDIRECTIONAL: 1 num?
51 MILLING_TECHNOLOGY: 1 num?, 4 num?
52 MILLING_CUTTING_TOOL: 2 ref?
53 ENDMILL: 1 ref?
54 TAPERED_ENDMILL: 1 ref?
55 BALL_ENDMILL: 1 ref?
56 FACEMILL: 1 ref?
57 TWIST_DRILL: 1 ref?
58 MILLING_TOOL_DIMENSION: 1 len?
59 TOLERANCED_LENGTH_MEASURE: 1 num
60 NUMERIC_PARAMETER: 2 num
"""
OPAQUE = 61
PROJECT, WORKPLAN, WORKINGSTEP = 1, 2, 11
IF, WHILE, ASSIGNMENT, VARIABLE, CONSTANT = 6, 7, 8, 14, 15
HOLE, FACE, POCKET = 29, 30, 31
RECTANGLE, CONTOUR, POLYLINE = 34, 35, 36
TARGETS = {
    "Workplan": {2},
    "Executable": set(range(2, 13)),
    "Mark": {9},
    "Channel": {13},
    "Variable": {14},
    "Value": {14, 15, 26, 27, 28},
    "Condition": set(range(16, 26)),
    "Feature": {29, 30, 31},
    "Operation": set(range(41, 49)),
}


class Used:
    """A used position: where it stands, its kind, whether `$` may stand there, and its target or None."""

    def __init__(self, said):
        place, kind, *target = said.split()
        self.position = int(place)
        self.kind = kind.rstrip("?")
        self.free = kind.endswith("?")
        self.target = target[1] if target else None


def read_table():
    class_of, used, words = {}, {OPAQUE: []}, {}
    for line in TABLE.strip().splitlines():
        keywords, _, positions = line.partition(":")
        code, *names = keywords.split()
        words[int(code)] = names
        used[int(code)] = [Used(said) for said in positions.split(",") if said.strip()]
        for name in names:
            class_of[name.encode()] = int(code)
    return class_of, used, words


CLASS_OF, USED, KEYWORDS = read_table()


class Entity:
    """A typed instance: its number, class, and what stands at its used positions.

    A field is ("$",), ("present",), ("ref", n), ("value", thousandths), ("refs", [n ..]) or ("point", (x, y, z)).
    """

    def __init__(self, number, code, fields):
        self.number, self.code, self.fields = number, code, fields

    def references(self):
        """Position, target and number of each reference in a used position, in order."""
        for used in USED[self.code]:
            field = self.fields[used.position]
            numbers = [field[1]] if field[0] == "ref" else field[1] if field[0] == "refs" else []
            for number in numbers:
                yield used.position, used.target, number


def num_of(parameter):
    """The number of a parameter in thousandths, or None."""
    kind, value = parameter
    if kind == "typed":
        kind, value = value
    return thousandths(value) if kind in ("Int", "Real") else None


def field_of(used, parameter):
    """What stands at a used position, or None where it is of the wrong kind."""
    kind, value = parameter
    if used.kind == "flag":
        return ("$",) if kind == "$" else ("present",)
    if kind == "$":
        return ("$",) if used.free else None
    if used.kind in ("ref", "len", "val") and kind == "Name":
        return ("ref", value)
    if used.kind in ("num", "len", "val"):
        number = num_of(parameter)
        return None if number is None else ("value", number)
    if used.kind == "ref" or kind != "list":
        return None
    if used.kind == "nums":
        numbers = [num_of(item) for item in value]
        if not 1 <= len(numbers) <= 3 or None in numbers:
            return None
        return ("point", tuple(numbers + [0] * (3 - len(numbers))))
    if any(item[0] != "Name" for item in value) or used.kind == "list1" and not value:
        return None
    return ("refs", [item[1] for item in value])


def entity_of(number, instance):
    is_complex, parts = instance
    if is_complex:
        return Entity(number, OPAQUE, {})
    keyword, parameters = parts[0]
    code = CLASS_OF.get(keyword, OPAQUE)
    fields = {}
    for used in USED[code]:
        at = used.position - 1
        field = field_of(used, parameters[at] if at < len(parameters) else ("$", None))
        if field is None:
            raise Refused("BadAttribute", number, used.position)
        fields[used.position] = field
    return Entity(number, code, fields)


# ---- The project. ----


def main_workplan(store):
    """The main workplan of a project, after a look at the project's faults."""
    projects = [entity for entity in store.values() if entity.code == PROJECT]
    if not projects:
        raise Refused("NoProject")
    if len(projects) > 1:
        raise Refused("ManyProjects", projects[1].number)
    by_number = [store[number] for number in sorted(store)]
    for entity in by_number:
        for _, _, number in entity.references():
            if number not in store:
                raise Refused("Unresolved", entity.number, number)
    for entity in by_number:
        for position, target, number in entity.references():
            if target is not None and store[number].code not in TARGETS[target]:
                raise Refused("WrongKind", entity.number, position)
    return store[projects[0].fields[2][1]]


# ---- The tree of executables. ----


def parts_of(executable):
    """The numbers of the executables directly in one, in order; a branch that is `$` is none."""
    fields = executable.fields
    if executable.code in (IF, WHILE):
        return [fields[position][1] for position in (3, 4) if position in fields and fields[position] != ("$",)]
    return fields[2][1] if executable.code <= 5 else []


def expression_of(executable):
    """The field of the condition or value that an executable works out, or None."""
    return executable.fields[3 if executable.code == ASSIGNMENT else 2] if executable.code in (IF, WHILE, ASSIGNMENT) else None


def channel_of(executable):
    """The channel that a workplan names, or None."""
    field = executable.fields[3] if executable.code == WORKPLAN else ("$",)
    return None if field == ("$",) else field[1]


def operands_of(entity):
    """The fields of an operator's operands; a variable or a constant has none."""
    if entity.code in (VARIABLE, CONSTANT):
        return []
    return [operand for field in entity.fields.values() for operand in ([("ref", n) for n in field[1]] if field[0] == "refs" else [field])]


def expression_nodes(store, field):
    """How many nodes an expression has with each reference written out, or one more than it may have where it has too many."""
    counted, ahead = 0, [field]
    while ahead:
        if counted + len(ahead) > MOST_EXPRESSION:  # each of those ahead is one at least, so this ends where they lead back too
            return MOST_EXPRESSION + 1
        kind, value = ahead.pop()
        counted += 1
        if kind == "ref":
            ahead += operands_of(store[value])
    return counted


class Tree:
    """The executables that a main workplan leads to, in preorder; raises the fault of the first that has one."""

    def __init__(self, store, main):
        self.store, self.main = store, main
        self.numbers, self.weight, self.channels = {}, 0, {}
        ahead = [(main.number, 1)]
        while ahead:
            number, nesting = ahead.pop()
            executable = store[number]
            self.look(executable, nesting)
            self.numbers[number] = executable.code
            ahead += [(part, nesting + 1) for part in reversed(parts_of(executable))]

    def look(self, executable, nesting):
        """Counts an executable, after a look at its faults in their order."""
        number, expression, channel = executable.number, expression_of(executable), channel_of(executable)
        if number in self.numbers:
            raise Refused("Shared", number)
        if nesting > MOST_NESTING:
            raise Refused("TreeTooDeep", number)
        nodes = expression_nodes(self.store, expression) if expression else 0
        self.weight += 1 + min(nodes, MOST_EXPRESSION)
        if self.weight > MOST_NODES:
            raise Refused("TooManyNodes")
        if nodes > MOST_EXPRESSION:
            raise Refused("ExprTooBig", number)
        if channel is not None:
            self.channels.setdefault(channel, len(self.channels))
            if len(self.channels) > MOST_CHANNELS:
                raise Refused("TooManyChannels")

    def steps(self):
        """The numbers of the workingsteps, in preorder."""
        return [number for number, code in self.numbers.items() if code == WORKINGSTEP]

    def root(self):
        """The tree as a run goes through it."""
        return runs.nodes_of(self.store, self.main, parts_of, channel_of, self.channels)


# ---- The definition of a workingstep. ----


class Fault(Exception):
    """A fault of a definition: its kind, 1 to 9, and its name and numbers."""

    KINDS = ["Missing", "HasToolpath", "BadDirection", "Mismatch", "NotRectangle", "NotPositive", "OutOfRange", "ToolTooBig",
             "TooManyBlocks"]

    def __init__(self, name, *numbers):
        super().__init__(name, *numbers)
        self.kind, self.said = self.KINDS.index(name) + 1, (name, *numbers)


class Lookup:
    """Walks from a workingstep to all that its definition needs, and notes every fault in the order of the walk.

    Missing ends the walk, since it comes before all other kinds.
    """

    def __init__(self, store, step):
        self.store = store
        self.step = step
        self.feature = store[step.fields[3][1]]
        self.operation = store[step.fields[4][1]]
        self.faults = []
        self.found = {}

    def note(self, name, *numbers):
        self.faults.append(Fault(name, *numbers))

    def entity(self, at, position, classes=None):
        """The entity that a position refers to; it has to be of one of these classes."""
        field = at.fields[position]
        if field[0] != "ref" or classes and self.store[field[1]].code not in classes:
            raise Fault("Missing", at.number, position)
        return self.store[field[1]]

    def number(self, at, position):
        field = at.fields[position]
        if field[0] == "value":
            return field[1]
        measure = self.entity(at, position, (59, 60))
        return measure.fields[1 if measure.code == 59 else 2][1]

    def ranged(self, number, at, position):
        if abs(number) > MOST_IN_DEFINITION:
            self.note("OutOfRange", at.number, position)

    def positive(self, name, at, position):
        """A number that has to be above 0 and in range."""
        number = self.number(at, position)
        if number <= 0:
            self.note("NotPositive", at.number, position)
        self.ranged(number, at, position)
        self.found[name] = number

    def not_negative(self, name, at, position):
        """A number or `$`, which stays None; it may not be below 0."""
        self.found[name] = None
        if at.fields[position] != ("$",):
            number = self.found[name] = self.number(at, position)
            if not 0 <= number <= MOST_IN_DEFINITION:
                self.note("OutOfRange", at.number, position)

    def optional_positive(self, name, at, position):
        self.found[name] = None
        if at.fields[position] != ("$",):
            self.positive(name, at, position)

    def placement(self, at, position):
        """The point of a placement."""
        placement = self.entity(at, position, (38,))
        point = self.entity(placement, 2, (39,))
        for along, place in ((2, 3), (0, 4)):
            if placement.fields[place] == ("$",):
                continue
            direction = self.entity(placement, place, (40,))
            axis = direction.fields[2][1]
            others = [axis[i] for i in range(3) if i != along]
            if axis[along] <= 0 or others != [0, 0]:
                self.note("BadDirection", direction.number)
        return point

    def plane(self, at, position):
        return self.placement(self.entity(at, position, (37,)), 2)

    def heights(self):
        step, feature = self.step, self.feature
        point = self.plane(step, 2)
        self.found["sec"] = point.fields[2][1][2]
        self.ranged(self.found["sec"], point, 2)
        point = self.placement(feature, 4)
        x, y, z = self.found["origin"] = point.fields[2][1]
        self.ranged(max(abs(x), abs(y), abs(z)), point, 2)
        point = self.plane(feature, 5)
        depth = self.found["depth"] = -point.fields[2][1][2]
        if depth <= 0:
            self.note("NotPositive", feature.number, 5)
        self.ranged(depth, point, 2)

    def face(self):
        course = self.entity(self.feature, 6, (32,))
        self.positive("length", course, 2)
        direction = self.entity(course, 3, (40,))
        x, y, z = direction.fields[2][1]
        if z != 0 or (x != 0) == (y != 0):
            self.note("BadDirection", direction.number)
        self.found["course"] = (x, y)
        self.positive("width", self.entity(self.feature, 7, (33,)), 2)

    def contour(self, profile):
        line = self.entity(profile, 2)
        if line.code != POLYLINE:
            self.note("NotRectangle", line.number)
            return
        corners = []
        for number in line.fields[2][1]:
            point = self.store[number]
            if point.code != 39:
                raise Fault("Missing", line.number, 2)
            corner = point.fields[2][1][:2]
            self.ranged(max(abs(corner[0]), abs(corner[1])), point, 2)
            corners.append(corner)
        if not is_rectangle(corners):
            self.note("NotRectangle", line.number)
        self.found["corners"] = corners

    def pocket(self):
        profile = self.entity(self.feature, 11)
        self.found["profile"] = profile.code
        if profile.code == RECTANGLE:
            self.positive("length", profile, 2)
            self.positive("width", profile, 3)
        elif profile.code == CONTOUR:
            self.contour(profile)
        else:
            self.note("NotRectangle", profile.number)

    def tooling(self):
        operation = self.operation
        if operation.fields[1] != ("$",):
            self.note("HasToolpath", operation.number)
        self.not_negative("retract", operation, 4)
        self.found["tool"] = self.entity(operation, 6, (52,))
        technology = self.entity(operation, 7, (51,))
        self.positive("feed", technology, 1)
        spindle = self.found["spindle"] = self.number(technology, 4)
        self.ranged(spindle, technology, 4)

    def diameter(self):
        body = self.entity(self.found["tool"], 2, range(53, 58))
        self.positive("diameter", self.entity(body, 1, (58,)), 1)

    def bottom_allowance(self, position):
        operation = self.operation
        self.not_negative("bottom allowance", operation, position)
        if (self.found["bottom allowance"] or 0) >= self.found["depth"]:
            self.note("OutOfRange", operation.number, position)

    def plane_milling(self):
        operation = self.operation
        self.found["both"], self.found["overlap"] = True, 0
        if operation.fields[12] != ("$",):
            strategy = self.entity(operation, 12, (49, 50))
            self.found["both"] = strategy.code == 49
            if strategy.fields[1] != ("$",):
                overlap = self.found["overlap"] = self.number(strategy, 1)
                if not 0 <= overlap <= 999:
                    self.note("OutOfRange", strategy.number, 1)
        self.optional_positive("axial", operation, 13)
        self.bottom_allowance(14)

    def pocket_milling(self):
        operation = self.operation
        self.optional_positive("axial", operation, 13)
        self.optional_positive("radial", operation, 14)
        self.not_negative("side allowance", operation, 15)
        self.bottom_allowance(16)

    def walk(self):
        self.heights()
        if self.feature.code == HOLE:
            self.positive("hole", self.feature, 6)
        elif self.feature.code == FACE:
            self.face()
        else:
            self.pocket()
        self.tooling()
        if self.operation.code <= 44:
            self.not_negative("dwell", self.operation, 12)
        else:
            self.diameter()
            if self.operation.code <= 46:
                self.plane_milling()
            else:
                self.pocket_milling()
        if {29: 0, 30: 1, 31: 2}[self.feature.code] != {41: 0, 42: 0, 43: 0, 44: 0, 45: 1, 46: 1, 47: 2, 48: 2}[self.operation.code]:
            self.note("Mismatch", self.operation.number, self.feature.number)


def is_rectangle(corners):
    if len(corners) == 5 and corners[4] == corners[0]:
        corners = corners[:4]
    if len(corners) != 4:
        return False
    ways = []
    for (x, y), (to_x, to_y) in zip(corners, corners[1:] + corners[:1]):
        if (x == to_x) == (y == to_y):
            return False
        ways.append("x" if y == to_y else "y")
    return ways in (["x", "y", "x", "y"], ["y", "x", "y", "x"])


def definition(store, number):
    """All that was found for the path of a workingstep; raises its first fault."""
    lookup = Lookup(store, store[number])
    lookup.walk()
    if lookup.faults:
        raise min(lookup.faults, key=lambda fault: fault.kind)  # the first in the walk of the least kind
    found = lookup.found
    found["feature"] = lookup.feature.code
    if found["feature"] == POCKET:
        inset(found)
    found["blocks"] = count_blocks(found)
    if found["blocks"] > MOST_BLOCKS:
        raise Fault("TooManyBlocks", number, found["blocks"])
    return found


# ---- Paths. ----


def inset(found):
    """The inset rectangle of a pocket, and the distance between its rings."""
    x, y, _ = found["origin"]
    if found["profile"] == RECTANGLE:
        left, low = x - found["length"] // 2, y - found["width"] // 2
        right, high = left + found["length"], low + found["width"]
    else:
        left, right = (x + way(corner[0] for corner in found["corners"]) for way in (min, max))
        low, high = (y + way(corner[1] for corner in found["corners"]) for way in (min, max))
    by = (found["diameter"] + 1) // 2 + (found["side allowance"] or 0)
    found["rectangle"] = left + by, low + by, right - by, high - by
    lesser = min(right - left, high - low) - 2 * by
    if lesser < 0:
        raise Fault("ToolTooBig", found["tool"].number)
    if found["radial"] is None:
        found["radial"] = max(1, found["diameter"] // 2)
    found["last ring"] = lesser // (2 * found["radial"])


def height_of_bottom(found):
    return found["origin"][2] - found["depth"] + (found.get("bottom allowance") or 0)


def row_step(found):
    return max(1, found["diameter"] * (1000 - found["overlap"]) // 1000)


def count_blocks(found):
    """How many blocks the path has, without making it."""
    if found["feature"] == HOLE:
        return 7 if found["dwell"] else 6
    axial = found["axial"] or found["depth"]
    levels = -((height_of_bottom(found) - found["origin"][2]) // axial)
    if found["feature"] == FACE:
        rows = -(-found["width"] // row_step(found)) + 1
        return 3 + levels * (2 + 2 * rows)
    return 3 + levels * (2 + 5 * (found["last ring"] + 1))


def levels_of(found):
    bottom, top = height_of_bottom(found), found["origin"][2]
    axial = found["axial"] or found["depth"]
    levels, z = [], top - axial
    while z > bottom:
        levels.append(z)
        z -= axial
    return levels + [bottom]


def course_of_level(found):
    """The points of one level of a face or pocket, in the order in which they are fed to."""
    if found["feature"] == POCKET:
        left, low, right, high = found["rectangle"]
        points = []
        for ring in range(found["last ring"], -1, -1):
            by = ring * found["radial"]
            corner = left + by, low + by
            points += [corner, (right - by, low + by), (right - by, high - by), (left + by, high - by), corner]
        return points
    x, y, _ = found["origin"]
    ux, uy = ((way > 0) - (way < 0) for way in found["course"])
    offsets = list(range(0, found["width"], row_step(found))) + [found["width"]]
    points = []
    for row, offset in enumerate(offsets):
        begin = (x, y + offset) if ux else (x + offset, y)
        end = begin[0] + ux * found["length"], begin[1] + uy * found["length"]
        points += [end, begin] if found["both"] and row % 2 == 1 else [begin, end]
    return points


def path(found):
    """The blocks of a path, as texts."""
    feed, sec = found["feed"], found["sec"]
    x, y, z = found["origin"]
    ret = sec if found["retract"] is None else z + found["retract"]
    take = f"T {found['tool'].number} {found['spindle']}"
    if found["feature"] == HOLE:
        dwell = [f"W {found['dwell']}"] if found["dwell"] else []
        down = [f"R {x} {y} {sec}", f"R {x} {y} {ret}", f"F {x} {y} {height_of_bottom(found)} {feed}"]
        return [take] + down + dwell + [f"R {x} {y} {ret}", f"R {x} {y} {sec}"]
    points = course_of_level(found)
    (first_x, first_y), (last_x, last_y) = points[0], points[-1]
    blocks = [take, f"R {first_x} {first_y} {sec}"]
    for level in levels_of(found):
        blocks.append(f"R {first_x} {first_y} {ret}")
        blocks += [f"F {at_x} {at_y} {level} {feed}" for at_x, at_y in points]
        blocks.append(f"R {last_x} {last_y} {ret}")
    return blocks + [f"R {last_x} {last_y} {sec}"]


# ---- Commands. ----


def accepted(data):
    """The tree of a project, and its workingsteps in preorder, each with what its path needs; raises the refusal of the file."""
    if len(data) > MOST_BYTES:
        raise Refused("TooLong")
    instances = Grammar(data).file()
    store = {number: entity_of(number, instance) for number, instance in instances.items()}
    tree = Tree(store, main_workplan(store))
    defined = {}
    for number in sorted(tree.steps()):
        try:
            defined[number] = definition(store, number)
        except Fault as fault:
            raise Refused("Definition", number, *fault.said) from None
    return tree, {number: defined[number] for number in tree.steps()}


SCHEDULE = re.compile(rb"[0-7 \t\r\n]*")


def channels_of(data):
    """The channels that a schedule gives a turn each; raises its refusal."""
    if len(data) > MOST_BYTES:
        raise Refused("TooLong")
    place = SCHEDULE.match(data).end()
    if place < len(data):
        raise Refused("Schedule", place)
    return [byte - 48 for byte in data if byte >= 48]


ENDINGS = {runs.DONE: (DONE, "done"), runs.BLOCKED: (BLOCKED, "blocked"), runs.RUN_LIMIT: (RUN_LIMIT, "limit")}


def script_of(data):
    """The edits of a script; raises its refusal."""
    def typed(i, number, instance):
        try:
            return entity_of(number, instance)
        except Refused as refusal:
            raise Refused("Attribute", i, *refusal.args[1:]) from None

    if len(data) > MOST_BYTES:
        raise Refused("TooLong")
    return edits.script_of(Grammar(data), Refused, typed)


def kind_of_fault(store, number):
    """The kind of a definition's fault, 1 to 9, or None."""
    try:
        definition(store, number)
    except Fault as fault:
        return fault.kind
    return None


def revisions_of(tree, script):
    return edits.Revisions(tree.store, tree.steps(), script, TARGETS, kind_of_fault)


def run(tree, steps, script, schedule, limit):
    """Status and log of a run under a script of edits and a schedule of channels."""
    entries, ending = runs.replay(
        tree.store, tree.root(), lambda store, number: path(definition(store, number)), schedule, limit, revisions_of(tree, script)
    )
    status, word = ENDINGS[ending]
    return status, "".join(line + "\n" for line in ["STEPNC-LOG 1"] + entries + [f"end {word} {len(entries)}"])


def check(project, words, read):
    """Status and text of a check: the script is read once the project is accepted, and the log once the script is."""
    script, log = (b"" if word == "-" and place == 2 else read(word) for place, word in enumerate(words[2:4], 2))
    if script is None:
        return READ_FAULT, b""
    try:
        edits_of_script = script_of(script)
    except Refused as refusal:
        return SCRIPT_REFUSED, refusal.line.encode()
    if log is None:
        return READ_FAULT, b""
    try:
        if len(log) > MOST_LOG_BYTES:
            raise Refused("TooLong")
        entries, word = logs.read(log, Refused)
    except Refused as refusal:
        return LOG_REFUSED, refusal.line.encode()
    said = judged(*project, edits_of_script, entries, word)
    return (DONE if said.startswith("legal") else LOG_REFUSED), (said + "\n").encode()


def judged(tree, steps, script, entries, word):
    """What a check says of a log that was read."""
    run_of = runs.Run(tree.store, tree.root(), lambda store, number: path(definition(store, number)), None, revisions_of(tree, script))
    return logs.judge(run_of, entries, word)


def big(steps, start):
    """The line of counts of a large case: its project, run under its script with no schedule, up to the greatest log."""
    project, script = (text.encode() for text in big_case.texts(steps, start))
    tree, _ = accepted(project)
    try:
        revisions = revisions_of(tree, script_of(script))
    except Refused as refusal:
        return SCRIPT_REFUSED, refusal.line.encode()
    entries, ending = runs.replay(
        tree.store, tree.root(), lambda store, number: path(definition(store, number)), [], MOST_ENTRIES, revisions
    )
    letters = [entry.split() for entry in entries]
    blocks, taken, refused = (
        sum(test(words) for words in letters)
        for test in (lambda w: w[0] == "B", lambda w: w[0] == "X" and w[2] == "ok", lambda w: w[0] == "X" and w[2] == "no")
    )
    word = ENDINGS[ending][1]
    return DONE, f"big {steps} {start} {word} entries {len(entries)} blocks {blocks} accepted {taken} refused {refused}\n".encode()


NUMBER_WORD = re.compile(r"[1-9][0-9]*")


def is_limit(word):
    return bool(NUMBER_WORD.fullmatch(word)) and len(word) <= 7 and int(word) <= MOST_ENTRIES


def is_step_count(word):
    return bool(NUMBER_WORD.fullmatch(word)) and len(word) <= 7 and int(word) <= 1_000


def is_start(word):
    return word == "0" or bool(NUMBER_WORD.fullmatch(word)) and len(word) <= 7


def is_step_number(word):
    return bool(NUMBER_WORD.fullmatch(word)) and len(word) <= 10 and int(word) <= MOST_NUMBER


def is_file_name(word):
    return word != ""


LINES = [
    [lambda word: word == "replay", is_file_name, is_file_name, is_file_name, is_limit],
    [lambda word: word == "path", is_file_name, is_step_number],
    [lambda word: word == "check", is_file_name, is_file_name, is_file_name],
    [lambda word: word == "big", is_step_count, is_start],
    [lambda word: word == "--help"],
    [lambda word: word == "--version"],
]


def bad_place(words):
    """The place at which the words are no line of the table, or None."""
    if any("\udc80" <= letter <= "\udcff" for word in words for letter in word):
        return 0
    for place in range(len(words)):
        front = words[:place + 1]
        if not any(len(front) <= len(line) and all(fits(word) for fits, word in zip(line, front)) for line in LINES):
            return place
    if not any(len(words) == len(line) and all(fits(word) for fits, word in zip(line, words)) for line in LINES):
        return len(words)
    return None


def text_in_formats(command):
    """The block of lines that docs/FORMATS.md gives for --help or --version."""
    page = FORMATS.read_text()
    return re.search(rf"^`{command}` writes.*?:\n\n```\n(.*?)```", page, re.S | re.M).group(1)


def replay(project, words, read):
    """Status and log of a run; the script is read once the project is accepted, and the schedule once the script is."""
    found = []
    for word, meaning in ((words[2], script_of), (words[3], channels_of)):
        data = b"" if word == "-" else read(word)
        if data is None:
            return READ_FAULT, b""
        try:
            found.append(meaning(data))
        except Refused as refusal:
            return SCRIPT_REFUSED, refusal.line.encode()
    status, text = run(*project, *found, int(words[4]))
    return status, text.encode()


def answer(words, read):
    """Status and standard output for the words behind the program's name; `read` gives a file's bytes, or None."""
    place = bad_place(words)
    if place is not None:
        return BAD_WORDS, Refused("BadWords", place).line.encode()
    if words[0] in ("--help", "--version"):
        return DONE, text_in_formats(words[0]).encode()
    if words[0] == "big":
        try:
            return big(int(words[1]), int(words[2]))
        except Refused as refusal:
            return PROJECT_REFUSED, refusal.line.encode()
    data = read(words[1])
    if data is None:
        return READ_FAULT, b""
    try:
        tree, steps = accepted(data)
        if words[0] == "replay":
            return replay((tree, steps), words, read)
        if words[0] == "check":
            return check((tree, steps), words, read)
        if int(words[2]) not in steps:
            raise Refused("NoStep", int(words[2]))
        return DONE, "".join(block + "\n" for block in path(steps[int(words[2])])).encode()
    except Refused as refusal:
        return PROJECT_REFUSED, refusal.line.encode()
