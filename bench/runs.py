"""Runs of a tree of executables, for the second implementation: whose turn it is, what it does, and how the run ends.

It follows docs/FORMATS.md (The run, The schedule). Each executable in which a run stands has a frame of its own, which knows how far it has come; a
frame is left for good when all in it has run. `trace_check.py` says the same once more in whole lists, and bench/compare --self-test compares both.
"""

import sys

sys.setrecursionlimit(20_000)  # a condition may be 1,000 deep

DONE, BLOCKED, RUN_LIMIT = 0, 1, 2
MOST_VALUE = 10**15
WORKPLAN, PARALLEL, NON_SEQUENTIAL, SELECTIVE, IF, WHILE, ASSIGNMENT, SET, WAIT, STEP, NOTE = range(2, 13)
VARIABLE, CONSTANT = 14, 15
SUM, DIFFERENCE, PRODUCT = 26, 27, 28
MOST_PASSED = 200  # branches of a parallel that are over are taken out of its list when so many are passed by


# ---- Values and conditions. ----


def clamped(value):
    return max(-MOST_VALUE, min(MOST_VALUE, value))


def product(a, b):
    """The product of two numbers of thousandths, truncated towards zero."""
    size = abs(a * b) // 1000
    return size if (a < 0) == (b < 0) else -size


COMPARES = {
    16: lambda a, b: a == b,
    17: lambda a, b: a != b,
    18: lambda a, b: a > b,
    19: lambda a, b: a >= b,
    20: lambda a, b: a < b,
    21: lambda a, b: a <= b,
}


def opening_value(entity):
    """The value with which a variable begins, in thousandths."""
    field = entity.fields[2]
    return field[1] if field[0] == "value" else 0


class Worth:
    """What values and conditions are worth with these variables. What is worked out is kept in `known`, until a variable changes."""

    def __init__(self, store, variables):
        self.store, self.variables, self.known = store, variables, {}

    def value(self, field):
        kind, said = field
        if kind == "value":
            return said
        if said not in self.known:
            self.known[said] = self.value_of(self.store[said])
        return self.known[said]

    def value_of(self, entity):
        if entity.code == VARIABLE:
            return self.variables.get(entity.number, opening_value(entity))
        if entity.code == CONSTANT:
            return entity.fields[2][1]
        a, b = self.value(entity.fields[1]), self.value(entity.fields[2])
        return clamped({SUM: a + b, DIFFERENCE: a - b, PRODUCT: product(a, b)}[entity.code])

    def holds(self, number):
        if number not in self.known:
            self.known[number] = self.condition_of(self.store[number])
        return self.known[number]

    def condition_of(self, entity):
        code, fields = entity.code, entity.fields
        if code in COMPARES:
            return COMPARES[code](self.value(fields[1]), self.value(fields[2]))
        if code == 22:
            return all([self.holds(number) for number in fields[1][1]])
        if code == 23:
            return any([self.holds(number) for number in fields[1][1]])
        if code == 24:
            return self.holds(fields[1][1]) != self.holds(fields[2][1])
        return not self.holds(fields[1][1])


# ---- The tree. ----


class Node:
    """An executable of the tree: its number, class, parts and channel, and the channels of all in it as bits. `filled` are the parts in which there is
    anything to run; an empty workplan, and a workplan or parallel of such ones alone, never makes an entry."""

    def __init__(self, entity, channel):
        self.entity, self.number, self.code, self.channel = entity, entity.number, entity.code, channel
        self.parts, self.filled, self.bits = [], [], 1 << channel

    def is_empty(self):
        return self.code in (WORKPLAN, PARALLEL) and not self.filled


def nodes_of(store, main, parts_of, channel_of, channels):
    """The tree of a main workplan; `channels` numbers the channels by their instances. An if has its two branches, the second perhaps None."""

    def node_of(number, channel):
        entity = store[number]
        named = channel_of(entity)
        node = Node(entity, channel if named is None else channels[named])
        node.parts = [node_of(part, node.channel) for part in parts_of(entity)]
        if node.code == IF and len(node.parts) == 1:
            node.parts.append(None)
        node.filled = [part for part in node.parts if part and not part.is_empty()]
        for part in node.filled:
            node.bits |= part.bits
        return node

    return node_of(main.number, 0)


def channels_of(node):
    """How many channels a tree has: channel 0, and those that its workplans name."""
    return max([node.channel + 1] + [channels_of(part) for part in node.parts if part])


# ---- Frames: how far a run has come in an executable. ----


class Frame:
    """The present turn of an executable. `first` finds the first frame in it that can make an entry for a channel; `is_over` where all has run."""

    def __init__(self, run, node, above):
        self.run, self.node, self.above, self.is_over = run, node, above, False

    def leave(self):
        """All of this executable has run."""
        self.is_over = True
        if self.above is not None:
            self.above.part_is_over()

    def first(self, channel):
        return self if self.node.channel == channel and self.is_enabled() else None

    def fronts(self):
        """The frames in which the run can go on, enabled or not: this one, or those of what runs in it."""
        return self.inside.fronts() if getattr(self, "inside", None) else [self]

    def is_enabled(self):
        return True

    def begin(self, node):
        """A frame for a part, or None where there is nothing to run in it."""
        return None if node.is_empty() else KINDS[node.code](self.run, node, self)


class Plan(Frame):
    """The elements run in order."""

    def __init__(self, run, node, above):
        super().__init__(run, node, above)
        self.at, self.inside = 0, None
        self.go_on()

    def go_on(self):
        """Goes to the next element that has anything to run, if there is one."""
        self.is_over = self.at == len(self.node.filled)
        if not self.is_over:
            self.inside = self.begin(self.node.filled[self.at])
            self.at += 1

    def part_is_over(self):
        self.go_on()
        if self.is_over:
            self.leave()

    def first(self, channel):
        return self.inside.first(channel) if self.node.bits >> channel & 1 else None


class Parallel(Frame):
    """All branches run at the same time. For each channel the branches that have nodes of it are kept, in order."""

    def __init__(self, run, node, above):
        super().__init__(run, node, above)
        branches = [self.begin(part) for part in node.filled]
        self.left, self.of_channel = len(branches), {}
        for frame in branches:
            for channel in range(8):
                if frame.node.bits >> channel & 1:
                    self.of_channel.setdefault(channel, []).append(frame)
        self.is_over = self.left == 0

    def part_is_over(self):
        self.left -= 1
        if self.left == 0:
            self.leave()

    def fronts(self):
        branches = {id(frame): frame for frames in self.of_channel.values() for frame in frames if not frame.is_over}
        return [front for frame in branches.values() for front in frame.fronts()]

    def first(self, channel):
        frames, passed, found = self.of_channel.get(channel, []), 0, None
        for frame in frames:
            found = None if frame.is_over else frame.first(channel)
            if found:
                break
            passed += frame.is_over
        if passed > MOST_PASSED or passed == len(frames) > 0:
            self.of_channel[channel] = [frame for frame in frames if not frame.is_over]
        return found


class NonSequential(Frame):
    """All elements run, one at a time, in any order; a turn picks the least that hasn't run."""

    def __init__(self, run, node, above):
        super().__init__(run, node, above)
        self.left, self.least, self.inside = set(range(len(node.parts))), 0, None

    def first(self, channel):
        return self.inside.first(channel) if self.inside else super().first(channel)

    def act(self):
        while self.least not in self.left:
            self.least += 1
        return self.pick(self.least)

    def may_pick(self, at):
        return at in self.left

    def pick(self, at):
        self.left.remove(at)
        self.inside = self.begin(self.node.parts[at])
        if not self.inside:
            self.part_is_over()
        return f"P {self.node.number} {at}"

    def part_is_over(self):
        self.inside = None
        if not self.left:
            self.leave()


class Choice(Frame):
    """One of the parts runs: of a selective any, and in a turn the first; of an if the one that its condition says."""

    def __init__(self, run, node, above):
        super().__init__(run, node, above)
        self.inside = None

    def first(self, channel):
        return self.inside.first(channel) if self.inside else super().first(channel)

    def act(self):
        if self.node.code == SELECTIVE:
            return self.pick(0)
        holds = self.run.holds(self.node)
        self.take(self.node.parts[0 if holds else 1])
        return f"T {self.node.number} {int(holds)}"

    def may_pick(self, at):
        return at < len(self.node.parts)

    def pick(self, at):
        self.take(self.node.parts[at])
        return f"P {self.node.number} {at}"

    def take(self, part):
        self.inside = self.begin(part) if part else None
        if not self.inside:
            self.leave()

    def part_is_over(self):
        self.leave()


class While(Frame):
    """The body runs again and again while the condition holds."""

    def __init__(self, run, node, above):
        super().__init__(run, node, above)
        self.inside = None

    def first(self, channel):
        return self.inside.first(channel) if self.inside else super().first(channel)

    def act(self):
        holds = self.run.holds(self.node)
        if holds:
            self.inside = self.begin(self.node.parts[0])
        else:
            self.leave()
        return f"T {self.node.number} {int(holds)}"

    def part_is_over(self):
        self.inside = None


class Step(Frame):
    """A workingstep is dispatched, makes its blocks and ends; a channel has one open workingstep at a time."""

    def __init__(self, run, node, above):
        super().__init__(run, node, above)
        self.made, self.blocks = None, None

    def is_enabled(self):
        return self.made is not None or self.node.channel not in self.run.busy

    def act(self):
        number = self.node.number
        if self.made is None:
            self.made, self.blocks = 0, self.run.path(number)
            self.run.busy.add(self.node.channel)
            self.run.sent.add(number)
            return f"D {number} {self.run.revisions.versions[number]}"
        if self.made < len(self.blocks):
            self.made += 1
            return f"B {number} {self.made - 1} {self.blocks[self.made - 1]}"
        self.run.busy.discard(self.node.channel)
        self.leave()
        return f"E {number}"


class Leaf(Frame):
    """An assignment, a mark, a wait or a note makes one entry."""

    def is_enabled(self):
        return self.node.code != WAIT or self.node.entity.fields[2][1] in self.run.marks

    def act(self):
        code, number, line = self.node.code, self.node.number, None
        if code == ASSIGNMENT:
            value = self.run.worth.value(self.node.entity.fields[3])
            self.run.assign(self.node.entity.fields[2][1], value)
            line = f"A {number} {value}"
        elif code == SET:
            self.run.marks.add(number)
        self.leave()
        return line or f"{ {SET: 'S', WAIT: 'W', NOTE: 'M'}[code]} {number}"


KINDS = {WORKPLAN: Plan, PARALLEL: Parallel, NON_SEQUENTIAL: NonSequential, SELECTIVE: Choice, IF: Choice, WHILE: While, STEP: Step,
         ASSIGNMENT: Leaf, SET: Leaf, WAIT: Leaf, NOTE: Leaf}


# ---- Runs. ----


class Run:
    """A run of a tree; `path` gives the blocks of a workingstep in a store, and `revisions` takes the edits."""

    def __init__(self, store, root, path, limit, revisions):
        self.store, self.find_path, self.limit, self.revisions = store, path, limit, revisions
        self.paths, self.worth, self.marks, self.busy, self.sent, self.entries = {}, Worth(store, {}), set(), set(), set(), []
        self.root = KINDS[WORKPLAN](self, root, None)

    def path(self, number):
        """The blocks of a workingstep as the edits so far have left it."""
        key = number, self.revisions.versions[number]
        if key not in self.paths:
            self.paths[key] = self.find_path(self.revisions.store, number)
        return self.paths[key]

    def assign(self, variable, value):
        """Changes a variable. What was worked out stays right where nothing changes."""
        if self.worth.variables.get(variable) != value:
            self.worth.variables[variable] = value
            self.worth.known.clear()

    def holds(self, node):
        return self.worth.holds(node.entity.fields[2][1])

    def ready(self, channel):
        """The first frame that can make an entry for a channel, or None."""
        return None if self.root.is_over else self.root.first(channel)

    def is_stuck(self):
        return not any(self.ready(channel) for channel in range(8))

    def is_due(self):
        at = self.revisions.next_at()
        return at is not None and (at <= len(self.entries) or self.is_stuck())

    def turn(self, channel):
        """One turn of a channel; whether it made an entry."""
        if len(self.entries) == self.limit:
            return False
        if self.is_due():
            self.entries.append(self.revisions.judge(self.sent))
            return True
        frame = self.ready(channel)
        if frame is None:
            return False
        self.entries.append(frame.act())
        return True

    def follow(self, line):
        """Goes on with an entry of a log, where it fits: whether it does. Where it doesn't, the run is of no more use."""
        if line[0] == "X":
            fits = self.is_due() and line == self.revisions.judge(self.sent)
        else:
            fits = not self.is_due() and self.follow_node(line)
        self.entries.append(line)
        return fits

    def follow_node(self, line):
        """Goes on with an entry of a node, where one of its number can go on: whether it is what that node does."""
        words = line.split()
        for frame in [] if self.root.is_over else self.root.fronts():
            if frame.node.number == int(words[1]) and frame.is_enabled():
                if words[0] != "P":
                    return line == frame.act()
                if not hasattr(frame, "may_pick") or frame.node.code == IF or not frame.may_pick(int(words[2])):
                    return False
                return line == frame.pick(int(words[2]))
        return False

    def own_ending(self):
        """The ending that is the log's own, whatever the limit was, or None."""
        if self.revisions.next_at() is None:
            if self.root.is_over:
                return DONE
            if all(front.node.code == WAIT and not front.is_enabled() for front in self.root.fronts()):
                return BLOCKED
        return RUN_LIMIT if self.entries else None

    def ending(self):
        """How the run ends, where no turn of any channel makes an entry any more."""
        if self.revisions.next_at() is not None:
            return RUN_LIMIT
        if self.root.is_over:
            return DONE
        return BLOCKED if self.is_stuck() else RUN_LIMIT


def replay(store, root, path, schedule, limit, revisions):
    """The lines of the entries under a schedule of channels, and the ending: the scheduled turns, and then rounds of all channels that the project has."""
    run = Run(store, root, path, limit, revisions)
    idle = set()  # the channels whose last turn made nothing, with nothing made since
    for channel in schedule:
        if channel not in idle:
            if run.turn(channel):
                idle.clear()
            else:
                idle.add(channel)
                if len(idle) == 8:
                    break
    while any([run.turn(channel) for channel in range(channels_of(root))]):
        pass
    return run.entries, run.ending()
