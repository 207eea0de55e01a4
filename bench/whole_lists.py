"""The run of a tree said in whole lists, to check the second implementation by: bench/compare --self-test.

Nothing is kept from turn to turn: where a run can go on, which marks are set, what the variables are worth and which workingstep is open is read off the
entries so far, each time from the first one on. An entry is (letter, number, what else its line has).
"""

from runs import ASSIGNMENT, BLOCKED, DONE, IF, NON_SEQUENTIAL, NOTE, PARALLEL, RUN_LIMIT, SELECTIVE, SET, STEP, WAIT, WHILE, WORKPLAN, Worth


def numbers_in(node):
    """The numbers of an executable and of all in it."""
    return {node.number}.union(*(numbers_in(part) for part in node.parts if part))


def of(node, entries):
    """The entries of an executable and of all in it."""
    numbers = numbers_in(node)
    return [entry for entry in entries if entry[1] in numbers]


def picks(node, entries):
    return [entry[2] for entry in entries if entry[:2] == ("P", node.number)]


def last_piece(node, entries):
    """The entries of a while from its last test on."""
    tests = [i for i, entry in enumerate(entries) if entry[:2] == ("T", node.number)]
    return entries[tests[-1]:]


def branch(node, entries):
    """What the first entry of a selective or an if has chosen, or None where that is an absent branch."""
    return node.parts[entries[0][2] if node.code == SELECTIVE else 1 - entries[0][2]]


def is_whole(node, entries):
    """Whether these entries, all of them of the executable, are a whole run of it."""
    if node.code in (WORKPLAN, PARALLEL):
        return all(is_whole(part, of(part, entries)) for part in node.parts)
    if node.code == NON_SEQUENTIAL:
        return len(picks(node, entries)) == len(node.parts) and all(is_whole(part, of(part, entries)) for part in node.parts)
    if not entries:
        return False
    if node.code in (SELECTIVE, IF):
        chosen = branch(node, entries)
        return chosen is None or is_whole(chosen, entries[1:])
    if node.code == WHILE:
        return last_piece(node, entries) == [("T", node.number, 0)]
    return entries[-1][0] == "E" if node.code == STEP else True


def next_of(node, entries):
    """The nodes at which a run of the executable can go on, in order."""
    if is_whole(node, entries):
        return []
    if node.code == PARALLEL:
        return [found for part in node.parts for found in next_of(part, of(part, entries))]
    inside = None
    if node.code == WORKPLAN:
        inside = next(part for part in node.parts if not is_whole(part, of(part, entries)))
    elif node.code == NON_SEQUENTIAL and picks(node, entries):
        inside = node.parts[picks(node, entries)[-1]]
    elif node.code in (SELECTIVE, IF) and entries:
        inside = branch(node, entries)
    elif node.code == WHILE and entries:
        inside, entries = node.parts[0], last_piece(node, entries)[1:]
    if inside is None or is_whole(inside, of(inside, entries)):
        return [node]
    return next_of(inside, of(inside, entries))


def variables(store, entries):
    """What has been assigned, by the variables' numbers."""
    return {store[number].fields[2][1]: value for letter, number, value in entries if letter == "A"}


def is_open(number, entries):
    last = [letter for letter, other, _ in entries if other == number and letter in "DE"]
    return last[-1:] == ["D"]


def is_enabled(node, nodes, entries):
    if node.code == WAIT:
        return ("S", node.entity.fields[2][1], None) in entries
    if node.code == STEP and not is_open(node.number, entries):
        return not any(other.code == STEP and other.channel == node.channel and is_open(other.number, entries) for other in nodes)
    return True


def entry_of(node, store, path, version, entries):
    """The entry that an enabled node makes; a workingstep has this version."""
    number, own = node.number, [entry for entry in entries if entry[1] == node.number]
    if node.code == STEP:
        if not is_open(number, entries):
            return ("D", number, version(number))
        made = len(own) - 1 - max(i for i, entry in enumerate(own) if entry[0] == "D")
        return ("B", number, (made, path(number)[made])) if made < len(path(number)) else ("E", number, None)
    if node.code in (NON_SEQUENTIAL, SELECTIVE):
        present = of_present_turn(node, entries)
        return ("P", number, min(k for k in range(len(node.parts)) if k not in picks(node, present)))
    worth = Worth(store, variables(store, entries))
    if node.code in (IF, WHILE):
        return ("T", number, int(worth.holds(node.entity.fields[2][1])))
    if node.code == ASSIGNMENT:
        return ("A", number, worth.value(node.entity.fields[3]))
    return ({SET: "S", WAIT: "W", NOTE: "M"}[node.code], number, None)


def of_present_turn(node, entries):
    """The entries of an executable since the last test of the nearest while around it."""
    above = node.above
    while above is not None and above.code != WHILE:
        above = above.above
    return of(node, last_piece(above, entries) if above else entries)


def nodes_in(node, above=None):
    node.above = above
    return [node] + [found for part in node.parts if part for found in nodes_in(part, node)]


def line_of(entry):
    letter, number, said = entry
    if letter == "X":
        return said
    words = [letter, str(number)] + ([] if said is None else [str(each) for each in (said if isinstance(said, tuple) else (said,))])
    return " ".join(words)


def replay(store, root, path, schedule, limit, revisions):
    """The lines of the entries under a schedule, and the ending, as `runs.replay` gives them. A verdict has no node: its number is -1."""
    nodes, entries = nodes_in(root), []

    def enabled():
        return [node for node in next_of(root, entries) if is_enabled(node, nodes, entries)]

    def ready(channel):
        ahead = next_of(root, entries)
        return next((node for node in ahead if node.channel == channel and is_enabled(node, nodes, entries)), None)

    def ending():
        if revisions.next_at() is None:
            if is_whole(root, entries):
                return DONE
            if all(node.code == WAIT and not is_enabled(node, nodes, entries) for node in next_of(root, entries)):
                return BLOCKED
        return RUN_LIMIT if len(entries) == limit else None

    def turn(channel):
        if ending() is not None:
            return
        at = revisions.next_at()
        if at is not None and (at <= len(entries) or not enabled()):
            entries.append(("X", -1, revisions.judge({entry[1] for entry in entries if entry[0] == "D"})))
            return
        node = ready(channel)
        if node:
            entries.append(entry_of(node, store, lambda number: path(revisions.store, number), revisions.versions.get, entries))

    for channel in schedule:
        turn(channel)
    while ending() is None:
        for channel in range(max(node.channel for node in nodes) + 1):
            turn(channel)
    return [line_of(entry) for entry in entries], ending()
