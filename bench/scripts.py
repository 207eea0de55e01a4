"""Random scripts of edits for a random project: what an operator changes, and what may be wrong with it."""

import copy

from oracle import MOST_BYTES, TARGETS, USED
from projects import Instance, Ref, chosen, laid_out, mutated, pick, reached, spelled, tokens_of_instance

WORKINGSTEP = 11
LAST_OF_PROGRAM = 28
NUMBERS = [-50_000, -1_000, -1, 0, 1, 500, 1_000, 5_000, 12_000, 40_000, 3_000_000, 10**8, 10**8 + 1, 2 * 10**15]


def replaceable(project, numbers):
    """Those of these numbers that an edit may put again."""
    return [number for number in numbers if project.instances[number].code > LAST_OF_PROGRAM or project.instances[number].code == WORKINGSTEP]


def one_of(r, project):
    """A number that an edit may put again, mostly of what a workingstep leads to."""
    return pick(r, replaceable(project, reached(project) if r.random() < 0.85 else list(project.instances)))


def again(r, project):
    """An instance as it stands in the project."""
    number = one_of(r, project)
    return [] if number is None else [(number, copy.deepcopy(project.instances[number]))]


def numbers_of(instance):
    """The used positions where a number may stand."""
    return [used for used in USED[instance.code] if used.kind in ("num", "len", "val")]


def with_number(r, project):
    """An instance with another number at a used position."""
    found = again(r, project)
    for _, instance in found:
        used = pick(r, numbers_of(instance))
        if used:
            instance.put(used.position, spelled(r, r.choice(NUMBERS)))
    return found


def with_bad_number(r, project):
    """An instance that a step leads to, with a number that few definitions allow."""
    number = pick(r, [number for number in replaceable(project, reached(project)) if numbers_of(project.instances[number])])
    if number is None:
        return []
    instance = copy.deepcopy(project.instances[number])
    instance.put(r.choice(numbers_of(instance)).position, spelled(r, r.choice([-50_000, -1, 0, 10**8 + 1])))
    return [(number, instance)]


def with_reference(r, project):
    """An instance that refers to another one: of the right kind, of a wrong one, or to none."""
    found = again(r, project)
    for _, instance in found:
        is_lost = r.random() < 0.55
        used = pick(r, [used for used in USED[instance.code] if used.target or is_lost and used.kind in ("ref", "len", "val", "list", "list1")])
        if used:
            other = Ref(project.fresh() if is_lost else r.choice(list(project.instances)))
            instance.put(used.position, [other] if used.kind in ("list", "list1") else other)
    return found


def with_wrong_kind(r, project):
    """An instance that refers to one of a kind that may not stand there."""
    numbers = [number for number in replaceable(project, reached(project)) if any(used.target for used in USED[project.instances[number].code])]
    number = pick(r, numbers)
    if number is None:
        return []
    instance = copy.deepcopy(project.instances[number])
    used = r.choice([used for used in USED[instance.code] if used.target])
    others = [other for other, found in project.instances.items() if found.code not in TARGETS[used.target]]
    instance.put(used.position, Ref(r.choice(others)) if used.kind not in ("list", "list1") else [Ref(r.choice(others))])
    return [(number, instance)]


def with_copy(r, project):
    """An instance that refers to a new copy of what it referred to."""
    found = again(r, project)
    for _, instance in list(found):
        used = pick(r, [used for used in USED[instance.code] if isinstance(instance.get(used.position), Ref)])
        old = used and project.instances.get(instance.get(used.position).number)
        if old:
            new = Ref(project.fresh())
            instance.put(used.position, new)
            found.insert(r.randrange(2), (new.number, copy.deepcopy(old)))
    return found


def new_one(r, project):
    """A new instance, which no other refers to."""
    number = pick(r, list(project.instances))
    return [] if number is None else [(project.fresh(), copy.deepcopy(project.instances[number]))]


def of_program(r, project):
    """An instance of what a run is made of, or one of another class than the one that it replaces."""
    numbers = list(project.instances)
    first, second = pick(r, numbers), pick(r, numbers)
    return [] if first is None else [(first, copy.deepcopy(project.instances[second]))]


def one_more(r, project, number):
    """The instance of an earlier edit once more, mostly with another number."""
    if number not in project.instances:
        return []
    instance = copy.deepcopy(project.instances[number])
    if numbers_of(instance) and r.random() < 0.8:
        instance.put(r.choice(numbers_of(instance)).position, spelled(r, r.choice(NUMBERS)))
    return [(number, instance)]


def all_steps(r, project):
    """Each workingstep again."""
    return [(number, copy.deepcopy(project.instances[number])) for number in project.steps if number in project.instances]


CHANGES = [(20, again), (25, with_number), (30, with_bad_number), (22, with_reference), (9, with_wrong_kind), (12, with_copy), (5, new_one), (4, of_program), (9, all_steps)]


def tokens_of_edit(r, at, items):
    tokens = ["EDIT ", "AT ", str(at), ";"]
    for number, instance in items:
        tokens += tokens_of_instance(r, number, instance)
    return tokens + ["ENDEDIT", ";"]


def broken(r, tokens):
    """The tokens of a script with one lost, doubled, or another in its place."""
    at = r.randrange(len(tokens) + 1)
    tokens[at:at + r.randrange(2)] = r.choice([[], ["EDIT"], ["AT"], ["ENDEDIT"], [";"], ["#7"], ["007"], ["-1"], ["12345678"], ["+1"], ["("], ["'"], ["\x01"], ["#0"]])


def random_script(r, project):
    """The bytes of a script for a project, or None where there is none: mostly a right one."""
    if r.random() < 0.02:
        return None
    if r.random() < 0.003:  # about as large as one may be
        return r.choice([b" ", b"\n", b";", b"/"]) * (MOST_BYTES + r.choice([-1, 0, 1, 1]))
    tokens, at, put = [], 0, []
    changing = copy.deepcopy(project) if r.random() < 0.7 else project
    for _ in range(r.choice([0, 1, 1, 2, 3, 5, 9])):
        at += r.choice([0, 0, 0, 0, 1, 3, r.randrange(12), r.randrange(60), 300, 3_000])
        if r.random() < 0.01:
            at = max(0, at - r.randrange(20))
        if put and r.random() < 0.2:
            items = one_more(r, changing, put[-1])
        else:
            items = [item for _ in range(r.choice([0, 1, 1, 1, 2, 4])) for item in chosen(r, CHANGES)(r, changing)]
        put += [number for number, _ in items]
        seen = set()
        items = [item for item in items if r.random() < 0.02 or not (item[0] in seen or seen.add(item[0]))]
        tokens += tokens_of_edit(r, min(at, 9_999_999), items)
        if changing is not project:  # edits of what edits left
            changing.instances.update(items)
    for _ in range(r.choice([0] * 28 + [1, 2])):
        broken(r, tokens)
    data = laid_out(r, tokens)
    for _ in range(r.choice([0] * 30 + [1])):
        data = mutated(r, data)
    return data
