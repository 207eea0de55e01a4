"""Scripts of edits after docs/FORMATS.md: what an edit reaches, the verdict on it, and what it changes. A plain reading: whole closures, and each
definition that is reached worked out anew."""

import re

MOST_EDITS = 1000
MOST_ITEMS = 1000
COUNT = re.compile(rb"0|[1-9][0-9]{0,6}")
WORKINGSTEP = 11
LAST_OF_PROGRAM = 28  # classes 1 to 28 are what a run is made of


def edits_of(grammar, refused):
    """The edits of a script, each with the count of entries from which it is due and its instances in order; raises the refusal of its text.

    `grammar` stands before the text's first token; `refused` makes a refusal.
    """
    found = []
    while grammar.now()[:2] == ("Word", b"EDIT"):
        if len(found) == MOST_EDITS:
            raise refused("TooMany", grammar.now()[2])
        grammar.take()
        grammar.word(b"AT")
        kind, text, _ = grammar.now()
        if kind != "Int" or not COUNT.fullmatch(text):
            raise grammar.syntax()
        grammar.take()
        grammar.mark(b";")
        items = []
        while grammar.now()[0] == "Name":
            _, number, place = grammar.now()
            if len(items) == MOST_ITEMS:
                raise refused("TooMany", place)
            grammar.take()
            items.append((number, grammar.instance()))
        grammar.word(b"ENDEDIT")
        grammar.mark(b";")
        found.append((int(text), items))
    if grammar.at < len(grammar.tokens):
        raise grammar.syntax()
    return found


def script_of(grammar, refused, typed):
    """The edits with their entities; `typed` makes one of an instance, or raises a refusal with its number and position."""
    script, last = [], 0
    for i, (at, items) in enumerate(edits_of(grammar, refused)):
        if at < last:
            raise refused("AtOrder", i)
        last, seen, entities = at, set(), []
        for number, _ in items:
            if number in seen:
                raise refused("Repeated", i, number)
            seen.add(number)
        for number, instance in items:
            entities.append(typed(i, number, instance))
        script.append((at, entities))
    return script


class Revisions:
    """A store that a script's edits are put into, and the versions of the workingsteps of its tree."""

    def __init__(self, store, steps, script, targets, kind_of_fault):
        self.store, self.steps, self.script, self.targets, self.kind_of_fault = dict(store), steps, script, targets, kind_of_fault
        self.judged, self.versions = 0, dict.fromkeys(steps, 0)

    def next_at(self):
        """From how many entries on the next edit is due, or None."""
        return self.script[self.judged][0] if self.judged < len(self.script) else None

    def judge(self, sent):
        """The line of the verdict on the next edit, which is put where it is accepted."""
        i, items = self.judged, self.script[self.judged][1]
        after = {**self.store, **{item.number: item for item in items}}
        reached = self.reached(after, {item.number for item in items}) if self.resolves(after, items) else []
        refusal = self.refusal(after, items, reached, sent)
        self.judged += 1
        if refusal is not None:
            rule, a, b = refusal
            return f"X {i} no J{rule} {a} {b}"
        self.store = after
        for step in reached:
            self.versions[step] += 1
        return f"X {i} ok"

    @staticmethod
    def resolves(after, items):
        return all(number in after for item in items for _, _, number in item.references())

    def reached(self, after, put):
        """The workingsteps whose closure after the edit holds a number that it puts, in order of number: found from each of them forwards."""
        known = {}

        def leads(number):
            ahead, seen = [number], {number}
            while ahead:
                one = ahead.pop()
                if one in put or known.get(one):
                    return True
                if one in known:
                    continue
                for _, _, used in after[one].references():
                    if used not in seen:
                        seen.add(used)
                        ahead.append(used)
            known.update(dict.fromkeys(seen, False))
            return False

        found = []
        for step in sorted(self.steps):
            known[step] = leads(step)
            if known[step]:
                found.append(step)
        return found

    def refusal(self, after, items, reached, sent):
        """The first rule that applies, with its two numbers, or None."""
        for item in items:
            old = self.store.get(item.number)
            if old is None:
                if item.code <= LAST_OF_PROGRAM:
                    return 1, item.number, item.code
            elif old.code <= LAST_OF_PROGRAM and old.code != WORKINGSTEP or old.code != item.code:
                return 1, item.number, old.code
        for item in items:
            for _, _, number in item.references():
                if number not in after:
                    return 2, item.number, number
        for item in items:
            for position, target, number in item.references():
                if target is not None and after[number].code not in self.targets[target]:
                    return 3, item.number, position
        for step in reached:
            if step in sent:
                return 4, step, 0
        for step in reached:
            kind = self.kind_of_fault(after, step)
            if kind is not None:
                return 5, step, kind
        return None
