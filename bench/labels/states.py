"""States with what may follow them, and the labels that no other betters, read from docs/definitions.md.

A state takes the place of the columns so far: a label of any text may claim one that no pagination leads to. What may
follow it is judged by rules.py, behind columns of which nothing is known but the state."""

from collections import namedtuple
from dataclasses import dataclass

import plans
import rules

FAR = 1000000  # a page so far on that every age has a page of its callout


@dataclass(frozen=True)
class State:
    """Where the next column starts, and what binds it; ages by class and number."""

    place: tuple
    column: int
    side: str
    run: int
    wide: int
    fitness: int
    placed: tuple
    ages: tuple

    def rest(self):
        """All fields but the ages."""
        return (self.place, self.column, self.side, self.run, self.wide, self.fitness, self.placed)

    def order(self):
        """The key by which labels are sorted: absent comes first, and L before R before S."""
        absent_first = [-1 if it is None else it for it in (self.run, self.wide, self.fitness)]
        return (self.place, self.column, self.side, *absent_first, self.placed, self.ages)


Follower = namedtuple("Follower", "end state cost")


def is_covered(labels, state, cost):
    """Whether some label is equal but for ages, has no greater age and no greater cost."""
    return any(
        it.rest() == state.rest() and all(a <= b for a, b in zip(it.ages, state.ages)) and own <= cost
        for it, own in labels
    )


class States:
    """The states of a document."""

    def __init__(self, document):
        self.document, self.style = document, document.style
        self.tables = [len(it.distance) for it in document.classes]
        self.followers = {}  # of each state that was asked for

    def is_place(self, place):
        block, variant, index = place
        if place == self.document.end:
            return True
        if block >= len(self.document.blocks):
            return False
        it = self.document.blocks[block]
        if isinstance(it, rules.Item) or index == 0:
            return (variant, index) == (0, 0)
        return variant < len(it.variants) and index < len(it.variants[variant].items)

    def called(self, place):
        """For each float class how many floats are called before a place of the galley."""
        return rules.called(rules.items_before(self.document.blocks, place), self.document.classes)

    def split(self, state):
        """The ages of each class; None where they are not as many as the floats that wait."""
        waiting = [all_of - placed for all_of, placed in zip(self.called(state.place), state.placed)]
        if min(waiting, default=0) < 0 or sum(waiting) != len(state.ages):
            return None
        ages = list(state.ages)
        return [[ages.pop(0) for _ in range(count)] for count in waiting]

    def is_state(self, state):
        style = self.style
        if not self.is_place(state.place) or not 1 <= state.column <= style.columns:
            return False
        if state.side not in ("S" if style.first == "single" else "LR"):
            return False
        if state.run is not None and state.run >= len(style.runs):
            return False
        if state.column == 2 and state.run is None:
            return False
        if state.column == 1 and state.side != "R" and state.run is not None:
            return False
        if state.wide is not None and (state.column == 1 or not 0 <= state.wide < 2**33):
            return False
        if state.fitness is not None and (style.version == 1 or not 0 <= state.fitness <= 3):
            return False
        if len(state.placed) != len(self.tables):
            return False
        ages = self.split(state)
        return ages is not None and all(max(own, default=0) < size for own, size in zip(ages, self.tables))

    def start(self):
        number = len(self.tables)
        side = {"single": "S", "left": "L", "right": "R"}[self.style.first]
        return State((0, 0, 0), 1, side, None, None, None, (0,) * number, ())

    def is_finished(self, state):
        """Whether nothing is left but what is discarded, and every float is placed."""
        items = [item for _, item, _ in rules.items_from(self.document.blocks, state.place, ())]
        everything = tuple(map(len, self.document.floats))
        return all(it.is_discardable() for it in items) and state.placed == everything

    # ---- what may follow

    def before(self, state):
        """Columns that end in this state, as far as what follows can see."""
        page = FAR if self.document.is_right(FAR) == (state.side == "R") else FAR + 1
        calls = tuple(
            (None,) * placed + tuple(page - age for age in own) for placed, own in zip(state.placed, self.split(state))
        )
        return rules.Before(place=state.place, number=state.column, page=page, run=state.run, wide=state.wide,
                            placed=state.placed, calls=calls, fitness=state.fitness)

    def after(self, before):
        """The state behind these columns; None where a float waits too long."""
        is_turned = before.number == 1
        side = "S" if self.style.first == "single" else "R" if self.document.is_right(before.page) else "L"
        waiting = [[before.page - page for page in own[placed:]] for own, placed in zip(before.calls, before.placed)]
        if any(age >= size for own, size in zip(waiting, self.tables) for age in own):
            return None
        return State(
            place=before.place,
            column=before.number,
            side=side,
            run=(before.run if side == "R" else None) if is_turned else before.run,
            wide=None if is_turned else before.wide,
            fitness=before.fitness,
            placed=before.placed,
            ages=tuple(age for own in waiting for age in own),
        )

    def follow(self, state):
        """All columns that may follow a state: their ends, the states behind them, and what they cost."""
        if state not in self.followers:
            before, found = self.before(state), set()
            page = rules.Page(state.run, (0,) * len(self.tables), ())
            for head, column in plans.columns_from(self.document, before, (page,)):
                broken, after = self.document.add(before, head, column)
                if not broken and (there := self.after(after)) is not None:
                    found.add(Follower(column.end, there, after.cost))
            self.followers[state] = sorted(found, key=lambda it: (it.end, it.state.order(), it.cost))
        return self.followers[state]

    # ---- the labels of all beginnings

    def frontier(self, beginnings):
        """The labels of those beginnings that no other betters, where these are all."""
        groups = {}
        for plan in beginnings:
            before = self.document.start()
            for page in plan:
                for column in page.columns:
                    before = self.document.add(before, page, column)[1]
            if (state := self.after(before)) is not None:
                groups.setdefault(state.rest(), []).append((state, before.cost, rules.order(plan)))
        labels = []
        for group in groups.values():
            labels += [(it[0], it[1]) for it in group if not any(betters(other, it) for other in group)]
        return sorted(labels, key=lambda it: (it[0].order(), it[1]))


def betters(a, b):
    """Whether a beginning betters another one that has the same state but for ages."""
    return a is not b and all(x <= y for x, y in zip(a[0].ages, b[0].ages)) and a[1:] <= b[1:]
