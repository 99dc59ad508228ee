"""The eight tests of an output text, one after the other, and the line that `pg check` writes of the first that fails.

1. The printed pages break a rule: the least one, with its least column.
2. The printed cost is not that of these pages.
3. The page text is not the one of these pages: the first line that differs.
4. A label is no state: the first one.
5. No label covers the start at cost 0. A label covers a state where all fields but the ages are equal, no age is
   greater, and the cost is not greater.
6. After a label some column may follow to a state that no label covers: the first label, with the least end of such a
   column.
7. A label is finished and costs less than the printed pages: the first one. It is finished where nothing is left but
   what is discarded, and every float is placed.
8. A label is finished where no pagination is legal by the text: the first one.

Where no pagination is legal by the text, the first three and the seventh are passed over, otherwise the eighth."""

import output
import rules
import states
from texts import place


class Tests:
    """Tests output texts of one document."""

    def __init__(self, document, printer):
        self.document, self.printer, self.states = document, printer, states.States(document)

    def first_failing(self, found):
        """The first test that fails with its values, as `pg check` tells them; None where none does."""
        tests = [self.labels_are_states, self.start, self.closed]
        if found.pages is None:
            tests.append(self.none_is_final)
        else:
            tests = [self.legal, self.cost, self.page_text, *tests, self.undercut]
        return next((said for it in tests if (said := it(found)) is not None), None)

    def legal(self, found):
        fault, _ = rules.judged(self.document, tuple(found.pages))
        return None if fault is None else f"1: rule {fault[0]} column {fault[1]}"

    def cost(self, found):
        _, cost = rules.judged(self.document, tuple(found.pages))
        return None if cost == found.cost else f"2: printed {found.cost} judged {cost}"

    def page_text(self, found):
        due = self.printer.pages(tuple(found.pages), found.cost)
        for number in range(max(len(due), len(found.page_lines))):
            if due[number : number + 1] != found.page_lines[number : number + 1]:
                return f"3: page text line {number + 1}"
        return None

    def labels_are_states(self, found):
        for number, (state, _) in enumerate(found.labels, 1):
            if not self.states.is_state(state):
                return f"4: label {number}"
        return None

    def start(self, found):
        return None if states.is_covered(found.labels, self.states.start(), 0) else "5: no start"

    def closed(self, found):
        groups = {}  # a label covers a state only where all fields but the ages are equal
        for label in found.labels:
            groups.setdefault(label[0].rest(), []).append(label)
        for number, (state, cost) in enumerate(found.labels, 1):
            open_ends = [
                it.end for it in self.states.follow(state)
                if not states.is_covered(groups.get(it.state.rest(), ()), it.state, cost + it.cost)
            ]
            if open_ends:
                return f"6: label {number} to {place(min(open_ends))}"
        return None

    def undercut(self, found):
        for number, (state, cost) in enumerate(found.labels, 1):
            if cost < found.cost and self.states.is_finished(state):
                return f"7: label {number} cost {cost}"
        return None

    def none_is_final(self, found):
        for number, (state, _) in enumerate(found.labels, 1):
            if self.states.is_finished(state):
                return f"8: label {number}"
        return None

    def answer(self, name, text):
        """The status, what is written and what is said of a text in a file of this name."""
        try:
            found = output.read(text)
        except output.BadText as fault:
            return 3, "", f"pg: {name}: line {fault}: not an output text\n"
        if (said := self.first_failing(found)) is not None:
            return 7, "", f"pg: not proved {said}\n"
        shown = "no legal pagination" if found.pages is None else f"cost {found.cost}"
        return 0, f"proved {shown} labels {len(found.labels)}\n", ""
