"""Where the boxes of trees may stand: a column for each token, the same in all trees."""

from collections import Counter
from itertools import accumulate

# between two columns
GAP = 12


class Columns:
    """One scale for all trees: a column for each token and, between tokens, for the empty words of
    any tree, so that a token stands at the same place in both.
    """

    def __init__(self, panels, count):
        empties = [
            Counter(before for box, before in panel.leaves() if not box.length) for panel in panels
        ]
        self.gap, self.token, at = [], [], 0
        for place in range(count + 1):
            self.gap.append(at)
            at += max(counted[place] for counted in empties)
            self.token.append(at)
            at += place < count
        self.wide = [0] * max(at, 1)
        # the narrowest first: what a wider one lacks is shared among its columns
        spans = [
            (*self.ranges(panel)[id(box)], panel.own(box) + GAP)
            for panel in panels
            for box in panel.boxes
        ]
        for first, last, own in sorted(spans, key=lambda span: span[1] - span[0]):
            self.widen(first, last, own - sum(self.wide[first : last + 1]))
        self.at = list(accumulate(self.wide, initial=0))

    def ranges(self, panel):
        """The first and the last column of each box."""
        found, used = {}, Counter()
        for box, before in panel.leaves():
            if box.length:
                found[id(box)] = (self.token[before], self.token[before + box.length - 1])
            else:
                found[id(box)] = (self.gap[before] + used[before],) * 2
                used[before] += 1
        for box in reversed(panel.boxes):
            if box.below:
                found[id(box)] = (found[id(box.below[0])][0], found[id(box.below[-1])][1])
        return found

    def widen(self, first, last, lacking):
        if lacking > 0:
            shared = [column for column in range(first, last + 1) if self.wide[column]] or [first]
            for column in shared:
                self.wide[column] += lacking / len(shared)

    def ends(self, first, last):
        """Where the columns begin and end, without the gap to the next one."""
        return self.at[first], self.at[last + 1] - GAP
