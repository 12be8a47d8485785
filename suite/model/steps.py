"""The steps of a plan, their costs, and where a sum of magnitudes is above the limit (docs/FORMAT.md, sections 5, 11).

A part is what steps have made of some members: its members, its legs in order (each a place: a member's number and
a number among its legs), the labels summed so far, and, where it is a combiner that no step has touched, its table.
What a part is worth is, up to a sign, the value of its members alone.
"""

from collections import namedtuple
from itertools import product

from .networks import value

LIMIT = 2 ** 127 - 1

Part = namedtuple('Part', 'members legs summed table')
Step = namedtuple('Step', 'kind labels parts result cost')


class Plan:
    """The steps of a network. `tables` tells for each member whether it is a 'fuse' or a 'split' table, or None."""

    def __init__(self, group, members, order, tables):
        self.group, self.members = group, members
        self.parts = [Part([k], [(k, i) for i in range(len(labels))], [], table)
                      for k, ((_, labels), table) in enumerate(zip(members, tables))]
        self.steps = []
        for label in order:
            meeting = [part for part in self.parts if label in self.labels_of(part)]
            if meeting:                         # none where the label was summed with another one
                self.take(meeting)
        while len(self.parts) > 1:
            self.take(self.parts[:2])

    def label(self, place):
        return self.members[place[0]][1][place[1]]

    def leg(self, place):
        return self.members[place[0]][0].legs[place[1]]

    def labels_of(self, part):
        return [self.label(place) for place in part.legs]

    def take(self, meeting):
        """One step: two parts are multiplied over all labels that they share, or one is traced over all of its own."""
        standing = [label for part in meeting for label in self.labels_of(part)]
        labels = sorted({label for label in standing if standing.count(label) == 2})
        if len(meeting) == 2:
            labels = [label for label in labels if all(label in self.labels_of(part) for part in meeting)]
        kind = 'trace' if len(meeting) == 1 else \
            'fuse' if any(self.is_combiner_for(part, labels) for part in meeting) else 'pair'
        result = Part([k for part in meeting for k in part.members],
                      [place for part in meeting for place in part.legs if self.label(place) not in labels],
                      labels + [label for part in meeting for label in part.summed], None)
        cost = self.cost(*meeting, labels) if kind == 'pair' else 0
        self.steps.append(Step(kind, labels, meeting, result, cost))
        self.parts[self.parts.index(meeting[0])] = result
        for part in meeting[1:]:
            self.parts.remove(part)

    def is_combiner_for(self, part, labels):
        """Whether the labels are those of all turned legs of a fuse table, or of the turned leg of a split table."""
        if part.table is None or not labels:
            return False
        turned = self.labels_of(part)[1:] if part.table == 'fuse' else self.labels_of(part)[-1:]
        return sorted(turned) == labels

    def cost(self, first, second, labels):
        """The sum, over pairs of admissible tuples that agree on the labels, of the product of all dimensions, those
        of shared legs once."""
        by_shared = {}
        for shared, inner, outer in self.admissible(first, labels):
            by_shared[shared] = by_shared.get(shared, 0) + inner * outer
        return sum(by_shared.get(shared, 0) * outer for shared, _, outer in self.admissible(second, labels))

    def admissible(self, part, labels):
        """For each admissible tuple of a part: its sectors at the labels, their dimensions and those of the rest."""
        legs = [self.leg(place) for place in part.legs]
        flux = self.group.total([self.members[k][0].flux for k in part.members])
        for sectors in product(*[range(len(leg.sectors)) for leg in legs]):
            if self.group.net(legs, [leg.values_of(s)[0] for leg, s in zip(legs, sectors)]) == flux:
                shared, inner, outer = [], 1, 1
                for label, leg, s in zip(self.labels_of(part), legs, sectors):
                    if label in labels:
                        shared.append((label, s))
                        inner *= leg.sectors[s][1]
                    else:
                        outer *= leg.sectors[s][1]
                yield tuple(sorted(shared)), inner, outer

    def worth(self, part):
        """The entries of a part: the values by place, and the magnitude."""
        def renamed(place):
            return self.label(place) if self.label(place) in part.summed else -1 - part.legs.index(place)
        members = [(self.members[k][0], [renamed((k, i)) for i in range(len(self.members[k][1]))])
                   for k in sorted(part.members)]
        return [(dict(zip(part.legs, values)), entry.magnitude())
                for values, entry in value(self.group, members).entries.items()]

    def sums(self, step):
        """The sum of magnitudes at each values of the legs of a step's result. A fuse step has none that counts."""
        result = {}

        def add(values, size):
            at = tuple(values[place] for place in step.result.legs)
            result[at] = result.get(at, 0) + size

        def at_labels(values):
            return sorted({(self.label(place), v) for place, v in values.items() if self.label(place) in step.labels})

        if step.kind == 'trace':
            for values, size in self.worth(step.parts[0]):
                if len(at_labels(values)) == len(step.labels):          # both ends of each label have one value
                    add(values, size)
        elif step.kind == 'pair':
            others = self.worth(step.parts[1])
            for values, size in self.worth(step.parts[0]):
                for more, factor in others:
                    if at_labels(values) == at_labels(more):
                        add({**values, **more}, size * factor)
        return result


def greatest_sum(members):
    """No sum of magnitudes of a network is above this: the product of what the entries of each tensor add up to, or 1
    for a tensor of zeros, since the others are multiplied all the same."""
    result = 1
    for tensor, _ in members:
        result *= max(1, sum(entry.magnitude() for entry in tensor.entries.values()))
    return result


def first_passing(group, members, order, tables):
    """The first step, the tuple of sectors and the offset at which a sum of magnitudes is above the limit, or None."""
    if greatest_sum(members) <= LIMIT:
        return None
    plan = Plan(group, members, order, tables)
    for number, step in enumerate(plan.steps, 1):
        legs = [plan.leg(place) for place in step.result.legs]
        passing = [place_of(legs, values) for values, size in plan.sums(step).items() if size > LIMIT]
        if passing:
            return (number,) + min(passing)
    return None


def place_of(legs, values):
    """The tuple of sectors of some values, and their row-major offset in the block."""
    places = [leg.places[v] for leg, v in zip(legs, values)]
    offset = 0
    for leg, (sector, inner) in zip(legs, places):
        offset = offset * leg.sectors[sector][1] + inner
    return tuple(sector for sector, _ in places), offset
