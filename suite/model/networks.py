"""The value of a network (docs/FORMAT.md, section 5): one signed sum over all assignments of values to labels.

A network is a list of members, each a tensor and the labels of its legs.
"""

from itertools import combinations

from .tensors import ONE, ZERO, Tensor, combiner, read_tensor


def read_network(group, document):
    """The members of a network, the order of its labels and its twisted labels."""
    members = []
    for member in document['tensors']:
        is_combiner = 'combine' in member
        tensor = combiner(group, member['combine']) if is_combiner else read_tensor(group, member)
        members.append((tensor, list(member['labels'])))
    order = document.get('order') or positive_labels(members)
    return members, order, document.get('twist', [])


def positive_labels(members):
    return sorted({label for _, labels in members for label in labels if label > 0})


def value(group, members, order=None, twist=()):
    """The value of the network: a tensor whose legs are the open ones, -1, -2, .., and whose flux is the sum of all.

    At each values of the open legs it is the sum, over all values of the positive labels, of the sign times the
    product of the entries. `order`, in which the labels are contracted, plays a part in two mistakes alone.
    """
    joined = joined_order(members, positive_labels(members) if order is None else order)
    if joined != sorted(joined) and group.code.makes('odd-tensors-move-freely'):
        members, joined = [members[k] for k in joined], list(range(len(members)))
    word = Word(group, members, joined)
    goal, is_negative = word.goal(), word.sign(twist)
    entries = {}
    for chosen, term in assignments(members):
        at = tuple(chosen[label] for label in word.opens)
        entries[at] = entries.get(at, ZERO) + (-term if is_negative(goal, chosen) else term)
    flux = group.total([tensor.flux for tensor, _ in members])
    return Tensor([word.leg(word.ends[label][0]) for label in word.opens], flux, entries)


def assignments(members):
    """Each assignment of values to the labels for which no tensor's entry is 0, with the product of the entries."""
    def extend(k, chosen, entries):
        if k == len(members):
            yield chosen, entries
            return
        tensor, labels = members[k]
        for values, entry in tensor.entries.items():
            more = dict(chosen)
            if all(more.setdefault(label, value) == value for label, value in zip(labels, values)):
                yield from extend(k + 1, more, entries * entry)
    yield from extend(0, {}, ONE)


class Word:
    """The list of all legs of a network, tensor by tensor. `ends` has the places at which each label stands."""

    def __init__(self, group, members, joined):
        self.group, self.members, self.joined = group, members, joined
        self.places = [(k, i) for k, (_, labels) in enumerate(members) for i in range(len(labels))]
        self.labels = [label for _, labels in members for label in labels]
        self.ends = {label: [place for place, each in enumerate(self.labels) if each == label] for label in self.labels}
        self.opens = sorted((label for label in self.ends if label < 0), reverse=True)
        self.positive = positive_labels(members)

    def leg(self, place):
        k, i = self.places[place]
        return self.members[k][0].legs[i]

    def goal(self):
        """For each positive label, ascending, its incoming and then its outgoing end; after these the open legs."""
        code, goal = self.group.code, []
        for label in self.positive:
            first, second = self.ends[label]
            if self.leg(first).out and not code.makes('no-sign-out-before-in'):
                first, second = second, first
            goal += [first, second]
        opens = [self.ends[label][0] for label in self.opens]
        if len(opens) > 1 and code.makes('open-legs-move-freely'):
            opens.sort(key=lambda place: (self.joined.index(self.places[place][0]), place))
        return goal + opens

    def sign(self, twist):
        """The test whether an assignment counts negatively: whether there is an odd number of pairs of odd legs that
        stand in the goal in the reverse of their order in the word, and of odd twisted labels."""
        code = self.group.code
        unsigned, by_tensors = code.makes('no-exchange-signs'), code.makes('sign-by-tensor-parity')
        twisted = [] if twist and code.makes('twist-passed-over') else list(twist)
        traces = [label for label in self.positive if self.is_trace(*self.ends[label])]
        if traces and code.makes('supertrace-for-trace'):
            twisted += traces

        def is_odd(place, chosen):
            flux = self.members[self.places[place][0]][0].flux
            return self.group.is_odd(flux if by_tensors else self.leg(place).charges[chosen[self.labels[place]]])

        def is_negative(goal, chosen):
            odd = [place for place in goal if is_odd(place, chosen)]
            reversed_pairs = sum(earlier > later for earlier, later in combinations(odd, 2))
            odd_labels = sum(self.group.is_odd(self.leg(self.ends[label][0]).charges[chosen[label]])
                             for label in twisted)
            return (reversed_pairs + odd_labels) % 2 == 1 and not unsigned
        return is_negative

    def is_trace(self, first, second):
        """Whether both ends stand on one tensor, the incoming one first."""
        return self.places[first][0] == self.places[second][0] and not self.leg(first).out


def joined_order(members, order):
    """The numbers of the tensors in the order in which the labels, one after the other, bring them together."""
    groups = [[k] for k in range(len(members))]
    for label in order:
        meeting = [g for g in groups if any(label in members[k][1] for k in g)]
        if len(meeting) == 2:
            meeting[0].extend(meeting[1])
            groups.remove(meeting[1])
    return [k for g in groups for k in g]
