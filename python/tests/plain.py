"""What a network is worth, by the definition in docs/FORMAT.md: one signed sum over all assignments.

Written for these tests alone, over dense entries; it shares nothing with the program, and with the package
only the classes that hold the data.
"""

import itertools

from wandrosu import Gaussian


def value(network):
    """A dict from values of the open legs to the network's value there, zeros left out."""
    group = network.group
    word, goal = [], []
    for number, (tensor, labels) in enumerate(network.tensors):
        for place, label in enumerate(labels):
            word.append((label, tensor.legs[place]))
    for label in network.labels:
        ends = [k for k, (other, _) in enumerate(word) if other == label]
        goal += sorted(ends, key=lambda k: word[k][1].direction != "in")
    opens = network.open_labels
    goal += [k for label in opens for k, (other, _) in enumerate(word) if other == label]
    rank = {k: place for place, k in enumerate(goal)}
    entries = [dense(tensor) for tensor, _ in network.tensors]
    parity = [[group.parity(charge) for charge in leg.charges] for _, leg in word]
    found = {}
    for choice in itertools.product(*entries):
        at, product, fits = {}, Gaussian(1), True
        values = [v for entry, _ in choice for v in entry]
        for (label, _), v in zip(word, values):
            fits = fits and at.setdefault(label, v) == v
        if not fits:
            continue
        for _, number in choice:
            product = product * number
        odd = [k for k, v in enumerate(values) if parity[k][v]]
        swaps = sum(rank[a] > rank[b] for a, b in itertools.combinations(odd, 2))
        key = tuple(at[label] for label in opens)
        found[key] = found.get(key, Gaussian(0)) + (-product if swaps % 2 else product)
    return {key: number for key, number in found.items() if number}


def dense(tensor):
    """The entries other than 0, each with its values."""
    found = []
    for sectors, (real, imaginary) in tensor.blocks.items():
        first = [sum(dim for _, dim in leg.sectors[:s]) for leg, s in zip(tensor.legs, sectors)]
        for inner in itertools.product(*(range(n) for n in real.shape)):
            number = Gaussian(real[inner], imaginary[inner])
            if number:
                found.append((tuple(a + b for a, b in zip(first, inner)), number))
    return found
