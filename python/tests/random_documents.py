"""Random documents of all kinds, right ones and such as were changed at random."""

import copy

from random_tensors import B, F, filled_tensor, random_group, random_leg, random_network

from wandrosu import Combiner, Leg, Network, OperatorSum, ProductState, Site, State, states_document

ELECTRON = F * B


def random_document(rnd):
    """A command and a document that it reads, mostly without fault."""
    kind = rnd.choice(["network", "network", "combiner", "sum", "states", "expect"])
    if kind == "network":
        return rnd.choice(["contract", "plan"]), random_network(rnd, bits=rnd.choice([2, 20, 62, 100])).document()
    if kind == "combiner":
        return "contract", combiner_network(rnd).document()
    sites, names = random_sites(rnd)
    operator = random_sum(rnd, sites, names)
    if kind == "sum":
        return "mpo", operator.document()
    bra, ket = random_state(rnd, sites), random_state(rnd, sites)
    document = states_document(bra, ket, operator if kind == "expect" or rnd.random() < 0.3 else None)
    return ("expect" if kind == "expect" else "overlap"), document


def combiner_network(rnd):
    """A tensor some of whose legs are fused, and sometimes split again."""
    group = random_group(rnd)
    legs = [random_leg(rnd, group, 2, 2) for _ in range(rnd.randint(1, 3))]
    tensor = filled_tensor(rnd, legs + [random_leg(rnd, group, 2, 2)], group)
    count = len(legs)
    fuse = Combiner(rnd.choice(["out", "in"]), legs, "fuse")
    members = [(fuse, [-1, *range(count, 0, -1)]), (tensor, [*range(1, count + 1), -2])]
    if rnd.random() < 0.5:
        members[0] = (fuse, [count + 1, *range(count, 0, -1)])
        split = Combiner(fuse.direction, legs, "split")
        members.append((split, [*range(-1, -1 - count, -1), count + 1]))
        members[1] = (tensor, [*range(1, count + 1), -1 - count])
    return Network(members)


def random_sites(rnd):
    """Two to four sites of one group and the operators that each has."""
    kind = rnd.choice(["fermion", "spin_half", "electron", "own"])
    count = rnd.randint(1, 4)
    if kind != "own":
        operators = {
            "fermion": ["N", "C", "Cdag", "I"],
            "spin_half": ["Z", "Sp", "Sm"],
            "electron": ["Nup", "Ndn", "Cup", "Cdagup", "Cdn", "Cdagdn"],
        }
        return [Site(kind)] * count, operators[kind]
    leg = Leg("out", [(0, 1), (1, rnd.randint(1, 2))], rnd.choice([F, B]))
    n = leg.dim
    raising = [[0] * n for _ in range(n)]
    raising[1][0] = rnd.randint(1, 3)
    number = [[0] * n for _ in range(n)]
    number[1][1] = 1j
    lowering = [list(row) for row in zip(*raising)]
    return [Site("own", leg, {"A": (1, raising), "D": (-1, lowering), "M": (0, number)})] * count, ["A", "D", "M", "I"]


CHARGES = {
    "fermion": {"N": 0, "C": -1, "Cdag": 1, "I": 0},
    "spin_half": {"Z": 0, "Sp": 2, "Sm": -2},
    "electron": {"Nup": (0, 0), "Ndn": (0, 0), "Cup": (-1, -1), "Cdagup": (1, 1), "Cdn": (-1, 1), "Cdagdn": (1, -1)},
    "own": {"A": 1, "D": -1, "M": 0, "I": 0},
}


def random_sum(rnd, sites, names):
    """Terms of one charge, that of the first."""
    charge, group = CHARGES[sites[0].kind], sites[0].group
    terms, wanted = [], None
    for _ in range(60):
        ops = [(rnd.choice(names), rnd.randint(1, len(sites))) for _ in range(rnd.randint(0, 3))]
        total = group.add(*(charge[name] for name, _ in ops))
        wanted = total if wanted is None else wanted
        if total == wanted:
            terms.append([rnd.choice([1, -1, 2, 3j, 2**70])] + [word for op in ops for word in op])
        if len(terms) == 5:
            break
    return OperatorSum(sites, terms)


def random_state(rnd, sites):
    """A product state, or one with random amplitudes of one charge."""
    values = [rnd.randrange(site.leg.dim) for site in sites]
    if rnd.random() < 0.3:
        return ProductState(sites, values)
    charge = sites[0].group.add(*(site.leg.charges[v] for site, v in zip(sites, values)))
    amplitudes = {tuple(values): 1}
    for _ in range(20):
        other = tuple(rnd.randrange(site.leg.dim) for site in sites)
        if sites[0].group.add(*(site.leg.charges[v] for site, v in zip(sites, other))) == charge:
            amplitudes[other] = rnd.randint(-3, 3) + rnd.randint(0, 2) * 1j
    amplitudes[tuple(values)] = 1
    return State.from_vector(sites, amplitudes)


WRONG = [None, True, 2.0, -1, 2**63, "x", "12", [], {}, [[0], 1]]


def places(document, path=()):
    """The paths to all values of a document."""
    items = (
        document.items() if isinstance(document, dict) else enumerate(document) if isinstance(document, list) else ()
    )
    for key, value in items:
        yield path + (key,)
        yield from places(value, path + (key,))


def with_value(document, path, value):
    """The document with another value there."""
    document = copy.deepcopy(document)
    inner = document
    for key in path[:-1]:
        inner = inner[key]
    inner[path[-1]] = value
    return document


def without(document, path):
    """The document with the key, or the item, left out."""
    document = copy.deepcopy(document)
    inner = document
    for key in path[:-1]:
        inner = inner[key]
    del inner[path[-1]]
    return document


def changed_at_random(rnd, document):
    """The document with one value exchanged, left out, given twice or added."""
    path = rnd.choice(list(places(document)))
    how = rnd.random()
    if how < 0.55:
        return with_value(document, path, copy.deepcopy(rnd.choice(WRONG)))
    if how < 0.8:
        return without(document, path)
    if how < 0.9:
        return {**document, rnd.choice(["version", "comment", "twist_", "order_"]): rnd.choice([1, 2, "x", None])}
    return with_value(document, path, {"unknown": [1.5, None]})
