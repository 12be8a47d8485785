"""Random groups, legs, tensors and networks, from a random generator of Python."""

import itertools
import random

import numpy as np
from hypothesis import strategies as st

from wandrosu import U1, Gaussian, Group, Leg, Network, Tensor, Zn

F, B = U1(fermion=True), U1()
GROUPS = [
    Group(),
    B,
    F,
    Zn(2, fermion=True),
    Zn(3),
    Zn(4, fermion=True),
    F * B,
    Zn(2, fermion=True) * Zn(3),
    F * F * B * Zn(2),
]

seeds = st.integers(0, 2**32 - 1)


def random_group(rnd: random.Random) -> Group:
    return rnd.choice(GROUPS)


def random_charge(rnd, group, width=2):
    return tuple(rnd.randint(-width, width) if f.n is None else rnd.randrange(f.n) for f in group)


def random_leg(rnd, group, sectors=3, dim=3):
    pairs = [(random_charge(rnd, group), rnd.randint(1, dim)) for _ in range(rnd.randint(1, sectors))]
    return Leg(rnd.choice(["out", "in"]), pairs, group)


def random_entry(rnd, bits):
    real = rnd.randint(-(2**bits), 2**bits)
    return Gaussian(real, rnd.randint(-(2**bits), 2**bits)) if rnd.random() < 0.4 else Gaussian(real)


def admissible(legs, flux, group):
    """The tuples of sectors that the flux admits, written out by the definition."""
    for sectors in itertools.product(*(range(len(leg.sectors)) for leg in legs)):
        total = list(group.zero)
        for leg, s in zip(legs, sectors):
            for k, part in enumerate(leg.sectors[s][0]):
                total[k] += part if leg.direction == "out" else -part
        if all((a - b) % f.n == 0 if f.n else a == b for a, b, f in zip(total, flux, group)):
            yield sectors


def filled_tensor(rnd, legs, group, bits=3, flux=None, zeros=0.3):
    """A tensor on these legs, whose flux admits some tuple where none is given."""
    if flux is None:
        flux = group.zero
        for leg in legs:
            charge = rnd.choice(leg.sectors)[0]
            flux = group.add(flux, charge if leg.direction == "out" else group.negate(charge))
    blocks = {}
    for sectors in admissible(legs, flux, group):
        data = np.zeros([leg.sectors[s][1] for leg, s in zip(legs, sectors)], object)
        for place in np.ndindex(*data.shape):
            data[place] = Gaussian(0) if rnd.random() < zeros else random_entry(rnd, bits)
        blocks[sectors] = data
    return Tensor(legs, flux, blocks, group)


def random_tensor(rnd, group=None, legs=3, bits=3):
    group = random_group(rnd) if group is None else group
    return filled_tensor(rnd, [random_leg(rnd, group) for _ in range(rnd.randint(0, legs))], group, bits)


def random_network(rnd, group=None, tensors=4, bits=3):
    """A network whose labels are without fault: each bond's two legs are dealt to any two tensors, or to one."""
    group = random_group(rnd) if group is None else group
    count = rnd.randint(1, tensors)
    ends = [[] for _ in range(count)]
    for label in range(1, rnd.randint(0, count + 1) + 1):
        leg = random_leg(rnd, group, 2, 2)
        ends[rnd.randrange(count)].append((label, leg))
        ends[rnd.randrange(count)].append((label, leg.turned()))
    for label in range(1, rnd.randint(0, 3) + 1):
        ends[rnd.randrange(count)].append((-label, random_leg(rnd, group, 2, 2)))
    members = []
    for own in ends:
        rnd.shuffle(own)
        members.append((filled_tensor(rnd, [leg for _, leg in own], group, bits), [label for label, _ in own]))
    order = None
    if rnd.random() < 0.5:
        order = sorted({label for own in ends for label, _ in own if label > 0})
        rnd.shuffle(order)
    return Network(members, order, group=group)
