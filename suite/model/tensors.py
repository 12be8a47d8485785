"""Numbers, charges, legs, tensors and combiners (docs/FORMAT.md, sections 4 and 5)."""

from collections import namedtuple
from itertools import product


class Gaussian(namedtuple('Gaussian', 're im')):
    """The number re + im i, with whole parts of any size."""

    __slots__ = ()

    def __add__(self, other):
        return Gaussian(self.re + other.re, self.im + other.im)

    def __mul__(self, other):
        return Gaussian(self.re * other.re - self.im * other.im, self.re * other.im + self.im * other.re)

    def __neg__(self):
        return Gaussian(-self.re, -self.im)

    def conjugate(self):
        return Gaussian(self.re, -self.im)

    def magnitude(self):
        return abs(self.re) + abs(self.im)


ZERO = Gaussian(0, 0)
ONE = Gaussian(1, 0)


def read_number(entry):
    """A part, which is the real one, or a list of both; a part is a number or a text."""
    parts = entry if isinstance(entry, list) else [entry, 0]
    return Gaussian(int(parts[0]), int(parts[1]))


class Group:
    """A product of factors U(1) and Z_n, each bosonic or fermionic. A charge is a tuple with a part for each factor.

    The group knows also by which code it is used, and so which mistakes are made.
    """

    def __init__(self, factors, code):
        self.factors = factors
        self.code = code
        self.keeps_sums = any(f['kind'] == 'zn' for f in factors) and code.makes('zn-not-reduced')
        bosons_count = not all(f['fermion'] for f in factors) and code.makes('all-factors-fermionic')
        self.counts = [bosons_count or f['fermion'] for f in factors]

    def reduced(self, charge):
        if self.keeps_sums:
            return tuple(charge)
        return tuple(part % f['n'] if f['kind'] == 'zn' else part for part, f in zip(charge, self.factors))

    def zero(self):
        return tuple(0 for _ in self.factors)

    def total(self, charges):
        """The sum of charges."""
        return self.reduced([sum(parts) for parts in zip(self.zero(), *charges)])

    def minus(self, charge):
        return self.reduced([-part for part in charge])

    def is_odd(self, charge):
        """The parity of a charge: whether its fermionic parts add up to an odd number."""
        return sum(part for part, counts in zip(charge, self.counts) if counts) % 2 == 1

    def net(self, legs, values):
        """The charges of the legs that point out, less those of the legs that point in."""
        charges = [leg.charges[value] for leg, value in zip(legs, values)]
        return self.total([c if leg.out else tuple(-part for part in c) for leg, c in zip(legs, charges)])


class Leg:
    """An arrow and a list of sectors (charge, dimension). The leg's values are counted from 0, sector after sector."""

    def __init__(self, out, sectors):
        self.out = out
        self.sectors = [(tuple(charge), dimension) for charge, dimension in sectors]
        self.charges = [charge for charge, dimension in self.sectors for _ in range(dimension)]
        self.places = [(s, i) for s, (_, dimension) in enumerate(self.sectors) for i in range(dimension)]

    def turned(self):
        """The leg with the other arrow."""
        return Leg(not self.out, self.sectors)

    def values_of(self, sector):
        """The values of a sector."""
        return [value for value, (s, _) in enumerate(self.places) if s == sector]


def read_leg(document):
    return Leg(document['dir'] == 'out', document['sectors'])


class Tensor:
    """Legs, a flux, and the entries other than 0, by their values. An entry stands only where the net charge of its
    values is the flux."""

    def __init__(self, legs, flux, entries):
        self.legs = legs
        self.flux = flux
        self.entries = {values: entry for values, entry in entries.items() if entry != ZERO}


def read_tensor(group, document):
    legs = [read_leg(leg) for leg in document['legs']]
    flux = tuple(document['flux'])
    entries = {}
    for sectors, data in document['blocks']:
        ranges = [leg.values_of(sector) for leg, sector in zip(legs, sectors)]
        for values, entry in zip(listed(group.code, ranges, 'first-leg-fastest'), data):
            if group.net(legs, values) == flux:
                entries[values] = read_number(entry)
    return Tensor(legs, flux, entries)


def listed(code, ranges, mistake):
    """All tuples of the ranges in order, the last one the fastest; with the mistake the first one."""
    if len(ranges) > 1 and code.makes(mistake):
        return [backwards[::-1] for backwards in product(*ranges[::-1])]
    return list(product(*ranges))


def conjugate(group, tensor):
    """The legs in the reverse order, each with the other arrow, the negated flux, and conjugated entries."""
    code = group.code
    keep = len(tensor.legs) > 1 and code.makes('conjugate-not-reversed')
    plain = code.makes('bra-not-conjugated')
    order = (lambda things: things) if keep else (lambda things: things[::-1])
    entries = {order(values): entry if plain else entry.conjugate() for values, entry in tensor.entries.items()}
    return Tensor(order([leg.turned() for leg in tensor.legs]), group.minus(tensor.flux), entries)


def combiner(group, document):
    """The tensor of flux zero that a combiner stands for: its fuse table or its split table."""
    code = group.code
    legs = [read_leg(leg) for leg in document['legs']]
    out = document['dir'] == 'out'
    by_charge = {}
    for sectors in listed(code, [range(len(leg.sectors)) for leg in legs], 'fused-first-leg-fastest'):
        for values in listed(code, [leg.values_of(s) for leg, s in zip(legs, sectors)], 'fused-first-leg-fastest'):
            charge = group.net(legs, values)
            by_charge.setdefault(charge if out else group.minus(charge), []).append(values)
    fused = Leg(out, [(charge, len(by_charge[charge])) for charge in sorted(by_charge)])
    matching = [values for charge in sorted(by_charge) for values in by_charge[charge]]
    entries = {}
    for value, values in enumerate(matching):
        if document['mode'] == 'fuse':
            odd = sum(group.is_odd(leg.charges[v]) for leg, v in zip(legs, values) if not leg.out) % 2 == 1
            signed = odd and not code.makes('fuse-without-sign')
            entries[(value,) + values[::-1]] = -ONE if signed else ONE
        else:
            odd = not out and group.is_odd(fused.charges[value])
            signed = odd and not code.makes('split-without-sign')
            entries[values + (value,)] = -ONE if signed else ONE
    if document['mode'] == 'fuse':
        return Tensor([fused] + [leg.turned() for leg in legs[::-1]], group.zero(), entries)
    return Tensor(legs + [fused.turned()], group.zero(), entries)
