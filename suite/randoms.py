"""Random small documents of every kind, for comparing a program with the model."""

from itertools import product

from model.mistakes import Code
from model.operators import Sum
from model.tensors import Group, combiner, read_leg

U = {'kind': 'u1', 'fermion': True}
B = {'kind': 'u1', 'fermion': False}


def zn(n, fermion):
    return {'kind': 'zn', 'n': n, 'fermion': fermion}


GROUPS = [[U], [U], [U], [B], [], [zn(2, True)], [zn(2, True)], [zn(4, True)], [zn(3, False)], [U, B], [B, U],
          [zn(2, True), zn(3, False)], [U, U], [U, zn(2, True), B], [zn(6, True), U], [U, B, zn(5, False), zn(2, True)]]


class Random:
    """Draws documents by the random numbers of `draw`, a random.Random; where wanted some labels are twisted."""

    def __init__(self, draw, twist=False):
        self.draw = draw
        self.twist = twist
        self.lines = 0
        self.size = 1

    def part(self, factor, spread):
        return self.draw.randrange(factor['n']) if factor['kind'] == 'zn' else self.draw.randint(-spread, spread)

    def charge(self, factors, spread=1):
        return [self.part(f, spread) for f in factors]

    def sectors(self, factors, most):
        return [[self.charge(factors), self.draw.choice([1, 1, 1, 2])]
                for _ in range(self.draw.randint(1, most))]

    def number(self, long_ones):
        size = self.draw.choice([1, 3, 9, 2 ** 31, 2 ** 62, 2 ** 63]) if long_ones else 4
        re, im = (self.draw.randint(-size, size) for _ in range(2))
        shape = self.draw.random()
        if shape < 0.4 and abs(re) < 2 ** 63:
            return re
        return [str(re), str(im)] if shape < 0.7 or size > 2 ** 61 else [re, im]

    def tensor(self, group, legs, long_ones=False, flux=None, full=0.85):
        """A tensor on these legs, whose flux is that of some tuple where none is given."""
        made = [read_leg(leg) for leg in legs]
        nets = {sectors: group.net(made, [leg.values_of(s)[0] for leg, s in zip(made, sectors)])
                for sectors in product(*[range(len(leg.sectors)) for leg in made])}
        if flux is None:
            odd = [net for net in nets.values() if group.is_odd(net)]
            flux = self.draw.choice(sorted(odd if odd and self.draw.random() < 0.5 else nets.values()))
        blocks = []
        for sectors in sorted(nets):
            if nets[sectors] == tuple(flux) and self.draw.random() < full:
                size = 1
                for leg, s in zip(made, sectors):
                    size *= leg.sectors[s][1]
                blocks.append([list(sectors), [self.number(long_ones) for _ in range(size)]])
        return {'legs': legs, 'flux': list(flux), 'blocks': blocks}

    def network(self):
        """A network in which about half of the legs are on lines between tensors; some tensors are combiners."""
        factors = self.draw.choice(GROUPS)
        group = Group(factors, Code())
        long_ones = self.draw.random() < 0.15
        members, ends, self.size = [], {}, 1    # for each line the members on it, and their legs
        for _ in range(self.draw.choice([1, 2, 3, 3, 4, 4, 5])):
            member, placed = self.member(group, self.placed_legs(factors, ends), long_ones)
            for line, leg in placed:
                ends.setdefault(line, []).append(leg)
            members.append((member, [line for line, _ in placed]))
        closed = [line for line in ends if len(ends[line]) == 2]
        opened = [line for line in ends if len(ends[line]) == 1]
        self.draw.shuffle(opened)
        labels = dict(zip(closed, self.draw.sample(range(1, 40), len(closed))))
        labels.update((line, -1 - i) for i, line in enumerate(opened))
        self.draw.shuffle(members)
        document = {'group': factors, 'tensors': [dict(member, labels=[labels[line] for line in lines])
                                                  for member, lines in members]}
        if self.draw.random() < 0.5:
            document['order'] = self.draw.sample([labels[line] for line in closed], len(closed))
        if self.twist:
            document['twist'] = sorted(labels[line] for line in closed if self.draw.random() < 0.5)
        return document

    def placed_legs(self, factors, ends):
        """Legs, each with the number of its line, in random order: second ends of lines, new lines, traced lines."""
        legs = []
        for _ in range(self.draw.choice([0, 1, 1, 2, 2, 2, 3, 4])):
            free = [line for line in ends if len(ends[line]) == 1 and all(line != taken for taken, _ in legs)]
            if free and self.draw.random() < 0.7:
                line = self.draw.choice(free)
                legs.append((line, self.turned(ends[line][0])))
            elif self.size < 300:
                leg = {'dir': self.draw.choice(['out', 'in']), 'sectors': self.sectors(factors, 3)}
                self.size *= sum(d for _, d in leg['sectors'])
                self.lines += 1
                legs.append((self.lines, leg))
                if self.size < 300 and self.draw.random() < 0.2:
                    legs.append((self.lines, self.turned(leg)))
        self.draw.shuffle(legs)
        return legs

    def member(self, group, placed, long_ones):
        """A tensor on these legs, or a combiner whose table has them and its fused leg; and its legs in order."""
        legs, values = [leg for _, leg in placed], 1
        for leg in legs:
            values *= sum(d for _, d in leg['sectors'])
        if not legs or values >= 40 or self.draw.random() < 0.7:
            return self.tensor(group, legs, long_ones), placed
        mode = self.draw.choice(['fuse', 'split'])
        own = [self.turned(leg) for leg in legs] if mode == 'fuse' else legs
        combine = {'dir': self.draw.choice(['out', 'in']), 'legs': own, 'mode': mode}
        fused = combiner(group, combine).legs[0 if mode == 'fuse' else -1]
        self.lines += 1
        end = (self.lines, {'dir': 'out' if fused.out else 'in', 'sectors': [[list(c), d] for c, d in fused.sectors]})
        return {'combine': combine}, [end] + placed[::-1] if mode == 'fuse' else placed + [end]

    @staticmethod
    def turned(leg):
        return {'dir': 'in' if leg['dir'] == 'out' else 'out', 'sectors': leg['sectors']}

    def states(self):
        """Two states and an operator sum on one to four sites."""
        kind = self.draw.choice(['fermion', 'fermion', 'spin_half', 'electron', 'electron', 'own', 'own'])
        factors = {'fermion': [U], 'spin_half': [B], 'electron': [U, B], 'own': self.draw.choice(GROUPS[:-1])}[kind]
        group = Group(factors, Code())
        n = self.draw.randint(1, 3 if kind in ('electron', 'own') else 4)
        sites = [{'kind': kind} if kind != 'own' else self.own_site(group) for _ in range(n)]
        mixed = {('fermion',): [U], ('spin_half',): [B]}
        for j in range(n):
            if mixed.get((kind,)) and self.draw.random() < 0.15:
                sites[j] = self.own_site(group)
        document = {'group': factors, 'sites': sites}
        operators = Sum(group, document)
        wanted, terms = None, []
        for _ in range(60):
            ops = [[self.draw.randint(1, n), None] for _ in range(self.draw.choice([0, 1, 1, 2, 2, 2, 3, 4]))]
            for op in ops:
                op[1] = self.draw.choice(sorted(operators.sites[op[0] - 1].operators))
            charge = group.total([operators.sites[j - 1].operators[name][0] for j, name in ops])
            if wanted is None:
                wanted = charge
            if charge == wanted and len(terms) < 5:
                terms.append({'coef': self.number(False), 'ops': ops})
        document['terms'] = terms
        long_ones = self.draw.random() < 0.1
        ket = self.chain(group, operators.sites, None, long_ones)
        total = group.total([t['flux'] for t in ket] + [wanted if self.draw.random() < 0.8 else group.zero()])
        document['bra'], document['ket'] = self.chain(group, operators.sites, total, long_ones), ket
        return document

    def own_site(self, group):
        sectors = self.sectors(group.factors, 3)
        charges = [c for c, d in sectors for _ in range(d)]
        operators = {}
        for name in self.draw.sample(['A', 'B', 'Z', 'c'], self.draw.randint(1, 3)):
            charge = group.total([self.draw.choice(charges), [-p for p in self.draw.choice(charges)]])
            operators[name] = {'charge': list(charge), 'table': [[
                self.number(False) if group.total([r, [-p for p in c]]) == charge else 0
                for c in charges] for r in charges]}
        return {'kind': 'own', 'sectors': sectors, 'ops': operators}

    def chain(self, group, sites, total, long_ones):
        """A state; its links' charges are drawn so that the blocks to the left can reach them."""
        n, chain, left = len(sites), [], None
        for j, site in enumerate(sites):
            own = {'dir': 'out', 'sectors': [[list(c), d] for c, d in site.leg.sectors]}
            legs = ([left] if left else []) + [own]
            flux = self.charge(group.factors) if self.draw.random() < 0.2 else list(group.zero())
            if j + 1 < n:
                made = [read_leg(leg) for leg in legs]
                nets = sorted({group.net(made, values) for values in product(*[range(len(m.charges)) for m in made])})
                out = self.draw.random() < 0.3
                reached = [group.total([c, [-p for p in flux]]) for c in self.draw.sample(nets, min(3, len(nets)))]
                sectors = [[list(group.minus(c) if out else c), self.draw.choice([1, 1, 2])] for c in reached]
                right = {'dir': 'out' if out else 'in', 'sectors': sectors}
                legs.append(right)
                left = self.turned(right)
            elif total is not None:
                flux = group.total([total] + [[-p for p in t['flux']] for t in chain])
            else:
                flux = None
            chain.append(self.tensor(group, legs, long_ones, flux, 0.9))
        return chain
