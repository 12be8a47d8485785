"""Sites, operators, and what an operator sum does to basis states (docs/FORMAT.md, section 6)."""

from .tensors import ONE, ZERO, Gaussian, Leg, read_number

# Kinds of sites: the charges of their values, and for each operator its charge and its entries (row, column).
SPIN_HALF = ([(1,), (-1,)], {
    'Z': ((0,), {(0, 0): 1, (1, 1): -1}), 'Sp': ((2,), {(0, 1): 1}), 'Sm': ((-2,), {(1, 0): 1})})
FERMION = ([(0,), (1,)], {
    'N': ((0,), {(1, 1): 1}), 'C': ((-1,), {(0, 1): 1}), 'Cdag': ((1,), {(1, 0): 1})})


def electron(down_first):
    """Values: empty, up, down, both. Both is Cdagup Cdagdn applied to empty, or Cdagdn Cdagup where down comes first.

    The mode that comes second passes the first one, and so has the sign of its occupation.
    """
    up, down = (-1, 1) if down_first else (1, -1)
    return ([(0, 0), (1, 1), (1, -1), (2, 0)], {
        'Nup': ((0, 0), {(1, 1): 1, (3, 3): 1}), 'Ndn': ((0, 0), {(2, 2): 1, (3, 3): 1}),
        'Cup': ((-1, -1), {(0, 1): 1, (2, 3): up}), 'Cdagup': ((1, 1), {(1, 0): 1, (3, 2): up}),
        'Cdn': ((-1, 1), {(0, 2): 1, (1, 3): down}), 'Cdagdn': ((1, -1), {(2, 0): 1, (3, 1): down})})


class Site:
    """A leg that points out, and operators by name: their charge and their entries by row and column."""

    def __init__(self, group, sectors, operators):
        self.leg = Leg(True, sectors)
        self.operators = {'I': (group.zero(), {(v, v): ONE for v in range(len(self.leg.charges))})}
        for name, (charge, entries) in operators.items():
            kept = {(row, column): entry for (row, column), entry in entries.items()
                    if entry != ZERO and group.total([self.leg.charges[row], tuple(
                        -part for part in self.leg.charges[column])]) == charge}
            self.operators[name] = (charge, kept)


def read_site(group, document):
    code = group.code
    if document['kind'] == 'own':
        operators = {}
        for name, operator in document['ops'].items():
            rows = operator['table']
            if code.makes('tables-transposed'):
                rows = list(zip(*rows))
            entries = {(r, c): read_number(entry) for r, row in enumerate(rows) for c, entry in enumerate(row)}
            operators[name] = (tuple(operator['charge']), entries)
        return Site(group, document['sectors'], operators)
    charges, tables = {'spin_half': lambda: SPIN_HALF, 'fermion': lambda: FERMION,
                       'electron': lambda: electron(code.makes('electron-down-first'))}[document['kind']]()
    operators = {name: (charge, {place: Gaussian(entry, 0) for place, entry in entries.items()})
                 for name, (charge, entries) in tables.items()}
    return Site(group, [(charge, 1) for charge in charges], operators)


class Sum:
    """An operator sum: its sites and its terms, each a coefficient and a list of operators (site from 0, name)."""

    def __init__(self, group, document):
        self.group = group
        self.sites = [read_site(group, site) for site in document['sites']]
        self.terms = [(read_number(term['coef']), [(site - 1, name) for site, name in term['ops']])
                      for term in document.get('terms', [])]

    def flux(self):
        """The charge of the terms, which is the same for all."""
        return self.group.total([self.sites[site].operators[name][0] for site, name in self.terms[0][1]])

    def on(self, state):
        """The sum applied to a basis state, a tuple with the value of each site: a dictionary of basis states."""
        result = {}
        for coefficient, operators in self.terms:
            vector = {state: coefficient}
            order = operators if len(operators) > 1 and self.group.code.makes('operators-left-to-right') \
                else operators[::-1]
            for site, name in order:
                vector = self.acted(site, name, vector)
            for each, amplitude in vector.items():
                result[each] = result.get(each, ZERO) + amplitude
        return {each: amplitude for each, amplitude in result.items() if amplitude != ZERO}

    def acted(self, site, name, vector):
        """One operator applied to a vector. An odd operator has the sign of the odd values on the sites before its
        own (Jordan and Wigner); then it acts on its site by its table."""
        charge, entries = self.sites[site].operators[name]
        result = {}
        for state, amplitude in vector.items():
            for (row, column), entry in entries.items():
                if state[site] == column:
                    new = state[:site] + (row,) + state[site + 1:]
                    negative = self.group.is_odd(charge) and self.string_is_odd(site, state, new)
                    term = entry * amplitude
                    result[new] = result.get(new, ZERO) + (-term if negative else term)
        return result

    def string_is_odd(self, site, state, new):
        code = self.group.code
        if code.makes('no-strings'):
            return False
        covered = range(site + 1, len(state)) if code.makes('strings-on-the-right') else range(site)
        values = [(j, state[j]) for j in covered]
        if code.makes('strings-with-the-site'):
            values.append((site, state[site]))
        if code.makes('strings-with-the-site-after'):
            values.append((site, new[site]))
        return sum(self.group.is_odd(self.sites[j].leg.charges[value]) for j, value in values) % 2 == 1
