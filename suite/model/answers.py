"""The text that a command answers to a document (docs/FORMAT.md, sections 1, 2 and 12)."""

import json
from itertools import product

from .mistakes import Code
from .networks import positive_labels, read_network, value
from .operators import Sum
from .states import expectation, flux, overlap, overlap_network, read_chain
from .steps import Plan, first_passing, place_of
from .tensors import ZERO, Gaussian, Group, Tensor


def answer(command, document, code=None):
    """The line that `command` answers to a well-formed document: a tensor, or the place at which a sum passes.

    `mpo` is answered by the matrix of the operator sum, as the tensor that its network is worth.
    """
    group = Group(document['group'], code or Code())
    passing = first_place(command, group, document)
    if passing:
        step, sectors, offset = passing
        return 'qntn: passed step %d at [%s] offset %d' % (step, ','.join(map(str, sectors)), offset)
    return written(group, worth(command, group, document))


def exact_value(command, document):
    """The answer of a code whose numbers have no limit."""
    group = Group(document['group'], Code())
    return written(group, worth(command, group, document))


def worth(command, group, document):
    """The tensor that a document is worth to a command."""
    if command == 'contract':
        return value(group, *read_network(group, document))
    if command == 'mpo':
        return matrix(Sum(group, document))
    bra, ket = read_chain(group, document['bra']), read_chain(group, document['ket'])
    if command == 'overlap':
        return scalar(flux(group, bra, ket), overlap(group, bra, ket))
    operators = Sum(group, document)
    return scalar(flux(group, bra, ket, [operators.flux()]), expectation(group, bra, operators, ket))


def scalar(charge, number):
    """A tensor without legs: it has an entry only where its flux is zero."""
    return Tensor([], charge, {(): number} if not any(charge) else {})


def matrix(operators):
    """The matrix of an operator sum, with the legs s'1, .., s'n, sn, .., s1."""
    legs = [site.leg for site in operators.sites]
    entries = {}
    for column in product(*[range(len(leg.charges)) for leg in legs]):
        for row, entry in operators.on(column).items():
            entries[row + column[::-1]] = entry
    return Tensor(legs + [leg.turned() for leg in legs[::-1]], operators.flux(), entries)


def first_place(command, group, document):
    """The first place at which a sum of magnitudes passes the limit, or None; for contract and overlap alone."""
    if command not in ('contract', 'overlap') or group.code.makes('wraps-at-64-bits'):
        return None
    if command == 'contract':
        members, order, _ = read_network(group, document)
        tables = [member.get('combine', {}).get('mode') for member in document['tensors']]
    else:
        members = overlap_network(group, read_chain(group, document['bra']), read_chain(group, document['ket']))
        order, tables = positive_labels(members), [None] * len(members)
    return first_passing(group, members, order, tables)


def written(group, tensor):
    """The text of a tensor: compact JSON, keys ascending, blocks ascending, no block whose entries are all 0."""
    blocks = {}
    for values, entry in tensor.entries.items():
        if group.code.makes('wraps-at-64-bits'):
            entry = Gaussian(*[(part + 2 ** 63) % 2 ** 64 - 2 ** 63 for part in entry])
        if entry != ZERO:
            sectors, offset = place_of(tensor.legs, values)
            blocks.setdefault(sectors, {})[offset] = entry
    texts = []
    for sectors in sorted(blocks):
        size = 1
        for leg, sector in zip(tensor.legs, sectors):
            size *= leg.sectors[sector][1]
        entries = [blocks[sectors].get(offset, ZERO) for offset in range(size)]
        texts.append([list(sectors), [[str(entry.re), str(entry.im)] for entry in entries]])
    factors = [{'fermion': f['fermion'], 'kind': 'zn', 'n': f['n']} if f['kind'] == 'zn' else
               {'fermion': f['fermion'], 'kind': 'u1'} for f in group.factors]
    legs = [{'dir': 'out' if leg.out else 'in', 'sectors': [[list(c), d] for c, d in leg.sectors]}
            for leg in tensor.legs]
    return json.dumps({'blocks': texts, 'flux': list(tensor.flux), 'group': factors, 'legs': legs},
                      separators=(',', ':'), sort_keys=True)


def plan(document):
    """The text of a network's plan."""
    group = Group(document['group'], Code())
    members, order, _ = read_network(group, document)
    tables = [member.get('combine', {}).get('mode') for member in document['tensors']]
    steps = Plan(group, members, order, tables).steps
    lines = [{'cost': step.cost, 'kind': step.kind, 'labels': step.labels,
              'of': [part.members[0] + 1 for part in step.parts]} for step in steps]
    return json.dumps({'cost': sum(step.cost for step in steps), 'steps': lines}, separators=(',', ':'), sort_keys=True)
