#!/usr/bin/env python3
"""A worked adapter: a small dense code over NumPy, as a user might have one, made to answer the suite.

    suite/judge --relative 1e-10 --lines python3 suite/adapter_numpy.py

The first part is the code: arrays with the parities (0 or 1) of each leg's values, and signs where odd values are
exchanged. The second part is the adapter: it reads documents and writes answers, and says what is not supported: by
status 77 or, where it is started once for all documents, by the line `unsupported`.
"""
import json
import sys
from itertools import product

import numpy as np


# The code.

def is_odd(group, charge):
    return sum(q for q, f in zip(charge, group) if f['fermion']) % 2


def total(group, charges):
    sums = [sum(parts) for parts in zip(*charges)] or [0] * len(group)
    return [q % f['n'] if f['kind'] == 'zn' else q for q, f in zip(sums, group)]


def starts(leg):
    return np.cumsum([0] + [d for _, d in leg['sectors']])


def transposed(array, odd, order):
    """The legs in another order, with a sign for each two odd values that are exchanged."""
    for place, i in enumerate(order):
        for j in order[place + 1:]:
            if i > j:
                shape = [n if k in (i, j) else 1 for k, n in enumerate(array.shape)]
                array = array * (1 - 2 * np.outer(odd[j], odd[i])).reshape(shape)
    return array.transpose(order)


def contracted(group, tensors):
    """The tensors multiplied one after the other; a line is summed as soon as it has both ends, the incoming first."""
    array, odd, legs, labels = np.ones(()), [], [], []
    for tensor in tensors:
        more = dense(group, tensor)
        array, odd = np.multiply.outer(array, more[0]), odd + more[1]
        legs, labels = legs + tensor['legs'], labels + tensor['labels']
        for label in [x for x in set(labels) if labels.count(x) == 2]:
            ends = [k for k, x in enumerate(labels) if x == label]
            ends.sort(key=lambda k: legs[k]['dir'] == 'out')
            order = ends + [k for k in range(len(labels)) if k not in ends]
            array = np.trace(transposed(array, odd, order))
            odd, legs, labels = [[x[k] for k in order[2:]] for x in (odd, legs, labels)]
    order = sorted(range(len(labels)), key=lambda k: -labels[k])
    return transposed(array, odd, order), [legs[k] for k in order]


def amplitudes(group, chain):
    n = len(chain)
    return contracted(group, [dict(t, labels=([j] if j else []) + [-1 - j] + ([j + 1] if j + 1 < n else []))
                              for j, t in enumerate(chain)])


def applied(group, document, ket, legs):
    """The operator sum applied to the ket: an odd operator has the parities of the sites before it for a string."""
    result = 0
    for term in document['terms']:
        vector = ket * number(term['coef'])
        for site, name in reversed(term['ops']):
            charge, table = operator(group, document['sites'][site - 1], name)
            vector = np.moveaxis(np.tensordot(table, vector, (1, site - 1)), 0, site - 1)
            for before in range(site - 1 if is_odd(group, charge) else 0):
                signs = [1 - 2 * is_odd(group, c) for c, d in legs[before]['sectors'] for _ in range(d)]
                vector = vector * np.reshape(signs, [-1 if k == before else 1 for k in range(vector.ndim)])
        result = result + vector
    return result


# The adapter.

def number(entry):
    return complex(*map(float, entry)) if isinstance(entry, list) else complex(float(entry))


def dense(group, tensor):
    array = np.zeros([starts(leg)[-1] for leg in tensor['legs']], dtype=complex)
    for sectors, data in tensor['blocks']:
        block = tuple(slice(starts(leg)[s], starts(leg)[s + 1]) for s, leg in zip(sectors, tensor['legs']))
        array[block] = np.reshape([number(entry) for entry in data], array[block].shape)
    return array, [np.repeat([is_odd(group, c) for c, _ in leg['sectors']], [d for _, d in leg['sectors']])
                   for leg in tensor['legs']]


def operator(group, site, name):
    """The charge and the matrix of an operator."""
    if site['kind'] == 'fermion':
        return {'I': ([0], np.eye(2)), 'N': ([0], np.diag([0, 1])), 'C': ([-1], np.array([[0, 1], [0, 0]])),
                'Cdag': ([1], np.array([[0, 0], [1, 0]]))}[name]
    if site['kind'] != 'own':
        raise NotImplementedError
    if name == 'I':
        return [0] * len(group), np.eye(starts(site)[-1])
    return site['ops'][name]['charge'], np.array([[number(e) for e in row] for row in site['ops'][name]['table']])


def written(group, flux, array, legs):
    blocks = []
    for sectors in product(*[range(len(leg['sectors'])) for leg in legs]):
        part = array[tuple(slice(starts(leg)[s], starts(leg)[s + 1]) for s, leg in zip(sectors, legs))]
        if np.any(part):
            blocks.append([sectors, [[str(z.real), str(z.imag)] for z in part.flatten()]])
    return json.dumps({'blocks': blocks, 'flux': flux, 'group': group, 'legs': legs})


def answer(command, document):
    group, tensors = document['group'], document.get('tensors', [])
    if command not in ('contract', 'overlap', 'expect') or 'twist' in document or any('combine' in t for t in tensors):
        raise NotImplementedError
    if command == 'contract':
        return written(group, total(group, [t['flux'] for t in tensors]), *contracted(group, tensors))
    (bra, _), (ket, legs) = [amplitudes(group, document[name]) for name in ('bra', 'ket')]
    charges = [t['flux'] for t in document['ket']] + [[-q for q in t['flux']] for t in document['bra']]
    if command == 'expect':
        ket = applied(group, document, ket, legs)
        charges += [operator(group, document['sites'][j - 1], name)[0] for j, name in document['terms'][0]['ops']]
    return written(group, total(group, charges), np.array(np.sum(np.conj(bra) * ket)), [])


def answers(command):
    """One answer for the command of the arguments, or with `lines` one for each line."""
    pairs = (line.split(' ', 1) for line in sys.stdin) if command == 'lines' else [(command, sys.stdin.read())]
    for name, text in pairs:
        try:
            print(answer(name, json.loads(text)), flush=True)
        except NotImplementedError:
            if command != 'lines':
                sys.exit(77)
            print('unsupported', flush=True)


if __name__ == '__main__':
    answers(sys.argv[1])
