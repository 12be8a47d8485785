"""Amplitudes of matrix-product states, overlap and expectation (docs/FORMAT.md, section 7)."""

from .networks import value
from .tensors import ZERO, conjugate, read_tensor


def read_chain(group, documents):
    return [read_tensor(group, document) for document in documents]


def links(j, n, middle, link):
    """The labels of the tensor of site j of n: its link on the left, those of its site, its link on the right."""
    return ([link(j - 1)] if j > 1 else []) + middle + ([link(j)] if j < n else [])


def amplitudes(group, chain):
    """The amplitude at each basis state: the value of the chain with label j on link j and -j on the leg of site j."""
    n = len(chain)
    return value(group, [(tensor, links(j, n, [-j], lambda link: link)) for j, tensor in enumerate(chain, 1)]).entries


def bra_amplitudes(group, chain):
    """The conjugates of the amplitudes, or what a code has for them that makes mistakes with conjugates.

    The network of the conjugates of the tensors, from the last one to the first, has the legs of the sites from the
    last to the first. Its value is the conjugate of the amplitude.
    """
    code = group.code
    if not (code.makes('conjugate-not-reversed') or code.makes('bra-not-conjugated')):
        return {state: amplitude.conjugate() for state, amplitude in amplitudes(group, chain).items()}
    n = len(chain)
    members = []
    for j, tensor in reversed(list(enumerate(chain, 1))):
        labels = links(j, n, [j - n - 1], lambda link: link)
        kept = len(labels) > 1 and code.makes('conjugate-not-reversed')
        members.append((conjugate(group, tensor), labels if kept else labels[::-1]))
    return {state[::-1]: amplitude for state, amplitude in value(group, members).entries.items()}


def overlap(group, bra, ket):
    """The sum over basis states of the conjugate of the bra's amplitude times the ket's amplitude."""
    conjugates = bra_amplitudes(group, bra)
    return total(conjugates.get(state, ZERO) * amplitude for state, amplitude in amplitudes(group, ket).items())


def expectation(group, bra, operators, ket):
    """The same with the operator sum applied to each basis state of the ket."""
    conjugates = bra_amplitudes(group, bra)
    return total(conjugates.get(new, ZERO) * entry * amplitude
                 for state, amplitude in amplitudes(group, ket).items()
                 for new, entry in operators.on(state).items())


def total(terms):
    result = ZERO
    for term in terms:
        result = result + term
    return result


def flux(group, bra, ket, more=()):
    """The flux of an overlap or expectation: that of the ket and of the operators, less that of the bra."""
    charges = [tensor.flux for tensor in ket] + list(more)
    kept = group.code.makes('conjugate-charge-kept')
    return group.total(charges + [tensor.flux if kept else tuple(-part for part in tensor.flux) for tensor in bra])


def overlap_network(group, bra, ket):
    """The network of an overlap, whose steps tell where sums pass (docs/FORMAT.md, section 14)."""
    n = len(ket)
    above = [(conjugate(group, tensor), links(j, n, [3 * j - 2], lambda link: 3 * link - 1)[::-1])
             for j, tensor in enumerate(bra, 1)]
    return above[::-1] + [(tensor, links(j, n, [3 * j - 2], lambda link: 3 * link))
                          for j, tensor in enumerate(ket, 1)]
