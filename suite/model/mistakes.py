"""The mistakes that tensor network codes make, which the model can make too."""

MISTAKES = {
    # networks
    'no-exchange-signs': 'odd legs are exchanged without a sign',
    'no-sign-out-before-in': 'no sign where the outgoing end of a line comes before its incoming end',
    'sign-by-tensor-parity': "exchanged legs get their sign by their tensors' parities in place of their values'",
    'odd-tensors-move-freely': 'odd tensors that are brought together pass others without a sign',
    'open-legs-move-freely': 'the open legs of the result are brought into order without a sign',
    'supertrace-for-trace': 'a tensor traced over an incoming and then an outgoing leg is supertraced',
    'all-factors-fermionic': 'the parity of a charge counts its bosonic parts too',
    'zn-not-reduced': 'sums of Z_n charges are not reduced: blocks that conserve charge only modulo n are lost',
    'first-leg-fastest': 'the entries of a block are read with the first leg fastest (column-major)',
    'fuse-without-sign': 'no sign in the fuse table of a combiner',
    'split-without-sign': 'no sign in the split table of a combiner',
    'fused-first-leg-fastest': 'the values of a fused leg are listed with the first leg fastest',
    'twist-passed-over': 'twisted labels are taken for plain ones',
    # states
    'bra-not-conjugated': 'the entries of the bra are not conjugated',
    'conjugate-not-reversed': 'the conjugate of a tensor has its legs in the same order, not in the reverse',
    'conjugate-charge-kept': 'the charge of a conjugate is not negated',
    # operators
    'no-strings': 'odd operators have no Jordan-Wigner string',
    'strings-on-the-right': "the string of an operator covers the sites after its own, not those before it",
    'strings-with-the-site': "the string of an operator covers its own site too, as it is before the operator",
    'strings-with-the-site-after': "the string of an operator covers its own site too, as it is after the operator",
    'operators-left-to-right': 'the operators of a term act from left to right',
    'electron-down-first': 'the doubly occupied site is Cdagdn Cdagup applied to the empty one',
    'tables-transposed': "the rows and columns of an own operator's table are exchanged",
    # numbers
    'wraps-at-64-bits': 'the parts of numbers wrap around at 64 bits',
}


class Code:
    """A code by the mistakes that it makes; `asked` holds those that have played a part so far."""

    def __init__(self, mistakes=()):
        unknown = set(mistakes) - set(MISTAKES)
        if unknown:
            raise ValueError('unknown mistakes: ' + ', '.join(sorted(unknown)))
        self.mistakes = frozenset(mistakes)
        self.asked = set()

    def makes(self, mistake):
        """Whether this code makes the mistake."""
        assert mistake in MISTAKES, mistake
        self.asked.add(mistake)
        return mistake in self.mistakes
