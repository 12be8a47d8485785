"""A slow model of what documents mean, in plain Python, to be read beside docs/FORMAT.md.

It follows the definitions directly. The value of a network is one sum over all assignments of values to its labels,
each with one sign. An operator string acts on basis states, one operator after the other. Overlaps and expectations
are sums over basis states. Nothing is contracted step by step, and no operator sum is made into a network.

    mistakes.py   the mistakes that codes make; the model can make each of them, and by default makes none
    tensors.py    numbers, charges, legs, tensors, combiners
    networks.py   the value of a network
    steps.py      the steps of a plan, their costs, and where a sum of magnitudes passes the limit
    operators.py  sites, operators, and what an operator sum does to a basis state
    states.py     amplitudes, overlap, expectation
    answers.py    the text that a command answers
"""
