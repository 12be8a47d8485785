"""Orders of the labels, found by NumPy or by opt_einsum.

Both look for a path of pairwise contractions of dense arrays. Here the path becomes an order of the labels: the
labels of each pair where the path contracts it. A product without shared labels has no place in an order and
is left out; labels with both ends on one tensor come first. What the order costs for the blocks is
told by `Network.plan`, not by the search.
"""

from __future__ import annotations

from typing import Any, List, NamedTuple, Optional, Sequence, Set, Tuple

import numpy as np

from .errors import Malformed
from .networks import Network
from .plans import Plan

Path = Sequence[Tuple[int, ...]]
"""A path as `numpy.einsum_path` gives it: places in the list of what is left, whose result goes to its end."""

LETTERS = 52
"""NumPy's einsum knows this many labels."""
TOO_WIDE = 27
"""The fault of a step whose result is past a limit."""


class Reordered(NamedTuple):
    """A network with another order, and its plans before and after. It prints the two costs."""

    network: Network
    before: Optional[Plan]
    """None where a step of the old order is too wide (F27)"""
    after: Plan

    def __str__(self) -> str:
        if self.before is None:
            return f"too wide before and cost {self.after.cost:,} after"
        old, new = self.before.cost, self.after.cost
        times = ""
        if 0 < new < old:
            times = f", {old / new:.3g} times less"
        elif 0 < old < new:
            times = f", {new / old:.3g} times more"
        return f"cost {old:,} before and {new:,} after{times}"


def reordered(network: Network, by: Any = "numpy", program: Optional[str] = None) -> Reordered:
    """The network with an order found by `by` (``"numpy"``, ``"opt_einsum"``, or a path or labels), and both plans.

    Raises `Malformed` where the network has a fault, and where the new order too is too wide (F27).
    """
    other = network.with_order(by)
    before: Optional[Plan] = None
    try:
        before = network.plan(program)
    except Malformed as fault:
        if fault.code != TOO_WIDE:
            raise
    return Reordered(other, before, other.plan(program))


def as_labels(network: Network, order: Any) -> List[int]:
    """An order as a list of labels: given so, as the name of a search, or as a path of `numpy.einsum_path`."""
    if isinstance(order, str):
        return labels_of_path(network, find_path(network, order))
    if isinstance(order, tuple) and order and _is_path(order[0]):
        order = order[0]
    if _is_path(order):
        return labels_of_path(network, [tuple(step) for step in order if not isinstance(step, str)])
    return [int(label) for label in order]


def _is_path(steps: Any) -> bool:
    """Whether this is a list of steps, each a tuple of places; NumPy's has a word before them."""
    return isinstance(steps, (list, tuple)) and bool(steps) and all(isinstance(s, (tuple, list, str)) for s in steps)


def find_path(network: Network, by: str = "numpy", optimize: Any = "greedy") -> List[Tuple[int, ...]]:
    """A path for the network's dense shapes, by ``"numpy"`` (at most 52 labels) or ``"opt_einsum"``.

    `optimize` is handed on. Raises `ValueError` past NumPy's 52 labels and `ImportError` without opt_einsum.
    """
    names = network.labels + network.open_labels
    number = {label: place for place, label in enumerate(names)}
    shapes = [tuple(leg.dim for leg in member.legs) for member, _ in network.tensors]
    subscripts = [[number[label] for label in labels] for _, labels in network.tensors]
    open_ones = [number[label] for label in network.open_labels]
    if by == "numpy":
        if len(names) > LETTERS:
            raise ValueError(
                f"numpy.einsum_path knows {LETTERS} labels and the network has {len(names)}; opt_einsum knows more"
            )
        operands: List[Any] = []
        for shape, labels in zip(shapes, subscripts):
            operands += [np.broadcast_to(np.zeros(()), shape), labels]
        steps = np.einsum_path(*operands, open_ones, optimize=optimize)[0]
        return [tuple(step) for step in steps[1:]]
    if by == "opt_einsum":
        import opt_einsum

        symbols = [opt_einsum.get_symbol(place) for place in range(len(names))]
        terms = ["".join(symbols[place] for place in labels) for labels in subscripts]
        equation = ",".join(terms) + "->" + "".join(symbols[place] for place in open_ones)
        path, _ = opt_einsum.contract_path(equation, *shapes, shapes=True, optimize=optimize)
        return [tuple(step) for step in path]
    raise ValueError(f"an order comes from 'numpy' or 'opt_einsum', not {by!r}")


def labels_of_path(network: Network, path: Path) -> List[int]:
    """The positive labels in the order in which a path sums them."""
    ends = {label: [n for n, (_, labels) in enumerate(network.tensors) if label in labels] for label in network.labels}
    order = [label for label in network.labels if len(ends[label]) == 1]
    left: List[Set[int]] = [{n} for n in range(len(network.tensors))]
    for step in path:
        parts = [left[place] for place in sorted(step)]
        left = [part for place, part in enumerate(left) if place not in step]
        while len(parts) > 1:
            first, second = _pair(parts, ends, order)
            joint = parts[first] | parts[second]
            order += [label for label in network.labels if label not in order and set(ends[label]) <= joint]
            parts = [part for place, part in enumerate(parts) if place not in (first, second)] + [joint]
        left += parts
    return order + [label for label in network.labels if label not in order]


def _pair(parts: Sequence[Set[int]], ends: Any, order: Sequence[int]) -> Tuple[int, int]:
    """Two of the parts of one step of a path, such as share a label where any do."""
    for first in range(len(parts)):
        for second in range(first + 1, len(parts)):
            joint = parts[first] | parts[second]
            if any(label not in order and set(at) <= joint for label, at in ends.items()):
                return first, second
    return 0, 1
