"""Combiners: the tables that fuse legs into one, or split that one again."""

from __future__ import annotations

import itertools
from typing import Any, Dict, Iterable, List, Mapping, Optional, Tuple

import numpy as np
from numpy.typing import NDArray

from .groups import Charge, Group
from .legs import Leg, group_of
from .tensors import Tensor


class Combiner:
    """A member of a network that fuses the legs l1 .. lm into one (``mode="fuse"``) or splits it (``"split"``).

    Its legs, which its labels follow, are those of a table. For ``fuse``: the fused leg, then lm to l1 turned
    round. For ``split``: l1 to lm, then the fused leg turned round. The fused leg has the arrow `direction`, and
    a sector for each charge that occurs, ascending.
    """

    __slots__ = ("direction", "fused", "mode", "group")
    direction: str
    fused: Tuple[Leg, ...]
    mode: str
    group: Group

    def __init__(self, direction: str, legs: Iterable[Leg], mode: str, group: Optional[Group] = None) -> None:
        if direction not in ("out", "in") or mode not in ("fuse", "split"):
            raise ValueError(
                f"a combiner's direction is 'out' or 'in' and its mode 'fuse' or 'split', not {direction!r}, {mode!r}"
            )
        legs = tuple(legs)
        self.group = group_of(legs, group, "combiner")
        self.direction, self.mode = direction, mode
        self.fused = tuple(leg.of(self.group) for leg in legs)

    def _charge(self, sectors: Tuple[int, ...]) -> Charge:
        """The charge of a tuple of sectors as the fused leg counts it."""
        net = self.group.zero
        for leg, s in zip(self.fused, sectors):
            charge = leg.sectors[s][0]
            net = self.group.add(net, charge if leg.direction == self.direction else self.group.negate(charge))
        return net

    def _sectors(self) -> Dict[Charge, List[Tuple[int, ...]]]:
        """For each charge that occurs, ascending, the tuples of sectors that have it, ascending."""
        found: Dict[Charge, List[Tuple[int, ...]]] = {}
        for sectors in itertools.product(*(range(len(leg.sectors)) for leg in self.fused)):
            found.setdefault(self._charge(sectors), []).append(sectors)
        return dict(sorted(found.items()))

    def _size(self, sectors: Tuple[int, ...]) -> int:
        return int(np.prod([leg.sectors[s][1] for leg, s in zip(self.fused, sectors)], dtype=object))

    def fused_leg(self) -> Leg:
        """The leg that l1 .. lm are fused into."""
        pairs = [(charge, sum(map(self._size, tuples))) for charge, tuples in self._sectors().items()]
        return Leg(self.direction, pairs, self.group)

    @property
    def legs(self) -> Tuple[Leg, ...]:
        """The legs of the table, which the labels follow."""
        if self.mode == "fuse":
            return (self.fused_leg(), *(leg.turned() for leg in reversed(self.fused)))
        return (*self.fused, self.fused_leg().turned())

    def to_tensor(self) -> Tensor:
        """The table as a tensor of flux zero: 1 or -1 at matching values."""
        group, legs = self.group, self.legs
        blocks: Dict[Tuple[int, ...], NDArray[Any]] = {}
        for number, (charge, tuples) in enumerate(self._sectors().items()):
            width = sum(map(self._size, tuples))
            before = 0
            for sectors in tuples:
                size = self._size(sectors)
                dims = [leg.sectors[s][1] for leg, s in zip(self.fused, sectors)]
                table = np.eye(size, width, before, dtype=np.int64).reshape(*dims, width)
                if self.mode == "fuse":
                    odd = sum(
                        group.parity(leg.sectors[s][0]) for leg, s in zip(self.fused, sectors) if leg.direction == "in"
                    )
                    blocks[(number, *sectors[::-1])] = (-1) ** odd * np.transpose(table)
                else:
                    odd = group.parity(charge) if self.direction == "in" else 0
                    blocks[(*sectors, number)] = (-1) ** odd * table
                before += size
        return Tensor(legs, None, blocks, group)

    def document(self) -> Dict[str, Any]:
        """The combiner as a network writes it, without its labels."""
        return {"combine": {"dir": self.direction, "legs": [leg.document() for leg in self.fused], "mode": self.mode}}

    @classmethod
    def from_document(cls, member: Mapping[str, Any], group: Group) -> "Combiner":
        """The combiner that a network over `group` writes."""
        combine = member["combine"]
        legs = [Leg.from_document(leg, group) for leg in combine["legs"]]
        return cls(combine["dir"], legs, combine["mode"], group)

    def __eq__(self, other: Any) -> bool:
        if not isinstance(other, Combiner):
            return NotImplemented
        return (self.group, self.direction, self.mode, self.fused) == (
            other.group,
            other.direction,
            other.mode,
            other.fused,
        )

    def __hash__(self) -> int:
        return hash((self.group, self.direction, self.mode, self.fused))

    def __repr__(self) -> str:
        return f"Combiner({self.direction!r}, {list(self.fused)!r}, {self.mode!r})"
