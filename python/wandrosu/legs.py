"""Legs of tensors: an arrow and sectors."""

from __future__ import annotations

from typing import Any, Dict, Iterable, List, Mapping, Optional, Tuple, Union

import numpy as np
from numpy.typing import NDArray

from .groups import Charge, ChargeLike, Group, charge_parts

Sectors = Union[Mapping[Any, int], Iterable[Tuple[ChargeLike, int]]]
"""Charges with their dimensions, in the order of the leg's values."""


class Leg:
    """A leg: the arrow ``"out"`` or ``"in"``, and the list of its sectors.

    A sector ``(charge, dimension)`` stands for that many values; the leg's values are counted from 0,
    sector after sector. Two sectors may have equal charges. At a Z_n factor charges are brought to
    0 to n-1. The group may be left out where the tensor that gets the leg names it.

    >>> Leg("out", [(0, 1), (1, 1)], U1(fermion=True)).dim
    2
    """

    __slots__ = ("direction", "sectors", "group")
    direction: str
    sectors: Tuple[Tuple[Charge, int], ...]
    group: Optional[Group]

    def __init__(self, direction: str, sectors: Sectors, group: Optional[Group] = None) -> None:
        if direction not in ("out", "in"):
            raise ValueError(f"a leg's direction is 'out' or 'in', not {direction!r}")
        pairs = sectors.items() if isinstance(sectors, Mapping) else sectors
        self.direction = direction
        self.sectors = tuple(
            (charge_parts(charge) if group is None else group.charge(charge), int(dimension))
            for charge, dimension in pairs
        )
        self.group = group

    def of(self, group: Group) -> "Leg":
        """The leg with its charges read as charges of `group`; refuses a leg of another group."""
        if self.group is not None and self.group != group:
            raise ValueError(f"a leg over {self.group!r} stands among those over {group!r}")
        return self if self.group is not None else Leg(self.direction, self.sectors, group)

    @property
    def dim(self) -> int:
        """The number of values: all dimensions together."""
        return sum(dimension for _, dimension in self.sectors)

    @property
    def charges(self) -> List[Charge]:
        """The charge of each value."""
        return [charge for charge, dimension in self.sectors for _ in range(dimension)]

    @property
    def starts(self) -> List[int]:
        """The first value of each sector."""
        return list(np.cumsum([0] + [dimension for _, dimension in self.sectors[:-1]])) if self.sectors else []

    def sector_of_values(self) -> NDArray[Any]:
        """For each value the number of its sector, counted from 0."""
        return np.repeat(np.arange(len(self.sectors)), [dimension for _, dimension in self.sectors])

    @property
    def is_odd(self) -> bool:
        """Whether some value is odd, so that exchanging this leg can cost a sign."""
        return self.group is not None and any(self.group.parity(charge) for charge, _ in self.sectors)

    def turned(self) -> "Leg":
        """The same leg with the other arrow."""
        return Leg("in" if self.direction == "out" else "out", self.sectors, self.group)

    def meets(self, other: "Leg") -> bool:
        """Whether the two may share a positive label: opposite arrows and equal lists of sectors."""
        return self.direction != other.direction and self.sectors == other.sectors

    def document(self) -> Dict[str, Any]:
        """The leg as documents write it."""
        return {"dir": self.direction, "sectors": [[list(charge), dim] for charge, dim in self.sectors]}

    @classmethod
    def from_document(cls, leg: Dict[str, Any], group: Group) -> "Leg":
        """The leg that a document over `group` writes."""
        return cls(leg["dir"], [(charge, dim) for charge, dim in leg["sectors"]], group)

    def __eq__(self, other: Any) -> bool:
        if not isinstance(other, Leg):
            return NotImplemented
        return (self.direction, self.sectors, self.group) == (other.direction, other.sectors, other.group)

    def __hash__(self) -> int:
        return hash((self.direction, self.sectors, self.group))

    def __repr__(self) -> str:
        bare = [(charge[0] if len(charge) == 1 else charge, dim) for charge, dim in self.sectors]
        return f"Leg({self.direction!r}, {bare!r}" + (")" if self.group is None else f", {self.group!r})")


def group_of(legs: Iterable[Leg], group: Optional[Group], what: str = "tensor") -> Group:
    """The group of legs that stand together: the one named, or that of the legs."""
    named = [leg.group for leg in legs if leg.group is not None]
    found = group if group is not None else (named[0] if named else None)
    if found is None:
        if any(charge for leg in legs for charge, _ in leg.sectors):
            raise ValueError(f"a {what} with charges needs its group, as in group=U1(fermion=True)")
        found = Group()
    return found
