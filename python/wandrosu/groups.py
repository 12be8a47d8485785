"""Groups of charges: products of U(1) and Z_n factors, bosonic or fermionic.

After Singh, Pfeifer and Vidal 2010 (arXiv:0907.2994); the parity is that of super vector spaces.
"""

from __future__ import annotations

from typing import Any, Dict, Iterable, Iterator, List, Optional, Sequence, Tuple, Union

import numpy as np

Charge = Tuple[int, ...]
"""One whole number for each factor of the group."""
ChargeLike = Union[int, Sequence[int]]
"""A charge; for a group of one factor also the bare number."""


class Factor:
    """One factor of a group: U(1), whose charges are whole numbers, or Z_n, whose charges are 0 to n-1."""

    __slots__ = ("n", "fermion")
    n: Optional[int]
    fermion: bool

    def __init__(self, n: Optional[int], fermion: bool) -> None:
        self.n = None if n is None else int(n)
        self.fermion = bool(fermion)

    def reduce(self, part: int) -> int:
        """The part of a charge, brought to 0 to n-1 at a Z_n factor."""
        return part if not self.n else part % self.n

    def document(self) -> Dict[str, Any]:
        """The factor as documents write it."""
        if self.n is None:
            return {"kind": "u1", "fermion": self.fermion}
        return {"kind": "zn", "n": self.n, "fermion": self.fermion}

    def __eq__(self, other: Any) -> bool:
        return isinstance(other, Factor) and (self.n, self.fermion) == (other.n, other.fermion)

    def __hash__(self) -> int:
        return hash((self.n, self.fermion))

    def __repr__(self) -> str:
        name = "U1(" if self.n is None else f"Zn({self.n}, "
        return f"{name}fermion=True)" if self.fermion else name.rstrip(", ") + ")"


class Group:
    """A product of factors. `Group()` is the group without factors, whose one charge is ``()``.

    Groups multiply: ``U1(fermion=True) * U1()`` has two parts in each charge.
    """

    __slots__ = ("factors",)
    factors: Tuple[Factor, ...]

    def __init__(self, factors: Iterable[Factor] = ()) -> None:
        self.factors = tuple(factors)

    def __mul__(self, other: "Group") -> "Group":
        return Group(self.factors + other.factors)

    def __len__(self) -> int:
        return len(self.factors)

    def __iter__(self) -> Iterator[Factor]:
        return iter(self.factors)

    def __eq__(self, other: Any) -> bool:
        return isinstance(other, Group) and self.factors == other.factors

    def __hash__(self) -> int:
        return hash(self.factors)

    def __repr__(self) -> str:
        return " * ".join(map(repr, self.factors)) or "Group()"

    @property
    def zero(self) -> Charge:
        """The charge zero."""
        return (0,) * len(self.factors)

    def charge(self, value: ChargeLike) -> Charge:
        """A charge of this group, Z_n parts brought to 0 to n-1. A bare number is a charge of one part."""
        parts = charge_parts(value)
        if len(parts) != len(self.factors):
            raise ValueError(f"the charge {value!r} hasn't one number for each factor of {self!r}")
        return tuple(factor.reduce(part) for factor, part in zip(self.factors, parts))

    def add(self, *charges: ChargeLike) -> Charge:
        """The sum of charges, part by part."""
        total = self.zero
        for charge in charges:
            total = self.charge([a + b for a, b in zip(total, self.charge(charge))])
        return total

    def negate(self, charge: ChargeLike) -> Charge:
        """The negative of a charge."""
        return self.charge([-part for part in self.charge(charge)])

    def parity(self, charge: ChargeLike) -> int:
        """0 for an even charge and 1 for an odd one: the sum of its fermionic parts modulo 2."""
        parts = self.charge(charge)
        return sum(part for factor, part in zip(self.factors, parts) if factor.fermion) % 2

    def document(self) -> List[Dict[str, Any]]:
        """The group as documents write it."""
        return [factor.document() for factor in self.factors]

    @classmethod
    def from_document(cls, factors: Iterable[Dict[str, Any]]) -> "Group":
        """The group that a document writes."""
        return cls(Factor(f["n"] if f["kind"] == "zn" else None, f["fermion"]) for f in factors)


def U1(fermion: bool = False) -> Group:
    """The group U(1): charges are whole numbers and add. With `fermion` odd charges are odd under exchange."""
    return Group([Factor(None, fermion)])


def Zn(n: int, fermion: bool = False) -> Group:
    """The group Z_n: charges are 0 to n-1 and add modulo n. With `fermion` n is even."""
    return Group([Factor(n, fermion)])


def charge_parts(value: ChargeLike) -> Tuple[int, ...]:
    """The parts of a charge, of which a bare number has one."""
    if isinstance(value, (int, np.integer)):
        return (int(value),)
    return tuple(int(part) for part in value)
