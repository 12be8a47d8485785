"""Arrays of a floating-point code against exact tensors."""

from __future__ import annotations

from dataclasses import dataclass, field
from typing import Any, Dict, List, Optional, Sequence, Tuple, Union

import numpy as np
from numpy.typing import NDArray

from .errors import WrongShape
from .gaussian import Gaussian, gaussian, joined, parts_of
from .tensors import Sector, Tensor

Exact = Union[Tensor, Gaussian, int, NDArray[Any]]


@dataclass(frozen=True)
class Block:
    """A block in which only signs are wrong."""

    sectors: Sector
    """the number of a sector for each leg, counted from 0"""
    wrong: int
    """how many of its entries have the wrong sign"""
    entries: int
    """how many of its entries aren't 0"""


@dataclass(frozen=True)
class Comparison:
    """What a comparison found. It is true where all agrees, and prints in words."""

    agrees: bool
    """whether no entry is off by more than the tolerance, and no sign is wrong"""
    greatest: float
    """the greatest difference |found - exact|; infinite where something isn't a finite number"""
    tolerance: float
    """the difference that is allowed: `relative` times the greatest exact entry"""
    relative: float
    """the greatest difference, divided by the greatest exact entry"""
    where: Tuple[int, ...]
    """the index of the greatest difference, counted from 0"""
    found: complex
    """what was found there"""
    exact: Gaussian
    """what is right there"""
    wrong: int
    """how many entries are wrong"""
    signs_alone: bool
    """whether entries are wrong, and all of them are right but for their signs"""
    conjugated: bool
    """whether the complex conjugates of the entries agree, and the entries don't"""
    blocks: Tuple[Block, ...] = ()
    """where signs alone differ: the blocks in which they do"""
    pattern: str = ""
    """in words, by which legs' parities these blocks are told from the others, where one or two legs tell"""
    size: int = field(default=0, repr=False)

    def __bool__(self) -> bool:
        return self.agrees

    def __str__(self) -> str:
        at = f" at {_index(self.where)}" if self.where else ""
        if self.agrees:
            return f"agrees: off by at most {self.greatest:.3g}{at}, that is {self.relative:.3g} of the greatest entry"
        lines = [f"differs in {self.wrong} of {self.size} entries"] if self.size > 1 else ["differs"]
        lines.append(
            f"the greatest difference is {self.greatest:.6g}{at}: found {_number(self.found)}, exact {self.exact}"
        )
        if self.conjugated:
            lines.append("all entries are the complex conjugates of the exact ones")
        if self.signs_alone:
            lines.append("signs alone differ" + (" (every entry is negated)" if self.pattern == "all" else ""))
            lines += [f"  in the block {list(b.sectors)}: {b.wrong} of {b.entries} entries" for b in self.blocks[:12]]
            if len(self.blocks) > 12:
                lines.append(f"  and in {len(self.blocks) - 12} blocks more")
            if self.pattern and self.pattern != "all":
                lines.append(f"  these are the blocks in which {self.pattern}")
        return "\n".join(lines)


def compare(found: Any, exact: Exact, relative: float = 1e-10) -> Comparison:
    """Compares what a floating-point code found with what is exact.

    `found` is an array of the exact tensor's shape (or one number for a scalar), real or complex. `exact` is a
    `Tensor`, a number, or an array of exact numbers. An entry agrees where it is off by at most `relative` times
    the greatest exact entry in size (1 where all are 0), since floats lose what cancels. A wrong sign counts
    also where the entry is smaller than that. Raises `WrongShape` where the shapes differ.
    """
    tensor = exact if isinstance(exact, Tensor) else None
    parts = parts_of(tensor.to_array() if tensor is not None else _array(exact))
    wanted = joined(parts[0], parts[1], complex)
    given = np.asarray(_array(found), dtype=np.complex128)
    if given.shape != wanted.shape:
        raise WrongShape(f"what was found has the shape {given.shape} and what is exact {wanted.shape}")
    scale = max(float(np.abs(wanted).max(initial=0.0)), 1.0)
    tolerance = relative * scale
    with np.errstate(all="ignore"):
        off = _distance(given, wanted)
        opposite = _distance(given, -wanted)
        conjugate = _distance(given, wanted.conj())
    flipped = (wanted != 0) & (opposite <= relative * np.abs(wanted)) & (off > opposite)
    wrong = (off > tolerance) | flipped
    negated = wrong & (opposite <= tolerance)
    signs_alone = bool(wrong.any()) and bool(negated[wrong].all())
    place = tuple(int(i) for i in np.unravel_index(int(np.argmax(off)), off.shape)) if off.size else ()
    blocks, pattern = _sign_blocks(tensor, wrong, wanted) if signs_alone else ((), "")
    greatest = float(off[place]) if off.size else 0.0
    return Comparison(
        agrees=not wrong.any(),
        greatest=greatest,
        tolerance=tolerance,
        relative=greatest / scale,
        where=place,
        found=complex(given[place]) if off.size else 0j,
        exact=Gaussian(parts[0][place], parts[1][place]) if off.size else Gaussian(0),
        wrong=int(wrong.sum()),
        signs_alone=signs_alone,
        conjugated=bool(wrong.any() and not signs_alone and (conjugate <= tolerance).all()),
        blocks=blocks,
        pattern=pattern,
        size=int(off.size),
    )


def _array(value: Any) -> NDArray[Any]:
    """One number or an array of them as an array; exact numbers stay exact."""
    if isinstance(value, Tensor):
        return value.to_array()
    if isinstance(value, (Gaussian, int)):
        one = np.empty((), object)
        one[()] = gaussian(value)
        return one
    return np.asarray(value)


def _distance(a: NDArray[Any], b: NDArray[Any]) -> NDArray[Any]:
    """|a - b|, infinite where that is no number."""
    distance: NDArray[Any] = np.nan_to_num(np.abs(a - b), nan=np.inf, posinf=np.inf)
    return distance


def _sign_blocks(tensor: Optional[Tensor], wrong: NDArray[Any], wanted: NDArray[Any]) -> Tuple[Tuple[Block, ...], str]:
    """The blocks with wrong signs, and what tells them from the other blocks."""
    everywhere = bool(wrong[wanted != 0].all())
    if tensor is None:
        return (), "all" if everywhere else ""
    blocks: List[Block] = []
    states: Dict[Sector, Optional[bool]] = {}
    for sectors in sorted(tensor.blocks):
        window = tuple(slice(leg.starts[s], leg.starts[s] + leg.sectors[s][1]) for leg, s in zip(tensor.legs, sectors))
        filled, bad = int((wanted[window] != 0).sum()), int((wrong[window] & (wanted[window] != 0)).sum())
        states[sectors] = True if bad == filled else False if bad == 0 else None
        if bad:
            blocks.append(Block(sectors, bad, filled))
    if everywhere:
        return tuple(blocks), "all"
    if None in states.values():
        return tuple(blocks), ""
    return tuple(blocks), _pattern([(tensor.parities(s), bool(bad)) for s, bad in states.items()])


def _pattern(rows: Sequence[Tuple[Tuple[int, ...], bool]]) -> str:
    """What of one or two legs' parities tells the wrong blocks from the others: all that does, or nothing."""
    legs = range(len(rows[0][0]))
    pairs = [(i, j) for i in legs for j in legs[i + 1 :]]
    one = [f"leg {i + 1} is odd" for i in legs if all(bool(p[i]) == bad for p, bad in rows)]
    both = [
        f"legs {i + 1} and {j + 1} are both odd" for i, j in pairs if all(bool(p[i] & p[j]) == bad for p, bad in rows)
    ]
    if one or both:
        causes = (["a turned leg's sign is missing or doubled"] if one else []) + (
            ["odd legs are exchanged without their sign"] if both else []
        )
        return f"{', or '.join(one + both)} (as where {', or where '.join(causes)})"
    differ = [
        f"just one of legs {i + 1} and {j + 1} is odd"
        for i, j in pairs
        if all(bool(p[i] ^ p[j]) == bad for p, bad in rows)
    ]
    return ", or ".join(differ)


def _index(place: Sequence[int]) -> str:
    return "[" + ",".join(map(str, place)) + "]"


def _number(value: complex) -> str:
    return f"{value.real:.17g}" if value.imag == 0 else f"{value.real:.17g}{value.imag:+.17g}i"
