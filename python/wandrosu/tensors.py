"""Block-sparse tensors of Gaussian integers that conserve charge.

After Singh, Pfeifer and Vidal 2010 and Fishman, White and Stoudenmire 2022 (arXiv:2007.14822): legs with
arrows and sectors, a flux, and a block for each tuple of sectors whose charges, ``out`` less ``in``, add up
to the flux.
"""

from __future__ import annotations

from typing import Any, Dict, Iterable, List, Mapping, Optional, Sequence, Tuple

import numpy as np
from numpy.typing import NDArray

from .errors import OffFlux, WrongShape
from .gaussian import INT64, Gaussian, gaussian, joined, parts_of
from .groups import Charge, ChargeLike, Group
from .legs import Leg, group_of

Sector = Tuple[int, ...]
"""A tuple of sectors: the number of a sector for each leg, counted from 0."""
Parts = Tuple[NDArray[Any], NDArray[Any]]
"""The real and the imaginary parts of a block, one axis for each leg."""


class Tensor:
    """A tensor: its group, legs, flux, and the blocks that aren't zero.

    ``Tensor(legs, flux, blocks)`` takes a mapping from tuples of sectors to dense arrays, one axis for each
    leg; `from_array` takes the whole dense array. Both refuse entries off the flux. What is written
    into documents is this tensor and nothing more: limits are told by the program.
    """

    __slots__ = ("group", "legs", "flux", "blocks")
    group: Group
    legs: Tuple[Leg, ...]
    flux: Charge
    blocks: Dict[Sector, Parts]

    def __init__(
        self,
        legs: Iterable[Leg],
        flux: Optional[ChargeLike] = None,
        blocks: Optional[Mapping[Sector, Any]] = None,
        group: Optional[Group] = None,
    ) -> None:
        legs = tuple(legs)
        self.group = group_of(legs, group)
        self.legs = tuple(leg.of(self.group) for leg in legs)
        self.flux = self.group.zero if flux is None else self.group.charge(flux)
        self.blocks = {}
        for sectors, data in sorted((blocks or {}).items()):
            self._set_block(tuple(int(s) for s in sectors), np.asarray(data))

    def _set_block(self, sectors: Sector, data: NDArray[Any]) -> None:
        if len(sectors) != len(self.legs) or any(not 0 <= s < len(leg.sectors) for leg, s in zip(self.legs, sectors)):
            raise WrongShape(
                f"the block {list(sectors)} doesn't name one sector for each of {len(self.legs)} legs", sectors
            )
        dims = tuple(leg.sectors[s][1] for leg, s in zip(self.legs, sectors))
        if data.shape != dims:
            raise WrongShape(f"the block {list(sectors)} has the shape {data.shape} and its sectors {dims}", sectors)
        real, imaginary = parts_of(data)
        filled = np.argwhere((real != 0) | (imaginary != 0))
        if not len(filled):
            return
        if self.charge_of(sectors) != self.flux:
            starts = [leg.starts[s] for leg, s in zip(self.legs, sectors)]
            place = tuple(int(a + b) for a, b in zip(starts, filled[0]))
            value = Gaussian(real[tuple(filled[0])], imaginary[tuple(filled[0])])
            raise OffFlux(value, place, sectors, self.charge_of(sectors), self.flux)
        self.blocks[sectors] = real, imaginary

    @classmethod
    def from_array(
        cls,
        array: Any,
        legs: Iterable[Leg],
        flux: Optional[ChargeLike] = None,
        group: Optional[Group] = None,
    ) -> "Tensor":
        """The tensor with these entries.

        `array` is dense, with one axis for each leg and one place for each value of the leg (sector after
        sector). Its entries are whole: integers, floats or complex numbers with whole parts, or in an
        array of type `object` Python's ints and `Gaussian` of any size. `flux` is zero where it isn't given.

        Raises `OffFlux` at the first entry other than 0, row by row, that is off the flux; `WrongShape`;
        `NotWhole`.

        >>> leg = Leg("out", [(0, 1), (1, 1)], U1(fermion=True))
        >>> Tensor.from_array([[2, 0], [0, 3]], [leg, leg.turned()]).blocks.keys()
        dict_keys([(0, 0), (1, 1)])
        """
        tensor = cls(legs, flux, group=group)
        array = np.asarray(array)
        dims = tuple(leg.dim for leg in tensor.legs)
        if array.shape != dims:
            raise WrongShape(f"the array has the shape {array.shape} and the legs have {dims} values")
        if not tensor.legs:
            tensor._set_block((), array)
            return tensor
        real, imaginary = parts_of(array)
        filled = np.nonzero((real != 0) | (imaginary != 0))
        tensor._refuse_off_flux(real, imaginary, filled)
        sectors = np.array([leg.sector_of_values()[values] for leg, values in zip(tensor.legs, filled)])
        for numbers in np.unique(sectors, axis=1).T:
            block = tuple(int(s) for s in numbers)
            window = tuple(_values(leg, s) for leg, s in zip(tensor.legs, block))
            tensor.blocks[block] = real[window].copy(), imaginary[window].copy()
        return tensor

    def _refuse_off_flux(self, real: NDArray[Any], imaginary: NDArray[Any], filled: Sequence[NDArray[Any]]) -> None:
        """Raises `OffFlux` at the first of the places that is off the flux."""
        net = np.zeros((len(self.group), len(filled[0])), np.int64)
        for leg, values in zip(self.legs, filled):
            charges = np.array(leg.charges, dtype=np.int64).reshape(leg.dim, len(self.group))
            sign = 1 if leg.direction == "out" else -1
            net = net + sign * charges[values].T
        wrong = np.zeros(net.shape[1:], bool)
        for factor, parts, wanted in zip(self.group, net, self.flux):
            difference = parts - wanted
            wrong |= (difference % factor.n != 0) if factor.n else (difference != 0)
        if wrong.any():
            first = int(np.argmax(wrong))
            place = tuple(int(values[first]) for values in filled)
            sectors = tuple(int(leg.sector_of_values()[v]) for leg, v in zip(self.legs, place))
            value = Gaussian(real[place], imaginary[place])
            raise OffFlux(value, place, sectors, self.charge_of(sectors), self.flux)

    def charge_of(self, sectors: Sector) -> Charge:
        """The charges of the ``out`` legs less those of the ``in`` legs at a tuple of sectors."""
        charges = [
            leg.sectors[s][0] if leg.direction == "out" else self.group.negate(leg.sectors[s][0])
            for leg, s in zip(self.legs, sectors)
        ]
        return self.group.add(*charges)

    @property
    def shape(self) -> Tuple[int, ...]:
        """The number of values of each leg."""
        return tuple(leg.dim for leg in self.legs)

    @property
    def is_odd(self) -> bool:
        """Whether the flux is odd, so that the tensor's place among others can cost a sign."""
        return bool(self.group.parity(self.flux))

    def parities(self, sectors: Sector) -> Tuple[int, ...]:
        """For each leg 1 where the sector is odd and 0 where it is even."""
        return tuple(self.group.parity(leg.sectors[s][0]) for leg, s in zip(self.legs, sectors))

    def to_array(self, dtype: Any = None) -> NDArray[Any]:
        """The dense array, one axis for each leg.

        Without `dtype` it is exact, and of the first of these types that holds all entries: int64; `object`
        with Python ints, where all are real; complex128, where all parts are at most 2^53 in size; `object`
        with `Gaussian`. ``dtype=complex`` rounds to double precision, ``dtype=float`` too and refuses imaginary parts.
        """
        wide = any(part.dtype == object for parts in self.blocks.values() for part in parts)
        real = np.zeros(self.shape, object if wide else np.int64)
        imaginary = np.zeros(self.shape, object if wide else np.int64)
        for sectors, (re, im) in self.blocks.items():
            window = tuple(_values(leg, s) for leg, s in zip(self.legs, sectors))
            real[window] = re
            imaginary[window] = im
        return joined(real, imaginary, dtype)

    def block(self, sectors: Sector, dtype: Any = None) -> NDArray[Any]:
        """The dense block of a tuple of sectors, zeros where none is kept; its type as in `to_array`."""
        parts = self.blocks.get(tuple(sectors))
        if parts is None:
            zeros = np.zeros([leg.sectors[s][1] for leg, s in zip(self.legs, sectors)], np.int64)
            parts = zeros, zeros
        return joined(parts[0], parts[1], dtype)

    def __getitem__(self, values: Any) -> Gaussian:
        """The entry at a value for each leg, each counted from 0."""
        values = values if isinstance(values, tuple) else (values,)
        sectors = tuple(int(leg.sector_of_values()[v]) for leg, v in zip(self.legs, values))
        if len(values) != len(self.legs):
            raise IndexError(f"{len(values)} values for {len(self.legs)} legs")
        parts = self.blocks.get(sectors)
        if parts is None:
            return Gaussian(0)
        inner = tuple(int(v) % leg.dim - leg.starts[s] for leg, v, s in zip(self.legs, values, sectors))
        return Gaussian(parts[0][inner], parts[1][inner])

    def scalar(self) -> Gaussian:
        """The entry of a tensor without legs. It is 0 where the flux isn't zero."""
        if self.legs:
            raise TypeError(f"a tensor of {len(self.legs)} legs isn't a scalar")
        return self[()]

    def conj(self) -> "Tensor":
        """The conjugate: legs in the reverse order, each with the other arrow, the flux negated, entries conjugated."""
        turned = Tensor([leg.turned() for leg in reversed(self.legs)], self.group.negate(self.flux), group=self.group)
        blocks = {s[::-1]: (re.T.copy(), -im.T) for s, (re, im) in self.blocks.items()}
        turned.blocks = dict(sorted(blocks.items()))
        return turned

    def document(self) -> Dict[str, Any]:
        """The tensor as networks and chains write it, without its group."""
        return {
            "legs": [leg.document() for leg in self.legs],
            "flux": list(self.flux),
            "blocks": [[list(s), entries(*parts)] for s, parts in sorted(self.blocks.items())],
        }

    def text_document(self) -> Dict[str, Any]:
        """The tensor with its group, as the program prints it."""
        return {"group": self.group.document(), **self.document()}

    @classmethod
    def from_document(cls, tensor: Mapping[str, Any], group: Optional[Group] = None) -> "Tensor":
        """The tensor that a document writes; without `group` the document has it, as the program's texts do."""
        over = Group.from_document(tensor["group"]) if group is None else group
        made = cls([Leg.from_document(leg, over) for leg in tensor["legs"]], tensor["flux"], group=over)
        for sectors, data in tensor["blocks"]:
            dims = [leg.sectors[s][1] for leg, s in zip(made.legs, sectors)]
            flat = np.empty(len(data), object)
            flat[:] = [read_entry(entry) for entry in data]
            made._set_block(tuple(sectors), flat.reshape(dims))
        return made

    def __eq__(self, other: Any) -> bool:
        """The same group, legs, flux and entries."""
        if not isinstance(other, Tensor):
            return NotImplemented
        if (self.group, self.legs, self.flux) != (other.group, other.legs, other.flux):
            return False
        return self.blocks.keys() == other.blocks.keys() and all(
            bool(np.all(mine == yours)) for s in self.blocks for mine, yours in zip(self.blocks[s], other.blocks[s])
        )

    __hash__ = None  # type: ignore[assignment]

    def __repr__(self) -> str:
        if not self.legs:
            return f"Tensor({self.scalar()}, flux {_bare(self.flux)})"
        arrows = ", ".join(f"{leg.direction} {leg.dim}" for leg in self.legs)
        return f"Tensor({arrows}; flux {_bare(self.flux)}; {len(self.blocks)} blocks)"


def _values(leg: Leg, sector: int) -> slice:
    start = leg.starts[sector]
    return slice(start, start + leg.sectors[sector][1])


def _bare(charge: Charge) -> str:
    return str(charge[0]) if len(charge) == 1 else str(list(charge))


def entry(number: Any) -> Any:
    """One number as documents write it: a JSON number within 64 bits, a text beyond, a pair where it isn't real."""
    value = gaussian(number)
    real, imaginary = _part(value.re), _part(value.im)
    return [real, imaginary] if value.im else real


def entries(real: NDArray[Any], imaginary: NDArray[Any]) -> List[Any]:
    """A block's entries as documents write them, row-major."""
    pairs = zip(real.ravel().tolist(), imaginary.ravel().tolist())
    return [[_part(re), _part(im)] if im else _part(re) for re, im in pairs]


def _part(part: int) -> Any:
    return part if INT64[0] <= part <= INT64[1] else str(part)


def read_entry(data: Any) -> Gaussian:
    """The number that a document or a text writes."""
    if isinstance(data, list):
        return Gaussian(int(data[0]), int(data[1]))
    return Gaussian(int(data))
