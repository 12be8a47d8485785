"""States as chains of tensors (matrix-product states), their overlaps and expectations."""

from __future__ import annotations

import itertools
import json
from pathlib import Path
from typing import Any, Dict, Iterable, List, Mapping, Optional, Sequence, Tuple, Union

import numpy as np
from numpy.typing import NDArray

from .errors import OffFlux, WrongShape
from .gaussian import Gaussian, gaussian, parts_of
from .groups import Charge, ChargeLike, Group
from .legs import Leg, Sectors
from .networks import Member, Network
from .program import as_bytes, run
from .sums import OperatorSum, Site, SiteLike, sites_of
from .tensors import Tensor


class Scalar(Gaussian):
    """What an overlap or an expectation is worth: a Gaussian integer with the `flux` of the whole.

    Where the flux isn't zero, the two states differ in charge, and the value is 0 for that reason alone.
    """

    __slots__ = ("flux",)
    flux: Charge

    def __init__(self, re: int, im: int = 0, flux: Charge = ()) -> None:
        super().__init__(re, im)
        object.__setattr__(self, "flux", flux)

    def __reduce__(self) -> Tuple[Any, ...]:
        return Scalar, (self.re, self.im, self.flux)

    def __repr__(self) -> str:
        return f"Scalar({self.re}, {self.im}, flux={self.flux})"


class State:
    """A state on a row of sites: one tensor for each site, with the legs left, site, right.

    The first tensor has no leg left and the last no leg right. The site's leg is that of the site, ``out``. The leg
    right of a site and the leg left of the next one meet. Where left legs are ``out`` and right legs ``in``, as
    `from_arrays` makes them, the amplitude is the plain product of the matrices, without signs.
    """

    def __init__(self, sites: Iterable[SiteLike], tensors: Iterable[Tensor]) -> None:
        self.sites = sites_of(sites)
        self.tensors = tuple(tensors)
        self.group = self.sites[0].group if self.sites else Group()

    @classmethod
    def from_arrays(
        cls,
        arrays: Sequence[Any],
        sites: Iterable[SiteLike],
        links: Optional[Sequence[Sectors]] = None,
        flux: Optional[ChargeLike] = None,
    ) -> "State":
        """The state of dense arrays A[left, site, right]; the first is A[site, right], the last A[left, site].

        `links` are the sectors of the n - 1 links, whose charge is that of all sites left of it. Without them they are
        found from the entries; the values of each link are sorted by charge, and those that no entry on the left
        reaches are left out, which changes no amplitude.
        `flux` is the charge of the state; without it that of the last array's entries. Entries are whole, as in
        `Tensor.from_array`. Raises `OffFlux` with the site where charges don't fit, and `WrongShape`.
        """
        sites = sites_of(sites)
        arrays = [np.asarray(a) for a in arrays]
        if len(arrays) != len(sites) or not sites:
            raise WrongShape(f"{len(arrays)} arrays for {len(sites)} sites")
        if links is not None and len(links) != len(sites) - 1:
            raise WrongShape(f"{len(links)} links between {len(sites)} sites")
        whole = [_with_links(array, j, len(sites)) for j, array in enumerate(arrays)]
        group = sites[0].group
        if links is None:
            whole, found = _sorted_links(whole, sites)
        else:
            found = [Leg("out", sectors, group) for sectors in links]
        end = Leg("out", [(group.zero, 1)], group)
        total = _total(whole[-1], ([end] + found)[-1], sites[-1]) if flux is None else group.charge(flux)
        fluxes = [group.zero] * (len(sites) - 1) + [total]
        chain = [end, *found, end]
        return cls(
            sites,
            [
                _site_tensor(j, array, [chain[j], site.leg, chain[j + 1].turned()], fluxes)
                for j, (array, site) in enumerate(zip(whole, sites))
            ],
        )

    @classmethod
    def from_vector(cls, sites: Iterable[SiteLike], amplitudes: Any) -> "State":
        """The state with these amplitudes, as an exact chain; for few sites.

        `amplitudes` is a mapping from basis states (a value for each site) to whole numbers, or the dense array with
        one axis for each site. All amplitudes other than 0 stand at basis states of one charge. The last tensor
        holds the amplitudes, and those before it 0 and 1.
        """
        sites = sites_of(sites)
        if not isinstance(amplitudes, Mapping):
            array = np.asarray(amplitudes)
            real, imaginary = parts_of(array)
            filled = np.argwhere((real != 0) | (imaginary != 0))
            amplitudes = {tuple(p): Gaussian(real[tuple(p)], imaginary[tuple(p)]) for p in filled}
        kept = {tuple(site.value(v) for site, v in zip(sites, s)): gaussian(a) for s, a in amplitudes.items()}
        kept = {s: a for s, a in kept.items() if a}
        if not kept:
            raise ValueError("a state needs an amplitude other than 0")
        beginnings: List[List[Tuple[int, ...]]] = [[()]]
        for j in range(1, len(sites)):
            beginnings.append(sorted({s[:j] for s in kept}))
        arrays: List[NDArray[Any]] = []
        for j, site in enumerate(sites):
            rows = {begin: number for number, begin in enumerate(beginnings[j])}
            last = j == len(sites) - 1
            columns = {} if last else {begin: number for number, begin in enumerate(beginnings[j + 1])}
            array = np.zeros((len(rows), site.leg.dim, 1 if last else len(columns)), object)
            if last:
                for s, a in kept.items():
                    array[rows[s[:-1]], s[-1], 0] = a
            for begin, number in columns.items():
                array[rows[begin[:-1]], begin[-1], number] = 1
            arrays.append(array)
        arrays[0] = arrays[0][0]
        arrays[-1] = arrays[-1][..., 0]
        return cls.from_arrays(arrays, sites)

    def network(self) -> Network:
        """The chain as a network: link j has the label j, and the site's leg of site j the label -j."""
        n = len(self.sites)
        members = [(t, _chain_labels(j, n)) for j, t in enumerate(self.tensors, 1)]
        names = [f"A{j}" for j in range(1, n + 1)]
        return Network(members, group=self.group, names=names, positions=[(float(j), 0.0) for j in range(n)])

    def amplitudes(self, program: Optional[str] = None) -> Tensor:
        """All amplitudes, as a tensor with one leg for each site; for few sites."""
        return self.network().contract(program=program)

    def part(self) -> List[Dict[str, Any]]:
        """The chain as documents write it."""
        return [tensor.document() for tensor in self.tensors]

    @classmethod
    def from_document(cls, document: Mapping[str, Any], chain: str = "ket") -> "State":
        """The ``"bra"`` or the ``"ket"`` of a document of states."""
        group = Group.from_document(document["group"])
        sites = [Site.from_document(site, group) for site in document["sites"]]
        made = cls(sites, [Tensor.from_document(t, group) for t in document[chain]])
        made.group = group
        return made

    def __eq__(self, other: Any) -> bool:
        if not isinstance(other, State):
            return NotImplemented
        return (self.group, self.sites, self.tensors) == (other.group, other.sites, other.tensors)

    __hash__ = None  # type: ignore[assignment]

    def __repr__(self) -> str:
        widths = [t.legs[-1].dim for t in self.tensors[:-1]]
        return f"State({len(self.sites)} sites, links {widths})"


class ProductState(State):
    """The state with one value at each site, by number or name: ``ProductState(["fermion"] * 4, [1, 0, 1, 0])``.

    It is the basis state with amplitude 1 (its fermions are created from the last site to the first on the empty
    state, which is the basis of `OperatorSum`).
    """

    def __init__(self, sites: Iterable[SiteLike], values: Sequence[Union[int, str]]) -> None:
        sites = sites_of(sites)
        if len(values) != len(sites):
            raise ValueError(f"{len(values)} values for {len(sites)} sites")
        self.values = tuple(site.value(value) for site, value in zip(sites, values))
        chain = State.from_vector(sites, {self.values: 1})
        super().__init__(sites, chain.tensors)


def overlap(bra: State, ket: State, workers: Optional[int] = None, program: Optional[str] = None) -> Scalar:
    """The sum over basis states of the conjugate of the bra's amplitude times the ket's, exactly.

    The bra is given as the state itself, not as its conjugate.
    """
    return _scalar(run("overlap", states_document(bra, ket), workers, program))


def expect(
    bra: State, operator: OperatorSum, ket: State, workers: Optional[int] = None, program: Optional[str] = None
) -> Scalar:
    """The sum over pairs of basis states of the conjugate of the bra's amplitude, the operator's matrix element
    and the ket's amplitude, exactly. It isn't divided by a norm."""
    return _scalar(run("expect", states_document(bra, ket, operator), workers, program))


def states_document(bra: State, ket: State, operator: Optional[OperatorSum] = None) -> Dict[str, Any]:
    """The document of two states, and where given an operator sum, as ``overlap`` and ``expect`` read it."""
    if ket.sites != bra.sites or (operator is not None and operator.sites != bra.sites):
        raise ValueError("bra, ket and operator sum aren't on the same sites")
    document: Dict[str, Any] = {"group": bra.group.document(), "sites": [site.document() for site in bra.sites]}
    document.update(bra=bra.part(), ket=ket.part())
    if operator is not None:
        document.update(operator.part())
    return document


def save_states(path: Union[str, Path], bra: State, ket: State, operator: Optional[OperatorSum] = None) -> None:
    """Writes the document of two states, and where given an operator sum, into a file."""
    Path(path).write_bytes(as_bytes(states_document(bra, ket, operator)) + b"\n")


def overlap_network(bra: State, ket: State) -> Network:
    """The network that ``overlap`` contracts: the bra's conjugates from the last site to the first, then the ket."""
    n = len(bra.sites)
    members: List[Tuple[Member, Sequence[int]]] = []
    for j in range(n, 0, -1):
        labels = _ends(3 * j - 4, 3 * j - 2, 3 * j - 1, j, n)
        members.append((bra.tensors[j - 1].conj(), labels[::-1]))
    for j in range(1, n + 1):
        members.append((ket.tensors[j - 1], _ends(3 * j - 3, 3 * j - 2, 3 * j, j, n)))
    names = [f"bra {j}*" for j in range(n, 0, -1)] + [f"ket {j}" for j in range(1, n + 1)]
    places = [(float(j), 1.0) for j in range(n, 0, -1)] + [(float(j), 0.0) for j in range(1, n + 1)]
    return Network(members, group=bra.group, names=names, positions=places)


def expectation_network(bra: State, operator: OperatorSum, ket: State, program: Optional[str] = None) -> Network:
    """The network that ``expect`` contracts: the bra's conjugates from the last site to the first, then the
    operator's tensors, which come from the program, and then the ket's, from the first site to the last.
    """
    n = len(bra.sites)
    middle = operator.mpo(program)
    members: List[Tuple[Member, Sequence[int]]] = []
    for j in range(n, 0, -1):
        labels = _ends(5 * j - 7, 5 * j - 4, 5 * j - 2, j, n)
        members.append((bra.tensors[j - 1].conj(), labels[::-1]))
    for j, (tensor, _) in enumerate(middle.tensors, 1):
        left = [5 * j - 6] if j > 1 else []
        members.append((tensor, [*left, 5 * j - 4, 5 * j - 3, *([5 * j - 1] if j < n else [])]))
    for j in range(1, n + 1):
        members.append((ket.tensors[j - 1], _ends(5 * j - 5, 5 * j - 3, 5 * j, j, n)))
    sites = range(1, n + 1)
    names = [f"bra {j}*" for j in reversed(sites)] + [f"W {j}" for j in sites] + [f"ket {j}" for j in sites]
    places = (
        [(float(j), 2.0) for j in reversed(sites)] + [(float(j), 1.0) for j in sites] + [(float(j), 0.0) for j in sites]
    )
    return Network(members, group=bra.group, names=names, positions=places)


def _ends(left: int, site: int, right: int, j: int, n: int) -> List[int]:
    """The labels of a chain's tensor at site j of n; the ends have no left, or no right, link."""
    return ([left] if j > 1 else []) + [site] + ([right] if j < n else [])


def _chain_labels(j: int, n: int) -> List[int]:
    return _ends(j - 1, -j, j, j, n)


def _scalar(text: str) -> Scalar:
    tensor = Tensor.from_document(json.loads(text))
    value = tensor.scalar()
    return Scalar(value.re, value.im, tensor.flux)


def _with_links(array: NDArray[Any], j: int, n: int) -> NDArray[Any]:
    """The array of site j (from 0) with both links; the ends get links of dimension 1."""
    wanted = 3 - (j == 0) - (j == n - 1)
    if array.ndim != wanted:
        raise WrongShape(f"site {j + 1}: the array has {array.ndim} axes, and its place in the chain wants {wanted}")
    if j == 0:
        array = array[np.newaxis]
    return array[..., np.newaxis] if j == n - 1 else array


def _site_tensor(j: int, array: NDArray[Any], legs: Sequence[Leg], fluxes: Sequence[Charge]) -> Tensor:
    """The tensor of site j (from 0), of the array with both links; the ends lose theirs. Faults name the site."""
    first, last = (1 if j == 0 else 0), (2 if j == len(fluxes) - 1 else 3)
    array = array.reshape(array.shape[first:last])
    try:
        return Tensor.from_array(array, legs[first:last], fluxes[j])
    except OffFlux as fault:
        site = f"site {j + 1}: "
        raise OffFlux(fault.value, fault.place, fault.tuple, fault.charge, fault.flux, site) from None
    except WrongShape as fault:
        raise WrongShape(f"site {j + 1}: {str(fault).split(': ', 1)[1]}") from None


def _sorted_links(arrays: List[NDArray[Any]], sites: Sequence[Site]) -> Tuple[List[NDArray[Any]], List[Leg]]:
    """The arrays with the values of each link sorted by charge, and the links. Raises `OffFlux` where the entries of a
    link's value don't have one charge."""
    group = sites[0].group
    arrays = list(arrays)
    left: List[Charge] = [group.zero]
    links: List[Leg] = []
    for j in range(len(arrays) - 1):
        array = arrays[j]
        if array.shape[:2] != (len(left), sites[j].leg.dim):
            raise WrongShape(
                f"site {j + 1}: the array has the shape {array.shape}, "
                f"and wants {len(left)} and {sites[j].leg.dim} at left and site"
            )
        following = arrays[j + 1]
        if following.shape[0] != array.shape[2]:
            raise WrongShape(
                f"site {j + 2}: the array has {following.shape[0]} values at left, "
                f"and site {j + 1} has {array.shape[2]} at right"
            )
        right = _right_charges(array, left, sites[j], j)
        if not right:
            right, following = {0: group.zero}, np.zeros_like(following)
        order = sorted(right, key=lambda b: (right[b], b))
        left = [right[b] for b in order]
        arrays[j], arrays[j + 1] = array[:, :, order], following[order]
        links.append(Leg("out", [(charge, len(list(same))) for charge, same in itertools.groupby(left)], group))
    return arrays, links


def _right_charges(array: NDArray[Any], left: Sequence[Charge], site: Site, j: int) -> Dict[int, Charge]:
    """The charges of the values of the link right of a site, as entries tell them; a value without any has none."""
    group = site.group
    charges: Dict[int, Charge] = {}
    real, imaginary = parts_of(array)
    for a, s, b in np.argwhere((real != 0) | (imaginary != 0)):
        charge = group.add(left[a], site.leg.charges[s])
        if charges.setdefault(int(b), charge) != charge:
            place = (a, s, b) if j else (s, b)
            value = Gaussian(real[a, s, b], imaginary[a, s, b])
            raise OffFlux(value, tuple(map(int, place)), None, charge, charges[int(b)], f"site {j + 1}: ")
    return charges


def _total(array: NDArray[Any], link: Leg, site: Site) -> Charge:
    """The charge of the first entry of the last array."""
    real, imaginary = parts_of(array)
    filled = np.argwhere((real != 0) | (imaginary != 0))
    if not len(filled) or array.shape[:2] != (link.dim, site.leg.dim):
        return site.group.zero
    return site.group.add(link.charges[filled[0][0]], site.leg.charges[filled[0][1]])
