"""Sites and operator sums on a row of sites, with the signs of Jordan and Wigner."""

from __future__ import annotations

import json
from pathlib import Path
from typing import Any, Dict, Iterable, List, Mapping, Optional, Sequence, Tuple, Union

import numpy as np
from numpy.typing import NDArray

from .gaussian import Gaussian, gaussian, joined, parts_of
from .groups import U1, Charge, ChargeLike, Group
from .legs import Leg
from .networks import Network
from .program import as_bytes, run
from .tensors import entries, entry, read_entry

KINDS: Dict[str, Tuple[Leg, Tuple[str, ...], Tuple[str, ...]]] = {
    "spin_half": (Leg("out", [(1, 1), (-1, 1)], U1()), ("up", "down"), ("I", "Z", "Sp", "Sm")),
    "fermion": (Leg("out", [(0, 1), (1, 1)], U1(fermion=True)), ("empty", "full"), ("I", "N", "C", "Cdag")),
    "electron": (
        Leg("out", [((0, 0), 1), ((1, 1), 1), ((1, -1), 1), ((2, 0), 1)], U1(fermion=True) * U1()),
        ("empty", "up", "down", "both"),
        ("I", "Nup", "Ndn", "Cup", "Cdagup", "Cdn", "Cdagdn"),
    ),
}
"""The kinds of sites that are built in: the leg, the names of its values, the names of its operators."""


class Site:
    """A site: ``Site("fermion")``, ``"spin_half"``, ``"electron"``, or one of your own.

    An own site has a leg ``out`` and operators by name: `operators` maps a name to ``(charge, table)``, where the
    table is square over the leg's values, rows are where the operator leads to, and an entry other than 0 stands
    only where charge(row) - charge(column) is the charge. Each site has the identity ``I``.
    """

    __slots__ = ("kind", "leg", "values", "operators")
    kind: str
    leg: Leg
    values: Tuple[str, ...]
    operators: Dict[str, Tuple[Charge, NDArray[Any]]]

    def __init__(
        self,
        kind: str = "own",
        leg: Optional[Leg] = None,
        operators: Optional[Mapping[str, Tuple[ChargeLike, Any]]] = None,
        values: Sequence[str] = (),
    ) -> None:
        self.kind = kind
        self.operators = {}
        if kind != "own":
            if kind not in KINDS:
                raise ValueError(f"no kind of site {kind!r}; there are {', '.join(KINDS)} and own sites")
            self.leg, self.values, _ = KINDS[kind]
            return
        if leg is None or leg.group is None or leg.direction != "out":
            raise ValueError(
                "a site of one's own needs a leg 'out' with its group: Leg('out', [(0, 1), (1, 1)], U1(fermion=True))"
            )
        self.leg, self.values = leg, tuple(values)
        for name, (charge, table) in sorted((operators or {}).items()):
            self.operators[name] = leg.group.charge(charge), np.asarray(table)

    @property
    def group(self) -> Group:
        """The group of the site's charges."""
        assert self.leg.group is not None
        return self.leg.group

    def value(self, value: Union[int, str]) -> int:
        """A value of the site by its number from 0, or by its name (``"up"``, ``"full"``, ..)."""
        if isinstance(value, str):
            if value not in self.values:
                raise ValueError(
                    f"no value {value!r} at a site {self.kind}; there are {', '.join(self.values) or 'no names'}"
                )
            return self.values.index(value)
        if not 0 <= int(value) < self.leg.dim:
            raise ValueError(f"the value {value} isn't one of 0 to {self.leg.dim - 1}")
        return int(value)

    def document(self) -> Dict[str, Any]:
        """The site as documents write it."""
        if self.kind != "own":
            return {"kind": self.kind}
        operators = {
            name: {"charge": list(charge), "table": [entries(*parts_of(row)) for row in table]}
            for name, (charge, table) in self.operators.items()
        }
        return {"kind": "own", "sectors": self.leg.document()["sectors"], "ops": operators}

    @classmethod
    def from_document(cls, site: Mapping[str, Any], group: Group) -> "Site":
        """The site that a document over `group` writes."""
        if site["kind"] != "own":
            return cls(site["kind"])
        leg = Leg("out", [(charge, dim) for charge, dim in site["sectors"]], group)
        operators = {name: (op["charge"], _table(op["table"])) for name, op in site["ops"].items()}
        return cls("own", leg, operators)

    def __eq__(self, other: Any) -> bool:
        return isinstance(other, Site) and self.document() == other.document() and self.group == other.group

    __hash__ = None  # type: ignore[assignment]

    def __repr__(self) -> str:
        return f"Site({self.kind!r})" if self.kind != "own" else f"Site('own', {self.leg!r}, {list(self.operators)})"


def _table(rows: Sequence[Sequence[Any]]) -> NDArray[Any]:
    table = np.empty((len(rows), len(rows[0]) if rows else 0), object)
    for r, row in enumerate(rows):
        table[r, :] = [read_entry(e) for e in row]
    return joined(*parts_of(table))


SiteLike = Union[Site, str]
Operator = Tuple[str, int]


def sites_of(sites: Iterable[SiteLike]) -> Tuple[Site, ...]:
    """Sites, where a text stands for its kind."""
    made = tuple(site if isinstance(site, Site) else Site(site) for site in sites)
    for number, site in enumerate(made, 1):
        if site.group != made[0].group:
            raise ValueError(f"site {number} is over {site.group!r} and site 1 over {made[0].group!r}")
    return made


class OperatorSum:
    """A sum of coefficients times strings of operators on a row of sites.

    `sites` is a list of `Site` or kinds, `terms` a list of terms as one writes them, sites counted from 1:
    ``(-1, "Cdag", 1, "C", 2)`` is -1 times Cdag on site 1 times C on site 2. Operators act from right to left, with the
    signs of Jordan and Wigner; no filler operators are written. A coefficient is a whole number, or complex with
    whole parts, and may be left out where it is 1. All terms have one total charge.
    """

    def __init__(self, sites: Iterable[SiteLike], terms: Iterable[Sequence[Any]]) -> None:
        self.sites = sites_of(sites)
        self.group = self.sites[0].group if self.sites else Group()
        self.terms: Tuple[Tuple[Gaussian, Tuple[Operator, ...]], ...] = tuple(map(_term, terms))

    def mpo(self, program: Optional[str] = None, timeout: Optional[float] = None) -> Network:
        """The sum as a matrix-product operator, one tensor for each site (after Crosswhite and Bacon 2008).

        Link j has the label j; the site legs s' (``out``) have -1 .. -n from site 1 to n, and s (``in``) -2n .. -n-1.
        """
        network = Network.from_document(json.loads(run("mpo", self.document(), None, program, timeout)))
        network.names = tuple(f"W{j}" for j in range(1, len(self.sites) + 1))
        network.positions = tuple((float(j), 0.0) for j in range(len(self.sites)))
        return network

    def matrix(self, program: Optional[str] = None, dtype: Any = None) -> NDArray[Any]:
        """The matrix of the sum between basis states, for few sites; rows are where it leads to.

        Rows and columns count the values of the sites with that of the last site fastest. The type is as in
        `Tensor.to_array`.
        """
        array = self.mpo(program).contract(program=program).to_array(dtype)
        n = len(self.sites)
        size = int(np.prod(array.shape[:n], dtype=int))
        return np.transpose(array, [*range(n), *reversed(range(n, 2 * n))]).reshape(size, size)

    def document(self) -> Dict[str, Any]:
        """The document of the sum, as `json` writes it."""
        return {"group": self.group.document(), **self.part()}

    def part(self) -> Dict[str, Any]:
        """The keys ``sites`` and ``terms``, as a document of states has them too."""
        terms = [{"coef": entry(c), "ops": [[site, name] for name, site in ops]} for c, ops in self.terms]
        return {"sites": [site.document() for site in self.sites], "terms": terms}

    def save(self, path: Union[str, Path]) -> None:
        """Writes the document into a file."""
        Path(path).write_bytes(as_bytes(self.document()) + b"\n")

    @classmethod
    def from_document(cls, document: Mapping[str, Any]) -> "OperatorSum":
        """The operator sum that a document writes."""
        group = Group.from_document(document["group"])
        sites = [Site.from_document(site, group) for site in document["sites"]]
        made = cls(sites, ())
        made.group = group
        made.terms = tuple(
            (read_entry(term["coef"]), tuple((name, site) for site, name in term["ops"])) for term in document["terms"]
        )
        return made

    def __eq__(self, other: Any) -> bool:
        if not isinstance(other, OperatorSum):
            return NotImplemented
        return (self.group, self.sites, self.terms) == (other.group, other.sites, other.terms)

    __hash__ = None  # type: ignore[assignment]

    def __repr__(self) -> str:
        return f"OperatorSum({len(self.sites)} sites, {len(self.terms)} terms)"


def _term(term: Sequence[Any]) -> Tuple[Gaussian, Tuple[Operator, ...]]:
    """A term as one writes it: a coefficient where there is one, then each operator's name and its site."""
    words: List[Any] = [term] if isinstance(term, (int, complex, Gaussian)) else list(term)
    coefficient: Any = 1
    if words and not isinstance(words[0], str):
        coefficient = words.pop(0)
    names, sites = words[0::2], words[1::2]
    if (
        len(words) % 2
        or not all(isinstance(name, str) for name in names)
        or any(isinstance(site, str) for site in sites)
    ):
        raise ValueError(f"a term is a coefficient, and then each operator's name and its site, not {term!r}")
    return gaussian(coefficient), tuple((name, int(site)) for name, site in zip(names, sites))
