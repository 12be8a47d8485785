"""Networks of tensors, contracted by labels.

The labels are those of NCON (arXiv:1402.0939): positive ones stand on two legs and are summed, -1, -2, ..
stay open in this order. Signs are those of super vector spaces, so the order in which odd tensors are listed
matters; the order of the labels changes the steps and their cost and never the value.
"""

from __future__ import annotations

import json
from pathlib import Path
from typing import TYPE_CHECKING, Any, Dict, Iterable, List, Mapping, Optional, Sequence, Tuple, Union

from .combiners import Combiner
from .groups import Group
from .plans import Plan
from .program import as_bytes, run
from .tensors import Tensor

if TYPE_CHECKING:
    from .orders import Reordered
    from .pictures import Picture

Member = Union[Tensor, Combiner]
Position = Tuple[float, float]


class Network:
    """A network: members with a label for each leg, and where wanted an order of the positive labels.

    `tensors` is a list of pairs ``(tensor, labels)``; a `Combiner` may stand for a tensor. `order` is a list of
    all positive labels; or ``"numpy"`` or ``"opt_einsum"``, or a path as `numpy.einsum_path` returns it (see
    `wandrosu.orders`). `twist` lists the twisted labels, each of which multiplies by -1 where its value is odd;
    the key is written only where the list isn't empty. `names` and `positions` serve pictures alone.
    """

    def __init__(
        self,
        tensors: Iterable[Tuple[Member, Sequence[int]]],
        order: Any = None,
        twist: Iterable[int] = (),
        group: Optional[Group] = None,
        names: Optional[Sequence[str]] = None,
        positions: Optional[Sequence[Position]] = None,
    ) -> None:
        self.tensors: Tuple[Tuple[Member, Tuple[int, ...]], ...] = tuple(
            (member, tuple(int(label) for label in labels)) for member, labels in tensors
        )
        groups = [member.group for member, _ in self.tensors]
        self.group = group if group is not None else (groups[0] if groups else Group())
        for number, other in enumerate(groups, 1):
            if other != self.group:
                raise ValueError(f"tensor {number} is over {other!r} and the network over {self.group!r}")
        self.twist = tuple(int(label) for label in twist)
        self.names = None if names is None else tuple(names)
        self.positions = None if positions is None else tuple(positions)
        self.order: Optional[Tuple[int, ...]] = None
        if order is not None:
            from .orders import as_labels

            self.order = tuple(as_labels(self, order))

    @property
    def labels(self) -> List[int]:
        """The positive labels, ascending."""
        return sorted({label for _, labels in self.tensors for label in labels if label > 0})

    @property
    def open_labels(self) -> List[int]:
        """The open labels, -1 first."""
        return sorted((label for _, labels in self.tensors for label in labels if label < 0), reverse=True)

    def contract(
        self, workers: Optional[int] = None, program: Optional[str] = None, timeout: Optional[float] = None
    ) -> Tensor:
        """What the network is worth: the tensor whose legs are the open ones, -1 first, exactly.

        `workers` (1 to 64) is the number of threads; it changes nothing in the result. Raises `Malformed` with the
        document's first fault, and `Passed` where the exact range of 2^127 - 1 overflows.
        """
        text = run("contract", self.document(), workers, program, timeout)
        return Tensor.from_document(json.loads(text))

    def plan(self, program: Optional[str] = None, timeout: Optional[float] = None) -> Plan:
        """The steps and their costs; nothing is multiplied. Raises `Malformed`, also where a step is too wide."""
        text = run("plan", self.document(), None, program, timeout)
        return Plan.from_document(json.loads(text), self)

    def with_order(self, order: Any) -> "Network":
        """The same network with another order, given as for ``Network(.., order=..)``; None for ascending labels."""
        return Network(self.tensors, order, self.twist, self.group, self.names, self.positions)

    def reordered(self, by: Any = "numpy", program: Optional[str] = None) -> "Reordered":
        """Another order with the plans before and after; it prints the two costs. See `wandrosu.orders`."""
        from .orders import reordered

        return reordered(self, by, program)

    def picture(self, **how: Any) -> "Picture":
        """The network drawn by Graphviz; see `wandrosu.pictures.network_picture`."""
        from .pictures import network_picture

        return network_picture(self, **how)

    def _repr_svg_(self) -> Optional[str]:
        return self.picture()._repr_svg_()

    def document(self) -> Dict[str, Any]:
        """The document of the network, as `json` writes it."""
        members = [{**member.document(), "labels": list(labels)} for member, labels in self.tensors]
        document: Dict[str, Any] = {"group": self.group.document(), "tensors": members}
        if self.order is not None:
            document["order"] = list(self.order)
        if self.twist:
            document["twist"] = list(self.twist)
        return document

    def save(self, path: Union[str, Path]) -> None:
        """Writes the document into a file."""
        Path(path).write_bytes(as_bytes(self.document()) + b"\n")

    @classmethod
    def from_document(cls, document: Mapping[str, Any]) -> "Network":
        """The network that a document, or a text of ``mpo``, writes."""
        group = Group.from_document(document["group"])
        members: List[Tuple[Member, Sequence[int]]] = []
        for member in document["tensors"]:
            made: Member = (
                Combiner.from_document(member, group) if "combine" in member else Tensor.from_document(member, group)
            )
            members.append((made, member["labels"]))
        return cls(members, document.get("order"), document.get("twist", ()), group)

    def __eq__(self, other: Any) -> bool:
        """The same members with the same labels, order and twist."""
        if not isinstance(other, Network):
            return NotImplemented
        mine, yours = (self.group, self.tensors, self.order, self.twist), (
            other.group,
            other.tensors,
            other.order,
            other.twist,
        )
        return mine == yours

    __hash__ = None  # type: ignore[assignment]

    def __repr__(self) -> str:
        return f"Network({len(self.tensors)} tensors, {len(self.labels)} bonds, {len(self.open_labels)} open legs)"
