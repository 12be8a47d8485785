"""Plans: the steps in which a network is contracted, and what they cost."""

from __future__ import annotations

from typing import TYPE_CHECKING, Any, Mapping, NamedTuple, Optional, Tuple

if TYPE_CHECKING:
    from .networks import Network
    from .pictures import Picture


class Step(NamedTuple):
    """One step. A tensor that came from steps has the number of its earliest listed tensor."""

    kind: str
    """``pair``, ``trace``, or ``fuse`` (a combiner's step, which multiplies nothing)"""
    of: Tuple[int, ...]
    """the numbers of its two tensors, counted from 1; one number for a trace"""
    labels: Tuple[int, ...]
    """the labels that it sums, ascending"""
    cost: int
    """the greatest number of multiplications of entries"""


class Plan:
    """The steps of a network in their order, with their costs; `cost` is the sum. It prints as a table."""

    def __init__(self, steps: Tuple[Step, ...], cost: int, network: Optional["Network"] = None) -> None:
        self.steps, self.cost, self.network = steps, cost, network

    @classmethod
    def from_document(cls, plan: Mapping[str, Any], network: Optional["Network"] = None) -> "Plan":
        """The plan that the program's text writes."""
        steps = (Step(s["kind"], tuple(s["of"]), tuple(s["labels"]), s["cost"]) for s in plan["steps"])
        return cls(tuple(steps), plan["cost"], network)

    def picture(self) -> "Picture":
        """The tree of the steps, each with its labels and its cost, drawn by Graphviz."""
        from .pictures import plan_picture

        return plan_picture(self)

    def _repr_svg_(self) -> Optional[str]:
        return self.picture()._repr_svg_()

    def __str__(self) -> str:
        rows = [("step", "kind", "tensors", "labels", "cost")]
        for number, step in enumerate(self.steps, 1):
            labels = ", ".join(map(str, step.labels)) or "none"
            rows.append((str(number), step.kind, " and ".join(map(str, step.of)), labels, f"{step.cost:,}"))
        rows.append(("", "", "", "all", f"{self.cost:,}"))
        widths = [max(len(row[column]) for row in rows) for column in range(5)]
        lines = []
        for row in rows:
            cells = [
                text.rjust(w) if column in (0, 4) else text.ljust(w)
                for column, (text, w) in enumerate(zip(row, widths))
            ]
            lines.append("  ".join(cells))
        return "\n".join(lines)

    def __repr__(self) -> str:
        return f"Plan({len(self.steps)} steps, cost {self.cost:,})"

    def __eq__(self, other: Any) -> bool:
        if not isinstance(other, Plan):
            return NotImplemented
        return (self.steps, self.cost) == (other.steps, other.cost)

    __hash__ = None  # type: ignore[assignment]
