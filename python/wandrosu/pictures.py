"""Pictures of networks and plans, drawn by Graphviz (its program ``dot``).

Lines go from the leg ``out`` to the leg ``in``. A line with odd values is thick and red, since exchanging it can cost a
sign; a tensor of odd flux has a double frame.
"""

from __future__ import annotations

import html
import shutil
import subprocess
from pathlib import Path
from typing import Any, Dict, List, Optional, Sequence, Tuple, Union

from .combiners import Combiner
from .errors import WandrosuError
from .legs import Leg
from .networks import Network
from .plans import Plan, Step

FONT = "Helvetica,Arial,sans-serif"
ODD, EVEN, SOFT = "#b3261e", "#37474f", "#78909c"
TENSOR, COMBINER = "#e3f2fd", "#fff3e0"
ACROSS, UP = 130, 104
"""Points between neighbours where a network has positions."""
FREE = {"rankdir": "LR", "ranksep": 0.6, "nodesep": 0.35}
"""How a network without positions is laid out."""

End = Tuple[int, Leg]
"""One end of a line: the number of its tensor, and the leg."""


class NoGraphviz(WandrosuError, FileNotFoundError):
    """Graphviz isn't installed."""


class Picture:
    """A picture as Graphviz draws it. It shows itself in notebooks; `save` writes SVG, PNG or PDF.

    `dot` is its source in Graphviz's language.
    """

    def __init__(self, dot: str, engine: str = "dot") -> None:
        self.dot, self.engine = dot, engine

    def render(self, kind: str = "svg") -> bytes:
        """The picture's bytes in one of Graphviz's formats. Raises `NoGraphviz` where ``dot`` isn't on PATH."""
        program = shutil.which("dot")
        if program is None:
            raise NoGraphviz(
                "pictures are drawn by Graphviz, whose program dot isn't on PATH (Debian: apt-get install graphviz)"
            )
        words = [program, f"-K{self.engine}", f"-T{kind}"] + (["-n"] if self.engine == "neato" else [])
        drawn = subprocess.run(words, input=self.dot.encode("utf-8"), stdout=subprocess.PIPE, stderr=subprocess.PIPE)
        if drawn.returncode != 0:
            raise WandrosuError(f"dot couldn't draw: {drawn.stderr.decode('utf-8', 'replace').strip()}")
        return drawn.stdout

    def svg(self) -> str:
        """The picture as SVG."""
        return self.render("svg").decode("utf-8")

    def save(self, path: Union[str, Path]) -> None:
        """Writes the picture in the format of the path's ending: .svg, .png, .pdf; .dot is the source."""
        kind = Path(path).suffix.lstrip(".") or "svg"
        Path(path).write_bytes(self.dot.encode("utf-8") if kind in ("dot", "gv") else self.render(kind))

    def _repr_svg_(self) -> Optional[str]:
        try:
            return self.svg()
        except NoGraphviz:
            return None


def network_picture(network: Network, sectors: bool = False, caption: bool = True) -> Picture:
    """A network: its members by number and name, its lines with label and dimension, open legs at their labels.

    With `sectors` each line lists its sectors, charge : dimension. The caption says what is marked.
    """
    placed = network.positions is not None and len(network.positions) == len(network.tensors)
    parts = [
        "graph "
        + _attributes(fontname=FONT, fontsize=11, fontcolor=SOFT, bgcolor="white", labelloc="b", labeljust="l"),
        "graph " + (_attributes(splines="line", outputorder="edgesfirst") if placed else _attributes(**FREE)),
        "node " + _attributes(fontname=FONT, fontsize=13),
        "edge " + _attributes(fontname=FONT, fontsize=11, arrowsize=0.7),
    ]
    ends: Dict[int, List[End]] = {}
    for number, (member, labels) in enumerate(network.tensors, 1):
        parts.append(_member(network, number, placed))
        for leg, label in zip(member.legs, labels):
            ends.setdefault(label, []).append((number, leg))
    for label, at in sorted(ends.items(), key=lambda item: (item[0] < 0, abs(item[0]))):
        said = _label(label, at[0][1], label in network.twist, sectors)
        if label < 0:
            parts.append(_open_end(network, label, at[0][0], said, placed))
        on_line = placed and label > 0 and _is_straight(ends, label)
        if on_line:
            parts.append(_mark_on_line(network, label, at, said))
        parts.append(_line(label, at, label in network.twist, "" if on_line or label < 0 else said))
    marks = [mark for mark, is_there in _marks(network) if is_there]
    if caption and marks:
        parts.append("label=<" + "".join(mark + '<br align="left"/>' for mark in marks) + ">")
    return Picture(_digraph(parts), "neato" if placed else "dot")


def plan_picture(plan: Plan) -> Picture:
    """The tree of a plan's steps: the tensors left, and each step with its kind, labels, cost and share of all costs.
    The fuller a step's colour, the more of the cost it has."""
    box = {"shape": "box", "style": "rounded,filled", "color": EVEN}
    parts = [
        "graph " + _attributes(fontname=FONT, rankdir="LR", ranksep=0.35, nodesep=0.15, bgcolor="white"),
        "node " + _attributes(fontname=FONT, fontsize=12, width=0.4, height=0.3),
        "edge " + _attributes(color=SOFT, arrowsize=0.6),
    ]
    here: Dict[int, str] = {}
    for number in sorted({number for step in plan.steps for number in step.of} | {1}):
        here[number] = f"t{number}"
        name = _name(plan.network, number) if plan.network is not None else str(number)
        parts.append(f"t{number} " + _attributes(label=name, fillcolor=TENSOR, **box))
    for place, step in enumerate(plan.steps, 1):
        share = step.cost / plan.cost if plan.cost else 0.0
        parts.append(f"s{place} " + _attributes(label=_step(place, step, share), fillcolor=_shade(share), **box))
        parts += [f"{here[number]} -> s{place}" for number in step.of]
        here[min(step.of)] = f"s{place}"
    return Picture(_digraph(parts))


def _digraph(parts: Sequence[str]) -> str:
    return "digraph {\n  " + "\n  ".join(parts) + "\n}\n"


class _Markup(str):
    """A label in Graphviz's markup."""


def _attributes(**values: Any) -> str:
    """Attributes as Graphviz writes them, those without a value left out."""
    said = []
    for name, value in values.items():
        if isinstance(value, _Markup):
            said.append(f"{name}=<{value}>")
        elif value is not None:
            text = str(value).replace("\\", "\\\\").replace('"', '\\"')
            said.append(f'{name}="{text}"')
    return f"[{', '.join(said)}]"


def _small(text: str, colour: str, size: int = 9) -> str:
    return f'<font point-size="{size}" color="{colour}">{html.escape(text)}</font>'


def _name(network: Network, number: int) -> str:
    names = network.names
    return names[number - 1] if names is not None and len(names) == len(network.tensors) else str(number)


def _member(network: Network, number: int, placed: bool) -> str:
    member = network.tensors[number - 1][0]
    said = f"<b>{html.escape(_name(network, number))}</b>"
    if isinstance(member, Combiner):
        look = {"style": "filled", "fillcolor": COMBINER, "peripheries": 1}
        said += "<br/>" + _small(member.mode, EVEN)
    else:
        look = {"style": "rounded,filled", "fillcolor": TENSOR, "peripheries": 2 if member.is_odd else 1}
        if any(member.flux):
            said += "<br/>" + _small(f"flux {_charge(member.flux)}", EVEN)
    pos = _at(network, number) if placed else None
    size = {"margin": "0.1,0.06", "width": 0.5, "height": 0.4}
    return f"t{number} " + _attributes(label=_Markup(said), shape="box", color=EVEN, pos=pos, **look, **size)


def _at(network: Network, number: int, right: float = 0.0, up: float = 0.0) -> str:
    """The place of a tensor in points, moved by a part of the distance between neighbours."""
    assert network.positions is not None
    x, y = network.positions[number - 1]
    return f"{(x + right) * ACROSS:.0f},{(y + up) * UP:.0f}"


def _open_end(network: Network, label: int, number: int, said: _Markup, placed: bool) -> str:
    """The end of an open leg; where tensors have positions, above its tensor and below it in turn."""
    pos = None
    if placed:
        own = [other for other in network.tensors[number - 1][1] if other < 0]
        turn, aside = own.index(label) % 2, own.index(label) // 2
        pos = _at(network, number, 0.3 * aside, -0.62 if turn else 0.62)
    size = {"margin": "0.06,0.02", "width": 0.3, "height": 0.25, "fontsize": 11}
    return f"o{-label} " + _attributes(label=said, shape="plaintext", pos=pos, **size)


def _is_straight(ends: Dict[int, List[End]], label: int) -> bool:
    """Whether a line goes alone from one tensor to another, so that its label can stand on it."""
    here = sorted(number for number, _ in ends[label])
    alike = sum(here == sorted(number for number, _ in at) for at in ends.values())
    return len(here) == len(set(here)) == 2 and alike == 1


def _mark_on_line(network: Network, label: int, ends: List[End], said: _Markup) -> str:
    """The label of a line as a node of its own at the line's middle; Graphviz puts labels of fixed lines upon them."""
    assert network.positions is not None
    (x1, y1), (x2, y2) = (network.positions[number - 1] for number, _ in ends)
    pos = f"{(x1 + x2) / 2 * ACROSS:.0f},{(y1 + y2) / 2 * UP:.0f}"
    look = {"shape": "plaintext", "style": "filled", "fillcolor": "white", "fontsize": 11}
    return f"l{label} " + _attributes(label=said, pos=pos, margin="0.02,0.02", width=0.1, height=0.1, **look)


def _label(label: int, leg: Leg, twisted: bool, sectors: bool) -> _Markup:
    """What stands at a line: its label, and its dimension or its sectors."""
    size = " ".join(f"{_charge(c)}:{d}" for c, d in leg.sectors) if sectors else f"dim {leg.dim}"
    return _Markup(f"{label}{' twisted' if twisted else ''}<br/>{_small(size, SOFT)}")


def _line(label: int, ends: List[End], twisted: bool, said: str) -> str:
    number, leg = ends[0]
    colour, width = (ODD, 2.2) if leg.is_odd else (EVEN, 1.1)
    if label > 0:
        by_arrow = sorted(ends, key=lambda end: end[1].direction == "in")
        tail, head = f"t{by_arrow[0][0]}", f"t{by_arrow[-1][0]}"
    else:
        tail, head = (f"t{number}", f"o{-label}") if leg.direction == "out" else (f"o{-label}", f"t{number}")
    style = "dashed" if twisted else None
    return f"{tail} -> {head} " + _attributes(color=colour, penwidth=width, label=said or None, style=style)


def _charge(charge: Tuple[int, ...]) -> str:
    return ",".join(map(str, charge)) if len(charge) != 1 else str(charge[0])


def _marks(network: Network) -> List[Tuple[str, bool]]:
    legs = [leg for member, _ in network.tensors for leg in member.legs]
    odd = any(not isinstance(member, Combiner) and member.is_odd for member, _ in network.tensors)
    return [
        (f'<font color="{ODD}"><b>thick red</b></font>: a line with odd values', any(leg.is_odd for leg in legs)),
        ("double frame: a tensor of odd flux", odd),
        ("dashed: a twisted line", bool(network.twist)),
    ]


def _step(place: int, step: Step, share: float) -> _Markup:
    labels = ", ".join(map(str, step.labels)) or "none"
    cost = f"cost {step.cost:,}" + (f" ({share:.0%})" if share >= 0.005 else "")
    return _Markup(
        f"<b>{place}</b> {step.kind}<br/>{_small('labels ' + labels, EVEN, 10)}<br/>{_small(cost, EVEN, 10)}"
    )


def _shade(share: float) -> str:
    """White for a step that costs nothing, orange for one that costs all."""
    low, high = (255, 255, 255), (255, 167, 38)
    return "#" + "".join(f"{round(a + (b - a) * share):02x}" for a, b in zip(low, high))
