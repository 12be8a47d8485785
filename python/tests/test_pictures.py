"""Pictures: what is drawn, and that Graphviz draws it."""

import re
import shutil

import pytest
from wrong_documents import network, tensor

from wandrosu import Combiner, Leg, Network, OperatorSum, ProductState, Tensor, U1, expectation_network, pictures

needs_dot = pytest.mark.skipif(shutil.which("dot") is None, reason="Graphviz isn't installed")
F = U1(fermion=True)
LEG = Leg("out", [(0, 1), (1, 1)], F)
EVEN = Leg("out", [(0, 2)], F)


def small():
    odd = Tensor([LEG], 1, {(1,): [1]})
    return Network(
        [
            (Combiner("out", [LEG], "fuse"), [1, 2]),
            (odd, [2]),
            (Tensor([Leg("in", [(0, 1), (1, 1)], F), EVEN], -1, {(1, 0): [[1, 2]]}), [1, -1]),
        ],
        twist=[2],
    )


def edges(dot):
    """The lines of a picture: from, to, and what is said of them."""
    return {(a, b): rest for a, b, rest in re.findall(r"(\w+) -> (\w+) \[(.*)\]", dot)}


def test_lines_go_from_out_to_in():
    lines = edges(small().picture().dot)
    assert set(lines) == {("t1", "t3"), ("t2", "t1"), ("t3", "o1")}
    assert (
        pictures.ODD in lines["t1", "t3"] and pictures.ODD in lines["t2", "t1"] and pictures.EVEN in lines["t3", "o1"]
    )
    assert "dashed" in lines["t2", "t1"] and "dashed" not in lines["t1", "t3"]
    assert "dim 2" in lines["t1", "t3"]


def test_members_are_marked():
    dot = small().picture().dot
    assert re.search(r't1 \[.*fuse.*peripheries="1"', dot) and re.search(r't2 \[.*flux 1.*peripheries="2"', dot)
    assert "thick red" in dot and "double frame" in dot and "twisted line" in dot
    assert "thick red" not in small().picture(caption=False).dot
    assert "0:1 1:1" in small().picture(sectors=True).dot


def test_steps_with_their_costs():
    chain = OperatorSum(["fermion"] * 3, [(1, "Cdag", j, "C", j + 1) for j in (1, 2)])
    state = ProductState(["fermion"] * 3, [1, 0, 1])
    plan = expectation_network(state, chain, state).plan()
    dot = plan.picture().dot
    assert len(edges(dot)) == 0 and len(re.findall(r"\w+ -> s\d", dot)) == 2 * len(plan.steps)
    for number, step in enumerate(plan.steps, 1):
        assert re.search(
            rf"s{number} \[.*<b>{number}</b> {step.kind}.*labels {', '.join(map(str, step.labels))}<.*cost {step.cost:,}",
            dot,
        )
    assert "bra 1*" in dot and "W 2" in dot and "ket 3" in dot


@needs_dot
def test_graphviz_draws_them(tmp_path):
    chain = OperatorSum(["fermion"] * 3, [(1, "Cdag", j, "C", j + 1) for j in (1, 2)])
    state = ProductState(["fermion"] * 3, [1, 0, 1])
    whole = expectation_network(state, chain, state)
    for drawn in (small(), whole, whole.plan(), chain.mpo(), Network.from_document(network(tensor(labels=[1, 1])))):
        svg = drawn._repr_svg_()
        assert "<svg" in svg and "</svg>" in svg
    svg = whole.picture().svg()
    assert all(name in svg for name in ("bra 1*", "W 2", "ket 3"))
    whole.picture().save(tmp_path / "a.png")
    assert (tmp_path / "a.png").read_bytes().startswith(b"\x89PNG")
    whole.picture().save(tmp_path / "a.dot")
    assert (tmp_path / "a.dot").read_text().startswith("digraph")
    whole.picture().save(tmp_path / "a.svg")


@needs_dot
def test_names_are_written_as_they_are():
    odd_names = Network(small().tensors, names=['a"b\\', "<x&y>", "z"])
    svg = odd_names.picture().svg()
    assert "a&quot;b\\" in svg.replace("&#39;", "'") and "&lt;x&amp;y&gt;" in svg
    odd_names.plan().picture().svg()


def test_without_graphviz(monkeypatch):
    monkeypatch.setattr(shutil, "which", lambda name: None)
    with pytest.raises(pictures.NoGraphviz, match="apt-get install graphviz"):
        pictures.Picture("digraph {}").svg()
    assert pictures.Picture("digraph {}")._repr_svg_() is None
