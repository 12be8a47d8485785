"""Networks, plans and combiners as objects."""

import json
import random

import pytest
from hypothesis import given
from plain import dense, value
from random_documents import combiner_network
from random_tensors import B, F, seeds

from wandrosu import Combiner, Leg, Network, Plan, Step, Tensor

LEG = Leg("out", [(0, 1), (1, 1)], F)
EYE = Tensor.from_array([[2, 0], [0, 3]], [LEG, LEG.turned()])


@given(seeds)
def test_combiners_stand_for_their_tables(seed):
    network = combiner_network(random.Random(seed))
    tables = Network([(m.to_tensor() if isinstance(m, Combiner) else m, labels) for m, labels in network.tensors])
    assert all(m.legs == t.legs for (m, _), (t, _) in zip(network.tensors, tables.tensors))
    assert network.contract() == tables.contract()
    assert dict(dense(tables.contract())) == value(tables)
    assert Network.from_document(network.document()) == network
    assert "fuse" in {step.kind for step in network.plan().steps}


def test_plans():
    network = Network([(EYE, [-1, 1]), (EYE, [1, 2]), (EYE, [2, -2])], order=[2, 1])
    plan = network.plan()
    assert plan.steps == (Step("pair", (2, 3), (2,), 2), Step("pair", (1, 2), (1,), 2)) and plan.cost == 4
    assert str(plan).splitlines()[1].split() == ["1", "pair", "2", "and", "3", "2", "2"]
    assert plan == Plan(plan.steps, 4) and plan != network.with_order([1, 2]).plan()
    assert repr(plan) == "Plan(2 steps, cost 4)"


def test_the_key_twist_is_written_only_where_a_label_is_twisted():
    assert "twist" not in Network([(EYE, [1, 1])]).document()
    twisted = Network([(EYE, [1, 1])], twist=[1])
    assert twisted.document()["twist"] == [1] and Network.from_document(twisted.document()) == twisted
    assert "order" not in twisted.document() and twisted.with_order([1]).twist == (1,)


def test_files(tmp_path):
    network = Network([(EYE, [-1, 1]), (EYE, [1, -2])], order=[1])
    network.save(tmp_path / "n.json")
    assert Network.from_document(json.loads((tmp_path / "n.json").read_text())) == network
    with pytest.raises(ValueError, match="tensor 2 is over"):
        Network([(EYE, [1, 1]), (Tensor.from_array(2, [], group=B), [])])


def test_words_about_objects():
    assert repr(LEG) == "Leg('out', [(0, 1), (1, 1)], U1(fermion=True))"
    assert (
        repr(EYE) == "Tensor(out 2, in 2; flux 0; 2 blocks)"
        and repr(Network([(EYE, [1, 1])])) == "Network(1 tensors, 1 bonds, 0 open legs)"
    )
    assert (
        EYE[1, 1] == 3
        and EYE[0, 1] == 0
        and EYE.block((1, 1)).tolist() == [[3]]
        and EYE.block((0, 1)).tolist() == [[0]]
    )
    with pytest.raises(TypeError):
        EYE.scalar()
    with pytest.raises(ValueError, match="'out' or 'in'"):
        Leg("Out", [(0, 1)], F)
    with pytest.raises(ValueError, match="mode"):
        Combiner("out", [LEG], "join")
