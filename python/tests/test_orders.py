"""Orders from NumPy and opt_einsum: the value stays, and what they cost is told by the program."""

import random
import sys
import types

import numpy as np
import pytest
from hypothesis import given
from random_tensors import F, filled_tensor, random_network, seeds

from wandrosu import Combiner, Leg, Malformed, Network
from wandrosu.orders import find_path, labels_of_path


def ladder(n, sectors=((0, 2), (1, 2))):
    """A closed ladder of 2 n tensors, whose ascending labels go along one rail first."""
    rnd = random.Random(2)
    leg = Leg("out", sectors, F)
    rails = {(side, j): side * (n - 1) + j for side in (0, 1) for j in range(1, n)}
    rungs = {j: 2 * (n - 1) + j for j in range(1, n + 1)}
    members = []
    for side in (0, 1):
        for j in range(1, n + 1):
            ends = [(rails[side, j - 1], leg.turned())] if j > 1 else []
            ends += [(rails[side, j], leg)] if j < n else []
            ends += [(rungs[j], leg.turned() if side else leg)]
            members.append((filled_tensor(rnd, [at for _, at in ends], F, flux=(0,)), [label for label, _ in ends]))
    return Network(members)


@given(seeds)
def test_an_order_changes_no_value(seed):
    network = random_network(random.Random(seed))
    other = network.with_order("numpy")
    assert sorted(other.order) == network.labels
    assert other.contract() == network.contract()


def test_costs_before_and_after():
    network = ladder(5)
    found = network.reordered()
    assert found.after.cost < found.before.cost and found.network.contract() == network.contract()
    assert (found.before, found.after) == (network.plan(), found.network.plan())
    assert str(found).startswith(f"cost {found.before.cost:,} before and {found.after.cost:,} after, ")
    assert (
        str(network.reordered(network.labels)) == f"cost {found.before.cost:,} before and {found.before.cost:,} after"
    )


def test_an_order_that_is_too_wide_is_mended():
    network = ladder(13, [(0, 1), (1, 1), (2, 1)])
    with pytest.raises(Malformed, match="F27 too wide: step"):
        network.plan()
    found = network.reordered()
    assert found.before is None and str(found) == f"too wide before and cost {found.after.cost:,} after"
    with pytest.raises(Malformed, match="F22"):
        Network(network.tensors[:3]).reordered()


def test_paths_as_numpy_gives_them():
    network = ladder(3)
    operands = []
    for tensor, labels in network.tensors:
        operands += [tensor.to_array(complex), list(labels)]
    path, table = np.einsum_path(*operands, [], optimize="greedy")
    assert Network(network.tensors, order=path).order == Network(network.tensors, order="numpy").order
    assert Network(network.tensors, order=(path, table)).order == network.with_order(path).order
    assert network.with_order(np.array([7, 1, 2, 3, 4, 5, 6])).order == (7, 1, 2, 3, 4, 5, 6)
    assert find_path(network, "numpy", "optimal")
    with pytest.raises(ValueError, match="not 'nothing'"):
        network.with_order("nothing")


def test_steps_of_three_operands_and_outer_products():
    network = ladder(3)
    everything = labels_of_path(network, [tuple(range(6))])
    assert sorted(everything) == network.labels and network.with_order(everything).contract() == network.contract()
    far = labels_of_path(network, [(0, 5), (0, 1), (0, 1), (0, 1), (0, 1)])
    assert sorted(far) == network.labels
    leg = Leg("out", [(0, 1), (1, 1)], F)
    traced = Network(
        [
            (filled_tensor(random.Random(1), [leg, leg.turned(), leg], F, flux=(1,)), [2, 2, 1]),
            (filled_tensor(random.Random(2), [leg.turned()], F, flux=(-1,)), [1]),
        ]
    )
    assert traced.with_order("numpy").order == (2, 1)


def test_more_labels_than_letters():
    with pytest.raises(ValueError, match="52 labels"):
        ladder(20).with_order("numpy")


def test_combiners_count_by_their_table():
    leg = Leg("out", [(0, 1), (1, 1)], F)
    tensor = filled_tensor(random.Random(1), [leg, leg], F, flux=(1,))
    network = Network([(Combiner("out", [leg, leg], "fuse"), [-1, 2, 1]), (tensor, [1, 2])])
    assert network.with_order("numpy").contract() == network.contract()


def test_opt_einsum():
    opt_einsum = pytest.importorskip("opt_einsum")
    network = ladder(20)
    assert opt_einsum and network.with_order("opt_einsum").plan().cost <= network.plan().cost


def test_what_opt_einsum_is_asked(monkeypatch):
    """With a stand-in of opt_einsum, which contracts from the left: what it is given and how its path is read."""
    asked = {}

    def contract_path(equation, *operands, shapes, optimize):
        assert shapes is True
        asked.update(equation=equation, shapes=operands, optimize=optimize)
        return [(0, 1)] + [(0, len(operands) - step - 1) for step in range(1, len(operands) - 1)], None

    stand_in = types.SimpleNamespace(get_symbol=lambda i: chr(ord("a") + i), contract_path=contract_path)
    monkeypatch.setitem(sys.modules, "opt_einsum", stand_in)
    network = ladder(2)
    assert network.with_order("opt_einsum").order == (1, 3, 2, 4)
    assert asked["equation"] == "ac,ad,bc,bd->" and asked["shapes"] == ((4, 4),) * 4 and asked["optimize"] == "greedy"
