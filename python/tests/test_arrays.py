"""Tensors from arrays and back, also through the program."""

import itertools
import random

import numpy as np
import pytest
from hypothesis import given
from plain import dense, value
from random_tensors import F, B, random_network, random_tensor, seeds

from wandrosu import Gaussian, Group, Leg, Network, NotWhole, OffFlux, Tensor, U1, WrongShape, Zn

LEG = Leg("out", [(0, 1), (1, 1)], F)


@given(seeds)
def test_arrays_come_back_through_the_program(seed):
    rnd = random.Random(seed)
    tensor = random_tensor(rnd, bits=rnd.choice([2, 60, 63, 64, 125]))
    array = tensor.to_array()
    again = Tensor.from_array(array, tensor.legs, tensor.flux, tensor.group)
    assert again == tensor
    through = Network([(again, range(-1, -1 - len(tensor.legs), -1))]).contract()
    assert through == tensor
    assert np.array_equal(through.to_array(object), array.astype(object))


@given(seeds)
def test_legs_in_another_order_exchange_their_odd_values(seed):
    rnd = random.Random(seed)
    tensor = random_tensor(rnd)
    places = list(range(len(tensor.legs)))
    rnd.shuffle(places)
    moved = Network([(tensor, [-1 - place for place in places])]).contract()
    parities = [[tensor.group.parity(c) for c in leg.charges] for leg in tensor.legs]
    for values, number in dense(tensor):
        odd = [place for place, v, p in zip(places, values, parities) if p[v]]
        swaps = sum(a > b for a, b in itertools.combinations(odd, 2))
        goal = tuple(v for _, v in sorted(zip(places, values)))
        assert moved[goal] == (-number if swaps % 2 else number)


@given(seeds)
def test_networks_are_worth_the_signed_sum(seed):
    network = random_network(random.Random(seed))
    assert Network.from_document(network.document()) == network
    assert dict(dense(network.contract())) == value(network)


def test_types_of_arrays():
    legs = [LEG, LEG.turned()]
    whole = [[2, 0], [0, 3]]
    kinds = [np.array(whole, kind) for kind in ("int8", "int64", "uint64", "float32", "float64", "complex128", object)]
    assert all(Tensor.from_array(array, legs) == Tensor.from_array(whole, legs) for array in kinds)
    assert Tensor.from_array(whole, legs).to_array().dtype == np.int64
    assert Tensor.from_array([[2j, 0], [0, 3]], legs).to_array().dtype == np.complex128
    large = Tensor.from_array(np.array([[2**100, 0], [0, -3]], object), legs)
    assert large.to_array().dtype == object and large.to_array()[0, 0] == 2**100
    mixed = Tensor.from_array(np.array([[Gaussian(2**100, 1), 0], [0, -3]], object), legs)
    assert mixed.to_array()[0, 0] == Gaussian(2**100, 1)
    assert mixed.to_array(complex)[0, 0] == complex(2.0**100, 1)
    with pytest.raises(TypeError):
        mixed.to_array(float)
    with pytest.raises(OverflowError):
        large.to_array("int64")
    assert large.document()["blocks"][0][1] == [str(2**100)]


def test_floats_are_taken_at_their_exact_value():
    leg = Leg("out", [((), 2)], Group())
    tensor = Tensor.from_array(np.array([2.0**70, -(2.0**63)]), [leg])
    assert tensor.to_array().tolist() == [2**70, -(2**63)]


def test_off_flux_is_told_with_its_place():
    with pytest.raises(
        OffFlux,
        match=r"off flux: the entry 7 at \[1,0\] \(sectors \[1,0\]\) has the charge 1, out less in, and the flux is 0",
    ) as told:
        Tensor.from_array([[2, 0], [7, 3]], [LEG, LEG.turned()])
    assert (told.value.place, told.value.tuple, told.value.charge, told.value.flux) == ((1, 0), (1, 0), (1,), (0,))
    with pytest.raises(OffFlux) as told:
        Tensor.from_array(5, [], 1, F)
    assert told.value.place == ()
    third = Leg("out", [(0, 1), (1, 2), (2, 1)], Zn(3))
    assert Tensor.from_array(np.diag([1, 0, 0, 0]), [third, third]).blocks.keys() == {(0, 0)}
    array = np.zeros((4, 4), int)
    array[2, 3] = array[3, 1] = 1
    assert Tensor.from_array(array, [third, third]).flux == (0,)
    array[0, 1] = 4
    with pytest.raises(OffFlux) as told:
        Tensor.from_array(array, [third, third])
    assert told.value.place == (0, 1) and told.value.charge == (1,)


@pytest.mark.parametrize("value", [0.5, float("nan"), float("inf"), 1 + 0.5j, "1", None])
def test_not_whole_is_told_with_its_place(value):
    leg = Leg("out", [((), 2)], Group())
    with pytest.raises(NotWhole) as told:
        Tensor.from_array(np.array([1, value], object), [leg])
    assert told.value.place == (1,)
    if isinstance(value, (float, complex)):
        with pytest.raises(NotWhole) as told:
            Tensor.from_array(np.array([1, value]), [leg])
        assert told.value.place == (1,)


def test_shapes():
    with pytest.raises(WrongShape, match=r"the array has the shape \(2, 3\) and the legs have \(2, 2\) values"):
        Tensor.from_array(np.zeros((2, 3), int), [LEG, LEG])
    with pytest.raises(WrongShape):
        Tensor([LEG], 0, {(2,): [1]})
    with pytest.raises(WrongShape):
        Tensor([LEG], 0, {(0,): [1, 2]})


def test_groups_of_legs():
    bare = [Leg("out", [(0, 1), (1, 1)]), Leg("in", {0: 1, 1: 1})]
    assert Tensor.from_array(np.eye(2), bare, group=F) == Tensor.from_array(np.eye(2), [LEG, LEG.turned()])
    with pytest.raises(ValueError, match="needs its group"):
        Tensor.from_array(np.eye(2), bare)
    with pytest.raises(ValueError, match="stands among"):
        Tensor.from_array(np.eye(2), [LEG, Leg("in", [(0, 1), (1, 1)], B)])
    with pytest.raises(ValueError, match="one number for each factor"):
        Leg("out", [((0, 1), 1)], F)
    assert Leg("out", [(-1, 1)], Zn(3)).sectors == (((2,), 1),)
    assert U1(fermion=True) * Zn(3) == Group.from_document((F * Zn(3)).document())


@given(seeds)
def test_conjugate(seed):
    tensor = random_tensor(random.Random(seed))
    again = tensor.conj().conj()
    assert again == tensor
    flipped = tensor.conj().to_array(object)
    straight = tensor.to_array(object).T
    assert all(complex_of(a) == complex_of(b).conjugate() for a, b in zip(np.ravel(flipped), np.ravel(straight)))


def complex_of(number):
    return number if isinstance(number, Gaussian) else Gaussian(number)


def test_numbers():
    z = Gaussian(2, -3)
    assert (z + 1, z - 1, 1 - z, z * z, -z, 2 * z) == (3 - 3j, 1 - 3j, -1 + 3j, -5 - 12j, -2 + 3j, 4 - 6j)
    assert hash(Gaussian(5)) == hash(5) and hash(z) == hash(2 - 3j) and Gaussian(2**200, 1) != 5
    assert [str(n) for n in (Gaussian(0), Gaussian(-4), Gaussian(0, 1), Gaussian(0, -1), z, Gaussian(1, 1))] == [
        "0",
        "-4",
        "i",
        "-i",
        "2-3i",
        "1+i",
    ]
    assert (int(Gaussian(7)), float(Gaussian(7)), complex(z), abs(Gaussian(3, 4)), z.magnitude) == (
        7,
        7.0,
        2 - 3j,
        5.0,
        5,
    )
    with pytest.raises(TypeError):
        int(z)
    with pytest.raises(AttributeError):
        z.re = 1
