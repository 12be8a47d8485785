"""Comparisons: what is off, where, and which signs."""

import itertools
import random

import numpy as np
import pytest
from hypothesis import given
from random_tensors import F, random_tensor, seeds

from wandrosu import Gaussian, Leg, Network, Tensor, WrongShape, compare

LEG = Leg("out", [(0, 2), (1, 2)], F)


def three_legs():
    rnd = random.Random(5)
    legs = [LEG, LEG, Leg("in", [(0, 1), (1, 2), (2, 1)], F)]
    array = np.zeros((4, 4, 4), int)
    charges = [leg.charges for leg in legs]
    for place in itertools.product(range(4), repeat=3):
        a, b, c = (charge[v][0] for charge, v in zip(charges, place))
        array[place] = rnd.choice([-3, -2, -1, 1, 2, 3]) if a + b == c else 0
    return Tensor.from_array(array, legs)


@given(seeds)
def test_floats_agree(seed):
    tensor = random_tensor(random.Random(seed), bits=30)
    noise = np.random.default_rng(seed)
    array = tensor.to_array(complex)
    array = array * (1 + 1e-13 * noise.standard_normal(array.shape))
    found = compare(array, tensor)
    assert found and found.agrees and str(found).startswith("agrees: ")
    assert found.greatest <= 1e-11 * max(1, np.abs(array).max(initial=0)) and not found.signs_alone


def test_a_wrong_entry():
    tensor = three_legs()
    array = tensor.to_array(float)
    place = tuple(int(i) for i in np.argwhere(array == 3)[0])
    array[place] += 0.25
    found = compare(array, tensor)
    assert (found.agrees, found.where, found.wrong, found.signs_alone) == (False, place, 1, False)
    assert found.greatest == 0.25 and found.exact == 3 and found.found == 3.25
    assert (
        str(found) == "differs in 1 of 64 entries\n"
        f"the greatest difference is 0.25 at [{place[0]},{place[1]},{place[2]}]: found 3.25, exact 3"
    )
    assert compare(array, tensor, relative=0.1)


def flip(tensor, odd):
    """The array with the signs of those blocks turned for whose parities `odd` holds."""
    array = tensor.to_array(float)
    for sectors in tensor.blocks:
        if odd(*tensor.parities(sectors)):
            window = tuple(
                slice(leg.starts[s], leg.starts[s] + leg.sectors[s][1]) for leg, s in zip(tensor.legs, sectors)
            )
            array[window] *= -1
    return array


@pytest.mark.parametrize(
    "odd, words",
    [
        (lambda a, b, c: a and b, "legs 1 and 2 are both odd"),
        (lambda a, b, c: a, "leg 1 is odd"),
        (lambda a, b, c: c, "leg 3 is odd"),
        (lambda a, b, c: b and c, "legs 2 and 3 are both odd"),
        (lambda a, b, c: True, "every entry is negated"),
    ],
)
def test_signs_alone(odd, words):
    tensor = three_legs()
    found = compare(flip(tensor, odd), tensor)
    wrong = [s for s in tensor.blocks if odd(*tensor.parities(s))]
    assert found.signs_alone and not found.agrees
    assert [block.sectors for block in found.blocks] == wrong
    assert all(block.wrong == block.entries for block in found.blocks)
    assert "signs alone differ" in str(found) and words in str(found)
    assert all(str(list(s)) in str(found) for s in wrong)


def test_the_sign_of_an_exchange_that_a_code_forgot():
    tensor = three_legs()
    moved = Network([(tensor, [-2, -1, -3])]).contract()
    found = compare(np.transpose(tensor.to_array(float), (1, 0, 2)), moved)
    assert found.signs_alone and "legs 1 and 2 are both odd" in str(found)


def test_a_sign_of_a_small_entry_counts():
    leg = Leg("out", [((), 2)])
    tensor = Tensor.from_array([10**15, 1], [leg])
    found = compare([1e15, -1.0], tensor)
    assert not found and found.signs_alone and [tuple(b.sectors) for b in found.blocks] == [(0,)]
    assert compare([1e15, 1.0], tensor)
    assert compare([1e15, 1.5], tensor)


def test_some_entries_of_a_block():
    tensor = three_legs()
    array = tensor.to_array(float)
    array[0, 0, 0] *= -1
    found = compare(array, tensor)
    assert found.signs_alone and (found.blocks[0].wrong, found.blocks[0].entries) == (1, 4) and found.pattern == ""
    array[0, 1, 0] += 1
    assert not compare(array, tensor).signs_alone


def test_no_numbers_and_other_shapes():
    tensor = three_legs()
    array = tensor.to_array(float)
    array[1, 0, 0] = np.nan
    found = compare(array, tensor)
    assert not found and found.greatest == np.inf and found.where == (1, 0, 0)
    with pytest.raises(WrongShape):
        compare(array[0], tensor)


def test_conjugates_and_numbers():
    leg = Leg("out", [((), 2)])
    tensor = Tensor.from_array([1 + 2j, 3], [leg])
    assert "complex conjugates" in str(compare([1 - 2j, 3], tensor))
    assert compare(2.0 + 7j, Gaussian(2, 7)) and not compare(2.0 - 7j, Gaussian(2, 7))
    assert (
        str(compare(-5.0, 5))
        == "differs\nthe greatest difference is 10: found -5, exact 5\nsigns alone differ (every entry is negated)"
    )
    assert compare(np.array([1.0, 2.0]), np.array([1, 2]))
    assert compare(0.0, 0) and not compare(1e-9, 0)
    assert compare(float(2**100), 2**100)
    assert compare([], np.zeros(0, int))
