"""Operator sums and states against sums over basis states that are written out here in floats."""

import itertools
import random

import numpy as np
import pytest
from hypothesis import given, settings
from random_documents import random_sites, random_state, random_sum
from random_tensors import B, F, seeds

from wandrosu import (
    Gaussian,
    Leg,
    Network,
    OffFlux,
    OperatorSum,
    ProductState,
    Scalar,
    Site,
    State,
    WrongShape,
    expect,
    expectation_network,
    overlap,
    overlap_network,
    states_document,
)


def tv_chain(n, t, v, periodic=False):
    """The t-V chain: hopping by -t and v for each pair of neighbours."""
    bonds = [(j, j + 1) for j in range(1, n)] + ([(n, 1)] if periodic else [])
    terms = [term for a, b in bonds for term in ((-t, "Cdag", a, "C", b), (-t, "Cdag", b, "C", a), (v, "N", a, "N", b))]
    return OperatorSum(["fermion"] * n, terms), bonds


def tv_element(row, column, bonds, t, v):
    """The matrix element of the t-V chain between occupations, as a float: a hop from b to a passes the fermions
    between the two, and each costs a sign."""
    if row == column:
        return float(sum(v * row[a - 1] * row[b - 1] for a, b in bonds))
    total = 0.0
    for a, b in bonds + [(b, a) for a, b in bonds]:
        if column[b - 1] == 1 and column[a - 1] == 0:
            hopped = list(column)
            hopped[b - 1], hopped[a - 1] = 0, 1
            if tuple(hopped) == row:
                between = column[min(a, b) : max(a, b) - 1]
                total += -t * (-1.0) ** sum(between)
    return total


@pytest.mark.parametrize("periodic", [False, True])
def test_tv_chain_against_a_float_sum_over_basis_states(periodic):
    rnd = np.random.default_rng(3)
    n, t, v = 6, 1, 2
    chain, bonds = tv_chain(n, t, v, periodic)
    basis = [s for s in itertools.product((0, 1), repeat=n) if sum(s) == 3]
    bra_floats = rnd.integers(-4, 5, len(basis)) + 1j * rnd.integers(-4, 5, len(basis))
    ket_floats = rnd.integers(-4, 5, len(basis)) + 1j * rnd.integers(-4, 5, len(basis))
    wanted = sum(
        np.conj(x) * tv_element(row, column, bonds, t, v) * y
        for row, x in zip(basis, bra_floats)
        for column, y in zip(basis, ket_floats)
    )
    bra = State.from_vector(chain.sites, dict(zip(basis, bra_floats)))
    ket = State.from_vector(chain.sites, dict(zip(basis, ket_floats)))
    assert expect(bra, chain, ket) == wanted
    assert expect(bra, chain, ket, workers=3) == wanted
    assert overlap(bra, ket) == np.vdot(bra_floats, ket_floats)
    domain, hopped = (1, 1, 1, 0, 0, 0), (1, 1, 0, 1, 0, 0)
    assert expect(ProductState(chain.sites, hopped), chain, ProductState(chain.sites, domain)) == tv_element(
        hopped, domain, bonds, t, v
    )


def test_matrix_of_a_sum():
    chain, bonds = tv_chain(4, 1, 5, periodic=True)
    basis = list(itertools.product((0, 1), repeat=4))
    wanted = [[tv_element(row, column, bonds, 1, 5) for column in basis] for row in basis]
    assert np.array_equal(chain.matrix(), wanted)
    spins = OperatorSum(["spin_half"] * 2, [(1, "Z", 1, "Z", 2), (2, "Sp", 1, "Sm", 2), (2, "Sm", 1, "Sp", 2)])
    sigma = [np.array(m) for m in ([[0, 1], [1, 0]], [[0, -1j], [1j, 0]], [[1, 0], [0, -1]])]
    assert np.array_equal(spins.matrix(), sum(np.kron(s, s) for s in sigma).real)
    up, dn = OperatorSum(["electron"], [("Cup", 1)]).matrix(), OperatorSum(["electron"], [("Cdn", 1)]).matrix()
    assert not np.any(up @ dn + dn @ up) and np.array_equal(up @ up.T + up.T @ up, np.eye(4))


@given(seeds)
@settings(max_examples=25)
def test_chains_by_their_networks(seed):
    rnd = random.Random(seed)
    sites, names = random_sites(rnd)
    bra, ket, operator = random_state(rnd, sites), random_state(rnd, sites), random_sum(rnd, sites, names)
    value = expect(bra, operator, ket)
    network = expectation_network(bra, operator, ket).contract()
    assert (network.scalar(), network.flux) == (value, value.flux)
    assert overlap_network(bra, ket).contract().scalar() == overlap(bra, ket)
    matrix, a, b = operator.matrix(dtype=complex), flat(bra), flat(ket)
    assert complex(value) == pytest.approx(np.vdot(a, matrix @ b), rel=1e-12, abs=1e-9)
    document = states_document(bra, ket, operator)
    again = State.from_document(document, "bra"), OperatorSum.from_document(document), State.from_document(document)
    assert states_document(again[0], again[2], again[1]) == document and expect(again[0], again[1], again[2]) == value


def flat(state):
    return state.amplitudes().to_array(complex).ravel()


def test_values_by_name():
    assert ProductState(["electron"] * 2, ["up", "both"]) == ProductState(["electron"] * 2, [1, 3])
    assert ProductState(["spin_half", "spin_half"], ["up", "down"]).values == (0, 1)
    with pytest.raises(ValueError, match="no value 'up' at a site fermion; there are empty, full"):
        ProductState(["fermion"], ["up"])
    with pytest.raises(ValueError, match="isn't one of 0 to 1"):
        ProductState(["fermion"], [2])
    with pytest.raises(ValueError, match="2 values for 3 sites"):
        ProductState(["fermion"] * 3, [0, 1])


def test_terms_as_one_writes_them():
    sites = ["fermion"] * 3
    given = OperatorSum(sites, [(-1, "Cdag", 1, "C", 2), ("N", 1), (2 - 3j, "N", 3), (7,), (Gaussian(2**80, 1),)])
    assert given.document()["terms"] == [
        {"coef": -1, "ops": [[1, "Cdag"], [2, "C"]]},
        {"coef": 1, "ops": [[1, "N"]]},
        {"coef": [2, -3], "ops": [[3, "N"]]},
        {"coef": 7, "ops": []},
        {"coef": [str(2**80), 1], "ops": []},
    ]
    for wrong in [(1, "C"), ("C", "C", 1, 2), (1, 2, "C"), (1, "C", 1, "C")]:
        with pytest.raises(ValueError, match="a term is"):
            OperatorSum(sites, [wrong])
    with pytest.raises(ValueError, match="isn't a Gaussian integer"):
        OperatorSum(sites, [(0.5, "N", 1)])
    with pytest.raises(ValueError, match="site 2 is over"):
        OperatorSum(["fermion", "spin_half"], [])


def test_sites_of_ones_own():
    leg = Leg("out", [(2, 1), (0, 1), (-2, 1)], B)
    raising = [[0, 1, 0], [0, 0, 1], [0, 0, 0]]
    spin = Site(
        "own",
        leg,
        {"Sp": (2, raising), "Sm": (-2, np.transpose(raising)), "Z": (0, np.diag([1, 0, -1]))},
        ["+", "0", "-"],
    )
    heisenberg = OperatorSum([spin] * 2, [(1, "Z", 1, "Z", 2), (1, "Sp", 1, "Sm", 2), (1, "Sm", 1, "Sp", 2)])
    levels = np.linalg.eigvalsh(heisenberg.matrix(dtype=float))
    assert np.allclose(sorted(set(np.round(levels, 9))), [-2, -1, 1])
    assert expect(ProductState([spin] * 2, ["+", "-"]), heisenberg, ProductState([spin] * 2, ["0", "0"])) == 1
    assert OperatorSum.from_document(heisenberg.document()) == heisenberg
    with pytest.raises(ValueError, match="needs a leg 'out'"):
        Site("own", leg.turned())


def random_arrays(rnd, n, particles, width):
    """Dense arrays of a chain that conserves the number of particles, the values of each link in any order."""
    links = [[0]]
    for j in range(1, n):
        low, high = max(0, particles - (n - j)), min(j, particles)
        charges = [rnd.randint(low, high) for _ in range(width)]
        links.append(charges)
    links.append([particles])
    arrays = []
    for j in range(n):
        array = np.zeros((len(links[j]), 2, len(links[j + 1])), int)
        for a, s, b in itertools.product(range(len(links[j])), (0, 1), range(len(links[j + 1]))):
            if links[j][a] + s == links[j + 1][b]:
                array[a, s, b] = rnd.randint(-3, 3)
        arrays.append(array)
    arrays[0], arrays[-1] = arrays[0][0], arrays[-1][..., 0]
    return arrays, links[1:-1]


def product_of(arrays):
    """The amplitudes as a dense array, by matrix products."""
    whole = arrays[0]
    for array in arrays[1:]:
        whole = np.tensordot(whole, array, 1)
    return whole


@given(seeds)
@settings(max_examples=25)
def test_states_from_arrays(seed):
    rnd = random.Random(seed)
    n = rnd.randint(2, 5)
    arrays, _ = random_arrays(rnd, n, rnd.randint(0, n), rnd.randint(1, 4))
    state = State.from_arrays(arrays, ["fermion"] * n)
    assert np.array_equal(state.amplitudes().to_array(object), product_of(arrays).astype(object))
    for tensor in state.tensors[:-1]:
        charges = [charge for charge, _ in tensor.legs[-1].sectors]
        assert charges == sorted(set(charges))


def test_states_with_given_links():
    arrays = [np.eye(2, dtype=int), np.array([[0, 5], [7, 0]])]
    state = State.from_arrays(arrays, ["fermion"] * 2, links=[[(0, 1), (1, 1)]])
    assert state.tensors[1].flux == (1,) and state.amplitudes()[0, 1] == 5 and state.amplitudes()[1, 0] == 7
    with pytest.raises(OffFlux, match=r"site 1: the entry 1 at \[0,0\]"):
        State.from_arrays(arrays, ["fermion"] * 2, links=[[(1, 1), (0, 1)]])
    with pytest.raises(OffFlux, match=r"site 2: the entry 5 at \[0,1\]"):
        State.from_arrays(arrays, ["fermion"] * 2, flux=2)
    with pytest.raises(OffFlux, match=r"site 1: the entry 3 at \[1,0\]"):
        State.from_arrays([np.array([[1, 0], [3, 1]]), arrays[1]], ["fermion"] * 2)
    for wrong in (
        [arrays[0]],
        [arrays[0], np.zeros((3, 2))],
        [arrays[0], np.zeros((2, 2, 2))],
        [np.zeros((3, 2)), arrays[1]],
    ):
        with pytest.raises(WrongShape):
            State.from_arrays(wrong, ["fermion"] * 2)
    with pytest.raises(WrongShape, match="2 links between 2 sites"):
        State.from_arrays(arrays, ["fermion"] * 2, links=[[(0, 1), (1, 1)]] * 2)
    with pytest.raises(WrongShape, match="0 arrays for 0 sites"):
        State.from_arrays([], [])
    single = State.from_arrays([np.array([0, 3])], ["fermion"])
    assert overlap(single, single) == 9


def test_states_of_other_charges_are_told_by_their_flux():
    one, two = ProductState(["fermion"] * 2, [1, 0]), ProductState(["fermion"] * 2, [1, 1])
    value = overlap(one, two)
    assert value == 0 and value.flux == (1,) and overlap(one, one).flux == (0,)
    assert repr(value) == "Scalar(0, 0, flux=(1,))" and isinstance(value, Scalar)
    lower = OperatorSum(["fermion"] * 2, [("C", 2)])
    assert expect(one, lower, two) == -1 and expect(one, lower, two).flux == (0,)
    with pytest.raises(ValueError, match="same sites"):
        overlap(one, ProductState(["fermion"], [1]))


def test_ends_of_the_network_of_a_sum():
    chain, _ = tv_chain(3, 1, 2)
    mpo = chain.mpo()
    assert isinstance(mpo, Network) and mpo.open_labels == [-1, -2, -3, -4, -5, -6] and mpo.group == F
    assert [labels for _, labels in mpo.tensors] == [(-1, -6, 1), (1, -2, -5, 2), (2, -3, -4)]
