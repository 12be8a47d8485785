#!/usr/bin/env python3
"""Makes the documents that bench/run measures, from seeds.

usage: documents.py KIND [SIZE] > DOCUMENT        KIND is one of those of `documents.py` alone, which lists them
"""
import json
import random
import sys

BOSON = [{"kind": "u1", "fermion": False}]
FERMION = [{"kind": "u1", "fermion": True}]
PARITY = [{"kind": "zn", "n": 2, "fermion": True}]


def leg(direction, sectors):
    return {"dir": direction, "sectors": sectors}


def part(draw, greatest):
    """A whole number; as a text where JSON's 64 bits don't hold it."""
    x = draw.randint(-greatest, greatest)
    return x if abs(x) < 2**63 else str(x)


def entries(draw, count, greatest, real=False):
    if real:
        return [part(draw, greatest) for _ in range(count)]
    return [[part(draw, greatest), part(draw, greatest)] for _ in range(count)]


def square(size, first=9, second=9, real=False, large=None):
    """Two matrices of one block each. `large`: one entry of each is this."""
    draw, sectors = random.Random(1), [[[0], size]]

    def matrix(greatest, labels):
        data = entries(draw, size * size, greatest, real)
        if large is not None:
            data[size + 1] = str(large)
        legs = [leg("out", sectors), leg("in", sectors)]
        return {"legs": legs, "flux": [0], "blocks": [[[0, 0], data]], "labels": labels}

    return {"group": BOSON, "tensors": [matrix(first, [-1, 1]), matrix(second, [1, -2])]}


def block(size, real=False):
    """One block that is read and written and not multiplied; a real one with its legs exchanged."""
    draw, sectors = random.Random(5), [[[0], size]]
    data = entries(draw, size * size, 9, real)
    legs = [leg("out", sectors), leg("in", sectors)]
    labels = [-2, -1] if real else [-1, -2]
    return {"group": BOSON, "tensors": [{"legs": legs, "flux": [0], "blocks": [[[0, 0], data]], "labels": labels}]}


def all_blocks(draw, legs, greatest=3):
    """All admissible blocks of legs over one U(1), for flux 0."""
    out = []

    def more(place, charge, chosen, size):
        if place == len(legs):
            if charge == 0:
                out.append([chosen, entries(draw, size, greatest)])
            return
        sign = 1 if legs[place]["dir"] == "out" else -1
        for k, (q, dim) in enumerate(legs[place]["sectors"]):
            more(place + 1, charge + sign * q[0], chosen + [k], size * dim)

    more(0, 0, [], 1)
    return out


def tensor(draw, legs, labels):
    return {"legs": legs, "flux": [0], "blocks": all_blocks(draw, legs), "labels": labels}


def summed(tensors):
    return sorted({label for t in tensors for label in t["labels"] if label > 0})


def chain(dim, sites=4, charges=4):
    """Two rows of three-legged tensors, 2 `charges` + 1 sectors of this dimension on each link, all ends open."""
    draw, tensors = random.Random(2), []
    link = [[[c], dim] for c in range(-charges, charges + 1)]
    site = [[[0], 1], [[1], 1]]
    for row, base, ends in ((0, 0, (-1, -2)), (1, 200, (-3, -4))):
        for j in range(sites):
            legs = [leg("out", link), leg("in" if row else "out", site), leg("in", link)]
            left = ends[0] if j == 0 else base + j
            right = ends[1] if j == sites - 1 else base + j + 1
            tensors.append(tensor(draw, legs, [left, 100 + j, right]))
    return {"group": FERMION, "tensors": tensors, "order": summed(tensors)}


def ladder(dim, sites=6, charges=4):
    """Two states with links of 2 `charges` + 1 sectors of this dimension, contracted site by site."""
    draw, tensors, order = random.Random(4), [], []
    link, end = [[[c], dim] for c in range(-charges, charges + 1)], [[[0], 1]]
    site = [[[-1], 1], [[0], 1], [[1], 1]]
    for row in range(2):
        base = 100 * (row + 1)
        for j in range(sites):
            is_first, is_last = j == 0, j == sites - 1
            legs = [
                leg("out", end if is_first else link),
                leg("in" if row else "out", site),
                leg("in", end if is_last else link),
            ]
            left = -1 - 2 * row if is_first else base + 3 * j
            right = -2 - 2 * row if is_last else base + 3 * (j + 1)
            tensors.append(tensor(draw, legs, [left, 3 * j + 1, right]))
    for j in range(sites):
        order += [100 + 3 * j, 200 + 3 * j, 3 * j + 1] if j else [1]
    return {"group": FERMION, "tensors": tensors, "order": order}


def many(count):
    """Two tensors of 2 `count` legs of two sectors of dimension 1: many tiny blocks."""
    draw, site = random.Random(3), [[[0], 1], [[1], 1]]
    legs = [leg("out", site)] * count + [leg("in", site)] * count
    opens, shared = [-i - 1 for i in range(2 * count)], [i + 1 for i in range(count)]
    first = tensor(draw, legs, opens[:count] + shared)
    second = tensor(draw, legs, shared + opens[count:])
    return {"group": FERMION, "tensors": [first, second]}


def row(count):
    """Matrices in a row, each of a few entries."""
    draw, link = random.Random(6), [[[0], 1], [[1], 1]]
    tensors = []
    for j in range(count):
        left, right = (-1 if j == 0 else j), (-2 if j == count - 1 else j + 1)
        data = [[[k, k], [draw.choice((-1, 1))]] for k in range(2)]
        legs = [leg("out", link), leg("in", link)]
        tensors.append({"legs": legs, "flux": [0], "blocks": data, "labels": [left, right]})
    return {"group": FERMION, "tensors": tensors}


def equal_blocks(size, count=64):
    """Two matrices of `count` equal blocks: as many tasks of one size."""
    draw = random.Random(7)
    sectors = [[[q], size] for q in range(count)]

    def matrix(labels):
        data = [[[q, q], entries(draw, size * size, 9)] for q in range(count)]
        legs = [leg("out", sectors), leg("in", sectors)]
        return {"legs": legs, "flux": [0], "blocks": data, "labels": labels}

    return {"group": BOSON, "tensors": [matrix([-1, 1]), matrix([1, -2])]}


def conjugate(t, shift):
    """The conjugate of a tensor with two values on each leg, with labels of its own on its summed legs."""
    turned = {"out": "in", "in": "out"}
    legs = [leg(turned[l["dir"]], l["sectors"]) for l in reversed(t["legs"])]
    blocks = sorted([tuple_[::-1], [[a, -b] for a, b in data]] for tuple_, data in t["blocks"])
    labels = [x + shift if x > 0 else x for x in reversed(t["labels"])]
    return {"legs": legs, "flux": [-q % 2 for q in t["flux"]], "blocks": blocks, "labels": labels}


def peps_norm(side):
    """The norm of a PEPS of side by side sites over Z2, all sectors of dimension 1, physical labels first."""
    draw, tensors, bonds = random.Random(8), [], {}
    two = [[[0], 1], [[1], 1]]

    def bond(a, b):
        return bonds.setdefault((a, b), len(bonds) + 1)

    for y in range(side):
        for x in range(side):
            here, legs, labels = y * side + x, [], []
            for other, is_out in ((here - 1, True), (here - side, True), (here + 1, False), (here + side, False)):
                is_inside = {
                    here - 1: x > 0,
                    here - side: y > 0,
                    here + 1: x < side - 1,
                    here + side: y < side - 1,
                }[other]
                if is_inside:
                    legs.append(leg("out" if is_out else "in", two))
                    labels.append(bond(*sorted((here, other))))
            legs.append(leg("out", two))
            labels.append(-here - 1)
            blocks = []
            for number in range(2 ** len(legs)):
                sectors = [number >> k & 1 for k in reversed(range(len(legs)))]
                if sum(sectors) % 2 == 0:
                    blocks.append([sectors, [[draw.choice((-2, -1, 1, 2)), draw.choice((-1, 0, 1))]]])
            tensors.append({"legs": legs, "flux": [0], "blocks": blocks, "labels": labels})
    sites, shift = side * side, len(bonds)
    both = [conjugate(t, shift) for t in reversed(tensors)] + tensors
    for t in both:
        t["labels"] = [2 * shift - x if x < 0 else x for x in t["labels"]]
    physical = [2 * shift + k + 1 for k in range(sites)]
    order = physical + [b + s for b in range(1, shift + 1) for s in (0, shift)]
    return {"group": PARITY, "tensors": both, "order": order}


def hopping(count, sites=64, near=False):
    """An operator sum of hops between any two sites, or near ones."""
    draw, terms = random.Random(9), []
    for _ in range(count):
        a = draw.randint(1, sites)
        b = min(sites, a + draw.randint(0, 3)) if near else draw.randint(1, sites)
        terms.append({"coef": draw.randint(1, 9), "ops": [[a, "Cdag"], [b, "C"]]})
    return {"group": FERMION, "sites": [{"kind": "fermion"}] * sites, "terms": terms}


def products(count, length=20, dim=64):
    """Terms of many operators on one site of a large dimension."""
    draw = random.Random(10)
    table = lambda: [[draw.choice((0, 0, 0, 1, -1)) for _ in range(dim)] for _ in range(dim)]
    site = {
        "kind": "own",
        "sectors": [[[0], dim]],
        "ops": {name: {"charge": [0], "table": table()} for name in ("A", "B")},
    }
    words = [["A" if draw.random() < 0.2 else "I" for _ in range(length)] for _ in range(8)]
    terms = [{"coef": 1 + k % 7, "ops": [[1, name] for name in words[k % 8]]} for k in range(count)]
    return {"group": BOSON, "sites": [site], "terms": terms}


KINDS = {
    "square": square,
    "square_real": lambda n: square(n, real=True),
    "square_44": lambda n: square(n, 2**44, 2**44),
    "square_70": lambda n: square(n, 2**70, 9),
    "square_100": lambda n: square(n, large=2**60),
    "chain": chain,
    "ladder": ladder,
    "many": many,
    "row": row,
    "equal_blocks": equal_blocks,
    "peps_norm": peps_norm,
    "block": block,
    "block_real": lambda n: block(n, real=True),
    "hopping": hopping,
    "hopping_near": lambda n: hopping(n, near=True),
    "products": products,
}


def main(words):
    if not words:
        print(__doc__ + "\n" + " ".join(KINDS))
        return 2
    document = KINDS[words[0]](*map(int, words[1:]))
    json.dump(document, sys.stdout, separators=(",", ":"))
    print()
    return 0


if __name__ == "__main__":
    sys.exit(main(sys.argv[1:]))
