"""For each fault a document that has it first: the command, the document, the place in words."""

import copy

F = [{"kind": "u1", "fermion": True}]
Z3 = [{"kind": "zn", "n": 3, "fermion": False}]
S = [[[0], 1], [[1], 1]]
OUT, IN = {"dir": "out", "sectors": S}, {"dir": "in", "sectors": S}
EYE = [[[0, 0], [1]], [[1, 1], [1]]]


def tensor(legs=(OUT, IN), labels=(-1, -2), flux=(0,), blocks=EYE):
    return {"legs": list(legs), "flux": list(flux), "blocks": list(blocks), "labels": list(labels)}


def network(*tensors, group=F, **more):
    return {"group": group, "tensors": list(tensors), **more}


def sum_of(terms, sites=2, group=F, site=None):
    return {"group": group, "sites": [site or {"kind": "fermion"}] * sites, "terms": terms}


def term(*ops, coef=1):
    return {"coef": coef, "ops": [list(op) for op in ops]}


def chain(first=(1,)):
    """The state |10>, whose link has these charges."""
    link = [[[charge], 1] for charge in first]
    return [
        {"legs": [OUT, {"dir": "in", "sectors": link}], "flux": [0], "blocks": [[[1, 0], [1]]]},
        {"legs": [{"dir": "out", "sectors": link}, OUT], "flux": [1], "blocks": [[[0, 0], [1]]]},
    ]


def states(bra=None, ket=None, **more):
    return {"group": F, "sites": [{"kind": "fermion"}] * 2, "bra": bra or chain(), "ket": ket or chain(), **more}


def own(sectors=S, **ops):
    return {"kind": "own", "sectors": sectors, "ops": ops}


def changed(document, path, value):
    """The document with the value at a path of keys exchanged."""
    document = copy.deepcopy(document)
    place = document
    for key in path[:-1]:
        place = place[key]
    place[path[-1]] = value
    return document


N = term([1, "N"])
WIDE = [[[k], 1] for k in range(2)]
LONG = {"dir": "out", "sectors": [[[k], 1] for k in range(65)]}

FAULTS = [
    (2, "contract", b'{"group":[]', ""),
    (3, "contract", network(tensor(), group=[{"kind": "u1"}]), "at group[0]: 'fermion' is missing"),
    (4, "contract", {"group": F * 5, "tensors": []}, ""),
    (5, "contract", network(group=[F[0], {"kind": "zn", "n": 1, "fermion": False}]), "factor 2"),
    (6, "contract", network(group=[{"kind": "zn", "n": 3, "fermion": True}]), "factor 1"),
    (7, "contract", network(), ""),
    (8, "contract", network(tensor(), tensor([OUT] * 33, [0] * 33, blocks=[])), "tensor 2"),
    (
        9,
        "contract",
        network(tensor([{"dir": "out", "sectors": [[[2], 1], [[3], 1]]}], [-1], blocks=[]), group=Z3),
        "tensor 1, leg 1, sector 2",
    ),
    (9, "mpo", sum_of([N], site=own([[[0], 1], [[2 * 10**9], 1]])), "site 1, sector 2"),
    (
        10,
        "contract",
        network(tensor([OUT, {"dir": "in", "sectors": [[[0], 0]]}], blocks=[])),
        "tensor 1, leg 2, sector 1",
    ),
    (10, "mpo", sum_of([N], site=own([[[0], 40], [[1], 40]])), "site 1, sector 2"),
    (11, "contract", network(tensor([OUT, LONG], blocks=[])), "tensor 1, leg 2"),
    (
        11,
        "contract",
        network(
            {
                "combine": {
                    "dir": "out",
                    "legs": [{"dir": "out", "sectors": [[[k * 9**m], 1] for k in range(9)]} for m in (0, 1)],
                    "mode": "fuse",
                },
                "labels": [-1, -2, -3],
            }
        ),
        "tensor 1, the combiner's fused leg",
    ),
    (11, "mpo", sum_of([N], site=own([])), "site 1"),
    (12, "contract", network(tensor(flux=[10**13], blocks=[])), "tensor 1, factor 1"),
    (13, "contract", network(tensor([OUT] * 21, [0] * 21, blocks=[])), "tensor 1"),
    (14, "contract", network(tensor([{"dir": "out", "sectors": [[[0], 4096]]}] * 2, blocks=[])), "tensor 1"),
    (15, "contract", network(tensor(blocks=[[[0], [1]]])), "tensor 1, block 1, the tuple's length"),
    (15, "contract", network(tensor(blocks=[EYE[0], [[1, 2], [1]]])), "tensor 1, block 2, leg 2"),
    (
        16,
        "contract",
        network(tensor(labels=[-1, 1]), tensor(labels=[1, -2], blocks=[[[0, 1], [1]]])),
        "tensor 2, block 1",
    ),
    (16, "overlap", states(ket=changed(chain(), [1, "flux"], [0])), "tensor 2 of the ket, block 1"),
    (17, "contract", network(tensor(blocks=EYE[::-1])), "tensor 1, block 2"),
    (18, "contract", network(tensor(blocks=[EYE[0], [[1, 1], [1, 1]]])), "tensor 1, block 2"),
    (18, "mpo", sum_of([N], site=own(A={"charge": [0], "table": [[1, 0], [0]]})), "site 1, operator 1, row 2"),
    (19, "contract", network(tensor(blocks=[EYE[0], [[1, 1], ["+1"]]])), "tensor 1, block 2, entry 1"),
    (19, "mpo", sum_of([N, term([1, "N"], coef="1.5")]), "term 2"),
    (19, "mpo", sum_of([N], site=own(A={"charge": [0], "table": [[1, 0], [0, "x"]]})), "site 1, operator 1, entry 4"),
    (20, "contract", network(tensor(labels=[-1])), "tensor 1"),
    (21, "contract", network(tensor(labels=[-1, 0])), "tensor 1, leg 2"),
    (22, "contract", network(tensor(labels=[-1, 7])), "label 7"),
    (23, "contract", network(tensor([OUT, OUT], [1, 1], blocks=[])), "label 1"),
    (24, "contract", network(tensor([OUT, {"dir": "in", "sectors": S[::-1]}], [1, 1], blocks=[])), "label 1"),
    (25, "contract", network(tensor(labels=[-1, -3])), "label -2"),
    (26, "contract", network(tensor(labels=[1, 1]), order=[1, 2]), "place 2"),
    (
        27,
        "plan",
        network(
            tensor([OUT] * 17, [*range(-1, -17, -1), 1], blocks=[]),
            tensor([IN] * 17, [1, *range(-17, -33, -1)], blocks=[]),
        ),
        "step 1",
    ),
    (28, "mpo", sum_of([N], sites=65), "the number of sites"),
    (28, "mpo", sum_of([N], site={"kind": "electron"}), "site 1"),
    (29, "mpo", sum_of([]), ""),
    (30, "mpo", sum_of([N, term([1, "N"], [3, "N"])]), "term 2, operator 2"),
    (30, "mpo", sum_of([N, term(*[[1, "N"]] * 33)]), "term 2, the number of operators"),
    (31, "mpo", sum_of([N, term([2, "Z"])]), "term 2, operator 1"),
    (31, "expect", states(terms=[N, term([2, "Z"])]), "term 2, operator 1"),
    (32, "mpo", sum_of([N], site=own(A={"charge": [0], "table": [[1, 0], [1, 1]]})), "site 1, operator 1, entry 3"),
    (
        32,
        "mpo",
        sum_of([N], site=own(I={"charge": [0], "table": [[1, 0], [0, 1]]})),
        "site 1, operator 1, the charge or the name",
    ),
    (
        32,
        "mpo",
        sum_of([N], site=own(**{f"A{k}": {"charge": [0], "table": [[1, 0], [0, 1]]} for k in range(65)})),
        "site 1, the number of operators",
    ),
    (33, "mpo", sum_of([N, term([1, "C"])]), "term 2"),
    (34, "overlap", states(bra=chain()[:1]), "the bra"),
    (34, "overlap", states(ket=[chain()[0], chain()[0]]), "tensor 2 of the ket"),
    (35, "overlap", states(bra=[chain()[0], chain((1, 2))[1]]), "tensor 1 of the bra"),
]
