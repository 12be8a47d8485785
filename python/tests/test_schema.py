"""The schemas against the program: what it accepts they accept, and what has F3 they refuse."""

import json
import multiprocessing
import os
import random
import subprocess
import sys
from concurrent.futures import ProcessPoolExecutor
from pathlib import Path

import pytest
from random_documents import WRONG, changed_at_random, places, random_document, with_value, without
from wrong_documents import FAULTS, N, OUT, network, own, states, sum_of, tensor

from wandrosu import Malformed, Refused, run, schema
from wandrosu.program import as_bytes

jsonschema = pytest.importorskip("jsonschema")
TOP = Path(__file__).resolve().parents[2]
EXAMPLES, SUITE = TOP / "examples", TOP / "suite"
IN_TREE = pytest.mark.skipif(not EXAMPLES.is_dir(), reason="not in the repository")


def judged(job):
    """What the program answers, and what the schemas say of the document, and of the text where there is one.

    The answer is the text, or the code of the fault, or 0 where the document passed. One text of four is looked at.
    """
    command, document = job
    text = as_bytes(document)
    said = subprocess.run([os.environ["QNTN"], command], input=text, stdout=subprocess.PIPE, stderr=subprocess.PIPE)
    found = schema.problems(text, command)
    if said.returncode == 0:
        form = schema.COMMANDS[command][1]
        problems = schema.problems(said.stdout, form) if len(said.stdout) % 4 == 0 else []
        return said.stdout.decode(), found, problems
    assert said.returncode in (3, 4)
    return (0 if said.returncode == 4 else int(said.stderr.split()[2][1:])), found, []


@pytest.fixture(scope="module")
def pool():
    """Four processes; they begin anew, since other tests have left threads in this one."""
    with ProcessPoolExecutor(4, multiprocessing.get_context("spawn")) as processes:
        yield processes


def agree(pool, jobs):
    """Each document that the program accepts is accepted by the schema, each with F3 is refused; texts have their form.
    Returns the answers."""
    rows = list(pool.map(judged, jobs, chunksize=20))
    for (command, document), (said, found, text_problems) in zip(jobs, rows):
        if said == 3:
            assert found, f"{command}: the schema accepts what has F3: {document!r}"
        elif isinstance(said, str) or said == 0:
            assert not found, f"{command}: the schema refuses what is accepted: {found} in {document!r}"
        assert not text_problems
    return [said for said, _, _ in rows]


def suite_jobs(count):
    """Commands with random documents of the suite's generator; the commands take turns."""
    sys.path.insert(0, str(SUITE))
    from randoms import Random

    for seed in range(count):
        draw = Random(random.Random(seed))
        if seed % 2:
            yield ["contract", "plan"][seed // 2 % 2], draw.network()
        else:
            yield ["mpo", "overlap", "expect"][seed // 2 % 3], draw.states()


def test_two_thousand_random_documents(pool):
    """Those of the suite's generator where the suite is there, and of the one of these tests."""
    jobs = list(suite_jobs(2000)) if (SUITE / "randoms.py").exists() else []
    rnd = random.Random(20)
    jobs += [random_document(rnd) for _ in range(500 if jobs else 2000)]
    got = agree(pool, jobs)
    assert sum(isinstance(said, str) for said in got) > 1600


def test_documents_that_were_changed(pool):
    rnd = random.Random(21)
    jobs = [random_document(rnd) for _ in range(400)]
    jobs = [(command, changed_at_random(rnd, document)) for command, document in jobs]
    got = agree(pool, jobs)
    assert got.count(3) > 130 and sum(isinstance(said, str) for said in got) > 12


BASES = [
    (
        "contract",
        network(
            tensor([OUT], [1], [1], [[[1], [[1, "2"]]]]),
            {"combine": {"dir": "out", "legs": [OUT], "mode": "fuse"}, "labels": [-1, 1]},
            order=[1],
            version=1,
        ),
    ),
    (
        "mpo",
        sum_of(
            [N],
            sites=1,
            site=own([[[0], 1]], A={"charge": [0], "table": [[1]]}),
            group=[{"kind": "zn", "n": 2, "fermion": True}],
        ),
    ),
    ("expect", states(terms=[N])),
]


def test_every_place_with_every_wrong_value(pool):
    """The table of wrong forms: each value of these documents exchanged for each of the wrong values, or left out."""
    jobs = []
    for command, base in BASES:
        for path in places(base):
            jobs += [(command, with_value(base, path, value)) for value in WRONG] + [(command, without(base, path))]
    got = agree(pool, jobs)
    assert got.count(3) > 1000


TEXTS = [
    ("1e0", 3),
    ("1.0", 3),
    ("-0", 3),
    ("0", None),
    ("-1", None),
    ("9223372036854775807", None),
    ("9223372036854775808", 3),
    ('"9223372036854775808"', None),
    ('"1.5"', 19),
    ('"1+2j"', 19),
    ('"-0"', 19),
    ('"1\\n"', 19),
    ("[1]", 3),
    ("[1,2]", None),
    ("[1,2.0]", 3),
    ('{"re":1,"im":2}', 3),
    ("null", 3),
    ("true", 3),
    ("[[1]]", 3),
    ('["1",2]', None),
]


@pytest.mark.parametrize("text, code", TEXTS)
def test_how_numbers_are_written(text, code):
    document = '{"group":[],"tensors":[{"legs":[],"flux":[],"blocks":[[[],[%s]]],"labels":[]}]}' % text
    said = judged(("contract", document))[0]
    assert (said if code else None) == code
    assert bool(schema.problems(document, "contract")) == (code is not None)


def test_the_last_of_two_keys_counts():
    for text in ('{"group":2.0,"group":[],"tensors":[]}', '{"group":[],"tensors":[],"group":2.0}'):
        said = judged(("contract", text))[0]
        assert bool([p for p in schema.problems(text, "contract") if "group" in p]) == (said == 3)


def test_faults_other_than_form_are_no_reason_to_miss_the_place():
    found = schema.problems(network(tensor(blocks=[[[0, 0], [2.0]]])), "contract")
    assert found == [
        "at tensors[0].blocks[0][1][0]: 2.0 isn't a whole number of 64 bits, a decimal as a text, "
        "or a pair [real, imaginary] of these; no float"
    ]
    assert schema.problems(network(tensor(flux=[])), "plan") == [
        "at tensors[0].flux: [] isn't one whole number for each factor of the group, which has 1"
    ]
    with pytest.raises(Malformed, match=r"F3 wrong form: at tensors\[0\]: 'flux' is missing") as told:
        run("contract", without(network(tensor()), ("tensors", 0, "flux")))
    assert told.value.place == "at tensors[0]: 'flux' is missing"
    with pytest.raises(ValueError):
        schema.problems("[NaN]", "contract")


@IN_TREE
def test_all_examples():
    """The documents of the examples and of the suite that aren't refused, and the texts of the examples, the program's own."""
    seen = 0
    for path in sorted([*EXAMPLES.glob("**/*.json"), *SUITE.glob("cases/**/*.json")]):
        for wanted in path.parent.glob(path.stem + ".*"):
            command = wanted.suffix[1:]
            if command not in schema.COMMANDS:
                continue
            text = wanted.read_text()
            if text.startswith("qntn: malformed"):
                continue
            seen += 1
            assert schema.problems(path.read_bytes(), command) == []
            if EXAMPLES in path.parents and not text.startswith("qntn: "):
                assert schema.problems(text, schema.COMMANDS[command][1]) == []
    for path in EXAMPLES.glob("**/*.gen"):
        assert schema.problems(path.read_text(), "text_workload") == []
    assert seen > 15


@IN_TREE
def test_the_schemas_are_what_their_script_writes(tmp_path):
    folder = EXAMPLES.parent / "docs" / "schema"
    subprocess.run([sys.executable, str(folder / "make"), str(tmp_path)], check=True)
    made = {path.name: path.read_text() for path in tmp_path.glob("*.json")}
    assert made == {path.name: path.read_text() for path in folder.glob("*.json")}
    assert set(made) == {name + ".json" for name in schema.NAMES}


@pytest.mark.parametrize("name", schema.NAMES)
def test_they_are_schemas(name):
    jsonschema.Draft4Validator.check_schema(schema.load(name))


def test_other_kinds_of_documents():
    for command, document in BASES:
        for other in ("contract", "mpo", "overlap", "expect"):
            said = judged((other, document))[0]
            assert bool(schema.problems(document, other)) == (said == 3)
    for code, command, document, _ in FAULTS:
        if code == 3:
            assert schema.problems(document, command)


def test_texts_are_documents_too():
    text = run("contract", network(tensor()))
    assert schema.problems(text, "tensor") == schema.problems(text, "text_tensor") == []
    assert schema.problems(run("mpo", sum_of([N])), "network") == []
    assert schema.problems(json.dumps({**json.loads(text), "more": 1}), "text_tensor")
    with pytest.raises(Refused):
        run("plan", text)
