"""Faults and other answers of the program as exceptions."""

import json
import os
import pickle
import stat

import pytest
from wrong_documents import FAULTS, N, network, sum_of, tensor

import wandrosu
from wandrosu import (
    Malformed,
    Network,
    OutOfMemory,
    Passed,
    ProgramDied,
    ProgramNotFound,
    Refused,
    UsageFault,
    find_program,
    run,
)
from wandrosu.errors import FAULTS as KNOWN
from wandrosu.errors import fault_of


@pytest.mark.parametrize("code, command, document, place", FAULTS, ids=lambda x: x if isinstance(x, (int, str)) else "")
def test_each_fault_has_its_name_and_place(code, command, document, place):
    with pytest.raises(Malformed) as told:
        run(command, document)
    fault = told.value
    assert fault.line == f"qntn: malformed F{code} tensor {fault.tensor} part {fault.part} item {fault.item}"
    assert (fault.code, fault.status, fault.name) == (code, 3, KNOWN[code].name)
    if code == 3:
        assert fault.place.startswith(place)
    else:
        assert fault.place == place
    assert str(fault).startswith(f"F{code} {fault.name}: {place}")
    assert fault.usual in str(fault) and fault.line in str(fault)
    again = pickle.loads(pickle.dumps(fault))
    assert (type(again), str(again), again.code, again.place) == (Malformed, str(fault), code, fault.place)


def test_a_document_that_is_too_long():
    with pytest.raises(Malformed) as told:
        run("contract", b" " * (64 * 1024 * 1024 + 1))
    assert told.value.code == 1


def test_all_faults_are_known():
    assert set(KNOWN) == set(range(1, 36)) == {code for code, *_ in FAULTS} | {1}
    assert all(fault.name and fault.says and fault.usual for fault in KNOWN.values())
    assert len({fault.name for fault in KNOWN.values()}) == len(KNOWN)
    assert fault_of(99).name == "unknown"


def test_passed_is_overflow():
    big = tensor(labels=[1, 1], blocks=[[[0, 0], [str(2**126)]], [[1, 1], [str(2**126)]]])
    with pytest.raises(Passed, match="overflow of the exact range") as told:
        Network.from_document(network(big)).contract()
    assert (told.value.step, told.value.at, told.value.offset, told.value.status) == (1, (), 0, 4)
    assert told.value.line == "qntn: passed step 1 at [] offset 0"
    with pytest.raises(Passed, match="site 1 of the operator sum's automaton") as told:
        run("mpo", sum_of([{"coef": str(2**126), "ops": [[1, "N"]]}] * 2))
    assert told.value.step == 0
    assert isinstance(told.value, OverflowError)


def test_usage():
    with pytest.raises(UsageFault) as told:
        run("contract", network(tensor()), workers=65)
    assert told.value.word == 3
    with pytest.raises(UsageFault):
        run("solve", b"")


def script(folder, text):
    path = folder / "qntn"
    path.write_text("#!/bin/sh\n" + text + "\n")
    path.chmod(path.stat().st_mode | stat.S_IXUSR)
    return str(path)


@pytest.mark.parametrize(
    "text, kind",
    [
        ("echo 'qntn: memory' >&2; exit 7", OutOfMemory),
        ("echo 'qntn: read fault' >&2; exit 5", wandrosu.IOFault),
        ("kill -9 $$", ProgramDied),
        ("exit 1", ProgramDied),
        ("echo 'something else' >&2; exit 3", ProgramDied),
    ],
)
def test_other_answers(tmp_path, text, kind):
    with pytest.raises(kind) as told:
        run("contract", b"{}", program=script(tmp_path, text))
    assert isinstance(told.value, Refused)


def test_where_the_program_is_looked_for(tmp_path, monkeypatch, program):
    other = script(tmp_path, "echo '{}'")
    monkeypatch.setenv("QNTN", other)
    assert find_program() == other
    monkeypatch.setenv("QNTN", str(tmp_path / "none"))
    with pytest.raises(ProgramNotFound, match="QNTN names"):
        find_program()
    monkeypatch.delenv("QNTN")
    monkeypatch.setenv("PATH", str(tmp_path) + os.pathsep + os.environ["PATH"])
    package = os.path.dirname(wandrosu.__file__)
    if not os.path.exists(os.path.join(package, "bin", "qntn")):
        assert find_program() == other


def test_gen_and_text():
    assert json.loads(run("gen", seed=7)) == {
        "cost": 37176,
        "scalar": ["-1988538497530626", "0"],
        "sites": 15,
        "steps": 44,
    }
    assert run("mpo", sum_of([N])).endswith("}\n")
