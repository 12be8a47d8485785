"""Many documents: on this machine, broken off and gone on with, and on a cluster."""

import io
import os
import shutil
import signal
import subprocess
import sys
import time
from pathlib import Path

import pytest
from wrong_documents import N, network, states, sum_of, tensor

from wandrosu import many, run
from wandrosu.__main__ import main
from wandrosu.program import as_bytes

PACKAGE = Path(many.__file__).resolve().parent.parent
FEW = [
    network(tensor()),
    network(tensor(labels=[1, 1])),
    network(tensor(blocks=[])),
    network(tensor(labels=[-1, 7])),
    sum_of([N]),
]


def documents(folder, count):
    """Numbered documents; their number modulo 5 says which of FEW each is."""
    paths = [folder / f"n{number:03}.json" for number in range(count)]
    for number, path in enumerate(paths):
        path.write_bytes(as_bytes(FEW[number % len(FEW)]))
    return paths


def right_results(folder, paths):
    for number, path in enumerate(paths):
        kind = number % len(FEW)
        if kind < 3:
            assert (folder / f"n{number:03}.contract").read_text() == run("contract", FEW[kind])
            assert not (folder / f"n{number:03}.contract.refused").exists()
        else:
            line = (folder / f"n{number:03}.contract.refused").read_text()
            assert line.startswith("qntn: malformed F22 " if kind == 3 else "qntn: malformed F3 ")
    return len(paths)


def test_results_stand_beside_the_documents(tmp_path, capsys):
    paths = documents(tmp_path, 10)
    assert main(["map", "contract", str(tmp_path), "--processes", "3"]) == 1
    assert right_results(tmp_path, paths) == 10
    out, err = capsys.readouterr()
    assert "6 done, 4 refused, 0 failed" in out
    assert f"{paths[3]}: refused: F22 label count: label 7" in out
    assert "contract: 10 documents; 3 processes" in err
    assert sorted(p.name for p in tmp_path.iterdir() if p.name.startswith(".")) == []


def test_answered_documents_are_passed_over(tmp_path, capsys):
    paths = documents(tmp_path, 5)
    main(["map", "contract", str(tmp_path)])
    first = {p.name: p.stat().st_ino for p in tmp_path.glob("*.contract*")}
    assert main(["map", "contract", str(tmp_path)]) == 1
    assert {p.name: p.stat().st_ino for p in tmp_path.glob("*.contract*")} == first
    assert "3 done, 2 refused, 0 failed" in capsys.readouterr().out
    paths[3].write_bytes(as_bytes(FEW[0]))
    (tmp_path / "n000.contract").unlink()
    assert main(["map", "contract", str(tmp_path)]) == 1
    now = {p.name: p.stat().st_ino for p in tmp_path.glob("*.contract*")}
    assert (tmp_path / "n003.contract").exists() and not (tmp_path / "n003.contract.refused").exists()
    assert {name: now[name] for name in ("n001.contract", "n002.contract")} == {
        name: first[name] for name in ("n001.contract", "n002.contract")
    }
    assert "4 done, 1 refused, 0 failed" in capsys.readouterr().out
    paths[4].unlink()
    assert main(["map", "contract", *map(str, paths)]) == 1
    assert "4 done, 0 refused, 1 failed" in capsys.readouterr().out


class Terminal(io.StringIO):
    """A text that says it is a terminal."""

    def isatty(self):
        return True


def test_a_terminal_shows_a_bar(tmp_path):
    paths = documents(tmp_path, 10)
    screen = Terminal()
    many.map_documents("contract", paths, out=screen)
    last = screen.getvalue().rstrip("\n").split("\r")[-1]
    assert last.startswith("[########################] 10/10, 4 refused, 0:0") and " left" in last
    assert many._clock(59.6) == "1:00" and many._clock(3661) == "1:01:01"


def test_failures_are_tried_again(tmp_path, monkeypatch, capsys, program):
    paths = documents(tmp_path, 1)
    broken = tmp_path / "broken"
    broken.write_text("#!/bin/sh\necho 'qntn: memory' >&2\nexit 7\n")
    broken.chmod(0o755)
    monkeypatch.setenv("QNTN", str(broken))
    assert main(["map", "contract", str(paths[0])]) == 1
    assert "failed: memory was wanting" in capsys.readouterr().out
    monkeypatch.setenv("QNTN", program)
    assert main(["map", "contract", str(paths[0])]) == 0
    assert (tmp_path / "n000.contract").read_text() == run("contract", FEW[0])


def slow_program(folder, program):
    """The program, which waits a while first."""
    path = folder / "slow"
    path.write_text(f'#!/bin/sh\nsleep 0.05\nexec {program} "$@"\n')
    path.chmod(0o755)
    return str(path)


@pytest.mark.parametrize("how", [signal.SIGINT, signal.SIGKILL])
def test_a_run_that_was_broken_off_goes_on(tmp_path, program, how, capsys):
    folder = tmp_path / "documents"
    folder.mkdir()
    paths = documents(folder, 60)
    environment = {**os.environ, "QNTN": slow_program(tmp_path, program), "PYTHONPATH": str(PACKAGE)}
    words = [sys.executable, "-m", "wandrosu", "map", "contract", "--processes", "2", str(folder)]
    running = subprocess.Popen(words, env=environment, stdout=subprocess.PIPE, stderr=subprocess.PIPE)
    while len(list(folder.glob("*.contract"))) < 4 and running.poll() is None:
        time.sleep(0.01)
    running.send_signal(how)
    running.communicate()
    assert running.returncode == (130 if how == signal.SIGINT else -how)
    before = {p.name: p.stat().st_ino for p in folder.glob("*.contract")}
    assert 4 <= len(before) < 36
    assert main(["map", "contract", str(folder)]) == 1
    assert right_results(folder, paths) == 60
    assert all((folder / name).stat().st_ino == inode for name, inode in before.items())
    assert "answered before" in capsys.readouterr().err


def test_other_commands(tmp_path):
    (tmp_path / "s.json").write_bytes(as_bytes(states(terms=[N])))
    for command in ("mpo", "overlap", "expect"):
        assert main(["map", command, str(tmp_path / "s.json")]) == 0
        assert (tmp_path / f"s.{command}").read_text() == run(command, states(terms=[N]))
    assert main(["map", "expect", "--workers", "2", "--again", str(tmp_path / "s.json")]) == 0


@pytest.mark.parametrize("address", ["nowhere", "tcp://127.0.0.1:1", "tcp://127.0.0.1:99999"])
def test_no_cluster(tmp_path, capsys, address):
    pytest.importorskip("distributed")
    paths = documents(tmp_path, 1)
    assert main(["map", "contract", "--cluster", address, str(paths[0])]) == 1
    assert f"no cluster answers at {address}" in capsys.readouterr().err


def test_forms_of_files(tmp_path, capsys):
    paths = documents(tmp_path, 5)
    assert main(["check", "contract", str(tmp_path)]) == 1
    assert f"{paths[4]}: at the top: 'tensors' is missing" in capsys.readouterr().out
    assert main(["check", "network", *map(str, paths[:4])]) == 0


def test_a_cluster_of_two_workers(tmp_path, capsys, monkeypatch):
    distributed = pytest.importorskip("distributed")
    folder = tmp_path / "documents"
    folder.mkdir()
    paths = documents(folder, 25)
    monkeypatch.setenv("PYTHONPATH", str(PACKAGE))
    with distributed.LocalCluster(n_workers=2, threads_per_worker=2, processes=True, dashboard_address=None) as cluster:
        with distributed.Client(cluster, set_as_default=False) as client:
            pids = client.run(os.getpid)
            assert len(set(pids.values()) - {os.getpid()}) == 2
            assert main(["map", "contract", "--cluster", cluster.scheduler_address, str(folder)]) == 1
            assert right_results(folder, paths) == 25
            out, err = capsys.readouterr()
            assert "15 done, 10 refused, 0 failed" in out and "2 workers with 4 threads at" in err
            other = tmp_path / "other"
            shutil.copy(os.environ["QNTN"], other)
            other.write_bytes(other.read_bytes() + b"\n")
            client.run(lambda path: os.environ.update(QNTN=path), str(other), workers=list(pids)[:1])
            assert main(["map", "contract", "--again", "--cluster", cluster.scheduler_address, str(folder)]) == 1
            assert "different programs" in capsys.readouterr().err
            client.run(lambda path: os.environ.update(QNTN=path), str(tmp_path / "none"))
            assert main(["map", "contract", "--again", "--cluster", cluster.scheduler_address, str(folder)]) == 1
            assert "a worker can't run" in capsys.readouterr().err
