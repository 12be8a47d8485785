"""Many documents at once: on this machine, each by a process of its own, or on a Dask cluster.

The result of ``NAME.json`` stands beside it as ``NAME.COMMAND``, byte for byte what the program wrote. Where the
program refuses the document (exit status 3 or 4), its line stands in ``NAME.COMMAND.refused``. Results are written
whole or not at all, so a run that was broken off goes on where it stopped.
A result gets the time at which its document was last changed, so a document that was changed or replaced since is done
again, and no other.
"""

from __future__ import annotations

import importlib
import os
import socket
import sys
import time
from concurrent.futures import FIRST_COMPLETED, Future, ThreadPoolExecutor, wait
from pathlib import Path
from typing import Any, Dict, Iterable, Iterator, List, NamedTuple, Optional, Sequence, TextIO, Tuple

from .errors import Malformed, Passed, ProgramNotFound, Refused, WandrosuError
from .program import checksum, find_program, run

COMMANDS = ("contract", "plan", "mpo", "overlap", "expect")


class Answer(NamedTuple):
    """What became of one document: `text` is the program's text, or its line where it was refused, or what failed."""

    path: Path
    state: str
    """``done``, ``refused`` (the program's answer, which stays), or ``failed`` (which is tried again next time)"""
    text: str
    words: str = ""
    """the fault in words"""
    when: int = 0
    """when the document was last changed, in nanoseconds"""


def answer_of(
    command: str, document: bytes, workers: Optional[int] = None, program: Optional[str] = None
) -> Tuple[str, str, str]:
    """The state, the text and the words of one document. Workers of a cluster run this, each with the program that
    it finds."""
    try:
        return "done", run(command, document, workers, program), ""
    except (Malformed, Passed) as answer:
        return "refused", answer.line + "\n", answer.words.split("\n")[0]
    except (Refused, ProgramNotFound, OSError) as failure:
        words = failure.words if isinstance(failure, Refused) else str(failure)
        return "failed", "", words


def result_path(path: Path, command: str) -> Path:
    """Where the result of a document goes: the command in the place of ``.json``, or behind another ending."""
    return path.with_suffix("." + command) if path.suffix == ".json" else path.with_name(f"{path.name}.{command}")


def is_answered(path: Path, command: str) -> bool:
    """Whether a result or a refusal of this very document stands there."""
    result = result_path(path, command)
    when = path.stat().st_mtime_ns
    return any(place.exists() and place.stat().st_mtime_ns == when for place in (result, refusal_path(result)))


def refusal_path(result: Path) -> Path:
    """Where the line of a refusal goes."""
    return result.with_name(result.name + ".refused")


def keep(answer: Answer, command: str) -> None:
    """Writes a result or a refusal beside its document, whole or not at all, and takes an old one away."""
    result = result_path(answer.path, command)
    refusal = refusal_path(result)
    if answer.state == "failed":
        return
    place, other = (result, refusal) if answer.state == "done" else (refusal, result)
    part = place.with_name(f".{place.name}.{os.getpid()}.part")
    part.write_text(answer.text, encoding="utf-8")
    os.utime(part, ns=(answer.when, answer.when))
    os.replace(part, place)
    other.unlink(missing_ok=True)


class Local:
    """Runs documents on this machine, `processes` at a time."""

    def __init__(self, processes: int) -> None:
        self.processes = max(1, processes)
        self.program = find_program()
        self.pool = ThreadPoolExecutor(self.processes)
        self.where = f"{self.processes} processes"

    def submit(self, command: str, document: bytes, workers: Optional[int]) -> Any:
        return self.pool.submit(answer_of, command, document, workers, self.program)

    def first(self, pending: Iterable["Future[Any]"]) -> Tuple[List[Any], List[Any]]:
        """Those that are finished, once some are, and the rest."""
        finished, rest = wait(list(pending), return_when=FIRST_COMPLETED)
        return list(finished), list(rest)

    def close(self) -> None:
        self.pool.shutdown(wait=True, cancel_futures=True)


class Cluster:
    """Runs documents on a Dask cluster (python3-distributed), whose workers have this package and the program.

    The documents go to the workers and the texts come back, so no common file system is needed. Refused where the
    workers don't all have the same program.
    """

    def __init__(self, address: str) -> None:
        self.distributed: Any = importlib.import_module("distributed")
        _knock(address)
        self.client = self.distributed.Client(address, set_as_default=False)
        programs: Dict[str, str] = self.client.run(checksum, on_error="return")
        bad = {worker: str(e) for worker, e in programs.items() if not isinstance(e, str)}
        if not programs or bad:
            self.client.close()
            raise WandrosuError(
                f"the cluster {address} has no workers" if not programs else f"a worker can't run: {bad}"
            )
        if len(set(programs.values())) > 1:
            self.client.close()
            raise WandrosuError(f"the workers of {address} have different programs: {programs}")
        threads = self.client.nthreads()
        self.processes = sum(threads.values())
        self.where = f"{len(threads)} workers with {self.processes} threads at {address}"

    def submit(self, command: str, document: bytes, workers: Optional[int]) -> Any:
        return self.client.submit(answer_of, command, document, workers, pure=False)

    def first(self, pending: Iterable[Any]) -> Tuple[List[Any], List[Any]]:
        """Those that are finished, once some are, and the rest."""
        with self.client.as_current():
            finished, rest = self.distributed.wait(list(pending), return_when="FIRST_COMPLETED")
        return list(finished), list(rest)

    def close(self) -> None:
        self.client.close()


def _knock(address: str) -> None:
    """Raises `WandrosuError` where nothing listens at an address such as tcp://host:8786; Dask waits long for that."""
    host, _, port = address.split("://")[-1].split("/")[0].rpartition(":")
    try:
        socket.create_connection((host.strip("[]"), int(port)), timeout=15).close()
    except (OSError, ValueError, OverflowError) as failure:
        raise WandrosuError(f"no cluster answers at {address}, which is to be as tcp://host:8786: {failure}") from None


def answers(engine: Any, command: str, paths: Sequence[Path], workers: Optional[int] = None) -> Iterator[Answer]:
    """The answers of documents as they come in. A few documents more than there are processes are under way at a time,
    so that only these are held in memory."""
    pending: Dict[Any, Tuple[Path, int]] = {}
    left = iter(paths)
    room = 2 * engine.processes + 2
    try:
        while True:
            for path in left:
                try:
                    when = path.stat().st_mtime_ns
                    pending[engine.submit(command, path.read_bytes(), workers)] = path, when
                except OSError as failure:
                    yield Answer(path, "failed", "", str(failure))
                if len(pending) >= room:
                    break
            if not pending:
                return
            finished, _ = engine.first(pending)
            for future in finished:
                path, when = pending.pop(future)
                try:
                    state, text, words = future.result()
                    yield Answer(path, state, text, words, when)
                except Exception as failure:
                    yield Answer(path, "failed", "", f"{type(failure).__name__}: {failure}")
    finally:
        for future in pending:
            future.cancel()


class Progress:
    """A bar on a terminal; elsewhere a line now and then."""

    def __init__(self, total: int, before: int, out: TextIO) -> None:
        self.total, self.before, self.out = total, before, out
        self.done = self.refused = self.failed = 0
        self.start = self.shown = time.monotonic()
        self.on_terminal = out.isatty()

    def add(self, state: str) -> None:
        self.done += state == "done"
        self.refused += state == "refused"
        self.failed += state == "failed"
        now = time.monotonic()
        pause = 0.1 if self.on_terminal else 30.0
        if now - self.shown >= pause:
            self.shown = now
            self.show()

    def show(self) -> None:
        counted = self.done + self.refused + self.failed
        share = (self.before + counted) / self.total if self.total else 1.0
        spent = time.monotonic() - self.start
        rest = spent / counted * (self.total - self.before - counted) if counted else 0.0
        text = f"{self.before + counted}/{self.total}"
        text += f", {self.refused} refused" if self.refused else ""
        text += f", {self.failed} failed" if self.failed else ""
        text += f", {_clock(spent)} spent" + (f", {_clock(rest)} left" if counted else "")
        if self.on_terminal:
            bar = "#" * round(24 * share)
            self.out.write(f"\r[{bar:.<24}] {text}\x1b[K")
        else:
            self.out.write(text + "\n")
        self.out.flush()

    def end(self) -> None:
        if self.on_terminal:
            self.show()
            self.out.write("\n")


def _clock(seconds: float) -> str:
    minutes, rest = divmod(round(seconds), 60)
    return f"{minutes // 60}:{minutes % 60:02}:{rest:02}" if minutes >= 60 else f"{minutes}:{rest:02}"


def map_documents(
    command: str,
    paths: Iterable[Path],
    workers: Optional[int] = None,
    processes: Optional[int] = None,
    cluster: Optional[str] = None,
    again: bool = False,
    out: Optional[TextIO] = None,
) -> List[Answer]:
    """Runs a command over documents and keeps the results beside them; returns what wasn't done, in the paths' order.

    Documents that are answered already are passed over, unless `again`. Refusals of an earlier run are among what
    is returned. `out` gets the progress (standard error).
    """
    out = sys.stderr if out is None else out
    files = list(dict.fromkeys(Path(path) for path in paths))
    open_ones = [path for path in files if again or not path.exists() or not is_answered(path, command)]
    kept = set(files) - set(open_ones)
    not_done = {path: _earlier(path, command) for path in kept if refusal_path(result_path(path, command)).exists()}
    if not open_ones:
        return [not_done[path] for path in files if path in not_done]
    engine: Any = Cluster(cluster) if cluster else Local(processes or os.cpu_count() or 1)
    progress = Progress(len(files), len(kept), out)
    out.write(
        f"{command}: {len(open_ones)} documents"
        + (f", {len(kept)} answered before" if kept else "")
        + f"; {engine.where}\n"
    )
    try:
        for answer in answers(engine, command, open_ones, workers):
            keep(answer, command)
            if answer.state != "done":
                not_done[answer.path] = answer
            progress.add(answer.state)
    finally:
        progress.end()
        engine.close()
    return [not_done[path] for path in files if path in not_done]


def _earlier(path: Path, command: str) -> Answer:
    """The refusal of an earlier run."""
    line = refusal_path(result_path(path, command)).read_text(encoding="utf-8").strip()
    try:
        words = (Malformed(command, line) if "malformed" in line else Passed(line)).words.split("\n")[0]
    except ValueError:
        words = line
    return Answer(path, "refused", line, words)
