"""The program ``qntn``: where it is, and what it answers."""

from __future__ import annotations

import hashlib
import json
import os
import shutil
import subprocess
from pathlib import Path
from typing import Any, List, Optional, Union

from .errors import ProgramNotFound, answer_error

COMMANDS = ("contract", "plan", "mpo", "overlap", "expect", "gen")
WITH_WORKERS = ("contract", "overlap", "expect", "gen")

Document = Union[dict, str, bytes]


def find_program() -> str:
    """The path of ``qntn``: what the variable QNTN names; else the one inside the package (a wheel has it);
    else the first on PATH; else ``crates/qntn/out/qntn`` of the repository that holds this package.

    Raises `ProgramNotFound`, also where QNTN names nothing that runs.
    """
    named = os.environ.get("QNTN")
    if named:
        found = shutil.which(named)
        if found is None:
            raise ProgramNotFound(f"the variable QNTN names {named!r}, and no program is there")
        return os.path.abspath(found)
    package = Path(__file__).resolve().parent
    inside = package / "bin" / "qntn"
    tree = package.parent.parent / "crates" / "qntn" / "out" / "qntn"
    for place in (str(inside), "qntn", str(tree)):
        found = shutil.which(place)
        if found is not None:
            return found
    raise ProgramNotFound(
        f"qntn isn't in the variable QNTN, in the package ({inside}), on PATH or in the tree ({tree}); "
        "install a wheel that carries it, or build it and set QNTN to its path"
    )


def checksum(program: Optional[str] = None) -> str:
    """The SHA-256 of the program's file, by which two machines tell whether they run the same one."""
    return hashlib.sha256(Path(program or find_program()).read_bytes()).hexdigest()


def run(
    command: str,
    document: Optional[Document] = None,
    workers: Optional[int] = None,
    program: Optional[str] = None,
    timeout: Optional[float] = None,
    seed: Optional[int] = None,
) -> str:
    """Runs the program once and returns its text, one line of JSON.

    `command` is one of `COMMANDS`. `document` is a dict as `json` writes it, or the text itself; ``gen`` reads
    none and takes a `seed`. `workers` is 1 to 64. `timeout` is in seconds.
    Raises a kind of `Refused` for every answer other than a text, `ProgramNotFound`, and
    `subprocess.TimeoutExpired`.
    """
    words: List[str] = [program or find_program(), command]
    if seed is not None:
        words.append(str(int(seed)))
    if workers is not None:
        words += ["--workers", str(int(workers))]
    text = b"" if document is None else as_bytes(document)
    answer = subprocess.run(words, input=text, stdout=subprocess.PIPE, stderr=subprocess.PIPE, timeout=timeout)
    if answer.returncode == 0:
        return answer.stdout.decode("ascii")
    line = answer.stderr.decode("utf-8", "replace").strip()
    at = _wrong_form(command, text) if "malformed F3 " in line + " " else ""
    raise answer_error(command, answer.returncode, line, at)


def run_json(command: str, document: Document, workers: Optional[int] = None, **more: Any) -> Any:
    """The same, with the text read."""
    return json.loads(run(command, document, workers, **more))


def as_bytes(document: Document) -> bytes:
    """A document as the bytes that the program reads: compact JSON in UTF-8. NaN is refused."""
    if isinstance(document, bytes):
        return document
    if isinstance(document, str):
        return document.encode("utf-8")
    return json.dumps(document, separators=(",", ":"), allow_nan=False).encode("ascii")


def _wrong_form(command: str, text: bytes) -> str:
    """Where the form is wrong, by the schema; F3 names no place. Empty where jsonschema isn't installed."""
    from . import schema

    try:
        problems = schema.problems(text, command)
    except (ImportError, OSError, ValueError, RecursionError):
        return ""
    return problems[0] if problems else ""
