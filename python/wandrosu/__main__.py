"""``python -m wandrosu map COMMAND FILES..``, ``check COMMAND FILES..``, ``faults`` and ``which``."""

from __future__ import annotations

import argparse
import sys
from pathlib import Path
from typing import List, Optional

from . import many, schema
from .errors import FAULTS, WandrosuError, fault_of
from .program import checksum, find_program


def parser() -> argparse.ArgumentParser:
    """The words of the command line."""
    top = argparse.ArgumentParser(
        prog="python -m wandrosu", description="Exact tensor networks: many documents at once, and their forms."
    )
    commands = top.add_subparsers(dest="task", required=True, metavar="map|check|faults|which")
    run = commands.add_parser("map", help="run a command over many documents", description=many.__doc__)
    run.add_argument("command", choices=many.COMMANDS)
    run.add_argument("files", nargs="+", type=Path, metavar="FILE", help="documents; a folder stands for its *.json")
    run.add_argument(
        "--workers",
        type=int,
        metavar="N",
        help="threads of each run of the program, 1 to 64 (contract, overlap, expect)",
    )
    where = run.add_mutually_exclusive_group()
    where.add_argument(
        "--processes", type=int, metavar="N", help="documents at a time on this machine (as many as it has processors)"
    )
    where.add_argument(
        "--cluster", metavar="ADDRESS", help="run on the Dask cluster whose scheduler is there, as tcp://host:8786"
    )
    run.add_argument("--again", action="store_true", help="also do what has a result already")
    check = commands.add_parser("check", help="say where the form of documents is wrong", description=schema.__doc__)
    check.add_argument("command", choices=[name for name in schema.COMMANDS if name != "gen"] + list(schema.NAMES))
    check.add_argument("files", nargs="+", type=Path, metavar="FILE")
    known = commands.add_parser("faults", help="what the faults of documents are and what usually causes them")
    known.add_argument(
        "codes", nargs="*", type=int, metavar="CODE", help="numbers of faults, as 16 for F16; all without"
    )
    known.add_argument("--markdown", action="store_true", help="print a table")
    commands.add_parser("which", help="say which program is found, and of which release it is")
    return top


def main(words: Optional[List[str]] = None) -> int:
    """Runs the command line. Status 0 where all is done or right, 1 where not, 130 where it was broken off."""
    given = parser().parse_args(words)
    if given.task == "which":
        return _which()
    if given.task == "faults":
        return _faults(given.codes or sorted(FAULTS), given.markdown)
    files = [file for path in given.files for file in (sorted(path.glob("*.json")) if path.is_dir() else [path])]
    try:
        return _map(given, files) if given.task == "map" else _check(given.command, files)
    except KeyboardInterrupt:
        print("broken off; the same words go on from here", file=sys.stderr)
        return 130
    except (WandrosuError, ImportError) as failure:
        print(failure, file=sys.stderr)
        return 1


def _map(given: argparse.Namespace, files: List[Path]) -> int:
    not_done = many.map_documents(given.command, files, given.workers, given.processes, given.cluster, given.again)
    for answer in not_done:
        print(f"{answer.path}: {answer.state}: {answer.words}")
    refused = sum(answer.state == "refused" for answer in not_done)
    failed = len(not_done) - refused
    print(f"{len(files) - len(not_done)} done, {refused} refused, {failed} failed")
    return 1 if not_done else 0


def _check(command: str, files: List[Path]) -> int:
    wrong = 0
    for file in files:
        try:
            problems = schema.problems(file.read_bytes(), command)
        except (OSError, ValueError) as failure:
            problems = [f"no document: {failure}"]
        wrong += bool(problems)
        for problem in problems:
            print(f"{file}: {problem}")
    print(f"{len(files) - wrong} right, {wrong} wrong")
    return 1 if wrong else 0


def _faults(codes: List[int], markdown: bool) -> int:
    if markdown:
        print("| Code | Name | What is wrong | Usual cause |\n|---|---|---|---|")
    for fault in map(fault_of, codes):
        if markdown:
            print(f"| F{fault.code} | {fault.name} | {fault.says} | {fault.usual} |")
        else:
            print(f"F{fault.code} {fault.name}: {fault.says}\n  usual cause: {fault.usual}")
    return 0


def _which() -> int:
    try:
        program = find_program()
    except WandrosuError as missing:
        print(missing, file=sys.stderr)
        return 1
    print(f"{program}\nsha256 {checksum(program)}")
    release = Path(program).with_name("RELEASE.txt")
    if not release.exists():
        release = Path(program).parent.parent / "RELEASE.txt"
    if release.exists():
        print(release.read_text(encoding="utf-8"), end="")
    return 0


if __name__ == "__main__":
    sys.exit(main())
