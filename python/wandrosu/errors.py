"""What can go wrong: arrays that aren't what they should be, and the answers of the program.

`Refused` and the classes below it carry the program's own line. `Malformed` and `Passed` say in words
where and why; the texts stand in ``faults.json``.
"""

from __future__ import annotations

import json
import re
from pathlib import Path
from typing import Any, Dict, List, NamedTuple, Sequence, Tuple

LIMIT = 2**127 - 1
"""The greatest magnitude |re| + |im| of an entry, and of every sum of magnitudes."""


class WandrosuError(Exception):
    """Whatever this package raises of its own."""


class ArrayFault(WandrosuError, ValueError):
    """An array isn't a tensor with these legs. `name` is the fault's name, `place` its place in the array."""

    name = "array"

    def __init__(self, words: str, place: Any = None) -> None:
        super().__init__(f"{self.name}: {words}")
        self.place = place


class NotWhole(ArrayFault):
    """An entry isn't a whole number or a complex number with whole parts."""

    name = "not whole"

    def __init__(self, value: Any, place: Any = None) -> None:
        at = "" if place is None else f"the entry at {_bracketed(place)}, "
        super().__init__(f"{at}{value!r}, isn't a Gaussian integer (whole parts; no fractions, no NaN)", place)
        self.value = value


class OffFlux(ArrayFault):
    """An entry other than 0 stands where the charges don't add up to the flux.

    `place` is its index in the array (from 0), `tuple` the sectors of its legs, `charge` what the charges
    of the ``out`` legs less those of the ``in`` legs add up to there, `flux` what they should. Where the charges of
    a link are found from entries, `tuple` is None, and `flux` is the charge that an entry before this one gave.
    """

    name = "off flux"

    def __init__(self, value: Any, place: Any, sectors: Any, charge: Any, flux: Any, what: str = "") -> None:
        if sectors is None:
            has = f"leads to the charge {_bare(charge)}, and an entry before it to {_bare(flux)}"
        else:
            has = f"(sectors {_bracketed(sectors)}) has the charge {_bare(charge)}, out less in, "
            has += f"and the flux is {_bare(flux)}"
        super().__init__(f"{what}the entry {value} at {_bracketed(place)} {has}", place)
        self.value, self.tuple, self.charge, self.flux = value, sectors, charge, flux


class WrongShape(ArrayFault):
    """An array hasn't one axis for each leg, or an axis hasn't as many places as its leg has values."""

    name = "wrong shape"


class ProgramNotFound(WandrosuError, FileNotFoundError):
    """The program ``qntn`` is nowhere where it is looked for."""


class Refused(WandrosuError):
    """The program didn't answer with a text. `status` is its exit status, `line` its line on standard error."""

    def __init__(self, words: str, status: int, line: str) -> None:
        super().__init__(words + (f"\n  the program wrote: {line}" if line else ""))
        self.words, self.status, self.line = words, status, line

    def __reduce__(self) -> Tuple[Any, ...]:
        return _again, (type(self), self.args, self.__dict__)


def _again(kind: type, args: Tuple[Any, ...], fields: Dict[str, Any]) -> Exception:
    """An exception as it was; exceptions come back from other processes so."""
    error: Exception = kind.__new__(kind, *args)
    error.args = args
    error.__dict__.update(fields)
    return error


class Malformed(Refused, ValueError):
    """The document has a fault; this is its first one.

    `code` is its number (16 for F16), `name` its name, `place` its place in words, `says` what is wrong,
    `usual` what usually causes it; `tensor`, `part` and `item` are the numbers as the program told them.
    """

    def __init__(self, command: str, line: str, status: int = 3, at: str = "") -> None:
        found = re.search(r"malformed F(\d+) tensor (\d+) part (\d+) item (-?\d+)", line)
        if found is None:
            raise ValueError(f"no line of a fault: {line!r}")
        self.code, self.tensor, self.part, self.item = map(int, found.groups())
        fault = fault_of(self.code)
        self.name, self.says, self.usual = fault.name, fault.says, fault.usual
        self.place = at or fault.place(command, self.tensor, self.part, self.item)
        said = [self.place] if at else [self.place, self.says]
        words = f"F{self.code} {self.name}: {': '.join(filter(None, said))}\n  usual cause: {self.usual}"
        super().__init__(words, status, line)


class Passed(Refused, OverflowError):
    """The exact range overflows: a sum of magnitudes is above 2^127 - 1.

    The document is well formed. What is summed is |re| + |im| of each product, so this can come though
    the value is small. `step` is the step, counted from 1 (0 for the build of an operator sum, then
    `at` is the site), `at` the sectors of the entry of the step's result and `offset` its place in the block,
    both counted from 0.
    """

    def __init__(self, line: str, status: int = 4) -> None:
        found = re.search(r"passed step (\d+) at \[([\d,]*)\] offset (\d+)", line)
        if found is None:
            raise ValueError(f"no line of a passing place: {line!r}")
        self.step, self.offset = int(found.group(1)), int(found.group(3))
        self.at = tuple(int(n) for n in found.group(2).split(",") if n)
        if self.step == 0:
            self.place = f"site {self.at[0] if self.at else '?'} of the operator sum's automaton"
        else:
            entry = f"the entry at sectors {_bracketed(self.at)}, offset {self.offset}" if self.at else "the only entry"
            self.place = f"step {self.step}, {entry} of its result"
        words = (
            f"passed: {self.place}: overflow of the exact range: the sum of the magnitudes |re| + |im| of what is "
            "added there is above 2^127 - 1 (the sum itself may be small)\n"
            "  usual cause: entries with too many bits for so many steps; give both codes smaller whole numbers, "
            "or contract in another order"
        )
        super().__init__(words, status, line)


class UsageFault(Refused):
    """The words of the command line don't fit; `word` is the first that doesn't, counted from 1."""

    def __init__(self, line: str, status: int = 2) -> None:
        found = re.search(r"usage word (\d+)", line)
        self.word = int(found.group(1)) if found else 0
        super().__init__(f"usage: word {self.word} of the command line doesn't fit", status, line)


class OutOfMemory(Refused, MemoryError):
    """Memory was wanting while the program ran."""


class IOFault(Refused, OSError):
    """The program couldn't read its document or write its text."""


class ProgramDied(Refused):
    """The program ended without an answer: it was killed, or isn't a program of this project."""


class Fault(NamedTuple):
    """What is known of a fault of documents by its number."""

    code: int
    name: str
    says: str
    places: Dict[str, List[str]]
    zero: Dict[str, List[str]]
    usual: str

    def place(self, command: str, tensor: int, part: int, item: int) -> str:
        """The place in words, as in ``tensor 2, block 1``. Empty where the fault names no place."""
        kind = self._kind(command, tensor, item)
        words = self.places.get(kind, self.places.get("tensor", ["", "", ""]))
        none = self.zero.get(kind, ["", "", ""])
        said = []
        for word, empty, number in zip(words, none, (tensor, part, item)):
            if number == 0 and empty:
                said.append(empty)
                break
            if number == 0:
                continue
            if word == "tensor" and number >= 100:
                said.append(_of_chain(number))
            elif word:
                said.append(f"{word} {number}")
        return ", ".join(said)

    def _kind(self, command: str, tensor: int, item: int) -> str:
        """Whether the place is one of a tensor, of a site, of a term or of an automaton."""
        if command in ("contract", "plan"):
            return "tensor"
        if "automaton" in self.places and (command == "mpo" or item != 0):
            return "automaton"
        if "term" in self.places and tensor == 0:
            return "term"
        return "tensor" if tensor >= 100 else "site"


def _of_chain(number: int) -> str:
    chain = "bra" if number < 200 else "ket"
    site = number % 100
    return f"tensor {site} of the {chain}" if site else f"the {chain}"


def _load() -> Dict[int, Fault]:
    rows = json.loads(Path(__file__).with_name("faults.json").read_text(encoding="utf-8"))
    return {
        row["code"]: Fault(
            row["code"], row["name"], row["says"], row.get("places", {}), row.get("zero", {}), row["usual"]
        )
        for row in rows
    }


FAULTS: Dict[int, Fault] = _load()
"""The faults of documents by their numbers."""


def fault_of(code: int) -> Fault:
    """The fault of this number; a number that this version doesn't know has no words."""
    return FAULTS.get(code) or Fault(
        code, "unknown", "this version of the package doesn't know it", {}, {}, "see FORMAT.md"
    )


def answer_error(command: str, status: int, line: str, at: str = "") -> Refused:
    """The exception for an answer of the program other than a text."""
    if status == 3 and "malformed F" in line:
        return Malformed(command, line, status, at)
    if status == 4 and "passed step" in line:
        return Passed(line, status)
    if status == 2 and "usage word" in line:
        return UsageFault(line, status)
    if status in (5, 6):
        return IOFault(
            "the program couldn't " + ("read its document" if status == 5 else "write its text"), status, line
        )
    if status == 7:
        return OutOfMemory("memory was wanting while the program ran", status, line)
    how = f"killed by signal {-status}" if status < 0 else f"exit status {status}"
    return ProgramDied(f"the program ended without an answer ({how})", status, line)


def _bracketed(place: Any) -> str:
    return "[" + ",".join(str(int(i)) for i in place) + "]" if isinstance(place, Sequence) else str(place)


def _bare(charge: Any) -> str:
    return str(charge[0]) if len(charge) == 1 else _bracketed(charge)
