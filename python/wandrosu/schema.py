"""The forms of documents and texts, checked by JSON Schemas (python3-jsonschema).

F3 names no place. The schema of the command does, so `problems` says where a form is wrong and what belongs there.
The schemas stand in docs/schema, and inside the package where it was installed.
"""

from __future__ import annotations

import json
from functools import lru_cache
from pathlib import Path
from typing import Any, Dict, List, Mapping, Union

from .program import Document

COMMANDS = {
    "contract": ("network", "text_tensor"),
    "plan": ("network", "text_plan"),
    "mpo": ("sum", "text_network"),
    "overlap": ("states", "text_tensor"),
    "expect": ("expect", "text_tensor"),
    "gen": ("", "text_workload"),
}
"""For each command the schema of the document that it reads and of the text that it writes."""

NAMES = ("network", "sum", "states", "expect", "tensor", "text_tensor", "text_network", "text_plan", "text_workload")


def folder() -> Path:
    """Where the schemas are."""
    package = Path(__file__).resolve().parent
    inside = package / "schemas"
    return inside if inside.is_dir() else package.parent.parent / "docs" / "schema"


def load(name: str) -> Dict[str, Any]:
    """The schema of this name, or of the document that the command of this name reads."""
    name = COMMANDS[name][0] if name in COMMANDS else name
    schema: Dict[str, Any] = json.loads((folder() / f"{name}.json").read_text(encoding="utf-8"))
    return schema


def read(text: Union[str, bytes]) -> Any:
    """A document as the program reads its numbers: ``-0`` is no whole number. NaN and Infinity are refused."""

    def constant(name: str) -> Any:
        raise ValueError(f"{name} is no JSON")

    def integer(digits: str) -> Any:
        return -0.0 if digits == "-0" else int(digits)

    return json.loads(text, parse_constant=constant, parse_int=integer)


def problems(document: Union[Document, Mapping[str, Any]], name: str) -> List[str]:
    """Where the form of a document is wrong, in words; nothing where it is right.

    `name` is a command, whose document this is, or a schema's name. Raises `ImportError` where jsonschema isn't
    installed, and `ValueError` where a text is no JSON.
    """
    data = read(document) if isinstance(document, (str, bytes)) else document
    found = [_deepest(error) for error in _validator(name).iter_errors(data)]
    placed = [error for error in found if not error.context or error.absolute_path]
    found = placed or found
    found.sort(key=lambda error: [str(key) for key in error.absolute_path])
    return list(dict.fromkeys(map(_words, found)))


@lru_cache(maxsize=None)
def _validator(name: str) -> Any:
    from jsonschema import Draft4Validator

    return Draft4Validator(load(name))


def _deepest(error: Any) -> Any:
    """The error inside an alternative that says most: the deepest one in a branch that can be meant."""
    while error.context:
        branches: Dict[int, List[Any]] = {}
        for inner in error.context:
            branches.setdefault(inner.schema_path[0], []).append(inner)
        meant = [errors for errors in branches.values() if not any(map(_other_branch, errors))]
        if not meant:
            return error
        inner = max((e for errors in meant for e in errors), key=lambda e: len(e.absolute_path))
        if len(meant) > 1 and len(inner.absolute_path) <= len(error.absolute_path):
            return error
        error = inner
    return error


def _other_branch(error: Any) -> bool:
    """Whether an error says that another branch of the alternative is meant."""
    last = error.absolute_path[-1] if error.absolute_path else None
    lacks_combine = error.validator == "required" and "'combine' is a required" in error.message
    size = last == "group" and error.validator in ("minItems", "maxItems")
    return error.validator == "not" or lacks_combine or size or (last == "kind" and error.validator == "enum")


def _words(error: Any) -> str:
    place = "".join(f"[{key}]" if isinstance(key, int) else f".{key}" for key in error.absolute_path).lstrip(".")
    belongs = error.schema.get("description", "")
    if error.validator == "required":
        said = error.message.replace("is a required property", "is missing")
    elif belongs and error.validator != "additionalProperties":
        said = f"{_short(error.instance)} isn't {belongs}"
    elif error.validator == "enum":
        said = f"{_short(error.instance)} isn't one of {', '.join(map(repr, error.validator_value))}"
    elif error.validator in ("minimum", "maximum", "minItems", "maxItems"):
        limit = {
            "minimum": "is below",
            "maximum": "is above",
            "minItems": "has fewer items than",
            "maxItems": "has more items than",
        }
        said = f"{_short(error.instance)} {limit[error.validator]} {error.validator_value}"
    else:
        said = f"{_short(error.instance)} isn't right ({error.validator}: {_short(error.validator_value)})"
    return f"at {place or 'the top'}: {said}"


def _short(value: Any) -> str:
    text = json.dumps(value)
    return text if len(text) <= 60 else text[:57] + "..."
