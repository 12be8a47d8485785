"""The examples of the README print what it says."""

import contextlib
import io
import re
import shutil
from pathlib import Path

import pytest

README = Path(__file__).resolve().parent.parent / "README.md"


def blocks(text):
    """The examples, each with what it prints and the line at which it begins."""
    pattern = r"```python\n(.*?)```\n(?:\s*```text\n(.*?)```)?"
    for found in re.finditer(pattern, text, re.S):
        yield text[: found.start()].count("\n") + 1, found.group(1), found.group(2) or ""


def test_examples_print_what_the_readme_says(tmp_path, monkeypatch):
    pytest.importorskip("jsonschema")
    if shutil.which("dot") is None:
        pytest.skip("Graphviz isn't installed")
    monkeypatch.chdir(tmp_path)
    names = {}
    examples = list(blocks(README.read_text(encoding="utf-8")))
    assert len(examples) >= 9
    for line, code, wanted in examples:
        out = io.StringIO()
        with contextlib.redirect_stdout(out):
            exec(compile(code, f"{README}:{line}", "exec"), names)
        assert out.getvalue() == wanted, f"the example at line {line}"
    drawn, kept = tmp_path / "hopping_chain.svg", README.parent.parent / "docs" / "hopping_chain.svg"
    assert words_of(drawn) == words_of(kept)


def words_of(picture):
    """What is written in a picture."""
    return sorted(re.findall(r"<text[^>]*>([^<]*)</text>", picture.read_text(encoding="utf-8")))


def test_the_first_example_has_ten_lines_and_prints():
    _, code, _ = next(blocks(README.read_text(encoding="utf-8")))
    assert len(code.splitlines()) == 11 and code.splitlines()[-1].startswith("print(")
