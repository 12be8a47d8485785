"""Builds the package's wheel, with nothing but Python (PEP 517 and 660).

The wheel of ``pip install`` has the package and the schemas. `write_wheel` also makes the one that carries the program,
which `release/make` uses. Wheels are the same bytes for the same files.
"""

import base64
import hashlib
import re
import zipfile
from pathlib import Path

HERE = Path(__file__).resolve().parent.parent
SCHEMAS = HERE.parent / "docs" / "schema"
WHEN = (2020, 1, 1, 0, 0, 0)


def project():
    """The plain texts of the table [project], and the lists of its dependencies."""
    text = (HERE / "pyproject.toml").read_text(encoding="utf-8")
    table = text.split("[project]", 1)[1].split("[project.optional-dependencies]")
    fields = dict(re.findall(r'(?m)^([\w-]+) = "(.*)"$', table[0]))
    fields["dependencies"] = re.findall(r'"([^"]+)"', re.search(r"(?m)^dependencies = (.*)$", table[0]).group(1))
    extras = re.findall(r"(?m)^(\w+) = \[(.*)\]$", table[1].split("\n[", 1)[0])
    fields["extras"] = {name: re.findall(r'"([^"]+)"', items) for name, items in extras}
    return fields


def metadata():
    """The wheel's METADATA."""
    fields = project()
    lines = ["Metadata-Version: 2.1", "Name: wandrosu", f"Version: {fields['version']}"]
    lines += [f"Summary: {fields['description']}", f"Requires-Python: {fields['requires-python']}"]
    lines += [f"Requires-Dist: {item}" for item in fields["dependencies"]]
    for name, items in fields["extras"].items():
        lines += [f"Provides-Extra: {name}"] + [f'Requires-Dist: {item} ; extra == "{name}"' for item in items]
    readme = (HERE / "README.md").read_text(encoding="utf-8")
    return "\n".join(lines) + "\nDescription-Content-Type: text/markdown\n\n" + readme


def package_files():
    """The files of the package: their names in a wheel and their bytes."""
    package = HERE / "wandrosu"
    kept = [path for path in sorted(package.rglob("*")) if path.suffix in (".py", ".json", ".typed") and path.is_file()]
    files = {f"wandrosu/{path.relative_to(package).as_posix()}": path.read_bytes() for path in kept}
    if SCHEMAS.is_dir():
        files.update({f"wandrosu/schemas/{path.name}": path.read_bytes() for path in sorted(SCHEMAS.glob("*.json"))})
    return files


def write_wheel(folder, files, tag="py3-none-any", programs=(), notes=None):
    """Writes a wheel of these files and returns its name. `programs` are the names of files that are run; `notes`
    go beside the wheel's metadata."""
    version = project()["version"]
    info = f"wandrosu-{version}.dist-info"
    pure = "true" if tag.endswith("-any") else "false"
    contents = dict(files)
    contents.update({f"{info}/{name}": text.encode("utf-8") for name, text in (notes or {}).items()})
    contents[f"{info}/METADATA"] = metadata().encode("utf-8")
    lines = ["Wheel-Version: 1.0", "Generator: wandrosu", f"Root-Is-Purelib: {pure}", f"Tag: {tag}"]
    contents[f"{info}/WHEEL"] = "".join(line + "\n" for line in lines).encode()
    rows = [f"{name},sha256={_digest(data)},{len(data)}" for name, data in sorted(contents.items())]
    contents[f"{info}/RECORD"] = ("\n".join(rows) + f"\n{info}/RECORD,,\n").encode()
    name = f"wandrosu-{version}-{tag}.whl"
    with zipfile.ZipFile(Path(folder) / name, "w", zipfile.ZIP_DEFLATED) as archive:
        for path, data in contents.items():
            entry = zipfile.ZipInfo(path, WHEN)
            entry.compress_type = zipfile.ZIP_DEFLATED
            entry.external_attr = (0o100755 if path in programs else 0o100644) << 16
            archive.writestr(entry, data)
    return name


def _digest(data):
    return base64.urlsafe_b64encode(hashlib.sha256(data).digest()).rstrip(b"=").decode()


def build_wheel(wheel_directory, config_settings=None, metadata_directory=None):
    """PEP 517: the wheel of the package without the program."""
    return write_wheel(wheel_directory, package_files())


def build_editable(wheel_directory, config_settings=None, metadata_directory=None):
    """PEP 660: a wheel that points at this folder."""
    return write_wheel(wheel_directory, {"wandrosu.pth": (str(HERE) + "\n").encode()})


def build_sdist(sdist_directory, config_settings=None):
    """There is none: the schemas stand outside this folder. The release has an archive of its own."""
    raise NotImplementedError("make a wheel, or take the archive of the release")
