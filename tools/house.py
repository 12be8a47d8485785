"""What a script can see of the house, in seconds: `tools/house` runs it, and says what is refused.

Each finding is a line 'KIND: TEXT'. The same line in tools/house.exceptions lets it through; a line there that nothing
needs any more is refused too. Of a lemma that stands twice, all copies but one have to be let through.

Lemmas are compared up to the names of their variables. A lemma is cited where its file uses it outside its own lines,
where another file imports it or names it behind its module, and where code names its path.
"""

import collections
import glob
import re
import sys

EDGE = r"[\s(){}\[\],;:.λ\"`|]"
WORD = re.compile(r"[^\s(){}\[\],;:.λ\"`|]+")
DECLARED = re.compile(
    r"(?P<indent> *)(?P<marks>(?:abbrev |unfoldable |pub )*)(?:(?P<kind>record|data|ruleset) )?(?P<name>[^\s:(){}]+)"
    r"(?P<after> :|(?= [({])|$|(?= =))"
)
IMPORT = re.compile(r"(?m)^\s*(?:pub |ghost )?use ([^\s{;]+?)(?:\.\{([^}]*)\}| as ([^\s;]+))?;?$")

Declaration = collections.namedtuple("Declaration", "path name statement is_whole elsewhere")


def paths(ending):
    found = glob.glob(f"crates/*/**/*.{ending}", recursive=True)
    return [path for path in sorted(found) if "/out/" not in path]


def crate_of(path):
    return path.split("/")[1]


def module_of(path):
    return "Rattle." + path.removeprefix("crates/").removesuffix(".antt").replace("/", ".")


def place_of(declaration):
    return f"{module_of(declaration.path).removeprefix('Rattle.')}.{declaration.name}"


def is_answer(path):
    return path.endswith(("Answers.antt", "Invariants.antt", "Proof.antt", "/Lib.antt"))


def head_of(line, indent):
    """The match of a line that declares something at this indent, and None for any other line."""
    match = DECLARED.match(line)
    if not match or len(match["indent"]) != indent or match["name"].startswith("--"):
        return None
    if match["name"] in ("use", "mod", "module", "where", "unfolding", "open"):
        return None
    return match if match["after"] == " :" or match["kind"] else None


def parts_of(text):
    """The lines of each declaration: at the left, or further in where modules with parameters hold it."""
    part, bodies = [], [0]
    for line in text.split("\n"):
        indent = len(line) - len(line.lstrip())
        while line and indent < bodies[-1]:
            bodies.pop()
        begins_module = line.lstrip().startswith("module ")
        if head_of(line, bodies[-1]) or begins_module or line.startswith(("use ", "pub use ")):
            yield part
            part = []
        if begins_module:
            bodies.append(indent + 2)
        part.append(line)
    yield part


def statement_of(lines):
    """The type of a lemma with its variables numbered."""
    head = lines[0].split(" : ", 1)
    text = head[1] if len(head) > 1 else ""
    depth = len(lines[0]) - len(lines[0].lstrip())
    for line in lines[1:]:
        if not line.startswith(" " * (depth + 4)) or line.strip() == "where":
            break
        text += " " + line.strip()
    text = re.sub(r"\s+", " ", text)
    variables = []
    for group in re.findall(r"[({]([^:(){}]+?) :", text):
        variables += [name for name in group.split() if name not in variables]
    for i, name in enumerate(variables):
        text = re.sub(rf"(?:^|(?<={EDGE})){re.escape(name)}(?=$|{EDGE})", f"v{i}", text)
    return text


def declarations(path, text):
    """What a file declares; a lemma is whole if it is no definition and no module gives it further parameters."""
    words = collections.Counter(WORD.findall(re.sub(r"(?m)^(pub )?use .*$", "", text)))
    for lines in parts_of(text):
        match = head_of(lines[0], len(lines[0]) - len(lines[0].lstrip())) if lines and lines[0] else None
        if not match:
            continue
        own = WORD.findall("\n".join(line for line in lines if not line.lstrip().startswith("--")))
        is_whole = not (match["kind"] or match["indent"] or "abbrev" in match["marks"])
        elsewhere = words[match["name"]] - own.count(match["name"])
        yield Declaration(path, match["name"], statement_of(lines), is_whole, elsewhere)


def cited_names(texts):
    """Pairs of a module and a name in it that some other file imports, or names behind the module."""
    cited = set()
    for path, text in texts.items():
        for module, names, renamed in IMPORT.findall(text):
            if names:
                cited.update((module, name.split(" as ")[0].strip()) for name in names.split(","))
                continue
            short = renamed or module.split(".")[-1]
            behind = re.findall(rf"\b{re.escape(short)}\.\{{?([^\s(){{}}\[\],;:.]+)", text)
            cited.update((module, name) for name in behind)
        for rust in re.findall(r"\b(?:crate|qn_\w+)::(?:proofs|specs)::[\w:]+", text):
            steps = rust.split("::")
            steps[0] = crate_of(path) if steps[0] == "crate" else steps[0]
            cited.add(("Rattle." + ".".join(steps[:-1]), steps[-1]))
    return cited


def lemmas_twice(found):
    """Lemmas with one statement in several files: of each, the findings for its copies."""
    files = collections.defaultdict(set)
    for lemma in found:
        if lemma.is_whole and len(lemma.statement) >= 40 and "→" in lemma.statement:
            files[lemma.statement].add(f"lemma twice: {place_of(lemma)}")
    return [places for places in files.values() if len({place.rsplit(".", 1)[0] for place in places}) > 1]


def uncited(found, texts):
    cited = cited_names(texts)
    for one in found:
        module = module_of(one.path)
        if not one.elsewhere and (module, one.name) not in cited:
            yield f"cited by nothing: {place_of(one)}"


def needed_crates():
    for line in open("crates.txt"):
        name, colon, needed = line.split("#")[0].partition(":")
        if colon:
            yield name.split()[0], needed.split()


def unused_crates(texts):
    for crate, needed in needed_crates():
        text = "".join(text for path, text in texts.items() if crate_of(path) == crate)
        for name in needed:
            if not re.search(rf"\b{name}\b", text):
                yield f"not used: {name} in {crate}"


def counters(texts):
    """Places outside the program's main and outside tests that make a counter of products."""
    tests = set()
    for path, text in texts.items():
        for name in re.findall(r"#\[cfg\(test\)\]\s*mod (\w+);", text):
            tests.add(f"{path.rsplit('/', 1)[0]}/{name}")
    for path, text in texts.items():
        if not path.endswith(".rt") or path.endswith("/main.rt"):
            continue
        if any(path == f"{test}.rt" or path.startswith(f"{test}/") for test in tests):
            continue
        if re.search(r"\bSteps(::<\w+>)?::new\(|\bBlank::new\(", re.sub(r"//.*", "", text)):
            yield f"counter made: {path}"


def exceptions():
    """The lines of the file without their comments, and what they let through: a '*' at the end stands for any end."""
    lines = [line.split("#")[0].strip() for line in open("tools/house.exceptions")]
    lines = [line for line in lines if line]

    def allows(line, finding):
        return line == finding or line.endswith("*") and finding.startswith(line[:-1])

    return lines, lambda finding: [line for line in lines if allows(line, finding)]


def main():
    texts = {path: open(path).read() for ending in ("antt", "rt") for path in paths(ending)}
    files = [path for path in texts if path.endswith(".antt") and not is_answer(path)]
    found = [declaration for path in files for declaration in declarations(path, texts[path])]
    lines, allowing = exceptions()
    findings = [*uncited(found, texts), *unused_crates(texts), *counters(texts)]
    needed = {line for finding in findings for line in allowing(finding)}
    wrong = [finding for finding in findings if not allowing(finding)]
    for places in lemmas_twice(found):
        needed.update(line for place in places for line in allowing(place))
        left = [place for place in places if not allowing(place)]
        wrong += left if len(left) > 1 else []
    for line in sorted(wrong) + [f"an exception that nothing needs: {line}" for line in lines if line not in needed]:
        print(f"house: {line}")
    sys.exit(1 if wrong or set(lines) - needed else 0)


main()
