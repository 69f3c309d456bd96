"""The clauses, functions, definitions, code, files, examples and tests that the pages name are there."""

from __future__ import annotations

import os
import re
from collections.abc import Iterator
from functools import cache
from operator import itemgetter
from pathlib import Path

import pytest
from pages.texts import CRATES, EXAMPLES, LISTED, PAGES, blocks, named, rows, sources_of, text_of
from support.programs import TOP

# README's line of each crate: the crates that it names, how they are described, and what is proved of them.
LINES = [row for row in rows(text_of("README.md")) if len(row) == 3]
# The most words of such a line.
LINE_WORDS = 20
CLAIMS = re.split(r"^##+ ", text_of("docs/CLAIMS.md"), flags=re.M)[1:]
# The pages that list the worked examples.
LISTS = ["docs/GALLERY.md", "docs/EXAMPLES.md"]
# The folder of a mutant, by its mark in docs/MUTANTS.md.
MUTANTS = {"gate": "must-fail", "test": "tested-mutants", "": "more-mutants"}
# What the decisions of the past name, and its name of today.
RENAMED = {"tools/wrong-bodies": "tools/try-mutants"}


@cache
def functions_of(crate: str) -> dict[str, set[str]]:
    """The public functions of a crate by name, and by type and name, each with the labels of its clauses.

    Those of a public trait and of its impls are among them. If the crate is a program, all of its functions are.
    """
    functions: dict[str, set[str]] = {}
    is_program = (CRATES / crate / "src/main.rt").is_file()
    for path in sources_of(crate):
        owner, is_of_trait, labels = "", False, set[str]()
        for line in text_of(path).splitlines():
            if head := re.match(r"(?:impl(?:<.*?>)? (.* for )?|pub (trait) )(\w+)", line):
                owner, is_of_trait = f"{head[3]}::", bool(head[1] or head[2])
            elif line == "}":
                owner, is_of_trait = "", False
            if function := re.match(r"\s*(pub )?(?:const )?fn (\w+)", line):
                is_named = bool(function[1]) or is_of_trait or is_program
                labels = functions.setdefault(owner + function[2], set()) if is_named else set()
            # A clause without a label has the empty one.
            if clause := re.match(r"\s*ensures\*? (?:(\w+) )?\{", line):
                labels.add(clause[1] or "")
    for name in [name for name in functions if "::" in name]:
        functions.setdefault(name.split("::")[1], set()).update(functions[name])
    return functions


def is_function_or_module(crate: str, name: str) -> bool:
    """Whether a crate has a public function or a module of this name."""
    return name in functions_of(crate) or (CRATES / crate / f"src/{name}.rt").is_file()


def example_files() -> list[Path]:
    """All worked examples."""
    return [path for part in EXAMPLES for path in sorted(CRATES.glob(f"*/{part}/*.example"))]


def test_readme_has_a_line_for_each_crate() -> None:
    """The lines stand in the order of crates.txt."""
    assert [name for crates, _, _ in LINES for name in named(crates)] == list(LISTED)


@pytest.mark.parametrize("line", LINES, ids=itemgetter(0))
def test_a_line_of_readme_names_what_is_there(line: list[str]) -> None:
    """Each clause, function and module is one of the line's crate, and the line is short."""
    crates, says, proved = line
    assert 0 < len(re.sub(r"`[^`]+`", "code", says).split()) <= LINE_WORDS
    crate = named(crates)[0]
    functions = functions_of(crate)
    for part in proved.split(";"):
        called, colon, labels = part.partition(": ")
        owners = named(called) if colon else []
        assert set(owners) <= set(functions)
        clauses = set[str]().union(*(functions[name] for name in owners or functions))
        for name in named(labels if colon else part):
            assert name in clauses or not owners and is_function_or_module(crate, name), name


def test_claims_has_a_section_for_each_crate() -> None:
    """The sections stand in the order of crates.txt."""
    headings = re.findall(r"^### (`.*)$", text_of("docs/CLAIMS.md"), re.M)
    assert [name for heading in headings for name in named(heading)] == list(LISTED)


@pytest.mark.parametrize("section", CLAIMS, ids=[claims.partition("\n")[0] for claims in CLAIMS])
def test_a_claim_names_what_is_there(section: str) -> None:
    """A claim has functions, laws or modules of the crate in bold, and then labels of their clauses.

    It has no labels if each function has one clause without a label.
    """
    crates = named(section.partition("\n")[0])
    for entry in re.split(r"\n\s*\n|\n(?=- )", section) if crates else []:
        if "**" not in entry or not entry.startswith("- "):
            continue
        claim = re.match(r"- \*\*(`.+?`)\*\*(?: \((`[^()]+`)\))?: \S", re.sub(r"\s*\n\s*", " ", entry))
        assert claim, entry
        names, labels = named(claim[1]), named(claim[2] or "")
        functions = functions_of(crates[0])
        assert names
        for name in names:
            assert is_function_or_module(crates[0], name), name
            assert labels or not functions.get(name) or "" in functions[name], f"{name} has clauses with labels"
        here = set[str]().union(*(functions.get(name, set()) for name in names))
        assert set(labels) <= here


def is_defined(name: str, path: Path) -> bool:
    """Whether a definition, a record or a type of this name stands in a file, in a module with parameters too."""
    if path.suffix == ".rt":
        pattern = rf"^\s*pub (?:struct|enum|trait|type|fn|const) {re.escape(name)}\b"
    else:
        pattern = rf"^ *(?:(?:pub|abbrev|unfoldable|data|record|opaque) )+{re.escape(name)} "
    return re.search(pattern, text_of(path), re.M) is not None


SECTIONS = [
    pytest.param(heading[1], section, id=heading[1])
    for section in re.split(r"^## ", text_of("docs/MODEL.md"), flags=re.M)
    if (heading := re.match(r".*\(`(\w+)`\)", section))
]


@pytest.mark.parametrize(("crate", "section"), SECTIONS)
def test_a_definition_of_the_model_is_there(crate: str, section: str) -> None:
    """Each definition of a table stands in a file that its row names, of the crate of the heading."""
    for row in rows(section):
        names = [name for name in named(row[1]) if name.endswith((".antt", ".rt", "/"))]
        places = [CRATES / crate / (name if name.startswith("src/") else f"specs/{name}") for name in names]
        assert all(place.exists() for place in places), row
        files = [file for place in places for file in (place.rglob("*.antt") if place.is_dir() else [place])]
        for name in named(row[0]) if places else []:
            assert any(is_defined(name, file) for file in files), f"{name} in {row[1]}"


def test_code_that_the_model_quotes_is_there() -> None:
    """The quoted lines stand one after another in the file that is named before them."""
    count = 0
    for before, block in blocks(text_of("docs/MODEL.md")):
        if paths := re.findall(r"`(cam6_\w+/(?:specs|src)/[\w/]+\.\w+)`", before):
            source = [line.strip() for line in text_of(f"crates/{paths[-1]}").splitlines()]
            assert "\n".join(line.strip() for line in block) in "\n".join(source), paths[-1]
            count += 1
    assert count > 0


@pytest.mark.parametrize("page", PAGES)
def test_a_path_is_there(page: str) -> None:
    """Each path of a test, of a tool and of a crate's file that a page names is there."""
    text, renamed = text_of(page), RENAMED if page == "docs/DECISIONS.md" else {}
    named_paths = re.findall(r"(?<![\w/.-])(?:tests|tools)/[\w/.-]*\w", text)
    for path in {renamed.get(path, path) for path in named_paths}:
        assert (TOP / path).exists() or (TOP / f"{path}.rt.txt").exists() or path.endswith("/NAME"), path
    for path in set(re.findall(r"\bcam6_\w+/[\w/.-]*\w\.(?:rt|antt|py|example)\b", text)):
        assert (CRATES / path).is_file(), path


def test_each_example_is_listed() -> None:
    """The pages name each worked example, and no other. An entry of the gallery is named by the line that shows it.

    The others stand in tables whose first column is headed `File` or `Example`.
    """
    listed = set(re.findall(r"^    \./look (\w+)$", text_of("docs/GALLERY.md"), re.M)) - {"letters"}
    for page in LISTS:
        for table in re.findall(r"^\| (?:File|Example) \|.*\n\|---.*\n((?:\|.*\n)+)", text_of(page), re.M):
            listed.update(name for line in table.splitlines() for name in named(line.split("|")[1]))
    names = [path.stem for path in example_files()]
    assert len(set(names)) == len(names), "two worked examples have one name"
    assert listed == {name for name in names if not name.startswith("wrong_") or name in listed}


def test_each_example_is_played() -> None:
    """Each file of data/ is an argument of its crate's program, and nothing else stands in a folder of examples."""
    folders = sorted(CRATES.glob("*/data"))
    assert folders
    for folder in folders:
        assert (folder.parent / "src/main.rt").is_file(), folder
        assert sorted(path.name for path in folder.iterdir()) == sorted(text_of(folder.parent / "args").split()), folder
    assert {path for part in EXAMPLES for path in CRATES.glob(f"*/{part}/*")} == set(example_files())


def is_test(name: str) -> bool:
    """Whether a name is that of an example, a tool, a program that must not compile, a test of tests/, or a test in Rust."""
    if name.endswith(".example"):
        return any(path.name == name for path in example_files())
    if name.startswith("tests/programs/refused/"):
        return (TOP / f"{name}.rt.txt").is_file()
    if name.startswith(("./", "tools/")):
        return os.access(TOP / name, os.X_OK)
    module, _, function = name.partition("::")
    if name.startswith(("tests/", "clients/", "web/")):
        function = function.partition("[")[0].rpartition("::")[2]
        return (TOP / module).exists() and (not function or f"def {function}(" in text_of(module))
    path = f"cam6_try_calls/src/{module}.rt"
    return (CRATES / path).is_file() and f"\nfn {function}(" in text_of(f"crates/{path}")


def mutants() -> Iterator[tuple[str, list[str]]]:
    """The rows of docs/MUTANTS.md, each with the crate of its heading."""
    for section in re.split(r"^## ", text_of("docs/MUTANTS.md"), flags=re.M):
        heading = re.match(r"`(\w+)`", section)
        yield from ((heading[1] if heading else "", row) for row in rows(section) if len(row) == 3)


@pytest.mark.parametrize(("crate", "row"), mutants())
def test_a_mistake_has_its_mutant_and_its_test(crate: str, row: list[str]) -> None:
    """Each mutant is where the row says, and so is each test. No row is without either."""
    mistake, planted_by, tests = row
    assert planted_by != "-" or tests != "-", mistake
    for path, mark in re.findall(r"`([\w/]+)`(?: \((gate|test)\))?", planted_by):
        of, _, name = path.rpartition("/")
        assert (CRATES / (of or crate) / MUTANTS[mark] / f"{name}.edit").is_file(), path
    for name in named(tests):
        assert is_test(name), name
