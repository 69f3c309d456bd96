"""The pages say how the crates stand on one another, and the heads of the crates too; versions and decisions agree."""

from __future__ import annotations

import re
import shutil
from collections.abc import Iterable, Iterator
from dataclasses import dataclass

import pytest
from pages.texts import CRATES, LISTED, named, rows, sources_of, text_of
from support.programs import ran

ARCHITECTURE = text_of("docs/ARCHITECTURE.md")
# The steps of the hand-off table that change a word: the call of a desk or a seat, the step's function and its exchange.
STEPS = [
    ("put", "put", "swap::<Putting>"),
    ("try_take", "take", "compare_exchange::<Taking>"),
    ("put_back", "give_back", "swap::<GivingBack>"),
    ("put_done", "give_done", "swap::<GivingDone>"),
    ("try_collect", "collect", "compare_exchange::<Collecting>"),
]
# The sources of cam6_handoff by their names, without comments.
HANDOFF = {path.stem: re.sub(r"//.*", "", text_of(path)) for path in sources_of("cam6_handoff")}
# A function: its indentation, its name, and what is between the name and its end.
FUNCTION = re.compile(r"^( *)(?:pub(?:\(\w+\))? )?fn (\w+)(.*?)^\1}", re.M | re.S)
# What changes a word. The words of `permits` are no words of the table.
CHANGE = re.compile(r"(?:\.|::)((?:swap|store|compare_exchange|fetch_)\w*(?:::<[^()]*>)?)\(")
OTHER_WORDS = "permits"
# Changes under which a step isn't one exchange: what is wrong then, the source, and the old text and the new one.
WRONG = [
    ("changes", "steps", "table.swap::<GivingBack>(", "table.store::<GivingBack>("),
    ("changes", "seats", "self.taken = Some(row);", "self.table.shared.store(&mut self.seat, row, 1);"),
    ("changes", "permits", "self.taken.store(0, ", "self.table.shared.store(0, "),
    ("makes", "desks", "Some(reply)\n", "steps::collect(&self.table.shared, &mut self.seat, self.row);\n"),
    ("loops", "steps", "let found = table.swap", "for _ in 0..2 {}\n    let found = table.swap"),
    ("steps::collect calls itself", "steps", "MINE) != DONE {", "MINE) != DONE {\n collect(table, token, row);"),
    ("desks::try_collect calls itself", "desks", "return None;", "return self.try_collect();"),
    ("desks::try_collect calls itself", "desks", "return None;", "return Some(self.wait(rt));"),
]
COUNTS = (
    "The {programs} programs stand on {code} crates with code, in layers. "
    "{laws} crates have definitions and laws alone, and {tests} read"
)
# What `--version` prints after a program's name: the version, and the logic of the kit that proves the program.
VERSION = r"(\S+) \(Rattle logic (\w+)\)"
# The version that stands first in CHANGELOG, and the logic of the kit that README names.
NEWEST = re.findall(r"^## Version (\S+)$", text_of("CHANGELOG.md"), re.M)[0]
KIT = re.findall(r"`rattle-kit-\w+ logic (\w+)`", text_of("README.md"))[0]


@dataclass(frozen=True)
class Function:
    """A function: its source, the type in whose `impl` it is if any, its name, and what is between the name and its end."""

    source: str
    owner: str
    name: str
    body: str

    def __str__(self) -> str:
        return f"{self.source}::{self.name}"

    def calls(self, other: Function) -> int:
        """How often it may call the other one. A call by a dot may be one of any method of that name."""
        ways = [rf"\b{other.source}::", r"(?<![\w.:])"]
        if other.owner:
            ways = [r"\.", rf"\b{other.owner}::", *([r"\bSelf::"] if self.owner == other.owner else [])]
        return len(re.findall(rf"(?:{'|'.join(ways)}){other.name}(?:::<[^()]*>)?\(", self.body))


def functions_of(sources: dict[str, str]) -> Iterator[Function]:
    """The functions of these sources."""
    for source, code in sources.items():
        for part in re.split(r"^(?=impl\b)", code, flags=re.M):
            owner = re.match(r"impl(?:<.*?>)? (?:.* for )?(\w+)", part)
            for indentation, name, body in FUNCTION.findall(part):
                yield Function(source, owner[1] if owner and indentation else "", name, body)


def reached(function: Function, every: Iterable[Function]) -> set[Function]:
    """The functions that it calls, and those that these call."""
    found, left = set[Function](), [function]
    while left:
        last = left.pop()
        further = {it for it in every if last.calls(it)} - found
        found |= further
        left += further
    return found


def faults_in(sources: dict[str, str]) -> list[str]:
    """What is wrong if the steps of the hand-off aren't one exchange each, which one call makes once."""
    every = list(functions_of(sources))
    others = {OTHER_WORDS} if "shared" not in sources[OTHER_WORDS] else set()
    changes = sorted(found for it in every if it.source not in others for found in CHANGE.findall(it.body))
    steps = {it for it in every if it.source == "steps"}
    faults = []
    if changes != sorted(exchange for _, _, exchange in STEPS):
        faults.append(f"the changes are {', '.join(changes)}")
    for call, step, exchange in STEPS:
        makers = [it for it in every if f".{exchange}(" in it.body]
        callers = {it: it.calls(maker) for maker in makers for it in every if it.calls(maker)}
        if [it.name for it in makers] != [step] or [(it.name, often) for it, often in callers.items()] != [(call, 1)]:
            faults.append(f"another function than `{call}` makes {step}, or makes it twice")
        faults += [f"{it} loops" for it in [*makers, *callers] if re.search(r"\b(?:for|while|loop)\b", it.body)]
        steps.update(callers)
    steps = steps.union(*(reached(it, every) for it in steps))
    return faults + [f"{it} calls itself" for it in steps if it in reached(it, every)]


def test_a_step_of_the_handoff_is_one_exchange() -> None:
    """No proof counts exchanges. A step is one, in one function, and one call makes it. Neither of them tries it again."""
    assert faults_in(HANDOFF) == []


@pytest.mark.parametrize(("fault", "source", "old", "new"), WRONG)
def test_a_step_that_is_not_one_exchange_is_found(fault: str, source: str, old: str, new: str) -> None:
    """Another word is changed, or a word twice, or the step is tried again by a loop or a call of itself."""
    assert HANDOFF[source].count(old) == 1
    assert any(fault in found for found in faults_in({**HANDOFF, source: HANDOFF[source].replace(old, new)}))


def test_each_crate_is_named() -> None:
    """ARCHITECTURE has a row for each crate. It names each library of the kit, and README says that it is trusted."""
    trusted = text_of("README.md").split("## What is trusted")[-1]
    assert [name for name in LISTED if f"\n| `{name}` |" not in ARCHITECTURE] == []
    libraries = {used for uses in LISTED.values() for used in uses} - set(LISTED)
    assert [name for name in libraries if f"`{name}`" not in trusted or f"`{name}`" not in ARCHITECTURE] == []


def test_the_layers_are_those_of_crates_txt() -> None:
    """ARCHITECTURE has them with their crates in order, ten words for each at most, and says how many crates there are."""
    counts = {"programs": 0, "code": 0, "laws": 0, "tests": 0}
    for layer in re.split(r"^# ", text_of("crates.txt"), flags=re.M)[1:]:
        heading, *lines = layer.splitlines()
        section = ARCHITECTURE.partition(f"### {heading.capitalize()}\n")[2].partition("\n#")[0]
        found = list(rows(section))
        names = [f"`{line.partition(':')[0].split()[0]}`" for line in lines if ":" in line]
        assert names and [row[0] for row in found] == names
        for name, does in found:
            assert 0 < len(does.split()) <= 10, name
            kind = "programs" if "the program `" in does else "laws" if "no code" in does else "code"
            counts["tests" if heading == "tests" else kind] += 1
    assert COUNTS.format(**counts) in " ".join(ARCHITECTURE.split())


def paragraph_of(head: str, opening: str) -> str:
    """The paragraph of a crate's head that begins with these words; nothing if there isn't just one."""
    found = [part for part in re.split(r"^//!\n", head, flags=re.M) if part.startswith(f"//! {opening}: ")]
    return re.sub(r"^//! ?", "", found[0], flags=re.M) if len(found) == 1 else ""


def below(crate: str) -> set[str]:
    """All crates and libraries that a crate stands on."""
    found = set(LISTED.get(crate, []))
    return found.union(*map(below, found))


@pytest.mark.parametrize("crate", LISTED)
def test_a_head_is_true(crate: str) -> None:
    """A head names the crates of its line in crates.txt, after 'Stands on', and all its modules, after 'Read next'.

    If it says 'what they stand on', the crates below those that it names need no names.
    """
    roots = [CRATES / crate / "src" / name for name in ("lib.rt", "main.rt")]
    source = "".join(text_of(root) for root in roots if root.is_file())
    head = "".join(re.findall(r"^//!.*\n", source, re.M))
    paragraph, wanted = paragraph_of(head, "Stands on"), set(LISTED[crate])
    stated = set(named(paragraph))
    stated_and_below = (
        stated.union(*map(below, stated)) if "what they stand on" in paragraph.replace("\n", " ") else stated
    )
    assert stated <= wanted <= stated_and_below
    every = set(LISTED).union(*LISTED.values())
    listed = {name for name in named(paragraph_of(head, "Read next")) if re.fullmatch(r"[a-z_]\w*", name)} - every
    assert listed == set(re.findall(r"^(?:pub(?:\(\w+\))? )?mod (\w+)", source, re.M))


def test_the_decisions_are_indexed() -> None:
    """DECISIONS has its entries in order, and its index has the number of each, once, and no other."""
    index, _, entries = text_of("docs/DECISIONS.md").partition("\n## Entries\n")
    numbers = [int(number) for number in re.findall(r"^(\d+)\. ", entries, re.M)]
    assert numbers == sorted(set(numbers)) != []
    lists = re.split(r"^- |^#", index.partition("\n## Index by topic\n")[2], flags=re.M)
    assert sorted(int(number) for part in lists for number in re.findall(r"\d+", part.partition("**: ")[2])) == numbers


def test_the_kit_has_the_logic_of_the_one_that_readme_names() -> None:
    """Kits of one logic prove the same."""
    rt = shutil.which("rt")
    assert rt, "there is no rt on the PATH"
    assert ran([rt, "version"]).output.decode().split()[-1] == KIT


def test_the_sources_have_one_version() -> None:
    """It is the one that stands first in CHANGELOG, with the logic of README's kit."""
    text = "".join(text_of(path) for crate in LISTED for path in sources_of(crate))
    assert set(re.findall(rf'const VERSION: &str = "{VERSION}";', text)) == {(NEWEST, KIT)}


def test_the_program_tells_its_version(cam6: str) -> None:
    """It is the one that stands first in CHANGELOG."""
    found = re.fullmatch(rf"cam6 {VERSION}\n", ran([cam6, "--version"]).output.decode())
    assert found and found[1] == NEWEST
