"""Builders of rules, each against the oracle's reading of its text, by the hundred."""

from __future__ import annotations

import itertools
import random
from collections.abc import Callable, Sequence
from typing import Any

import by_oracle
import pytest
from oracle.wirings import FIRST_PLANE

from cam6 import rules
from cam6.rules import RuleError

EIGHT = ["NORTH", "SOUTH", "WEST", "EAST", "N.WEST", "N.EAST", "S.WEST", "S.EAST"]
Block = Sequence[int]
Build = Callable[..., rules.Rule]


def block_after(rule: rules.Rule, states: Block, grid: str = "EVEN", phase: int = 0) -> list[int]:
    """The states of a block, in reading order, after a step on a torus that has but this block."""
    torus, first = by_oracle.Torus(2), FIRST_PLANE[rule.half]
    for level in (0, 1):
        torus.planes[first + level] = [bytes(state >> level & 1 for state in states[at : at + 2]) for at in (0, 2)]
    torus.step(rule, grid, phase)
    lower, upper = (b"".join(torus.planes[first + level]) for level in (0, 1))
    return [low + 2 * high for low, high in zip(lower, upper)]


def some(source: random.Random, most: int) -> list[int]:
    """Some of the numbers from 0 to `most`."""
    return [k for k in range(most + 1) if source.random() < 0.4]


def text_of(counts: list[int]) -> str:
    """Counts as a notation has them."""
    return "".join(map(str, counts))


def check_counts(rule: rules.Rule, names: list[str], want: Callable[[int, int], int]) -> None:
    """Fails unless a rule leaves what is wanted for each centre and count of neighbours."""
    for bits, left in by_oracle.images(rule, ["CENTER", *names]).items():
        assert left == (want(bits[0], sum(bits[1:])), 0), (rule.text, bits)


def test_life() -> None:
    source = random.Random(7)
    for k in range(120):
        born, stays = some(source, 8), some(source, 8)
        b, s = text_of(born), text_of(stays)
        rule = rules.life([f"B{b}/S{s}", f"{s}/{b}", f"b{b}s{s}"][k % 3])
        check_counts(rule, EIGHT, lambda centre, count: int(count in (stays if centre else born)))


def test_life_of_four_neighbours() -> None:
    source = random.Random(7)
    for _ in range(60):
        born, stays = some(source, 4), some(source, 4)
        rule = rules.life(f"B{text_of(born)}/S{text_of(stays)}V", half="B")
        assert rule.hood == "N/VONN"
        check_counts(rule, EIGHT[:4], lambda centre, count: int(count in (stays if centre else born)))


def test_totalistic() -> None:
    source = random.Random(7)
    for k in range(120):
        neighbours = 8 if k % 2 else 4
        counts = some(source, neighbours + 1)
        rule = rules.totalistic("M" + text_of(counts) if k % 3 else counts, neighbours=neighbours)
        check_counts(rule, EIGHT[:neighbours], lambda centre, count: int(centre + count in counts))


def test_generations() -> None:
    source = random.Random(7)
    for k in range(100):
        born, stays = some(source, 8), some(source, 8)
        b, s = text_of(born), text_of(stays)
        rule = rules.generations(f"B{b}/S{s}/C3" if k % 2 else f"{s}/{b}/3")
        for bits, new in by_oracle.images(rule, ["CENTER", "CENTER'", *EIGHT]).items():
            alive, dying, count = bits[0], bits[1], sum(bits[2:])
            want = 0 if dying else (1 if count in stays else 2) if alive else int(count in born)
            assert new[0] + 2 * new[1] == want, (rule.text, bits)


def test_generations_of_two_states() -> None:
    assert rules.generations("B3/S23/C2").text == rules.life("B3/S23").text


def test_a_rule_of_counts_on_a_torus() -> None:
    torus = by_oracle.Torus(8)
    torus.planes[0][0] = bytes([1, 1, 0, 0, 0, 0, 0, 1])
    torus.step(rules.life("B3/S23"))
    assert [(x, y) for y, row in enumerate(torus.planes[0]) for x in range(8) if row[x]] == [(0, 0), (0, 1), (0, 7)]


@pytest.mark.parametrize(
    ("build", "notations"),
    [
        (rules.life, ["B9/S23", "Life", "B3/S23/C3", "B5/S2V", 23]),
        (rules.generations, ["B2/S/C4", "B2/S", None]),
        (rules.totalistic, ["4x", [10], [True], 4]),
        (rules.margolus, ["", "MS,D0;1", "M" + "0," * 15 + "16", "life", [0] * 15, [0] * 15 + [16]]),
        (rules.margolus, [[True] * 16, [0.5] * 16, 7]),
        (lambda neighbours: rules.outer_totalistic([3], [2], neighbours=neighbours), [6]),
        (lambda states: rules.blocks(lambda block: block, states), [1, 5]),
        (lambda states: rules.blocks(lambda block: block, states, edge=True), [4]),
        (rules.blocks, [lambda block: (0, 0, 0)]),
        (rules.margolus_table, ["", "neighborhood:Margolus\n1,0,0,3 : 0,0,0,0"]),
        (rules.margolus_table, ["neighborhood:Moore\n1,0,0,0 : 0,0,0,1"]),
        (rules.table, [lambda cw, north: cw, lambda middle: middle, lambda north: 2, lambda north: (1, 1, 1)]),
        (rules.table, [lambda north: 0.5]),
        (lambda hood: rules.table(lambda north: north, hood=hood), ["N/ALL"]),
    ],
)
def test_what_is_no_rule(build: Build, notations: list[Any]) -> None:
    for notation in notations:
        with pytest.raises(RuleError):
            print(build(notation), "comes of", notation)


def number_of(block: Block) -> int:
    """The number of a block of two states."""
    return block[0] + 2 * block[1] + 4 * block[2] + 8 * block[3]


def block_of(number: int) -> list[int]:
    """The four cells of a block, by the bits of its number."""
    return [number >> place & 1 for place in range(4)]


def check_blocks(source: random.Random, rule: rules.Rule, states: int, after: Callable[[Block], Block]) -> None:
    """Fails unless a rule makes of each block what is wanted."""
    for block in itertools.product(range(states), repeat=4):
        # On the odd grid the block of a torus of side 2 begins at its lower right cell.
        grid, way = source.choice([("EVEN", 1), ("ODD", -1)])
        assert block_after(rule, block[::way], grid)[::way] == list(after(block)), (rule.text, block)


def test_random_blocks() -> None:
    source = random.Random(11)
    for k in range(300):
        numbers = [source.randrange(16) for _ in range(16)] if k % 3 == 0 else source.sample(range(16), 16)
        ways: list[Any] = ["MS,D" + ";".join(map(str, numbers)), "M" + ",".join(map(str, numbers)), numbers]
        rule = rules.margolus(ways[k % 3], half="AB"[k % 2])
        check_blocks(source, rule, 2, lambda block: block_of(numbers[number_of(block)]))
        assert rules.is_reversible(rule) == (len(set(numbers)) == 16)


@pytest.mark.parametrize(("name", "number"), [("bbm", 8), ("critters", 14), ("hpp", 8), ("swap", 8), ("tron", 1)])
def test_rules_by_name(name: str, number: int) -> None:
    rule = rules.margolus(name)
    assert block_after(rule, [1, 0, 0, 0]) == block_of(number)
    assert rules.is_reversible(rule)
    assert (rule.hood, len(rule.text), rule.cycle) == ("N/MARG", 83, (("EVEN", 0), ("ODD", 0)))


def test_edges() -> None:
    source = random.Random(11)
    for _ in range(12):
        numbers = [source.randrange(16) for _ in range(16)]
        rule = rules.margolus(numbers, edge=True)
        check_blocks(source, rule, 4, lambda block: block if max(block) > 1 else block_of(numbers[number_of(block)]))


def some_blocks(source: random.Random, states: int) -> dict[tuple[int, ...], tuple[int, ...]]:
    """A block for each block of so many states."""
    every = itertools.product(range(states), repeat=4)
    return {block: tuple(source.randrange(states) for _ in range(4)) for block in every}


@pytest.mark.parametrize(("states", "is_edge"), [(3, False), (3, True), (4, False)])
def test_blocks_of_more_states(states: int, is_edge: bool) -> None:
    source = random.Random(11)
    for _ in range(8):
        after = {block: block for block in itertools.product(range(4), repeat=4)} | some_blocks(source, states)
        rule = rules.blocks(lambda block: after[block], states, edge=is_edge)
        check_blocks(source, rule, 4 if is_edge else states, lambda block: after[tuple(block)])


TABLE = """n_states:3
neighborhood:Margolus
symmetries:rotate4reflect
var a={0,1,2}
1,a,0,0 : 0,a,0,1
2,2,0,0 : 0,0,2,2
"""


@pytest.mark.parametrize(
    ("block", "want"),
    [
        ([1, 0, 0, 0], [0, 0, 0, 1]),
        ([0, 0, 0, 1], [1, 0, 0, 0]),
        # Of the places that fit, the first symmetry counts: (1, a, 0, 0) as it stands.
        ([1, 2, 0, 0], [0, 2, 0, 1]),
        ([2, 2, 0, 0], [0, 0, 2, 2]),
        ([2, 0, 0, 2], [2, 0, 0, 2]),
    ],
)
def test_a_table(block: list[int], want: list[int]) -> None:
    assert block_after(rules.margolus_table(TABLE), block) == want


def test_a_table_in_comments() -> None:
    commented = "".join(f"# {line}\n" for line in TABLE.splitlines())
    assert rules.margolus_table(commented).text == rules.margolus_table(TABLE).text


NAMES = {
    "N/MOORE": "center center_ north south west east n_west n_east s_west s_east other other_",
    "N/VONN": "center center_ north south west east north_ south_ west_ east_ other other_",
    "N/MARG-HV": "center center_ cw ccw opp cw_ ccw_ opp_ horz vert phase phase_",
    "N/MARG-PH": "center center_ cw ccw opp cw_ ccw_ opp_ phase phase_ horz vert",
}
SIGNS = {
    "other": "&CENTER",
    "other_": "&CENTER'",
    "phase": "&PHASE",
    "phase_": "&PHASE'",
    "horz": "&HORZ",
    "vert": "&VERT",
}
OWN = {"N/MARG-HV": ("HORZ", "VERT"), "N/MARG-PH": ("PHASE", "PHASE'")}


def named(parameters: Sequence[str], function: Callable[..., Any]) -> Callable[..., Any]:
    """A function with these parameters that returns what another one returns."""
    found: dict[str, Any] = {"function": function}
    exec(f"def table({', '.join(parameters)}): return function({', '.join(parameters)})", found)
    made: Callable[..., Any] = found["table"]
    return made


def function_of(parameters: Sequence[str], values: Sequence[Any]) -> Callable[..., Any]:
    """A function with these parameters that returns these values."""
    return named(parameters, lambda *seen: values[sum(bit << k for k, bit in enumerate(seen))])


def in_text(parameter: str, rule: rules.Rule) -> str:
    """The name of a parameter in a rule's text."""
    own = parameter.rstrip("_").upper().replace("_", ".") + "'" * parameter.endswith("_")
    return own if own in OWN.get(rule.hood, ()) or parameter not in SIGNS else SIGNS[parameter]


def checked(function: Callable[..., Any], parameters: Sequence[str]) -> rules.Rule:
    """The rule of a function. Fails unless the rule leaves what the function returns."""
    rule = rules.table(function)
    assert by_oracle.size_of(rule) == rules._size(" ".join(rule.text.split()[2:-1]))
    names = [in_text(parameter, rule) for parameter in parameters]
    for arguments, left in by_oracle.images(rule, names).items():
        want, centre = function(*arguments), dict(zip(names, arguments)).get("CENTER'", 0)
        assert left == (want if isinstance(want, tuple) else (int(want), centre)), (rule.text, arguments)
    return rule


def test_random_functions() -> None:
    source = random.Random(13)
    for k in range(200):
        hood = source.choice(sorted(NAMES))
        parameters = source.sample(NAMES[hood].split(), source.choice([1, 2, 3, 4, 5, 6]))
        count = 1 << len(parameters)
        values: list[Any] = [source.randrange(2) for _ in range(count)]
        if k % 3 == 0:
            values = [(source.randrange(2), source.randrange(2)) for _ in range(count)]
        if k % 5 == 0:
            values = [values[bin(address).count("1")] for address in range(count)]
        checked(function_of(parameters, values), parameters)


def test_ten_neighbours_without_an_order() -> None:
    source, parameters = random.Random(13), NAMES["N/MOORE"].split()[:10]
    rule = checked(function_of(parameters, [source.randrange(2) for _ in range(1024)]), parameters)
    assert by_oracle.size_of(rule) < 2100


@pytest.mark.parametrize(
    "function",
    [
        pytest.param(lambda *seen: sum(seen) % 2, id="parity"),
        pytest.param(lambda *seen: (int(sum(seen[2:6]) > sum(seen[6:10])), seen[0] ^ seen[10] & seen[11]), id="both"),
    ],
)
def test_twelve_neighbours_with_an_order(function: Callable[..., Any]) -> None:
    parameters = NAMES["N/VONN"].split()
    checked(named(parameters, function), parameters)


def test_what_does_not_fit() -> None:
    source, parameters = random.Random(13), NAMES["N/MOORE"].split()[:11]
    with pytest.raises(RuleError, match="doesn't fit: it has size"):
        rules.table(function_of(parameters, [source.randrange(2) for _ in range(2048)]))


def test_the_counting_of_neighbours_is_found() -> None:
    """Life, as its book has it."""
    parameters = NAMES["N/MOORE"].replace("center_ ", "").split()[:9]
    life = named(parameters, lambda center, *around: sum(around) == 3 or bool(center) and sum(around) == 2)
    life.__name__ = "life"
    rule = checked(life, parameters)
    assert len(rule.text) < 160
    assert (rule.name, rule.hood, rule.minor) == ("LIFE", "N/MOORE", "&/CENTERS")


@pytest.mark.parametrize(
    ("function", "field", "want"),
    [
        (lambda center, north_: center ^ north_, "hood", "N/VONN"),
        (lambda opp: opp, "text", ": R OPP >PLN0 ;"),
        (lambda cw, phase: cw & phase, "minor", "&/PHASES"),
        (lambda cw, horz: cw & horz, "minor", "&/HV"),
        (lambda cw, other: cw & other, "minor", "&/CENTERS"),
        (lambda cw, horz, phase: cw & horz ^ phase, "cycle", (("EVEN", 0), ("ODD", 0))),
        (lambda: 1, "text", ": R 1 >PLN0 ;"),
    ],
)
def test_the_wiring_of_a_function(function: Callable[..., Any], field: str, want: Any) -> None:
    assert getattr(rules.table(function), field) == want


def block_rule(text: str, minor: str = "&/PHASES") -> rules.Rule:
    """A rule of blocks by its text."""
    return rules.Rule(text, "N/MARG", minor)


@pytest.mark.parametrize(
    ("rule", "want"),
    [
        (rules.life("B3/S23"), rules.Cause("hood")),
        (block_rule(": R CW &CENTER XOR >PLN0 ;", "&/CENTERS"), rules.Cause("centres")),
        (block_rule(": R 0 >PLN0 ;"), rules.Cause("meeting", 0, (0, 1))),
        (block_rule(": R &PHASE IF CENTER ELSE CW THEN &PHASE' 0= AND CENTER' XOR >PLN1 ;"), None),
        (block_rule(": R &PHASE' IF 0 ELSE CENTER THEN >PLN0 ;"), rules.Cause("meeting", 2, (0, 1))),
    ],
)
def test_why_a_rule_cannot_be_undone(rule: rules.Rule, want: Any) -> None:
    """By hand."""
    assert rules.cause(rule) == want


@pytest.mark.parametrize(
    "text",
    [
        "",
        ": R",
        ": R NORTH >PLN0 ;",
        ": R 1 >PLN2 ;",
        ": R + >PLN0 ;",
        ": R 2 { 0 } >PLN0 ;",
        ": DUP ;",
        "( x",
        ": R ² ;",
    ]
    + [f": R {'9' * 5000} ;"],
    ids=lambda text: f"{text:.20}",
)
def test_texts_that_are_none(text: str) -> None:
    with pytest.raises(RuleError):
        rules.is_reversible(block_rule(text))


def test_comments_and_definitions() -> None:
    text = ": S4 ( of the block ) CENTER CW + CCW + OPP + ; : NC CENTER 0= ; : NO OPP 0= ;"
    assert rules.is_reversible(block_rule(text + " : C S4 { NC NC CENTER NO NC } >PLN0 ;"))


@pytest.mark.parametrize(
    "given",
    [{"hood": "MOORE"}, {"minor": "CENTERS"}, {"half": "C"}, {"text": " " * 8193}, {"text": b""}]
    + [{"cycle": []}, {"cycle": [("EVEN", 0)] * 17}, {"cycle": [("EVEN", 4)]}, {"cycle": [("UP", 0)]}]
    + [{"cycle": [("EVEN", True)]}, {"cycle": ["A"]}],
    ids=lambda given: f"{given!r:.40}",
)
def test_fields_that_are_none(given: dict[str, Any]) -> None:
    fields: dict[str, Any] = {"text": ": R ;"}
    with pytest.raises(RuleError):
        print(rules.Rule(**{**fields, **given}))


def test_entries_of_a_rule() -> None:
    entries = rules.margolus("bbm", half="B").entries("BALLS")
    assert entries[1] == {"a": "-", "b": "BALLS", "grid": "ODD", "phase": 0}


def kept(rule: rules.Rule) -> list[dict[str, Any]]:
    """The commands that keep a rule as R, in a cycle of its own."""
    wiring = {"half": rule.half, "hood": rule.hood, "minor": rule.minor}
    return [{"do": "rule", "name": "R", **wiring, "text": rule.text}, {"do": "cycle", "entries": rule.entries("R")}]


def tried() -> list[rules.Rule]:
    """Rules of all builders, of which some can be undone."""
    source = random.Random(17)
    made = [rules.life("B3/S23"), rules.generations("/2/3"), rules.totalistic("46789")]
    for k in range(60):
        numbers = source.sample(range(16), 16) if k % 2 else [source.randrange(16) for _ in range(16)]
        made.append(rules.margolus(numbers, half="AB"[k % 2], edge=k % 3 == 0))
    return made + [rules.blocks(some_blocks(source, 4).__getitem__) for _ in range(6)]


def test_the_program_names_the_same_cause(cam6: str) -> None:
    """It takes the texts, and undoes the rules that can be undone."""
    for rule in tried():
        replies, cause = by_oracle.replies_of(cam6, [*kept(rule), {"do": "back", "n": 0}]), rules.cause(rule)
        assert replies[:2] == [{"ok": "rule"}, {"ok": "cycle"}]
        if cause is None:
            assert replies[2] == {"ok": "back", "position": 0}
            continue
        assert (replies[2]["fault"], replies[2]["cause"]) == (64, cause.cause)
        if cause.states is not None:
            assert (replies[2]["phase"], tuple(replies[2]["states"])) == (cause.phase, cause.states)


@pytest.mark.parametrize("which", ["blocks", "life", "generations"])
def test_steps_of_the_program(which: str, cam6: str) -> None:
    """Two steps over random cells, against the torus of the oracle."""
    source = random.Random(19)
    made = {"life": rules.life("B36/S23"), "generations": rules.generations("B2/S/C3")}
    rule = made.get(which) or rules.margolus(source.sample(range(16), 16))
    torus, commands = by_oracle.Torus(128), list[dict[str, Any]]()
    for y in range(128):
        torus.planes[0][y] = bytes(source.randrange(2) for _ in range(128))
        commands.append({"do": "set", "plane": 0, "row": y, "bits": torus.digits(0, y)})
    commands += [*kept(rule), {"do": "run", "n": 2}]
    replies = by_oracle.replies_of(cam6, [*commands, *({"do": "plane", "plane": plane} for plane in (0, 1))])
    for grid, phase in (rule.cycle * 2)[:2]:
        torus.step(rule, grid, phase)
    for plane, reply in enumerate(replies[-2:]):
        assert reply["rows"] == [torus.digits(plane, y) for y in range(128)]
