"""Texts of rules, as strategies of hypothesis: texts that may be rules, rules that can be undone, and broken ones.

These strategies don't know which texts are rules. The oracle judges each text.
"""

from __future__ import annotations

from examples.named_rules import RULES
from hypothesis import strategies as st
from oracle.forth import OUTPUTS, RESERVED
from oracle.wirings import BLOCKS, HOODS, MINORS, SEEN_BY_BLOCKS, names_of, reads_cells

Tokens = list[str]
HALVES = st.sampled_from("AB")
EMPTY: Tokens = []
ONES: st.SearchStrategy[Tokens] = st.sampled_from([["0="], ["DUP", "XOR"], ["1", "AND"], ["DUP", "AND", "0="], EMPTY])
TWOS: st.SearchStrategy[Tokens] = st.sampled_from(
    [["+"], ["XOR"], ["AND"], ["OR"], ["*"], ["="], ["<"], [">"], ["SWAP", "-", "DROP", "1"], ["-"], ["DROP"]]
)
# Bodies that nothing may do, or that do nothing.
UNUSED: st.SearchStrategy[Tokens] = st.sampled_from([["DROP", "{", "}", "ROT"], EMPTY])
NUMBERS = st.sampled_from(["0", "1", "2", "3", "007", "12", "300", "65535"])
# Names that can be defined, though they look like other words.
NAMES = "R S T 8SUM if dup x) () :) ;; 0== -1 +1 PLN0 >PLN9 N/VONN {} é ١".split()
# What stands between some tokens.
SPACES = ["  ", "\t", "\r\n", "\r ", " \n\t", "( ) ", "( a ) ", "( : R ; ) ", "( ( IF ) ", "( {\n} ;) ", " (  x\t) "]
ALL_TOKENS = [*sorted(RESERVED), *NAMES, *"65536 99999999999999999999 FOO - 2. ((".split()]
ALL_TOKENS += ["0" * 30 + "7", "1\v2", "\u00a0", "a\u2028b", "\x00", "65535", "70000", "0"]


def outputs_of(half: str) -> list[str]:
    """The words that write planes of a half."""
    return [word for word, (of, _) in OUTPUTS.items() if of == half]


def values(
    seen: list[str], ones: st.SearchStrategy[Tokens] = ONES, twos: st.SearchStrategy[Tokens] = TWOS
) -> st.SearchStrategy[Tokens]:
    """Draws words that leave one value, if they don't stop. `ones` change a value, `twos` make one of two."""
    leaves = (st.sampled_from(seen) | NUMBERS).map(lambda token: [token])
    sums = st.lists(st.sampled_from(seen), min_size=1, max_size=4)

    def larger(inner: st.SearchStrategy[Tokens]) -> st.SearchStrategy[Tokens]:
        """Draws longer words that leave one value, made of shorter ones that do."""
        two, three = st.tuples(inner, inner), st.tuples(inner, inner, inner)
        return st.one_of(
            st.tuples(inner, ones).map(lambda p: [*p[0], *p[1]]),
            st.tuples(two, twos).map(lambda p: [*p[0][0], *p[0][1], *p[1]]),
            st.tuples(inner, twos).map(lambda p: [*p[0], "DUP", *p[1]]),
            st.tuples(two, twos).map(lambda p: [*p[0][0], *p[0][1], "SWAP", *p[1]]),
            st.tuples(two, twos, twos).map(lambda p: [*p[0][0], *p[0][1], "OVER", *p[1], *p[2]]),
            st.tuples(three, twos, twos).map(lambda p: [*p[0][0], *p[0][1], *p[0][2], "ROT", *p[1], *p[2]]),
            three.map(lambda p: [*p[0], "IF", *p[1], "ELSE", *p[2], "THEN"]),
            st.tuples(two, ones).map(lambda p: [*p[0][0], *p[0][1], "IF", *p[1], "THEN"]),
            st.tuples(inner, ones).map(lambda p: [*p[0], "DUP", "1", "AND", "{", *(p[1][:1] or ["0="]), "0=", "}"]),
            st.tuples(sums, st.lists(leaves, min_size=1, max_size=6)).map(lambda parts: case_by_sum(*parts)),
        )

    return st.recursive(leaves, larger, max_leaves=5)


def case_by_sum(seen: Tokens, words: list[Tokens]) -> Tokens:
    """Words of a case that picks one of the words by the sum of what is seen. There may be too few words for that
    sum."""
    tokens = [seen[0], *(token for name in seen[1:] for token in (name, "+"))]
    return [*tokens, "{", *(word for [word] in words), "}"]


@st.composite
def writes(draw: st.DrawFn, half: str, value: st.SearchStrategy[Tokens], seen: list[str]) -> Tokens:
    """Words that write a plane of a half, or both, maybe on a condition."""
    first, second = (draw(st.sampled_from(outputs_of(half))) for _ in range(2))
    form, a = draw(st.integers(0, 4)), draw(value)
    if form == 0:
        return [*a, first]
    if form == 1:
        return [*a, "DUP", first, second]
    if form == 2:
        return [*a, *draw(value), draw(st.sampled_from(seen)), "{", first, second, "}"]
    other = ["ELSE", *draw(value), second] if form == 3 else []
    return [*a, "IF", *draw(value), first, *other, "THEN"]


@st.composite
def rule_tokens(draw: st.DrawFn, half: str, hood: str, minor: str) -> Tokens:
    """Some definitions, and the rule. It looks at few neighbours, so that it is soon tried at all addresses."""
    seen = draw(st.lists(st.sampled_from(names_of(hood, minor)), min_size=1, max_size=4, unique=True))
    tokens: Tokens = []
    names = draw(st.lists(st.sampled_from(NAMES), min_size=1, max_size=4, unique=True))
    ones, twos = ONES, TWOS
    for name in names[1:]:
        # It leaves a value, changes one, makes one of two, or is never used.
        kind = draw(st.integers(0, 3))
        tokens += [":", name, *draw([values(seen, ones, twos), ones, twos, UNUSED][kind]), ";"]
        seen = [*seen, name] if kind == 0 else seen
        ones = ones | st.just([name]) if kind == 1 else ones
        twos = twos | st.just([name]) if kind == 2 else twos
    bodies = draw(st.lists(writes(half, values(seen, ones, twos), seen), min_size=1, max_size=3))
    left = draw(st.sampled_from([EMPTY, EMPTY, EMPTY, ["1", "2"]]))
    return [*tokens, ":", names[0], *(token for body in bodies for token in body), *left, ";"]


@st.composite
def block_tokens(draw: st.DrawFn, half: str, hood: str, minor: str) -> Tokens:
    """A rule of blocks that can be undone: the planes change places and turn, or one of them is changed by what the other
    one shows."""
    low, high = outputs_of(half)[:2]
    turns = st.sampled_from(["CENTER", "CW", "OPP", "CCW"])
    others = st.sampled_from([name for name in names_of(hood, minor) if not reads_cells(name)])
    a, b, other, another = draw(turns), draw(turns), draw(others), draw(others)
    if draw(st.integers(0, 3)) == 0:
        named = draw(st.sampled_from([text for of, place, _, text in RULES.values() if of == half and place in BLOCKS]))
        names = names_of(hood, minor)
        return [token if token in names else token.lstrip("&") for token in named.split()]
    forms = [
        [a, low],
        [a, low, f"{b}'", high],
        [f"{a}'", low, b, high],
        [a, "0=", low, f"{b}'", other, "XOR", high],
        [f"{a}'", low, b, other, "XOR", high],
        ["CENTER'", *draw(values(["CENTER", "CW", "OPP", other])), "1", "AND", "XOR", high],
        ["CENTER", *draw(values(["CENTER'", "CW'", another])), "1", "AND", "XOR", low],
        [other, "IF", a, "ELSE", b, "THEN", low],
        [a, other, "XOR", another, "XOR", low],
        [other, "{", a, b, "}", low, f"{a}'", f"{b}'", other, "IF", "SWAP", "THEN", high],
    ]
    return [":", "R", *draw(st.sampled_from(forms)), ";"]


@st.composite
def broken_tokens(draw: st.DrawFn, half: str, hood: str, minor: str) -> Tokens:
    """The tokens of a rule with a few changes."""
    tokens = [*draw(rule_tokens(half, hood, minor) | block_tokens(half, "N/MARG-HV", "&/PHASES"))]
    for _ in range(draw(st.integers(1, 3))):
        at, token = draw(st.integers(0, len(tokens) - 1)), draw(st.sampled_from([*ALL_TOKENS, *tokens]))
        tokens[at : at + draw(st.integers(0, 1))] = draw(st.sampled_from([[token], []]))
        tokens = tokens or [":"]
    return tokens


def doubled(name: str, first: str, times: int) -> str:
    """Definitions `name0` to `name{times}`. The first one does `first`, each other one does the one before it twice."""
    text = f": {name}0 {first} ;"
    for k in range(1, times + 1):
        text += f" : {name}{k} {name}{k - 1} {name}{k - 1} ;"
    return text


@st.composite
def texts_at_limits(draw: st.DrawFn, half: str) -> str:
    """A text at a limit, or one beyond it."""
    output, more = outputs_of(half)[0], draw(st.integers(0, 1))
    filled = f": R 1 {output} ;"
    forms = [
        ": R " + "1 IF " * (16 + more) + "THEN " * (16 + more) + ";",
        " ".join(f": A{k} ;" for k in range(64 + more)),
        doubled("D", "1 DROP", 11 + more),
        doubled("A", "", 12 + more),
        *(filled.ljust(8192 + more), filled.rjust(8192 + more), filled.ljust(8190 + more) + "é", " " * (8192 + more)),
        ": R 0 { " + "1 " * (2047 + more) + f"}} {output} ;",
        ": R " + "1 " * (32 + more) + ";",
        ": R CENTER IF 1 " + "DUP " * (31 + more) + "THEN ;",
        ": R 1 2 " + "OVER " * (30 + more) + ";",
        f": R CENTER CENTER' + {{ 1 0 {'1' * (1 - more)} }} {output} ;",
        f": R {65535 - more} CENTER + CENTER' + {output} ;",
        f": R 255 {257 + more} * {output} ;",
        f": R 1 {1 + more} - {output} ;",
        ": R CENTER IF " + "DROP " * more + "THEN ;",
        f": R {65535 + more} {output} ;",
        *("", " ", "( a )", "\n( )\t", "( a ) ( b )", ": R ( ;", "( x", ": R ; ( a", ": ( a ) R ;", ": R ( a ) ;"),
        *(": R { ( a ) } ;", "(a b )", ": R ; : R ;", ": ;", ": R", ":", ": R ; :", ": R { } ;", ": R 0 { } ;"),
        *(": R 1 >PLN3 ;", ": R 1 >PLN1 ;"),
    ]
    return draw(st.sampled_from(forms))


@st.composite
def spaced(draw: st.DrawFn, tokens: st.SearchStrategy[Tokens]) -> str:
    """Tokens as a text. Before some of them there is space of other kinds, or a comment."""
    words, space = draw(tokens), draw(st.sampled_from([" ", " ", "\n", "\t"]))
    more = draw(st.dictionaries(st.integers(0, len(words)), st.sampled_from(SPACES), max_size=3))
    text = "".join(f"{more.get(place, '')}{word}{space}" for place, word in enumerate(words))
    return text + more.get(len(words), "") if draw(st.booleans()) else text.rstrip()


@st.composite
def rules(draw: st.DrawFn, kinds: tuple[str, ...] = ("rule", "block", "broken", "limit")) -> dict[str, str]:
    """The wiring and the text of a rule, which may be none."""
    kind, half = draw(st.sampled_from(kinds)), draw(HALVES)
    of_blocks = kind == "block"
    hood = draw(st.sampled_from(list(BLOCKS if of_blocks else HOODS)))
    minor = draw(st.sampled_from(list(SEEN_BY_BLOCKS if of_blocks else MINORS)))
    wiring = {"half": half, "hood": hood, "minor": minor}
    if kind == "limit":
        return wiring | {"text": draw(texts_at_limits(half))}
    tokens = {"rule": rule_tokens, "block": block_tokens, "broken": broken_tokens}[kind]
    return wiring | {"text": draw(spaced(tokens(half, hood, minor)))}
