"""Each request and each handshake has its answer, and the page's own files are there."""

from __future__ import annotations

import re
from collections.abc import Iterator

import pytest
from support.programs import TOP, Page

from .pages import Answer, Recorder, Row, answer_to, each_row, get, status_of, text_of
from .users import Pages

# The most bytes that the page may have as it is sent.
MOST = 150_000
# What a page names, and what a sheet or a module does.
NAMED = r"<(?:script|link|img)\b[^>]*?\b(?:src|href)=\"?([^\"\s>]+)"
IMPORTED = r"\b(?:from|import)\s*\(?\s*['\"](\.[^'\"]+)['\"]"


@pytest.fixture(scope="module")
def hosted(cam6_web: str) -> Iterator[Page]:
    """A page of two hosts."""
    with Recorder() as first, Recorder() as second, Page(cam6_web, first.port, second.port) as page:
        yield page


@pytest.fixture(scope="module")
def files(bare: Page) -> dict[str, Answer]:
    """The page's own files: all that it names, that these name, and so on."""
    found: dict[str, Answer] = {}
    left = ["/"]
    while left:
        path = left.pop()
        if path not in found:
            found[path] = get(bare.port, path)
            names = re.findall(NAMED if path == "/" else IMPORTED, found[path].text)
            left += ["/" + re.sub(r"^(?:\./|/)", "", name) for name in names if not re.match(r"(?:data|https?):", name)]
    return found


@pytest.mark.parametrize("row", each_row("requests"))
def test_a_request_has_its_answer(bare: Page, row: Row) -> None:
    came = answer_to(bare.port, *map(text_of, row["request"]), ends=row.get("ends", False))
    assert came.status in (row["status"], *row.get("or", []))
    assert "body" not in row or came.text.strip() == row["body"]
    wanted = row.get("fields", {})
    assert {name: came.fields.get(name, "").lower() for name in wanted} == wanted


def test_each_file_is_sent_as_it_stands(bare: Page, files: dict[str, Answer]) -> None:
    for path, answer in files.items():
        text = (TOP / "web" / (path.strip("/") or "index.html")).read_text(encoding="utf-8")
        assert (path, answer.status, answer.text) == (path, 200, text)
        head = answer_to(bare.port, f"HEAD {path} HTTP/1.1", "Host: 127.0.0.1:PORT")
        assert (path, head.body, dict(head.fields)) == (path, b"", dict(answer.fields))
    assert {"/app.js", "/style.css"} < set(files)


def test_the_page_is_small_and_takes_nothing_from_elsewhere(files: dict[str, Answer]) -> None:
    assert 0 < sum(len(answer.body) for answer in files.values()) < MOST
    policies = {answer.fields.get("content-security-policy", "") for answer in files.values()}
    assert all("default-src 'self'" in policy and "frame-ancestors 'none'" in policy for policy in policies)
    assert not any("unsafe" in policy for policy in policies)


@pytest.mark.parametrize("row", each_row("shakes"))
def test_a_handshake_has_its_answer(hosted: Page, row: Row) -> None:
    fields = {name: value and value.replace("PORT", str(hosted.port)) for name, value in row.get("fields", {}).items()}
    assert status_of(hosted.port, row.get("path", "/ws"), fields) == row["status"]


def test_a_page_is_shown_by_a_name_that_was_added(page: Pages) -> None:
    port = page(options=("--name", "cam6.example")).port
    own = f"127.0.0.1:{port}"
    assert [get(port, "/", fields).status for fields in ({"Host": "cam6.example"}, {"Host": own})] == [200, 200]
    origins = [
        ("cam6.example", "http://cam6.example", 101),
        ("cam6.example", "https://cam6.example", 101),
        ("cam6.example", "https://cam6.example.evil.example", 403),
        ("cam6.example", f"http://{own}", 403),
        (own, f"https://{own}", 403),
    ]
    for host, origin, status in origins:
        assert status_of(port, fields={"Host": host, "Origin": origin}) == status, origin
