"""The page: its figures are those of sqlite3, it stands alone, and it is read in a real browser."""

import base64
import html.parser
import json
import re
import struct

import pytest
from conftest import FOLDER, refused, run, wants
from flows import words

GOOD = '{"@type":"ipfix.entry","iana:sourceIPv4Address":"10.0.0.1","iana:octetDeltaCount":7}\n'


class Page(html.parser.HTMLParser):
    """The tables of a page, by their ids, as rows of texts; and what stands in its other elements."""

    def __init__(self, text):
        super().__init__()
        self.tables, self.rows, self.texts, self.images, self.within = {}, None, [], [], []
        self.feed(text)

    def handle_starttag(self, tag, attrs):
        attributes = dict(attrs)
        if tag == "table":
            self.rows = self.tables.setdefault(attributes["id"], [])
        elif tag == "tr":
            self.rows.append([])
        elif tag in ("td", "th"):
            self.rows[-1].append("")
        elif tag == "img":
            self.images.append(attributes)
        self.within.append(tag)

    def handle_endtag(self, tag):
        if tag in self.within:
            while self.within.pop() != tag:
                pass
        if tag == "table":
            self.rows = None

    def handle_data(self, data):
        if self.rows is not None and self.within[-1] in ("td", "th"):
            self.rows[-1][-1] += data
        elif self.rows is None:
            self.texts.append(data.strip())


def amounts(rows):
    return [[f"{amount:,}" for amount in row[-3:]] for row in rows]


def check(page, answers):
    """The page has the figures of sqlite3's answers, all of them."""
    firsts = {
        "sources": [row[0] for row in answers["sources"]],
        "destinations": [row[0] for row in answers["destinations"]],
        "services": [f"{port}/{words.PROTOCOLS[protocol]}" for port, protocol, *_ in answers["services"]],
        "protocols": [words.PROTOCOLS[row[0]] for row in answers["protocols"]],
        "sizes": [words.size_class(row[0]) for row in answers["sizes"]],
        "traffic": [words.moment(row[0]) for row in answers["traffic"]],
    }
    assert set(page.tables) == set(firsts)
    for key, names in firsts.items():
        rows = page.tables[key][1:]
        assert [row[0] for row in rows] == names
        assert [row[1:] for row in rows] == amounts(answers[key])
    for name in ("flows", "octets", "packets", "options"):
        assert f"{answers['totals'][name]:,}" in page.texts


@pytest.fixture(scope="module")
def page(tmp_path_factory, lines_file):
    path = tmp_path_factory.mktemp("page") / "page.html"
    ran = run("report", lines_file, path)
    assert (ran.returncode, ran.stdout, ran.stderr) == (0, "", "")
    return path


@pytest.fixture(scope="module")
def answers(database):
    return json.loads(run("ask", "--json", database).stdout)


def test_the_page_has_the_figures_of_sqlite3(page, answers):
    check(Page(page.read_text()), answers)


def test_the_page_stands_alone(page):
    text = page.read_text()
    assert not re.search(r"""(src|href)\s*=\s*["'](?!data:)|@import|url\(|<script|<link""", text)
    images = Page(text).images
    assert len(images) == 6 and all(image["alt"] for image in images)
    for image in images:
        picture = base64.b64decode(image["src"].removeprefix("data:image/svg+xml;base64,")).decode()
        assert "<svg" in picture and "octets" in picture or "start of the flow (UTC)" in picture


def test_the_same_lines_give_the_same_page(tmp_path, page, lines_file):
    assert run("report", lines_file, tmp_path / "page.html").returncode == 0
    assert (tmp_path / "page.html").read_bytes() == page.read_bytes()


def test_choices_are_heeded(tmp_path, lines_file, sample_figures):
    assert run("report", "--top", "2", "--step", "3600", lines_file, tmp_path / "page.html").returncode == 0
    made = Page((tmp_path / "page.html").read_text())
    assert [row[1:] for row in made.tables["traffic"][1:]] == amounts(sample_figures["traffic"])
    assert len(made.tables["sources"]) == 3


def test_several_files_make_one_page(tmp_path, sample_lines, answers):
    lines = sample_lines.splitlines(keepends=True)
    (tmp_path / "a&b.json").write_bytes(b"".join(lines[:1500]))
    (tmp_path / "c.json").write_bytes(b"".join(lines[1500:]))
    assert run("report", "a&b.json", "c.json", "page.html", cwd=tmp_path).returncode == 0
    made = Page((tmp_path / "page.html").read_text())
    check(made, answers)
    assert "from a&b.json, c.json" in made.texts


@pytest.mark.parametrize(
    "line",
    [
        '{"@type":"ipfix.entry"}',
        '{"@type":"ipfix.options"}',
        '{"@type":"ipfix.entry","iana:flowStartMilliseconds":0,"iana:protocolIdentifier":0,"iana:octetDeltaCount":0}',
        '{"@type":"ipfix.entry","iana:flowStartSeconds":%d,"iana:octetDeltaCount":%d}' % (2**63 - 1, 2**63 - 1),
        '{"@type":"ipfix.entry","iana:flowStartSeconds":0}\n'
        '{"@type":"ipfix.entry","iana:flowStartSeconds":%d}' % (2**63 - 1),
    ],
)
def test_strange_records_have_a_page(tmp_path, line):
    (tmp_path / "flows.json").write_text(line + "\n")
    ran = run("report", "flows.json", "page.html", cwd=tmp_path)
    assert (ran.returncode, ran.stderr) == (0, "")


BAD = [
    ("cut", GOOD + GOOD[:40], "line 2: cut"),
    ("type", GOOD + GOOD.replace("7}", '"7"}'), "line 2: iana:octetDeltaCount"),
    ("empty", "", "empty"),
]


@pytest.mark.parametrize("name, text, why", BAD, ids=[row[0] for row in BAD])
def test_bad_lines_leave_the_page(tmp_path, name, text, why):
    (tmp_path / "bad.json").write_text(text)
    (tmp_path / "page.html").write_text("as it was")
    refused(run("report", "bad.json", "page.html", cwd=tmp_path), "bad.json: " + why)
    assert (tmp_path / "page.html").read_text() == "as it was"
    assert sorted(path.name for path in tmp_path.iterdir()) == ["bad.json", "page.html"]


def test_a_missing_package_is_told(tmp_path, lines_file):
    for command, words, package in (
        ("report", (lines_file, tmp_path / "page.html"), "matplotlib"),
        ("archive", (FOLDER / "sample" / "archive", tmp_path / "lines"), "dask"),
    ):
        (tmp_path / f"{package}.py").write_text(f"raise ModuleNotFoundError(name='{package}')\n")
        ran = run(command, *words, env={"PYTHONPATH": str(tmp_path)})
        refused(ran, f"{package} isn't installed (Debian: apt-get install python3-{package})")


def test_a_page_that_can_not_be_written_is_told(tmp_path, lines_file):
    refused(run("report", lines_file, tmp_path / "none" / "page.html"), "page.html: No such file")
    refused(run("report", lines_file, tmp_path), "no regular file")
    refused(run("report", lines_file, "/dev/null"), "/dev/null: no regular file")


def test_a_link_stays_a_link(tmp_path, page, lines_file):
    (tmp_path / "kept").mkdir()
    (tmp_path / "page.html").symlink_to("kept/page.html")
    assert run("report", lines_file, tmp_path / "page.html").returncode == 0
    assert (tmp_path / "page.html").is_symlink()
    assert (tmp_path / "kept" / "page.html").read_bytes() == page.read_bytes()


@wants("chromium")
def test_a_browser_shows_the_figures_of_sqlite3(tmp_path, page, answers):
    shown = run("picture", "--text", page, tmp_path / "page.txt")
    assert shown.returncode == 0, shown.stderr
    check(Page((tmp_path / "page.txt").read_text()), answers)


@wants("chromium")
def test_a_browser_draws_the_page(tmp_path, page):
    drawn = run("picture", page, tmp_path / "page.png", 1000, 800)
    assert drawn.returncode == 0, drawn.stderr
    octets = (tmp_path / "page.png").read_bytes()
    assert octets[:8] == b"\x89PNG\r\n\x1a\n" and struct.unpack(">II", octets[16:24]) == (1000, 800)
    # a page on which nothing was drawn packs into far less
    assert len(octets) > 40_000
