"""Loading into sqlite3, and asking it."""

import gzip
import json
import shutil
import sqlite3
import subprocess

import pytest
from conftest import FOLDER, refused, run, wants

FLOW = '{"@type":"ipfix.entry","iana:sourceIPv4Address":"10.0.0.1","iana:octetDeltaCount":%s}\n'


def answers(database, *words):
    ran = run("ask", database, "--json", *words)
    assert ran.returncode == 0, ran.stderr
    return json.loads(ran.stdout)


def rows(database, query):
    with sqlite3.connect(f"file:{database}?mode=ro", uri=True) as connection:
        return connection.execute(query).fetchall()


def test_the_answers_are_those_of_the_generator(database, sample_figures):
    assert answers(database, "--step", "3600") == sample_figures


def test_the_number_of_rows_is_chosen(database, sample_figures):
    found = answers(database, "--step", "3600", "--top", "3")
    for table in ("sources", "destinations", "services"):
        assert found[table] == sample_figures[table][:3]


def test_the_step_fits_a_day(database):
    assert answers(database)["step"] == 900


def test_tables_are_printed_for_people(database, sample_figures):
    ran = run("ask", database)
    assert ran.returncode == 0, ran.stderr
    address, octets, packets, flows = sample_figures["sources"][0]
    assert f"{address}  {octets:,}  {packets:,}" in ran.stdout
    assert "443/TCP" in ran.stdout


def test_the_columns_have_types(database):
    types = rows(database, "SELECT DISTINCT typeof(source), typeof(octets), typeof(started) FROM flow")
    assert types == [("text", "integer", "integer")]
    assert rows(database, "SELECT count(*) FROM flow WHERE source_port IS NULL AND protocol = 1") == rows(
        database, "SELECT count(*) FROM flow WHERE protocol = 1"
    )


def test_the_options_records_are_there(database):
    names = rows(database, """SELECT DISTINCT record ->> '$."iana:interfaceName"' FROM options_record""")
    assert names == [("uplink",)]


@pytest.mark.parametrize(
    "query, index",
    [("sources", "source"), ("destinations", "destination"), ("services", "service"), ("traffic", "start")],
)
def test_each_query_reads_its_index_alone(database, query, index):
    text = (FOLDER / "queries" / f"{query}.sql").read_text()
    with sqlite3.connect(f"file:{database}?mode=ro", uri=True) as connection:
        plan = " ".join(row[3] for row in connection.execute("EXPLAIN QUERY PLAN " + text, {"top": 10, "step": 60}))
    assert f"USING COVERING INDEX flow_by_{index}" in plan


@wants("sqlite3")
def test_the_queries_run_in_sqlite3(database, sample_figures):
    words = [".mode csv", ".parameter set :top 2", ".read " + str(FOLDER / "queries" / "sources.sql")]
    ran = subprocess.run(["sqlite3", "-readonly", database, *words], capture_output=True, text=True, check=True)
    assert ran.stdout.split() == [",".join(map(str, row)) for row in sample_figures["sources"][:2]]
    traffic = [".mode csv", ".read " + str(FOLDER / "queries" / "traffic.sql")]
    ran = subprocess.run(["sqlite3", "-readonly", database, *traffic], capture_output=True, text=True, check=True)
    assert ran.stdout.split() == [",".join(map(str, row)) for row in sample_figures["traffic"]]


def test_parts_and_packed_files_give_the_same(tmp_path, sample_lines, sample_figures):
    lines = sample_lines.splitlines(keepends=True)
    (tmp_path / "a.json").write_bytes(b"".join(lines[:1000]))
    (tmp_path / "b.json.gz").write_bytes(gzip.compress(b"".join(lines[1000:2000])))
    (tmp_path / "c.json").write_bytes(b"".join(lines[2000:]))
    assert run("load", "flows.db", "a.json", "b.json.gz", cwd=tmp_path).returncode == 0
    assert run("load", "flows.db", "c.json", cwd=tmp_path).returncode == 0
    assert answers(tmp_path / "flows.db", "--step", "3600") == sample_figures


def test_standard_input_is_read(tmp_path, lines_file, sample_figures):
    command = [FOLDER / "load", tmp_path / "flows.db", "-"]
    with open(lines_file, "rb") as file:
        subprocess.run(command, stdin=file, capture_output=True, check=True)
    assert answers(tmp_path / "flows.db", "--step", "3600") == sample_figures


def test_lines_are_not_loaded_twice(tmp_path, database, lines_file):
    copy = shutil.copy(database, tmp_path / "flows.db")
    before = copy.read_bytes()
    refused(run("load", copy, lines_file), f"{lines_file}: these lines are in the database already")
    assert copy.read_bytes() == before
    refused(run("load", tmp_path / "new.db", lines_file, lines_file), "already")
    assert sorted(path.name for path in tmp_path.iterdir()) == ["flows.db"]


BAD = [
    ("cut", FLOW % 5 + (FLOW % 6)[:50], "line 2: cut"),
    ("type", FLOW % 5 + FLOW % '"0xabcd"', "line 2: iana:octetDeltaCount is \"0xabcd\""),
    ("list", FLOW % 5 + FLOW % "[5,6]", "line 2: iana:octetDeltaCount is [5, 6]"),
    ("large", FLOW % 2**64, "line 1: iana:octetDeltaCount"),
    ("other", '{"name":1}\n', "line 1: no record"),
    ("empty", "", "empty"),
]


@pytest.mark.parametrize("name, text, why", BAD, ids=[row[0] for row in BAD])
def test_bad_lines_leave_what_was_there(tmp_path, database, name, text, why):
    copy = shutil.copy(database, tmp_path / "flows.db")
    before = copy.read_bytes()
    (tmp_path / "good.json").write_text(FLOW % 7)
    (tmp_path / "bad.json").write_text(text)
    refused(run("load", "flows.db", "good.json", "bad.json", cwd=tmp_path), "bad.json: " + why)
    assert copy.read_bytes() == before
    refused(run("load", "new.db", "good.json", "bad.json", cwd=tmp_path), "bad.json: " + why)
    assert sorted(path.name for path in tmp_path.iterdir()) == ["bad.json", "flows.db", "good.json"]


def test_other_files_are_told(tmp_path, lines_file):
    refused(run("load", tmp_path / "flows.db", tmp_path / "none.json"), "none.json: No such file")
    refused(run("load", tmp_path / "flows.db", tmp_path), "directory")
    refused(run("load", tmp_path / "none" / "flows.db", lines_file), "flows.db")
    (tmp_path / "cut.json.gz").write_bytes(gzip.compress(lines_file.read_bytes())[:-5000])
    refused(run("load", tmp_path / "flows.db", tmp_path / "cut.json.gz"), "cut.json.gz: ")
    (tmp_path / "plain.json.gz").write_bytes(lines_file.read_bytes())
    refused(run("load", tmp_path / "flows.db", tmp_path / "plain.json.gz"), "plain.json.gz: ")
    sqlite3.connect(tmp_path / "other.db").executescript("CREATE TABLE flow (x); INSERT INTO flow VALUES (1)")
    for command in (("load", tmp_path / "other.db", lines_file), ("ask", tmp_path / "other.db")):
        refused(run(*command), "other.db: no database of flows")
    refused(run("load", lines_file, lines_file), "flows.json: file is not a database")
    refused(run("ask", tmp_path / "flows.db"), "flows.db: no such file")
    assert not (tmp_path / "flows.db").exists()


def test_sums_that_no_database_holds_are_told(tmp_path):
    (tmp_path / "a.json").write_text(FLOW % (2**63 - 1) + FLOW % 1)
    assert run("load", "flows.db", "a.json", cwd=tmp_path).returncode == 0
    refused(run("ask", "flows.db", cwd=tmp_path), "flows.db: integer overflow")
