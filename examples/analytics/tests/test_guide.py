"""The commands of docs/ANALYTICS.md print what stands behind them there, and the figures are those of the sample."""

import os
import re
import shutil
import subprocess

import pytest
from conftest import FOLDER, TOP

GUIDE = TOP / "docs" / "ANALYTICS.md"
PLACE = "/tmp/analytics"


def commands(text):
    """Each command of the guide's console blocks, with what it is to print."""
    for block in re.findall(r"^```console\n(.*?)^```", text, re.MULTILINE | re.DOTALL):
        for part in re.split(r"^\$ ", block, flags=re.MULTILINE)[1:]:
            command, _, printed = part.partition("\n")
            yield command, printed


@pytest.fixture(scope="module")
def place(tmp_path_factory):
    return str(tmp_path_factory.mktemp("guide") / "analytics")


def test_the_commands_of_the_guide_print_what_it_says(place, program):
    for command in ("jq", "sqlite3"):
        if shutil.which(command) is None:
            pytest.skip(f"{command} isn't installed")
    found = list(commands(GUIDE.read_text()))
    assert len(found) >= 15 and found[0][0] == "cd examples/analytics"
    for command, printed in found[1:]:
        ran = subprocess.run(
            ["bash", "-c", command.replace(PLACE, place)], cwd=FOLDER, capture_output=True, text=True, timeout=300,
            env={**os.environ, "IPFIXCOL": program, "LC_ALL": "C.UTF-8"}, check=False,
        )
        assert ran.stderr == "", command
        assert ran.stdout.replace(place, PLACE) == printed, command


def test_the_figures_of_the_guide_are_those_of_the_sample(sample_flows, sample_figures):
    text = GUIDE.read_text()
    for address, octets, *_ in sample_figures["sources"][:3]:
        assert f"\n{address} {octets}\n" in text
    for row in sample_figures["services"][:2]:
        assert f"\n{'|'.join(map(str, row))}\n" in text
    assert f"\n{max(flow.octets for flow in sample_flows)} 198.18.0.22 to 10.20.0.45\n" in text
    queries = [flow.started // 3_600_000 for flow in sample_flows if flow.destination_port == 53]
    first = min(queries)
    assert f"\n{queries.count(first):7} 2026-11-30T{first % 24:02}:00:00Z\n" in text
