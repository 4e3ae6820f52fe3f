"""What the tests share: the sample's lines, the figures that are to come, the program, and how commands are run."""

import gzip
import os
import pathlib
import shutil
import subprocess
import sys

import pytest

sys.dont_write_bytecode = True
HERE = pathlib.Path(__file__).resolve().parent
FOLDER = HERE.parent
TOP = FOLDER.parent.parent
sys.path.insert(0, str(FOLDER))

from expected import figures  # noqa: E402
from flows import sample  # noqa: E402

BUILT = TOP / "crates" / "ipfixcol" / "out" / "ipfixcol"
# Another reader of IPFIX Files takes the program's place where it isn't built.
STAND_IN = f"""#!/bin/sh
[ "$1" = direct ] && [ $# = 3 ] || exit 1
exec /usr/bin/python3 -B '{TOP}/tools/json_lines.py' "$2" > "$3"
"""


def given_program():
    given = os.environ.get("IPFIXCOL") or (str(BUILT) if BUILT.exists() else None)
    return given and str(pathlib.Path(given).resolve())


def pytest_report_header():
    return f"program: {given_program() or 'not built; tools/json_lines.py stands in for it'}"


def wants(command):
    """Skips the tests that need a command which isn't installed."""
    return pytest.mark.skipif(shutil.which(command) is None, reason=f"{command} isn't installed")


def run(*words, cwd=None, env=None, timeout=300):
    """Runs a command of this folder, or another by its path, and returns what it printed and its status."""
    command = str(words[0]) if os.sep in str(words[0]) else str(FOLDER / words[0])
    return subprocess.run(
        [command, *map(str, words[1:])], cwd=cwd, env={**os.environ, **(env or {})}, capture_output=True, text=True,
        timeout=timeout, check=False, stdin=subprocess.DEVNULL,
    )


def refused(ran, *parts):
    """The command ended with 1 and lines for people, in which these parts stand."""
    assert ran.returncode == 1, ran.stderr
    assert "Traceback" not in ran.stderr
    for part in parts:
        assert part in ran.stderr


@pytest.fixture(scope="session")
def program(tmp_path_factory):
    """The program, or what stands in for it."""
    if given_program():
        return given_program()
    path = tmp_path_factory.mktemp("program") / "ipfixcol"
    path.write_text(STAND_IN)
    path.chmod(0o755)
    return str(path)


@pytest.fixture(scope="session")
def sample_flows():
    """The flows of the sample, as the generator has them."""
    counts = sample.counts_of(sample.FLOWS, sample.FILES)
    return [flow for place, count in enumerate(counts) for flow in sample.flows_of(place, count)]


@pytest.fixture(scope="session")
def sample_figures(sample_flows):
    """The figures of the sample, in steps of an hour, worked out from the generator's own flows."""
    return figures(sample_flows, options=sample.FILES, top=10, step=3600)


@pytest.fixture(scope="session")
def sample_lines():
    """The lines of the sample that is shipped."""
    return gzip.decompress((FOLDER / "sample" / "flows.json.gz").read_bytes())


@pytest.fixture(scope="session")
def lines_file(tmp_path_factory, sample_lines):
    path = tmp_path_factory.mktemp("lines") / "flows.json"
    path.write_bytes(sample_lines)
    return path


@pytest.fixture(scope="session")
def database(tmp_path_factory, lines_file):
    """A database of the sample. No test changes it."""
    path = tmp_path_factory.mktemp("database") / "flows.db"
    ran = run("load", path, lines_file)
    assert ran.returncode == 0, ran.stderr
    return path
