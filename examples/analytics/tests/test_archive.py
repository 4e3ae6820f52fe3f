"""An archive on a cluster: the same figures on one process, on four workers, and where a worker dies."""

import contextlib
import json
import os
import pty
import shutil
import signal
import subprocess
import time

import pytest
from conftest import FOLDER, refused, run

ARCHIVE = FOLDER / "sample" / "archive"
NAMES = sorted(path.name for path in ARCHIVE.iterdir())
STEP = ("--step", "3600")


@pytest.fixture
def archive(tmp_path):
    """A copy of the archive, which a test may change."""
    return shutil.copytree(ARCHIVE, tmp_path / "archive")


@pytest.fixture
def logged(tmp_path, program):
    """A program that does the same as the program, and writes down what it began and ended, and for which worker."""

    def made(before="true"):
        path = tmp_path / "logged_program"
        log = tmp_path / "log"
        log.touch()
        path.write_text(
            "#!/bin/bash\n"
            'name=$(basename "$2")\n'
            f'echo "began $name $PPID" >> {log}\n'
            f"{before}\n"
            f"'{program}' \"$@\" || exit\n"
            f'echo "ended $name $PPID" >> {log}\n'
        )
        path.chmod(0o755)
        return path, log

    return made


def events(log):
    return [line.split() for line in log.read_text().splitlines()]


def ended(log):
    return [name for kind, name, _ in events(log) if kind == "ended"]


def answered(*words, **more):
    ran = run("archive", *words, "--json", "-", **more)
    assert ran.returncode == 0, ran.stderr
    return json.loads(ran.stdout)


def lines_of(folder):
    return b"".join((folder / (name + ".json")).read_bytes() for name in NAMES)


def test_one_process_gives_the_figures(tmp_path, program, database, sample_figures, sample_lines):
    found = answered("--program", program, "--workers", 0, *STEP, ARCHIVE, tmp_path / "lines")
    assert found == sample_figures
    assert found == json.loads(run("ask", database, "--json", *STEP).stdout)
    assert lines_of(tmp_path / "lines") == sample_lines
    assert sorted(path.name for path in (tmp_path / "lines").iterdir()) == [name + ".json" for name in NAMES]


def test_four_workers_give_the_figures(tmp_path, program, sample_figures):
    # blocks of a few lines, so that files are cut at every place of a line
    found = answered(
        "--program", program, "--workers", 4, "--block", 20011, *STEP, "--page", "page.html", ARCHIVE, "lines",
        cwd=tmp_path,
    )
    assert found == sample_figures
    assert sorted(path.name for path in tmp_path.iterdir()) == ["lines", "page.html"]
    assert f"{sample_figures['totals']['octets']:,}" in (tmp_path / "page.html").read_text()


def test_the_page_is_that_of_report(tmp_path, program, lines_file):
    given = ("--program", program, "--workers", 0, "--page", tmp_path / "page.html", ARCHIVE, tmp_path / "lines")
    assert run("archive", *given).returncode == 0
    assert run("report", lines_file, tmp_path / "other.html").returncode == 0
    pages = [(tmp_path / name).read_text() for name in ("page.html", "other.html")]
    assert pages[0].replace(str(ARCHIVE), "") == pages[1].replace(str(lines_file), "")


def test_only_new_and_changed_files_are_turned_again(tmp_path, archive, logged, sample_figures):
    path, log = logged()
    given = ("--program", path, "--workers", 0, *STEP, archive, tmp_path / "lines")
    held = tmp_path / NAMES[5]
    (archive / NAMES[5]).rename(held)
    answered(*given)
    assert sorted(ended(log)) == NAMES[:5] + NAMES[6:]
    log.write_text("")
    held.rename(archive / NAMES[5])
    os.utime(archive / NAMES[9])
    assert answered(*given) == sample_figures
    assert sorted(ended(log)) == [NAMES[5], NAMES[9]]


def test_a_terminal_shows_how_far_it_is(tmp_path, program):
    words = [FOLDER / "archive", "--program", program, "--workers", "1", "--json", "a.json", ARCHIVE, "lines"]
    terminal, end = pty.openpty()
    with subprocess.Popen(words, cwd=tmp_path, stdout=subprocess.PIPE, stderr=end, text=True) as running:
        os.close(end)
        shown = b""
        # the end of a terminal is an error
        with contextlib.suppress(OSError):
            while octets := os.read(terminal, 4096):
                shown += octets
        os.close(terminal)
        assert running.stdout.read() == ""
    assert running.returncode == 0
    assert b"IPFIX Files to lines (24)" in shown and b"blocks of 32 MiB to sums (24)" in shown
    assert shown.count(b"100% Completed") >= 2


@pytest.fixture
def scheduler(tmp_path):
    """A scheduler on this machine, and a way to start its workers; all that runs at the end is ended."""
    processes = []
    # workers of another machine have none of our modules: they start in a folder of their own
    environment = {name: value for name, value in os.environ.items() if name != "PYTHONPATH"}

    def started(name, *words):
        with open(tmp_path / f"{name}.log", "wb") as log:
            process = subprocess.Popen(
                [*words, "--no-dashboard"], cwd=tmp_path, env=environment, stdout=log, stderr=log,
                stdin=subprocess.DEVNULL,
            )
        processes.append(process)
        return process

    file = tmp_path / "scheduler.json"
    started("scheduler", "dask-scheduler", "--host", "127.0.0.1", "--port", "0", "--scheduler-file", str(file))
    wait_for(file.exists)
    address = json.loads(file.read_text())["address"]

    def worker(place):
        words = ["--no-nanny", "--nthreads", "1", "--memory-limit", "400MB"]
        words += ["--local-directory", str(tmp_path / "space")]
        return started(f"worker{place}", "dask-worker", address, "--host", "127.0.0.1", *words)

    yield address, worker, processes[0]
    for process in reversed(processes):
        process.terminate()
    for process in processes:
        process.wait(timeout=30)


def wait_for(condition, seconds=60):
    until = time.monotonic() + seconds
    while not (found := condition()):
        assert time.monotonic() < until, "waited in vain"
        time.sleep(0.02)
    return found


def test_a_worker_that_dies_has_its_files_done_by_others(tmp_path, scheduler, logged, sample_figures, sample_lines):
    address, worker, _ = scheduler
    path, log = logged(before="sleep 0.4")
    workers = [worker(place) for place in range(4)]
    words = [FOLDER / "archive", "--program", path, "--scheduler", address, *STEP, "--json", "a.json", ARCHIVE, "lines"]
    running = subprocess.Popen(words, cwd=tmp_path, stderr=subprocess.PIPE, text=True)

    def victim():
        """A worker that has ended a file, and is in the middle of another."""
        for process in workers:
            own = [(kind, name) for kind, name, worker in events(log) if worker == str(process.pid)]
            if len(own) % 2 == 1 and len(own) >= 3:
                return process, own[-1][1]
        return None

    dying, begun = wait_for(victim)
    dying.send_signal(signal.SIGKILL)
    dying.wait()
    said = running.communicate(timeout=120)[1]
    assert running.returncode == 0, said
    by_dying = {name for kind, name, worker in events(log) if kind == "ended" and worker == str(dying.pid)}
    assert begun not in by_dying, "the worker was ended too late"
    # each file was turned once: also those whose results died with the worker
    assert sorted(ended(log)) == NAMES
    assert by_dying
    assert json.loads((tmp_path / "a.json").read_text()) == sample_figures
    assert lines_of(tmp_path / "lines") == sample_lines
    assert sorted(path.name for path in (tmp_path / "lines").iterdir()) == [name + ".json" for name in NAMES]


def test_a_scheduler_that_dies_is_told(tmp_path, scheduler, logged):
    address, worker, process = scheduler
    path, log = logged(before="sleep 0.4")
    worker(0)
    words = [FOLDER / "archive", "--program", path, "--scheduler", address, "--json", "a.json", ARCHIVE, "lines"]
    running = subprocess.Popen(words, cwd=tmp_path, stderr=subprocess.PIPE, text=True)
    wait_for(lambda: ended(log))
    process.kill()
    said = running.communicate(timeout=120)[1]
    assert running.returncode == 1 and "Traceback" not in said, said
    assert said.splitlines()[-1].startswith("the scheduler went away")
    assert not (tmp_path / "a.json").exists()


def test_a_file_that_ends_every_worker_is_told(tmp_path, archive):
    path = tmp_path / "program"
    path.write_text('#!/bin/bash\n[ "$(basename "$2")" = flows-00-07.ipfix ] && kill -KILL $PPID; cp "$2" "$3"\n')
    path.chmod(0o755)
    ran = run("archive", "--program", path, "--workers", 2, "--json", "a.json", archive, "lines", cwd=tmp_path)
    assert ran.returncode == 1
    told = [line for line in ran.stderr.splitlines() if line.startswith(str(archive))]
    assert told == [f"{archive}/flows-00-07.ipfix: several workers died, one after the other, while they had it"]
    assert not (tmp_path / "a.json").exists()
    assert not [path for path in (tmp_path / "lines").iterdir() if path.name.endswith(".part")]


def test_all_bad_files_are_told_and_the_others_done(tmp_path, archive, logged, sample_figures):
    path, log = logged(before='[ "$name" != flows-00-03.ipfix ] || { echo "source fault: in"; exit 3; }')
    (archive / "empty.ipfix").touch()
    (archive / "packed.ipfix").write_bytes(b"\x1f\x8b" * 50)
    (tmp_path / "a.json").write_text("as it was")
    given = ("--program", path, "--workers", 2, "--json", "a.json", archive, "lines")
    refused(
        run("archive", *given, cwd=tmp_path),
        "empty.ipfix: empty", "packed.ipfix: no IPFIX File, it begins with 0x1f8b",
        "flows-00-03.ipfix: ", "ended with 3: source fault: in",
    )
    assert (tmp_path / "a.json").read_text() == "as it was"
    good = [name for name in NAMES if name != "flows-00-03.ipfix"]
    assert sorted(ended(log)) == good
    assert sorted(path.name for path in (tmp_path / "lines").iterdir()) == [name + ".json" for name in good]
    # what was wrong is put right, and only that is done
    path, log = logged()
    for name in ("empty", "packed"):
        (archive / f"{name}.ipfix").unlink()
    log.write_text("")
    assert answered("--program", path, "--workers", 0, *STEP, archive, tmp_path / "lines") == sample_figures
    assert ended(log) == ["flows-00-03.ipfix"]


def test_lines_that_were_cut_are_told(tmp_path, program):
    given = ("--program", program, "--workers", 0, ARCHIVE, "lines")
    assert run("archive", *given, cwd=tmp_path).returncode == 0
    path = tmp_path / "lines" / "flows-00-10.ipfix.json"
    octets, times = path.read_bytes(), path.stat().st_mtime_ns
    path.write_bytes(octets[:-100])
    os.utime(path, ns=(times, times))
    refused(run("archive", *given, cwd=tmp_path), f"flows-00-10.ipfix.json: line {octets.count(10)}: cut")


def test_a_file_without_records_counts_nothing(tmp_path, archive, program, sample_figures):
    shutil.copy(FOLDER.parent / "no_sets.ipfix", archive)
    assert answered("--program", program, "--workers", 0, *STEP, archive, tmp_path / "lines") == sample_figures
    for name in NAMES:
        (archive / name).unlink()
    ran = run("archive", "--program", program, "--workers", 0, archive, tmp_path / "lines")
    refused(ran, "none of the files has a record")


def test_what_is_not_there_is_told(tmp_path, archive, program):
    lines = tmp_path / "lines"
    refused(run("archive", "--program", tmp_path / "none", archive, lines), "none: no such program", "--program")
    refused(run("archive", archive, lines, env={"IPFIXCOL": str(tmp_path / "none")}), "none: no such program")
    refused(run("archive", "--program", program, "--workers", 0, tmp_path / "none", lines), "none: no such folder")
    (tmp_path / "bare").mkdir()
    refused(run("archive", "--program", program, "--workers", 0, tmp_path / "bare", lines), "ends in .ipfix")
    words = ("--program", program, "--scheduler", "tcp://127.0.0.1:9", "--patience", 2, archive, lines)
    refused(run("archive", *words), "tcp://127.0.0.1:9: no scheduler answers there")
    assert not lines.exists()


def test_a_cluster_without_workers_is_told(tmp_path, scheduler, program):
    words = ("--program", program, "--scheduler", scheduler[0], "--patience", 1, ARCHIVE, tmp_path / "lines")
    refused(run("archive", *words), "this cluster has no workers")
