"""An archive of IPFIX Files as tasks of a Dask cluster: a file a task, and then a block of lines a task.

Tasks take and give plain values, and a fault comes back as one, so that all of them can be told. To workers that we
didn't start the code of the tasks is sent by value, with what it calls: they need Dask alone, the program, and the
folders under the same paths. So what it calls has no dataclass and no named tuple, which don't bear it.
"""

import concurrent.futures
import contextlib
import logging
import os
import pathlib
import secrets
import subprocess
import sys

import cloudpickle
import dask
import distributed

from . import lines, outputs, sums
from .answers import answers_of
from .faults import Fault

# How many sums are added by one task.
TOGETHER = 8


def program_path(given):
    """The program: as given, by the environment, by the path of commands, or as it is built in this checkout."""
    built = pathlib.Path(__file__).resolve().parents[3] / "crates" / "ipfixcol" / "out" / "ipfixcol"
    if given is None:
        given = os.environ.get("IPFIXCOL") or (str(built) if built.exists() else "ipfixcol")
    for folder in [""] if os.sep in given else os.environ.get("PATH", os.defpath).split(os.pathsep):
        path = os.path.abspath(os.path.join(folder, given))
        if os.path.isfile(path) and os.access(path, os.X_OK):
            return path
    raise Fault(
        f"{given}: no such program. Give the built ipfixcol as --program PATH or as IPFIXCOL=PATH;"
        " README.md of the repository says how it is built"
    )


def is_done(source, target):
    """Whether the lines are there, and are of this file: the whole lines have its time."""
    with contextlib.suppress(FileNotFoundError):
        return os.stat(target).st_mtime_ns == os.stat(source).st_mtime_ns
    return False


def convert(program, source, target, run):
    """Turns an IPFIX File into lines, unless that is done: also by a worker that died afterwards."""
    try:
        if not is_done(source, target):
            write_lines(program, source, target, run)
        return {"octets": os.stat(target).st_size}
    except Fault as fault:
        return failed(fault)
    except OSError as error:
        return failed(f"{error.filename or source}: {error.strerror}")


def write_lines(program, source, target, run):
    """Has the program write the lines beside the target, which they become when they are whole."""
    with open(source, "rb") as file:
        time = os.stat(file.fileno()).st_mtime_ns
        begin = file.read(2)
    if begin != b"\x00\x0a":
        raise Fault(f"{source}: empty" if not begin else f"{source}: no IPFIX File, it begins with 0x{begin.hex()}")
    os.makedirs(os.path.dirname(target), exist_ok=True)
    folder, name = os.path.split(target)
    beside = os.path.join(folder, f".{name}.{run}.{secrets.token_hex(4)}.part")
    try:
        # the program ends with its worker, so that nothing writes on behind its back
        words = ["setpriv", "--pdeathsig", "KILL", program, "direct", source, beside]
        ran = subprocess.run(words, stdin=subprocess.DEVNULL, capture_output=True, check=False)
        if ran.returncode != 0:
            said = (ran.stdout + ran.stderr).decode(errors="replace").strip().replace("\n", "; ")
            raise Fault(f"{source}: {program} ended with {ran.returncode}: {said}")
        with open(beside, "rb") as file:
            os.fsync(file.fileno())
        os.utime(beside, ns=(time, time))
        os.replace(beside, target)
    finally:
        with contextlib.suppress(FileNotFoundError):
            os.unlink(beside)


def sum_block(path, start, size, step):
    """The sums of a block of lines."""
    try:
        return sums.sums_of(lines.block_records(path, start, size), step)
    except Fault as fault:
        return failed(fault)
    except OSError as error:
        return failed(f"{path}: {error.strerror}")


def add_sums(parts):
    """The sums of parts; of parts that failed the first fault."""
    return next((part for part in parts if "fault" in part), None) or sums.together(parts)


def failed(why):
    """What a task gives that came to a fault."""
    return {"fault": str(why)}


@contextlib.contextmanager
def local_cluster(workers, memory):
    """A client of a cluster of processes of this machine, or of this process alone where there are to be no workers."""
    with outputs.scratch() as folder:
        # A worker has no files but those that it is at: so no others are blamed where it dies.
        dask.config.set({"temporary-directory": folder, "distributed.scheduler.worker-saturation": 1.0})
        with distributed.LocalCluster(
            n_workers=workers or 1, threads_per_worker=1, processes=workers > 0, memory_limit=memory,
            host="127.0.0.1" if workers else None, dashboard_address=None, local_directory=folder,
        ) as cluster, distributed.Client(cluster) as client:
            yield client


@contextlib.contextmanager
def remote_cluster(scheduler, patience):
    """A client of a cluster that runs already."""
    # what they say of a scheduler that went away we say in a line
    for name in ("distributed.client", "distributed.utils", "asyncio"):
        logging.getLogger(name).setLevel(logging.CRITICAL)
    try:
        client = distributed.Client(scheduler, timeout=patience)
    except (OSError, ValueError) as error:
        raise Fault(f"{scheduler}: no scheduler answers there: {error}") from None
    # The package for what the tasks call, and this module by its name, which is all that Dask looks at.
    for module in (__package__, __name__):
        cloudpickle.register_pickle_by_value(sys.modules[module])
    with client:
        try:
            client.wait_for_workers(1, timeout=patience)
        except (TimeoutError, distributed.TimeoutError):
            raise Fault(f"{scheduler}: this cluster has no workers") from None
        yield client


def awaited(futures, title, shows):
    """Waits for tasks, with a bar that shows how many are done."""
    try:
        if shows:
            with contextlib.redirect_stdout(sys.stderr):
                print(title)
                distributed.progress(futures, notebook=False)
                print()
        distributed.wait(futures)
    except concurrent.futures.CancelledError:
        raise Fault("the scheduler went away; lines that are whole stay, and the next run goes on from there") from None


def result_of(future, name):
    """The result of a task."""
    if future.status != "error":
        return future.result()
    error = future.exception()
    if isinstance(error, distributed.scheduler.KilledWorker):
        return failed(f"{name}: several workers died, one after the other, while they had it")
    return failed(f"{name}: {error}")


def whole(results):
    """The results, where none failed."""
    faults = [result["fault"] for result in results if "fault" in result]
    if faults:
        raise Fault("\n".join(faults))
    return results


def converted(client, program, pairs, shows):
    """Turns IPFIX Files into lines, each as a pair of paths, and returns how many octets of lines each has."""
    run = secrets.token_hex(4)
    sources, targets = zip(*pairs)
    many = len(pairs)
    try:
        futures = client.map(convert, [program] * many, sources, targets, [run] * many, pure=False)
        awaited(futures, f"IPFIX Files to lines ({many})", shows)
        results = whole([result_of(future, source) for future, source in zip(futures, sources)])
        return [result["octets"] for result in results]
    finally:
        # what a worker that died had begun
        for folder in {os.path.dirname(target) for target in targets}:
            for left in pathlib.Path(folder).glob(f".*.{run}.*.part"):
                left.unlink(missing_ok=True)


def added(client, files, step, block, shows):
    """The sums of all lines, block by block, of files with their octets. The tasks are one graph, which Dask walks in
    depth: so sums are added soon, and few are held at a time."""
    names = [(path, start, size, step) for path, octets in files for start, size in lines.blocks(octets, block)]
    if not names:
        raise Fault("none of the files has a record")
    parts = [dask.delayed(sum_block)(*name) for name in names]
    while len(parts) > 1:
        parts = [dask.delayed(add_sums)(parts[at : at + TOGETHER]) for at in range(0, len(parts), TOGETHER)]
    future = client.compute(parts[0])
    awaited([future], f"blocks of {block / 2**20:g} MiB to sums ({len(names)})", shows)
    return whole([result_of(future, "sums")])[0]


def pairs_of(archive, target):
    """Each IPFIX File below a folder, with the file of its lines below another."""
    archive, target = pathlib.Path(archive).absolute(), pathlib.Path(target).absolute()
    if not archive.is_dir():
        raise Fault(f"{archive}: no such folder")
    found = sorted(archive.rglob("*.ipfix"))
    if not found:
        raise Fault(f"{archive}: no file in it has a name that ends in .ipfix")
    return [(str(path), str(target / path.relative_to(archive)) + ".json") for path in found]


def answered(client, program, archive, target, top, step, block, shows):
    """Turns an archive into lines, and answers by all of them."""
    pairs = pairs_of(archive, target)
    octets = converted(client, program, pairs, shows)
    return answers_of(added(client, zip((path for _, path in pairs), octets), step, block, shows), top, step)
