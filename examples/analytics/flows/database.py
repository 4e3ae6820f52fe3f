"""Flows in an sqlite3 database: loading lines of JSON into it, and asking it."""

import contextlib
import hashlib
import os
import pathlib
import sqlite3

from . import lines
from .answers import TOP, Answers, Totals, step_for
from .faults import Fault
from .lines import Options
from .outputs import replacing

HERE = pathlib.Path(__file__).resolve().parent
QUERIES = HERE.parent / "queries"
# What tells our databases from others, in the header of the file: "IPFX", and the version of the schema.
APPLICATION = int.from_bytes(b"IPFX", "big")
VERSION = 1
INSERT_FLOW = (
    "INSERT INTO flow (source, destination, source_port, destination_port, service_port, protocol, octets, packets,"
    " started, ended, loaded) VALUES (?1, ?2, ?3, ?4, min(?3, ?4), ?5, ?6, ?7, ?8, ?9, ?10)"
)
MANY = 10_000


def statements(name):
    return (HERE / name).read_text(encoding="utf-8")


@contextlib.contextmanager
def connected(path, name, **options):
    """A connection. What goes wrong with the database is a fault of this name."""
    try:
        with contextlib.closing(sqlite3.connect(path, isolation_level=None, **options)) as connection:
            yield connection
    except sqlite3.Error as error:
        raise Fault(f"{name}: {error}") from None


class Hashed:
    """The lines of a file, and meanwhile the digest of its octets."""

    def __init__(self, file):
        self.file = file
        self.digest = hashlib.blake2b(digest_size=16)

    def __iter__(self):
        for line in self.file:
            self.digest.update(line)
            yield line


def insert(connection, name):
    """Inserts the records of a file, and returns how many flows and options records they are."""
    loaded = connection.execute("SELECT coalesce(max(id), 0) + 1 FROM loaded").fetchone()[0]
    flows = options = 0
    many = []
    with contextlib.closing(lines.opened(name)) as file:
        hashed = Hashed(file)
        for record in lines.records(hashed, name):
            if type(record) is Options:
                connection.execute("INSERT INTO options_record VALUES (?, ?)", (str(record), loaded))
                options += 1
                continue
            many.append((*record, loaded))
            flows += 1
            if len(many) == MANY:
                connection.executemany(INSERT_FLOW, many)
                many.clear()
    connection.executemany(INSERT_FLOW, many)
    digest = hashed.digest.digest()
    before = connection.execute("SELECT name FROM loaded WHERE digest = ?", (digest,)).fetchone()
    if before:
        raise Fault(f"{name}: these lines are in the database already, from {before[0]}")
    connection.execute("INSERT INTO loaded VALUES (?, ?, ?, ?, ?)", (loaded, name, digest, flows, options))
    return flows, options


def check(connection, path):
    """Refuses a database that isn't ours."""
    application = connection.execute("PRAGMA application_id").fetchone()[0]
    version = connection.execute("PRAGMA user_version").fetchone()[0]
    if application != APPLICATION:
        raise Fault(f"{path}: no database of flows")
    if version != VERSION:
        raise Fault(f"{path}: a database of version {version}, and not of {VERSION}")


def load_new(path, names):
    """Makes a database. Where something goes wrong there is none."""
    with replacing(path) as beside, connected(beside, path) as connection:
        # nobody reads it before it is whole, and a part is thrown away
        connection.execute("PRAGMA journal_mode = OFF")
        connection.execute("PRAGMA synchronous = OFF")
        connection.execute("PRAGMA cache_size = -262144")
        connection.executescript(statements("schema.sql"))
        connection.execute(f"PRAGMA application_id = {APPLICATION}")
        connection.execute(f"PRAGMA user_version = {VERSION}")
        connection.execute("BEGIN")
        counts = [insert(connection, name) for name in names]
        connection.execute("COMMIT")
        connection.executescript(statements("indexes.sql"))
        connection.execute("PRAGMA analysis_limit = 1000")
        connection.execute("ANALYZE")
    return counts


def load_more(path, names):
    """Adds to a database, all of it or nothing."""
    with connected(path, path) as connection:
        check(connection, path)
        connection.execute("BEGIN IMMEDIATE")
        # a connection that is closed within a transaction undoes it
        counts = [insert(connection, name) for name in names]
        connection.execute("COMMIT")
    return counts


def load(path, names):
    """Loads files of lines into a database, and returns how many flows and options records each had."""
    return load_more(path, names) if os.path.exists(path) else load_new(path, names)


def asked(connection, query, **values):
    """The rows of one of the queries."""
    values = {"top": None, "step": None, **values}
    text = (QUERIES / f"{query}.sql").read_text(encoding="utf-8")
    return [tuple(row) for row in connection.execute(text, values)]


def ask(path, top=TOP, step=None):
    """The answers out of a database."""
    if not os.path.exists(path):
        raise Fault(f"{path}: no such file")
    with connected(pathlib.Path(path).absolute().as_uri() + "?mode=ro", path, uri=True) as connection:
        check(connection, path)
        totals = Totals(*asked(connection, "totals")[0])
        step = step or step_for(totals.first, totals.last)
        return Answers(
            totals=totals,
            step=step,
            sources=asked(connection, "sources", top=top),
            destinations=asked(connection, "destinations", top=top),
            services=asked(connection, "services", top=top),
            protocols=asked(connection, "protocols"),
            sizes=asked(connection, "sizes"),
            traffic=asked(connection, "traffic", step=step),
        )
