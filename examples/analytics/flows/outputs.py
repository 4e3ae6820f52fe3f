"""Files that are written whole or not at all."""

import contextlib
import os
import pathlib
import secrets
import tempfile

from .faults import Fault


@contextlib.contextmanager
def replacing(path):
    """A path beside this one to write to. It takes this one's place at the end, where nothing went wrong. Where this one
    is a link, that is the place of what it leads to."""
    path = pathlib.Path(os.path.realpath(path))
    if path.exists() and not path.is_file():
        raise Fault(f"{path}: no regular file, which could be replaced")
    beside = path.with_name(f".{path.name}.{secrets.token_hex(4)}.part")
    try:
        yield beside
        with open(beside, "rb") as file:
            os.fsync(file.fileno())
        os.replace(beside, path)
    except OSError as error:
        raise Fault(f"{path}: {error.strerror}") from None
    finally:
        with contextlib.suppress(FileNotFoundError):
            os.unlink(beside)


def scratch():
    """A folder of temporary files, for as long as it is wanted."""
    return tempfile.TemporaryDirectory(prefix="flows-", ignore_cleanup_errors=True)


def write_text(path, text):
    """Writes a file, or to standard output where the path is `-`."""
    if path == "-":
        print(text, end="")
        return
    with replacing(path) as beside:
        beside.write_text(text, encoding="utf-8")
