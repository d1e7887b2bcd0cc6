"""Files of the command: read no further than a sheet can be long, written aside and then renamed, so that none is ever half written."""

import errno
import os
import sys
from contextlib import ExitStack, contextmanager, suppress

from ._library import FILE_MOST

STANDARD = "-"


def load(path):
    """A file's bytes, at most one more than a sheet may have; - is standard input."""
    if path == STANDARD:
        if sys.stdin is None:
            raise OSError(errno.EBADF, "it is closed")
        return sys.stdin.buffer.read(FILE_MOST + 1)
    with open(path, "rb") as file:
        return file.read(FILE_MOST + 1)


def store(contents):
    """Writes files, each path with its bytes; they take their names when all are written."""
    with ExitStack() as stack:
        for path, content in contents.items():
            with open(stack.enter_context(aside(path)), "wb") as file:
                file.write(content)


class NotStored(OSError):
    """A file that could not be written, under the name that it was to have."""


@contextmanager
def aside(path):
    """A path to write to in place of another, whose name it takes at the end; after an exception nothing of it is left."""
    special = os.path.exists(path) and not os.path.isfile(path)
    try:
        with _before(path) if special else _beside(os.path.realpath(path)) as place:
            yield place
    except NotStored:
        raise
    except OSError as error:
        raise NotStored(error.errno, error.strerror, path) from None


@contextmanager
def _beside(path):
    place = f"{path}.{os.getpid()}~"
    try:
        yield place
        os.replace(place, path)
    finally:
        with suppress(FileNotFoundError):
            os.remove(place)


@contextmanager
def _before(path):
    """Of a device or a pipe, whose name cannot be taken: the whole is written elsewhere and then copied."""
    import shutil
    import tempfile
    with tempfile.TemporaryDirectory() as folder:
        place = os.path.join(folder, "whole")
        yield place
        with open(place, "rb") as source, open(path, "wb") as target:
            shutil.copyfileobj(source, target)
