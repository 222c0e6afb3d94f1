"""Files that are written whole or not at all."""

from __future__ import annotations

import os

from .options import Usage


def write_whole(path: str, data: bytes, source: str | None = None) -> None:
    if source and os.path.realpath(path) == os.path.realpath(source):
        raise Usage(f"{path} is the file that is read; name another one to write")
    real = os.path.realpath(path)
    try:
        if os.path.exists(real) and not os.path.isfile(real):
            with open(real, "wb") as out:  # a device or a pipe cannot be renamed to
                out.write(data)
        else:
            write_renamed(real, data)
    except OSError as bad:
        raise Usage(f"{path} cannot be written: {bad.strerror}") from None


def write_renamed(path: str, data: bytes) -> None:
    """A temporary file beside it takes the bytes and is then given the name."""
    mode = os.stat(path).st_mode & 0o777 if os.path.exists(path) else None
    temporary = os.path.join(os.path.dirname(path), f".hogzelt-{os.getpid()}")
    handle = os.open(temporary, os.O_WRONLY | os.O_CREAT | os.O_EXCL, 0o666)
    try:
        with os.fdopen(handle, "wb") as out:
            out.write(data)
        if mode is not None:
            os.chmod(temporary, mode)
        os.replace(temporary, path)
    except BaseException:
        os.unlink(temporary)
        raise
