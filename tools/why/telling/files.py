# SPDX-License-Identifier: Apache-2.0
"""Files that are written beside the answer, each as a whole: what was there stays where the write fails."""
from __future__ import annotations

import os
import stat
import tempfile

from why.asking.program import Status, Unable


def write(path: str, text: str) -> None:
    """Writes a file by a new one beside it that takes its name. What is no file, as a pipe, is written to."""
    try:
        write_whole(os.path.realpath(path), text.encode("utf-8", "surrogateescape"))
    except OSError as fault:
        raise Unable(Status.UNWRITTEN, f"{path}: {fault.strerror}, so it isn't written") from fault


def write_whole(path: str, data: bytes) -> None:
    mode = mode_of(path)
    if mode is not None and not stat.S_ISREG(mode):
        with open(path, "wb") as file:
            file.write(data)
        return
    number, new = tempfile.mkstemp(prefix=".bbm-", dir=os.path.dirname(path))
    try:
        with open(number, "wb") as file:
            file.write(data)
            os.fchmod(number, stat.S_IMODE(mode) if mode is not None else 0o666 & ~umask())
        os.replace(new, path)
    except BaseException:
        os.unlink(new)
        raise


def mode_of(path: str) -> int | None:
    """The mode of a file; None where there is none."""
    try:
        return os.stat(path).st_mode
    except FileNotFoundError:
        return None


def umask() -> int:
    """That of this process, which can be read by setting it alone."""
    mask = os.umask(0)
    os.umask(mask)
    return mask
