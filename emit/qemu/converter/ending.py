# SPDX-License-Identifier: Apache-2.0 OR GPL-2.0-or-later
"""How the converter ends: its exit statuses, and why there is no answer."""
from __future__ import annotations

import sys
from collections.abc import Iterator
from contextlib import contextmanager
from enum import IntEnum


class Status(IntEnum):
    """Those of the checker where it has one for the same, and three that it hasn't. A refusal that is left is 1, which
    bbm_convert makes of 101: Python itself ends with 1 where it fails."""

    DONE = 0
    DAMAGED = 2
    WRONG_WORDS = 3
    CANT_READ = 4
    CANT_WRITE = 5
    NO_MEMORY = 6
    LIMIT = 7
    NOTHING_JUDGED = 8
    OTHER_FORMS = 9
    NO_END = 10
    FAULT = 70
    REFUSED = 101


class Unjudged(Exception):
    """Why there is no answer, as a sentence, and the exit status of that."""

    def __init__(self, status: Status, text: str) -> None:
        super().__init__(text)
        self.status, self.text = status, text


def unreadable(index: int, line: str) -> Unjudged:
    return Unjudged(Status.DAMAGED, f"line {index + 1} of the trace can't be read: {line[:80]!r}")


@contextmanager
def ends_with(status: Status, path: str) -> Iterator[None]:
    """A read or a write within that fails ends the converter with this status, and names the file."""
    try:
        yield
    except BrokenPipeError:
        raise
    except OSError as error:
        raise Unjudged(status, f"{path}: {error.strerror}") from error


def tell(text: str) -> None:
    print(f"bbm_convert: {text}", file=sys.stderr)
