# SPDX-License-Identifier: Apache-2.0
"""What is judged, read as a stream from an open file, and again as often as it has to be.

What comes through a pipe and is read again is kept in a temporary file. The memory is that of one part.
"""
from __future__ import annotations

import contextlib
import os
import stat
from collections.abc import Iterator
from itertools import islice

from why.asking.program import Answer, Program, Status, Unable
from why.log.lines import for_questions

PART = 1 << 20
# So many bytes of a line are read where it has more: the program takes no line of more than 200.
LONGEST = 300


@contextlib.contextmanager
def faults(name: str, status: Status):
    """A fault of the system ends this process with the status for it."""
    try:
        yield
    except OSError as fault:
        raise Unable(status, f"{name}: {fault.strerror}, so there is no answer") from fault


class Source:
    """The bytes of an open file, standard input unless another descriptor is given. The name is for what is said of faults."""

    def __init__(self, name: str = "", number: int = 0):
        self.name, self.input, self.file = name or "standard input", number, None
        with self.reading():
            is_file = stat.S_ISREG(os.fstat(number).st_mode)
            self.begin = os.lseek(number, 0, os.SEEK_CUR) if is_file else 0
        self.held = number if is_file else None

    def reading(self):
        return faults(self.name, Status.UNREADABLE)

    def keeping(self):
        return faults(f"the log can't be kept in {os.environ.get('TMPDIR', '/tmp')}", Status.UNABLE)

    def parts(self) -> Iterator[bytes]:
        """The bytes that weren't read yet, part by part."""
        with self.reading():
            while part := os.read(self.input, PART):
                yield part

    def kept(self) -> Iterator[bytes]:
        """The same, where they are read again: those of a pipe are kept."""
        if self.held is None:
            # (it takes long to load)
            from tempfile import TemporaryFile

            with self.keeping():
                self.file = TemporaryFile()
                self.held = self.file.fileno()
        for part in self.parts():
            if self.file:
                with self.keeping():
                    self.file.write(part)
                    self.file.flush()
            yield part

    def answer(self, program: Program, *words: str) -> Answer:
        """What the program answers to these bytes."""
        return program.feed(words, self.kept()) if self.held is None else program.run(words, self.input)

    def size(self) -> int:
        return os.fstat(self.held).st_size - self.begin

    def again(self, size: int | None = None, since: int = 0) -> Iterator[bytes]:
        """The first bytes, so many and from one on: those of a file, or of a pipe those that were kept."""
        at = self.begin + since
        end = self.begin + (self.size() if size is None else size)
        with self.reading():
            while at < end and (part := os.pread(self.held, min(PART, end - at), at)):
                at += len(part)
                yield part

    def lines(self, size: int | None = None) -> Iterator[bytes]:
        """The lines of these bytes, each without its newline, and of a long one its begin; the last may have had none."""
        rest = b""
        for part in self.again(size):
            first, *whole = part.split(b"\n")
            if whole:
                yield rest + first
                rest = whole.pop()
                yield from whole
            else:
                rest = (rest + first)[:LONGEST]
        yield rest

    def line(self, at: int) -> bytes | None:
        """The line of this number, from 1 on; None where there is none."""
        return next(islice(self.lines(), at - 1, None), None)

    def read(self) -> bytes:
        """All bytes."""
        for _ in self.kept() if self.held != self.input else ():
            pass
        return b"".join(self.again())


class Front:
    """The header and the first events of a source, for questions behind them: so many bytes, and so many events."""

    def __init__(self, source: Source, size: int, events: int):
        self.source, self.size, self.events = source, size, events

    @property
    def header(self) -> str:
        return next(self.source.lines()).decode("latin-1")

    def lines(self) -> Iterator[tuple[int, bytes]]:
        """The event lines with their numbers, from 2 on."""
        return islice(enumerate(self.source.lines(self.size), 1), 1, self.events + 1)

    def asked(self, size: int, since: int = 0) -> Iterator[bytes]:
        """The first bytes, so many and from one on, under the header for questions."""
        header = self.header
        if since == 0:
            yield for_questions(header).encode("latin-1")
        yield from self.source.again(size, since or len(header))

    def with_tail(self, tail: list[bytes]) -> Iterator[bytes]:
        """The log of these events and of the lines behind them."""
        yield from self.asked(self.size)
        yield b"".join(line + b"\n" for line in [*tail, b"end %d" % (self.events + len(tail))])


def whole(source: Source, events: int) -> Front:
    """All events of an accepted log."""
    return Front(source, source.size() - len(b"end %d\n" % events), events)
