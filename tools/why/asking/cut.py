# SPDX-License-Identifier: Apache-2.0
"""`partial`: judges a log without its last lines, as a crash leaves it. It is read as a stream."""
from __future__ import annotations

from collections.abc import Iterable, Iterator

from why.asking.program import Answer
from why.log.stream import PART


class Cut:
    """A log with a right `end` line, how many events it has, and how many bytes of a line without its newline were cut."""

    def __init__(self, parts: Iterable[bytes]):
        self.parts, self.lines, self.half = parts, 0, 0
        self.left = self.log()

    @property
    def events(self) -> int:
        return max(0, self.lines - 1)

    def log(self) -> Iterator[bytes]:
        """The whole lines, without an `end` line at their end. A header that is cut stays as it is, and so does what has no
        newline for so long that it is no log."""
        kept = b""
        for part in self.parts:
            kept += part
            last = kept.rfind(b"\n", 0, max(0, kept.rfind(b"\n"))) + 1
            yield kept[:last]
            self.lines += kept.count(b"\n", 0, last)
            kept = kept[last:]
            if len(kept) >= PART:
                break
        last, newline, half = kept.rpartition(b"\n")
        if newline and (self.lines == 0 or not last.startswith(b"end ")):
            self.lines += 1
            yield last + newline
        if self.lines == 0:
            yield kept
            return
        self.half = len(half)
        yield b"end %d\n" % self.events

    def told(self, answer: Answer) -> str:
        """How many events were judged: all, or those up to the line that decides and with it. Where that is line 1 no line is an
        event, and what comes behind isn't read."""
        if answer.line == 1:
            return "judged 0 of 0 events\n"
        for _ in self.left:
            pass
        judged = self.events if answer.line is None else min(self.events, answer.line - 1)
        half = f", {self.half} bytes of a half line cut" if self.half else ""
        return f"judged {judged} of {self.events} events{half}\n"
