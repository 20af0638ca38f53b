# SPDX-License-Identifier: Apache-2.0
"""The program, and what it answers. It alone judges: every statement about a log comes from one of its answers."""
from __future__ import annotations

import contextlib
import errno
import os
import re
import subprocess
import sys
from collections.abc import Iterable
from dataclasses import dataclass, field
from enum import IntEnum
from functools import cached_property

TOP = os.path.realpath(f"{__file__}/../../../..")
REMEMBERED = 1 << 20


class Status(IntEnum):
    ACCEPTED = 0
    REFUSED = 1
    MALFORMED = 2
    USAGE = 3
    UNREADABLE = 4
    UNWRITTEN = 5
    NO_MEMORY = 6
    LIMIT = 7
    # a file can't be read or written, or the program can't be run
    UNABLE = 70


# The statuses with which the program says something of what it was given, and those of its faults.
ANSWERS = (Status.ACCEPTED, Status.REFUSED, Status.MALFORMED, Status.USAGE, Status.LIMIT)
FAULTS = {Status.UNREADABLE: "a read of the log failed", Status.UNWRITTEN: "a write of the answer failed",
          Status.NO_MEMORY: "there was no memory"}
VERDICT = re.compile(r"accepted (?P<events>\d+) events"
                     r"|refused line (?P<line>\d+) rule (?P<rule>\d+) (?P<name>\S+) at (?P<at>0x[0-9a-f]+)(?: @(?P<label>\S+))?"
                     r"|malformed line (?P<bad>\d+) cause (?P<cause>\d+) (?P<why>\S+)"
                     r"|limit line (?P<last>\d+) (?P<which>\S+)")
WORDS = {"accepted": Status.ACCEPTED, "refused": Status.REFUSED, "malformed": Status.MALFORMED, "limit": Status.LIMIT}


@dataclass(frozen=True)
class Verdict:
    """The line of a verdict: how many events were accepted; or the line that decides, with the number and name of the rule or
    cause, or the name of the limit, and what a rule reports."""

    word: str
    events: int = 0
    line: int = 0
    number: int = 0
    name: str = ""
    at: int = 0
    label: str = ""

    @property
    def rule(self) -> int:
        return self.number if self.word == "refused" else 0

    @property
    def titled(self) -> str:
        return f"rule {self.rule} {self.name}"


def verdict_of(line: str) -> Verdict | None:
    found = VERDICT.fullmatch(line)
    if not found:
        return None
    word, part = line.split(" ", 1)[0], found.groupdict(default="")

    def number(*names: str) -> int:
        return int(next((part[name] for name in names if part[name]), "0"))

    return Verdict(word, number("events"), number("line", "bad", "last"), number("rule", "cause"),
                   part["name"] or part["why"] or part["which"], int(part["at"] or "0", 16), part["label"])


@dataclass(frozen=True)
class Answer:
    """The status of a run of the program, and its text."""

    status: int
    text: str

    @property
    def first(self) -> str:
        return self.text.split("\n", 1)[0]

    @cached_property
    def verdict(self) -> Verdict | None:
        """What the first line says, where it is that of a verdict and of this status."""
        found = verdict_of(self.first)
        return found if found and WORDS[found.word] == self.status else None

    @property
    def accepted(self) -> bool:
        return self.status == Status.ACCEPTED

    @property
    def refusal(self) -> Verdict | None:
        return self.verdict if self.status == Status.REFUSED else None

    @property
    def line(self) -> int | None:
        """The line that decided, where one did."""
        return self.verdict.line or None if self.verdict else None

    @property
    def phases(self) -> tuple[str, ...]:
        """How far the place has come at each PE, in order; none behind another answer than that of rule 4."""
        return tuple(re.findall(r"^pe \d+ ([a-z]+)$", self.text, re.M))


class Unable(Exception):
    """The program could not be run, or gave no answer that has a line; `status` is what this process ends with then."""

    def __init__(self, status: int, why: str = ""):
        super().__init__(why)
        self.status = status


def named_or_built(name: str | None = None) -> str:
    """The program of that name, or that of $BBM, or the built one of this checkout, of which the script `bbm` says
    where its sources changed. Nothing is built for it."""
    named = name or os.environ.get("BBM")
    if named:
        return named
    done = subprocess.run([os.path.join(TOP, "bbm"), "--program"], stdout=subprocess.PIPE, text=True, check=False)
    if done.returncode:
        raise Unable(Status.UNABLE, "there is no program")
    return done.stdout.strip()


def emit(text: str) -> None:
    """Writes to standard output."""
    try:
        sys.stdout.write(text)
        sys.stdout.flush()
    except BrokenPipeError:
        raise
    except OSError as fault:
        raise Unable(Status.UNWRITTEN, f"a write of the answer failed: {fault.strerror}") from fault


def complain(text: str) -> None:
    """Says something on standard error, where it is said anywhere."""
    with contextlib.suppress(OSError):
        os.write(2, f"bbm: {text}\n".encode(errors="backslashreplace"))


@dataclass
class Program:
    """The built program. Answers to small logs are remembered."""

    path: str
    known: dict[tuple[tuple[str, ...], bytes], Answer] = field(default_factory=dict)

    def ask(self, words: tuple[str, ...], log: bytes) -> Answer:
        key = (words, log)
        if key in self.known:
            return self.known[key]
        answer = self.feed(words, [log])
        if len(log) < REMEMBERED:
            self.known[key] = answer
        return answer

    def feed(self, words: tuple[str, ...], parts: Iterable[bytes]) -> Answer:
        """The answer to a log that comes in parts, of which those behind the line that decides may be left."""
        return self.run(words, subprocess.PIPE, parts)

    def run(self, words: tuple[str, ...], log: int, parts: Iterable[bytes] = ()) -> Answer:
        """The answer to a file, by its descriptor, or to a pipe with these parts. A status that says nothing of the log is a
        fault, and so never taken for a yes or a no."""
        try:
            with subprocess.Popen([self.path, *words], stdin=log, stdout=subprocess.PIPE) as running:
                with contextlib.suppress(BrokenPipeError):
                    for part in parts:
                        assert running.stdin
                        running.stdin.write(part)
                text, _ = running.communicate()
        except OSError as fault:
            raise Unable(Status.NO_MEMORY if fault.errno == errno.ENOMEM else Status.UNABLE,
                         f"the program can't be run: {fault}") from fault
        if running.returncode < 0:
            raise Unable(Status.UNABLE, f"the program was ended by signal {-running.returncode}, so there is no answer")
        if running.returncode not in ANSWERS:
            status = Status(running.returncode) if running.returncode in FAULTS else Status.UNABLE
            why = FAULTS.get(status, f"the program ended with status {running.returncode}")
            raise Unable(status, f"{why}, so there is no answer")
        return Answer(running.returncode, text.decode("latin-1"))

    def check(self, log: bytes) -> Answer:
        return self.ask(("check",), log)

    def explain(self, log: bytes) -> Answer:
        return self.ask(("explain",), log)

    def has(self, command: str) -> bool:
        """Whether the usage line names a command."""
        return command in re.findall(r"[a-z]+", self.ask((), b"").text.partition("bbm")[2])


def built() -> Program:
    """The program that the script names."""
    return Program(os.environ["BBM"])
