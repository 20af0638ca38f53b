# SPDX-License-Identifier: Apache-2.0 OR GPL-2.0-or-later
"""Makes a log of one world of a trace of bbm_trace.c.

    emit/qemu/bbm_convert WORLD TRACE [-o LOG] [--symbols FILE] [--allow NAME,..] [--suggest]

WORLD is `kernel` (EL1), `hyp` (EL2 without VHE, and stage 2), `vhe` (a kernel that runs at EL2, told as one at EL1) or
`stage2` (stage 2 alone, of a hypervisor with or without VHE). TRACE is a file, or a pipe with --follow, which writes
each line of the log as soon as the trace has what it comes from.

The log is one of version 5, unless --header has another, and says what the machine did. Each departure from it is a
normalisation with a name, is made only where --allow has the name, and is told on standard error with how often it was
made and what it weakens: --list names them, and the words that --words can give to the header, each of which is told as
the premise or the demand that it is. --suggest judges the log, tries which of them get past each refusal, and prints
the least set that does, with the line, rule and symbol.

Exit status 0; 1 where a refusal is left that --suggest gets not past. With the others nothing is judged, and standard
error says why: 2 the trace is damaged; 3 the words are wrong; 4 a file can't be read; 5 a write failed; 6 there is no
memory; 8 the log would be accepted whatever the guest did, since it has no root, no table write or no TLBI of this
world; 9 some root is of another form than the log's one header has, or a log of a hypervisor without VHE is asked for,
and it has VHE, or the header that is given is too old for one that has; 10 the trace has no end; 70 there is no
checker, or anything else. Then there is no log, or with --follow none with an `end`; but with 10 there is one without
an `end`, so it can be refused, and not accepted.
"""
from __future__ import annotations

import os
import signal
import sys
from collections.abc import Iterator
from contextlib import contextmanager, suppress
from typing import TextIO

# Beside the package stands what knows of symbols, and in tools what runs the program.
HERE = os.path.dirname(os.path.dirname(os.path.realpath(__file__)))
sys.path[0:1] = [HERE, os.path.join(HERE, "../../tools")]

from converter.ending import Status, Unjudged, ends_with, tell  # noqa: E402
from converter.following import follow  # noqa: E402
from converter.whole import make_log  # noqa: E402
from converter.words import Asked, read_words  # noqa: E402
from symbols import NoTool, Symbols  # noqa: E402


@contextmanager
def opened(path: str | None) -> Iterator[TextIO]:
    """The log's file. One to which nothing was written is taken away again."""
    try:
        with open(path, "w") if path else open(1, "w", closefd=False) as out:
            yield out
    finally:
        if path and os.path.isfile(path) and not os.path.getsize(path):
            os.remove(path)


def convert(asked: Asked) -> Status:
    with ends_with(Status.CANT_READ, asked.symbols or ""):
        symbols = Symbols(asked.symbols, asked.functions)
    with ends_with(Status.CANT_WRITE, asked.log or "standard output"), opened(asked.log) as out:
        return (follow if asked.follow else make_log)(asked, symbols, out)


def main() -> Status:
    asked = read_words(__doc__)
    return convert(asked) if asked else Status.DONE


def status_of_fault(error: Exception) -> Status:
    """Says why there is no answer. Answers the exit status."""
    if isinstance(error, Unjudged):
        tell(error.text)
        return error.status
    if isinstance(error, MemoryError):
        tell("there is no memory")
        return Status.NO_MEMORY
    tell(str(error) if isinstance(error, NoTool) else f"{type(error).__name__}: {error}")
    return Status.FAULT


def run_guarded() -> Status:
    """Runs the words, and answers the exit status, whatever comes."""
    try:
        with ends_with(Status.CANT_WRITE, "standard output"):
            status = main()
            sys.stdout.flush()
        return status
    except BrokenPipeError:
        # as other commands end where nobody reads any more
        signal.signal(signal.SIGPIPE, signal.SIG_DFL)
        os.kill(os.getpid(), signal.SIGPIPE)
        return Status.CANT_WRITE
    except Exception as error:  # whatever it is, it is no answer
        with suppress(OSError):
            sys.stdout.flush()
        return status_of_fault(error)


if __name__ == "__main__":
    STATUS = run_guarded()
    # What couldn't be written isn't tried once more, as Python would, to end with a status of its own.
    sys.stderr.flush()
    os._exit(STATUS)
