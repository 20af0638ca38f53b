# SPDX-License-Identifier: Apache-2.0 OR GPL-2.0-or-later
"""The log of a whole trace."""
from __future__ import annotations

from typing import TextIO

from converter.ending import Status, Unjudged, tell
from converter.facts import facts_of
from converter.normalisations import as_asked
from converter.report import missing_from, remarks_of, report
from converter.suggesting import Search, Suggesting
from converter.words import Asked, read_lines
from symbols import Symbols

WRITTEN = (Status.DONE, Status.NO_END)  # with which there is a log


def make_log(asked: Asked, symbols: Symbols, out: TextIO) -> Status:
    """Makes it, with --suggest by the normalisations that it needs. Answers the exit status."""
    lines = list(read_lines(asked.trace))
    facts = facts_of(asked.world, symbols, lines)
    if "snapshot" in asked.allow and facts.start is None:
        raise Unjudged(Status.NOTHING_JUDGED,
                       f"no {asked.world.first} was ever loaded, so a log that begins there is empty")
    search = Search(asked, lines, facts)
    has_nothing = bool(missing_from(search.judged(asked.allow)))
    is_accepted = not asked.suggest or has_nothing or Suggesting(search, asked.allow).is_accepted()
    header, judged = search.header(asked.allow), search.judged(asked.allow)
    status = report(search.conversion, header, asked.allow, judged, remarks_of(lines))
    if status not in WRITTEN:
        return status
    write_log(asked, search, out, has_end=status is Status.DONE)
    if asked.suggest and is_accepted:
        tell_suggestion(asked, search, status)
    return status if is_accepted else Status.REFUSED


def write_log(asked: Asked, search: Search, out: TextIO, has_end: bool) -> None:
    if asked.log or not asked.suggest:
        out.write(search.log.text(search.header(asked.allow), search.log.told(asked.allow), has_end))
        out.flush()
        if asked.log:
            tell(f"the log is in {asked.log}")


def tell_suggestion(asked: Asked, search: Search, status: Status) -> None:
    """Says with what the log is accepted."""
    what = "nothing is refused, and there is no end, of" if status is Status.NO_END else "accepted"
    made = f" with{as_asked(asked.allow)}" if asked.allow else ", as it is"
    print(f"{what} {len(search.log.told(asked.allow))} events{made}")
    if "snapshot" in asked.allow:
        print(f"not judged: what is before {search.start()}")
