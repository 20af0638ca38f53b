# SPDX-License-Identifier: Apache-2.0 OR GPL-2.0-or-later
"""What the converter was asked for, and the trace."""
from __future__ import annotations

import argparse
import sys
from collections.abc import Collection, Iterable, Iterator
from dataclasses import dataclass
from typing import NoReturn

from converter import normalisations
from converter.ending import Status, Unjudged, ends_with
from converter.forms import form_of
from converter.worlds import WORLDS, World

STANDARD_INPUT = "-"


@dataclass(frozen=True)
class Asked:
    """The words: a world and a trace, and what is to be done. `allow` has normalisations and words of the header."""

    world: World
    trace: str
    log: str | None
    symbols: str | None
    functions: bool
    allow: list[str]
    header: str
    follow: bool
    suggest: bool
    check: str | None


class Words(argparse.ArgumentParser):
    def error(self, message: str) -> NoReturn:
        self.print_usage(sys.stderr)
        raise Unjudged(Status.WRONG_WORDS, message)


def parser(about: str | None) -> Words:
    words = Words(prog="bbm_convert", allow_abbrev=False, description=about,
                  formatter_class=argparse.RawDescriptionHelpFormatter)
    words.add_argument("world", nargs="?", choices=list(WORLDS))
    words.add_argument("trace", nargs="?", help="a file, or - for standard input with --follow")
    words.add_argument("-o", "--log", help="the log; standard output unless given")
    words.add_argument("--symbols", help="what /proc/kallsyms has, or an ELF file")
    words.add_argument("--functions", action="store_true", help="labels are symbols, though there is debug data")
    words.add_argument("--allow", default="", help="normalisations, with commas between")
    words.add_argument("--header", default="", help="the first line of the log, in the place of the one found")
    words.add_argument("--words", default="", help="words of the header, with commas between")
    words.add_argument("--follow", action="store_true", help="convert while the trace is written")
    words.add_argument("--suggest", action="store_true", help="find the normalisations that the trace needs")
    words.add_argument("--check", help="the checker for --suggest: else $BBM, or the one of this repository")
    words.add_argument("--list", action="store_true", help="name the normalisations, and the words")
    return words


def read_words(about: str | None) -> Asked | None:
    """What is asked for, or None where it was to list the normalisations, which is done."""
    words = parser(about)
    given = words.parse_args()
    allow, headed = ([name for name in some.split(",") if name] for some in (given.allow, given.words))
    refuse_header(words, given.header, given.world, headed)
    refuse_others(words, given.world, given.header, allow, headed)
    if given.list:
        print("\n".join(normalisations.listed(given.world)))
        return None
    if not given.trace:
        words.error("WORLD and TRACE are needed")
    if "out-of-context" in allow and given.follow:
        words.error("out-of-context looks ahead over the trace, so --follow can't do it")
    return Asked(WORLDS[given.world], given.trace, given.log, given.symbols, given.functions, [*allow, *headed],
                 given.header, given.follow, given.suggest, given.check)


def refuse_header(words: Words, header: str, world: str | None, headed: Collection[str]) -> None:
    """Ends where a header isn't one of the world, or says by itself what words say."""
    form = form_of(header) if header else None
    is_of_hyp = world is not None and WORLDS[world].is_hyp
    if header and (form is None or (form.asid is None) != is_of_hyp):
        words.error(f'"{header}" is no header of the world {world} (docs/FORMAT.md)')
    if headed and header:
        words.error("--header has the words itself")


def refuse_others(words: Words, world: str | None, header: str, allow: Iterable[str], headed: Iterable[str]) -> None:
    """Ends where a word or a normalisation isn't one of the world, or of the header's version."""
    of_world = f" of the world {world}" if world else ""
    wrong = [name for name in headed if name not in normalisations.of_world(normalisations.WORDS, world)]
    if wrong:
        words.error(f"no word of a header{of_world}: {', '.join(wrong)}; --list names them")
    wrong = [name for name in allow if name not in normalisations.of_world(normalisations.ALL, world)]
    if wrong:
        words.error(f"no normalisation{of_world}: {', '.join(wrong)}; --list names them")
    for name in allow:
        if not normalisations.is_of_version(name, header):
            words.error(f"{name} needs a header {normalisations.WHEN[normalisations.ALL[name].versions]}")


def read_lines(path: str) -> Iterator[str]:
    source: int | str = 0 if path == STANDARD_INPUT else path
    with ends_with(Status.CANT_READ, path), open(source, encoding="latin-1", newline="\n") as file:
        # A line that was cut when QEMU was ended has no newline, and is the last.
        yield from (line[:-1] for line in file if line.endswith("\n"))
