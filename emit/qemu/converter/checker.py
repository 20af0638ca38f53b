# SPDX-License-Identifier: Apache-2.0 OR GPL-2.0-or-later
"""The program that judges a log."""
from __future__ import annotations

from converter.ending import Status, Unjudged
from why.asking.program import Program, Unable, Verdict, named_or_built

SAY_NOTHING = ("malformed", "limit")  # the verdicts that are no answer to a log of the converter


def program_of(asked: str | None) -> Program:
    """The one that is named, or $BBM, or the built one."""
    try:
        return Program(named_or_built(asked))
    except Unable as why:
        raise Unjudged(Status.FAULT, "there is no checker") from why


def judge(program: Program, text: str) -> tuple[str, Verdict]:
    """What the program says of a log, and its verdict."""
    try:
        answer = program.check(text.encode())
    except Unable as why:
        raise Unjudged(Status(why.status), f"{program.path}: {why}") from why
    if answer.verdict is None:
        raise Unjudged(Status.FAULT, f"{program.path} check ended with status {answer.status}, and gave no verdict")
    if answer.verdict.word in SAY_NOTHING:
        raise Unjudged(Status(answer.status), f"the checker says: {answer.first}")
    return answer.first, answer.verdict
