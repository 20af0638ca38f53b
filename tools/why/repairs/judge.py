# SPDX-License-Identifier: Apache-2.0
"""What the program says of a log with a change: up to the refused line, a little behind it, and of the whole."""
from __future__ import annotations

from dataclasses import dataclass

from why.asking.program import Answer, Program
from why.log.lines import Log, Numbers
from why.repairs.changes import Change, Move, Piece, edited
from why.repairs.scene import Scene

ACCEPTED_ALL = 1 << 40


@dataclass(frozen=True)
class Repair:
    """A change with which the lines up to the refused one pass, and the whole log gets past that: where its next
    refusal is, if any. And what is to be said of it besides."""

    change: Change
    whole: Answer
    next_line: int | None
    note: str = ""

    @property
    def reach(self) -> int:
        return ACCEPTED_ALL if self.whole.accepted else self.next_line or 0


class Judge:
    """Judges changes by the lines of these numbers, the refused one last. Answers are remembered."""

    def __init__(self, program: Program, log: Log, scene: Scene, numbers: Numbers):
        self.program, self.log, self.scene, self.numbers = program, log, scene, numbers
        self.is_whole = isinstance(numbers, range)
        self.pieces: dict[int, Piece] = {}
        self.fronts: dict[int, Piece] = {}
        self.known: dict[tuple, Repair] = {}

    def behind(self, change: Change) -> int:
        """The last line that counts: the refused one, or one of those behind it that the change moves, or moves that
        behind."""
        refused = self.scene.refused.at
        return max([refused, *(at for edit in change.edits if isinstance(edit, Move) for at in (edit.at, edit.after))])

    def piece(self, behind: int) -> Piece:
        if behind not in self.pieces:
            numbers = range(2, behind + 1) if self.is_whole else [*self.numbers, *self.own_until(behind)]
            self.pieces[behind] = Piece(self.log, numbers)
        return self.pieces[behind]

    def own_until(self, behind: int) -> list[int]:
        """The lines behind the refused one up to another, by the PEs of these two."""
        pes = {self.log.event(at).pe for at in (self.scene.refused.at, behind)}
        return [line.at for line in self.scene.later if line.at <= behind and line.event.pe in pes]

    def answer_to(self, change: Change) -> Repair:
        """What the program says of these lines with the change; its line has its number in the log that was given."""
        key = change.edits
        if key not in self.known:
            self.known[key] = self.judged(self.piece(self.behind(change)), change)
        return self.known[key]

    def judged(self, piece: Piece, change: Change) -> Repair:
        log = piece.edited(change)
        answer = self.program.feed(("check",), log.parts)
        return Repair(change, answer, log.number(answer.line) if answer.line else None)

    def in_front(self, change: Change, last: int) -> Repair:
        """What the program says of the whole log up to a line with the change."""
        if last not in self.fronts:
            self.fronts[last] = Piece(self.log, range(2, last + 1))
        return self.judged(self.fronts[last], change)

    def in_lines(self, change: Change, numbers: Numbers) -> Answer:
        """What the program says of other lines with the change."""
        return self.program.check(edited(self.log, [*numbers, *self.own_until(self.behind(change))], change)[0])
