# SPDX-License-Identifier: Apache-2.0
"""How a text is shown: its width, and whether it has colours and signs beyond ASCII."""
from __future__ import annotations

import os
import shutil
from dataclasses import dataclass

RED, BOLD, DIM, PLAIN = "\x1b[31m", "\x1b[1m", "\x1b[2m", "\x1b[0m"
WITHOUT_COLOURS = ("", "dumb")


@dataclass(frozen=True)
class Style:
    width: int = 80
    colour: bool = False
    unicode: bool = False

    def painted(self, text: str, *codes: str) -> str:
        return "".join(codes) + text + PLAIN if self.colour and codes and text.strip() else text


def style_of(stream) -> Style:
    """That of a stream: colours where it is a terminal that takes them and NO_COLOR isn't set."""
    colour = stream.isatty() and os.environ.get("TERM", "") not in WITHOUT_COLOURS and not os.environ.get("NO_COLOR")
    unicode = (stream.encoding or "").lower().replace("-", "") == "utf8"
    width = max(60, min(120, shutil.get_terminal_size((80, 24)).columns)) if stream.isatty() else 80
    return Style(width, colour, unicode)


def ranges(numbers: list[int], between: str = ",") -> str:
    """Numbers in order, those next to each other as FIRST-LAST."""
    parts: list[list[int]] = []
    for number in numbers:
        if parts and parts[-1][1] == number - 1:
            parts[-1][1] = number
        else:
            parts.append([number, number])
    return between.join(str(first) if first == last else f"{first}-{last}" for first, last in parts)
