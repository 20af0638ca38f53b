# SPDX-License-Identifier: Apache-2.0
"""The lanes as one picture: an SVG, or a page of HTML with the rest of the answer. Each stands by itself, in light and dark."""
from __future__ import annotations

from dataclasses import replace
from html import escape

from why.asking.program import Answer
from why.telling import decoded
from why.telling.answer import Parts
from why.telling.lanes import ALIKE, EFFECTS, LEGEND, LETTERS, Chart, Row, letter_of
from why.telling.style import Style

ROW, LANE, LEFT, TOP, LETTER = 22, 30, 64, 70, 7.3
LONGEST = 84
HEADS_EACH = 30
WIDTHS = {"live": 6, "broken": 10, "seen": 12, "half": 8, "cleansed": 3}

# Each colour in the light, and in the dark.
COLOURS = {
    "paper": ("#ffffff", "#15181c"), "ink": ("#1c2024", "#e6e9ed"), "soft": ("#68707a", "#98a1ab"), "line": ("#d9dde2", "#333a42"),
    "live": ("#9aa7b6", "#66727f"), "broken": ("#ef8d2f", "#f0a04b"), "seen": ("#cf2f2f", "#ef5350"), "half": ("#b98a00", "#d9b441"),
    "gone": ("#4a8f5a", "#6cbf7f"), "bad": ("#c62828", "#ef5350"), "mark": ("#2f5fb3", "#7fa8f0"), "band": ("#fde3e1", "#46201f"),
    "stripe": ("#f5f7f9", "#1b1f24"),
}
# What shapes and texts of a class look like: a colour by its name above.
BOLD = {"font-weight": "bold"}
LOOKS = {
    "": {"fill": "ink"}, "soft": {"fill": "soft"}, "title": {"fill": "ink", "font-size": "13", **BOLD},
    "mark": {"fill": "paper", "font-size": "10.5", **BOLD}, "effect": {"fill": "ink", "font-size": "10.5", **BOLD},
    "own": {"fill": "ink", "font-size": "9", **BOLD}, "refusal": {"fill": "bad", **BOLD},
    "paper": {"fill": "paper"}, "stripe": {"fill": "stripe"}, "band": {"fill": "band"}, "lane": {"stroke": "line"},
    "live": {"fill": "live"}, "broken": {"fill": "broken"}, "seen": {"fill": "seen"}, "half": {"fill": "half"},
    "cleansed": {"fill": "gone"}, "alike": {"fill": "bad"}, "dot": {"fill": "mark"}, "dot refused": {"fill": "bad"},
    "reach": {"stroke": "mark", "stroke-width": "1.3"}, "tile": {"fill": "paper", "stroke": "mark"},
    "tile x": {"fill": "paper", "stroke": "gone"}, "tile o": {"fill": "band", "stroke": "bad"},
    "entry": {"fill": "none", "stroke": "bad", "stroke-width": "2"},
}
# What the letter of an event stands for.
SIGNS = {"W": "a valid value", "C": "an invalid one", **{letter: word for word, letter in LETTERS.items()}, "X": "refused"}
FONT = 'font-family="ui-monospace,DejaVu Sans Mono,Menlo,Consolas,monospace" font-size="12"'


def look(name: str) -> str:
    """The attributes of a class: its colours in the light stand in them, so that a viewer without styles shows them."""
    values = LOOKS.get(name) or LOOKS[name.split(" ", 1)[0]]
    parts = [f'{key}="{COLOURS.get(value, (value,))[0]}"' for key, value in values.items()]
    return " ".join([*([f'class="{name}"'] if name else []), *parts])


def dark(name: str, values: dict[str, str]) -> str:
    """The rule of a class for the dark."""
    colours = ";".join(f"{key}:{COLOURS[value][1]}" for key, value in values.items() if value in COLOURS)
    return f".bbm {'.' + name.replace(' ', '.') if name else 'text'}{{{colours}}}"


STYLE = "@media (prefers-color-scheme:dark){\n" + "\n".join(dark(name, values) for name, values in LOOKS.items()) + "\n}"


def box(x: float, y: float, width: float, height: float, name: str, more: str = "") -> str:
    return f'<rect x="{x:.1f}" y="{y:.1f}" width="{width:.1f}" height="{height:.1f}" {look(name)}{more}/>'


def text(x: float, y: float, name: str, words: str, anchor: str = "start") -> str:
    return f'<text x="{x:.1f}" y="{y:.1f}" {look(name)} text-anchor="{anchor}" xml:space="preserve">{escape(words)}</text>'


class Drawing:
    """Draws a chart."""

    def __init__(self, chart: Chart, title: str):
        self.chart, self.title = chart, title
        longest = min(LONGEST, max(len(self.words(row)) for row in chart.rows))
        self.words_at = LEFT + LANE * (len(chart.pes) + chart.has_alike) + 14
        self.legend = self.legend_rows()
        least = max(len(title), *(len(words) + 6 for _, words in self.legend), 1) * LETTER + 32
        self.width = max(self.words_at + longest * LETTER + 20, least)
        self.bottom = TOP + ROW * len(chart.rows)
        self.height = self.bottom + 34 + 18 * len(self.legend) + 8

    def words(self, row: Row) -> str:
        return row.words() + ("   refused" if row.refused else "")

    def x(self, pe: int) -> float:
        return LEFT + LANE * self.chart.pes.index(pe) + LANE / 2

    @property
    def alike_at(self) -> float:
        return LEFT + LANE * len(self.chart.pes) + LANE / 2

    def y(self, number: int) -> float:
        return TOP + ROW * number

    # ---- the parts

    def heads(self, y: float) -> list[str]:
        parts = [text(LEFT - 12, y, "soft", "PE", "end")]
        parts += [text(self.x(pe), y, "soft", str(pe), "middle") for pe in self.chart.pes]
        if self.chart.has_alike:
            parts.append(text(self.alike_at, y, "soft", "!", "middle"))
        if self.chart.others:
            parts.append(text(self.words_at, y, "soft", f"the last column stands for {self.chart.others} PEs more"))
        return parts

    def ground(self) -> list[str]:
        rows = [box(8, self.y(i), self.width - 16, ROW, "band" if row.refused else "stripe")
                for i, row in enumerate(self.chart.rows) if row.refused or i % 2]
        lanes = [f'<line x1="{self.x(pe):.1f}" x2="{self.x(pe):.1f}" y1="{TOP}" y2="{self.bottom}" {look("lane")}/>'
                 for pe in self.chart.pes]
        return rows + lanes

    def bars(self) -> list[str]:
        """How far the place has come at each PE behind each row: until the next row."""
        parts = []
        for number, row in enumerate(self.chart.rows[:-1]):
            if row.alike:
                parts.append(box(self.alike_at - 3, self.y(number) + ROW / 2, 6, ROW, "alike"))
            for pe in self.chart.pes if row.phases else []:
                phase, width = row.phases[pe], WIDTHS[row.phases[pe]]
                parts.append(box(self.x(pe) - width / 2, self.y(number) + ROW / 2, width, ROW, phase))
        return parts

    def entries(self) -> list[str]:
        return [box(self.x(pe) - 10, self.y(first) + ROW, 20, ROW * (last - first - 0.5), "entry", ' rx="6"')
                for pe, first, last in self.chart.entries if pe in self.chart.pes]

    def reach(self, number: int, row: Row) -> list[str]:
        """A line from the PE of a barrier or TLBI to those at which it does something, each with its letter."""
        there = [pe for pe in self.chart.pes if pe in row.effects and pe != row.pe]
        middle = self.y(number) + ROW / 2
        ends = [self.x(pe) for pe in there] + ([self.x(row.pe)] if row.pe in self.chart.pes else [])
        parts = [f'<line x1="{min(ends):.1f}" x2="{max(ends):.1f}" y1="{middle}" y2="{middle}" {look("reach")}/>'] if there else []
        for pe in there:
            effect = row.effects[pe].value
            parts.append(box(self.x(pe) - 7, middle - 7, 14, 14, f"tile {effect}", ' rx="3"'))
            parts.append(text(self.x(pe), middle + 4, "effect", effect, "middle"))
        return parts

    def event(self, number: int, row: Row) -> list[str]:
        y = self.y(number) + ROW / 2
        words = row.words()
        shown = words if len(words) <= LONGEST else words[:LONGEST - 2] + ".."
        plain, label = (shown.split(" @", 1) + [""])[:2]
        tail = f'<tspan {look("soft")}> @{escape(label)}</tspan>' if label else ""
        tail += f'<tspan {look("refusal")}>   refused</tspan>' if row.refused else ""
        name = "dot refused" if row.refused else "dot"
        parts = [text(LEFT - 12, y + 4, "soft", str(row.line.at), "end"),
                 f'<text x="{self.words_at}" y="{y + 4}" {look("")} xml:space="preserve">{escape(plain)}{tail}</text>']
        if row.pe in self.chart.pes:
            parts.append(f'<circle cx="{self.x(row.pe):.1f}" cy="{y}" r="7.5" {look(name)}/>')
            parts.append(text(self.x(row.pe), y + 3.7, "mark", letter_of(row), "middle"))
            own = row.effects.get(row.pe)
            parts += [text(self.x(row.pe) + 8, y + 9, "own", own.value)] if own else []
        return parts

    def legend_rows(self) -> list[tuple[str, str]]:
        chart, letters = self.chart, {letter_of(row) for row in self.chart.rows}
        rows = [(phase, f"{phase}: {LEGEND[phase]}") for phase in chart.phases]
        rows += [(effect.value, EFFECTS[effect]) for effect in chart.effects]
        rows.append(("W", "in a circle the event: " + ", ".join(f"{letter} {SIGNS[letter]}" for letter in SIGNS if letter in letters)))
        rows += [("alike", f"column !: {ALIKE}")] if chart.has_alike else []
        return rows + ([("E", "an outline is the entry of the run")] if chart.entries else [])

    def legend_parts(self) -> list[str]:
        parts = []
        for i, (name, words) in enumerate(self.legend):
            y = self.bottom + 34 + 18 * i
            parts.append(box(16, y, 12, 12, name) if name in WIDTHS or name == "alike" else text(22, y + 10, "effect", name, "middle"))
            parts.append(text(36, y + 10, "soft", words))
        return parts

    def svg(self) -> str:
        chart, rows = self.chart, list(enumerate(self.chart.rows))
        parts = [box(0, 0, self.width, self.height, "paper"), text(16, 24, "title", self.title), *self.heads(TOP - 8), *self.ground(),
                 *self.bars(), *self.entries()]
        parts += [part for number, row in rows for part in self.reach(number, row)]
        parts += [part for number, row in rows for part in self.event(number, row)]
        if len(chart.rows) > HEADS_EACH:
            parts += self.heads(self.bottom + 16)
        size = f'width="{self.width:.0f}" height="{self.height:.0f}" viewBox="0 0 {self.width:.0f} {self.height:.0f}"'
        return f'<svg xmlns="http://www.w3.org/2000/svg" class="bbm" {size} {FONT} role="img">\n<title>{escape(self.title)}</title>\n' \
               f"<style>\n{STYLE}\n</style>\n" + "\n".join([*parts, *self.legend_parts()]) + "\n</svg>\n"


def svg(parts: Parts, answer: Answer) -> str:
    return Drawing(parts.views.chart, answer.first).svg()


PAGE_STYLE = """
:root{color-scheme:light dark}
body{margin:1.5rem;font:15px/1.45 system-ui,sans-serif;background:#fff;color:#1c2024}
pre{font:13px/1.4 ui-monospace,"DejaVu Sans Mono",Menlo,Consolas,monospace;white-space:pre-wrap;max-width:60rem}
h1{font-size:1.15rem}h2{font-size:1rem;margin:1.4rem 0 .4rem}.picture{overflow-x:auto}
@media (prefers-color-scheme:dark){body{background:#15181c;color:#e6e9ed}}
"""


def section(part: list[str]) -> str:
    """A part of the text, its first line as the heading."""
    head, *rest = part
    return f"<h2>{escape(head)}</h2>\n<pre>{escape(chr(10).join(rest))}</pre>\n"


def html(parts: Parts, answer: Answer) -> str:
    """The whole answer: the text's parts, with the picture in the place of the lanes."""
    parts = replace(parts, style=Style(100, False, True))
    picture = f'<h2>Lanes</h2>\n<div class="picture">\n{svg(parts, answer)}</div>\n'
    shown = (parts.repairs(), parts.premise(), parts.stricter(), parts.danger(), parts.held(), decoded.part(parts),
             parts.small(), parts.run())
    first, *more = [section(part) for part in shown if part]
    rule = parts.rule()
    return "<!DOCTYPE html>\n<html lang=\"en\">\n<head>\n<meta charset=\"utf-8\">\n" \
           "<meta name=\"viewport\" content=\"width=device-width, initial-scale=1\">\n" \
           f"<title>{escape(answer.first)}</title>\n<style>{PAGE_STYLE}</style>\n</head>\n<body>\n<h1>{escape(answer.first)}</h1>\n" \
           + first + picture + "".join([*more, section(rule) if rule else ""]) + "</body>\n</html>\n"
