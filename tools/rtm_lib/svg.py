"""The picture alone, as one SVG file: its title, the legend, the lines of the trace, and the lanes."""

from __future__ import annotations

import re
from html import escape
from pathlib import Path
from typing import List, Tuple

from .canvas import number, sans_width
from .labels import TRACE_LETTER
from .layout import MARGIN
from .legend import keys_of
from .parts import Picture, counts
from .rows import ROW, Row

STYLE = Path(__file__).with_name("picture.css")
ALONE = """text.trace{font-size:11.5px}.verb-quiet{fill:var(--quiet)}.verb-error{fill:var(--error);font-weight:700}
.verb,.unit{font-weight:700}text.title{font:650 19px system-ui,"Segoe UI",Arial,"Liberation Sans",sans-serif}
text.legend{font-size:11px}text.about{font:13px system-ui,"Segoe UI",Arial,"Liberation Sans",sans-serif}
.all{fill:var(--ground)}.rule-line{stroke:var(--ink);stroke-width:1.5}text.wrong{fill:var(--error)}"""
LEGEND_ROW = 20.0
LEAST_WIDTH = 560.0
QUIET_VERBS = frozenset(["EXEC", "RELEASE"])
ERROR_VERBS = frozenset(["ERROR", "LAND"])


def verb_style(verb: str) -> str:
    """How loud a verb is in the trace's column."""
    return "verb-quiet" if verb in QUIET_VERBS else "verb-error" if verb in ERROR_VERBS else "verb"


def minified(style: str) -> str:
    return style.replace("\n", "")


def used(style: str, markup: str) -> str:
    """The rules of a style that speak of what the markup has, so that a stored picture is small."""
    present = {name for names in re.findall(r'class="([^"]*)"', markup) for name in names.split()}

    def kept(rule: "re.Match[str]") -> str:
        selectors = [one for one in rule.group(1).split(",") if present.issuperset(re.findall(r"\.([\w-]+)", one))]
        return "%s{%s}" % (",".join(selectors), rule.group(2)) if selectors else ""
    return re.sub(r"([^{}@]+)\{([^{}]*)\}", kept, style)


def svg(picture: Picture) -> str:
    """The whole file."""
    layout = picture.layout
    width = max(layout.width, LEAST_WIDTH)
    head, top = header(picture, width)
    foot_lines = below(picture)
    height = top + layout.rows.foot_of_all + ROW * len(foot_lines) + 8
    lines = [trace_line(picture, row) for row in layout.rows.rows if row.line is not None]
    lines += [fold_line(picture, row) for row in layout.rows.rows if row.fold is not None]
    fifths = "".join('<path class="fifth" d="M0 %sH%s"/>' % (number(layout.rows.top(row.index)), number(width))
                     for place, row in enumerate(layout.rows.rows) if place % 5 == 0)
    lines.append('<text class="trace quiet" x="%s" y="24">%s</text>' % (
        number(words_x(picture)), escape(first_line(picture))))
    for place, (style, text) in enumerate(foot_lines):
        lines.append('<text class="trace %s" x="%s" y="%s">%s</text>' % (
            style, number(words_x(picture)), number(layout.rows.foot_of_all + ROW * place + 14), escape(text)))
    drawn = ('<rect class="all" width="{w}" height="{h}"/>{head}<g transform="translate(0 {top})">{fifths}{lines}{part}'
             '</g></svg>\n').format(w=number(width), h=number(height), head=head, top=number(top), fifths=fifths,
                                    lines="".join(lines), part=layout_markup(picture))
    return ('<svg xmlns="http://www.w3.org/2000/svg" width="{w}" height="{h}" viewBox="0 0 {w} {h}" role="img" '
            'aria-labelledby="name"><title id="name">{title}</title><style>{style}</style>{drawn}').format(
        w=number(width), h=number(height), title=escape("%s: %s" % (picture.title, counts(picture))),
        style=used(minified(STYLE.read_text() + ALONE), drawn), drawn=drawn)


def layout_markup(picture: Picture) -> str:
    return picture.canvas.part(-1, picture.layout.rows.foot_of_all + ROW)


def first_line(picture: Picture) -> str:
    """The trace's first line, or which part of the trace is drawn."""
    rows = picture.layout.rows
    if rows.first == 0:
        return picture.history.trace.head
    return "entries %d to %d" % (rows.first, rows.last)


def below(picture: Picture) -> List[Tuple[str, str]]:
    """What stands behind the last row."""
    if picture.end_line:
        return [("quiet", picture.end_line)]
    if picture.verdict.is_legal or not picture.is_to_the_end:
        return []
    return [("wrong", line) for line in (picture.wrong_line, picture.verdict.line) if line]


def words_x(picture: Picture) -> float:
    """Where the words behind the indexes begin."""
    return MARGIN + TRACE_LETTER * (picture.layout.index_letters + 1)


def trace_line(picture: Picture, row: Row) -> str:
    assert row.line is not None
    entry = row.line.entry
    y = picture.layout.rows.top(row.index) + 14
    x = words_x(picture) - TRACE_LETTER * (len(str(entry.index)) + 1)
    return ('<text class="trace" x="%s" y="%s"><tspan class="verb-quiet">%d</tspan> <tspan class="unit">%s</tspan> '
            '<tspan class="%s">%s</tspan> %s</text>') % (
        number(x), number(y), entry.index, escape(entry.unit), verb_style(entry.verb), entry.verb,
        escape(" ".join(entry.words), quote=False))


def fold_line(picture: Picture, row: Row) -> str:
    assert row.fold is not None
    return '<text class="trace remark" x="%s" y="%s">%s %s</text>' % (
        number(words_x(picture)), number(picture.layout.rows.top(row.index) + 14), row.fold.text, escape(row.unit))


def header(picture: Picture, width: float) -> Tuple[str, float]:
    """Title, counts, legend and the lanes' names, and how much room they take."""
    y = 24.0
    pieces = ['<text class="title" x="12" y="%s">%s</text>' % (number(y), escape(picture.title))]
    for style, text in header_lines(picture, width):
        y += 19
        pieces.append('<text class="about %s" x="12" y="%s">%s</text>' % (style, number(y), escape(text)))
    y += 10
    legend, y = legend_rows(picture, width, y)
    pieces.append(legend)
    y += 16
    pieces.append('<text class="header" x="12" y="%s">Trace</text>' % number(y))
    for x, name in picture.names():
        pieces.append('<text class="header" x="%s" y="%s">%s</text>' % (number(x), number(y), escape(name)))
    y += 7
    pieces.append('<path class="rule-line" d="M0 %sH%s"/>' % (number(y), number(width)))
    return "".join(pieces), y + 1


def header_lines(picture: Picture, width: float) -> List[Tuple[str, str]]:
    texts = [("quiet", counts(picture)), ("", picture.about), ("wrong", picture.warning() or ""),
             ("quiet", picture.note)]
    return [(style, line) for style, text in texts if text for line in wrapped(text, width - 24)]


def wrapped(text: str, room: float) -> List[str]:
    """A text in lines of so much room at 13 pixels."""
    lines: List[str] = []
    for word in text.split(" "):
        if lines and sans_width(lines[-1] + " " + word, 12.0) <= room:
            lines[-1] += " " + word
        else:
            lines.append(word)
    return lines


def legend_rows(picture: Picture, width: float, top: float) -> Tuple[str, float]:
    """The legend's keys in as many rows as they need."""
    x, y, pieces = 12.0, top, []
    for key in keys_of(picture.canvas):
        need = key.width + 5 + sans_width(key.meaning, 11.0) + 14
        if x + need > width and x > 12:
            x, y = 12.0, y + LEGEND_ROW
        kind = " kind " + key.word_style if key.word_style else ""
        pieces.append('<g transform="translate(%s %s)">%s<text class="legend%s" x="%d" y="12.5">%s</text></g>' % (
            number(x), number(y), key.markup, kind, key.width + 5, escape(key.meaning)))
        x += need
    return "".join(pieces), y + LEGEND_ROW
