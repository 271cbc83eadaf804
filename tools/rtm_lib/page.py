"""The page: a picture and its lines side by side, in one HTML file that stands alone."""

from __future__ import annotations

from dataclasses import dataclass
from html import escape
from pathlib import Path
from typing import Dict, List, Optional

from .canvas import number
from .legend import keys_of
from .parts import Picture, counts
from .rows import HEAD, ROW, Row
from .sentences import refers_to, refers_to_card, sentence
from .svg import below, first_line, minified, verb_style

HERE = Path(__file__).parent
# The printable area of an A4 page with margins of 10 mm, in CSS pixels.
SHORT_SIDE, LONG_SIDE = 718.0, 1047.0
LEAST_PORTRAIT_ZOOM = 0.75
SHRINKS_TO = 0.8
HEADER_ROOM, HEADER_ROOM_FIRST = 40.0, 150.0
# Up to this width of the picture the deck stands beside it.
BESIDE = 660.0
DECK_WIDTH = 580.0
# An opened fold lists so many lines at most: a browser is slow with lists of some ten thousand.
MOST_LINES_OF_FOLD = 1000


@dataclass(frozen=True)
class Paper:
    """How the page is printed: its side, how much smaller, and how many rows go on the pages."""

    is_landscape: bool
    zoom: float
    rows_first: int
    rows: int


def paper_for(width: float, rows: int) -> Paper:
    """The side of A4 on which a picture is larger, in whole rows; a little smaller where it then fits on one page."""
    landscape = width > SHORT_SIDE / LEAST_PORTRAIT_ZOOM
    across, down = (LONG_SIDE, SHORT_SIDE) if landscape else (SHORT_SIDE, LONG_SIDE)
    zoom = min(1.0, across / width)
    one_page = down / (HEADER_ROOM_FIRST + HEAD + ROW * (rows + 1))
    if SHRINKS_TO * zoom <= one_page < zoom:
        zoom = one_page
    room = down / zoom
    return Paper(landscape, zoom, max(5, int((room - HEADER_ROOM_FIRST - HEAD) / ROW)),
                 max(5, int((room - HEADER_ROOM) / ROW)))


def page(picture: Picture, strip: str = "") -> str:
    """The whole file; a strip of all entries stands at its left where the trace is folded."""
    layout = picture.layout
    beside = layout.width <= BESIDE and not strip
    main = '<main class="%s">%s%s</main>' % (
        "beside" if beside else "below", table(picture), deck(picture, beside))
    if strip:
        main = '<main class="below"><div class="overview">%s%s</div>%s%s</main>' % (
            strip, table(picture), deck(picture, False), whole_trace(picture))
    return "".join([
        '<!DOCTYPE html>\n<html lang="en"><head><meta charset="utf-8">',
        '<meta name="viewport" content="width=device-width"><title>%s</title>' % escape(picture.title),
        "<style>%s</style></head><body>\n" % style(picture, beside), header(picture, bool(strip)), "\n", main,
        '\n<p class="bar" aria-hidden="true">Point at a line, or step with the arrow keys: what it means stands here. '
        "e: next error, Enter: its card, /: find.</p>",
        "\n<script>%s</script>\n</body></html>\n" % (HERE / "page.js").read_text()])


def style(picture: Picture, beside: bool) -> str:
    """The fixed style, and what depends on this picture's size."""
    layout = picture.layout
    paper = paper_for(layout.width, len(layout.rows.rows))
    text = (HERE / "picture.css").read_text() + (HERE / "page.css").read_text()
    width, letters = number(layout.width), layout.index_letters
    text += "body{min-width:%spx}table{width:%spx}" % (width, width)
    text += "li i{min-width:%dch}li.edge-line,.fold-line{padding-left:calc(12px + %dch)}" % (letters, letters + 1)
    text += "@page{size:A4 %s;margin:10mm}@media print{body{zoom:%.3f}}" % (
        "landscape" if paper.is_landscape else "portrait", paper.zoom)
    if beside:
        text += ("@media screen and (max-width:%dpx){main.beside{display:block}"
                 "main.beside .deck{position:static;max-height:none}}") % (layout.width + DECK_WIDTH)
    if not layout.rows.fold_place:
        # In a window that is too narrow the trace's column stays while the lanes scroll under it.
        text += ("@media screen and (max-width:%spx){li{background:var(--ground);padding-left:0}"
                 "li .line{position:sticky;left:0;z-index:2;display:inline-block;background:inherit;"
                 "padding-left:12px;width:%spx}li.edge-line .line{padding-left:calc(12px + %dch)}"
                 "li.edge-line{padding-left:0}.part.first li:first-child .line{box-shadow:0 -10px var(--ground)}"
                 ".lane-names .trace-name{position:sticky;left:0;top:0;display:inline-block;"
                 "padding:4px 0 0 12px;width:%spx;background:var(--ground);z-index:4}}") % (
            width, number(layout.text_right), letters + 1, number(layout.text_right))
    return minified(text)


def header(picture: Picture, is_folded: bool) -> str:
    """Title, counts, the deck's first sentence, a warning, and the legend."""
    pieces = ['<header><label class="find" hidden>Find <input id="find" type="search"></label>',
              '<h1>%s</h1><p class="counts">%s</p>' % (escape(picture.title), escape(counts(picture)))]
    if picture.about:
        pieces.append('<p class="about">%s</p>' % escape(picture.about))
    warning = picture.warning()
    if warning:
        pieces.append('<p class="warning">%s <code>%s</code></p>' % (escape(warning), escape(picture.verdict.line)))
    if picture.note:
        pieces.append('<p class="about">%s</p>' % escape(picture.note))
    if is_folded:
        pieces.append('<p class="about">The strip: each unit a column, entries from above to below: '
                      '<i class="swatch runs"></i> its programs run or wait, <i class="swatch retried"></i> an error, '
                      'retried, <i class="swatch lost"></i> an error, not recovered, '
                      '<i class="swatch ends"></i> it ends. '
                      "The picture: the same trace, one of each kind.</p>")
    keys = "".join('<span><svg width="%d" height="18" aria-hidden="true">%s</svg>%s</span>' % (
        key.width, key.markup, escape(key.meaning)) for key in keys_of(picture.canvas))
    return "".join(pieces) + '<p class="legend-list">%s</p></header>' % keys


def table(picture: Picture) -> str:
    """The trace and its picture, a body of rows for each printed page and each fold."""
    names = "".join('<span style="left:%spx">%s</span>' % (number(x), escape(name)) for x, name in picture.names())
    trace_name = '<span class="trace-name">Trace</span>'
    bodies = "".join(part(picture, rows) for rows in parts_of(picture))
    return ('<table role="presentation"><thead><tr><th><div class="lane-names">%s%s</div></th></tr></thead>%s\n</table>'
            % (trace_name, names, bodies))


def parts_of(picture: Picture) -> List[List[Row]]:
    """The rows in parts: as many as go on a printed page, and each fold alone."""
    paper = paper_for(picture.layout.width, len(picture.layout.rows.rows))
    parts: List[List[Row]] = [[]]
    for row in picture.layout.rows.rows:
        limit = paper.rows_first if len(parts) == 1 else paper.rows
        if row.fold is not None or len(parts[-1]) >= limit or (parts[-1] and parts[-1][-1].fold is not None):
            parts.append([])
        parts[-1].append(row)
    return parts


def part(picture: Picture, rows: List[Row]) -> str:
    """One body of the table: lines, and the piece of the picture that lies over them."""
    layout = picture.layout
    everything = layout.rows.rows
    is_first = not rows or rows[0] is everything[0]
    is_last = not rows or rows[-1] is everything[-1]
    top = 0.0 if is_first else layout.rows.top(rows[0].index)
    foot = layout.rows.top(rows[-1].index) + ROW if rows else HEAD
    if rows and rows[0].fold is not None:
        return fold_part(picture, rows[0], top, foot)
    items = "".join(line_item(picture, row) for row in rows)
    if is_first:
        items = edge_item("edge-line", first_line(picture)) + items
    if is_last:
        items += end_items(picture)
    return ('<tbody><tr><td><div class="part%s"><ol role="list" aria-label="%s">%s</ol>%s</div></td></tr></tbody>\n' % (
        " first" if is_first else "", entries_label(rows), items, picture_part(picture, top, foot)))


def end_items(picture: Picture) -> str:
    return "".join(edge_item("edge-line" if style == "quiet" else "edge-line wrong", text)
                   for style, text in below(picture))


def entries_label(rows: List[Row]) -> str:
    return "Entries %d to %d of the trace" % (rows[0].index, rows[-1].index) if rows else "No entry"


def picture_part(picture: Picture, top: float, foot: float) -> str:
    width = number(picture.layout.width)
    return ('<svg class="picture" width="%s" height="%s" viewBox="0 %s %s %s" aria-hidden="true" focusable="false">'
            '%s</svg>') % (width, number(foot - top), number(top), width, number(foot - top),
                           picture.canvas.part(top, foot))


def fold_part(picture: Picture, row: Row, top: float, foot: float) -> str:
    """A fold: its band, and the lines that it folds, over a slice of the picture that is drawn out."""
    assert row.fold is not None
    layout = picture.layout
    width = number(layout.width)
    lines = "".join("<li>%s</li>" % plain_line(picture, index) for index in row.fold.indexes[:MOST_LINES_OF_FOLD])
    if len(row.fold.indexes) > MOST_LINES_OF_FOLD:
        lines += '<li class="fold-line">and so on; all lines stand at the foot of the page</li>'
    is_last = row is layout.rows.rows[-1]
    slice_of = ('<svg class="picture" width="%s" viewBox="0 %s %s 0.02" preserveAspectRatio="none" '
                'aria-hidden="true">%s</svg>') % (
        width, number(foot - 0.02), width, picture.canvas.part(foot - 0.03, foot))
    after = "<ol>%s</ol>" % end_items(picture) if is_last else ""
    return ('<tbody><tr><td><div class="part"><details class="fold"><summary><ol><li class="fold-line">%s %s</li></ol>'
            '%s</summary><div class="inside"><ol>%s</ol>%s</div></details>%s</div></td></tr></tbody>\n') % (
        escape(row.fold.text), escape(row.unit), picture_part(picture, top, foot), lines, slice_of, after)


def edge_item(kind: str, text: str) -> str:
    return '<li class="%s"><span class="line">%s</span></li>' % (kind, escape(text))


def plain_line(picture: Picture, index: int) -> str:
    entry = picture.history.trace.entries[index]
    return "<i>%d</i> %s %s %s" % (index, escape(entry.unit), entry.verb, escape(" ".join(entry.words)))


def line_item(picture: Picture, row: Row) -> str:
    """A line of the trace, with its sentence for readers and for the bar at the foot."""
    assert row.line is not None
    history = picture.history
    card = refers_to_card(history, row.line)
    refers = refers_to(row.line)
    everything = picture.layout.rows.rows
    marks = ""
    if card is not None:
        marks += ' data-c="%d"' % card
    if refers:
        marks += ' data-r="%s"' % " ".join(map(str, refers))
    if picture.layout.rows.place[row.index] % 5 == 0:
        marks += ' class="fifth-row"'
    return '<li id="e%d"%s tabindex="%d"><span class="line">%s</span><span class="said">%s</span></li>' % (
        row.index, marks, 0 if row is everything[0] else -1, line_words(card_link(card), row),
        escape(sentence(history, row.line), quote=False))


def card_link(card: Optional[int]) -> str:
    """A link to a card, around a word that is put in; nothing where there is no card."""
    return '<a href="#c%d" tabindex="-1">%%s</a>' % card if card is not None else ""


# Which word of a line links to its card: a place, or the number of what a card made.
LINKED_WORD: Dict[str, int] = {"EXEC": 0, "ERROR": 0, "ENTER": 1, "LEAVE": 1, "ARRIVE": 0}


def line_words(link: str, row: Row) -> str:
    """A line as it stands in the trace, word by word, so that copying it gives the line."""
    assert row.line is not None
    entry = row.line.entry
    words = [escape(word, quote=False) for word in entry.words]
    unit = escape(entry.unit)
    linked = 3 if entry.verb == "LEAVE" and entry.place is not None else LINKED_WORD.get(entry.verb, -1)
    if link and 0 <= linked < len(words):
        words[linked] = link % words[linked]
    elif link:
        unit = link % unit
    if entry.verb == "LAND":
        words[1] = '<a href="#e%d" tabindex="-1">%s</a>' % (entry.number, words[1])
    text = '<i>%d</i> <b>%s</b> <em class="%s">%s</em>' % (entry.index, unit, verb_style(entry.verb), entry.verb)
    return text + (" " + " ".join(words) if words else "")


def deck(picture: Picture, beside: bool) -> str:
    """The deck's cards, each with its number to go to."""
    lines = []
    for position, line in enumerate(picture.history.deck.lines, 1):
        kind = ' class="comment"' if line.startswith("*") else ""
        lines.append('<span id="c%d"%s>%s</span>' % (position, kind, escape(line, quote=False)))
    return '<details class="deck"%s><summary>The deck</summary><pre>%s</pre></details>' % (
        " open" if beside else "", "\n".join(lines))


def whole_trace(picture: Picture) -> str:
    """All lines as plain text, where the picture folds some."""
    trace = picture.history.trace
    lines = [trace.head] + [entry.line for entry in trace.entries]
    lines += [picture.end_line] if picture.end_line else []
    return ('<details class="whole-trace"><summary>The whole trace, %s entries</summary><pre>%s\n</pre></details>'
            % (format(len(trace.entries), ","), escape("\n".join(lines), quote=False)))
