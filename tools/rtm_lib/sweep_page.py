"""A sweep as a page: one row a moment, a column for each routine that is entered at some moment."""

from __future__ import annotations

from html import escape
from pathlib import Path
from typing import Callable, List, Sequence

from .moments import Moment
from .svg import minified

HERE = Path(__file__).parent
# A wait is as many steps of four pixels, up to so many.
MOST_STEPS = 15
COLUMN_STEP = 4


def sweep_page(title: str, head: str, said: Sequence[str], answers: Sequence[str], moments: Sequence[Moment],
               key: Callable[[Moment], object], where: Callable[[Moment], str]) -> str:
    """The whole file."""
    names = list(dict.fromkeys(entered.routine for moment in moments for entered in moment.entered))
    rows, before = [], None
    for moment in moments:
        rows.append(row(moment, names, key(moment) != before, where(moment)))
        before = key(moment)
    style = minified((HERE / "picture.css").read_text() + (HERE / "sweep.css").read_text())
    heads = "".join('<th scope="col">%s</th>' % escape(name) for name in
                    ["AT", "lands"] + names + ["released", "ends with"])
    return ('<!DOCTYPE html>\n<html lang="en"><head><meta charset="utf-8"><meta name="viewport" '
            'content="width=device-width"><title>%s: sweep</title><style>%s</style></head><body>\n'
            '<header><h1>%s</h1><p class="counts">%s</p><ul class="answers">%s</ul>%s</header>\n'
            "<table><thead><tr>%s</tr></thead><tbody>\n%s\n</tbody></table>\n</body></html>\n") % (
        escape(title), style, escape(title), escape("; ".join([head] + list(said))),
        "".join("<li>%s</li>" % escape(one) for one in answers), legend(), heads, "\n".join(rows))


def legend() -> str:
    keys = (("retry", "RETRY", "it retries"), ("perc", "PERC", "it percolates"), ("fail", "FAIL", "it fails"),
            ("none", "\u00b7", "not entered"))
    waits = '<span><i class="wait" style="width:20px"></i>the command waited, a bar an entry</span>'
    return '<p class="legend-list">%s%s</p>' % ("".join(
        '<span><b class="cell %s">%s</b> %s</span>' % key for key in keys), waits)


def row(moment: Moment, names: Sequence[str], starts: bool, where: str) -> str:
    """One moment; what is as in the row above is shown when it is pointed at."""
    steps = min(moment.waited, MOST_STEPS)
    wait = '<i class="wait" style="width:%dpx"></i>' % (COLUMN_STEP * steps) if steps else ""
    kind = "same" if moment.landed is not None else "same lost"
    cells = "".join("<td>%s</td>" % cell(moment, name) for name in names)
    return ('<tr%s><th scope="row">%d</th><td>%s<span class="%s">%s</span></td>%s<td class="same">%s</td>'
            '<td class="same">%s</td></tr>') % (
        ' class="starts"' if starts else "", moment.at, wait, kind, escape(where), cells,
        escape(", ".join(moment.released)), escape(moment.code))


def cell(moment: Moment, name: str) -> str:
    """How a routine was left at a moment; more than once, how often and the last verdict."""
    verdicts: List[str] = [entered.verdict for entered in moment.entered if entered.routine == name]
    if not verdicts:
        return '<b class="cell none">\u00b7</b>' if moment.landed is not None else ""
    last = verdicts[-1] or "not left"
    times = " \u00d7%d" % len(verdicts) if len(verdicts) > 1 else ""
    return '<b class="cell %s">%s%s</b>' % (escape(last.lower().split(" ")[0]), escape(last), times)
