"""What may not be on any picture: texts on texts, lines through texts, anything outside."""

from __future__ import annotations

from typing import Iterator, List

from rtm_lib.canvas import Canvas, Stroke, TextBox

# How far a text's box is larger than its letters at each side, and how near a line may come.
SLACK = 1.0


def overlapping(texts: List[TextBox]) -> Iterator[str]:
    """Each pair of texts that lie on each other."""
    ordered = sorted(texts, key=lambda text: text.top)
    for place, one in enumerate(ordered):
        for other in ordered[place + 1:]:
            if other.top >= one.bottom - SLACK:
                break
            if one.left < other.right - SLACK and other.left < one.right - SLACK:
                yield "%r on %r" % (one, other)


def struck(texts: List[TextBox], strokes: List[Stroke]) -> Iterator[str]:
    """Each text that a line runs through."""
    for stroke in strokes:
        for start, stop in zip(stroke.points, stroke.points[1:]):
            left, right = sorted((start[0], stop[0]))
            top, bottom = sorted((start[1], stop[1]))
            for text in texts:
                if (left < text.right - SLACK and right > text.left + SLACK
                        and top < text.bottom - SLACK and bottom > text.top + SLACK):
                    yield "%s %s-%s through %r" % (stroke.style, start, stop, text)


def outside(canvas: Canvas, width: float, height: float) -> Iterator[str]:
    """Each text or line that leaves the picture."""
    for text in canvas.texts:
        if text.left < 0 or text.right > width or text.top < 0 or text.bottom > height:
            yield "%r" % (text,)
    for stroke in canvas.strokes:
        for x, y in stroke.points:
            if not (0 <= x <= width and 0 <= y <= height):
                yield "%s at %s, %s" % (stroke.style, x, y)
