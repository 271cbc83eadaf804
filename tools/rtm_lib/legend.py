"""The legend: one key for each mark that occurs on a picture, and no other."""

from __future__ import annotations

import re
from dataclasses import dataclass
from typing import List, Set

from .canvas import Canvas


@dataclass(frozen=True)
class Key:
    """A mark, drawn in 18 pixels of height, with its meaning."""

    style: str
    width: int
    markup: str
    meaning: str
    word_style: str = ""


KEYS = (
    Key("dot", 6, '<circle class="dot" cx="3" cy="9" r="2.5"/>', "card"),
    Key("error-mark", 14, '<path class="error-mark" d="M7 3l6 6l-6 6l-6 -6z"/>'
        '<path class="error-cross" d="M4.7 6.7l4.6 4.6m0 -4.6l-4.6 4.6"/>', "error"),
    Key("error-mark landed", 14, '<path class="error-mark landed" d="M7 3l6 6l-6 6l-6 -6z"/>'
        '<circle class="landed-dot" cx="7" cy="9" r="2"/>', "abort lands"),
    Key("ring", 25, '<path class="thread" d="M0 9h12"/><circle class="ring" cx="18" cy="9" r="5.5"/>'
        '<text class="ring-text" x="18" y="12">1</text>', "asks, in this order"),
    Key("kind-edge estae", 5, '<path class="kind-edge estae" d="M2 2v14"/>', "ESTAE", "estae"),
    Key("kind-edge frr", 7, '<path class="kind-edge frr" d="M1.5 2v14M5 2v14"/>', "FRR", "frr"),
    Key("kind-edge estai", 5, '<path class="kind-edge estai" d="M2 2v14"/>', "ESTAI", "estai"),
    Key("kind-edge mgr", 5, '<path class="kind-edge mgr" d="M2 2v14"/>', "MGR, a resource manager", "mgr"),
    Key("no-sdwa", 20, '<path class="no-sdwa" d="M0.5 14.5V3.5h19v11z"/>', "head of a routine without an SDWA"),
    Key("retry-arrow", 22,
        '<path class="retry-arrow" d="M1 3q0 6 5 6h8"/><path class="retry-head" d="M20 9l-7 -4v8z"/>',
        "retry: goes on"),
    Key("command", 10, '<path class="command" d="M1 4l8 5l-8 5z"/>', "operator's command"),
    Key("waiting", 22, '<path class="waiting" d="M1 9h20"/>', "pending"),
    Key("waiting held", 22, '<path class="waiting held" d="M1 9h20"/>', "held back, by a rule"),
    Key("rail-head", 11, '<rect class="rail-head" x="0.5" y="3" width="10" height="12" rx="2"/>'
        '<text class="rail-letter" x="5.5" y="12.2">D</text>', "held: E S D T for ENQ STOR DSN TIMR"),
    Key("rail-freed", 9, '<circle class="rail-freed" cx="4.5" cy="9" r="3.2"/>', "freed"),
    Key("rail-released", 10, '<rect class="rail-released" x="1" y="6.5" width="8" height="5"/>', "released"),
    Key("square hollow", 10, '<rect class="square hollow" x="1" y="5" width="8" height="8"/>', "begins to end"),
    Key("square", 10, '<rect class="square" x="0.5" y="4.5" width="9" height="9"/>', "done"),
    Key("purged", 10, '<path class="purged" d="M1 5l8 8m0 -8l-8 8"/>', "purged"),
    Key("fold", 20, '<rect class="fold" x="0" y="3" width="20" height="12"/>'
        '<path class="wave" d="M0 3q2 -2 4 0t4 0t4 0t4 0t4 0M0 15q2 -2 4 0t4 0t4 0t4 0t4 0"/>', "folded"),
    Key("chip rule", 21, '<rect class="chip rule" x="0.5" y="2.5" width="20" height="13" rx="3"/>'
        '<text class="chip-text" x="5" y="12">XX</text>', "dashed: from a rule or a card"),
)


def styles_of(canvas: Canvas) -> Set[str]:
    """The styles that occur on a canvas."""
    return {style for shape in canvas.shapes for style in re.findall(r'class="([^"]+)"', shape.markup)}


def keys_of(canvas: Canvas) -> List[Key]:
    """The keys of the marks that occur."""
    styles = styles_of(canvas)
    return [key for key in KEYS if key.style in styles]
