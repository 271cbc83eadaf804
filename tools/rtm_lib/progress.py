"""How far many runs are, for a person at the terminal."""

from __future__ import annotations

import sys
from typing import Callable, Optional

# So many runs are made before a word is said, and between two words.
PATIENCE = 200
STEP = 50


def progress(number: Optional[int]) -> Callable[[int], None]:
    """What to call after each run, where so many are to come; None where nobody knows yet."""
    if sys.stderr is None or not sys.stderr.isatty() or (number is not None and number < PATIENCE):
        return lambda done: None

    def tell(done: int) -> None:
        if done == number or (done >= PATIENCE and done % STEP == 0):
            of_all = " of %s" % format(number, ",") if number is not None else " runs"
            print("\rrtm: %s%s" % (format(done, ","), of_all), end="\n" if done == number else "",
                  file=sys.stderr, flush=True)
    return tell
