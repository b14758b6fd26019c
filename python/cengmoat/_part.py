"""One part of a run, as an engine calls it on its own machine. Nothing else of the package is needed there."""
from __future__ import annotations

import subprocess
import time
from typing import NamedTuple, Sequence

from ._dying import dies_with_parent


class Ended(NamedTuple):
    """How a part ended: the status of the program, what it wrote on both streams, and the seconds that it took."""

    status: int
    output: str
    errors: str
    seconds: float


def run_part(words: Sequence[str], text: str) -> Ended:
    """Call the program with these words and this text, and let it end where this process does. It may be called again, or twice at once,
    with nothing lost."""
    began = time.monotonic()
    ended = subprocess.run(list(words), input=text.encode(), stdout=subprocess.PIPE, stderr=subprocess.PIPE, preexec_fn=dies_with_parent())
    return Ended(ended.returncode, ended.stdout.decode(errors="replace"), ended.stderr.decode(errors="replace"), time.monotonic() - began)
