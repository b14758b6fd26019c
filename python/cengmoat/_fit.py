"""Which chunks would fit in the allowed memory. The program is asked, over a folder that has metadata alone."""
from __future__ import annotations

import copy
import dataclasses
import json
import tempfile
from typing import Any, Callable, Optional

from .errors import CengmoatError, OverMemory
from ._files import write_file
from ._metadata import Metadata
from ._names import metadata_key
from ._shapes import Shape

MOST_TRIES = 40


def _halved(chunks: list[int]) -> list[int]:
    """Return a chunk shape with its longest side halved."""
    at = max(range(len(chunks)), key=lambda place: chunks[place], default=None)
    return [-(-side // 2) if place == at else side for place, side in enumerate(chunks)]


def _said(name: str, chunks: Shape) -> str:
    return f"{name} in chunks {tuple(chunks)}"


def fitting_chunks(text: str, inputs: dict[str, Metadata], plan: Callable[[str, str], Any]) -> Optional[str]:
    """Return which smaller chunks of the inputs and of made arrays would fit, in words.

    Parameters
    ----------
    text : str
        The expression.
    inputs : mapping from str to Metadata
        The layouts of the stored arrays that it names.
    plan : callable
        Asks the program for the plan of a text over a folder; raises where it is refused.

    Returns
    -------
    str or None
        None where chunks of one element wouldn't fit either, or another answer comes.
    """
    job = json.loads(text)
    sides = {name: [min(side, max(1, size)) for side, size in zip(meta.chunks, meta.shape)] for name, meta in inputs.items()}
    made = {node["id"]: list(node["chunk"]) for node in job["nodes"] if "chunk" in node}
    for _ in range(MOST_TRIES):
        groups = [*sides.values(), *made.values()]
        if not any(side > 1 for group in groups for side in group):
            return None
        most = max(_count(group) for group in groups)
        # The largest are halved first, so that all become alike.
        sides = {name: _halved(group) if 2 * _count(group) > most else group for name, group in sides.items()}
        made = {name: _halved(group) if 2 * _count(group) > most else group for name, group in made.items()}
        try:
            _ask(job, inputs, sides, made, plan)
        except OverMemory:
            continue
        except CengmoatError:
            return None
        found = [_said(name, tuple(group)) for name, group in sides.items() if tuple(group) != inputs[name].chunks]
        found += [f"{node['op']} with chunks={tuple(made[node['id']])}" for node in job["nodes"]
                  if node["id"] in made and made[node["id"]] != node["chunk"]]
        return ", ".join(found) or None
    return None


def _count(group: list[int]) -> int:
    count = 1
    for side in group:
        count *= side
    return count


def _ask(job: dict[str, Any], inputs: dict[str, Metadata], sides: dict[str, list[int]], made: dict[str, list[int]],
         plan: Callable[[str, str], Any]) -> None:
    """Ask for the plan over inputs and made arrays in other chunks."""
    changed = copy.deepcopy(job)
    for node in changed["nodes"]:
        if node["id"] in made:
            node["chunk"] = made[node["id"]]
    with tempfile.TemporaryDirectory(prefix="cengmoat-") as folder:
        for name, meta in inputs.items():
            text = dataclasses.replace(meta, chunks=tuple(sides[name])).text()
            write_file(folder, metadata_key(name), text.encode(), sync=False)
        plan(folder, json.dumps(changed))
