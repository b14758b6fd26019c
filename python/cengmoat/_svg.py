"""The graph of a plan as a picture: operations as boxes, and on each edge the bytes of what is read."""
from __future__ import annotations

from html import escape
from typing import TYPE_CHECKING, NamedTuple

from ._sizes import bytes_text

if TYPE_CHECKING:
    from ._plans import Plan

# Sizes in pixels: of a box, and the room between two columns and two rows.
WIDTH, HEIGHT = 190, 56
BESIDE, BELOW, MARGIN = 110, 26, 16
# The most letters of an expression in a box; the whole of it is shown where the pointer is.
LETTERS = 28
RESULT = "result"
STYLE = ("text{font:11px sans-serif;fill:#222}.head{font-weight:bold}rect{stroke:#456;rx:5}.op{fill:#e8eef6}.input{fill:#eef6e8}.result{fill:#f8efdf}"
         "path{fill:none;stroke:#789}.bytes{text-anchor:middle;font-size:10px;fill:#345}")


class _Box(NamedTuple):
    """A box: what kind it is, its head, what stands below that, and all that is known of it."""

    kind: str
    head: str
    lines: tuple[str, ...]
    title: str


def _short(text: str) -> str:
    return text if len(text) <= LETTERS else f"{text[:LETTERS - 2]}.."


def _boxes(plan: Plan) -> dict[str, _Box]:
    """Return the boxes by the names by which operations read them, arguments first."""
    found = {name: _Box("input", _short(name), (bytes_text(count),), f"{name}: {bytes_text(count)}") for name, count in plan.inputs.items()}
    for it in plan:
        lines = (_short(it.expression), f"{it.tasks} task{'s' if it.tasks != 1 else ''} of {bytes_text(it.memory)}")
        said = f"{it.expression}: {it.dtype} {it.shape} in chunks {it.chunks}, {it.stored} chunks stored"
        found[f"op {it.number}"] = _Box("op", f"op {it.number} {it.kind}", lines, said)
    if plan.operations:
        last = plan.operations[-1]
        found[RESULT] = _Box("result", RESULT, (f"{last.dtype} {last.shape}",), last.expression)
    return found


def _edges(plan: Plan, boxes: dict[str, _Box]) -> list[tuple[str, str, int]]:
    """Return the edges: what is read, what reads it, and its bytes."""
    sizes = {**plan.inputs, **{f"op {it.number}": it.nbytes for it in plan}}
    found = [(name, f"op {it.number}", sizes[name]) for it in plan for name in it.reads if name in boxes]
    if plan.operations:
        last = f"op {plan.operations[-1].number}"
        found.append((last, RESULT, sizes[last]))
    return found


def _places(boxes: dict[str, _Box], edges: list[tuple[str, str, int]]) -> dict[str, tuple[int, int]]:
    """Return the corner of each box: in the column behind all that it reads, one below another."""
    columns: dict[str, int] = {}
    for name in boxes:
        columns[name] = max((columns[read] + 1 for read, reader, _ in edges if reader == name), default=0)
    rows: dict[int, int] = {}
    found = {}
    for name, column in columns.items():
        row = rows.get(column, 0)
        rows[column] = row + 1
        found[name] = (MARGIN + column * (WIDTH + BESIDE), MARGIN + row * (HEIGHT + BELOW))
    return found


def _box_text(box: _Box, at: tuple[int, int]) -> str:
    x, y = at
    lines = "".join(f'<text x="{x + 8}" y="{y + 32 + 15 * number}">{escape(line)}</text>' for number, line in enumerate(box.lines))
    return (f'<g class="{box.kind}"><title>{escape(box.title)}</title><rect class="{box.kind}" x="{x}" y="{y}" width="{WIDTH}" height="{HEIGHT}"/>'
            f'<text class="head" x="{x + 8}" y="{y + 17}">{escape(box.head)}</text>{lines}</g>')


def _edge_text(edge: tuple[str, str, int], places: dict[str, tuple[int, int]]) -> str:
    read, reader, nbytes = edge
    x, y = places[read][0] + WIDTH, places[read][1] + HEIGHT // 2
    to_x, to_y = places[reader][0], places[reader][1] + HEIGHT // 2
    # (the text stands near the reader, where edges from one box have parted)
    text_x, text_y = to_x - BESIDE // 2, to_y - 4 - (to_y - y) // 5
    half = (to_x - x) // 2
    return (f'<g class="edge"><path d="M{x} {y}C{x + half} {y} {to_x - half} {to_y} {to_x} {to_y}" marker-end="url(#end)"/>'
            f'<text class="bytes" x="{text_x}" y="{text_y}">{bytes_text(nbytes)}</text></g>')


def plan_svg(plan: Plan) -> str:
    """Return the picture of a plan, as a text of SVG."""
    boxes = _boxes(plan)
    edges = _edges(plan, boxes)
    places = _places(boxes, edges)
    width = max((x for x, _ in places.values()), default=0) + WIDTH + MARGIN
    height = max((y for _, y in places.values()), default=0) + HEIGHT + MARGIN
    marker = ('<defs><marker id="end" viewBox="0 0 8 8" refX="8" refY="4" markerWidth="7" markerHeight="7" orient="auto">'
              '<path d="M0 0L8 4L0 8" style="fill:none;stroke:#789"/></marker></defs>')
    body = [*(_edge_text(edge, places) for edge in edges), *(_box_text(box, places[name]) for name, box in boxes.items())]
    return "\n".join([f'<svg xmlns="http://www.w3.org/2000/svg" width="{width}" height="{height}" viewBox="0 0 {width} {height}">',
                      f"<style>{STYLE}</style>{marker}", *body, "</svg>"])
