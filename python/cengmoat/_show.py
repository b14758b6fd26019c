"""Texts and tables for a terminal and for a notebook."""
from __future__ import annotations

from html import escape
from typing import Any, Sequence

from ._nodes import Node, operations
from ._shapes import numblocks, product
from ._sizes import bytes_text


def _name(node: Node) -> str:
    return str(node.members["name"]) if node.op == "input" else node.op


def array_text(node: Node) -> str:
    """Return one line on a lazy array: what it is, shape, type, chunks, bytes and operations."""
    return (f"cengmoat.Array<{_name(node)}, shape={node.shape}, dtype={node.dtype}, chunksize={node.chunks},"
            f" nbytes={bytes_text(product(node.shape) * node.dtype.itemsize)}, operations={operations(node)}>")


def array_html(node: Node) -> str:
    """Return a table on a lazy array for a notebook: its bytes, shape and counts, and those of a chunk."""
    count = product(numblocks(node.shape, node.chunks))
    rows = [
        ("Bytes", bytes_text(product(node.shape) * node.dtype.itemsize), bytes_text(node.chunk_bytes)),
        ("Shape", str(node.shape), str(node.chunks)),
        ("Count", f"{operations(node)} operations", f"{count} chunks"),
        ("Type", str(node.dtype), "cengmoat.Array"),
    ]
    return table_html(("", f"Array {_name(node)}", "Chunk"), rows)


def _cells(row: Sequence[Any]) -> list[str]:
    return [f"{cell:,}" if isinstance(cell, int) and not isinstance(cell, bool) else str(cell) for cell in row]


def table_text(heads: Sequence[str], rows: Sequence[Sequence[Any]], last: Sequence[Any] = ()) -> str:
    """Return a table for a terminal, numbers to the right; `last` stands below a line."""
    all_rows = [_cells(row) for row in [*rows, *([last] if last else [])]]
    widths = [max(len(text) for text in column) for column in zip(heads, *all_rows)]
    is_number = [all(isinstance(row[at], int) for row in rows) and bool(rows) for at in range(len(heads))]

    def line(cells: Sequence[str]) -> str:
        return "  ".join(cell.rjust(width) if right else cell.ljust(width)
                         for cell, width, right in zip(cells, widths, is_number)).rstrip()

    rule = "  ".join("-" * width for width in widths)
    body = [line(row) for row in all_rows]
    if last:
        body.insert(len(body) - 1, rule)
    return "\n".join([line(list(heads)), rule, *body])


def table_html(heads: Sequence[str], rows: Sequence[Sequence[Any]], last: Sequence[Any] = ()) -> str:
    """Return the same table for a notebook."""
    def cells(tag: str, row: Sequence[Any]) -> str:
        return "".join(f"<{tag} style=\"text-align: left\">{escape(text)}</{tag}>" for text in _cells(row))

    lines = [f"<tr>{cells('td', row)}</tr>" for row in rows]
    if last:
        lines.append(f"<tr>{cells('th', last)}</tr>")
    return f"<table><thead><tr>{cells('th', heads)}</tr></thead><tbody>{''.join(lines)}</tbody></table>"
