"""The greater and the lesser of two arguments, and numbers within bounds: by functions of their own, where the program has them."""
from __future__ import annotations

from typing import Any, Optional, Sequence, Union

from . import _build as build
from ._dtypes import Literal, check_literal
from ._missing import kept_missing
from ._nodes import Node
from ._offers import offers_op
from ._program import find_program
from .errors import NoProgram

Argument = Union[Node, Literal]


def _program_of(nodes: Sequence[Node]) -> Optional[str]:
    store = next((node.store for node in nodes if node.store is not None), None)
    return None if store is None else store.program


def has(op: str, nodes: Sequence[Node], members: dict[str, object], unknown: bool = False) -> bool:
    """Return whether the program of some nodes has a function, or `unknown` where there is no program; `members` are such that it takes."""
    try:
        return offers_op(op, _program_of(nodes) or find_program(), **members)
    except NoProgram:
        return unknown
    except LookupError:
        return False


def plain_extreme(op: str, args: Sequence[Argument]) -> Node:
    """Return the node of `maximum` or `minimum` of two arguments, one of which at least is an array, of the numbers as they are stored.

    Raises
    ------
    TypeError, ValueError
        As ``elementwise``.
    """
    if has(op, [arg for arg in args if isinstance(arg, Node)], {"args": ["x", "x"]}):
        return build.elementwise(op, args)
    holds = build.elementwise("greater_equal" if op == "maximum" else "less_equal", args)
    return build.where(holds, args[0], args[1])


def extreme(op: str, args: Sequence[Argument]) -> Node:
    """Return the node of ``plain_extreme`` where what is missing in an argument stays missing."""
    return kept_missing(plain_extreme(op, args), [arg for arg in args if isinstance(arg, Node)])


def clip(x: Node, low: Any, high: Any) -> Node:
    """Return the node of the lesser of `high` and the greater of `low` and x; None is no bound, and an array is one for each element.
    What is missing stays missing.

    Raises
    ------
    TypeError, ValueError
        As ``elementwise``.
    """
    bounds = [bound for bound in (low, high) if bound is not None]
    build.check_integers("clip", x)
    if len(bounds) == 2 and not any(isinstance(bound, Node) for bound in bounds) and has("clip", [x], {"args": ["x"], "min": 0, "max": 1}):
        for bound in bounds:
            check_literal(bound, x.dtype, "clip")
        return kept_missing(build.make_node("clip", (x,), x.dtype, x.shape, x.chunks, {"min": low, "max": high}), [x])
    found = x if low is None else extreme("maximum", [x, low])
    return found if high is None else extreme("minimum", [found, high])
