"""What to write in place of a function of xarray that the program hasn't: found by the calls on the stack, and said with the refusal."""
from __future__ import annotations

import sys
from typing import Any, Iterator

# How many calls may lie between a function of xarray and what it asks of a lazy array.
_DEPTH = 40
_FLOATS = "x.cengmoat.decode()"
# By the last name of the module, which xarray has moved at times, and the function, or the class of its object. The outermost call counts.
LINES: dict[tuple[str, str], str] = {
    ("rolling", "DataArrayRolling"): "x.cengmoat.rolling(..), as in x.cengmoat.rolling(time=7).sum()",
    ("rolling", "DatasetRolling"): "x.cengmoat.rolling(..) of each array, as in x.cengmoat.rolling(time=7).sum()",
    ("groupby", "GroupBy"): "x.cengmoat.groupby(..), as in x.cengmoat.groupby(\"time.month\").sum()",
    ("groupby", "Resample"): "x.cengmoat.resample(..), as in x.cengmoat.resample(time=\"M\").sum()",
    ("computation", "_calc_idxminmax"): "x.time[x.argmax(\"time\").compute()] for x.idxmax(\"time\"), and argmin for idxmin",
    ("missing", "ffill"): f"{_FLOATS}.ffill(..)",
    ("missing", "bfill"): f"{_FLOATS}.bfill(..)",
    ("missing", "interp"): f"{_FLOATS}.interp(..)",
    ("parallel", "map_blocks"): f"{_FLOATS}.map_blocks(f), or x.data.to_dask().map_blocks(f) over NumPy's arrays",
    ("duck_array_ops", "where_method"): "x.where(cond, fill), as in x.where(x > 3, 0)",
    ("variable", "_shift_one_dim"): "x.shift(.., fill_value=0)",
    ("variable", "pad"): "x.pad(.., constant_values=0)",
    ("alignment", "reindex_variables"): "x.isel(..) by slices, so that no place is missing",
    **{("duck_array_ops", name): f"{_FLOATS}.{name}(..)" for name in ("std", "var", "median", "quantile")},
}
_GROUPS = "groupby"
# What takes the place of x.groupby("time.month") - clim, as long as there is no taking by labels.
ANOMALY = "x - (x[\"time.month\"] == clim.month).astype(\"int64\").dot(clim)"
_LISTS = ("DataArrayRolling", "DatasetRolling", "GroupBy", "Resample")


def _kinds(frame: Any) -> list[str]:
    """Return the names of the classes of the object whose method a call is."""
    return [kind.__name__ for kind in type(frame.f_locals.get("self")).__mro__]


def _of_frame(module: str, frame: Any) -> str:
    found = LINES.get((module, frame.f_code.co_name), "")
    if not found and module in ("rolling", _GROUPS):
        kinds = _kinds(frame)
        # (a resample is a groupby too)
        found = next((LINES[module, name] for name in reversed(_LISTS) if name in kinds and (module, name) in LINES), "")
    # (duck_array_ops makes its functions by one, whose name each has)
    if not found and module == "duck_array_ops" and frame.f_code.co_name == "f":
        found = LINES.get((module, str(frame.f_locals.get("name", ""))), "")
    return found


def _of_xarray() -> Iterator[tuple[str, Any]]:
    """Go over the calls of xarray on the stack, the innermost first: the last name of the module, and the frame."""
    frame: Any = sys._getframe(2) if "xarray" in sys.modules else None
    for _ in range(_DEPTH):
        if frame is None:
            break
        module = frame.f_globals.get("__name__", "")
        if module.startswith("xarray."):
            yield module.rpartition(".")[2], frame
        frame = frame.f_back


def line_of_caller() -> str:
    """Return what to write in place of the function of xarray that asks, or nothing where none asks that is known."""
    found = ""
    for module, frame in _of_xarray():
        found = _of_frame(module, frame) or found
    return found


def refuse_groups() -> None:
    """Refuse a part that xarray's own groupby takes, by NotImplementedError: it takes one for each group. Its resample takes slices, and
    stays."""
    is_group, is_operator = False, False
    for module, frame in _of_xarray():
        if module == _GROUPS:
            if "Resample" in _kinds(frame):
                return
            is_group, is_operator = True, is_operator or frame.f_code.co_name == "_binary_op"
    if is_operator:
        raise NotImplementedError("minus and plus of xarray's own groups take elements by labels, which the program hasn't. Nothing was computed."
                                  f" Write {ANOMALY} over clim = x.cengmoat.groupby(\"time.month\").mean()")
    if is_group:
        raise NotImplementedError("xarray's own groupby takes each group by a list of places. Nothing was computed. Write"
                                  f" {LINES[_GROUPS, 'GroupBy']}, after import cengmoat.xarray: it folds all groups in one pass")


def with_line(text: str) -> str:
    """Return the text of a refusal with what to write in place of the function of xarray that asks, where one does."""
    found = line_of_caller()
    return f"{text}. Nothing was computed. Write {found}" if found else text
