#!/usr/bin/python3
"""Prints a table of cases of scalar functions, with values from NumPy.

usage: tools/numpy_cases.py > crates/test_cases/data/scalars_numpy.json

Each function at each type that it accepts, at both ends of the type's range and around zero. NumPy gives each value but those
that are this project's own rule: a zero divisor gives 0, and a shift that is negative or not below the width gives 0 to the left
and the sign alone to the right.
"""
import json
import numpy as np
from said import usage_if_asked

INTEGERS = ["int8", "int16", "int32", "int64", "uint8", "uint16", "uint32", "uint64"]
ALL = ["bool"] + INTEGERS
ONE = {"negative": INTEGERS, "positive": INTEGERS, "abs": INTEGERS, "square": INTEGERS, "sign": INTEGERS,
       "bitwise_invert": ALL, "logical_not": ["bool"]}
BOTH = {"add": INTEGERS, "subtract": INTEGERS, "multiply": INTEGERS, "floor_divide": INTEGERS, "remainder": INTEGERS,
        "bitwise_and": ALL, "bitwise_or": ALL, "bitwise_xor": ALL, "bitwise_left_shift": INTEGERS, "bitwise_right_shift": INTEGERS,
        "equal": ALL, "not_equal": ALL, "less": INTEGERS, "less_equal": INTEGERS, "greater": INTEGERS, "greater_equal": INTEGERS,
        "logical_and": ["bool"], "logical_or": ["bool"], "logical_xor": ["bool"]}
NUMPY = {"bitwise_invert": "invert", "bitwise_left_shift": "left_shift", "bitwise_right_shift": "right_shift"}


def numbers(dtype):
    """Returns both ends of the type's range and numbers around zero."""
    if dtype == "bool":
        return [0, 1]
    info = np.iinfo(dtype)
    middle = [-1, 0, 1, 3] if info.min < 0 else [0, 1, 3]
    return [int(info.min), *middle, int(info.max)]


def value(function, dtype, *arguments):
    """Returns NumPy's value, or that of this project's own rule."""
    if function in ("floor_divide", "remainder") and arguments[1] == 0:
        return 0
    if function.endswith("_shift"):
        width = np.iinfo(dtype).bits
        if not 0 <= arguments[1] < width:
            return 0 if "left" in function or arguments[0] >= 0 else -1
    with np.errstate(all="ignore"):
        arrays = [np.array([x], dtype) for x in arguments]
        return int(getattr(np, NUMPY.get(function, function))(*arrays)[0])


def rows(function, dtype):
    """Returns the rows of a function at a type."""
    xs = numbers(dtype)
    if function in ONE:
        return [[function, dtype, x, value(function, dtype, x)] for x in xs]
    ys = xs
    if function.endswith("_shift"):
        width = np.iinfo(dtype).bits
        ys = [y for y in (-1, 0, 1, width - 1, width, width + 1) if y in range(np.iinfo(dtype).min, np.iinfo(dtype).max + 1)]
    return [[function, dtype, x, y, value(function, dtype, x, y)] for x in xs for y in ys]


def casts():
    """Returns the rows of conversions: from each type's numbers to each type."""
    for source in ALL:
        for dtype in ALL:
            for x in numbers(source):
                yield ["astype", dtype, x, int(np.array([x], source).astype(dtype)[0])]


def main():
    cases = [{"name": f"{f} at {t}", "rows": rows(f, t)} for f, types in {**ONE, **BOTH}.items() for t in types]
    seen = sorted({json.dumps(row) for row in casts()})
    cases.append({"name": "astype between all types", "rows": [json.loads(row) for row in seen]})
    lines = ",\n".join(json.dumps(case, separators=(",", ":")) for case in cases)
    print('{"kind":"scalars","cases":[\n' + lines + "\n]}")


if __name__ == "__main__":
    usage_if_asked(__doc__)
    main()
