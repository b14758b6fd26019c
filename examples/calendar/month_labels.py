#!/usr/bin/env python3
"""Prints the label of each day of some years, a line each: 0 for January to 11 for December.

usage: examples/calendar/month_labels.py FIRST [LAST] [CALENDAR]

The years are FIRST to LAST, or FIRST alone. CALENDAR is as of months.py.
"""
import sys

sys.dont_write_bytecode = True
from months import IS_LEAP, lengths  # months.py, in this folder


def labels(first, last, calendar_name="standard"):
    """The label of each day of the years from first to last, in order."""
    return [month for year in range(first, last + 1)
            for month, length in enumerate(lengths(year, calendar_name)) for _ in range(length)]


def main(words):
    named = words[-1:] if words and not words[-1].isdecimal() else []
    years = words[:len(words) - len(named)]
    if len(years) not in (1, 2) or not all(it.isdecimal() for it in years) \
            or named and named[0] not in (*IS_LEAP, "360_day"):
        sys.exit(__doc__)
    print("\n".join(map(str, labels(int(years[0]), int(years[-1]), *named))))


if __name__ == "__main__":
    if {"-h", "--help"} & set(sys.argv[1:]):
        print(__doc__.strip())
    else:
        main(sys.argv[1:])
