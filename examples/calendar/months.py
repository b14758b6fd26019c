#!/usr/bin/env python3
"""Prints the expression for the sum of each month of a year, over an array whose first axis has the
year's days.

usage: examples/calendar/months.py NAME YEAR STORE_AS [CALENDAR]

CALENDAR is one of the CF conventions: standard or gregorian (Julian up to October 1582, as it is if
none is given), proleptic_gregorian, julian, noleap or 365_day, all_leap or 366_day, 360_day. The
first axis of NAME has as many days as the year has there.

A month is a slice of the days and a sum that keeps its axis: two nodes. The twelve sums are joined by
eight at a time, since a node joins at most eight.
"""
import calendar
import json
import sys

DAYS = [31, 28, 31, 30, 31, 30, 31, 31, 30, 31, 30, 31]
# Whether a year is a leap year in each calendar whose months have these lengths.
IS_LEAP = {
    **dict.fromkeys(("standard", "gregorian"),
                    lambda year: calendar.isleap(year) if year > 1582 else year % 4 == 0),
    "proleptic_gregorian": calendar.isleap, "julian": lambda year: year % 4 == 0,
    **dict.fromkeys(("noleap", "365_day"), lambda year: False),
    **dict.fromkeys(("all_leap", "366_day"), lambda year: True)}


def lengths(year, name="standard"):
    """How many days each month of a year has in a calendar."""
    if name == "360_day":
        return [30] * 12
    found = list(DAYS)
    found[1] += IS_LEAP[name](year)
    if year == 1582 and name in ("standard", "gregorian"):
        # Behind the 4th of October came the 15th.
        found[9] -= 10
    return found


def expression(name, year, store_as, calendar_name="standard"):
    nodes, sums, start = [{"id": "days", "op": "input", "name": name}], [], 0
    for month, length in enumerate(lengths(year, calendar_name), 1):
        stop = start + length
        nodes.append({"id": f"days{month}", "op": "index", "args": ["days"],
                      "index": [{"start": start, "stop": stop}]})
        nodes.append({"id": f"sum{month}", "op": "sum", "args": [f"days{month}"], "axes": [0],
                      "keepdims": True})
        sums.append(f"sum{month}")
        start = stop
    nodes.append({"id": "first", "op": "concat", "args": sums[:8], "axis": 0})
    nodes.append({"id": "last", "op": "concat", "args": sums[8:], "axis": 0})
    nodes.append({"id": "months", "op": "concat", "args": ["first", "last"], "axis": 0})
    return {"nodes": nodes, "out": "months", "store_as": store_as}


def main(words):
    if len(words) not in (3, 4) or words[3:] and words[3] not in (*IS_LEAP, "360_day"):
        sys.exit(__doc__)
    print(json.dumps(expression(words[0], int(words[1]), *words[2:])))


if __name__ == "__main__":
    if {"-h", "--help"} & set(sys.argv[1:]):
        print(__doc__.strip())
    else:
        main(sys.argv[1:])
