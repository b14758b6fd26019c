#!/usr/bin/env python3
"""Runs the tests and prints one line on what ran and what was left out, and all of what failed."""
from __future__ import annotations

import collections
import io
import os
import sys
import time
import unittest

sys.path.insert(0, os.path.dirname(os.path.dirname(os.path.abspath(__file__))))

from tests.support import BUILT, OTHER, PROGRAM  # noqa: E402


def main(names: list[str]) -> int:
    """Run the tests of these modules, or all, and return the exit status."""
    began = time.monotonic()
    loader = unittest.defaultTestLoader
    suite = loader.loadTestsFromNames(names) if names else loader.discover(os.path.dirname(os.path.abspath(__file__)), top_level_dir=sys.path[0])
    out = io.StringIO()
    result = unittest.TextTestRunner(stream=out, verbosity=0, buffer=True).run(suite)
    left_out = collections.Counter(why for _, why in result.skipped)
    if PROGRAM is None:
        print(f"python: no proved program lies at {BUILT}, so the tests that run it were left out")
    if OTHER:
        print(f"python: run over {PROGRAM}, which CENGMOAT_TEST_PROGRAM names")
    if not result.wasSuccessful():
        print(out.getvalue())
    said = "".join(f", {count} left out ({why})" for why, count in left_out.items())
    failed = len(result.failures) + len(result.errors) + len(result.unexpectedSuccesses)
    print(f"python: {result.testsRun - len(result.skipped) - failed} passed, {failed} failed{said}, in {time.monotonic() - began:.0f} s")
    return 0 if result.wasSuccessful() else 1


if __name__ == "__main__":
    sys.exit(main(sys.argv[1:]))
