"""Runs the tests of this folder: python3 bindings/python/tests. The last line is 'N passed, M failed'."""

import os
import sys
import unittest

HERE = os.path.dirname(os.path.abspath(__file__))
ROOT = os.path.dirname(os.path.dirname(os.path.dirname(HERE)))
# tests/lib has the trees of a second reading of the definitions.
sys.path[:0] = [HERE, os.path.join(ROOT, "tests", "lib")]
if __name__ == "__main__":
    result = unittest.TextTestRunner(stream=sys.stdout, verbosity=0).run(unittest.defaultTestLoader.discover(HERE))
    for test, why in result.skipped:
        print(f"left out: {test}: {why}")
    bad = result.failures + result.errors
    passed = result.testsRun - len(result.skipped) - len(bad)
    print(f"{passed} passed, {len(bad)} failed")
    sys.exit(passed == 0 or not result.wasSuccessful())
