"""Runs the unit tests of the reckoning and closes with 'N passed, M failed'."""

import os
import sys
import unittest

HERE = os.path.dirname(os.path.abspath(__file__))


def main():
    suite = unittest.defaultTestLoader.discover(HERE)
    result = unittest.TextTestRunner(verbosity=1).run(suite)
    bad = len(result.failures) + len(result.errors)
    if result.testsRun == 0:
        bad += 1
    print("%d passed, %d failed" % (max(result.testsRun - bad, 0), bad), flush=True)
    return 1 if bad else 0


if __name__ == "__main__":
    sys.exit(main())
