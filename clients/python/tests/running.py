"""Runs every test of a folder. The last line is `N passed, M failed`."""

import sys
import unittest


def run(folder):
    """Runs them, and answers the exit status: 0 where some passed and none failed."""
    suite = unittest.defaultTestLoader.discover(str(folder))
    told = unittest.TextTestRunner(sys.stderr, verbosity=1).run(suite)
    # Each part of a test that failed is told by itself, and the test is counted once.
    failed = len({getattr(test, "test_case", test).id() for test, _ in [*told.failures, *told.errors]})
    passed = max(0, told.testsRun - failed - len(told.skipped))
    if told.skipped:
        print(f"{len(told.skipped)} left out")
    print(f"{passed} passed, {failed} failed")
    return 0 if passed and told.wasSuccessful() else 1
