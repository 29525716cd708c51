"""Runs the tests of a folder, `run.py FOLDER`, or those of them that further arguments name; the last line is 'N passed, M failed'. No
test is a failure."""
import sys
import unittest
from pathlib import Path

ROOT = Path(__file__).resolve().parent.parent


def main() -> int:
    folder = Path(sys.argv[1]).resolve()
    sys.path[:0] = [str(folder), str(ROOT / "python")]
    loader = unittest.defaultTestLoader
    suite = loader.loadTestsFromNames(sys.argv[2:]) if sys.argv[2:] else loader.discover(str(folder))
    result = unittest.TextTestRunner(stream=sys.stdout, verbosity=1).run(suite)
    # several subtests that fail are one test that fails
    tests = {getattr(test, "test_case", test).id() for test, _ in result.failures + result.errors}
    failed = len(tests) + len(result.unexpectedSuccesses)
    passed = result.testsRun - failed - len(result.skipped)
    print(f"{passed} passed, {failed} failed")
    return 0 if passed > 0 and failed == 0 and not result.skipped else 1


sys.exit(main())
