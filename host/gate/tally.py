"""What the checks of this folder share: counting what passed, and the last line 'N passed, M failed'."""
import pathlib
import sys

ROOT = pathlib.Path(__file__).resolve().parents[2]


def report(results):
    """Prints each fault of the results, pairs of a name and a fault or None; then the tally. Ends the program."""
    passed = failed = 0
    for name, fault in results:
        if fault is None:
            passed += 1
        else:
            failed += 1
            print('%s: %s' % (name, fault))
    print('%d passed, %d failed' % (passed, failed))
    sys.exit(1 if failed else 0)
