"""Counts the checks of a test that passed and that failed. A failed one is printed at once."""
import sys

passed = failed = 0


def check(name, is_so, more=""):
    global passed, failed
    if is_so:
        passed += 1
    else:
        failed += 1
        print(f"FAILED: {name} {more}", flush=True)
    return is_so


def same(name, found, wanted):
    return check(name, found == wanted, f"{found!r:.400}, and not {wanted!r:.400}")


def ended():
    """The last line of a test, and its end."""
    print(f"{passed} passed, {failed} failed", flush=True)
    sys.exit(failed != 0)
