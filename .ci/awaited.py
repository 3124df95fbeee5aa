"""How long trials wait for what must come: so long that only what hangs is missed, on a slow machine too. No trial asserts a
time; bench/ measures."""

import time

SECONDS = 300
BROWSER_SECONDS = 3600  # of all pages that one browser opens


def wait_until(is_so):
    """Waits until something is so; returns whether it became so."""
    try:
        return bool(wait_for(is_so, bool))
    except TimeoutError:
        return False


def wait_for(find, is_wanted):
    """Waits until a call finds what is wanted, and returns that; raises a `TimeoutError` if it doesn't come."""
    stop = time.monotonic() + SECONDS
    while True:
        found = find()
        if is_wanted(found):
            return found
        if time.monotonic() > stop:
            raise TimeoutError(f"after {SECONDS} seconds it is {found!r}")
        time.sleep(0.02)
