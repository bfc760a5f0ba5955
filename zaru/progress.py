"""Says what is being done, where it takes long and somebody watches."""

from __future__ import annotations

import sys
import threading
from contextlib import contextmanager
from typing import Iterator

# Seconds before anything is said.
PATIENCE = 1.0


@contextmanager
def saying(what: str) -> Iterator[None]:
    """On standard error, if that is a terminal: a line once the work has taken over a second."""
    stream = sys.stderr
    if not stream.isatty():
        yield
        return
    timer = threading.Timer(PATIENCE, lambda: print(f"zaru: {what} ..", file=stream, flush=True))
    timer.daemon = True
    timer.start()
    try:
        yield
    finally:
        timer.cancel()
