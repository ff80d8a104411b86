"""How scripts say what went wrong, and end: never with a status of Python's own, which would read as an answer."""

import contextlib
import os
import sys
import traceback
from typing import Callable, NoReturn, Sequence


def complain(script: str, text: object) -> None:
    """Writes a line to standard error, if that takes it. (A process may have none.)"""
    if sys.stderr is not None:
        with contextlib.suppress(OSError, ValueError):
            sys.stderr.write(f"{script}: {text}\n")
            sys.stderr.flush()


def run_script(main: Callable[[Sequence[str]], int], script: str, failed: int) -> NoReturn:
    """Ends the process with the status that `main` returns, or with `failed`."""
    try:
        status = main(sys.argv[1:])
    except Exception:
        complain(script, traceback.format_exc())
        status = failed
    with contextlib.suppress(Exception):
        sys.stdout.flush()    # (of the usage: answers were)
    os._exit(status)
