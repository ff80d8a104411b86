"""Runs a program and tells what it took, on a last line of standard output: python3 -SE spent.py PROGRAM WORD ..

The line has the seconds, those of a processor, the greatest memory in kB, and the status. A process that starts another counts in the
memory of that one, so this one imports little: memory from some 9 MB on is told as it is.
"""

import os
import sys
import time


def main(words):
    begun = time.monotonic()
    _, status, usage = os.wait4(os.posix_spawnp(words[0], words, os.environ), 0)
    taken = time.monotonic() - begun
    print(f"{taken:.6f} {usage.ru_utime + usage.ru_stime:.6f} {usage.ru_maxrss} {os.waitstatus_to_exitcode(status)}")


if __name__ == "__main__":
    main(sys.argv[1:])
