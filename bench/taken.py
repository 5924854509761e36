#!/usr/bin/env python3
"""Prints the nanoseconds that the processor takes for a run of a program, with what the system does for it: the least of some runs. Work
beside it adds less to that than to the time by the clock.

    bench/taken.py RUNS STATUS INPUT OUTPUT PROGRAM WORD..

reads INPUT and writes OUTPUT. A run that ends by a signal, or with another status than STATUS, is an error, unless that is `any`. What the
program says on standard error is dropped.
"""
import os
import subprocess
import sys


def run(wanted, source, target, words):
    """The seconds of one run."""
    with open(source, "rb") as read, open(target, "wb") as written:
        process = subprocess.Popen(words, stdin=read, stdout=written, stderr=subprocess.DEVNULL)
        _, status, usage = os.wait4(process.pid, 0)
    process.returncode = os.waitstatus_to_exitcode(status)
    if process.returncode < 0 or wanted not in ("any", str(process.returncode)):
        sys.exit(f"{' '.join(words)}: status {process.returncode}, wanted {wanted}")
    return usage.ru_utime + usage.ru_stime


def main(runs, *rest):
    wanted, source, target, *words = rest
    print(round(min(run(wanted, source, target, words) for _ in range(int(runs))) * 1e9))


if __name__ == "__main__":
    if len(sys.argv) < 6:
        sys.exit(__doc__)
    main(*sys.argv[1:])
