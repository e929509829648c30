#!/usr/bin/env python3
"""Runs a command, and prints the processor time that it took in seconds and its most memory in KiB.

Usage: cost.py COMMAND [WORD..]

The time is that of user and system, of all its threads, and of nothing that ran before it. It ends with the
command's own status, or with 128 and the number of the signal that ended it. Memory is at least that of this
script, some 14,000 KiB, since the system counts the command from the copy of this script that it begins as.
"""
import os
import sys


def main():
    if len(sys.argv) < 2:
        sys.exit(__doc__)
    nothing = [
        (os.POSIX_SPAWN_OPEN, 0, os.devnull, os.O_RDONLY, 0),
        (os.POSIX_SPAWN_OPEN, 1, os.devnull, os.O_WRONLY, 0),
    ]
    child = os.posix_spawnp(sys.argv[1], sys.argv[1:], os.environ, file_actions=nothing)
    _, ended, used = os.wait4(child, 0)
    print(f"{used.ru_utime + used.ru_stime:.4f} {used.ru_maxrss}")
    status = os.waitstatus_to_exitcode(ended)
    sys.exit(status if status >= 0 else 128 - status)


if __name__ == "__main__":
    main()
