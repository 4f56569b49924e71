#!/usr/bin/env python3
"""Runs a command of the shell on a file, and prints its seconds of processor time and the most memory that it had, in KiB.

Usage: costs.py COMMAND FILE

The shell ends before the command, and the command's end comes to this process: so the figures are those of the command only. The system counts what a
process had before it became another program too, which of a child of this one would be more than most commands take. What a shell leaves running ignores
Ctrl-C, which env undoes.
"""
import ctypes
import os
import subprocess
import sys

PR_SET_CHILD_SUBREAPER = 36

command, file = sys.argv[1:]
ctypes.CDLL(None).prctl(PR_SET_CHILD_SUBREAPER, 1, 0, 0, 0)
shell = subprocess.Popen(["/bin/sh", "-c", f'env --default-signal=INT,QUIT {command} < "$0" > /dev/null &', file])
shell.wait()
_, _, used = os.wait3(0)
print(used.ru_utime + used.ru_stime, used.ru_maxrss)
