"""Runs a command and prints its processor seconds and its peak memory.

usage: measure.py LABEL COMMAND..

The peak is never below that of this script when it starts the command, some 10 MiB: the line for
`true` shows it.
"""

import resource
import subprocess
import sys

label, *command = sys.argv[1:]
status = subprocess.run(command).returncode
used = resource.getrusage(resource.RUSAGE_CHILDREN)
seconds = used.ru_utime + used.ru_stime
print(f"{label:<10} {seconds:8.3f} s {used.ru_maxrss / 1024:8.1f} MiB", flush=True)
sys.exit(status)
