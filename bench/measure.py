"""Runs `PROGRAM apply` on a script and a new journal beside it, and prints the seconds, the greatest memory in KiB and how many edits were done.

The greatest memory is read while the program waits to write its tables, which are made whole before.
"""
import os
import re
import subprocess
import sys
import time

journal = sys.argv[2] + ".journal"
if os.path.exists(journal):
    os.remove(journal)
with open(sys.argv[2]) as script:
    begin = time.perf_counter()
    program = subprocess.Popen([sys.argv[1], "apply", journal], stdin=script, stdout=subprocess.PIPE)
    done = 0
    for line in program.stdout:
        if line.startswith(b"next "):
            break
        done += line.startswith(b"done ")
    status = open(f"/proc/{program.pid}/status").read() if program.poll() is None else ""
    peak = re.search(r"VmHWM:\s+(\d+)", status)
    program.stdout.read()
    program.wait()
    took = time.perf_counter() - begin
print(f"{took:.3f} {peak.group(1) if peak else 0} {done}")
