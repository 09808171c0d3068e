"""Plays a job and tells the status, the lines, the seconds and the greatest size of the program in memory.

usage: timed_play.py PROGRAM JOB
"""
import resource
import subprocess
import sys
import tempfile
import time

program, job = sys.argv[1:]
with open(job, "rb") as source, tempfile.TemporaryFile() as sink:
    start = time.monotonic()
    status = subprocess.run([program, "play"], stdin=source, stdout=sink).returncode
    seconds = time.monotonic() - start
    sink.seek(0)
    lines = sink.read().splitlines()
size = resource.getrusage(resource.RUSAGE_CHILDREN).ru_maxrss // 1024
done = sum(line.endswith(b"-> ok") for line in lines)
print(f"status {status}, {done} of {len(lines) - 1} lines ok, {lines[-1].decode()}, {seconds:.2f} s, {size} MB")
