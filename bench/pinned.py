"""Runs a program, and gives each of its threads a core of its own as soon as there are so many:

    pinned.py THREADS PROGRAM ARGUMENT..

Where there are fewer cores, several threads share one. Ends with the program's status.
"""
import os
import subprocess
import sys
import time

wanted = int(sys.argv[1])
cores = sorted(os.sched_getaffinity(0))
running = subprocess.Popen(sys.argv[2:])
while running.poll() is None:
    try:
        threads = sorted(int(thread) for thread in os.listdir(f"/proc/{running.pid}/task"))
        if len(threads) >= wanted:
            for number, thread in enumerate(threads):
                os.sched_setaffinity(thread, {cores[number % len(cores)]})
            break
    except (FileNotFoundError, ProcessLookupError):
        break
    time.sleep(0.001)
sys.exit(running.wait())
