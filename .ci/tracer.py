"""A tracer that refuses calls of a program, or makes them wait."""

import pathlib
import subprocess
import time


def attached(program, trace, *words):
    """The tracer with these words, once it stands at each thread of the program. What it saw is written to a file."""
    tracer = subprocess.Popen(["strace", "-f", "-qq", "-o", str(trace), "-p", str(program.pid), "-e", "signal=none", *words])
    tasks = pathlib.Path(f"/proc/{program.pid}/task")
    for _ in range(200):
        if all("TracerPid:\t0\n" not in (task / "status").read_text() for task in tasks.iterdir()):
            return tracer
        time.sleep(0.02)
    raise TimeoutError("no tracer came")
