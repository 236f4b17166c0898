"""One link of `serve` whose disk refuses each call from one on, once a flush was acknowledged: what was flushed stands, or what was written
behind it. Takes the folder to work in; ends with 1 and what was wrong. A tracer refuses the calls, so it has to be there."""

import http.client
import json
import pathlib
import subprocess
import sys

from tracer import attached

DATASET = "/datasets/d-00000000-0001-8000-8000-010000000000"
ROOT = "g-00000000-0001-8000-8000-000000000000"
HEADERS = {"Authorization": "Bearer ta", "X-Hdf-domain": "/home/lab"}

# The last flush writes, syncs, writes and syncs. Which of its writes and syncs is the first that is refused, the status, and the value then.
STOPS = [
    (1, 1, 5, [1, 2]),
    (2, 1, 5, [1, 2]),
    (2, 2, 5, [1, 2]),
    (3, 2, 5, [3, 4]),
    (3, 3, 0, [3, 4]),
]

room = pathlib.Path(sys.argv[1])
lab = ["--journal", str(room / "stopped.journal")]
configured = ["--config", "examples/lab.toml", *lab]
faults = []


def traced(program, write, sync):
    """A tracer by which the program's next calls are refused."""
    refused = ["-e", f"inject=pwrite64:error=EIO:when={write}+", "-e", f"inject=fsync:error=EIO:when={sync}+"]
    return attached(program, room / "trace", "-e", "trace=pwrite64,fsync", *refused)


def ask(link, method, path, status, body=None):
    link.request(method, path, None if body is None else json.dumps(body), HEADERS)
    answer = link.getresponse()
    answer.read()
    if answer.status != status:
        faults.append(f"{method} {path} was answered {answer.status}")


def stop(write, sync):
    """The status of a program whose disk stops there."""
    words = ["./hsds", "serve", *configured, "--listen", "127.0.0.1:0", "--workers", "1", "--links", "1"]
    program = subprocess.Popen(words, stdout=subprocess.DEVNULL, stderr=subprocess.PIPE, text=True)
    try:
        address = program.stderr.readline().removeprefix("listen ").split(",")[0]
        link = http.client.HTTPConnection(address, timeout=30)
        ask(link, "POST", "/datasets", 201, {"type": "H5T_STD_I32LE", "shape": [2], "link": {"id": ROOT, "name": "x"}})
        ask(link, "PUT", f"{DATASET}/value", 200, {"value": [1, 2]})
        ask(link, "PUT", "/?flush=1", 204)
        tracer = traced(program, write, sync)
        ask(link, "PUT", f"{DATASET}/value", 200, {"value": [3, 4]})
        link.close()
        status = program.wait(30)
        tracer.wait(30)
        return status
    finally:
        program.kill()
        program.stderr.close()


def main():
    for write, sync, wanted, value in STOPS:
        (room / "stopped.journal").unlink(missing_ok=True)
        subprocess.run(["./hsds", "init", *configured], stdout=subprocess.DEVNULL, check=True)
        status = stop(write, sync)
        if status != wanted:
            faults.append(f"serve whose disk stopped at write {write} and sync {sync} ended with {status}")
        document = subprocess.run(["./hsds", "export", "/home/lab", *lab], stdout=subprocess.PIPE, check=True).stdout
        found = [one["value"] for one in json.loads(document)["datasets"].values()]
        if found != [value]:
            faults.append(f"behind write {write} and sync {sync} stood {found}")
    print("\n".join(f"stop: {fault}" for fault in faults), end="\n" if faults else "", file=sys.stderr)
    sys.exit(1 if faults else 0)


main()
