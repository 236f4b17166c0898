"""A link of `serve` that writes an object of each lane and flushes, over a disk whose syncs wait, beside links that read these objects. The flush
holds neither the door nor a lane while it waits, so within each of its syncs so many reads of each object are asked and answered, with what was
written; and it is answered only behind the last of them. Takes the folder to work in; ends with 1 and what was wrong. A tracer makes the syncs
wait, so it has to be there."""

import collections
import http.client
import json
import pathlib
import re
import subprocess
import sys
import threading
import time

from tracer import attached

LANES = 4
SECONDS = 1
LEAST_READS = 20
HEADERS = {"Authorization": "Bearer ta", "X-Hdf-domain": "/home/lab"}

# A thread, when it began to sync, and how long that took.
SYNC = re.compile(r"(\d+) +(\d+\.\d+) f(?:data)?sync\(\d+\) += 0 \(DELAYED\) <(\d+\.\d+)>")

Sync = collections.namedtuple("Sync", "thread begin end")
Read = collections.namedtuple("Read", "begin end")

room = pathlib.Path(sys.argv[1])
lab = ["--config", "examples/lab.toml", "--journal", str(room / "slow.journal")]
faults = []


def wrong(text):
    faults.append(text)


def send(link, method, path, body=None):
    link.request(method, path, None if body is None else json.dumps(body), HEADERS)


def take(link, status):
    answer = link.getresponse()
    data = answer.read()
    if answer.status != status:
        wrong(f"{answer.status} was answered in place of {status}")
    return json.loads(data) if data else None


def ask(link, method, path, status, body=None):
    send(link, method, path, body)
    return take(link, status)


def write(link, datasets, value):
    for dataset in datasets:
        ask(link, "PUT", f"/datasets/{dataset}/value", 200, {"value": value})


def read_on(link, dataset, value, flushed, reads):
    """Reads one object again and again until the flush was answered."""
    while not flushed.is_set():
        begin = time.time()
        answer = ask(link, "GET", f"/datasets/{dataset}/value", 200)
        reads.append(Read(begin, time.time()))
        if answer != {"value": value}:
            return wrong(f"{answer} was read of {dataset}")


def flushed_beside(program, own, others, datasets):
    """The syncs of the flush's thread since it was asked, when the flush was answered, and the reads of each object."""
    trace = room / "slow.trace"
    syncs = ["-e", "trace=fsync,fdatasync", "-e", f"inject=fsync,fdatasync:delay_enter={SECONDS}s"]
    tracer = attached(program, trace, "-ttt", "-T", *syncs)
    flushed = threading.Event()
    reads = [[] for _ in datasets]
    readers = [threading.Thread(target=read_on, args=(link, dataset, 2, flushed, its)) for link, dataset, its in zip(others, datasets, reads)]
    write(own, datasets, 2)
    asked = time.time()
    send(own, "PUT", "/?flush=1")
    # Only now, as the server flushes by itself behind many requests.
    for reader in readers:
        reader.start()
    take(own, 204)
    answered = time.time()
    flushed.set()
    for reader in readers:
        reader.join()
    tracer.terminate()
    tracer.wait(30)
    found = [(thread, float(begin), float(took)) for thread, begin, took in SYNC.findall(trace.read_text())]
    since = [Sync(thread, begin, begin + took) for thread, begin, took in found if begin > asked]
    return [sync for sync in since if sync.thread == since[0].thread], answered, reads


def judge(syncs, answered, datasets, reads):
    # The flush writes, syncs, writes and syncs.
    if len(syncs) != 2:
        wrong(f"a flush made {len(syncs)} syncs")
    for number, sync in enumerate(syncs):
        if sync.end - sync.begin < SECONDS:
            wrong(f"sync {number} took {sync.end - sync.begin} seconds")
        if answered < sync.end:
            wrong(f"the flush was answered {sync.end - answered} seconds before the end of sync {number}")
        for dataset, its in zip(datasets, reads):
            within = sum(sync.begin < read.begin and read.end < sync.end for read in its)
            if within < LEAST_READS:
                wrong(f"within sync {number} {within} reads of {dataset} were answered")


def main():
    subprocess.run(["./hsds", "init", *lab, "--lanes", str(LANES)], check=True, capture_output=True)
    words = ["./hsds", "serve", *lab, "--listen", "127.0.0.1:0", "--workers", str(LANES + 1), "--links", "1"]
    program = subprocess.Popen(words, stdout=subprocess.DEVNULL, stderr=subprocess.PIPE, text=True)
    try:
        address = program.stderr.readline().removeprefix("listen ").split(",")[0]
        own, *others = (http.client.HTTPConnection(address, timeout=30) for _ in range(LANES + 1))
        datasets = [ask(own, "POST", "/datasets", 201, {"type": "H5T_STD_I32LE"})["id"] for _ in range(LANES)]
        # The last digits of an id are its serial, by which it is of a lane.
        if len({int(dataset[-8:], 16) % LANES for dataset in datasets}) < LANES:
            wrong(f"{datasets} are of fewer lanes")
        write(own, datasets, 1)
        ask(own, "PUT", "/?flush=1", 204)
        syncs, answered, reads = flushed_beside(program, own, others, datasets)
        judge(syncs, answered, datasets, reads)
        for link in (own, *others):
            link.close()
        if program.wait(30):
            wrong(f"the server ended with {program.returncode}")
    finally:
        program.kill()
        program.stderr.close()
    print("\n".join(f"slow: {fault}" for fault in faults), end="\n" if faults else "", file=sys.stderr)
    sys.exit(1 if faults else 0)


main()
