"""Eight links of `serve` that write, flush and change access lists, while the program is killed again and again. What was acknowledged stands:
of each dataset the last value that was written before an acknowledged flush was sent, or a later one; of each entry of the access list the
last one that was answered, or a later one. Takes the folder to work in; ends with 1 and what was wrong."""

import http.client
import json
import pathlib
import subprocess
import sys
import threading
import time

LINKS = 8
ROUNDS = 8
DOMAIN = "/home/lab"
RIGHTS = ("create", "read", "update", "delete", "readACL", "updateACL")
STATES = 2 ** len(RIGHTS)

room = pathlib.Path(sys.argv[1])
lab = ["--config", "examples/lab.toml", "--journal", str(room / "eight.journal")]
faults = []
lock = threading.Lock()


def wrong(text):
    with lock:
        faults.append(text)


class Served:
    """A program that serves, and the address at which it does."""

    def __init__(self):
        words = ["./hsds", "serve", *lab, "--listen", "127.0.0.1:0", "--workers", str(LINKS), "--links", "1000"]
        self.program = subprocess.Popen(words, stdout=subprocess.DEVNULL, stderr=subprocess.PIPE, text=True)
        line = self.program.stderr.readline()
        self.address = line.removeprefix("listen ").split(",")[0].strip()

    def kill(self):
        self.program.kill()
        self.program.wait()
        self.program.stderr.close()


class Link:
    def __init__(self, address):
        self.link = http.client.HTTPConnection(address, timeout=30)

    def ask(self, method, path, body=None):
        text = None if body is None else json.dumps(body)
        self.link.request(method, path, text, {"Authorization": "Bearer ta", "X-Hdf-domain": DOMAIN})
        answer = self.link.getresponse()
        data = answer.read()
        return answer.status, json.loads(data) if data else None

    def close(self):
        self.link.close()


class Counts:
    """Of each link a number: how far it was sent, how far answered, and how far that is acknowledged to be kept."""

    def __init__(self):
        self.sent = [0] * LINKS
        self.answered = [0] * LINKS
        self.kept = [0] * LINKS

    def keep(self, answered):
        self.kept = [max(old, new) for old, new in zip(self.kept, answered)]

    def find(self, found):
        """Behind a crash each number goes on from the one that was found."""
        self.sent, self.answered, self.kept = list(found), list(found), list(found)


def entry_of(number):
    return {right: bool(number >> at & 1) for at, right in enumerate(RIGHTS)}


def number_of(entry):
    return sum(1 << at for at, right in enumerate(RIGHTS) if entry[right])


def write_on(address, own, datasets, values, entries):
    """Writes one number after another, flushes behind every third, and changes an entry behind every fifth, until the link breaks."""
    link = Link(address)
    step = 0
    try:
        while True:
            step += 1
            with lock:
                values.sent[own] += 1
                value = values.sent[own]
            status, _ = link.ask("PUT", f"/datasets/{datasets[own]}/value", {"value": value})
            if status != 200:
                return wrong(f"a write was answered {status}")
            with lock:
                values.answered[own] = value
            if step % 3 == 0:
                with lock:
                    before = list(values.answered)
                status, _ = link.ask("PUT", "/?flush=1")
                if status != 204:
                    return wrong(f"a flush was answered {status}")
                with lock:
                    values.keep(before)
            if step % 5 == 0:
                with lock:
                    entries.sent[own] += 1
                    number = entries.sent[own]
                status, _ = link.ask("PUT", f"/acls/user{own}", entry_of(number % STATES))
                if status != 201:
                    return wrong(f"an entry was answered {status}")
                with lock:
                    entries.kept[own] = number
    except (OSError, http.client.HTTPException):
        pass
    finally:
        link.close()


def stands(datasets, values, entries):
    """What a new session finds lies between what was acknowledged and what was sent."""
    requests = [f"GET /datasets/{dataset}/value" for dataset in datasets] + [f"GET /acls/user{own}" for own in range(LINKS)]
    text = "".join(f"{it} HTTP/1.1\r\nAuthorization: Bearer ta\r\nX-Hdf-domain: {DOMAIN}\r\n\r\n" for it in requests)
    verified = subprocess.run(["./hsds", "verify", "--journal", lab[3]], capture_output=True)
    if verified.returncode:
        wrong(f"verify ended with {verified.returncode}")
    session = subprocess.run(["./hsds", "session", *lab], input=text.encode(), capture_output=True)
    bodies = [it.rpartition("\r\n\r\n")[2] for it in session.stdout.decode().split("HTTP/1.1 ")[1:]]
    if session.returncode or len(bodies) != len(requests):
        wrong(f"a session ended with {session.returncode} behind {len(bodies)} answers")
        return
    found = [json.loads(body)["value"] for body in bodies[:LINKS]]
    for own, value in enumerate(found):
        if not values.kept[own] <= value <= values.sent[own]:
            wrong(f"{value} was found, of {values.kept[own]} kept and {values.sent[own]} sent")
    values.find(found)
    numbers = []
    for own, body in enumerate(bodies[LINKS:]):
        entry = json.loads(body)["acl"]
        state = number_of(entry)
        may = [it for it in range(entries.kept[own], entries.sent[own] + 1) if it % STATES == state]
        if not may:
            wrong(f"entry {entry} was found, of {entries.kept[own]} kept and {entries.sent[own]} sent")
        numbers.append(may[0] if may else entries.sent[own])
    entries.find(numbers)


def main():
    subprocess.run(["./hsds", "init", *lab], check=True, capture_output=True)
    values, entries = Counts(), Counts()
    datasets = []
    begun = time.monotonic()
    for turn in range(ROUNDS):
        if time.monotonic() - begun > 40:
            break
        served = Served()
        if not datasets:
            link = Link(served.address)
            datasets = [link.ask("POST", "/datasets", {"type": "H5T_STD_I32LE"})[1]["id"] for _ in range(LINKS)]
            for own in range(LINKS):
                link.ask("PUT", f"/acls/user{own}", entry_of(0))
            link.close()
        threads = [threading.Thread(target=write_on, args=(served.address, own, datasets, values, entries)) for own in range(LINKS)]
        for thread in threads:
            thread.start()
        time.sleep(0.2 + 0.07 * turn)
        served.kill()
        for thread in threads:
            thread.join()
        if not any(values.kept):
            wrong("no flush was acknowledged")
        stands(datasets, values, entries)
    for fault in faults:
        print(f"kill: {fault}", file=sys.stderr)
    return 1 if faults else 0


sys.exit(main())
