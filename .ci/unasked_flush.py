"""Two links of `serve`, of which one writes 200 times and none asks for a flush: the second asks only once the journal has grown, by a flush
that nobody asked for. Takes the folder to work in; ends with 1 and what was wrong."""

import http.client
import json
import pathlib
import subprocess
import sys
import time

WRITES = 200
MOST_SECONDS = 20
HEADERS = {"Authorization": "Bearer ta", "X-Hdf-domain": "/home/lab"}

journal = pathlib.Path(sys.argv[1]) / "unasked.journal"
lab = ["--config", "examples/lab.toml", "--journal", str(journal)]


def ask(link, method, path, status, body=None):
    link.request(method, path, None if body is None else json.dumps(body), HEADERS)
    answer = link.getresponse()
    data = answer.read()
    if answer.status != status:
        sys.exit(f"unasked: {method} {path} was answered {answer.status}")
    return json.loads(data)


def main():
    subprocess.run(["./hsds", "init", *lab], check=True, capture_output=True)
    words = ["./hsds", "serve", *lab, "--listen", "127.0.0.1:0", "--workers", "2", "--links", "1"]
    server = subprocess.Popen(words, stdout=subprocess.DEVNULL, stderr=subprocess.PIPE, text=True)
    try:
        address = server.stderr.readline().removeprefix("listen ").split(",")[0]
        first, second = (http.client.HTTPConnection(address, timeout=30) for _ in range(2))
        dataset = ask(first, "POST", "/datasets", 201, {"type": "H5T_STD_I32LE"})["id"]
        # The run's record is there, as requests are answered.
        begun = journal.stat().st_size
        for value in range(WRITES):
            ask(first, "PUT", f"/datasets/{dataset}/value", 200, {"value": value})
        until = time.monotonic() + MOST_SECONDS
        while journal.stat().st_size == begun:
            if time.monotonic() > until:
                sys.exit("unasked: nothing was flushed")
            time.sleep(0.01)
        found = ask(second, "GET", f"/datasets/{dataset}/value", 200)["value"]
        if found != WRITES - 1:
            sys.exit(f"unasked: {found} was read")
        first.close()
        second.close()
        if server.wait(30):
            sys.exit(f"unasked: the server ended with {server.returncode}")
    finally:
        server.kill()
        server.stderr.close()


main()
