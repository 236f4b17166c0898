"""Clients of the array service at an address, over so many links in all: kept alive, pipelined, in pieces of one byte, sixteen at once, one
that goes away in the middle, one that sends nothing, and one that sends a byte now and then behind a refusal. Prints the id of the dataset that all share; ends with 1 and what was wrong."""

import http.client
import json
import socket
import sys
import threading
import time
import urllib.error
import urllib.request

AT_ONCE = 16
ROUNDS = 20
DOMAIN = "/home/lab"

host, port = sys.argv[1].rsplit(":", 1)
port = int(port)
budget = int(sys.argv[2])
used = 0
faults = []
lock = threading.Lock()


def wrong(text):
    with lock:
        faults.append(text)


def linked():
    """Counts one link more."""
    global used
    with lock:
        used += 1


def request(line, body=b"", token="ta"):
    head = f"{line} HTTP/1.1\r\nAuthorization: Bearer {token}\r\nX-Hdf-domain: {DOMAIN}\r\nContent-Length: {len(body)}\r\n\r\n"
    return head.encode() + body


def connected():
    linked()
    link = socket.create_connection((host, port), timeout=60)
    link.setsockopt(socket.IPPROTO_TCP, socket.TCP_NODELAY, 1)
    return link


def read_all(link):
    pieces = []
    while True:
        piece = link.recv(65536)
        if not piece:
            return b"".join(pieces)
        pieces.append(piece)


def answers_of(text):
    """The statuses and bodies of answers, one behind the other."""
    found = []
    while text:
        head, text = text.split(b"\r\n\r\n", 1)
        lines = head.decode().split("\r\n")
        size = 0
        for line in lines[1:]:
            name, value = line.split(": ", 1)
            if name == "Content-Length":
                size = int(value)
        found.append((int(lines[0].split(" ")[1]), text[:size]))
        text = text[size:]
    return found


class Kept:
    """A link that is kept alive, by http.client."""

    def __init__(self):
        linked()
        self.link = http.client.HTTPConnection(host, port, timeout=60)

    def ask(self, method, path, body=None, token="ta"):
        text = None if body is None else json.dumps(body)
        self.link.request(method, path, text, {"Authorization": f"Bearer {token}", "X-Hdf-domain": DOMAIN})
        answer = self.link.getresponse()
        data = answer.read()
        return answer.status, json.loads(data) if data else None

    def close(self):
        self.link.close()


def new_dataset(kept):
    status, body = kept.ask("POST", "/datasets", {"type": "H5T_STD_I32LE"})
    if status != 201:
        wrong(f"a dataset was answered {status} {body}")
        return None
    return body["id"]


def by_urllib():
    linked()
    asked = urllib.request.Request(f"http://{host}:{port}/?domain={DOMAIN}", headers={"Authorization": "Bearer tb"})
    with urllib.request.urlopen(asked, timeout=60) as answer:
        if answer.status != 200 or json.load(answer)["owner"] != "alice":
            wrong("urllib had another node")
    linked()
    try:
        urllib.request.urlopen(f"http://{host}:{port}/?domain={DOMAIN}", timeout=60)
        wrong("a caller without a token was served")
    except urllib.error.HTTPError as refused:
        if refused.code != 403:
            wrong(f"a caller without a token had {refused.code}")


def written_then_read(shared, number):
    """The requests that write a number to the shared dataset and read it, and then close."""
    write = json.dumps({"value": number}).encode()
    return (
        request(f"PUT /datasets/{shared}/value", write)
        + request(f"GET /datasets/{shared}/value", token="tb")
        + request("GET /nothing")
        + f"GET /?domain={DOMAIN} HTTP/1.1\r\nConnection: close\r\n\r\n".encode()
    )


def check_four(name, text, number):
    found = answers_of(text)
    if [status for status, _ in found] != [200, 200, 404, 403]:
        wrong(f"{name} had {found}")
    elif json.loads(found[1][1]) != {"value": number}:
        wrong(f"{name} read {found[1][1]}")


def pipelined(shared):
    with connected() as link:
        link.sendall(written_then_read(shared, 101))
        check_four("pipelining", read_all(link), 101)


def in_pieces(shared):
    with connected() as link:
        for byte in written_then_read(shared, 102):
            link.sendall(bytes([byte]))
        check_four("single bytes", read_all(link), 102)


def gone_away(shared):
    with connected() as link:
        link.sendall(request(f"PUT /datasets/{shared}/value", b'{"value":999999}')[:-4])


def silent():
    """Sends nothing, and waits for the other side to end the link."""
    begin = time.monotonic()
    with connected() as link:
        link.settimeout(60)
        if read_all(link):
            wrong("a silent client had an answer")
    if not 20 < time.monotonic() - begin < 50:
        wrong(f"a silent client waited {time.monotonic() - begin} seconds")


def dripping():
    """Sends a byte now and then behind what is refused, until the other side has closed the link, which it does soon."""
    with connected() as link:
        link.sendall(b"POST /groups HTTP/1.1\r\nTransfer-Encoding: chunked\r\n\r\n")
        if [status for status, _ in answers_of(read_all(link))] != [501]:
            wrong("a chunked body wasn't refused")
        begin = time.monotonic()
        try:
            while time.monotonic() - begin < 20:
                link.sendall(b"x")
                time.sleep(0.2)
            wrong("a client that sends a byte now and then held its link")
        except OSError:
            pass


def one_of_many(shared, written, index):
    """Writes and reads a dataset of its own, and one that all share."""
    kept = Kept()
    own = new_dataset(kept)
    for round_number in range(ROUNDS):
        number = 1000 * (index + 1) + round_number
        for dataset in (own, shared):
            status, body = kept.ask("PUT", f"/datasets/{dataset}/value", {"value": number})
            if (status, body) != (200, {}):
                wrong(f"a write was answered {status} {body}")
        status, body = kept.ask("GET", f"/datasets/{own}/value")
        if (status, body) != (200, {"value": number}):
            wrong(f"link {index} read {status} {body} of its own dataset, and not {number}")
        status, body = kept.ask("GET", f"/datasets/{shared}/value", token="tb")
        if status != 200 or body["value"] not in written:
            wrong(f"link {index} read {status} {body} of the shared dataset, which nobody wrote")
    kept.close()


def guarded(act, *given):
    try:
        act(*given)
    except Exception as fault:
        wrong(f"{act.__name__}: {fault!r}")


def side_by_side(acts):
    threads = [threading.Thread(target=guarded, args=act) for act in acts]
    for thread in threads:
        thread.start()
    return threads


def main():
    quiet = side_by_side([(silent,), (dripping,)])
    kept = Kept()
    shared = new_dataset(kept)
    kept.ask("PUT", f"/datasets/{shared}/value", {"value": 100})
    kept.close()
    print("shared", shared)
    for act in [(by_urllib,), (pipelined, shared), (in_pieces, shared), (gone_away, shared)]:
        guarded(*act)
    written = {102} | {1000 * (index + 1) + number for index in range(AT_ONCE) for number in range(ROUNDS)}
    for thread in side_by_side([(one_of_many, shared, written, index) for index in range(AT_ONCE)]) + quiet:
        thread.join()
    while used < budget:
        guarded(by_urllib) if used + 2 <= budget else connected().close()
    print("\n".join(faults))
    sys.exit(1 if faults or used != budget else 0)


main()
