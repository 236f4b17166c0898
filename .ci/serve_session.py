#!/usr/bin/env -S python3 -IS
"""Stands for the built program where a session is asked: the input goes over one link of `serve`, what is answered over the link is written,
and the status is that of `serve`."""

import os
import pathlib
import shutil
import socket
import subprocess
import sys
import threading

PROGRAM = str(pathlib.Path(__file__).resolve().parent.parent / "hsds")
MOST_SECONDS = 60


def send(link):
    """Sends the whole input, and says that it was all. The other side may have ended the link before."""
    try:
        while piece := os.read(0, 65536):
            link.sendall(piece)
        link.shutdown(socket.SHUT_WR)
    except OSError:
        pass


def converse(address):
    """Writes what is answered, to the link's end. A server that ends at once resets it."""
    host, port = address.rsplit(":", 1)
    try:
        with socket.create_connection((host, int(port)), timeout=MOST_SECONDS) as link:
            threading.Thread(target=send, args=(link,), daemon=True).start()
            while piece := link.recv(65536):
                sys.stdout.buffer.write(piece)
    except ConnectionError:
        pass
    sys.stdout.buffer.flush()


def main():
    words = [PROGRAM, "serve", *sys.argv[2:], "--listen", "127.0.0.1:0", "--workers", "1", "--links", "1"]
    server = subprocess.Popen(words, stdin=subprocess.DEVNULL, stderr=subprocess.PIPE, text=True)
    try:
        line = server.stderr.readline()
        if line.startswith("listen "):
            converse(line.removeprefix("listen ").split(",")[0])
        else:
            sys.stderr.write(line)
        shutil.copyfileobj(server.stderr, sys.stderr)
        sys.exit(server.wait(MOST_SECONDS))
    finally:
        server.kill()


main()
