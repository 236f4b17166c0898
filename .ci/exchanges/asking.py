"""How the scripts in the folders here ask the built program: requests and their answers, sessions, journals, the lines of tables, and numbers
that look drawn."""

import io
import pathlib
import subprocess

HERE = pathlib.Path(__file__).resolve().parent
ROOT = HERE.parents[1]


class Wrong(Exception):
    """What doesn't hold."""


def check(holds, text):
    if not holds:
        raise Wrong(text[:2000])


def lines_of(file):
    """The lines of a table."""
    return [line for line in file.read_text(encoding="utf-8").split("\n") if line]


# ---- requests and answers


def request(asked, headers, body=b""):
    """The bytes of a request: its method and target, its headers, and its body, with how long that is where there is one."""
    lines = [f"{asked} HTTP/1.1", *(f"{name}: {value}" for name, value in headers)]
    if body:
        lines.append(f"Content-Length: {len(body)}")
    return "\r\n".join([*lines, "", ""]).encode() + body


def read_answer(link):
    """The next answer: its status, its headers by their names, and its body."""
    line = link.readline().decode().split()
    check(len(line) > 1, "an answer is missing")
    headers = {}
    while (field := link.readline().decode().strip()):
        name, _, value = field.partition(": ")
        headers[name] = value
    return int(line[1]), headers, link.read(int(headers.get("Content-Length", "0"))).decode()


def answers_in(written):
    """The answers that bytes are."""
    link, found = io.BytesIO(written), []
    while link.tell() < len(written):
        found.append(read_answer(link))
    return found


def text_of(answer):
    """An answer's status and body; one without a body has an empty object."""
    status, _, body = answer
    return f"{status} {body or '{}'}"


# ---- runs of the program


def run(program, words, given=b"", folder=None):
    """The status with which the program ends on these words and this input, and what it writes."""
    ended = subprocess.run([program, *words], cwd=folder, input=given, stdout=subprocess.PIPE, stderr=subprocess.PIPE, timeout=60, check=False)
    return ended.returncode, ended.stdout


class Link:
    """A session whose input stays open."""

    def __init__(self, program):
        self.program = subprocess.Popen([program, "session"], stdin=subprocess.PIPE, stdout=subprocess.PIPE, stderr=subprocess.PIPE)

    def ask(self, given):
        """The answer to a request, as a text."""
        self.program.stdin.write(given)
        self.program.stdin.flush()
        return text_of(read_answer(self.program.stdout))

    def end(self):
        self.program.stdin.close()
        check(self.program.wait(60) == 0, "a session ended otherwise")


# ---- journals


def bytes_of(word):
    """Bytes as hexadecimal digits, and a text behind a quote; nothing is `-`."""
    digits, _, text = word.partition("'")
    return bytes.fromhex("" if digits == "-" else digits) + text.encode()


def records_of(lines):
    return [tuple(bytes_of(word) for word in line.split(" ", 1)) for line in lines]


def payload_of(records):
    """The bytes of records (docs/FORMAT.md)."""
    return b"".join(len(part).to_bytes(4, "big") + part for record in records for part in record)


def journal_of(records):
    """The journal of two lanes that holds one batch (docs/FORMAT.md)."""
    payload = payload_of(records)
    return b"hsdsjrn1\0\0\0\2\0\0\0\0\1" + len(payload).to_bytes(8, "big") + payload + b"\0"


# A world over the folder `/`, where everybody has all rights, and who asks there.
FIRST = journal_of(records_of(lines_of(HERE / "tables" / "records" / "first")))
CONFIG = """tokens = { alice = "alice", bob = "bob", carol = "carol" }
groups = { lab = ["alice", "bob", "carol"], ops = ["bob"] }
"""


# ---- numbers that look drawn


class Draws:
    """The numbers of a linear congruence."""

    def __init__(self, state):
        self.state = state

    def roll(self, sides):
        """A number below this one."""
        self.state = (self.state * 6364136223846793005 + 1442695040888963407) % 2**64
        return (self.state >> 33) % sides

    def pick(self, items):
        return items[self.roll(len(items))]
