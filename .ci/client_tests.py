"""The Python client and the examples against the built program over TCP.

    python3 client_tests.py PROGRAM lists|numpy

starts `PROGRAM serve` on a free port of the loopback address, and runs the tests with nested lists alone or with numpy's
arrays. The program must end by itself with status 0 once its workers have had their links.
"""

import array
import http.client
import json
import os
import shutil
import signal
import socket
import subprocess
import sys
import tempfile
import threading
import time
import unittest

# Whether `serve` takes flushes and changes of folders, domains and access lists. Without them the domains are those of
# the configuration.
FLUSH = False

TOP = os.path.dirname(os.path.dirname(os.path.abspath(__file__)))
CONFIG = os.path.join(TOP, "examples", "lab.toml")
PROGRAM = os.path.abspath(sys.argv[1])
FORM = sys.argv[2]
WORKERS = 4
LINKS = 200

sys.dont_write_bytecode = True
sys.path.insert(0, os.path.join(TOP, "clients", "python"))
import hsds_client  # noqa: E402
from hsds_client import Domain, Empty, ExternalLink, Folder, HardLink, SoftLink  # noqa: E402

if FORM == "lists":
    hsds_client.np = None
np = hsds_client.np
assert (np is not None) == (FORM == "numpy"), "this Python has no numpy"


class Server:
    """The program over a new journal, from the line that tells its port until it ends."""

    def __init__(self, journal, workers=WORKERS, links=LINKS):
        self.journal = journal
        if not os.path.exists(journal):
            self._run("init", "--config", CONFIG)
        words = ["--config", CONFIG, "--journal", journal, "--listen", "127.0.0.1:0"]
        words += ["--workers", str(workers), "--links", str(links)]
        self.process = subprocess.Popen([PROGRAM, "serve"] + words, stderr=subprocess.PIPE)
        line = self.process.stderr.readline().decode()
        if not line.startswith("listen "):
            self.kill()
            raise AssertionError("serve said %r" % line)
        self.address = line.split()[1].rstrip(",")
        self.url = "http://" + self.address

    def _run(self, command, *words):
        return subprocess.check_output([PROGRAM, command, "--journal", self.journal] + list(words)).decode()

    def export(self, path):
        return json.loads(self._run("export", path))

    def link(self):
        host, port = self.address.rsplit(":", 1)
        return socket.create_connection((host, int(port)), timeout=10)

    def end(self):
        """Gives the workers what they have left of their links, and the status with which the program then ends."""
        for _ in range(WORKERS * LINKS):
            if self.process.poll() is not None:
                break
            try:
                self.link().close()
            except OSError:
                break
        status = self.process.wait(60)
        self.process.stderr.close()
        return status

    def kill(self):
        self.process.kill()
        self.process.wait()
        self.process.stderr.close()


def setUpModule():
    global FOLDER, SERVER
    FOLDER = tempfile.mkdtemp()
    SERVER = Server(os.path.join(FOLDER, "lab.journal"))


def tearDownModule():
    try:
        if SERVER.process.poll() is not None:
            raise AssertionError("the program ended with %s behind the tests" % SERVER.process.returncode)
        status = SERVER.end()
        if status != 0:
            raise AssertionError("the program ended with %s" % status)
        groups = SERVER.export("/home/lab")["groups"]
        if len(groups) < 2:
            raise AssertionError("what was written is not kept")
    finally:
        if SERVER.process.poll() is None:
            SERVER.kill()
        shutil.rmtree(FOLDER)


def plain(value):
    """Arrays and scalars of either form as lists and Python's numbers."""
    return value.tolist() if hasattr(value, "tolist") else value


def picked(value, index, shape):
    """What an index picks of nested lists."""
    index = index if isinstance(index, tuple) else (index,)
    if Ellipsis not in index:
        index += (Ellipsis,)
    at = index.index(Ellipsis)
    index = index[:at] + (slice(None),) * (len(shape) - len(index) + 1) + index[at + 1 :]
    return _picked(value, index)


def _picked(value, index):
    if not index:
        return value
    if isinstance(index[0], slice):
        return [_picked(member, index[1:]) for member in value[index[0]]]
    return _picked(value[index[0]], index[1:])


def flat(value):
    return [leaf for member in value for leaf in flat(member)] if isinstance(value, list) else [value]


def extents(value):
    if not isinstance(value, list):
        return ()
    return (len(value),) + (extents(value[0]) if value else ())


class ClientTest(unittest.TestCase):
    def setUp(self):
        self.lab = self.opened(Domain(SERVER.url, "/home/lab", "ta"))
        self.group = self.lab.create_group(self.id().rpartition(".")[2])

    def opened(self, domain):
        self.addCleanup(domain.close)
        return domain

    def refused(self, reason, act, *given, **keys):
        """What the service refuses for this reason; the keys that it must say."""
        with self.assertRaises(hsds_client.Refused) as caught:
            act(*given)
        self.assertEqual(caught.exception.reason, reason)
        for key, value in keys.items():
            self.assertEqual(caught.exception.keys.get(key), value)
        return caught.exception

    def counts(self, name="counts"):
        """A dataset of 4 times 6 numbers, and these as lists."""
        numbers = [[6 * row + column for column in range(6)] for row in range(4)]
        return self.group.create_dataset(name, data=numbers, dtype="<i4"), numbers


class Elements(ClientTest):
    def test_integers(self):
        for order in "<>":
            for sign in "iu":
                for size in (1, 2, 4, 8):
                    with self.subTest(order=order, sign=sign, size=size):
                        self.check_integer(order, sign, size)

    def check_integer(self, order, sign, size):
        code = (order if size > 1 else "|") + sign + str(size)
        low, high = (-(1 << 8 * size - 1), (1 << 8 * size - 1) - 1) if sign == "i" else (0, (1 << 8 * size) - 1)
        ds = self.group.create_dataset("x" + order + code[1:], (3,), order + code[1:])
        ds[...] = [low, 1, high]
        self.assertEqual(plain(ds[...]), [low, 1, high])
        self.assertEqual(ds.dtype, code)
        self.assertEqual(self.group[ds.name].dtype, ds.dtype)
        base = "H5T_STD_%s%d%s" % (sign.upper(), 8 * size, "BE" if order == ">" and size > 1 else "LE")
        self.assertEqual(ds._ask("GET", "/type")["type"]["base"], base)
        for value in (low - 1, high + 1):
            fault = "not-of-type" if not -(1 << 63) <= value < 1 << 64 else "out-of-range"
            self.refused("bad-value", ds.__setitem__, 1, value, fault=fault, place=0)
        self.assertEqual(plain(ds[...]), [low, 1, high])
        if np is not None:
            ds[...] = np.array([high, 0, low], dtype=code)
            self.assertEqual(plain(ds[...]), [high, 0, low])
            self.assertEqual(ds[...].dtype, np.dtype(code))
            self.assertIsInstance(ds[0], np.generic)
        else:
            self.assertIsInstance(ds[0], int)

    def test_names_of_integers(self):
        for name, code in (("int8", "|i1"), ("uint16", "<u2"), ("int32", "<i4"), ("uint64", "<u8"), (int, "<i8")):
            self.assertEqual(self.group.create_dataset(None, (), name).dtype, code)
        if np is not None:
            self.assertEqual(self.group.create_dataset(None, (), np.uint16).dtype, np.uint16)

    def test_other_types(self):
        for dtype in ("f8", "<f4", "float64", "U5", "M8[s]", "complex64"):
            self.assertRaises(TypeError, self.group.create_dataset, "x", (2,), dtype)
        self.assertRaises(TypeError, self.group.create_dataset, "x", (2,))
        self.assertRaises(TypeError, self.group.create_dataset, "x", data=[1.5])
        self.assertRaises(TypeError, hsds_client.string_dtype, "utf-8")
        self.assertRaises(ValueError, hsds_client.string_dtype, "latin-1", 4)
        self.assertNotIn("x", self.group)
        ds, _ = self.counts()
        self.refused("bad-value", ds.__setitem__, 0, [1, 2, 3, 4.5, 5, 6], fault="not-of-type", place=3)
        if np is not None:
            self.assertRaises(TypeError, ds.__setitem__, Ellipsis, np.zeros((4, 6)))
            self.assertRaises(TypeError, self.group.create_dataset, "x", data=np.array(["ab"]))

    def test_strings(self):
        ds = self.group.create_dataset("ascii", (3,), "S4")
        ds[...] = ["ab", b"abcd", ""]
        self.assertEqual(plain(ds[...]), [b"ab", b"abcd", b""])
        self.assertEqual(ds[1], b"abcd")
        self.assertEqual(plain(ds.asstr()[0:2]), ["ab", "abcd"])
        self.assertEqual(ds.asstr()[0], "ab")
        self.assertEqual(ds.dtype, "|S4")
        self.assertEqual(hsds_client.check_string_dtype(ds.dtype), ("ascii", 4))
        self.refused("bad-value", ds.__setitem__, Ellipsis, ["a", "b", "abcde"], fault="too-long", place=2)
        self.refused("bad-value", ds.__setitem__, 0, "\u00e9", fault="not-ascii", place=0)
        self.refused("bad-value", ds.__setitem__, 0, "a\0b", fault="nul", place=0)
        self.refused("bad-value", ds.__setitem__, 0, 5, fault="not-of-type", place=0)
        if np is not None:
            ds[...] = np.array([b"x", b"", b"wxyz"])
            self.assertEqual(plain(ds[...]), [b"x", b"", b"wxyz"])
            self.assertEqual(ds[...].dtype, np.dtype("S4"))

    def test_unicode_strings(self):
        dtype = hsds_client.string_dtype("utf-8", 4)
        ds = self.group.create_dataset("utf-8", (2,), dtype)
        ds[...] = ["\u00e9\u00e9", b"a\xc3\xa9"]
        self.assertEqual(plain(ds[...]), [b"\xc3\xa9\xc3\xa9", b"a\xc3\xa9"])
        self.assertEqual(plain(ds.asstr()[...]), ["\u00e9\u00e9", "a\u00e9"])
        self.assertEqual(hsds_client.check_string_dtype(ds.dtype), ("utf-8", 4))
        self.assertIsNone(hsds_client.check_string_dtype("<i4"))
        self.refused("bad-value", ds.__setitem__, 0, "\u00e9\u00e9\u00e9", fault="too-long")
        self.assertRaises(ValueError, ds.__setitem__, 0, b"\xff")
        self.assertRaises(TypeError, self.counts()[0].asstr)

    def test_compounds(self):
        dtype = [("day", "<i4"), ("note", "|S8")]
        ds = self.group.create_dataset("log", (3,), dtype)
        rows = [(1, b"rain"), (-2, b"\"x\" \\ y"), (3, b"")]
        ds[...] = rows
        self.assertEqual(plain(ds[...]), rows)
        self.assertEqual(ds.dtype, dtype if np is None else np.dtype(dtype))
        self.assertEqual(plain(ds[1]), rows[1])
        ds[0] = (7, "sun")
        self.assertEqual(plain(ds["day"]), [7, -2, 3])
        self.assertEqual(plain(ds["note", 0:2]), [b"sun", b"\"x\" \\ y"])
        self.assertEqual(plain(ds["note", "day"]), [(b"sun", 7), (b"\"x\" \\ y", -2), (b"", 3)])
        ds[...] = (0, b"same")
        self.assertEqual(plain(ds[...]), [(0, b"same")] * 3)
        self.assertRaises(ValueError, ds.__setitem__, 0, (1, b"x", 2))
        self.assertRaises(ValueError, ds.__getitem__, "night")
        self.assertRaises(TypeError, ds.__setitem__, "day", [1, 2, 3])
        self.refused("bad-value", ds.__setitem__, 1, (1 << 31, b"x"), fault="out-of-range")
        if np is not None:
            ds[...] = np.array(rows, dtype=dtype)
            self.assertEqual(plain(ds[...]), rows)
            ds[1:] = np.array([(b"a", 1), (b"b", 2)], dtype=[("note", "S2"), ("day", ">i8")])
            self.assertEqual(plain(ds[1:]), [(1, b"a"), (2, b"b")])
            self.assertRaises(TypeError, ds.__setitem__, Ellipsis, np.zeros(3, dtype=[("day", "<i4")]))

    def test_nested_compounds(self):
        dtype = [("at", [("x", ">u2"), ("y", "|i1")]), ("who", hsds_client.string_dtype("utf-8", 5))]
        if np is not None:
            dtype = np.dtype([("at", np.dtype([("x", ">u2"), ("y", "|i1")])), dtype[1]])
        ds = self.group.create_dataset("points", (2, 2), dtype)
        rows = [[((1, -1), b"\xc3\xa9"), ((2, -2), b"b")], [((3, -3), b"c"), ((65535, -4), b"d")]]
        ds[...] = rows
        self.assertEqual(plain(ds[...]), rows)
        self.assertEqual(plain(ds[:, 1]), [rows[0][1], rows[1][1]])
        self.assertEqual(ds.dtype, dtype)
        self.assertEqual(hsds_client.check_string_dtype(ds.dtype["who"] if np is not None else ds.dtype[1][1]).encoding, "utf-8")
        ds[0] = [((9, 9), "x"), ((8, 8), "y")]
        self.assertEqual(plain(ds[0]["at"]["x"]) if np is not None else [row[0][0] for row in ds[0]], [9, 8])


INDEXES = [
    (slice(0, 4, 2), slice(1, 6, 2)), (slice(None), slice(2, 3)), slice(1, 3), slice(1, 100), slice(-3, -1),
    slice(3, 1), slice(4, 4), (slice(2, 2), 3), (3, slice(6, 9)), (slice(None, None, 3), slice(-5, None, 4)),
    slice(2, 3, 1 << 40), Ellipsis, (), (Ellipsis, 2), (2, Ellipsis), (1, Ellipsis, 5), (Ellipsis, slice(0, 2)),
    0, 3, -1, -4, (1, 2), (-4, -6), (-1, slice(None, None, 5)), (slice(1, 2), -6),
]  # fmt: skip


class Indexes(ClientTest):
    def test_reads(self):
        ds, numbers = self.counts()
        for index in INDEXES:
            with self.subTest(index=index):
                wanted = picked(numbers, index, (4, 6))
                found = ds[index]
                self.assertEqual(plain(found), wanted)
                if np is not None:
                    self.assertEqual(found.shape, np.array(numbers)[index].shape)
                    self.assertEqual(found.dtype, np.dtype("<i4"))

    def test_writes(self):
        for index in INDEXES:
            with self.subTest(index=index):
                ds, numbers = self.counts(None)
                chosen = picked(numbers, index, (4, 6))
                value = json.loads(json.dumps(chosen), parse_int=lambda text: 100 + int(text))
                if np is not None and value != []:
                    ds[index] = np.array(value)
                else:
                    ds[index] = value
                taken = set(flat(chosen))
                wanted = [[100 + one if one in taken else one for one in row] for row in numbers]
                self.assertEqual(plain(ds[...]), wanted)

    def test_wrong_indexes(self):
        ds, numbers = self.counts()
        for index, fault in [
            (slice(None, None, -1), ValueError),
            (slice(3, 0, -2), ValueError),
            (slice(None, None, 0), ValueError),
            (4, IndexError),
            (-5, IndexError),
            ((0, 6), IndexError),
            ((0, 0, 0), ValueError),
            ((Ellipsis, Ellipsis), ValueError),
            ([0, 1], TypeError),
            (1.5, TypeError),
            (None, TypeError),
            ("day", ValueError),
        ]:
            with self.subTest(index=index):
                self.assertRaises(fault, ds.__getitem__, index)
                self.assertRaises((fault, TypeError), ds.__setitem__, index, 1)
        self.assertEqual(plain(ds[...]), numbers)

    def test_repeated_values(self):
        ds, _ = self.counts()
        ds[...] = 7
        self.assertEqual(plain(ds[...]), [[7] * 6] * 4)
        ds[1:3] = [0, 1, 2, 3, 4, 5]
        self.assertEqual(plain(ds[1:3]), [[0, 1, 2, 3, 4, 5]] * 2)
        ds[:, 2:4] = [[1], [2], [3], [4]]
        self.assertEqual(plain(ds[:, 3]), [1, 2, 3, 4])
        ds[0] = [[[9]]]
        self.assertEqual(plain(ds[0]), [9] * 6)
        ds[:, 0] = range(4)
        self.assertEqual(plain(ds[:, 0]), [0, 1, 2, 3])
        ds[0, 0] = [5]
        self.assertEqual(ds[0, 0], 5)
        ds[3] = array.array("H", [9, 8, 7, 6, 5, 4])
        self.assertEqual(plain(ds[3]), [9, 8, 7, 6, 5, 4])
        for value in ([1, 2], [[1, 2, 3]], [[1] * 6] * 3):
            self.assertRaises(TypeError, ds.__setitem__, Ellipsis, value)
        self.assertRaises(ValueError, ds.__setitem__, Ellipsis, [[1] * 6] * 3 + [[1] * 7])
        if np is not None:
            ds[...] = np.arange(6)
            ds[:, 1] = np.array([[8]])
            self.assertEqual(plain(ds[...]), [[0, 8, 2, 3, 4, 5]] * 4)
            ds[::2] = np.arange(24).reshape(4, 6)[::-2]
            self.assertEqual(plain(ds[2]), [6, 7, 8, 9, 10, 11])
            ds[0] = np.array([True, False] * 3)
            self.assertEqual(plain(ds[0]), [1, 0] * 3)
            self.assertRaises(TypeError, ds.__setitem__, Ellipsis, np.arange(5))

    def test_one_element(self):
        ds = self.group.create_dataset("one", (), "<u8")
        self.assertEqual(ds.shape, ())
        self.assertEqual(ds[()], 0)
        ds[()] = (1 << 64) - 1
        self.assertEqual(ds[()], (1 << 64) - 1)
        self.assertEqual(plain(ds[...]), (1 << 64) - 1)
        ds[...] = 5
        self.assertEqual(ds[()], 5)
        self.assertRaises(ValueError, ds.__getitem__, 0)
        self.assertRaises(TypeError, len, ds)
        if np is not None:
            self.assertEqual(ds[...].shape, ())
            self.assertIsInstance(ds[()], np.generic)

    def test_no_element(self):
        ds = self.group.create_dataset("none", dtype="<i2")
        self.assertIsNone(ds.shape)
        self.assertIsNone(ds.size)
        self.assertEqual(ds[()], Empty("<i2"))
        self.assertRaises(ValueError, ds.__getitem__, 0)
        self.assertRaises(ValueError, ds.__setitem__, Ellipsis, 1)
        self.assertIsNone(self.group.create_dataset("none too", data=Empty("S3")).shape)

    def test_no_rows(self):
        ds = self.group.create_dataset("rows", (0, 3), "<i4", maxshape=(None, 3))
        self.assertEqual(plain(ds[...]), [])
        self.assertEqual(plain(ds[:, 1]), [])
        ds[...] = []
        ds[...] = 5
        self.assertRaises(IndexError, ds.__getitem__, 0)
        if np is not None:
            self.assertEqual(ds[...].shape, (0, 3))
        columns = self.group.create_dataset("columns", (2, 3, 0), "<i4")
        self.assertEqual(plain(columns[0:1]), [[[], [], []]])
        self.assertEqual(plain(columns[1]), [[], [], []])


class Datasets(ClientTest):
    def test_properties(self):
        ds = self.group.create_dataset("a", (4, 6), ">u2", chunks=(2, 3), maxshape=(None, 6), fillvalue=9)
        for found in (ds, self.group["a"]):
            self.assertEqual(found.shape, (4, 6))
            self.assertEqual(found.chunks, (2, 3))
            self.assertEqual(found.maxshape, (None, 6))
            self.assertEqual(found.fillvalue, 9)
            self.assertEqual((found.ndim, found.size, found.nbytes, len(found)), (2, 24, 48, 4))
        self.assertEqual(ds.name, "/test_properties/a")
        self.assertEqual(ds.parent, self.group)
        self.assertEqual(ds.file, self.lab)
        self.assertEqual(ds, self.group["a"])
        self.assertEqual(len({ds, self.group["a"], self.group}), 2)
        self.assertTrue(ds)
        self.assertTrue(self.group)
        self.assertEqual(plain(ds[3, 4:]), [9, 9])
        plainest = self.group.create_dataset("b", 5, "<i4")
        self.assertEqual((plainest.shape, plainest.maxshape, plainest.chunks), ((5,), (5,), (5,)))
        self.assertEqual(plainest.fillvalue, 0)
        self.assertIsNone(self.group.create_dataset("c", (), "<i4").chunks)
        self.assertEqual(self.group.create_dataset("d", (1,), "<i4", chunks=1).chunks, (1,))
        self.assertEqual(self.group.create_dataset("e", (3,), "<i4", chunks=True).chunks, (3,))
        rows = self.group.create_dataset("f", (2,), [("n", "<i4"), ("s", "S2")], fillvalue=(4, "xy"))
        self.assertEqual(plain(rows[1]), (4, b"xy"))
        self.assertEqual(plain(rows.fillvalue), (4, b"xy"))
        self.assertEqual([plain(row) for row in self.counts()[0]], self.counts("again")[1])

    def test_wrong_properties(self):
        make = self.group.create_dataset
        self.refused("bad-shape", make, "x", (-1,), "<i4", fault="not-a-shape")
        self.refused("bad-shape", make, "x", (1,) * 33, "<i4", fault="rank")
        self.refused("bad-shape", lambda: make("x", (3,), "<i4", maxshape=(2,)), fault="dim-over-max")
        self.refused("bad-field", lambda: make("x", (3,), "<i4", chunks=(0,)), field="creationProperties")
        self.refused("bad-field", lambda: make("x", (3,), "<i1", fillvalue=128), field="creationProperties")
        self.assertRaises(ValueError, make, "x", (2, 3), "<i4", [1, 2])
        self.assertRaises(TypeError, lambda: make("x", (), "<i4", chunks=(1,)))
        self.assertRaises(TypeError, lambda: make("x", (), "<i4", maxshape=(1,)))
        self.assertNotIn("x", self.group)

    def test_data(self):
        self.assertEqual(plain(self.group.create_dataset("a", data=[[1, 2], [3, -4]])[...]), [[1, 2], [3, -4]])
        self.assertEqual(self.group["a"].dtype, "<i8")
        self.assertEqual(self.group.create_dataset("b", data=[(1 << 64) - 1]).dtype, "<u8")
        self.assertEqual(plain(self.group.create_dataset("c", data=["a", "\u00e9"])[...]), [b"a", b"\xc3\xa9"])
        self.assertEqual(self.group.create_dataset("d", data=5)[()], 5)
        self.assertEqual(plain(self.group.create_dataset("e", (2, 2), "<i2", [1, 2, 3, 4])[...]), [[1, 2], [3, 4]])
        self.group["f"] = [1, 2]
        self.assertEqual(plain(self.group["f"][...]), [1, 2])
        copied = self.group.create_dataset("g", data=self.group["c"])
        self.assertEqual(plain(copied.asstr()[...]), ["a", "\u00e9"])
        copied[...] = self.group.create_dataset(None, data=[b"x", b"y"])
        self.assertEqual(plain(copied[...]), [b"x", b"y"])
        if np is not None:
            numbers = np.arange(24, dtype=">u4").reshape(2, 3, 4)
            ds = self.group.create_dataset("n", data=numbers)
            self.assertEqual(ds.dtype, np.dtype(">u4"))
            self.assertTrue((np.asarray(ds) == numbers).all())
            self.assertTrue((np.asarray(ds, dtype="<i8") == numbers).all())

    def test_resize(self):
        ds = self.group.create_dataset("a", (2, 3), "<i4", maxshape=(None, 4), fillvalue=-1)
        ds[...] = [[1, 2, 3], [4, 5, 6]]
        other = self.group["a"]
        ds.resize((3, 2))
        self.assertEqual(other.shape, (3, 2))
        self.assertEqual(plain(other[...]), [[1, 2], [4, 5], [-1, -1]])
        other.resize(4, axis=1)
        self.assertEqual(plain(ds[0]), [1, 2, -1, -1])
        self.assertEqual(plain(ds[-1, -1]), -1)
        self.refused("bad-select", ds.resize, (3, 5), fault="past", axis=1)
        self.assertRaises(ValueError, ds.resize, 5, 2)
        line = self.group.create_dataset("b", (1,), "<i4", maxshape=(None,))
        line.resize(3)
        self.assertEqual(line.shape, (3,))

    def test_points(self):
        ds, _ = self.counts()
        self.assertEqual(plain(ds.points([(0, 0), [3, 5], [1, 2], (0, 0)])), [0, 23, 8, 0])
        self.assertEqual(plain(ds.points([])), [])
        self.assertRaises(hsds_client.Invalid, ds.points, [(0, -1)])
        ds.set_points([(0, 1), (3, 4)], [50, 60])
        ds.set_points([(1, 1), (2, 2)], 7)
        self.assertEqual(plain(ds.points([(0, 1), (3, 4), (1, 1), (2, 2)])), [50, 60, 7, 7])
        self.refused("bad-select", ds.points, [(0, 0), (4, 0)], fault="past", index=1)
        self.assertRaises(TypeError, ds.set_points, [(0, 0), (1, 1)], [1, 2, 3])
        line = self.group.create_dataset("line", (70000,), "<u1")
        line.set_points(range(70000), [place % 251 for place in range(70000)])
        self.assertEqual(plain(line.points(range(69999, -1, -1))), [place % 251 for place in range(69999, -1, -1)])
        if np is not None:
            self.assertEqual(plain(ds.points(np.array([[0, 1], [3, 4]]))), [50, 60])

    def test_large_arrays(self):
        count = 300000
        ds = self.group.create_dataset("large", (3, count // 3), "<i4")
        if np is not None:
            numbers = np.arange(count, dtype="<i4").reshape(3, count // 3) - 7
            ds[...] = numbers
            self.assertTrue((ds[...] == numbers).all())
            self.assertTrue((ds[:, ::7] == numbers[:, ::7]).all())
        else:
            numbers = [[row * count // 3 + place - 7 for place in range(count // 3)] for row in range(3)]
            ds[...] = numbers
            self.assertEqual(ds[...], numbers)
            self.assertEqual(ds[:, ::7], [row[::7] for row in numbers])

    def test_blocks(self):
        most = hsds_client.MOST_BYTES
        self.addCleanup(setattr, hsds_client, "MOST_BYTES", most)
        whole = [[[100 * plane + 10 * row + column for column in range(5)] for row in range(7)] for plane in range(3)]
        for hsds_client.MOST_BYTES in (1, 40, 100, 999, most):
            ds = self.group.create_dataset(None, (3, 7, 5), ">i2", chunks=(2, 3, 4))
            ds[...] = whole
            self.assertEqual(plain(ds[...]), whole)
            for index in ((1, slice(None), slice(0, 5, 2)), (slice(None), -1), (Ellipsis, slice(1, 3)), (2, 6, 4)):
                self.assertEqual(plain(ds[index]), picked(whole, index, (3, 7, 5)))
            ds[:, 1::2] = [[0], [1], [2]]
            self.assertEqual(plain(ds[:, 3, ::2]), [[1] * 3] * 3)
            self.assertEqual(plain(ds[2, :, 4]), [204, 0, 224, 1, 244, 2, 264])
            self.assertEqual(plain(ds.points([(2, 6, 4), (0, 0, 1), (2, 2, 0)])), [264, 1, 220])

    def test_limits_of_blocks(self):
        for shape, chunk, size in (((1 << 20, 1000), (1 << 20, 1), 1), ((5000, 4096), (1, 4096), 8)):
            runs = hsds_client._whole(shape)
            seen = 0
            for block in hsds_client._blocks(runs, 100000, chunk, size * chunk[0] * chunk[1]):
                counts = [run.count for run in block]
                touched = [hsds_client._chunks_touched(run, edge) for run, edge in zip(block, chunk)]
                self.assertLessEqual(counts[0] * counts[1], 100000)
                self.assertLessEqual(touched[0] * touched[1] * size * chunk[0] * chunk[1], 1 << 28)
                seen += counts[0] * counts[1]
            self.assertEqual(seen, shape[0] * shape[1])

    def test_many_new_chunks(self):
        self.addCleanup(setattr, hsds_client, "MOST_NEW_CHUNKS", hsds_client.MOST_NEW_CHUNKS)
        hsds_client.MOST_NEW_CHUNKS = 1 << 17
        ds = self.group.create_dataset("chunks", (50, 1 << 14), "<i1", chunks=(1, 1 << 14))
        ds[:, 5] = range(50)
        self.assertEqual(plain(ds[49, 4:7]), [0, 49, 0])
        self.assertEqual(plain(ds[:, 5]), list(range(50)))
        ds.set_points([(row, 6) for row in range(50)], range(50))
        self.assertEqual(plain(ds[:, 6]), list(range(50)))


class Attributes(ClientTest):
    def test_values(self):
        attrs = self.group.attrs
        values = {
            "number": 5, "negative": -(1 << 63), "unsigned": (1 << 64) - 1, "text": "\u00b5m/s", "empty text": "",
            "bytes": b"abc", "list": [1, -2, 3], "table": [[1, 2], [3, 4]], "texts": ["a", "\u00e9\u00e9", ""],
            "of bytes": [b"a", b"bcd"], "a b/?#%41\u00e9": 1,
        }  # fmt: skip
        for name, value in values.items():
            attrs[name] = value
        for name, value in values.items():
            with self.subTest(name=name):
                self.assertEqual(plain(attrs[name]), value)
                self.assertIn(name, attrs)
        self.assertIsInstance(attrs["text"], str)
        self.assertEqual(list(attrs), sorted(values, key=lambda name: name.encode()))
        self.assertEqual(len(attrs), len(values))
        self.assertEqual(len(attrs.items()), len(values))
        self.assertEqual(attrs.get("number"), 5)

    def test_changes(self):
        attrs = self.counts()[0].attrs
        attrs["unit"] = "mm"
        attrs["unit"] = [1, 2]
        self.assertEqual(plain(attrs["unit"]), [1, 2])
        del attrs["unit"]
        self.assertNotIn("unit", attrs)
        self.assertEqual(list(attrs), [])
        self.assertRaises(KeyError, attrs.__getitem__, "unit")
        self.assertRaises(KeyError, attrs.__delitem__, "unit")
        self.assertEqual(attrs.get("unit", 3), 3)
        self.refused("bad-field", attrs.create, "long", "x" * 65536 + "y", field="type")
        self.refused("bad-field", lambda: attrs.create("wide", 300, dtype="<i1"), field="value")

    def test_dtypes(self):
        attrs = self.group.attrs
        attrs.create("small", 5, dtype="|u1")
        attrs.create("row", (5, "x"), dtype=[("n", ">i2"), ("s", "S3")])
        attrs.create("empty", Empty("<i4"))
        attrs.create("none", [], dtype="<i4")
        self.assertEqual(attrs["small"], 5)
        self.assertEqual(plain(attrs["row"]), (5, b"x"))
        self.assertEqual(attrs["empty"], Empty("<i4"))
        self.assertEqual(plain(attrs["none"]), [])
        for value in (1.5, None, True, [], [1, "a"], {}):
            self.assertRaises(TypeError, attrs.__setitem__, "x", value)
        if np is not None:
            for value in (np.uint16(7), np.array([[1, 2]], dtype=">i8"), np.array([(1, b"x")], dtype="<i4,S2")):
                attrs["array"] = value
                self.assertEqual(attrs["array"].dtype, value.dtype)
                self.assertTrue((attrs["array"] == value).all())
            self.assertRaises(TypeError, attrs.__setitem__, "x", np.float64(1))


class Groups(ClientTest):
    def test_paths(self):
        ds = self.group.create_dataset("raw/2026/counts", (2,), "<i4")
        self.assertEqual(ds.name, "/test_paths/raw/2026/counts")
        self.assertEqual(self.lab["test_paths/raw/2026/counts"], ds)
        self.assertEqual(self.group["/test_paths//raw/./2026/counts/"], ds)
        self.assertEqual(self.group["raw"]["2026"]["counts"], ds)
        self.assertEqual(self.group[b"raw/2026"].name, "/test_paths/raw/2026")
        self.assertEqual(self.group["/"], self.lab)
        self.assertEqual(ds.parent.parent, self.group["raw"])
        self.assertIn("raw/2026", self.group)
        self.assertNotIn("raw/2027", self.group)
        for missing in ("nothing", "raw/nothing", "nothing/at/all", "raw/2026/counts/x"):
            self.assertRaises(KeyError, self.group.__getitem__, missing)
        self.assertRaises(TypeError, self.group.__getitem__, 5)
        self.assertRaises(ValueError, self.group.__getitem__, "")
        self.assertNotIn("", self.group)
        self.assertIn("/", self.group)
        for name in ("", "/", "raw/2026/counts/x"):
            self.assertRaises(ValueError, self.group.create_group, name)
        for name in ("/", "raw/2026/counts/x", "raw/2027"):
            self.assertRaises(KeyError, self.group.__delitem__, name)

    def test_mapping(self):
        for name in ("b", "a", "c d", "\u00e9", "x?y#z%41", "..", "[0]", "+"):
            self.group.create_group(name)
        self.assertEqual(list(self.group), ["+", "..", "[0]", "a", "b", "c d", "x?y#z%41", "\u00e9"])
        self.assertEqual(len(self.group), 8)
        self.assertEqual([group.name for group in self.group.values()][3], "/test_mapping/a")
        for name, group in self.group.items():
            self.assertEqual(self.group[name], group)
        self.assertEqual(self.group.get("z", 5), 5)
        self.assertIs(self.group.get("a", getclass=True), hsds_client.Group)
        self.refused("bad-name", self.group.create_group, "a\nb")
        self.refused("bad-name", self.group.create_group, "n" * 256)

    def test_making(self):
        made = self.group.create_group("a")
        self.assertEqual(self.group.require_group("a"), made)
        self.group.require_group("b/c")
        self.assertIn("b/c", self.group)
        fault = self.refused("taken", self.group.create_group, "a", name="a")
        self.assertIsInstance(fault, ValueError)
        self.refused("taken", self.group.create_dataset, "a", (1,), "<i4")
        self.counts()
        self.assertRaises(TypeError, self.group.require_group, "counts")
        unlinked = self.group.create_group(None)
        unlinked.create_group("inside")
        self.group["linked"] = unlinked
        self.assertIn("linked/inside", self.group)

    def test_links(self):
        ds, numbers = self.counts()
        self.group["again"] = ds
        self.group["soft"] = SoftLink("counts")
        self.group["absolute"] = SoftLink("/test_links/soft")
        self.group["nowhere"] = SoftLink("nothing")
        self.group["ring"] = SoftLink("ring")
        self.group["far"] = ExternalLink("/home/lab", "/test_links/counts")
        self.group["further"] = ExternalLink("/home/none", "/x")
        for name in ("again", "soft", "absolute", "far"):
            self.assertEqual(self.group[name], ds)
            self.assertEqual(plain(self.group[name][...]), numbers)
        for name in ("nowhere", "ring", "further"):
            self.assertIn(name, self.group)
            self.assertRaises(KeyError, self.group.__getitem__, name)
            self.assertNotIn(name + "/x", self.group)
        self.assertIs(self.group.get("again", getlink=True, getclass=True), HardLink)
        self.assertEqual(self.group.get("soft", getlink=True).path, "counts")
        far = self.group.get("far", getlink=True)
        self.assertEqual((far.filename, far.path), ("/home/lab", "/test_links/counts"))
        self.assertIsNone(self.group["far"].name)
        self.group.move("soft", "softer")
        self.assertIs(self.group.get("softer", getlink=True, getclass=True), SoftLink)
        self.assertIsNone(self.group.get("soft", getlink=True))
        self.assertRaises(ValueError, self.group.move, "soft", "x")

    def test_removal(self):
        ds, numbers = self.counts()
        self.group["again"] = ds
        del self.group["counts"]
        self.assertNotIn("counts", self.group)
        self.assertEqual(plain(ds[...]), numbers)
        self.group.move("again", "moved/here")
        self.assertEqual(list(self.group), ["moved"])
        self.assertEqual(self.group["moved/here"], ds)
        ds.delete()
        self.assertIn("moved/here", self.group)
        self.refused("gone", self.group.__getitem__, "moved/here", id=ds.id)
        self.assertEqual(list(self.group["moved"]), ["here"])
        del self.group["moved/here"]
        self.assertRaises(KeyError, self.group.__delitem__, "nothing")
        self.refused("root", self.lab["/"].delete)

    def test_committed_datatypes(self):
        body = {"type": "H5T_STD_I16BE", "link": {"id": self.group.id, "name": "height"}}
        self.lab._request("POST", "/datatypes", body)
        self.assertEqual(self.group["height"].dtype, ">i2")
        self.group["height"].attrs["unit"] = "m"
        self.assertEqual(self.group["height"].attrs["unit"], "m")
        if np is not None:
            self.group["row"] = np.dtype([("a", "<i4")])
            self.assertEqual(self.group["row"].dtype, np.dtype([("a", "<i4")]))


class Callers(ClientTest):
    def test_rights(self):
        ds, numbers = self.counts()
        bob = self.opened(Domain(SERVER.url, "/home/lab", "tb"))
        theirs = bob[ds.name]
        self.assertEqual(plain(theirs[1:3]), numbers[1:3])
        fault = self.refused("forbidden", bob.create_group, "bobs", domain="/home/lab", right="create")
        self.assertEqual(fault.status, 403)
        self.assertIsInstance(fault, PermissionError)
        self.assertIn("403 forbidden", str(fault))
        theirs[0, 0] = 77
        self.assertEqual(ds[0, 0], 77)
        self.assertRaises(PermissionError, theirs.delete)

    def test_who_may_not_open(self):
        for token, reason, status in ((None, "forbidden", 403), ("tc", "forbidden", 403), ("tz", "bad-token", 401)):
            fault = self.refused(reason, Domain, SERVER.url, "/home/lab", token)
            self.assertEqual(fault.status, status)

    def test_what_is_not_there(self):
        fault = self.refused("no-domain", Domain, SERVER.url, "/home/none", "ta", domain="/home/none")
        self.assertIsInstance(fault, FileNotFoundError)
        self.refused("bad-domain", Domain, SERVER.url, "home", "ta")
        self.assertRaises(IsADirectoryError, Domain, SERVER.url, "/home", "ta")
        self.assertRaises(ValueError, Domain, SERVER.url, "/home/lab", "ta", "w")
        for url in ("127.0.0.1:5101", "ftp://127.0.0.1", "http://127.0.0.1/x"):
            self.assertRaises(ValueError, Domain, url, "/home/lab", "ta")

    def test_access_lists_are_read(self):
        self.assertEqual(self.lab.owner, "alice")
        self.assertEqual(self.lab.acls["g:lab"], {"read"})
        self.assertEqual(self.lab.acls["alice"], set(hsds_client.RIGHTS))
        self.assertEqual(self.lab.acls["carol"], set())
        self.assertEqual(list(self.lab.acls), ["alice", "carol", "g:lab", "g:ops"])
        self.assertEqual(len(self.lab.acls), 4)
        self.assertNotIn("dave", self.lab.acls)
        self.assertRaises(KeyError, self.lab.acls.__getitem__, "dave")
        for rights in ("read", {"red"}, {"read": False}):
            self.assertRaises(ValueError, self.lab.acls.__setitem__, "dave", rights)

    def test_folders_are_read(self):
        with Folder(SERVER.url, "/home", "ta") as home:
            self.assertIn("lab", home)
            self.assertEqual(home.owner, "alice")
            self.assertEqual(home["lab"], self.lab)
            self.assertIn(self.group.name, home["lab"])
            self.assertRaises(KeyError, home.__getitem__, "none")
            lab = home["lab"]
            lab.close()
            self.assertRaises(ValueError, len, lab)
            self.assertIn("lab", home)
        self.assertRaises(ValueError, len, home)


@unittest.skipUnless(FLUSH, "serve takes no flushes and no changes of folders, domains and access lists")
class Kept(ClientTest):
    def test_sharing(self):
        with Domain(SERVER.url, "/home/shared", "ta", "x") as shared:
            self.assertEqual(shared.owner, "alice")
            shared["counts"] = [1, 2, 3]
            shared.acls["g:lab"] = {"read"}
            self.assertEqual(shared.acls["g:lab"], {"read"})
            with Domain(SERVER.url, "/home/shared", "tb") as bobs:
                self.assertEqual(plain(bobs["counts"][::2]), [1, 3])
                counts = bobs["counts"]
                self.assertRaises(PermissionError, counts.__setitem__, 0, 5)
                shared.acls["bob"] = []
                self.assertRaises(PermissionError, counts.__getitem__, 0)
            shared.flush()
            shared.delete()
            self.assertRaises(ValueError, shared.flush)
        self.assertRaises(FileNotFoundError, Domain, SERVER.url, "/home/shared", "ta")

    def test_modes(self):
        with Domain(SERVER.url, "/home/modes", "ta", "a") as made, Domain(SERVER.url, "/home/modes", "ta", "a") as same:
            self.assertEqual(made, same)
            self.refused("taken", Domain, SERVER.url, "/home/modes", "ta", "x", name="/home/modes")
            self.assertRaises(FileExistsError, Domain, SERVER.url, "/home/modes", "ta", "w-")
            self.assertRaises(FileNotFoundError, Domain, SERVER.url, "/home/none/x", "ta", "x")

    def test_folders(self):
        with Folder(SERVER.url, "/home", "ta") as home:
            year = home.create_folder("y 26")
            with year.create_domain("met") as met:
                met.create_group("raw")
            self.assertEqual(list(year), ["met"])
            self.assertEqual(list(year["met"]), ["raw"])
            self.assertEqual(list(home["y 26"]), ["met"])
            self.refused("not-empty", home.__delitem__, "y 26")
            del year["met"]
            del home["y 26"]
            self.assertNotIn("y 26", home)

    def test_what_was_flushed_stands(self):
        server = Server(os.path.join(FOLDER, "flushed.journal"))
        try:
            with Domain(server.url, "/home/lab", "ta") as lab:
                lab["kept"] = [1, 2, 3]
                lab.flush()
        finally:
            server.kill()
        self.assertEqual([one["value"] for one in server.export("/home/lab")["datasets"].values()], [[1, 2, 3]])


class Scripted:
    """A server that does with the requests of each link what it was told: "answer", "drop" the link, or stay "silent"."""

    def __init__(self, *links):
        self.seen = []
        self._links = links
        self._door = socket.socket()
        self._door.bind(("127.0.0.1", 0))
        self._door.listen(8)
        self.url = "http://127.0.0.1:%d" % self._door.getsockname()[1]
        self._thread = threading.Thread(target=self._serve, daemon=True)
        self._thread.start()

    def _serve(self):
        for acts in self._links:
            link, _ = self._door.accept()
            with link, link.makefile("rb") as lines:
                for act in acts:
                    if not self._read(lines):
                        break
                    if act == "silent":
                        lines.read()
                    elif act == "answer":
                        node = b'{"class":"domain","owner":"alice","root":"g-0"}'
                        link.sendall(b"HTTP/1.1 200 OK\r\nContent-Length: %d\r\n\r\n%s" % (len(node), node))
                    else:
                        break
        self._door.close()

    def _read(self, lines):
        first = lines.readline().decode()
        size = 0
        for line in iter(lines.readline, b"\r\n"):
            if not line:
                return False
            if line.lower().startswith(b"content-length:"):
                size = int(line.split(b":")[1])
        lines.read(size)
        self.seen.append(first.split(" ")[0])
        return True

    def end(self):
        self._thread.join(10)


class Links(unittest.TestCase):
    def scripted(self, *links):
        server = Scripted(*links)
        domain = Domain(server.url, "/x", timeout=20)
        self.addCleanup(server.end)
        self.addCleanup(domain.close)
        return server, domain

    def test_a_get_is_sent_again_once(self):
        server, domain = self.scripted(["answer", "drop"], ["answer"])
        self.assertEqual(domain.owner, "alice")
        self.assertEqual(server.seen, ["GET", "GET", "GET"])
        server, domain = self.scripted(["answer", "drop"], ["drop"], ["answer"])
        with self.assertRaises(hsds_client.Unanswered) as caught:
            domain.owner
        self.assertFalse(caught.exception.maybe_done)
        self.assertEqual(server.seen, ["GET", "GET", "GET"])
        self.assertEqual(domain.owner, "alice")

    def test_a_change_is_not_sent_again(self):
        server, domain = self.scripted(["answer", "drop"], ["answer"])
        with self.assertRaises(hsds_client.Unanswered) as caught:
            domain.flush()
        self.assertTrue(caught.exception.maybe_done)
        self.assertIn("may have been done", str(caught.exception))
        self.assertIsInstance(caught.exception, ConnectionError)
        self.assertEqual(server.seen, ["GET", "PUT"])
        self.assertEqual(domain.owner, "alice")

    def test_a_closed_link_is_made_anew(self):
        server, domain = self.scripted(["answer"], ["answer", "answer"])
        wait_for(lambda: hsds_client._is_readable(domain._link_to._connection.sock))
        domain.flush()
        domain.flush()
        self.assertEqual(server.seen, ["GET", "PUT", "PUT"])

    def test_an_idle_link_is_made_anew(self):
        server, domain = self.scripted(["answer", "answer", "answer"], ["answer"])
        domain.flush()
        domain._link_to._used -= hsds_client.IDLE_SECONDS - 1
        domain.flush()
        domain._link_to._used -= hsds_client.IDLE_SECONDS
        domain.flush()
        self.assertEqual(server.seen, ["GET", "PUT", "PUT", "PUT"])
        self.assertEqual(hsds_client.IDLE_SECONDS, 25)

    def test_silence(self):
        server = Scripted(["answer", "silent"], ["answer"])
        with Domain(server.url, "/x", timeout=0.3) as domain:
            with self.assertRaises(hsds_client.Unanswered):
                domain.owner
            self.assertEqual(domain.owner, "alice")
        server.end()
        self.assertEqual(server.seen, ["GET", "GET", "GET"])

    def test_an_interrupted_request_takes_its_answer_away(self):
        server, domain = self.scripted(["answer", "answer"], ["answer"])
        waited = http.client.HTTPConnection.getresponse
        http.client.HTTPConnection.getresponse = interrupted
        try:
            self.assertRaises(KeyboardInterrupt, domain.flush)
        finally:
            http.client.HTTPConnection.getresponse = waited
        self.assertEqual(domain.owner, "alice")

    def test_nobody_listens(self):
        with socket.socket() as taken:
            taken.bind(("127.0.0.1", 0))
            url = "http://127.0.0.1:%d" % taken.getsockname()[1]
            self.assertRaises(hsds_client.Unreachable, Domain, url, "/x")
            self.assertRaises(ConnectionError, Domain, url, "/x")

    def test_one_link_for_many_requests(self):
        made = []
        connect = http.client.HTTPConnection.connect
        http.client.HTTPConnection.connect = lambda link: made.append(link) or connect(link)
        try:
            with Domain(SERVER.url, "/home/lab", "ta") as lab:
                ds = lab.create_dataset("one link/x", data=[1, 2, 3])
                self.assertEqual(plain(ds[::2]), [1, 3])
                self.assertRaises(KeyError, lab.__getitem__, "nothing")
                self.assertRaises(PermissionError, Domain, SERVER.url, "/home/lab", "tz")
                self.assertEqual(len(ds), 3)
        finally:
            http.client.HTTPConnection.connect = connect
        self.assertEqual(len(made), 2)
        self.assertFalse(lab)
        self.assertRaises(ValueError, len, ds)

    def test_threads(self):
        with Domain(SERVER.url, "/home/lab", "ta") as lab:
            found = []

            def write_and_read(number):
                ds = lab.create_dataset("threads/%d" % number, (50,), "<i4")
                for _ in range(5):
                    ds[...] = [number] * 50
                    found.append(plain(ds[...]) == [number] * 50)

            lab.create_group("threads")
            threads = [threading.Thread(target=write_and_read, args=(number,)) for number in range(6)]
            for thread in threads:
                thread.start()
            for thread in threads:
                thread.join()
            self.assertEqual(found, [True] * 30)

    def test_a_server_that_is_stopped_in_the_middle(self):
        server = Server(os.path.join(FOLDER, "stopped.journal"), 1, 10)
        with Domain(server.url, "/home/lab", "ta") as lab:
            ds = lab.create_dataset("counts", data=[1, 2, 3])
            fault = self.stopped_in(server, lab.create_group, "x")
            self.assertIsInstance(fault, hsds_client.Unanswered)
            self.assertTrue(fault.maybe_done)
            self.assertRaises(hsds_client.Unreachable, ds.__getitem__, 0)
        server = Server(server.journal, 1, 10)
        with Domain(server.url, "/home/lab", "ta") as lab:
            lab["again"] = [7]
            self.assertEqual(plain(lab["again"][...]), [7])
            # A GET is sent again, to nobody, or to a port that is about to be closed.
            fault = self.stopped_in(server, lab.__len__)
            self.assertIsInstance(fault, (hsds_client.Unreachable, hsds_client.Unanswered))
            self.assertFalse(getattr(fault, "maybe_done", False))

    def stopped_in(self, server, act, *given):
        """What the client raises when the program ends behind the sending of a request and before its answer."""
        caught = []

        def guarded():
            try:
                act(*given)
            except hsds_client.ServiceError as fault:
                caught.append(fault)

        server.process.send_signal(signal.SIGSTOP)
        # Where the machine is busy its threads run on for a while.
        os.waitid(os.P_PID, server.process.pid, os.WSTOPPED)
        thread = threading.Thread(target=guarded)
        thread.start()
        time.sleep(0.3)
        server.kill()
        thread.join(20)
        self.assertEqual(len(caught), 1)
        return caught[0]


def interrupted(link):
    raise KeyboardInterrupt


def wait_for(holds):
    for _ in range(200):
        if holds():
            return
        time.sleep(0.02)
    raise AssertionError("waited for 4 seconds")


class Examples(unittest.TestCase):
    def test_survey(self):
        words = [sys.executable, os.path.join(TOP, "examples", "survey.py"), SERVER.url]
        environment = dict(os.environ, PYTHONDONTWRITEBYTECODE="1")
        said = subprocess.check_output(words + (["--share"] if FLUSH else []), env=environment).decode().splitlines()
        self.assertEqual(said[0], "hill, mean temperature in degrees")
        self.assertEqual(said[1].split(), ["00:00", "06:00", "12:00", "18:00"])
        self.assertEqual([line.split()[0] for line in said[2:]], "Jan Feb Mar Apr May Jun Jul Aug Sep Oct Nov Dec".split())
        for line in said[2:]:
            night, _, noon, _ = [float(field) for field in line.split()[1:]]
            self.assertLess(night, noon)

    def test_watch(self):
        with Domain(SERVER.url, "/home/lab", "ta") as lab:
            ds = lab.create_dataset("watched/counts", data=[[1, 2, 3], [4, 5, 6]])
            words = ["bash", os.path.join(TOP, "examples", "watch.sh"), SERVER.url, "/home/lab", "watched/counts"]
            environment = dict(os.environ, HSDS_TOKEN="tb", SECONDS_BETWEEN="0.2")
            watch = subprocess.Popen(words + ["[0:2,0:3:2]", "2"], env=environment, stdout=subprocess.PIPE)
            try:
                self.assertEqual(watch.stdout.readline(), b'{"value":[[1,3],[4,6]]}\n')
                ds[1, 2] = 60
                self.assertEqual(watch.stdout.readline(), b'{"value":[[1,3],[4,60]]}\n')
                self.assertEqual(watch.wait(20), 0)
            finally:
                watch.kill()
                watch.wait()
                watch.stdout.close()
            refused = subprocess.Popen(words[:-1] + ["nothing"], env=environment, stdout=subprocess.PIPE, stderr=subprocess.PIPE)
            self.assertIn(b"no-name", refused.communicate()[1])
            self.assertEqual(refused.returncode, 1)


if __name__ == "__main__":
    unittest.main(argv=sys.argv[:1] + sys.argv[3:])
