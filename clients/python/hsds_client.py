"""A client of the array service: h5py's names and behaviour over HTTP, in one file over the standard library.

    from hsds_client import Domain

    with Domain("http://127.0.0.1:5101", "/home/lab", "ta") as lab:
        counts = lab.create_dataset("raw/counts", (4, 6), "<i4")
        counts[...] = [[6 * row + column for column in range(6)] for row in range(4)]
        counts.attrs["unit"] = "mm"
        print(counts[0:4:2, 1:6:2])

Where numpy is there, arrays are numpy's, and `dtype` is a `numpy.dtype`. Where it isn't, an array is a list of lists, an
element is an `int`, `bytes` or, for a compound, a tuple, and `dtype` has numpy's spelling: `"<i4"`, `"|S16"`, or a list
of names and dtypes, `[("day", "<i4"), ("note", "|S16")]`.

What differs from h5py, since the service does:

- Elements are integers of 8 to 64 bits, strings of a fixed length, and compounds of these. There is no default dtype.
- Nothing is rounded, wrapped or truncated: a value that isn't one of the type is refused. A write that is refused in
  the middle of a large array leaves what was written before.
- An index is made of integers, slices with a step of at least 1, an ellipsis and names of fields. For a list of
  single elements there are `Dataset.points` and `Dataset.set_points`.
- `del group[name]` removes a link. The object stays in the service, under its id, until its `delete()` is called.
- An attribute's `str` is kept as a UTF-8 string of a fixed length, and reads as `str`; `bytes` as an ASCII string, and
  read as `bytes`.
- Others may write at any time: each property that can change asks the service again.

A `Domain` and a `Folder` keep one link to the service, which the objects opened from them share; a lock keeps requests
of several threads apart. A worker of the service serves one link at a time, so close what isn't needed any more.
"""

import functools
import http.client
import json
import operator
import re
import select
import socket
import threading
import time
import urllib.parse
from collections import namedtuple
from collections.abc import Mapping, MutableMapping

try:
    import numpy as np
except ImportError:
    np = None

__all__ = [
    "Domain", "Folder", "Group", "Dataset", "Datatype", "AttributeManager", "AccessLists", "Empty",
    "HardLink", "SoftLink", "ExternalLink", "RIGHTS", "string_dtype", "check_string_dtype", "string_info",
    "ServiceError", "Unreachable", "Unanswered", "Refused", "NotFound", "NoDomain", "Forbidden", "Invalid", "Taken",
    "UnsupportedType", "NotKept", "NoMemory",
]  # fmt: skip

RIGHTS = ("create", "read", "update", "delete", "readACL", "updateACL")

# The service ends a link on which nothing came for 30 seconds.
IDLE_SECONDS = 25

# The most that one request has: bytes of elements and of their JSON text, where the service takes twice and four times
# as many, and, up to the service's limits, elements, points, and bytes of chunks that it may be the first to write.
MOST_BYTES = 1 << 22
MOST_ELEMENTS = 1 << 20
MOST_POINTS = 1 << 16
MOST_NEW_CHUNKS = 1 << 28

# How many soft and external links the way to an object may have, as in HDF5.
MOST_LINKS = 16


# Errors ---------------------------------------------------------------------------------------------------------------


class ServiceError(Exception):
    """What the service, or the link to it, couldn't do."""


class Unreachable(ServiceError, ConnectionError):
    """No link could be made: the request was not sent."""


class Unanswered(ServiceError, ConnectionError):
    """The link broke, or nothing came for too long, after sending began: unless it was a GET, it may have been done.

    `request` is its method and target, and `maybe_done` is false for a GET.
    """

    def __init__(self, request, maybe_done):
        super().__init__("%s was not answered%s" % (request, "; it may have been done" if maybe_done else ""))
        self.request = request
        self.maybe_done = maybe_done


class Refused(ServiceError):
    """The service refused a request.

    `status` is the HTTP status, `reason` the service's word for it, `keys` a dict of what else it said, and `request`
    the method and target.
    """

    def __init__(self, status, reason, keys, request):
        said = ", ".join("%s %s" % (key, value) for key, value in sorted(keys.items()))
        self.text = "%s %s%s (%s)" % (status, reason, ": " + said if said else "", request)
        super().__init__(self.text)
        self.status = status
        self.reason = reason
        self.keys = keys
        self.request = request

    def __str__(self):
        return self.text


class NotFound(Refused, KeyError):
    """Nothing has the name or the id."""


class NoDomain(Refused, FileNotFoundError):
    """No domain, or no folder, is at the path."""


class Forbidden(Refused, PermissionError):
    """The token is unknown, or its user hasn't the right."""


class Invalid(Refused, ValueError):
    """The request can't be done as it is: a bad value, selection, shape or name, or a limit is met."""


class Taken(Invalid, FileExistsError):
    """The name or the path is in use."""


class UnsupportedType(Refused, TypeError):
    """The service has no elements of this class."""


class NotKept(Refused, OSError):
    """The change was made, and the disk couldn't keep it."""


class NoMemory(Refused, MemoryError):
    """The service had no memory for the request."""


_REFUSALS = {
    "no-name": NotFound, "no-object": NotFound, "gone": NotFound, "no-domain": NoDomain,
    "bad-token": Forbidden, "forbidden": Forbidden, "taken": Taken, "unsupported-type": UnsupportedType,
    "disk-fault": NotKept, "journal-full": NotKept, "no-memory": NoMemory,
    "bad-domain": Invalid, "bad-json": Invalid, "bad-field": Invalid, "bad-shape": Invalid, "bad-name": Invalid,
    "bad-select": Invalid, "bad-value": Invalid, "too-many": Invalid, "not-empty": Invalid, "root": Invalid,
    "limit": Invalid, "body-too-long": Invalid, "head-too-long": Invalid,
}  # fmt: skip


def _refusal(status, body, request):
    keys = dict(body) if isinstance(body, dict) else {}
    reason = keys.pop("reason", "unknown")
    return _REFUSALS.get(reason, Refused)(status, reason, keys, request)


# The link -------------------------------------------------------------------------------------------------------------


class _Link:
    """One link that is kept between requests, and how requests go over it."""

    def __init__(self, url, token, timeout):
        parts = urllib.parse.urlsplit(url)
        if parts.scheme not in ("http", "https") or not parts.hostname or parts.path not in ("", "/"):
            raise ValueError("the service's URL is http://HOST:PORT, not %r" % url)
        kind = http.client.HTTPSConnection if parts.scheme == "https" else http.client.HTTPConnection
        self._connection = kind(parts.hostname, parts.port, timeout=timeout)
        self._headers = {"Content-Type": "application/json"}
        if token is not None:
            self._headers["Authorization"] = "Bearer " + token
        self._lock = threading.Lock()
        self._used = 0.0
        self._is_closed = False
        self.url = "%s://%s" % (parts.scheme, parts.netloc)

    def ask(self, method, target, body=None):
        """The tree of the answer's body. Raises `Refused` where the status isn't 2xx."""
        text = None if body is None else _json(body)
        with self._lock:
            if self._is_closed:
                raise ValueError("the link to %s is closed" % self.url)
            status, answer = self._exchange(method, target, text)
        try:
            tree = json.loads(answer.decode("utf-8")) if answer else {}
        except ValueError:
            tree = {}
        if not 200 <= status < 300:
            raise _refusal(status, tree, "%s %s" % (method, target))
        return tree

    def _exchange(self, method, target, text):
        """Status and body of the answer. A GET is sent again, once, where the link breaks behind the sending."""
        again = method == "GET"
        while True:
            self._connect()
            try:
                self._connection.request(method, target, text, self._headers)
                answer = self._connection.getresponse()
                found = answer.status, answer.read()
            except (OSError, http.client.HTTPException) as fault:
                self._connection.close()
                if again and not isinstance(fault, socket.timeout):
                    again = False
                    continue
                raise Unanswered("%s %s" % (method, target), method != "GET") from fault
            except BaseException:
                # An answer that nobody waited for would be taken for that of the next request.
                self._connection.close()
                raise
            self._used = time.monotonic()
            return found

    def _connect(self):
        """Makes the link, unless it stands, was used lately and the other side hasn't ended it."""
        connection = self._connection
        if connection.sock is not None:
            ended = time.monotonic() - self._used >= IDLE_SECONDS or _is_readable(connection.sock)
            if not ended:
                return
            connection.close()
        try:
            connection.connect()
        except OSError as fault:
            connection.close()
            raise Unreachable("%s can't be reached: %s" % (self.url, fault)) from fault

    def close(self):
        with self._lock:
            self._is_closed = True
            self._connection.close()


def _is_readable(sock):
    """Whether something came that was not asked for: between two requests, the end of the link."""
    if hasattr(select, "poll"):
        waiting = select.poll()
        waiting.register(sock, select.POLLIN)
        return bool(waiting.poll(0))
    return bool(select.select([sock], [], [], 0)[0])


def _json(tree):
    text = json.dumps(tree, separators=(",", ":"), ensure_ascii=False, allow_nan=False, default=_number)
    return text.encode("utf-8")


def _number(value):
    """What JSON has for a number that isn't Python's own, as numpy's are."""
    try:
        return operator.index(value)
    except TypeError:
        raise TypeError("no element of the service: %r" % (value,)) from None


def _quoted(text):
    return urllib.parse.quote(text, safe="")


# Types of elements ----------------------------------------------------------------------------------------------------
#
# An element type has `size`, the bytes of an element, `text`, the most bytes of its JSON text, `tree`, the type as the
# service spells it, and `to_tree` and `from_tree`, which turn an element into its JSON and back; None changes nothing.

string_info = namedtuple("string_info", "encoding length")


class Empty:
    """The value of a dataset or an attribute that has a type and no element, as `h5py.Empty`."""

    shape = None
    size = None

    def __init__(self, dtype):
        self.dtype = _public(_element(dtype))

    def __eq__(self, other):
        return isinstance(other, Empty) and self.dtype == other.dtype

    __hash__ = None

    def __repr__(self):
        return "Empty(dtype=%r)" % (self.dtype,)


class _FixedString(str):
    """The spelling of a string's dtype where there is no numpy, which keeps the encoding beside it."""

    def __new__(cls, length, encoding):
        made = super().__new__(cls, "|S%d" % length)
        made.encoding = encoding
        return made


class _Integer:
    to_tree = from_tree = None
    zero = 0

    def __init__(self, order, sign, size):
        self.size = size
        self.code = (order if size > 1 else "|") + sign + str(size)
        self.tree = "H5T_STD_%s%d%s" % (sign.upper(), 8 * size, "BE" if self.code[0] == ">" else "LE")
        self.text = len(str(-(1 << 8 * size - 1) if sign == "i" else (1 << 8 * size) - 1))

    def plain(self):
        return self.code

    def numpy(self):
        return np.dtype(self.code)

    def accepts(self, dtype):
        return dtype.kind in "iuO"


class _String:
    zero = b""

    def __init__(self, length, encoding, pad="H5T_STR_NULLPAD"):
        self.size = length
        self.encoding = encoding
        self.text = 6 * length + 2
        charset = "H5T_CSET_UTF8" if encoding == "utf-8" else "H5T_CSET_ASCII"
        self.tree = {"class": "H5T_STRING", "length": length, "charSet": charset, "strPad": pad}

    def to_tree(self, value):
        return value.decode("utf-8") if isinstance(value, bytes) else value

    def from_tree(self, tree):
        return tree.encode("utf-8")

    def plain(self):
        return _FixedString(self.size, self.encoding)

    def numpy(self):
        metadata = {"h5py_encoding": "utf-8"} if self.encoding == "utf-8" else None
        return np.dtype("|S%d" % self.size, metadata=metadata) if metadata else np.dtype("|S%d" % self.size)

    def accepts(self, dtype):
        return dtype.kind in "SUO"


class _Compound:
    def __init__(self, names, fields):
        self.names = names
        self.fields = fields
        self.size = sum(field.size for field in fields)
        self.text = sum(field.text + 1 for field in fields) + 1
        self.zero = tuple(field.zero for field in fields)
        self.tree = {
            "class": "H5T_COMPOUND",
            "fields": [{"name": name, "type": field.tree} for name, field in zip(names, fields)],
        }

    def to_tree(self, row):
        if not isinstance(row, (tuple, list)):
            return row
        if len(row) != len(self.fields):
            raise ValueError("a row of %d values for %d fields" % (len(row), len(self.fields)))
        return [_converted(value, 0, field.to_tree) for field, value in zip(self.fields, row)]

    def from_tree(self, tree):
        return tuple(_converted(value, 0, field.from_tree) for field, value in zip(self.fields, tree))

    def plain(self):
        return [(name, field.plain()) for name, field in zip(self.names, self.fields)]

    def numpy(self):
        return np.dtype([(name, field.numpy()) for name, field in zip(self.names, self.fields)])

    def accepts(self, dtype):
        return dtype.names is not None and sorted(dtype.names) == sorted(self.names)


def string_dtype(encoding="utf-8", length=None):
    """The dtype of strings of so many bytes, as `h5py.string_dtype`: `encoding` is "utf-8" or "ascii"."""
    if encoding not in ("utf-8", "ascii"):
        raise ValueError("Invalid encoding (%r); 'utf-8' or 'ascii' allowed" % encoding)
    if length is None:
        raise TypeError("the service has no strings of variable length: a length is needed")
    return _public(_String(length, encoding))


def check_string_dtype(dtype):
    """The encoding and the length of a string's dtype, or None for any other, as `h5py.check_string_dtype`."""
    elem = _element(dtype)
    return string_info(elem.encoding, elem.size) if isinstance(elem, _String) else None


def _public(elem):
    """The dtype of an element type, as its reader sees it."""
    return elem.plain() if np is None else elem.numpy()


_INTEGER = re.compile(r"([<>=|]?)([iu])([1248])")
_LONG_INTEGER = re.compile(r"(u?)int(8|16|32|64)")
_FIXED_STRING = re.compile(r"\|?S([0-9]+)")


def _element(dtype):
    """The element type of a dtype. Raises `TypeError` where the service has none."""
    if np is not None and not isinstance(dtype, _FixedString):
        return _element_of_numpy(np.dtype(dtype))
    if dtype is int:
        return _Integer("<", "i", 8)
    if isinstance(dtype, list) and dtype:
        names = [name for name, _ in dtype]
        return _Compound(names, [_element(field) for _, field in dtype])
    if isinstance(dtype, str):
        found = _INTEGER.fullmatch(dtype)
        if found:
            return _Integer(">" if found.group(1) == ">" else "<", found.group(2), int(found.group(3)))
        found = _LONG_INTEGER.fullmatch(dtype)
        if found:
            return _Integer("<", found.group(1) or "i", int(found.group(2)) // 8)
        found = _FIXED_STRING.fullmatch(dtype)
        if found:
            return _String(int(found.group(1)), getattr(dtype, "encoding", "ascii"))
    raise TypeError("No conversion path for dtype: %r" % (dtype,))


def _element_of_numpy(dtype):
    if dtype.names is not None:
        return _Compound(list(dtype.names), [_element_of_numpy(dtype[name]) for name in dtype.names])
    if dtype.kind in "iu":
        return _Integer(dtype.str[0], dtype.kind, dtype.itemsize)
    if dtype.kind == "S":
        return _String(dtype.itemsize, (dtype.metadata or {}).get("h5py_encoding", "ascii"))
    raise TypeError("No conversion path for dtype: %r" % (dtype,))


def _element_of_tree(tree):
    """The element type that an answer spells."""
    if tree["class"] == "H5T_INTEGER":
        sign, bits, order = re.fullmatch(r"H5T_STD_([IU])([0-9]+)(LE|BE)", tree["base"]).groups()
        return _Integer(">" if order == "BE" else "<", sign.lower(), int(bits) // 8)
    if tree["class"] == "H5T_STRING":
        return _String(tree["length"], "utf-8" if tree["charSet"] == "H5T_CSET_UTF8" else "ascii", tree["strPad"])
    fields = tree["fields"]
    return _Compound([field["name"] for field in fields], [_element_of_tree(field["type"]) for field in fields])


def _guessed(value):
    """The element type of a value that has no dtype: 64-bit integers, or strings as long as the longest."""
    leaves = list(_leaves(value, False))
    if leaves and all(isinstance(leaf, int) and not isinstance(leaf, bool) for leaf in leaves):
        return _Integer("<", "u" if max(leaves) >= 1 << 63 else "i", 8)
    if leaves and all(isinstance(leaf, str) for leaf in leaves):
        return _String(max(1, max(len(leaf.encode("utf-8")) for leaf in leaves)), "utf-8")
    if leaves and all(isinstance(leaf, bytes) for leaf in leaves):
        return _String(max(1, max(len(leaf) for leaf in leaves)), "ascii")
    raise TypeError("a dtype is needed: the service has integers, strings of a fixed length and compounds of these")


def _leaves(value, rows):
    """The elements of nested lists, in row-major order."""
    members = _members(value, rows)
    if members is None:
        yield value
    else:
        for member in members:
            yield from _leaves(member, rows)


# Arrays, and their nested lists ---------------------------------------------------------------------------------------


def _members(value, rows):
    """What stands for an axis of an array, or None for one element. With `rows` a tuple is a compound's element."""
    if isinstance(value, (list, range)) or isinstance(value, tuple) and not rows:
        return value
    return None


def _converted(value, depth, convert):
    """Nested lists of this depth with each element converted."""
    if convert is None:
        return value
    if depth == 0:
        return convert(value)
    return [_converted(member, depth - 1, convert) for member in value]


def _nested(elements, shape):
    """Nested lists of this shape of the elements that come."""
    return [_nested(elements, shape[1:]) for _ in range(shape[0])] if shape else next(elements)


def _list_shape(value, rows):
    """The extents of nested lists, which must be of one length on each axis."""
    members = _members(value, rows)
    if members is None:
        return ()
    if len(members) == 0 or _members(members[0], rows) is None:
        return (len(members),)
    shapes = {_list_shape(member, rows) for member in members}
    if len(shapes) > 1:
        raise ValueError("lists of different lengths are no array")
    return (len(members),) + shapes.pop()


def _is_array(value):
    """Whether numpy made the value, or the first of what it holds."""
    while isinstance(value, (list, tuple)) and len(value) > 0:
        value = value[0]
    return np is not None and not isinstance(value, (str, bytes)) and hasattr(value, "__array__")


def _source(value, elem):
    """What is to be written, with its `shape`; `block` gives the tree of a part of it, once it was made to `fit`."""
    if isinstance(value, Dataset):
        value = value[...]
    if _is_array(value):
        return _ArraySource(np.asarray(value), elem)
    return _ListSource(value.tolist() if hasattr(value, "tolist") else value, elem)


class _ListSource:
    def __init__(self, value, elem):
        self._value = value
        self._convert = elem.to_tree
        self._rows = isinstance(elem, _Compound)
        self.shape = _list_shape(value, self._rows)

    def reshape(self, shape):
        """Gives as many elements another shape."""
        if shape == self.shape:
            return
        if _product(shape) != _product(self.shape):
            raise ValueError("Shape tuple is incompatible with data")
        self._value, self.shape = _nested(_leaves(self._value, self._rows), shape), shape

    def fit(self, runs):
        """Makes the value one of a selection: leading axes of 1 are dropped, missing ones and those of 1 repeated."""
        wanted = _shape_of(runs)
        given = self.shape
        while len(self.shape) > len(wanted) and self.shape[0] == 1:
            self._value, self.shape = self._value[0], self.shape[1:]
        if 0 in self.shape and 0 in wanted:
            # How long the lists inside an empty one would be isn't known.
            return
        missing = len(wanted) - len(self.shape)
        if missing < 0 or any(have not in (1, want) for have, want in zip(self.shape, wanted[missing:])):
            raise TypeError("Can't broadcast %s -> %s" % (given, wanted))

    def block(self, runs):
        return self._cut(self._value, self.shape, runs)

    def _cut(self, value, shape, runs):
        if not runs:
            return _converted(value, 0, self._convert)
        run, rest = runs[0], runs[1:]
        if not run.kept or sum(one.kept for one in runs) > len(shape):
            return [self._cut(value, shape, rest)] * run.count
        if shape[0] == 1:
            return [self._cut(value[0], shape[1:], rest)] * run.count
        part = value[run.first : run.first + run.count]
        if not rest and self._convert is None:
            return list(part)
        return [self._cut(member, shape[1:], rest) for member in part]


class _ArraySource:
    def __init__(self, array, elem):
        if array.dtype.kind == "b" and isinstance(elem, _Integer):
            array = array.astype("u1")
        if array.size and not elem.accepts(array.dtype):
            raise TypeError("No conversion path for dtype: %r" % (array.dtype,))
        if isinstance(elem, _Compound) and array.dtype.names is not None:
            array = array[elem.names]
        self._array = array
        self._convert = elem.to_tree
        self.shape = array.shape

    def reshape(self, shape):
        if _product(shape) != self._array.size:
            raise ValueError("Shape tuple is incompatible with data")
        self._array, self.shape = self._array.reshape(shape), shape

    def fit(self, runs):
        wanted = _shape_of(runs)
        array = self._array
        while array.ndim > len(wanted) and array.shape[0] == 1:
            array = array[0]
        try:
            array = np.broadcast_to(array, wanted)
        except ValueError:
            raise TypeError("Can't broadcast %s -> %s" % (self.shape, wanted)) from None
        self._array = array.reshape([run.count for run in runs])

    def block(self, runs):
        part = self._array[tuple(slice(run.first, run.first + run.count) for run in runs)]
        return _converted(part.tolist(), len(runs), self._convert)


def _array_of(tree, elem, shape):
    """What an answer's nested lists are for their reader."""
    values = _converted(tree, len(shape), elem.from_tree)
    if np is None:
        return values
    if 0 in shape:
        return np.zeros(shape, elem.numpy())
    return np.array(values, dtype=elem.numpy()).reshape(shape)


def _scalar(array):
    """An array without axes as its one element."""
    return array if np is None or not isinstance(array, np.ndarray) else array[()]


def _blank_lists(shape):
    return [None] * shape[0] if len(shape) == 1 else [_blank_lists(shape[1:]) for _ in range(shape[0])]


def _put_lists(whole, part, runs):
    """Puts the nested lists of a part where they belong among the whole ones."""
    first, rest = runs[0].first, runs[1:]
    if not rest:
        whole[first : first + len(part)] = part
        return
    for offset, member in enumerate(part):
        _put_lists(whole[first + offset], member, rest)


def _dropped(lists, runs):
    """Nested lists without the axes at which an integer stood in the index."""
    if not runs:
        return lists
    if not runs[0].kept:
        return _dropped(lists[0], runs[1:])
    return [_dropped(member, runs[1:]) for member in lists]


def _product(numbers):
    return functools.reduce(operator.mul, numbers, 1)


# Selections -----------------------------------------------------------------------------------------------------------

# What a selection takes of one axis: `count` coordinates, `step` apart, from `start` on. The first of them is number
# `first` of what the whole selection takes of the axis, and the axis is `kept` unless an integer stood there.
_Run = namedtuple("_Run", "start count step first kept")


def _selected(args, shape):
    """The runs that an index selects of axes of these lengths, by h5py's rules."""
    places = [place for place, arg in enumerate(args) if arg is Ellipsis]
    if len(places) > 1:
        raise ValueError("Only one ellipsis may be used.")
    at = places[0] if places else len(args)
    before, after = args[:at], args[at + 1 :]
    missing = len(shape) - len(before) - len(after)
    if missing < 0:
        raise ValueError("%d indexing arguments for %d dimensions" % (len(before) + len(after), len(shape)))
    return [_run(arg, length) for arg, length in zip(before + (slice(None),) * missing + after, shape)]


def _run(index, length):
    if isinstance(index, slice):
        start, stop, step = index.indices(length)
        if step < 1:
            raise ValueError("Step must be >= 1 (got %d)" % step)
        count = len(range(start, stop, step))
        return _Run(start if count else 0, count, step if count > 1 else 1, 0, True)
    try:
        place = operator.index(index)
    except TypeError:
        raise TypeError("an index is an integer, a slice, an ellipsis or a field's name, not %r" % (index,)) from None
    if place < 0:
        place += length
    if not 0 <= place < length:
        whole = "(0-%d)" % (length - 1) if length else "empty dimension"
        raise IndexError("Index (%s) out of range for %s" % (index, whole))
    return _Run(place, 1, 1, 0, False)


def _whole(shape):
    return [_Run(0, length, 1, 0, True) for length in shape]


def _shape_of(runs):
    return tuple(run.count for run in runs if run.kept)


def _stop(run):
    return run.start + (run.count - 1) * run.step + 1


def _select_text(runs):
    return "[%s]" % ",".join("%d:%d:%d" % (run.start, _stop(run), run.step) for run in runs)


def _chunks_touched(run, edge):
    """In how many chunks of this edge a run has coordinates."""
    return run.count if run.step >= edge else (_stop(run) - 1) // edge - run.start // edge + 1


def _blocks(runs, most, chunk=None, chunk_bytes=0):
    """Cuts a selection into parts of at most so many elements, in row-major order.

    Where the edges of a `chunk` are given, each part also lies in chunks of at most `MOST_NEW_CHUNKS` bytes, and the
    order may be another.
    """
    axis = None
    if chunk is not None:
        touched = [_chunks_touched(run, edge) for run, edge in zip(runs, chunk)]
        if max(touched) > 1 and _product(touched) * chunk_bytes > MOST_NEW_CHUNKS:
            axis = touched.index(max(touched))
    if axis is None and _product(run.count for run in runs) > most:
        axis = next((axis for axis, run in enumerate(runs) if run.count > 1), None)
    if axis is None:
        yield runs
        return
    run = runs[axis]
    half = run.count // 2
    for offset, count in ((0, half), (half, run.count - half)):
        part = run._replace(start=run.start + offset * run.step, count=count, first=run.first + offset)
        yield from _blocks(runs[:axis] + [part] + runs[axis + 1 :], most, chunk, chunk_bytes)


def _dims(shape):
    """The lengths of the axes that an answer's shape has; None for the shape without an element."""
    if shape["class"] == "H5S_NULL":
        return None
    return tuple(shape.get("dims", ()))


# Objects --------------------------------------------------------------------------------------------------------------


class _Object:
    """A group, a dataset or a committed datatype: `id` is its id in the service, `name` the path that led to it."""

    def __init__(self, file, id, name):
        self.file = file
        self.id = id
        self.name = name

    def _ask(self, method, rest="", body=None, query=""):
        return self.file._request(method, "/%s/%s%s" % (self._collection, self.id, rest), body, query)

    @property
    def attrs(self):
        """The attributes, as a mapping."""
        return AttributeManager(self)

    @property
    def parent(self):
        """The group in which the path has its last part."""
        if self.name is None:
            raise ValueError("Parent of an anonymous object is undefined")
        return self.file[self.name.rstrip("/").rpartition("/")[0] or "/"]

    def delete(self):
        """Removes the object itself from the service. Links to it stay, and lead to nothing: `del` removes them."""
        self._ask("DELETE")

    def __eq__(self, other):
        return isinstance(other, _Object) and self._place() == other._place()

    def __hash__(self):
        return hash(self._place())

    def _place(self):
        return self.file._link_to.url, self.file.filename, self.id

    def __bool__(self):
        return bool(self.file)

    def __repr__(self):
        return "<HDF5 %s %r of %s>" % (type(self).__name__.lower(), self.name, self.file.filename)


class AttributeManager(MutableMapping):
    """The attributes of an object by their names, in the order of names."""

    def __init__(self, parent):
        self._parent = parent

    def _ask(self, method, name, body=None):
        return self._parent._ask(method, "/attributes/" + _quoted(name), body)

    def __getitem__(self, name):
        found = self._ask("GET", name)
        elem = _element_of_tree(found["type"])
        shape = _dims(found["shape"])
        if shape is None:
            return Empty(_public(elem))
        if isinstance(elem, _String) and elem.encoding == "utf-8":
            is_array = np is not None and shape
            return np.array(found["value"], dtype=object).reshape(shape) if is_array else found["value"]
        return _scalar(_array_of(found["value"], elem, shape))

    def __setitem__(self, name, value):
        self.create(name, value)

    def create(self, name, data, *, dtype=None):
        """Sets an attribute, by this dtype where one is given. One of the name is removed before."""
        body = _attribute(data, dtype)
        try:
            self._ask("PUT", name, body)
        except Taken:
            self._ask("DELETE", name)
            self._ask("PUT", name, body)

    def __delitem__(self, name):
        self._ask("DELETE", name)

    def __iter__(self):
        return iter([found["name"] for found in self._parent._ask("GET", "/attributes")["attributes"]])

    def __len__(self):
        return self._parent._ask("GET")["attributeCount"]

    def __contains__(self, name):
        try:
            self._ask("GET", name)
        except NotFound:
            return False
        return True

    def __repr__(self):
        return "<Attributes of %r>" % (self._parent,)


def _attribute(data, dtype):
    """The body that makes an attribute of a value."""
    if isinstance(data, Empty):
        return {"type": _element(data.dtype).tree, "shape": "H5S_NULL", "value": None}
    elem = _element_for(data, dtype)
    source = _source(data, elem)
    runs = _whole(source.shape)
    source.fit(runs)
    body = {"type": elem.tree, "value": source.block(runs)}
    if runs:
        body["shape"] = list(source.shape)
    return body


def _element_for(data, dtype):
    """The element type by the dtype that is given, else by the data's."""
    if dtype is not None:
        return _element(dtype)
    if isinstance(data, Dataset):
        return data._elem
    if _is_array(data):
        return _element_of_numpy(np.asarray(data).dtype)
    return _guessed(data.tolist() if hasattr(data, "tolist") else data)


class HardLink:
    """A link to an object."""


class SoftLink:
    """A link to a path of the same domain."""

    def __init__(self, path):
        self.path = path

    def __repr__(self):
        return "<SoftLink to %r>" % self.path


class ExternalLink:
    """A link to a path of another domain of the service."""

    def __init__(self, filename, path):
        self.filename = filename
        self.path = path

    def __repr__(self):
        return "<ExternalLink to %r in %r>" % (self.path, self.filename)


class Group(_Object, MutableMapping):
    """A group of a domain: a mapping of names to objects, in the order of names. A name may be a path."""

    _collection = "groups"

    def __getitem__(self, name):
        file, collection, id = self._find(name, iter(range(MOST_LINKS)))
        tree = file._request("GET", "/%s/%s" % (collection, id))
        # What an external link led to has no path in this domain.
        return _OBJECTS[collection]._opened(file, tree, self._full(name) if file is self.file else None)

    @classmethod
    def _opened(cls, file, tree, name):
        return Group(file, tree["id"], name)

    def _full(self, name):
        parts = _parts(name)
        base = [] if _is_absolute(name) or self.name is None else _parts(self.name)
        return "/" + "/".join(base + parts)

    def _find(self, name, links):
        """Domain, collection and id of what a path leads to, over as many soft and external links as `links` has left."""
        parts = _parts(name)
        at = (self.file, "groups", self.file.id if _is_absolute(name) else self.id)
        for title in parts:
            file, collection, id = at
            if collection != "groups":
                raise KeyError("%r isn't a group, so it has no %r" % (id, title))
            group = Group(file, id, None)
            at = group._follow(group._link(title), links)
        return at

    def _follow(self, link, links):
        if link["class"] == "H5L_TYPE_HARD":
            return self.file, link["collection"], link["id"]
        if next(links, None) is None:
            raise KeyError("too many soft and external links, at %r" % link["title"])
        if link["class"] == "H5L_TYPE_SOFT":
            return self._find(link["h5path"], links)
        try:
            other = Domain._over(self.file._link_to, link["h5domain"], "r+")
        except NoDomain as fault:
            raise KeyError("the external link %r leads to no domain" % link["title"]) from fault
        return other._find("/" + link["h5path"], links)

    def _link(self, title):
        return self._ask("GET", "/links/" + _quoted(title))["link"]

    def _home(self, name):
        """The group in which a path's last part stands, and that part."""
        *before, title = _parts(name) or [""]
        if not title:
            raise KeyError("%r names no link" % (name,))
        group = self.file if _is_absolute(name) else self
        for part in before:
            group = group[part]
            if not isinstance(group, Group):
                raise KeyError("%r isn't a group" % part)
        return group, title

    def _made_home(self, name):
        """As `_home`, where groups that are missing on the way are made."""
        *before, title = _parts(name) or [""]
        if not title:
            raise ValueError("%r names no link" % (name,))
        group = self.file if _is_absolute(name) else self
        for part in before:
            try:
                group = group.require_group(part)
            except TypeError as fault:
                raise ValueError("%r isn't a group" % part) from fault
        return group, title

    def _make(self, collection, name, body):
        """Makes an object, and links it at the name where there is one."""
        if name is not None:
            group, title = self._made_home(name)
            body["link"] = {"id": group.id, "name": title}
        tree = self.file._request("POST", "/" + collection, body)
        return _OBJECTS[collection]._opened(self.file, tree, None if name is None else self._full(name))

    def create_group(self, name):
        """Makes a group, and those on the path to it that are missing. Without a name it has no link."""
        return self._make("groups", name, {})

    def require_group(self, name):
        """The group of this name, which is made where it is missing."""
        try:
            group = self[name]
        except KeyError:
            try:
                return self.create_group(name)
            except Taken:
                group = self[name]
        if not isinstance(group, Group):
            raise TypeError("Incompatible object (%s) already exists" % type(group).__name__)
        return group

    def create_dataset(
        self, name, shape=None, dtype=None, data=None, *, chunks=None, maxshape=None, fillvalue=None
    ):
        """Makes a dataset, and the groups on the path to it that are missing. Without a name it has no link.

        `shape` is an integer or a tuple, () for one element. `data` is written to the dataset, has as many elements as
        the shape, and gives shape and dtype where these are missing; without a shape and data there is no element, as in
        an `h5py.Empty`.
        `chunks` has the lengths of a chunk, which the service chooses without it. `maxshape` has what each length may
        become, None for no limit; without it a length of 0 has no limit, and any other can't grow. `fillvalue` is what
        an element is before it was written, else 0 or an empty string.
        """
        if isinstance(data, Empty):
            dtype, data = data.dtype if dtype is None else dtype, None
        if data is None and dtype is None:
            raise TypeError("a dtype is needed, or data: the service has no default")
        elem = _element(dtype) if data is None else _element_for(data, dtype)
        source = None if data is None else _source(data, elem)
        if shape is not None:
            shape = _as_shape(shape)
        elif source is not None:
            shape = source.shape
        if source is not None:
            source.reshape(shape)
        if not shape and (chunks or maxshape):
            raise TypeError("datasets without axes have no chunks and can't be extended")
        body = {"type": elem.tree, "shape": "H5S_NULL" if shape is None else list(shape) or "H5S_SCALAR"}
        if maxshape is not None:
            body["maxdims"] = [0 if most is None else most for most in _as_shape(maxshape)]
        body["creationProperties"] = _creation(elem, chunks, fillvalue)
        made = self._make("datasets", name, body)
        if source is not None:
            source.fit(_whole(shape))
            made._write(_whole(shape), source)
        return made

    def __setitem__(self, name, value):
        """Links an object, a `SoftLink` or an `ExternalLink`, commits a numpy dtype, or makes a dataset of other values."""
        if np is not None and isinstance(value, np.dtype):
            self._make("datatypes", name, {"type": _element(value).tree})
            return
        if isinstance(value, _Object):
            link = {"id": value.id}
        elif isinstance(value, SoftLink):
            link = {"h5path": value.path}
        elif isinstance(value, ExternalLink):
            link = {"h5path": value.path, "h5domain": value.filename}
        else:
            self.create_dataset(name, data=value)
            return
        group, title = self._made_home(name)
        group._ask("PUT", "/links/" + _quoted(title), link)

    def __delitem__(self, name):
        """Removes the link of this name. The object stays in the service: see its `delete`."""
        group, title = self._home(name)
        group._ask("DELETE", "/links/" + _quoted(title))

    def move(self, source, dest):
        """Gives the link at `source` the name `dest`."""
        link = self.get(source, getlink=True)
        if link is None:
            raise ValueError("nothing to move is at %r" % (source,))
        self[dest] = self[source] if isinstance(link, HardLink) else link
        del self[source]

    def get(self, name, default=None, getclass=False, getlink=False):
        """The object of a name, or the default; its class, its link, or the link's class where these are wanted."""
        try:
            found = self._link_class(name) if getlink else self[name]
        except KeyError:
            return default
        return type(found) if getclass else found

    def _link_class(self, name):
        group, title = self._home(name)
        link = group._link(title)
        if link["class"] == "H5L_TYPE_HARD":
            return HardLink()
        if link["class"] == "H5L_TYPE_SOFT":
            return SoftLink(link["h5path"])
        return ExternalLink(link["h5domain"], link["h5path"])

    def __contains__(self, name):
        """Whether a link has this name; what it leads to may be gone."""
        try:
            return bool(name) and (_parts(name) == [] or self._link_class(name) is not None)
        except KeyError:
            return False

    def __iter__(self):
        return iter([link["title"] for link in self._ask("GET", "/links")["links"]])

    def __len__(self):
        return self._ask("GET")["linkCount"]

    # A mapping compares its members, and an object is the same by its id.
    __eq__ = _Object.__eq__
    __hash__ = _Object.__hash__


def _parts(name):
    if isinstance(name, bytes):
        name = name.decode("utf-8")
    if not isinstance(name, str):
        raise TypeError("Accessing a group is done with bytes or str, not %s" % type(name))
    if not name:
        raise ValueError("Name parameter cannot be an empty string")
    return [part for part in name.split("/") if part not in ("", ".")]


def _is_absolute(name):
    return name[:1] in ("/", b"/")


def _as_shape(shape):
    return tuple(shape) if isinstance(shape, (tuple, list)) else (operator.index(shape),)


def _creation(elem, chunks, fillvalue):
    """The creation properties; chunks of None or True are the service's choice."""
    made = {}
    if chunks is not None and chunks is not True:
        made["layout"] = {"class": "H5D_CHUNKED", "dims": list(_as_shape(chunks))}
    if fillvalue is not None:
        source = _source(fillvalue, elem)
        source.fit([])
        made["fillValue"] = source.block([])
    return made


class Datatype(_Object):
    """A committed datatype."""

    _collection = "datatypes"

    def __init__(self, file, id, name, elem):
        super().__init__(file, id, name)
        self.dtype = _public(elem)

    @classmethod
    def _opened(cls, file, tree, name):
        return Datatype(file, tree["id"], name, _element_of_tree(tree["type"]))


class Dataset(_Object):
    """A dataset: its elements are read and written by an index, as h5py's."""

    _collection = "datasets"

    def __init__(self, file, tree, name):
        super().__init__(file, tree["id"], name)
        self._elem = _element_of_tree(tree["type"])
        self._shape = tree["shape"]
        self._properties = tree["creationProperties"]

    @classmethod
    def _opened(cls, file, tree, name):
        return Dataset(file, tree, name)

    @property
    def dtype(self):
        return _public(self._elem)

    @property
    def shape(self):
        """The lengths of the axes now; () for one element, None where there is none."""
        # Only what has axes can be resized.
        return _dims(self._ask("GET", "/shape")["shape"] if "dims" in self._shape else self._shape)

    @property
    def maxshape(self):
        """The most that each length may become, None where it has no limit."""
        if "dims" not in self._shape:
            return _dims(self._shape)
        return tuple(None if most in (0, "H5S_UNLIMITED") else most for most in self._shape["maxdims"])

    @property
    def ndim(self):
        return len(self._shape.get("dims", ()))

    @property
    def size(self):
        """How many elements there are now; None where the shape has none."""
        shape = self.shape
        return None if shape is None else _product(shape)

    @property
    def nbytes(self):
        return (self.size or 0) * self._elem.size

    @property
    def chunks(self):
        """The lengths of a chunk; None for a dataset without axes."""
        return tuple(self._properties["layout"]["dims"]) if "layout" in self._properties else None

    @property
    def fillvalue(self):
        """What an element is before it was written."""
        if "fillValue" not in self._properties:
            return self._elem.zero if np is None else np.zeros((), self._elem.numpy())[()]
        return _scalar(_array_of(self._properties["fillValue"], self._elem, ()))

    def __len__(self):
        shape = self.shape
        if not shape:
            raise TypeError("Attempt to take len() of scalar dataset")
        return shape[0]

    def __iter__(self):
        for row in range(len(self)):
            yield self[row]

    def resize(self, size, axis=None):
        """Gives the axes these lengths, or one axis this length. Elements that both shapes have stay."""
        if axis is not None:
            shape = list(self.shape)
            if not 0 <= axis < len(shape):
                raise ValueError("Invalid axis (0 to %d allowed)" % (len(shape) - 1))
            shape[axis] = size
            size = shape
        self._ask("PUT", "/shape", {"shape": list(_as_shape(size))})

    def __getitem__(self, args):
        """The elements that an index selects, by as many requests as the service's limits make it."""
        names, args = _without_names(args)
        shape = self.shape
        if shape is None:
            if args not in ((), (Ellipsis,)):
                raise ValueError("Empty datasets cannot be sliced")
            return Empty(self.dtype)
        runs = _selected(args, shape)
        if np is None:
            return self._of_fields(_dropped(self._read(runs), runs), len(_shape_of(runs)), names)
        found = self._of_fields(self._read(runs).reshape(_shape_of(runs)), 0, names)
        # As in h5py, `...` on a dataset without axes gives an array without axes, and any other index an element.
        return found if runs == [] and args == (Ellipsis,) else found[()]

    def _read(self, runs):
        """All the runs' elements, with every axis kept."""
        shape = tuple(run.count for run in runs)
        if not runs:
            return _array_of(self._ask("GET", "/value")["value"], self._elem, ())
        whole = _blank_lists(shape) if np is None else np.empty(shape, self._elem.numpy())
        if 0 in shape:
            return whole
        for block in _blocks(runs, self._most()):
            tree = self._ask("GET", "/value", query="&select=" + _select_text(block))["value"]
            part = _array_of(tree, self._elem, tuple(run.count for run in block))
            if np is None:
                _put_lists(whole, part, block)
            else:
                whole[tuple(slice(run.first, run.first + run.count) for run in block)] = part
        return whole

    def _most(self):
        """How many elements a request may have."""
        cost = max(self._elem.size, self._elem.text + 1 + 2 * self.ndim)
        return max(1, min(MOST_ELEMENTS, MOST_BYTES // cost))

    def _of_fields(self, found, depth, names):
        """Of compound elements the fields of these names: one alone as its values, several as a compound."""
        if not names:
            return found
        known = self._elem.names if isinstance(self._elem, _Compound) else []
        for name in names:
            if name not in known:
                raise ValueError("Field %s does not appear in this type." % name)
        if np is not None:
            return found[names[0]] if len(names) == 1 else found[list(names)]
        places = [known.index(name) for name in names]
        return _converted(found, depth, operator.itemgetter(*places))

    def __setitem__(self, args, value):
        """Writes the elements that an index selects, by as many requests as the service's limits make it.

        The value is one element or an array, which is repeated over axes of length 1 and missing ones, as in numpy.
        """
        names, args = _without_names(args)
        if names:
            raise TypeError("the service writes whole elements, and no single fields")
        shape = self.shape
        if shape is None:
            raise ValueError("Empty datasets cannot be sliced")
        runs = _selected(args, shape)
        source = _source(value, self._elem)
        source.fit(runs)
        self._write(runs, source)

    def _write(self, runs, source):
        if not runs:
            self._ask("PUT", "/value", {"value": source.block(runs)})
            return
        if 0 in [run.count for run in runs]:
            return
        for block in _blocks(runs, self._most(), self.chunks, self._chunk_bytes()):
            body = {"start": [run.start for run in block], "stop": [_stop(run) for run in block]}
            body["step"] = [run.step for run in block]
            body["value"] = source.block(block)
            self._ask("PUT", "/value", body)

    def _chunk_bytes(self):
        return _product(self.chunks or ()) * self._elem.size

    def points(self, points):
        """The elements at these points, in their order: a list of coordinates, each a list of one for each axis, or the
        one number of a single axis."""
        points = _point_list(points)
        found = []
        for first, count in self._point_blocks(points, MOST_POINTS):
            found += self._ask("POST", "/value", {"points": points[first : first + count]})["value"]
        return _array_of(found, self._elem, (len(found),))

    def set_points(self, points, values):
        """Writes the elements at these points: an array of as many, or one for all of them."""
        points = _point_list(points)
        runs = _whole((len(points),))
        source = _source(values, self._elem)
        source.fit(runs)
        most = MOST_NEW_CHUNKS // max(1, self._chunk_bytes())
        for first, count in self._point_blocks(points, most):
            part = source.block([runs[0]._replace(first=first, count=count)])
            self._ask("PUT", "/value", {"points": points[first : first + count], "value": part})

    def _point_blocks(self, points, most):
        """First and count of the points of each request."""
        cost = max(self._elem.size, self._elem.text + 12 * self.ndim + 4)
        most = max(1, min(MOST_POINTS, most, MOST_BYTES // cost))
        return [(first, min(most, len(points) - first)) for first in range(0, len(points), most)]

    def asstr(self, encoding=None, errors="strict"):
        """A view whose index gives `str` in place of `bytes`, as h5py's."""
        if not isinstance(self._elem, _String):
            raise TypeError("dset.asstr() can only be used on datasets with an HDF5 string datatype")
        return _AsStr(self, encoding or "utf-8", errors)

    def __array__(self, dtype=None, copy=None):
        found = self[...]
        return found if dtype is None else found.astype(dtype)


def _without_names(args):
    """The names of fields in an index, and the rest of it."""
    args = args if isinstance(args, tuple) else (args,)
    names = tuple(arg for arg in args if isinstance(arg, str))
    return names, tuple(arg for arg in args if not isinstance(arg, str))


def _point_list(points):
    points = points.tolist() if hasattr(points, "tolist") else list(points)
    return [point.tolist() if hasattr(point, "tolist") else point for point in points]


class _AsStr:
    def __init__(self, dataset, encoding, errors):
        self._dataset = dataset
        self._decode = operator.methodcaller("decode", encoding, errors)

    def __getitem__(self, args):
        found = self._dataset[args]
        if np is None or not isinstance(found, np.ndarray):
            return self._decoded(found)
        return np.array([self._decode(one) for one in found.flat], dtype=object).reshape(found.shape)

    def _decoded(self, found):
        return [self._decoded(one) for one in found] if isinstance(found, list) else self._decode(found)


_OBJECTS = {"groups": Group, "datasets": Dataset, "datatypes": Datatype}


# Folders and domains --------------------------------------------------------------------------------------------------


class AccessLists(Mapping):
    """The access list of a folder or a domain: who has which of `RIGHTS`.

    A name is a user's, a group's as "g:lab", or "default". An entry is the set of its rights, and is set whole. The
    service keeps each entry for good: one that is to give nothing is set to the empty set.
    """

    def __init__(self, node):
        self._node = node

    def __getitem__(self, name):
        return _rights(self._node._request("GET", "/acls/" + _quoted(name))["acl"])

    def __setitem__(self, name, rights):
        if isinstance(rights, (str, Mapping)) or not set(rights) <= set(RIGHTS):
            raise ValueError("rights are a set of %s, not %r" % (", ".join(RIGHTS), rights))
        self._node._request("PUT", "/acls/" + _quoted(name), {right: right in set(rights) for right in RIGHTS})

    def __iter__(self):
        return iter([acl["userName"] for acl in self._node._request("GET", "/acls")["acls"]])

    def __len__(self):
        return len(self._node._request("GET", "/acls")["acls"])


def _rights(acl):
    return {right for right in RIGHTS if acl[right]}


class _Node:
    """What a folder and a domain have in common: a path of the service, and the link to it."""

    def _begin(self, link, path, owns):
        self._link_to = link
        self._owns_link = owns
        self._is_open = True
        self.filename = path

    def _request(self, method, target, body=None, query=""):
        if not self._is_open:
            raise ValueError("%s is closed" % self.filename)
        return self._link_to.ask(method, target + "?domain=" + _quoted(self.filename) + query, body)

    @property
    def owner(self):
        """The user whose folder or domain it is."""
        return self._request("GET", "/")["owner"]

    @property
    def acls(self):
        """The access list, as a mapping of names to sets of rights."""
        return AccessLists(self)

    def flush(self):
        """Returns once all that was done until now, by anybody, is kept on the service's disk."""
        self._request("PUT", "/", query="&flush=1")

    def close(self):
        """Ends the link, and with it what was opened over it; what was opened from a folder leaves the folder's."""
        self._is_open = False
        if self._owns_link:
            self._link_to.close()

    def __bool__(self):
        return self._is_open

    def __enter__(self):
        return self

    def __exit__(self, *fault):
        self.close()


class Domain(_Node, Group):
    """A domain of the service, and its root group: what a file is in h5py.

    `url` is `http://HOST:PORT`, `path` the domain's, and `token` that of the caller, None for nobody. The `mode` says
    whether the domain is opened ("r+"), made ("x" or "w-"), or opened where it is there and made where not ("a"); what
    may be done in it is for its access list to say. `timeout` is in seconds, and should be more than 30: a service whose
    workers are all taken answers once a link has ended.
    """

    def __init__(self, url, path, token=None, mode="r+", timeout=60):
        self._open(_Link(url, token, timeout), path, mode, True)

    @classmethod
    def _over(cls, link, path, mode):
        """A domain over a link that is another's."""
        domain = cls.__new__(cls)
        domain._open(link, path, mode, False)
        return domain

    def _open(self, link, path, mode, owns):
        self._begin(link, path, owns)
        try:
            Group.__init__(self, self, self._root(mode), "/")
        except BaseException:
            self.close()
            raise

    def _root(self, mode):
        if mode not in ("r+", "x", "w-", "a"):
            raise ValueError("Invalid mode; must be one of r+, x, w-, a")
        if mode in ("r+", "a"):
            try:
                node = self._request("GET", "/")
                if node["class"] != "domain":
                    raise IsADirectoryError("%s is a folder" % self.filename)
                return node["root"]
            except NoDomain:
                if mode == "r+":
                    raise
        return self._request("PUT", "/", {})["root"]

    def delete(self):
        """Removes the domain from the service, with all its objects."""
        self._request("DELETE", "/")
        self.close()

    def __repr__(self):
        return "<HDF5 file %r of %s>" % (self.filename, self._link_to.url)


class Folder(_Node, Mapping):
    """A folder of the service: a mapping of names to folders and domains, in the order of names.

    `url`, `token` and `timeout` are as those of `Domain`. Folders and domains that are opened from one share its link.
    """

    def __init__(self, url, path="/", token=None, timeout=60):
        self._begin(_Link(url, token, timeout), path, True)

    def _path(self, name):
        if not name or "/" in name:
            raise ValueError("a name in a folder isn't empty and has no slash: %r" % name)
        return self.filename.rstrip("/") + "/" + name

    def _sub(self, name):
        folder = Folder.__new__(Folder)
        folder._begin(self._link_to, self._path(name), False)
        return folder

    def __getitem__(self, name):
        for child in self._request("GET", "/domains")["domains"]:
            if child["name"] == self._path(name):
                if child["class"] == "folder":
                    return self._sub(name)
                return Domain._over(self._link_to, self._path(name), "r+")
        raise KeyError(name)

    def create_folder(self, name):
        """Makes a folder in this one, and opens it."""
        folder = self._sub(name)
        folder._request("PUT", "/", {"folder": True})
        return folder

    def create_domain(self, name):
        """Makes a domain in this folder, and opens it."""
        return Domain._over(self._link_to, self._path(name), "x")

    def __delitem__(self, name):
        """Removes a domain with all its objects, or a folder without children."""
        self._link_to.ask("DELETE", "/?domain=" + _quoted(self._path(name)))

    def __iter__(self):
        return iter([child["name"].rpartition("/")[2] for child in self._request("GET", "/domains")["domains"]])

    def __len__(self):
        return len(self._request("GET", "/domains")["domains"])

    def __repr__(self):
        return "<Folder %r of %s>" % (self.filename, self._link_to.url)
