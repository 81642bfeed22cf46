"""Checks, reads, repairs and builds Windows registry hives (regf files) by the proved library of Kiweamotu.

>>> hive = Hive("sample")
>>> hive.check().keys
16
>>> [key.name for key in hive.subkeys]
['a', 'b', 'ControlSet001', 'd']
>>> hive.value(r"ControlSet001\\Services\\EventLog\\Application\\Print", "TypesSupported").decoded
7

What the library refuses raises Refused, with its number, place, key and words; what the system refuses, and what is longer than this file takes
(errno.EFBIG), raises OSError.

A name is a str: each of its characters is one of the hive's, and half of a pair stands alone as itself. So every name of every
hive can be given back. A path is names joined by backslashes, and "" is the root. No key's name holds a backslash.

The hive lies in memory: a file of up to 4 GiB is read whole, but for its holes, which take none, and bytes, a bytearray, a memoryview or an mmap are lent as
they are, without a copy. Nobody may change that memory while a call runs.

Threads need no lock. Each that calls needs 1 MiB of free stack, for the library goes down a hive's levels, up to 513, by calling itself; a stack that is too
short ends the process. Python's threads have 8 MiB, unless threading.stack_size or `ulimit -s` says less.

Ctrl-C is answered at once. In the main thread check, keys, deleted, export, build, repair, log_facts and Hive with a log wait for a thread of their own, unless
little memory is lent. After an interrupt that thread goes on until its call ends, or the process; what was lent to it must not change until then.

This file needs CPython 3.8 or later on x86-64 Linux, its standard library alone, and libkiweamotu.so.N, which is looked for in $KIWEAMOTU_LIBRARY (the file
itself), beside this file, in ../lib, and by the system.
"""
from __future__ import annotations

import contextlib
import ctypes
import datetime
import errno
import fcntl
import mmap
import operator
import os
import stat
import sys
import threading
from ctypes import c_size_t, c_uint32, c_uint64, c_void_p
from typing import Any, BinaryIO, Callable, Iterator, List, NamedTuple, Optional, Sequence, Tuple, TypeVar, Union, overload

__all__ = ["Hive", "Key", "Value", "Deleted", "Report", "Exported", "Repair", "Log", "Refused", "Unsound", "LeftOut", "Unbuilt", "build", "log_facts",
           "name_order", "repair", "settle"]

SECTOR = 512
ENDINGS = (".LOG1", ".LOG2", ".LOG")  # of a hive's logs
INTERFACES = (3,)  # those that this file knows; in 2 and 1 the states had other numbers
REFUSED, CLEAN, DONE, NO_MORE, THERE, OVER, OPENS, CLOSES, WRITTEN = range(9)
SEGMENTS = 3
SAME = 2  # between before, 1, and after, 3
NO_KEY = 0xFFFFFFFF
LEVELS = 512
WORDS_OF_A_WALK = 3 * (LEVELS + 1)  # three for each key that is open at once
OLD_KEY, OLD_VALUE = 1, 2
ROWS = 4096  # so many deleted records a call, each of four words
ROOM = 1 << 21  # for the frames of one run; no frame is longer than 1,081,356 bytes
PIECE = 1 << 20  # so many bytes are read or stored at once, so that a signal is answered between two
LONGEST = 1 << 32  # a longer file is not read. The longest hive has 2^31 bytes and may be padded, and the log of all its pages is longer still
MANY, ENOUGH = 100, 1 << 30  # an export stops past so many times the hive's length, or so many bytes if that is more
LONG = 1 << 16  # a call that was lent so many bytes has a thread of its own; of fewer a hostile check makes a second
STACK = 8 << 20  # of such a thread, as others have it: one that starts elsewhere at the same moment gets no less
TURN = 0.1  # seconds

# What a refusal's number means. PLACED are those whose place is an offset.
WORDS = {
    1: "the hive has fewer than 4096 bytes",
    2: 'the hive does not start with "regf"',
    3: "the checksum of the base block is wrong",
    4: "version, file type, format or clustering factor is not one that is read",
    5: "the size of the bins data is not possible",
    6: "the file ends before its bins do",
    7: "the two sequence numbers differ: give its log, or repair it",
    8: "the work map is too small",
    9: "the header of a bin is wrong",
    10: "the size of a cell is not possible",
    11: "an offset leads to no cell in use",
    12: "a record in a cell is wrong or does not fit its cell",
    13: "a key stands out of order, or its hash or hint is wrong",
    14: "a key does not fit its place in the tree",
    15: "a key lies deeper than level 512",
    16: "the path is not possible",
    17: "there is no such key",
    18: "the key has no such value",
    19: "the data lie in segments and have no view",
    20: "the output is too short for the data",
    21: "the start of the log is not sound",
    22: "the log is too short for its bitmap or its pages, or none of its entries counts",
    23: 'the log has no "DIRT" at byte 512',
    24: "the hive is shorter than the log says",
    25: "the time stamps or the numbers of hive and log differ",
    26: "the page is not marked in the log",
    27: "a logged page is not in the hive yet",
    28: "the security items of the keys do not fit together",
    29: "a key has two values of one name",
    30: "a frame is not laid out as one",
    31: "a value comes after a subkey of its key",
    32: "the stream is not one root key that opens and closes",
    33: "a subkey's name is not above that of the subkey before it",
    34: "a value has the name of one before it in its key",
    35: "a name is not possible",
    36: "a value has more than 1048576 bytes of data",
    37: "a key of the stream lies deeper than level 512",
    38: "a key has more than 65535 subkeys",
    39: "the hive would be longer than a hive can be",
}
PLACED = frozenset((9, 10, 11, 12, 13, 14, 15, 19, 28, 29))
SEQUENCES, ORDER, PARENT, LEVEL, SEGMENTED, SHORT = 7, 13, 14, 15, 19, 24
SPOTTED = range(30, 39)  # those that have a byte of the stream

# O:BAG:SYD:(A;CI;KA;;;SY)(A;CI;KA;;;BA)(A;CI;KR;;;BU), self-relative: the descriptor of a built hive where none is given.
DESCRIPTOR = bytes.fromhex(
    "01000480600000007000000000000000140000000200 4c00 03000000 00021400 3f000f00 010100000000000512000000 00021800 3f000f00"
    "01020000000000052000000020020000 00021800 19000200 01020000000000052000000021020000 01020000000000052000000020020000"
    "010100000000000512000000")

# The registry's names of the types, from 0 on.
TYPES = (
    "REG_NONE", "REG_SZ", "REG_EXPAND_SZ", "REG_BINARY", "REG_DWORD", "REG_DWORD_BIG_ENDIAN", "REG_LINK", "REG_MULTI_SZ",
    "REG_RESOURCE_LIST", "REG_FULL_RESOURCE_DESCRIPTOR", "REG_RESOURCE_REQUIREMENTS_LIST", "REG_QWORD",
)
SZ, EXPAND_SZ, DWORD, DWORD_BIG_ENDIAN, LINK, MULTI_SZ, QWORD = 1, 2, 4, 5, 6, 7, 11

Source = Union[str, "os.PathLike[str]", bytes, bytearray, memoryview, Any]
Sources = Union[Source, Sequence[Source]]
Decoded = Union[str, int, List[str], bytes]
Owned = Union[bytearray, mmap.mmap]
Done = TypeVar("Done")


# ---- the structs and calls of kiweamotu.h

class _Answer(ctypes.Structure):
    _fields_ = [("number", c_uint32), ("place", c_uint32), ("key", c_uint32), ("value", c_uint32)]


class _Report(ctypes.Structure):
    _fields_ = [("answer", _Answer), ("bins", c_uint64), ("keys", c_uint64), ("values", c_uint64), ("used", c_uint64), ("free", c_uint64)]


class _Value(ctypes.Structure):
    _fields_ = [("answer", _Answer), ("kind", c_uint32), ("form", c_uint32), ("at", c_uint64), ("length", c_uint64)]


class _Copy(ctypes.Structure):
    _fields_ = [("answer", _Answer), ("length", c_uint64)]


class _Member(ctypes.Structure):
    _fields_ = [("answer", _Answer), ("state", c_uint64), ("name", c_uint64), ("length", c_uint64), ("narrow", c_uint64)]


class _Key(ctypes.Structure):
    _fields_ = [("answer", _Answer), ("written", c_uint64), ("parent", c_uint64), ("subkeys", c_uint64), ("values", c_uint64),
                ("name", c_uint64), ("length", c_uint64), ("narrow", c_uint64)]


class _Piece(ctypes.Structure):
    _fields_ = [("answer", _Answer), ("at", c_uint64), ("length", c_uint64)]


class _Walk(ctypes.Structure):
    _fields_ = [("answer", _Answer), ("state", c_uint64), ("depth", c_uint64), ("name", c_uint64), ("length", c_uint64), ("narrow", c_uint64)]


class _Export(ctypes.Structure):
    _fields_ = [("answer", _Answer), ("state", c_uint64), ("depth", c_uint64), ("due", c_uint64), ("frames", c_uint64), ("bytes", c_uint64)]


class _Built(ctypes.Structure):
    _fields_ = [("answer", _Answer), ("at", c_uint64), ("length", c_uint64)]


class _Rows(ctypes.Structure):
    _fields_ = [("answer", _Answer), ("state", c_uint64), ("rows", c_uint64)]


class _Recovery(ctypes.Structure):
    _fields_ = [("answer", _Answer), ("state", c_uint64), ("pages", c_uint64)]


class _Log(ctypes.Structure):
    _fields_ = [("answer", _Answer), ("entries", c_uint64), ("first", c_uint64), ("last", c_uint64), ("end", c_uint64), ("bins", c_uint64)]


_MEMORY = [c_void_p, c_size_t]  # a pointer, and how many elements it has
_CALLS = {
    "hive_abi": (c_uint32, []),
    "hive_check": (_Report, _MEMORY * 2),
    "hive_find_key": (_Answer, _MEMORY * 2),
    "hive_value_info": (_Value, _MEMORY * 3),
    "hive_value_view": (_Value, _MEMORY * 3),
    "hive_value_copy": (_Copy, _MEMORY * 4),
    "hive_quick_key": (_Answer, _MEMORY * 2),
    "hive_quick_info": (_Value, _MEMORY * 3),
    "hive_quick_view": (_Value, _MEMORY * 3),
    "hive_quick_copy": (_Copy, _MEMORY * 4),
    "hive_child_of": (_Answer, _MEMORY + [c_uint32] + _MEMORY),
    "hive_quick_child_of": (_Answer, _MEMORY + [c_uint32] + _MEMORY),
    "hive_value_of": (_Answer, _MEMORY + [c_uint32] + _MEMORY),
    "hive_nth_subkey": (_Member, _MEMORY + [c_uint32, c_size_t]),
    "hive_nth_value": (_Member, _MEMORY + [c_uint32, c_size_t]),
    "hive_value_at": (_Value, _MEMORY + [c_uint32]),
    "hive_copy_at": (_Copy, _MEMORY + [c_uint32] + _MEMORY),
    "hive_key_at": (_Key, _MEMORY + [c_uint32]),
    "hive_key_class": (_Piece, _MEMORY + [c_uint32]),
    "hive_key_security": (_Piece, _MEMORY + [c_uint32]),
    "hive_walk_step": (_Walk, _MEMORY * 2 + [c_size_t]),
    "hive_export_begin": (_Export, _MEMORY * 3),
    "hive_export_run": (_Export, _MEMORY * 2 + [c_size_t] * 2 + _MEMORY),
    "hive_build": (_Built, _MEMORY * 3),
    "hive_build_size": (_Built, _MEMORY + [c_size_t]),
    "hive_remnants": (_Rows, _MEMORY + [c_size_t] + _MEMORY),
    "hive_recover_start": (_Recovery, _MEMORY * 2),
    "hive_recover_all": (_Recovery, _MEMORY * 2),
    "hive_recover_close": (_Recovery, _MEMORY * 2),
    "hive_recover_mark_pages": (_Recovery, _MEMORY * 2),
    "hive_recover_log": (_Log, _MEMORY),
    "hive_settle": (_Recovery, _MEMORY),
    "hive_name_order": (c_uint32, _MEMORY * 2),
}


def _candidates() -> Iterator[str]:
    """The files to try, the system's own search last."""
    if "KIWEAMOTU_LIBRARY" in os.environ:
        yield os.environ["KIWEAMOTU_LIBRARY"]
        return
    here = os.path.dirname(os.path.abspath(__file__))
    for folder in (here, os.path.join(here, os.pardir, "lib")):
        for number in INTERFACES:
            path = os.path.join(folder, "libkiweamotu.so.%d" % number)
            if os.path.exists(path):
                yield path
    for number in INTERFACES:
        yield "libkiweamotu.so.%d" % number


def _load() -> ctypes.CDLL:
    trouble: List[str] = []
    for path in _candidates():
        try:
            library = ctypes.CDLL(path)
        except OSError as error:
            trouble.append(str(error))
            continue
        missing = [name for name in _CALLS if not hasattr(library, name)]
        if missing:
            trouble.append("%s is older than this file: it has no %s" % (path, ", ".join(missing)))
            continue
        for name, (result, arguments) in _CALLS.items():
            call = getattr(library, name)
            call.restype, call.argtypes = result, arguments
        if library.hive_abi() in INTERFACES:
            return library
        trouble.append("%s has interface %d, and this file knows %s" % (path, library.hive_abi(), INTERFACES))
    raise ImportError("libkiweamotu cannot be loaded: " + "; ".join(trouble))


_library = _load()


# ---- memory

class _View(ctypes.Structure):
    """Py_buffer, as Python's own header has it."""
    _fields_ = [("buf", c_void_p), ("obj", c_void_p), ("len", ctypes.c_ssize_t), ("itemsize", ctypes.c_ssize_t), ("readonly", ctypes.c_int),
                ("ndim", ctypes.c_int), ("format", c_void_p), ("shape", c_void_p), ("strides", c_void_p), ("suboffsets", c_void_p), ("internal", c_void_p)]


_borrow, _give_back = ctypes.pythonapi.PyObject_GetBuffer, ctypes.pythonapi.PyBuffer_Release
_borrow.argtypes, _borrow.restype = [ctypes.py_object, ctypes.POINTER(_View), ctypes.c_int], ctypes.c_int
_give_back.argtypes, _give_back.restype = [ctypes.POINTER(_View)], None


class _Lent:
    """The memory of an object, for as long as this one lives; no byte is copied."""

    def __init__(self, owner: Any, writable: bool = False) -> None:
        self._held = False
        self._view = _View()
        _borrow(owner, ctypes.byref(self._view), 1 if writable else 0)
        self._held = True
        self.memory: Tuple[Optional[int], int] = (self._view.buf, self._view.len)

    def __del__(self, give_back: Any = _give_back, byref: Any = ctypes.byref) -> None:
        if self._held:
            give_back(byref(self._view))


def _zeros(length: int) -> Owned:
    """Many of them take no memory until they are written; a few are there sooner otherwise."""
    return bytearray(length) if length < PIECE else mmap.mmap(-1, length, flags=mmap.MAP_PRIVATE | mmap.MAP_ANONYMOUS)


def _named(text: str) -> str:
    if not isinstance(text, str):
        raise TypeError("a name or a path is a str, not %s" % type(text).__name__)
    return text


def _offset(at: int) -> int:
    """ctypes would take the last 32 bits of any number."""
    if not 0 <= operator.index(at) <= 0xFFFFFFFF:
        raise ValueError("an offset is a number from 0 to 4294967295, not %d" % at)
    return at


def _units(text: str) -> Tuple[Any, int]:
    """A name or a path as UTF-16 units; half of a pair stands for itself."""
    data = _named(text).encode("utf-16-le", "surrogatepass")
    return (ctypes.c_uint16 * (len(data) // 2)).from_buffer_copy(data), len(data) // 2


def _text(data: bytes) -> str:
    return data.decode("utf-16-le", "surrogatepass")


# ---- calls that may be long

def _start_thread(thread: threading.Thread) -> None:
    """With a stack that is long enough. The length is set for the whole program, and set back."""
    before = threading.stack_size()
    try:
        threading.stack_size(max(before, STACK))
        thread.start()
    finally:
        threading.stack_size(before)


def _waited(call: Callable[[], Done]) -> Done:
    """What the call answers, in a thread of its own. Meanwhile this one answers signals; where that raises, the call goes on to its end, which nobody hears."""
    found: List[Any] = []
    over = threading.Lock()

    def work() -> None:
        try:
            found.append(call())
        except BaseException as error:
            found.append(error)
        over.release()

    over.acquire()
    try:
        _start_thread(threading.Thread(target=work, name="kiweamotu", daemon=True))
    except RuntimeError:  # the system has no thread to give
        return call()
    while not over.acquire(timeout=TURN):  # a signal that another thread takes wakes nobody here
        pass
    if isinstance(found[0], BaseException):
        raise found[0]
    return found[0]


def _signals_come() -> bool:
    """Python answers signals in its main thread alone, and starts no thread when it ends."""
    return threading.current_thread() is threading.main_thread() and not sys.is_finalizing()


def _ask(call: Callable[..., Any], *parts: Any) -> Any:
    """Asks the library. Memory that is lent goes in as a pointer and a length, and is held until the call has ended, whoever waits for it."""
    words = [word for part in parts for word in (part.memory if isinstance(part, _Lent) else (part,))]
    if sum(part.memory[1] for part in parts if isinstance(part, _Lent)) < LONG or not _signals_come():
        return call(*words)
    return _waited(lambda held=parts: call(*words))


# ---- files

def _open(path: Union[str, "os.PathLike[str]"], flags: int) -> int:
    """A descriptor from 3 on: what a program prints that has closed one of the first three must not land in a hive."""
    fd = os.open(path, flags | os.O_CLOEXEC, 0o600)
    if fd > 2:
        return fd
    try:
        return fcntl.fcntl(fd, fcntl.F_DUPFD_CLOEXEC, 3)
    finally:
        os.close(fd)


def _data_from(fd: int, at: int, length: int) -> int:
    """Where the next bytes of a file start that are no hole; here, where that is not known."""
    try:
        return min(os.lseek(fd, at, os.SEEK_DATA), length)
    except OSError as error:
        return length if error.errno == errno.ENXIO else at  # ENXIO: a hole to the end


def _data_to(fd: int, at: int, length: int) -> int:
    try:
        to = os.lseek(fd, at, os.SEEK_HOLE)
    except OSError:
        return length
    return to if at < to < length else length


def _read_part(fd: int, room: memoryview, at: int, end: int) -> None:
    while at < end:
        n = os.preadv(fd, [room[at:min(end, at + PIECE)]], at)
        if n == 0:
            raise OSError("the file became shorter while it was read")
        at += n


def _read_known(fd: int, length: int) -> Owned:
    """So much and no more. A hole is not read. The file is not mapped: what is lent to the library must be bytes that nobody changes."""
    data, at = _zeros(length), 0
    with memoryview(data) as room:
        while at < length:
            start = _data_from(fd, at, length)
            at = _data_to(fd, start, length)
            _read_part(fd, room, start, at)
    if os.lseek(fd, 0, os.SEEK_END) < length:
        raise OSError("the file became shorter while it was read")
    return data


def _too_long(name: str) -> OSError:
    return OSError(errno.EFBIG, "it has more than %d bytes, and no hive, log or stream is so long" % LONGEST, name)


def _read_stream(fd: int, name: str) -> bytearray:
    data = bytearray()
    while len(data) <= LONGEST:
        more = os.read(fd, PIECE)
        if not more:
            return data
        data += more
    raise _too_long(name)


def _read(fd: int, name: str) -> Owned:
    """All that an open file or pipe holds. What has no length, or says 0, is read to its end: pipes, and files that are made when they are read."""
    os.read(fd, 0)  # a directory may have a length, and is not read
    try:
        length = os.lseek(fd, 0, os.SEEK_END)
    except OSError:
        length = 0
    if length > LONGEST:
        raise _too_long(name)
    return _read_known(fd, length) if length > 0 else _read_stream(fd, name)


def _contents(source: Source) -> Any:
    """The bytes of a file, or the memory that was given."""
    if not isinstance(source, (str, os.PathLike)):
        return source
    fd = _open(source, os.O_RDONLY)
    try:
        return _read(fd, os.fsdecode(source))
    finally:
        os.close(fd)


# ---- names

def name_order(a: str, b: str) -> int:
    """-1, 0 or 1: whether the name a comes before b, is the same, or comes after, as the check and the lookups compare names.

    >>> name_order("K\xe9", "k\xc9"), name_order("a", "ab"), name_order("_", "Z")
    (0, -1, 1)
    """
    return _library.hive_name_order(*_units(a), *_units(b)) - SAME


# ---- answers

class Refused(Exception):
    """What the library refuses. number: from 1 on, as `hive explain` tells. place: an offset in the bins data, byte 4096 + place of the file,
    or None. key: the offset of the key under examination, or None. words: what the number means.

    >>> try:
    ...     Hive("no-root").check()
    ... except Refused as refused:
    ...     print(refused.number, refused.place, refused)
    12 32 refused 12 at 32: a record in a cell is wrong or does not fit its cell
    """

    def __init__(self, number: int, place: Optional[int], key: Optional[int], words: str) -> None:
        super().__init__(number, place, key, words)
        self.number, self.place, self.key, self.words = number, place, key, words

    def __str__(self) -> str:
        where = "" if self.place is None else " at %d" % self.place
        return "refused %d%s: %s" % (self.number, where, self.words)


class Unsound(Refused):
    """What the check would refuse after a repair; nothing was written."""


class LeftOut(Exception):
    """A log that was named fits, but another beside it must not be left out: nothing was read or written. log, other: their names (log is None where memory was
    given). logs: the names to give, in a list; or None where both do not fit together, with the `number` of that refusal. `only_this_log=True` does it all the same."""

    def __init__(self, log: Optional[str], other: str, logs: Optional[List[Optional[str]]], number: Optional[int]) -> None:
        super().__init__(log, other, logs, number)
        self.log, self.other, self.logs, self.number = log, other, logs, number

    def __str__(self) -> str:
        if self.logs is None:
            return "%s follows the log that was given, and the two do not fit the hive together (refused %d): only_this_log=True takes that log alone" % (self.other, self.number or 0)
        return "%s lies beside the hive or the log that was given, which alone would leave out what it holds: give %r" % (self.other, self.logs)


class Unbuilt(Refused):
    """A stream that no hive is built of. at: the byte of the stream where the frame at fault starts, its end where a key stays open, or None where no
    frame is at fault. It is no place in a hive: place and key are None.

    >>> try:
    ...     build(b"")
    ... except Unbuilt as unbuilt:
    ...     print(unbuilt.number, unbuilt.at, unbuilt)
    32 0 refused 32 at byte 0 of the stream: the stream is not one root key that opens and closes
    """

    def __init__(self, number: int, place: Optional[int], key: Optional[int], words: str, at: Optional[int] = None) -> None:
        super().__init__(number, place, key, words)
        self.at = at

    def __str__(self) -> str:
        where = "" if self.at is None else " at byte %d of the stream" % self.at
        return "refused %d%s: %s" % (self.number, where, self.words)


def _refusal(number: int, place: int, key: int) -> Refused:
    return Refused(number, place if number in PLACED else None, None if key == NO_KEY else key, WORDS.get(number, "an unknown refusal"))


def _allow(answer: _Answer) -> None:
    if answer.number != 0:
        raise _refusal(answer.number, answer.place, answer.key)


class Report(NamedTuple):
    """What the check counts: bins; keys reached from the root; values of their lists; bytes of cells in use and of free cells."""
    bins: int
    keys: int
    values: int
    used: int
    free: int


class Deleted(NamedTuple):
    """A record that deletion left in a free cell. kind: "key" or "value". offset: where its cell once started, in the bins data. name: "" is the
    unnamed value. length: how many bytes the name takes as it is stored. Nothing else of the record was judged."""
    kind: str
    offset: int
    name: str
    length: int


class Exported(NamedTuple):
    """What an export wrote: how many frames, and how many bytes they have."""
    frames: int
    bytes: int


class Repair(NamedTuple):
    """What a repair did. clean: nothing was to be done. pages: how many pages the log holds. written: whether the file was repaired.
    report: what the check says of the repaired hive, or None where it refuses it, with `refused`. lengthened: how long the file became, or would,
    or None. logs: of those that were given, or that lay beside it, which were used, by their positions. backup: where the copy of what it was is kept, or None."""
    clean: bool
    pages: int
    written: bool
    report: Optional[Report]
    refused: Optional[Refused]
    lengthened: Optional[int] = None
    logs: Tuple[int, ...] = (0,)
    backup: Optional[str] = None


class Log(NamedTuple):
    """What a log says of itself. entries: how many count in a log of Windows 8.1 and later; 0 for an older format. first, last: its number, and that of the
    last entry that counts. end: where that entry ends (512 where there are none). bins: how long the bins data of the hive have to be."""
    entries: int
    first: int
    last: int
    end: int
    bins: int


# ---- the hive

class Value:
    """A value of a key. name: "" is the unnamed one. type: its number; type_name: REG_SZ and the like, or the number in hexadecimal.

    >>> value = Hive("sample").value(r"ControlSet001\\Services\\EventLog\\Application\\Print", "Several")
    >>> value.type_name, len(value), value.decoded
    ('REG_MULTI_SZ', 18, ['one', 'two'])
    """

    def __init__(self, hive: "Hive", name: str, found: _Value, unseen: Callable[[], _Answer], copy: Callable[[Any], _Copy]) -> None:
        self._hive, self._at, self._length, self._segments = hive, found.at, found.length, found.form == SEGMENTS
        self._unseen, self._copy = unseen, copy  # for data in segments: why they have no view, and the call that joins them
        self.name: str = name
        self.type: int = found.kind

    def __len__(self) -> int:
        return self._length

    def __repr__(self) -> str:
        return "<Value %r %s %d bytes>" % (self.name, self.type_name, self._length)

    @property
    def type_name(self) -> str:
        return TYPES[self.type] if self.type < len(TYPES) else hex(self.type)

    @property
    def view(self) -> memoryview:
        """The data where they lie, read-only, without a copy. Data in segments do not lie in one piece: Refused with 19.

        >>> bytes(Hive("sample").value(r"ControlSet001\\Services\\EventLog\\Application\\Print", "Big").view)
        b'\\x00\\x00\\x01\\x02'
        """
        if self._segments:
            _allow(self._unseen())
        return self._hive._view[self._at:self._at + self._length]

    @property
    def data(self) -> bytes:
        """A copy of the data, segments joined."""
        if not self._segments:
            return bytes(self.view)
        out = bytearray(self._length)
        lent = _Lent(out, writable=True)
        _allow(self._copy(lent.memory).answer)
        return bytes(out)

    @property
    def decoded(self) -> Decoded:
        """The data as their type says: str (REG_SZ, REG_EXPAND_SZ, REG_LINK, without the zeros at the end), int (REG_DWORD and its kin), a list of
        str (REG_MULTI_SZ). Other data, and data whose length does not fit their type, are bytes."""
        return _decode(self.type, self.data)


def _decode(kind: int, data: bytes) -> Decoded:
    if kind in (DWORD, DWORD_BIG_ENDIAN) and len(data) == 4 or kind == QWORD and len(data) == 8:
        return int.from_bytes(data, "big" if kind == DWORD_BIG_ENDIAN else "little")
    if kind not in (SZ, EXPAND_SZ, LINK, MULTI_SZ) or len(data) % 2 != 0:
        return data
    text = _text(data)
    if kind != MULTI_SZ:
        return text.rstrip("\0")
    if text == "\0" or text.endswith("\0\0"):  # one more zero ends the list and is no string
        text = text[:-1]
    return text[:-1].split("\0") if text.endswith("\0") else text.split("\0") if text else []


class Key:
    """A key. name and path: as they are stored (the path of a key that was asked for: as it was given). offset: of its record in the bins data.
    stamp: when it was last written, in steps of 100 ns from the start of 1601 on. parent: its parent's offset. subkey_count, value_count: as
    its record says.

    >>> key = Hive("sample").key(r"controlset001\\services")
    >>> key.name, key.subkey_count, [k.path for k in key.subkeys]
    ('Services', 1, ['controlset001\\\\services\\\\EventLog'])
    """

    def __init__(self, hive: "Hive", offset: int, path: str) -> None:
        facts = _library.hive_key_at(*hive._memory, _offset(offset))
        _allow(facts.answer)
        self._hive = hive
        self.offset, self.path = offset, path
        self.name: str = hive._name(facts)
        self.stamp: int = facts.written
        self.parent: int = facts.parent
        self.subkey_count: int = facts.subkeys
        self.value_count: int = facts.values

    def __repr__(self) -> str:
        return "<Key %r at %d>" % (self.path, self.offset)

    @property
    def written(self) -> Optional[datetime.datetime]:
        """The stamp as a time in UTC, to the microsecond; None past the year 9999, where Python has none.

        >>> Hive("sources").key(r"ControlSet001\\Services\\EventLog\\Application\\Bin").written.isoformat()
        '2024-02-29T23:59:59.123456+00:00'
        """
        try:
            return datetime.datetime(1601, 1, 1, tzinfo=datetime.timezone.utc) + datetime.timedelta(microseconds=self.stamp // 10)
        except OverflowError:
            return None

    @property
    def class_name(self) -> Optional[bytes]:
        """Its class name as it is stored, mostly UTF-16LE; None where it has none. The check reads no class names, so this may be Refused in a sound hive."""
        return self._piece(_library.hive_key_class) or None

    @property
    def security(self) -> bytes:
        """Its security descriptor, self-relative. In a hive that the check accepts every key has one, and keys may share it."""
        return self._piece(_library.hive_key_security)

    def _piece(self, call: Callable[..., _Piece]) -> bytes:
        piece = call(*self._hive._memory, self.offset)
        _allow(piece.answer)
        return bytes(self._hive._view[piece.at:piece.at + piece.length])

    @property
    def subkeys(self) -> Iterator["Key"]:
        """The keys below it, in the order of its lists."""
        for member in self._hive._members(_library.hive_nth_subkey, self.offset):
            yield Key(self._hive, member.answer.value, self._below(self._hive._name(member)))

    @property
    def values(self) -> Iterator[Value]:
        """Its values, in the order of its list; two of one name both come."""
        for member in self._hive._members(_library.hive_nth_value, self.offset):
            yield self._hive._value_at(member.answer.value, self._hive._name(member))

    def _below(self, name: str) -> str:
        return self.path + "\\" + _named(name) if self.path else _named(name)

    def key(self, path: str, *, quick: bool = False) -> "Key":
        """A key below this one, by the rest of its path. `quick`: see Hive.key."""
        return self._hive.key(self._below(path) if path != "" else self.path, quick=quick)

    def child(self, name: str, *, quick: bool = False) -> "Key":
        """The key of that name directly below this one, by this key's offset: no path is followed again. The name is one part of a path, so an empty
        one, one over 255 units and one with a backslash are Refused with 16. `quick`: see Hive.key.

        >>> Hive("sample").key("a").child("K7").path
        'a\\\\K7'
        """
        find = _library.hive_quick_child_of if quick else _library.hive_child_of
        answer = find(*self._hive._memory, self.offset, *_units(name))
        _allow(answer)
        return Key(self._hive, answer.value, self._below(name))

    def value(self, name: str = "", *, quick: bool = False) -> Value:
        """Its first value of that name, by this key's offset: no path is followed, so that `quick` makes no difference."""
        answer = _library.hive_value_of(*self._hive._memory, self.offset, *_units(name))
        _allow(answer)
        return self._hive._value_at(answer.value, name, self.offset)

    def walk(self) -> Iterator["Key"]:
        """This key and all below it: each key before those below it, in the order of the lists. It ends on any bytes: a key whose parent is another,
        a key that is listed twice, and a level past 512 are Refused with 14, 13 and 15, as the check would.

        >>> [key.name for key in Hive("sample").key("a").walk()]
        ['a', 'k1', 'k2', 'k3', 'k4', 'k5', 'k6', 'k7']
        """
        seen, root = {self.offset}, self._hive.root.offset
        yield self
        stack: List[Tuple[int, Iterator[Key]]] = [(self.offset, self.subkeys)]
        while stack:
            parent, rest = stack[-1]
            key = next(rest, None)
            if key is None:
                stack.pop()
                continue
            number = PARENT if key.parent != parent or key.offset == root else ORDER if key.offset in seen else LEVEL if len(stack) > LEVELS else 0
            if number != 0:
                raise _refusal(number, key.offset, key.offset)
            seen.add(key.offset)
            yield key
            stack.append((key.offset, key.subkeys))


class Hive:
    """A hive in memory: the file of that name, or bytes that are lent. With a log, also a name or bytes, or a list of two, it is read as its log would
    repair it; nothing is written, not even to the bytes that were lent. `logs`: with the logs that lie beside the file, NAME.LOG1 and NAME.LOG2, or
    NAME.LOG, whatever the case of their letters. `grow`: where the log wants a longer hive, it is lengthened with zeros. Where one log is named, and another
    beside it would be left out, LeftOut is raised, unless `only_this_log`. `as_is`: without a log, a dirty hive is read as it is, with what its log held
    missing; then `dirty` is True, and nothing is written either. Of any other hive `as_is` changes nothing.

    >>> Hive("spoilt").check()
    Traceback (most recent call last):
        ...
    kiweamotu.Refused: refused 7: the two sequence numbers differ: give its log, or repair it
    >>> Hive("spoilt", log="log").check() == Hive("sample").check()
    True
    >>> Hive("dirty", as_is=True).dirty, Hive("sample", as_is=True).dirty
    (True, False)
    """

    def __init__(self, source: Source, log: Optional[Sources] = None, *, logs: bool = False, only_this_log: bool = False, grow: bool = False,
                 as_is: bool = False) -> None:
        if as_is and (log is not None or logs):
            raise ValueError("as_is reads the hive without its log, and log and logs with it: give one of them")
        owner, path = _contents(source), _path_of(source)
        if log is not None or logs:
            owner = owner if path is not None else bytearray(owner)
            owner = _recover(_choose(owner, path, log, logs, grow, only_this_log))
        self.dirty = as_is and _is_dirty(owner)
        if self.dirty:
            owner = owner if path is not None else bytearray(owner)
            settle(owner)
        self._lent = _Lent(owner)
        self._memory = self._lent.memory
        self._view = memoryview(owner).cast("B").toreadonly()

    def _name(self, member: Any) -> str:
        return self._name_at(member.name, member.length, member.narrow)

    def _name_at(self, at: int, length: int, narrow: int) -> str:
        raw = bytes(self._view[at:at + length])
        return raw.decode("latin-1") if narrow == 1 else _text(raw[:len(raw) // 2 * 2])

    def _members(self, nth: Callable[..., _Member], key: int) -> Iterator[_Member]:
        n = 0
        while True:
            member = nth(*self._memory, _offset(key), n)
            _allow(member.answer)
            if member.state != THERE:
                return
            yield member
            n += 1

    def _value_at(self, offset: int, name: str, key: int = NO_KEY) -> Value:
        """The value at an offset; a refusal is told in the examination of that key."""
        found = _library.hive_value_at(*self._memory, _offset(offset))
        found.answer.key = key
        _allow(found.answer)
        return Value(self, name, found, lambda: _Answer(SEGMENTED, offset, key, 0),
                     lambda out: _library.hive_copy_at(*self._memory, offset, *out))

    def check(self) -> Report:
        """Checks the hive wholly. What it answers is proved to be exact: a Report where the hive is clean and well formed, else Refused. Of one that is
        `dirty`, and so is read as it is, a Report says that what is there is well formed, and not that the file is.

        >>> Hive("minimal").check()
        Report(bins=1, keys=1, values=0, used=112, free=3952)
        """
        work = bytearray(self._memory[1] // 64)  # never too small: bins that end inside the file are shorter than it
        lent = _Lent(work, writable=True)
        r = _ask(_library.hive_check, self._lent, lent)
        _allow(r.answer)
        return Report(r.bins, r.keys, r.values, r.used, r.free)

    def key(self, path: str = "", *, quick: bool = False) -> Key:
        """The key of that path. Letters a to z, and the accented letters of Western Europe, are the same in either case.

        `quick`: by halving, which reads some 30 keys for each part of the path and not all siblings. In a hive that the check accepts the answer is
        the same. In another it may miss a key or pass by a fault; it never answers with a key of another name.

        >>> Hive("sample").key("a", quick=True).offset == Hive("sample").key("A").offset
        True
        >>> Hive("sample").key("nobody")
        Traceback (most recent call last):
            ...
        kiweamotu.Refused: refused 17: there is no such key
        """
        find = _library.hive_quick_key if quick else _library.hive_find_key
        answer = find(*self._memory, *_units(path))
        _allow(answer)
        return Key(self, answer.value, path)

    def value(self, path: str, name: str = "", *, quick: bool = False) -> Value:
        """The first value of that name of the key of that path; "" is the unnamed one. `quick`: the key is found as Hive.key does then."""
        key, called = _units(path), _units(name)
        if quick:
            info, view, copy = _library.hive_quick_info, _library.hive_quick_view, _library.hive_quick_copy
        else:
            info, view, copy = _library.hive_value_info, _library.hive_value_view, _library.hive_value_copy
        found = info(*self._memory, *key, *called)
        _allow(found.answer)
        return Value(self, name, found, lambda: view(*self._memory, *key, *called).answer, lambda out: copy(*self._memory, *key, *called, *out))

    def deleted(self) -> Iterator[Deleted]:
        """The keys and values that still lie in free cells, in the order of their offsets. The bins and cells must be sound, or it is Refused; the
        tree may be broken.

        >>> next(Hive("left").deleted())
        Deleted(kind='key', offset=120, name='gone', length=4)
        """
        rows, start = (c_uint32 * (4 * ROWS))(), 0
        while True:
            found = _ask(_library.hive_remnants, self._lent, start, rows, 4 * ROWS)
            _allow(found.answer)
            for i in range(0, 4 * found.rows, 4):
                offset, kind, length, narrow = rows[i:i + 4]
                at = 4096 + offset + (80 if kind == OLD_KEY else 24)
                yield Deleted("key" if kind == OLD_KEY else "value", offset, self._name_at(at, length, narrow), length)
            if found.rows < ROWS:
                return
            start = rows[4 * ROWS - 4] + 1

    def keys(self, path: str = "") -> Iterator[Key]:
        """Every key, or the key of that path and every key below it: each before those below it, in the order of the lists, and each once. The hive is
        checked first, and Refused where the check refuses it. That no key of the rest comes twice, and that none is missing, is proved.

        >>> [key.path for key in Hive("sample").keys("a")]
        ['a', 'a\\\\k1', 'a\\\\k2', 'a\\\\k3', 'a\\\\k4', 'a\\\\k5', 'a\\\\k6', 'a\\\\k7']
        """
        self.check()
        way, words = [self.key(path)], (c_uint32 * WORDS_OF_A_WALK)()
        words[0] = way[0].offset
        yield way[0]
        while way:  # the keys that are open
            step = _library.hive_walk_step(*self._memory, words, WORDS_OF_A_WALK, len(way))
            _allow(step.answer)
            if step.state == OPENS:
                way.append(Key(self, step.answer.value, way[-1]._below(self._name(step))))
                yield way[-1]
            else:
                way.pop()

    @overload
    def export(self, *, any_length: bool = False) -> bytes: ...

    @overload
    def export(self, out: Union[str, "os.PathLike[str]", BinaryIO], *, any_length: bool = False) -> Exported: ...

    def export(self, out: Any = None, *, any_length: bool = False) -> Union[bytes, Exported]:
        """All keys with their stamps, values, types and data, as one stream of frames (docs/FRAMES.md); security, class names, flags and layout are not
        in it. `out` names a new file, or is a file that takes bytes; without it the stream is given back. The hive is checked first, and Refused where
        the check refuses it: then nothing is written. That the stream is the tree's, whole and in order, is proved.

        Keys may share lists and values their data, so a small hive may have a stream of any length. Past 1 GiB, or a hundred times the hive's length if
        that is more, it is an OSError (EFBIG), and no new file is left; what an open file has taken stays there. `any_length` goes on.

        >>> Hive("minimal").export().hex(" ", 2)
        '0a00 0000 1000 0000 0000 0000 0000 5200 0000 0000 1200'
        """
        if not (out is None or isinstance(out, (str, os.PathLike)) or hasattr(out, "write")):
            raise TypeError("out is the name of a new file, or a file that takes bytes, not %s" % type(out).__name__)
        runs = _up_to(sys.maxsize if any_length else max(MANY * self._memory[1], ENOUGH), self._export_runs())
        if out is None:
            return b"".join(bytes(data) for _, data in runs)
        if isinstance(out, (str, os.PathLike)):
            return _new_file(os.fsdecode(out), lambda to: _put_runs(runs, lambda data: os.write(to, data)))
        return _put_runs(runs, out.write)

    def _export_runs(self) -> Iterator[Tuple[int, memoryview]]:
        """Checks, and gives the runs: how many frames, and their bytes, which stand until the next are asked for."""
        work, words = bytearray(self._memory[1] // 64), (c_uint32 * WORDS_OF_A_WALK)()
        lent = _Lent(work, writable=True)
        begun = _ask(_library.hive_export_begin, self._lent, lent, words, WORDS_OF_A_WALK)
        _allow(begun.answer)
        return self._runs_from(begun, words)

    def _runs_from(self, at: _Export, words: Any) -> Iterator[Tuple[int, memoryview]]:
        room = bytearray(ROOM)
        lent = _Lent(room, writable=True)
        while True:
            at = _library.hive_export_run(*self._memory, words, WORDS_OF_A_WALK, at.depth, at.due, *lent.memory)
            _allow(at.answer)
            if at.state == NO_MORE:
                return
            yield at.frames, memoryview(room)[:at.bytes]

    @property
    def root(self) -> Key:
        return self.key("")

    @property
    def subkeys(self) -> Iterator[Key]:
        """Those of the root."""
        return self.root.subkeys

    @property
    def values(self) -> Iterator[Value]:
        """Those of the root."""
        return self.root.values

    def walk(self) -> Iterator[Key]:
        """Every key, each before those below it: see Key.walk.

        >>> sum(1 for key in Hive("sample").walk()) == Hive("sample").check().keys
        True
        """
        return self.root.walk()


# ---- a new hive

def _buildable(answer: _Built) -> int:
    """The length of the hive."""
    number = answer.answer.number
    if number != 0:
        raise Unbuilt(number, None, None, WORDS.get(number, "an unknown refusal"), answer.at if number in SPOTTED else None)
    return answer.length


@overload
def build(frames: Source, *, descriptor: Optional[Source] = None) -> bytes: ...


@overload
def build(frames: Source, out: Union[str, "os.PathLike[str]"], *, descriptor: Optional[Source] = None) -> Report: ...


def build(frames: Source, out: Any = None, *, descriptor: Optional[Source] = None) -> Union[bytes, Report]:
    """A hive of version 1.5 from the frames of an export, and one security descriptor, which all keys share: the way back from Hive.export. `frames` and
    `descriptor` are bytes, or name files. The hive is given back; or `out` names a new file, which is written when the check has accepted the hive, and what
    the check counts is given back. Unbuilt where the stream is refused, by the earliest frame at fault: then nothing is written. The descriptor is not judged.
    Without one it is DESCRIPTOR: Administrators own all keys, SYSTEM and they may do everything, Users may read.

    >>> frames = Hive("sample").export()
    >>> Hive(build(frames)).export() == frames
    True
    """
    path = None if out is None else os.fsdecode(out)
    stream, security = _Lent(_contents(frames)), _Lent(DESCRIPTOR if descriptor is None else _contents(descriptor))
    hive = _zeros(_buildable(_ask(_library.hive_build_size, stream, security.memory[1])))
    _buildable(_ask(_library.hive_build, stream, security, _Lent(hive, writable=True)))
    if path is None:
        return bytes(hive)
    report = Hive(hive).check()
    _new_file(path, lambda to: _store(to, hive, 0))
    return report


# ---- the repair

def log_facts(log: Source) -> Log:
    """What a log says of itself, by the proved library; a log that is none is Refused.

    >>> log_facts("new-log")[:3]
    (4, 7, 10)
    """
    lent = _Lent(_contents(log))
    facts = _ask(_library.hive_recover_log, lent)
    _allow(facts.answer)
    return Log(facts.entries, facts.first, facts.last, facts.end, facts.bins)


def settle(hive: Any) -> bool:
    """Without a log: makes a dirty hive in memory, a bytearray or the like, one that is read as it is, with what its log would still change missing. Where
    its sequence numbers differ and nothing else of 1 to 7 is wrong they are made equal: True. Where nothing is wrong, False. Else Refused, 1 to 6, and
    nothing changes. Do not store the outcome over the file: it would look clean, and its log would never be asked again.

    >>> torn = bytearray(open("spoilt", "rb").read())
    >>> settle(torn), settle(torn)
    (True, False)
    """
    lent = _Lent(hive, writable=True)
    done = _library.hive_settle(*lent.memory)
    _allow(done.answer)
    return done.state == DONE


def _is_dirty(hive: Any) -> bool:
    """Whether 7 is its only fault of 1 to 7, by the reader's own tests of the base block."""
    lent = _Lent(hive)
    return _library.hive_find_key(*lent.memory, *_units("")).number == SEQUENCES


class _Start:
    """A hive and the log that it is to be repaired with; which of the given logs that is; whether the hive was lengthened; what the library's start says."""

    def __init__(self, hive: Owned, log: Any, logs: Tuple[int, ...], grown: bool) -> None:
        self.hive, self.log, self.logs, self.grown = hive, log, logs, grown
        self.both = _Lent(hive, writable=True), _Lent(log)
        self.started = _ask(_library.hive_recover_start, *self.both)

    def refused(self, number: Optional[int] = None) -> bool:
        return self.started.state == REFUSED and number in (None, self.started.answer.number)


def _own_facts(log: Any) -> Optional[Log]:
    try:
        return log_facts(log)
    except Refused:
        return None


def _usable(hive: Owned) -> bool:
    """Whether the base block is usable, by the check's first refusals: behind them it asks for a map, and none is lent."""
    work = bytearray()
    return _ask(_library.hive_check, _Lent(hive), _Lent(work, writable=True)).answer.number not in (1, 2, 3, 4, 5)


def _tries(hive: Owned, logs: Sequence[Any]) -> Iterator[Tuple[Any, Tuple[int, ...]]]:
    """Each log to try, and which of the given ones it is. Where one goes on where the other ends: both as one log, the one up to its end and the other from
    its first entry on, and then the later alone, if the hive's base block is usable: only then its number shows that it holds the earlier already. Else each
    alone, the later first."""
    facts = [_own_facts(log) for log in logs]
    order = sorted(range(len(logs)), key=lambda i: (facts[i] is None, -facts[i].last if facts[i] else 0))
    if len(logs) == 2 and all(f is not None and f.entries > 0 for f in facts):
        later, earlier = order
        if facts[earlier].last + 1 == facts[later].first:
            head, more = memoryview(logs[earlier]).cast("B")[:facts[earlier].end], memoryview(logs[later]).cast("B")[SECTOR:facts[later].end]
            yield bytes(head) + bytes(more), (earlier, later)
            order = [later] if _usable(hive) else []
    for i in order:
        yield logs[i], (i,)


def _lengthened(start: _Start) -> _Start:
    """Of a start that is refused for the hive's length: that of a copy with zeros behind it, which take no memory until they are written."""
    longer = _zeros(4096 + log_facts(start.log).bins)
    for at in range(0, len(start.hive), PIECE):
        piece = start.hive[at:at + PIECE]
        if piece != bytes(len(piece)):
            longer[at:at + len(piece)] = piece
    return _Start(longer, start.log, start.logs, True)


def _choice(hive: Owned, logs: Sequence[Any]) -> Tuple[_Start, Optional[_Start]]:
    """The first log that fits, of none, one or two with bytes; where none does, the first that was tried, which is refused. And where only length is missing,
    the start of the lengthened hive: then no other log is tried. Clean answers first."""
    first = _Start(hive, b"", (), False)
    if not first.refused():
        return first, None
    for n, (data, which) in enumerate(_tries(hive, logs)):
        start = _Start(hive, data, which, False)
        longer = _lengthened(start) if start.refused(SHORT) else None
        if not (longer or start).refused():
            return start, longer
        first = start if n == 0 else first
    return first, None


# ---- the logs beside a hive

def _path_of(source: Source) -> Optional[str]:
    return os.fsdecode(source) if isinstance(source, (str, os.PathLike)) else None


def _same(one: Any, other: Any) -> bool:
    a, b = memoryview(one).cast("B"), memoryview(other).cast("B")
    return len(a) == len(b) and all(a[at:at + PIECE].tobytes() == b[at:at + PIECE].tobytes() for at in range(0, len(a), PIECE))


def _entries(folder: str, stem: str) -> Iterator[Optional[str]]:
    """The files that are called as a log of that hive, one for each ending: letter for letter, else but for the case of the ending, else but for case."""
    names = [os.fsencode(name) for name in os.listdir(folder or ".")]
    for ending in ENDINGS:
        whole, length = os.fsencode(stem + ending), len(os.fsencode(stem))
        alike = sorted((name != whole, name[:length] != whole[:length], name) for name in names if name.upper() == whole.upper())
        yield os.path.join(folder, os.fsdecode(alike[0][2])) if alike else None


def _read_regular(path: str) -> Any:
    """What nobody has named: only where it is a regular file, or a link to one. A pipe is not waited for."""
    try:
        fd = _open(path, os.O_RDONLY | os.O_NONBLOCK)
    except FileNotFoundError:
        return b""
    try:
        return _read(fd, path) if stat.S_ISREG(os.fstat(fd).st_mode) else b""
    finally:
        os.close(fd)


def _beside(path: str, stem: str) -> List[Tuple[str, Any]]:
    """The logs in the folder of that path, at most two, with bytes."""
    found: List[Tuple[str, Any]] = []
    for ending, name in zip(ENDINGS, _entries(os.path.dirname(path), stem) if stem else ()):
        data = b"" if name is None or (ending == ENDINGS[2] and found) else _read_regular(name)
        if name is not None and len(data) > 0:
            found.append((name, data))
    return found


def _stem(name: str) -> str:
    return next((name[:-len(ending)] for ending in ENDINGS if os.fsencode(name).upper().endswith(os.fsencode(ending))), "")


def _others(path: Optional[str], log: Optional[str]) -> Iterator[Tuple[str, Any]]:
    """What lies beside the hive; and beside the log, called as the hive is or as the log is."""
    base = "" if path is None else os.path.basename(path)
    if path is not None:
        yield from _beside(path, base)
    if log is not None:
        yield from _beside(log, base)
        if _stem(os.path.basename(log)) != base:
            yield from _beside(log, _stem(os.path.basename(log)))


def _ask_others(hive: Owned, path: Optional[str], name: Optional[str], data: Any) -> None:
    """That a log which fits alone leaves out none that lies beside it."""
    for other, more in _others(path, name):
        if _same(data, more) or _same(hive, more):
            continue
        start, longer = _choice(hive, [data, more])
        chosen = longer or start
        if chosen.refused():
            raise LeftOut(name, other, None, chosen.started.answer.number)
        if chosen.started.state == DONE and chosen.logs != (0,):
            raise LeftOut(name, other, [(name, other)[i] for i in chosen.logs], None)


def _given(path: Optional[str], log: Optional[Sources], logs: bool) -> List[Tuple[int, Optional[str], Any]]:
    """The logs that have bytes, each once: where they were given, their names and their bytes."""
    if log is not None and logs:
        raise ValueError("log names a log, and logs takes those beside the file: give one of the two")
    if log is None and path is None:
        raise ValueError("memory has no logs beside it")
    listed = list(log) if isinstance(log, (list, tuple)) else [] if log is None else [log]
    named = [(_path_of(one), _contents(one)) for one in listed] if log is not None else _beside(path or "", os.path.basename(path or ""))
    if log is not None and not listed:
        raise ValueError("no log")
    kept: List[Tuple[int, Optional[str], Any]] = []
    for i, (name, data) in enumerate(named):
        if memoryview(data).nbytes > 0 and not any(_same(data, other) for _, _, other in kept):
            kept.append((i, name, data))
    if len(kept) > 2:
        raise ValueError("there are two logs at most, and %d have bytes" % len(kept))
    return kept


def _choose(hive: Owned, path: Optional[str], log: Optional[Sources], logs: bool, grow: bool, only: bool) -> _Start:
    """The start of the log that was chosen; with `grow` also on a hive that is lengthened with zeros. Where there is none, Refused."""
    given = _given(path, log, logs)
    start, longer = _choice(hive, [data for _, _, data in given])
    if len(given) == 1 and log is not None and not only and (longer is not None or start.started.state == DONE):
        _ask_others(hive, path, given[0][1], given[0][2])
    chosen = longer if grow and longer is not None else start
    if chosen.refused():
        _allow(chosen.started.answer)
    chosen.logs = tuple(given[i][0] for i in chosen.logs)
    return chosen


def _recover(start: _Start) -> Owned:
    """All of the repair, in memory alone: the hive, lengthened where that was asked for."""
    if start.started.state == DONE:
        _allow(_ask(_library.hive_recover_all, *start.both).answer)
        _allow(_ask(_library.hive_recover_close, *start.both).answer)
    return start.hive


def _store(fd: int, data: Any, at: int) -> None:
    with memoryview(data) as rest:
        done = 0
        while done < len(rest):
            n = os.pwrite(fd, rest[done:done + PIECE], at + done)
            if n <= 0:
                raise OSError("cannot write at byte %d: no room" % (at + done))
            done += n


def _settle_folder(path: str) -> None:
    """The entry of a new file lies in its folder, which is synced too."""
    fd = _open(os.path.dirname(path) or ".", os.O_RDONLY | os.O_DIRECTORY)
    try:
        os.fsync(fd)
    finally:
        os.close(fd)


def _copy_all(fd: int, to: int) -> None:
    """All that an open file holds. Holes stay holes."""
    at = end = 0
    length = os.lseek(fd, 0, os.SEEK_END)
    while at < length:
        at = _data_from(fd, at, length)
        data = os.pread(fd, PIECE, at)
        if not data:
            break
        _store(to, data, at)
        end = at = at + len(data)
    if end < length:
        os.ftruncate(to, length)


def _new_name(part: str, path: str) -> None:
    """Never over a file that is there: it could be the hive. Where the file system has no links, it was looked for before."""
    try:
        os.link(part, path)
    except FileExistsError:
        raise
    except OSError:
        os.rename(part, path)


def _new_file(path: str, fill: Callable[[int], Done]) -> Done:
    """A new file has another name until it is whole and on the disk."""
    if os.path.lexists(path):
        raise FileExistsError("%s is there already and is not overwritten" % path)
    part = "%s.part%d" % (path, os.getpid())
    to = _open(part, os.O_WRONLY | os.O_CREAT | os.O_EXCL)
    try:
        done = fill(to)
        os.fsync(to)
        _new_name(part, path)
    finally:
        os.close(to)
        with contextlib.suppress(FileNotFoundError):
            os.unlink(part)
    _settle_folder(path)
    return done


def _up_to(most: int, runs: Iterator[Tuple[int, memoryview]]) -> Iterator[Tuple[int, memoryview]]:
    """The runs, none of them past so many bytes in all."""
    length = 0
    for frames, data in runs:
        length += len(data)
        if length > most:
            raise OSError(errno.EFBIG, "the stream has more than %d bytes, far more than its hive; any_length=True writes them all the same" % most)
        yield frames, data


def _put_all(data: memoryview, write: Callable[[memoryview], Optional[int]]) -> None:
    """Every byte: a file without a buffer may take a part of them."""
    while len(data) > 0:
        n = write(data)
        if n is None:
            raise BlockingIOError("the file takes no bytes now")
        if n <= 0:
            raise OSError("the file takes no more bytes: its write answers %d" % n)
        data = data[n:]


def _put_runs(runs: Iterator[Tuple[int, memoryview]], write: Callable[[memoryview], Optional[int]]) -> Exported:
    frames = length = 0
    for count, data in runs:
        frames, length = frames + count, length + len(data)
        _put_all(data, write)
    return Exported(frames, length)


def _checked(hive: Owned) -> Tuple[Optional[Report], Optional[Refused]]:
    try:
        return Hive(hive).check(), None
    except Refused as refused:
        return None, refused


def _rehearse(start: _Start) -> Tuple[Optional[Report], Optional[Refused]]:
    """What will come out, before the first write: all pages in, closed, checked; then open again, for no page is stored after a closing call."""
    _allow(_ask(_library.hive_recover_all, *start.both).answer)
    first = bytes(start.hive[:SECTOR])
    _allow(_ask(_library.hive_recover_close, *start.both).answer)
    answer = _checked(start.hive)
    start.hive[:SECTOR] = first
    return answer


def _marked(start: _Start) -> Iterator[int]:
    """The pages that the log holds, rising. No log that is accepted has more pages than the hive."""
    marks = bytearray(len(start.hive) // 4096)
    lent = _Lent(marks, writable=True)
    _allow(_ask(_library.hive_recover_mark_pages, start.both[1], lent).answer)
    return (8 * at + bit for at, byte in enumerate(marks) if byte for bit in range(8) if byte >> bit & 1)


def _write_out(fd: int, start: _Start, pages: Sequence[int]) -> None:
    """Where it is to grow, the file's length and a sync; the pages, a sync, the closing sector, a sync: it goes out only when all pages are on the disk."""
    if start.grown:
        os.ftruncate(fd, len(start.hive))
        os.fsync(fd)
    for page in pages:
        at = 4096 + SECTOR * page
        _store(fd, start.hive[at:at + SECTOR], at)
    os.fsync(fd)
    _allow(_ask(_library.hive_recover_close, *start.both).answer)
    _store(fd, start.hive[:SECTOR], 0)
    os.fsync(fd)


def _is_piece(start: _Start, pages: Any, at: int, mine: bytes, theirs: bytes) -> bool:
    """Each sector of a piece of the file is the copy's own, or the last version that the log has of it, which the hive in memory holds."""
    for i in range(0, len(mine), SECTOR):
        sector = mine[i:i + SECTOR]
        logged = (at + i - 4096) // SECTOR in pages and at + i >= 4096
        if sector != theirs[i:i + SECTOR] and not (logged and sector == start.hive[at + i:at + i + len(sector)]):
            return False
    return True


def _is_before(fd: int, copy: int, start: _Start, pages: Any) -> bool:
    """Whether a copy and this log make the same hive as the file and this log. Behind the end of the copy there are zeros."""
    facts = os.fstat(copy)
    if not stat.S_ISREG(facts.st_mode) or os.path.samestat(facts, os.fstat(fd)):
        return False
    length, at = os.lseek(fd, 0, os.SEEK_END), 0
    while at < length:
        mine, theirs = os.pread(fd, PIECE, at), os.pread(copy, PIECE, at)
        theirs += bytes(max(0, len(mine) - len(theirs)))
        if not mine or (mine != theirs[:len(mine)] and not _is_piece(start, pages, at, mine, theirs)):
            return False
        at += len(mine)
    return facts.st_size <= length


def _is_made(fd: int, path: str, start: _Start, pages: Any) -> bool:
    """Whether a file that is there is the copy; then it is synced again, for the run that made it may have been cut."""
    try:
        copy = _open(path, os.O_RDONLY | os.O_NONBLOCK | os.O_NOFOLLOW)
    except OSError:
        return False
    try:
        made = _is_before(fd, copy, start, pages)
        if made:
            os.fsync(copy)
    finally:
        os.close(copy)
    if made:
        _settle_folder(path)
    return made


def _keep(fd: int, name: str, backup: Union[bool, str], start: _Start, pages: Any) -> str:
    """The copy of what the hive was, made or there already: where it is. One that is named and is another file is not overwritten; by default a number is put
    behind the name then."""
    path = name + ".before-repair" if backup is True else str(backup)
    number = 1
    while os.path.lexists(path):
        if _is_made(fd, path, start, pages):
            return path
        number += 1
        if backup is not True or number > 1000:
            raise FileExistsError("%s is there already, is no copy of the hive before this repair, and is not overwritten" % path)
        path = "%s.before-repair%d" % (name, number)
    _new_file(path, lambda to: _copy_all(fd, to))
    return path


def _clean(fd: int, start: _Start, dry_run: bool, anyway: bool) -> Repair:
    """Nothing is to be done; but the run before may have been cut before its last sync."""
    if not dry_run:
        _store(fd, start.hive[:SECTOR], 0)
        os.fsync(fd)
    report, refused = _checked(start.hive)
    if refused is not None and not anyway:
        raise refused
    return Repair(True, 0, False, report, refused, None, ())


def _run(fd: int, name: str, start: _Start, backup: Union[bool, str], dry_run: bool, anyway: bool) -> Repair:
    if start.started.state == CLEAN:
        return _clean(fd, start, dry_run, anyway)
    report, refused = _rehearse(start)
    if refused is not None and (dry_run or not anyway):
        raise Unsound(*refused.args)
    kept = None
    if not dry_run:
        pages = list(_marked(start))
        kept = None if backup is False else _keep(fd, name, backup, start, frozenset(pages))
        _write_out(fd, start, pages)
    return Repair(False, start.started.pages, not dry_run, report, refused, len(start.hive) if start.grown else None, start.logs, kept)


def repair(path: Union[str, "os.PathLike[str]"], log: Optional[Sources] = None, *, logs: bool = False, only_this_log: bool = False,
           backup: Optional[Union[bool, str, "os.PathLike[str]"]] = True, dry_run: bool = False, anyway: bool = False, grow: bool = False) -> Repair:
    """Repairs the hive in place with its log, of either format, or with its two logs in a list, as `hive repair` does: the whole repair in memory first;
    then, under a lock, the pages are stored and synced, and the first sector is stored and synced. A power failure at any moment leaves a file that the
    same call repairs, and so does an interrupt: after an OSError, after Ctrl-C, or in doubt, keep the log and call again.

    Where no log is named (or `logs`) those beside the file are taken: PATH.LOG1 and PATH.LOG2, or PATH.LOG, whatever the case of their letters. Where one is
    named, and another beside it would be left out, LeftOut is raised, unless `only_this_log`. The hive is first copied to PATH.before-repair and synced;
    `backup` names another file, and False makes none. A copy that is there already is taken, from a call that was cut; another file never is overwritten.
    What the check would refuse afterwards raises Unsound, and nothing is written, unless `anyway`; what is clean and refused raises Refused, unless `anyway`.
    `grow`: where the log wants a longer file, it is lengthened with zeros.

    >>> repair("spoilt", "log", dry_run=True).pages
    8
    """
    name = os.fsdecode(path)
    kept: Union[bool, str] = backup if isinstance(backup, bool) else False if backup is None else os.fsdecode(backup)
    fd = _open(name, os.O_RDONLY if dry_run else os.O_RDWR)
    try:
        if not dry_run:
            fcntl.flock(fd, fcntl.LOCK_EX | fcntl.LOCK_NB)
        if not stat.S_ISREG(os.fstat(fd).st_mode) and not stat.S_ISBLK(os.fstat(fd).st_mode):
            raise OSError("%s is a pipe or a terminal; repair wants a file" % name)
        return _run(fd, name, _choose(_read(fd, name), name, log, logs, grow, only_this_log), kept, dry_run, anyway)
    finally:
        os.close(fd)
