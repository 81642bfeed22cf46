"""The cases of a hive from frames: python3 tools/build_cases.py FILE writes streams with the answer to each, for a test that has no Python.

Each case states by hand the frame at fault and its number, or how many bytes of the built hive are in use; the model of build_model.py has to say the same, and the
model of hives.py has to accept the hive and to export the stream again, or the script stops. The bytes of one hive stand in docs/LAYOUT.md. Standard library
only.

FILE is cases one behind the other, all numbers little-endian: title (2 bytes of length, then so many of ASCII); how many parts the stream has (4), and each
part: times (4), length (4), place (4), bytes. A part stands `times` times; where its place is not 0xFFFFFFFF, turn i has i there as five hexadecimal digits in
UTF-16LE. Then the descriptor's length (8): byte i of it is i mod 251, or 0 in one above 65,536 bytes, which may be memory that nobody has touched; the room
(8); the answer's number (4), 0 where a hive is built; the place in the stream (8); what measure gives (8), 0 where it refuses; the CRC-32 of the built hive
(4), or 0."""
import os
import re
import struct
import zlib

import build_model as build
import hives
import usage
from build_model import NONE
from hives import BASE, DATA_MOST, KEY_CLOSES, KEY_OPENS, KEY_VALUE, SEGMENT, framed, name_bytes, units

out, seen = bytearray(), []
ROOM = 8192  # where a fault of the stream answers before it
DESCRIPTOR_MOST = 2147479408  # of the smallest hive


# ---- streams: lists of bytes and parts

class Part:
    """Bytes that stand many times; with a place each turn has its number there."""

    def __init__(self, times, data, place=NONE):
        self.times, self.data, self.place = times, data, place

    def expanded(self):
        if self.place == NONE:
            return self.data * self.times
        head, tail = self.data[:self.place], self.data[self.place + 10:]
        return b"".join(head + ("%05X" % i).encode("utf-16-le") + tail for i in range(self.times))


def parts_of(frames):
    """The frames as parts, those that stand once joined."""
    parts = []
    for f in frames:
        if isinstance(f, Part):
            parts.append(f)
        elif parts and parts[-1].times == 1:
            parts[-1] = Part(1, parts[-1].data + f)
        else:
            parts.append(Part(1, f))
    return parts


def expanded(frames):
    return b"".join(p.expanded() for p in parts_of(frames))


def opens(name, stamp=0):
    return framed(KEY_OPENS, struct.pack("<Q", stamp) + name_bytes(units(name), True))


def value(name, data=b"", kind=3):
    return framed(KEY_VALUE, struct.pack("<II", kind, 2 * len(units(name))) + name_bytes(units(name), True) + data)


def longer(frame, more):
    """The frame with so many bytes more, all alike."""
    return [struct.pack("<I", len(frame) - 6 + more) + frame[4:], Part(more, b"\xa5")]


def long_value(name, length):
    return longer(value(name), length)


def long_named(unit, times, more=0):
    """A value whose name is one character many times, and its data one byte."""
    return [struct.pack("<IHII", 8 + 2 * times + more, KEY_VALUE, 3, 2 * times), Part(times, name_bytes(units(unit), True)), Part(more, b"\xa5")]


def numbered(times):
    """Subkeys whose names rise."""
    return Part(times, opens("00000") + closes, 14)


closes = framed(KEY_CLOSES)


def key(name, *inside):
    return [opens(name), *inside, closes]


def root(*inside):
    return key("R", *inside)


def joined(*lists):
    return [f for l in lists for f in l]


# ---- answers

def descriptor_of(length):
    return bytes(length) if length > 65536 else bytes(i % 251 for i in range(length))


def answer(s, descriptor, room):
    """(number, place, hive)."""
    try:
        return 0, 0, build.build(s, descriptor, room)
    except build.Unbuilt as u:
        return u.number, u.at, b""


def case(title, frames, descriptor, room, stated):
    """One case: what is stated is a number and a place. Gives the hive."""
    s = expanded(frames)
    number, at, hive = answer(s, descriptor_of(descriptor), room)
    if (number, at) != stated:
        raise SystemExit("%s: stated %r, the model says %r" % (title, stated, (number, at)))
    length = build.measure(s, descriptor) if number in (0, 20) else 0
    parts = parts_of(frames)
    out.extend(struct.pack("<H", len(title)) + title.encode("ascii") + struct.pack("<I", len(parts)))
    for p in parts:
        out.extend(struct.pack("<III", p.times, len(p.data), p.place) + p.data)
    out.extend(struct.pack("<QQIQQI", descriptor, room, number, at, length, zlib.crc32(hive)))
    seen.append(title)
    return hive


def refused(title, number, before, fault, behind=(), descriptor=0):
    """The frame at fault stands between two lists of frames."""
    case(title, joined(before, fault, behind), descriptor, ROOM, (number, len(expanded(before))))


def built(title, frames, used, descriptor=0):
    """In a buffer of its own length. Gives the hive and its map."""
    length = BASE + (32 + used + 4095) // 4096 * 4096
    hive = case(title, frames, descriptor, length, (0, 0))
    work = bytearray(length // 64)
    _, _, _, in_use, free = hives.check(hive, work)
    if len(hive) != length or in_use != used or free != length - BASE - 32 - used:
        raise SystemExit("%s: stated used %d, the check says %d" % (title, used, in_use))
    s = expanded(frames)
    if hives.stream_of(hive) != s or build.stream(build.read(s)) != s:
        raise SystemExit(title + ": its export, or the stream of the tree that was read, is another stream")
    return hive, work


def short(title, frames, length, descriptor=0):
    case(title, frames, descriptor, length - 1, (20, 0))


# ---- hives

EXAMPLE = [opens("parent", 0x019DB1DED53E8000), opens("child", 0x019DB1DED5D71680), value("item", "datum\0".encode("utf-16-le"), 1), closes, closes]
SMALLEST = root()


def on_page():
    """The stream and the file that docs/LAYOUT.md shows: lines of bytes, and lines that have their place before them."""
    with open(os.path.join(os.path.dirname(os.path.abspath(__file__)), "..", "docs", "LAYOUT.md"), encoding="utf-8") as page:
        text = page.read()
    stream, file = b"", bytearray(8192)
    for line in re.findall("^    (.*)$", text[text.index("## Two keys"):text.index("## What other")], re.M):
        place, _, data = line.rpartition("  ")
        data = bytes.fromhex(data)
        if place:
            file[int(place, 16):int(place, 16) + len(data)] = data
        else:
            stream += data
    return stream, bytes(file)


def sizes():
    hive, _ = built("two keys and a value", EXAMPLE, 272)
    if (expanded(EXAMPLE), hive) != on_page():
        raise SystemExit("two keys and a value: docs/LAYOUT.md shows others")
    if built("the smallest", SMALLEST, 112)[1][:3] != b"\x10\x80\0":
        raise SystemExit("the smallest: another map")
    for n, used in ((1, 120), (3951, 4064), (3952, 4064), (3953, 4072)):
        built("a descriptor of %d bytes" % n, SMALLEST, used, n)
    for n, cells in ((0, 0), (1, 0), (4, 0), (5, 16), (12, 16), (13, 24), (SEGMENT, 16352), (SEGMENT + 1, 16392), (2 * SEGMENT, 32736), (2 * SEGMENT + 1, 32744), (DATA_MOST, 1049376)):
        built("data of %d bytes" % n, root(*long_value("v", n)), 152 + cells)
    built("three bytes that differ", root(value("v", b"\1\2\3")), 152)
    for n, cells in ((40, 48), (16340, 16344), (32680, 32728), (49030, 49088)):
        built("data of %d bytes that differ" % n, root(struct.pack("<IHII", 10 + n, KEY_VALUE, 3, 2) + b"v\0", Part(n // 10, bytes(10), 0)), 152 + cells)


def names():
    built("255 characters of code 255", key("\xff" * 255), 336 + 24)
    built("255 characters of code 256", key("\u0100" * 255), 592 + 24)
    built("one code of 256 among others", root(*key("aaaaaa\u0100")), 88 + 96 + 16 + 24)
    built("an unnamed value", root(value("")), 88 + 24 + 8 + 24)
    built("a value's name of 16,383 codes of one byte", root(*long_named("n", 16383)), 88 + 16408 + 8 + 24)
    built("a value's name of 16,383 codes of two", root(*long_named("\u0436", 16383)), 88 + 32792 + 8 + 24)
    built("a backslash in a value's name", root(value("a\\b")), 88 + 32 + 8 + 24)
    built("halves of pairs, and zeros", root(value("\0"), value("\ud800"), *key("\0"), *key("\udc00")), 88 + 32 + 32 + 16 + 88 + 88 + 24 + 24)


def shapes():
    below = [opens("a", 1), value("a"), closes, opens("B", 2**63), closes]
    built("stamps, types, and values before subkeys", [opens("R", 2**64 - 1), value("b", b"x", 2**32 - 1), value("a", b"12345", 0), *below, closes],
          88 + 32 + 32 + 16 + 16 + 88 + 32 + 8 + 88 + 24 + 24)
    built("level 512", [Part(513, opens("d")), Part(513, closes)], 513 * 88 + 512 * 16 + 24)
    built("65,535 subkeys", root(numbered(65535)), 65536 * 88 + 524288 + 24)
    built("100,000 values", root(Part(100000, value("00000"), 14)), 88 + 100000 * 32 + 400008 + 24)


def rooms():
    for title, frames, length, n in (("two keys and a value", EXAMPLE, 8192, 0), ("the smallest", SMALLEST, 8192, 3952), ("two pages", SMALLEST, 12288, 3953)):
        short(title + ", one byte short", frames, length, n)
        case(title + ", one byte to spare", frames, n, length + 1, (0, 0))
        case(title + ", no room", frames, n, 0, (20, 0))
    case("the longest descriptor", SMALLEST, DESCRIPTOR_MOST, 0, (20, 0))
    case("the longest descriptor, one byte short", SMALLEST, DESCRIPTOR_MOST, 2**31 - 1, (20, 0))
    case("a byte more", SMALLEST, DESCRIPTOR_MOST + 1, ROOM, (39, 0))
    case("39 before 20", SMALLEST, DESCRIPTOR_MOST + 1, 0, (39, 0))
    case("a frame before 39 and 20", [closes] + SMALLEST, DESCRIPTOR_MOST + 1, 0, (32, 0))
    case("the last frame before 39 and 20", SMALLEST + [closes], DESCRIPTOR_MOST + 1, 0, (32, 22))
    case("the stream's end before 39 and 20", SMALLEST[:1], DESCRIPTOR_MOST + 1, 0, (32, 16))


# ---- one fault

def cuts():
    """Every cut of a stream: inside a frame it is cut, between two a key stays open."""
    whole, starts, at = expanded(EXAMPLE), [], 0
    for f in EXAMPLE:
        starts.append(at)
        at += len(f)
    for n in range(len(whole)):
        if n in starts:
            refused("cut at %d" % n, 32, [whole[:n]], [])
        else:
            start = max(p for p in starts if p < n)
            refused("cut at %d" % n, 30, [whole[:start]], [whole[start:n]])
    for n in range(1, 6):
        refused("%d bytes behind the root" % n, 30, EXAMPLE, [bytes(n)])


BAD_FRAMES = (
    ("kind 0", framed(0)), ("kind 15", framed(15)), ("kind 19", framed(19)), ("kind 16 + 256", framed(272, bytes(8) + b"a\0")),
    ("a key without a stamp", framed(16)), ("7 bytes of a stamp", framed(16, bytes(7))), ("half a character", framed(16, bytes(9))), ("one and a half", framed(16, bytes(8) + b"a\0b")),
    ("an empty value", framed(17)), ("7 bytes of a value's head", framed(17, bytes(7))), ("a name of one byte", framed(17, struct.pack("<II", 1, 1) + b"ab")),
    ("a name longer than the rest", framed(17, struct.pack("<II", 1, 4) + b"abc")), ("a name of nothing", framed(17, struct.pack("<II", 1, 2))),
    ("a name of 2^32 - 2 bytes", framed(17, struct.pack("<II", 1, 2**32 - 2) + b"abcd")), ("a name of 2^32 - 8 bytes", framed(17, struct.pack("<II", 1, 2**32 - 8))),
    ("a closing with a byte", framed(18, b"\0")), ("2^32 - 1 bytes of a closing", struct.pack("<IH", 2**32 - 1, 18)),
    ("2^32 - 1 bytes of a key", struct.pack("<IH", 2**32 - 1, 16) + bytes(8)))


def layouts():
    """30 in the first frame, in the middle and in the last."""
    for title, bad in BAD_FRAMES:
        refused(title + ", first", 30, [], [bad], [closes])
        refused(title + ", in the middle", 30, [opens("R")], [bad], [closes])
        refused(title + ", last", 30, SMALLEST, [bad])
    built("8 bytes of a value", root(framed(17, struct.pack("<II", 3, 0))), 144)
    built("a name of all the rest", root(framed(17, struct.pack("<II", 3, 2) + b"a\0")), 152)


def balance():
    refused("a value after a subkey", 31, [opens("R"), *key("a")], [value("v")], [closes])
    refused("a value after the second subkey, below", 31, [opens("R"), value("v"), opens("a"), value("v"), *key("a"), *key("b")], [value("w")], [closes, closes])
    built("a value in the next subkey", root(*key("a"), *key("b", value("v"))), 88 * 3 + 32 + 8 + 24 + 24)
    refused("no frame", 32, [], [])
    refused("a value first", 32, [], [value("v")], SMALLEST)
    refused("a closing first", 32, [], [closes], SMALLEST)
    refused("a second root", 32, SMALLEST, [opens("S")], [closes])
    refused("a value behind the root", 32, SMALLEST, [value("v")])
    refused("a closing behind the root", 32, SMALLEST, [closes])
    refused("one key open", 32, [opens("R"), value("v")], [])
    refused("two keys open", 32, [opens("R"), opens("a"), value("v")], [])
    refused("513 keys open", 32, [Part(513, opens("d"))], [])


def orders():
    for first, then in (("a", "a"), ("a", "A"), ("b", "a"), ("b", "A"), ("ab", "a"), ("AB", "a"), ("\xe9", "\xc9"), ("\xc9", "\xe9"), ("\xff", "\u0178"), ("\u0178", "\xff"),
                        ("\xff", "\u0177"), ("_", "a"), ("\xf7", "\xd7"), ("\ue000", "\ud800")):
        refused("%a then %a" % (first, then), 33, [opens("R"), *key(first)], [opens(then)], [closes, closes])
    for first, then in (("a", "B"), ("A", "b"), ("a", "ab"), ("\xe9", "\xca"), ("\u0177", "\xff"), ("\xff", "\u0179"), ("a", "_"), ("\xd7", "\xf7"), ("\xb5", "\xc9"),
                        ("\ud800", "\ue000")):
        built("%a then %a, good" % (first, then), root(*key(first), *key(then)), 88 * 3 + 24 + 24)
    refused("the third subkey", 33, [opens("R"), *key("a"), *key("b")], [opens("B")], [closes, closes])
    built("cousins", root(*key("a", *key("z")), *key("b", *key("a"))), 88 * 5 + 16 * 2 + 24 + 24)


def namesakes():
    for first, then in (("v", "v"), ("v", "V"), ("", ""), ("\xe9", "\xc9"), ("\xff", "\u0178"), ("a\\b", "A\\B")):
        refused("%a and %a" % (first, then), 34, [opens("R"), value(first), value("other")], [value(then)], [closes])
    built("names that differ", root(value("v"), value("vv"), value(""), value("\xd7"), value("\xf7")), 88 + 32 * 4 + 24 + 24 + 24)
    built("the same in another key", root(value("v"), *key("v", value("V"))), 88 * 2 + 64 + 8 * 2 + 16 + 24)
    refused("the last of 100,000", 34, [opens("R"), Part(99999, value("00000"), 14)], [value("00000")], [closes])


def bounds():
    below = [opens("R")]
    for title, bad in (("no character", ""), ("256 characters", "a" * 256), ("256 of two bytes", "\u0436" * 256), ("a backslash", "\\"), ("a backslash first", "\\a"),
                       ("a backslash last", "a\\")):
        refused(title + ", root", 35, [], [opens(bad)], [closes])
        refused(title + ", below", 35, below, [opens(bad)], [closes, closes])
    refused("a value's name of 16,384", 35, below, long_named("n", 16384), [closes])
    refused("a byte too much", 36, below, long_value("v", DATA_MOST + 1), [closes])
    refused("level 513", 37, [Part(513, opens("d"))], [opens("d")], [Part(514, closes)])
    refused("65,536 subkeys", 38, [opens("R"), numbered(65535)], [opens("1")], [closes, closes])


# ---- two faults

def one_frame():
    """Pairs that one frame can have: the lower number answers. The others cannot meet, for an earlier frame would be at fault, or one number is of keys and
    the other of values."""
    after, inside, deep, wide = [opens("R"), *key("b")], [opens("R"), value("v")], [Part(513, opens("d"))], [opens("R"), numbered(65535)]
    half, long, much = framed(16, bytes(8) + b"1\0\0"), long_named("n", 16384), DATA_MOST + 1
    for title, number, before, fault in (
            ("30 and 31", 30, after, [framed(17, bytes(7))]), ("30 and 32", 30, SMALLEST, [framed(18, b"\0")]), ("30 and 33", 30, after, [half]),
            ("30 and 34", 30, inside, [framed(17, struct.pack("<II", 1, 3) + b"v\0")]), ("30 and 35", 30, [opens("R")], [framed(16, bytes(9))]),
            ("30 and 36", 30, inside, longer(framed(17, struct.pack("<II", 1, 1)), much)), ("30 and 37", 30, deep, [half]), ("30 and 38", 30, wide, [half]),
            ("31 and 34", 31, [opens("R"), value("v"), *key("a")], [value("V")]), ("31 and 35", 31, after, long), ("31 and 36", 31, after, long_value("v", much)),
            ("32 and 35, a key", 32, SMALLEST, [opens("")]), ("32 and 35, a value", 32, [], long), ("32 and 36", 32, SMALLEST, long_value("v", much)),
            ("33 and 35, no character", 33, after, [opens("")]), ("33 and 35, a backslash", 33, after, [opens("a\\")]), ("33 and 35, 256", 33, after, [opens("a" * 256)]),
            ("33 and 38", 33, wide, [opens("00000")]), ("34 and 36", 34, inside, long_value("V", much)), ("35 and 36", 35, [opens("R")], long_named("n", 16384, much)),
            ("35 and 37", 35, deep, [opens("")]), ("35 and 38", 35, wide, [opens("1\\")])):
        refused(title, number, before, fault, [closes])


def spoilt(number, name):
    """Frames that hang a fault below a root, balanced but for it: those before the frame at fault, and from it on."""
    return {
        30: ([opens(name)], [framed(19), closes]), 31: ([opens(name), *key("a")], [value("v"), closes]), 33: ([opens(name), *key("b")], [*key("a"), closes]),
        34: ([opens(name), value("v")], [value("V"), closes]), 35: ([opens(name)], [*key(""), closes]), 36: ([opens(name)], [*long_value("v", DATA_MOST + 1), closes]),
        37: ([opens(name), Part(511, opens("d"))], [opens("d"), Part(512, closes), closes]),
        38: ([opens(name), numbered(65535)], [*key("1"), closes])}[number]


def two_frames():
    """Each number before each other one: the earlier frame answers, whatever its number. 32 is a frame before the root or behind it."""
    numbers = (30, 31, 33, 34, 35, 36, 37, 38)
    for one in numbers:
        before, behind = spoilt(one, "a")
        refused("32, then %d" % one, 32, [], [closes], root(*before, *behind))
        refused("%d, then 32" % one, one, [opens("R"), *before], behind, [closes, *key("S")])
        refused("%d, then a key open" % one, one, [opens("R"), *before], behind)
        for other in numbers:
            if other != one:
                refused("%d, then %d" % (one, other), one, [opens("R"), *before], behind, [*joined(*spoilt(other, "b")), closes])


def main(path):
    for part in (sizes, names, shapes, rooms, cuts, layouts, balance, orders, namesakes, bounds, one_frame, two_frames):
        part()
    with open(path, "wb") as file:
        file.write(out)
    print("%d cases in %d bytes" % (len(seen), len(out)))


main(*usage.words(__doc__, "FILE"))
