"""The tests of the Python binding: python3 tests/python/run.py RELEASE TOOL.., in a folder with the files of tests/c/make.c.

RELEASE is a release's folder, from which the binding is imported, and TOOL the command of its tool. The last line is 'N passed, M failed'."""
import contextlib
import ctypes
import doctest
import errno
import fcntl
import io
import json
import mmap
import os
import pickle
import random
import re
import shutil
import signal
import struct
import subprocess
import sys
import threading
import time
from unittest import mock

release, tool = os.path.abspath(sys.argv[1]), sys.argv[2:]
sys.path[:0] = [os.path.join(release, "python"), os.path.join(os.path.dirname(os.path.abspath(__file__)), os.pardir, os.pardir, "tools")]
sys.dont_write_bytecode = True

import build_model as plain  # noqa: E402
import hives  # noqa: E402
import kiweamotu  # noqa: E402
from kiweamotu import Hive, Key, Refused, Unbuilt, Unsound, build, repair  # noqa: E402

PRINT = r"ControlSet001\Services\EventLog\Application\Print"
passed = failed = 0


def test(function):
    """Runs it at once, and counts."""
    global passed, failed
    name = "python: " + function.__doc__
    try:
        function()
        passed += 1
        print("ok " + name)
    except Exception as error:
        failed += 1
        print("FAILED %s: %s %s" % (name, type(error).__name__, error))


def expect(found, wanted):
    if found != wanted:
        raise AssertionError("%r, wanted %r" % (found, wanted))


def refusal(call, *args, **named):
    """What a call refuses: number, place and key."""
    try:
        call(*args, **named)
    except Refused as refused:
        return refused.number, refused.place, refused.key
    raise AssertionError("not refused")


def told(call, *args):
    """What a call answers, or its refusal, of the library or of the plain reading; a number without a place has place 0 in both."""
    try:
        return call(*args)
    except (Refused, hives.Refused) as refused:
        return refused.number, refused.place or 0, hives.NO_KEY if refused.key is None else refused.key


def bytes_of(path):
    with open(path, "rb") as file:
        return file.read()


def trouble(call, *args, **named):
    """The words of what a call raises that is no refusal, with its kind."""
    try:
        call(*args, **named)
    except (OSError, TypeError, ValueError) as error:
        return type(error), error.strerror if isinstance(error, OSError) and error.strerror else str(error)
    raise AssertionError("nothing raised")


def remove(*names):
    for name in names:
        with contextlib.suppress(FileNotFoundError):
            os.remove(name)


def child(code):
    """A Python of its own that runs the code with the binding."""
    start = "import os, sys, threading\nsys.dont_write_bytecode = True\nsys.path.insert(0, %r)\nimport kiweamotu\nfrom kiweamotu import Hive, build, repair\n"
    return subprocess.Popen([sys.executable, "-c", start % os.path.join(release, "python") + code], stdout=subprocess.PIPE)


def printed(code):
    """What such a Python prints, and its status."""
    process = child(code)
    out, _ = process.communicate()
    return out.decode(), process.returncode


def asked(*words):
    return subprocess.run(tool + list(words), stdout=subprocess.PIPE, check=True).stdout.decode()


@test
def examples():
    """the examples of its docstrings"""
    failures, tried = doctest.testmod(kiweamotu)
    expect((failures, tried > 10), (0, True))


@test
def layouts():
    """the header's structs and calls are its own"""
    header = bytes_of(os.path.join(release, "include", "kiweamotu.h")).decode()
    mine = {"Hive" + name[1:]: kind for name, kind in vars(kiweamotu).items() if re.fullmatch("_[A-Z][a-z]+", name) and name not in ("_Lent", "_View", "_Start")}
    for struct_name, kind in mine.items():
        expect(re.findall(r"sizeof\(%s\) == (\d+)" % struct_name, header), [str(ctypes.sizeof(kind))])
        expect(re.findall(r"offsetof\(%s, (\w+)\) == (\d+)" % struct_name, header), [(f, str(getattr(kind, f).offset)) for f, _ in kind._fields_])
    types = {"size_t": ctypes.c_size_t, "uint32_t": ctypes.c_uint32, **mine}
    for name, (result, arguments) in kiweamotu._CALLS.items():
        (answer, parameters), = re.findall(r"^(\w+) %s\((.*)\);" % name, header, re.M)
        expect(types[answer], result)
        expect([ctypes.c_void_p if "*" in p else types[p.split()[0]] for p in parameters.split(", ") if p != "void"], arguments)


@test
def states():
    """the header's states are its own, and all of them differ"""
    header = bytes_of(os.path.join(release, "include", "kiweamotu.h")).decode()
    numbers = re.findall(r"^    HIVE_([A-Z_]+) = (\d+),$", header[:header.index("/* The forms")], re.M)
    expect([(name, str(getattr(kiweamotu, name))) for name, _ in numbers], numbers)
    expect(sorted(int(number) for _, number in numbers), list(range(9)))


@test
def orders():
    """the order of two names agrees with the plain reading, on odd names too"""
    dice, met = random.Random(1), set()
    for _ in range(3000):
        a, b = ("".join(dice.choice("aAzZ_\xe9\xc9\xf7\xd7\xff\u0178\0\ud800\U0001f600") for _ in range(dice.randrange(4))) for _ in range(2))
        met.add(kiweamotu.name_order(a, b))
        expect(kiweamotu.name_order(a, b), hives.name_order(hives.units(a), hives.units(b)))
    expect((met, [kiweamotu.name_order(a, a.lower()) for a in ("\0", "K[", "N\xc9")]), ({-1, 0, 1}, [0, 0, 0]))


@test
def settled():
    """a dirty hive is read as it is when it is settled, and what else is wrong with it is refused and changes nothing"""
    sample, met = bytes_of("sample"), set()
    for seed in range(300):
        dice = random.Random(seed)
        file = bytearray(sample)
        for _ in range(dice.randrange(3)):
            file[dice.choice((4, 8, 11, 20, 40, 43, 508, 4096))] ^= 1 << dice.randrange(8)
        if seed % 4:
            hives.seal(file)
        mine, model = bytearray(file), bytearray(file)
        told_here, told_there = told(kiweamotu.settle, mine), told(hives.settle, model)
        expect((told_here, mine), (told_there, model))
        met.add(told_here if isinstance(told_here, bool) else told_here[0])
        if isinstance(told_here, bool):
            expect([key.name for key in Hive(mine).subkeys], [key.name for key in Hive("sample").subkeys])
    expect(met >= {False, True, 3, 4, 5}, True)
    try:
        kiweamotu.settle(sample)
        raise AssertionError("bytes are not written")
    except BufferError:
        pass


@test
def as_it_is():
    """a dirty hive is read as it is where that is asked for, in memory of its own, and says so; other hives are read as ever; never with a log"""
    clean, dirty = Hive("sample"), bytes_of("dirty")
    expect((refusal(Hive("dirty").check)[0], refusal(Hive(dirty).check)[0], clean.dirty, Hive("dirty").dirty), (7, 7, False, False))
    for source in ("dirty", dirty, bytearray(dirty), memoryview(dirty)):
        hive = Hive(source, as_is=True)
        expect((hive.dirty, hive.check(), hive.export()), (True, clean.check(), clean.export()))
        expect([key.path for key in hive.keys()], [key.path for key in clean.keys()])
        expect((hive.value(PRINT, "Big").decoded, list(hive.deleted())), (258, list(clean.deleted())))
        expect(bytes_of(source) if isinstance(source, str) else bytes(source), dirty)
    owned = bytearray(bytes_of("sample"))
    sound = Hive(owned, as_is=True)
    expect((sound.dirty, sound.check(), sound._memory[0]), (False, clean.check(), ctypes.addressof(ctypes.c_char.from_buffer(owned))))
    for file, number in (("cut", 6), ("empty", 1), ("log", 4)):
        hive = Hive(file, as_is=True)
        expect((hive.dirty, refusal(hive.check)[0]), (False, number))
    spoilt = Hive("spoilt", as_is=True)
    expect((spoilt.dirty, refusal(spoilt.check)[0] > 8), (True, True))
    for named in ({"log": "log"}, {"logs": True}, {"log": "log", "logs": True}):
        expect(trouble(Hive, "dirty", as_is=True, **named), (ValueError, "as_is reads the hive without its log, and log and logs with it: give one of them"))
    for file in ("dirty", "sample"):
        lines = subprocess.run(tool + ["check", "--json", "--as-is", file], stdout=subprocess.PIPE, stderr=subprocess.DEVNULL).stdout.decode()
        expect((json.loads(lines).get("as_is", False), json.loads(lines)["answer"]), (Hive(file, as_is=True).dirty, "dirty" if file == "dirty" else "accepted"))


@test
def words():
    """its words for every refusal are the tool's"""
    numbers = re.findall(r"HIVE_FAULT_\w+ = (\d+),", bytes_of(os.path.join(release, "include", "kiweamotu.h")).decode())
    expect(sorted(kiweamotu.WORDS), sorted(map(int, numbers)))
    for number, text in kiweamotu.WORDS.items():
        expect(asked("explain", str(number)).replace(" with --log", "").startswith("%d: %s. " % (number, text)), True)


@test
def pieces():
    """a key's class name and its descriptor"""
    items = [hives.Item(b"one"), hives.Item(bytes(range(40)))]
    below = [hives.Key("a", item=items[1], class_name=b"S\0h\0"), hives.Key("b", item=items[0])]
    made = hives.Builder(hives.Key("R", below, item=items[0]), items=items).hive
    expect(Hive(bytes(made)).check().keys, 3)
    expect([(k.class_name, k.security) for k in Hive(bytes(made)).keys()], [(None, b"one"), (b"S\0h\0", bytes(range(40))), (None, b"one")])
    at = below[0].at
    struct.pack_into("<II", made, hives.BASE + 4 + at + 44, 12, 4)
    key = Hive(bytes(made)).key("a")
    expect((refusal(lambda: key.class_name), refusal(lambda: key.security)), ((11, 4, at), (11, 12, at)))


@test
def as_the_tool():
    """every key and value is the tool's"""
    for file in ("sample", "letters", "texts", "sources"):
        for key in Hive(file).walk():
            lines = [json.loads(line) for line in asked("ls", "--json", "-l", file, key.path).splitlines()]
            subkeys = [(k.name, k.offset) for k in key.subkeys]
            expect(subkeys, [(x["name"], x["at"]) for x in lines if x["answer"] == "key"])
            values = [(v.name, v.type_name, len(v)) for v in key.values]
            expect(values, [(x["name"], x["type"], x["length"]) for x in lines if x["answer"] == "value"])


@test
def data_as_the_tool():
    """every value's data are the tool's, and its strings"""
    for file, path in (("sample", PRINT), ("texts", "")):
        for value in Hive(file).key(path).values:
            expect(Hive(file).key(path).value(value.name).name, value.name)
            first = Hive(file).value(path, value.name)
            told = json.loads(asked("value", "--json", file, path, value.name or "@"))
            expect(first.data.hex(), told["hex"])
            if "strings" in told and len(first) % 2 == 0 and "replaced" not in told:
                expect(first.decoded if isinstance(first.decoded, list) else [first.decoded], told["strings"])


@test
def decoded():
    """data as their type says"""
    cases = [(1, "ab\0", "ab"), (2, "", ""), (6, "x\0\0", "x"), (7, "a\0b\0\0", ["a", "b"]), (7, "a\0\0b\0\0", ["a", "", "b"]), (7, "a\0b", ["a", "b"]), (7, "\0", []),
             (7, "\0\0", [""]), (7, "", [])]
    for kind, text, wanted in cases:
        expect(kiweamotu._decode(kind, text.encode("utf-16-le")), wanted)
    for kind, data, wanted in ((4, b"\1\2\0\0", 513), (5, b"\0\0\1\2", 258), (11, b"\xff" * 8, 2**64 - 1), (4, b"\1", b"\1"), (1, b"abc", b"abc"), (3, b"x", b"x"), (99, b"", b"")):
        expect(kiweamotu._decode(kind, data), wanted)


ODD = ["\0", "\x1b[2J", "n\xe9", "@", "\u0178", "\ud83d", "\udc00\ud800", "\U0001f600", "a.b/c", "\ufeff", "\u202e", "x" * 255]


@test
def names():
    """every name round-trips: halves of pairs, zeros, marks"""
    keys = sorted((hives.Key(name) for name in ODD), key=lambda k: hives.folded(k.name))
    values = [hives.Value(name, name.encode("utf-16-le", "surrogatepass"), 3) for name in ["", "a\\b"] + ODD]
    hive = Hive(hives.Builder(hives.Key("root", [hives.Key("deep", keys, values)])).hive)
    expect(hive.check().keys, len(ODD) + 2)
    found = list(hive.key("DEEP").subkeys)
    expect([(hives.units(k.name), k.offset) for k in found], [(k.name, k.at) for k in keys])
    for key in found:
        expect(hive.key(key.path).offset, key.offset)
    for value in hive.key("deep").values:
        expect(hive.value("deep", value.name).data, value.name.encode("utf-16-le", "surrogatepass"))
    expect([v.name for v in hive.key("deep").values], ["", "a\\b"] + ODD)


@test
def damaged():
    """the check agrees with the plain reading of the paper, on damaged hives too"""
    for seed in range(150):
        dice = random.Random(seed)
        keys = [hives.Key("k%d" % i, [hives.Key("x")], [hives.Value("v", b"12345678")]) for i in range(dice.randrange(4))]
        made = hives.Builder(hives.Key("root", keys, [hives.Value("", bytes(dice.choice((3, 100))))]), minor=dice.choice((3, 5)))
        file = bytearray(made.hive)
        for _ in range(dice.randrange(3)):
            place, width, _what = dice.choice(made.fields)
            file[place + dice.randrange(width)] ^= 1 << dice.randrange(8)
        if seed % 3:
            hives.seal(file)
        try:
            wanted = hives.check(file, bytearray(len(file) // 64))
        except hives.Refused as refused:
            expect(refusal(Hive(file).check)[:2], (refused.number, refused.place if 9 <= refused.number <= 15 or refused.number in (28, 29) else None))
            continue
        expect(tuple(Hive(file).check()), wanted)


@test
def left():
    """what deletion left is the tool's, also where the tree is broken and where one call has no room for all"""
    for file, count in (("left", 7), ("left-no-root", 7), ("minimal", 0), ("left-4096", 4096), ("left-4097", 4097)):
        lines = [json.loads(line) for line in asked("deleted", "--json", file).splitlines()]
        found = list(Hive(file).deleted())
        expect((len(found), [(d.kind, d.offset, d.length) for d in found]), (count, [(x["answer"], x["at"], x["length"]) for x in lines]))
        expect([d.name for d in found if "\ud83d" not in d.name], [x["name"] for x in lines if "replaced" not in x])
    expect([d.name for d in Hive("left").deleted()][-1], "\xe9\ud83d")
    expect(refusal(lambda: list(Hive("left-no-bin").deleted())), (9, 4096, None))
    expect(refusal(lambda: list(Hive("left-torn").deleted())), (7, None, None))
    expect(list(Hive("left-torn", log="left-log").deleted()), list(Hive("left").deleted()))


@test
def left_at_random():
    """what deletion left agrees with the plain reading of the request"""
    for seed in range(100):
        dice, file = random.Random(seed), bytearray(hives.Builder(hives.Key("root", [hives.Key("a")])).hive)
        (cell, end), = hives.free_cells(file[4096:])
        for at in sorted(dice.sample(range(cell, end - 600, 8), 12)):
            raw = bytes(dice.choice(b"ab\\\0\0\xe9") for _ in range(dice.choice((0, 1, 2, 4, 6, 255, 256, 512))))
            record = dice.choice((hives.key_record, hives.value_record))(raw, dice.random() < 0.5, dice.choice((0, 255)))
            file[4096 + at + 4:4096 + at + 4 + len(record)] = record
        expect([(d.offset, d.kind, d.length) for d in Hive(file).deleted()], [(x[0], {1: "key", 2: "value"}[x[1]], x[2]) for x in hives.remnants(file)])


@test
def quickly():
    """the lookup that halves: as the other where the check accepts, and else as the plain reading of the request"""
    for seed in range(150):
        dice = random.Random(seed)
        keys = [hives.Key("k%02d" % i, [hives.Key("x")] if i % 5 == 0 else [], [hives.Value("v", bytes(i % 7))] if i % 2 else []) for i in range(dice.randrange(1, 40))]
        each = dice.choice((1, 2, 3, 7))
        lists = [(dice.choice(("li", "lf", "lh")), len(keys[i:i + each])) for i in range(0, len(keys), each)]
        made = hives.Builder(hives.Key("root", keys, lists=lists if seed % 4 else "lh"))
        file = bytearray(made.hive)
        offsets = [place for place, _width, what in made.fields if what == "offset"]
        for _ in range(dice.randrange(4)):
            one, other = dice.choice(offsets), dice.choice(offsets)
            file[one:one + 4], file[other:other + 4] = file[other:other + 4], file[one:one + 4]
        hive, accepted = Hive(file), len(told(hives.check, file, bytearray(len(file) // 64))) == 5
        for path in [k + end for k in ("K%02d" % i for i in range(len(keys) + 1)) for end in ("", "!", "\\x")]:
            by_path, units = (lambda quick: hive.key(path, quick=quick).offset), hives.units(path)
            expect(told(by_path, True), told(hives.quick_key, file, units))
            expect(told(by_path, False), told(hives.find_key, file, units))
            expect(not accepted or told(by_path, True) == told(by_path, False), True)
            by_name = lambda quick: hive.value(path, "V", quick=quick).data
            expect(told(by_name, True), told(lambda: hives.quick_info(file, units, [118])[1]))
    hive = Hive("sample")
    value = hive.value(PRINT, "Large", quick=True)
    expect((value.data, refusal(lambda: value.view)[0]), (hive.value(PRINT, "Large").data, 19))
    expect(hive.key("a").key("k7", quick=True).offset, hive.key("a\\k7").offset)
    expect(hive.key(PRINT).value("Big", quick=True).data, b"\0\0\1\2")


@test
def steps():
    """a child and a value from a key's offset: as the plain reading, and as the calls by path"""
    for seed in range(60):
        dice = random.Random(seed)
        keys = [hives.Key("k%02d" % i, [hives.Key("x")] if i % 5 == 0 else [], [hives.Value(n, b"d") for n in ("v", "a\\b", "")[:i % 4]]) for i in range(dice.randrange(1, 30))]
        made = hives.Builder(hives.Key("root", keys))
        file = bytearray(made.hive)
        offsets = [place for place, _width, what in made.fields if what == "offset"]
        for _ in range(dice.randrange(4)):
            one, other = dice.choice(offsets), dice.choice(offsets)
            file[one:one + 4], file[other:other + 4] = file[other:other + 4], file[one:one + 4]
        hive = Hive(file)
        for key in [k for k in [told(hive.key, "")] + [told(hive.key, "k%02d" % i) for i in range(len(keys))] if isinstance(k, kiweamotu.Key)]:
            for name in ("K00", "k07", "k29", "X", "", "a\\b", "x" * 255, "x" * 256):
                units = hives.units(name)
                expect(told(lambda: key.child(name).offset), told(hives.child_of, file, key.offset, units))
                expect(told(lambda: key.child(name, quick=True).offset), told(hives.child_of, file, key.offset, units, hives.halving))
                expect(told(lambda: key.value(name).data), told(lambda: hives.value_info(file, hives.units(key.path), units)[1]))
    hive = Hive("sample")
    value = hive.key(PRINT).value("Large")
    expect((value.data, refusal(lambda: value.view)), (hive.value(PRINT, "Large").data, refusal(lambda: hive.value(PRINT, "Large").view)))
    expect([hive.root.child("a").child("K7").path, hive.root.child("A").child("k7").offset], ["a\\K7", hive.key("a\\k7").offset])


@test
def lending():
    """memory is lent and not copied"""
    data = bytes_of("sample")
    spare = bytearray(data)
    expect(Hive(spare)._memory[0], ctypes.addressof(ctypes.c_char.from_buffer(spare)))
    spare.append(0)  # nothing holds it any more
    with open("sample", "rb") as file, mmap.mmap(file.fileno(), 0, access=mmap.ACCESS_READ) as mapped:
        for source in (data, bytearray(data), memoryview(b"x" + data)[1:], memoryview(bytearray(data)), mapped):
            hive = Hive(source)
            expect(hive.check(), Hive("sample").check())
            expect(bytes(hive.value(PRINT, "Big").view), b"\0\0\1\2")
            del hive
    expect(Hive(spare).value(PRINT, "Big").view.readonly, True)
    expect(refusal(Hive(b"").check), (1, None, None))


@test
def segments():
    """data in segments are joined, and have no view"""
    hive = Hive("sample")
    large, = [v for v in hive.key(PRINT).values if v.name == "Large"]
    for value in (large, hive.value(PRINT, "Large")):
        expect((len(value), value.data.hex()), (40000, asked("value", "sample", PRINT, "Large").replace("\n", "")))
        number, place, _key = refusal(lambda: value.view)
        expect((number, hive._view[4096 + place + 4:4096 + place + 6].tobytes()), (19, b"vk"))


@test
def refusals():
    """a refusal carries number, place, key and words, and can be stored"""
    expect(refusal(Hive("sample").key, "a\\\\b"), (16, None, None))
    try:
        Hive("no-root").check()
    except Refused as refused:
        again = pickle.loads(pickle.dumps(refused))
        expect((again.number, again.place, again.key, again.words), (12, 32, None, kiweamotu.WORDS[12]))
    made = kiweamotu._refusal(12, 32, 120)
    expect((made.place, made.key), (32, 120))
    expect(kiweamotu._refusal(17, 0, 0xFFFFFFFF).key, None)


@test
def security():
    """security items: the place and the key of 28, and that all else is read"""
    expect(refusal(Hive("no-item").check), (28, 32, 32))
    expect(refusal(Hive("wrong-count").check), (28, 1040, 32))
    expect(refusal(Hive("off-ring").check), (28, 760, 760))
    expect([key.path for key in Hive("off-ring").walk()], [key.path for key in Hive("sources").walk()])


@test
def namesakes():
    """two values of one name and wrong hints: the place and the key, the first of two is read, and the plain reading of the request agrees"""
    expect(refusal(Hive("names").check), (29, 520, 32))
    expect(refusal(Hive("wrong-hint").check), (13, 208, 208))
    expect((Hive("names").value("", "A\nb").data, Hive("wrong-hint").key("BETA").offset), (b"xyzxyz", 208))
    for seed in range(100):
        dice = random.Random(seed)
        values = [hives.Value(dice.choice(("", "a", "A", "b", "\xe9", "\xc9", "\xff", "\u0178", "c\0", "c")), wide=dice.choice((None, True))) for _ in range(dice.randrange(5))]
        keys = [hives.Key(name, [], values if i == 1 else []) for i, name in enumerate(("aB", "beta", "g\u0416", "\xe9\xff"))]
        made = hives.Builder(hives.Key("root", keys, lists=dice.choice(("lf", [("lf", 2), ("lh", 2)]))))
        file = bytearray(made.hive)
        hints = [place for place, _width, what in made.fields if what == "hash"]
        for _ in range(dice.randrange(3)):
            file[dice.choice(hints) + dice.randrange(4)] ^= dice.choice((1, 32, 255))
        hive = Hive(file)
        expect(told(lambda: tuple(hive.check())), told(hives.check, file, bytearray(len(file) // 64)))


@test
def loops():
    """a walk ends on any bytes"""
    made = hives.Builder(hives.Key("root", [hives.Key("a", [hives.Key("b")])]))
    root = made.root
    a, = Hive(made.hive).subkeys
    b, = a.subkeys
    listed = hives.u32(made.hive, 4096 + a.offset + 4 + 28)
    for leads_to, number in ((root, 14), (a.offset, 14), (b.offset, 0)):
        file = hives.edited(made.hive, (4096 + listed + 8, struct.pack("<I", leads_to)))
        if number:
            expect(refusal(lambda: list(Hive(file).walk()))[:2], (number, leads_to))
        else:
            expect([k.name for k in Hive(file).walk()], ["root", "a", "b"])
    file = hives.edited(made.hive, (4096 + listed + 8, struct.pack("<I", root)), (4096 + root + 4 + 16, struct.pack("<I", a.offset)))
    expect(refusal(lambda: list(Hive(file).walk()))[:2], (14, root))
    twice = hives.Builder(hives.Key("root", [hives.Key("a"), hives.Key("b")]))
    listed = hives.u32(twice.hive, 4096 + twice.root + 4 + 28)
    first = hives.u32(twice.hive, 4096 + listed + 8)
    file = hives.edited(twice.hive, (4096 + listed + 16, struct.pack("<I", first)))
    expect(refusal(lambda: list(Hive(file).walk()))[:2], (13, first))
    deep = hives.Key("x")
    for _ in range(513):
        deep = hives.Key("x", [deep])
    expect(refusal(lambda: list(Hive(hives.Builder(deep).hive).walk()))[0], 15)


@test
def every_key():
    """the keys, each once, by the proved walk"""
    for file in ("sample", "letters", "notation", "sources", "minimal"):
        hive, data = Hive(file), bytes_of(file)
        expect([(k.offset, k.path, k.name) for k in hive.keys()], [(k.offset, k.path, k.name) for k in hive.walk()])
        expect([k.offset for k in hive.keys()], [e[1] for e in hives.events(data) if e[0] == hives.WALK_OPENS])
        expect(len(list(hive.keys())), hive.check().keys)
        if file != "notation":  # where JSON cannot hold a name
            expect([k.path for k in hive.keys()], [json.loads(line)["path"] for line in asked("keys", "--json", file).splitlines()])
        for key in hive.walk():
            expect([k.offset for k in hive.keys(key.path)], [k.offset for k in key.walk()])
    for seed in range(40):
        dice = random.Random(seed)
        names = sorted({"%c%d" % (dice.choice("kK"), dice.randrange(30)) for _ in range(dice.randrange(12))}, key=lambda n: hives.folded(hives.units(n)))
        keys = [hives.Key(n, [hives.Key("x")] * dice.randrange(2), lists=dice.choice(("li", "lf", "lh"))) for n in {hives.name_hash(hives.units(n)): n for n in names}.values()]
        made = hives.Builder(hives.Key("root", keys, lists=[(dice.choice(("li", "lf", "lh")), 1) for _ in keys] if keys else "lh"))
        file = bytearray(made.hive)
        if dice.random() < 0.5:
            file[4096 + 32 + dice.randrange(2000)] ^= 1 << dice.randrange(8)
        listed = lambda: [k.offset for k in Hive(file).keys()]
        wanted = lambda: hives.check(file, bytearray(len(file) // 64)) and [e[1] for e in hives.events(file) if e[0] == hives.WALK_OPENS]
        expect(told(listed), told(wanted))
    expect(refusal(lambda: list(Hive("bad-key").keys()))[:2], (12, 120))
    expect(refusal(lambda: list(Hive("sample").keys("nobody")))[0], 17)
    expect(refusal(lambda: list(Hive("chain").keys()))[0], 15)


@test
def words_that_are_none():
    """a name that is no str and an offset that is none are told as such"""
    hive = Hive("sample")
    words = "a name or a path is a str, not %s"
    for name in (None, b"", b"a", 0, 7, ["a"]):
        for call in (hive.key, hive.value, hive.root.key, hive.key("a").key, hive.root.value, lambda n: hive.value("a", n), lambda n: list(hive.keys(n)),
                     lambda n: hive.key(n, quick=True)):
            expect(trouble(call, name), (TypeError, words % type(name).__name__))
    at = hive.key("a").offset
    for offset in (-1, at - 2**32, at + 2**32, 2**32, 2**64 + at):
        expect(trouble(Key, hive, offset, ""), (ValueError, "an offset is a number from 0 to 4294967295, not %d" % offset))
    for offset in ("32", None, 32.0):
        expect(trouble(Key, hive, offset, "")[0], TypeError)
    expect((Key(hive, at, "").name, refusal(Key, hive, 2**32 - 1, "")[0]), ("a", 11))
    for out in (5, b"python-frames", ["python-frames"]):
        expect(trouble(hive.export, out)[0], TypeError)
    for call in (lambda: build(hive.export(), 5), lambda: build(5), lambda: Hive(5), lambda: repair(5, "log"), lambda: Hive("sample", log=5)):
        expect(trouble(call)[0], TypeError)


def sparse(path, hive, length):
    """A file of that length and nearly all a hole: the hive, whose one bin and last free cell, which starts so, go on to its end."""
    made = bytearray(hive)
    (cell, _end), = hives.free_cells(made[4096:])
    for place, number in ((40, length - 4096), (4096 + 8, length - 4096), (4096 + cell, length - 4096 - cell)):
        struct.pack_into("<I", made, place, number)
    hives.seal(made)
    with open(path, "wb") as file:
        file.write(made)
        file.truncate(length)
    return made


PEAK = "print([line.split()[1] for line in open('/proc/self/status') if line.startswith('VmHWM')][0])"


@test
def holes():
    """a hole of a file takes no memory: 2 GiB checked, read by its log, lengthened and repaired in less than 200 MiB"""
    made = sparse("python-longest", hives.Builder(hives.Key("root")).hive, 2**31)
    with open("python-log", "wb") as file:
        file.write(hives.old_log(made, {0: bytes(made[4096:4608])}))
    with open("python-log-grown", "wb") as file:
        file.write(hives.new_log(made, [hives.entry(1, 2**31 - 4096, [(0, bytes(made[4096:4608]))])], 1))
    for path, length in (("python-torn", 2**31), ("python-short", 2**31 - 4096)):
        with open(path, "wb") as file:
            file.write(hives.torn(made))
            file.truncate(length)
    wanted = "Report(bins=1, keys=1, values=0, used=112, free=2147479408)"
    for call in ("Hive('python-longest').check()", "Hive('python-torn', 'python-log').check()", "Hive('python-short', 'python-log-grown', grow=True).check()",
                 "repair('python-torn', 'python-log').report", "repair('python-short', 'python-log-grown', grow=True).report"):
        found, status = printed("print(%s)\n" % call + PEAK)
        expect((found.splitlines()[:1], status), ([wanted], 0))
        expect((call, int(found.split()[-1]) < 200 * 1024), (call, True))
    expect([os.stat(path).st_blocks * 512 < 2**20 for path in ("python-torn", "python-short")], [True, True])
    remove("python-longest", "python-log", "python-log-grown", "python-torn", "python-short")


@test
def reading():
    """a file is read as it is, with holes anywhere, and where its file system does not tell of them; a directory is none"""
    dice, data = random.Random(1), bytearray(3 * 2**20 + 5)
    with open("python-holes", "wb") as file:
        file.truncate(len(data))
        for at in [0] + [dice.randrange(len(data) // 4096) * 4096 for _ in range(20)]:
            piece = bytes(dice.randrange(1, 256) for _ in range(dice.choice((1, 4096, 9000))))[:len(data) - at]
            data[at:at + len(piece)] = piece
            file.seek(at)
            file.write(piece)
    lseek = os.lseek

    def silent(fd, at, how):
        if how in (os.SEEK_DATA, os.SEEK_HOLE):
            raise OSError(errno.EINVAL, "not known")
        return lseek(fd, at, how)

    for seek in (lseek, silent):
        with mock.patch("os.lseek", seek):
            expect(bytes(Hive("python-holes")._view) == data, True)
    with open("python-holes", "ab") as file:
        file.truncate(2**22)
    expect(bytes(Hive("python-holes")._view) == data.ljust(2**22, b"\0"), True)
    remove("python-holes")
    expect(trouble(Hive, ".")[0], IsADirectoryError)
    expect(len(Hive("/proc/self/status")._view) > 100, True)
    os.mkfifo("python-pipe")
    with subprocess.Popen(["sh", "-c", "cat sample >python-pipe"]):
        expect(bytes(Hive("python-pipe")._view), bytes_of("sample"))
    remove("python-pipe")


@test
def too_long():
    """a file that is longer than any hive or log is not read"""
    with open("python-long", "wb") as file:
        file.truncate(2**32 + 1)
    words = "it has more than %d bytes, and no hive, log or stream is so long"
    for call in (lambda: Hive("python-long"), lambda: Hive("spoilt", "python-long"), lambda: build("python-long"), lambda: repair("python-long", "log"),
                 lambda: kiweamotu.log_facts("python-long")):
        expect(trouble(call), (OSError, words % 2**32))
    remove("python-long")
    with mock.patch.object(kiweamotu, "LONGEST", 2**21):
        expect(trouble(Hive, "/dev/zero"), (OSError, words % 2**21))


class Narrow(io.RawIOBase):
    """A file that takes a few bytes at a time."""

    def __init__(self):
        self.taken = b""

    def write(self, data):
        self.taken += data[:7]
        return min(7, len(data))


@test
def exported():
    """the tree as frames: the tool's stream and the plain reading's; to a new file, to open ones, in small runs"""
    for file in ("sample", "letters", "notation", "sources", "minimal"):
        hive, wanted = Hive(file), hives.stream_of(bytes_of(file))
        report, many = hive.check(), Narrow()
        told_of = (2 * report.keys + report.values, len(wanted))
        expect(hive.export(), wanted)
        expect(hive.export(many), told_of)
        with open("python-open", "wb") as to:
            expect(hive.export(to), told_of)
        expect(hive.export("python-frames"), told_of)
        expect(asked("export", file, "python-tool"), "exported frames %d bytes %d\n" % told_of)
        expect((many.taken, bytes_of("python-open"), bytes_of("python-frames"), bytes_of("python-tool")), (wanted,) * 4)
        expect(subprocess.run(tool + ["export", file], stdout=subprocess.PIPE, check=True).stdout, wanted)
        for name in ("python-open", "python-frames", "python-tool"):
            os.remove(name)
        with mock.patch.object(kiweamotu, "ROOM", max(len(data) for _, data in hives.tree_frames(bytes_of(file)))):
            expect((hive.export(), hive.export(io.BytesIO())), (wanted, told_of))
        with mock.patch.object(kiweamotu, "ROOM", 5):
            expect(refusal(hive.export), (20, None, hive.root.offset))


@test
def exported_at_random():
    """the tree as frames agrees with the plain reading of the request, also where the hive is refused"""
    for seed in range(60):
        dice = random.Random(seed)
        sizes = (0, 1, 4, 5, 100, 16344, 16345, 40000)
        values = [hives.Value(name, bytes(dice.randrange(256) for _ in range(dice.choice(sizes))), dice.randrange(2**32)) for name in dice.sample(["", "a", "b\\c", "\xe9", "\u0141"], dice.randrange(5))]
        keys = [hives.Key(name, [hives.Key("x", [], values[:1], stamp=dice.randrange(2**64))] * dice.randrange(2), values[i:], stamp=dice.randrange(2**64))
                for i, name in enumerate(("Alpha", "b\xe9", "\u0141")[:dice.randrange(4)])]
        made = hives.Builder(hives.Key("root", keys, values, stamp=dice.randrange(2**64)), minor=dice.choice((3, 4, 5)))
        file = bytearray(made.hive)
        if dice.random() < 0.4:
            place, width, _what = dice.choice(made.fields)
            file[place + dice.randrange(width)] ^= 1 << dice.randrange(8)
        wanted = lambda: hives.check(file, bytearray(len(file) // 64)) and hives.stream_of(file)
        expect(told(Hive(file).export), told(wanted))


@test
def not_exported():
    """the tree as frames: a refusal writes nothing, and no file is written over"""
    for out in (None, "python-frames", io.BytesIO()):
        expect(refusal(Hive("bad-key").export, *[out] * (out is not None))[:2], (12, 120))
        expect(out.getvalue() if isinstance(out, io.BytesIO) else b"", b"")
    expect(refusal(Hive("spoilt").export), (7, None, None))
    expect(Hive("spoilt", log="log").export(), Hive("sample").export())
    before = bytes_of("sample")
    with contextlib.suppress(FileExistsError):
        Hive("minimal").export("sample")
        raise AssertionError("not refused")
    with contextlib.suppress(FileExistsError), mock.patch("os.path.lexists", lambda path: False):  # it came after the look
        Hive("minimal").export("sample")
        raise AssertionError("not refused")
    expect(bytes_of("sample"), before)
    expect([name for name in os.listdir(".") if name.startswith(("python-frames", "sample.part"))], [])


class Full:
    """A file that takes no byte, which the third question would not change."""

    def __init__(self, answer):
        self.answer, self.asked = answer, 0

    def write(self, *_):
        self.asked += 1
        if self.asked > 2:
            raise AssertionError("it was asked again and again")
        return self.answer


@test
def no_room():
    """a write that takes nothing is an error with words, and leaves no file"""
    hive = Hive("sample")
    for answer in (0, -1):
        expect(trouble(hive.export, Full(answer)), (OSError, "the file takes no more bytes: its write answers %d" % answer))
    with mock.patch("os.write", Full(0).write):
        expect(trouble(hive.export, "python-frames"), (OSError, "the file takes no more bytes: its write answers 0"))
    with mock.patch("os.pwrite", Full(0).write):
        expect(trouble(build, hive.export(), "python-built"), (OSError, "cannot write at byte 0: no room"))
    shutil.copy("spoilt", "python-file")
    with mock.patch("os.pwrite", Full(0).write):
        expect(trouble(repair, "python-file", "log", backup="python-kept"), (OSError, "cannot write at byte 0: no room"))
    with mock.patch("os.pwrite", Full(0).write):
        expect(trouble(repair, "python-file", "log", backup=False), (OSError, "cannot write at byte 4096: no room"))
    expect([name for name in os.listdir(".") if name.startswith(("python-frames", "python-built", "python-kept"))], [])


@test
def too_much():
    """an export that is far longer than its hive stops, leaves no file, and goes on where that is asked for"""
    expect((kiweamotu.MANY, kiweamotu.ENOUGH), (100, 2**30))
    hive, longest = Hive("sample"), max(len(data) for _, data in hives.tree_frames(bytes_of("sample")))
    wanted, taken = hive.export(), io.BytesIO()
    most = len(wanted) - 1
    with mock.patch.multiple(kiweamotu, MANY=0, ENOUGH=most, ROOM=longest):  # ROOM: in many runs
        for out in ((), ("python-frames",), (taken,)):
            expect(trouble(hive.export, *out), (OSError, "the stream has more than %d bytes, far more than its hive; any_length=True writes them all the same" % most))
        expect([name for name in os.listdir(".") if name.startswith("python-frames")], [])
        expect((wanted.startswith(taken.getvalue()), 0 < len(taken.getvalue()) <= most), (True, True))
        expect((hive.export(any_length=True), hive.export("python-frames", any_length=True).bytes, bytes_of("python-frames")), (wanted, len(wanted), wanted))
    remove("python-frames")
    for many, enough in ((0, len(wanted)), (1, 0)):  # the larger of the two counts, and the hive is longer than its stream
        with mock.patch.multiple(kiweamotu, MANY=many, ENOUGH=enough):
            expect(hive.export(), wanted)


def unbuilt(call, *args, **named):
    """What a call refuses to build, of the library or of the model: its number, and the byte or 0."""
    try:
        return call(*args, **named)
    except Unbuilt as refused:
        expect((refused.place, refused.key, refused.words), (None, None, kiweamotu.WORDS[refused.number]))
        return refused.number, refused.at or 0
    except plain.Unbuilt as refused:
        return refused.number, refused.at


@test
def built():
    """a hive from frames: the model's and the tool's bytes, and back again; from files, memory and parts of it"""
    for file in ("sample", "letters", "notation", "sources", "minimal", "reg"):
        frames = Hive(file).export()
        for descriptor in (None, b"", bytes(range(200)), bytearray(4000)):
            hive = build(frames, descriptor=descriptor)
            expect(hive, plain.build(frames, kiweamotu.DESCRIPTOR if descriptor is None else bytes(descriptor), 2**31))
            expect(Hive(hive).export(), frames)
        Hive(file).export("python-frames")
        report = build("python-frames", "python-built")
        expect((report, bytes_of("python-built")), (Hive("python-built").check(), build(memoryview(frames))))
        expect(asked("build", "python-frames", "python-tool"), "built %d\naccepted bins %d keys %d values %d used %d free %d\n" % (len(build(frames)), *report))
        expect(bytes_of("python-tool"), bytes_of("python-built"))
        expect(build("python-frames", descriptor="python-frames"), build(frames, descriptor=frames))
        for name in ("python-frames", "python-built", "python-tool"):
            os.remove(name)


def frames_at_random(dice, level=0):
    """A key with what is below it, mostly good."""
    some = lambda: "".join(dice.choice("abAB_\xe9\xc9\xff\u0178\u0141") for _ in range(dice.choice((1, 1, 2, 3))))
    out = hives.framed(16, struct.pack("<Q", dice.randrange(2**64)) + some().encode("utf-16-le"))
    for name in sorted(set(some() for _ in range(dice.randrange(4)))):
        data = bytes(dice.choice((0, 1, 4, 5, 100, 16344, 16345)))
        out += hives.framed(17, struct.pack("<II", dice.randrange(12), 2 * len(name)) + name.encode("utf-16-le") + data)
    below = [frames_at_random(dice, level + 1) for _ in range(0 if level > 2 else dice.randrange(4))]
    if dice.random() < 0.9:
        below.sort(key=lambda frames: hives.folded(plain.frame_at(frames, 0).name))
    return out + b"".join(below) + hives.framed(18)


@test
def built_at_random():
    """a hive from frames agrees with the model, also where it is refused"""
    met = set()
    for seed in range(400):
        dice = random.Random(seed)
        frames = bytearray(frames_at_random(dice))
        if dice.random() < 0.4:
            frames[dice.randrange(len(frames))] ^= 1 << dice.randrange(8)
        if dice.random() < 0.1:
            del frames[dice.randrange(len(frames)):]
        descriptor = bytes(dice.randrange(300))
        wanted = unbuilt(plain.build, bytes(frames), descriptor, 2**31)
        expect(unbuilt(build, frames, descriptor=descriptor), wanted)
        met.add(wanted[0] if isinstance(wanted, tuple) else 0)
    expect(met >= {0, 30, 32, 33, 34}, True)


@test
def not_built():
    """a hive from frames: a refusal writes nothing, names a byte of the stream, and no file is written over"""
    good = Hive("minimal").export()
    for frames, wanted in ((b"", (32, 0)), (good[:-1], (30, 16)), (good[:16], (32, 16)), (good * 2, (32, 22)), (bytes_of("sample"), (30, 0))):
        expect(unbuilt(build, frames), wanted)
        expect(unbuilt(build, frames, "python-built"), wanted)
    try:
        build(good[:16])
    except Unbuilt as refused:
        again = pickle.loads(pickle.dumps(refused))
        expect((type(again), again.number, again.at, again.place, again.key, str(again)), (Unbuilt, 32, 16, None, None, str(refused)))
    before = bytes_of("sample")
    with contextlib.suppress(FileExistsError):
        build(good, "sample")
        raise AssertionError("not refused")
    with contextlib.suppress(FileNotFoundError):
        build("python-no-frames", "python-built")
        raise AssertionError("not refused")
    expect(bytes_of("sample"), before)
    expect([name for name in os.listdir(".") if name.startswith(("python-built", "sample.part"))], [])
    with mmap.mmap(-1, 2147479409) as untouched:
        try:
            build(good, descriptor=untouched)
            raise AssertionError("not refused")
        except Unbuilt as refused:
            expect((refused.number, refused.at, str(refused)), (39, None, "refused 39: the hive would be longer than a hive can be"))


class Cut(Exception):
    pass


@contextlib.contextmanager
def traced(steps, cut=None, kind=Cut):
    """Notes every store and sync, and raises Cut, or another, in place of the one of that number."""
    pwrite, fsync, ftruncate = os.pwrite, os.fsync, os.ftruncate

    def note(step):
        if len(steps) == cut:
            raise kind
        steps.append(step)

    def stored(fd, data, at):
        note("pwrite %d %d" % (at, len(data)))
        return pwrite(fd, data, at)

    def synced(fd):
        note("fsync")
        return fsync(fd)

    def lengthened(fd, length):
        note("ftruncate %d" % length)
        return ftruncate(fd, length)

    with mock.patch("os.pwrite", stored), mock.patch("os.fsync", synced), mock.patch("os.ftruncate", lengthened):
        yield


PAGES = ["pwrite %d 512" % (4096 + 512 * page) for page in (0, 3, 4, 17, 30, 31, 64, 127)]


@test
def order():
    """repair: the tool's order of stores and syncs"""
    shutil.copy("spoilt", "python-file")
    with contextlib.suppress(FileNotFoundError):
        os.remove("python-kept")
    steps = []
    with traced(steps):
        done = repair("python-file", "log", backup="python-kept")
    expect(steps, ["pwrite 0 69632", "fsync", "fsync"] + PAGES + ["fsync", "pwrite 0 512", "fsync"])
    expect((done.clean, done.pages, done.written, done.report, done.refused), (False, 8, True, Hive("sample").check(), None))
    expect((bytes_of("python-file"), bytes_of("python-kept")), (bytes_of("sample"), bytes_of("spoilt")))
    steps.clear()
    with traced(steps):
        expect(repair("python-file", "log", backup=False).clean, True)
    expect(steps, ["pwrite 0 512", "fsync"])
    expect(bytes_of("python-file"), bytes_of("sample"))


@test
def cuts():
    """repair: cut before each store and sync, then done again"""
    for cut in range(len(PAGES) + 3):
        shutil.copy("spoilt", "python-file")
        with contextlib.suppress(Cut), traced([], cut):
            repair("python-file", "log", backup=False)
            raise AssertionError("not cut")
        if cut < len(PAGES) + 2:  # the closing sector is not stored
            expect(refusal(Hive("python-file").check), (7, None, None))
        expect(repair("python-file", "log", backup=False).report, Hive("sample").check())
        expect(bytes_of("python-file"), bytes_of("sample"))


@test
def nothing_written():
    """repair: a refusal, a dry run, a lock and a backup that is there change nothing"""
    shutil.copy("spoilt", "python-file")
    expect(repair("python-file", "log", dry_run=True).written, False)
    expect(refusal(repair, "python-file", "short-log"), (22, None, None))
    expect(refusal(repair, "python-file", "bad-log"), (9, 0, None))
    for extra, kind in (({"backup": "sample"}, FileExistsError), ({"backup": "nowhere/kept"}, FileNotFoundError)):
        with contextlib.suppress(kind):
            repair("python-file", "log", **extra)
            raise AssertionError("not refused")
    with contextlib.suppress(FileExistsError), mock.patch("os.path.lexists", lambda path: False):  # it came after the look
        repair("python-file", "log", backup="sample")
        raise AssertionError("not refused")
    with open("python-file", "rb") as other:
        fcntl.flock(other, fcntl.LOCK_EX)
        with contextlib.suppress(BlockingIOError):
            repair("python-file", "log", backup=False)
            raise AssertionError("not locked")
    expect(bytes_of("python-file"), bytes_of("spoilt"))
    expect([name for name in os.listdir(".") if name.startswith("sample.part")], [])


@test
def unsound():
    """repair: what the check would refuse is written only if it is asked for"""
    shutil.copy("spoilt", "python-file")
    try:
        repair("python-file", "bad-log")
        raise AssertionError("not refused")
    except Unsound as refused:
        expect((refused.number, bytes_of("python-file")), (9, bytes_of("spoilt")))
    done = repair("python-file", "bad-log", anyway=True)
    expect((done.written, done.report, done.refused.number), (True, None, 9))
    expect(refusal(repair, "python-file", "bad-log"), (9, 0, None))
    for dry in (False, True):
        again = repair("python-file", "bad-log", anyway=True, dry_run=dry)
        expect((again.clean, again.pages, again.written, again.report, again.refused.number), (True, 0, False, None, 9))


@test
def logs():
    """a log is read in memory alone"""
    data, log = bytearray(bytes_of("spoilt")), bytes_of("log")
    expect(Hive(data, log).check(), Hive("sample").check())
    expect(bytes(data), bytes_of("spoilt"))
    expect(Hive("sample", b"").check(), Hive("sample").check())
    expect(refusal(Hive, "spoilt", "short-log"), (22, None, None))


@test
def new_logs():
    """logs of Windows 8.1 and later: one, two in either order, the later alone, one that does not fit"""
    for log, logs in (("new-log", (0,)), (["new-log1", "new-log2"], (0, 1)), (["new-log2", "new-log1"], (1, 0)), (["empty", "new-log"], (1,))):
        expect(Hive("spoilt", log).check(), Hive("sample").check())
        shutil.copy("spoilt", "python-file")
        steps = []
        with traced(steps):
            done = repair("python-file", log, backup=False)
        expect((done.pages, done.written, done.logs, done.lengthened, done.report), (8, True, logs, None, Hive("sample").check()))
        expect(steps, PAGES + ["fsync", "pwrite 0 512", "fsync"])
        expect(bytes_of("python-file"), bytes_of("sample-10"))
        expect(repair("python-file", log, backup=False).clean, True)
    shutil.copy("spoilt-8", "python-file")
    expect(repair("python-file", ["new-log1", "new-log2"]).logs, (1,))
    expect(bytes_of("python-file"), bytes_of("sample-10"))
    expect(refusal(Hive, "spoilt", "new-log2"), (25, None, None))
    expect(refusal(Hive, "spoilt-8", ["new-log1", "new-log-gap"]), (25, None, None))
    expect(refusal(Hive, "spoilt", ["empty", "minimal"]), (21, None, None))
    expect(refusal(Hive, "spoilt", "no-entry"), (22, None, None))


@contextlib.contextmanager
def folder(**files):
    """A folder with copies of those files under these names, S being the hive; _ stands for a dot in them."""
    shutil.rmtree("python-beside", ignore_errors=True)
    os.mkdir("python-beside")
    for name, source in files.items():
        shutil.copy(source, os.path.join("python-beside", name.replace("_", ".")))
    yield os.path.join("python-beside", "S")
    shutil.rmtree("python-beside")


def left_out(call, *words, **more):
    """What LeftOut says: the names without their folder."""
    try:
        call(*words, **more)
    except kiweamotu.LeftOut as left:
        expect(left.other in str(left), True)
        base = lambda name: None if name is None else os.path.basename(name)  # noqa: E731
        return base(left.log), base(left.other), None if left.logs is None else [base(name) for name in left.logs], left.number
    raise AssertionError("not left out")


@test
def beside():
    """the logs beside a hive are taken where none is named"""
    good = Hive("sample").check()
    for files, logs in (({"S_LOG1": "new-log1", "S_LOG2": "new-log2"}, (0, 1)), ({"S_LOG1": "new-log2", "S_LOG2": "new-log1"}, (1, 0)), ({"S_LOG": "log"}, (0,)),
                        ({"S_LOG1": "empty", "S_LOG2": "new-log", "S_LOG": "short-log"}, (0,)), ({"s_log1": "new-log"}, (0,)),
                        ({"S_log1": "new-log-gap", "S_LOG1": "new-log"}, (0,)), ({"S_LOG1": "new-log", "S_LOG2": "new-log"}, (0,))):
        with folder(S="spoilt", **files) as hive:
            expect(Hive(hive, logs=True).check(), good)
            expect(repair(hive, dry_run=True).logs, logs)
            done = repair(hive, logs=True)
            expect((done.report, done.logs, done.backup), (good, logs, hive + ".before-repair"))
            expect(bytes_of(done.backup), bytes_of("spoilt"))
    with folder(S="spoilt") as hive:
        expect(refusal(repair, hive), (21, None, None))
        expect(refusal(Hive, hive, logs=True), (21, None, None))
        os.mkfifo(hive + ".LOG1")
        expect(refusal(repair, hive), (21, None, None))
    for wrong in (lambda: Hive(b"", logs=True), lambda: Hive("spoilt", "log", logs=True), lambda: Hive("spoilt", ["log", "new-log", "new-log-gap"])):
        expect(trouble(wrong)[0], ValueError)
    expect(Hive("spoilt", ["new-log", "new-log", "empty"]).check(), good)


@test
def left():
    """a log that is named does not lose one that lies beside it"""
    good = Hive("sample").check()
    with folder(S="spoilt", S_LOG1="new-log1", S_LOG2="new-log2", other="new-log1") as hive:
        both = ["S.LOG1", "S.LOG2"]
        for call in (Hive, repair):
            expect(left_out(call, hive, hive + ".LOG1"), ("S.LOG1", "S.LOG2", both, None))
            expect(left_out(call, hive, os.path.join("python-beside", "other")), ("other", "S.LOG2", ["other", "S.LOG2"], None))
            expect(left_out(call, hive, bytes_of("new-log1")), (None, "S.LOG2", [None, "S.LOG2"], None))
            expect(left_out(call, "spoilt", hive + ".LOG1"), ("S.LOG1", "S.LOG2", both, None))
            expect(left_out(call, hive, [hive + ".LOG1", hive + ".LOG1"]), ("S.LOG1", "S.LOG2", both, None))
        expect(left_out(Hive, bytes_of("spoilt"), hive + ".LOG1"), ("S.LOG1", "S.LOG2", both, None))
        expect(bytes_of(hive), bytes_of("spoilt"))
        expect(Hive(hive, [hive + ".LOG2", hive + ".LOG1"]).check(), good)
        expect(refusal(repair, hive, hive + ".LOG1", only_this_log=True, dry_run=True)[0], refusal(Hive("spoilt", "new-log1").check)[0])
    with folder(S="spoilt", S_LOG1="new-log", S_LOG2="new-log1") as hive:
        expect(left_out(Hive, hive, hive + ".LOG2"), ("S.LOG2", "S.LOG1", ["S.LOG1"], None))
        expect(Hive(hive, hive + ".LOG1").check(), good)
    with folder(S="torn-base", S_LOG1="torn-log1", S_LOG2="torn-log2") as hive:
        expect(left_out(repair, hive, hive + ".LOG2"), ("S.LOG2", "S.LOG1", None, 25))
        expect(refusal(repair, hive), (25, None, None))
        expect(bytes_of(hive), bytes_of("torn-base"))


@test
def kept():
    """repair: the copy that is kept, made or there already, and cut before each store and sync"""
    with folder(S="spoilt") as hive:
        copy, steps = hive + ".before-repair", []
        with traced(steps):
            expect(repair(hive, "log").backup, copy)
        expect(steps, ["pwrite 0 69632", "fsync", "fsync"] + PAGES + ["fsync", "pwrite 0 512", "fsync"])
        for cut in range(len(steps)):
            shutil.copy("spoilt", hive)
            os.remove(copy)
            with contextlib.suppress(Cut), traced([], cut):
                repair(hive, "log")
                raise AssertionError("not cut")
            expect(repair(hive, "log").report, Hive("sample").check())
            expect((bytes_of(hive), bytes_of(copy), os.path.lexists(copy + "2")), (bytes_of("sample"), bytes_of("spoilt"), False))
        expect((repair(hive, "log").clean, repair(hive, "log").backup), (True, None))
        for other in ("sample", "log", "empty"):
            shutil.copy("spoilt", hive)
            shutil.copy(other, copy)
            expect(repair(hive, "log").backup, copy + "2")
            expect((bytes_of(copy), bytes_of(copy + "2")), (bytes_of(other), bytes_of("spoilt")))
            shutil.copy("spoilt", hive)
            expect(trouble(repair, hive, "log", backup=copy)[0], FileExistsError)
            expect(bytes_of(hive), bytes_of("spoilt"))
        os.remove(copy)
        os.remove(copy + "2")
        os.link(hive, copy)  # the hive under a second name is no copy of it
        expect(repair(hive, "log").backup, copy + "2")
        shutil.copy("spoilt", hive)
        for none in (False, None):
            expect(repair(hive, "log", backup=none, dry_run=True).backup, None)
        expect(repair(hive, "log", backup=False).backup, None)


@test
def facts():
    """what a log says of itself agrees with the plain reading"""
    for name in ("new-log", "new-log1", "new-log2", "new-log-gap", "new-log-grown", "log"):
        log = bytes_of(name)
        read = hives.read_log(log)
        found = kiweamotu.log_facts(name)
        expect((found.entries, found.first, found.last, found.end, found.bins), (read.entries, read.first, read.last, read.end, read.bins))
        data = bytearray(bytes_of("spoilt"))
        start = kiweamotu._Start(data, log, (0,), False)
        expect(list(kiweamotu._marked(start)), sorted(read.versions))
    expect(refusal(kiweamotu.log_facts, b"regf"), (21, None, None))


@test
def grow():
    """repair: a hive that is shorter than its log wants it is lengthened where that is asked for, and cut before each step"""
    expect(refusal(Hive, "spoilt-short", "new-log-grown"), (24, None, None))
    expect(Hive("spoilt-short", "new-log-grown", grow=True).check(), Hive("sample").check())
    expect(refusal(Hive, "spoilt-short", "new-log-gap", grow=True), (24, None, None))
    shutil.copy("spoilt-short", "python-file")
    expect(refusal(repair, "python-file", "new-log-grown"), (24, None, None))
    expect(repair("python-file", "new-log-grown", dry_run=True, grow=True).lengthened, 69632)
    expect(bytes_of("python-file"), bytes_of("spoilt-short"))
    steps = []
    with traced(steps):
        expect(repair("python-file", "new-log-grown", grow=True, backup=False).lengthened, 69632)
    expect(steps[:3], ["ftruncate 69632", "fsync", PAGES[0]])
    for cut in range(len(steps)):
        shutil.copy("spoilt-short", "python-file")
        with contextlib.suppress(Cut), traced([], cut):
            repair("python-file", "new-log-grown", grow=True, backup=False)
            raise AssertionError("not cut")
        repair("python-file", "new-log-grown", grow=True, backup=False)
        expect(bytes_of("python-file"), bytes_of("sample-8"))


LOW = """
for fd in (0, 1, 2):
    os.close(fd)
used = set()
def noted(call):
    def do(fd, *more):
        used.add(fd)
        return call(fd, *more)
    return do
for name in ("pwrite", "write", "read", "pread", "preadv", "fsync", "lseek"):
    setattr(os, name, noted(getattr(os, name)))
before = os.listdir("/proc/self/fd")
%s
after = os.listdir("/proc/self/fd")
with open("python-told", "w") as to:
    to.write(str([after == before, to.fileno(), min(used) > 2]))
"""


@test
def descriptors():
    """no file that it opens has a descriptor of the standard ones, also where they are closed, and none stays open"""
    for call in ("repair('python-file', 'log', backup='python-kept')", "Hive('sample').export('python-kept')", "build('python-frames', 'python-kept')", "Hive('spoilt', 'log')"):
        remove("python-kept", "python-frames")
        shutil.copy("spoilt", "python-file")
        Hive("sample").export("python-frames")
        expect((call, printed(LOW % call)[1], bytes_of("python-told")), (call, 0, b"[True, 0, True]"))
    remove("python-told", "python-kept", "python-frames")


@contextlib.contextmanager
def beside():
    """Every call that may be long runs beside this thread, however little it was lent."""
    with mock.patch.object(kiweamotu, "LONG", 0):
        yield


@test
def the_same_beside():
    """what runs in a thread of its own answers the same, refusals too, and the program's stack size stays"""
    def answers():
        frames = Hive("sample").export()
        yield Hive("sample").check(), frames, build(frames), build(bytearray(frames)), list(Hive("left").deleted()), len(list(Hive("sample").keys()))
        yield refusal(Hive("no-root").check), refusal(Hive("spoilt").export), unbuilt(build, frames[:-1]), refusal(Hive, "spoilt", "short-log")
        for log in ("log", "new-log", ["new-log1", "new-log2"]):
            shutil.copy("spoilt", "python-file")
            yield repair("python-file", log, backup=False), bytes_of("python-file"), kiweamotu.log_facts("new-log")
    wanted, waits = list(answers()), []
    waited = kiweamotu._waited
    with beside(), mock.patch.object(kiweamotu, "_waited", lambda call: waits.append(1) or waited(call)):
        expect(list(answers()), wanted)
        expect(len(waits) > 20, True)
        with contextlib.suppress(ctypes.ArgumentError):
            kiweamotu._ask(kiweamotu._library.hive_key_at, Hive("sample")._lent, "no offset")
            raise AssertionError("not raised")
    before = threading.stack_size()
    expect(before, 0)
    with beside(), mock.patch.object(threading.Thread, "start", side_effect=RuntimeError("can't start new thread")):
        expect((Hive("sample").check(), threading.stack_size()), (wanted[0][0], before))
    in_thread = []
    with beside(), mock.patch.object(kiweamotu, "_waited", None):
        thread = threading.Thread(target=lambda: in_thread.append(Hive("sample").check()))
        thread.start()
        thread.join()
    expect(in_thread, [wanted[0][0]])


@test
def interrupted_anywhere():
    """repair: interrupted in each long call and before each store and sync, then done again"""
    waited = kiweamotu._waited
    for last in range(30):
        shutil.copy("spoilt", "python-file")
        calls = []

        def some(call):
            calls.append(1)
            if len(calls) > last:
                raise KeyboardInterrupt
            return waited(call)

        try:
            with beside(), mock.patch.object(kiweamotu, "_waited", some):
                repair("python-file", "log", backup=False)
            break
        except KeyboardInterrupt:
            pass
        expect(repair("python-file", "log", backup=False).report, Hive("sample").check())
        expect(bytes_of("python-file"), bytes_of("sample"))
    expect(last >= 6, True)
    for cut in range(len(PAGES) + 3):
        shutil.copy("spoilt", "python-file")
        with contextlib.suppress(KeyboardInterrupt), traced([], cut, KeyboardInterrupt):
            repair("python-file", "log", backup=False)
            raise AssertionError("not cut")
        expect(repair("python-file", "log", backup=False).report, Hive("sample").check())
        expect(bytes_of("python-file"), bytes_of("sample"))


def one_hash(count):
    """Names of one hash: two characters for each bit, the first one more and the second 37 less, or not."""
    return ["".join("\u3002\u30db" if n >> bit & 1 else "\u3001\u3100" for bit in range(17)) for n in range(count)]


def value_frames(names):
    return b"".join(hives.framed(17, struct.pack("<II", 3, 2 * len(name)) + name.encode("utf-16-le")) for name in names)


def open_frame(name):
    return hives.framed(16, bytes(8) + name.encode("utf-16-le"))


def slow_to_check():
    """A hive whose many keys share a list of values, each pair of which is compared for each key."""
    keys = ["k%04d" % n for n in range(2000)]
    below = [open_frame(key) + value_frames(one_hash(4096) if key == keys[0] else []) + hives.framed(18) for key in keys]
    hive = bytearray(build(open_frame("root") + b"".join(below) + hives.framed(18)))
    places = [4096 + key.offset + 4 + 36 for key in Hive(hive).subkeys]
    for place in places:
        hive[place:place + 8] = hive[places[0]:places[0] + 8]
    return hive


INTERRUPTED = """
import signal
signal.signal(signal.SIGINT, signal.default_int_handler)
try:
    print("starts", flush=True)
    %s
    print("ended", flush=True)
except KeyboardInterrupt:
    print("interrupted", flush=True)
"""


@test
def interrupted():
    """Ctrl-C is answered at once during a check, an export, a build and a repair that would take minutes, and the program ends"""
    slow = slow_to_check()
    for path, data in (("python-slow", slow), ("python-torn", hives.torn(slow)), ("python-log", hives.old_log(slow, {0: bytes(slow[4096:4608])})),
                       ("python-frames", open_frame("root") + value_frames(one_hash(2**17)) + hives.framed(18))):
        with open(path, "wb") as file:
            file.write(data)
    before = bytes_of("python-torn")
    for call in ("Hive('python-slow').check()", "Hive('python-slow').export('python-out')", "build('python-frames', 'python-out')", "repair('python-torn', 'python-log')"):
        process = child(INTERRUPTED % call)
        try:
            expect(process.stdout.readline(), b"starts\n")
            time.sleep(0.5)
            expect((call, process.poll()), (call, None))
            process.send_signal(signal.SIGINT)
            expect((call, process.communicate(timeout=15)[0], process.returncode), (call, b"interrupted\n", 0))
        finally:
            process.kill()
            process.communicate()
        expect([name for name in os.listdir(".") if name.startswith("python-out")], [])
    expect(bytes_of("python-torn") == before, True)
    remove("python-slow", "python-torn", "python-log", "python-frames")


@test
def signals():
    """a signal that another thread takes is answered too"""
    before, ends = signal.signal(signal.SIGINT, signal.default_int_handler), threading.Event()

    def work():
        signal.pthread_kill(threading.get_ident(), signal.SIGINT)
        ends.wait(30)

    started = time.monotonic()
    try:
        kiweamotu._waited(work)
        raise AssertionError("not interrupted")
    except KeyboardInterrupt:
        expect(time.monotonic() - started < 20, True)
    finally:
        ends.set()
        signal.signal(signal.SIGINT, before)


DEEP = """
import struct
def framed(kind, payload=b""): return struct.pack("<IH", len(payload), kind) + payload
def value(n): return framed(17, struct.pack("<II", 3, 8) + ("%04x" % n).encode("utf-16-le"))
def deep(level): return framed(16, bytes(8) + "x".encode("utf-16-le")) + b"".join(map(value, range(4097 if level == 512 else 17)))
frames = b"".join(map(deep, range(513))) + framed(18) * 513
def run():
    print(Hive(build(frames)).check().keys, Hive(build(frames)).export() == frames)
"""


@test
def stacks():
    """the deepest hive in a thread with little more than the 1 MiB of stack that is told, and from the main thread whatever a thread has; it is told"""
    for run in ("threading.stack_size(9 << 17)\nt = threading.Thread(target=run)\nt.start()\nt.join()", "threading.stack_size(1 << 15)\nkiweamotu.LONG = 0\nrun()"):
        expect(printed(DEEP + run), ("513 True\n", 0))
    expect("1 MiB of free stack" in kiweamotu.__doc__ and "threading.stack_size" in kiweamotu.__doc__, True)


os.remove("python-file")
print("%d passed, %d failed" % (passed, failed))
sys.exit(failed != 0)
