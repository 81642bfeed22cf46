#!/usr/bin/env python3
"""Writes crates/hive_runs/stdin, stdout and data/: the hives of the paper's Run figures and of the value calls, the orders that
the program runs on them, and the lines that it must write. Each answer is stated by hand, as far as it is short, and the model
of hives.py has to say the same, or the script stops. Run it at the top of the repository."""
import os
import struct

import hives
import usage
from hives import BASE, Builder, Item, Key, Refused, Value, u32

orders, lines = bytearray(), []
work, output = bytearray(32768), bytearray(1048640)
now = {"hive": bytearray(), "path": [], "name": []}


def order(kind, n=0, tail=b""):
    orders.extend(struct.pack("<BI", kind, n) + tail)


def follow(kind, tail):
    order(kind, len(tail), tail)


def say(text):
    follow(0, (text + "\n").encode())
    lines.append(text)


def pattern(n):
    """Bytes of which no two neighbouring parts are alike."""
    return bytes((i * 7 + i // 251) % 251 for i in range(n))


def store(name, hive):
    """A file of the program, and its hive from now on."""
    os.makedirs("crates/hive_runs/data", exist_ok=True)
    with open("crates/hive_runs/data/" + name, "wb") as f:
        f.write(hive)
    load(name, hive)


def load(name, hive):
    follow(1, name.encode())
    now.update(hive=bytearray(hive), path=[], name=[])


def change(*parts):
    """Bytes written to the hive, and the right checksum."""
    for place, data in parts:
        now["hive"][place:place + len(data)] = data
        follow(2, struct.pack("<I", place) + data)
    hives.seal(now["hive"])
    follow(2, struct.pack("<I", 508) + bytes(now["hive"][508:512]))


def at(path="", name=""):
    now.update(path=hives.units(path), name=hives.units(name))
    follow(3, hives.name_bytes(now["path"], True))
    follow(4, hives.name_bytes(now["name"], True))


def answer(call, form):
    try:
        return form(call())
    except Refused as r:
        return "refused %d at %d" % (r.number, r.place)


def line(stated, got):
    if stated is not None and stated != got:
        raise SystemExit("line %d: stated %r, the model says %r" % (len(lines) + 1, stated, got))
    lines.append(got)


def summed(what, data):
    lines.append("%s of %d sum %d" % (what, len(data), hives.name_hash(data)))


def check(stated, room=None):
    """With a work map of so many bytes: as many as it takes, unless said."""
    room = u32(now["hive"], 40) // 64 if room is None else room
    part = work[:room]
    order(5, room)
    line(stated, answer(lambda: hives.check(now["hive"], part), lambda r: "accepted bins %d keys %d values %d used %d free %d" % r))
    work[:room] = part
    summed("map", part)


def key(stated):
    order(6)
    line(stated, answer(lambda: hives.find_key(now["hive"], now["path"]), lambda o: "key at %d" % o))


def info(stated):
    order(7)
    line(stated, answer(lambda: hives.value_info(now["hive"], now["path"], now["name"]), lambda r: "%s type %d place %d length %d" % r[0]))


def view(stated):
    order(8)
    line(stated, answer(lambda: hives.value_info(now["hive"], now["path"], now["name"], True), lambda r: "%s type %d place %d length %d" % r[0]))
    try:
        summed("view", hives.value_view(now["hive"], now["path"], now["name"]))
    except Refused:
        summed("view", b"")


def copy(stated, room):
    part = output[:room]
    order(9, room)
    line(stated, answer(lambda: hives.value_copy(now["hive"], now["path"], now["name"], part), lambda n: "copied %d" % n))
    output[:room] = part
    summed("output", part)


def word(n):
    return struct.pack("<I", n % 2**32)


# ---- the runs

def levels():
    """Level 512 is the last."""
    chain = [Key("k%d" % i) for i in range(513)] + [Key("k513", values=[Value("v"), Value("V")])]
    for above, below in zip(chain, chain[1:]):
        above.subkeys.append(below)
    b = Builder(chain[0])
    store("levels", b.hive)
    last, over, item = chain[512], chain[513], b.items[0].at
    say("level 513")
    check("refused 15 at %d" % over.at)
    at("\\".join("K%d" % i for i in range(1, 513)))
    key("key at %d" % last.at)
    at("\\".join("k%d" % i for i in range(1, 514)))
    key("refused 16 at 0")
    say("hint before the level, and the level before a repeated name")
    leaf = u32(b.hive, BASE + 4 + last.at + 28)
    change((BASE + 4 + leaf, b"lf"), (BASE + 4 + leaf + 8, b"K513"))
    check("refused 13 at %d" % over.at)
    change((BASE + 4 + leaf + 8, b"k513"))
    check("refused 15 at %d" % over.at)
    say("level 512")
    change((BASE + 4 + last.at + 20, word(0)))
    check("refused 28 at %d" % item)
    change((BASE + 4 + item + 12, word(513)))
    used = -sum(n for n in sizes(now["hive"]) if n < 0)
    bins = u32(now["hive"], 40) // 4096
    check("accepted bins %d keys 513 values 0 used %d free %d" % (bins, used, 4096 * bins - 32 * bins - used))
    say("level before the values: the key at level 513 has a bad value list")
    change((BASE + 4 + last.at + 20, word(1)), (BASE + 4 + over.at + 36, word(1) + word(1)))
    check("refused 15 at %d" % over.at)
    say("order before the level")
    change((BASE + 4 + over.at + 16, word(0)))
    check("refused 14 at %d" % over.at)
    say("a map one byte short")
    change((BASE + 4 + last.at + 20, word(0)))
    check("refused 8 at 0", bins * 64 - 1)
    check("accepted bins %d keys 513 values 0 used %d free %d" % (bins, used, 4096 * bins - 32 * bins - used), bins * 64)
    check("accepted bins %d keys 513 values 0 used %d free %d" % (bins, used, 4096 * bins - 32 * bins - used), bins * 64 + 100)


def sizes(hive):
    """The signed sizes of all cells."""
    out, place, end = [], 0, u32(hive, 40)
    while place < end:
        cell, stop = place + 32, place + u32(hive, BASE + place + 8)
        while cell < stop:
            out.append(hives.signed_size(hive, BASE + cell))
            cell += abs(out[-1])
        place = stop
    return out


def both_sizes():
    """16,344 and 16,345 bytes, in one cell and in segments, under minor 3 and 4."""
    vs = {(n, form): Value("%s %d" % (form, n), pattern(n)) for n in (16344, 16345) for form in ("cell", "db")}
    b = SizedBuilder(Key("R", values=list(vs.values())), minor=4)
    store("sizes", b.hive)
    data = {k: u32(b.hive, BASE + 4 + v.at + 8) for k, v in vs.items()}
    for minor in (3, 4):
        change((24, word(minor)))
        for (n, form), v in vs.items():
            segmented = n > 16344 and minor == 4
            say("%d bytes in the form %s, minor %d" % (n, form, minor))
            at("", "%s %d" % (form, n))
            o = data[n, form]
            if segmented and form == "db":
                stated = "segments type 3 place %d length %d" % (BASE + o + 4, n)
            elif not segmented and form == "cell":
                stated = "cell type 3 place %d length %d" % (BASE + o + 4, n)
            else:
                stated = "refused 12 at %d" % o
            info(stated)
            view("refused 19 at %d" % v.at if segmented else stated)
            copy("copied %d" % n if stated[0] != "r" else stated, n)
    right = {3: ("cell", "cell"), 4: ("cell", "db")}
    for minor in (3, 4):
        for chosen in (("cell", "cell"), ("cell", "db"), ("db", "cell"), ("db", "db")):
            say("the check, minor %d, 16,344 bytes as %s, 16,345 as %s" % (minor, *chosen))
            change((24, word(minor)), *[(BASE + 4 + v.at + 8, word(data[n, chosen[n - 16344]])) for (n, _), v in vs.items()])
            wrong = [data[16344 + i, form] for i, form in enumerate(chosen) if form != right[minor][i]]
            used = -sum(n for n in sizes(now["hive"]) if n < 0)
            bins = b.count
            check("refused 12 at %d" % wrong[0] if wrong else "accepted bins %d keys 1 values 4 used %d free %d" % (bins, used, len(b.bins) - 32 * bins - used))


class SizedBuilder(Builder):
    """Lays data out by the value's name and not by its size: "cell .." in one cell, "db .." in segments."""

    count = 0

    def new_bin(self, room):
        self.count += 1
        Builder.new_bin(self, room)

    def lay_value(self, v):
        self.form = bytes(v.name)[:2]
        Builder.lay_value(self, v)

    def lay_data(self, data):
        if self.form != b"db":
            return self.store(data)
        parts = [data[i:i + hives.SEGMENT] for i in range(0, len(data), hives.SEGMENT)]
        listed = self.store(b"".join(word(self.store(p)) for p in parts))
        return self.store(struct.pack("<2sHI", b"db", len(parts), listed))


def segments():
    """65 segments for 1,048,576 bytes."""
    v = Value("Big", pattern(1048576), 7)
    root = Key("R", [Key("sub", values=[v])])
    b = Builder(root, minor=5)
    store("segments", b.hive)
    db = u32(b.hive, BASE + 4 + v.at + 8)
    listed = u32(b.hive, BASE + 4 + db + 4)
    first, last = u32(b.hive, BASE + 4 + listed), u32(b.hive, BASE + 4 + listed + 4 * 64)
    say("1,048,576 bytes in 65 segments")
    lines_before = len(lines)
    check(None)
    if not lines[lines_before].startswith("accepted bins "):
        raise SystemExit("65 segments: " + lines[lines_before])
    at("SUB", "bIG")
    info("segments type 7 place %d length 1048576" % (BASE + db + 4))
    view("refused 19 at %d" % v.at)
    copy("refused 20 at 0", 1048575)
    copy("copied 1048576", 1048576)
    copy("copied 1048576", 1048640)
    say("64 and 66 segments")
    for count in (64, 66):
        change((BASE + 4 + db + 2, struct.pack("<H", count)))
        check("refused 12 at %d" % db)
        info("refused 12 at %d" % db)
        copy("refused 12 at %d" % db, 1048640)
        view("refused 19 at %d" % v.at)
    change((BASE + 4 + db + 2, struct.pack("<H", 65)))
    say("one byte more")
    change((BASE + 4 + v.at + 4, word(1048577)))
    check("refused 12 at %d" % v.at)
    info("refused 12 at %d" % v.at)
    view("refused 12 at %d" % v.at)
    say("one byte less: the last segment's cell is longer than need be")
    change((BASE + 4 + v.at + 4, word(1048575)))
    copy("copied 1048575", 1048575)
    say("a last segment that is none, and the output too short: the segments first")
    change((BASE + 4 + listed + 4 * 64, word(last + 8)))
    check("refused 11 at %d" % (last + 8))
    copy("refused 11 at %d" % (last + 8), 10)
    say("the last segment's cell for the first segment: too short")
    change((BASE + 4 + listed + 4 * 64, word(last)), (BASE + 4 + listed, word(last)))
    check("refused 12 at %d" % last)
    copy("refused 12 at %d" % last, 1048576)
    say("the first segment twice: two records may use one cell")
    change((BASE + 4 + listed, word(first)), (BASE + 4 + listed + 4, word(first)))
    check(lines[lines_before])
    copy("copied 1048575", 1048576)


def values():
    """By name, unnamed, repeated, inline, of size 0, in one cell."""
    vs = [Value("none", b""), Value("i1", b"1", 1), Value("i2", b"12", 2), Value("i3", b"123", 3), Value("i4", b"1234", 4), Value("zero", b"", 5, inline=False), Value("Cell", pattern(100), 6),
          Value("twice", b"first one", 7), Value("TWICE", b"second", 8), Value("\u0416x\u0436", b"wide name", 9), Value("", b"unnamed value", 0x80000001), Value("back\\slash", b"b", 11)]
    sub = Key("sub", values=vs)
    empty = Key("empty")
    root = Key("R", [empty, sub])
    b = Builder(root)
    store("values", b.hive)
    check("refused 29 at %d" % vs[8].at)
    for v, name in zip(vs, ("NONE", "I1", "i2", "I3", "i4", "Zero", "cELL", "Twice", "twice", "\u0416X\u0436", "", "BACK\\SLASH")):
        say("the value " + (name if name.isascii() else "with the wide name") if name else "the value with no name")
        at("Sub", name)
        v = vs[7] if name == "twice" else v
        if v.inline:
            stated = "inline type %d place %d length %d" % (v.kind, BASE + v.at + 12, len(v.data))
        else:
            stated = "cell type %d place %d length %d" % (v.kind, BASE + 4 + u32(b.hive, BASE + 4 + v.at + 8) if v.data else 0, len(v.data))
        info(stated)
        view(stated)
        copy("copied %d" % len(v.data), len(v.data))
        copy("copied %d" % len(v.data), len(v.data) + 9)
        if v.data:
            copy("refused 20 at 0", len(v.data) - 1)
    missing(b, root, empty, sub, vs)


def letters():
    """Values whose names have letters past z, in either case."""
    vs = [Value("\xe9t\xe9", b"narrow", 1), Value("\xc0\u0416\xff", b"wide name", 2), Value("\xf7", b"divided", 3)]
    root = Key("R", values=vs)
    b = Builder(root)
    store("letters", b.hive)
    used = -sum(n for n in sizes(b.hive) if n < 0)
    check("accepted bins 1 keys 1 values 3 used %d free %d" % (used, 4064 - used))
    say("letters past z")
    for v, asked in ((vs[0], "\xe9t\xe9"), (vs[0], "\xc9T\xc9"), (vs[0], "\xe9T\xc9"), (vs[1], "\xe0\u0416\u0178"), (vs[1], "\xc0\u0416\xff"), (vs[2], "\xf7")):
        at("", asked)
        stated = "cell type %d place %d length %d" % (v.kind, BASE + 4 + u32(b.hive, BASE + 4 + v.at + 8), len(v.data))
        info(stated)
        view(stated)
        copy("copied %d" % len(v.data), len(v.data))
    say("and names that are others")
    for asked in ("\xe8t\xe9", "\xe0\u0436\xff", "\xe0\u0416\xdf", "\xd7"):
        at("", asked)
        info("refused 18 at 0")
        copy("refused 18 at 0", 9)


def missing(b, root, empty, sub, vs):
    """Keys and values that are not there, and faults on the way."""
    listed = u32(b.hive, BASE + 4 + sub.at + 40)
    say("no such value")
    for path, name in (("sub", "non"), ("sub", "\u0436x\u0436"), ("empty", ""), ("", ""), ("sub", "x" * 300)):
        at(path, name)
        info("refused 18 at 0")
        view("refused 18 at 0")
        copy("refused 18 at 0", 100)
    say("no such key, and no such path")
    for path, number in (("su", 17), ("sub\\sub", 17), ("sub\\", 16), ("\\", 16)):
        at(path, "i1")
        info("refused %d at 0" % number)
        copy("refused %d at 0" % number, 0)
    say("a fault behind the match is not met, and one before it is")
    change((BASE + 4 + vs[3].at, b"kv"))
    at("sub", "I2")
    info("inline type 2 place %d length 2" % (BASE + vs[2].at + 12))
    at("sub", "i4")
    info("refused 12 at %d" % vs[3].at)
    view("refused 12 at %d" % vs[3].at)
    copy("refused 12 at %d" % vs[3].at, 100)
    at("sub", "nothing")
    info("refused 12 at %d" % vs[3].at)
    say("a value list too short, and none")
    change((BASE + 4 + sub.at + 36, word(1000)))
    info("refused 12 at %d" % listed)
    change((BASE + 4 + sub.at + 40, word(listed + 4)))
    info("refused 11 at %d" % (listed + 4))
    change((BASE + 4 + sub.at + 36, word(0)))
    info("refused 18 at 0")
    say("a hive with two sequence numbers")
    change((4, word(77)))
    info("refused 7 at 0")
    copy("refused 7 at 0", 100)


def namesakes():
    """8,200 values in a key, which is three tables of 4,096; and 4,096 of one hash. The count in the key says how many of them there are."""
    vs = [Value("%04x" % i) for i in range(8200)]
    root = Key("R", values=vs)
    b = Builder(root)
    store("namesakes", b.hive)
    used, bins = -sum(n for n in sizes(b.hive) if n < 0), b.hive.count(b"hbin")
    accepted = lambda n: "accepted bins %d keys 1 values %d used %d free %d" % (bins, n, used, len(b.bins) - 32 * bins - used)
    named = lambda i, j: (BASE + 4 + vs[i].at + 20, b"%04X" % j)
    count = lambda n: (BASE + 4 + root.at + 36, word(n))
    own = lambda *which: change(*[named(i, i) for i in which])
    for n in (1, 2, 16, 17, 256, 257, 4096, 4097, 8191, 8192, 8193, 8200):
        say("%d values" % n)
        change(count(n))
        check(accepted(n))
        if n > 1:
            say("the last repeats the first, and the one before it")
            for j in (0, n - 2):
                change(named(n - 1, j))
                check("refused 29 at %d" % vs[n - 1].at)
            own(n - 1)
    say("repeats in different tables: the lowest position answers, wherever its namesake is")
    for pairs, found in ((((8199, 8198), (5000, 0)), 5000), (((8199, 0), (8198, 8197)), 8198), (((4096, 4095), (8192, 1)), 4096), (((5000, 4500), (4999, 3)), 4999), (((8195, 8193), (8194, 2), (8196, 4097)), 8194)):
        change(*[named(i, j) for i, j in pairs])
        check("refused 29 at %d" % vs[found].at)
        own(*[i for i, _ in pairs])
    check(accepted(8200))
    say("the first of two namesakes is found")
    change(named(8199, 0x10))
    at("", "0010")
    info("inline type 3 place %d length 0" % (BASE + vs[16].at + 12))
    say("one cell at two positions, the second past the key's count or not")
    listed = BASE + 4 + u32(b.hive, BASE + 4 + root.at + 40)
    change(named(8199, 8199), (listed + 4 * 8199, word(vs[7].at)))
    check("refused 29 at %d" % vs[7].at)
    change(count(8199))
    check(accepted(8199))


def one_hash():
    """4,096 names that differ and have one hash."""
    vs = [Value("".join(('"_', "#:")[i >> bit & 1] for bit in range(12))) for i in range(4096)]
    root = Key("R", values=vs)
    b = Builder(root)
    store("one-hash", b.hive)
    used, bins = -sum(n for n in sizes(b.hive) if n < 0), b.hive.count(b"hbin")
    say("4,096 names of one hash")
    check("accepted bins %d keys 1 values 4096 used %d free %d" % (bins, used, len(b.bins) - 32 * bins - used))
    change((BASE + 4 + vs[4095].at + 20, bytes(vs[0].name)))
    check("refused 29 at %d" % vs[4095].at)


def security():
    """5,000 items, which are counted in three batches, and the map after each refusal."""
    items = [Item() for _ in range(5000)]
    root = Key("R", [Key("k%03d" % i, item=items[4999 - 8 * i]) for i in range(600)])
    b = Builder(root, items=items)
    store("items", b.hive)
    at, keys = [x.at for x in items], [k.at for k in root.subkeys]
    used = -sum(n for n in sizes(b.hive) if n < 0)
    bins = b.hive.count(b"hbin")
    accepted = "accepted bins %d keys 601 values 0 used %d free %d" % (bins, used, len(b.bins) - 32 * bins - used)
    place = lambda o, i: BASE + 4 + o + i
    say("5,000 items")
    check(accepted)
    for i in (0, 1, 2047, 2048, 4095, 4096, 4999):
        say("item %d: its count, its room, its link, and the link back" % i)
        for there, n in ((place(at[i], 12), u32(b.hive, place(at[i], 12)) + 1), (place(at[i], 16), 1), (place(at[i], 4), at[(i + 2) % 5000]), (place(at[(i + 1) % 5000], 8), at[i - 1])):
            change((there, word(n)))
            check("refused 28 at %d" % at[i])
            change((there, word(u32(b.hive, there))))
    say("a count in the third batch and a link in the second; a count in the second and a link in the third")
    for counted, linked in ((4500, 2500), (2500, 4500)):
        change((place(at[counted], 12), word(7)), (place(at[linked], 4), word(0)))
        check("refused 28 at %d" % at[2500])
        change((place(at[counted], 12), word(u32(b.hive, place(at[counted], 12)))), (place(at[linked], 4), word(at[linked + 1])))
    say("the last key, and the first, name nothing, and the end of the bins data; the map is longer")
    for k in (599, 0):
        for to in (0, 40, len(b.bins), len(b.bins) + 6400, 2**32 - 1):
            change((place(keys[k], 44), word(to)), (place(root.subkeys[k].item.at, 12), word(0)))
            check("refused 28 at %d" % keys[k], len(b.bins) // 64 + 200)
    say("one item is left out of the ring")
    change(*[(place(keys[k], 44), word(root.subkeys[k].item.at)) for k in (0, 599)], *[(place(root.subkeys[k].item.at, 12), word(1)) for k in (0, 599)])
    check(accepted, len(b.bins) // 64 + 200)
    change((place(at[4998], 4), word(at[0])), (place(at[0], 8), word(at[4998])))
    check("refused 28 at %d" % keys[0])
    say("the same with no key there")
    change((place(keys[0], 44), word(at[0])), (place(at[0], 12), word(2)))
    check(accepted)


def long_names():
    """A value's name has 16,383 characters at most."""
    for wide in (False, True):
        v = Value("n" * 16384, b"1", wide=wide)
        root = Key("R", values=[v])
        name = "wide" if wide else "narrow"
        b = Builder(root)
        store(name, b.hive)
        step = 2 if wide else 1
        say("a %s name of 16,384 characters" % name)
        check("refused 12 at %d" % v.at)
        at("", "N" * 100)
        info("refused 12 at %d" % v.at)
        say("of 16,383")
        change((BASE + 4 + v.at + 2, struct.pack("<H", 16383 * step)))
        used = -sum(n for n in sizes(now["hive"]) if n < 0)
        bins = b.hive.count(b"hbin")
        check("accepted bins %d keys 1 values 1 used %d free %d" % (bins, used, len(b.bins) - 32 * bins - used))
        info("refused 18 at 0")


def main():
    levels()
    both_sizes()
    segments()
    values()
    letters()
    namesakes()
    one_hash()
    security()
    long_names()
    with open("crates/hive_runs/stdin", "wb") as f:
        f.write(orders)
    with open("crates/hive_runs/stdout", "w") as f:
        f.write("\n".join(lines) + "\n")
    print("%d lines, %d bytes of orders" % (len(lines), len(orders)))


if __name__ == "__main__":
    usage.words(__doc__)
    main()
