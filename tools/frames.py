#!/usr/bin/env python3
"""Frame streams for the test program, and the lines that it must write.

Run at the top of the repository it writes crates/hive_frames/stdin and stdout, and crates/frame_ends/args, data and stdout.
Each case states its line by hand; the model of hives.py has to say the same, or the script stops.
compare imports `frame` and `lines_of`."""
import os
import struct

import hives
import usage
from hives import BASE, Builder, Key, Refused, Value, changed, edited, entry, new_log, old_log, torn, u32, with_xor

LONGEST = 20480
HIVE, LOG, PATH = 1, 2, 3


def frame(kind, payload):
    return struct.pack("<IH", len(payload), kind) + bytes(payload)


def path_bytes(path):
    return b"".join(struct.pack("<H", c) for c in hives.units(path))


def answer(kind, payload, hive):
    """The line of a whole frame. A repair changes `hive`, a bytearray."""
    if kind != HIVE and hive is None:
        return "no hive"
    try:
        if kind == HIVE:
            return "accepted bins %d keys %d values %d used %d free %d" % hives.check(payload, bytearray(320))
        if kind == LOG:
            done = hives.repair(hive, payload)
            return done if done == "clean" else "repaired %d" % done
        return "key at %d" % hives.find_key(hive, [hives.u16(payload, i) for i in range(0, len(payload), 2)])
    except Refused as r:
        return "refused %d at %d" % (r.number, r.place)


def lines_of(stream):
    """What the program must write for an input."""
    lines, hive, at = ["hive"], None, 0
    while at < len(stream):
        head = stream[at:at + 6]
        length, kind = struct.unpack("<IH", head) if len(head) == 6 else (LONGEST + 1, 0)
        payload = stream[at + 6:at + 6 + min(length, LONGEST)]
        if length > LONGEST or len(payload) < length or kind not in (HIVE, LOG, PATH) or kind == PATH and length % 2:
            lines.append("bad frame")
            break
        if kind == HIVE:
            hive = bytearray(payload)
        lines.append(answer(kind, payload, hive))
        at += 6 + length
    return lines


# ---- the cases

stream, lines = bytearray(), ["hive"]


def case(kind, payload, line):
    stream.extend(frame(kind, payload))
    lines.append(line)


def hive(h, line):
    case(HIVE, h, line)


def refused(number, h, place=0):
    hive(h, "refused %d at %d" % (number, place))


def path(p, line):
    case(PATH, path_bytes(p), line)


def log(l, line):
    case(LOG, l, line)


def word(n):
    return struct.pack("<I", n % 2**32)


def half(n):
    return struct.pack("<H", n)


def place(at, i=0):
    """Byte i of the data of the cell at an offset."""
    return BASE + 4 + at + i


def item_place(h, i=0):
    """Byte i of the data of the root's security item."""
    return place(u32(h, place(u32(h, 36), 44)), i)


def counted(h, keys):
    """A copy whose root's item is named by so many keys."""
    return edited(h, (item_place(h, 12), word(keys)))


def bases():
    minimal = Builder(Key("R")).hive
    hive(minimal, "accepted bins 1 keys 1 values 0 used 112 free 3952")
    hive(minimal + bytes(100), "accepted bins 1 keys 1 values 0 used 112 free 3952")
    refused(1, b"")
    refused(1, minimal[:4095])
    refused(2, edited(minimal, (0, b"Regf")))
    refused(3, minimal[:508] + word(u32(minimal, 508) ^ 1) + minimal[512:])
    refused(3, minimal[:100] + b"\1" + minimal[101:])
    for at, number in ((20, 0), (20, 2), (24, 2), (24, 6), (24, 0x103), (28, 1), (32, 0), (44, 2), (44, 0x10001)):
        refused(4, edited(minimal, (at, word(number))))
    for size in (0, 4095, 4097, 0x7FFFF800, 0x80000000, 0xFFFFF000):
        refused(5, edited(minimal, (40, word(size))))
    for size in (8192, 67108864, 67108864 + 4096, 0x7FFFE000, 0x7FFFF000):
        refused(6, edited(minimal, (40, word(size))))
    refused(6, minimal[:-1])
    refused(6, edited(minimal[:-1], (4, word(9))))
    refused(7, edited(minimal, (4, word(9))))
    refused(7, edited(minimal, (4, word(9)), (BASE, b"H")))
    for minor in (3, 4):
        hive(edited(minimal, (24, word(minor))), "accepted bins 1 keys 1 values 0 used 112 free 3952")
    # the root's parent field is not read, and its list offsets are not where the counts are 0
    hive(edited(minimal, (place(32, 16), word(32)), (place(32, 28), word(77)), (place(32, 40), word(77))),
         "accepted bins 1 keys 1 values 0 used 112 free 3952")


# a XOR, a number stored for it, and whether that is the right one: at both exceptions and beside them
STORED = ((0, 1, True), (0, 0, False), (0, 2, False), (1, 1, True), (1, 0, False),
          (0xFFFFFFFF, 0xFFFFFFFE, True), (0xFFFFFFFF, 0xFFFFFFFF, False), (0xFFFFFFFF, 0xFFFFFFFD, False), (0xFFFFFFFE, 0xFFFFFFFE, True), (0xFFFFFFFE, 0xFFFFFFFF, False))


def checksums():
    """The checksum of a hive, of a log, and of the closing sector."""
    root = Key("R", [Key("kept")])
    good = Builder(root, stamp=0x1122334455667788).hive
    page0 = bytes(good[BASE:BASE + 512])
    whole = old_log(good, {0: page0})
    for xor, stored, right in STORED:
        h = with_xor(good, xor, stored)
        if right:
            hive(h, "accepted bins 1 keys 2 values 0 used 216 free 3848")
        else:
            refused(3, h)
    refused(7, torn(good))
    for xor, stored, right in STORED:
        if not right:
            log(with_xor(whole, xor, stored), "refused 21 at 0")
    # a log of type 1 closes with a XOR that differs in the last bit: at 1, 0, 0xFFFFFFFE, 0xFFFFFFFF, and beside these at 2 and 0xFFFFFFFD
    for xor in (0, 1, 0xFFFFFFFF, 0xFFFFFFFE, 3, 0xFFFFFFFC):
        refused(7, edited(torn(good), (BASE + 32, bytes(300))))
        log(with_xor(whole, xor), "repaired 1")
        log(whole, "clean")
        path("kept", "key at %d" % root.subkeys[0].at)
    # usable, so the base block's stamp counts; with the XOR itself stored it is not, and the first bin's counts
    other = edited(torn(good), (12, b"?"))
    refused(7, with_xor(other, 0, 1))
    log(whole, "refused 25 at 0")
    refused(3, with_xor(other, 0, 0))
    log(whole, "repaired 1")
    refused(7, with_xor(other, 0xFFFFFFFF, 0xFFFFFFFE))
    log(whole, "refused 25 at 0")


def tilings():
    two = Builder(Key("R", [Key("A" * 200), Key("B" * 200)], [Value("v", b"x" * 3900)])).hive
    hive(two, "accepted bins 2 keys 3 values 1 used 4640 free 3488")
    for at in (0, 4096):
        refused(9, edited(two, (BASE + at, b"hbiN")), at)
        refused(9, edited(two, (BASE + at + 4, word(at + 8))), at)
        for size in (0, 4095, 4097, 12288 - at, 0xFFFFF000):
            refused(9, edited(two, (BASE + at + 8, word(size))), at)
    refused(10, edited(two, (BASE + 32, word(0)), (BASE + 4096, b"none")), 32)
    refused(10, edited(two, (BASE + 32, word(0x80000000))), 32)
    refused(10, edited(two, (BASE + 32, word(-84))), 32)
    refused(10, edited(two, (BASE + 32, word(-4072))), 32)
    refused(10, edited(two, (BASE + 32, word(4072))), 32)
    refused(10, edited(two, (BASE + 4096 + 32, word(0))), 4096 + 32)
    refused(11, edited(two, (BASE + 32, word(4064))), 32)
    # neighbouring free cells
    minimal = Builder(Key("R")).hive
    hive(edited(minimal, (BASE + 144, word(8)), (BASE + 152, word(3944))), "accepted bins 1 keys 1 values 0 used 112 free 3952")
    hive(edited(minimal, (BASE + 144, word(-8)), (BASE + 152, word(3944))), "accepted bins 1 keys 1 values 0 used 120 free 3944")
    for root in (0, 31, 33, 36, 128, 144, 152, 4096, 4095, 0x80000000, 0xFFFFFFFF):
        refused(11, edited(minimal, (36, word(root))), root)
    refused(12, edited(minimal, (36, word(120))), 120)


def keys():
    root = Key("Root")
    h = Builder(root).hive
    at = root.at
    for change in ((place(at), b"NK"), (place(at), b"vk"), (place(at, 72), half(0)), (place(at, 72), half(9)), (place(at, 72), half(0xFFFF)),
                   (place(at, 78), b"\\")):
        refused(12, edited(h, change), at)
    refused(12, edited(h, (BASE + at, word(-72)), (BASE + at + 72, word(4064 - 72))), at)
    # the four bytes as two units
    hive(edited(h, (place(at, 2), half(0))), "accepted bins 1 keys 1 values 0 used 112 free 3952")
    refused(12, edited(h, (place(at, 2), half(0)), (place(at, 72), half(3))), at)
    # 0x5C00 and 0x5C01 are no backslashes
    hive(edited(h, (place(at, 2), half(0)), (place(at, 76), b"\0\\\1\\")), "accepted bins 1 keys 1 values 0 used 112 free 3952")
    refused(12, edited(h, (place(at, 2), half(0)), (place(at, 78), b"\\\0")), at)
    for wide, count in ((False, 255), (True, 255)):
        k = Key("n" * count, wide=wide)
        b = Builder(k, slack=8)
        used = (4 + 76 + count * (2 if wide else 1) + 8 + 7) // 8 * 8 + 32
        hive(b.hive, "accepted bins 1 keys 1 values 0 used %d free %d" % (used, 4064 - used))
        more = b"n\0" * (count + 1) if wide else b"n" * (count + 1)
        refused(12, edited(b.hive, (place(k.at, 72), half(len(more))), (place(k.at, 76), more)), k.at)


def family(lists, names=("Alpha", "beta", "GAMMA", "delta\u0416")):
    """A root with subkeys whose names ascend."""
    root = Key("Root", [Key(n) for n in sorted(names, key=lambda n: hives.folded(hives.units(n)))], lists=lists)
    return root, Builder(root).hive


def lists():
    for kind in ("li", "lf", "lh", [("lh", 4)], [("li", 1), ("lf", 2), ("lh", 1)], [("lh", 1), ("li", 3)]):
        root, h = family(kind)
        used = sum(abs(n) for n in cells_in_use(h))
        hive(h, "accepted bins 1 keys 5 values 0 used %d free %d" % (used, 4064 - used))
    root, h = family("lh")
    at, leaf = root.at, u32(h, place(root.at, 28))
    a, b, c, d = [k.at for k in root.subkeys]
    refused(12, edited(h, (place(leaf), b"xh")), leaf)
    refused(12, edited(h, (place(leaf), b"ri")), a)
    refused(12, edited(h, (place(leaf, 2), half(0))), leaf)
    refused(12, edited(h, (place(leaf, 2), half(5))), leaf)
    refused(12, edited(h, (place(leaf, 2), half(0xFFFF))), leaf)
    refused(14, edited(h, (place(leaf, 2), half(3))), at)
    for count in (1, 3, 5, 0xFFFFFFFF):
        refused(14, edited(h, (place(at, 20), word(count))), at)
    hive(counted(edited(h, (place(at, 20), word(0))), 1), "accepted bins 1 keys 1 values 0 used 512 free 3552")
    for o in (0, leaf + 4, 8, 0xFFFFFFF8, 0x80000000):
        refused(11, edited(h, (place(at, 28), word(o))), o)
    refused(12, edited(h, (place(at, 28), word(a))), a)
    # elements
    refused(11, edited(h, (place(leaf, 4), word(40))), 40)
    refused(12, edited(h, (place(leaf, 4), word(leaf))), leaf)
    refused(13, edited(h, (place(leaf, 8), word(1))), a)
    refused(13, edited(h, (place(leaf, 12), h[place(leaf, 4):place(leaf, 12)])), a)
    refused(13, edited(h, (place(leaf, 4), h[place(leaf, 12):place(leaf, 20)] + h[place(leaf, 4):place(leaf, 12)])), a)
    refused(13, edited(h, (place(leaf, 32), word(0))), d)
    refused(14, edited(h, (place(b, 16), word(a))), b)
    refused(14, edited(h, (place(leaf, 4), word(at))), at)
    refused(14, edited(h, (place(leaf, 4), word(at)), (place(at, 16), word(at))), at)
    # the hash is of the upper-cased name
    root, h = family("lf", ("ab",))
    leaf = u32(h, place(root.at, 28))
    hive(h, "accepted bins 1 keys 2 values 0 used 216 free 3848")
    hive(edited(h, (place(leaf), b"lh"), (place(leaf, 8), word(2471))), "accepted bins 1 keys 2 values 0 used 216 free 3848")
    refused(13, edited(h, (place(leaf), b"lh"), (place(leaf, 8), word(2470))), root.subkeys[0].at)
    names()
    across()
    below()


def cells_in_use(h):
    at, sizes = 32, []
    while at < 4096:
        size = hives.signed_size(h, BASE + at)
        if size < 0:
            sizes.append(size)
        at += abs(size)
    return sizes


def names():
    """Order: a prefix first, small letters as their capitals, and strictly."""
    for first, second, good in (("a", "ab", True), ("ab", "a", False), ("A", "b", True), ("b", "A", False), ("a", "A", False), ("Z", "_", True), ("z", "_", True),
                                ("_", "z", False), ("z", "{", True), ("a", "\u0416", True), ("\xe9", "\xc9", False), ("\xc9", "\xe9", False), ("\xc5", "\xe4", False), ("\xe4", "\xc5", True), ("\xd7", "\xf7", True),
                                ("\u0177", "\xff", True), ("\xff", "\u0177", False), ("\xff", "\u0178", False), ("\xff", "\u0179", True), ("\xe0", "\xdf", True), ("\xb5", "\xe0", True)):
        for lists, used in (("lh", 312), ([("li", 1), ("lh", 1)], 336)):
            root = Key("R", [Key(first), Key(second)], lists=lists)
            h = Builder(root).hive
            if good:
                hive(h, "accepted bins 1 keys 3 values 0 used %d free %d" % (used, 4064 - used))
            else:
                refused(13, h, root.subkeys[1].at)
    letters()


def letters():
    """Capitals past z: lookup in either case, hashes of capitals, and names as a hive of Western Europe has them."""
    capitals = {0xDF: 0xDF, 0xE0: 0xC0, 0xF6: 0xD6, 0xF7: 0xF7, 0xF8: 0xD8, 0xFE: 0xDE, 0xFF: 0x178, 0xB5: 0xB5, 0x178: 0x178, 0x177: 0x177}
    for wide in (False, True):
        codes = [c for c in capitals if wide or c < 256]
        root = Key("R", [Key(chr(65 + i), [Key([c], wide=wide)]) for i, c in enumerate(codes)])
        h = Builder(root).hive
        used = -sum(cells_in_use(h))
        hive(h, "accepted bins 1 keys %d values 0 used %d free %d" % (1 + sum(1 + len(k.subkeys) for k in root.subkeys), used, 4064 - used))
        for parent, c in zip(root.subkeys, codes):
            for asked in (c, capitals[c], c ^ 32):
                found = asked in (c, capitals[c])
                path(parent.name + [0x5C, asked], "key at %d" % parent.subkeys[0].at if found else "refused 17 at 0")
    for code, right, wrong in ((0xE9, 201, 233), (0xFF, 376, 255)):
        root = Key("R", [Key([code])])
        h = Builder(root).hive
        leaf = u32(h, place(root.at, 28))
        hive(edited(h, (place(leaf, 8), word(right))), "accepted bins 1 keys 2 values 0 used 216 free 3848")
        refused(13, edited(h, (place(leaf, 8), word(wrong))), root.subkeys[0].at)
    names = "Abel caf\xe9 D\xe9p\xf4t fa\xe7ade Gr\xfcn na\xefve Zo\xeb \xc4rger \xc5ngstr\xf6m \xc9diteur \xfcber \xff".split()
    swapped = "aBEL CAF\xc9 d\xc9P\xd4T FA\xc7ADE gR\xdcN NA\xcfVE zO\xcb \xe4RGER \xe5NGSTR\xd6M \xe9DITEUR \xdcBER \u0178".split()
    for kind in ("li", "lf", "lh"):
        root = Key("R", [Key(n) for n in names], lists=kind)
        h = Builder(root).hive
        used = -sum(cells_in_use(h))
        hive(h, "accepted bins 1 keys %d values 0 used %d free %d" % (1 + sum(1 + len(k.subkeys) for k in root.subkeys), used, 4064 - used))
        for k, name, other in zip(root.subkeys, names, swapped):
            path(name, "key at %d" % k.at)
            path(other, "key at %d" % k.at)


def across():
    """Several leaves below an ri."""
    root, h = family([("li", 2), ("lh", 2)])
    at, ri = root.at, u32(h, place(root.at, 28))
    a, b, c, d = [k.at for k in root.subkeys]
    first, second = u32(h, place(ri, 4)), u32(h, place(ri, 8))
    refused(12, edited(h, (place(ri, 4), word(ri))), ri)
    refused(12, edited(h, (place(ri, 8), word(ri))), ri)
    refused(12, edited(h, (place(ri, 8), word(a))), a)
    refused(11, edited(h, (place(ri, 8), word(second + 8))), second + 8)
    refused(12, edited(h, (place(ri, 2), half(0))), ri)
    refused(12, edited(h, (place(ri, 2), half(3))), ri)
    refused(14, edited(h, (place(ri, 2), half(1))), at)
    refused(13, edited(h, (place(ri, 4), word(second) + word(first))), a)
    refused(13, edited(h, (place(ri, 8), word(first))), a)
    refused(13, edited(h, (place(second, 4), word(b) + word(0))), b)
    refused(13, edited(h, (place(second, 4), word(c) + word(0))), c)
    # all leaves and the total come before any element
    refused(12, edited(h, (place(first, 4), word(0)), (place(second), b"??")), second)
    refused(14, edited(h, (place(first, 4), word(0)), (place(at, 20), word(3))), at)
    refused(11, edited(h, (place(first, 4), word(0)), (place(second, 8), word(9))), 0)


def below():
    """Depth: a whole subtree before the next sibling; a cycle through the root; the order of faults in a key."""
    inner = Key("inner", [Key("leaf", values=[Value("v", b"12345678")])])
    root = Key("R", [Key("a", [inner]), Key("b")])
    h = Builder(root).hive
    hive(h, "accepted bins 1 keys 5 values 1 used 576 free 3488")
    leaf, b, a = inner.subkeys[0].at, root.subkeys[1].at, root.subkeys[0].at
    refused(12, edited(h, (place(leaf), b"kn"), (place(b), b"kn")), leaf)
    refused(12, edited(h, (place(leaf), b"kn"), (place(b, 16), word(a))), leaf)
    refused(14, edited(h, (place(leaf, 16), word(root.at))), leaf)
    refused(14, edited(h, (place(leaf, 36), word(0)), (place(leaf, 20), word(1)), (place(leaf, 28), word(u32(h, place(root.at, 28))))), leaf)
    # the inner key lists the root, and the root's parent field says so
    listed = u32(h, place(inner.at, 28))
    refused(14, edited(h, (place(listed, 4), word(root.at)), (place(root.at, 16), word(inner.at))), root.at)
    # parent before order and hash, these before the values, these before the lists
    refused(14, edited(h, (place(b, 16), word(0)), (place(b, 76), b"A")), b)
    refused(13, edited(h, (place(leaf, 76), b"x"), (place(leaf, 40), word(1))), leaf)
    refused(11, edited(h, (place(leaf, 40), word(1)), (place(leaf, 20), word(1)), (place(leaf, 28), word(2))), 1)
    refused(11, edited(h, (place(leaf, 20), word(1)), (place(leaf, 28), word(2))), 2)


def values():
    vs = [Value("", b""), Value("one", b"1"), Value("two", b"12"), Value("three", b"123"), Value("four", b"1234"), Value("five", b"12345"), Value("none", b"", inline=False),
          Value("wide\u0416", b"wide"), Value("with\\backslash", b"w"), Value("nine", b"again"), Value("kind", b"\1\0\0\0", 4)]
    root = Key("R", [Key("shares")], vs)
    h = Builder(root).hive
    at, listed = root.at, u32(h, place(root.at, 40))
    used = -sum(cells_in_use(h))
    hive(h, "accepted bins 1 keys 2 values 11 used %d free %d" % (used, 4064 - used))
    # the child has the same value list
    hive(edited(h, (place(root.subkeys[0].at, 36), word(11) + word(listed))), "accepted bins 1 keys 2 values 22 used %d free %d" % (used, 4064 - used))
    hive(edited(h, (place(at, 36), word(3))), "accepted bins 1 keys 2 values 3 used %d free %d" % (used, 4064 - used))
    for count in (12, 0x40000001, 0xFFFFFFFF):
        refused(12, edited(h, (place(at, 36), word(count))), listed)
    for o in (0, 33, listed + 8, 0xFFFFFFFF):
        refused(11, edited(h, (place(at, 40), word(o))), o)
        refused(11, edited(h, (place(listed, 4), word(o))), o)
    four, five, wide = vs[4].at, vs[5].at, vs[7].at
    for change in ((0, b"kv"), (2, half(0xFFFF)), (2, half(29)), (4, word(0x80000005)), (4, word(0xFFFFFFFF)), (4, word(1048577)), (4, word(0x7FFFFFFF))):
        refused(12, edited(h, (place(five, change[0]), change[1])), five)
    refused(12, edited(h, (place(wide, 2), half(9))), wide)
    refused(12, edited(h, (place(listed, 4), word(at))), at)
    data = u32(h, place(five, 8))
    refused(12, edited(h, (place(five, 4), word(13))), data)
    hive(edited(h, (place(five, 4), word(12))), "accepted bins 1 keys 2 values 11 used %d free %d" % (used, 4064 - used))
    refused(11, edited(h, (place(five, 8), word(data + 4))), data + 4)
    refused(11, edited(h, (place(four, 4), word(4))), u32(b"1234", 0))
    hive(edited(h, (place(five, 4), word(0)), (place(five, 8), word(1))), "accepted bins 1 keys 2 values 11 used %d free %d" % (used, 4064 - used))
    # a value's record and data come before the next value's
    refused(11, edited(h, (place(five, 8), word(2)), (place(wide), b"kv")), 2)
    refused(12, edited(h, (place(five), b"kv"), (place(wide, 8), word(2))), five)
    segments()


def segments():
    """Over 16,344 bytes: a `db` record with minor 4 and 5, one cell with minor 3. No frame has room for the data."""
    v = Value("big", b"12345678")
    root = Key("R", values=[v])
    h = Builder(root, slack=16).hive
    data = u32(h, place(v.at, 8))
    listed = u32(h, place(root.at, 40))
    large = (place(v.at, 4), word(16345))
    refused(12, edited(h, large), data)
    refused(12, edited(h, large, (24, word(3))), data)
    refused(12, edited(h, large, (place(data), b"db" + half(1) + word(listed))), data)
    refused(12, edited(h, large, (place(data), b"db" + half(3) + word(listed))), data)
    refused(12, edited(h, large, (place(data), b"bd" + half(2) + word(listed))), data)
    refused(12, edited(h, large, (24, word(3)), (place(data), b"db" + half(2) + word(listed))), data)
    refused(11, edited(h, large, (place(data), b"db" + half(2) + word(4))), 4)
    # the list of segments is the value list: its first element is the value, which is too short for a segment
    refused(12, edited(h, large, (place(data), b"db" + half(2) + word(listed))), v.at)
    refused(12, edited(h, (place(v.at, 4), word(1048576)), (place(data), b"db" + half(65) + word(listed))), listed)
    refused(12, edited(h, (place(v.at, 4), word(16344)), (24, word(4))), data)


def paths():
    deep = Key("c", [Key("D", [Key("e\u0416\u00e9")])])
    root = Key("R", [Key("Alpha"), Key("beta", [deep, Key("d")]), Key("Gamma"), Key("z\u0436"), Key("\u0416one", wide=True), Key("\u0416two", wide=True)],
               lists=[("li", 2), ("lf", 1), ("lh", 3)])
    h = Builder(root).hive
    stream_hive(h)
    alpha, beta, gamma, z, one, two = [k.at for k in root.subkeys]
    path("", "key at %d" % root.at)
    for p, at in (("Alpha", alpha), ("ALPHA", alpha), ("alpha", alpha), ("aLPHa", alpha), ("BETA", beta), ("gamma", gamma), ("Z\u0436", z), ("z\u0436", z), ("\u0416ONE", one),
                  ("\u0416two", two), ("beta\\C", deep.at), ("Beta\\c\\d", deep.subkeys[0].at), ("beta\\C\\D\\E\u0416\u00e9", deep.subkeys[0].subkeys[0].at), ("beta\\c\\d\\e\u0416\u00c9", deep.subkeys[0].subkeys[0].at),
                  ("beta\\D", root.subkeys[1].subkeys[1].at)):
        path(p, "key at %d" % at)
    for p in ("Alph", "Alphaa", "z\u0416", "\u0436one", "beta\\x", "alpha\\x", "beta\\c\\d\\e\u0436\u00c9", "R", "\0", "x" * 255, "\\".join("x" * 512)):
        path(p, "refused 17 at 0")
    for p in ("\\", "\\beta", "beta\\", "beta\\\\c", "x" * 256, "beta\\" + "y" * 256, "\\".join("x" * 513), "x" * 5000):
        path(p, "refused 16 at 0")
    broken(root, h, deep)
    # lookup needs no accepted hive: here order, hash, parent and total are wrong
    leaf = u32(h, place(u32(h, place(root.at, 28)), 12))
    stream_hive(edited(h, (place(root.at, 20), word(99)), (place(alpha, 16), word(0)), (place(leaf, 8), word(0)), (place(gamma, 76), b"A")))
    path("alpha", "key at %d" % alpha)
    path("aamma", "key at %d" % gamma)
    path("z\u0436", "key at %d" % z)
    stream_hive(edited(h, (place(root.at, 20), word(0))))
    path("alpha", "refused 17 at 0")


def stream_hive(h):
    """A hive frame whose line is the model's."""
    hive(h, answer(HIVE, h, None))


def broken(root, h, deep):
    """Faults on the way: met before the match, not behind it."""
    beta, gamma = root.subkeys[1].at, root.subkeys[2].at
    ri = u32(h, place(root.at, 28))
    second, third = u32(h, place(ri, 8)), u32(h, place(ri, 12))
    stream_hive(edited(h, (place(beta), b"vk")))
    path("alpha", "key at %d" % root.subkeys[0].at)
    path("beta", "refused 12 at %d" % beta)
    path("gamma", "refused 12 at %d" % beta)
    path("nothing", "refused 12 at %d" % beta)
    path("\\", "refused 16 at 0")
    stream_hive(edited(h, (place(third), b"ri")))
    path("gamma", "key at %d" % gamma)
    path("zz", "refused 12 at %d" % third)
    stream_hive(edited(h, (place(ri, 8), word(second + 4))))
    path("BETA", "key at %d" % beta)
    path("gamma", "refused 11 at %d" % (second + 4))
    stream_hive(edited(h, (place(ri), b"li")))
    path("x", "refused 12 at %d" % u32(h, place(ri, 4)))
    stream_hive(edited(h, (36, word(0xFFFFFFFF))))
    path("", "refused 11 at 4294967295")
    path("a\\\\b", "refused 16 at 0")
    # the root's record is read for every path; a bad file is said first
    stream_hive(edited(h, (place(root.at), b"xx")))
    path("", "refused 12 at %d" % root.at)
    stream_hive(edited(h, (4, word(77))))
    path("\\", "refused 7 at 0")
    stream_hive(h[:100])
    path("", "refused 1 at 0")
    # a cell by its own header: inside another cell, and free
    inside = place(deep.at, 44)
    stream_hive(edited(h, (36, word(inside - BASE)), (inside, word(-16))))
    path("", "refused 12 at %d" % (inside - BASE))
    stream_hive(edited(h, (BASE + root.at, word(88))))
    path("", "refused 11 at %d" % root.at)


# ---- namesakes and hints

ONE_BYTE, TWO_BYTES = False, True


def with_values(*values):
    """A root with values of those names, each (name, whether in UTF-16), and where they are."""
    vs = [Value(name, wide=wide) for name, wide in values]
    root = Key("R", values=vs)
    return root, Builder(root).hive, [v.at for v in vs]


def accepted_whole(h):
    """A hive frame whose counts are the model's, and which must be accepted."""
    hive(h, "accepted bins %d keys %d values %d used %d free %d" % hives.check(h, bytearray(320)))


def stored(name):
    return (TWO_BYTES,) if any(c > 255 for c in hives.units(name)) else (ONE_BYTE, TWO_BYTES)


def namesakes():
    long_one = "x" * 999
    same = (("abc", "abc"), ("abc", "ABC"), ("a", "A"), ("z", "Z"), ("aZ", "Az"), ("\xe9", "\xc9"), ("\xe0", "\xc0"), ("\xfe", "\xde"), ("\xff", "\u0178"), ("", ""), ("\0", "\0"),
            ("a\\b", "A\\B"), ("a\0", "A\0"), ("\u0416a", "\u0416A"), ("\ud800", "\ud800"), ("@", "@"), (long_one + "y", long_one + "Y"))
    other = (("a", "b"), ("@", "`"), ("[", "{"), ("z", "{"), ("`", "a"), ("\xf7", "\xd7"), ("\xdf", "\xff"), ("\xb5", "\u039c"), ("\u0436", "\u0416"), ("\xff", "\xdf"), ("\u0178", "x"), ("", "\0"),
             ("a", "ab"), ("ab", "a"), ("a", "a\0"), ("", "a"), ("ab", "ba"), ("\u0161", "a"), ("\u6161", "aa"), (long_one + "y", long_one + "z"), (long_one, long_one + "y"))
    for names, repeat in ((same, True), (other, False)):
        for first, second in names:
            for one in stored(first):
                for two in stored(second):
                    _, h, at = with_values((first, one), (second, two))
                    refused(29, h, at[1]) if repeat else accepted_whole(h)
    # the value at the lowest position with a namesake before it: of a, b, B, A it is B
    for names, found in (("abBA", 2), ("abAB", 2), ("abcdA", 4), ("aaa", 1), ("abcCBA", 3), ("aabb", 1), ("abb", 2), ("abcCa", 3), ("xabcdeEDX", 6)):
        _, h, at = with_values(*[(c, c == "b") for c in names])
        refused(29, h, at[found])
    positions()
    many_values()
    name_orders()


def positions():
    """Positions count, not cells; and what lies past the key's count is not read."""
    root, h, (a, b, c) = with_values(("a", ONE_BYTE), ("b", ONE_BYTE), ("c", ONE_BYTE))
    listed = u32(h, place(root.at, 40))
    accepted_whole(h)
    for order, found in (((a, a, c), a), ((a, b, a), a), ((a, b, b), b), ((c, b, c), c), ((b, b, b), b)):
        refused(29, edited(h, (place(listed), b"".join(word(o) for o in order))), found)
    accepted_whole(edited(h, (place(listed), word(c) + word(a) + word(b))))
    root, h, at = with_values(("a", ONE_BYTE), ("b", ONE_BYTE), ("A", ONE_BYTE), ("B", TWO_BYTES))
    for count in (0, 1, 2):
        accepted_whole(edited(h, (place(root.at, 36), word(count))))
    for count in (3, 4):
        refused(29, edited(h, (place(root.at, 36), word(count))), at[2])
    # a list that two keys share is no repeat; each of them answers for itself
    root = Key("R", [Key("a"), Key("b", values=[Value("x"), Value("y")])], [Value("x"), Value("Y")])
    h = Builder(root).hive
    listed = u32(h, place(root.at, 40))
    shared = edited(h, *[(place(k.at, 36), word(2) + word(listed)) for k in root.subkeys])
    accepted_whole(h)
    accepted_whole(shared)
    refused(29, edited(shared, (place(root.values[1].at, 20), b"X")), root.values[1].at)
    refused(29, edited(h, (place(root.subkeys[1].values[0].at, 20), b"Y")), root.subkeys[1].values[1].at)


def many_values():
    """On both sides of 16 and of 256: sound, the last repeats the first, and of two repeats the lower answers. Names of one length, and of one hash."""
    for count in (16, 17, 256, 257):
        names = ["%03d" % i for i in range(count)]
        _, h, at = with_values(*[(n, ONE_BYTE) for n in names])
        rename = lambda i, j: (place(at[i], 20), names[j].encode())
        last = count - 1
        accepted_whole(h)
        refused(29, edited(h, rename(last, 0)), at[last])
        refused(29, edited(h, rename(last, last - 1)), at[last])
        refused(29, edited(h, rename(last, 0), rename(last - 1, 1)), at[last - 1])
        refused(29, edited(h, rename(last, last - 1), rename(count // 2, 0)), at[count // 2])
    for count in (16, 17, 64):
        names = [one_hash(i, 6) for i in range(count)]
        _, h, at = with_values(*[(n, i % 3 == 0) for i, n in enumerate(names)])
        accepted_whole(h)
        _, h, at = with_values(*[(n, i % 3 == 0) for i, n in enumerate(names + names[:1])])
        refused(29, h, at[count])


def one_hash(number, pairs):
    """A name for each number below 2^pairs: they differ, and have one hash. 34 * 37 + 95 is 35 * 37 + 58."""
    return "".join(('"_', "#:")[number >> bit & 1] for bit in range(pairs))


assert len({hives.name_hash(hives.units(one_hash(i, 4))) for i in range(16)}) == 1


def name_orders():
    """Parent, order and hint, values with their data, 29, lists, total: of two faults of a key the earlier one answers. 15 is among the larger runs."""
    vs = [Value("v", b"12345678"), Value("w", b"12345678"), Value("x", b"12345678")]
    younger = Key("b", [Key("c")], vs)
    elder = Key("a", values=[Value("v", b""), Value("w", b"")])
    root = Key("R", [elder, younger, Key("z", lists="lf")], lists="lf")
    h = Builder(root).hive
    accepted_whole(h)
    b, leaf, item = younger.at, u32(h, place(root.at, 28)), u32(h, place(root.at, 44))
    own = ((14, b, (place(b, 16), word(0))), (13, b, (place(leaf, 16), b"B")), (11, 8, (place(vs[2].at, 8), word(8))), (29, vs[1].at, (place(vs[1].at, 20), b"V")),
           (11, 16, (place(b, 28), word(16))), (14, b, (place(b, 20), word(2))))
    for i, (number, at, change) in enumerate(own):
        refused(number, edited(h, change), at)
        for _, _, later in own[i + 1:]:
            if change[0] != later[0]:
                refused(number, edited(h, change, later), at)
    refused(12, edited(h, own[3][2], (place(vs[2].at), b"kv")), vs[2].at)
    refused(12, edited(h, own[3][2], (place(vs[2].at, 4), word(13))), u32(h, place(vs[2].at, 8)))
    # order and hint share number and place
    refused(13, edited(h, (place(leaf, 16), b"A"), (place(b, 76), b"A")), b)
    refused(13, edited(h, (place(b, 76), b"A"), (place(leaf, 16), b"A\0\0\1")), b)
    # 29 of the elder sibling before the hint of the younger, the key's own before its subkeys', and 28 after all
    elder_too = (place(elder.values[1].at, 20), b"V")
    for _, _, change in own:
        refused(29, edited(h, elder_too, change), elder.values[1].at)
    refused(29, edited(h, own[3][2], (place(u32(h, place(b, 28)), 4), word(8))), vs[1].at)
    refused(13, edited(h, own[1][2], (place(item, 12), word(9))), b)
    refused(29, edited(h, own[3][2], (place(item, 12), word(9))), vs[1].at)
    refused(29, edited(h, own[3][2], (place(root.at, 44), word(0))), vs[1].at)
    # lookup reads no hint, and needs no accepted hive
    path("B\\C", "key at %d" % younger.subkeys[0].at)
    refused(13, edited(h, own[1][2]), b)
    path("b\\c", "key at %d" % younger.subkeys[0].at)
    path("z", "key at %d" % root.subkeys[2].at)


def hint_bytes(*codes):
    return bytes(codes) + bytes(4 - len(codes))


def one_hint(name, hint, good, wide=None, lists="lf"):
    """A root with one subkey, and those four bytes beside its offset."""
    root = Key("R", [Key(name, wide=wide)], lists=lists)
    h = Builder(root).hive
    leaf = u32(h, place(root.at, 28))
    leaf = leaf if isinstance(lists, str) else u32(h, place(leaf, 4))
    h = edited(h, (place(leaf, 8), hint))
    accepted_whole(h) if good else refused(13, h, root.subkeys[0].at)


def hints():
    for name in ("a", "ab", "abc", "abcd", "abcde", "\xe9\xc9\xff", "ab\0cd"):
        right = name.encode("latin-1")[:4].ljust(4, b"\0")
        wrong = {right[:i] + bytes([right[i] ^ 1 << 2 * i]) + right[i + 1:] for i in range(4)} | {bytes(hives.upper(c) % 256 for c in right), right[::-1], bytes(4)}
        for hint in sorted(wrong - {right}):
            one_hint(name, hint, False)
        upper_one = bytes(hives.upper(c) % 256 for c in right)
        for wide, lists in ((False, "lf"), (True, "lf"), (False, [("lf", 1)]), (True, [("lf", 1)])):
            one_hint(name, right, True, wide, lists)
            one_hint(name, right[:3] + bytes([right[3] ^ 0x80]), False, wide, lists)
            one_hint(name, upper_one, False, wide, lists)
        # what stands beside an offset in an lh is a hash and no hint
        one_hint(name, word(hives.name_hash(hives.units(name))), True, lists="lh")
        one_hint(name, right, False, lists="lh")
    codes_in_hints()
    elements()


def codes_in_hints():
    """0, 255, 256 and more in each of the first five places: above 255 among four, the first byte is 0 and the others are anything."""
    for spot in range(5):
        for code in (0, 255, 256, 0x6100 + ord("a")):
            name = hives.units("abcde")
            name[spot] = code
            low = bytes(c % 256 for c in name[:4])
            free = spot < 4 and code > 255
            for hint in sorted({low, b"\0" + low[1:], b"\0\xff\xff\xff", b"\1" + low[1:]}):
                one_hint(name, hint, hint[0] == 0 if free else hint == low, wide=True)
    for length in (1, 4):
        for hint, good in ((b"\0\0\0\0", True), (b"\0\1\2\3", True), (b"\x16\0\0\0", False), (b"\1\0\0\0", False)):
            one_hint([0x416] * length, hint, good)


def elements():
    """Each element of a leaf, and of leaves of several kinds below an `ri`; of two with a wrong hint the first answers."""
    names = ("Alpha", "beta", "delta\u0416", "GAMMA", "\u0416one", "\u0416two")
    for kind in ("lf", [("lh", 2), ("lf", 3), ("li", 1)]):
        root = Key("Root", [Key(n) for n in names], lists=kind)
        h = Builder(root).hive
        accepted_whole(h)
        first = u32(h, place(root.at, 28))
        leaf, start, count = (first, 0, 6) if kind == "lf" else (u32(h, place(first, 8)), 2, 3)
        listed = [(place(leaf, 8 + 8 * i), root.subkeys[start + i]) for i in range(count)]
        for at, k in listed:
            refused(13, edited(h, (at, b"\1")), k.at)
            changed_h = edited(h, (at + 3, b"?"))
            accepted_whole(changed_h) if k.name[0] > 255 else refused(13, changed_h, k.at)
        for (at, k), (later, _) in zip(listed, listed[1:]):
            refused(13, edited(h, (at, b"\2"), (later, b"\2")), k.at)


# ---- security items

class Ring:
    """A root and its subkeys, whose items go round a ring in the order of their offsets; each has eight bytes for a descriptor, and uses four of them."""

    def __init__(self, items=5, subkeys=8):
        self.of = [hives.Item(bytes([i + 1] * 4)) for i in range(items)]
        self.root = Key("R", [Key("k%d" % i, item=self.of[i % items]) for i in range(subkeys)], item=self.of[0])
        self.hive = Builder(self.root, items=self.of).hive
        self.items, self.keys = [x.at for x in self.of], [k.at for k in self.root.subkeys]
        self.free = next(cell for cell, _ in hives.free_cells(self.hive[BASE:]))

    def named(self, i):
        """How many keys name an item."""
        return u32(self.hive, place(self.items[i], 12))

    def set(self, i, forward=None, backward=None, count=None, size=None):
        """What to write for an item's fields."""
        fields = ((4, forward), (8, backward), (12, count), (16, size))
        return [(place(self.items[i], at), word(n)) for at, n in fields if n is not None]

    def linked(self, *order):
        """What to write so that the ring is in another order."""
        after = dict(zip(order, order[1:] + order[:1]))
        return [c for i, j in after.items() for c in self.set(i, forward=self.items[j]) + self.set(j, backward=self.items[i])]

    def moved(self, k, to, counts=True):
        """What to write so that a subkey names something else, and its item is named once less."""
        old = k % len(self.items)
        return [(place(self.keys[k], 44), word(to))] + (self.set(old, count=self.named(old) - 1) if counts else [])

    def carved(self, *cells):
        """What to write so that cells in use stand where the free cell starts; and where they are."""
        at, changes, places = self.free, [], []
        for data in cells:
            size = (len(data) + 11) // 8 * 8
            changes += [(BASE + at, word(-size) + data + bytes(size - 4 - len(data)))]
            places.append(at)
            at += size
        return changes + [(BASE + at, word(4096 - at))], places

    def accepted(self, *changes):
        h = edited(self.hive, *changes)
        hive(h, "accepted bins 1 keys %d values 0 used %d free %d" % ((1 + len(self.keys),) + sum_used(h)))

    def refused(self, at, *changes):
        refused(28, edited(self.hive, *changes), at)


def item(forward=0, backward=0, count=0, size=0):
    return b"sk\0\0" + word(forward) + word(backward) + word(count) + word(size)


def security():
    minimal = Builder(Key("R")).hive
    for at in (0, 32, 116, 124, 128, 144, 4096, 0x80000000, 0xFFFFFFF8, 0xFFFFFFFF):
        refused(28, edited(minimal, (place(32, 44), word(at))), 32)
    for change in ((BASE + 120, word(24)), (place(120), b"ks"), (place(120), b"nk"), (BASE + 120, word(-16) + item(120, 120)[:12] + word(-8))):
        refused(28, edited(minimal, change), 32)
    for change in ((4, word(144)), (4, word(32)), (8, word(32)), (8, word(0)), (12, word(0)), (12, word(2)), (12, word(65537)), (16, word(1)), (16, word(0xFFFFFFEC))):
        refused(28, edited(minimal, (place(120, change[0]), change[1])), 120)
    hive(edited(minimal, (place(120, 2), b"??")), "accepted bins 1 keys 1 values 0 used 112 free 3952")
    r = Ring()
    r.accepted()
    rooms_and_counts(r)
    links(r)
    shapes(r)
    item_pairs(r)
    off_the_ring(r)
    lower_numbers()


def rooms_and_counts(r):
    """An item's room and its count, at the first, a middle and the last; none of its other bytes is read."""
    for i in (0, 2, 4):
        n = r.named(i)
        for size in (0, 3, 7, 8):
            r.accepted(*r.set(i, size=size))
        for size in (9, 10, 0x10004, 0x7FFFFFFF, 0x80000000, 0xFFFFFFEB, 0xFFFFFFEC, 0xFFFFFFED, 0xFFFFFFFF):
            r.refused(r.items[i], *r.set(i, size=size))
        for count in (0, n - 1, n + 1, n + 256, n + 65536, n + 0x1000000, 0xFFFFFFFF):
            r.refused(r.items[i], *r.set(i, count=count))
        r.accepted((place(r.items[i], 2), b"sk"), (place(r.items[i], 20), b"\xff" * 8))
    empty = Ring(5, 2)
    empty.accepted()
    empty.refused(empty.items[3], *empty.set(3, count=1))
    # a key that no list names is not counted
    refused(28, edited(r.hive, (place(r.root.at, 20), word(0))), r.items[0])
    alone = edited(r.hive, (place(r.root.at, 20), word(0)), *[c for i in range(5) for c in r.set(i, count=1 if i == 0 else 0)])
    hive(alone, "accepted bins 1 keys 1 values 0 used %d free %d" % sum_used(alone))


def links(r):
    """Forward links of the first, a middle and the last item to what is none, and to items that name another one back."""
    cells, (short_at, whole_at) = r.carved(item()[:12], item(r.items[0], r.items[0]))
    leaf = u32(r.hive, place(r.root.at, 28))
    for i in (0, 2, 4):
        at, after, past = r.items[i], r.items[(i + 1) % 5], r.items[(i + 2) % 5]
        for to in (0, 4, 8, r.free, r.free + 8, 4088, 4096, 8192, 0x80000000, 0xFFFFFFF8, 0xFFFFFFFF, after + 1, after + 4, after + 8, after - 8, r.root.at, r.keys[i], leaf, at, past):
            r.refused(at, *r.set(i, forward=to))
        for back in (0, after, past, r.items[i - 1], at + 4, at + 1, at ^ 0x80000000, 0xFFFFFFFF):
            r.refused(at, *r.set((i + 1) % 5, backward=back))
        # a cell of 16 bytes that begins as an item; a whole one that names another back; bytes inside a cell that would be one
        r.refused(at, *cells, *r.set(i, forward=short_at), *r.set((i + 1) % 5, backward=short_at), (place(short_at, 4), word(after) + word(at)))
        r.refused(at, *cells, *r.set(i, forward=whole_at), (place(whole_at, 8), word(r.items[(i + 3) % 5])))
        inside, (host,) = r.carved(b"data" + word(-24) + item(after, at))
        r.refused(at, *inside, *r.set(i, forward=host + 8), *r.set((i + 1) % 5, backward=host + 8))
        # the item linked to is free, or is another record
        size = 0x100000000 - u32(r.hive, BASE + after)
        r.refused(r.root.at if i == 4 else at, (BASE + after, word(size)))
        r.refused(r.root.at if i == 4 else at, (place(after), b"nk"))
    # an item that stands in the ring beside the others
    r.accepted(*cells, *r.set(2, forward=whole_at), *r.set(3, backward=whole_at), (place(whole_at, 4), word(r.items[3]) + word(r.items[2])))
    r.refused(r.items[2], *cells, *r.set(2, forward=whole_at), (place(whole_at, 4), word(r.items[3]) + word(r.items[2])), (BASE + whole_at, word(24)))
    r.refused(whole_at, *cells, *r.set(2, forward=whole_at), (place(whole_at, 4), word(r.items[3]) + word(r.items[2])))


def shapes(r):
    """Rings in other orders, short ones, both rho shapes, and rings beside the ring."""
    for order in ((0, 3, 1, 4, 2), (4, 3, 2, 1, 0), (2, 3, 4, 0, 1)):
        r.accepted(*r.linked(*order))
    # the ring's order and not that of the offsets: of two items at fault, and of the item after which the ring is left
    r.refused(r.items[4], *r.linked(0, 4, 3, 2, 1), *r.set(1, count=99), *r.set(4, count=99))
    r.refused(r.items[3], *r.linked(0, 4, 3, 2, 1), *r.set(1, size=99), *r.set(3, forward=0))
    # the first one's backward link is tested with the last item, the last one's with the item before it
    for back in (0, r.root.at, r.items[0], r.items[2], r.items[4] + 8):
        r.refused(r.items[4], *r.set(0, backward=back))
        r.refused(r.items[3], *r.set(4, backward=back))
    for m in (1, 2, 3, 4):
        r.refused(r.items[4], *r.set(4, forward=r.items[m]))
        r.refused(r.items[m - 1], *r.set(4, forward=r.items[m]), *r.set(m, backward=r.items[4]))
    # one left out: its keys are off the ring
    r.refused(r.keys[1], *r.linked(0, 2, 3, 4))
    r.refused(r.keys[1], *r.linked(0, 2, 4), *r.linked(1, 3))
    r.refused(r.keys[2], *r.linked(0, 1, 3, 4), *r.linked(2))
    r.refused(r.keys[4], *r.linked(0, 1, 2, 3))
    # the same without keys there: not judged, whatever it says
    few = Ring(5, 2)
    few.accepted(*few.linked(0, 1, 4), *few.linked(2, 3))
    few.accepted(*few.linked(0, 1), *few.linked(2, 3, 4), *few.set(3, count=7), *few.set(4, size=0xFFFFFFFF))
    few.accepted(*few.linked(0, 1), *few.set(2, forward=few.items[0], backward=few.items[1]), *few.set(3, forward=0, backward=1))
    few.refused(few.items[1], *few.linked(0, 1), *few.set(0, backward=few.items[4]))
    one = Ring(1, 3)
    one.accepted()
    one.refused(one.items[0], *one.set(0, count=3))
    one.refused(one.items[0], *one.set(0, backward=one.root.at))
    two = Ring(2, 3)
    two.accepted()
    two.refused(two.items[0], *two.set(0, forward=two.items[0]))
    two.refused(two.items[1], *two.set(1, forward=two.items[1]))
    two.refused(two.items[0], *two.set(1, backward=two.items[1]))
    two.refused(two.items[1], *two.set(0, backward=two.items[0]))
    two.refused(two.keys[1], *two.linked(0), *two.linked(1))


def item_pairs(r):
    """Two faults: the earlier item answers, whichever they are; the root's offset before all items, these before all keys."""
    def fault(kind, i):
        return {"room": r.set(i, size=9), "forward": r.set(i, forward=r.root.at), "backward": r.set((i + 1) % 5, backward=r.root.at), "count": r.set(i, count=77)}[kind]

    kinds = ("room", "forward", "backward", "count")
    for a in kinds:
        for b in kinds:
            for i, j in ((0, 1), (1, 3), (3, 4)):
                r.refused(r.items[i], *fault(a, i), *fault(b, j))
            if a != b:
                r.refused(r.items[2], *fault(a, 2), *fault(b, 2))
        r.refused(r.root.at, *fault(a, 0), (place(r.root.at, 44), word(r.root.at)))
        r.refused(r.items[4], *fault(a, 4), *r.moved(0, 0))
        r.refused(r.items[0], *fault(a, 0), *r.moved(7, r.free))
    # the root's own offset is tested first, and the ring starts at its item: from another one it is the same ring
    for i in (1, 4):
        changes = [(place(r.root.at, 44), word(r.items[i]))] + r.set(0, count=r.named(0) - 1) + r.set(i, count=r.named(i) + 1)
        r.accepted(*changes)
        r.refused(r.items[i], *changes, *r.set(i, size=9), *r.set(0, size=9))
        r.refused(r.items[0], *changes, *r.set(0, size=9), *r.set(i - 1, size=9))


def off_the_ring(r):
    """Keys whose offset is no ring item's, in the order of the walk; the counts are those of the others."""
    cells, (self_at, into_at, short_at) = r.carved(item(r.free, r.free, 1), item(r.items[0], r.items[4], 1), item(0, 0)[:12])
    for k in (0, 4, 7):
        for to in (0, 4, 8, r.free, 4088, 4096, 8192, 0x80000000, 0xFFFFFFFF, r.items[1] + 4, r.items[1] + 8, r.root.at, r.keys[k]):
            r.refused(r.keys[k], *r.moved(k, to))
        for to in (self_at, into_at, short_at):
            r.refused(r.keys[k], *cells, *r.moved(k, to))
        # with the count of the item that it named before it is that item
        r.refused(r.items[k % 5], *r.moved(k, 0, counts=False))
        r.refused(r.items[k % 5], *cells, *r.moved(k, self_at, counts=False))
    r.accepted(*cells)
    r.refused(r.keys[2], *r.moved(2, 0), *r.moved(4, self_at), *cells)
    r.refused(r.keys[2], *r.moved(2, self_at), *r.moved(4, 0), *cells)
    walk_order()
    also_data()


def walk_order():
    """A subtree before the next sibling, and list order where the offsets are in another: the first key of the walk answers."""
    items = [hives.Item(), hives.Item()]
    low, deep, high = Key("c", item=items[1]), Key("x", item=items[1]), Key("b", item=items[1])
    root = Key("R", [low, high, Key("a", [deep])])
    h = Builder(root, items=items).hive
    leaf, a = u32(h, place(root.at, 28)), root.subkeys[2]
    element = {k: h[place(leaf, 4 + 8 * i):place(leaf, 12 + 8 * i)] for i, k in enumerate(root.subkeys)}
    sorted_list = (place(leaf, 4), element[a] + element[high] + element[low])
    right = edited(h, sorted_list)
    hive(right, "accepted bins 1 keys 5 values 0 used %d free %d" % sum_used(right))
    for moved, first in (((low, high), high), ((low, deep), deep), ((low, high, deep), deep), ((low,), low), ((a, low), a)):
        changes = [(place(k.at, 44), word(0)) for k in moved]
        counts = [u32(h, place(x.at, 12)) - sum((k.item or items[0]) is x for k in moved) for x in items]
        refused(28, edited(right, *changes, *[(place(x.at, 12), word(n)) for x, n in zip(items, counts)]), first.at)


def also_data():
    """A cell may be an item and something else: not judged."""
    items = [hives.Item(), hives.Item(b"12345678")]
    v = Value("v", b"12345678")
    root = Key("R", values=[v], item=items[0])
    h = Builder(root, items=items).hive
    for at, size in ((items[0].at, 20), (items[1].at, 28)):
        changed_h = edited(h, (place(v.at, 8), word(at)), (place(v.at, 4), word(size)))
        hive(changed_h, "accepted bins 1 keys 1 values 1 used %d free %d" % sum_used(changed_h))
        refused(12, edited(changed_h, (place(v.at, 4), word(size + 1))), at)
    refused(28, edited(h, (place(root.at, 44), word(v.at))), root.at)


def lower_numbers():
    """9 to 14 go before 28, wherever they are; 15 is among the larger runs."""
    root = Key("R", [Key("a", [Key("b", values=[Value("v", b"12345678")])]), Key("z")])
    h = Builder(root).hive
    z, b = root.subkeys[1].at, root.subkeys[0].subkeys[0].at
    v = u32(h, place(u32(h, place(b, 40)), 0))
    free = next(cell for cell, _ in hives.free_cells(h[BASE:]))
    first = u32(h, place(root.at, 44))
    for broken, at in (((place(first, 12), word(9)), first), ((place(first, 4), word(0)), first), ((place(root.at, 44), word(0)), root.at), ((place(z, 44), word(0)), first)):
        bad = edited(h, broken)
        refused(28, bad, at)
        refused(9, edited(bad, (BASE + 4, word(8))), 0)
        refused(10, edited(bad, (BASE + free, word(4))), free)
        refused(11, edited(bad, (place(v, 8), word(4))), 4)
        refused(12, edited(bad, (place(v), b"kv")), v)
        refused(12, edited(bad, (place(z), b"kn")), z)
        refused(13, edited(bad, (place(z, 76), b"A")), z)
        refused(14, edited(bad, (place(z, 16), word(z))), z)
        refused(14, edited(bad, (place(root.at, 20), word(3))), root.at)
        refused(7, edited(bad, (4, word(9))))


def logs():
    root = Key("Root", [Key("kept")])
    good = Builder(root, stamp=0x1122334455667788).hive
    dirty = torn(good)
    page0, page1 = bytes(good[BASE:BASE + 512]), bytes(good[BASE + 512:BASE + 1024])
    accepted = "accepted bins 1 keys 2 values 0 used 216 free 3848"
    whole = old_log(good, {0: page0})
    # a clean hive answers clean, whatever the log
    hive(good, accepted)
    log(whole, "clean")
    log(b"", "clean")
    path("kept", "key at %d" % root.subkeys[0].at)
    # usable: the sequence numbers differ
    for kind in (1, 2):
        refused(7, dirty)
        log(old_log(good, {0: page0, 7: page1}, kind), "repaired 2")
        log(whole, "clean")
        path("KEPT", "key at %d" % root.subkeys[0].at)
    refused(7, dirty)
    log(old_log(good, {}), "repaired 0")
    path("", "key at %d" % root.at)
    # page 0 brings a tree back
    refused(7, edited(dirty, (BASE + 32, bytes(300))))
    path("kept", "refused 7 at 0")
    log(whole, "repaired 1")
    path("kept", "key at %d" % root.subkeys[0].at)
    # not usable: the first bin's stamp counts, and page 0's
    spoilt = bytearray(dirty)
    spoilt[508] ^= 1
    refused(3, spoilt)
    log(whole, "repaired 1")
    path("kept", "key at %d" % root.subkeys[0].at)
    refused(3, spoilt)
    log(old_log(good, {1: page1}), "repaired 1")
    refused(2, bytes(4096) + spoilt[4096:])
    log(whole, "repaired 1")
    path("kept", "key at %d" % root.subkeys[0].at)
    other_stamp = bytearray(spoilt)
    other_stamp[BASE + 20] ^= 1
    refused(3, other_stamp)
    log(whole, "refused 25 at 0")
    log(old_log(good, {1: page1}), "refused 25 at 0")
    other_page = bytearray(page0)
    other_page[27] ^= 1
    refused(3, spoilt)
    log(old_log(good, {0: bytes(other_page)}), "refused 25 at 0")
    log(old_log(good, {1: bytes(other_page)}), "repaired 1")
    # of a usable hive the base stamp counts, and no other
    refused(7, edited(dirty, (BASE + 20, b"?")))
    log(old_log(good, {0: bytes(other_page)}), "repaired 1")
    refused(7, edited(dirty, (12, b"?")))
    log(whole, "refused 25 at 0")
    bad_logs(good, dirty, whole, page0)
    # equal sequence numbers, but not usable: not clean
    unsealed = bytearray(good)
    unsealed[508] ^= 1
    refused(3, unsealed)
    log(whole, "repaired 1")
    # cut, and clean all the same
    refused(6, good[:4096])
    log(whole, "clean")
    refused(6, edited(good, (40, word(0x7FFFF000))))
    for l in (whole, b"", edited(whole, (40, word(0x7FFFF000))), edited(whole, (40, word(0x80000000)))):
        log(l, "clean")
    refused(5, edited(good, (40, word(0x80000000))))
    log(whole, "repaired 1")
    refused(1, good[:4095])
    log(whole, "refused 1 at 0")


def bad_logs(good, dirty, whole, page0):
    """21 to 24; a refused log changes nothing, so the last one still repairs."""
    refused(7, dirty)
    two = edited(whole, (40, word(8192)))
    for l in (b"", whole[:511], edited(whole, (0, b"x")), whole[:508] + b"????" + whole[512:], edited(whole, (28, word(0))), edited(whole, (28, word(3))), edited(whole, (24, word(9))),
              edited(whole, (40, word(0))), edited(whole, (40, word(100))), edited(whole, (4, word(1)))):
        log(l, "refused 21 at 0")
    for size, number in ((0x7FFFE000, 22), (0x7FFFF000, 22), (0x7FFFF800, 21), (0x80000000, 21), (0xFFFFF000, 21)):
        log(edited(whole, (40, word(size))), "refused %d at 0" % number)
    for l in (whole[:512], whole[:515], whole[:516], two[:517], whole[:517], whole[:1024], whole[:1535], edited(whole, (512, b"dirt"))[:516], edited(whole, (516, b"\3"))):
        log(l, "refused 22 at 0")
    log(edited(whole, (512, b"dirt")), "refused 23 at 0")
    log(edited(whole, (512, b"dirt"))[:600], "refused 23 at 0")
    log(two, "refused 24 at 0")
    log(edited(two, (12, b"?")), "refused 24 at 0")
    log(edited(whole, (40, word(67108864)), (516, bytes(16384)))[:17000], "refused 24 at 0")
    path("", "refused 7 at 0")
    log(edited(whole, (516, b"\0"))[:517], "repaired 0")
    refused(7, dirty)
    log(whole + b"behind", "repaired 1")
    # two bins: the bitmap has two bytes, and the figures of the paper
    root = Key("R", values=[Value("v", b"x" * 3976)])
    large = Builder(root, stamp=5).hive
    accepted = "accepted bins 2 keys 1 values 1 used %d free %d" % (sum_used(large))
    hive(large, accepted)
    at = {0: bytes(large[4096:4608]), 15: b"y" * 512}
    l = old_log(large, at)
    refused(7, torn(large))
    log(l[:2047], "refused 22 at 0")
    log(l[:2048], "repaired 2")
    path("", "key at %d" % root.at)
    # a log of fewer bins than the hive had
    refused(7, torn(large))
    log(old_log(edited(large, (40, word(4096))), {}), "repaired 0")


# ---- logs of Windows 8.1 and later

NUMBER = 9


def pages_of(good, *numbers):
    """References to pages of a hive, each with its bytes."""
    return [(512 * p, bytes(good[BASE + 512 * p:BASE + 512 * p + 512])) for p in numbers]


def numbered(hive, first, second):
    return edited(hive, (4, word(first)), (8, word(second)))


def broken_entries(number, bins, refs):
    """An entry with one clause of the ruling broken, its hashes renewed where it is not they: (what, entry). refs has two pages or more."""
    e = entry(number, bins, refs, size=2048)
    yield "signature", changed(e, (0, b"Hvle"))
    yield "size 0", bytes(e[:4]) + word(0) + bytes(e[8:])
    yield "size not a multiple", changed(e + bytes(8), (4, word(len(e) + 8)))
    yield "size half a sector more", changed(e + bytes(256), (4, word(len(e) + 256)))
    yield "size too small for its pages", changed(e[:1024], (4, word(1024)))
    yield "size past the log", changed(e, (4, word(len(e) + 512)))
    yield "size near 2^32", changed(e, (4, word(2**32 - 512)))
    yield "Hash-1", bytes(e[:24]) + bytes([e[24] ^ 1]) + bytes(e[25:32]) + struct.pack("<Q", hives.marvin(bytes(e[:24]) + bytes([e[24] ^ 1]) + bytes(e[25:32]))) + bytes(e[40:])
    yield "Hash-2", bytes(e[:39]) + bytes([e[39] ^ 0x80]) + bytes(e[40:])
    yield "a byte of a page", bytes(e[:700]) + bytes([e[700] ^ 1]) + bytes(e[701:])
    yield "a byte of padding", bytes(e[:-1]) + b"?"
    yield "number one less", changed(e, (12, word(number - 1)))
    yield "number one more", changed(e, (12, word(number + 1)))
    for size in (0, 4095, 4096 + 512, 0x80000000, 0xFFFFF000):
        yield "bins size %d" % size, changed(e, (16, word(size)))
    for count in (3, 252, 0x20000000 + len(refs), 0xFFFFFFFF):
        yield "count %d" % count, changed(e, (20, word(count)), *([(56, word(0) + word(1024))] if count == 3 else []))
    yield "offset not aligned", changed(e, (40, word(256)))
    yield "size not aligned", changed(e, (44, word(256)))
    yield "past the bins by a page", changed(e, (48, word(bins)))
    yield "past the bins with its end", changed(entry(number, bins, [(bins - 512, bytes(1024))], size=2048))
    yield "offset near 2^32", changed(e, (48, word(2**32 - 512)))
    yield "the same page twice", changed(e, (48, e[40:44]))
    yield "overlap, not neighbours", entry(number, bins, [refs[0], refs[1], refs[0]])
    yield "overlap by the second page of one", entry(number, bins, [(0, bytes(1024)), (512, bytes(512))])
    yield "overlap inside one, falling", entry(number, bins, [(1024, bytes(512)), (0, bytes(2048))])


def new_logs():
    root = Key("Root", [Key("kept")])
    good = Builder(root, stamp=0x1122334455667788).hive
    bins = u32(good, 40)
    dirty = numbered(good, NUMBER + 1, NUMBER)
    lost = edited(dirty, (BASE + 32, bytes(300)))
    kept = "key at %d" % root.subkeys[0].at
    first = entry(NUMBER, bins, pages_of(good, 0, 7))
    whole = new_log(good, [first])
    # a clean hive answers clean, whatever the log
    hive(good, "accepted bins 1 keys 2 values 0 used 216 free 3848")
    log(whole, "clean")
    # page 0 brings a tree back
    refused(7, lost)
    path("kept", "refused 7 at 0")
    log(whole, "repaired 2")
    path("kept", kept)
    log(whole, "clean")
    path("KEPT", kept)
    # the vectors' entries: one without references, one of one page
    refused(7, numbered(good, 6, 5))
    log(new_log(good, [entry(5, 4096), entry(6, 4096, [(512, b"\xaa" * 512)])], 5), "repaired 1")
    path("kept", kept)
    for what, bad in broken_entries(NUMBER, bins, pages_of(good, 0, 7)):
        refused(7, lost)
        log(new_log(good, [bad]), "refused 22 at 0")
        log(whole, "repaired 2")
    for what, bad in broken_entries(NUMBER + 1, bins, pages_of(good, 1, 2)):
        behind = [] if what == "size past the log" else [entry(NUMBER + 1, bins, pages_of(good, 3)), entry(NUMBER + 2, bins, pages_of(good, 4))]
        refused(7, lost)
        log(new_log(good, [first, bad] + behind), "repaired 2")
        path("kept", kept)
    not_faults(good, dirty, first)
    new_numbers(good, lost, kept)
    new_sizes(good)
    new_stamps(good)
    new_bases(good, dirty, whole)


def not_faults(good, dirty, first):
    """What the request lists no fault for."""
    bins, second = u32(good, 40), NUMBER + 1
    page, none = pages_of(good, 3)[0], (1024, b"")
    two = [pages_of(good, 1)[0], pages_of(good, 2)[0]]
    for refs, count in (([], 2), ([none], 2), ([page, (1536, b"")], 3), ([(0, bytes(good[BASE:BASE + 1024])), (512, b""), (0, b"")], 3), ([(bins, b"")], 2),
                        (list(reversed(two)), 4), ([(512, two[0][1] + two[1][1])], 4), (pages_of(good, 0, 7), 2), ([none] * 58 + [page], 3),
                        ([page] + [none] * 58, 3), ([none] * 57 + [page], 3), ([none] * 59, 2)):
        refused(7, dirty)
        log(new_log(good, [first, entry(second, bins, refs)]), "repaired %d" % count)
    for offset in (256, bins + 512, 2**32 - 512):
        refused(7, dirty)
        log(new_log(good, [first, entry(second, bins, [page, (offset, b"")])]), "repaired 2")
    for made in (entry(second, bins, two, flags=0xFFFFFFFF), entry(second, bins, two, padding=b"\xa5"), entry(second, bins, two, size=4096, padding=b"H")):
        refused(7, dirty)
        log(new_log(good, [first, made]), "repaired 4")
        refused(7, dirty)
        log(new_log(good, [first, bytes(made[:-1]) + b"?"]), "repaired 2")
    # old entries behind, and a gap
    for behind in ([entry(NUMBER - 1, bins, two)], [entry(NUMBER, bins, two)], [bytes(512), entry(second, bins, two)], [b"HvLE"], [bytes(39)], [b"HvLE" + word(512)]):
        refused(7, dirty)
        log(new_log(good, [first] + behind), "repaired 2")
    # cut: here at each length about a boundary
    both = new_log(good, [first, entry(second, bins, two)])
    ends = (512, 512 + len(first), len(both))
    for end in sorted({max(0, e + d) for e in ends for d in (-513, -512, -511, -1, 0, 1, 4, 39, 40, 41, 511) if e + d <= len(both)}):
        refused(7, dirty)
        log(both[:end], "refused 21 at 0" if end < 512 else "refused 22 at 0" if end < ends[1] else "repaired %d" % (2 if end < ends[2] else 4))


def new_numbers(good, lost, kept):
    """The log's number, and the hive's second one. Its first is not read."""
    bins = u32(good, 40)
    for number in (NUMBER - 1, NUMBER, NUMBER + 1, 0, 2**32 - 1):
        h = numbered(lost, 12345, number)
        refused(7, h)
        log(new_log(good, [entry(NUMBER, bins, pages_of(good, 0)), entry(NUMBER + 1, bins, pages_of(good, 1))]), "repaired 2" if number == NUMBER else "refused 25 at 0")
        path("kept", kept if number == NUMBER else "refused 7 at 0")
        refused(7, numbered(lost, NUMBER, number ^ 1 << 31))
        log(new_log(good, [entry(NUMBER, bins, pages_of(good, 0))]), "refused 25 at 0")
    # nothing follows 2^32 - 1
    last = 2**32 - 1
    refused(7, numbered(lost, 0, last))
    log(new_log(good, [entry(last, bins, pages_of(good, 0)), entry(0, bins, pages_of(good, 1))], last), "repaired 1")
    path("kept", kept)
    refused(7, numbered(lost, 0, last - 1))
    log(new_log(good, [entry(last - 1, bins, pages_of(good, 0)), entry(last, bins, pages_of(good, 1)), entry(0, bins, pages_of(good, 2))], last - 1), "repaired 2")
    # the stamps are not read where the hive is usable
    refused(7, edited(numbered(lost, 1, NUMBER), (12, b"?"), (BASE + 20, b"?")))
    log(new_log(good, [entry(NUMBER, bins, pages_of(good, 0))]), "repaired 1")
    path("kept", kept)


def new_sizes(good):
    """Growth and shrinkage: 24 reads the largest counted bins size, the closing sector has the last."""
    root = Key("R", values=[Value("v", b"x" * 3976)])
    large = Builder(root, stamp=0x1122334455667788).hive
    assert u32(large, 40) == 8192
    small = numbered(edited(good, (40, word(4096))), 1, NUMBER)
    grown = [entry(NUMBER, 4096, pages_of(large, 0)), entry(NUMBER + 1, 8192, pages_of(large, *range(1, 16)))]
    for h in (small, bytes(small) + bytes(4095)):
        refused(7, h)
        log(new_log(good, grown), "refused 24 at 0")
        log(new_log(good, [grown[0]]), "repaired 1")
    refused(7, bytes(small) + bytes(4096))
    log(new_log(edited(large, (40, word(4096))), grown), "repaired 16")
    path("", "key at %d" % root.at)
    path("kept", "refused 17 at 0")
    # the base block's own size is only tested by 21
    for size in (4096, 8192, 12288, 0x7FFFF000):
        refused(7, bytes(small) + bytes(4096))
        log(new_log(edited(large, (40, word(size))), grown), "repaired 16")
    # a page past the last bins size counts and goes in
    shrunk = [entry(NUMBER, 8192, [(7680, b"y" * 512)]), entry(NUMBER + 1, 4096, pages_of(good, 0))]
    refused(7, bytes(small) + bytes(4095))
    log(new_log(large, shrunk), "refused 24 at 0")
    refused(7, bytes(small) + bytes(4096))
    log(new_log(large, shrunk), "repaired 2")
    path("kept", "key at 120")
    # outside this entry's bins, inside another's
    refused(7, bytes(small) + bytes(4096))
    log(new_log(large, [shrunk[0], entry(NUMBER + 1, 4096, pages_of(large, 8))]), "repaired 1")
    path("kept", "key at 120")


def new_stamps(good):
    """A hive that is not usable: the first bin's stamp, and that of every version of page 0."""
    bins, page = u32(good, 40), bytes(good[BASE:BASE + 512])
    other = page[:20] + bytes([page[20] ^ 1]) + page[21:]
    spoilt = bytearray(numbered(good, NUMBER + 1, NUMBER))
    spoilt[508] ^= 1
    usable = numbered(good, NUMBER + 1, NUMBER)
    for wrong in (None, 0, 1, 2):
        made = new_log(good, [entry(NUMBER + k, bins, [(0, other if k == wrong else page), (512 * (k + 1), bytes(512))]) for k in range(3)])
        refused(3, spoilt)
        log(made, "repaired 4" if wrong is None else "refused 25 at 0")
        refused(2, bytes(BASE) + spoilt[BASE:])
        log(made, "repaired 4" if wrong is None else "refused 25 at 0")
        refused(7, usable)
        log(made, "repaired 4")
        refused(3, spoilt[:BASE + 27] + bytes([spoilt[BASE + 27] ^ 1]) + spoilt[BASE + 28:])
        log(made, "refused 25 at 0")
    # page 0 is not logged; its bytes are part of a longer reference
    refused(3, spoilt)
    log(new_log(good, [entry(NUMBER, bins, [(512, other)])]), "repaired 1")
    refused(3, spoilt)
    log(new_log(good, [entry(NUMBER, bins, [(0, other + page)])]), "refused 25 at 0")
    refused(3, spoilt)
    log(new_log(good, [entry(NUMBER, bins, [(0, page + other)])]), "repaired 2")
    # the number is not read then
    refused(3, spoilt)
    log(new_log(good, [entry(77, bins, [(0, page)])], 77), "repaired 1")


def new_bases(good, dirty, whole):
    """21, and what the closing sector keeps."""
    bins = u32(good, 40)
    refused(7, dirty)
    for l in (whole[:511], edited(whole, (0, b"x")), whole[:508] + b"????" + whole[512:], edited(whole, (28, word(7))), edited(whole, (28, word(0x106))), edited(whole, (24, word(9))),
              edited(whole, (40, word(0))), edited(whole, (40, word(100))), edited(whole, (40, word(0x80000000))), edited(whole, (4, word(1))), edited(whole, (8, word(1)))):
        log(l, "refused 21 at 0")
    log(whole[:512], "refused 22 at 0")
    for kind in (1, 2):
        log(edited(whole, (28, word(kind))), "refused 23 at 0")
    log(edited(old_log(good, {0: bytes(512)}), (28, word(6))), "refused 22 at 0")
    path("", "refused 7 at 0")
    # entries before the log's own number are none of its own
    log(edited(whole, (4, word(NUMBER + 1)), (8, word(NUMBER + 1))), "refused 22 at 0")
    log(edited(whole, (36, word(120))), "repaired 2")
    path("", "key at 120")
    for xor, stored, right in STORED:
        refused(7, dirty)
        log(with_xor(whole, xor, stored), "repaired 2" if right else "refused 21 at 0")


def sum_used(h):
    _, _, used, free = hives.tile(hives.open_hive(h))
    return used, free


def begin():
    """Before any hive."""
    path("a", "no hive")
    log(b"", "no hive")
    path("\\", "no hive")
    log(b"x" * LONGEST, "no hive")
    path("x" * (LONGEST // 2), "no hive")


def write(name, data):
    os.makedirs(os.path.dirname(name), exist_ok=True)
    with open(name, "wb") as f:
        f.write(data)


def ends():
    """Streams that end in every way: (name, bytes, lines). Each is a file of the program frame_ends."""
    minimal = frame(HIVE, Builder(Key("R")).hive)
    accepted = "accepted bins 1 keys 1 values 0 used 112 free 3952"
    out = [("empty", b"", [])]
    out += [("head%d" % n, minimal[:n], ["bad frame"]) for n in range(1, 6)]
    out += [("cut", minimal[:-1], ["bad frame"]), ("bare", minimal[:6], ["bad frame"]),
            ("later", minimal + minimal[:3000], [accepted, "bad frame"]),
            ("whole", minimal, [accepted]),
            ("long", struct.pack("<IH", 0xFFFFFFFF, HIVE) + bytes(100), ["bad frame"]),
            ("longer", struct.pack("<IH", LONGEST + 1, HIVE) + bytes(LONGEST + 1), ["bad frame"]),
            ("longest", frame(HIVE, bytes(LONGEST)), ["refused 2 at 0"]),
            ("kind0", frame(0, b""), ["bad frame"]), ("kind4", frame(4, b"") + minimal, ["bad frame"]), ("kind257", frame(257, b""), ["bad frame"]),
            ("odd", frame(PATH, b"a"), ["bad frame"]), ("odder", minimal + frame(PATH, b"abc") + minimal, [accepted, "bad frame"]),
            ("oddcut", struct.pack("<IH", 3, PATH) + b"a", ["bad frame"]), ("pathcut", struct.pack("<IH", 4, PATH) + b"ab", ["bad frame"]),
            ("nothings", frame(HIVE, b"") + frame(LOG, b"") + frame(PATH, b""), ["refused 1 at 0"] * 3),
            ("loose", frame(PATH, b"") + minimal + frame(LOG, b"") + frame(PATH, b"") + b"\0", ["no hive", accepted, "clean", "key at 32", "bad frame"])]
    return [(name, data, ["hive"] + said) for name, data, said in out]


def hold(name, data, said):
    """The lines stated by hand against the model's."""
    modelled = lines_of(data)
    for i, (a, b) in enumerate(zip(said, modelled)):
        if a != b:
            raise SystemExit("%s, line %d: stated %r, the model says %r" % (name, i + 1, a, b))
    if len(said) != len(modelled):
        raise SystemExit("%s: %d lines stated, %d by the model" % (name, len(said), len(modelled)))


def main():
    for part in (begin, bases, checksums, tilings, keys, lists, values, paths, namesakes, hints, security, logs, new_logs):
        part()
    stream.extend(struct.pack("<IH", 0xFFFFFFFF, PATH))
    lines.append("bad frame")
    hold("hive_frames", bytes(stream), lines)
    write("crates/hive_frames/stdin", stream)
    write("crates/hive_frames/stdout", ("\n".join(lines) + "\n").encode())
    said = []
    for name, data, expected in ends():
        hold(name, data, expected)
        write("crates/frame_ends/data/" + name, data)
        said += [name] + expected
    write("crates/frame_ends/stdout", ("\n".join(said) + "\n").encode())
    write("crates/frame_ends/args", "".join(name + "\n" for name, _, _ in ends()).encode())
    numbers = sorted({int(l.split()[1]) for l in lines if l.startswith("refused")})
    print("%d frames, %d bytes, refusals %s" % (len(lines) - 2, len(stream), numbers))


if __name__ == "__main__":
    usage.words(__doc__)
    main()
