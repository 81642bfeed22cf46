#!/usr/bin/env python3
"""Writes crates/repair_runs/stdin and stdout: the orders of the repairs that the program runs, and the lines that
it must write. The lines come from a model of recovery of this script's own, written from document 01 and not from
the Rattle code, and for logs of Windows 8.1 and later from that of hives.py. Run it at the top of the repository."""
import functools
import random
import struct

import frames
import hives
import usage

usage.words(__doc__)

SECTOR = 512
orders, lines = bytearray(), []


def order(kind, n=0, tail=b""):
    orders.extend(struct.pack("<BI", kind, n) + tail)


def say(text):
    data = (text + "\n").encode()
    order(0, len(data), data)
    lines.append(text)


# ---- the files

def xor_of(block):
    total = 0
    for word in struct.unpack("<127I", bytes(block[:508])):
        total ^= word
    return total


def checksum(block):
    """A XOR of 0 is stored as 1, and one of 0xFFFFFFFF as 0xFFFFFFFE."""
    xor = xor_of(block)
    if xor == 0:
        return 1
    return 0xFFFFFFFE if xor == 0xFFFFFFFF else xor


def base_block(kind, first=5, second=5, stamp=0, bins=8192, minor=5):
    b = bytearray(SECTOR)
    b[0:4] = b"regf"
    struct.pack_into("<IIQ", b, 4, first, second, stamp)
    struct.pack_into("<IIII", b, 20, 1, minor, kind, 1)
    struct.pack_into("<III", b, 36, 32, bins, 1)
    struct.pack_into("<I", b, 508, checksum(b))
    return b


def with_xor(block, xor):
    """A base block of that XOR, by a word that nobody reads."""
    b = bytearray(block)
    struct.pack_into("<I", b, 200, struct.unpack_from("<I", b, 200)[0] ^ xor_of(b) ^ xor)
    struct.pack_into("<I", b, 508, checksum(b))
    return b


def pattern(seed):
    """A page that is told from others by its first bytes and its last."""
    page = bytearray(SECTOR)
    page[:32] = bytes((seed * 31 + i * 7) % 251 for i in range(32))
    page[-2:] = struct.pack(">H", seed + 1)
    return page


def hive_file(base, stamp=0, bins=8192):
    """A hive some of whose pages are not zero, and whose first bin has a stamp."""
    h = bytearray(4096 + bins)
    h[: len(base)] = base
    h[4095] = 99
    for p in (0, 1, 6, 7, 15):
        h[4096 + SECTOR * p: 4096 + SECTOR * (p + 1)] = pattern(p)
    struct.pack_into("<Q", h, 4096 + 20, stamp)
    return h


def log_file(pages, stamp=0, bins=8192, base=None, zero_stamp=None):
    """An old log of the given pages, with their new bytes."""
    base = base_block(1, stamp=stamp, bins=bins) if base is None else base
    size = bins // 4096
    bitmap = bytearray(size)
    for p in pages:
        bitmap[p // 8] |= 1 << (p % 8)
    log = bytearray(base) + b"DIRT" + bitmap
    if pages:
        log += bytes(-len(log) % SECTOR)
    for p in sorted(pages):
        new = pattern(100 + p)
        if p == 0:
            struct.pack_into("<Q", new, 20, stamp if zero_stamp is None else zero_stamp)
        log += new
    return log


def new_base(number=5, stamp=0, bins=8192):
    return base_block(6, number, number, stamp, bins)


def new_page(p, version, stamp):
    """A version of a page, told from all others; page 0 has a stamp."""
    page = pattern(100 + 20 * version + p)
    if p == 0:
        struct.pack_into("<Q", page, 20, stamp)
    return bytes(page)


def new_entry(number, pages, version, bins=8192, stamp=None, **more):
    return hives.entry(number, bins, [(SECTOR * p, new_page(p, version, STAMP if stamp is None else stamp)) for p in pages], **more)


def new_file(groups, number=5, bins=8192, stamp=None):
    """A log of Windows 8.1 and later: entries one behind the other, each of the given pages in a version of its own."""
    stamp = STAMP if stamp is None else stamp
    return new_base(number, stamp, bins) + b"".join(bytes(new_entry(number + k, pages, k, bins, stamp)) for k, pages in enumerate(groups))


# ---- the model: what document 01 says

def word(b, at):
    return struct.unpack_from("<I", b, at)[0]


def is_new(log):
    return len(log) >= SECTOR and word(log, 28) == 6


@functools.lru_cache(maxsize=16)
def read_bytes(log):
    """A new log by the model of hives.py: what it says, or the number of its refusal."""
    try:
        return hives.read_log(log)
    except hives.Refused as r:
        return r.number


def read_new(log):
    return read_bytes(bytes(log))


def usable(b, kinds):
    return (bytes(b[0:4]) == b"regf" and word(b, 508) == checksum(b) and word(b, 20) == 1 and word(b, 24) in (3, 4, 5)
            and word(b, 28) in kinds and word(b, 32) == 1 and word(b, 44) == 1
            and word(b, 40) % 4096 == 0 and 0 < word(b, 40) <= 2**31 - 4096)


def marked(log):
    if is_new(log):
        return sorted(read_new(log).versions)
    bins = word(log, 40)
    bitmap = log[516: 516 + bins // 4096]
    return [p for p in range(bins // SECTOR) if bitmap[p // 8] >> (p % 8) & 1]


def head_number(log):
    """The first of 21, 22 for the bitmap, 23 that holds against the log, or 0; of 21 and 22 against a new one."""
    if is_new(log):
        return read_new(log) if isinstance(read_new(log), int) else 0
    if len(log) < SECTOR or not usable(log, (1, 2)) or word(log, 4) != word(log, 8):
        return 21
    end = 516 + word(log, 40) // 4096
    if len(log) < end:
        return 22
    if bytes(log[512:516]) != b"DIRT":
        return 23
    return 0


def log_number(log):
    """The first of 21, 22, 23, 22 that holds against the log, or 0."""
    number = head_number(log)
    if number or is_new(log):
        return number
    end = 516 + word(log, 40) // 4096
    pages = marked(log)
    if pages and len(log) < (end + 511) // 512 * 512 + SECTOR * len(pages):
        return 22
    return 0


def log_place(log, p):
    if is_new(log):
        return read_new(log).versions[p][-1]
    end = 516 + word(log, 40) // 4096
    return (end + 511) // 512 * 512 + SECTOR * marked(log).index(p)


def bins_of(log):
    """The bins size that 24 reads."""
    return read_new(log).bins if is_new(log) else word(log, 40)


def closing_of(log):
    first = bytearray(log[:SECTOR])
    if is_new(log):
        return read_new(log).closing
    struct.pack_into("<I", first, 28, 0)
    struct.pack_into("<I", first, 508, checksum(first))
    return first


def sum_of(data):
    total = 0
    for b in data:
        total = (total * 37 + b) % 4294967296
    return total


def logged(log, p):
    at = log_place(log, p)
    return log[at: at + SECTOR]


def tests(hive, log):
    """'clean', a refusal's number, or the set bits as a list."""
    if len(hive) < 4096:
        return 1
    if usable(hive, (0,)) and word(hive, 4) == word(hive, 8):
        return "clean"
    number = log_number(log)
    if number:
        return number
    if len(hive) < 4096 + bins_of(log):
        return 24
    stamp = bytes(log[12:20])
    if is_new(log):
        agree = hives.applies(hive, log, read_new(log))
    elif usable(hive, (0,)):
        agree = bytes(hive[12:20]) == stamp
    else:
        agree = bytes(hive[4116:4124]) == stamp
        if 0 in marked(log):
            agree = agree and bytes(logged(log, 0)[20:28]) == stamp
    return marked(log) if agree else 25


def refused(number):
    return "refused %d at 0" % number


# ---- a case: what the program is told, and what the model says

class Case:
    def __init__(self, name, hive, log):
        self.log = bytearray(log)
        self.renew(name, hive)
        order(2, len(log))
        self.fill(4, log)

    def renew(self, name, hive):
        """Another hive with the same log."""
        say(name)
        self.mem, self.disk = bytearray(hive), bytearray(hive)
        order(1, len(hive))
        self.fill(3, hive)

    @staticmethod
    def fill(kind, data):
        for at in range(0, len(data), 32):                 # what is zero is not sent
            part = bytes(data[at: at + 32])
            if any(part):
                order(kind, 4 + len(part), struct.pack("<I", at) + part)

    def start(self):
        order(5)
        t = tests(self.mem, self.log)
        lines.append("clean" if t == "clean" else "pages %d" % len(t) if isinstance(t, list) else refused(t))

    def page(self, p):
        order(6, p)
        t = tests(self.mem, self.log)
        if t == "clean":
            lines.append("clean")
        elif not isinstance(t, list):
            lines.append(refused(t))
        elif p not in t:
            lines.append(refused(26))
        else:
            self.mem[4096 + SECTOR * p: 4096 + SECTOR * (p + 1)] = logged(self.log, p)
            lines.append("done")

    def close(self):
        order(7)
        t = tests(self.mem, self.log)
        if t == "clean":
            lines.append("clean")
        elif not isinstance(t, list):
            lines.append(refused(t))
        elif any(self.mem[4096 + SECTOR * p:][:SECTOR] != logged(self.log, p) for p in t):
            lines.append(refused(27))
        else:
            self.mem[:SECTOR] = closing_of(self.log)
            lines.append("done")

    def next(self, start):
        order(8, start)
        number = log_number(self.log)
        if number:
            lines.append(refused(number))
            return
        later = [p for p in marked(self.log) if start <= p]
        if later:
            p = later[0]
            lines.append("page %d from %d to %d" % (p, log_place(self.log, p), 4096 + SECTOR * p))
        else:
            lines.append("no more")

    def all(self):
        order(13)
        t = tests(self.mem, self.log)
        if t == "clean":
            lines.append("clean")
        elif not isinstance(t, list):
            lines.append(refused(t))
        else:
            for p in t:
                self.mem[4096 + SECTOR * p: 4096 + SECTOR * (p + 1)] = logged(self.log, p)
            lines.append("done")

    def mark(self, start):
        """The next mark: no page has to be there for it."""
        order(14, start) if start < 1 << 32 else order(15, (1 << 64) - 1 - start)
        number = head_number(self.log)
        later = [] if number else [p for p in marked(self.log) if start <= p]
        if number:
            lines.append(refused(number))
        else:
            lines.append("page %d to %d" % (later[0], 4096 + SECTOR * later[0]) if later else "no more")
        return later[0] if later else None

    def land(self, p):
        order(9, p)
        at = 4096 + SECTOR * p
        self.disk[at: at + SECTOR] = self.mem[at: at + SECTOR]

    def land_first(self):
        order(10)
        self.disk[:SECTOR] = self.mem[:SECTOR]

    def end(self):
        """All pages are in: a closing call whose sector is lost, one whose sector lands, and then the hive is clean."""
        self.close()
        self.fail()
        self.start()
        self.close()
        self.land_first()
        self.fail()
        self.start()
        self.show()

    def fail(self):
        order(11)
        self.mem[:] = self.disk

    def show(self):
        order(12)
        lines.append("disk %d" % sum_of(self.disk))

    def marks(self, room, filled=0xA5):
        """All marks at once, in a map of so many bytes that held something before."""
        marks = bytearray([filled]) * room
        order(17, room, bytes(marks))
        number = log_number(self.log)
        if number == 0 and room < bins_of(self.log) // 4096:
            number = 8
        if number == 0:
            marks[:bins_of(self.log) // 4096] = bytes(bins_of(self.log) // 4096)
            for p in marked(self.log):
                marks[p // 8] |= 1 << p % 8
        lines.append(refused(number) if number else "marked %d" % len(marked(self.log)))
        lines.append("map %d" % sum_of(marks))

    def cut_log(self, full, n):
        """The log has its first n bytes."""
        order(18, n)
        self.log = bytearray(full[:n])

    def land_version(self, p, version):
        """An older version of a page lands on the disk, as a repair that goes entry by entry stores it."""
        at = read_new(self.log).versions[p][version]
        self.mem[4096 + SECTOR * p: 4096 + SECTOR * (p + 1)] = self.log[at: at + SECTOR]
        self.disk[4096 + SECTOR * p: 4096 + SECTOR * (p + 1)] = self.log[at: at + SECTOR]
        for k in range(0, SECTOR, 32):
            order(3, 4 + 32, struct.pack("<I", 4096 + SECTOR * p + k) + bytes(self.log[at + k: at + k + 32]))

    def whole(self):
        """One unbroken repair, its pages falling."""
        self.start()
        for p in reversed(marked(self.log)):
            self.page(p)
            self.land(p)
        self.close()
        self.land_first()
        self.show()

    def at_once(self):
        """The same by one call, its pages stored as the marks tell."""
        self.start()
        self.all()
        p = self.mark(0)
        while p is not None:
            self.land(p)
            p = self.mark(p + 1)
        self.close()
        self.land_first()
        self.show()

    def by_map(self):
        """The same, its pages stored as the map of all marks tells."""
        self.start()
        self.all()
        self.marks(bins_of(self.log) // 4096)
        for p in marked(self.log):
            self.land(p)
        self.close()
        self.land_first()
        self.show()

    def after(self):
        """The hive is repaired: every call says clean."""
        self.start()
        self.page(marked(self.log)[0])
        self.page(7)
        self.close()
        self.land_first()
        self.show()


TORN = bytearray(SECTOR)                                   # a base block that was being written: not usable
OPEN = base_block(0, first=6, second=5, stamp=77)          # a usable one, not clean
STAMP = 0x1122334455667788
NUMBERED = base_block(0, first=6, second=5, stamp=77)      # usable, and a new log of number 5 is its own


def repairs():
    case = Case("a whole repair, page 0 logged, the base block torn", hive_file(TORN, STAMP), log_file([0, 15], STAMP))
    for n in (0, 1, 15, 16, 4294967295):
        case.next(n)
    case.whole()
    case.after()
    case = Case("a whole repair, page 0 not logged, the base block torn", hive_file(TORN, STAMP), log_file([3, 4, 9], STAMP))
    case.whole()
    case.after()
    case = Case("a whole repair, page 0 logged, the base block usable", hive_file(OPEN, 1), log_file([0, 8], 77, zero_stamp=2))
    case.whole()
    case.after()
    case = Case("a whole repair, page 0 not logged, the base block usable", hive_file(OPEN, 1), log_file([1], 77))
    case.whole()
    case.after()
    case = Case("a log of type 2 with no bit set", hive_file(OPEN), log_file([], 77, base=base_block(2, stamp=77)))
    case.next(0)
    case.whole()


def cuts():
    """Power fails after each store, and once more after each store of the second run."""
    pages = [0, 6, 15]
    for first in range(4):
        for second in range(4):
            case = Case("cut after %d stores, and after %d more" % (first, second), hive_file(TORN, STAMP), log_file(pages, STAMP))
            for count in (first, second, len(pages)):
                case.start()
                for k, p in enumerate(pages):
                    case.page(p)
                    if k < count:
                        case.land(p)
                if count < len(pages):
                    case.fail()
                    case.close()
                    case.show()
            case.end()


def refusals():
    good = log_file([0, 15], STAMP)
    torn = hive_file(TORN, STAMP)

    def refuse(name, hive, log):
        case = Case(name, hive, log)
        case.start()
        case.page(0)
        case.close()
        case.next(0)
        case.all()
        case.mark(0)
        case.show()

    refuse("1: the hive under 4096 bytes, and its log is none", torn[:4095], b"")
    refuse("21: the log under 512 bytes", torn, good[:511])
    refuse("21: its checksum", torn, bytes(good[:508]) + b"\0\0\0\0" + bytes(good[512:]))
    for kind in (0, 3, 7):
        refuse("21: its type %d" % kind, torn, log_file([0, 15], STAMP, base=base_block(kind, stamp=STAMP)))
    refuse("22: its type 6, and no entry", torn, log_file([0, 15], STAMP, base=base_block(6, stamp=STAMP)))
    refuse("21: its sequence numbers", torn, log_file([0, 15], STAMP, base=base_block(1, first=6, stamp=STAMP)))
    refuse("21: its bins size", torn, log_file([0, 15], STAMP, base=base_block(1, stamp=STAMP, bins=8192 + 512)))
    refuse("22: the bitmap, 512 bytes", torn, good[:512])
    refuse("22: the bitmap, 515 bytes", torn, good[:515])
    refuse("22: the bitmap, 517 bytes", torn, good[:517])
    refuse("23: no DIRT", torn, bytes(good[:512]) + b"DIRD" + bytes(good[516:]))
    refuse("22: the pages, 2,047 bytes", torn, good[:2047])
    refuse("accepted: 2,048 bytes", torn, good[:2048])
    refuse("24: the hive a byte too short", torn[:-1], good)
    refuse("25: the usable hive's stamp", hive_file(base_block(0, first=6, stamp=78), STAMP), good)
    refuse("25: the first bin's stamp", hive_file(TORN, STAMP + 1), good)
    refuse("25: the logged page's stamp", torn, log_file([0, 15], STAMP, zero_stamp=STAMP + 1))

    case = Case("26 and 27", torn, good)
    for p in (1, 14, 16, 4294967295):
        case.page(p)
    case.close()
    case.page(0)
    case.close()
    case.page(15)
    case.close()
    case.show()
    case.land(0)
    case.land(15)
    case.land_first()
    case.show()


def checksums():
    """Logs that close at each exception of the checksum and beside it; the disk's sum tells what stands at 508."""
    for xor, closed in ((1, "0, stored 1"), (0, "1, stored 1"), (3, "2"), (0xFFFFFFFE, "0xFFFFFFFF, stored 0xFFFFFFFE"), (0xFFFFFFFF, "0xFFFFFFFE, stored so"), (0xFFFFFFFC, "0xFFFFFFFD")):
        case = Case("closed with a XOR of " + closed, hive_file(TORN, STAMP), log_file([0, 15], STAMP, base=with_xor(base_block(1, stamp=STAMP), xor)))
        case.whole()
        case.after()


def clean():
    case = Case("clean: the log is not looked at", hive_file(base_block(0), STAMP), b"no log")
    case.start()
    case.page(0)
    case.page(4294967295)
    case.close()
    case.next(0)
    case.all()
    case.mark(0)
    case.show()
    case = Case("clean: the hive ends before its bins do", hive_file(base_block(0), STAMP)[:4096], log_file([0], STAMP))
    case.start()
    case.page(0)
    case.close()
    case.show()
    case = Case("not clean: equal sequence numbers, but not usable", hive_file(base_block(0, minor=6), STAMP), log_file([0], STAMP))
    case.whole()
    case.after()


def at_once():
    """A repair by page calls, and the same by one call."""
    generator = random.Random(3)
    large = 1 << 20
    some = sorted(generator.sample(range(large // SECTOR), 1000))
    for name, bins, pages in (
        ("no page", 8192, []), ("the first page", 8192, [0]), ("the last page", 8192, [15]), ("all pages", 8192, range(16)),
        ("pages 63, 64, 65, 127 and 128", 17 * 4096, [63, 64, 65, 127, 128]), ("1,000 pages of 2,048", large, some),
    ):
        hive, log = hive_file(TORN, STAMP, bins), log_file(list(pages), STAMP, bins)
        case = Case("%s, one by one" % name, hive, log)
        case.whole()
        case.renew("%s, at once" % name, hive)
        case.at_once()
    case = Case("at once after half a repair, and again", hive_file(TORN, STAMP), log_file([0, 6, 15], STAMP))
    case.page(6)
    case.land(6)
    case.fail()
    case.all()
    case.at_once()
    case.all()
    case.after()
    case = Case("marks from every page on", hive_file(TORN, STAMP), log_file([0, 3, 8, 14], STAMP))
    for start in list(range(18)) + [4294967295, (1 << 64) - 2, (1 << 64) - 1]:
        case.mark(start)


def counts():
    """The set bits before each page of small bitmaps, past their end too, counted bit by bit."""
    generator = random.Random(17)
    for size in range(18):
        for name, bitmap in (
            ("ones", bytes([255] * size)), ("zeros", bytes(size)), ("alternating", bytes([0x55] * size)), ("random", generator.randbytes(size)),
        ):
            Case("%d bytes, %s" % (size, name), b"", bitmap)
            order(16, 8 * size + 10)
            bits = [bitmap[p // 8] >> (p % 8) & 1 if p < 8 * size else 0 for p in range(8 * size + 9)]
            lines.append("".join(" %d" % sum(bits[:p]) for p in range(8 * size + 10)))


# ---- logs of Windows 8.1 and later

def new_repairs():
    groups = [[0, 15], [3, 0], [9, 15], []]
    for name, base in (("torn", TORN), ("usable", NUMBERED)):
        case = Case("a new log, the base block %s" % name, hive_file(base, STAMP), new_file(groups))
        for n in (0, 1, 3, 4, 9, 10, 15, 16, 4294967295):
            case.next(n)
            case.mark(n)
        case.mark((1 << 64) - 1)
        case.whole()
        case.after()
        case.renew("the same at once", hive_file(base, STAMP))
        case.at_once()
        case.after()
        case.renew("the same by a map of its marks", hive_file(base, STAMP))
        case.by_map()
        case.all()
        case.after()
    case = Case("26 and 27 of a new log", hive_file(TORN, STAMP), new_file(groups))
    for p in (1, 14, 16, 4294967295):
        case.page(p)
    for p in (0, 3, 9, 15):
        case.close()
        case.page(p)
    case.close()
    for p in (0, 3, 9, 15):
        case.land(p)
    case.land_first()
    case.show()
    case = Case("59 references, which end with a sector", hive_file(TORN, STAMP, 32768), new_file([list(range(5, 64)), [0]], bins=32768))
    case.next(63)
    case.by_map()
    case = Case("its pages falling", hive_file(TORN, STAMP, 32768), new_file([list(range(63, 4, -1)), [7, 6, 5]], bins=32768))
    case.by_map()
    case = Case("several pages in one reference", hive_file(TORN, STAMP), new_base(5, STAMP) + bytes(hives.entry(5, 8192, [(2048, bytes(range(256)) * 8), (512, b"x" * 1024)])))
    case.next(5)
    case.by_map()
    case = Case("an entry that names no page", hive_file(TORN, STAMP), new_file([[]]))
    case.next(0)
    case.mark(0)
    case.by_map()


def new_cuts():
    """Power fails after each store and once more after each store of the second run; page 0 has three versions."""
    log = new_file([[0, 6], [0, 15], [6, 0]])
    pages = [0, 6, 15]
    for first in range(4):
        for second in range(4):
            case = Case("a new log, cut after %d stores, and after %d more" % (first, second), hive_file(TORN, STAMP), log)
            for count in (first, second, len(pages)):
                case.start()
                case.all()
                for p in pages[:count]:
                    case.land(p)
                if count < len(pages):
                    case.fail()
                    case.close()
                    case.show()
            case.end()


def new_versions():
    """Older versions on the disk: 27 until each page has its last, then repaired; page 0's stamps."""
    log = new_file([[0, 6], [0, 15], [6, 0]])
    case = Case("older versions on the disk", hive_file(TORN, STAMP), log)
    for p, version in ((0, 0), (0, 1), (6, 0)):
        case.land_version(p, version)
        case.start()
        case.close()
    case.land_version(15, 0)
    case.close()
    for p, version in ((0, 2), (6, 1)):
        case.close()
        case.land_version(p, version)
    case.close()
    case.land_first()
    case.show()
    case.start()
    for base, name in ((TORN, "torn"), (NUMBERED, "usable")):
        for wrong in range(3):
            entries = [new_entry(5 + k, [0, k + 1], k, stamp=STAMP + (k == wrong)) for k in range(3)]
            case = Case("version %d of page 0 has another stamp, the base block %s" % (wrong, name), hive_file(base, STAMP), new_base(5, STAMP) + b"".join(bytes(e) for e in entries))
            case.by_map()
    case = Case("the first bin's stamp", hive_file(TORN, STAMP + 1), log)
    case.by_map()


def new_refusals():
    """Each clause broken alone, in the first entry and in the second."""
    refs = [(512, new_page(1, 0, STAMP)), (1024, new_page(2, 0, STAMP))]
    behind = bytes(new_entry(7, [12], 3))
    first = new_entry(5, [0, 7], 0)
    for what, bad in frames.broken_entries(5, 8192, refs):
        case = Case("22: %s" % what, hive_file(TORN, STAMP), new_base(5, STAMP) + bytes(bad))
        case.start()
        case.page(1)
        case.close()
        case.next(0)
        case.all()
        case.mark(0)
        case.marks(2)
        case.show()
    for what, bad in frames.broken_entries(6, 8192, refs):
        tail = b"" if what == "size past the log" else behind
        case = Case("ends there: %s" % what, hive_file(TORN, STAMP), new_base(5, STAMP) + bytes(first) + bytes(bad) + tail)
        case.next(1)
        case.by_map()
    log = new_file([[0, 15], [1, 2]])
    case = Case("the log cut at every byte", hive_file(TORN, STAMP), log)
    for n in range(len(log) + 1):
        case.cut_log(log, n)
        case.start()
    good = new_file([[0, 15]])
    for name, hive, l in (
        ("1", hive_file(TORN, STAMP)[:4095], good), ("21: its numbers", hive_file(TORN, STAMP), bytes(base_block(6, 5, 6, STAMP)) + bytes(good[512:])),
        ("21: its bins size", hive_file(TORN, STAMP), bytes(base_block(6, 5, 5, STAMP, 8192 + 512)) + bytes(good[512:])),
        ("22: its number is not the first entry's", hive_file(TORN, STAMP), bytes(new_base(4, STAMP)) + bytes(good[512:])),
        ("24: a byte too short", hive_file(TORN, STAMP)[:-1], good),
        ("24: by the largest bins size", hive_file(TORN, STAMP)[:-1], new_base(5, STAMP, 4096) + bytes(new_entry(5, [15], 0)) + bytes(new_entry(6, [0], 1, bins=4096))),
        ("25: number one less", hive_file(base_block(0, 9, 4), STAMP), good), ("25: number one more", hive_file(base_block(0, 9, 6), STAMP), good),
        ("clean", hive_file(base_block(0), STAMP), good), ("clean, and a byte too short", hive_file(base_block(0), STAMP)[:-1], good),
    ):
        case = Case(name, hive, l)
        case.start()
        case.page(0)
        case.close()
        case.all()
        case.show()


def new_sizes():
    """Growth and shrinkage, numbers at their end, flags: the closing sector by the disk's sum."""
    def repaired(name, hive, entries, number=5, bins=8192):
        case = Case(name, hive, new_base(number, STAMP, bins) + b"".join(bytes(e) for e in entries))
        case.by_map()
        case.after()

    repaired("grown", hive_file(TORN, STAMP, 16384), [new_entry(5, [0], 0, bins=4096), new_entry(6, [31], 1, bins=16384), new_entry(7, [16, 0], 2, bins=12288)], bins=4096)
    repaired("shrunk", hive_file(TORN, STAMP, 16384), [new_entry(5, [31, 0], 0, bins=16384), new_entry(6, [1], 1, bins=4096)], bins=16384)
    repaired("its base block's own size is larger", hive_file(TORN, STAMP), [new_entry(5, [15, 0], 0)], bins=0x7FFFF000)
    last = 2**32 - 1
    repaired("nothing follows 2^32 - 1", hive_file(base_block(0, 3, last), STAMP), [new_entry(last, [0], 0), new_entry(0, [1], 1)], last)
    repaired("up to 2^32 - 1", hive_file(base_block(0, 3, last - 1), STAMP), [new_entry(last - 1, [0], 0), new_entry(last, [1], 1), new_entry(0, [2], 2)], last - 1)
    repaired("the entries' flags are not the closing sector's", hive_file(TORN, STAMP), [new_entry(5, [0], 0, flags=1), new_entry(6, [1], 1, flags=0xFFFFFFFF)])
    repaired("padding", hive_file(TORN, STAMP), [new_entry(5, [0], 0, size=4096, padding=b"p"), new_entry(6, [1], 1)])


def maps():
    """Maps of every length about the least, for both formats: bytes beyond stay, and a refusal leaves all."""
    for name, log in (("old", log_file([0, 3, 40], STAMP, 32768)), ("new", new_file([[0, 3], [40, 3]], bins=32768)), ("new, grown", new_base(5, STAMP, 4096) +
                      bytes(new_entry(5, [0, 3], 0, bins=4096)) + bytes(new_entry(6, [40], 1, bins=32768))), ("no log", b"regf")):
        case = Case("maps: " + name, hive_file(TORN, STAMP, 32768), log)
        for room in (0, 1, 7, 8, 9, 16, 100):
            case.marks(room)
            case.marks(room, 0xFF)


def windows():
    """Pages about 131,072 and at the end of 96 MiB: counted, marked and found by the log alone, for no hive here is so long."""
    bins = 96 << 20
    for name, groups in (("rising", [[0, 131071, 131072], [131073, 196607]]), ("falling, and twice", [[196607, 131073, 131072], [131072, 131071, 0], [196607]]),
                         ("in the second window alone", [[131072]]), ("in the first alone", [[131071]])):
        entries = [hives.entry(5 + k, bins, [(SECTOR * p, bytes([p % 251, k]) + bytes(510)) for p in pages]) for k, pages in enumerate(groups)]
        case = Case("windows: " + name, hive_file(TORN, STAMP), new_base(5, STAMP) + b"".join(bytes(e) for e in entries))
        case.start()
        for n in (0, 1, 131071, 131072, 131073, 131074, 196607, 196608):
            case.next(n)
            case.mark(n)
        case.marks(bins // 4096 - 1)
        case.marks(bins // 4096 + 1)


repairs()
cuts()
refusals()
checksums()
clean()
at_once()
counts()
new_repairs()
new_cuts()
new_versions()
new_refusals()
new_sizes()
maps()
windows()
open("crates/repair_runs/stdin", "wb").write(bytes(orders))
open("crates/repair_runs/stdout", "w").write("\n".join(lines) + "\n")
