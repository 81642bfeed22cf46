"""Hives and logs in plain Python: a builder, and a reading of document 01 that owes nothing to the Rattle code.

The other scripts of this folder import it. "The paper" is document 01; a number in brackets is the ruling of
docs/DECISIONS.md that a line follows. Standard library only."""
import struct
import sys
from collections import Counter, namedtuple

sys.setrecursionlimit(10000)

BASE = 4096
SEGMENT = 16344
BINS_MOST = 2**31 - 4096
DATA_MOST = 1048576
BACKSLASH = 0x5C
NO_KEY = 0xFFFFFFFF


def u16(b, i):
    return b[i] | b[i + 1] << 8


def u32(b, i):
    return b[i] | b[i + 1] << 8 | b[i + 2] << 16 | b[i + 3] << 24


def u64(b, i):
    return u32(b, i) | u32(b, i + 4) << 32


def xor_of(block):
    """The XOR of the 127 words before the checksum."""
    total = 0
    for word in struct.unpack("<127I", bytes(block[:508])):
        total ^= word
    return total


def checksum(block):
    """That XOR as it is stored, by request 1: 0 as 1, and 0xFFFFFFFF as 0xFFFFFFFE."""
    return {0: 1, 2**32 - 1: 2**32 - 2}.get(xor_of(block), xor_of(block))


def seal(block):
    """Puts the right checksum into a base block, or into the first sector of a log."""
    struct.pack_into("<I", block, 508, checksum(block))
    return block


def upper(code):
    """a to z, and by request 5 0xE0 to 0xFE except 0xF7, each 32 down; 0xFF to 0x0178."""
    if 97 <= code <= 122 or 0xE0 <= code <= 0xFE and code != 0xF7:
        return code - 32
    return 0x178 if code == 0xFF else code


def name_hash(codes):
    h = 0
    for c in codes:
        h = (h * 37 + upper(c)) % 2**32
    return h


def folded(codes):
    return [upper(c) for c in codes]


def name_order(a, b):
    """-1, 0 or 1: "compared by code after upper-casing [..], a prefix before the longer name"."""
    return (folded(a) > folded(b)) - (folded(a) < folded(b))


def name_hint(codes):
    """The hint of an `lf` element, by request 8: the low bytes of the first four codes as stored, and zero bytes behind a shorter name. A code above
    255 among them asks for a first byte 0: then this is 0."""
    first = codes[:4]
    return 0 if any(c > 255 for c in first) else sum(c << 8 * i for i, c in enumerate(first))


def fits_hint(hint, codes):
    return hint % 256 == 0 if any(c > 255 for c in codes[:4]) else hint == name_hint(codes)


def units(text):
    """The UTF-16 units of a Python string; a list of codes stays as it is."""
    if not isinstance(text, str):
        return list(text)
    b = text.encode("utf-16-le", "surrogatepass")
    return [u16(b, i) for i in range(0, len(b), 2)]


# ---- the model: the check

class Refused(Exception):
    """A number, a place, and by request 9 the key under examination: the last one whose record was accepted."""

    def __init__(self, number, place=0, key=NO_KEY):
        Exception.__init__(self, number, place, key)
        self.number, self.place, self.key = number, place, key


def block_fault(block, types):
    """2 to 5, of the first 512 bytes; 0 where the block is usable."""
    if bytes(block[0:4]) != b"regf":
        return 2
    if u32(block, 508) != checksum(block):
        return 3
    if u32(block, 20) != 1 or u32(block, 24) not in (3, 4, 5) or u32(block, 28) not in types:
        return 4
    if u32(block, 32) != 1 or u32(block, 44) != 1:
        return 4
    return 0 if is_bins_size(u32(block, 40)) else 5


def is_bins_size(size):
    return 0 < size <= BINS_MOST and size % 4096 == 0


def open_hive(hive):
    """1 to 7, and the bins data."""
    if len(hive) < BASE:
        raise Refused(1)
    fault = block_fault(hive, (0,))
    if fault:
        raise Refused(fault)
    size = u32(hive, 40)
    if len(hive) < BASE + size:
        raise Refused(6)
    if u32(hive, 4) != u32(hive, 8):
        raise Refused(7)
    return bytes(hive[BASE:BASE + size])


def settle(hive):
    """Where 7 is the only fault of 1 to 7 the second number becomes the first, under a new checksum: whether that was done (128)."""
    try:
        open_hive(hive)
        return False
    except Refused as r:
        if r.number != 7:
            raise
    hive[8:12] = hive[4:8]
    seal(hive)
    return True


def signed_size(bins, at):
    return struct.unpack_from("<i", bins, at)[0]


def tile(bins):
    """9 and 10, bin by bin; the number of bins, the starts of the cells in use, used and free bytes."""
    count, starts, used, free, at = 0, set(), 0, 0, 0
    while at < len(bins):
        size = u32(bins, at + 8)
        if bins[at:at + 4] != b"hbin" or u32(bins, at + 4) != at:
            raise Refused(9, at)
        if size == 0 or size % 4096 or at + size > len(bins):
            raise Refused(9, at)
        count += 1
        cell, end = at + 32, at + size
        while cell < end:
            signed = signed_size(bins, cell)
            length = abs(signed)
            if length == 0 or length % 8 or cell + length > end:
                raise Refused(10, cell)
            if signed < 0:
                starts.add(cell)
                used += length
            else:
                free += length
            cell += length
        at = end
    return count, starts, used, free


class Reader:
    """Records in the bins data. With `starts` an offset names a cell of the tiling (the check); without, one by the
    cell's own header (lookup). `examined` is the key on whose behalf they are read."""

    def __init__(self, bins, minor, starts=None):
        self.bins, self.minor, self.starts, self.examined = bins, minor, starts, NO_KEY

    def accepted(self, at, owner=NO_KEY):
        """The key at an offset, read on behalf of another; from then on it is the one under examination."""
        self.examined = owner
        k = self.key(at)
        self.examined = at
        return k

    def cell(self, at):
        """The data of the cell in use at an offset, or 11."""
        if self.starts is not None:
            if at not in self.starts:
                raise Refused(11, at, self.examined)
        else:
            if at < 32 or at % 8 or at + 4 > len(self.bins):
                raise Refused(11, at, self.examined)
            signed = signed_size(self.bins, at)
            if signed >= 0 or signed % 8 or at - signed > len(self.bins):
                raise Refused(11, at, self.examined)
        return self.bins[at + 4:at - signed_size(self.bins, at)]

    def key(self, at):
        d = self.cell(at)
        if len(d) < 76 or d[0:2] != b"nk":
            raise Refused(12, at, self.examined)
        length, one = u16(d, 72), u16(d, 2) & 0x20
        if 76 + length > len(d):
            raise Refused(12, at, self.examined)
        codes = name_codes(d[76:76 + length], one)
        if codes is None or not 1 <= len(codes) <= 255 or BACKSLASH in codes:
            raise Refused(12, at, self.examined)
        return {"at": at, "name": codes, "parent": u32(d, 16), "subkeys": u32(d, 20), "list": u32(d, 28),
                "values": u32(d, 36), "value_list": u32(d, 40), "security": u32(d, 44), "class": (u32(d, 48), u16(d, 74))}

    def list_of(self, at, allowed):
        """A list's signature and its elements: (offset, what stands beside it). 12 at the list (13)."""
        d = self.cell(at)
        if len(d) < 4 or d[0:2] not in allowed:
            raise Refused(12, at, self.examined)
        sign, count = d[0:2], u16(d, 2)
        width = 8 if sign in (b"lf", b"lh") else 4
        if count == 0 or 4 + count * width > len(d):
            raise Refused(12, at, self.examined)
        return sign, [(u32(d, 4 + i * width), (sign, u32(d, 8 + i * width)) if width == 8 else None) for i in range(count)]

    def leaf(self, at):
        return self.list_of(at, (b"li", b"lf", b"lh"))[1]

    def leaf_offsets(self, k):
        """Where the leaves of a key lie, by its list alone, which is tested."""
        if k["subkeys"] == 0:
            return []
        sign, elements = self.list_of(k["list"], (b"li", b"lf", b"lh", b"ri"))
        return [at for at, _ in elements] if sign == b"ri" else [k["list"]]

    def leaves(self, k):
        """The leaves of a key, one after the other, each tested when it is asked for."""
        for at in self.leaf_offsets(k):
            yield self.leaf(at)

    def value(self, at):
        d = self.cell(at)
        if len(d) < 20 or d[0:2] != b"vk":
            raise Refused(12, at, self.examined)
        length, one, size = u16(d, 2), u16(d, 16) & 1, u32(d, 4)
        if 20 + length > len(d):
            raise Refused(12, at, self.examined)
        codes = name_codes(d[20:20 + length], one)
        if codes is None or len(codes) > 16383:
            raise Refused(12, at, self.examined)
        inline = size >= 2**31
        size %= 2**31
        if size > (4 if inline else DATA_MOST):
            raise Refused(12, at, self.examined)
        return {"at": at, "name": codes, "inline": inline, "size": size, "data": u32(d, 8), "kind": u32(d, 12)}

    def value_offsets(self, k):
        if k["values"] == 0:
            return []
        d = self.cell(k["value_list"])
        if 4 * k["values"] > len(d):
            raise Refused(12, k["value_list"], self.examined)
        return [u32(d, 4 * i) for i in range(k["values"])]

    def segmented(self, v):
        return not v["inline"] and v["size"] > SEGMENT and self.minor >= 4

    def data(self, v):
        """A value's bytes: 11 and 12 of its data."""
        if v["inline"]:
            return self.cell(v["at"])[8:8 + v["size"]]
        if v["size"] == 0:
            return b""
        if not self.segmented(v):
            return self.room(v["data"], v["size"])
        d = self.cell(v["data"])
        count = (v["size"] + SEGMENT - 1) // SEGMENT
        if len(d) < 8 or d[0:2] != b"db" or u16(d, 2) != count:
            raise Refused(12, v["data"], self.examined)
        listed = self.room(u32(d, 4), 4 * count)
        out = b""
        for i in range(count):
            out += self.room(u32(listed, 4 * i), min(SEGMENT, v["size"] - SEGMENT * i))
        return out

    def room(self, at, length):
        d = self.cell(at)
        if len(d) < length:
            raise Refused(12, at, self.examined)
        return d[:length]


def name_codes(raw, one):
    """The codes of a stored name, or None where a UTF-16 length is odd."""
    if one:
        return list(raw)
    if len(raw) % 2:
        return None
    return [u16(raw, i) for i in range(0, len(raw), 2)]


class Walk:
    """The check from the root on. `keys` are those that were reached, in the order of the walk, each with its security offset."""

    def __init__(self, reader, root):
        self.reader, self.root, self.keys, self.values = reader, root, [], 0

    def key(self, at, parent, elder, beside, level):
        """One key, wholly; answers its name, for the order of the next. `beside` is the hash or the hint of its element."""
        r = self.reader
        k = r.accepted(at, NO_KEY if parent is None else parent)
        if parent is not None and (k["parent"] != parent or at == self.root):
            raise Refused(14, at, at)
        if elder is not None and not folded(elder) < folded(k["name"]):
            raise Refused(13, at, at)
        if beside is not None and not is_beside(beside, k["name"]):
            raise Refused(13, at, at)
        if level > 512:
            raise Refused(15, at, at)
        self.judge_values(k)
        children = [child for leaf in r.leaves(k) for child in leaf]
        if len(children) != k["subkeys"]:
            raise Refused(14, at, at)
        self.keys.append((at, k["security"]))
        self.values += k["values"]
        before = None
        for child, child_beside in children:
            before = self.key(child, at, before, child_beside, level + 1)
        return k["name"]

    def judge_values(self, k):
        """All values with their data, and by request 8 only then 29: the first of the list that has a namesake before it."""
        r, values, passed = self.reader, [], set()
        for at in r.value_offsets(k):
            values.append(r.value(at))
            r.data(values[-1])
        for v in values:
            name = tuple(folded(v["name"]))
            if name in passed:
                raise Refused(29, v["at"], k["at"])
            passed.add(name)


def is_beside(beside, codes):
    """A `lh` element has the name's hash beside its offset, a `lf` element a hint that fits the name."""
    sign, number = beside
    return number == name_hash(codes) if sign == b"lh" else fits_hint(number, codes)


Links = namedtuple("Links", "forward backward count size length")


def item_of(reader, at):
    """What the item at an offset says, and how long its data are; None where the offset names no item."""
    if at not in reader.starts:
        return None
    d = reader.cell(at)
    if len(d) < 20 or d[0:2] != b"sk":
        return None
    return Links(u32(d, 4), u32(d, 8), u32(d, 12), u32(d, 16), len(d))


def is_right(reader, at, item, named):
    """Room for its descriptor, a forward link to an item that names it back, and the count of the keys that name it."""
    then = item_of(reader, item.forward)
    return 20 + item.size <= item.length and then is not None and then.backward == at and item.count == named


def security(reader, keys):
    """28, by request 2: the root's offset, then the items along the forward links from it on, then the keys whose offset is none of theirs. The ring
    closes, for an item but the first that is met again would have named two items back."""
    root, first = keys[0]
    if item_of(reader, first) is None:
        raise Refused(28, root, root)
    named, ring, at = Counter(o for _, o in keys), set(), first
    while at not in ring:
        item = item_of(reader, at)
        if not is_right(reader, at, item, named[at]):
            raise Refused(28, at, root)
        ring.add(at)
        at = item.forward
    assert at == first
    for key, o in keys:
        if o not in ring:
            raise Refused(28, key, key)


def check(hive, work):
    """(bins, keys, values, used, free), or Refused. `work` is the map, a bytearray, left as the paper says."""
    bins = open_hive(hive)
    if len(work) < len(bins) // 64:
        raise Refused(8)
    work[:len(bins) // 64] = bytes(len(bins) // 64)
    count, starts, used, free = tile(bins)
    for at in starts:
        work[at // 64] |= 1 << at % 64 // 8
    walk = Walk(Reader(bins, u32(hive, 24), starts), u32(hive, 36))
    walk.key(u32(hive, 36), None, None, None, 0)
    security(walk.reader, walk.keys)
    return count, len(walk.keys), walk.values, used, free


# ---- the model: lookup and values

def path_parts(path):
    """16: empty part, part over 255 units, over 512 parts."""
    if not path:
        return []
    parts = [[]]
    for unit in path:
        if unit == BACKSLASH:
            parts.append([])
        else:
            parts[-1].append(unit)
    if len(parts) > 512 or any(not 1 <= len(p) <= 255 for p in parts):
        raise Refused(16)
    return parts


def in_turn(reader, k, name):
    """The child of that name: leaf by leaf and key by key, up to the first match (18)."""
    for leaf in reader.leaves(k):
        for at, _ in leaf:
            child = reader.key(at)
            if folded(child["name"]) == folded(name):
                return child
    return None


LEFT, RIGHT = "left", "right"


def halve(count, ask):
    """What `ask` stops with, or None: 16 turns, each at the middle of what is left of so many."""
    low, high = 0, count
    for _ in range(16):
        if low >= high:
            break
        middle = low + (high - low) // 2
        turn = ask(middle)
        if turn is LEFT:
            high = middle
        elif turn is RIGHT:
            low = middle + 1
        else:
            return turn
    return None


def ask_key(reader, name, at):
    child = reader.key(at)
    if folded(child["name"]) == folded(name):
        return child
    return RIGHT if folded(child["name"]) < folded(name) else LEFT


def ask_leaf(reader, name, at):
    """By its first and its last key; between them the leaf is halved, and that is the answer."""
    leaf = [child for child, _ in reader.leaf(at)]
    if folded(reader.key(leaf[0])["name"]) > folded(name):
        return LEFT
    if folded(reader.key(leaf[-1])["name"]) < folded(name):
        return RIGHT
    return halve(len(leaf), lambda i: ask_key(reader, name, leaf[i]))


def halving(reader, k, name):
    """The child of that name by request 6: the list, each leaf and each key are tested that it touches, and nothing else."""
    leaves = reader.leaf_offsets(k)
    return halve(len(leaves), lambda i: ask_leaf(reader, name, leaves[i]))


def key_of(hive, path, how=in_turn):
    bins = open_hive(hive)
    parts = path_parts(path)
    reader = Reader(bins, u32(hive, 24))
    k = reader.accepted(u32(hive, 36))
    for part in parts:
        child = how(reader, k, part)
        if child is None:
            raise Refused(17, 0, k["at"])
        k, reader.examined = child, child["at"]
    return reader, k


def find_key(hive, path, how=in_turn):
    """The key's offset for a path of UTF-16 units, or Refused."""
    return key_of(hive, path, how)[1]["at"]


def find_value(hive, path, name, how=in_turn):
    reader, k = key_of(hive, path, how)
    found = None
    for at in reader.value_offsets(k):
        v = reader.value(at)
        if folded(v["name"]) == folded(name):
            found = v
            break
    if found is None:
        raise Refused(18, 0, k["at"])
    return reader, found


def value_info(hive, path, name, view=False, how=in_turn):
    """(case, type, place, length) and the bytes. The place is one in the file: of the data, or of the `db` record; 0 where
    nothing is read (22). As a view's sister it refuses 19 before any data cell is read."""
    reader, v = find_value(hive, path, name, how)
    case = "inline" if v["inline"] else "segments" if reader.segmented(v) else "cell"
    if view and case == "segments":
        raise Refused(19, v["at"], reader.examined)
    place = BASE + 4 + (v["at"] + 8 if v["inline"] else v["data"])
    if case == "cell" and v["size"] == 0:
        place = 0
    return (case, v["kind"], place, v["size"]), reader.data(v)


def value_view(hive, path, name, how=in_turn):
    return value_info(hive, path, name, True, how)[1]


def value_copy(hive, path, name, out, how=in_turn):
    """Writes the data to the start of `out`, a bytearray, and answers their length."""
    reader, v = find_value(hive, path, name, how)
    data = reader.data(v)
    if len(out) < len(data):
        raise Refused(20, 0, reader.examined)
    out[:len(data)] = data
    return len(data)


def quick_key(hive, path):
    return find_key(hive, path, halving)


def quick_info(hive, path, name, view=False):
    return value_info(hive, path, name, view, halving)


def quick_view(hive, path, name):
    return value_view(hive, path, name, halving)


def quick_copy(hive, path, name, out):
    return value_copy(hive, path, name, out, halving)


# ---- the model: a walk over all keys

WALK_REFUSED, WALK_OVER, WALK_OPENS, WALK_CLOSES = 0, 1, 2, 3
OPEN_MOST = 513


def opened(reader, at):
    """That a key opens: its offset, where in the file its name stands, how many bytes the name has and whether each is a character."""
    d = reader.cell(at)
    return WALK_OPENS, at, BASE + at + 4 + 76, u16(d, 72), u16(d, 2) >> 5 & 1


def walk_begin(hive, words):
    """The root opens, and `words`, a list of numbers, start with root, 0, 0. Or Refused, and they stay."""
    reader = Reader(open_hive(hive), u32(hive, 24))
    root = reader.key(u32(hive, 36))["at"]
    if len(words) < 3:
        raise Refused(20)
    words[0:3] = root, 0, 0
    return opened(reader, root)


def ahead(reader, words, depth):
    """What a step would do, and nothing moves: its answer, and where a key opens the leaf and the element that then come next of its parent. Or Refused."""
    if depth == 0:
        return (WALK_OVER,), None
    if len(words) // 3 < depth:
        raise Refused(20)
    at, leaf, element = words[3 * depth - 3:3 * depth]
    leaves = reader.leaf_offsets(reader.accepted(at))
    children = reader.leaf(leaves[leaf]) if leaf < len(leaves) else []
    if element >= len(children):
        return (WALK_CLOSES, at), None
    child = children[element][0]
    reader.key(child)
    if depth >= OPEN_MOST:
        raise Refused(15, child, child)
    if len(words) // 3 < depth + 1:
        raise Refused(20, 0, at)
    return opened(reader, child), (leaf, element + 1) if element + 1 < len(children) else (leaf + 1, 0)


def go_below(words, depth, child, after):
    words[3 * depth - 2:3 * depth + 3] = after + (child, 0, 0)


def walk_step(hive, words, depth):
    """One step of a walk in which so many keys are open, each with three of the words: its offset, and the numbers of the leaf and of the element that
    come next. (state, offset, ..) or Refused. The words change only where a key opens."""
    answer, after = ahead(Reader(open_hive(hive), u32(hive, 24)), words, depth)
    if after:
        go_below(words, depth, answer[1], after)
    return answer


def depth_after(answer, depth):
    """How many keys are open after a step that was not refused."""
    return depth + (answer[0] == WALK_OPENS) - (answer[0] == WALK_CLOSES)


def walked(hive, words, depth=None, most=None):
    """The answers of a walk: of begin and then steps, or of steps at a depth; the last is WALK_OVER or Refused, unless there are so many before."""
    answers = []
    while most is None or len(answers) < most:
        try:
            answers.append(walk_begin(hive, words) if depth is None else walk_step(hive, words, depth))
        except Refused as refused:
            return answers + [refused]
        depth = depth_after(answers[-1], depth or 0)
        if answers[-1][0] == WALK_OVER:
            break
    return answers


def events(hive, at=None):
    """What a walk of an accepted hive gives, by its tree alone: a key opens, then what is below it, and it closes; from the root, or from a key on."""
    reader = Reader(open_hive(hive), u32(hive, 24))

    def of(at):
        yield opened(reader, at)
        for leaf in reader.leaves(reader.key(at)):
            for child, _ in leaf:
                yield from of(child)
        yield WALK_CLOSES, at

    return list(of(u32(hive, 36) if at is None else at))


# ---- the model: the tree as frames

KEY_OPENS, KEY_VALUE, KEY_CLOSES = 16, 17, 18
EXPORT_WORDS = 3 * OPEN_MOST
PAST = 2**64 - 1


def framed(kind, payload=b""):
    return struct.pack("<IH", len(payload), kind) + payload


def open_frame(reader, k):
    """The stamp, 8 bytes at 4 of the key's record as they stand, and the name in UTF-16LE."""
    return framed(KEY_OPENS, reader.cell(k["at"])[4:12] + name_bytes(k["name"], True))


def value_frame(reader, at):
    """The type, how many bytes the name has in UTF-16LE, that name, and the data."""
    v = reader.value(at)
    name = name_bytes(v["name"], True)
    return framed(KEY_VALUE, struct.pack("<II", v["kind"], len(name)) + name + reader.data(v))


def tree_frames(hive):
    """The frames of an accepted hive, by its tree alone, each with its key: a key opens, its values, the frames below it, and it closes."""
    reader = Reader(open_hive(hive), u32(hive, 24))

    def of(at):
        k = reader.key(at)
        yield at, open_frame(reader, k)
        for v in reader.value_offsets(k):
            yield at, value_frame(reader, v)
        for leaf in reader.leaves(k):
            for child, _ in leaf:
                yield from of(child)
        yield at, framed(KEY_CLOSES)

    return list(of(u32(hive, 36)))


def stream_of(hive):
    return b"".join(data for _, data in tree_frames(hive))


def put_frame(out, at, key, data):
    """A frame at a place of `out`, a bytearray: where it ends, or 20 with the frame's key."""
    if len(out) - at < len(data):
        raise Refused(20, 0, key)
    out[at:at + len(data)] = data
    return at + len(data)


def export_step(hive, work, n, out):
    """Frame n, written to the start of `out`: its length, None past the last frame, or Refused. `work` is the map of the check."""
    check(hive, work)
    frames = tree_frames(hive)
    return put_frame(out, 0, *frames[n]) if n < len(frames) else None


def export_begin(hive, work, words):
    """The check, and then the root is open in `words`, a list of numbers. The depth and the due number for the first run, or Refused."""
    check(hive, work)
    if len(words) < EXPORT_WORDS:
        raise Refused(20)
    words[0:3] = u32(hive, 36), 0, 0
    return 1, 0


# A frame that is due: its key and its bytes, the depth and the due number behind it, and where a child opens what then comes next of its parent.
Due = namedtuple("Due", "key data depth due after")


def frame_due(reader, words, depth, due):
    """The frame that comes next where so many keys are open: the last one's own, one of its values, or what the walk does. None where it is over."""
    if depth == 0:
        return None
    top = reader.accepted(words[3 * depth - 3])
    if due == 0:
        return Due(top["at"], open_frame(reader, top), depth, 1, None)
    if due <= top["values"]:
        return Due(top["at"], value_frame(reader, reader.value_offsets(top)[due - 1]), depth, due + 1, None)
    (state, at, *_), after = ahead(reader, words, depth)
    if state == WALK_CLOSES:
        return Due(at, framed(KEY_CLOSES), depth - 1, PAST, None)
    return Due(at, open_frame(reader, reader.key(at)), depth + 1, 1, after)


def export_run(hive, words, depth, due, out):
    """As many whole frames as `out`, a bytearray, has room for: how many, how many bytes, and the depth and the due number behind them. None where all
    were written, or Refused where not even one was. The hive is not checked; words, depth and due may be any."""
    reader = Reader(open_hive(hive), u32(hive, 24))
    if len(words) < EXPORT_WORDS or len(words) // 3 < depth:
        raise Refused(20)
    frames = at = 0
    while True:
        try:
            next_one = frame_due(reader, words, depth, due)
            if next_one is None:
                break
            at = put_frame(out, at, next_one.key, next_one.data)
        except Refused:
            if frames == 0:
                raise
            break
        if next_one.after:
            go_below(words, depth, next_one.key, next_one.after)
        frames, depth, due = frames + 1, next_one.depth, next_one.due
    return (frames, at, depth, due) if frames else None


# ---- the model: what deletion left behind

OLD_KEY, OLD_VALUE = 1, 2


def free_cells(bins):
    """Where each free cell starts and ends, in bins and cells that were tested."""
    at = 0
    while at < len(bins):
        cell, end = at + 32, at + u32(bins, at + 8)
        while cell < end:
            size = signed_size(bins, cell)
            if size > 0:
                yield cell, cell + size
            cell += abs(size)
        at = end


def old_record(d):
    """What bytes start with: the kind, the length of its name in bytes and whether each is a character; None where it is neither, does not end
    inside them or has no admissible name. Nothing else is judged."""
    if d[0:2] == b"nk" and len(d) >= 76:
        kind, head, length, one, least, most = OLD_KEY, 76, u16(d, 72), u16(d, 2) >> 5 & 1, 1, 255
    elif d[0:2] == b"vk" and len(d) >= 20:
        kind, head, length, one, least, most = OLD_VALUE, 20, u16(d, 2), u16(d, 16) & 1, 0, 16383
    else:
        return None
    if head + length > len(d):
        return None
    codes = name_codes(d[head:head + length], one)
    if codes is None or not least <= len(codes) <= most or kind == OLD_KEY and BACKSLASH in codes:
        return None
    return kind, length, one


def remnants(hive, start=0):
    """Each record that lies in a free cell, from an offset on: (offset, kind, length of its name, whether each byte is a character). Or Refused:
    1 to 7, 9 and 10, wherever they are."""
    bins = open_hive(hive)
    tile(bins)
    found = []
    for cell, end in free_cells(bins):
        for at in range(cell, end, 8):
            record = old_record(bins[at + 4:end]) if bins[at + 5] == ord("k") else None
            if record and at >= start:
                found.append((at,) + record)
    return found


def name_place(remnant):
    """Where in the file the name of a record stands."""
    return BASE + remnant[0] + 4 + (76 if remnant[1] == OLD_KEY else 20)


def remnant_rows(hive, start, words):
    """The same in bulk: how many rows were put into `words`, a list of numbers. 0 where none is left; 20 where one is and there is no room for it."""
    left = remnants(hive, start)
    if left and len(words) < 4:
        raise Refused(20)
    left = left[:len(words) // 4]
    words[:4 * len(left)] = [word for row in left for word in row]
    return len(left)


# ---- the model: what a key holds

def given_key(hive, at):
    """The reader and the record of the key at an offset, which is under examination from then on."""
    bins = open_hive(hive)
    reader = Reader(bins, u32(hive, 24))
    return reader, reader.accepted(at)


def nth_subkey(hive, at, n):
    """The offset of subkey n, None past the last, or Refused. Leaves before its own are tested and counted."""
    reader, k = given_key(hive, at)
    for leaf in reader.leaves(k):
        if n < len(leaf):
            return reader.key(leaf[n][0])["at"]
        n -= len(leaf)
    return None


def nth_value(hive, at, n):
    reader, k = given_key(hive, at)
    offsets = reader.value_offsets(k)
    return reader.value(offsets[n])["at"] if n < len(offsets) else None


def key_class(hive, at):
    """Where the class name of the key at an offset lies in the file, and its length: "48 class name offset", "74 class name length" (003). None of length
    0, and then the offset is not read. Its cell is tested as a value's data cell is (132)."""
    reader, k = given_key(hive, at)
    cell, length = k["class"]
    if length == 0:
        return None
    reader.room(cell, length)
    return BASE + cell + 4, length


def key_security(hive, at):
    """The same of its descriptor: the cell that the key names, "sk" and 20 bytes, and room for what its size says, 12 at the item (133)."""
    reader, k = given_key(hive, at)
    d = reader.cell(k["security"])
    if len(d) < 20 or d[0:2] != b"sk" or 20 + u32(d, 16) > len(d):
        raise Refused(12, k["security"], reader.examined)
    return BASE + k["security"] + 4 + 20, u32(d, 16)


def child_of(hive, at, name, how=in_turn):
    """The offset of the child of that name of the key at an offset, or Refused: one step of a path."""
    open_hive(hive)
    if len(path_parts(name)) != 1:
        raise Refused(16)
    reader, k = given_key(hive, at)
    child = how(reader, k, name)
    if child is None:
        raise Refused(17, 0, at)
    return child["at"]


def value_of(hive, at, name):
    """The offset of the first value of that name of the key at an offset, or Refused."""
    reader, k = given_key(hive, at)
    for v in map(reader.value, reader.value_offsets(k)):
        if folded(v["name"]) == folded(name):
            return v["at"]
    raise Refused(18, 0, at)


# ---- the model: logs by themselves

# What a log says: its first and last number; how many entries count, and where the last of them ends (of an old log, where they would start: 512); the bins size that 24 reads;
# for each logged page the places of its versions in the log, in their order; the closing sector.
Log = namedtuple("Log", "first last entries end bins versions closing")


def set_bits(log):
    size = u32(log, 40) // 4096
    return [8 * j + b for j in range(size) for b in range(8) if log[516 + j] >> b & 1]


def pages_start(log):
    return (516 + u32(log, 40) // 4096 + 511) // 512 * 512


def closing(log, number, bins):
    """The log's first sector with a number in both sequence fields, type 0, a bins size and the right checksum."""
    block = bytearray(log[:512])
    struct.pack_into("<II", block, 4, number, number)
    struct.pack_into("<I", block, 28, 0)
    struct.pack_into("<I", block, 40, bins)
    return seal(block)


def old_head(log):
    """22 for the bitmap, and 23."""
    if len(log) < 516 + u32(log, 40) // 4096:
        raise Refused(22)
    if bytes(log[512:516]) != b"DIRT":
        raise Refused(23)


def old_read(log):
    old_head(log)
    pages, at, number, bins = set_bits(log), pages_start(log), u32(log, 4), u32(log, 40)
    if pages and len(log) < at + 512 * len(pages):
        raise Refused(22)
    return Log(number, number, 0, 512, bins, {p: [at + 512 * i] for i, p in enumerate(pages)}, closing(log, number, bins))


SEED = 0x82EF4D887A4E55C5
WORD = 2**32 - 1


def rotl(x, n):
    return (x << n | x >> (32 - n)) & WORD


def marvin(data):
    """Marvin32 with the seed of the logs: high word x 2^32 + low word."""
    low, high, data = SEED & WORD, SEED >> 32, bytes(data)
    whole = len(data) // 4
    last = int.from_bytes(data[4 * whole:] + b"\x80", "little")
    for word in struct.unpack_from("<%dI" % whole, data) + (last, 0):
        low = (low + word) & WORD
        high ^= low
        low = (rotl(low, 20) + high) & WORD
        high = rotl(high, 9) ^ low
        low = (rotl(low, 27) + high) & WORD
        high = rotl(high, 19)
    return high << 32 | low


def references(log, at):
    """The page references of the entry at a place: (offset, size)."""
    return [(u32(log, at + 40 + 8 * i), u32(log, at + 44 + 8 * i)) for i in range(u32(log, at + 20))]


def are_placed(refs, bins):
    """Aligned, inside the bins data, and no two with a byte in common; one of size 0 has none."""
    if any(o % 512 or n % 512 or o + n > bins for o, n in refs):
        return False
    taken = sorted((o, o + n) for o, n in refs if n)
    return all(end <= start for (_, end), (start, _) in zip(taken, taken[1:]))


def is_entry(log, at, number):
    """Whether an entry of that number stands at a place of a log, by every clause of the ruling."""
    if len(log) < at + 40 or bytes(log[at:at + 4]) != b"HvLE":
        return False
    size, bins = u32(log, at + 4), u32(log, at + 16)
    if size == 0 or size % 512 or len(log) < at + size:
        return False
    if u64(log, at + 24) != marvin(log[at + 40:at + size]) or u64(log, at + 32) != marvin(log[at:at + 32]):
        return False
    if u32(log, at + 12) != number or not is_bins_size(bins) or 40 + 8 * u32(log, at + 20) > size:
        return False
    refs = references(log, at)
    return 40 + 8 * len(refs) + sum(n for _, n in refs) <= size and are_placed(refs, bins)


def new_read(log):
    at, number, bins, largest, versions = 512, u32(log, 4), 0, 0, {}
    while is_entry(log, at, number):
        bins, place = u32(log, at + 16), at + 40 + 8 * u32(log, at + 20)
        for offset, size in references(log, at):
            for i in range(0, size, 512):
                versions.setdefault((offset + i) // 512, []).append(place + i)
            place += size
        at, number, largest = at + u32(log, at + 4), number + 1, max(largest, bins)
    if at == 512:
        raise Refused(22)
    return Log(u32(log, 4), number - 1, number - u32(log, 4), at, largest, versions, closing(log, number - 1, bins))


def log_type(log):
    """21, and the log's type: 1 or 2, or 6 from Windows 8.1 on."""
    if len(log) < 512 or block_fault(log, (1, 2, 6)) or u32(log, 4) != u32(log, 8):
        raise Refused(21)
    return u32(log, 28)


def read_log(log):
    """What a log says by itself, or Refused: 21, 22, 23, 22 for an old log, 21, 22 for a new one."""
    return new_read(log) if log_type(log) == 6 else old_read(log)


def logged(log, page, version=-1):
    at = read_log(log).versions[page][version]
    return bytes(log[at:at + 512])


def log_facts(log):
    """First and last number, entries that count, where the last ends, the bins size that 24 reads."""
    return read_log(log)[:5]


def next_page(log, start):
    """The least logged page from one on and where its last version lies, None past the last, or Refused."""
    versions = read_log(log).versions
    page = min((p for p in versions if p >= start), default=None)
    return None if page is None else (page, versions[page][-1])


def next_mark(log, start):
    """The least logged page from one on. An old log needs no pages for that."""
    if log_type(log) == 6:
        return (next_page(log, start) or (None,))[0]
    old_head(log)
    return min((p for p in set_bits(log) if p >= start), default=None)


def mark_pages(log, marks):
    """Sets the bits of the logged pages in `marks`, a bytearray, and clears the others; bytes past the log's pages stay. How many there are."""
    read = read_log(log)
    if len(marks) < read.bins // 4096:
        raise Refused(8)
    marks[:read.bins // 4096] = bytes(read.bins // 4096)
    for page in read.versions:
        marks[page // 8] |= 1 << page % 8
    return len(read.versions)


# ---- the model: recovery

def is_clean(hive):
    return block_fault(hive, (0,)) == 0 and u32(hive, 4) == u32(hive, 8)


def applies(hive, log, read):
    """25. A usable hive: an old log's stamp is its stamp, a new log's number its second number. Else the first bin's stamp is the log's, and so is that
    of every version of page 0."""
    stamp = bytes(log[12:20])
    if block_fault(hive, (0,)) == 0:
        return u32(hive, 8) == u32(log, 4) if u32(log, 28) == 6 else bytes(hive[12:20]) == stamp
    return bytes(hive[4116:4124]) == stamp and all(bytes(log[at + 20:at + 28]) == stamp for at in read.versions.get(0, []))


def accepted(hive, log):
    """"clean" or what the log says, or Refused."""
    if len(hive) < BASE:
        raise Refused(1)
    if is_clean(hive):
        return "clean"
    read = read_log(log)
    if len(hive) < BASE + read.bins:
        raise Refused(24)
    if not applies(hive, log, read):
        raise Refused(25)
    return read


def start(hive, log):
    """"clean" or the logged pages, rising, or Refused."""
    read = accepted(hive, log)
    return read if read == "clean" else sorted(read.versions)


def put_page(hive, log, page, at):
    hive[BASE + 512 * page:BASE + 512 * page + 512] = log[at:at + 512]


def install(hive, log, page):
    """The page call: "clean" or "done", or Refused."""
    read = accepted(hive, log)
    if read == "clean":
        return read
    if page not in read.versions:
        raise Refused(26)
    put_page(hive, log, page, read.versions[page][-1])
    return "done"


def all_pages(hive, log):
    read = accepted(hive, log)
    if read == "clean":
        return read
    for page, places in read.versions.items():
        put_page(hive, log, page, places[-1])
    return "done"


def close(hive, log):
    read = accepted(hive, log)
    if read == "clean":
        return read
    if any(hive[BASE + 512 * p:BASE + 512 * p + 512] != log[at[-1]:at[-1] + 512] for p, at in read.versions.items()):
        raise Refused(27)
    hive[:512] = read.closing
    return "done"


def repair(hive, log):
    """A whole repair of a bytearray: "clean" or the number of logged pages, or Refused and nothing changed."""
    pages = start(hive, log)
    if pages == "clean":
        return pages
    all_pages(hive, log)
    close(hive, log)
    return len(pages)


# ---- the builder

class Value:
    """A value of a tree: its name, data, type. `inline` None: inline where four bytes are enough. `at` is set by the builder."""

    def __init__(self, name, data=b"", kind=3, wide=None, inline=None):
        self.name, self.data, self.kind, self.at = units(name), data, kind, None
        self.wide = any(c > 255 for c in self.name) if wide is None else wide
        self.inline = len(data) <= 4 if inline is None else inline


class Item:
    """A security item: its descriptor. `at` is set by the builder."""

    def __init__(self, descriptor=b""):
        self.descriptor, self.at = descriptor, None


class Key:
    """A key of a tree. `lists` says how the subkeys are listed: a signature for one leaf, or a list of
    (signature, count) for leaves below an `ri`. `item` is one of the builder's; None: its first. `class_name`: its bytes."""

    def __init__(self, name, subkeys=(), values=(), lists="lh", wide=None, item=None, stamp=0, class_name=b""):
        self.name, self.subkeys, self.values, self.lists = units(name), list(subkeys), list(values), lists
        self.wide = any(c > 255 for c in self.name) if wide is None else wide
        self.item, self.stamp, self.class_name, self.at = item, stamp, class_name, None


class Builder:
    """Lays a tree out, and behind it the ring of its security items, in their order: one empty one, unless said. Afterwards `hive` is the file, and
    `fields` lists what was written where: (place, width, what)."""

    def __init__(self, root, minor=5, stamp=1, sequence=1, bin_size=4096, segmented=None, slack=0, items=None):
        self.minor, self.stamp, self.bin_size, self.slack = minor, stamp, bin_size, slack
        self.segmented = minor >= 4 if segmented is None else segmented
        self.bins, self.cells, self.fields, self.keys = bytearray(), [], [], []
        self.bin, self.free_at, self.bin_end = 0, 0, 0
        self.items = [Item()] if items is None else items
        self.lay_key(root, 0xFFFFFFFF)
        self.lay_items()
        self.end_bin()
        self.root = root.at
        self.hive = self.base(sequence) + self.bins
        for place, width in ((4, 4), (8, 4), (12, 8), (20, 4), (24, 4), (28, 4), (32, 4), (36, 4), (40, 4), (44, 4), (508, 4)):
            self.fields.append((place, width, "base"))

    def base(self, sequence):
        b = bytearray(BASE)
        b[0:4] = b"regf"
        struct.pack_into("<IIQ", b, 4, sequence, sequence, self.stamp)
        struct.pack_into("<IIII", b, 20, 1, self.minor, 0, 1)
        struct.pack_into("<III", b, 36, self.root, len(self.bins), 1)
        return seal(b)

    # cells

    def end_bin(self):
        if self.free_at < self.bin_end:
            struct.pack_into("<i", self.bins, self.free_at, self.bin_end - self.free_at)
            self.fields.append((BASE + self.free_at, 4, "size"))
        self.free_at = self.bin_end

    def new_bin(self, room):
        self.end_bin()
        at, size = len(self.bins), max(self.bin_size, (32 + room + 4095) // 4096 * 4096)
        self.bins.extend(bytes(size))
        struct.pack_into("<4sII", self.bins, at, b"hbin", at, size)
        struct.pack_into("<Q", self.bins, at + 20, self.stamp)
        for i in (0, 4, 8, 20):
            self.fields.append((BASE + at + i, 4, "bin"))
        self.bin, self.free_at, self.bin_end = at, at + 32, at + size

    def cell(self, length):
        """A cell in use with room for so many bytes of data."""
        size = (4 + length + self.slack + 7) // 8 * 8
        if self.bin_end - self.free_at < size:
            self.new_bin(size)
        at = self.free_at
        struct.pack_into("<i", self.bins, at, -size)
        self.free_at += size
        self.cells.append(at)
        self.fields.append((BASE + at, 4, "size"))
        return at

    def put(self, at, data, fields=()):
        self.bins[at + 4:at + 4 + len(data)] = data
        for i, width, what in fields:
            self.fields.append((BASE + at + 4 + i, width, what))
        return at

    def store(self, data, fields=()):
        return self.put(self.cell(len(data)), data, fields)

    # records

    def lay_key(self, k, parent):
        name = name_bytes(k.name, k.wide)
        k.at = self.cell(76 + len(name))
        values = self.lay_values(k)
        for child in k.subkeys:
            self.lay_key(child, k.at)
        listed = self.lay_lists(k)
        d = bytearray(76)
        struct.pack_into("<2sHQ", d, 0, b"nk", 0 if k.wide else 0x20, k.stamp)
        struct.pack_into("<IIII", d, 16, parent, len(k.subkeys), 0, listed)
        struct.pack_into("<II", d, 36, len(k.values), values)
        struct.pack_into("<H", d, 72, len(name))
        kinds = [(0, 2, "sign"), (2, 2, "flags"), (16, 4, "offset"), (20, 4, "count"), (28, 4, "offset"), (36, 4, "count"),
                 (40, 4, "offset"), (44, 4, "offset"), (72, 2, "count"), (76, 1, "name"), (76 + len(name) - 1, 1, "name")]
        if k.class_name:
            struct.pack_into("<I", d, 48, self.store(k.class_name))
            struct.pack_into("<H", d, 74, len(k.class_name))
            kinds += [(48, 4, "offset"), (74, 2, "count")]
        self.put(k.at, d + name, kinds)
        self.keys.append(k)

    def lay_items(self):
        """Each linked to the next and the one before, with the number of the keys that name it."""
        for x in self.items:
            x.at = self.cell(20 + len(x.descriptor))
        owners = [k.item or self.items[0] for k in self.keys]
        for k, x in zip(self.keys, owners):
            struct.pack_into("<I", self.bins, k.at + 4 + 44, x.at)
        named = Counter(x.at for x in owners)
        for before, x, after in zip(self.items[-1:] + self.items, self.items, self.items[1:] + self.items):
            d = struct.pack("<2sHIIII", b"sk", 0, after.at, before.at, named[x.at], len(x.descriptor)) + x.descriptor
            self.put(x.at, d, [(0, 2, "sign"), (4, 4, "offset"), (8, 4, "offset"), (12, 4, "count"), (16, 4, "count")])

    def leaf(self, sign, keys):
        d = bytearray(struct.pack("<2sH", sign.encode(), len(keys)))
        fields = [(0, 2, "sign"), (2, 2, "count")]
        for k in keys:
            fields.append((len(d), 4, "offset"))
            d += struct.pack("<I", k.at)
            if sign in ("lf", "lh"):
                fields.append((len(d), 4, "hash"))
                d += struct.pack("<I", name_hash(k.name) if sign == "lh" else name_hint(k.name))
        return self.store(d, fields)

    def lay_lists(self, k):
        if not k.subkeys:
            return 0xFFFFFFFF
        if isinstance(k.lists, str):
            return self.leaf(k.lists, k.subkeys)
        d, fields, at = bytearray(struct.pack("<2sH", b"ri", len(k.lists))), [(0, 2, "sign"), (2, 2, "count")], 0
        for sign, count in k.lists:
            fields.append((len(d), 4, "offset"))
            d += struct.pack("<I", self.leaf(sign, k.subkeys[at:at + count]))
            at += count
        return self.store(d, fields)

    def lay_values(self, k):
        if not k.values:
            return 0xFFFFFFFF
        for v in k.values:
            self.lay_value(v)
        d = b"".join(struct.pack("<I", v.at) for v in k.values)
        return self.store(d, [(4 * i, 4, "offset") for i in range(len(k.values))])

    def lay_value(self, v):
        name = name_bytes(v.name, v.wide)
        size, field = len(v.data), b"\xff\xff\xff\xff"
        if v.inline:
            size, field = size + 2**31, v.data.ljust(4, b"\0")
        elif v.data:
            field = struct.pack("<I", self.lay_data(v.data))
        d = struct.pack("<2sHI4sIH2x", b"vk", len(name), size, field, v.kind, 0 if v.wide else 1) + name
        v.at = self.store(d, [(0, 2, "sign"), (2, 2, "count"), (4, 4, "count"), (8, 4, "offset"), (16, 2, "flags")])

    def lay_data(self, data):
        if len(data) <= SEGMENT or not self.segmented:
            return self.store(data)
        parts = [data[i:i + SEGMENT] for i in range(0, len(data), SEGMENT)]
        d = b"".join(struct.pack("<I", self.store(p)) for p in parts)
        listed = self.store(d, [(4 * i, 4, "offset") for i in range(len(parts))])
        return self.store(struct.pack("<2sHI", b"db", len(parts), listed), [(0, 2, "sign"), (2, 2, "count"), (4, 4, "offset")])


def name_bytes(codes, wide):
    return b"".join(struct.pack("<H", c) for c in codes) if wide else bytes(codes)


def key_record(raw, one=True, fill=0):
    """The record of a key with that name, as it is stored; all that is no part of it is `fill`."""
    d = bytearray([fill]) * 76
    d[0:2] = b"nk"
    d[2] = d[2] & 0xDF | (0x20 if one else 0)
    struct.pack_into("<H", d, 72, len(raw))
    return bytes(d) + raw


def value_record(raw, one=True, fill=0):
    d = bytearray([fill]) * 20
    d[0:2] = b"vk"
    d[16] = d[16] & 0xFE | (1 if one else 0)
    struct.pack_into("<H", d, 2, len(raw))
    return bytes(d) + raw


def with_xor(file, xor, stored=None):
    """A copy whose first 127 words have that XOR, by a word that nobody reads, and with that number at 508: the right one, unless said."""
    f = bytearray(file)
    struct.pack_into("<I", f, 200, u32(f, 200) ^ xor_of(f) ^ xor)
    seal(f)
    if stored is not None:
        struct.pack_into("<I", f, 508, stored)
    return f


def edited(hive, *changes):
    """A copy with (place, bytes) written, and a right checksum."""
    h = bytearray(hive)
    for place, data in changes:
        h[place:place + len(data)] = data
    return seal(h)


def torn(hive):
    """A copy whose sequence numbers differ: what a cut store leaves."""
    return edited(hive, (4, struct.pack("<I", (u32(hive, 8) + 1) % 2**32)))


def old_log(hive, pages, kind=1, sequence=9):
    """An old log for a hive: pages is {number: 512 bytes}. The stamp and the bins size are the hive's."""
    head = bytearray(hive[:512])
    struct.pack_into("<II", head, 4, sequence, sequence)
    struct.pack_into("<I", head, 28, kind)
    size = u32(hive, 40)
    bitmap = bytearray(size // 4096)
    for p in pages:
        bitmap[p // 8] |= 1 << p % 8
    log = seal(head) + b"DIRT" + bitmap
    if pages:
        log += bytes(-len(log) % 512)
    for p in sorted(pages):
        log += pages[p]
    return bytearray(log)


def rehash(entry):
    """Puts the right hashes into an entry, or into the start of a part of a log that is one."""
    struct.pack_into("<Q", entry, 24, marvin(entry[40:u32(entry, 4)]))
    struct.pack_into("<Q", entry, 32, marvin(entry[:32]))
    return entry


def entry(number, bins, refs=(), size=None, flags=0, padding=b"\0"):
    """An entry of a new log: refs are (offset in the bins data, bytes). Its size is the least, unless said."""
    body = b"".join(struct.pack("<II", offset, len(data)) for offset, data in refs) + b"".join(data for _, data in refs)
    size = (40 + len(body) + 511) // 512 * 512 if size is None else size
    body += padding * (size - 40 - len(body))
    return rehash(bytearray(struct.pack("<4sIIIII16x", b"HvLE", size, flags, number, bins, len(refs)) + body))


def changed(made, *changes):
    """A copy of an entry with (place, bytes) written, and its hashes renewed."""
    e = bytearray(made)
    for place, data in changes:
        e[place:place + len(data)] = data
    return rehash(e)


def new_log(hive, entries, sequence=9):
    """A log of Windows 8.1 and later for a hive, with its stamp: entries one behind the other."""
    head = bytearray(hive[:512])
    struct.pack_into("<II", head, 4, sequence, sequence)
    struct.pack_into("<I", head, 28, 6)
    return bytearray(seal(head) + b"".join(bytes(e) for e in entries))


# Vectors: the empty message, short ones, the head of an entry that Windows wrote, and two whole entries.
for message, wanted in ((b"", 0xB39EFCA403966E08), (b"a", 0x21A013C726F292F4), (b"HvLE", 0x914527932CF336DD),
                        (bytes.fromhex("48764C45002E0000000000008300000000000700020000001DD9B16DB892AE9E"), 0xB41DC2E43017E264)):
    assert marvin(message) == wanted
for made, wanted in ((entry(5, 4096), (0xB16122D0C0639ACC, 0x8AA092E04C7D61E9)),
                     (entry(6, 4096, [(512, b"\xaa" * 512)]), (0x7DF148EB5A4FB095, 0xEE6A3A14EBB3F2A6))):
    assert (u64(made, 24), u64(made, 32)) == wanted and is_entry(bytes(512) + made, 512, u32(made, 12))
