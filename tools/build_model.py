"""A hive from frames in plain Python, by request 11 and docs/LAYOUT.md: what is wrong with a stream of frames, and the hive that is made of a good one.

It owes nothing to the Rattle code. The first pass tests and measures, the second writes; nothing depends on a clock. A number in brackets is the ruling of
docs/DECISIONS.md that a line follows. Standard library only."""
import struct
from collections import namedtuple

import hives
from hives import BACKSLASH, BASE, BINS_MOST, DATA_MOST, KEY_CLOSES, KEY_OPENS, KEY_VALUE, SEGMENT, folded, name_bytes, name_hash, u16, u32

NONE = 0xFFFFFFFF
HEAD = 6
LEVEL_MOST = 512
SUBKEYS_MOST = 65535
KEY_NAME_MOST = 255
VALUE_NAME_MOST = 16383


class Unbuilt(Exception):
    """A number, and where in the stream the frame at fault starts: the stream's end where a key stays open, 0 for 39 and 20 (113)."""

    def __init__(self, number, at=0):
        Exception.__init__(self, number, at)
        self.number, self.at = number, at


# A tree as its stream has it: names are lists of codes, a stamp is a number of 8 bytes.
Key = namedtuple("Key", "stamp name values subkeys")
Value = namedtuple("Value", "kind name data")


# ---- frames, and what is wrong with one

Frame = namedtuple("Frame", "kind end stamp name type data")


def codes_of(raw):
    return [u16(raw, i) for i in range(0, len(raw), 2)]


def frame_at(s, at):
    """The frame at a place of a stream, or None where it is not laid out as one."""
    if len(s) - at < HEAD:
        return None
    length, kind, start = u32(s, at), u16(s, at + 4), at + HEAD
    if kind not in (KEY_OPENS, KEY_VALUE, KEY_CLOSES) or len(s) - start < length:
        return None
    end = start + length
    if kind == KEY_CLOSES:
        return Frame(kind, end, 0, [], 0, b"") if length == 0 else None
    if length < 8:
        return None
    if kind == KEY_OPENS:
        return Frame(kind, end, hives.u64(s, start), codes_of(s[start + 8:end]), 0, b"") if length % 2 == 0 else None
    name = u32(s, start + 4)
    if name % 2 or name > length - 8:
        return None
    split = start + 8 + name
    return Frame(kind, end, 0, codes_of(s[start + 8:split]), u32(s, start), s[split:end])


class Open:
    """A key that is open: its frame, the values and subkeys that it has so far, and the folded names of its values."""

    def __init__(self, frame):
        self.frame, self.values, self.subkeys, self.names = frame, [], [], set()


def frame_fault(f, keys, over):
    """The lowest of 31 to 38 that a frame has, or 0. `keys` are open, the deepest last; `over` says that the root has been closed."""
    top = keys[-1] if keys else None
    if f.kind == KEY_VALUE and top and top.subkeys:
        return 31
    if top is None and (over or f.kind != KEY_OPENS):
        return 32
    if f.kind == KEY_OPENS:
        return opening_fault(f, top, len(keys))
    return value_fault(f, top) if f.kind == KEY_VALUE else 0


def opening_fault(f, parent, level):
    if parent and parent.subkeys and not folded(parent.subkeys[-1].name) < folded(f.name):
        return 33
    if not 1 <= len(f.name) <= KEY_NAME_MOST or BACKSLASH in f.name:
        return 35
    if level > LEVEL_MOST:
        return 37
    return 38 if parent and len(parent.subkeys) >= SUBKEYS_MOST else 0


def value_fault(f, key):
    if tuple(folded(f.name)) in key.names:
        return 34
    if len(f.name) > VALUE_NAME_MOST:
        return 35
    return 36 if len(f.data) > DATA_MOST else 0


# ---- the first pass

def read(s):
    """The root key of a stream with all that is below it, or Unbuilt: frame by frame, of one frame the lowest number."""
    keys, root, at = [], None, 0
    while at < len(s):
        f = frame_at(s, at)
        if f is None:
            raise Unbuilt(30, at)
        fault = frame_fault(f, keys, root is not None)
        if fault:
            raise Unbuilt(fault, at)
        if f.kind == KEY_OPENS:
            keys.append(Open(f))
        elif f.kind == KEY_VALUE:
            keys[-1].values.append(Value(f.type, f.name, f.data))
            keys[-1].names.add(tuple(folded(f.name)))
        else:
            key = closed(keys.pop())
            if keys:
                keys[-1].subkeys.append(key)
            else:
                root = key
        at = f.end
    if root is None:
        raise Unbuilt(32, len(s))
    return root


def closed(key):
    return Key(key.frame.stamp, key.frame.name, key.values, key.subkeys)


def cell(x):
    """The size of the least cell that holds so many bytes."""
    return (4 + x + 7) // 8 * 8


def is_narrow(name):
    return all(c < 256 for c in name)


def stored(name):
    return bytes(name) if is_narrow(name) else name_bytes(name, True)


def parts_of(data):
    return [data[i:i + SEGMENT] for i in range(0, len(data), SEGMENT)]


def data_size(data):
    if len(data) <= 4:
        return 0
    if len(data) <= SEGMENT:
        return cell(len(data))
    parts = parts_of(data)
    return cell(8) + cell(4 * len(parts)) + sum(cell(len(p)) for p in parts)


def value_size(v):
    return cell(20 + len(stored(v.name))) + data_size(v.data)


def key_size(k):
    """Of all cells of a key, and of those of all keys below it."""
    lists = (cell(4 * len(k.values)) if k.values else 0) + (cell(4 + 8 * len(k.subkeys)) if k.subkeys else 0)
    return cell(76 + len(stored(k.name))) + sum(map(value_size, k.values)) + sum(map(key_size, k.subkeys)) + lists


def count_keys(k):
    return 1 + sum(map(count_keys, k.subkeys))


def bins_size(root, descriptor_length):
    return (32 + key_size(root) + cell(20 + descriptor_length) + 4095) // 4096 * 4096


def sized(s, descriptor_length):
    """The root and the bins size: 30 to 38 of all frames first, then 39."""
    root = read(s)
    size = bins_size(root, descriptor_length)
    if size > BINS_MOST:
        raise Unbuilt(39)
    return root, size


# ---- the second pass

class Cells:
    """The cells of a tree, in their order from offset 32 on. `item` is the offset of the security item."""

    def __init__(self, root, item):
        self.item, self.data, self.end = item, [], 32
        self.lay_key(root, NONE)

    def put(self, data):
        """A cell behind the others: its offset."""
        at = self.end
        self.data.append(data)
        self.end += cell(len(data))
        return at

    def lay_key(self, k, parent):
        name, own = stored(k.name), len(self.data)
        at = self.put(bytes(76 + len(name)))
        values = self.lay_list([self.lay_value(v) for v in k.values])
        leaf = self.lay_leaf(k.subkeys, [self.lay_key(child, at) for child in k.subkeys])
        flags = (0x20 if is_narrow(k.name) else 0) | (0x0C if parent == NONE else 0)
        d = struct.pack("<2sHQI", b"nk", flags, k.stamp, 0) + struct.pack("<IIIII", parent, len(k.subkeys), 0, leaf, NONE)
        d += struct.pack("<IIII", len(k.values), values, self.item, NONE)
        d += struct.pack("<IIII", longest(2 * len(c.name) for c in k.subkeys), 0, longest(2 * len(v.name) for v in k.values), longest(len(v.data) for v in k.values))
        self.data[own] = d + struct.pack("<IHH", 0, len(name), 0) + name
        return at

    def lay_list(self, offsets):
        return self.put(struct.pack("<%dI" % len(offsets), *offsets)) if offsets else NONE

    def lay_leaf(self, keys, offsets):
        if not keys:
            return NONE
        return self.put(struct.pack("<2sH", b"lh", len(keys)) + b"".join(struct.pack("<II", at, name_hash(k.name)) for k, at in zip(keys, offsets)))

    def lay_value(self, v):
        name, data = stored(v.name), v.data
        record = cell(20 + len(name))
        size, field = (2**31 + len(data), data.ljust(4, b"\0")) if len(data) <= 4 else (len(data), struct.pack("<I", self.end + record))
        at = self.put(struct.pack("<2sHI4sIHH", b"vk", len(name), size, field, v.kind, is_narrow(v.name), 0) + name)
        if len(data) > SEGMENT:
            self.lay_segments(parts_of(data))
        elif len(data) > 4:
            self.put(data)
        return at

    def lay_segments(self, parts):
        listed = self.end + cell(8)
        first = listed + cell(4 * len(parts))
        self.put(struct.pack("<2sHI", b"db", len(parts), listed))
        self.lay_list([first + cell(SEGMENT) * i for i in range(len(parts))])
        for part in parts:
            self.put(part)


def longest(lengths):
    return max(lengths, default=0)


def in_use(data):
    return (struct.pack("<i", -cell(len(data))) + data).ljust(cell(len(data)), b"\0")


def hive_of(root, descriptor, size):
    item = 32 + key_size(root)
    cells = Cells(root, item)
    if cells.put(struct.pack("<2sHIIII", b"sk", 0, item, item, count_keys(root), len(descriptor)) + descriptor) != item:
        raise AssertionError("the passes differ")
    left = size - cells.end
    free = struct.pack("<i", left).ljust(left, b"\0") if left else b""
    head = struct.pack("<4sIIII", b"hbin", 0, size, 0, 0) + struct.pack("<QI", root.stamp, 0)
    base = bytearray(BASE)
    struct.pack_into("<4sIIQ", base, 0, b"regf", 1, 1, root.stamp)
    struct.pack_into("<IIIIIII", base, 20, 1, 5, 0, 1, 32, size, 1)
    return bytes(hives.seal(base)) + head + b"".join(map(in_use, cells.data)) + free


# ---- the calls

def measure(s, descriptor_length):
    """How long the hive of a stream is, or Unbuilt: all but 20."""
    return BASE + sized(s, descriptor_length)[1]


def build(s, descriptor, room):
    """The hive of a stream, or Unbuilt; 20 exactly where it is longer than the room."""
    root, size = sized(s, len(descriptor))
    if BASE + size > room:
        raise Unbuilt(20)
    return hive_of(root, descriptor, size)


def stream(k):
    """The frames of a tree."""
    values = b"".join(hives.framed(KEY_VALUE, struct.pack("<II", v.kind, 2 * len(v.name)) + name_bytes(v.name, True) + v.data) for v in k.values)
    return hives.framed(KEY_OPENS, struct.pack("<Q", k.stamp) + name_bytes(k.name, True)) + values + b"".join(map(stream, k.subkeys)) + hives.framed(KEY_CLOSES)
