"""The hives of docs/COMING-FROM.md: python3 tools/samples.py DIR makes SYSTEM; TORN with its TORN.LOG, a store that was cut; NEW with its NEW.LOG1 and
NEW.LOG2, the same with logs of Windows 8.1 and later; BAD, a cell of an
impossible size; CUT, a file that ends early; DELETED, whose key `gone` and its value lie in free cells. Other readers ask for what the paper does
not: a descriptor in the security item, and a mark on the root. Standard library only."""
import os
import struct

import hives
import usage

NONE = 0xFFFFFFFF
WRITTEN = 0x01DA6B2F00000000  # 2024-02-29 16:47:36 UTC


class Builder(hives.Builder):
    """One item for all keys: an owner and a group, and no list of rights."""

    def __init__(self, root):
        system = bytes([1, 1, 0, 0, 0, 0, 0, 5, 18, 0, 0, 0])
        hives.Builder.__init__(self, root, items=[hives.Item(struct.pack("<BBHIIII", 1, 0, 0x8000, 20, 32, 0, 0) + system + system)])

    def lay_key(self, k, parent):
        hives.Builder.lay_key(self, k, parent)
        data = k.at + 4
        struct.pack_into("<Q", self.bins, data + 4, WRITTEN)
        struct.pack_into("<I", self.bins, data + 48, NONE)
        if parent == NONE:
            struct.pack_into("<H", self.bins, data + 2, 0x2C)


def text(words):
    return (words + "\0").encode("utf-16-le")


def below(names, last):
    for name in reversed(names):
        last = hives.Key(name, [last])
    return last


def system():
    source = hives.Key("Print", [], [
        hives.Value("EventMessageFile", text("%SystemRoot%\\System32\\localspl.dll"), 2), hives.Value("TypesSupported", struct.pack("<I", 7), 4),
        hives.Value("Sources", text("one") + text("two") + b"\0\0", 7), hives.Value("Blob", bytes(range(40)), 3)])
    control = below(["ControlSet001", "Services", "EventLog", "Application"], source)
    return Builder(hives.Key("root", [control, hives.Key("Select", [], [hives.Value("Current", struct.pack("<I", 1), 4)])])).hive


def deleted():
    """A key's cell and its value's cell are free, and the root and the security item count one key less; the bytes stay."""
    root = hives.Key("root", [hives.Key("a"), hives.Key("gone", [], [hives.Value("secret", text("old"), 1)])])
    made = Builder(root)
    file, gone = bytearray(made.hive), root.subkeys[1]
    struct.pack_into("<I", file, 4096 + made.items[0].at + 16, 2)
    for at in (gone.at, gone.values[0].at):
        struct.pack_into("<i", file, 4096 + at, -struct.unpack_from("<i", file, 4096 + at)[0])
    struct.pack_into("<H", file, 4096 + hives.u32(file, 4096 + root.at + 32) + 6, 1)
    struct.pack_into("<I", file, 4096 + root.at + 24, 1)
    return file


def main(folder):
    good = system()
    torn = hives.torn(good)
    torn[4608:5120] = bytes(512)
    bad = bytearray(good)
    struct.pack_into("<i", bad, 4096 + 32, -13)
    log = hives.old_log(good, {page: bytes(good[4096 + 512 * page:4608 + 512 * page]) for page in (0, 1, 2)})
    pages = [(512 * page, bytes(good[4096 + 512 * page:4608 + 512 * page])) for page in range(3)]
    new = hives.edited(torn, (4, struct.pack("<II", 9, 5)))
    logs = [hives.new_log(good, [hives.entry(5, 4096, [(512, bytes(512))]), hives.entry(6, 4096, pages[:2])], 5), hives.new_log(good, [hives.entry(7, 4096, pages[1:])], 7)]
    for name, data in (("SYSTEM", good), ("TORN", torn), ("TORN.LOG", log), ("NEW", new), ("NEW.LOG1", logs[0]), ("NEW.LOG2", logs[1]), ("BAD", bad), ("CUT", good[:-1024]), ("DELETED", deleted())):
        with open(os.path.join(folder, name), "wb") as file:
            file.write(data)


main(*usage.words(__doc__, "FOLDER"))
