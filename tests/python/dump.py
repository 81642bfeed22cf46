"""dump.py FRAMES LINES: that `hive dump --json` says what the frames of the export say, key by key and value by value, in the same order."""
import datetime
import json
import struct
import sys

KINDS = ("REG_NONE REG_SZ REG_EXPAND_SZ REG_BINARY REG_DWORD REG_DWORD_BIG_ENDIAN REG_LINK REG_MULTI_SZ REG_RESOURCE_LIST"
         " REG_FULL_RESOURCE_DESCRIPTOR REG_RESOURCE_REQUIREMENTS_LIST REG_QWORD").split()


def units(raw):
    """A name as JSON can have it: each half of a pair that stands alone is U+FFFD."""
    text = raw.decode("utf-16-le", "surrogatepass")
    return "".join("\ufffd" if 0xD800 <= ord(c) < 0xE000 else c for c in text)


def written(stamp):
    """ISO 8601, by another's calendar; None where its years end."""
    try:
        whole = datetime.datetime(1601, 1, 1) + datetime.timedelta(seconds=stamp // 10**7)
    except OverflowError:
        return None
    return f"{whole.isoformat()}.{stamp % 10**7:07d}Z"


def number(kind, data):
    if (kind, len(data)) in ((4, 4), (11, 8)):
        return int.from_bytes(data, "little")
    return int.from_bytes(data, "big") if (kind, len(data)) == (5, 4) else None


def wanted(frames):
    """For each key, and each value, what its object has to hold."""
    way, stamp, at = [], None, 0
    while at < len(frames):
        length, kind = struct.unpack_from("<IH", frames, at)
        payload = frames[at + 6:at + 6 + length]
        at += 6 + length
        if kind == 18:
            way.pop()
            continue
        if kind == 16:
            stamp = struct.unpack_from("<Q", payload)[0]
            way.append(units(payload[8:]))
            yield "key", {"path": "\\".join(way[1:]), "written": written(stamp)}
            continue
        type_, n = struct.unpack_from("<II", payload)
        data = payload[8 + n:]
        yield "data", {"path": "\\".join(way[1:]), "written": written(stamp), "name": units(payload[8:8 + n]), "hex": data.hex(), "length": len(data),
                       "type": KINDS[type_] if type_ < len(KINDS) else hex(type_), "number": number(type_, data)}


def main():
    frames = open(sys.argv[1], "rb").read()
    counts = {"key": 0, "data": 0}
    with open(sys.argv[2], encoding="utf-8") as lines:
        for answer, facts in wanted(frames):
            found = json.loads(next(lines), object_pairs_hook=pairs)
            counts[answer] += 1
            if found["answer"] != answer:
                sys.exit(f"{found} is no {answer}")
            for label, fact in facts.items():
                if found.get(label) != fact and (label, fact) != ("written", None):
                    sys.exit(f"{label} of {found} is not {fact!r}")
        if lines.readline():
            sys.exit("a line too many")
    print(f"{counts['key']} keys, {counts['data']} values")


def pairs(items):
    """An object, no label of which stands twice."""
    if len(dict(items)) != len(items):
        sys.exit(f"a label twice: {items}")
    return dict(items)


main()
