"""python3 reg.py FRAMES WIDE PLAIN PREFIX [PATH]: reads WIDE, a text of `hive reg`, back and compares it with the frames of `hive export` (docs/FRAMES.md): the same keys,
names, types and data in the same order, but for what has a name that no line can hold. Lines are broken where they must be and nowhere else, and each value has
the form that is its own. PLAIN is the same text by --utf8. With PATH, as stored, the key there and those below it. Standard library only; it shares nothing with
the tool."""
import re
import struct
import sys

HEAD = "Windows Registry Editor Version 5.00"
NAME = re.compile(r'(?:@|"((?:[^"\\]|\\["\\])+)")=')
TEXT = re.compile(r'"((?:[^"\\]|\\["\\])*)"')
HEX = re.compile(r"hex(?:\((0|[1-9a-f][0-9a-f]*)\))?:((?:[0-9a-f]{2}(?:,[0-9a-f]{2})*)?)")
DWORD = re.compile(r"dword:([0-9a-f]{8})")
LINE = 77


def wide(text):
    return text.encode("utf-16-le", "surrogatepass")


def units(text):
    return len(wide(text)) // 2


def text_of(data):
    return data.decode("utf-16-le", "surrogatepass")


def unsayable(name):
    return any(c in name for c in "\0\n\r")


# ---- the frames

def frames(stream):
    at = 0
    while at < len(stream):
        length, kind = struct.unpack_from("<IH", stream, at)
        yield kind, stream[at + 6:at + 6 + length]
        at += 6 + length


def tree(stream):
    """Each key with its way and its values."""
    way, found = [], []
    for kind, payload in frames(stream):
        if kind == 16:
            way.append(text_of(payload[8:]))
            found.append((tuple(way[1:]), []))
        elif kind == 17:
            number, n = struct.unpack_from("<II", payload)
            found[-1][1].append((text_of(payload[8:8 + n]), number, payload[8 + n:]))
        else:
            way.pop()
    return found


def sayable(found):
    return [(way, [v for v in values if not unsayable(v[0])]) for way, values in found if not any(map(unsayable, way))]


# ---- the text

def plain(text):
    return re.sub(r"\\(.)", r"\1", text, flags=re.S)


def joined(lines, i):
    """The line at i with its continuations, and the number of the next. Each break is where it must be: only a first line of one byte may be longer."""
    start, whole = i, lines[i]
    while lines[i].endswith("\\"):
        body, more = lines[i][:-1], lines[i + 1]
        alone = i == start and body[NAME.match(body).end():].count(",") == 1
        assert body.endswith(",") and re.match("  [0-9a-f]{2}", more), "no continuation: " + more
        assert units(body) <= LINE or alone, "too long: " + body
        assert units(body) + (2 if len(more) == 4 else 3) > LINE, "broken too early: " + body
        whole, i = whole[:-1] + more[2:], i + 1
    assert i == start or units(lines[i]) <= LINE, "too long: " + lines[i]
    return whole, i + 1


def value(line):
    head = NAME.match(line)
    assert head, "no name: " + line
    name, rest = plain(head.group(1) or ""), line[head.end():]
    text, digits, number = TEXT.fullmatch(rest), HEX.fullmatch(rest), DWORD.fullmatch(rest)
    if text:
        return name, 1, wide(plain(text.group(1)) + "\0")
    if number:
        return name, 4, struct.pack("<I", int(number.group(1), 16))
    assert digits, "no data: " + line
    kind, data = int(digits.group(1) or "3", 16), bytes.fromhex(digits.group(2).replace(",", ""))
    string = kind == 1 and len(data) % 2 == 0 and data[-2:] == b"\0\0" and not unsayable(text_of(data[:-2]))
    assert digits.group(1) != "3" and not string and not (kind == 4 and len(data) == 4), "the wrong form: " + line
    return name, kind, data


def read(text):
    lines = text.split("\r\n")
    assert lines[:2] == [HEAD, ""] and lines[-1] == "" and not any(unsayable(line) for line in lines), "not the lines of such a text"
    found, i = [], 2
    while i < len(lines) - 1:
        assert lines[i][0] == "[" and lines[i][-1] == "]", "no key: " + lines[i]
        found.append((lines[i][1:-1], []))
        i += 1
        while lines[i] != "":
            line, i = joined(lines, i)
            found[-1][1].append(value(line))
        i += 1
    return found


def main(stream, wide_text, plain_text, prefix, path=None):
    stream, wide_text, plain_text = (open(name, "rb").read() for name in (stream, wide_text, plain_text))
    assert wide_text[:2] == b"\xff\xfe", "no mark"
    text = text_of(wide_text[2:])
    assert plain_text.decode() == re.sub("[\ud800-\udfff]", "\ufffd", text.replace("\r\n", "\n")), "not the same text in UTF-8"
    every = tree(stream)
    if path is not None:
        top = tuple(path.split("\\"))
        every = [(way, values) for way, values in every if way[:len(top)] == top]
    wanted = [("\\".join((prefix,) + way), values) for way, values in sayable(every)]
    found = read(text)
    assert found == wanted, next(pair for pair in zip(found + [None], wanted + [None]) if pair[0] != pair[1])
    print("%d keys, %d values" % (len(found), sum(len(values) for _, values in found)))


main(*sys.argv[1:])
