"""The functions, enums, structs and constants of crates/*/src, each with its parts: for tools/places."""
import collections
import glob
import re

GENERICS = re.compile(r"<(?:->|[^<>]|<(?:->|[^<>])*>)*>")
HEAD = re.compile(r"\b(requires|ensures|decreases)\b\s*\w*\s*(?=\{)|\{")
Item = collections.namedtuple("Item", "crate path line kind name params clauses result body start end")


def close(text, i):
    """Behind the bracket that closes the one at i."""
    shut, depth = {"(": ")", "{": "}", "[": "]"}[text[i]], 0
    for k in range(i, len(text)):
        depth += (text[k] == text[i]) - (text[k] == shut)
        if depth == 0:
            return k + 1
    return len(text)


def parts(text, mark):
    """The text cut at a mark that stands in no bracket."""
    out, depth, last = [], 0, 0
    for k, c in enumerate(text):
        depth += (c in "([{<") - (c in ")]}" or c == ">" and text[k - 1] not in "-=")
        if depth == 0 and text.startswith(mark, k):
            out.append(text[last:k])
            last = k + len(mark)
    return [p for p in (" ".join(p.split()) for p in out + [text[last:]]) if p]


def item(crate, path, text, m):
    """The function, enum, struct or constant at a match, or nothing where it has no body."""
    line, pos, params, clauses, result = text.count("\n", 0, m.start()) + 1, m.end(), [], [], ""
    if m.group(1) == "const":
        return Item(crate, path, line, "const", m.group(2), params, clauses, result, "", m.start(), m.end())
    if m.group(1) == "fn":
        g = GENERICS.match(text, pos)
        pos = text.index("(", g.end() if g else pos)
        pos, params = close(text, pos), parts(text[pos + 1:close(text, pos) - 1], ",")
    while True:
        h = HEAD.search(text, pos)
        if not h or re.search(r";\s*\n", text[pos:h.start()]):
            return None
        result, pos = result or text[pos:h.start()], close(text, h.end() - (not h.group(1)))
        if not h.group(1):
            return Item(crate, path, line, m.group(1), m.group(2), params, clauses, result, text[h.end():pos - 1], m.start(), pos)
        clauses.append((h.group(1), text[h.end() + 1:pos - 1]))


def read():
    """All items, and for each file its text without remarks."""
    items, texts = [], {}
    for path in sorted(glob.glob("crates/*/src/**/*.rt", recursive=True)):
        with open(path, encoding="utf-8") as f:
            texts[path] = text = re.sub(r"//.*", "", f.read())
        crate = path.split("/")[1]
        items += filter(None, (item(crate, path, text, m) for m in re.finditer(r"\b(fn|enum|struct|const)\s+(\w+)", re.sub(r"#\[[^\n]*\]", lambda a: " " * len(a.group()), text))))
    return items, texts
