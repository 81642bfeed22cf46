#!/usr/bin/env python3
"""Brings this repository's own names to the spelling of today's Rattle, once, after the kit's port.py.

usage: python3 tools/respell.py     at the top, where port.py has run

Functions and lemmas are in snake case (`isRegf` is `is_regf`); types, modules and constructors of Rust's enums keep their capitals, and a dash still joins two names.
The module `Contracts` of a crate's specs/ is `Terms`, since Rattle makes a module `contracts` there. A lemma whose name falls together with that of a function gets
`_lem`, a constructor its dash back. Names of Rust's functions, strings and inputs stay.
"""

import os
import re
import subprocess

# Lemmas and constructors that port.py spelled as the functions that this script respells.
LEMMAS = [
    "value_in", "all_in", "nth_in", "went_on", "last_says", "first_says", "item_in", "key_in", "list_at",
    "spot_in", "entries_from", "in_entry", "has_code", "read_as",
]
STEPS = ["step_n"]
CONSTRUCTORS = ["no_key", "too_long"]


def snake(word):
    if not re.match(r"[a-z]", word):
        return word
    return re.sub(r"([a-z0-9'])([A-Z]+)", lambda m: m.group(1) + "_" + m.group(2).lower(), word)


def respelled(text):
    """Each identifier's parts in snake case, byte strings and quoted text as they are."""
    def turn(m):
        if m.group(0)[0] == '"':
            return m.group(0)
        return "-".join(snake(w) for w in m.group(0).split("-"))
    return re.sub(r'"[^"\n]*"|[A-Za-z_][\w\']*(?:-[\w\']+)*', turn, text)


def bare(name):
    return re.compile(r"(?<![\w.◌'-])" + re.escape(name) + r"(?![\w'-])")


def main():
    files = subprocess.run(["git", "ls-files", "-co", "--exclude-standard", "crates"], capture_output=True, text=True).stdout.split("\n")
    for path in sorted(set(f for f in files if f.endswith((".antt", ".rt", ".edit")) and os.path.exists(f))):
        with open(path, encoding="utf-8") as f:
            text = f.read()
        new = text
        if path.endswith(".antt"):
            for name in LEMMAS:
                new = bare(name).sub(name + "_lem", new)
            for name in STEPS:
                if path.startswith("crates/cells/"):
                    new = bare(name).sub(name + "_lem", new)
            for name in CONSTRUCTORS:
                new = bare(name).sub(name.replace("_", "-"), new)
        new = re.sub(r"\bspecs(\.|/)Contracts\b", r"specs\1Terms", new)
        new = re.sub(r"^(pub mod|mod) Contracts$", r"\1 Terms", new, flags=re.M)
        new = respelled(new)
        if new != text:
            with open(path, "w", encoding="utf-8") as f:
                f.write(new)
        if path.endswith("/specs/Contracts.antt"):
            os.rename(path, path.replace("Contracts.antt", "Terms.antt"))


main()
