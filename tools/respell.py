#!/usr/bin/env python3
"""Brings the repository's own definitions and lemmas to today's spelling, after port.py: words in snake case, where they were in camel
case. Run once, at the top, right after port.py.

usage: tools/respell.py          in the repository: rewrites crates/ (.rt, .antt, .edit), and says what falls together
"""

import os
import re
import sys

TOKEN = re.compile(r"[A-Za-z0-9_'\u2080-\u2089\u03b1-\u03c9][A-Za-z0-9_'\u2080-\u2089\u03b1-\u03c9-]*")
HUMP = re.compile(r"([a-z0-9])([A-Z])")

# a lemma whose name, as port.py left it, is what a definition is called now: it keeps the spelling that it had
LEMMAS = {
    "component_bytes": "component-bytes",
    "ends_open": "ends-open",
    "head_bytes": "head-bytes",
    "held_by": "held-by",
    "in_order": "in-order",
    "none_of": "none-of",
    "one_more": "one-more",
    "same_at": "same-at",
    "within_of": "within-of",
}

# names that would fall together with a field, or that speak of a word of the library's by its older name
OWN = {
    "mayReset": "may_reset_at",
}
PARTS = {"getD": "get_or"}


def snake(name):
    """The name with each of its parts in snake case. A part that begins with a capital is a type or a fact, and stays."""
    if name in OWN:
        return OWN[name]
    parts = []
    for part in name.split("-"):
        if part in PARTS:
            part = PARTS[part]
        elif part[:1].islower() and HUMP.search(part):
            part = HUMP.sub(lambda m: m.group(1) + "_" + m.group(2).lower(), part)
        parts.append(part)
    return "-".join(parts)


def texts(top):
    for folder, dirs, files in os.walk(os.path.join(top, "crates")):
        dirs[:] = sorted(d for d in dirs if d not in ("out", "data"))
        for name in sorted(files):
            if name.endswith((".rt", ".antt", ".edit")):
                yield os.path.join(folder, name)


def lemmas_of(path, text):
    """Of LEMMAS, those that this file means as lemmas: all in proofs and definitions; Rust's code has functions of these names."""
    return LEMMAS if path.endswith(".antt") else {}


def main():
    top = sys.argv[1] if len(sys.argv) > 1 else "."
    renamed, fell = {}, []
    for path in texts(top):
        with open(path, encoding="utf-8") as f:
            text = f.read()
        lemmas = lemmas_of(path, text)
        seen = {}

        def turn(m):
            old = m.group(0)
            # a field, as c.none_of, keeps the name that Rattle gives it
            new = lemmas[old] if old in lemmas and not text[: m.start()].endswith(".") else snake(old)
            seen.setdefault(new, set()).add(old)
            if new != old:
                renamed[old] = new
            return new

        turned = TOKEN.sub(turn, text)
        for new, olds in sorted(seen.items()):
            if len(olds) > 1:
                fell.append(f"{path}: {', '.join(sorted(olds))} are {new}")
        if turned != text:
            with open(path, "w", encoding="utf-8") as f:
                f.write(turned)
    print("\n".join(fell))
    print(f"respell: {len(renamed)} names, {len(fell)} fell together")


if __name__ == "__main__":
    main()
