#!/usr/bin/env python3
"""Respells the repository's own definitions and lemmas: words in snake case, facts and types in camel case.

usage: python3 tools/respell.py         at the top: rewrites crates/ in place
       python3 tools/respell.py list    prints old and new names, and where a new name was already in use
Run once, after port.py. Names of functions in src/, inputs and outputs stay, and so do comments, strings that end in their line, and the
names that the check gives to goals, invariants and measures.
"""
import collections
import os
import re
import sys

# A declaration: at the head of a line, a name and a colon.
DECLARED = re.compile(r"\s*(?:(?:abbrev|opaque|unfoldable|pub|instance|axiom)\s+)*(?:(?:record|data)\s+)?([^\s:(){},.=|?]+)(?:\s+[^=]*?)?\s*:(?:\s|$)")
# Names that the check makes.
MADE = re.compile(r"^(invariant|decreases|loop|returns|overflow|slice[-_]bounds|bounds|offset[-_]bounds|nonzero|ghost)([-_]|$)|-requires(-|$)|^the-|^in-0$")
# Names that no rule gives.
BY_HAND = {"Goes_on": "GoesOn"}
# Aliases, variables of modules, and a name that the kit's script had turned half.
ALSO = ["page-set", "rows-s", "rows-c", "long-s", "long-c", "ps-small", "valued-option", "decimal-of", "Goes_on"]
IDENT = r"\w'\-◌₀-₉·"


def files():
    for folder, dirs, names in os.walk("crates"):
        dirs[:] = sorted(d for d in dirs if d not in ("out", "target"))
        for name in sorted(names):
            if name.endswith((".rt", ".antt", ".edit")):
                yield os.path.join(folder, name)


def read(path):
    with open(path, encoding="utf-8") as f:
        return f.read()


def declared():
    """The repository's own names with a dash or with capitals inside, and where each is declared."""
    found = collections.defaultdict(set)
    for path in files():
        if not path.endswith(".antt"):
            continue
        for line in read(path).split("\n"):
            line = re.sub(r"(^|\s)--(\s.*|$)", "", line)
            m = DECLARED.match(line)
            if not m:
                continue
            name = m[1]
            odd = "-" in name or re.match(r"^[a-z]+[A-Z]", name)
            if odd and re.match(r"^[A-Za-z]", name) and not MADE.search(name):
                found[name].add(path)
    return found


def respelled(name):
    if name in BY_HAND:
        return BY_HAND[name]
    if name[0].isupper():
        return "".join(w[:1].upper() + w[1:] for w in name.split("-"))
    name = name.replace("getD", "get_or").replace("putMid", "put_mid")
    return name.replace("-", "_")


def rename(text, names, rust):
    pattern = re.compile(r"(?<![" + IDENT + r"])(" + "|".join(sorted(map(re.escape, names), key=len, reverse=True)) + r")(?![" + IDENT + r"])")
    out = []
    for line in text.split("\n"):
        m = re.search(r"//" if rust else r"(^|\s)--(\s|$)", line)
        code, comment = (line[: m.start()], line[m.start() :]) if m else (line, "")
        if rust and '"' in code:
            parts = code.split('"')
            parts[::2] = [pattern.sub(lambda x: names[x[1]], p) for p in parts[::2]]
            code = '"'.join(parts)
        else:
            code = pattern.sub(lambda x: names[x[1]], code)
        out.append(code + comment)
    return "\n".join(out)


def main(argv):
    found = declared()
    names = {name: respelled(name) for name in [*found, *ALSO]}
    names = {a: b for a, b in names.items() if a != b}
    if argv[:1] == ["list"]:
        words = collections.defaultdict(set)
        for path in files():
            for word in re.findall("[" + IDENT + "]+", read(path)):
                words[word].add(path)
        by_new = collections.defaultdict(list)
        for a, b in sorted(names.items()):
            by_new[b].append(a)
        for a, b in sorted(names.items()):
            note = ""
            if len(by_new[b]) > 1:
                note += "  TOGETHER " + " ".join(by_new[b])
            if b in words:
                note += "  IN USE " + " ".join(sorted(words[b])[:6])
            print(f"{a} -> {b}{note}")
        return 0
    changed = 0
    for path in files():
        text = read(path)
        new = rename(text, names, path.endswith((".rt", ".edit")))
        if new != text:
            with open(path, "w", encoding="utf-8") as f:
                f.write(new)
            changed += 1
    print(f"respell: {len(names)} names, {changed} files")
    return 0


if __name__ == "__main__":
    sys.exit(main(sys.argv[1:]))
