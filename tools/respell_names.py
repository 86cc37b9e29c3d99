#!/usr/bin/env python3
"""Respells the repository's own definitions, lemmas and fields: words in snake case.

usage: python3 tools/respell_names.py     at the top of the repository, once, after the kit's port script

A name of specs/ or a field has '_' between its words. In a lemma's name '-' stays between two names of
definitions, as in 'length-up_to', and a plain word is joined by '_'. Types, modules, names of the library, and
functions, exports, strings and inputs keep their names. The script stops where two names would fall together.
"""

import collections
import glob
import os
import re
import sys

WORD = r"[A-Za-zα-ωΑ-Ω_][\w'′ᴰ-]*"
TOKEN = re.compile(r"(?<![\w'′ᴰ-])" + WORD)
HEAD = re.compile(r"^\s*((?:(?:abbrev|unfoldable|opaque|pub|mutual)\s+)*)(record\s+|data\s+|ruleset\s+)?(" + WORD + r")(?=[\s:({])(.*)$")
# names that would fall together with another's, each with the name that it gets
APART = {
    "atMostOne": "at_most_one_of",
    "letter-in": "letter_in",
    "letterIn": "letter_in_class",
    "list-in": "list_in_lem",
    "table-in": "table_in_lem",
    "start-points": "start_points_lem",
}
# fields of records that have a lemma's name: the lemma alone is renamed apart
FIELDS = {"start-points": "start_points"}
LIBRARY = {"length", "map", "take", "drop", "set", "get_or", "reverse", "sum", "append"}


def own_files():
    return sorted(glob.glob("crates/*/specs/*.antt") + glob.glob("crates/*/proofs/*.antt") + glob.glob("crates/*/proofs/*/*.antt"))


def is_declaration(rest, is_record):
    """Whether ':' stands behind the binder groups of a head."""
    if is_record:
        return True
    depth = 0
    for ch in rest:
        if ch in "({[":
            depth += 1
        elif ch in ")}]":
            depth -= 1
        elif depth == 0 and ch == ":":
            return True
        elif depth == 0 and not ch.isspace():
            return False
    return False


def declared():
    """Each own name with where it stands: 'spec', 'abbrev' (of proofs/) or 'lemma'; a field or a constructor is 'spec'."""
    kinds = {}
    for path in own_files():
        if path.endswith("/Lib.antt") or re.search(r"/proofs/[^/]+/", path):
            continue
        in_record = None
        for line in open(path, encoding="utf-8"):
            text = line.rstrip("\n")
            if text.lstrip().startswith("--") or text.startswith(("use ", "pub use ")):
                continue
            m = HEAD.match(text)
            indent = len(text) - len(text.lstrip())
            if text.strip() and in_record is not None and indent <= in_record:
                in_record = None
            if not m or not is_declaration(m.group(4), m.group(2)):
                continue
            if m.group(2) and not m.group(2).startswith("ruleset"):
                in_record = indent
            kind = "spec" if "/specs/" in path or in_record is not None else "abbrev" if "abbrev" in m.group(1) or "unfoldable" in m.group(1) else "lemma"
            old = kinds.get(m.group(3))
            kinds[m.group(3)] = kind if old in (None, kind) else "spec" if "spec" in (kind, old) else "abbrev"
    return kinds


def imported():
    """Names that own files take from a library."""
    crates = {os.path.basename(p) for p in glob.glob("crates/*")}
    names = set()
    for path in own_files() + glob.glob("crates/*/src/*.rt"):
        text = open(path, encoding="utf-8").read()
        for m in re.finditer(r"\buse\s+([\w.+]+)\.\{([^}]*)\}", text):
            parts = m.group(1).split(".")
            if parts[0] == "Rattle" and len(parts) > 1 and parts[1] in crates:
                continue
            names.update(x.strip().split(" ")[0] for x in m.group(2).split(","))
    return names


def snake(word):
    word = word.replace("getD", "get_or").replace("′", "'")
    word = re.sub(r"(?<=[a-z0-9'])([A-Z]+)", lambda m: "_" + m.group(1).lower(), word)
    return word


def respelled(name, kind, nouns):
    parts = [snake(p) if p and not p[0].isupper() else p for p in name.split("-")]
    out = parts[0]
    for before, part in zip(parts, parts[1:]):
        joined = kind == "lemma" and before in nouns and part in nouns
        out += ("-" if joined else "_") + part
    return out


def table():
    kinds, taken = declared(), imported()
    nouns = {snake(n) for n, k in kinds.items() if k != "lemma" and "-" not in n and not n[0].isupper()}
    nouns = {n for n in nouns if "_" in n} | LIBRARY
    names = {}
    for name, kind in kinds.items():
        if name[0].isupper() or name in taken:
            continue
        new = respelled(name, kind, nouns)
        if new != name:
            names[name] = new
    # a lemma that would have a definition's name gets '_lem'
    stays = {names.get(n, n) for n, k in kinds.items() if k != "lemma"} | taken
    for name, kind in kinds.items():
        if kind == "lemma" and name not in taken and names.get(name, name) in stays:
            names[name] = names.get(name, name) + "_lem"
    names |= APART
    met = collections.defaultdict(set)
    for name in kinds:
        met[names.get(name, name)].add(name)
    bad = {new: olds for new, olds in met.items() if (len(olds) > 1 and olds != {"start-edges", "startEdges"}) or (new in taken and new not in olds)}
    return names, bad


def turned(text, names):
    def one(m):
        word = m.group(0)
        if m.start() and text[m.start() - 1] == "." and re.search(r"(?:^|[^\w.])tie\.$", text[max(0, m.start() - 5):m.start()]):
            return word
        is_field = text[:m.start()].endswith((".", "pub ")) or text[m.end():].startswith(" = ")
        if word in FIELDS and is_field and not text[m.end():].startswith(" : (ws"):
            return FIELDS[word]
        return names.get(word, word)
    return TOKEN.sub(one, text)


def turned_edit(text, names, known):
    """An edit's text: names as above, those that the port script respelled, and projections written tight."""
    def one(m):
        word = m.group(0)
        new = names.get(word, word)
        if new not in known and snake(new).replace("-", "_") in known:
            new = snake(new).replace("-", "_")
        return new
    lines = []
    in_antt = False
    for line in text.split("\n"):
        if line.startswith("file: "):
            in_antt = line.endswith(".antt")
        elif in_antt and line.startswith(("old: ", "new: ")):
            said = re.sub(r"(?<=[\w')]) \.(?=[a-z0-9])", ".", TOKEN.sub(one, line[5:]))
            line = line[:5] + re.sub(r"\(([a-z]\w*\.\w+)\)", r"\1", said)
        lines.append(line)
    return "\n".join(lines)


def main():
    names, bad = table()
    if bad:
        for new, olds in sorted(bad.items()):
            print(f"falls together: {new}: {sorted(olds)}")
        raise SystemExit(1)
    paths = own_files() + sorted(glob.glob("crates/*/src/*.rt") + glob.glob("crates/*/must-fail/*.edit"))
    known = {names.get(name, name) for name in declared()} | {"eqb", "get_or"}
    n = 0
    for path in paths:
        text = open(path, encoding="utf-8").read()
        new = turned_edit(text, names, known) if path.endswith(".edit") else turned(text, names)
        if new != text:
            open(path, "w", encoding="utf-8").write(new)
            n += 1
    for old, new in sorted(names.items()):
        print(f"{old}\t{new}")
    print(f"respell: {len(names)} names, {n} files", file=sys.stderr)


if __name__ == "__main__":
    main()
