#!/usr/bin/env python3
"""Brings the names in the documents to the spelling in which the definitions and lemmas now stand.

usage: python3 tools/respell_docs.py     at the top of the repository; a second run changes nothing

The names come from git: the declarations of each file of specs/ and proofs/ before the spelling was turned and after
it, which stand in one order; and what the file declares now: the same name, or it with '_' for each '-', or the new one
at its place of as many. A reference 'crate/specs/File: name ..' of docs/PROMISES.md takes the names of its file.
Elsewhere a name is turned where it stands between backticks, outside fenced pieces of code, and only if all files that
declare it agree. Names that are left as they were are printed, and then the status is 1.
"""

import collections
import os
import re
import subprocess
import sys

BEFORE = "73a5406"
AFTER = "ab4b2c6"
TABLE = "docs/PROMISES.md"
PAGES = [TABLE, "README.md", "docs/TRUST.md", "docs/DECISIONS.md", "docs/LOOSE.md", "docs/USING.md"]
FILE = re.compile(r"crates/[^/]+/(specs|proofs)/[^/]+\.antt")
MARKS = re.compile(r"^((unfoldable|abbrev|opaque|mutual|pub|axiom)[ \t]+)+")
NAME = re.compile(r'^([^ \t(){}.;,@"]+)[ \t]+(\{[^}]*\}[ \t]*)?:([ \t]|$)')
ALONE = re.compile(r'^pub ([^ \t(){}.;,@"]+)$')
TYPE = re.compile(r"^(?:data|record)[ \t]+([^ \t]+)")
REFERENCE = re.compile(r"\b(\w+)/(specs|proofs)/(\w+): ([^;|`]+)")
TICKED = re.compile(r"`[^`\n]+`")
WORD = re.compile(r"(?<![\w'′ᴰ◌-])[A-Za-zα-ωΑ-Ω_◌][^\s(){}\[\].,;:`/*+=<>&|!\"]*")


def git(*words):
    """What a command of git prints."""
    return subprocess.run(["git", *words], stdout=subprocess.PIPE, check=True).stdout.decode("utf-8")


def declared(text):
    """The names that a file declares, in order."""
    found, inside = [], False
    for line in text.split("\n"):
        if inside:
            if "-}" not in line:
                continue
            line, inside = line.split("-}", 1)[1], False
        line = line.strip()
        alone = ALONE.match(line)
        line = MARKS.sub("", line)
        name = TYPE.match(line) or alone or not line.startswith("--") and NAME.match(line)
        if name:
            found.append(name.group(1))
        inside = "{-" in line and not re.search(r"\{-.*-\}", line)
    return found


def today(name, place, names, now):
    """What a name that stood at this place of these is called now."""
    other = name.replace("-", "_")
    if name in now or other in now:
        return name if name in now else other
    return now[place] if len(now) == len(names) and now[place] not in names else name


def table():
    """The names by file, each with today's, and for each name all that it is called now."""
    files, all_of = {}, collections.defaultdict(set)
    for path in git("ls-tree", "-r", "--name-only", BEFORE, "crates").split():
        if not FILE.fullmatch(path) or path.endswith("/Lib.antt"):
            continue
        old, new = (declared(git("show", f"{commit}:{path}")) for commit in (BEFORE, AFTER))
        if len(old) != len(new):
            sys.exit(f"{path}: {len(old)} declarations in {BEFORE} and {len(new)} in {AFTER}")
        now = new
        if os.path.exists(path):
            with open(path, encoding="utf-8") as text:
                now = declared(text.read())
        calls = [today(name, place, new, now) for place, name in enumerate(new)]
        files[path] = {**dict(zip(new, calls)), **dict(zip(old, calls))}
        for name, other in files[path].items():
            all_of[name].add(other)
    return files, all_of


def main():
    """Turns the names."""
    os.chdir(git("rev-parse", "--show-toplevel").strip())
    files, all_of = table()
    sure = {name: next(iter(others)) for name, others in all_of.items() if len(others) == 1}
    kept = {other for others in all_of.values() for other in others}
    left = []

    def in_ticks(m):
        return WORD.sub(lambda w: w[0] if w[0] in kept else sure.get(w[0], w[0]), m[0])

    def reference(m):
        path = f"crates/{m[1]}/{m[2]}/{m[3]}.antt"
        names = files.get(path, {})
        return f"{m[1]}/{m[2]}/{m[3]}: " + re.sub(r"\S+", lambda w: w[0] if w[0] in names.values() else names.get(w[0], w[0]), m[4])

    for page in PAGES:
        with open(page, encoding="utf-8") as text:
            old = text.read()
        lines, fenced = [], False
        for number, line in enumerate(old.split("\n"), 1):
            fenced ^= line.startswith("```")
            if not fenced:
                line = REFERENCE.sub(reference, line) if page == TABLE else line
                line = TICKED.sub(in_ticks, line)
                for ticked in TICKED.findall(line):
                    left += [f"{page}:{number}: {w}" for w in WORD.findall(ticked) if w in all_of and w not in kept]
            lines.append(line)
        new = "\n".join(lines)
        if new != old:
            with open(page, "w", encoding="utf-8") as text:
                text.write(new)
    print("\n".join(left) if left else "no old name is left")
    return 1 if left else 0


if __name__ == "__main__":
    sys.exit(main())
