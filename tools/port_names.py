#!/usr/bin/env python3
"""Writes docs/PORT-NAMES.md: by file, each definition, field and lemma whose name the port changed, old and new.

usage: python3 tools/port_names.py     at the top of the repository; the names are those of tools/respell_docs.py
"""

import os
import sys

sys.path.insert(0, os.path.dirname(os.path.realpath(__file__)))
import respell_docs

PAGE = "docs/PORT-NAMES.md"
HEAD = """# Names that the port changed

Made by `python3 tools/port_names.py`. By file, each definition, constructor, field and lemma whose name changed: as it was in 73a5406, and as it is.
"""


def main():
    """Writes the page."""
    os.chdir(respell_docs.git("rev-parse", "--show-toplevel").strip())
    files = {}
    for path in respell_docs.git("ls-tree", "-r", "--name-only", respell_docs.BEFORE, "crates").split():
        if not respell_docs.FILE.fullmatch(path) or path.endswith("/Lib.antt") or not os.path.exists(path):
            continue
        names = [respell_docs.declared(respell_docs.git("show", f"{commit}:{path}")) for commit in (respell_docs.BEFORE, respell_docs.AFTER)]
        with open(path, encoding="utf-8") as text:
            now = respell_docs.declared(text.read())
        pairs = [(old, respell_docs.today(new, place, names[1], now)) for place, (old, new) in enumerate(zip(*names))]
        files[path] = list(dict.fromkeys(pair for pair in pairs if pair[0] != pair[1]))
    lines = [HEAD]
    for path, pairs in sorted(files.items()):
        if not pairs:
            continue
        lines.append(f"## {path[len('crates/'):-len('.antt')]}\n")
        row = ""
        for old, new in pairs:
            item = f"`{old}` → `{new}`"
            if row and len(row) + len(item) > 160:
                lines.append(row + ",")
                row = ""
            row += (", " if row else "") + item
        lines.append(row + ".\n")
    with open(PAGE, "w", encoding="utf-8") as page:
        page.write("\n".join(lines))


if __name__ == "__main__":
    main()
