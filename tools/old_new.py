#!/usr/bin/env python3
"""Prints, old and new beside one another, what changed between a commit and the files as they stand: signatures and clauses
of functions, invariants of types, definitions of specs/, statements of proofs/ that README or docs/ name, and the lemmas
that went.

    python3 tools/old_new.py COMMIT     at the top of the repository
"""

import collections
import re
import subprocess
import sys

LEMMA_FILES = ("Answers.antt", "Invariants.antt", "Lib.antt")
HEAD = re.compile(r"\s*(?:abbrev |unfoldable )?pub (?:abbrev |unfoldable )?(?:record |data )?([A-Za-z_][^\s:({]*)")
FN = re.compile(r"^ *((?:pub )?(?:extern \"C\" )?fn ([a-z_0-9]+).*?)\n? *\{\n", re.S | re.M)
TYPE = re.compile(r"^((?:pub )?(?:struct|enum) ([A-Za-z]+)[^\n]*\{.*?^\})", re.S | re.M)


def run(*words):
    return subprocess.run(words, capture_output=True, text=True).stdout


class Tree:
    """The files of a commit, or those that stand where the commit is None."""

    def __init__(self, commit):
        self.commit = commit
        names = run("git", "ls-tree", "-r", "--name-only", commit) if commit else run("git", "ls-files")
        self.names = names.split("\n")

    def text(self, name):
        if self.commit:
            return run("git", "show", f"{self.commit}:{name}")
        try:
            return open(name, encoding="utf-8").read()
        except FileNotFoundError:
            return ""

    def files(self, pattern):
        return [(name, self.text(name)) for name in self.names if re.search(pattern, name)]


def functions(tree):
    found = collections.OrderedDict()
    for name, text in tree.files(r"^crates/.*/src/.*\.rt$"):
        for match in FN.finditer(text):
            line = re.sub(r"\s+", " ", match.group(1)).strip()
            line = re.sub(r" (requires|ensures)", r"\n\1", line).replace("( ", "(").replace(", )", ")")
            found[(name.split("/")[1], match.group(2))] = line
    return found


def types(tree):
    found = collections.OrderedDict()
    for name, text in tree.files(r"^crates/.*/src/.*\.rt$"):
        for match in TYPE.finditer(text):
            found[(name.split("/")[1], match.group(2))] = re.sub(r"\s+", " ", re.sub(r"//[^\n]*", "", match.group(1))).strip()
    return found


def is_field(lines, at):
    """A line of a record's body."""
    indent = len(lines[at]) - len(lines[at].lstrip())
    for line in reversed(lines[:at]):
        if len(line) - len(line.lstrip()) < indent:
            return bool(re.match(r"\s*(abbrev |unfoldable )?(pub )?record ", line))
    return False


def declarations(tree, pattern):
    found = collections.OrderedDict()
    for name, text in tree.files(pattern):
        if name.split("/")[-1] in LEMMA_FILES:
            continue
        text = "\n".join(line for line in text.split("\n") if not line.lstrip().startswith("--"))
        for block in re.split(r"\n\s*\n", text):
            lines = block.split("\n")
            for at, line in enumerate(lines):
                match = HEAD.match(line)
                if not match or re.match(r"\s*(pub )?(use|mod) ", line) or is_field(lines, at):
                    continue
                body = [line]
                for later in lines[at + 1 :]:
                    if HEAD.match(later) and len(later) - len(later.lstrip()) <= len(line) - len(line.lstrip()):
                        break
                    body.append(later)
                key = (name.split("/")[1], name.split("/", 2)[2].replace(".antt", ""), match.group(1))
                found.setdefault(key, re.sub(r"\s+", " ", " ".join(body)).strip())
    return found


def statement(text, name):
    match = re.search(r" (?:unfolding [^=]*? )?" + re.escape(name) + r"(?: [^→:]*?)? = ", text)
    return text[: match.start()] if match else text


def twin(key, others):
    """The declaration of the same name: in the same file, else in the same crate."""
    if key in others:
        return key
    return next((other for other in others if (other[0], other[2]) == (key[0], key[2])), None)


def rows(crates, title, pairs):
    """pairs: crate to (name, [(old, new)]) in order."""
    print(f"## {title}\n")
    for crate in crates:
        if not pairs.get(crate):
            continue
        print(f"### {crate}\n")
        for name, changes in pairs[crate]:
            print(f"    {name}")
            for old, new in changes:
                if old:
                    print(f"    - {old}")
                if new:
                    print(f"    + {new}")
        print()


def flat(old, new):
    pairs = collections.defaultdict(list)
    for key, text in old.items():
        now = new.get(key)
        if now == text:
            continue
        if now is None:
            pairs[key[0]].append((key[1], [(text.replace("\n", " "), "")]))
            continue
        before, after = text.split("\n"), now.split("\n")
        changes = [(before[0], after[0])] if before[0] != after[0] else []
        gone = [clause for clause in before[1:] if clause not in after]
        came = [clause for clause in after[1:] if clause not in before]
        for at in range(max(len(gone), len(came))):
            changes.append((gone[at] if at < len(gone) else "", came[at] if at < len(came) else ""))
        pairs[key[0]].append((key[1], changes))
    for key, text in new.items():
        if key not in old:
            pairs[key[0]].append((key[1], [("", text.replace("\n", " "))]))
    return pairs


def main():
    if len(sys.argv) != 2:
        sys.exit(__doc__)
    old, new = Tree(sys.argv[1]), Tree(None)
    crates = [line.split(":")[0].split()[0] for line in new.text("crates.txt").split("\n") if line.strip() and line[0] != "#"]

    rows(crates, "Types", flat(types(old), types(new)))
    rows(crates, "Functions and clauses", flat(functions(old), functions(new)))

    before, after = (declarations(tree, r"^crates/.*/specs/.*\.antt$") for tree in (old, new))
    pairs = collections.defaultdict(list)
    for key, text in before.items():
        same = twin(key, after)
        if same is None or after[same] != text:
            pairs[key[0]].append((f"{key[1]}: {key[2]}", [(text, after[same] if same else "")]))
    for key, text in after.items():
        if twin(key, before) is None:
            pairs[key[0]].append((f"{key[1]}: {key[2]}", [("", text)]))
    rows(crates, "Definitions", pairs)

    pages = "".join(text for name, text in old.files(r"^(README\.md|docs/[A-Z-]+\.md)$") if "PORT" not in name)
    words = set(re.findall(r"[A-Za-z_][\w\-]*", pages))
    before, after = (declarations(tree, r"^crates/.*/proofs/.*\.antt$") for tree in (old, new))
    pairs, gone = collections.defaultdict(list), collections.defaultdict(list)
    for key, text in before.items():
        same = twin(key, after)
        if same is None:
            gone[(key[0], key[1])].append(key[2])
        elif key[2] in words:
            one, two = statement(text, key[2]), statement(after[same], key[2])
            if one != two:
                pairs[key[0]].append((f"{key[1]}: {key[2]}", [(one, two)]))
    rows(crates, "Theorems that README or docs/ name", pairs)

    print("## Lemmas that went\n")
    for crate in crates:
        for (owner, page), names in gone.items():
            if owner == crate:
                print(f"- {crate}/{page}: {', '.join(names)}")


main()
