#!/usr/bin/env python3
"""Brings the names of definitions and lemmas to today's spelling: functions, lemmas, fields and constructors in snake case.

usage: spelling.py [--dry]     at the top of the repository, once, right after the toolchain's port.py

`rowCount` becomes `row_count`, and `first-in-order` becomes `first_in_order`. Types and modules keep their capitals. A lemma that would get the
name of a definition gets `_lem` at its end. Names that Rattle makes, and names that the library spells with a dash, stay.
It goes through .antt and .rt files, must-fail edits, and the pages and tests that name theorems.
"""

import collections
import os
import re
import subprocess
import sys

WORD = re.compile(r"(?<![A-Za-z0-9_'\-\u00b7◌])[A-Za-z_][A-Za-z0-9_'\-]*(?<!-)")
DECLARED = re.compile(r"^(\s*)(?:(?:abbrev|unfoldable|pub|opaque|ruleset) )*([A-Za-z_][A-Za-z0-9_'\-]*)((?: [^:=]*)?) :( |$)")
RECORD = re.compile(r"^(?:pub )?(record|data) ([A-Za-z_][A-Za-z0-9_'\-]*)")
MADE = re.compile(r"^(Need|After|Goes|Tie|Lts|Wp|invariant|decreases|overflow|nonzero|bounds|returns|the|in)-|-(requires|init|preserved|smaller|known|told|told\d|spec)(-\d+)?$|^returns")
LIBRARY = "/rattle"


def files(endings):
    out = subprocess.run(["git", "ls-files", "-z", "--cached", "--others", "--exclude-standard"], capture_output=True, check=True).stdout.decode()
    return [f for f in out.split("\0") if f.endswith(endings) and os.path.isfile(f)]


def read(path):
    with open(path, encoding="utf-8") as f:
        return f.read()


def library_words():
    rt = subprocess.run(["rt", "doc"], capture_output=True, text=True, check=True).stdout.strip()
    words = set()
    for folder, _, names in os.walk(os.path.dirname(rt) + LIBRARY):
        for name in names:
            if name.endswith(".antt"):
                with open(os.path.join(folder, name), encoding="utf-8", errors="replace") as f:
                    words.update(WORD.findall(f.read()))
    return words


def snake(name):
    name = re.sub(r"([a-z0-9'])([A-Z])", lambda m: m[1] + "_" + m[2].lower(), name)
    return name.replace("-", "_").lower() if not name[0].isupper() else name.replace("-", "_")


def is_proof(path):
    return path.endswith("/Proof.antt")


def declared():
    """Names that our files declare: name → paths, and those that are fields."""
    where, fields = collections.defaultdict(set), set()
    for path in files(".antt"):
        inside = False
        for line in read(path).split("\n"):
            code = line.split("-- ")[0]
            m = RECORD.match(code)
            if m:
                inside = True
                continue
            if code and not code[0].isspace():
                inside = False
            m = DECLARED.match(code)
            if m and not (is_proof(path) and not m[1] and MADE.search(m[2])):
                where[m[2]].add(path)
                if inside:
                    fields.add(m[2])
            m = re.match(r"^\s+\| ([A-Za-z_][A-Za-z0-9_'\-]*)", code)
            if inside and m:
                where[m[1]].add(path)
    return where, fields


def rust_names():
    """Functions of src/."""
    names = set()
    for path in files(".rt"):
        names.update(re.findall(r"\bfn ([a-z_0-9]+)", read(path)))
    return names


def chosen():
    """Each name's new spelling, and the names that make room for a definition."""
    where, fields = declared()
    library = library_words()
    camel = sorted(n for n in where if n[0].islower() and re.search(r"[a-z0-9'][A-Z]", n) and "-" not in n)
    dashed = sorted(n for n in where if "-" in n and not n[0].isupper() and n not in library and not MADE.search(n) and not all(is_proof(p) for p in where[n]))
    users = collections.defaultdict(set)
    for path in files(".antt"):
        for word in re.findall(r"(?<![.A-Za-z0-9_'\-])[A-Za-z_][A-Za-z0-9_'\-]*", read(path)):
            users[word].add(path)
    functions = rust_names()
    new = {n: snake(n) for n in camel}
    if len(set(new.values())) < len(new):
        sys.exit("two definitions would have one name")
    where_to = collections.defaultdict(set)
    for n, s in new.items():
        where_to[s] |= users[n]
    room = {s: s + "_lem" for n, s in new.items() if s in where and s not in fields and users[n] & users[s] and not (s in functions and all(is_proof(p) for p in where[s]))}
    for s, other in room.items():
        where_to[other] |= users[s]
    for n in dashed:
        s = snake(n)
        while users[n] & (where_to[s] | (set() if s in room else users[s])):
            s += "_lem"
        new[n] = s
        where_to[s] |= users[n]
    return new, room, fields


COMMENT = re.compile(r"-- .*$|// .*$", re.M)


def turned(text, new, room, fields, code=True):
    """The text with the names respelled. In prose (code=False) a name stands between backticks, or is in camel case."""

    def one(m):
        word, at = m[0], m.start()
        before = text[at - 1] if at else ""
        if word in room and before != ".":
            return room[word]
        if word not in new:
            return word
        if before == "." and not re.search(r"(^|[^A-Za-z0-9_'\-.])(Rattle|[A-Za-z_0-9.]*[A-Z][A-Za-z0-9_]*)\.$", text[max(0, at - 160):at]) and word not in fields:
            return word
        return new[word]

    def prose(t):
        t = re.sub(r"`[^`\n]*`", lambda m: turned(m[0], new, {}, fields), t)
        return WORD.sub(lambda m: new[m[0]] if m[0] in new and "-" not in m[0] else m[0], t)

    if not code:
        return prose(text)
    out, last = [], 0
    for m in COMMENT.finditer(text):
        out += [(True, text[last:m.start()]), (False, m[0])]
        last = m.end()
    out.append((True, text[last:]))
    whole = []
    for is_code, part in out:
        if is_code:
            text = part
            whole.append(WORD.sub(one, part))
        else:
            whole.append(prose(part))
    return "".join(whole)


def main(argv):
    new, room, fields = chosen()
    dry = "--dry" in argv
    changed = 0
    for path in files((".antt", ".rt", ".edit", ".md", ".rs", ".txt")):
        if path.startswith(("docs/landings/", "examples/", "CHANGELOG")) or path.endswith((".txt", ".md", ".rs")) and path.startswith("crates/"):
            continue
        text = read(path)
        if path.endswith((".antt", ".rt", ".edit")):
            after = turned(text, new, room if path.endswith(".antt") else {}, fields)
        elif path.endswith(".md"):
            after = turned(text, new, {}, fields, code=False)
        elif path.endswith(".rs") and path.startswith("rust/trials/tests/"):
            after = turned(text, new, {}, fields, code=False)
        else:
            continue
        if after != text:
            changed += 1
            if not dry:
                with open(path, "w", encoding="utf-8") as f:
                    f.write(after)
    print(f"{len(new)} names, {len(room)} made room for a definition, {changed} files changed")
    if "--names" in argv:
        for n in sorted(new):
            print(n, new[n])
        for n in sorted(room):
            print(n, room[n])


if __name__ == "__main__":
    main(sys.argv[1:])
