#!/usr/bin/env python3
"""Respells the repository's own definitions and lemmas in snake case, after /opt/rattle/port/port.py has run: `countWhere` is `count_where`,
`grown-is` is `grown_is`. Types, modules and constants keep their spelling, and so does each name that is imported from elsewhere. It was run
once, for the move to a newer Rattle; docs/PORT.md tells of it.

    tools/respell.py          in the repository: rewrites specs/, proofs/, the clauses of src/, the edits, and names in backquotes of the pages
    tools/respell.py --list   prints the old and new names, and changes nothing
"""
import os
import re
import sys

ROOT = os.path.dirname(os.path.dirname(os.path.abspath(__file__)))
WORD = r"[^\s(){}\[\];,.:→λ∙·`\"|&]+"
TOKEN = re.compile(WORD)
DECLARED = re.compile(
    r"^[ ]*(?:abbrev |unfoldable )?(?:pub )?(?:data |record |ruleset )?(?:pub )?([^\s:(){}=]+(?: [a-z][\w-]*)*)(?: *[({][^:=]*:[^=]*?[)}])*(?: *\{\w+\})? *[:=](?= |$)", re.M)
OPENED = re.compile(r"^use +([^\s{]+)\.\{([^}]*)\}", re.M)
# what port.py itself respelled, since a library has the same name: the edits, which it leaves alone, are brought along here
BY_PORT = """rowOf arrayOf baseBy baseOf bytesOf firstOf headOf indexOf isNumber knownBy leftOf lineOf listOf nameAt nameOf numberOf offsetOf plainOf
rangeOf readBy rowAt rowsOf secondOf shapeOf sumOf tableOf valueAt valueOf wordOf""".split()


def walk(*endings):
    for folder, dirs, files in os.walk(ROOT):
        dirs[:] = sorted(d for d in dirs if d not in ("out", ".git", "target"))
        for name in sorted(files):
            if name.endswith(endings):
                yield os.path.join(folder, name)


def read(path):
    with open(path, encoding="utf-8") as f:
        return f.read()


def snake(name):
    """The new spelling of a name: dashes between words are underscores, and a capital within a word begins a new one."""
    if not re.match(r"[A-Za-z]", name):
        return name
    parts = name.split("-")
    return "_".join(re.sub(r"(?<=[a-z0-9])([A-Z])", lambda m: "_" + m[1].lower(), p) if p[0].islower() else p for p in parts if p)


def names():
    own, elsewhere, defined = {}, set(), set()
    for path in walk(".antt", ".rt"):
        text = read(path)
        for module, listed in OPENED.findall(text.replace("ghost use", "use")):
            crates = re.match(r"Rattle\.(\w+)", module)
            if not crates or not os.path.isdir(os.path.join(ROOT, "crates", crates[1])):
                elsewhere.update(n.strip().split(" as ")[0] for n in listed.split(","))
        if path.endswith(".antt") and not path.endswith("/Proof.antt"):
            for listed in DECLARED.findall(text):
                for name in listed.split():
                    own[name] = snake(name)
                    if "/specs/" in path:
                        defined.add(name)
    own = {old: new for old, new in own.items() if old not in elsewhere}
    map = {old: new for old, new in own.items() if old != new}
    # names that would fall together, or have a function's name: a lemma, which had dashes, gets _lem
    functions = {n for path in walk(".rt") for n in re.findall(r"\b(?:fn|const) (\w+)", read(path))}
    definitions = {snake(n) for n in BY_PORT} | {new for old, new in map.items() if "-" not in old}
    for old, new in own.items():
        if ("-" in old and old not in defined and (new in definitions or new in functions)) or (old == new and old in definitions and old not in map and old not in {snake(n) for n in BY_PORT}):
            map[old] = new + "_lem"
    return map


def respelled(text, map):
    """Text with its names respelled, but for the paths of modules."""
    return "\n".join(respelled_line(line, map) for line in text.split("\n"))


def respelled_line(line, map):
    path = re.match(r"(?:ghost )?use [^{]*", line)
    kept = path[0] if path else ""
    rest = line[len(kept):]

    def one(m):
        new = map.get(m[0], m[0])
        # a field that merely shares the name of a lemma which gets _lem keeps it
        is_field = rest[m.start() - 1:m.start()] == "."
        return m[0] if new.endswith("_lem") and "-" not in m[0] and is_field else new

    return kept + TOKEN.sub(one, rest)


def in_clauses(text, map):
    """A source: its `ghost use` lines, ghost items and clauses alone."""
    out = []
    depth = 0
    clause = False
    for line in text.split("\n"):
        ghost = re.match(r"\s*(pub )?(ghost|requires|ensures)\b", line)
        if ghost or clause:
            code = line
            out.append(respelled(code, map))
            depth = (depth if clause else 0) + code.count("{") - code.count("}")
            clause = depth > 0
        else:
            out.append(line)
    return "\n".join(out)


def in_edit(text, map):
    return "\n".join(respelled(l, map) if re.match(r"(old|new):", l) else l for l in text.split("\n"))


def in_page(text, map):
    return re.sub(r"`[^`\n]+`", lambda m: respelled(m[0], map), text)


def renamed_crate(old, new):
    """A crate that has the name of a library of the kit gets another: its folder, its line, and each path that goes through it."""
    if os.path.isdir(os.path.join(ROOT, "crates", old)):
        os.rename(os.path.join(ROOT, "crates", old), os.path.join(ROOT, "crates", new))
    listed = os.path.join(ROOT, "crates.txt")
    put(listed, re.sub(rf"^(?!#)(.*)$", lambda m: re.sub(rf"\b{old}\b", new, m[0]), read(listed), flags=re.M))
    for path in walk(".rt", ".antt", ".edit"):
        text = re.sub(rf"\bRattle\.{old}\.", f"Rattle.{new}.", read(path))
        put(path, text if path.endswith(".antt") else re.sub(rf"(?<![\w:.]){old}::", new + "::", text))


def main():
    map = names()
    if "--list" in sys.argv:
        for old, new in sorted(map.items()):
            print(old, new)
        return
    with_port = dict(map, **{n: snake(n) for n in BY_PORT})
    for path in walk(".antt"):
        put(path, respelled(read(path), map))
    for path in walk(".rt"):
        put(path, in_clauses(read(path), map))
    for path in walk(".edit"):
        put(path, in_edit(read(path), with_port))
    for path in walk(".md"):
        put(path, in_page(read(path), with_port))
    renamed_crate("bytes", "in_bytes")


def put(path, text):
    if text != read(path):
        with open(path, "w", encoding="utf-8") as f:
            f.write(text)


main()
