#!/usr/bin/env python3
"""Brings the names that this repository's specs/ and proofs/ declare to snake case, where the kit's own script left them.

usage: respell.py [--list] [FOLDER]

Run once, at the top, after the kit's port.py. A definition, lemma, field or constructor in camel case gets underscores (`layerOf` is `layer_of`), and so
does a field or constructor with dashes (`in-grid` is `in_grid`). A dash in a lemma's name stays: it joins names, as in the kit's own `length-drop`.
Types and modules keep their capitals; names of Rust code, of the kit and of generated modules keep their spelling. A lemma that would have a
definition's name gets `_lem`. Names that would fall together are listed. --list writes nothing.
"""

import collections
import os
import re
import sys

DECLARED = re.compile(r"^( *)((?:(?:abbrev|unfoldable|pub|irrelevant) +)*)([^\s(){}.;,@\"«»:`]+)((?: [({].*)?) :(?!:)")
HEAD = re.compile(r"^(?:pub |abbrev |unfoldable )*(record|data) ")
WORD = re.compile(r"(?<![^\s(){}.;,@\"«»:`|\[\]])[^\s(){}.;,@\"«»:`|\[\]]+")
HUMP = re.compile(r"^(?=[a-z]).*?[a-z0-9][A-Z]")
USE = re.compile(r"use ([\w.·-]+)\.\{([^}]*)\}")


def files(root, *ends):
    for folder, dirs, names in os.walk(os.path.join(root, "crates")):
        dirs[:] = sorted(d for d in dirs if d != "out")
        for name in sorted(names):
            if name.endswith(ends):
                yield os.path.join(folder, name)


def read(path):
    with open(path, encoding="utf-8") as f:
        return f.read()


def declared(root):
    """Each declared name with the kinds in which it is declared: top, field or local."""
    kinds = collections.defaultdict(set)
    for path in files(root, ".antt"):
        inside = False
        for line in read(path).splitlines():
            if line and not line.startswith((" ", "--")):
                inside = bool(HEAD.match(line))
            m = DECLARED.match(line)
            if m and not path.endswith("/Proof.antt"):
                indent = len(m[1])
                kinds[m[3]].add("top" if indent == 0 else "field" if inside and indent == 2 else "local")
    return kinds


def of_libraries(root):
    """The names that files import from the kit, and the names of Rust items."""
    names = set()
    for path in files(root, ".antt", ".rt"):
        text = read(path)
        for m in USE.finditer(text):
            own = m[1].startswith("Rattle.") and os.path.isdir(os.path.join(root, "crates", m[1].split(".")[1]))
            if not own:
                names |= {w.strip() for w in m[2].split(",")}
    return names


def snake(name):
    return re.sub(r"(?<=[a-z0-9])([A-Z])", lambda m: "_" + m[1].lower(), name)


def mapping(root):
    kinds, library = declared(root), of_libraries(root)
    to, stay = {}, []
    for name in sorted(kinds):
        new = name
        if HUMP.search(name):
            new = snake(name)
        if "field" in kinds[name] and name[:1].islower():
            new = new.replace("-", "_")
        if new != name:
            to[name] = new
    humps = {snake(name) for name in to if HUMP.search(name)}
    for name, new in list(to.items()):
        if not HUMP.search(name) and (new in humps or new in kinds or new in library):
            stay.append(f"{name} stays, since {new} is another name")
            del to[name]
    for new in sorted(humps):
        if "top" in kinds.get(new, ()) and new not in to:
            stay.append(f"{new} is {new}_lem, since a definition gets its name")
            to[new] = new + "_lem"
        if new in library:
            stay.append(f"{new} is a name of the kit too")
    return to, stay


def turned(text, to):
    return WORD.sub(lambda m: to.get(m[0], m[0]), text)


def for_file(to, path, text):
    """Rust code and the edits of it keep a name that a lemma gives up; a local name gives way to a definition that the file cites."""
    if not path.endswith(".antt"):
        return {a: b for a, b in to.items() if not b.endswith("_lem")}
    words = {m[0] for m in WORD.finditer(text) if text[m.start() - 1 : m.start()] != "."}
    met = {to[w] for w in words if w in to and HUMP.search(w)} & words
    return {**to, **{w: w + "_lem" for w in met}}


def main(argv):
    listing = "--list" in argv
    rest = [a for a in argv if not a.startswith("--")]
    root = rest[0] if rest else "."
    to, stay = mapping(root)
    for line in stay:
        print(line)
    if listing:
        print(len(to), "names")
        return 0
    for path in files(root, ".antt", ".rt", ".edit"):
        text = read(path)
        new = turned(text, for_file(to, path, text))
        if new != text:
            with open(path, "w", encoding="utf-8") as f:
                f.write(new)
    return 0


if __name__ == "__main__":
    raise SystemExit(main(sys.argv[1:]))
