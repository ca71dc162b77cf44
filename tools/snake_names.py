#!/usr/bin/env python3
"""Spells this repository's own definitions, lemmas, fields and constructors in snake case.

usage: python3 tools/snake_names.py      at the top of the repository, once, after the kit's port.py

A name with a capital inside (kindOf) or with dashes (child-less) becomes words joined by _ (kind_of, child_less).
A lemma that would then have the name of a definition gets _lem behind it. What a proof of one function names for
itself or takes from what Rattle makes for that function stays, and so does a name that a file takes from a library.
"""

import collections
import glob
import os
import re

WORD = r"[^\s(){}\[\].;,@\"«»|`]+"
DECLARED = re.compile(
    rf"^(\s*)(?:(?:abbrev|unfoldable|pub|private)\s+)*({WORD})(?: \{{[^{{}}\n]*\}})*\s+:(?:\s|$)", re.M
)
# constructors or fields of one type, declared on one line
SEVERAL = re.compile(rf"^\s+(?:pub )?({WORD}(?: {WORD})+) :(?:\s|$)")
PLAIN = re.compile(r"^[A-Za-z][\w'\-]*$")
# a string, a comment, an import, or one word with the dot before it
PIECE = re.compile(
    rf'(?P<text>"(?:[^"\\\n]|\\.)*")|(?P<comment>--[^\n]*|//[^\n]*)|(?P<dot>\.?)(?P<word>{WORD})'
)
IMPORT = re.compile(r"\buse\s+([\w.+·]+?)\.\{([^}]*)\}")
LIBRARIES = re.compile(r"^(?!Rattle\.)|^Rattle\.(?:core|std|std_alloc|std_collections|std_heap|std_io)\.")
SPAN = re.compile(r"`[^`\n]*`")


def snake(name):
    if name[:1].islower():
        name = re.sub(r"(?<=[a-z0-9])[A-Z]", lambda m: "_" + m[0].lower(), name)
    return name.replace("-", "_")


def read(path):
    with open(path, encoding="utf-8") as f:
        return f.read()


def without_comments(text):
    return re.sub(r"--[^\n]*", "", text)


def is_of_one_function(path):
    """Whether the file lies in the folder of one function's proof."""
    return re.search(r"/proofs/.*/", path) is not None


def declarations(text):
    """Each declared name, and whether it is a field or a constructor."""
    block = None
    for line in without_comments(text).split("\n"):
        indent = len(line) - len(line.lstrip())
        if line.strip() and block is not None and indent <= block:
            block = None
        m = DECLARED.match(line)
        several = SEVERAL.match(line)
        if re.match(r"\s*(?:pub )?(?:record|data) ", line):
            block = indent
        elif m and PLAIN.match(m[2]):
            yield m[2], block is not None
        elif several and block is not None:
            yield from ((name, True) for name in several[1].split() if PLAIN.match(name))


def declared(paths):
    """Each name with the files that declare it, and the names that are fields or constructors."""
    at, inner = collections.defaultdict(set), set()
    for path in paths:
        if not is_of_one_function(path):
            for name, is_inner in declarations(read(path)):
                at[name].add(path)
                if is_inner:
                    inner.add(name)
    return at, inner


def tables(at, inner):
    """What each name becomes everywhere, and the lemmas that give their name up to a definition."""
    words = {n for n in at if "-" not in n}
    camel = {n: snake(n) for n in words if snake(n) != n}
    taken = {n for n in words if n not in camel} | set(camel.values())
    everywhere = dict(camel)
    for name in at:
        if "-" in name:
            new = snake(name)
            everywhere[name] = new + "_lem" if new in taken and name not in inner else new
    met = {new for new in camel.values() if new in at}
    return everywhere, {n: n + "_lem" for n in met if n not in inner}


def module_of(path):
    parts = path.split("/")
    return ".".join(["Rattle", parts[1], parts[2], os.path.splitext(parts[3])[0]])


def imported(text):
    """Each name of an import with the module that it comes from."""
    return [
        (item.split(" as ")[-1].strip(), item.split(" as ")[0].strip(), m[1])
        for m in IMPORT.finditer(text)
        for item in m[2].split(",")
    ]


def table_for(path, text, everywhere, yielding, at):
    table = dict(everywhere)
    modules = {n: {module_of(p) for p in at[n]} for n in yielding}
    names = imported(text)
    for name, new in yielding.items():
        if path in at[name] or any(item == name and m in modules[name] for _, item, m in names):
            table[name] = new
    for shown, item, module in names:
        if LIBRARIES.search(module):
            table.pop(shown, None)
            table.pop(item, None)
    if is_of_one_function(path):
        for m in DECLARED.finditer(text):
            table.pop(m[2], None)
    return table


def spelled(path, text, table, inner):
    of_one = is_of_one_function(path)

    def turn(m):
        if m["text"]:
            return m[0]
        if m["comment"]:
            return SPAN.sub(lambda s: PIECE.sub(turn, s[0]), m[0])
        word = m["word"]
        if m["dot"] and of_one and word not in inner:
            return m[0]
        return m["dot"] + table.get(word, word)

    return PIECE.sub(turn, text)


def main():
    paths = sorted(glob.glob("crates/*/specs/**/*.antt", recursive=True) + glob.glob("crates/*/proofs/**/*.antt", recursive=True))
    at, inner = declared(paths)
    everywhere, yielding = tables(at, inner)
    camel = {old: new for old, new in everywhere.items() if "-" not in old}
    changed = 0
    for path in paths + sorted(glob.glob("crates/*/src/**/*.rt", recursive=True)):
        text = read(path)
        if path.endswith(".rt"):
            table = camel
        else:
            table = table_for(path, text, everywhere, yielding, at)
        new = spelled(path, text, table, inner)
        if path.endswith(".antt"):
            before = set(re.findall(WORD, without_comments(text)))
            for old in sorted(before & set(table)):
                if table[old] in before and table[old] not in table:
                    print(f"look: {path}: {old} is now {table[old]}, a word that stood there already")
        if new != text:
            changed += 1
            with open(path, "w", encoding="utf-8") as f:
                f.write(new)
    print(f"{len(everywhere)} names, {len(yielding)} lemmas that gave way, {changed} files")


main()
