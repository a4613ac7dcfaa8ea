#!/usr/bin/env python3
"""Gives the repository's own definitions and lemmas the spelling of today's Rattle: snake case for everything but types and modules.

use: python3 tools/respell_names.py [--show] [NAMES.txt]     at the top of the repository, once, after port.py

--show prints each old and new name; NAMES.txt, so printed, stands for the names that the repository declares.

It renames in crates/ alone, in .antt and .rt files. Names of Rust's source, of exported C functions, strings, inputs and outputs stay. A dash beside
a type or an operator stays, since it joins two names. Where a definition and a lemma would fall together the lemma gets `_lem`.
"""
import collections
import os
import re
import sys

SPLIT = re.compile(r'([\s(){}\[\];,.@"∷]+)')
SIGNATURE = re.compile(r"^\s*(?:(?:unfoldable|abbrev|pub) )*([^\s(){}\[\];,.@\":]+(?: +[^\s(){}\[\];,.@\":]+)*) :(?= )")
IMPORT = re.compile(r"^(?:pub |ghost )*use ([\w.'·+-]+)\.\{([^}]*)\}")


def files(root, *endings):
    for folder, dirs, names in os.walk(root):
        dirs[:] = sorted(d for d in dirs if d != "out")
        for name in sorted(names):
            if name.endswith(endings):
                yield os.path.join(folder, name)


def of_a_function(path):
    parts = path.split(os.sep)
    return parts[-3] != "proofs" and "proofs" in parts[:-2]


def snake(name):
    new = name
    if not name[0].isupper():
        new = re.sub(r"(?<=[a-z0-9])([A-Z])", lambda m: "_" + m.group(1).lower(), new)
    return re.sub(r"(?<=[a-z0-9'])-(?=[a-z0-9])", "_", new)


def own_names(root):
    found = set()
    for path in files(root, ".antt"):
        if of_a_function(path):
            continue
        with open(path, encoding="utf-8") as f:
            for line in f:
                m = SIGNATURE.match(line)
                if m and not line.lstrip().startswith("--"):
                    found.update(w for w in m.group(1).split() if w not in ("pub", "abbrev", "unfoldable", "record", "data", "let"))
    return found


def renamings(own):
    new = {n: snake(n) for n in own if snake(n) != n}
    by_new = collections.defaultdict(set)
    for n in own:
        by_new[snake(n)].add(n)
    for to, olds in by_new.items():
        if len(olds) > 1:
            first = next((o for o in olds if "-" not in o and o != to), to if to in olds else sorted(olds)[0])
            for o in olds:
                if o != first and o != to:
                    new[o] = to + "_lem"
                elif o != first:
                    new[o] = to + "_lem"
    return new


def foreign(text):
    names = set()
    for line in text.splitlines():
        m = IMPORT.match(line)
        if m and (not m.group(1).startswith("Rattle.") or m.group(1).startswith("Rattle.std.")):
            names.update(w.strip() for w in re.split(r",| as ", m.group(2)))
    return names


def respell(text, new, in_source):
    left = foreign(text)
    parts = SPLIT.split(text)
    quoted = False
    for i, part in enumerate(parts):
        if i % 2:
            # a quote in a character literal is between apostrophes
            beside = parts[i - 1][-1:] == "'" and parts[i + 1][:1] == "'"
            if in_source and part.count('"') % 2 and not beside:
                quoted = not quoted
            continue
        if quoted or part in left:
            continue
        head = ""
        word = part
        while word and word[0] in "`*'" and len(word) > 1:
            head, word = head + word[0], word[1:]
        tail = ""
        while word and word[-1] in "`:*" and len(word) > 1:
            word, tail = word[:-1], word[-1] + tail
        if word in new and word not in left and not (in_source and re.fullmatch(r"[a-z0-9_']+", word)):
            parts[i] = head + new[word] + tail
    return "".join(parts)


def main():
    root = "crates"
    new = renamings(own_names(root))
    for option in sys.argv[1:]:
        if option.endswith(".txt"):
            with open(option, encoding="utf-8") as f:
                new = dict(line.split() for line in f)
    if "--show" in sys.argv:
        for o in sorted(new):
            print(o, new[o])
        return
    together = 0
    for path in files(root, ".antt", ".rt"):
        with open(path, encoding="utf-8") as f:
            text = f.read()
        words = set(SPLIT.split(text))
        for o in sorted(words & set(new)):
            if new[o] in words and o not in foreign(text):
                print(f"look: {path}: {o} becomes {new[o]}, which stands there")
                together += 1
        by_new = collections.defaultdict(set)
        for o in words & set(new):
            by_new[new[o]].add(o)
        for to, olds in by_new.items():
            if len(olds) > 1:
                print(f"look: {path}: {sorted(olds)} fall together as {to}")
        out = respell(text, new, path.endswith(".rt"))
        if out != text:
            with open(path, "w", encoding="utf-8") as f:
                f.write(out)
    print(f"{len(new)} names, {together} places to look at")


main()
