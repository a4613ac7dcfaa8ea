#!/usr/bin/env python3
"""Gives the must-fail edits the spelling of today's Rattle, with the wrong meaning that they had.

use: python3 tools/respell_edits.py COMMIT PORT.PY [FOLDER]     at the top of the repository; COMMIT has the older spelling, PORT.PY is Rattle's script for older
repositories, and FOLDER keeps the copies: one that is done there isn't made again

Each edit is made in a copy of COMMIT, and the wrong text goes the way that the right one went: PORT.PY, then tools/respell_names.py. What then differs from a copy
that went the same way without edits is the edit's text today. Edits of one line are made in copies of their own. An edit whose text means the same as it stands is left.
It prints `left:` and the edit's path where that way doesn't lead to one line for one line: those are by hand.
"""
import collections
import difflib
import glob
import os
import re
import shutil
import subprocess
import sys
import tempfile


def run(*words, where):
    r = subprocess.run(words, cwd=where, stdout=subprocess.PIPE, stderr=subprocess.STDOUT, text=True)
    if r.returncode:
        raise SystemExit(f"{words[0]} {words[1]} failed in {where}: {r.stdout[-800:]}")
    return r.stdout


def parts(path):
    """The file that an edit changes, and its pairs of old and new text."""
    file, pairs = None, []
    with open(path, encoding="utf-8") as f:
        for line in f.read().splitlines():
            word, _, text = line.partition(":")
            text = text[1:]
            if word == "file":
                file = text.strip()
            elif word == "old":
                pairs.append([text, None])
            elif word == "new":
                pairs[-1][1] = text
    return file, pairs


def read(path):
    with open(path, encoding="utf-8") as f:
        return f.read()


def write(path, text):
    with open(path, "w", encoding="utf-8") as f:
        f.write(text)


def copy_of(commit, at, changes):
    """A copy of commit in the folder at, with each change (path, old, new) made, turned to today's spelling. Proofs stay behind: no edit is of one."""
    if os.path.exists(at + ".done"):
        return at
    shutil.rmtree(at, ignore_errors=True)
    top = run("git", "rev-parse", "--show-toplevel", where=".").strip()
    run("git", "clone", "-q", top, at, where=".")
    run("git", "checkout", "-q", commit, where=at)
    names = run("python3", os.path.join(top, "tools", "respell_names.py"), "--show", where=at)
    write(at + ".txt", names)
    for folder in glob.glob(os.path.join(at, "crates", "*", "proofs")):
        shutil.rmtree(folder)
    for path, start, old, new in sorted(changes, reverse=True):
        text = read(os.path.join(at, path))
        write(os.path.join(at, path), text[:start] + new + text[start + len(old) :])
    run("git", "config", "user.email", "edits@localhost", where=at)
    run("git", "config", "user.name", "edits", where=at)
    run("git", "add", "-A", where=at)
    run("git", "commit", "-q", "-m", "edits", where=at)
    subprocess.run(["python3", sys.argv[2]], cwd=at, stdout=subprocess.DEVNULL)
    run("python3", os.path.join(top, "tools", "respell_names.py"), at + ".txt", where=at)
    write(at + ".done", "")
    return at


def place(old, new, at):
    """Where the place at of the text old lies in the text new."""
    best = 0
    for kind, a, b, c, d in difflib.SequenceMatcher(None, old, new, autojunk=False).get_opcodes():
        if kind == "equal" and a <= at <= b:
            return c + at - a
        if a <= at:
            best = c
    return best


def within_words(text, a, b):
    """The widest place from a to b that cuts no word."""
    word = re.compile(r"[\w.'\"]")
    while 0 < a and word.match(text[a - 1]) and word.match(text[a]):
        a -= 1
    while b < len(text) and word.match(text[b - 1]) and word.match(text[b]):
        b += 1
    return a, b


def main():
    commit = sys.argv[1]
    top = os.path.abspath(sys.argv[3]) if len(sys.argv) > 3 else tempfile.mkdtemp(prefix="edits-")
    old_tree = os.path.join(top, "older")
    shutil.rmtree(old_tree, ignore_errors=True)
    run("git", "clone", "-q", ".", old_tree, where=".")
    run("git", "checkout", "-q", commit, where=old_tree)
    edits = []
    for path in sorted(glob.glob(os.path.join(old_tree, "crates", "*", "must-fail", "*.edit"))):
        name = os.path.relpath(path, old_tree)
        file, pairs = parts(path)
        file = os.path.join(os.path.dirname(os.path.dirname(name)), file)
        edits.append((name, file, pairs))
    # each change goes into the first copy that has no change of that line or of one beside it
    taken, rounds, round_of = [], [], {}
    for name, file, pairs in edits:
        text = read(os.path.join(old_tree, file))
        for k, (old, new) in enumerate(pairs):
            if text.count(old) != 1:
                raise SystemExit(f"{name}: its text stands {text.count(old)} times")
            start = text.index(old)
            line = text[:start].count("\n")
            for r in range(len(taken) + 1):
                if r == len(taken):
                    taken.append(set())
                    rounds.append([])
                if not any((file, line + j) in taken[r] for j in (-1, 0, 1)):
                    taken[r].add((file, line))
                    rounds[r].append((file, start, old, new))
                    round_of[name, k] = (r, line)
                    break
    base = copy_of(commit, os.path.join(top, "right"), [])
    copies = [copy_of(commit, os.path.join(top, f"wrong-{r}"), c) for r, c in enumerate(rounds)]
    counts = collections.Counter()
    for name, file, pairs in edits:
        older, right = read(os.path.join(old_tree, file)), read(os.path.join(base, file))
        today = read(file)
        out, same = [], True
        for k, (old, new) in enumerate(pairs):
            r, line = round_of[name, k]
            wrong = read(os.path.join(copies[r], file))
            # which of the file's changes in that copy is this one
            lines = sorted(l for (f, l) in taken[r] if f == file)
            a, b = right.split("\n"), wrong.split("\n")
            hunks = [h for h in difflib.SequenceMatcher(None, a, b, autojunk=False).get_opcodes() if h[0] != "equal"]
            if len(hunks) != len(lines):
                print(f"left: {name}: {len(hunks)} changes for {len(lines)}")
                counts["left"] += 1
                break
            _, p, q, s, t = hunks[lines.index(line)]
            if q - p != 1 or t - s != 1:
                print(f"left: {name}: {q - p} lines become {t - s}")
                counts["left"] += 1
                break
            was, is_now = a[p], b[s]
            if right.count(old) == 1 and was.count(old) == 1 and was.replace(old, new) == is_now and today.count(old) == 1:
                out.append((old, new))
                continue
            same = False
            first = older.split("\n")[line]
            i = first.index(old)
            x, y = within_words(was, place(first, was, i), place(first, was, i + len(old)))
            head = os.path.commonprefix([was, is_now])
            tail = os.path.commonprefix([was[len(head):][::-1], is_now[len(head):][::-1]])
            x, y = min(x, len(head)), max(y, len(was) - len(tail))
            x, y = within_words(was, x, y)
            if today.count(was[x:y]) != 1:
                x, y = 0, len(was)
            to = is_now[x: len(is_now) - (len(was) - y)]
            if today.count(was[x:y]) != 1:
                print(f"left: {name}: stands {today.count(was[x:y])} times: {was[x:y]}")
                counts["left"] += 1
                break
            out.append((was[x:y], to))
        else:
            if same:
                counts["as they stand"] += 1
            else:
                counts["respelled"] += 1
                head = read(name).split("\n")[0]
                write(name, head + "\n" + "".join(f"old: {o}\nnew: {n}\n" for o, n in out))
    print(", ".join(f"{n} {w}" for w, n in sorted(counts.items())), f"; copies in {top}")


main()
