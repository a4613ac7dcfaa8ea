#!/usr/bin/env python3
"""Counts and lists the places of docs/DESIGN-PASS.md in crates/*/src: tools/design_places.py [-l] [POINT..]"""
import glob
import re
import sys

SOURCES = {p: open(p).read() for p in sorted(glob.glob("crates/*/src/**/*.rt", recursive=True))}


def lines(pattern, flags=0):
    """Each line of a source that the pattern fits, comments aside."""
    for p, text in SOURCES.items():
        for n, line in enumerate(text.split("\n"), 1):
            if not line.lstrip().startswith("//") and re.search(pattern, line, flags):
                yield f"{p}:{n}: {line.strip()}"


def items(pattern):
    """Each place of a source that the pattern fits, over several lines."""
    for p, text in SOURCES.items():
        for m in re.finditer(pattern, text, re.M):
            yield f"{p}:{text.count(chr(10), 0, m.start()) + 1}: {' '.join(m.group(0).split())[:110]}"


def functions():
    """Each function: its place, its name, its signature and its body."""
    for p, text in SOURCES.items():
        for m in re.finditer(r"^( *)(?:pub(?:\(crate\))? )?(?:extern \"C\" )?fn (\w+)", text, re.M):
            indent = m.group(1)
            start = re.compile(r"^" + indent + r"\{\n|(?<=\S) \{\n", re.M).search(text, m.end())
            end = re.compile(r"^" + indent + r"\}", re.M).search(text, start.end() if start else m.end())
            if start and end:
                yield p, text.count("\n", 0, m.start()) + 1, m.group(2), text[m.start():start.start()], text[start.end():end.start()]


WORDS = set("let mut if else while loop for in return match true false as break continue fn pub crate self Some None Ok Err".split())


def shape(text):
    """A text with its names and numbers made alike, in the order in which they come."""
    names, out = {}, []
    for w in re.findall(r"b'[^']*'|b\"[^\"]*\"|[A-Za-z_]\w*|\d\w*|\S", re.sub(r"//[^\n]*", "", text)):
        if w[0].isalpha() or w[0] == "_" or w[0].isdigit():
            out.append(w if w in WORDS else names.setdefault(w, f"x{len(names)}"))
        else:
            out.append(w)
    return " ".join(out)


def twins():
    """Functions of three statements or more whose bodies have one shape."""
    by = {}
    for p, n, name, _, body in functions():
        if body.count(";") + body.count("=>") >= 2:
            by.setdefault(shape(body), []).append(f"{p}:{n}: {name}")
    for group in by.values():
        if len(group) > 1:
            yield "  =  ".join(group)


def twin_types():
    """Types whose fields or variants have one shape."""
    by = {}
    for p, text in SOURCES.items():
        for m in re.finditer(r"^(?:pub(?:\(crate\))? )?(?:struct|enum) (\w+)(?:<[^>]*>)? (\{[^}]+\})", text, re.M):
            by.setdefault(shape(m.group(2)), []).append(f"{p}:{text.count(chr(10), 0, m.start()) + 1}: {m.group(1)}")
    for group in by.values():
        if len(group) > 1:
            yield "  =  ".join(group)


def together(*names):
    """Functions whose parameters have all these names."""
    for p, n, name, head, _ in functions():
        parameters = set(re.findall(r"(\w+):", head.split("->")[0]))
        if set(names) <= parameters:
            yield f"{p}:{n}: {name}"


POINTS = {
    "1a own enums with a variant for none, or for all is well": lambda: items(r"^(?:pub(?:\(crate\))? )?enum \w+ \{[^}]*\n +(?:Bad|End|Over|Absent|Known|Byte|Broken|Good|Other),\n[^}]*\}"),
    "1b a flag with a value beside it": lambda: lines(r"^ +(?:pub(?:\(crate\))? )?(?:ok|plain|present|lost): (?:bool|u64),|present: &mut u64"),
    "1c numbers for refusals": lambda: lines(r"\b(?:low|refusal): u64|fn \w*(?:low|refusal|finish|least|load_rows|load_from)\w*\(.*\) -> u64|refusal: &mut u64"),
    "1d numbers for kinds": lambda: lines(r"\b(?:place|token|kind|datatype|code): u64|const (?:BAD|STRING|MINUS|TRUE|FALSE|NULL|VALUE|FIRST|NEXT|COLON|AFTER|LOST): u64"),
    "2a twin functions (groups)": twins,
    "2b types of one shape (groups)": twin_types,
    "3 indices counted by hand": lambda: lines(r"^ +(?!self\b)[a-z_]+ [+-]= (?:1|2|8|BLOCK|CHUNK|WIDTH);"),
    "4 equality, order, copying, conversion by hand": lambda: lines(r"\bfn (?:both|either|larger|smaller|least|are_equal|are_alike|move_bytes|move_chunk|copy_bytes|two_bytes|number_from|put_number|put_word|get_numbers|put_numbers|type_number|flag|wide|row|store|store_bytes|read_byte|number|join)\b"),
    "5 table and rows": lambda: together("t", "caps", "notes"),
    "5 rows and how many": lambda: together("caps", "n"),
    "5 annotations and how many": lambda: together("notes", "m"),
    "5 names kept": lambda: together("places", "keys"),
    "5 places and sizes": lambda: together("places", "sizes"),
    "5 a range of samples": lambda: together("t", "a", "b"),
    "5 a text and a place": lambda: together("s", "at"),
    "6 buffers with a length beside them, parallel arrays": lambda: lines(r"^ +(?:pub )?(?:chars|len): usize|^ +(?:places|keys|sizes): &mut \[|let mut (?:places|keys|sizes) ="),
    "7 switches on which step to run": lambda: lines(r"match kind|= kind else|match class|match which|match name \{|match letter|let FieldType::\w+ = wanted else|match wanted"),
}

if __name__ == "__main__":
    asked = [a for a in sys.argv[1:] if a != "-l"]
    for point, find in POINTS.items():
        if asked and not any(point.startswith(a) for a in asked):
            continue
        found = list(find())
        print(f"{len(found):4}  {point}")
        if "-l" in sys.argv:
            for f in found:
                print("       ", f)
