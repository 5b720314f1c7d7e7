#!/usr/bin/env python3
"""Prints the places of docs/DESIGN-PASS.md in crates/*/src, one a line: `python3 tools/places.py [POINT]`; no point: how many of each."""
import glob
import os
import re
import sys
from collections import Counter, defaultdict

TOP = os.path.join(os.path.dirname(os.path.abspath(__file__)), "..")


def functions():
    """Each function of src/ as (file, line, name, parameters, contract, body)."""
    for path in sorted(glob.glob(os.path.join(TOP, "crates/*/src/**/*.rt"), recursive=True)):
        text = open(path, encoding="utf-8").read()
        name = os.path.relpath(path, TOP)
        for found in re.finditer(r"^( *)(?:pub )?(?:extern \"C\" )?fn (\w+)", text, re.M):
            end = re.compile(r"^%s}" % found.group(1), re.M).search(text, found.end())
            whole = text[found.start():end.end()]
            opened = re.search(r"^%s\{|\{\n|\{$| \{ \[" % found.group(1), whole, re.M)
            body = re.search(r"^%s\{" % found.group(1), whole, re.M)
            at = body.start() if body else whole.index("{\n") if "{\n" in whole else opened.start()
            head, code = whole[:at], whole[at:]
            line = text.count("\n", 0, found.start()) + 1
            yield name, line, found.group(2), head, code


def lines(pattern, skip=None):
    for path in sorted(glob.glob(os.path.join(TOP, "crates/*/src/**/*.rt"), recursive=True)):
        for number, line in enumerate(open(path, encoding="utf-8"), 1):
            code = line.split("//")[0]
            if re.search(pattern, code) and not (skip and re.search(skip, code)):
                yield "%s:%d: %s" % (os.path.relpath(path, TOP), number, line.strip())


def point_1():
    """Own enums like Option or Result, flags beside values, numbers for kinds and refusals."""
    yield from lines(r"^\s*(pub )?refusal: (u32|u64),")
    yield from lines(r"^\s*(pub )?(found|low|yes|coded|chroma): bool,")
    yield from lines(r"^\s*(Refused|Nothing)\b")
    yield from lines(r"^\s*(pub )?(\w*mark|format|kind|fault|call|what): (u8|u64|u32),")
    # A `try_from` is where a number becomes an enum.
    yield from lines(r"\bfn \w+\(.*\b(format|kind|fault|call|what|mark|plane): (u8|u32|u64)", r"\bfn try_from\(")
    for file, line, name, head, code in functions():
        if re.search(r"-> u32\s", head + " ") and re.search(r"refus|numbers|denoise|ask", name):
            yield "%s:%d: %s answers a number" % (file, line, name)


def shape_of(code):
    names = {}
    words = []
    for word in re.findall(r"[A-Za-z_]\w*|\d[\w.]*|\S", code):
        if word in ("if", "else", "for", "in", "while", "return", "let", "mut", "match", "as", "true", "false", "self", "Self"):
            words.append(word)
        elif re.match(r"[A-Za-z_]", word):
            words.append("i%d" % names.setdefault(word, len(names)))
        elif re.match(r"\d", word):
            words.append("n")
        else:
            words.append(word)
    return " ".join(words)


def point_2():
    """Functions whose bodies, and types whose fields, differ only in names, types and constants."""
    same = defaultdict(list)
    for file, line, name, head, code in functions():
        shape = shape_of(code)
        if len(shape.split()) >= 12:
            same[shape].append("%s:%d: %s" % (file, line, name))
    for group in same.values():
        if len(group) > 1:
            yield from group


def point_3():
    """Loops over a counted index."""
    yield from lines(r"^\s*while\b")
    yield from lines(r"^\s*for \w+ in [^{]*\.\.", r"^\s*for \w+ in &(mut )?[\w.]+\[")


def point_4():
    """Bodies that are one cast, one choice of the lesser or greater, a clamp, or a match of variants to values; but none of `From`, which the point asks for."""
    for file, line, name, head, code in functions():
        if name == "from":
            continue
        flat = " ".join(code.split())
        cast = re.fullmatch(r"\{ \w+ as \w+ \}", flat)
        choice = re.fullmatch(r"\{ if (\w+(?: \+ 1)?) (<|<=) (\w+) \{ (\w+)(?: [+-] \d)? \} else \{ (\w+)(?: [+-] \d)? \} \}", flat)
        bit = re.fullmatch(r"\{ if .* \{ (1|0|return 1;) \} (else \{ )?(1|0)( \})? \}", flat)
        table = flat.startswith("{ match") and re.search(r"=> (true|false|\d+),|Record \{|Refused\(n\) =>", flat)
        clamp = re.search(r"if \w+ < (low|0) \{ return (low|0); \}", flat)
        swap = re.search(r"let (\w+) = (\w+)\[(\w+)\]; \2\[\3\] = \2\[(\w+)\]; \2\[\4\] = \1;", flat)
        words = re.search(r"16 \+ 256 \* |\* 0x1_0000|% 0x1_0000", flat)
        if cast or choice or bit or table or clamp or swap or words:
            yield "%s:%d: %s" % (file, line, name)


GROUPS = {
    "a plane and its copy": r"\bsrc\w*: &\[u16\],\s*den\w*: &\[u16\]",
    "a view of a plane and its copy": r"\bsrc\w*: &\[u16\],\s*den\w*: &\[u16\](?=.*\bview: View)",
    "the planes of a frame": r"\by: &\[u16\],\s*cb: &\[u16\],\s*cr: &\[u16\]",
    "planes and copies of a frame": r"\by: &\[u16\],\s*yden: &\[u16\],\s*cb",
    "a destination and its cursor": r"\bdst: &mut \[u8\],\s*w: Cursor",
    "a record, its fields and counts": r"\bf: Fields,.*\bc: Counts",
    "counts and squares of bins": r"\bcount: &mut \[u64\],\s*squares: &mut \[u64\]",
    "lines of a part": r"\bline: &\[i16\],\s*bins: &\[u16\]",
    "a plane with its size": r"\bsrc: &\[u16\],\s*(dst: &mut \[u16\],\s*)?width: usize,\s*height: usize",
}
FACTS = r"\b(Seen|SeenFrame|SeenAt|Places|Ready|Inside|Noisy|Copied|Lines|SumsLow|Binned)\b"


def point_5():
    """Functions that take parameters which travel together, or ask a fact that three or more contracts ask."""
    asked = defaultdict(list)
    for file, line, name, head, code in functions():
        flat = " ".join(head.split())
        for words, pattern in GROUPS.items():
            if re.search(pattern, flat):
                asked["takes " + words].append("%s:%d: %s takes %s" % (file, line, name, words))
        wanted = re.search(r"requires \{(.*?)\}", flat)
        for fact in set(re.findall(FACTS, wanted.group(1))) if wanted else ():
            asked["asks " + fact].append("%s:%d: %s asks %s" % (file, line, name, fact))
    for group in asked.values():
        if len(group) >= 3:
            yield from group


def point_6():
    """Arrays of a fixed length with a count, parallel arrays, work lines cut to a length."""
    yield from lines(r"^\s*(pub )?\w+: \[\[?(f64|i32|u8|u64|i64|u16|i16)(; \d+\])?; \w+\],")
    yield from lines(r"&mut \w+\[\.\.\w+\]")
    yield from lines(r"^\s*let mut \w+ = \[0(\.0)?; \w+\];")


def point_7():
    """Switches on which step to run."""
    yield from lines(r"\b(twin|halved|absent): bool")
    yield from lines(r"^\s*match (call|what|c\.kind|kind|c\.kind [%/] 16)\b")


def point_8():
    """Proofs of functions in the older form."""
    for path in sorted(glob.glob(os.path.join(TOP, "crates/*/proofs/**/Proof.antt"), recursive=True)):
        yield os.path.relpath(path, TOP)


POINTS = [point_1, point_2, point_3, point_4, point_5, point_6, point_7, point_8]


def main():
    if len(sys.argv) > 1:
        for place in POINTS[int(sys.argv[1]) - 1]():
            print(place)
        return
    for number, point in enumerate(POINTS, 1):
        places = list(point())
        crates = Counter(place.split("/")[1] for place in places)
        print("%d: %3d  %s" % (number, len(places), ", ".join("%s %d" % item for item in sorted(crates.items()))))


main()
