#!/usr/bin/env python3
"""Counts the places in src/ (and proofs/) that docs/DESIGN-PASS.md speaks of: python3 tools/places.py [POINT] [FOLDER]

A line that it prints is a place to look at, not a verdict: the page says of each what became of it."""
import re
import sys
from collections import defaultdict
from pathlib import Path

WORD = re.compile(r"[A-Za-z_][A-Za-z0-9_]*|[0-9][0-9a-zA-Z_]*|\"(?:\\.|[^\"])*\"|b?'(?:\\.|[^'])*'|\S")
KEPT = set("fn let mut match if else for in while return Ok Err Some None ensures requires impl pub self Self result".split())


def sources(top):
    for path in sorted(Path(top).glob("crates/*/src/**/*.rt")):
        yield path.relative_to(top), path.read_text()


def numbered(pattern, top):
    for path, text in sources(top):
        for number, line in enumerate(text.splitlines(), 1):
            if re.search(pattern, line) and not line.lstrip().startswith("//"):
                yield f"{path}:{number}: {line.strip()}"


def functions(text):
    """Each function's name, first line, and text from `fn` to the end of its body."""
    for found in re.finditer(r"^( *)(?:pub(?:\([a-z]+\))? )?fn ([a-z_0-9]+)", text, re.M):
        rest = text[found.start():]
        end = re.search(r"^%s\}" % found.group(1), rest, re.M)
        if end:
            yield found.group(2), text.count("\n", 0, found.start()) + 1, rest[: end.end()]


def shape(body):
    """The words of a function with its names, types and numbers blanked."""
    body = re.sub(r"//[^\n]*", "", body)
    return " ".join(w if w in KEPT or not re.match(r"[A-Za-z0-9_\"'b]", w) else "_" for w in WORD.findall(body))


def twins(top):
    groups = defaultdict(list)
    for path, text in sources(top):
        for name, line, body in functions(text):
            if len(WORD.findall(body)) > 25:
                groups[shape(body)].append(f"{path}:{line} {name}")
    for places in groups.values():
        if len(places) > 1:
            yield " ~ ".join(places)


def clauses(top):
    """Words of clauses that stand in the contracts of three and more functions, with how many."""
    seen = defaultdict(set)
    for path, text in sources(top):
        for name, line, body in functions(text):
            for clause in re.findall(r"^ *(?:requires|ensures)[^{]*\{(.*)\}[;,]?$", body, re.M):
                for word in re.findall(r"(?<![.\w])([A-Za-z_]\w*) [a-z_]+\.(?:old|new|now)\b", clause):
                    seen[word].add(f"{path}:{line}")
    for word, places in sorted(seen.items(), key=lambda item: -len(item[1])):
        if len(places) >= 3:
            yield f"{len(places)} functions: {word}"


def travellers(top):
    """Pairs of parameters, by name and type, that three and more functions take."""
    seen = defaultdict(set)
    for path, text in sources(top):
        for name, line, body in functions(text):
            head = re.match(r".*?fn [a-z_0-9]+(?:<.*?>)?\((.*?)\)(?: ->|\n| \{|;)", body, re.S)
            if head:
                taken = [" ".join(p.split()) for p in re.split(r",(?![^<(\[]*[>)\]])", head.group(1)) if ":" in p]
                for i, one in enumerate(taken):
                    for other in taken[i + 1:]:
                        seen[(one, other)].add(f"{path}:{line}")
    for pair, places in sorted(seen.items(), key=lambda item: -len(item[1])):
        if len(places) >= 3:
            yield f"{len(places)} functions: ({', '.join(pair)})"


def beside(top):
    """Structs with an array or a piece and a number beside it."""
    for path, text in sources(top):
        for found in re.finditer(r"struct (\w+)[^;{]*\{(.*?)^\}", text, re.M | re.S):
            fields = re.findall(r"^    (?:pub(?:\([a-z]+\))? )?(\w+): (.*?),$", found.group(2), re.M)
            if any(re.match(r"\[|Vec<|ArrayVec<", kind) for _, kind in fields) and any(kind == "usize" for _, kind in fields):
                yield f"{path}:{text.count(chr(10), 0, found.start()) + 1}: {found.group(1)} {dict(fields)}"


def proofs(top):
    for path in sorted(Path(top).glob("crates/*/proofs/**/*.antt")):
        text = path.read_text()
        if path.name in ("Answers.antt", "Invariants.antt"):
            yield f"{path.relative_to(top)}: {len(re.findall(r'^pub ', text, re.M))} answers"
        elif path.name != "Lib.antt":
            yield f"{path.relative_to(top)}: {len(text.splitlines())} lines of lemmas"


POINTS = {
    "1a own enums": lambda top: numbered(r"^ *(pub(\([a-z]+\))? )?enum ", top),
    "1b numbers for kinds or refusals": lambda top: numbered(
        r"=> [0-9]+,$|^\s+[0-9]+ => |u8, u64|Refused\([0-9]|\([0-9]+, [0-9]+, [0-9]\)\)|\", [0-9]+, [0-9]+\),$|bad = [0-9]|^\s+\([0-9]+, [0-9]+, [0-9]+\),$", top),
    "1c a truth value that says whether something was refused": lambda top: numbered(r"-> bool", top),
    "2 functions that differ only in names, types and numbers": twins,
    "3 loops and counts by hand": lambda top: numbered(r"for \w+ in 0\.\.|enumerate\(\)|\+= 1;|^\s*while |\[\w+ \+ [0-9]\]", top),
    "4 equality, order, copying, conversion and printing by hand": lambda top: numbered(
        r"fn (number|name|word|tag|report|told|refused|[a-z_]+_name|[a-z_]*hashes|lit_kind_bytes|show_[a-z]+|is_word|class_number|plus|kind_of|fmt|from|try_from)\b", top),
    "5a clauses over one value": clauses,
    "5b parameters that travel together": travellers,
    "6 buffers with a length beside": beside,
    "7 tables of functions, switches on a step": lambda top: numbered(r"\bdyn |: fn\(|\[fn\(|match (step|state|kind)\b", top),
    "8 answers and lemmas": proofs,
}


def main():
    wanted = sys.argv[1] if len(sys.argv) > 1 else ""
    top = sys.argv[2] if len(sys.argv) > 2 else "."
    for point, find in POINTS.items():
        if point.startswith(wanted):
            places = list(find(top))
            print(f"{point}: {len(places)}")
            for place in places:
                print(f"    {place}")


main()
