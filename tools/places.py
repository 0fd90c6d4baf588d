#!/usr/bin/env python3
"""Lists places in src/ where an older form stands, by the points of docs/DESIGN-PASS.md.

    python3 tools/places.py [FOLDER] [-v]

FOLDER is the top of a checkout, this one where none is given. Prints the number of places of each kind, and with -v each place.
The rules are textual: a line here is a place to look at, and docs/DESIGN-PASS.md says what came of it.
"""
import pathlib
import re
import sys

ARGS = [a for a in sys.argv[1:] if a != "-v"]
TOP = pathlib.Path(ARGS[0] if ARGS else pathlib.Path(__file__).resolve().parent.parent)
FILES = sorted(TOP.glob("crates/*/src/**/*.rt"))


def where(path, text, at):
    return f"{path.relative_to(TOP / 'crates')}:{text.count(chr(10), 0, at) + 1}"


def blocks(text, head):
    """Each match of `head` with the text of the braces behind it."""
    for m in re.finditer(head, text):
        at = text.index("{", m.end() - 1)
        depth = 0
        for i in range(at, len(text)):
            depth += {"{": 1, "}": -1}.get(text[i], 0)
            if depth == 0:
                yield m, text[at + 1:i]
                break


def functions(text):
    """Name, place, parameters and body of each function."""
    for m in re.finditer(r"^( *)(?:pub(?:\([a-z]+\))? )?fn (\w+)", text, re.M):
        start = text.find("(", m.end())
        depth, i = 0, start
        while True:
            depth += {"(": 1, ")": -1}.get(text[i], 0)
            i += 1
            if depth == 0:
                break
        body = re.search(r"^" + m.group(1) + r"\{\n|\{\n", text[i:], re.M)
        end = re.search(r"^" + m.group(1) + r"\}", text[i:], re.M)
        if body and end and body.start() < end.start():
            parameters = [p for p in re.split(r",\s*(?![^<>\[\]()]*[>\])])", text[start + 1:i - 1]) if ":" in p]
            yield m.group(2), m.start(), parameters, text[i:i + body.start()], text[i + body.end():i + end.start()]


def bare(body):
    """A body with its names and numbers taken out."""
    body = re.sub(r"//.*", "", body)
    body = re.sub(r"\b(?!let|mut|if|else|while|for|in|match|return|true|false|as)[A-Za-z_]\w*(?:::\w+)*", "x", body)
    return re.sub(r"\s+", " ", re.sub(r"\b(0x)?[0-9][0-9a-f_]*\b", "0", body))


def main():
    found = {}

    def place(kind, path, text, at, what):
        found.setdefault(kind, []).append(f"{where(path, text, at)}  {what}")

    skeletons, facts = {}, {}
    for path in FILES:
        text = path.read_text()
        for m, inside in blocks(text, r"\benum (\w+)[^{;]*\{"):
            variants = [v for v in re.findall(r"^    (\w+)(\(.*\))?,", inside, re.M)]
            if len(variants) == 2 and any(v[1] for v in variants):
                place("1a an enum of the shape of Option or Result", path, text, m.start(), m.group(1))
        for m, inside in blocks(text, r"\bstruct (\w+)[^{;(]*\{"):
            for f in re.findall(r"^    (?:pub )?(ok|on|code|create): (?:bool|i32)", inside, re.M):
                place("1b a flag or a code with a value beside it", path, text, m.start(), f"{m.group(1)}.{f}")
            if re.search(r"(len|count): usize", inside) and "[" in inside:
                place("6a a table with a count beside it", path, text, m.start(), m.group(1))
        for m in re.finditer(r"cut: MAX_CELLS|(cut|owner|found) = MAX_CELLS|(next|cut|owner)\b[^\n]* < MAX_CELLS|== MAX_CELLS|MAX_CELLS <= cell", text):
            place("1d a number that stands for none", path, text, m.start(), m.group(0))
        for m in re.finditer(r"^ *(while|loop)\b.*", text, re.M):
            place("3 a loop that is no for", path, text, m.start(), m.group(0).strip())
        for m in re.finditer(r"\bfn (same_\w+|is_same|equals?)\b|check::same\(", text):
            place("4a equality by hand", path, text, m.start(), m.group(0))
        for m, inside in blocks(text, r"\bmatch [^{}]*\{"):
            arms = re.findall(r"=> (\w+),?$", inside, re.M)
            if arms and set(arms) <= {"true", "false"} and len(arms) == inside.count("=>"):
                place("4b a match that only says whether", path, text, m.start(), m.group(0).strip(" {"))
        for m in re.finditer(r"^ *let mut next = \w+;", text, re.M):
            place("4c a copy with a field changed by hand", path, text, m.start(), m.group(0).strip())
        for m, inside in blocks(text, r"\b[A-Z]\w+ \{"):
            kept = re.findall(r"^ +(\w+): \w+\.\1,", inside, re.M)
            if len(kept) > 1:
                place("4c a copy with a field changed by hand", path, text, m.start(), m.group(0).strip(" {"))
        for m in re.finditer(r"wrapping_add_u32", text):
            place("4d arithmetic by a function of the library's inside", path, text, m.start(), m.group(0))
        for name, at, parameters, head, body in functions(text):
            if re.search(r"-> i32\b", head) and "test" not in str(path):
                place("1c a number for a refusal", path, text, at, name)
            if len(parameters) > 8:
                place("5a more than eight parameters", path, text, at, f"{name}: {len(parameters)}")
            names = [p.split(":")[0].strip().removeprefix("mut ") for p in parameters]
            if any(re.search(r": &?\[\w+; \w+\]", p) for p in parameters) and "count" in names:
                place("6b a table and its count as parameters", path, text, at, name)
            if re.search(r": (?:\[(?:Cell|CommRegion|Cpu|MemRegion); \w+\]|Machine)\b", " ".join(parameters)):
                place("6c a table or a machine by value", path, text, at, name)
            if body.count(";") > 2 or body.count("=>") > 2:
                skeletons.setdefault(bare(body), []).append((path, text, at, name))
            for fact in re.findall(r"(?:requires|ensures)[^{]*\{ (.*) \}", head):
                for part in fact.split(" → "):
                    if "≡" in part and not part.startswith("result"):
                        facts.setdefault(part, []).append((path, text, at, name))
        for m in re.finditer(r"\benum (Progress|Part|CellChange|CpuChange|WordsChange|Whom)\b", text):
            place("7 a switch on what to do next", path, text, m.start(), m.group(1))
    for group in skeletons.values():
        if len(group) > 1:
            for path, text, at, name in group:
                place("2 functions that differ in names and numbers alone", path, text, at, f"{name} ({', '.join(g[3] for g in group)})")
    for fact, group in facts.items():
        if len(group) > 2:
            for path, text, at, name in group:
                place("5b a fact in three contracts or more", path, text, at, f"{name}: {fact}")
    for kind in sorted(found):
        print(f"{len(found[kind]):4}  {kind}")
        if "-v" in sys.argv:
            print("".join(f"          {line}\n" for line in found[kind]), end="")
    proofs = sorted(TOP.glob("crates/*/proofs/**/*.antt"))
    for name in ("Answers.antt", "Invariants.antt"):
        print(f"{sum(p.name == name for p in proofs):4}  8 files {name}")
    print(f"{sum(len(p.read_text().splitlines()) for p in proofs):4}  8 lines under proofs/")


main()
