#!/usr/bin/env python3
"""Brings the repository's own definitions and lemmas to snake case.

usage: respell.py [FOLDER]

FOLDER is the top of the repository. It is run once, after port.py, and a second run changes nothing.
A name of antt that begins with a small letter and has a capital inside is written in snake case
(`cellRegions` is `cell_regions`, `region-nextWord` is `region-next_word`), and a label of specs/
with a dash gets underscores. Names of Rust, types and facts (which begin with a capital) keep
their spelling. It goes over the files of src/, specs/, proofs/ and must-fail/.
"""

import collections
import glob
import os
import re
import sys

# Names that would fall together with another one in the same scope: (file, old) -> new, before all else.
APART = {
    "crates/apply/src/lib.rt": {"effect_of": "call_effect"},
    "crates/regions/src/lib.rt": {"Apart-of": "apart_of"},
    "crates/manager/src/lib.rt": {"step_of_lem": "step_of"},
    "crates/create_rules/proofs/Laws.antt": {"Full-is": "full-is"},
    "crates/cell_rules/proofs/cell_valid/Proof.antt": {"is_name": "is_named"},
    "crates/system_record/proofs/system_valid/Proof.antt": {"is_name": "is_named"},
    "crates/reached/proofs/Runs.antt": {"no_cell": "no_cell_lem"},
    "crates/replay_log/proofs/Buffers.antt": {"put_count": "put_count_lem"},
    "crates/replay_log/proofs/put/Proof.antt": {"put_count": "put_count_lem"},
    "crates/waiting/proofs/Sharp.antt": {"tells_first": "tells_first_lem"},
}
# A parameter of a function has the name that these would get.
OTHER = {"bootCpus": "boot_cpu_set"}

TOKEN = re.compile(r"(?<![A-Za-z0-9_'\-₀-₉])([A-Za-zμ][A-Za-z0-9_'\-→₀-₉]*)")


def snake(name):
    if name in OTHER:
        return OTHER[name]
    name = re.sub(r"\bgetD\b", "get_or", name)
    return re.sub(r"(?<=[A-Za-z0-9])([A-Z])", lambda m: "_" + m.group(1).lower(), name)


def is_camel(name):
    # a fact keeps its capital, as in is_IsWord
    return re.match(r"[a-z]", name) and re.search(r"[a-z0-9][A-Z]", name) and not re.search(r"_[A-Z]", name)


def main():
    os.chdir(sys.argv[1] if 1 < len(sys.argv) else ".")
    specs = glob.glob("crates/*/specs/**/*.antt", recursive=True)
    proofs = glob.glob("crates/*/proofs/**/*.antt", recursive=True)
    rust = glob.glob("crates/*/src/**/*.rt", recursive=True)
    edits = glob.glob("crates/*/must-fail/*.edit")
    names, dashed = {}, {}
    for path in specs + proofs:
        for line in open(path, encoding="utf-8"):
            if line.strip().startswith("--"):
                continue
            for m in TOKEN.finditer(line):
                if is_camel(m.group(1)):
                    names[m.group(1)] = snake(m.group(1))
            label = re.match(r"\s*(?:unfoldable |abbrev )*pub ([a-z][a-z0-9]*(?:-[a-z0-9]+)+) ?:", line)
            if label and path in specs:
                dashed[label.group(1)] = label.group(1).replace("-", "_")
    for path in rust:
        for line in open(path, encoding="utf-8"):
            if line.startswith("ghost use"):
                for it in re.findall(r" as ([a-z0-9]+(?:-[a-z0-9]+)+)", line):
                    dashed[it] = it.replace("-", "_")
                for m in TOKEN.finditer(line):
                    if is_camel(m.group(1)):
                        names[m.group(1)] = snake(m.group(1))
    both = collections.defaultdict(set)
    for old, new in names.items():
        both[new].add(old)
    for new, olds in both.items():
        if 1 < len(olds):
            print("fall together:", new, sorted(olds))
    names.update(dashed)
    for path in specs + proofs + rust + edits:
        text = old = open(path, encoding="utf-8").read()
        if path in APART:
            # not below a dot, where the name is a function's, but for the fields of Sharp's own record
            dot = "" if path.endswith("/Sharp.antt") else "."
            text = re.sub(
                r"(?<![%sA-Za-z0-9_'\-])(%s)(?![A-Za-z0-9_'\-])" % (dot, "|".join(APART[path])),
                lambda m: APART[path][m.group(1)],
                text,
            )
        text = TOKEN.sub(lambda m: names.get(m.group(1), m.group(1)), text)
        if text != old:
            open(path, "w", encoding="utf-8").write(text)


main()
