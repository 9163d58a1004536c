#!/usr/bin/env python3
"""Brings the repository's own definitions and lemmas from camel case to the kit's spelling, once, after port.py.

usage: python3 tools/respell.py        at the top of the repository

A name that an .antt file declares and that begins with a small letter is spelled in snake case; the names in DASHED get underscores.
Functions of src/, exported C names, strings, inputs and outputs keep their names. The texts of .antt and .rt files are turned by the
kit's snake.py, which moves the later lines of a block with its first; edits and pages are turned word by word.
"""

import os
import re
import subprocess
import sys
import tempfile

# Constructors, fields and statements of specs/ whose parts were joined by dashes.
DASHED = ["of-guest", "access-by", "replies-by-rule", "held-by-rule", "replies-alone", "held-alone", "worked-examples", "worked-request", "soundness-follows"]
# Lemmas that a respelled definition would meet in their file.
FIRST = [
    ("sum_below", "sum_below-less", ["rules/proofs/Share"]),
    ("owner_of", "owner_here", ["refinement/proofs/Requested"]),
    ("owner_at", "owner_of-at", ["refinement/proofs/Places", "refinement/proofs/Requested", "refinement/proofs/Answered", "refinement/proofs/Leaving"]),
    ("owner_at", "owner_here", ["sound_regions/proofs/Cleared"]),
    ("owned_at", "owned_at-any", ["laws/proofs/Owned", "sound_logs/proofs/named/is_named/Proof", "sound_records/proofs/domains/domain_held/Proof"]),
    ("owned_at", "owned_place", ["refinement/proofs/Written"]),
    ("map_steps", "map_steps-flat", ["call_map/proofs/Steps", "call_map/proofs/map_status/Proof"]),
]
# What port.py has respelled in crates/, for the pages and the edits.
BY_PORT = {"keyOf": "key_of", "typeOf": "type_of", "bytesOf": "bytes_of", "addressOf": "address_of", "getD": "get_or", "leBytes": "le_bytes", "stateOf": "state_of", "pickBy": "pick_by"}
TOKEN = r"[^\s(){}.;,@«»\x60]"
DECLARED = re.compile(r"^(?:(?:unfoldable|abbrev|pub|data|record|ruleset) )*([^\s:(){}]+) (?::|\(|\{)")
MEMBER = re.compile(r"^ +(?:(?:abbrev|unfoldable|pub) )*([^\s:(){}|=,]+) :")


def files(ending):
    for folder, inner, names in os.walk("crates"):
        inner[:] = sorted(d for d in inner if d not in ("out", "must-fail") or ending == ".edit" and d != "out")
        for name in sorted(names):
            if name.endswith(ending):
                yield os.path.join(folder, name)


def snake(name):
    return re.sub(r"(?<=[a-z0-9])[A-Z]+", lambda m: "_" + m[0].lower(), name)


def declared():
    found = set()
    for path in files(".antt"):
        with open(path) as f:
            for line in f:
                m = MEMBER.match(line) if line.startswith(" ") else DECLARED.match(line)
                if m:
                    found.add(m[1])
    return found


def turn_words(path, table):
    with open(path) as f:
        text = f.read()
    turned = text
    for old, new in table.items():
        turned = re.sub(rf"(?<!{TOKEN})(?<!Rattle\.){re.escape(old)}(?!{TOKEN})", new, turned)
    if turned != text:
        with open(path, "w") as f:
            f.write(turned)


def main():
    kit = os.path.dirname(subprocess.run(["rt", "doc"], capture_output=True, text=True).stdout.strip())
    engine = os.path.join(kit, "port/notes/2026-11-18-names-are-in-snake-case/snake.py")
    for old, new, places in FIRST:
        for place in places:
            turn_words(f"crates/{place}.antt", {old: new})
    table = {n: snake(n) for n in declared() if n[0].islower() and re.search(r"[a-z0-9][A-Z]", n)}
    table |= {n: n.replace("-", "_") for n in DASHED}
    met = sorted(n for n in table if table[n] in declared())
    if met:
        print("these meet another name: " + " ".join(met))
        return 1
    with tempfile.NamedTemporaryFile("w", suffix=".tsv") as rows:
        rows.write("".join(f"{old}\t{new}\n" for old, new in sorted(table.items())))
        rows.flush()
        subprocess.run([sys.executable, engine, "--table", rows.name, "--only", "antt,rt", "crates"], check=True)
    for path in [*files(".edit"), "README.md", "docs/definitions.md", "docs/DECISIONS.md"]:
        turn_words(path, BY_PORT | table)
    for crate in sorted(os.listdir("crates")):
        if os.path.isdir(os.path.join("crates", crate, "src")):
            subprocess.run(["rt", "fmt"], cwd=os.path.join("crates", crate), capture_output=True)
    return 0


if __name__ == "__main__":
    sys.exit(main())
