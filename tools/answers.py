#!/usr/bin/env python3
"""Turns the proofs of a crate's functions, written for an older kit, to Invariants and Answers.

usage: python3 tools/answers.py NAMES.json CRATE [FUNCTION ..]      FUNCTION as in proofs/, with slashes

NAMES.json is what `rt check --generated FOLDER --old-names` wrote. A proof that only searches goes: the check finds it again. One whose
lemmas speak of the places of the code keeps its form, in Proof.antt, with today's names.
"""

import json
import os
import re
import sys

CHAIN = re.compile(r"(?<![\w.'-])([^\W\d][\w'₀-₉]*(?:-\w+)*)((?:\.[A-Za-z0-9_'-]+)+)")
PLACE = re.compile(r"tie\.(After|At|Else|In|Start|Then|Joined)[\w-]*")
PLAIN = re.compile(r"\(?λ c( κs)?\. (search rules|tt)\)?$")
# Fields of the state's own types, which a step may be named as.
FIELDS = {"input", "settings", "domains", "endpoints", "owners", "attached", "regions", "state", "device", "live"}
TURN = {"taken": "true", "left": "false", "inv": "invariant"}


def norm(name):
    name = re.sub(r"_lem$", "", name.replace("-", "_").lower())
    return "size_of" if name == "type_size" else name


class Function:
    """What names.json says of one function."""

    def __init__(self, entry):
        self.needs = entry["needs"]
        self.asked = entry["asked_at"]
        self.steps = {}
        self.places = {}
        for place, new in zip(entry["places"], entry["places_by_name"]):
            old, _, field = place[0], place[1], place[2]
            self.places[old] = new
            if field[0]:
                self.steps[norm(field[0])] = field[1]
        self.callees = {norm(x[2][0]): entry["params"].get(x[3]) for x in entry["places"] if x[3]}
        self.arms = {}
        for arm in entry["arms"]:
            if arm:
                for field, step, path in arm[2]:
                    self.arms.setdefault((norm(step), tuple(path)), f"{arm[0]}.{field}" if path else None)
        self.typed = {norm(step): var for row in entry["typed"] for var, step in row}
        self.loops = entry["loops"]
        self.changed = entry["changed"]

    def need(self, old):
        for a, b in self.needs:
            if a == old or norm(a) == norm(old):
                return b
        for a, b in self.needs:
            if norm(b) == norm(old) or re.sub(r"^(overflow|nonzero|bounds)_", "", norm(old)) == norm(a):
                return b
        return None


def chain(base, subs, aliases, f, left):
    """A path from c, or from an alias of one of its places, as today's; None where it is neither."""
    subs = subs.split(".")[1:]
    head = []
    if base in aliases:
        kind, path = aliases[base]
        if kind == "step" and subs[:1] != ["new"]:
            return None
        head = path
    elif base != "c":
        return None
    parts = head + subs
    while parts and parts[0] == "before":
        parts = parts[1:]
    if not parts:
        return "c"
    step, rest = parts[0], parts[1:]
    if step in ("args", "lifetimes", "requires", "ranges", "type_inv", "well_formed", "well-formed"):
        step = step.replace("-", "_")
        return ".".join(["c", step] + rest)
    if step == "pre":
        return ".".join(["c", "requires"] + rest)
    key = norm(step)
    for k in range(len(rest), 0, -1):
        new = f.arms.get((key, tuple(rest[:k])))
        if new:
            return ".".join(["c", new] + rest[k:])
    if key in f.typed and rest[:1] == ["given"]:
        return ".".join(["c", "type_inv", f.typed[key]] + rest[1:])
    if key in f.steps and rest[:1] == ["rest"]:
        return ".".join(["c", f.steps[key], f.steps[key] + "-own"] + rest)
    if key in f.steps:
        if re.match(r"if\d*$|.*_test$|test\d*$", key):
            rest = [TURN.get(r, r) for r in rest]
        rest = ["invariant" if r == "inv" else r for r in rest]
        if rest[:1] == ["new"] and f.callees.get(key):
            k = 1
            while rest[k : k + 1] == ["1"]:
                k += 1
            if rest[k : k + 1] == ["0"]:
                rest = ["new", f.callees[key][k - 1]] + rest[k + 1 :]
        return ".".join(["c", f.steps[key]] + rest)
    left.append(base + "." + ".".join(subs))
    return None


def turn_body(text, f, left):
    """The text of an answer, with today's paths; the names of places go."""
    aliases = {}
    out = []
    for line in text.split("\n"):
        m = re.match(r"^(\s*)(?:.* = )?let ([\w'₀-₉]+) = ([\w'₀-₉]+)((?:\.[A-Za-z0-9_'-]+)*) in( ?.*)$", line)
        if m and (m[3] == "c" or m[3] in aliases):
            base, subs = m[3], [s for s in m[4].split(".") if s]
            path = (aliases[base][1] if base in aliases else []) + subs
            bare = [p for p in path if p != "before"]
            if not bare:
                aliases[m[2]] = ("place", [])
                kept = line[: line.index("let ")] + m[5].lstrip()
                if kept.strip():
                    out.append(turn_line(kept, aliases, f, left))
                continue
            if bare[0] not in ("args", "pre", "requires", "ranges", "well-formed", "well_formed") and (bare[-1] == "given" or (norm(bare[0]), tuple(bare[1:])) in f.arms or any(k[0] == norm(bare[0]) and k[1] and tuple(bare[1:]) == k[1][: len(bare) - 1] for k in f.arms)):
                aliases[m[2]] = ("arm", bare)
                kept = line[: line.index("let ")] + m[5].lstrip()
                if kept.strip():
                    out.append(turn_line(kept, aliases, f, left))
                continue
            if len(bare) == 1 and norm(bare[0]) in f.callees:
                aliases[m[2]] = ("step", bare)
        out.append(turn_line(line, aliases, f, left))
    return "\n".join(out)


# A test `!b` says of b what it is, where the older kit spoke of `not b`.
def turn_line(line, aliases, f, left):
    def path(m):
        new = chain(m[1], m[2], aliases, f, left)
        return m[0] if new is None else new

    line = CHAIN.sub(path, line)
    line = re.sub(r"c\.[\w-]+-arg[\w-]*\.given\.0", "(search rules)", line)
    line = re.sub(r"(?<![\w.'-])not-(?:true|false) (?:[\w.'-]+|\([^()]*\)) (c\.if-not-[\w-]+\.(?:true|false))", r"\1", line)
    for name, (kind, path_) in aliases.items():
        if kind == "place":
            line = re.sub(rf"(?<![\w.'-]){re.escape(name)}(?![\w.'-])", "c", line)
    return line


def items(lines):
    """The file's head (comments, uses), then its items: comment lines, a signature, and what belongs to it."""
    i = 0
    head, uses = [], []
    while i < len(lines) and (lines[i].startswith("--") or lines[i].startswith("use ") or lines[i].startswith("pub use ") or not lines[i].strip()):
        if "use " in lines[i][:8]:
            uses.append(lines[i])
            last = len(uses)
        elif lines[i].strip():
            if uses:
                break
            head.append(lines[i])
        i += 1
    groups, now, name = [], [], None
    for line in lines[i:]:
        m = re.match(r"^(?:(?:pub|abbrev|unfoldable) )*([^\s:(){}]+) :", line)
        if line.startswith("--") or m or line.startswith("module "):
            if now and not all(x.startswith("--") for x in now):
                groups.append((name, now))
                now, name = [], None
            if m:
                name = m[1]
            if line.startswith("module "):
                name = "module"
        now.append(line)
    if now:
        groups.append((name, now))
    out = []
    for name, group in groups:
        while group and not group[-1].strip():
            group = group[:-1]
        out.append((name, group))
    return head, uses, out


def split_args(text):
    """The arguments of `tie.spec`."""
    args, depth, word = [], 0, ""
    for ch in text:
        if ch in "([{":
            depth += 1
        if ch in ")]}":
            depth -= 1
        if ch.isspace() and depth == 0:
            if word:
                args.append(word)
            word = ""
        else:
            word += ch
    if word:
        args.append(word)
    return args


def split_branch(text, module, uses):
    """`⊎_elim` of a branch becomes an `elim` with a case for each arm."""
    at = 0
    while (at := text.find("⊎_elim", at)) >= 0:
        k, args = at + len("⊎_elim"), []
        while len(args) < 3:
            while text[k].isspace():
                k += 1
            begin, depth = k, 0
            while k < len(text) and (depth or not text[k].isspace() and text[k] not in ",)"):
                depth += (text[k] in "([{") - (text[k] in ")]}")
                k += 1
            args.append(text[begin:k])
        m = re.fullmatch(r"c\.if-([\w-]+)\.branch", args[2])
        if not m:
            return text
        arms = []
        for side, test, arg in (("then", "true", args[0]), ("else", "false", args[1])):
            body = re.fullmatch(r"\(λ w\. (.*)\)", arg, re.S)
            if not body:
                return text
            body = re.sub(r"\bw\.0\.(taken|left|true|false)\b", f"w.if-{m[1]}.{test}", body[1])
            body = re.sub(r"omega \(arith, w\.if-[\w-]+\.\w+, w\.1\)", "omega arith", body)
            arms.append(f"{side}-{m[1]} w ↦ {body}")
        new = f"elim {args[2]} [\n      {arms[0]}\n    | {arms[1]}\n    ]"
        text = text[:at] + new + text[k:]
        line = f"use {module}.Goals.{{then-{m[1]}, else-{m[1]}}}"
        if line not in uses:
            uses.append(line)
        at += len(new)
    return text


def spec_args(group):
    text = "\n".join(group)
    at = text.index("tie.spec")
    depth, end = 1, at
    for k in range(at, len(text)):
        if text[k] in "([{":
            depth += 1
        if text[k] in ")]}":
            depth -= 1
            if depth == 0:
                end = k
                break
    return split_args(text[at + len("tie.spec") : end])


def invariants(groups, f, said):
    """The items of Invariants.antt, with the variables by name."""
    out = []
    for name, group in groups:
        if not name or not re.match(r"(invariant|decreases)-", name):
            continue
        old = re.sub(r"^(invariant|decreases)-", "", name)
        found = [x for x in f.loops if x[0][0] == old]
        if not found:
            said.append(f"no loop {old}")
            return None
        new, variables = found[0][0][1], found[0][1]
        changed = f.changed[f.loops.index(found[0])] if f.changed else [False] * len(variables)
        text = "\n".join(group)
        text = re.sub(rf"(?<![\w-]){name}(?![\w-])", name.split("-")[0] + "-" + new, text)
        text = re.sub(r"^abbrev (?!pub)", "abbrev pub ", text, flags=re.M).replace("tie.", "goal.")
        lines = text.split("\n")
        k = next(i for i, x in enumerate(lines) if re.match(rf"^{name.split('-')[0]}-{re.escape(new)} ", x) and ":" not in x.split("=")[0])
        params = lines[k].split("=")[0].split()[1:]
        body = "\n".join([lines[k].split("=", 1)[1]] + lines[k + 1 :])
        names = {}
        live = [f"l.initial.{v}" if moves else f"l.{v}" for v, moves in zip(variables, changed)]
        live += [f"l.{v}" for v, moves in zip(variables, changed) if moves]
        if len(live) != len(params):
            said.append(f"{name}: {len(params)} parameters for {' '.join(live)}")
            return None
        names = dict(zip(params, live))
        for p in sorted(names, key=len, reverse=True):
            body = re.sub(rf"(?<![\w.'-]){re.escape(p)}(?![\w'₀-]| =)", names[p], body)
        head = lines[:k]
        out += head + [f"{name.split('-')[0]}-{new} l ={body}", ""]
    return out


def turn(crate, path, f, said):
    folder = f"crates/{crate}/proofs/{path}"
    with open(folder + "/Proof.antt") as file:
        text = file.read()
    lines = text.split("\n")
    head, uses, groups = items(lines)
    spec = [g for g in groups if "tie.close" in "\n".join(g[1])][-1]
    args = spec_args(spec[1])
    loops = [a for a in args if re.match(r"^(invariant|decreases)-", a)]
    answers = args[len(loops) :]
    needs = f.needs
    if len(answers) != len(needs):
        # The kit asks for other goals than the older one: those that only search are left to it, the others go by their names.
        said.append(f"{path}: {len(answers)} answers, {len(needs)} goals")
        answers = [a for a in answers if re.fullmatch(r"[^\s()]+", a)]
        asked = [re.search(rf"^{re.escape(a)} : tie\.Need-([\w-]+)", text, re.M) for a in answers]
        needs = [(m[1], f.need(m[1])) for m in asked]
    if PLACE.search(text):
        return keep_form(folder, text, f, said, path)
    head = [h for h in head if "meets its contract" not in h]
    module = f"Rattle.{crate}.proofs.{path.replace('/', '.')}"
    uses = [u for u in uses if not re.search(r"\.(Statement\.\{statement\}|Tie as tie)$", u)]
    names = {}
    for arg, (_, new) in zip(answers, needs):
        if re.fullmatch(r"[^\s()]+", arg):
            names.setdefault(arg, new)
    out = []
    left = []

    def rename(t):
        for a, b in sorted(names.items(), key=lambda x: -len(x[0])):
            t = re.sub(rf"(?<![\w.'-]){re.escape(a)}(?![\w'-])", "\x00" + b + "\x01", t)
        return t.replace("\x00", "").replace("\x01", "")

    for name, group in groups:
        if group is spec[1] or name and re.match(r"(invariant|decreases)-", name):
            continue
        body = "\n".join(group)
        if name in names:
            new = names[name]
            body = re.sub(rf"^(?:pub )?{re.escape(name)} : tie\.Need-[^\n]*", f"pub {new} : goal.{new}", body, flags=re.M)
            body = re.sub(rf"^{re.escape(name)}( c)( κs)?", rf"{new}\1", body, flags=re.M)
        elif "tie." in body:
            said.append(f"{path}: {name} speaks of tie")
        body = turn_body(body, f, left)
        out += [rename(body) if name not in names else rename_rest(body, rename), ""]
    for arg, (_, new) in zip(answers, needs):
        if re.fullmatch(r"[^\s()]+", arg):
            if names.get(arg) != new:
                out += [f"pub {new} : goal.{new}", f"{new} c = {names[arg]} c", ""]
            continue
        if PLAIN.match(arg):
            continue
        m = re.match(r"^\(λ c( κs)?( \w+)?\.\s*(.*)\)$", arg, re.S)
        if not m:
            said.append(f"{path}: {new} = {arg}")
            continue
        body = rename(turn_body(m[3], f, left))
        extra = m[2] or ""
        out += [f"pub {new} : goal.{new}", *[x for x in spec[1] if x.startswith("unfolding ")], f"{new} c{extra} =\n    " + body, ""]
    inv = invariants(groups, f, said)
    if inv is None:
        return False
    if left:
        said.append(f"{path}: not known: " + " ".join(sorted(set(left))))
    comment = [h for h in head]
    if inv:
        text = comment + [f"use {module}.Given as goal"] + uses + [""] + inv
        write(folder + "/Invariants.antt", text)
        comment = []
    if any(x.startswith("pub ") and ": goal." in x for x in "\n".join(out).split("\n")):
        text = split_branch("\n".join(out), module, uses)
        write(folder + "/Answers.antt", comment + uses + [f"use {module}.Goals as goal", "", text])
    os.remove(folder + "/Proof.antt")
    if not os.listdir(folder):
        os.rmdir(folder)
    return True


def rename_rest(body, rename):
    return "\n".join(line if re.match(r"^\S", line) and not line.startswith("--") and (": goal." in line) else (line if line.startswith("unfolding") else rename_line(line, rename)) for line in body.split("\n"))


def rename_line(line, rename):
    m = re.match(r"^(\S+ [^=]*=)(.*)$", line)
    if m:
        return m[1] + rename(m[2])
    return rename(line)


def keep_form(folder, text, f, said, path):
    """Today's names in a proof that keeps its form."""
    text = re.sub(r"tie\.Need-([\w-]+)", lambda m: "tie.Need-" + (f.need(m[1]) or m[1]), text)
    known = {norm(k): v for k, v in f.places.items()}
    text = re.sub(r"tie\.((?:After|At|Else|In|Then|Joined)[\w-]*)", lambda m: "tie." + known.get(norm(m[1]), m[1]), text)
    for (old, new), _ in f.loops:
        for kind in ("invariant", "decreases"):
            text = re.sub(rf"(?<![\w-]){kind}-{old}(?![\w-])", f"{kind}-{new}", text)

    def field(m):
        key = norm(m[1])
        if key == "pre":
            return ".requires"
        new = f.steps.get(key, m[1])
        if key in FIELDS or new == m[1] + "-1" and key not in f.callees and not m.string.startswith(".given", m.end()):
            return "." + m[1]
        return "." + new

    def given(m):
        names = f.callees.get(norm(m[1]))
        return f".{m[1]}.new." + names[m[2].count("1")] if names else m[0]

    text = re.sub(r"\.([a-z][\w-]*)\.(?:new|last)\.((?:1\.)*0)(?![\w.])", given, text)
    text = re.sub(r"(?<=[\w)])(?<!args)(?<!\.new)\.([a-z][\w-]*)(?![\w-])", field, text)
    text = re.sub(r"(\.(?:if-[\w-]+|[\w-]+-test))\.left(?![\w-])", r"\1.false", text)
    text = re.sub(r"(-arg-[\w-]*\.given)\.0(?![\w.])", r"\1", text)
    text = re.sub(r"\.taken(?![\w-])", ".true", text).replace(".inv.", ".invariant.")
    text = re.sub(r"(?<![\w.'-])not-(?:true|false) (?:[\w.'-]+|\([^()]*\)) ([\w.'-]*(?:\([^()]*\))?\.if-not-[\w-]+\.(?:true|false))", r"\1", text)
    m = re.search(r"pub ([\w-]+)-spec : ", text)
    if m:
        text = text.replace(m[1] + "-spec", path.split("/")[-1] + "_spec")
    with open(folder + "/Proof.antt", "w") as file:
        file.write(text)
    said.append(f"{path}: keeps its form")
    return True


def write(path, lines):
    text = "\n".join(lines)
    text = re.sub(r"\n{3,}", "\n\n", text).strip("\n") + "\n"
    with open(path, "w") as file:
        file.write(text)


def main():
    names, crate, only = sys.argv[1], sys.argv[2], sys.argv[3:]
    with open(names) as file:
        entries = json.load(file)
    for key in sorted(entries):
        m = re.fullmatch(rf"Rattle-{crate}-proofs\.(.+)\.Lts", key)
        if not m:
            continue
        path = m[1].replace(".", "/")
        if only and path not in only or not os.path.exists(f"crates/{crate}/proofs/{path}/Proof.antt"):
            continue
        said = []
        try:
            turn(crate, path, Function(entries[key]), said)
        except Exception as error:
            said.append(f"{path}: {error!r}")
        for line in said:
            print(f"{crate}: {line}")


if __name__ == "__main__":
    main()
