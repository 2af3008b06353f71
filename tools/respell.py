#!/usr/bin/env python3
"""Respells the repository's own ghost names as today's Rattle spells names.

usage: python3 tools/respell.py        once, at the top of a checkout, after the kit's port.py

Definitions, lemmas, fields, constructors and bound variables of specs/ and proofs/ are spelled in snake case (a-b and aB become a_b);
those whose type ends in `Type 0`, and the types' names, in camel case (A-b becomes AB). Names that Rattle makes from the source
(goals, steps of an answer's argument) keep their dashes, and so do std's. Functions and types of src/ keep their names.
It prints names that would fall together, and those that stand beside a function of the new name.
"""

import collections
import os
import re
import sys

WORD = r"[^\s(){}\[\];,.:λ∀→×⊎≡≢|?=∷\"`@⌜⌝&<>≤≥∙↦⟦⟧]+"
TOKEN = re.compile(WORD)
DASHED = re.compile(r"^[A-Za-z_][\w']*(-[\w'≡≢≤<+*∷ℕ]+)+$")
CAMEL = re.compile(r"^[a-z][\w']*[A-Z][\w']*$")
# other spellings than the rule gives
OTHERS = {
    "ends-in": "ends_below",
    "leaf-at": "same_leaf_at",
    "no-side": "finds_no_side",
    "R-best": "seam_row_best",
    "seam-in": "seam_is_cut",
    "seam-of": "seam_of_piece",
    "seamOf": "seam_of",
    "Reads-back": "EveryListReadsBack",
    "piece-at": "same_piece_at",
}


def files(root):
    for folder, dirs, names in os.walk(os.path.join(root, "crates")):
        dirs[:] = sorted(d for d in dirs if d != "out")
        for name in sorted(names):
            if name.endswith((".antt", ".rt")):
                yield os.path.join(folder, name)


def goal_file(path):
    return os.path.basename(path) in ("Answers.antt", "Invariants.antt", "Proof.antt")


def is_type(lines, i):
    """Whether the declaration that begins at line i has a type that ends in Type 0."""
    text = lines[i].split(":", 1)[1] if ":" in lines[i] else ""
    j = i + 1
    indent = len(lines[i]) - len(lines[i].lstrip())
    while j < len(lines) and lines[j].strip() and len(lines[j]) - len(lines[j].lstrip()) > indent:
        text += lines[j]
        j += 1
    return bool(re.match(r"\s*(pub )?(record|data) ", lines[i])) or text.rstrip().endswith(("Type 0", "Type 1"))


def snake(name):
    name = name.replace("-", "_")
    return re.sub(r"(?<=[a-z0-9])([A-Z])", lambda m: "_" + m.group(1).lower(), name)


def camel(name):
    return "".join(p[:1].upper() + p[1:] for p in name.split("-"))


DECL = re.compile(r"^(\s*)((?:abbrev|unfoldable|opaque|pub|data|record|syntax|ruleset)\s+)*(" + WORD + r")(\s*[({].*)?\s:")
BOUND = re.compile(r"λ((?:\s*" + WORD + r")+)\s*\.")
LET = re.compile(r"\blet\s+(" + WORD + r")")
GROUP = re.compile(r"[({]((?:" + WORD + r"\s+)*" + WORD + r")\s*:")


def own_names(root):
    own = {}
    for path in files(root):
        if not path.endswith(".antt"):
            continue
        with open(path, encoding="utf-8") as f:
            text = f.read()
        lines = text.split("\n")
        for i, line in enumerate(lines):
            code = line.split("--")[0] if line.lstrip().startswith("--") or " -- " in line else line
            if code.startswith("use ") or code.startswith("pub use "):
                continue
            m = DECL.match(code)
            if m:
                name = m.group(3)
                made = goal_file(path) and re.search(r":\s*goal\." + re.escape(name) + r"\s*$", code)
                if not made and (DASHED.match(name) or CAMEL.match(name)):
                    kind = "type" if name[0].isupper() and is_type(lines, i) else "value"
                    own.setdefault(name, kind)
            for g in BOUND.finditer(code):
                for name in g.group(1).split():
                    if DASHED.match(name) or CAMEL.match(name):
                        own.setdefault(name, "value")
            for name in LET.findall(code):
                if DASHED.match(name) or CAMEL.match(name):
                    own.setdefault(name, "value")
            for g in GROUP.findall(code):
                for name in g.split():
                    if DASHED.match(name) or CAMEL.match(name):
                        own.setdefault(name, "value")
            # lemmas by equations bind names on the left of `=`
            m = re.match(r"^(\s*)(" + WORD + r")((?:\s+\S+)*)\s=(\s|$)", code)
            if m:
                for it in TOKEN.finditer(m.group(3)):
                    name = it.group(0)
                    if m.group(3)[: it.start()].endswith("."):
                        continue
                    if DASHED.match(name) or CAMEL.match(name):
                        own.setdefault(name, "value")
    return own


def respelled(own):
    to = {}
    for name, kind in own.items():
        if name in OTHERS:
            to[name] = OTHERS[name]
        elif kind == "type":
            to[name] = camel(name)
        else:
            new = snake(name)
            to[name] = new[:1].lower() + new[1:] if name[0].isupper() and "-" in name else new
    return to


IMPORT = re.compile(r"use ((?:Rattle|Prim|antt)[\w.+-]*)\.\{([^}]*)\}")


def turn(path, text, to):
    """The text with own names respelled."""
    std = set()
    for where, names in IMPORT.findall(text):
        if where.startswith("Rattle.std.") or not where.startswith("Rattle."):
            for n in names.split(","):
                std.add(n.split(" as ")[-1].strip())
    out = []
    rust = path.endswith(".rt")
    goals = goal_file(path)
    # names that an answer binds to records that Rattle makes
    roots = {"c", "l", "g"} if goals else set()
    if goals:
        for m in re.finditer(r"[\[|]\s*" + WORD + r"\s+(" + WORD + r")\s*↦", text):
            roots.add(m.group(1))
    for line in text.split("\n"):
        if rust:
            head, sep, tail = (line, "", "") if "//" not in line else line.partition("//")
        else:
            at = line.find("--") if line.lstrip().startswith("--") else line.find(" -- ")
            head, sep, tail = (line, "", "") if at < 0 else (line[:at], "", line[at:])
        tail = re.sub(r"`([^`]+)`", lambda m: "`" + TOKEN.sub(lambda k: to.get(k.group(0), k.group(0)), m.group(1)) + "`", tail)
        if rust and '"' in head:
            out.append(head + sep + tail)
            continue
        std_line = bool(re.match(r"\s*(?:ghost |pub )*use Rattle\.std\.", head))

        def one(m):
            name = m.group(0)
            if name not in to or std_line:
                return name
            before = head[: m.start()]
            if name in std and not before.endswith("."):
                return name
            if goals and before.endswith("goal."):
                return name
            chain = re.search(r"((?:" + WORD + r"\.)+)$", before)
            if chain:
                parts = chain.group(1).split(".")[:-1]
                if goals and parts[0] in roots:
                    if len(parts) == 1:
                        return name
                    if parts[-1] in ("auto", "new", "type_inv", "ranges"):
                        return name
            return to[name]

        if goals and re.search(r":\s*goal\.", head):
            out.append(head + sep + tail)
            continue
        out.append(TOKEN.sub(one, head) + sep + tail)
    return "\n".join(out)


def made_names(path, text):
    return set(re.findall(r":\s*goal\.(" + WORD + r")", text))


def main():
    root = "."
    own = own_names(root)
    to = respelled(own)
    taken = collections.defaultdict(set)
    for old, new in to.items():
        taken[new].add(old)
    clash = {n: o for n, o in taken.items() if len(o) > 1}
    for new, olds in sorted(clash.items()):
        print(f"fall together: {sorted(olds)} as {new}")
    # a new name that the same file has already
    texts = {}
    for path in files(root):
        with open(path, encoding="utf-8") as f:
            texts[path] = f.read()
    for path, text in texts.items():
        words = set(TOKEN.findall(text))
        for old in words & set(to):
            if to[old] in words:
                print(f"beside: {path}: {old} beside {to[old]}")
    if "--look" in sys.argv:
        return
    for path, text in texts.items():
        made = made_names(path, text)
        mine = {o: n for o, n in to.items() if o not in made} if made else to
        new = turn(path, text, mine)
        if new != text:
            with open(path, "w", encoding="utf-8") as f:
                f.write(new)
    print(f"{len(to)} names")


main()
