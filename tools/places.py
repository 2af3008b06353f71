#!/usr/bin/env python3
"""Counts and lists places in crates/*/src that an older form of the language may have shaped.

usage: tools/places.py [COMMIT] [--list]      without COMMIT: the working tree

Each number is a count of candidates: a reader decides which of them are places to change."""
import re
import subprocess
import sys
from collections import defaultdict

args = [a for a in sys.argv[1:] if not a.startswith("--")]
commit = args[0] if args else None
listing = "--list" in sys.argv


def git(*words):
    return subprocess.run(["git", *words], capture_output=True, text=True, check=True).stdout


if commit:
    names = git("ls-tree", "-r", "--name-only", commit, "crates").split("\n")
else:
    names = git("ls-files", "crates").split("\n")
texts = {}
for name in names:
    if name.endswith(".antt") or re.match(r"crates/\w+/src/.*\.rt$", name):
        try:
            texts[name] = git("show", f"{commit}:{name}") if commit else open(name).read()
        except (OSError, subprocess.CalledProcessError):
            pass
sources = {n: t for n, t in texts.items() if n.endswith(".rt")}


class Function:
    def __init__(self, crate, file, name, comment, signature, clauses, body):
        self.crate, self.file, self.name, self.comment = crate, file, name, comment
        self.signature, self.clauses, self.body = signature, clauses, body

    def __str__(self):
        return f"{self.file.split('/')[1]}/{self.file.split('/')[-1]}: {self.name}"


def functions(file, text):
    crate = file.split("/")[1]
    out = []
    for m in re.finditer(r"^( *)(?:pub(?:\(crate\))? )?fn (\w+)", text, re.M):
        indent = m.group(1)
        end = re.search(rf"^{indent}(\{{\}}|\}})$|;$", text[m.start():], re.M)
        whole = text[m.start():m.start() + end.end()] if end else text[m.start():]
        cut = re.search(rf"^{indent}\{{", whole, re.M)
        inline = re.search(r"\{\n", whole.split("\n    requires")[0].split("\n    ensures")[0])
        at = cut.start() if cut else (inline.start() if inline else len(whole))
        head, body = whole[:at], whole[at:]
        parts = re.split(r"^\s*(?:requires|ensures)\b", head, flags=re.M)
        above = text[:m.start()].rstrip("\n").split("\n")
        comment = []
        while above and above[-1].strip().startswith(("//", "#[")):
            comment.append(above.pop().strip())
        out.append(Function(crate, file, m.group(2), " ".join(reversed(comment)), parts[0], parts[1:], body))
    return out


everything = [f for n, t in sources.items() for f in functions(n, t)]
found = defaultdict(list)


def lines(label, pattern):
    for name, text in sources.items():
        for i, line in enumerate(text.split("\n"), 1):
            if re.search(pattern, line) and not line.strip().startswith("//"):
                found[label].append(f"{name.split('/')[1]}/{name.split('/')[-1]}:{i}: {line.strip()[:90]}")


# 1
for name, text in sources.items():
    for m in re.finditer(r"enum (\w+)(?:<[^>]*>)? \{\n(.*?)\n\}", text, re.S):
        variants = [v for v in re.findall(r"^    (\w+.*),$", m.group(2), re.M)]
        if len(variants) == 2:
            found["1a enums of two variants"].append(f"{name.split('/')[1]}: {m.group(1)}: {variants}")
for f in everything:
    result = f.signature.split("->")[-1].strip() if "->" in f.signature else ""
    if result.startswith("bool") and "&mut" in f.signature:
        found["1b functions that write and answer bool"].append(str(f))
    if re.match(r"Option<(\w*Refusal|\w*Fault)>", result):
        found["1c refusals in an Option"].append(str(f))
    if re.match(r"\((usize|u8|bool|&'static str)", result):
        found["1d pairs of a flag or number and a value"].append(str(f))
    if re.match(r"(usize|u8|u16|R)\b", result) and re.search(r"\b0 (if|where|past)|\bor 0\b|answer is 0|count` where|; `count`|0 where|`count`\.| the number of terminals where", f.comment):
        found["1e numbers that stand for no answer"].append(str(f))
    if f.name in ("code", "number", "byte", "of_byte"):
        found["1f numbers of kinds and refusals"].append(str(f))
    if re.match(r"u8$", result) and re.search(r"\{\s*0\s*\}", f.body):
        found["1g theorems that answer 0"].append(str(f))
# 2
groups = defaultdict(list)
keywords = set("if else match for in while loop let mut return fn pub impl self Self Some None Ok Err true false as".split())
for f in everything:
    words = re.findall(r"\w+|[^\w\s]", f.body)
    shape = " ".join(w if w in keywords or not re.match(r"\w", w) else "w" for w in words)
    if len(words) >= 14:
        groups[shape].append(str(f))
for shape, members in groups.items():
    if len(members) > 1 and not all("main" in m for m in members):
        found["2a bodies of one shape"].append(" = ".join(members))
# 3
lines("3a loops over numbers", r"for \w+ in [^{]*\.\.")
lines("3b while and loop", r"^\s*(while|loop)\b")
lines("3c counters kept by hand", r"(\+= 1;|= \w+\.saturating_add\(1\);)")
# 4
lines("4a impls of From, TryFrom, FromStr, Display, comparisons", r"impl.* (From|TryFrom|FromStr|fmt::Display|Display|PartialEq|Ord|PartialOrd)\b.* for ")
for f in everything:
    result = f.signature.split("->")[-1].strip() if "->" in f.signature else ""
    if "&'static str" in result or re.search(r"(^show$|explain|_text$|^line_of$|^end_of$)", f.name):
        found["4b functions that make text"].append(str(f))
    if re.search(r"(_named$|^read_|of_byte|number_of|_from$|tonnes_of)", f.name) and "Option" in result:
        found["4c functions that read a value from text or a byte"].append(str(f))
    if f.name in ("low", "high", "comes_before", "same_ends", "lies_between", "lies_beyond", "narrow"):
        found["4d order and limits by hand"].append(str(f))
# 5
facts = defaultdict(set)
for f in everything:
    for clause in f.clauses:
        body = clause[clause.index("{") + 1:clause.rindex("}")] if "{" in clause else ""
        for part in re.split(r"→|(?<=\)) × (?=\()", body):
            part = re.sub(r"\.(now|old|new|entry)\b", "", part.strip())
            if len(part) > 24:
                facts[f.crate, part].add(f.name)
for (crate, part), users in sorted(facts.items()):
    if len(users) >= 3:
        found["5a facts in the contracts of three or more functions"].append(f"{crate}: {len(users)} times: {part[:150]}")
pairs = defaultdict(set)
for f in everything:
    inside = f.signature[f.signature.find("("):f.signature.rfind("->") if "->" in f.signature else None]
    given = re.findall(r"(\w+): (&?(?:mut )?[\[\]\w<>', ]+?)(?=,|\))", inside)
    given = [g for g in given if g[0] not in ("heap", "rt")]
    for i in range(len(given)):
        for j in range(i + 1, len(given)):
            pairs[f.crate, given[i][0], given[j][0]].add(f.name)
for (crate, one, other), users in sorted(pairs.items()):
    if len(users) >= 4:
        found["5b pairs of parameters in four or more functions"].append(f"{crate}: {one}, {other}: {len(users)}")
lines("5c several facts in one requires", r"requires .*\) × \(")
# 6
lines("6a lengths and counts beside an array", r"^\s*(pub )?(count|len): (usize|u8),")
lines("6b fields with numbers for names", r"^\s*(pub )?\w*[0-9]: ")
for f in everything:
    if re.search(r"&mut \[\w+\],\s*count: usize", f.signature):
        found["6c a buffer and its count as parameters"].append(str(f))
# 7
for f in everything:
    for flag in re.findall(r"(\w+): bool", f.signature):
        found["7a parameters of type bool"].append(f"{f}: {flag}")
lines("7b matches on a bare kind", r"match (place|view|shape|self\.kind)\b")
# 8
answers = sum(len(re.findall(r"^pub [\w-]+ : goal", t, re.M)) for n, t in texts.items() if n.endswith("Answers.antt"))
lemma_lines = sum(t.count("\n") for n, t in texts.items() if "/proofs/" in n)
found["8 answers, lines of proofs"] = [f"{answers} answers, {lemma_lines} lines"]

for label in sorted(found):
    print(f"{label}: {found[label][0] if label.startswith('8') else len(found[label])}")
    if listing and not label.startswith("8"):
        for item in found[label]:
            print("    " + item)
