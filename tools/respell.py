#!/usr/bin/env python3
"""Brings the names of this repository's definitions and lemmas to today's spelling: words in snake case, types in camel case.

usage: python3 tools/respell.py      once, at the top of the repository, right after the kit's port.py

A name is ours where a specs/ or proofs/ file declares it. Names that the checker makes (goals, steps, invariants) stay as
they are. It stops where two names would fall together.
"""
import os
import re

TOKEN = r"[A-Za-z_«][\w'»]*(?:-[\w']+)+"
DECLARED = re.compile(rf"^\s*(?:(?:pub|abbrev|unfoldable)\s+)*((?:{TOKEN}|\w+)(?:\s+(?:{TOKEN}|\w+))*)\s*:(?=\s)")
TYPE = re.compile(rf"^\s*(?:pub\s+)?(?:record|data)\s+({TOKEN})")
MADE = re.compile(r"^(?:returns|loop|invariant|decreases|overflow|index|if|then|else|in|in_ok|in_err|not|c|l)-")


def files():
    for folder, dirs, names in os.walk("crates"):
        dirs[:] = sorted(d for d in dirs if d != "out")
        for name in sorted(names):
            if name.endswith((".antt", ".rt")):
                yield os.path.join(folder, name)


def is_of_a_function(path):
    """A file that answers the goals of one function."""
    return os.path.basename(path) in ("Answers.antt", "Invariants.antt", "Proof.antt")


def respelled(name):
    if name[0].isupper():
        return "".join(part[0].upper() + part[1:] for part in name.split("-"))
    return name.replace("-", "_")


def declared(path, text):
    found = set()
    for line in text.split("\n"):
        if line.strip().startswith(("--", "use ")):
            continue
        heads = [line] + re.findall(rf"\blet ({TOKEN}.*)", line) + re.findall(rf"[({{]({TOKEN}[^(){{}}]*:.*)", line)
        for head in heads:
            m = DECLARED.match(head) or TYPE.match(head)
            if not m:
                m = re.match(rf"^\s*()({TOKEN})\s+.*=|^\s*()({TOKEN}) =", head)
                words = [w for w in (m.groups() if m else ()) if w]
            else:
                words = m[1].split()
            for word in words:
                if "-" not in word:
                    continue
                if is_of_a_function(path) and (MADE.match(word) or re.search(r":\s*(?:goal|given)\.", head)):
                    continue
                found.add(word)
    return found


def main():
    texts = {p: open(p, encoding="utf-8").read() for p in files()}
    ours, goals = {}, set()
    for p, t in texts.items():
        if p.endswith(".antt"):
            goals |= set(re.findall(r"(?:goal|given)\.([\w'+-]+)", t))
    for p, t in texts.items():
        if p.endswith(".antt"):
            for name in declared(p, t):
                if name not in goals:
                    ours.setdefault(name, set()).add(p)
    of_libraries = {}
    for p, t in texts.items():
        for module, names in re.findall(r"^(?:ghost )?use ([\w.]+)\.\{(.*)\}", t, re.M):
            if not (module.startswith("Rattle.") and os.path.isdir("crates/" + module.split(".")[1])):
                of_libraries.setdefault(p, set()).update(n.split(" as ")[0].strip() for n in names.split(","))
    map_ = {n: respelled(n) for n in ours}
    back = {}
    for old, new in map_.items():
        back.setdefault(new, []).append(old)
    clash = {n: o for n, o in back.items() if len(o) > 1}
    words = {}
    for p, t in texts.items():
        if p.endswith(".antt"):
            for w in re.findall(r"[A-Za-z_][\w']*", re.sub(r"--.*", "", t)):
                words.setdefault(w, set()).add(p.split("/")[1])
    for old, new in sorted(map_.items()):
        if new in words:
            print("look:", old, "->", new, "is a word already in", sorted(words[new]))
    if clash:
        raise SystemExit(f"names fall together: {clash}")
    pattern = re.compile(r"(?<![\w'-])(" + "|".join(sorted(map(re.escape, map_), key=len, reverse=True)) + r")(?![\w'-])")
    functions = {m.replace("_", "-") for p, t in texts.items() if p.endswith(".rt") for m in re.findall(r"\bfn (\w+)", t)}
    for name in sorted(functions & set(map_)):
        print("look:", name, "is also how the checker may have called a step")
    for p, t in texts.items():
        if p.endswith(".rt"):
            lines = [l if l.strip().startswith("//") or '"' in l else pattern.sub(lambda m: map_[m[1]], l) for l in t.split("\n")]
            new = "\n".join(lines)
        else:
            kept = of_libraries.get(p, set())
            new = pattern.sub(lambda m: m[1] if m[1] in kept else map_[m[1]], t)
        if new != t:
            open(p, "w", encoding="utf-8").write(new)
    print(f"respell: {len(map_)} names")
    with open("/tmp/respelled.txt", "w") as f:
        for old, new in sorted(map_.items()):
            f.write(f"{old} {new}\n")


if __name__ == "__main__":
    main()
