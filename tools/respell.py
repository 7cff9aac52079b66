#!/usr/bin/env python3
"""Respells this repository's own definitions, lemmas, fields and clauses from dashes to underscores.

    python3 tools/respell.py [FOLDER]      FOLDER has crates/; where it is left out, the folder above this file's

It goes by text, after the kit's port.py, and is run once. A name is the repository's own if a file of specs/ or proofs/
declares it (a definition, a lemma, a field, a constructor), or if a clause or a ghost field of src/ has it; the names of
goals, which the check makes, and names that a file imports from elsewhere stay. It says where two names would fall together.
"""
import os
import re
import sys

IDENT = r"[^\s(){}\[\];,.:\"λ⟦⟧]+"
TOKEN = re.compile(IDENT)
DECLARED = re.compile(r"^\s*(?:(?:abbrev|unfoldable|pub|record|data)\s+)*(" + IDENT + r")(?:\s+(?:\([^()]*(?:\([^()]*\)[^()]*)*\)|\{[^{}]*\}))*\s*:(?:\s|$)(.*)")
CLAUSE = re.compile(r"\b(?:ensures|requires|ghost)\*?\s+([a-z]\w*_\w+)\s*[:{=]")
USE = re.compile(r"^\s*(?:pub\s+)?(?:ghost\s+)?use\s+([^{\s]+?)\.?\{([^}]*)\}")


def files(root):
    for folder, dirs, names in os.walk(os.path.join(root, "crates")):
        dirs[:] = sorted(d for d in dirs if d != "out")
        for name in sorted(names):
            if name.endswith((".antt", ".rt")):
                yield os.path.join(folder, name)


def main(root):
    texts = {p: open(p, encoding="utf-8").read() for p in files(root)}
    crates = set(os.listdir(os.path.join(root, "crates")))
    own, goals = {}, set()
    for path, text in texts.items():
        if path.endswith(".rt"):
            for name in CLAUSE.findall(text):
                own.setdefault(name.replace("_", "-"), path)
            continue
        for line in text.split("\n"):
            m = DECLARED.match(line)
            if not m or line.lstrip().startswith(("--", "use ")) or "-" not in m.group(1):
                continue
            if m.group(2).startswith("goal."):
                goals.add(m.group(1))
            else:
                own.setdefault(m.group(1), path)
    own = {n: p for n, p in own.items() if "-" in n.strip("-") and n not in goals and re.fullmatch(r"[\w'-]+", n)}

    def imported(text):
        """The names that a file imports from other repositories."""
        found = set()
        for line in text.split("\n"):
            m = USE.match(line)
            if m and not (m.group(1).startswith("Rattle.") and m.group(1).split(".")[1] in crates):
                found.update(w for w in re.split(r"[\s,]+", m.group(2)) if w)
        return found

    clashes = []
    out = {}
    for path, text in texts.items():
        foreign = imported(text)
        used = set(TOKEN.findall(text))
        for name in sorted(used & set(own) - foreign):
            if name.replace("-", "_") in used and name.replace("-", "_") not in {n.replace("-", "_") for n in used if n in own and n != name}:
                clashes.append(f"{path}: {name}")
        out[path] = TOKEN.sub(lambda m: m.group(0).replace("-", "_") if m.group(0) in own and m.group(0) not in foreign else m.group(0), text)
    for c in clashes:
        print("falls together with a name of the same file:", c)
    changed = 0
    for path, text in out.items():
        if text != texts[path]:
            changed += 1
            with open(path, "w", encoding="utf-8") as f:
                f.write(text)
    print(f"{len(own)} names, {changed} files changed")


if __name__ == "__main__":
    main(os.path.abspath(sys.argv[1]) if len(sys.argv) > 1 else os.path.dirname(os.path.dirname(os.path.abspath(__file__))))
