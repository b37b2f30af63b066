#!/usr/bin/env python3
"""Respells this repository's own definitions, lemmas, fields, constructors and variables: words are joined by `_`, not by `-`.

usage: python3 tools/respell_names.py [TOP [KIT]]     after port.py, at the top of the repository; KIT is the folder of the kit's rt

Which names: the words with a dash in the files of crates/*/specs/ and crates/*/proofs/, but for those of a function's own folder,
that no file of the kit has, and those that such a file declares. Names that Rattle makes stay, and so do names of Rust's functions,
strings, inputs and outputs. A name that a file imports from a library stays in that file. In pages (*.md) names change between
backticks alone. Five names that port.py gave a capital get it back.
Also renamed: modules `specs.Contracts` (the name is Rattle's now) to `specs.Promises`.
"""

import os
import re
import shutil
import sys

WORD = re.compile(r"[^\s(){}\[\],;.:λ→\"`]+")
OWN = re.compile(r"[A-Za-z0-9_'ᴰ-]+")
HEAD = re.compile(r"((?:(?:abbrev|unfoldable|pub|ruleset|record|data|irrelevant)\s+)*)([^\s(){}\[\],;:λ→\"`]+)\s*(?:\{[^}]*\}\s*)*(?:[({][^:]*[)}]\s*)*(?::(?!:)|=)")
FIELD = re.compile(r"\s+(?:pub\s+)?((?:[^\s(){}\[\],;:λ→\"`.]+\s+)+):\s")
USE = re.compile(r"^\s*(?:ghost |pub )*use ([^;{]*?)(?:\.\{([^}]*)\})?;?\s*$", re.M)
STRING = re.compile(r'"(?:[^"\\]|\\.)*"')


CAPITALS = {"one-Unit": "one_unit", "first-Marks": "first_marks", "in-List": "in_list", "is-IsWide": "is_wide", "Room-after": "room_after"}
CAPITALS |= {name.replace("-", "_"): small for name, small in CAPITALS.items()}


def respelled(name):
    return CAPITALS.get(name) or name.replace("getD", "get_or").replace("-", "_")


def words_of(kit):
    """The words with a dash in the kit's own files."""
    found = set()
    for folder, _, files in os.walk(os.path.join(kit, "rattle")):
        for f in files:
            if f.endswith((".antt", ".rt")):
                with open(os.path.join(folder, f), encoding="utf-8", errors="replace") as it:
                    found.update(w for w in WORD.findall(it.read()) if "-" in w)
    return found


def texts(top):
    for folder, dirs, files in os.walk(top):
        inside = "/crates/" in folder + "/"
        dirs[:] = sorted(d for d in dirs if d != ".git" and (inside or d not in ("out", "target", "build")))
        for f in sorted(files):
            if "/out/" not in folder + "/" and f.endswith((".rt", ".antt", ".edit", ".md")):
                yield os.path.join(folder, f)


def declared(path, text):
    """The names with a dash that a file of specs/ or proofs/ declares; a function's own folder declares none."""
    parts = path.split("/crates/")[-1].split("/")
    if not path.endswith(".antt") or "/crates/" not in path or (parts[1] == "proofs" and len(parts) > 3):
        return set()
    found = set()
    for line in text.split("\n"):
        if line.startswith("use ") or line.lstrip().startswith("--"):
            continue
        m, g = HEAD.match(line), FIELD.match(line)
        if m:
            found.add(m.group(2))
        elif g:
            found.update(g.group(1).split())
    return {n for n in found if "-" in n.strip("-") and OWN.fullmatch(n)}


def used(path, text):
    """The words with a dash in such a file, outside its comments and imports."""
    parts = path.split("/crates/")[-1].split("/")
    if not path.endswith(".antt") or "/crates/" not in path or (parts[1] == "proofs" and len(parts) > 3):
        return set()
    lines = [l for l in text.split("\n") if not l.startswith("use ") and not l.lstrip().startswith("--")]
    return {w for l in lines for w in WORD.findall(l) if "-" in w.strip("-") and OWN.fullmatch(w) and w[0].isalpha()}


def foreign(text, crates):
    """The names that a file imports from a library."""
    found = set()
    for path, names in USE.findall(text):
        m = re.match(r"Rattle\.(\w+)", path)
        if not m or m.group(1) not in crates:
            found.update(WORD.findall(names))
    return found


def turned(path, text, names, stay):
    def word(m):
        parts = m.group(0).split("◌")
        return "◌".join(respelled(w) if w in names and w not in stay else w for w in parts)

    def outside_strings(t):
        out, at = [], 0
        for m in STRING.finditer(t):
            out += [WORD.sub(word, t[at:m.start()]), m.group(0)]
            at = m.end()
        return "".join(out) + WORD.sub(word, t[at:])

    if path.endswith(".md"):
        # a file's name stays
        return re.sub(r"`[^`\n]+`", lambda m: m.group(0) if re.search(r"/|\.(txt|bin|listing|md|rs|edit)\b", m.group(0)) else WORD.sub(word, m.group(0)), text)
    if path.endswith(".rt"):
        return "\n".join(outside_strings(l) for l in text.split("\n"))
    return WORD.sub(word, text)


def main(top, kit):
    crates = set(os.listdir(os.path.join(top, "crates")))
    all_texts = {p: open(p, encoding="utf-8").read() for p in texts(top)}
    names, words, taken = set(), set(), words_of(kit)
    for p, t in all_texts.items():
        names |= declared(p, t)
        words |= used(p, t)
        taken |= foreign(t, crates) if p.endswith((".rt", ".antt")) else set()
    names |= {w for w in words if w not in taken} | set(CAPITALS)
    others = [respelled(n) for n in names if n != respelled(n) and n not in CAPITALS]
    fallen = sorted({n for n in others if others.count(n) > 1})
    if fallen:
        raise SystemExit(f"names that fall together: {fallen}")
    changed = 0
    for p, t in all_texts.items():
        stay = foreign(t, crates) if p.endswith((".rt", ".antt")) else set()
        new = turned(p, t, names, stay)
        new = re.sub(r"\bspecs\.Contracts\b", "specs.Promises", new)
        if p.endswith("/specs/Lib.antt"):
            new = re.sub(r"\bmod Contracts\b", "mod Promises", new)
        if new != t:
            changed += 1
            open(p, "w", encoding="utf-8").write(new)
        if p.endswith("/specs/Contracts.antt"):
            os.rename(p, p.replace("Contracts.antt", "Promises.antt"))
    print(f"{len(names)} names, {changed} files")


if __name__ == "__main__":
    main(os.path.abspath(sys.argv[1] if len(sys.argv) > 1 else "."), sys.argv[2] if len(sys.argv) > 2 else os.path.dirname(os.path.dirname(os.path.realpath(shutil.which("rt")))))
