#!/usr/bin/env python3
"""Respells the names that this repository declares in its .antt files, as Rattle's guide for names has it: a definition or a lemma is in
snake case; in the name of a lemma a dash joins two names, and a plain word is added with an underscore. Types, facts and modules keep their
capital. usage: tools/respell.py [--list] in the repository; run once, on the files as the kit's port script left them."""

import os
import re
import subprocess
import sys

SIGNATURE = re.compile(r"^\s*(?:(?:unfoldable|abbrev|pub)\s+)*([^\s:(){}.,;]+(?:\s+[^\s:(){}.,;]+)*)\s+:\s")
IMPORT = re.compile(r"\buse\s+([\w.·+'-]+?)\.\{([^}]*)\}")
# an identifier: no blank, bracket, dot, comma or semicolon
TOKEN = re.compile(r"[^\s(){}\[\].,;:`\"⌜⌝λ→]+")
# where the plain spelling is taken by a parameter, a field or a lemma
CHOSEN = {
    "afterNext": "forwarding_after_next", "bookLent": "lent_book", "hopsLent": "lent_hops", "freshBook": "book_of_fresh",
    "freshHops": "hops_of_fresh", "nextPlace": "place_of_next", "noNumber": "not_a_number", "ranOn": "result_of_run", "restIn": "is_rest_in",
}
WORDS = {"where", "let", "in", "elim", "record", "data", "module", "use", "pub", "open", "→"}


def tracked(*globs):
    return subprocess.run(["git", "ls-files", *globs], capture_output=True, text=True, check=True).stdout.split()


def read(path):
    with open(path, encoding="utf-8") as f:
        return f.read()


def code(line):
    return line.split("--", 1)[0] if line.lstrip().startswith("--") or " -- " in line else line


def snake(name):
    return re.sub(r"(?<=[a-z0-9])([A-Z])", lambda m: "_" + m[1].lower(), name)


def survey(files):
    """Declared names, but for those in the proof of one function; names imported from elsewhere; the latter and the source's values."""
    declared, foreign, taken = set(), set(), set()
    own = {p.split("/")[1] for p in files}
    for path in files:
        text = read(path)
        for line in text.split("\n"):
            m = SIGNATURE.match(code(line))
            if m and not line.lstrip().startswith(("use ", "module ", "--")):
                names = {n for n in m[1].split() if n not in WORDS}
                taken |= names
                declared |= names if not path.endswith("/Proof.antt") else set()
        for module, names in IMPORT.findall(text):
            crate = module.split(".")[1] if module.startswith("Rattle.") and "." in module else ""
            if crate not in own:
                foreign |= {item.split()[0] for item in names.split(",") if item.split()}
    for path in tracked("crates/*.rt"):
        # parameters, fields, locals and constants
        taken |= set(re.findall(r"\b(\w+): ", read(path))) | set(re.findall(r"\blet (?:mut )?(\w+)", read(path)))
    return declared, foreign, taken | foreign


def joined(name, names):
    """A dash between two names, else an underscore."""
    parts = name.split("-")
    if "" in parts or not re.fullmatch(r"[\w'₀-₉]+", "".join(parts)):
        return name
    out, left = parts[0], parts[0]
    for part in parts[1:]:
        dash = left in names and part in names
        out += ("-" if dash else "_") + part
        left = part if dash else left + "_" + part
    return out


def renames(files):
    declared, foreign, taken = survey(files)
    names = {snake(n) for n in declared | foreign if "-" not in n} | {"zero", "suc", "true", "false"}
    out, clashes = {}, []
    for n in sorted(declared, key=lambda n: ("-" in n, n)):
        if n in foreign or n[0].isupper() or not n[0].isalpha():
            continue
        to = CHOSEN.get(n) or (joined(snake(n), names) if "-" in n else snake(n))
        if to != n:
            (out.__setitem__(n, to) if to not in taken else clashes.append((n, to)))
    seen = {}
    for n, to in list(out.items()):
        if to in seen:
            clashes.append((n, to))
            del out[n]
        seen.setdefault(to, n)
    return out, clashes


def turned(text, table):
    return TOKEN.sub(lambda m: table.get(m[0], m[0]), text)


def turn(path, text, table):
    plain = {k: v for k, v in table.items() if "-" not in k}
    if path.endswith(".antt"):
        lines = []
        for line in text.split("\n"):
            bare = code(line)
            lines.append(turned(bare, table) + turned(line[len(bare):], plain))
        return "\n".join(lines)
    if path.endswith(".edit"):
        return turned(text, table)
    if path.endswith(".rt"):
        return turned(text, plain)
    return re.sub(r"`[^`\n]*`", lambda m: turned(m[0], table), text)


def main(argv):
    files = tracked("crates/*.antt")
    table, clashes = renames(files)
    if "--list" in argv:
        for n, to in sorted(table.items()):
            print(n, "->", to)
        for n, to in clashes:
            print("CLASH", n, to)
        return 0
    for path in tracked("crates/*.antt", "crates/*.rt", "crates/*.edit", "docs/*.md", "README.md"):
        text = read(path)
        new = turn(path, text, table)
        if new != text:
            with open(path, "w", encoding="utf-8") as f:
                f.write(new)
    print(f"{len(table)} names respelled; {len(clashes)} kept, since the new name was taken")
    return 0


if __name__ == "__main__":
    raise SystemExit(main(sys.argv[1:]))
