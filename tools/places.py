#!/usr/bin/env python3
"""Finds the places in crates/*/src that today's Rattle may say more plainly, point by point as docs/DESIGN-PASS.md numbers them.
usage: tools/places.py [COMMIT] [--list] in the repository; with no commit, of the files as they stand."""

import collections
import re
import subprocess
import sys

POINTS = [
    "1a. enums and records whose cases are a value or a refusal",
    "1b. fields: a flag, a number of a fault or a kind, beside values",
    "1c. functions that answer a refusal, a fault or a kind as a number",
    "1d. a number that stands for none",
    "2. functions that differ from another in a type, a size, a constant or a name alone",
    "3. loops by `while`",
    "4. functions that say by hand what std says",
    "4b. functions that only read a field",
    "4c. functions that turn the case of an answer into another type",
    "5a. a clause that stands in three or more contracts",
    "5b. functions with three or more of the lists of a bench",
    "5c. functions with units, groups, how many count, and parents",
    "6a. functions with a list to write and a place beside it",
    "6b. functions with a list and how many of it count",
    "7. a switch on a case, a kind or a number, one step each",
]
# what std or the language has: `min`, `saturating_sub`, `saturating_add`, `try_from`, `fill`, `||`, ..
BY_HAND = set("""capped plus byte less least lower upper joined choose pick either wide index number_at group_at parent_at copy find
starts_with is_word is_pair clear counted of_yes no_hop with_parent with_group drawn_at number is_accepted""".split())
METHODS = r"min|saturating_\w+|fill|position|starts_with|get|map_or|unwrap_or|copy_from_slice"
STD = re.compile(rf"\.({METHODS})\(|::(try_from|from)\(|^ +\w+ == \w+$")
REPLY = re.compile(r"\benum (\w*(?:Reply|Verdict|Answer))\b")
FLAG = re.compile(r"^ +pub (fault|refusal|kind|bad|outside|falls|build|verdict|reply|member): ", re.M)
LISTS = re.compile(r"\b(?:tables|messages|pairs|gauges|hops|book): &")


def sources(commit):
    if commit is None:
        paths = subprocess.run(["git", "ls-files", "crates/*/src/*.rt"], capture_output=True, text=True, check=True).stdout.split()
        for path in paths:
            with open(path, encoding="utf-8") as file:
                yield path, file.read()
        return
    tree = subprocess.run(["git", "ls-tree", "-r", "--name-only", commit, "crates"], capture_output=True, text=True, check=True).stdout
    for path in tree.split():
        if re.fullmatch(r"crates/\w+/src/\w+\.rt", path):
            yield path, subprocess.run(["git", "show", f"{commit}:{path}"], capture_output=True, text=True, check=True).stdout


def functions(text):
    """name, signature, contract, body of each function"""
    lines = text.split("\n")
    at = 0
    while at < len(lines):
        head = re.match(r"^( *)(?:pub )?(?:extern \"C\" )?fn (\w+)", lines[at])
        if not head:
            at += 1
            continue
        start, indent = at, head[1]
        while not re.match(indent + r"(\S.*)?\{( .*)?$", lines[at]) or re.match(r" *(requires|ensures)\b", lines[at]):
            at += 1
            if at == len(lines):
                return
        signature = "\n".join(lines[start : at + 1])
        body = at + 1
        while lines[at] != indent + "}":
            at += 1
            if at == len(lines):
                return
        clauses = re.split(r"\n *(?=(?:requires|ensures)\b)", signature)
        yield head[2], clauses[0], clauses[1:], "\n".join(lines[body:at])


def shape(head, body):
    """a function with its names, types, numbers and texts taken out"""
    names = {}
    word = lambda m: m[0] if m[0] in WORDS else names.setdefault(m[0], f"v{len(names)}")
    code = re.sub(r'b?"[^"]*"', "TEXT", head.split("(", 1)[1] + "\n" + body)
    code = re.sub(r"//.*", "", code)
    code = re.sub(r"\b(u8|u16|u32|u64|usize|bool)\b", "TYPE", code)
    code = re.sub(r"\b(\d+)(u8|u16|u32|usize)?\b", "N", code)
    code = re.sub(r"\b[a-z_]\w*\b", word, code)
    return re.sub(r"\s+", " ", code)


WORDS = {"let", "mut", "while", "for", "in", "if", "else", "return", "match", "as", "len", "fn", "pub", "TYPE", "TEXT"}


def places(commit):
    found = collections.OrderedDict((point, []) for point in POINTS)
    clauses = collections.defaultdict(list)
    shapes = collections.defaultdict(list)
    put = lambda point, path, name: found[next(p for p in POINTS if p.startswith(point + "."))].append(f"{path}: {name}")
    for path, text in sources(commit):
        crate = path.split("/")[1]
        for name in REPLY.findall(text):
            put("1a", path, name)
        for name in FLAG.findall(text):
            put("1b", path, name)
        for name in re.findall(r"^const (NO_\w+)", text, re.M):
            put("1d", path, name)
        for name, head, contract, body in functions(text):
            if re.search(r"(refusal|fault|_number)$", name) and re.search(r"-> u(8|16|32|64)$", head.strip()):
                put("1c", path, name)
            if body.count("\n") > 1:
                shapes[shape(head, body)].append(f"{path}: {name}")
            for line in re.findall(r"^ *while .*", body, re.M):
                put("3", path, f"{name}: {line.strip(' {')}")
            if name in BY_HAND and not STD.search(body):
                put("4", path, name)
            if re.fullmatch(r" *(?:let (\w+) = \w+\.[\w.]+;\n *\1|\w+\.\w+(?: as usize)?)", body):
                put("4b", path, name)
            for clause in contract:
                if clause.startswith("requires"):
                    clauses[re.sub(r"\s+", " ", clause.strip(" {"))].append(f"{path}: {name}")
            if len(LISTS.findall(head)) > 2:
                put("5b", path, name)
            if all(re.search(rf"\b{word}: ", head) for word in ("units", "groups", "count", "parents")):
                put("5c", path, name)
            if re.search(r"(out|list): &mut \[u\d+\],\s+at: usize", head) or re.search(r"out: &mut \[u8\],\s+at: usize", head):
                put("6a", path, name)
            if re.search(r"groups: &?(\[u32|Table).*count: ", head, re.S):
                put("6b", path, name)
            if re.search(r"\bmatch (reply|verdict|refusal)\b|let \w+::\w+\(.*\) = (reply|verdict)", body) or name == "fault_reply":
                put("4c", path, name)
            if re.search(r"if (?:\w+::)?is_(?:send|arrive)\(|\.kind == |\bmatch (fault|kind)\b", body) and name != "fault_reply":
                put("7", path, name)
    for clause, where in clauses.items():
        if len(where) > 2:
            for place in where:
                found[next(p for p in POINTS if p.startswith('5a.'))].append(f"{place}: {clause}")
    for where in shapes.values():
        if len(where) > 1:
            found[next(p for p in POINTS if p.startswith('2.'))].extend(where)
    return found


def main():
    words = [w for w in sys.argv[1:] if w != "--list"]
    found = places(words[0] if words else None)
    for point, where in found.items():
        print(f"{len(where):4}  {point}")
        if "--list" in sys.argv:
            for place in where:
                print(f"        {place}")


main()
