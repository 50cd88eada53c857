#!/usr/bin/env python3
"""Counts the lines of definitions that the contract of a public call rests on.

    tools/definitions.py CRATE FUNCTION [CLAUSE..]     as  tools/definitions.py cha_cert check law

Begins with the names in the clauses of the function (all of them, or those named), and follows each definition of a `specs/`
folder to those that it names, operators, and the types and constants of the code that definitions cite. Definitions of the kit's
library are not counted. With `--list` each definition is printed with its file and its lines.
"""
import glob
import os
import re
import sys

TOP = os.path.dirname(os.path.dirname(os.path.abspath(__file__)))


def plain(name):
    """A name as it stands in a text: an operator without the places of its arguments."""
    return name.strip().replace("◌", "")


def words(text):
    """The names in a text, and its signs, of which an operator may be one."""
    return set(re.findall(r"[\w'-]+", text)) | set(re.findall(r"[^\w\s'(){}\[\],.;]+", text))


def imports(lines):
    """The names that a file imports from specs of this repository: name -> (crate, module, name there)."""
    found = {}
    for line in lines:
        m = re.match(r"(?:ghost )?use Rattle\.(\w+)\.specs\.([\w.]+?)(?:\.\{(.*)\}| as \w+);?$", line.strip())
        if not m:
            continue
        path = m.group(2).split(".")
        for item in (m.group(3) or "").split(","):
            parts = item.strip().split(" as ")
            if path[0] != "declared":
                found[plain(parts[-1])] = (m.group(1), path[0], plain(parts[0]))
            elif path[1:] == ["TheConstants"]:
                found[plain(parts[-1])] = (m.group(1), "declared", plain(parts[0]))
            elif len(path) > 2:
                # a type, or one of its variants
                found[plain(parts[-1])] = (m.group(1), "declared/" + path[1], path[2])
    return found


def declared(crate, module):
    """The types and constants of a crate's code, as `imports` and `blocks` give definitions."""
    found = {}
    paths = glob.glob(f"{TOP}/crates/{crate}/src/**/*.rt", recursive=True)
    for path in [p for p in paths if module == "declared" or os.path.basename(p) == module.split("/")[1] + ".rt"]:
        lines = open(path).read().split("\n")
        for at, line in enumerate(lines):
            m = re.match(r"\s*(?:pub )?(?:struct|enum|const) (\w+)", line)
            if not m:
                continue
            end = at if line.rstrip().endswith((";", "}")) else next((n for n in range(at, len(lines)) if lines[n] in ("}", "    }") or lines[n].endswith(");")), at)
            begin = at
            while begin and re.match(r"\s*(///|#\[)", lines[begin - 1]):
                begin -= 1
            body = [it for it in lines[begin : end + 1] if it.strip()]
            found[m.group(1)] = ("\n".join(it for it in body if "//" not in it), len(body))
    return {}, found


def blocks(path):
    """The definitions of a file: name -> (text, how many lines)."""
    found, name, text, comment = {}, None, [], []
    for line in open(path):
        if line.startswith("--"):
            comment.append(line)
        elif line.startswith("use ") or not line.strip():
            name = None
            if line.startswith("use "):
                comment = []
        else:
            m = re.match(r"(?:abbrev |unfoldable )?pub (?:record |data )?([^\s:({]+)|(?:abbrev|unfoldable|record|data) ([^\s:({]+)", line)
            if m and not line.startswith(" "):
                name = plain(m.group(1) or m.group(2))
                found[name] = comment
                comment = []
            elif name is None:
                first = plain(line.split()[0])
                name = first if first in found else None
            if name:
                found[name] = found[name] + [line]
    return {n: ("".join(l for l in ls if not l.startswith("--")), len(ls)) for n, ls in found.items()}


CACHE = {}


def module(crate, name):
    key = (crate, name)
    if key not in CACHE and name.startswith("declared"):
        CACHE[key] = declared(crate, name)
    if key not in CACHE:
        path = f"{TOP}/crates/{crate}/specs/{name}.antt"
        CACHE[key] = (imports(open(path)), blocks(path)) if os.path.exists(path) else ({}, {})
    return CACHE[key]


def contract(crate, function, clauses):
    """The clauses of a function, and the file's imports."""
    for path in glob.glob(f"{TOP}/crates/{crate}/src/*.rt"):
        lines = open(path).read().split("\n")
        for i, line in enumerate(lines):
            if re.search(rf"\bpub (?:extern \"C\" )?fn {function}\b", line):
                text, keep = "", False
                for after in lines[i:]:
                    if after.strip() in ("{", "{}"):
                        break
                    m = re.match(r"\s*(?:ensures|requires)(?: (\w+))? \{", after)
                    if m:
                        keep = not clauses or m.group(1) in clauses
                    if keep and not after.strip().startswith("//"):
                        text += after + "\n"
                return text, imports(lines)
    sys.exit(f"no public function {function} in {crate}")


def main():
    args = [a for a in sys.argv[1:] if not a.startswith("--")]
    if len(args) < 2:
        sys.exit(__doc__)
    text, names = contract(args[0], args[1], args[2:])
    todo = [names[w] for w in words(text) if w in names]
    seen = {}
    while todo:
        crate, mod, name = todo.pop()
        if (crate, mod, name) in seen:
            continue
        table, defs = module(crate, mod)
        if name not in defs:
            continue
        body, size = defs[name]
        seen[(crate, mod, name)] = size
        for word in words(body):
            if word in table:
                todo.append(table[word])
            elif word in defs:
                todo.append((crate, mod, word))
    if "--list" in sys.argv:
        for (crate, mod, name), size in sorted(seen.items()):
            print(f"{size:5} {crate} {mod} {name}")
    print(f"{sum(seen.values())} lines, {len(seen)} definitions, {len({c for c, _, _ in seen})} crates")


main()
