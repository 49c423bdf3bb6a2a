#!/usr/bin/env python3
"""Brings this repository's own definitions and lemmas to snake case and its facts and types to camel case, once, after port.py.

usage: python3 tools/rename.py [FOLDER]        writes the files below FOLDER (here, where none is given)
       python3 tools/rename.py --list [FOLDER]  writes nothing, and prints each old and new name with its module

A name is turned in the module of specs/ or proofs/ that declares it and where a file takes it from there. What Rattle makes (goals,
walks, labels of source) and what src/ declares keeps its name. Where the new spelling stands in one of its files already, the name ends in _lem.
"""
import collections
import os
import re
import sys

SPLIT = re.compile(r'([\s(){};,.@"«»]+)')
DECLARED = re.compile(r"^((?:abbrev |unfoldable |pub |data |record |ruleset |mutual )*)([^\s(){}:;,.◌]+)(?: \{[^{}]*\}| \([^()]*\))* :(?: |$)", re.M)
BLOCK = re.compile(r"^(?:pub )?(data|record|module) ([^\s:]+)")
MEMBER = re.compile(r"^ +(?:pub )?([^\s(){}:;,.◌]+) :(?: |$)")
USE = re.compile(r"^\s*(?:pub )?(?:ghost )?use (Rattle\.\w+\.(?:specs|proofs)(?:\.[^\s.{;]+)*)(?:\.\{([^}]*)\})?(?: as ([^\s;]+))?", re.M)


# Two facts whose names are spelled as functions', and a file that Rattle makes a module beside.
FACTS = {"is_ok": "IsOk", "is_some": "IsSome"}
MOVED = {"bounds/specs/Contracts.antt": "bounds/specs/ContractOf.antt"}


def new_name(name):
    if name in FACTS:
        return FACTS[name]
    if re.match(r"[A-Z]", name) and not re.match(r"C\d", name):
        return re.sub(r"-(\w)", lambda m: m[1].upper(), name)
    words = re.sub(r"(?<=[a-z0-9])[A-Z]", lambda m: "_" + m[0].lower(), name)
    return words.replace("-", "_")


def texts(root):
    for folder, dirs, files in os.walk(os.path.join(root, "crates")):
        dirs[:] = sorted(d for d in dirs if d != "out")
        for f in sorted(files):
            if f.endswith((".rt", ".antt")):
                yield os.path.join(folder, f)


def module_of(root, path):
    """The module of a file of definitions or lemmas; None for src/ and for the proof of one function."""
    steps = os.path.relpath(path, root).split(os.sep)
    if len(steps) == 4 and steps[2] in ("specs", "proofs") and steps[3].endswith(".antt") and steps[3] != "Lib.antt":
        return f"Rattle.{steps[1]}.{steps[2]}.{steps[3][:-5]}"
    return None


def declared(text):
    """What a file declares: names at its margin, constructors and fields."""
    names, members, block = set(), set(), None
    for line in text.split("\n"):
        m = BLOCK.match(line)
        if m:
            if m[1] != "module":
                names.add(m[2])
            block = m[1]
            continue
        if line[:1].strip() and not line.startswith("--"):
            block = None
        if block == "module":
            m = DECLARED.match(line.lstrip())
            if m:
                names.add(m[2])
            continue
        m = block and MEMBER.match(line)
        if m:
            (members if block == "record" else names).add(m[1])
            continue
        m = DECLARED.match(line)
        if m:
            names.add(m[2])
    return names, members


def turned(text, own, members, alias):
    """The text with each name of own, each field of members behind a dot or in a record, and each name behind an alias turned."""
    out = SPLIT.split(text)
    for i in range(0, len(out), 2):
        t = out[i]
        before = out[i - 1] if i else ""
        if before.endswith(".") and i >= 2:
            owner = out[i - 2]
            if owner in alias and t in alias[owner]:
                out[i] = alias[owner][t]
            elif t in members:
                out[i] = members[t]
            elif t in own and before == ".":
                out[i] = own[t] if owner in own or owner[:1].isupper() else t
        elif t in own:
            out[i] = own[t]
        elif t in members and i + 2 < len(out) and re.match(r" *[=:]", out[i + 1] + out[i + 2]):
            out[i] = members[t]
    return "".join(out)


def main(argv):
    listing = argv[:1] == ["--list"]
    root = os.path.abspath((argv[1:] if listing else argv)[0] if (argv[1:] if listing else argv) else ".")
    text = {p: open(p, encoding="utf-8").read() for p in texts(root)}
    modules, fields = {}, {}
    for p, t in text.items():
        m = module_of(root, p)
        if m:
            modules[m], fields[m] = declared(t)
    every = {n for m in modules for n in modules[m] | fields[m]}
    maps = {m: {n: new_name(n) for n in modules[m] if new_name(n) != n} for m in modules}
    members = {n: new_name(n) for m in modules for n in fields[m] if new_name(n) != n}

    def scope(p, t):
        own, alias = dict(maps.get(module_of(root, p), {})), {}
        for m in USE.finditer(t):
            path, taken, name = m[1], m[2], m[3]
            if taken is not None:
                last = path.split(".")[-1]
                for it in re.split(r",\s*", taken):
                    it = it.strip().split(" as ")[0]
                    for q in (path, ".".join(path.split(".")[:-1])):
                        if it in maps.get(q, {}):
                            own[it] = maps[q][it]
                        if it in fields.get(q, ()) and it in members:
                            own[it] = members[it]
                    if path + "." + it in maps:
                        alias[it] = maps[path + "." + it]
            elif path in maps:
                alias[name or path.split(".")[-1]] = maps[path]
            else:
                q = ".".join(path.split(".")[:-1])
                if q in maps:
                    alias[name or path.split(".")[-1]] = maps[q]
        return own, alias

    while True:
        bad = collections.defaultdict(set)
        for p, t in text.items():
            own, alias = scope(p, t)
            words = set(SPLIT.split(t)[::2])
            meet = collections.Counter(own.values())
            for n, to in own.items():
                if n in words and (to in words or meet[to] > 1 and "-" in n):
                    bad[n].add(os.path.relpath(p, root))
        for m in fields:
            for n in fields[m]:
                if n in members and members[n] in fields[m]:
                    bad[n].add(m)
        if not bad:
            break
        for n in sorted(bad):
            print(f"look: {n}: its new spelling stands in {', '.join(sorted(bad[n])[:3])}")
            for m in maps:
                if n in maps[m]:
                    maps[m][n] += "_lem"
            if n in members:
                members[n] += "_lem"
    if listing:
        for m in sorted(maps):
            for n in sorted(maps[m]):
                print(f"{m}.{n}\t{maps[m][n]}")
        return 0
    changed = 0
    for p, t in text.items():
        own, alias = scope(p, t)
        to = turned(t, own, members, alias)
        for a, b in MOVED.items():
            to = to.replace("Rattle." + a[:-5].replace("/", ".") + ".", "Rattle." + b[:-5].replace("/", ".") + ".")
            if p.endswith("/bounds/specs/Lib.antt"):
                to = re.sub(r"(?m)^pub mod Contracts$", "pub mod ContractOf", to)
        if to != t:
            open(p, "w", encoding="utf-8").write(to)
            changed += 1
    for a, b in MOVED.items():
        if os.path.exists(os.path.join(root, "crates", a)):
            os.rename(os.path.join(root, "crates", a), os.path.join(root, "crates", b))
    print(f"{sum(len(m) for m in maps.values())} names of {len(every)}, {changed} files")
    return 0


if __name__ == "__main__":
    raise SystemExit(main(sys.argv[1:]))
