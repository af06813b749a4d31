#!/usr/bin/env python3
"""Writes the repository's own definitions and lemmas in snake case.

usage: snake_names.py ROOT          rewrites the .rt and .antt files of ROOT/crates in place
       snake_names.py ROOT --list   prints 'old new' for each name, and what would fall together, and writes nothing

    wantsWatchdog, stands-there, in-order  ->  wants_watchdog, stands_there, in_order

A lemma that would then have the name of a definition gets '_lem'. A name is taken up where a file of specs/ or proofs/ declares it: a definition, a lemma, a constructor, a record's field. Names that Rattle makes (the goals
that a proof file answers, 'F_spec') and names of the source stay. Run it once, after port.py; a second run changes nothing.
"""
import collections
import glob
import os
import re
import sys

TOKEN = re.compile(r"--[^\n]*|//[^\n]*|\"(?:[^\"\\]|\\.)*\"|«[^»]*»|[^\s(){}.;,@\"«»\[\]\\]+")
SIGNATURE = re.compile(r"^ *(?:abbrev |unfoldable )?(?:pub )?([^\s:(){}.,;]+) : (.*)", re.M)
RECORD_OR_DATA = re.compile(r"^ *(?:pub )?(?:record|data) ", re.M)
# lemmas that would fall together with a word of the library that their file has, or with another lemma's variable
BESIDE_OTHERS = {"bit-and", "bit-or", "bit-xor", "header-at", "in-body", "in-range", "next-at", "on-memory"}


# the calls of a list, beside the definitions of what each does
CALLS = {"hand-over", "new-diagnosis", "judge-parameters", "judge-configuration"}
# fields of statements, which nothing takes for the definition of that name
FIELDS = {"is-new", "holds-back", "heard-whole"}
# a lemma that has its name from one of the library, which files import beside it
OF_THE_LIBRARY = {"and-true"}


def files(root):
    for end in ("rt", "antt"):
        yield from sorted(p for p in glob.glob(f"{root}/crates/**/*.{end}", recursive=True) if "/out/" not in p)


def read(p):
    with open(p, encoding="utf-8") as f:
        return f.read()


def snake(name):
    if name[:1].isupper():
        return name
    out = re.sub(r"(?<=[a-z0-9])([A-Z])", lambda m: "_" + m.group(1).lower(), name)
    out = re.sub(r"([A-Z])", lambda m: m.group(1).lower(), out)
    return out.replace("-", "_")


def declared(root):
    """The names to turn, with the files that declare them."""
    out = collections.defaultdict(set)
    for p in files(root):
        if not p.endswith(".antt"):
            continue
        text = read(p)
        for m in SIGNATURE.finditer(text):
            name, type_ = m.groups()
            if name in OF_THE_LIBRARY:
                continue
            if re.match(r"(tie|goal|goals)\.", type_) or re.search(r"[◌\u2260-\u22ff]", name):
                continue
            if name.endswith("-spec") and "statement" in type_:
                continue
            if snake(name) != name:
                out[name].add(p)
    return out


def spelled(names):
    """Each name in its new spelling; a lemma that would have its definition's name gets '_lem'."""
    definitions = {snake(old) for old in names if "-" not in old}

    def ending(old):
        if old in CALLS:
            return "_call"
        together = "-" in old and old not in FIELDS and snake(old) in definitions
        return "_lem" if together or old in BESIDE_OTHERS else ""

    return {old: snake(old) + ending(old) for old in names}


def main(argv):
    root = argv[0]
    names = declared(root)
    new = spelled(names)
    texts = {p: read(p) for p in files(root)}
    if "--list" in argv:
        by_new = collections.defaultdict(list)
        for old, n in new.items():
            by_new[n].append(old)
        for n, olds in sorted(by_new.items()):
            if len(olds) > 1:
                print("together:", n, olds)
        for p, text in texts.items():
            tokens = {m.group() for m in TOKEN.finditer(text)}
            both = sorted(old for old in tokens & new.keys() if new[old] in tokens)
            if both:
                print("in one file:", os.path.relpath(p, root), [(o, new[o]) for o in both])
        for old in sorted(new):
            print(old, new[old])
        return 0
    n = 0
    for p, text in texts.items():
        def turned(m):
            w = m.group()
            if w.startswith(("--", "//")):
                return re.sub(r"[A-Za-z][\w'-]*", lambda k: new.get(k.group(), k.group()) if re.search(r"[a-z][A-Z]", k.group()) else k.group(), w)
            return new.get(w, w)
        t = TOKEN.sub(turned, text)
        if t != text:
            with open(p, "w", encoding="utf-8") as f:
                f.write(t)
            n += 1
    print(f"{len(new)} names, {n} files")
    return 0


if __name__ == "__main__":
    raise SystemExit(main(sys.argv[1:]))
