#!/usr/bin/env python3
"""Functions of src/ whose bodies are the same but for names, types and numbers: one line for each group.

usage: tools/twins.py [LEAST]   from the top; LEAST tokens at least in a body (default 12)
"""
import glob
import re
import sys

TOKEN = re.compile(r"//[^\n]*|\"(?:\\.|[^\"])*\"|[A-Za-z_][A-Za-z0-9_]*|[0-9][0-9a-zA-Z_]*|\S")
KEPT = set("if else match let mut return for while in fn self Self true false as".split())


def functions(text):
    """Name and body of every function; a clause in braces between the two is left out."""
    for head in re.finditer(r"^ *(?:pub(?:\([a-z]+\))? )?(?:extern \"C\" )?fn ([a-z_0-9]+)", text, re.M):
        at = text.index("(", head.end())
        indent = len(head.group(0)) - len(head.group(0).lstrip())
        begin = text.find("\n" + " " * indent + "{\n", at)
        one_line = text.find("{\n", at)
        end = text.find("\n" + " " * indent + "}", at)
        if end < 0:
            continue
        if begin < 0 or begin > end:
            begin = one_line
        yield head.group(1), text[begin + 1 : end]


def shape(body):
    """The body with names by the order in which they come and every number as one."""
    names, out = {}, []
    for token in TOKEN.findall(body):
        if token.startswith("//"):
            continue
        if token[0].isdigit():
            token = "0"
        elif (token[0].isalpha() or token[0] == "_") and token not in KEPT:
            token = names.setdefault(token, "n%d" % len(names))
        out.append(token)
    return tuple(out)


def main():
    least = int(sys.argv[1]) if len(sys.argv) > 1 else 12
    groups = {}
    for path in sorted(glob.glob("crates/*/src/*.rt")):
        for name, body in functions(open(path, encoding="utf-8").read()):
            key = shape(body)
            if len(key) >= least:
                groups.setdefault(key, []).append("%s:%s" % (path[7:-3].replace("/src", ""), name))
    twins = [g for g in groups.values() if len(g) > 1]
    for group in sorted(twins):
        print(" ".join(group))
    print("%d groups, %d functions" % (len(twins), sum(map(len, twins))))


main()
