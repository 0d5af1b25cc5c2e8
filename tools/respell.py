#!/usr/bin/env python3
"""Respells the repository's own names: words in snake case, types in camel case, a prime as an apostrophe.

usage: python3 tools/respell.py     at the top of the repository

A name is the repository's own where an .antt file of specs/ or proofs/ declares it: a definition, a lemma, a field,
a constructor, a parameter or a local name. Names that Rattle makes (goals and steps) and names that are imported from
the library stay. Strings and code of src/ have no such name: there a dash stands between blanks.
"""

import os
import re
import sys

NAME = r"[^\s(){}\[\],;.:λ«»⌜⌝]+"
MARKS = r"(?:(?:pub|abbrev|unfoldable|data|record|ruleset|module) )*"
SIGNATURE = re.compile(r"\s*" + MARKS + "(" + NAME + r") ?:(?! goal\.)")
HEAD = re.compile(r"\s*(?:(?:pub|abbrev|unfoldable) )*(?:data|record|ruleset|module) (\S+)")
TOKEN = re.compile(r"[A-Za-z_][\w'′]*(?:-[\w'′*]+)+|[A-Za-z_][\w']*′[\w'′]*")


def files(ending):
    for folder, dirs, names in os.walk("crates"):
        dirs[:] = sorted(d for d in dirs if d != "out")
        for name in sorted(names):
            if name.endswith(ending):
                yield os.path.join(folder, name)


def read(path):
    with open(path, encoding="utf-8") as f:
        return f.read()


def imported(text):
    for found in re.finditer(r"^(?:pub )?(?:ghost )?use ([\w.+-]+?)\.\{([^}]*)\}", text, re.M):
        if re.match(r"Rattle\.(?!std\.)", found.group(1)):
            continue
        for name in found.group(2).split(","):
            yield from name.split(" as ")


def declared(text):
    for line in text.split("\n"):
        for pattern in (SIGNATURE, HEAD):
            found = pattern.match(line)
            if found:
                yield found.group(1)
    for found in re.finditer(r"let (" + NAME + ")", text):
        yield found.group(1)
    for found in re.finditer(r"λ ([^.]*)\.", text):
        yield from re.findall(NAME, found.group(1))
    for found in re.finditer(r"\(([^():]*) :", text):
        yield from found.group(1).split()


def respelt(name):
    parts = name.replace("′", "'").split("-")
    if name[0].isupper():
        return "".join(part[0].upper() + part[1:] for part in parts)
    return "_".join(parts)


def main():
    own, foreign, taken = set(), set(), set()
    for path in files(".antt"):
        text = read(path)
        own.update(declared(text))
        foreign.update(name.strip() for name in imported(text))
        taken.update(re.findall(NAME, re.sub(r"^(?:pub )?use [^{\n]*", "", text, flags=re.M)))
    names = {n: respelt(n) for n in own if ("-" in n or "′" in n) and re.match("[A-Za-z_]", n) and n not in foreign}
    again = {}
    for old, new in sorted(names.items()):
        if new in taken or new in again:
            sys.exit(f"respell: {old} would fall together with {again.get(new, new)}")
        again[new] = old
    changed = 0
    for path in list(files(".antt")) + list(files(".rt")) + list(files(".edit")):
        text = read(path)
        turned = TOKEN.sub(lambda m: names.get(m.group(0), m.group(0)), text)
        if turned != text:
            changed += 1
            with open(path, "w", encoding="utf-8") as f:
                f.write(turned)
    print(f"respell: {len(names)} names, {changed} files")


main()
