#!/usr/bin/env python3
"""Brings the repository's own definitions and lemmas to snake case: a name that a file of specs/ or proofs/ declares loses its inner capitals and dashes.

usage: tools/respell.py [--pages] [--list]   in the repository, after port.py. With --pages the names between back quotes in README.md and docs/ follow too;
       --list prints old and new names and changes nothing.

Types, modules, functions of src/, exported names, strings, and names that the library has too stay as they are.
"""

import glob
import re
import sys

WORD = r"[^\s(){}.,;@\"«»]+"
SIGNED = re.compile(r"^\s*(?:abbrev |unfoldable |pub )*(" + WORD + r") :(?: |$)", re.M)
RULESET = re.compile(r"^\s*(?:pub )?ruleset (" + WORD + r") =", re.M)
functions = {}
IMPORT = re.compile(r"^\s*(?:ghost )?use (\S+?)\.\{([^}]*)\}", re.M)
TEXT = re.compile(r'"(?:[^"\\]|\\.)*"')
KEPT = {"docs/LANDINGS.md", "docs/PORT.md"}
# Lemmas, each in a file of its own, that stood in port.py's output under a definition's new name.
LEMMAS = {"crates/version_language/proofs/Decimal.antt": {"digits_in": "digits_in_lem"}}


def read(path):
    with open(path, encoding="utf-8") as f:
        return f.read()


def crates():
    return sorted(glob.glob("crates/*/specs/**/*.antt", recursive=True) + glob.glob("crates/*/proofs/**/*.antt", recursive=True))


def snake(name):
    name = re.sub(r"(?<=[a-z0-9])([A-Z])", lambda m: "_" + m.group(1).lower(), name)
    return name.replace("-", "_")


def names():
    """Old and new spelling of each own name, and what could not be turned."""
    declared, library = set(), set()
    own = {"Rattle." + c.split("/")[1] for c in crates()}
    for path in crates() + sorted(glob.glob("crates/*/src/**/*.rt", recursive=True)):
        text = read(path)
        if path.endswith(".antt"):
            declared |= set(SIGNED.findall(text)) | set(RULESET.findall(text))
        for module, listed in IMPORT.findall(text):
            if ".".join(module.split(".")[:2]) not in own:
                library |= {n.strip().split(" as ")[0] for n in listed.split(",")}
    turned, clash = {}, []
    for old in sorted(declared, key=lambda n: ("-" in n, n)):
        new = snake(old)
        if old == new or old[0].isupper() or old in library or not re.match(r"[a-zμ+]", old):
            continue
        if new in library or new in turned.values() or (new in declared and "-" in old):
            clash.append((old, new))
        else:
            turned[old] = new
    for old, new in clash:
        turned[old] = new + "_lem"
    for path in sorted(glob.glob("crates/*/src/**/*.rt", recursive=True)):
        for name in re.findall(r"\bfn (\w+)", read(path)):
            if "_" in name:
                functions[name.replace("_", "-")] = name
    return turned, clash, declared & library


def respell(text, turned):
    """The text with each whole word turned, but for what stands between double quotes."""
    out, last = [], 0
    for m in TEXT.finditer(text):
        out.append(words(text[last:m.start()], turned))
        out.append(m.group(0))
        last = m.end()
    out.append(words(text[last:], turned))
    return "".join(out)


def words(text, turned):
    return re.sub(r"\.?" + WORD, lambda m: field(m.group(0), turned), text)


def field(word, turned):
    """A step of a generated proof is named by its function, which keeps its spelling."""
    if word.startswith("."):
        name, digits = re.fullmatch(r"\.(.*?)(\d*)", word).groups()
        if name in functions:
            return "." + functions[name] + digits
        return "." + turned.get(word[1:], word[1:])
    return turned.get(word, word)


def line_of_antt(line, turned, capitals):
    code, dash, note = line.partition("-- ") if line.startswith("-- ") or " -- " in line else (line, "", "")
    return respell(code, turned) + dash + re.sub(r"[A-Za-z]+", lambda m: capitals.get(m.group(0), m.group(0)), note)


def line_of_rt(line, turned, capitals):
    if re.match(r"\s*ghost use ", line):
        return respell(line, turned)
    out = [re.sub(r"[A-Za-z]+(?![A-Za-z\-])", lambda m: capitals.get(m.group(0), m.group(0)), part) if i % 2 == 0 else part for i, part in enumerate(re.split(r'("(?:[^"\\]|\\.)*")', line))]
    return "".join(out)


def main():
    turned, clash, both = names()
    if "--list" in sys.argv:
        for old, new in turned.items():
            print(old, new)
        for old, new in clash:
            print("clash:", old, new, file=sys.stderr)
        print("also in the library, left:", *sorted(both), file=sys.stderr)
        return
    capitals = {o: n for o, n in turned.items() if re.search(r"[A-Z]", o) and "-" not in o}
    changed = 0
    for path in crates() + sorted(glob.glob("crates/*/src/**/*.rt", recursive=True)):
        text = words(read(path), LEMMAS.get(path, {}))
        turn = line_of_antt if path.endswith(".antt") else line_of_rt
        new = "\n".join(turn(line, turned, capitals) for line in text.split("\n"))
        if new != text:
            changed += 1
            with open(path, "w", encoding="utf-8") as f:
                f.write(new)
    if "--pages" in sys.argv:
        for path in ["README.md"] + sorted(glob.glob("docs/*.md")):
            if path in KEPT:
                continue
            text = read(path)
            new = re.sub(r"`[^`\n]+`", lambda m: "`" + words(m.group(0)[1:-1], turned) + "`", text)
            if new != text:
                changed += 1
                with open(path, "w", encoding="utf-8") as f:
                    f.write(new)
    print(f"{len(turned)} names, {changed} files")


if __name__ == "__main__":
    main()
