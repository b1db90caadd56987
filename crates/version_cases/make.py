#!/usr/bin/env python3
"""Makes the file `stdin` of this crate: one text a line with the answer of `packaging` before it, under the number bound of document 01.

A line is a letter for what the text is offered as (v a version, p a pattern, s a specifier), + or - for whether it is one, and the text.
Needs the Python package `packaging` (version 22 or later). The seed is fixed, so the same list comes out each time.

`packaging` has no name for a pattern: a text is taken as one if `== text` is a specifier to it that has no local part, or has one and no `.*`.
Where its rules and document 01's differ, the difference has one of the two causes below and the stored answer is document 01's; any other difference
stops the script."""
import pathlib
import random
import re
import sys

from packaging.specifiers import InvalidSpecifier, Specifier
from packaging.version import VERSION_PATTERN, InvalidVersion, Version

BOUND = 18446744073709551615
SPACE = " \t\n\r\f\v"
random.seed(20261115)

version_regex = re.compile(r"\s*" + VERSION_PATTERN + r"\s*", re.VERBOSE | re.IGNORECASE | re.ASCII)
star_regex = re.compile(r"\s*v?(?:([0-9]+)!)?([0-9]+(?:\.[0-9]+)*)\.\*\s*", re.IGNORECASE | re.ASCII)


def bounded(parts):
    """No number is over the bound: the digits of each part that is a number."""
    return all(int(p) <= BOUND for p in parts if p)


def version_numbers(m):
    local = re.split(r"[-_.]", m["local"]) if m["local"] else []
    return [m["epoch"], *m["release"].split("."), m["pre_n"], m["post_n1"], m["post_n2"], m["dev_n"], *[p for p in local if p.isdigit()]]


def is_version(text):
    m = version_regex.fullmatch(text)
    return m is not None and bounded(version_numbers(m))


def is_starred(text):
    m = star_regex.fullmatch(text)
    return m is not None and bounded([m[1], *m[2].split(".")])


def packaging_version(text):
    try:
        Version(text)
        return True
    except InvalidVersion:
        return False


def packaging_specifier(text):
    try:
        Specifier(text)
        return True
    except InvalidSpecifier:
        return False


def unicode_space(text):
    """`packaging` takes bytes 28 to 31 for white space, as Python's \\s does; document 01 does not."""
    return any(c in text for c in "\x1c\x1d\x1e\x1f")


def over(text):
    """A number is over the bound."""
    return any(int(d) > BOUND for d in re.findall(r"[0-9]+", text))


def accepted(kind, text):
    if kind == "v":
        theirs = packaging_version(text)
        ours = theirs and is_version(text)
        assert theirs == ours or over(text) or unicode_space(text), (kind, text)
    elif kind == "p":
        theirs = packaging_version(text) or packaging_specifier("==" + text)
        ours = theirs and (is_version(text) or is_starred(text))
        assert theirs == ours or over(text) or unicode_space(text), (kind, text)
    else:
        theirs = packaging_specifier(text)
        ours = theirs
        if theirs:
            m = re.fullmatch(r"\s*(===|~=|==|!=|<=|>=|<|>)(.*)", text, re.DOTALL)
            ours = is_version(m[2]) or m[1] in ("==", "!=") and is_starred(m[2])
            # `===` takes any text there, and here a version
            assert ours or m[1] == "===" or over(text) or unicode_space(text), (kind, text)
    return ours


def number():
    pick = random.random()
    if pick < 0.7:
        return str(random.randrange(0, 30))
    if pick < 0.8:
        return "0" * random.randrange(1, 30) + str(random.randrange(0, 3000))
    if pick < 0.9:
        return str(BOUND + random.randrange(-3, 4))
    return str(random.randrange(0, 10**22))


def cased(word):
    return "".join(random.choice((c, c.upper())) for c in word)


def sep():
    return random.choice(["", "", ".", "-", "_"])


def part(words):
    return sep() + cased(random.choice(words)) + sep() + random.choice(["", number()])


def local():
    segments = [random.choice([number(), cased(random.choice(["a", "ubuntu", "x9", "7z", "abc"]))]) for _ in range(random.randrange(1, 4))]
    text = segments[0]
    for s in segments[1:]:
        text += random.choice(".-_") + s
    return "+" + text


def release():
    return random.choice(["", "", "", "v", "V"]) + random.choice(["", "", "", number() + "!"]) + ".".join(number() for _ in range(random.randrange(1, 5)))


def version():
    text = release()
    if random.random() < 0.4:
        text += part(["a", "b", "c", "rc", "alpha", "beta", "pre", "preview"])
    if random.random() < 0.35:
        text += random.choice(["-" + number(), part(["post", "rev", "r"])])
    if random.random() < 0.35:
        text += part(["dev"])
    if random.random() < 0.25:
        text += local()
    return text


def spaced(text):
    def spaces():
        return "".join(random.choice(" \t\r\f\v") for _ in range(random.choice([0, 0, 0, 1, 2])))

    return spaces() + text + spaces()


def pattern():
    return release() + ".*" if random.random() < 0.4 else version()


def specifier():
    return random.choice(["<=", "<", "!=", "==", ">=", ">", "~=", "==="]) + spaced(pattern())


def damaged(text):
    text = list(text)
    for _ in range(random.randrange(1, 3)):
        at = random.randrange(0, len(text) + 1)
        what = random.randrange(0, 4)
        byte = random.choice("0123456789abcdelprtvAV.-_+!*<=>~ \t,;()[]'\x1c\x00/:@{")
        if what == 0 and text:
            del text[min(at, len(text) - 1)]
        elif what == 1:
            text.insert(at, byte)
        elif what == 2 and text:
            text[min(at, len(text) - 1)] = byte
        elif at < len(text) - 1:
            text[at], text[at + 1] = text[at + 1], text[at]
    return "".join(text)


def main():
    rows = []
    seen = set()
    makers = {"v": version, "p": pattern, "s": specifier}
    while len(rows) < 2200:
        kind = random.choice("vvpss")
        text = spaced(makers[kind]())
        if random.random() < 0.5:
            text = damaged(text)
        if "\n" in text or len(text) > 44 or (kind, text) in seen:
            continue
        seen.add((kind, text))
        rows.append(kind + ("+" if accepted(kind, text) else "-") + text + "\n")
    out = "".join(rows).encode("ascii")
    assert len(out) < 65536, len(out)
    pathlib.Path(__file__).with_name("stdin").write_bytes(out)
    good = sum(r[1] == "+" for r in rows)
    print(f"{len(rows)} texts, {good} good, {len(out)} bytes", file=sys.stderr)


main()
