#!/usr/bin/env python3
"""Makes the list that `replay` is run on: requests with their answers, on which the Rust and reference.py agree, or differ by a named class.

    python3 oracle/make_replay.py [DIRECTORY] [--seed N] [--cases N]

A line is `REQUEST<TAB>ANSWER`, both in the protocol of `probe`; the answer is document 01's. The lines go into DIRECTORY/stdin, and what `replay` must
write into DIRECTORY/stdout; without a directory that is crates/replay. The choice is by what an input shows: for each entry some inputs of each refusal,
each class of difference, each mix of sorts, operators and warnings and each form of line, both sides of the length limit, then others up to the number
wanted. The seed is fixed unless given, so the same list comes out each time. Any difference that is on no list stops the script.
"""
import argparse
import collections
import pathlib
import random
import re
import sys

import compare
import generate

LONG = 240


def shown(text, ours, verdict):
    """What an input shows, and how many inputs are wanted that show it."""
    entry, *numbers, digits = text.split(" ") if ours != "bad request" else ("bad", "")
    size = len(digits) // 2
    words = ours.split(" ")
    if size in (4096, 4097):
        return (entry, size, verdict, words[0]), 1
    if verdict != "agree":
        return (entry, verdict), 2 if len(text) > LONG else 12
    if len(text) > LONG:
        found = dict(word.split("=", 1) for word in words[1:] if "=" in word)
        limits = (("comparisons", 64), ("warnings", 64), ("extras", 32), ("specifiers", 32))
        full = tuple(key for key, limit in limits if found.get(key, "").count(";") == limit - 1)
        deep = words[0] == "ok" and bytes.fromhex(digits).count(b"(") == 16
        return (entry, words[0], words[1] if words[0] == "refused" else full, deep), 2 if full or deep else 4
    if words[0] == "refused":
        return (entry, words[1]), 60
    if entry == "line":
        found = dict(word.split("=", 1) for word in words[1:])
        few = [min(value.count(","), 3) for value in (found["extras"], found["specifiers"])]
        return (entry, *few, found["url"] != "-", found["comparisons"] != "", found["warnings"] != ""), 25
    if entry == "marker":
        found = dict(word.split("=", 1) for word in words[1:])
        sorts = tuple(tuple(item.split(",")[:3:2]) for item in found["comparisons"].split(";"))[:2]
        kinds = tuple(item.split(",")[0] for item in found["warnings"].split(";"))[:2]
        operators = re.sub("[0-9]+", lambda m: m[0] if int(m[0]) > 63 else "c", found["program"])[:12]
        return (entry, sorts, kinds, operators), 2
    if entry == "extras":
        return (entry, min(ours.count(","), 5)), 60
    if entry == "normalise":
        return (entry, "ok", numbers[0] == words[1], min(int(words[1]), 5)), 20
    return (entry, ours.split(" out=")[0]), 150


def main():
    parser = argparse.ArgumentParser(description="Makes the list that `replay` is run on.")
    parser.add_argument("directory", type=pathlib.Path, nargs="?", default=compare.ROOT / "crates" / "replay")
    parser.add_argument("--seed", type=int, default=20261115)
    parser.add_argument("--cases", type=int, default=5500, help="how many at least (default 5500)")
    parser.add_argument("--oracle", default=compare.ROOT / "target" / "oracle" / "oracle", metavar="FILE")
    given = parser.parse_args()
    comparer = compare.Comparer(compare.Oracle(given.oracle))
    rows = []
    for text, ours, _, verdict in compare.compared_all(generate.requests(given.seed, 40000, 0), comparer, "reference", False):
        if verdict is None:
            sys.exit("a difference on no list: %s" % text)
        if len(text) + len(ours) < 12000:
            rows.append((text, ours, verdict))
    rng = random.Random(given.seed)
    rng.shuffle(rows)
    # long ones only for what no short one shows, and the shortest of them
    rows.sort(key=lambda row: len(row[0]) if len(row[0]) > LONG else 0)
    wanted, chosen, others = collections.Counter(), [], []
    for row in rows:
        what, limit = shown(*row)
        if wanted[what] < limit:
            wanted[what] += 1
            chosen.append(row)
        elif len(row[0]) <= LONG:
            others.append(row)
    chosen += others[:max(0, given.cases - len(chosen))]
    rng.shuffle(chosen)
    given.directory.mkdir(parents=True, exist_ok=True)
    lines = "".join("%s\t%s\n" % (text, ours) for text, ours, _ in chosen)
    (given.directory / "stdin").write_text(lines, newline="\n")
    (given.directory / "stdout").write_text("%d cases, 0 differ\n" % len(chosen), newline="\n")
    entries = collections.Counter(text.split(" ")[0] if ours != "bad request" else "bad request" for text, ours, _ in chosen)
    classes = collections.Counter(verdict for _, _, verdict in chosen)
    numbers = {ours.split(" ")[1] for _, ours, _ in chosen if ours.startswith("refused")}
    print("%d cases, %d bytes" % (len(chosen), len(lines)))
    print("entries: " + ", ".join("%s %d" % pair for pair in sorted(entries.items())))
    print("classes: " + ", ".join("%s %d" % pair for pair in sorted(classes.items())))
    print("refusals that occur: " + " ".join(sorted(numbers, key=int)))


if __name__ == "__main__":
    main()
