#!/usr/bin/env python3
"""Compares `probe` with the Rust, with `packaging`, and with oracle/reference.py, on generated inputs.

    python3 oracle/compare.py SEED COUNT [--short LEVEL] [--corpus FILE] [--probe COMMAND] [--oracle FILE] [--no-reference]

Every answer is compared: acceptance, values, counts, refusals by number, spans where the Rust has them. An answer that differs from the Rust's must
belong to one of the named classes below, each with a test that recognises it from the input and both answers; most tests ask the Rust again about a
changed input on which it must agree. What belongs to no class is printed as a difference. The last lines are counts; the exit status is 1 if there
was a difference. `--probe reference` takes oracle/reference.py itself as the probe.
"""
import argparse
import collections
import itertools
import json
import pathlib
import re
import shlex
import subprocess
import sys
import time

import generate
import reference

try:
    import packaging
    from packaging.specifiers import InvalidSpecifier, Specifier
    from packaging.version import InvalidVersion, Version
except ImportError:
    packaging = None

ROOT = generate.HERE.parent
PROBE = shlex.quote(str(ROOT / "tools" / "run")) + " probe"
JOINTS = b".-_"
SPACE = b"\t\n\v\f\r "

# The Rust's messages and document 01's numbers, in the order of the numbers. A panic is shown with `panic: ` before its message.
MESSAGES = [(re.compile(pattern), number) for pattern, number in (
    (r"Empty field is not allowed for PEP508$", 3),
    (r"Expected package name starting with an alphanumeric character, found `", 4),
    (r"Package name must end with an alphanumeric character, not '", 5),
    (r"Missing closing bracket \(expected '\]', found end of dependency specification\)$", 6),
    (r"Expected either alphanumerical character \(starting the extra name\) or `\]` \(ending the extras section\), found `,`$", 7),
    (r"Expected an alphanumeric character starting the extra name, found `", 8),
    (r"Expected either `,` \(separating extras\) or `\]` \(ending the extras section\), found `", 9),
    (r"Invalid character in extras name, expected an alphanumeric character, `-`, `_`, `\.`, `,` or `\]`, found `", 10),
    (r"Expected URL$", 13),
    (r"pep440 stand-in: ", 14),
    (r"Missing closing parenthesis \(expected '\)', found end of dependency specification\)$", 15),
    (r"Expected one of `@`, `\(`, `<`, `=`, `>`, `~`, `!`, `;`, found `", 17),
    (r"Expected end of input or `;`, found `", 17),
    (r"Expected end of input, found `", 17),
    (r"Expected marker value, found end of dependency specification$", 18),
    (r"Expected a quoted string or a valid marker name, found `", 19),
    (r"Expected a valid marker operator \(such as `>=` or `not in`\), found `", 20),
    (r"Expected whitespace after 'not', found end of input$", 21),
    (r"Expected whitespace after `not`, found `", 21),
    (r"Expected '.', found end of dependency specification$", 22),
    (r"Expected `.`, found `", 23),
    (r"Unexpected character '.*', expected 'and', 'or' or end of input$", 24),
    (r"Not a valid package or extra name: ", 28),
)]
# Messages and panics without a number of their own: the classes below settle them.
NAME_PANIC = "`PackageName` validation should match PEP 508 parsing"
EXTRA_PANIC = "`ExtraName` validation should match PEP 508 parsing"
PATH_HINT = "URL requirement must be preceded by a package name. Add the name of the package before the URL (e.g., `package_name @ /path/to/file`)."
URL_HINT = "URL requirement must be preceded by a package name. Add the name of the package before the URL (e.g., `package_name @ https://...`)."
URL_BLANK = re.compile(r"Missing space before '[;#]', the end of the URL is ambiguous$")

CLASSES = {
    "limit 1": "over 4,096 bytes: refused here, read by the Rust",
    "limit 2": "a byte of 128 or more: refused here, Unicode text or no text to the Rust",
    "limit 12": "33rd extra: refused here",
    "limit 16": "33rd specifier: refused here",
    "limit 25": "17th open parenthesis: refused here",
    "limit 26": "65th kept comparison: refused here",
    "limit 27": "65th warning: refused here",
    "room 29": "the output is too short for the normal form: a String grows",
    "not text": "normalise bytes that are no UTF-8: 28 here, no question for the Rust",
    "name panic": "a name that ends in . - _ before the end of the line: 5 here, the Rust panics",
    "extra panic": "an extra that ends in . - _: 11 here, the Rust panics",
    "archive name": "a name that looks like an archive, without URL or specifiers: read here, refused by the Rust",
    "path hint": "a line that looks like a path without a name: 4 here, a hint in the Rust",
    "url hint": "a line that looks like a URL or path without a name: 17 here, a hint in the Rust",
    "url blank": "no blank before the ; or # that ends a URL: 17 here at the byte that goes on, in the Rust at the ; or #",
    "packaging: bound": "a number over 2^64 - 1: a version to packaging",
    "packaging: ===": "packaging takes any text after ===",
    "packaging: white space": "packaging takes bytes 28 to 31 for white space",
}


class Oracle:
    """The Rust: many questions at once, or one at a time."""

    def __init__(self, path):
        if not pathlib.Path(path).exists():
            sys.exit("no oracle at %s: run oracle/build.sh" % path)
        self.command = [str(path), "serve"]
        self.single = subprocess.Popen(self.command, stdin=subprocess.PIPE, stdout=subprocess.PIPE)

    def many(self, questions):
        done = subprocess.run(self.command, input="".join(q + "\n" for q in questions).encode(), stdout=subprocess.PIPE, check=True)
        return [json.loads(line) for line in done.stdout.splitlines()]

    def one(self, entry, data):
        self.single.stdin.write(b"%s %s\n" % (entry.encode(), data.hex().encode() or b"-"))
        self.single.stdin.flush()
        return json.loads(self.single.stdout.readline())


def number_of(message):
    """Document 01's number for a message of the Rust, None if it has none."""
    for pattern, number in MESSAGES:
        if pattern.match(message):
            return number
    return None


def told(rust):
    """The Rust's refusal in the probe's words, or None."""
    if "err" in rust:
        message, start, length = rust["err"]
        return "refused %s %s %s" % (number_of(message), start, length)
    return None


def message_of(rust):
    return rust["err"][0] if "err" in rust else rust.get("panic", "")


def refusal(ours):
    """(number, start, length) of our answer, or None."""
    m = re.fullmatch(r"refused ([0-9]+) ([0-9]+) ([0-9]+)", ours)
    return tuple(map(int, m.groups())) if m else None


def fields(ours):
    """The fields of `ok k=v k=v`, each a list of lists of words."""
    words = ours.split(" ")
    if words[0] != "ok":
        return None
    pairs = (word.partition("=") for word in words[1:])
    return {key: [item.split(",") for item in value.split(";")] if value else [] for key, _, value in pairs}


def without_dots(line):
    """With `-` for each `.` of the name, which then looks like no archive."""
    m = re.match(rb"[\t-\r ]*[A-Za-z0-9._-]*", line)
    return m[0].replace(b".", b"-") + line[m.end():]


def pep503(name):
    return re.sub(rb"[-_.]+", b"-", name).lower()


class Comparer:
    """Says of one request whether our answer and the others' agree: 'agree', the name of a class, or None."""

    def __init__(self, oracle):
        self.oracle = oracle
        self.kinds = {}

    def compared(self, entry, numbers, data, ours, rust):
        if entry in ("line", "extras", "marker"):
            return self.reader(entry, data, ours, rust)
        if entry in ("version", "pattern", "specifier"):
            return self.version(entry, data, ours, rust)
        if entry == "normalise":
            return self.normalise(numbers[0], data, ours, rust)
        return self.program(entry, numbers, data, ours)

    def first(self, data, ours):
        """Refusals 1 and 2, which come first in six entries; '' if neither is due."""
        if len(data) > 4096:
            return "limit 1" if ours == "refused 1 4096 1" else None
        if not data.isascii():
            at = next(i for i, byte in enumerate(data) if byte >= 128)
            return "limit 2" if ours == "refused 2 %d 1" % at else None
        return ""

    # Lines, extras, markers

    def reader(self, entry, data, ours, rust):
        first = self.first(data, ours)
        if first != "":
            return first
        refused = refusal(ours)
        number, start, length = refused or (0, 0, 0)
        extras, specifiers, _, _, limit = rust["met"]
        message = message_of(rust)
        # A limit of document 01 that the Rust went past.
        end = start + length
        if extras > 32:
            whole = re.fullmatch(rb"[A-Za-z0-9._-]+", data[start:end]) and not re.match(rb"[A-Za-z0-9._-]", data[end:])
            return "limit 12" if number == 12 and whole and self.met_there(entry, data, start, end, 0, b"") else None
        if specifiers > 32:
            whole = data[start - 1:start] == b"," and data[end:end + 1] in (b",", b";", b")", b"")
            good = number == 16 and whole and any(self.met_there(entry, data, start, end, 1, close) for close in (b"", b")"))
            return "limit 16" if good else None
        if number == 25:
            return "limit 25" if length == 1 and self.deep(entry, data, start) else None
        if data.count(b"(") > 16 and any(self.deep(entry, data, at) for at, byte in enumerate(data) if byte == ord("(")):
            return None
        if limit:
            if number != limit:
                return None
            # The comparison's last byte is where the limit is passed.
            before = self.oracle.one(entry, data[:end - 1])["met"][4]
            after = self.oracle.one(entry, data[:end])["met"][4]
            return "limit %d" % limit if before == 0 and after == limit and self.alone(data[start:end]) is not None else None
        # Where the Rust panics.
        if message.startswith(NAME_PANIC):
            there = told(self.oracle.one(entry, data[:start + 1]))
            return "name panic" if number == 5 and ours == there else None
        if message.startswith(EXTRA_PANIC):
            mended = self.oracle.one(entry, data[:start] + b"a" + data[start + 1:])
            good = number == 11 and length == 1 and data[start:start + 1] in (b".", b"-", b"_") and mended["met"][0] > extras
            return "extra panic" if good and data[start + 1:start + 2] in (b"", b",", b"]", *(bytes([b]) for b in SPACE)) else None
        # Hints for requirements without a name: on the line cut at our place, the byte there replaced, the Rust says what we say.
        if message == PATH_HINT:
            return "path hint" if number == 4 and told(self.oracle.one(entry, data[:start] + b"$")) == ours else None
        if message == URL_HINT:
            masked = without_dots(data)
            again = self.oracle.one(entry, masked)
            if message_of(again) != URL_HINT:
                return "archive name" if self.reader(entry, masked, ours, again) else None
            # without dots nothing before our place looks like an archive
            return "url hint" if number == 17 and told(self.oracle.one(entry, data[:start].replace(b".", b"-") + b"$")) == ours else None
        if URL_BLANK.match(message):
            at = rust["err"][1] + 1
            while data[at] in SPACE:
                at += 1
            return "url blank" if ours == "refused 17 %d 1" % at else None
        if "ok" in rust:
            return "agree" if not refused and self.same(entry, data, fields(ours), rust["ok"]) else None
        return "agree" if "err" in rust and ours == told(rust) else None

    def met_there(self, entry, data, start, end, which, close):
        """In the text up to our place the Rust meets 32, and with our span 33."""
        return self.oracle.one(entry, data[:start])["met"][which] == 32 and self.oracle.one(entry, data[:end] + close)["met"][which] == 33

    def deep(self, entry, data, start):
        """Up to here 17 parentheses stand open, and no other limit was passed: 17 close them to the Rust, and 16 don't."""
        front = without_dots(data[:start + 1]) if entry == "line" else data[:start + 1]
        if front[-1:] != b"(" or self.oracle.one(entry, front[:-1])["met"][4]:
            return False
        front += b"os_name=='a'"
        return "ok" in self.oracle.one(entry, front + b")" * 17) and number_of(message_of(self.oracle.one(entry, front + b")" * 16))) == 22

    def same(self, entry, data, ours, rust):
        """Our spans hold the bytes that the Rust gives, and rise; the rest is equal."""
        if ours is None or set(ours) != set(rust):
            return False

        def span(words):
            start, length = map(int, words)
            if start + length > len(data):
                raise ValueError("outside the text")
            return data[start:start + length]

        def named(words, pair):
            given, normal = map(bytes.fromhex, pair)
            return span(words) == given and pep503(given) == normal

        def lists(key, equal):
            return len(ours[key]) == len(rust[key]) and all(map(equal, ours[key], rust[key]))

        def compared(words, theirs):
            sort, key, operator, *place = words
            their_sort, their_key, their_operator, literal = theirs
            text = span(place)
            if sort == "version_list":
                text = b" ".join(text.split())
            before, after = data[int(place[0]) - 1], data[int(place[0]) + int(place[1])]
            if before != after or before not in b"'\"":
                return False
            sorts = {"extra": "extra_normal", "arbitrary": "extra_arbitrary"}
            same = (sorts.get(sort, sort), key, operator.replace("_", " ")) == (their_sort, their_key, their_operator)
            return same and text == bytes.fromhex(literal)

        try:
            good = True
            if "extras" in ours:
                good &= lists("extras", named)
            if entry == "line":
                good &= named(ours["name"][0], rust["name"])
                good &= lists("specifiers", lambda words, text: span(words) == bytes.fromhex(text))
                good &= ours["url"] == [["-"]] if rust["url"] is None else span(ours["url"][0]) == bytes.fromhex(rust["url"])
            if "program" in ours:
                good &= lists("comparisons", compared)
                good &= [int(w[0]) for w in ours["warnings"]] == rust["warnings"]
                good &= [int(w) for w in ours["program"][0]] == rust["program"]
                warned = [(place, [int(w[0]) for w in words]) for place, words in itertools.groupby(ours["warnings"], key=lambda w: w[1:])]
                good &= all(self.alone(span(place)) == kinds for place, kinds in warned)
                good &= self.rising([w[-2:] for w in ours["comparisons"]], 0) and self.rising([place for place, _ in warned], 1)
            if entry == "line":
                url = [] if ours["url"] == [["-"]] else ours["url"]
                good &= self.rising(ours["name"] + ours["extras"] + ours["specifiers"] + url + [w[-2:] for w in ours["comparisons"]], 0)
            return bool(good)
        except (ValueError, IndexError):
            return False

    def alone(self, text):
        """The kinds of the warnings that the Rust gives for one comparison alone, None if the text is not one: so the place of a warning is compared,
        which the Rust does not tell."""
        if text not in self.kinds:
            rust = self.oracle.one("marker", text)
            good = "ok" in rust and text == text.strip(SPACE + b"()") and len(rust["ok"]["program"]) == 1
            self.kinds[text] = rust["ok"]["warnings"] if good else None
        return self.kinds[text]

    def rising(self, places, gap):
        """Spans that are disjoint, in the order of the text."""
        ends = 0
        for start, length in (map(int, place) for place in places):
            if start < ends:
                return False
            ends = start + length + gap
        return True

    # Versions, patterns, specifiers

    def version(self, entry, data, ours, rust):
        first = self.first(data, ours)
        if first != "":
            return first
        if ours != ("ok" if "ok" in rust else "refused 14 0 %d" % len(data)):
            return None
        if packaging is None:
            return "agree"
        text = data.decode()
        theirs = {"version": packaged_version, "pattern": lambda t: packaged_version(t) or packaged_specifier("!=" + t),
                  "specifier": packaged_specifier}[entry](text)
        if theirs == (ours == "ok"):
            return "agree"
        if not theirs:
            return None
        if re.match(rb"\s*===", data):
            return "packaging: ==="
        if any(int(digits) > 2**64 - 1 for digits in re.findall(rb"[0-9]+", data)):
            return "packaging: bound"
        return "packaging: white space" if re.search(rb"[\x1c-\x1f]", data) else None

    # Names

    def normalise(self, room, data, ours, rust):
        words, _, out = ours.partition(" out=")
        untouched = ("aa" * room) or "-"
        if "skip" in rust:
            masked = bytes(b if b < 128 else ord("$") for b in data)
            return "not text" if self.normalise(room, masked, ours, self.oracle.one("normalise", masked)) else None
        if "ok" in rust:
            normal = rust["ok"]["name"]
            size = len(normal) // 2
            if size > room:
                return "room 29" if (words, out) == ("refused 29 0 1", untouched) else None
            return "agree" if (words, out) == ("ok %d" % size, normal + "aa" * (room - size) or "-") else None
        number, start, length = refusal(words) or (0, 0, 0)
        if (number, length, out) != (28, 1, untouched) or start >= len(data) or number_of(message_of(rust)) != 28:
            return None
        # The Rust has no place: what stands before ours is good, and with the byte there it is not, unless that is the last and a joint.
        before = self.oracle.one("normalise", data[:start] + b"a")
        last = start == len(data) - 1 and data[start] in JOINTS
        with_it = None if last else self.oracle.one("normalise", (data[:start + 1] + b"a").decode("latin-1").encode())
        return "agree" if "ok" in before and (last or "err" in with_it) else None

    # Programs

    def program(self, entry, numbers, data, ours):
        refused = generate.PROGRAMS.refusal_of(list(data), numbers[0])
        if refused:
            return "agree" if refusal(ours) == refused else None
        if entry == "check":
            return "agree" if ours == "ok" else None
        return "agree" if ours == ("ok yes" if generate.PROGRAMS.answer(list(data), numbers[1]) else "ok no") else None


def packaged_version(text):
    try:
        Version(text)
        return True
    except InvalidVersion:
        return False


def packaged_specifier(text):
    try:
        Specifier(text)
        return True
    except InvalidSpecifier:
        return False


def split(text):
    """Entry, numbers and bytes of a good request."""
    entry, *numbers, digits = text.split(" ")
    return entry, list(map(int, numbers)), b"" if digits == "-" else bytes.fromhex(digits)


def batches(items, size):
    items = iter(items)
    while batch := list(itertools.islice(items, size)):
        yield batch


def probed(command, batch):
    """The probe's answers to a batch."""
    if command == "reference":
        return [reference.answer(text) for text in batch]
    try:
        done = subprocess.run(shlex.split(command), input="".join(text + "\n" for text in batch).encode(), stdout=subprocess.PIPE, check=False)
    except FileNotFoundError as missing:
        sys.exit("no probe: %s" % missing)
    answers = done.stdout.decode("ascii", "replace").splitlines()
    if done.returncode or len(answers) != len(batch):
        sys.exit("probe: status %d, %d answers to %d requests; the first without an answer: %s"
                 % (done.returncode, len(answers), len(batch), batch[min(len(answers), len(batch) - 1)][:200]))
    return answers


def compared_all(requests, comparer, probe, with_reference, size=20000):
    """(request, our answer, the Rust's answer, verdict) of each request, batch by batch."""
    bad = set(generate.bad_requests())
    for batch in batches(requests, size):
        answers = probed(probe, batch)
        asked = [text for text in batch if text not in bad and text.split(" ", 1)[0] not in ("check", "run")]
        questions = ["normalise " + text.split(" ")[2] if text.startswith("normalise") else text for text in asked]
        rust = dict(zip(asked, comparer.oracle.many(questions), strict=True))
        for text, ours in zip(batch, answers):
            if text in bad:
                verdict = "agree" if ours == "bad request" else None
            else:
                verdict = comparer.compared(*split(text), ours, rust.get(text))
            if with_reference and probe != "reference" and reference.answer(text) != ours:
                verdict = None
            yield text, ours, rust.get(text), verdict


def main():
    parser = argparse.ArgumentParser(description="Compares the probe with the Rust.")
    generate.arguments(parser)
    parser.add_argument("--probe", default=PROBE, metavar="COMMAND", help="default tools/run probe; 'reference' for reference.py")
    parser.add_argument("--oracle", default=ROOT / "target" / "oracle" / "oracle", metavar="FILE",
                        help="default target/oracle/oracle, which build.sh makes")
    parser.add_argument("--no-reference", action="store_true", help="do not compare with reference.py as well")
    parser.add_argument("--show", type=int, default=50, metavar="N", help="how many differences are printed whole")
    given = parser.parse_args()
    print("packaging %s" % packaging.__version__ if packaging else "packaging is not installed: versions are not compared with it")
    began = time.monotonic()
    comparer = Comparer(Oracle(given.oracle))
    entries, classes, smallest = collections.Counter(), collections.Counter(), {}
    differences = 0
    requests = generate.requests(given.seed, given.count, given.short, pathlib.Path(given.corpus))
    for text, ours, rust, verdict in compared_all(requests, comparer, given.probe, not given.no_reference):
        entry = text.split(" ", 1)[0]
        entry = entry if entry in reference.ENTRIES and ours != "bad request" else "bad requests"
        entries[entry, "inputs"] += 1
        entries[entry, "accepted"] += ours.startswith("ok")
        if verdict is None:
            differences += 1
            if differences <= given.show:
                print("DIFFERENT  %s" % text[:400])
                if ours != "bad request" and entry != "bad requests":
                    print("    input      %r" % split(text)[2][:200])
                print("    ours       %s" % ours[:400])
                print("    the Rust   %s %s" % (told(rust) or "" if rust else "", json.dumps(rust)[:400]))
                if not given.no_reference:
                    print("    reference  %s" % reference.answer(text)[:400])
            continue
        entries[entry, "agree"] += verdict == "agree"
        if verdict != "agree":
            classes[verdict] += 1
            if verdict not in smallest or len(text) < len(smallest[verdict]):
                smallest[verdict] = text
    print("%-13s %9s %9s %9s" % ("entry", "inputs", "accepted", "agree"))
    for entry in sorted({entry for entry, _ in entries}):
        print("%-13s %9d %9d %9d" % (entry, *(entries[entry, what] for what in ("inputs", "accepted", "agree"))))
    for name, what in CLASSES.items():
        if classes[name]:
            entry, numbers, data = split(smallest[name])
            shown = repr(data)[1:] if len(data) <= 60 else "%r.. (%d bytes)" % (data[:40], len(data))
            print("%-23s %8d  %s; smallest: %s %s" % (name, classes[name], what, " ".join([entry, *map(str, numbers)]), shown))
        else:
            print("%-23s %8d  %s" % (name, 0, what))
    total = sum(n for (_, what), n in entries.items() if what == "inputs")
    agree = sum(n for (_, what), n in entries.items() if what == "agree")
    took = time.monotonic() - began
    print("%d inputs: %d agree, %d in a class, %d differences; %d seconds" % (total, agree, sum(classes.values()), differences, took))
    sys.exit(1 if differences else 0)


if __name__ == "__main__":
    main()
