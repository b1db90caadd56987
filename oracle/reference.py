#!/usr/bin/env python3
"""A plain reading of document 01 that answers the protocol of `probe`.

    python3 oracle/reference.py < requests > answers

Written from document 01 and the PEPs alone: it shares nothing with the Rattle code, nor with the Rust. Each function stands for one of document 01's
paragraphs; a refusal is an exception that carries number, start and length. What is short comes before what is fast.
"""
import re
import sys

SPACE = frozenset(b"\t\n\v\f\r ")
LETTERS = frozenset(b"abcdefghijklmnopqrstuvwxyzABCDEFGHIJKLMNOPQRSTUVWXYZ")
ALNUM = LETTERS | frozenset(b"0123456789")
JOINTS = frozenset(b".-_")
NAME = ALNUM | JOINTS
OPERATOR_BYTES = frozenset(b"<=>~!")

MAX_LINE, MAX_LIST, MAX_DEPTH, MAX_KEPT = 4096, 32, 16, 64
AND, OR, YES = 64, 65, 66


class Refused(Exception):
    """Number, start, length: nothing else."""


def run(text, at, members):
    """Where the run of bytes in `members` that starts at `at` ends."""
    while at < len(text) and text[at] in members:
        at += 1
    return at


def until(text, at, members):
    """Where the run of bytes not in `members` that starts at `at` ends."""
    while at < len(text) and text[at] not in members:
        at += 1
    return at


def skip(text, at):
    """Behind the white space at `at`."""
    return run(text, at, SPACE)


def check_text(text):
    """Refusals 1 and 2."""
    if len(text) > MAX_LINE:
        raise Refused(1, MAX_LINE, 1)
    for at, byte in enumerate(text):
        if byte >= 128:
            raise Refused(2, at, 1)


# Names

def bad_at(name):
    """The place of 28: the first bad byte, or the last if that is a joint; None for a name that has a normal form."""
    for at, byte in enumerate(name):
        if byte not in NAME or at == 0 and byte in JOINTS:
            return at
    if name and name[-1] in JOINTS:
        return len(name) - 1
    return None


def normal_form(name):
    return re.sub(rb"[-_.]+", b"-", name).lower()


def normalise(room, name):
    """The answer's first words, and the whole output, which held 170 in each byte."""
    out = bytes([170]) * room
    bad = bad_at(name)
    if bad is not None:
        return "refused 28 %d 1" % bad, out
    normal = normal_form(name)
    if len(normal) > room:
        return "refused 29 0 1", out
    return "ok %d" % len(normal), normal + out[len(normal):]


# Versions: PEP 440, Appendix B. In a bytes pattern \s is just document 01's white space, and ignoring case concerns ASCII letters alone.

VERSION = re.compile(rb"""
    \s* v?
    (?: [0-9]+ ! )?
    (?P<release> [0-9]+ (?: \. [0-9]+ )* )
    (?: [-_.]? (?: a | b | c | rc | alpha | beta | pre | preview ) [-_.]? [0-9]* )?
    (?: - [0-9]+ | [-_.]? (?: post | rev | r ) [-_.]? [0-9]* )?
    (?: [-_.]? dev [-_.]? [0-9]* )?
    (?: \+ (?P<local> [a-z0-9]+ (?: [-_.] [a-z0-9]+ )* ) )?
    \s*""", re.VERBOSE | re.IGNORECASE)
STARRED = re.compile(rb"\s* v? (?: [0-9]+ ! )? [0-9]+ (?: \. [0-9]+ )* \.\* \s*", re.VERBOSE | re.IGNORECASE)
SPECIFIER = re.compile(rb"\s* ( <= | < | != | === | == | >= | > | ~= ) ( .* )", re.VERBOSE | re.DOTALL)
BOUND = 2**64 - 1


def bounded(texts):
    return all(int(digits) <= BOUND for digits in texts)


def version(text):
    """The match of a version, or None. Its groups give the release and the local part."""
    m = VERSION.fullmatch(text)
    if m is None:
        return None
    # before the local part every run of digits is a number; in it, the segments of digits alone are
    public = re.findall(rb"[0-9]+", text.partition(b"+")[0])
    local = re.split(rb"[-_.]", m["local"] or b"")
    return m if bounded(public) and bounded(n for n in local if n.isdigit()) else None


def starred(text):
    """Epoch and release, then `.*`."""
    return STARRED.fullmatch(text) is not None and bounded(re.findall(rb"[0-9]+", text))


def is_version(text):
    return version(text) is not None


def is_pattern(text):
    return is_version(text) or starred(text)


def may_go(operator, text, star_allowed=True):
    """Whether a version or pattern may go with an operator."""
    if starred(text):
        return star_allowed and operator in ("==", "!=")
    m = version(text)
    if m is None:
        return False
    if operator == "~=" and b"." not in m["release"]:
        return False
    return m["local"] is None or operator in ("==", "!=", "===")


def is_specifier(text):
    m = SPECIFIER.fullmatch(text)
    return m is not None and may_go(m[1].decode(), m[2])


def is_version_list(text):
    return all(is_version(part) for part in re.split(rb"\s+", text) if part)


# Extras, URL, specifiers

def read_extras(line, bracket):
    """The spans of the extras, and where the line goes on. `[` stands at `bracket`."""
    extras = []
    at = skip(line, bracket + 1)
    while at < len(line) and line[at:at + 1] != b"]":
        if line[at:at + 1] == b",":
            if not extras:
                raise Refused(7, at, 1)
            at = skip(line, at + 1)
            if at == len(line):
                break
        elif extras:
            raise Refused(9, at, 1)
        if line[at] not in ALNUM:
            raise Refused(8, at, 1)
        end = run(line, at, NAME)
        if end < len(line) and line[end] not in SPACE and line[end] not in b",]":
            raise Refused(10, end, 1)
        if line[end - 1] in JOINTS:
            raise Refused(11, end - 1, 1)
        if len(extras) == MAX_LIST:
            raise Refused(12, at, end - at)
        extras.append((at, end - at))
        at = skip(line, end)
    if at == len(line):
        raise Refused(6, bracket, 1)
    return extras, at + 1


def read_url(line, at):
    """The span of the URL, and where the line goes on. `@` stands just before `at`."""
    start = at = skip(line, at)
    ends = b";#"
    go_on = len(line)
    while at < len(line):
        if line[at] in b"\r\n":
            go_on = at + 1
            break
        if line[at] in SPACE:
            behind = skip(line, at)
            if behind == len(line) or line[behind] in ends:
                go_on = at
                break
            # the white space up to the next CR or LF counts, all of it, since what is behind it is the same
            at = until(line, at, frozenset(b"\r\n") | (frozenset(range(128)) - SPACE))
            continue
        at += 1
        if line[at - 1] in ends and at < len(line) and line[at] in SPACE:
            go_on = at
            break
    if at == start:
        raise Refused(13, start, 0)
    return (start, at - start), go_on


def read_specifiers(line, start, ends):
    """The spans of the texts from `start` to a byte in `ends`, and where that byte stands; None if the line ends before it. At the end of the line
    the last text is looked at only if the end may close it, which is if `;` may."""
    specifiers = []
    while True:
        end = until(line, start, ends + b",")
        if end == len(line) and b";" not in ends:
            return None
        if not is_specifier(line[start:end]):
            raise Refused(14, start, end - start)
        if len(specifiers) == MAX_LIST:
            raise Refused(16, start, end - start)
        specifiers.append((start, end - start))
        if line[end:end + 1] != b",":
            return specifiers, end
        start = end + 1


# Markers

VERSION_KEYS = ("python_version", "python_full_version", "implementation_version")
STRING_KEYS = ("os_name", "sys_platform", "platform_release", "platform_system", "platform_version", "platform_machine",
               "platform_python_implementation", "implementation_name")
KEYS = VERSION_KEYS + STRING_KEYS + ("extra",)
OPERATORS = ("==", "!=", "<", "<=", ">", ">=", "~=", "in")
MIRROR = {"<": ">", ">": "<", "<=": ">=", ">=": "<=", "in": "contains", "not_in": "not_contains"}


class Marker:
    """A marker that starts at `at` and must fill the rest of the line: comparisons, warnings and program."""

    def __init__(self, line, at):
        self.line, self.kept, self.warnings = line, [], []
        program, at = self.or_chain(at, MAX_DEPTH)
        if at < len(line):
            raise Refused(24, at, len(line) - at - 1)
        self.program = program or [YES]

    def or_chain(self, at, depth):
        return self.chain(at, depth, b"or", OR, self.and_chain)

    def and_chain(self, at, depth):
        return self.chain(at, depth, b"and", AND, self.comparison_or_group)

    def chain(self, at, depth, word, operator, inner):
        """Programs of ignored parts are empty; an operator comes only between two that are not."""
        program, at = inner(at, depth)
        while True:
            at = skip(self.line, at)
            end = until(self.line, at, SPACE)
            if self.line[at:end] != word:
                return program, at
            right, at = inner(end, depth)
            program = program + right + [operator] if program and right else program + right

    def comparison_or_group(self, at, depth):
        at = skip(self.line, at)
        if self.line[at:at + 1] != b"(":
            return self.comparison(at)
        if depth == 0:
            raise Refused(25, at, 1)
        program, end = self.or_chain(at + 1, depth - 1)
        if end == len(self.line):
            raise Refused(22, at, 1)
        if self.line[end:end + 1] != b")":
            raise Refused(23, end, 1)
        return program, end + 1

    def value(self, at):
        """(key, None, end) for a name, (None, literal span, end) for a quoted text."""
        line = self.line
        if at == len(line):
            raise Refused(18, at, 1)
        if line[at] in b"'\"":
            end = line.find(line[at:at + 1], at + 1)
            if end < 0:
                raise Refused(22, at, 1)
            return None, (at + 1, end - at - 1), end + 1
        end = until(line, at, SPACE | frozenset(b">=<!~)"))
        key = line[at:end].decode()
        if key not in KEYS:
            raise Refused(19, at, end - at)
        return key, None, end

    def operator(self, at):
        line = self.line
        if at < len(line) and line[at] in LETTERS:
            end = until(line, at, SPACE | frozenset(b"'\""))
        else:
            end = run(line, at, OPERATOR_BYTES)
        word = line[at:end].decode()
        if word != "not":
            if word not in OPERATORS:
                raise Refused(20, at, end - at)
            return word, end
        if end == len(line) or line[end] not in SPACE:
            raise Refused(21, end, 1)
        end = skip(line, end)
        for wanted in b"in":
            if end == len(line):
                raise Refused(22, end, 1)
            if line[end] != wanted:
                raise Refused(23, end, 1)
            end += 1
        return "not_in", end

    def comparison(self, start):
        left_key, left_text, at = self.value(start)
        operator, at = self.operator(skip(self.line, at))
        right_key, right_text, end = self.value(skip(self.line, at))
        span = (start, end - start)
        kinds, kept = self.verdict(left_key, left_text, operator, right_key, right_text)
        for kind in kinds:
            if len(self.warnings) == MAX_KEPT:
                raise Refused(27, *span)
            self.warnings.append((kind, *span))
        if kept is None:
            return [], end
        if len(self.kept) == MAX_KEPT:
            raise Refused(26, *span)
        self.kept.append(kept)
        return [len(self.kept) - 1], end

    def verdict(self, left_key, left_text, operator, right_key, right_text):
        """The kinds of the warnings, and the comparison if it is kept."""
        if left_key in VERSION_KEYS:
            if right_text is None:
                return [1], None
            literal = self.text(right_text)
            if operator in ("in", "not_in"):
                return ([], ("version_list", left_key, operator, *right_text)) if is_version_list(literal) else ([1, 1], None)
            return ([], ("version", left_key, operator, *right_text)) if may_go(operator, literal) else ([1], None)
        if left_key in STRING_KEYS:
            if right_text is None:
                return [2], None
            if operator == "~=":
                return [3], None
            return [], ("string", left_key, operator, *right_text)
        if left_key == "extra":
            return self.extra(operator, right_text) if right_text else ([4], None)
        mirrored = MIRROR.get(operator, operator)
        if right_key in VERSION_KEYS:
            good = mirrored in OPERATORS and may_go(mirrored, self.text(left_text), star_allowed=False)
            return ([], ("version", right_key, mirrored, *left_text)) if good else ([1], None)
        if right_key in STRING_KEYS:
            return [], ("string", right_key, mirrored, *left_text)
        if right_key == "extra":
            return self.extra(operator, left_text)
        return [5], None

    def extra(self, operator, literal):
        kinds, sort = ([], "extra") if bad_at(self.text(literal)) is None else ([4], "arbitrary")
        if operator in ("==", "!="):
            return kinds, (sort, "extra", operator, *literal)
        return kinds + [4], None

    def text(self, span):
        return self.line[span[0]:span[0] + span[1]]


# Programs

def check_program(count, words):
    """Refusals 31 and 30."""
    if count > 64:
        raise Refused(31, 0, 1)
    height = 0
    for at, word in enumerate(words):
        joins = word in (AND, OR)
        known = word <= YES and (joins or word == YES or word < count)
        if at == 127 or not known or joins and height < 2:
            raise Refused(30, at, 1)
        height += -1 if joins else 1
        if height > 35:
            raise Refused(30, at, 1)
    if height != 1:
        raise Refused(30, len(words), 1)


def run_program(count, assignment, words):
    check_program(count, words)
    stack = []
    for word in words:
        if word in (AND, OR):
            right, left = stack.pop(), stack.pop()
            stack.append(left and right if word == AND else left or right)
        else:
            stack.append(word == YES or bool(assignment >> word & 1))
    return stack[0]


# The entries, and the protocol

def spans(items):
    return ";".join(",".join(map(str, item)) for item in items)


def marker_words(kept, warnings, program):
    return "comparisons=%s warnings=%s program=%s" % (spans(kept), spans(warnings), ",".join(map(str, program)))


def line_entry(line):
    check_text(line)
    at = skip(line, 0)
    if at == len(line):
        raise Refused(3, 0, 1)
    if line[at] not in ALNUM:
        raise Refused(4, at, 1)
    end = run(line, at, NAME)
    if line[end - 1] in JOINTS:
        raise Refused(5, end - 1, 1)
    name, at = (at, end - at), skip(line, end)
    extras, specifiers, url = [], [], None
    if line[at:at + 1] == b"[":
        extras, at = read_extras(line, at)
        at = skip(line, at)
    first = line[at:at + 1]
    if first == b"@":
        url, at = read_url(line, at + 1)
    elif first == b"(":
        closed = read_specifiers(line, skip(line, at + 1), b")")
        if closed is None:
            raise Refused(15, at, 1)
        specifiers, at = closed[0], closed[1] + 1
    elif first and first in b"<=>~!":
        specifiers, at = read_specifiers(line, at, b";")
    elif first not in (b"", b";"):
        raise Refused(17, at, 1)
    at = skip(line, at)
    marker = ([], [], [YES])
    if line[at:at + 1] == b";":
        read = Marker(line, at + 1)
        marker = (read.kept, read.warnings, read.program)
    elif at < len(line):
        raise Refused(17, at, 1)
    return "ok name=%s extras=%s specifiers=%s url=%s %s" % (spans([name]), spans(extras), spans(specifiers), spans([url]) if url else "-",
                                                             marker_words(*marker))


def extras_entry(text):
    check_text(text)
    return "ok extras=" + spans(read_extras(text, 0)[0] if text[:1] == b"[" else [])


def marker_entry(text):
    check_text(text)
    read = Marker(text, 0)
    return "ok " + marker_words(read.kept, read.warnings, read.program)


def text_entry(text, good):
    """A version, pattern or specifier alone."""
    check_text(text)
    if not good(text):
        raise Refused(14, 0, len(text))
    return "ok"


def normalise_entry(room, name):
    words, out = normalise(room, name)
    return "%s out=%s" % (words, out.hex() or "-")


def check_entry(count, words):
    check_program(count, words)
    return "ok"


ENTRIES = {
    "line": line_entry,
    "extras": extras_entry,
    "marker": marker_entry,
    "version": lambda text: text_entry(text, is_version),
    "pattern": lambda text: text_entry(text, is_pattern),
    "specifier": lambda text: text_entry(text, is_specifier),
    "normalise": normalise_entry,
    "check": check_entry,
    "run": lambda count, assignment, words: "ok yes" if run_program(count, assignment, words) else "ok no",
}
NUMBERS = {"normalise": (8192,), "check": (BOUND,), "run": (BOUND, BOUND)}


def answer(request):
    """The answer to one request, without its line end."""
    entry, *fields = request.split(" ")
    bounds = NUMBERS.get(entry, ())
    if len(request) > 20000 or entry not in ENTRIES or len(fields) != len(bounds) + 1:
        return "bad request"
    *numbers, digits = fields
    if not re.fullmatch("-|(?:[0-9a-f]{2})+", digits):
        return "bad request"
    if not all(re.fullmatch("[0-9]{1,20}", n) and int(n) <= bound for n, bound in zip(numbers, bounds)):
        return "bad request"
    text = b"" if digits == "-" else bytes.fromhex(digits)
    try:
        return ENTRIES[entry](*map(int, numbers), text)
    except Refused as refusal:
        return "refused %d %d %d" % refusal.args


def main():
    """A line feed alone ends a request; a last line without one is a request too, unless it is empty. Any byte may stand in a bad request."""
    for request in sys.stdin.buffer:
        print(answer(request.removesuffix(b"\n").decode("latin-1")))


if __name__ == "__main__":
    main()
