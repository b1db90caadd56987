#!/usr/bin/env python3
"""Makes inputs for the comparison: requests in the protocol of `probe`, one a line.

    python3 oracle/generate.py SEED COUNT [--short LEVEL] [--corpus FILE] > requests

In this order: both sides of each limit, the corpus's lines and their parts, all short texts over small alphabets (LEVEL 0, 1 or 2 says how long), and
COUNT random inputs: valid texts of all shapes, and damaged ones. No input comes twice; the same arguments give the same inputs.
"""
import argparse
import importlib.util
import itertools
import pathlib
import random

HERE = pathlib.Path(__file__).resolve().parent
CORPUS = HERE / "corpus.txt"
BOUND = 2**64 - 1


def program_cases():
    """crates/program_cases/make.py, which makes marker programs and says what their check answers."""
    spec = importlib.util.spec_from_file_location("program_cases_make", HERE.parent / "crates" / "program_cases" / "make.py")
    module = importlib.util.module_from_spec(spec)
    spec.loader.exec_module(module)
    return module


PROGRAMS = program_cases()

VERSION_KEYS = ["python_version", "python_full_version", "implementation_version"]
STRING_KEYS = ["os_name", "sys_platform", "platform_release", "platform_system", "platform_version", "platform_machine",
               "platform_python_implementation", "implementation_name"]
KEYS = VERSION_KEYS + STRING_KEYS + ["extra"]
MARKER_OPERATORS = ["==", "!=", "<", "<=", ">", ">=", "~=", "in", "not in"]
OPERATORS = ["<=", "<", "!=", "==", ">=", ">", "~=", "==="]


def request(entry, text, *numbers):
    """`text` is bytes, or text whose characters stand for bytes."""
    data = text if isinstance(text, bytes) else text.encode("latin-1")
    return " ".join([entry, *map(str, numbers), data.hex() or "-"])


# Both sides of each limit

def lengths():
    """Texts that can be filled up to any length, for 4,096 and 4,097 bytes."""
    for size in (4094, 4095, 4096, 4097, 4098, 5000, 9000):
        def fill(front, byte, back=""):
            return front + byte * (size - len(front) - len(back)) + back

        for text in (fill("", "a"), fill("a", " "), fill("", " "), fill(" ", " ", "a"), fill("a", "-"), fill("a", "_", "b"), fill("a[", "b"),
                     fill("a[", "b", "]"), fill("a[b", " ", "]"), fill("a==", "0"), fill("a==", "1"), fill("a==1", " "), fill("a==1", ".", "1"),
                     fill("a(==1", " ", ")"), fill("a(==1", " "), fill("a@", "x"), fill("a @ x", " "),
                     fill("a @ x", " ", "y"), fill("a @ x", " ", ";"),
                     fill("a;os_name=='", "a", "'"), fill("a;os_name=='", "a"), fill("a;", "x"), fill("a;os_name=='a'", " "), fill("a;", " "),
                     fill("a;os_name=='a'", "x"), fill("a;", "("), fill("$", "$"), fill("a>=1", "x", ",b")):
            yield request("line", text)
        for text in (fill("[", "a"), fill("[", "a", "]"), fill("[a]", "$"), fill("", "a"), fill("[a", " ", "]"), fill("[", " ", "]"),
                     fill("[a-]", " ")):
            yield request("extras", text)
        for text in (fill("os_name=='", "a", "'"), fill("os_name=='", "a"), fill("os_name", "=", "'a'"), fill("", "a"), fill("", " "), fill("", "("),
                     fill("os_name=='a'", " "), fill("os_name=='a'", ")"), fill("extra=='", "-", "'"), fill("python_version<'", "0", "'"),
                     fill("python_version in '", "1", "'"), fill("os_name not", " ", "in 'a'")):
            yield request("marker", text)
        for text in (fill("", "0"), fill("", "0", "1"), fill("1", ".", "0"), fill("", " ", "1"), fill("1", " "), fill("1+", "a"), fill("1+", "1"),
                     ("1." * size)[:size - 1] + "1", "1+" + ("a-" * size)[:size - 3] + "b"):
            for entry in ("version", "pattern"):
                yield request(entry, text)
            yield request("specifier", "==" + text[2:])
        yield request("pattern", fill("", "0", ".*"))
        yield request("specifier", fill("==", " ", "1.*"))
    for at in (0, 1, 4094, 4095, 4096, 4097):
        for byte in (127, 128, 255):
            data = bytearray(b"a" * 4098)
            data[at] = byte
            for size in (4096, 4097, 4098):
                for entry in ("line", "extras", "marker", "version", "pattern", "specifier"):
                    yield request(entry, bytes(data[:size]))


def lists():
    """32 and 33 extras and specifiers, with every fault that may stand at the 33rd."""
    for n in (1, 2, 31, 32, 33, 34, 65, 100):
        yield request("extras", "[" + ",".join("a" * n) + "]")
        yield request("line", "a" + ",".join(["<1"] * n))
        extras = ["e%d" % i for i in range(n)]
        for join in (",", " , ", "\t,\n", ",,", " "):
            for end in ("]", " ]", "", ",", ",]", "-]", "-", "$]", " x]", ",-", "] ;", "]==1", "]@x", "] x"):
                text = "[" + join.join(extras) + end
                yield request("extras", text)
                yield request("line", "a" + text)
        texts = ["==%d" % i for i in range(n)]
        for join in (",", " , ", ",\n"):
            for end in ("", " ", ",", ",x", "x", ".*", ";", " ; os_name=='a'", ",==1;x", "$", "-"):
                yield request("line", "a" + join.join(texts) + end)
                for close in (")", "", " )", ") ;", ") x", "),"):
                    yield request("line", "a(" + join.join(texts) + end + close)


def depths():
    """16 and 17 parentheses."""
    c = "os_name=='a'"
    for n in (1, 2, 14, 15, 16, 17, 18, 33, 200, 300):
        for text in ("(" * n + c + ")" * n, "(" * n + c + ")" * (n - 1), "(" * n + c + ")" * (n + 1), "(" * n, "( " * n + c + " )" * n,
                     "(" * n + ")" * n, "(" * n + "x", "(" * n + "'a'=='b'" + ")" * n, "(" * n + c + " and " + c + ")" * n + " or " + c,
                     (c + " or (") * n + c + ")" * n, (c + " or " + c + " and (") * n + c + " or " + c + " and " + c + ")" * n,
                     ("(" + c + ") and ") * n + c, ("(" + c + " or ") * n + c + ")" * n, c + " or " + "(" * n + c + " and 'x'<'y'" + ")" * n,
                     "('a'=='b' and " * n + c + ")" * n, "(" * n + c + " x" + ")" * n, "(" * n + "'(((((((((((((((((((('==os_name" + ")" * n):
            if len(text) < 9000:
                yield request("marker", text)
                yield request("line", "a ;" + text)


def counts():
    """64 and 65 kept comparisons and warnings, alone and together, and what may follow them."""
    kept = ["os_name=='a'", "'a'!=extra", "python_version<'3'", "'1'in os_name", "extra=='a'", "python_version in '1 2'"]
    warned = ["'a'=='b'", "os_name==extra", "python_version=='x'", "os_name~='a'", "extra<'a'", "extra==os_name"]
    twice = ["python_version in 'x'", "extra<'-'"]
    both = ["extra=='-'", "'-'!=extra"]
    more = ["", " or os_name=='a'", " or os_name='a'", " or 'a'=='b'", " and extra=='-'", " or python_version in 'x'", " or", " x", ")",
            " or (os_name=='a'", " or extra<'-'"]
    for n in (62, 63, 64, 65, 66):
        for c in kept + warned + twice[:1] + both:
            for join in (" or ", " and "):
                for end in more:
                    yield request("marker", join.join([c] * n) + end)
            yield request("line", "a;" + " or ".join([c] * n))
        yield request("marker", " or ".join(["''<''"] * n))
        yield request("marker", " or ".join(["''==extra"] * n))
        mixed = [(kept + warned)[i % 12] for i in range(2 * n)]
        yield request("marker", " or ".join(mixed))
        yield request("marker", "(" + " or ".join(["extra=='a'", "'a'=='b'"] * n) + ")")
        yield request("marker", " or ".join(["'a'=='b'"] * (n - 1) + ["extra=='a'"] * 64 + ["extra=='-'"]))
        yield request("marker", " or ".join(["extra=='a'"] * n + ["'a'=='b'"] * 64))
        yield request("marker", " or ".join(["'a'=='b'"] * 64 + ["extra=='a'"] * n))
        yield request("marker", " or ".join(["'a'=='b'"] * 63 + ["extra=='a'"] * (n - 1) + ["python_version in 'x'"]))
        for count in (31, 32, 33):
            for c in twice:
                yield request("marker", " and ".join([c] * count + ["extra=='a'"] * n))


def numbers():
    """Numbers at 2^64 - 1 in every place of a version."""
    for value in ("0", "18446744073709551614", "18446744073709551615", "18446744073709551616", "18446744073709551620", "99999999999999999999",
                  "1" + "0" * 30, "0" * 30 + "18446744073709551615", "0" * 30 + "18446744073709551616", "36893488147419103232"):
        for shape in ("%s", "v%s", "%s!1", "1!%s", "1.%s", "%s.1", "1a%s", "1.rc-%s", "1.post%s", "1-%s", "1r%s", "1.dev%s", "1+%s", "1+a.%s",
                      "1+%sa", "1+%s.a", "1+a%s", " %s "):
            text = shape % value
            yield request("version", text)
            for star in ("", ".*"):
                yield request("pattern", text + star)
                yield request("specifier", "==" + text + star)
                yield request("specifier", "~=" + text + star)
                yield request("marker", "python_version != '%s'" % (text + star))
            yield request("marker", "'%s' <= python_full_version" % text)
            yield request("marker", "python_version not in '1 %s'" % text)
            yield request("line", "a>=%s,<2" % text)


def names():
    """The normaliser has no limit of its own, only the output's."""
    for size in (0, 1, 2, 10, 255, 256, 4095, 4096, 4097, 8191, 8192, 8193, 9000):
        for text in ("a" * size, "A" * size, ("a-" * size)[:size], ("a" + "-" * size + "b")[-size:] if size else "", "a" + "._" * (size // 2) + "Z"):
            normal = len("-".join(filter(None, text.replace("_", "-").replace(".", "-").split("-"))))
            for room in {0, 1, max(normal - 1, 0), normal, normal + 1, len(text), 8192}:
                if room <= 8192:
                    yield request("normalise", text, room)
    for byte in range(256):
        for shape in ("%s", "a%s", "%sa", "a%sb", "a-%s", "a%s-"):
            yield request("normalise", (shape % chr(byte)).encode("latin-1"), 5)
    yield request("normalise", "\u00e9".encode(), 5)
    yield request("normalise", b"a\xe2\x80\xa8", 5)


def programs():
    """127 and 128 words, 35 and 36 slots, counts 64 and 65."""
    for n in (1, 2, 33, 34, 35, 36, 37, 62, 63, 64, 65, 66, 100):
        pushes = [i % 64 for i in range(n)]
        left = pushes[:1] + [w for p in pushes[1:] for w in (p, 64 + p % 2)]
        for words in (pushes, pushes + [64] * (n - 1), pushes + [65] * n, left, left + [66], left + [66, 65], left + [64], left + [67],
                      [66] * n + [65] * (n - 1)):
            for count in (0, 1, n - 1, n, 63, 64, 65, 66, BOUND):
                yield request("check", bytes(words), count)
            for assignment in (0, 1, BOUND, 1 << 63, 0x5555555555555555):
                yield request("run", bytes(words), min(n, 64), assignment)
    for count in (0, 1, 63, 64, 65, 255, 256, BOUND - 1, BOUND):
        for word in range(256):
            yield request("check", bytes([word]), count)
            yield request("run", bytes([word]), count, 1 << min(word, 63))
        yield request("check", b"", count)
        yield request("run", b"", count, 0)


def bytes_in_places():
    """Every byte in each place where a class of bytes decides."""
    shapes = {"line": ["%s", "%sa", "a%s", "a%sb", "a %s", "a %s x", "a[%s", "a[%s]", "a[b%s]", "a[b%sc]", "a[b %s]", "a[b,%s]", "a[b]%s", "a@%s",
                       "a@%sx", "a@x%s",
                       "a@x%sy", "a@x %s", "a@x;%s", "a@x#%sy", "a@x %s;os_name=='a'", "a(%s", "a(%s)", "a(==1%s)", "a(==1)%s", "a==1%s", "a%s=1",
                       "a;%s", "a;os_name=='a'%s", "a==1;os_name=='a'%sand os_name=='b'"],
              "extras": ["%s", "%s[a]", "[%s", "[%s]", "[a%s", "[a%s]", "[a%sb]", "[a %s]", "[a,%s]", "[a]%s"],
              "marker": ["%s", "%sos_name=='a'", "os_name%s=='a'", "os_name%s'a'", "os_name=%s'a'", "os_name==%s'a'", "os_name==%s", "os_name==%sa%s",
                         "os_name=='%s'", "os_name=='a'%s", "os_name=='a'%sand os_name=='b'", "os_name=='a' and%sos_name=='b'", "os_name not%sin 'a'",
                         "os_name not %sn 'a'", "os_name not i%s 'a'", "os_name not in%s'a'", "os_name in%s'a'", "(os_name=='a'%s",
                         "(os_name=='a' %s)",
                         "extra=='%s'", "extra=='a%s'", "python_version=='%s'", "python_version=='1%s'", "python_version in '1%s2'",
                         "python_version%s'1'", "os_name <%s'a'", "os_name %s 'a'", "os%sname=='a'"],
              "version": ["%s", "1%s", "%s1", "1%s1", "1.%s", "1a%s", "1a%s1", "1+%s", "1+a%sb", "1-%s", "1%spost1", "1.%sev"],
              "pattern": ["%s", "1%s", "1%s*", "1.%s", "1.*%s", "%s1.*", "1%s1.*"],
              "specifier": ["%s", "%s1", "=%s1", "==%s1", "==1%s", "%s=1", "%s==1", "~=1%s0", "==1.%s"]}
    for entry, all_shapes in shapes.items():
        for shape in all_shapes:
            for byte in (*range(130), 160, 255):
                yield request(entry, shape.replace("%s", chr(byte)))


def bad_requests():
    yield from ("line", "line 6", "line 6g", "lines 61", "line 61 61", "check 61", "check -1 61", "check 18446744073709551616 00", "run 1 00",
                "run 1 18446744073709551616 00", "normalise 61", "normalise 8193 61", "version", "x", "line " + "61" * 10100, "check 1 1 00")


# All short texts

def short(level):
    """(entry, what stands before, alphabet, length at level 0)."""
    marker_tokens = ["os_name", "python_version", "extra", "'a'", "'1'", "==", "in", "not", " ", "(", ")"]
    chains = ["os_name=='a'", "'a'=='b'", " and ", " or ", "(", ")", " "]
    tables = [
        ("line", "", "a-[;(=1 @", 3), ("line", "a", "a-[],@;()=1 ", 3), ("line", "a@x", " \n;#xy", 4), ("line", "a @", " \r;#x", 4), ("line", "a(",
                                                                                                                                      "=1,) ;", 4),
        ("line", "a=", "=1,) ;.", 4), ("line", "a;", ["os_name", "==", "'a'", " ", ";"], 4), ("line", "a[", "a,] -;", 4),
        ("extras", "[", "a-,] $\n", 4), ("extras", "", "a[], ", 4),
        ("marker", "", marker_tokens, 3), ("marker", "", chains, 5), ("marker", "os_name not", " in'a\t", 4), ("marker", "", "'\"a=in ", 4),
        ("marker", "python_version", ["=", "<", ">", "~", "!", "'1'", "'1.0'", "'1.*'", " in ", "'1+a'"], 3),
        ("version", "", "1.a-+!vr *", 3), ("version", "1", [".", "1", "a", "rc", "post", "dev", "-", "_", "+", "!", " "], 3),
        ("version", "1", ["-", "1", "c", "pre", "view", "r", "ev", "."], 4),
        ("pattern", "1", ".*1!a+ v", 3), ("pattern", "", "1.*v ", 4),
        ("specifier", "", "=<~!1.*+ ", 3), ("specifier", "==", "1.*+a ,v!", 3), ("specifier", "~=", "1.*+a !", 3),
    ]
    for entry, front, alphabet, size in tables:
        for length in range(size + level + 1):
            for text in itertools.product(alphabet, repeat=length):
                yield request(entry, front + "".join(text))
    for length in range(4 + level + 1):
        for i, text in enumerate(itertools.product("aB-_.$", repeat=length)):
            yield request("normalise", "".join(text), i % (length + 2))
        for words in itertools.product((0, 1, 64, 65, 66), repeat=length):
            for assignment in range(4):
                yield request("run", bytes(words), 2, assignment)
    for length in range(3 + level + 1):
        for words in itertools.product((0, 1, 63, 64, 65, 66, 67), repeat=length):
            for count in (0, 1, 64, 65):
                yield request("check", bytes(words), count)
    # every operator with every kind of version
    texts = ["1", "1.0", "1.*", "1.0.*", "1+a", "1.0+a", "1+a.*", "1.0a1", "1.0a1.*", "v1", "V1.*", "1!1", "1!1.0", "1!1.*", "", " ", "x", "*", ".*",
             "1.", "1..*", "1.**", " 1.0 ", "1.0.post1", "1.0-1", "1 .0", "1,", "18446744073709551616.0"]
    for operator, text in itertools.product(OPERATORS + ["", "=", "=>", "=<", "====", "~", "~==", "!", "<>", "= ="], texts):
        for blank in ("", " "):
            yield request("specifier", operator + blank + text)
            yield request("line", "a" + operator + blank + text)
            yield request("line", "a(" + operator + blank + text + ",<2)")
            yield request("marker", "python_version " + operator + blank + "'" + text + "'")
            yield request("marker", "'" + text + "'" + blank + operator + " python_version")
    # every comparison of two values
    values = KEYS + ["''", "'a'", '"a"', "'1'", "'1.2'", "'1.*'", "'1 2'", "' '", "'-'", "'A_b'", "'1+a'", "'x y'", "'18446744073709551616'",
                     "os.name", "OS_NAME"]
    operators = MARKER_OPERATORS + ["===", "=", "=>", "not", "IN", "not  in", "notin", "<>", "is", ""]
    for left, operator, right in itertools.product(values, operators, values):
        yield request("marker", "%s %s %s" % (left, operator, right))


# Random texts

class Random:
    """All shapes, from one source of chance."""

    def __init__(self, seed, corpus):
        self.rng = random.Random(seed)
        self.corpus = corpus
        self.choice, self.random, self.below = self.rng.choice, self.rng.random, self.rng.randrange

    def space(self):
        """White space of every kind, mostly none or one blank."""
        r = self.random()
        if r < 0.5:
            return ""
        if r < 0.85:
            return " "
        return "".join(self.choice(" \t\n\v\f\r ") for _ in range(self.below(1, 4)))

    def name(self):
        r = self.random()
        if r < 0.4:
            return self.choice(("a", "b1", "Foo", "foo-bar", "x.y_z", "A--b", "requests", "zope.interface", "python_version", "a.zip", "or",
                                "b.tar.gz", "7z"))
        text = self.choice("abzAZ09")
        for _ in range(self.below(12)):
            text += self.choice("abcxyzABC019.-_")
        return text + ("" if r < 0.45 else self.choice("aZ9"))

    def number(self):
        r = self.random()
        if r < 0.8:
            return str(self.below(30))
        if r < 0.9:
            return "0" * self.below(1, 30) + str(self.below(3000))
        if r < 0.96:
            return str(BOUND + self.below(-3, 4))
        return str(self.below(10**22))

    def cased(self, word):
        return word if self.random() < 0.7 else "".join(self.choice((c, c.upper())) for c in word)

    def part(self, words):
        joint = ("", "", ".", "-", "_")
        return self.choice(joint) + self.cased(self.choice(words)) + self.choice(joint) + self.choice(("", self.number()))

    def release(self):
        front = self.choice(("", "", "", "", "v", "V")) + (self.number() + "!" if self.random() < 0.15 else "")
        return front + ".".join(self.number() for _ in range(self.choice((1, 1, 2, 2, 3, 4))))

    def version(self):
        if self.random() < 0.35:
            return self.choice(("1", "2.7", "3.8", "3.10.1", "1.0", "0", "2020.1", "1.0rc1", "1.0.dev0", "1.0.post1"))
        text = self.release()
        if self.random() < 0.35:
            text += self.part(("a", "b", "c", "rc", "alpha", "beta", "pre", "preview"))
        if self.random() < 0.3:
            text += self.choice(("-" + self.number(), self.part(("post", "rev", "r"))))
        if self.random() < 0.3:
            text += self.part(("dev",))
        if self.random() < 0.2:
            text += "+" + self.choice((self.number(), "ubuntu", "a1", "7z"))
            for _ in range(self.below(3)):
                text += self.choice(".-_") + self.choice((self.number(), self.cased("abc"), "x9"))
        return text

    def pattern(self):
        return self.release() + ".*" if self.random() < 0.25 else self.version()

    def specifier(self):
        operator = self.choice(OPERATORS)
        text = self.pattern() if operator in ("==", "!=") or self.random() < 0.1 else self.version()
        if operator == "~=" and self.random() < 0.7:
            text = self.number() + "." + text.lstrip("vV").replace("!", ".")
        return self.space() + operator + self.space() + text + self.space()

    def specifiers(self):
        return ",".join(self.specifier() for _ in range(self.choice((1, 1, 1, 2, 2, 3, 5))))

    def extras(self):
        inner = (self.space() + "," + self.space()).join(self.name() for _ in range(self.choice((0, 1, 1, 2, 3, 6))))
        return "[" + self.space() + inner + self.space() + "]"

    def url(self):
        text = self.choice(("http://x", "https://example.org/a.whl", "file:///a b/c", "../d e", "git+https://h/p@v#egg=y", "x", ";", "#", "C:\\a",
                            "${HOME}/a"))
        for _ in range(self.choice((0, 0, 0, 1, 2, 3, 5))):
            text += self.choice((" ", " ", "\t", ";", "#", "x", "/y", " ;", " #", "; ", "# ", "\r", "\n", "  ", "%20", "'", ")"))
        return text

    def literal(self):
        r = self.random()
        if r < 0.35:
            text = self.version()
        elif r < 0.5:
            text = self.choice(("linux", "win32", "posix", "CPython", "x86_64", "", " ", "a b", "nt", "-", "_a", "a_", "test", "Dev-2"))
        elif r < 0.6:
            text = self.pattern()
        elif r < 0.7:
            text = self.space().join(self.version() for _ in range(self.below(1, 4)))
        elif r < 0.9:
            text = self.name()
        else:
            text = "".join(self.choice("abz019 \t<=>~!()[],;@#.-_*+/\\\"'$\x00\x7f\x1c") for _ in range(self.below(10)))
        quote = self.choice("'\"")
        return quote + text.replace(quote, "") + quote

    def value(self, literal):
        if self.random() < 0.03:
            return self.choice(("os.name", "python_versions", "Extra", "and", "x", "in", "os_name;", "'a", "\"", "sys_platform'", ""))
        return self.literal() if literal else self.choice(KEYS)

    def marker_operator(self):
        r = self.random()
        if r < 0.03:
            return self.choice(("===", "=", "=<", "<>", "not", "is", "IN", "not_in", "and", "", "=="))
        if r < 0.08:
            return "not" + self.choice((" ", "\t", "  ", "\n")) + "in"
        return self.choice(MARKER_OPERATORS)

    def comparison(self):
        r = self.random()
        left, right = (False, True) if r < 0.62 else (True, False) if r < 0.9 else (False, False) if r < 0.95 else (True, True)
        left, right, operator = self.value(left), self.value(right), self.marker_operator()
        before = self.space() or (" " if operator[:1].isalpha() and left[:1] not in "'\"" else "")
        after = self.space() or (" " if operator[-1:].isalpha() and right[:1] not in "'\"" else "")
        return left + before + operator + after + right

    def marker(self, depth=4):
        if depth == 4 and self.random() < 0.02:
            return self.big_marker()
        parts = []
        for i in range(self.choice((1, 1, 1, 2, 2, 3, 4))):
            if i:
                parts.append((self.space() or self.choice(("", " "))) + self.choice(("and", "or")) + (self.space() or self.choice((" ", " ", ""))))
            if depth and self.random() < 0.2:
                parts.append("(" + self.space() + self.marker(depth - 1) + self.space() + ")")
            else:
                parts.append(self.comparison())
        return "".join(parts)

    def many(self, make, join, most):
        """Up to some more than a limit of `most`, often just about it."""
        count = self.choice((most - 1, most, most, most + 1, most + 2, self.below(1, most)))
        return join.join(make() for _ in range(count))

    def plain(self):
        """A short comparison: most are kept, some warn."""
        return self.choice(("os_name=='a'", "extra=='a'", "'1'<python_version", "extra=='a'", "os_name in 'x'", "'a'=='b'", "extra=='-'",
                            "python_version in 'x'"))

    def nest(self, depth):
        """Groups in groups, all of them inside the limits if `depth` is."""
        text = self.plain()
        for _ in range(depth):
            left = self.plain() + self.choice((" or ", " and ")) if self.random() < 0.3 else ""
            right = self.choice((" or ", " and ")) + self.plain() if self.random() < 0.3 else ""
            text = "(" + left + text + right + ")"
        return text

    def big_marker(self):
        r = self.random()
        if r < 0.35:
            return self.many(self.plain, self.choice((" or ", " and ")), 64)
        if r < 0.5:
            return self.many(lambda: "extra=='a'", self.choice((" or ", " and ")), 64) + self.choice(("", " or extra=='-'", " and 'a'=='b'"))
        if r < 0.65:
            return self.many(lambda: "'a'=='b'", " or ", 64) + self.choice(("", " or extra=='-'", " and os_name=='b'"))
        return self.plain() + self.choice((" or ", " and ")) + self.nest(self.choice((14, 15, 16, 16, 17, 18)))

    def big_line(self):
        text = self.name() + self.space()
        if self.random() < 0.4:
            text += "[" + self.many(self.name, ",", 32) + "]"
        r = self.random()
        if r < 0.3:
            text += self.many(lambda: "!=" + self.choice(("1", "2.*", "3a1", " 4 ")), ",", 32)
        elif r < 0.5:
            text += "(" + self.many(lambda: "<" + self.choice(("1", "2.0", " 3")), ",", 32) + ")"
        elif r < 0.7:
            text += "@ " + self.many(lambda: "x" + " " * self.below(60), self.choice(("", ";", "\t")), 30)
        if self.random() < 0.5:
            text += " ;" + self.big_marker()
        return text

    def line(self):
        if self.random() < 0.02:
            return self.big_line()
        text = self.space() + self.name() + self.space()
        if self.random() < 0.3:
            text += self.extras() + self.space()
        r = self.random()
        if r < 0.2:
            text += "@" + self.space() + self.url() + self.space()
        elif r < 0.4:
            text += "(" + self.specifiers() + ")" + self.space()
        elif r < 0.7:
            text += self.specifiers().lstrip()
        if self.random() < 0.45:
            text += self.choice(("", " ")) + ";" + self.space() + self.marker() + self.space()
        return text

    def damaged(self, text, other):
        """Bytes deleted, inserted, replaced, swapped, cut off, or spliced with another text."""
        for _ in range(self.choice((1, 1, 1, 2, 3))):
            at = self.below(len(text) + 1)
            what = self.below(8)
            if what == 0:
                text = text[:at] + text[at + self.choice((1, 1, 2, 5)):]
            elif what <= 2:
                text = text[:at] + self.byte(other) + text[at:]
            elif what <= 4:
                text = text[:at] + self.byte(other) + text[at + 1:]
            elif what == 5:
                text = text[:at] + text[at + 1:at + 2] + text[at:at + 1] + text[at + 2:]
            elif what == 6:
                text = text[:at]
            else:
                text = text[:at] + other[self.below(len(other) + 1):]
        return text

    def byte(self, other):
        r = self.random()
        if r < 0.7:
            return self.choice("abx019.-_[],;@()<=>~!*+'\"# \t\n\r#;and")
        if r < 0.85 and other:
            return self.choice(other)
        return chr(self.below(128) if r < 0.99 else self.below(256))

    def program(self):
        """(words, count, assignment)."""
        rng = self.rng
        leaves = self.choice((1, 2, 3, 4, 5, 8, 14, 20, 36, 63, 64, 65))
        top = self.below(1, 65)
        words = PROGRAMS.tree(rng, leaves, top, self.choice((0.2, 0.5, 0.8)))
        if self.random() < 0.5:
            words = PROGRAMS.damage(rng, words)
        count = self.choice((top, top, top, 64, 64, top - 1, 65, self.rng.getrandbits(64)))
        return bytes(words[:200]), count, self.choice((0, BOUND, rng.getrandbits(64), rng.getrandbits(64), rng.getrandbits(64)))

    def one(self):
        r = self.random()
        if r < 0.45:
            return self.text("line", self.line)
        if r < 0.7:
            return self.text("marker", self.marker)
        if r < 0.76:
            return self.text("extras", self.extras)
        if r < 0.81:
            return self.text("version", lambda: self.space() + self.version() + self.space())
        if r < 0.84:
            return self.text("pattern", lambda: self.space() + self.pattern() + self.space())
        if r < 0.89:
            return self.text("specifier", self.specifier)
        if r < 0.93:
            return self.text("normalise", self.name, self.choice((0, 1, 4, 8, 16, 64)))
        words, count, assignment = self.program()
        return request("check", words, count) if r < 0.96 else request("run", words, count, assignment)

    def text(self, entry, make, *numbers):
        text = make()
        if entry == "line" and self.random() < 0.25:
            text = self.choice(self.corpus)
        if entry == "marker" and self.random() < 0.1:
            text = self.choice(self.corpus).partition(";")[2]
        if self.random() < 0.5:
            text = self.damaged(text, make() if self.random() < 0.7 else self.choice(self.corpus))
        return request(entry, text, *numbers)


def real(corpus):
    """The corpus's lines, and their parts in the other entries."""
    for text in corpus:
        yield request("line", text)
        front, _, marker = text.partition(";")
        if marker:
            yield request("marker", marker)
        name, bracket, rest = front.partition("[")
        if bracket:
            yield request("extras", bracket + rest)
        yield request("normalise", name.split(" ")[0].split("=")[0].split("<")[0].split(">")[0], 64)
        for specifier in front.partition("(")[2].partition(")")[0].split(","):
            yield request("specifier", specifier)


def all_requests(seed, count, level, corpus):
    """Everything, in order; may come twice."""
    fixed = (bad_requests(), lengths(), lists(), depths(), counts(), numbers(), names(), programs(), bytes_in_places(), real(corpus), short(level))
    yield from itertools.chain(*fixed)
    shapes = Random(seed, corpus)
    for _ in range(count):
        yield shapes.one()


def requests(seed, count, level=1, corpus=CORPUS):
    """Everything, nothing twice."""
    lines = pathlib.Path(corpus).read_bytes().decode("latin-1").split("\n")
    seen = set()
    for text in all_requests(seed, count, level, [line for line in dict.fromkeys(lines) if line]):
        key = hash(text)
        if key not in seen:
            seen.add(key)
            yield text


def arguments(parser):
    """The arguments that say what is generated; compare.py has them too."""
    parser.add_argument("seed", type=int)
    parser.add_argument("count", type=int, help="how many random inputs")
    parser.add_argument("--short", type=int, default=1, metavar="LEVEL", help="how long the exhaustive texts are: 0, 1 (default) or 2")
    parser.add_argument("--corpus", default=CORPUS, metavar="FILE", help="real requirement lines, one a line")


def main():
    parser = argparse.ArgumentParser(description="Makes requests for the comparison.")
    arguments(parser)
    given = parser.parse_args()
    for text in requests(given.seed, given.count, given.short, given.corpus):
        print(text)


if __name__ == "__main__":
    main()
