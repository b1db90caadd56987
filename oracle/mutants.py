#!/usr/bin/env python3
"""Does the comparison see faults? Each edit below puts one fault into a copy of reference.py; the comparison with the Rust, with `packaging` and with
crates/program_cases (and not with reference.py) must find it.

    python3 oracle/mutants.py [SEED COUNT]

Prints the first input that shows each fault. The exit status is 1 if one is not found.
"""
import random
import sys
import types

import compare
import generate

EDITS = [
    ('b"\\t\\n\\v\\f\\r "', 'b"\\t\\n\\v\\f\\r \\x1c"'),
    ("len(text) > MAX_LINE", "len(text) >= MAX_LINE"),
    ("MAX_LINE, MAX_LIST, MAX_DEPTH, MAX_KEPT = 4096, 32, 16, 64", "MAX_LINE, MAX_LIST, MAX_DEPTH, MAX_KEPT = 4096, 33, 16, 64"),
    ("MAX_LINE, MAX_LIST, MAX_DEPTH, MAX_KEPT = 4096, 32, 16, 64", "MAX_LINE, MAX_LIST, MAX_DEPTH, MAX_KEPT = 4096, 32, 17, 64"),
    ("MAX_LINE, MAX_LIST, MAX_DEPTH, MAX_KEPT = 4096, 32, 16, 64", "MAX_LINE, MAX_LIST, MAX_DEPTH, MAX_KEPT = 4096, 32, 15, 64"),
    ("MAX_LINE, MAX_LIST, MAX_DEPTH, MAX_KEPT = 4096, 32, 16, 64", "MAX_LINE, MAX_LIST, MAX_DEPTH, MAX_KEPT = 4096, 32, 16, 65"),
    ("byte >= 128", "byte >= 129"),
    ("return len(name) - 1", "return len(name)"),
    ("or at == 0 and byte in JOINTS", ""),
    ('re.sub(rb"[-_.]+", b"-", name).lower()', 're.sub(rb"[-_.]", b"-", name).lower()'),
    ("len(normal) > room", "len(normal) >= room"),
    ("normal + out[len(normal):]", "normal + bytes(room - len(normal))"),
    ("rc | alpha", "alpha"),
    ("post | rev | r )", "post | rev )"),
    ("- [0-9]+ | [-_.]? (?: post", "[-_.]? (?: post"),
    ("BOUND = 2**64 - 1", "BOUND = 2**64"),
    ("BOUND = 2**64 - 1", "BOUND = 2**64 - 2"),
    (" and bounded(n for n in local if n.isdigit())", ""),
    (' and bounded(re.findall(rb"[0-9]+", text))', ""),
    ('star_allowed and operator in ("==", "!=")', 'star_allowed and operator in ("==", "!=", "===")'),
    ('operator == "~=" and b"." not in m["release"]', "False"),
    ('operator in ("==", "!=", "===")\n', 'operator in ("==", "!=")\n'),
    ("raise Refused(7, at, 1)", "raise Refused(8, at, 1)"),
    ("raise Refused(9, at, 1)", "raise Refused(10, at, 1)"),
    ("            if at == len(line):\n                break\n",
     "            if at == len(line) or line[at:at + 1] == b']':\n                break\n"),
    ("raise Refused(12, at, end - at)", "raise Refused(12, at, end - at + 1)"),
    ("raise Refused(6, bracket, 1)", "raise Refused(6, at, 1)"),
    ("            go_on = at + 1\n            break\n", "            go_on = at + 1\n            at += 1\n            break\n"),
    ('ends = b";#"', 'ends = b";"'),
    ("raise Refused(13, start, 0)", "raise Refused(13, start, 1)"),
    ("start = end + 1\n", "start = skip(line, end + 1)\n"),
    ("raise Refused(16, start, end - start)", "raise Refused(16, start, 1)"),
    ("raise Refused(16, start, end - start)", "raise Refused(16, start - 1, end - start + 1)"),
    ("raise Refused(12, at, end - at)", "raise Refused(12, at - 1, end - at + 1)"),
    ("raise Refused(27, *span)", "raise Refused(27, start, end - start + 1)"),
    ("raise Refused(25, at, 1)", "raise Refused(25, at, 0)"),
    ("raise Refused(25, at, 1)", "raise Refused(25, at + 1, 1)"),
    ("raise Refused(11, end - 1, 1)", "raise Refused(11, end, 1)"),
    ("raise Refused(10, end, 1)", "raise Refused(11, end, 1)"),
    ("raise Refused(23, end, 1)\n        return program", "raise Refused(22, end, 1)\n        return program"),
    ("return None, (at + 1, end - at - 1), end + 1", "return None, (at, end - at), end + 1"),
    ("self.warnings.append((kind, *span))", "self.warnings.append((kind, start, end - start + 1))"),
    ("if kept is None:\n            return [], end", "if kept is None:\n            return [YES], end"),
    ("return [len(self.kept) - 1], end", "return [len(self.kept) % 64], end"),
    ('closed = read_specifiers(line, skip(line, at + 1), b")")', 'closed = read_specifiers(line, at + 1, b")")'),
    ("raise Refused(15, at, 1)", "raise Refused(15, len(line), 1)"),
    ("raise Refused(24, at, len(line) - at - 1)", "raise Refused(24, at, len(line) - at)"),
    ("self.program = program or [YES]", "self.program = program"),
    ("program + right + [operator] if program and right", "[operator] + program + right if program and right"),
    ('return self.chain(at, depth, b"or", OR, self.and_chain)', 'return self.chain(at, depth, b"or", OR, self.comparison_or_group)'),
    ("end = until(self.line, at, SPACE)\n", "end = until(self.line, at, SPACE | frozenset(b'('))\n"),
    ("self.or_chain(at + 1, depth - 1)", "self.or_chain(at + 1, depth)"),
    ("raise Refused(22, at, 1)\n            return None, (at + 1", "raise Refused(22, len(line), 1)\n            return None, (at + 1"),
    ('SPACE | frozenset(b">=<!~)")', 'SPACE | frozenset(b">=<!~();")'),
    ("SPACE | frozenset(b\"'\\\"\")", "SPACE"),
    ("raise Refused(21, end, 1)", "raise Refused(20, end, 1)"),
    ('"not_in": "not_contains"', '"not_in": "not_in"'),
    ('"<=": ">=", ">=": "<="', '"<=": ">", ">=": "<"'),
    ("([1, 1], None)", "([1], None)"),
    ("return [3], None", 'return [], ("string", left_key, operator, *right_text)'),
    ("star_allowed=False", "star_allowed=True"),
    ("mirrored in OPERATORS and", "True and"),
    ('return self.extra(operator, left_text)', 'return self.extra(mirrored, left_text) if operator != "<" else ([], None)'),
    ("return kinds + [4], None", "return [4], None"),
    ("return [5], None", "return [], None"),
    ("span = (start, end - start)", "span = (start, at - start)"),
    ("for kind in kinds:\n            if len(self.warnings) == MAX_KEPT:", "for kind in kinds:\n            if len(self.kept) == MAX_KEPT:"),
    ("raise Refused(26, *span)", "raise Refused(26, start, 1)"),
    ("raise Refused(26, *span)", "raise Refused(26, start - 1, end - start + 1)"),
    ("raise Refused(27, *span)", "raise Refused(27, start + 1, end - start - 1)"),
    ("raise Refused(31, 0, 1)", "raise Refused(30, 0, 1)"),
    ("at == 127 or", ""),
    ("height < 2", "height < 1"),
    ("height > 35", "height > 36"),
    ("word < count", "word <= count"),
    ("if word == AND else left or right", "if word == OR else left or right"),
    ("raise Refused(3, 0, 1)", "raise Refused(3, at, 1)"),
    ("raise Refused(5, end - 1, 1)", "raise Refused(5, end, 1)"),
    ("raise Refused(17, at, 1)\n    at = skip", "raise Refused(17, at, 0)\n    at = skip"),
    ("    elif at < len(line):\n        raise Refused(17, at, 1)",
     "    elif at < len(line) and line[at] != ord('#'):\n        raise Refused(17, at, 1)"),
    ('if text[:1] == b"[" else [])', 'if text[:1] == b"[" else read_extras(b"[" + text, 0)[0])'),
]


def mutant(source, old, new):
    if old not in source:
        sys.exit("no such text in reference.py: %r" % old)
    module = types.ModuleType("mutant")
    exec(compile(source.replace(old, new, 1), "mutant", "exec"), module.__dict__)
    return module


def main():
    seed, count = map(int, sys.argv[1:3]) if len(sys.argv) > 2 else (1, 3000)
    source = (generate.HERE / "reference.py").read_text()
    comparer = compare.Comparer(compare.Oracle(compare.ROOT / "target" / "oracle" / "oracle"))
    requests = list(generate.requests(seed, count, 0))
    random.Random(seed).shuffle(requests)
    # the unchanged reading, which also gives the Rust's answers
    known = {text: rust for text, _, rust, verdict in compare.compared_all(requests, comparer, "reference", False) if verdict}
    bad = set(generate.bad_requests())
    missed = 0
    for old, new in EDITS:
        changed = mutant(source, old, new)
        for text in requests:
            if text not in known or text in bad:
                continue
            entry, numbers, data = compare.split(text)
            try:
                verdict = comparer.compared(entry, numbers, data, changed.answer(text), known[text])
            except (IndexError, ValueError, TypeError, RecursionError):
                verdict = None
            if verdict is None:
                print("found   %-60r %s %r" % (new[:58], " ".join([entry, *map(str, numbers)]), data[:60]))
                break
        else:
            missed += 1
            print("MISSED  %r for %r" % (new, old))
    print("%d faults, %d missed" % (len(EDITS), missed))
    sys.exit(1 if missed else 0)


if __name__ == "__main__":
    main()
