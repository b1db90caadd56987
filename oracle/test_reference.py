#!/usr/bin/env python3
"""reference.py on the examples that document 01 itself gives, and on those that docs/DECISIONS.md settles.

    python3 oracle/test_reference.py
"""
import sys

import reference

CASES = [
    # Document 01, 'Cases to prove together'
    ("marker", "os_name=='a'and os_name=='b'", "ok comparisons=string,os_name,==,10,1;string,os_name,==,26,1 warnings= program=0,1,64"),
    ("marker", "os_name=='a' and(os_name=='b')", "refused 24 13 16"),
    ("marker", "os_name=='a' or os_name=='b' and os_name=='c'",
     "ok comparisons=string,os_name,==,10,1;string,os_name,==,26,1;string,os_name,==,43,1 warnings= program=0,1,2,64,65"),
    ("marker", "'a'=='b' or os_name=='c'", "ok comparisons=string,os_name,==,22,1 warnings=5,0,8 program=0"),
    ("marker", "('a'=='b')", "ok comparisons= warnings=5,1,8 program=66"),
    ("marker", "python_version in 'abc'", "ok comparisons= warnings=1,0,23;1,0,23 program=66"),
    ("marker", "os_name ~= 'a'", "ok comparisons= warnings=3,0,14 program=66"),
    ("marker", "'a' ~= os_name", "ok comparisons=string,os_name,~=,1,1 warnings= program=0"),
    ("marker", "os_name not in'x'", "ok comparisons=string,os_name,not_in,15,1 warnings= program=0"),
    ("marker", "os_name not'x'", "refused 21 11 1"),
    ("marker", "", "refused 18 0 1"),
    ("marker", "os_name=='a", "refused 22 9 1"),
    ("extras", "[,", "refused 7 1 1"),
    ("extras", "[a,]", "refused 8 3 1"),
    ("normalise 9", "Foo._-Bar", "ok 7 out=666f6f2d626172aaaa"),
    ("line", "foo-;", "refused 5 3 1"),
    # elsewhere in document 01
    ("line", "a @ http://x; os_name=='a'", "refused 17 14 1"),
    ("line", "a", "ok name=0,1 extras= specifiers= url=- comparisons= warnings= program=66"),
    ("extras", "[]", "ok extras="),
    ("extras", "[a-]", "refused 11 2 1"),
    ("normalise 0", "", "ok 0 out=-"),
    # docs/DECISIONS.md
    ("normalise 1", "a$-", "refused 28 1 1 out=aa"),
    ("normalise 1", "--", "refused 28 0 1 out=aa"),
    ("normalise 1", "a--", "refused 28 2 1 out=aa"),
    ("normalise 0", "A", "refused 29 0 1 out=-"),
    ("extras", "[a-", "refused 11 2 1"),
    ("extras", " [a]", "ok extras="),
    ("marker", "python_version==os_name", "ok comparisons= warnings=1,0,23 program=66"),
    ("marker", "os_name==extra", "ok comparisons= warnings=2,0,14 program=66"),
    ("marker", "extra==os_name", "ok comparisons= warnings=4,0,14 program=66"),
    ("marker", "python_version in ''", "ok comparisons=version_list,python_version,in,19,0 warnings= program=0"),
    ("marker", "'x' in python_version", "ok comparisons= warnings=1,0,21 program=66"),
    ("marker", "extra==''", "ok comparisons=extra,extra,==,8,0 warnings= program=0"),
    ("marker", "extra=='-'", "ok comparisons=arbitrary,extra,==,8,1 warnings=4,0,10 program=0"),
    ("marker", "os_name", "refused 20 7 0"),
    ("marker", ")", "refused 19 0 0"),
    ("marker", "os_name not", "refused 21 11 1"),
    ("marker", "os_name not ", "refused 22 12 1"),
    ("marker", "(os_name=='a' and)", "refused 23 14 1"),
    ("marker", "os_name=='a' and", "refused 18 16 1"),
    ("marker", "os_name=='a')", "refused 24 12 0"),
    ("line", "a(x", "refused 15 1 1"),
    ("line", "a(x,", "refused 14 2 1"),
    ("line", "a @ ;", "ok name=0,1 extras= specifiers= url=4,1 comparisons= warnings= program=66"),
    ("line", "a @ x #y", "refused 17 6 1"),
    ("version", "1a.", "ok"),
    ("version", "1ar1", "ok"),
    ("version", "1\x1c", "refused 14 0 2"),
    ("specifier", "===abc", "refused 14 0 6"),
    ("check 0", "", "refused 30 0 1"),
    ("check 65", "", "refused 31 0 1"),
    ("check 0", "BB", "refused 30 2 1"),
    ("run 2 2", "\x00\x01A", "ok yes"),
    ("run 2 2", "\x00\x01@", "ok no"),
    # the protocol
    ("normalise 8193", "a", "bad request"),
    ("lines", "a", "bad request"),
]


def main():
    wrong = 0
    for entry, text, wanted in CASES:
        got = reference.answer("%s %s" % (entry, text.encode("latin-1").hex() or "-"))
        if got != wanted:
            wrong += 1
            print("%s %r: %s, not %s" % (entry, text, got, wanted))
    print("%d cases, %d wrong" % (len(CASES), wrong))
    sys.exit(1 if wrong else 0)


if __name__ == "__main__":
    main()
