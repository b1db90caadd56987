#!/usr/bin/env python3
"""Counts the places that docs/DESIGN-PASS.md speaks of, in a checkout of any commit.

usage: tools/places.py [-v] [--other] [POINT..]   at the top of the checkout; -v lists the places too, one a line;
       --other counts in a second way; with points (1a 3 5c) it counts those alone

It reads crates/*/src and crates/*/proofs as text and judges nothing: a place that is found may have its reason beside it.
"""

import collections
import fnmatch
import glob
import re
import sys

Function = collections.namedtuple("Function", "file name params head clauses body")
Type = collections.namedtuple("Type", "file kind name parts derives")
Loop = collections.namedtuple("Loop", "file name head body")
COUNTS, OTHER = [], []


def point(number, what, way=COUNTS):
    """Registers a count: the function gives the places, or a sentence and the places."""
    return lambda count: way.append((number, what, count)) or count


def other(number, what):
    return point(number, what, OTHER)


# Reading: files without their lines of comment, functions, types, loops.


def sources():
    return sorted(glob.glob("crates/*/src/**/*.rt", recursive=True))


def proofs(name="*"):
    return sorted(glob.glob(f"crates/*/proofs/**/{name}.antt", recursive=True))


def text(path):
    with open(path, encoding="utf-8") as f:
        return f.read()


def code(path):
    return re.sub(r"(?m)^\s*//.*$", "", text(path))


def crate(path):
    return path.split("/")[1]


def at(path, what):
    """A place as it is listed: 'cursor/cursor.rt: take'."""
    return re.sub(r"/(src|proofs)/", "/", path.removeprefix("crates/")) + ": " + what


def closing(s, i, opens, closes):
    """Where the bracket that opens at i closes."""
    depth = 0
    for j in range(i, len(s)):
        depth += (s[j] == opens) - (s[j] == closes)
        if depth == 0:
            return j


def split(s):
    """What stands between the commas that no bracket holds."""
    out, depth, now = [], 0, ""
    for i, c in enumerate(s):
        depth += (c in "([{<") - (c in ")]}>" and s[i - 1 : i + 1] != "->")
        if c == "," and depth == 0:
            out.append(now.strip())
            now = ""
        else:
            now += c
    return [x for x in out + [now.strip()] if x]


def functions():
    for path in sources():
        s = code(path)
        for m in re.finditer(r'(?m)^( *)(?:pub )?(?:extern "C" )?fn (\w+)', s):
            i, depth = m.end(), 0
            while s[i] != "(" or depth > 0:
                depth += (s[i] == "<") - (s[i] == ">" and s[i - 1] != "-")
                i += 1
            j = closing(s, i, "(", ")")
            opens = re.compile(r"\{$|\n%s\{\n|;$" % m[1], re.M).search(s, j)
            bodiless = opens[0] == ";"
            b = opens.start() if bodiless else s.index("{", opens.start())
            e = b if bodiless else closing(s, b, "{", "}")
            rest = s[j + 1 : b]
            yield Function(path, m[2], split(s[i + 1 : j]), s[m.start() : j + 1] + rest.split("\n")[0], rest, s[b : e + 1])


def types():
    for path in sources():
        s = code(path)
        for m in re.finditer(r"(?m)^((?:#\[.*\]\n)*)(?:pub )?(struct|enum) (\w+)(?:<[^>]*>)? ?([({])", s):
            i = m.end() - 1
            parts = s[i + 1 : closing(s, i, m[4], ")" if m[4] == "(" else "}")]
            yield Type(path, m[2], m[3], split(parts), re.findall(r"\w+", " ".join(re.findall(r"derive\((.*?)\)", m[1]))))


def loops():
    for f in functions():
        for m in re.finditer(r"(?m)^\s*(while|loop|for)\b", f.body):
            b = f.body.index("{", m.end())
            yield Loop(f.file, f.name, f.body[m.start() : b].strip(), f.body[b : closing(f.body, b, "{", "}") + 1])


def lines(pattern, comments=True):
    """The lines of src/ in which the pattern stands."""
    return [at(p, l.strip()) for p in sources() for l in (text(p) if comments else code(p)).split("\n") if re.search(pattern, l)]


def each(pattern):
    """Each time that the pattern stands in a line of src/."""
    return [at(p, m[0]) for p in sources() for l in text(p).split("\n") for m in re.finditer(pattern, l)]


def named(names):
    """The functions of a list 'crate:function crate:function ..' that are there."""
    wanted = names.split()
    return [at(f.file, f.name) for f in functions() if f"{crate(f.file)}:{f.name}" in wanted]


# 1. Own enums of the shape of Option or Result, a flag with a value beside it, numbers for kinds or refusals.

NONE = "Refused|Fault|Unknown|Absent|End|Bad|Stop|ByFault"


@point("1a", "enums with a variant that says none or refused, or of two variants of which one alone holds something")
def enums():
    for t in types():
        names = [re.match(r"\w+", x)[0] for x in t.parts]
        one_holds = len(names) == 2 and sum(x != y for x, y in zip(names, t.parts)) == 1
        if t.kind == "enum" and (set(names) & set(NONE.split("|")) or one_holds):
            yield at(t.file, t.name)


@other("1a", "lines that declare such a variant")
def variants():
    return lines(rf"^ +({NONE})(\(.*\))?,$")


@point("1b", "structs with a field that says whether the others count")
def flags():
    for t in types():
        parts = [x.replace("pub ", "") for x in t.parts]
        flag = [x for x in parts if re.match(r"(outcome|part|entry): |number: u8|given: usize|(unknown|named): bool|\w+: Result<", x)]
        if t.kind == "struct" and flag and any(x not in flag and not x.endswith(": bool") for x in parts):
            yield at(t.file, f"{t.name} ({flag[0]})")


@other("1b", "lines of a struct that declare such a field")
def flag_lines():
    for path in sources():
        for body in re.findall(r"(?m)^(?:pub )?struct .*\{\n((?:(?!\}).*\n)*)", text(path)):
            for m in re.finditer(r"(?m)^ +(?:pub )?((outcome|part|entry): |number: u8|given: usize|(unknown|named): bool).*", body):
                yield at(path, m[0].strip())


@point("1c", "numbers for a kind or a refusal: functions that take or hand out one, fields and variants that hold one")
def numbers():
    for f in functions():
        if any(re.match(r"(number|kind|given|word|answer): (u8|usize)$", p) for p in f.params):
            yield at(f.file, f.name)
    for f in functions():
        if "-> u8" in f.head and (f.name == "number" or any("igures" in p for p in f.params)):
            yield at(f.file, f.name + " (hands one out)")
    for t in types():
        for x in t.parts:
            if re.search(r"kind: (u8|usize)$|^Ignored\w*\(u8\)$", x):
                yield at(t.file, f"{t.name} {x}")


@other("1c", "lines that write such a number")
def number_lines():
    return lines(r"^ *[0-9]+ => put_text|Ignored(Twice)?\([0-9]\)|words\[0\] = 66|(, |\{ )6[456][) ]|_ => put_text|number (<=|==|>) [0-9]|0 < number"
                 r"|given == 0|answer == 0|HAS_URL\] == 0|kind: 0")


@point("1d", "values that stand for none (16 places, of which `missed` shows by two lines)")
def nones():
    return lines(r"^const BROKEN|Some\(PATH \+ 1\)|^ +_ => 16,|^ +_ => 0,|line\[at\] \} else \{ 0 \}|after: line\.len\(\)|else \{ 66 \}|pub fn bad_at"
                 r"|^fn tab_in|^fn without_code|pub last: u8|^        1$|^        0$")


# 2. Twins: functions or types that differ only in a type, a size, a constant or a function that they call. A group counts while two of it stand.

TWINS = """
scan of a class: cursor:skip_whitespace cursor:take_ascii cursor:take_digits cursor:take_alnum cursor:take_name cursor:take_operator cursor:take_token cursor:take_word cursor:take_operator_word cursor:take_bare cursor:take_enclosed cursor:take_to_quote line_url:take_blanks reader:first_solid reader:last_solid
copy of a front: arrays:copy_bytes arrays:copy_numbers
one version text alone: version_entry:version version_entry:pattern version_entry:specifier
the gateway of a text: gateway:hulmisker_version gateway:hulmisker_pattern gateway:hulmisker_specifier gateway:hulmisker_check
an answer that is one number: gateway:hulmisker_run gateway:hulmisker_extras gateway:hulmisker_normalise
the nine exports: gateway:hulmisker_* gateway_c:hulmisker_*
the probe's version texts: requests:put_version requests:put_pattern requests:put_specifier requests:put_checked
numbers to a typed list: spans:gather marker_typed:gather_comparisons marker_typed:gather_warnings
a typed list to numbers: cases:span_numbers cases:comparison_numbers cases:warning_numbers
a list of items: line_extras:list_from line_specifiers:list_from
joined parts: version_parts:segments_end version_parts:release_end
a word and its number: version_parts:pre_end version_parts:post_part_end version_parts:dev_end
words of a part: version_parts:pre_word_end version_parts:later_pre_word_end version_parts:last_pre_word_end version_parts:post_word_end version_parts:dev_word_end
the place before: text:before line_url:before
a word at a place: text:word_at version_parts:says_at
a class at a place: marker_value:letter_at marker_value:space_at marker_value:quote_at version_parts:lacks_letter text:separator_at reader:space_at
a question to a literal's text: marker_verdict:may_go_in marker_verdict:is_version_in marker_verdict:is_list_in marker_verdict:is_bad_name_in
a left value that wants a literal: marker_verdict:with_version_left marker_verdict:with_string_left marker_verdict:with_extra_left
an operator by its bytes: version_operator:operator_in version_operator:later_operator_in marker_value:symbol_in marker_value:later_symbol_in
a name by its bytes: marker_value:version_name_in marker_value:string_name_in marker_value:last_name_in
a token, known or refused: marker_value:symbol_at marker_value:named_at
the code of a kind: marker_kind:sort_code marker_kind:key_code marker_kind:operator_code
the kind of a code: marker_kind:sort_of marker_kind:key_of marker_kind:operator_of
a record into numbers: marker_store:store_comparison marker_store:store_warning spans:put
a record from numbers: marker_store:load_comparison marker_store:load_warning spans:load
chains of the marker: marker_cycle:or_chain marker_cycle:and_chain
joining words ahead: marker_steps:ahead_and marker_steps:ahead_or
how many a verdict leaves: marker_steps:kept_in marker_steps:warned_in
one more in an array: marker_steps:keep marker_steps:warn marker_steps:push
the empty answer of a refusal: marker:refused_quick line:refused_quick marker_typed:refused_marker line_typed:refused_line extras:refused marker_steps:refused requests:bad
empty lists: line_typed:no_spans marker_typed:empty_lists marker_typed:no_comparison marker_typed:no_warning
a line without a marker: line:unmarked_into line_typed:unmarked_lists
the check, then the reading: marker:read_quick marker_typed:read_marker line:read_line_into line_typed:read_line extras:read_extras extras:extras_into
extras at the start: extras:read_all extras:write_all
sums and differences that stop at the end: reader:sum reader:one_more reader:less reader:difference reader:held replay:more
a joint: wording:put_joint reader:put_joint
a list as text: wording:put_items wording:put_comparisons wording:put_warnings wording:put_words reader:put_items reader:put_comparisons reader:put_warnings reader:put_numbers reader:put_words
an item as text: wording:put_item wording:put_comparison wording:put_warning reader:put_item reader:put_comparison reader:put_warning
spans behind a label: wording:put_spans reader:put_spans
the URL as text: wording:put_url reader:put_url
a small number as text: wording:put_word wording:put_count reader:put_number_of
bytes, each as it is shown: output:put_part reader:put_path reader:put_shown requests:put_bytes
a marker asked and told: cases:put_marker_figures requests:put_marker_alone
extras asked and told: cases:put_extras_figures requests:put_extras
a line asked and told: cases:put_line_figures requests:put_line
a question to both doors: cases:ask_marker cases:ask_extras cases:ask_line cases:ask_name
a byte held if it has a place: input:hold requests:hold
what a hex digit stands for: program_cases:hex_digit requests:hex_value requests:digit_of
an array lent on as a slice: output:put_digits program_cases:read_front program_cases:front_agrees program_cases:write_front reader:open reader:put_front reader:normalise_held reader:read_held requests:normalise_front requests:put_answer requests:answer
a front, where it is within: output:write_part output:write_front program_cases:read_part program_cases:part_agrees program_cases:write_part reader:open_front reader:tell_failure reader:read_front reader:normalise requests:normalise_into requests:put_front requests:answer_front
the first place of a byte: version_cases:line_end replay:tab_in
line after line: probe:answer_all replay:count_all reader:each_line
input or file: reader:read_input reader:read_file
reasons by number: reader:put_of_name reader:put_of_extras reader:put_of_source reader:put_of_comparison reader:put_of_marker reader:put_of_program
an answer in four numbers: program_cases:of_check program_cases:of_run
up to a byte: text:is_bare_byte text:is_enclosed_byte
types, a span read or refused: line_name:Named line_url:Address
types, a count read or refused: spans:Listed extras:Counted name:Normalised
types, known or unknown: version_operator:Token marker_value:Symbol marker_value:Named
types, taken or a fault: marker_value:Taken marker_value:Between
types, a part of the head: line_head:HeadRead line_head:TailRead line_head:WantedRead
types, a byte or the end: cursor:Peek cursor:Step
types, spelled or bad: requests:Value requests:Pair requests:Bytes
types, operators: marker_kind:Operator version_operator:Operator
types, a tally: version_cases:Tally program_cases:Tally replay:Tally
"""


@point("2", "twins, by the groups that a reading of the code at the beginning found")
def twins():
    stand = [f"{crate(x.file)}:{x.name}" for x in [*functions(), *types()]]
    rows = []
    for row in TWINS.strip().split("\n"):
        what, names = row.split(": ", 1)
        there = [x for name in names.split() for x in stand if fnmatch.fnmatch(x, name)]
        if len(there) > 1:
            rows.append((len(there), f"{what}: {' '.join(there)}"))
    return f"{len(rows)} groups, {sum(n for n, _ in rows)} members", [row for _, row in rows]


KEYWORDS = set("as break else enum extern false fn for if impl in let loop match mod mut pub return self Self struct true use where while "
               "u8 u16 u32 u64 usize bool".split())


@other("2", "functions of 35 words or more that are one text once names are numbered and literals are `#`")
def alike():
    shapes = collections.defaultdict(list)
    for f in functions():
        seen, out = {}, []
        signature = f.head[f.head.index("fn ") + 3 :]
        for t in re.findall(r'b?"(?:[^"\\]|\\.)*"|b\'(?:[^\'\\]|\\.)*\'|\w+|::|->|=>|[^\s\w,]', signature + f.body):
            literal = re.match(r'b?["\']|\d', t)
            kept = t in KEYWORDS or not re.match(r"\w", t)
            out.append("#" if literal else t if kept else seen.setdefault(t, f"x{len(seen)}"))
        if len(out) >= 35:
            shapes[tuple(out)].append(at(f.file, f.name))
    groups = [names for names in shapes.values() if len(names) > 1]
    return f"{len(groups)} groups, {sum(map(len, groups))} members", [", ".join(names) for names in groups]


# 3. Loops that count an index by hand.


@point("3", "loops (`while`, `loop`) in which something goes up or down by one")
def counting():
    for l in loops():
        if not l.head.startswith("for") and re.search(r"\b\w+ [+-]= 1;", l.body):
            yield at(l.file, f"{l.name} ({l.head})")


@other("3", "by indentation: a line with `+= 1;` or `-= 1;` before the brace that closes a `while` or `loop`")
def counting_lines():
    for path in sources():
        indent = None
        for line in text(path).split("\n"):
            m = re.match(r"( *)(while|loop)( |$)", line)
            if m:
                indent = m[1]
            elif indent is not None and re.search(r"[a-z_]+ [+-]= 1;", line):
                yield at(path, line.strip())
                indent = None
            elif indent is not None and line == indent + "}":
                indent = None


# 4. Equality, order, copying, conversion and printing written by hand.


@point("4a", "types that derive no PartialEq")
def underived():
    return [at(t.file, t.name) for t in types() if "PartialEq" not in t.derives]


@other("4a", "lines that declare a type less lines that derive PartialEq")
def underived_lines():
    return str(len(lines(r"^(pub )?(struct|enum) ")) - len(lines(r"^#\[derive\(.*PartialEq"))), []


@point("4b", "functions that did by hand what a derive, From, TryFrom, Display, Default or a method does, which still stand")
def by_hand():
    return named("""
text:same reader:is_word replay:same_byte replay:same_place replay:stands program_cases:same_refusal version_cases:is_good marker_verdict:is_equality
marker_verdict:is_compatible marker_verdict:is_list program_check:is_operator reader:less
arrays:copy_bytes arrays:copy_numbers requests:fill input:hold requests:hold
refusal:number marker_kind:sort_code marker_kind:key_code marker_kind:operator_code marker_kind:sort_of marker_kind:key_of marker_kind:operator_of
program_check:word_of figures:accepted figures:refused figures:verdict_of line:url_of line_head:text_count gateway:link_of reader:part_of
reader:with_quotes reader:taken_of program_cases:of_refusal program_cases:good program_cases:of_check program_cases:of_run marker_verdict:may_go_with
version_number:digit_value requests:digit_of requests:hex_value program_cases:hex_digit output:hex_digit output:digit cases:figures_of
cases:span_numbers cases:comparison_numbers cases:warning_numbers
wording:put_sort wording:put_key wording:put_operator wording:put_not wording:put_refused wording:put_pair wording:put_span wording:put_url
reader:put_reason reader:put_of_name reader:put_of_extras reader:put_of_source reader:put_of_comparison reader:put_of_marker reader:put_of_program
reader:put_meaning reader:put_word reader:put_place requests:put_verdict requests:put_yes_no cases:put_refusal output:spell output:put_number
output:put_hex
cursor:start input:empty marker_typed:no_comparison marker_typed:no_warning marker_typed:empty_lists line_typed:no_spans requests:bad reader:nothing
version_operator:taken requests:head_with
""")


@other("4b", "arms from a variant or a number to a number, a variant or a fixed text")
def arms():
    return lines(r"^ +(Self|[A-Z]\w+)::\w+(\(_\))? => ([0-9]+|put_text\(.*|[A-Z]\w+::\w+|true|false|taken\(.*),$|^ +[0-9]+ => ")


@other("4b", "impls of a trait, which were to become more")
def impls():
    return lines(r"^impl(<.*>)? .* for ")


# 5. A fact in the contracts of three or more functions, parameters that always travel together.


def clauses():
    """Each clause with the functions in which it stands."""
    found = collections.defaultdict(list)
    for f in functions():
        for kind, said in re.findall(r"\b(requires|ensures)\s*(?:\w*)\s*\{(.*?)\}\s*(?=requires|ensures|$)", f.clauses, re.S):
            found[f"{kind} {{ {' '.join(said.split())} }}"].append(at(f.file, f.name))
    return found


@point("5a", "clauses that stand in three or more functions")
def repeated():
    found = clauses()
    often = {k: v for k, v in found.items() if len(v) > 2}
    total = f"{len(often)} clauses, {sum(map(len, often.values()))} times, of {sum(map(len, found.values()))}"
    return total, [f"{len(v)} times {k}" for k, v in sorted(often.items(), key=lambda x: -len(x[1]))]


@other("5a", "such clauses by their first lines")
def repeated_lines():
    found = collections.Counter(re.sub(r".*: (requires|ensures) (\w+ )?\{", r"\1 {", l) for l in lines(r"^ +(requires|ensures) .*") if re.search(r"\{", l))
    often = [n for n in found.values() if n > 2]
    return f"{len(often)} clauses, {sum(often)} times", [f"{n} times {k}" for k, n in found.most_common() if n > 2]


@point("5b", "functions with six parameters or more")
def long():
    return [at(f.file, f"{f.name} ({len(f.params)})") for f in functions() if len(f.params) > 5]


LISTS = [r"\w+: &(mut )?Comparisons", r"\w+: &(mut )?Warnings", r"\w+: &?(mut )?Words"]
TOGETHER = {
    "streams, the output's array, how many bytes wait": ["streams: Streams", r"\w+: &(mut )?\[u8; ROOM\]", "at: usize"],
    "streams at all": ["streams: Streams"],
    "a line of HELD bytes and its length": [r"line: &\[u8; HELD\]", "(len|line_len): usize"],
    "a path and its length, or a place that has it": [r"path: &(mut )?\[u8(; PATH)?\]", "((n|path_len|len): usize|place: Place)"],
    "style and path": ["style: Style", "path: "],
    "comparisons, warnings, words": LISTS,
    "these three and their counts": LISTS + ["counts: Counts"],
    "two lists of spans": ["(extras|list|named): &(mut )?SpanNumbers", "(specifiers|texts|asked): &(mut )?SpanNumbers"],
    "a line's figures and its lists": ["figures: &(mut )?LineFigures", "extras: &", r"\w+: &(mut )?Comparisons"],
    "a refusal: number, start, length": ["number: u8", "start: usize", "len: usize"],
    "a span: start, length": ["start: usize", "len: usize"],
    "a part: from, to": ["(from|start): usize", "(to|stop): usize"],
    "a line and a bracket's place": [r"line: &\[u8\]", "bracket: usize"],
    "key, operator, literal": ["key: Key", "op: Operator", "at: Span"],
    "what is fetched, and the line": ["fetched: ", "line: "],
    "data and output of a request": ["data: ", r"out: &mut \[u8; OUT\]"],
    "the tally's array": [r"counts: &(mut )?\[u64; COUNTS\]"],
    "a program and a count": [r"(program|words): &\[u8\]", "count: (usize|u64)"],
    "a line or text and a place": [r"(line|text|name): &\[u8\]", "(at|from|start): usize"],
}


def takers(wanted):
    return lambda: [at(f.file, f.name) for f in functions() if all(any(re.match(p, x) for x in f.params) for p in wanted)]


for group, wanted in TOGETHER.items():
    point("5c", f"functions that take together: {group}")(takers(wanted))
other("5c", "lines that take streams")(lambda: lines("streams: Streams"))
other("5c", "calls that hand streams on")(lambda: each(r"\bstreams,"))


# 6. Buffers with a length beside them, parallel arrays, sorted lists searched by hand, arenas of indices.

ARRAY = r"\[(u8|usize|u64)|SpanNumbers|Comparisons\b|Warnings\b|Words\b"
LENGTH = r"(n|len|count|kept|warned|room|line_len|path_len|pairs): usize$"


@point("6a", "functions that take an array or slice and its length right behind it")
def lengths():
    for f in functions():
        pairs = zip(f.params, f.params[1:])
        if any(re.search(ARRAY, a) and re.match(LENGTH, b) and not re.match(r"program|words: &\[u8\]", a) for a, b in pairs):
            yield at(f.file, f.name)


@point("6b", "structs that hold an array and its length")
def held():
    for t in types():
        parts = [x.replace("pub ", "") for x in t.parts]
        has = lambda pattern: any(re.search(pattern, x) for x in parts)
        if t.kind == "struct" and has(r": \[.*;|: Words") and has(r"^((count|len): usize|counts: Counts)"):
            yield at(t.file, t.name)


@point("6c", "functions that take two or more of the arrays of spans, comparisons, warnings, words")
def parallel():
    for f in functions():
        if sum(bool(re.search(r"SpanNumbers|Comparisons\b|Warnings\b|Words\b", p)) for p in f.params) > 1:
            yield at(f.file, f.name)


point("6d", "figures of an answer that are read or written by index")(lambda: each(r"figures\[[A-Z_]+\]"))
other("6", "arrays of a fixed size among parameters and fields")(
    lambda: each(r"\w+: &(mut )?(\[(u8|u64|usize); [A-Za-z0-9_:]+\]|SpanNumbers|Comparisons|Warnings|Words)"))
other("6", "fronts cut out, `[..n]`")(lambda: each(r"\[\.\.[a-z]+\]"))


# 7. A switch on which step to run, tables of functions.


@point("7a", "functions that picked the step by a kind, a letter, a number or a bool that the caller fixed, which still stand")
def switches():
    return named("""
requests:put_entry reader:read_argument version_cases:accepts line_specifiers:text_at line_specifiers:item_at line_extras:item_at line_extras:inside_at
reader:put_reason reader:tell_refused reader:tell_accepted reader:end reader:not_read reader:put_cut replay:show_if requests:number_if program_run:join
program_run:push
""")


point("7b", "tests of fixed bytes in a chain of `if`s that is a table")(lambda: lines(r'if (spelled|says_at|word_at)\(\w+, \w+, b"'))
point("7c", "lines with closures, function pointers or dyn, which were to become more")(
    lambda: lines(r"\|[a-z_]+(, [a-z_]+)*\| |impl Fn|: Fn(Mut|Once)?\(|\bdyn \b|: fn\(", comments=False))


@other("7a", "bools that a function takes and tests, matches that call three functions or more")
def picks():
    for f in functions():
        bools = [p.split(":")[0] for p in f.params if p.endswith(": bool")]
        if any(re.search(r"\bif !?%s\b" % x, f.body) for x in bools):
            yield at(f.file, f.name)
        for m in re.finditer(r"\bmatch [^{]*? \{", f.body):
            chosen = f.body[m.end() : closing(f.body, m.end() - 1, "{", "}")]
            if len(set(re.findall(r"=>\s*([a-z_:]+)\(", chosen))) > 2:
                yield at(f.file, f.name + " (match)")


# 8. Proofs: answers that say only where to look, helper lemmas that the library has, what many answers repeat.


def bare(path):
    """A file of proofs without comments."""
    return re.sub(r"(?m)\s*--.*$", "", text(path))


def tied(path):
    """The answers of a Proof.antt, the older form, which ties each to a place in a row."""
    s = bare(path)
    return re.findall(r"(?m)^\s*\(λ c(?: κs)?\. (.*)$", s[s.find("tie.spec") :])


@point("8a", "Proof.antt files, the older form, each of whose answers is one search or cc")
def old_proofs():
    every = proofs("Proof")
    places = [at(p, "") for p in every if all(re.match(r"search |cc\b", x) for x in tied(p))]
    return f"{len(places)} of {len(every)}", places


@point("8a", "Answers.antt files each of whose answers is one search, cc or refl")
def new_proofs():
    every, places = proofs("Answers"), []
    for path in every:
        s = bare(path)
        answers = re.findall(r"(?m)^[\w'-]+ (?:\w+ )*c =(.*)$", s)
        if len(answers) == len(re.findall(r"goal\.", s)) and all(re.fullmatch(r" (search .*|cc|refl)", x) for x in answers):
            places.append(at(path, ""))
    return f"{len(places)} of {len(every)}", places


@point("8a", "answers in Proof.antt files that are one search or cc")
def answers():
    every = [x for p in proofs("Proof") for x in tied(p)]
    one = [x for x in every if re.match(r"search |cc\b", x)]
    return f"{len(one)} of {len(every)}", []


def search_lines():
    return [at(p, l.strip()) for p in proofs("Proof") for l in text(p).split("\n") if re.search(r"^ *\(λ c( κs)?\. (search|cc)\b", l)]


other("8a", "files that name a Tie, as the older form does")(lambda: [at(p, "") for p in proofs() if "Tie as tie" in text(p)])
other("8a", "lines of Proof.antt files")(lambda: (str(sum(text(p).count("\n") for p in proofs("Proof"))), []))
other("8a", "lines of Proof.antt files that are one search or cc")(search_lines)


@point("8b", "lemmas of proofs/ whose statement names nothing of this repository, so that the library may have them")
def helpers():
    own = {crate(p) for p in glob.glob("crates/*/")}
    for path in proofs():
        if re.search(r"/(Proof|Invariants)\.antt$", path):
            continue
        s = re.sub(r"(?m)(^|\s)--.*$", "", text(path))
        uses = re.finditer(r"(?m)^use Rattle\.(\w+)\.[\w.'-]*\.\{([^}]*)\}", s)
        ours = {w for m in uses if m[1] in own for w in re.findall(r"[\w'-]+", m[2])}
        for m in re.finditer(r"(?m)^(?:pub )?([a-z][\w'-]*) : ((?:.*\n(?: .*\n)*))", s):
            words = set(re.findall(r"[A-Za-z_][\w'-]*", m[2]))
            if not words & ours and re.search("[≡≤<]", m[2]) and "goal." not in m[2]:
                yield at(path, m[1])


@point("8c", "what an Answers.antt says in three `let`s or more")
def lets():
    for path in proofs("Answers"):
        said = collections.Counter(m[1].strip() for m in re.finditer(r"let (.*?) in(?:\s|$)", text(path)))
        yield from (at(path, f"{n} times let {k}") for k, n in said.items() if n > 2)


@other("8c", "the same by lines")
def let_lines():
    for path in proofs("Answers"):
        said = collections.Counter(re.findall(r"let [a-z_]+ = .* in(?: |$)", text(path), re.M))
        yield from (at(path, f"{n} times {k}") for k, n in said.items() if n > 2)


@point("8d", "files of proofs/ that take lemmas by the older paths, not by Rattle.std")
def older():
    return [at(p, "") for p in proofs() if re.search(r"(?m)^use (mathlib|native|Prim|lib)\.", text(p))]


def main():
    wanted = [a for a in sys.argv[1:] if not a.startswith("-")]
    ways = OTHER if "--other" in sys.argv else COUNTS
    for number, what, count in ways:
        if wanted and number not in wanted:
            continue
        found = count()
        said, places = found if isinstance(found, tuple) else (None, list(found))
        print(f"{number:3} {said or len(places)}: {what}")
        if "-v" in sys.argv:
            for place in places:
                print("        " + place.removesuffix(": "))


main()
