#!/bin/sh
# ./hulmisker read in the ways that the crate's own run does not hold: rows, standard input, files that cannot be read, empty input, 9,000 lines.
# Says each difference, and exits 1 if there is one. Its last line is 'reader: N passed, M failed'.
set -u
here=$(CDPATH= cd -- "$(dirname -- "$0")/.." && pwd -P)
work=$(mktemp -d)
trap 'rm -rf "$work"' EXIT
cd "$work" || exit 1
passed=0 failed=0

# same WHAT EXPECTED FOUND: two files.
same() {
    if cmp -s "$2" "$3"; then
        passed=$((passed + 1))
    else
        failed=$((failed + 1))
        echo "reader: $1: expected (<) and found (>):"
        diff "$2" "$3" | head -n 20
    fi
}

# run WHAT ARG..: runs ./hulmisker read; what it writes is in out and err, and is compared with the files want and want-err.
run() {
    what=$1
    shift
    "$here/hulmisker" read "$@" >out 2>err
    same "$what, standard output" want out
    same "$what, standard error" want-err err
    : >want-err
}

# Built before anything is compared: what building says on standard error is not the reader's. After `rt ci` that is a look at the files' times.
"$here/hulmisker" read /dev/null >/dev/null 2>err || { cat err; exit 1; }
: >want-err

printf 'A.b[x,y]>=1 ; os_name=='"'a'"'\n\n# no row\nfoo-\r\nc @ u' >good.txt
printf 'd;python_version in '"'abc'"' or '"'b'"' not in os_name' >other.txt
mkdir folder

{
    printf '1\tok\ta-b\tname=0,3 extras=4,1;6,1 specifiers=8,4 url=- comparisons=string,os_name,==,24,1 warnings= program=0\n'
    printf '4\trefused 5 3 1\n'
    printf '5\tok\tc\tname=0,1 extras= specifiers= url=4,1 comparisons= warnings= program=66\n'
} >want
cp want rows
run "rows of one file" --plain good.txt
cp rows want
"$here/hulmisker" read --plain <good.txt >out 2>err
same "rows of standard input" want out
cp rows want
"$here/hulmisker" read --plain - <good.txt >out 2>err
same "rows of -" want out

{
    sed 's/^/good.txt	/' rows
    printf 'missing.txt\t-\tnot read\nfolder\t-\tnot read\n'
    printf 'other.txt\t1\tok\td\tname=0,1 extras= specifiers= url=- comparisons=string,os_name,not_contains,30,1 warnings=1,2,23;1,2,23 program=0\n'
} >want
printf 'missing.txt: No such file or directory\nfolder: Is a directory\n' >want-err
run "a missing file and a folder among good ones" --plain good.txt missing.txt folder other.txt

printf 'lines 0, accepted 0, refused 0, passed over 0\n' >want
run "empty input" /dev/null
: >want
run "no rows of empty input" --plain /dev/null

printf '1: accepted d\n    program: 66 = yes\nlines 1, accepted 1, refused 0, passed over 0\n' >want
printf 'd' >-name
run "a name that starts with -, and a last line without LF" -- -name

: >want
printf 'usage: ./hulmisker read [--plain] [--] [FILE..]   (- or no FILE: standard input)\n' >want-err
run "an unknown option" -name good.txt
"$here/hulmisker" read -name good.txt >out 2>err
echo $? >out
echo 2 >want
same "an unknown option, status" want out

if [ -c /dev/full ]; then
    "$here/hulmisker" read --plain good.txt >/dev/full 2>err
    printf 'standard output: No space left on device\n' >want
    same "a write that fails, standard error" want err
else
    echo "reader: no /dev/full here: a write that fails was not tried"
fi

long=$(printf '%4096s' '' | tr ' ' x)
printf 'lines 0, accepted 0, refused 0, passed over 0, files not read 1\n' >want
printf '%.4095s: File name too long\n' "$long" >want-err
run "a name of 4,096 bytes" "$long"

# 9,000 lines and more: each time round the same rows but for their numbers, and the counts.
for turn in 1 2 3 4; do cat "$here/oracle/corpus.txt"; done | head -n 9000 >long.txt
"$here/hulmisker" read --plain "$here/oracle/corpus.txt" >once 2>err
cut -f 2- once >once-rows
cat once-rows once-rows once-rows once-rows | head -n 9000 >want
"$here/hulmisker" read --plain long.txt >out 2>err
cut -f 2- out >out-rows
same "9,000 lines, rows" want out-rows
awk 'BEGIN { for (i = 1; i <= 9000; i++) print i }' >want
cut -f 1 out >out-numbers
same "9,000 lines, numbers" want out-numbers
echo 'lines 9000, accepted 8988, refused 12 (number 14: 12), passed over 0' >want
"$here/hulmisker" read long.txt 2>err | tail -n 1 >out
same "9,000 lines, counts" want out

echo "reader: $passed passed, $failed failed"
[ "$failed" -eq 0 ]
