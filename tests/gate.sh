#!/bin/sh
# tests/gate.sh: .ci/run passes if each of its parts does, and fails with each of them. The parts are stand-ins in a temporary folder, so nothing is proved.
# Says what went wrong, and exits 1 if something did. Its last line is 'gate: N tried, M wrong'.
set -u
here=$(CDPATH= cd -- "$(dirname -- "$0")/.." && pwd -P)
work=$(mktemp -d) || exit 1
trap 'rm -rf "$work"' EXIT
copy=$work/copy
mkdir -p "$work/bin" "$copy/.ci" "$copy/tests" "$copy/oracle" "$copy/crates/one/out" || exit 1
cp "$here/.ci/run" "$copy/.ci/run" || exit 1
PATH=$work/bin:$PATH
export PATH
tried=0 wrong=0

# stand_in FILE NAME: a script that notes its name and words in the file `ran`, and fails if it is what BROKEN names.
stand_in() {
    cat >"$1" <<SCRIPT
#!/bin/sh
echo "$2 \$*" >>"$work/ran"
[ "\$BROKEN" != "$2" ]
SCRIPT
    chmod +x "$1"
}

stand_in "$copy/tests/gate.sh" gate
stand_in "$copy/tests/bindings.sh" bindings
stand_in "$copy/tests/reader.sh" reader
stand_in "$work/bin/python3" oracle

# `rt`: like the kit's, `rt ci` ends with a line that begins 'rt: ok' and a line of counts. It has no more to show than what it is told to, and notes the files that
# it finds.
cat >"$work/bin/rt" <<SCRIPT
#!/bin/sh
echo "rt \$*" >>"$work/ran"
find . | sort >"$work/found"
echo "rt: first" && echo "rt: second" >&2 && printf '%b' "\$LAST" && exit "\$STATUS"
SCRIPT
chmod +x "$work/bin/rt"

say() {
    wrong=$((wrong + 1))
    echo "gate: $*"
}

# gate BROKEN STATUS LAST: runs the copy with one part broken, or none, and `rt ci` ending with this status and these last lines.
gate() {
    tried=$((tried + 1))
    rm -rf "$work/ran" "$copy/target"
    (cd "$copy" && find . | sort) >"$work/files"
    (cd / && BROKEN=$1 STATUS=$2 LAST=$3 "$copy/.ci/run") >"$work/out" 2>&1
    ended=$?
    closing=$(tail -n 1 "$work/out")
}

# fails WHAT BROKEN STATUS LAST: the status is not 0, and the closing line is not that of a gate that passed.
fails() {
    gate "$2" "$3" "$4"
    [ "$ended" -ne 0 ] || say "$1: status 0"
    case $closing in
    'gate: FAILED: '*) ;;
    *) say "$1: it ends with: $closing" ;;
    esac
}

# ok EDITS: the line that begins 'rt: ok'.
ok() {
    echo "rt: ok; handles allowed: none; must-fail edits: $1; every proof and must-fail edit was done in this run"
}

counts='3 passed, 0 failed'
good="$(ok '2 refused')\n$counts\n"
gate none 0 "$good"
[ "$ended" -eq 0 ] || say "all parts pass: status $ended"
[ "$closing" = "$counts" ] || say "all parts pass: it ends with: $closing"
printf 'gate \nrt ci\noracle oracle/test_reference.py\nbindings \nreader \n' >"$work/want"
cmp -s "$work/want" "$work/ran" || { say "all parts pass: other parts (>) than these (<)" && diff "$work/want" "$work/ran"; }
cmp -s "$work/files" "$work/found" || { say "all parts pass: rt ci finds other files (>) than there were (<)" && diff "$work/files" "$work/found"; }
printf 'rt: first\nrt: second\n%b' "$good" >"$work/want"
cmp -s "$work/want" "$copy/target/gate.log" || say "all parts pass: target/gate.log is not what rt ci wrote"
echo "$counts" >>"$work/want"
cmp -s "$work/want" "$work/out" || say "all parts pass: what rt ci wrote is not shown as it was"
gate none 0 "$(ok '2 refused, 1 of them only by a limit')\n$counts\n"
[ "$ended" -eq 0 ] || say "an edit refused by a limit: status $ended"

for part in gate oracle bindings reader; do
    fails "$part broken" "$part" 0 "$good"
done
fails "rt ci with status 1" none 1 'rt: FAILED: one\n2 passed, 1 failed\n'
fails "rt ci with status 2 and no counts" none 2 ''
fails "rt ci with status 3 and good counts" none 3 "$good"
fails "rt ci with status 0 and bad counts" none 0 "$(ok '2 refused')\n2 passed, 1 failed\n"
fails "rt ci with status 0 and 10 failed" none 0 "$(ok '2 refused')\n2 passed, 10 failed\n"
fails "rt ci with status 0 and no counts" none 0 ''
fails "rt ci with status 0 and nothing passed" none 0 "$(ok '0 refused')\n0 passed, 0 failed\n"
fails "rt ci with status 0 and some crates alone" none 0 "$(ok '2 refused')\n$counts (one and the crates below alone: not the gate)\n"
fails "rt ci with status 0 and no line 'rt: ok'" none 0 "$counts\n"
fails "rt ci with status 0 and 1 bad edit" none 0 "$(ok '2 refused, 1 bad')\n$counts\n"
fails "rt ci with status 0 and 10 bad edits" none 0 "$(ok '2 refused, 10 bad')\n$counts\n"
fails "rt ci with status 0, a limit and a bad edit" none 0 "$(ok '2 refused, 1 of them only by a limit, 1 bad')\n$counts\n"
fails "rt ci with status 0 and a line behind its counts" none 0 "${good}rt: third\n"
[ "$(cat "$copy/target/gate.log")" = "$(printf 'rt: first\nrt: second\n%brt: third' "$good")" ] || say "a gate that fails keeps no log"

echo "gate: $tried tried, $wrong wrong"
[ "$wrong" -eq 0 ]
