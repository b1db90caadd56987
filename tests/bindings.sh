#!/bin/sh
# tests/bindings.sh: builds the static library and runs the tests and examples of its bindings for C and Rust.
#
# The last line is 'bindings: N passed, M failed'. The status is 0 if M is 0, 1 if not, and 2 if nothing could be tried: no cc, no library. Without
# cargo it says that the Rust crate was not tried.
set -u
root=$(CDPATH= cd -- "$(dirname -- "$0")/.." && pwd -P)
cd "$root" || exit 2
out=target/bindings
log=$out/log
rust=bindings/rust
archive=target/native/libgateway.a
passed=0 failed=0

stop() {
    echo "bindings: $*" >&2
    exit 2
}

# try WHAT COMMAND..: the command must end with status 0; if not, what it wrote is shown.
try() {
    what=$1
    shift
    if "$@" >"$log" 2>&1; then
        passed=$((passed + 1))
    else
        failed=$((failed + 1))
        echo "bindings: FAILED: $what"
        sed 's/^/    /' "$log"
        return 1
    fi
}

# try_output WHAT STATUS EXPECTED INPUT COMMAND..: the command must end with this status and write just the text of the file EXPECTED.
try_output() {
    tried=$1 status=$2 expected=$3 input=$4
    shift 4
    "$@" <"$input" >"$out/written" 2>&1
    ended=$?
    try "$tried: status $ended, where $status is expected" [ "$ended" -eq "$status" ]
    try "$tried: other output than $expected" diff "$expected" "$out/written"
}

compile() { # NAME FLAG..
    name=$1
    shift
    cc -std=c99 -Wall -Wextra -Werror -pedantic -Ibindings/c "$@" "bindings/c/${name%-*}.c" "$archive" -o "$out/$name"
}

c_plain() {
    try "compiling the C test" compile test -O2 && try "the C test" "$out/test"
    try "compiling the C example" compile example -O2 && {
        try_output "the C example" 1 bindings/c/example.out bindings/c/example.in "$out/example"
        try_output "the C example with an assignment" 0 bindings/c/assigned.out /dev/null "$out/example" -a 0x5 \
            "a;os_name=='a' and os_name=='b' or os_name=='c'" "b;os_name=='a' and os_name=='b'"
    }
    try "compiling the stack measure" compile stack -O2 -pthread && try "the stack measure" "$out/stack"
    if command -v c++ >/dev/null 2>&1; then
        try "the header as C++" c++ -std=c++11 -Wall -Wextra -Werror -pedantic -fsyntax-only -x c++ bindings/c/hulmisker.h
    fi
}

# With sanitizers, if what is made with them runs here at all.
c_sanitized() {
    echo 'int main(void) { return 0; }' >"$out/empty.c"
    checks="-g -O1 -fsanitize=undefined,address -fno-sanitize-recover=all"
    # shellcheck disable=SC2086 # words
    if cc $checks "$out/empty.c" -o "$out/empty" >/dev/null 2>&1 && "$out/empty" >/dev/null 2>&1; then
        try "compiling the C test with sanitizers" compile test-checked $checks && try "the C test with sanitizers" "$out/test-checked"
        try "compiling the C example with sanitizers" compile example-checked $checks &&
            try_output "the C example with sanitizers" 1 bindings/c/example.out bindings/c/example.in "$out/example-checked"
    else
        echo "bindings: no sanitizers here: not tried"
    fi
}

in_rust() { # SUBCOMMAND WORD..
    subcommand=$1
    shift
    cargo "$subcommand" --offline --locked --quiet --manifest-path "$rust/Cargo.toml" "$@"
}

# The build must stop where there is no archive, and say what to do.
builds_without_archive() {
    HULMISKER_LIB_DIR=$root/$out/nothing
    if in_rust check; then
        echo "built without libgateway.a"
        return 1
    fi
}

refuses_to_build() {
    (builds_without_archive) >"$out/refused" 2>&1
    ended=$?
    cat "$out/refused"
    [ "$ended" -eq 0 ] && grep -q 'there is no libgateway.a to link with' "$out/refused"
}

rust_crate() {
    CARGO_TARGET_DIR=$root/target/cargo HULMISKER_LIB_DIR=$root/target/native
    export CARGO_TARGET_DIR HULMISKER_LIB_DIR
    ! cargo fmt --version >/dev/null 2>&1 || try "the layout of the Rust crate" cargo fmt --check --manifest-path "$rust/Cargo.toml"
    ! cargo clippy --version >/dev/null 2>&1 || try "clippy" in_rust clippy --all-targets -- -D warnings
    try "the Rust tests" in_rust test
    try "building the Rust example" in_rust build --example night &&
        try_output "the Rust example" 0 "$rust/examples/night.out" /dev/null "$CARGO_TARGET_DIR/debug/examples/night" oracle/corpus.txt
    try "a build without the archive" refuses_to_build
}

command -v cc >/dev/null 2>&1 || stop "no command 'cc'"
# rustup puts cargo where a plain PATH does not look.
PATH=$PATH:${CARGO_HOME:-${HOME-}/.cargo}/bin
mkdir -p "$out/nothing" || exit 2
# After `rt ci` this proves `gateway_c` alone once more: `rt ci` keeps no archive.
tools/native-lib gateway >"$log" 2>&1 || {
    cat "$log" >&2
    stop "tools/native-lib gateway failed"
}
c_plain
c_sanitized
if cargo --version >/dev/null 2>&1; then
    rust_crate
else
    echo "bindings: no cargo that runs here: the Rust crate was NOT TRIED"
fi
echo "bindings: $passed passed, $failed failed"
[ "$failed" -eq 0 ]
