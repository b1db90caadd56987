#!/bin/sh
# Builds target/oracle/oracle with rustc alone (ORACLE_BUILD names another folder). The five given files are taken as they are, byte for byte, from
# pep508_rs/src; what they lack comes from standins/.
set -eu
here=$(CDPATH= cd -- "$(dirname -- "$0")" && pwd)
build=${ORACLE_BUILD:-$here/../target/oracle}
mkdir -p "$build"
build=$(CDPATH= cd -- "$build" && pwd)
cd "$here"
given=pep508_rs/src
rm -rf "$build/src" "$build/deps"
mkdir -p "$build/src" "$build/deps"

# Stand-ins first: a given file would win over a stand-in of the same name, but there must be none.
cp -R standins/src/. "$build/src/"
for file in cursor.rs lib.rs marker/parse.rs marker/mod.rs normalize/mod.rs; do
    if [ -e "$build/src/$file" ]; then
        echo "standins/src/$file would hide a given file" >&2
        exit 1
    fi
    cp "$given/$file" "$build/src/$file"
    cmp "$given/$file" "$build/src/$file"
done

compile() {
    rustc --edition 2021 -C opt-level=2 -C debug-assertions=on -C overflow-checks=on \
        --cap-lints allow -L "$build/deps" "$@"
}
for name in serde unicode_width url pep440_rs; do
    compile --crate-type rlib --crate-name "$name" --out-dir "$build/deps" "standins/crates/$name.rs"
done
compile --crate-type proc-macro --crate-name thiserror --out-dir "$build/deps" \
    standins/crates/thiserror.rs
compile --extern serde="$build/deps/libserde.rlib" \
    --extern unicode_width="$build/deps/libunicode_width.rlib" \
    --extern url="$build/deps/liburl.rlib" \
    --extern pep440_rs="$build/deps/libpep440_rs.rlib" \
    --extern thiserror \
    --crate-type rlib --crate-name pep508_rs --out-dir "$build/deps" "$build/src/lib.rs"
compile --extern pep508_rs="$build/deps/libpep508_rs.rlib" \
    --extern pep440_rs="$build/deps/libpep440_rs.rlib" \
    --crate-type bin --crate-name oracle -o "$build/oracle" oracle.rs
echo "$build/oracle"
