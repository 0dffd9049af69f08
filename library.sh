#!/usr/bin/env bash
# Proves the crates of the library and builds build/lib/libsirqobal.a and libsirqobal.so: what include/sirqobal.h declares
# and crate `exports` exports. What is proved or built already is not done again.
set -euo pipefail
cd "$(dirname "${BASH_SOURCE[0]}")"
source tools/need.sh
need rt "the Rattle kit; put its bin/rt on the PATH" \
    gcc "the package gcc, with the C library's headers (Debian: apt install gcc libc6-dev)"
need cargo "Rust (https://rustup.rs) for the crate in rust/; the library itself does not need it" || true
SECONDS=0
crate=exports
out=build/lib
work=target/library
version=$(sed -n 's/^version = "\(.*\)"$/\1/p' rust/Cargo.toml)
real=libsirqobal.so.$version
soname=libsirqobal.so.${version%%.*}
kit=$(dirname "$(rt doc)")

elapsed() { printf '%d:%02d' $((SECONDS / 60)) $((SECONDS % 60)); }

# The crates that the library is made of, each after those that it stands on. crates.txt has each crate below what it stands on.
below() {
    tac crates.txt | awk -v top="$crate" '
        { sub(/#.*/, ""); name = $1; sub(/:$/, "", name) }
        NR == 1 { ours[top] }
        name in ours { print name; for (i = 2; i <= NF; i++) { sub(/:$/, "", $i); ours[$i] } }' | tac
}

without_notes() { grep -vE '^(library [^ ]+: modules|statements |logic /|note: |rt: note: |(fn|struct|enum|impl) .*: proved$)' || true; }

# Proves the crates, the lowest first, and says after each how far it is. What the prover says is shown where a crate is not proved.
prove() {
    local name n=0 total
    total=$(below | wc -l)
    echo "proving $total crates: some minutes, or seconds where nothing has changed"
    mkdir -p target
    for name in $(below); do
        if ! (cd "crates/$name" && rt check) >target/said 2>&1; then
            without_notes <target/said >&2
            return 1
        fi
        n=$((n + 1))
        echo "$n of $total: $name proved, $(elapsed) in all"
    done
}

# The code is many small functions in many crates, of which LLVM by default leaves too many as calls: it is told to inline
# more, and to keep jumps within blocks of 32 bytes (docs/DECISIONS.md), by a toolchain folder whose clang passes the words on, a
# folder outside the checkout, since it is made of links. `rt lib` takes no such words, so `rattle build` is called here with those
# that it would pass.
build_archive() {
    local uses=(--extern "std=$kit/rlibs/std.rlib") name
    toolchain=$(mktemp -d)
    trap 'rm -rf "$toolchain"' EXIT
    cp -rs "$kit/toolchain/." "$toolchain"
    rm "$toolchain/bin/clang"
    printf '#!/bin/sh\nexec "%s" "$@" -mllvm -inline-threshold=5000 -mllvm -x86-branches-within-32B-boundaries\n' "$kit/toolchain/bin/clang" >"$toolchain/bin/clang"
    chmod +x "$toolchain/bin/clang"

    for name in $(sed -n "s/^$crate staticlib: *//p" crates.txt); do
        uses+=(--extern "$name=../$name/out/rlib/$name.rlib")
    done
    uses+=(-L "dependency=$kit/rlibs")
    for name in $(below); do uses+=(-L "dependency=../$name/out/rlib"); done
    (cd "crates/$crate" && "$kit/bin/rattle" build --crate-name "$crate" src/lib.rt "${uses[@]}" \
        --antt-project "$kit/rattle/logic/antt-project.json" --logic-built "$kit/logic_built" --links "$crate=" \
        --crate-type staticlib --incremental out/incremental --backend llvm --toolchain "$toolchain" \
        -o "../../$work/libsirqobal.a") >"$work/said" 2>&1 || { without_notes <"$work/said" >&2 && return 1; }
}

build_shared() {
    gcc -shared -nostartfiles -Wl,-soname,"$soname" -Wl,--version-script=c/sirqobal.map -Wl,-z,defs,-z,relro,-z,now \
        -Wl,--whole-archive "$work/libsirqobal.a" -Wl,--no-whole-archive -o "$work/$real"
}

prove

# A sum over all that the library is made of.
made_of=$({
    for name in $(below); do find "crates/$name/src" "crates/$name/specs" "crates/$name/proofs" -type f -print0 2>/dev/null; done |
        LC_ALL=C sort -z | xargs -0 sha256sum
    rt version
    cat library.sh c/sirqobal.map
    echo "$version"
} | sha256sum)
if [ "$(cat build/made_of 2>/dev/null)" = "$made_of" ] && [ -f "$out/libsirqobal.a" ] && [ -f "$out/$real" ]; then
    echo "$out/libsirqobal.a and libsirqobal.so are up to date"
    exit
fi
echo "building the library of them: about a minute"
rm -rf "$work" build/made_of
mkdir -p "$work" "$out"
build_archive
build_shared
rm -f "$out"/*
mv "$work/libsirqobal.a" "$work/$real" "$out"
# The other names are names of the same file: `rt ci` refuses a symbolic link anywhere in the checkout.
ln "$out/$real" "$out/$soname"
ln "$out/$real" "$out/libsirqobal.so"
echo "$made_of" >build/made_of
echo "$out/libsirqobal.a and libsirqobal.so have what include/sirqobal.h declares ($(elapsed))"
