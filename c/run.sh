#!/usr/bin/env bash
# Builds the C programs into target/c and runs them: the layer's answers, the headers at their edges (as C and as C++),
# two programs over real memory, on one layer and on two that are joined, and the pictures of what they left.
# SIRQOBAL_LIB_DIR names another folder for the library.
set -euo pipefail
cd "$(dirname "${BASH_SOURCE[0]}")/.."
library=${SIRQOBAL_LIB_DIR:-build/lib}/libsirqobal.a
[ -f "$library" ] || { echo "c/run.sh: no $library; bash library.sh builds it" >&2; exit 1; }
out=target/c
mkdir -p "$out"
strict=(-Wall -Wextra -Wpedantic -Werror -Iinclude)

for name in layer misuse two_programs joined picture; do
    gcc -std=c11 -O2 "${strict[@]}" "c/$name.c" "$library" -o "$out/$name"
done
gcc -O2 "${strict[@]}" c/ten_lines.c "$library" -o "$out/ten_lines"
"$out/layer"
"$out/misuse"
"$out/ten_lines"
"$out/two_programs" "$out/table"
"$out/picture" "$out/table"
"$out/joined" "$out/joined.table"
"$out/picture" "$out/joined.table"

if command -v g++ >/dev/null; then
    g++ -x c++ -std=c++17 -O2 "${strict[@]}" c/misuse.c -x none "$library" -o "$out/misuse_cpp"
    "$out/misuse_cpp"
fi

# From outside the archive needs these two names of the C library, and no other.
needed=$(nm -u "$library" | awk '$1 == "U" { print $2 }' | sort -u | xargs)
[ "$needed" = "memmove memset" ] || { echo "c/run.sh: the archive needs $needed" >&2; exit 1; }

# A reply that is thrown away is an error for whoever asks for errors.
thrown='#include "sirqobal.h"
void thrown(struct sirqobal_table *table) { sirqobal_table_claim(table, 0, 1); }'
if gcc -std=c11 -Iinclude -Werror -x c -c -o /dev/null - <<<"$thrown" 2>"$out/thrown"; then
    echo "c/run.sh: a reply that is thrown away compiles" >&2
    exit 1
fi
grep -q 'unused-result' "$out/thrown"

# Nothing undefined, as far as the tools see it.
if gcc -fsanitize=address,undefined -x c -o "$out/probe" - <<<'int main(void) { return 0; }' 2>/dev/null; then
    for name in misuse two_programs joined; do
        gcc -std=c11 -g -O1 -fsanitize=address,undefined -fno-sanitize-recover=all "${strict[@]}" "c/$name.c" "$library" \
            -o "$out/${name}_sanitized"
        "$out/${name}_sanitized" >"$out/$name.out" || { cat "$out/$name.out"; exit 1; }
    done
fi
if command -v valgrind >/dev/null; then
    for name in misuse two_programs joined; do
        valgrind --quiet --error-exitcode=1 "$out/$name" >"$out/$name.out" || { cat "$out/$name.out"; exit 1; }
    done
fi
