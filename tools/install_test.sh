#!/usr/bin/env bash
# Tries install.sh in a scratch prefix: a small C program, compiled by the flags of the pkg-config file, is linked to the
# shared object, to the archive and, where the C library has an archive too, all statically, and run each time.
set -euo pipefail
cd "$(dirname "${BASH_SOURCE[0]}")/.."
source tools/need.sh
need gcc "the package gcc, with the C library's headers (Debian: apt install gcc libc6-dev)" \
    nm "the package binutils" readelf "the package binutils"
scratch=$(mktemp -d)
trap 'rm -rf "$scratch"' EXIT
fail() { echo "install_test.sh: $*" >&2 && exit 1; }

prefix=$scratch/prefix
lib=$prefix/lib
bash install.sh "$prefix" >"$scratch/installed"
while read -r path; do
    case $path in /*) [ -f "$path" ] || fail "$path was not installed" ;; esac
done <"$scratch/installed"
version=$(sed -n 's/^version = "\(.*\)"$/\1/p' rust/Cargo.toml)

# What pkg-config says of sirqobal, or where there is none, what the file says by itself.
flags() { # --cflags | --libs | --modversion [--static]
    if command -v pkg-config >/dev/null; then
        PKG_CONFIG_PATH=$lib/pkgconfig pkg-config "$@" sirqobal
        return
    fi
    local key
    case $1 in --cflags) key=Cflags ;; --libs) key=Libs ;; --modversion) key=Version ;; esac
    sed -n "s/^$key: //p" "$lib/pkgconfig/sirqobal.pc" |
        sed "s|\${includedir}|$prefix/include|g; s|\${libdir}|$lib|g; s|\${prefix}|$prefix|g"
}
[ "$(flags --modversion)" = "$version" ] || fail "sirqobal.pc has another version than $version"
said=$(sed -n 's/^#define SIRQOBAL_VERSION "\(.*\)"$/\1/p' include/sirqobal.h)
[ "${said:-$version}" = "$version" ] || fail "include/sirqobal.h has version $said, and rust/Cargo.toml $version"

# Both libraries have the same functions, and no other name.
names() { nm --defined-only --extern-only "$@" | awk 'NF == 3 { print $3 }' | sort; }
names "$lib/libsirqobal.a" >"$scratch/archive.names"
names --dynamic "$lib/libsirqobal.so" >"$scratch/shared.names"
diff "$scratch/archive.names" "$scratch/shared.names" || fail "the libraries differ in what they export"
[ -s "$scratch/shared.names" ] || fail "the libraries export nothing"
if grep -v '^sirqobal_' "$scratch/shared.names"; then fail "a name that is not ours"; fi

# Four chunks are adopted and a run of two is claimed in them; the program knows every installed header.
{
    echo "#define _DEFAULT_SOURCE" # sirqobal_linux.h names what C11 alone does not
    for header in "$prefix"/include/*.h; do echo "#include <$(basename "$header")>"; done
    cat <<'END'
#include <stdio.h>

static struct sirqobal_arena records[SIRQOBAL_RECORDS];
static uint32_t stamps[SIRQOBAL_STAMPS];
#define LENT(state) records, SIRQOBAL_RECORDS, stamps, SIRQOBAL_STAMPS, state, 1000000000, settings

int main(void)
{
    const uint64_t base = 1073741824;
    const struct sirqobal_state empty = {0};
    const struct sirqobal_settings settings = {.page = 4096};
    struct sirqobal_reply r = sirqobal_adopt_os_block(LENT(empty), base, 4 * (uint64_t)SIRQOBAL_CHUNK);
    if (r.number == SIRQOBAL_GRANTED) r = sirqobal_chunk_alloc_n(LENT(r.state), -1, 2);
    printf("number %u, address %llu\n", (unsigned)r.number, (unsigned long long)r.address);
    return r.number != SIRQOBAL_GRANTED || r.address != base || records[0].used[0] != 3;
}
END
} >"$scratch/program.c"

needs_shared() { readelf -d "$1" | grep -q 'NEEDED.*\[libsirqobal\.so\.'"${version%%.*}"'\]'; }
compile() { # NAME WORDS...
    local name=$1
    shift
    # shellcheck disable=SC2046
    gcc -std=c11 -Wall -Wextra -Werror $(flags --cflags) "$scratch/program.c" "$@" -o "$scratch/$name"
}

# shellcheck disable=SC2046
compile shared $(flags --libs)
needs_shared "$scratch/shared" || fail "the program does not name the shared object"
LD_LIBRARY_PATH=$lib "$scratch/shared" || fail "the program over the shared object fails"

# shellcheck disable=SC2046
compile archive -Wl,-Bstatic $(flags --libs --static) -Wl,-Bdynamic
if needs_shared "$scratch/archive"; then fail "the program over the archive names the shared object"; fi
"$scratch/archive" || fail "the program over the archive fails"

if [ -f "$(gcc -print-file-name=libc.a)" ]; then
    # shellcheck disable=SC2046
    compile static -static $(flags --libs --static)
    "$scratch/static" || fail "the static program fails"
fi

# DESTDIR is no part of what the files say.
DESTDIR=$scratch/stage LIBDIR=/usr/lib/here bash install.sh /usr >/dev/null
grep -qx 'prefix=/usr' "$scratch/stage/usr/lib/here/pkgconfig/sirqobal.pc" || fail "the staged pkg-config file has another prefix"
if grep -q "$scratch" "$scratch/stage/usr/lib/here/pkgconfig/sirqobal.pc"; then fail "the staged pkg-config file names DESTDIR"; fi
[ "$(readlink "$scratch/stage/usr/lib/here/libsirqobal.so")" = "libsirqobal.so.$version" ] || fail "the staged links lead astray"

# Without library.sh's result it says so, and installs nothing.
mkdir -p "$scratch/clone/rust"
cp install.sh "$scratch/clone"
cp rust/Cargo.toml "$scratch/clone/rust"
if said=$(bash "$scratch/clone/install.sh" "$scratch/none" 2>&1); then fail "it installs a library that is not there"; fi
[[ $said == *library.sh* && ! -e $scratch/none ]] || fail "a missing library is not said: $said"
echo "installed: $(wc -l <"$scratch/shared.names") functions; linked to the shared object and to the archive"
