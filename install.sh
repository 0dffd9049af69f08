#!/usr/bin/env bash
# Installs what library.sh built: the headers, the archive, the shared object, a pkg-config file and the licence.
#
#     bash install.sh [PREFIX]      PREFIX is /usr/local if not given
#
# DESTDIR, where it is set, is put before every path that is written to, and LIBDIR is the folder of the libraries if that is
# not PREFIX/lib.
set -euo pipefail
cd "$(dirname "${BASH_SOURCE[0]}")"
fail() { echo "install.sh: $*" >&2 && exit 1; }

[ $# -le 1 ] || fail "usage: bash install.sh [PREFIX]"
prefix=${1:-/usr/local}
prefix=${prefix%/}
libdir=${LIBDIR:-$prefix/lib}
for folder in "$prefix" "$libdir"; do
    case $folder in
    *[[:space:]]*) fail "'$folder' has white space, which pkg-config's flags cannot carry" ;;
    /*) ;;
    *) fail "'$folder' is no absolute path" ;;
    esac
done

version=$(sed -n 's/^version = "\(.*\)"$/\1/p' rust/Cargo.toml)
real=libsirqobal.so.$version
for built in libsirqobal.a "$real"; do
    [ -f "build/lib/$built" ] || fail "build/lib/$built is missing: run 'bash library.sh' first"
done

# Copies files into a folder, and says where they are.
put() { # MODE FOLDER FILE...
    local mode=$1 folder=$2 file
    shift 2
    install -d "${DESTDIR:-}$folder"
    for file; do
        install -m "$mode" "$file" "${DESTDIR:-}$folder"
        echo "${DESTDIR:-}$folder/$(basename "$file")"
    done
}

link() { # NAME
    ln -sf "$real" "${DESTDIR:-}$libdir/$1"
    echo "${DESTDIR:-}$libdir/$1"
}

# The library needs nothing but the C library, so static linking takes the same words.
package() {
    local below=$libdir
    case $libdir in "$prefix"/*) below="\${prefix}${libdir#"$prefix"}" ;; esac
    cat <<END
prefix=$prefix
includedir=\${prefix}/include
libdir=$below

Name: Sirqobal
Description: The arena layer of an allocator, proved
Version: $version
Cflags: -I\${includedir}
Libs: -L\${libdir} -lsirqobal
END
}

put 644 "$prefix/include" include/*.h
put 644 "$libdir" build/lib/libsirqobal.a
put 755 "$libdir" "build/lib/$real"
link "libsirqobal.so.${version%%.*}"
link libsirqobal.so
install -d "${DESTDIR:-}$libdir/pkgconfig"
package | install -m 644 /dev/stdin "${DESTDIR:-}$libdir/pkgconfig/sirqobal.pc"
echo "${DESTDIR:-}$libdir/pkgconfig/sirqobal.pc"
put 644 "$prefix/share/doc/sirqobal" LICENSE NOTICE
[ -n "${DESTDIR:-}" ] || echo "To have the loader find $libdir/libsirqobal.so.${version%%.*}: ldconfig, or LD_LIBRARY_PATH=$libdir"
