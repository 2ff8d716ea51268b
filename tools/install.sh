#!/usr/bin/env bash
# Installs what a program in C or C++ needs, below a folder:
#   tools/install.sh PREFIX
#
#   lib/libccollect.a                    the library with ccollect_heap.c: all that a program links
#   lib/pkgconfig/ccollect.pc            its flags, for pkg-config
#   include/ccollect.h, ccollect.hpp     for C and C++
#   share/ccollect/ccollect_heap.c       the part that is C, as text
#   share/man/man3/ccollect.3            the comments of ccollect.h as a manual page
#
# The library is crates/cc_c/out/libcc_c.a, which rt lib makes in crates/cc_c; CCOLLECT names another. CC and AR name other tools.
# DESTDIR is a folder under which PREFIX is to stand for now, as makers of packages have it.
#
# In libccollect.a the functions of memory are a part of their own: a program that has its own three links with its own.
set -eu
if [ $# -ne 1 ] || [ -z "$1" ]; then
    echo "usage: tools/install.sh PREFIX" >&2
    exit 2
fi
case $1 in
/*) prefix=${1%/} ;;
*) prefix=$PWD/${1%/} ;;
esac
called_from=$PWD
cd "$(dirname "$0")/.."
library=${CCOLLECT:-crates/cc_c/out/libcc_c.a}
if [ -n "${CCOLLECT:-}" ] && [ "${library#/}" = "$library" ]; then library=$called_from/$library; fi
if [ ! -r "$library" ]; then
    echo "install: there is no library $library: make one by (cd crates/cc_c && rt lib), or name one in CCOLLECT" >&2
    exit 1
fi
version=$(sed -n 's/^#define CC_VERSION_TEXT "\(.*\)"$/\1/p' include/ccollect.h)
into=${DESTDIR:-}$prefix
work=$(mktemp -d)
trap 'rm -rf "$work"' EXIT

"${CC:-cc}" -O2 -fPIC -Iinclude -DCC_OWN_MEMORY -c include/ccollect_heap.c -o "$work/ccollect_open.o"
"${CC:-cc}" -O2 -fPIC -Iinclude -DCC_ONLY_MEMORY -c include/ccollect_heap.c -o "$work/ccollect_memory.o"
cp "$library" "$work/libccollect.a"
chmod u+w "$work/libccollect.a"
"${AR:-ar}" rs "$work/libccollect.a" "$work/ccollect_open.o" "$work/ccollect_memory.o"
awk -v version="$version" -f tools/manual.awk include/ccollect.h > "$work/ccollect.3"
cat > "$work/ccollect.pc" <<PC
prefix=$prefix
libdir=\${prefix}/lib
includedir=\${prefix}/include

Name: ccollect
Description: a proved cycle collector over counted natives and traced script objects
Version: $version
Cflags: -I\${includedir}
Libs: -L\${libdir} -lccollect
PC

place() {
    mkdir -p "$into/$1"
    shift_to=$into/$1
    shift
    for file in "$@"; do
        cp "$file" "$shift_to/"
        chmod 644 "$shift_to/$(basename "$file")"
    done
}
place lib "$work/libccollect.a"
place lib/pkgconfig "$work/ccollect.pc"
place include include/ccollect.h include/ccollect.hpp
place share/ccollect include/ccollect_heap.c
place share/man/man3 "$work/ccollect.3"
echo "install: ccollect $version is in $into"
