#!/usr/bin/env bash
# The library from C and C++: finds or builds it, then builds the programs of tools/c, and runs them.
#   tools/c_interface.sh [--over-gate]
#
# The library is the one that CCOLLECT names. Else it is crates/cc_c/out/libcc_c.a, where no source of it is newer. Else, where a
# gate (rt ci) left the libraries below it in this checkout, it is built over them. Else rt lib proves and builds all of it. With
# --over-gate it is built over what the gate left in any case.
#
# Each program is built with all warnings as errors, and run; built again with the address and undefined behaviour checks of
# the compiler, where it has them, and run; and three of them are run under valgrind, where it is there: what they closed gave
# back all memory. Then ccollect_heap.c is tried as C99 and as C++, the headers by each standard, and an installation by
# tools/install.sh. Status 0 only if all passed. Without cc nothing is built, and the status is 0.
#
# CC and CXX name other compilers.
set -u
cd "$(dirname "$0")/.." || exit 1
cc=${CC:-cc}
cxx=${CXX:-c++}
if ! command -v "$cc" >/dev/null 2>&1; then
    echo "c: there is no $cc, so nothing was built"
    exit 0
fi

# The crates of this repository below one, and itself.
crates_below() {
    awk -v top="$1" '
        function visit(name, count, i, words) {
            if (!(name in below) || name in seen) return
            seen[name] = 1
            count = split(below[name], words, " ")
            for (i = 1; i <= count; i++) visit(words[i])
            print name
        }
        { sub(/#.*/, "") }
        /:/ { split($0, part, ":"); split(part[1], word, " "); below[word[1]] = part[2] }
        END { visit(top) }
    ' crates.txt
}

# Whether a source of one of these crates is newer than a file, which is named first.
is_newer() {
    local than=$1 name folders=()
    shift
    for name in "$@"; do folders+=("crates/$name/src" "crates/$name/specs" "crates/$name/proofs"); done
    [ -n "$(find "${folders[@]}" -newer "$than" -print -quit 2>/dev/null)" ]
}

# Whether the library stands there and is that of these sources.
is_built() {
    [ -r "$library" ] || return 1
    # shellcheck disable=SC2046
    ! is_newer "$library" $(crates_below cc_c)
}

# Whether a gate left each library below it, of these sources.
has_gate() {
    local name
    for name in $(crates_below cc_c); do
        [ "$name" = cc_c ] && continue
        [ -r "crates/$name/out/rlib/$name.rlib/format" ] || return 1
        is_newer "crates/$name/out/rlib/$name.rlib" "$name" && return 1
    done
    return 0
}

# Checks cc_c and builds it over the libraries that the gate left, by the words that rt gives the compiler.
over_gate() {
    local kit words=() name line
    kit=$(dirname "$(rt doc)") || return 1
    line=$(grep '^cc_c staticlib:' crates.txt) || return 1
    for name in std ${line#*:}; do
        if [ -d "crates/$name" ]; then
            words+=(--extern "$name=$PWD/crates/$name/out/rlib/$name.rlib")
        else
            words+=(--extern "$name=$kit/rlibs/$name.rlib")
        fi
    done
    for name in crates/*/out/rlib; do words+=(-L "dependency=$PWD/$name"); done
    cd crates/cc_c || return 1
    mkdir -p out
    "$kit/bin/rattle" build --crate-name cc_c src/lib.rt "${words[@]}" -L "dependency=$kit/rlibs" --links cc_c= \
        --antt-project "$kit/rattle/logic/antt-project.json" --logic-built "$kit/logic_built" --jobs "$(nproc)" \
        --crate-type staticlib --toolchain "$kit/toolchain" --backend llvm -o out/libcc_c.a
}

library=${CCOLLECT:-}
if [ -z "$library" ]; then
    library=crates/cc_c/out/libcc_c.a
    if [ "${1:-}" = --over-gate ]; then
        (over_gate) || exit 1
    elif is_built; then
        echo "c: $library is newer than its sources, so it is taken as it is"
    elif has_gate; then
        echo "c: it is built over the libraries that a gate left here"
        (over_gate) || exit 1
    else
        echo "c: no library and no gate's libraries are here that are newer than the sources, so rt lib proves and builds all"
        (cd crates/cc_c && rt lib) || exit 1
    fi
fi
if [ ! -r "$library" ]; then
    echo "c: there is no library $library" >&2
    exit 1
fi
work=$(mktemp -d) || exit 1
trap 'rm -rf "$work"' EXIT
warnings="-Wall -Wextra -Werror -O2 -Iinclude"
passed=0
failed=0

# Runs a command that is to end with 0, and says what it said where it does not. The first word names it.
must() {
    local name=$1
    shift
    "$@" > "$work/said" 2>&1 && return 0
    failed=$((failed + 1))
    echo "c: $name failed: $*" >&2
    tail -n 40 "$work/said" >&2
    return 1
}

# The same of a run of a program, which counts as passed then.
pass() {
    must "$@" && passed=$((passed + 1))
}

# Builds a program of tools/c, as work/NAME and this ending, with these further words for the compiler. ref.cpp throws, and is
# C++17; own.cpp is C++11 without exceptions.
build() {
    local name=$1 ending=$2 heap=("$work/heap.o")
    shift 2
    # shellcheck disable=SC2086
    case $name in
    # these have ccollect_heap.c within them
    refused | marks) "$cc" -std=c11 $warnings -pthread "$@" "tools/c/$name.c" "$library" -o "$work/$name$ending" ;;
    ref) "$cxx" -std=c++17 $warnings "$@" tools/c/ref.cpp "${heap[@]}" "$library" -o "$work/$name$ending" ;;
    own)
        "$cxx" -std=c++11 -fno-exceptions -fno-rtti $warnings "$@" tools/c/own.cpp "${heap[@]}" "$library" \
            -o "$work/$name$ending"
        ;;
    *) "$cc" -std=c11 $warnings "$@" "tools/c/$name.c" "${heap[@]}" "$library" -o "$work/$name$ending" ;;
    esac
}

has_cxx() { command -v "$cxx" >/dev/null 2>&1; }

# Builds all programs in one way, and runs them: an ending of their names, how many operations churn does, and further words.
run_all() {
    local ending=$1 operations=$2
    shift 2
    # shellcheck disable=SC2086
    must "building ccollect_heap.c" "$cc" -std=c11 $warnings "$@" -c include/ccollect_heap.c -o "$work/heap.o" || return
    for name in first cycle stops many refused marks churn ref own; do
        if [ -e "tools/c/$name.cpp" ] && ! has_cxx; then
            echo "c: there is no $cxx, so $name.cpp was not built"
            continue
        fi
        local words=()
        if [ "$name" = churn ]; then words=("$operations"); fi
        must "building $name$ending" build "$name" "$ending" "$@" || continue
        pass "$name$ending" timeout 300 "$work/$name$ending" "${words[@]}"
    done
}

run_all "" 1000000

checks="-g -fsanitize=address,undefined -fno-sanitize-recover=all"
echo 'int main(void) { return 0; }' > "$work/none.c"
# shellcheck disable=SC2086
if "$cc" $checks "$work/none.c" -o "$work/none" >/dev/null 2>&1 && "$work/none" >/dev/null 2>&1; then
    # shellcheck disable=SC2086
    run_all .checked 100000 $checks
else
    echo "c: $cc has no address checks here"
fi

if command -v valgrind >/dev/null 2>&1; then
    watch="timeout 300 valgrind -q --error-exitcode=1 --leak-check=full --show-leak-kinds=all --errors-for-leak-kinds=all"
    # shellcheck disable=SC2086
    pass "cycle under valgrind" $watch "$work/cycle"
    # shellcheck disable=SC2086
    pass "refused under valgrind" $watch "$work/refused" 1
    # shellcheck disable=SC2086
    if [ -x "$work/own" ]; then pass "own under valgrind" $watch "$work/own"; fi
else
    echo "c: there is no valgrind"
fi

# The part that is C, by other standards, and by a compiler for C++: there it links with programs in C and in C++.
strict="-Wall -Wextra -Wpedantic -Werror -Wconversion -Iinclude"
printf '#include "ccollect.h"\nint main(void) { return CC_OK; }\n' > "$work/header.c"
printf '#include "ccollect.hpp"\nint main() { return cc::collector().get() == nullptr; }\n' > "$work/header.cpp"
# shellcheck disable=SC2086
for standard in c99 c11 c17; do
    must "ccollect.h as $standard" "$cc" -std=$standard $strict -fsyntax-only "$work/header.c" || continue
    must "ccollect_heap.c as $standard" "$cc" -std=$standard $strict -c include/ccollect_heap.c -o "$work/heap.o" || continue
    must "building first over it" build first ".$standard" && pass "first over $standard" "$work/first.$standard"
done
if has_cxx; then
    # shellcheck disable=SC2086
    for standard in c++11 c++17; do
        must "ccollect.hpp as $standard" "$cxx" -std=$standard $strict -fsyntax-only "$work/header.cpp" || continue
        must "ccollect_heap.c as $standard" "$cxx" -x c++ -std=$standard $strict -c include/ccollect_heap.c -o "$work/heap.o" ||
            continue
        must "first.c for it" "$cc" -std=c11 $strict -c tools/c/first.c -o "$work/first.o" &&
            must "linking first with it" "$cxx" "$work/first.o" "$work/heap.o" "$library" -o "$work/first.$standard" &&
            pass "first over $standard" "$work/first.$standard"
        for name in ref own; do
            must "building $name over it" build "$name" ".$standard" && pass "$name over $standard" "$work/$name.$standard"
        done
    done
fi

# An installation: programs are built with the flags of its ccollect.pc, and its manual page names each call.
flags() {
    if command -v pkg-config >/dev/null 2>&1; then
        PKG_CONFIG_PATH=$work/usr/lib/pkgconfig pkg-config --cflags --libs ccollect
    else
        sed -n "s/^Cflags: //p; s/^Libs: //p" "$work/usr/lib/pkgconfig/ccollect.pc" |
            sed "s|\${includedir}|$work/usr/include|; s|\${libdir}|$work/usr/lib|"
    fi
}
manual_is_whole() {
    local page=$work/usr/share/man/man3/ccollect.3 name
    while read -r name; do
        grep -q "[ *]$name(" "$page" || { echo "the manual page has no $name"; return 1; }
    done < <(sed -n 's/^[a-z].*[ *]\(cc_[a-z_]*\)(.*/\1/p' include/ccollect.h)
    command -v groff >/dev/null 2>&1 || return 0
    groff -man -Tutf8 -ww "$page" 2>&1 >/dev/null | grep . && return 1
    return 0
}
if must "tools/install.sh" env CCOLLECT="$library" CC="$cc" tools/install.sh "$work/usr"; then
    # shellcheck disable=SC2046
    must "building first by pkg-config" "$cc" -Wall -Wextra -Werror tools/c/first.c $(flags) -o "$work/first.installed" &&
        pass "first over an installation" "$work/first.installed"
    # an allocator of its own takes the place of the library's
    # shellcheck disable=SC2046
    must "building marks by pkg-config" "$cc" -std=c11 -Wall -Wextra -Werror -pthread -I"$work/usr/share/ccollect" \
        tools/c/marks.c $(flags) -o "$work/marks.installed" && pass "marks over an installation" "$work/marks.installed"
    if has_cxx; then
        # shellcheck disable=SC2046
        must "building own by pkg-config" "$cxx" -std=c++11 -Wall -Wextra -Werror tools/c/own.cpp $(flags) \
            -o "$work/own.installed" && pass "own over an installation" "$work/own.installed"
    fi
    pass "the manual page" manual_is_whole
fi

echo "c: $passed passed, $failed failed"
[ "$failed" -eq 0 ]
