#!/usr/bin/env bash
# Other collectors before cccheck: the one of bench/peers/trial.c, as it is and with each of its six mistakes, and CPython's. Then
# lawful transcripts with one change each. No part of rt ci.
#   tools/peers.sh [--all]
# What cccheck says of each mistake is compared with bench/peers/mistakes/expected.txt. 60 made scripts go to each collector, and
# 60 transcripts are changed; with --all these are 1,000 and 2,000, which takes some minutes.
#
# It takes the programs that rt run or rt ci left: crates/cccheck/out/cccheck, and crates/ccreplay/out/ccreplay for the changes.
# CCCHECK and CCREPLAY name others, and CC another compiler. What is not there, or is older than a source file of a crate, is left
# out, and said. Status 0 only if all that was there passed.
set -u
cd "$(dirname "$0")/.." || exit 1
cc=${CC:-cc}
export PYTHONDONTWRITEBYTECODE=1

# The path of a program that was left in its crate, or of none where a source file is newer.
program_left() {
    local path=$PWD/crates/$1/out/$1
    if [ -x "$path" ] && [ -z "$(find crates/*/src -name '*.rt' -newer "$path" -print -quit)" ]; then
        echo "$path"
    fi
}

export CCCHECK=${CCCHECK:-$(program_left cccheck)}
export CCREPLAY=${CCREPLAY:-$(program_left ccreplay)}
scripts=60
changes=60
if [ "${1:-}" = --all ]; then
    scripts=1000
    changes=2000
fi
if [ ! -x "$CCCHECK" ]; then
    echo "peers: there is no cccheck of this source, so nothing was judged"
    exit 0
fi
work=$(mktemp -d) || exit 1
trap 'rm -rf "$work"' EXIT
passed=0
failed=0

# Runs a test, which says itself what is wrong. The first word names it.
pass() {
    local name=$1
    shift
    if "$@"; then
        passed=$((passed + 1))
    else
        failed=$((failed + 1))
        echo "peers: $name failed" >&2
    fi
}

# A script of a mistake: with the mistake cccheck says what is expected, and without it that all is lawful.
is_found() {
    local script=bench/peers/mistakes/$1.txt said
    said=$("$work/trial" < "$script" | "$CCCHECK" "$script" -)
    if [ "$said" != lawful ]; then
        echo "without a mistake: $said" >&2
        return 1
    fi
    said=$("$work/trial" "$1" < "$script" | "$CCCHECK" "$script" -)
    if [ "$said" != "$2" ]; then
        echo "expected: $2" >&2
        echo "said:     $said" >&2
        return 1
    fi
}

python=
if command -v python3 >/dev/null 2>&1; then
    python=python3
else
    echo "peers: there is no python3, so no scripts were made"
fi
if command -v "$cc" >/dev/null 2>&1; then
    pass "building trial.c" "$cc" -std=c11 -Wall -Wextra -Werror -O2 bench/peers/trial.c -o "$work/trial"
    while IFS= read -r line; do
        pass "${line%%:*}" is_found "${line%%:*}" "${line#*: }"
    done < bench/peers/mistakes/expected.txt
    if [ -n "$python" ]; then
        pass "trial.c" "$python" bench/peers/judge.py --scripts "$scripts" "$work/trial"
    fi
else
    echo "peers: there is no $cc, so trial.c was not built"
fi
if [ -n "$python" ]; then
    pass "CPython" "$python" bench/peers/judge.py --scripts "$scripts" --words natives "$python" -I bench/peers/cpython.py
    pass "CPython with refusals" "$python" bench/peers/judge.py --scripts "$scripts" --words natives --refused 40 "$python" -I bench/peers/cpython.py
    if [ -x "$CCREPLAY" ]; then
        pass "changes" "$python" bench/peers/changes.py --count "$changes"
    else
        echo "peers: there is no ccreplay of this source, so no transcript was changed"
    fi
fi
echo "peers: $passed passed, $failed failed"
[ "$failed" -eq 0 ]
