#!/usr/bin/env bash
# The same cycles made, let go and collected by this library, by Nim's ORC and by PHP's collector: one table in Markdown, of
# nanoseconds for each object. What is not installed has no column. Not part of the gate.
#   bench/peers/run.sh [SIZE [LIVE]]
# Build the library first: (cd crates/cc_c && rt lib). CCOLLECT names another. RUNS is how often each program is run (3 if left
# out); the quickest time counts. Each program is timed in turn and by the processor's time, on a machine that does nothing else.
#
# A cell is `made / collected`: the time to make an object and let it go, and the time to collect it. With script, a native of
# this library holds a script object, which holds a reflector: three objects. In the other languages three objects are a ring.
set -u
here=$(cd "$(dirname "$0")" && pwd) || exit 1
root=$(cd "$here/../.." && pwd) || exit 1
library=${CCOLLECT:-$root/crates/cc_c/out/libcc_c.a}
runs=${RUNS:-3}
size=${1:-200000}
live=${2:-100000}
cc=${CC:-cc}
work=$(mktemp -d) || exit 1
trap 'rm -rf "$work"' EXIT
names=()
files=()

# Runs a program some times, and keeps the least of each figure. The first word names its column.
time_program() {
    local name=$1 file="$work/${#names[@]}.least"
    shift
    for ((run = 0; run < runs; run++)); do
        "$@" "$size" "$live" >> "$file.all" || { echo "$name failed, so it has no column" >&2; return; }
    done
    awk -F '\t' '
        !($1 in made) { order[++count] = $1; made[$1] = $2; collected[$1] = $3 }
        { if ($2 + 0 < made[$1] + 0) made[$1] = $2; if ($3 + 0 < collected[$1] + 0) collected[$1] = $3 }
        END { for (i = 1; i <= count; i++) print order[i] "\t" made[order[i]] " / " collected[order[i]] }
    ' "$file.all" > "$file"
    names+=("$name")
    files+=("$file")
}

if [ -r "$library" ] && command -v "$cc" >/dev/null 2>&1; then
    if "$cc" -std=c11 -Wall -Wextra -Werror -O2 -I"$root/include" "$here/cycles.c" "$root/include/ccollect_heap.c" "$library" \
        -o "$work/ours"; then
        time_program "this library, from C" "$work/ours"
    fi
else
    echo "there is no library $library, or no $cc" >&2
fi
if command -v nim >/dev/null 2>&1; then
    if nim c -d:release --mm:orc --hints:off --nimcache:"$work/nimcache" -o:"$work/nim" "$here/cycles.nim" >&2; then
        time_program "Nim $(nim --version | awk 'NR == 1 { print $4 }'), ORC" "$work/nim"
    fi
else
    echo "there is no nim" >&2
fi
if command -v php >/dev/null 2>&1; then
    # PHP frees a ring by calls within calls, so the greatest stack is asked for
    ulimit -S -s "$(ulimit -H -s)" 2>/dev/null
    time_program "PHP $(php -r 'echo PHP_VERSION;')" php -d memory_limit=-1 "$here/cycles.php"
else
    echo "there is no php" >&2
fi
if [ "${#names[@]}" -eq 0 ]; then
    echo "nothing was timed" >&2
    exit 1
fi

echo "Nanoseconds for each object, made and let go / collected; size $size, beside $live where others live."
echo
printf '| shape |'
printf ' %s |' "${names[@]}"
printf '\n|---|'
for name in "${names[@]}"; do printf -- '---:|'; done
printf '\n'
awk -F '\t' '
    { if (!($1 in row)) order[++count] = $1; row[$1] = row[$1] " " $2 " |" }
    END { for (i = 1; i <= count; i++) print "| " order[i] " |" row[order[i]] }
' "${files[@]}"
