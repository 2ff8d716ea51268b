#!/usr/bin/env bash
# Runs the built program on a script with the N-th allocation refused, for N from 1 on, until a run meets no refusal or
# N is MOST. Each transcript goes to a file N of an empty or new folder, for a reader or a checker, with N.said (standard
# error) and N.status beside it; 0 is the run with ample memory. Not part of the gate.
#   tools/refused_memory.sh SCRIPT FOLDER [MOST]
# Build the program first, for example with (cd crates/ccreplay && rt run -- replay < /dev/null). CCREPLAY names another.
#
# `rt try --fail-alloc N` refuses an allocation too, but compiles the program anew for each. Here a small library, which
# cc makes and the loader takes before the C library, has malloc and realloc say no once.
set -u
if [ $# -lt 2 ] || [ ! -r "$1" ]; then
    echo "usage: tools/refused_memory.sh SCRIPT FOLDER [MOST]" >&2
    exit 2
fi
script=$1
folder=$2
most=${3:-1000}
program=${CCREPLAY:-$(dirname "$0")/../crates/ccreplay/out/ccreplay}
if [ ! -x "$program" ]; then
    echo "there is no program $program: build it, or name one in CCREPLAY" >&2
    exit 2
fi
mkdir -p "$folder" || exit 2
if [ -n "$(ls -A "$folder")" ]; then
    echo "$folder is not empty" >&2
    exit 2
fi
work=$(mktemp -d) || exit 2
trap 'rm -rf "$work"' EXIT

# The call that REFUSED numbers, from 1, is refused, and makes the file REFUSED_MARK.
cat > "$work/refuse.c" <<'C'
#define _GNU_SOURCE
#include <dlfcn.h>
#include <errno.h>
#include <fcntl.h>
#include <stdlib.h>
#include <unistd.h>

static int is_refused(void)
{
    static unsigned long calls;
    const char *number = getenv("REFUSED");
    if (!number || ++calls != strtoul(number, 0, 10))
        return 0;
    close(open(getenv("REFUSED_MARK"), O_CREAT | O_WRONLY, 0600));
    errno = ENOMEM;
    return 1;
}

void *malloc(size_t size)
{
    void *(*next)(size_t) = (void *(*)(size_t))dlsym(RTLD_NEXT, "malloc");
    return is_refused() ? 0 : next(size);
}

void *realloc(void *old, size_t size)
{
    void *(*next)(void *, size_t) = (void *(*)(void *, size_t))dlsym(RTLD_NEXT, "realloc");
    return is_refused() ? 0 : next(old, size);
}
C
cc -O1 -shared -fPIC -o "$work/refuse.so" "$work/refuse.c" -ldl || exit 2

# One run with the allocation of that number refused; with 0, none is.
run() {
    LD_PRELOAD="$work/refuse.so" REFUSED=$1 REFUSED_MARK="$work/mark" \
        "$program" replay < "$script" > "$folder/$1" 2> "$folder/$1.said"
    echo $? > "$folder/$1.status"
}

run 0
for ((n = 1; n <= most; n++)); do
    run "$n"
    if [ ! -e "$work/mark" ]; then
        if ! cmp "$folder/$n" "$folder/0"; then
            echo "run $n met no refusal, and its transcript is not that of run 0" >&2
            exit 1
        fi
        rm "$folder/$n" "$folder/$n.said" "$folder/$n.status"
        echo "$((n - 1)) allocations, each refused in a run of its own"
        exit 0
    fi
    rm "$work/mark"
done
echo "the first $most allocations, each refused in a run of its own; there may be more"
