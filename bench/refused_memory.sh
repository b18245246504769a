#!/bin/bash
# Refuses a program its first request for memory, then in a further run the second, and so on up to the last request that a run makes. Each
# run must end with status 6 and write nothing, or write what a run with all its memory writes and have its status. It prints how many
# runs did either, and a line for each that did neither. It needs a C compiler (cc) and a dynamic C library.
# Usage: bench/refused_memory.sh PROGRAM [WORD ..] < INPUT     such as: bench/refused_memory.sh crates/ehci/out/ehci run < examples/first-transfer.ehci
set -e
folder=$(mktemp -d)
trap 'rm -rf "$folder"' EXIT
cat >"$folder/input"
cat >"$folder/refuse.c" <<'END'
#define _GNU_SOURCE
#include <dlfcn.h>
#include <errno.h>
#include <fcntl.h>
#include <stdlib.h>
#include <unistd.h>

static long calls;

static int is_refused(void) {
    const char *number = getenv("REFUSED_REQUEST");
    if (!number || ++calls != atol(number)) return 0;
    close(open(getenv("REFUSED_MARK"), O_CREAT | O_WRONLY, 0600));
    errno = ENOMEM;
    return 1;
}

void *malloc(size_t size) {
    static void *(*next)(size_t);
    if (!next) next = dlsym(RTLD_NEXT, "malloc");
    return is_refused() ? NULL : next(size);
}

void *realloc(void *block, size_t size) {
    static void *(*next)(void *, size_t);
    if (!next) next = dlsym(RTLD_NEXT, "realloc");
    return is_refused() ? NULL : next(block, size);
}
END
cc -O2 -shared -fPIC -o "$folder/refuse.so" "$folder/refuse.c" -ldl
whole=0
"$@" <"$folder/input" >"$folder/whole" 2>/dev/null || whole=$?
refused=0
unharmed=0
wrong=0
for ((request = 1; ; request++)); do
    rm -f "$folder/mark"
    status=0
    LD_PRELOAD="$folder/refuse.so" REFUSED_REQUEST=$request REFUSED_MARK="$folder/mark" "$@" \
        <"$folder/input" >"$folder/written" 2>/dev/null || status=$?
    [ -e "$folder/mark" ] || break
    if [ "$status" = 6 ] && [ ! -s "$folder/written" ]; then
        refused=$((refused + 1))
    elif [ "$status" = "$whole" ] && cmp -s "$folder/whole" "$folder/written"; then
        unharmed=$((unharmed + 1))
    else
        wrong=$((wrong + 1))
        echo "request $request: status $status, $(stat -c %s "$folder/written") bytes"
    fi
done
echo "$((request - 1)) requests refused in turn: $refused ended with status 6 and wrote nothing, $unharmed wrote all, $wrong neither"
[ "$wrong" = 0 ]
