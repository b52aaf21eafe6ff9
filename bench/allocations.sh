#!/usr/bin/env bash
# Refuses each allocation of a run in turn: the program writes its whole text with its own status, or nothing with status 8.
# Run `rt ci` first: it leaves the program at crates/pex/out/pex. It needs a C compiler, `cc`.
. "$(dirname "$0")/program.sh" pex
cat > refuse.c <<'C'
#include <stdio.h>
#include <stdlib.h>

extern void *__libc_malloc(size_t), *__libc_realloc(void *, size_t);

// Counts the calls, and refuses the one that REFUSE names.
static long calls, refused = -1;

static int refuses(void) {
    if (refused < 0) {
        const char *text = getenv("REFUSE");
        refused = text ? atol(text) : 0;
    }
    return ++calls == refused;
}

void *malloc(size_t size) { return refuses() ? NULL : __libc_malloc(size); }

void *realloc(void *old, size_t size) { return refuses() ? NULL : __libc_realloc(old, size); }

__attribute__((destructor)) static void tell(void) {
    const char *path = getenv("CALLS");
    FILE *file = path ? fopen(path, "w") : NULL;
    if (file) {
        fprintf(file, "%ld\n", calls);
        fclose(file);
    }
}
C
cc -shared -fPIC -O1 -o refuse.so refuse.c
# ldarg.0, ldc.i4.7, beq.s, ldc.i4.0, ret, ldc.i4.1, ret
printf '\x22\x02\x1D\x2E\x02\x16\x2A\x17\x2A' > equal.bin

# The program's status, with its output in the file `written`.
run() {
  local status=0
  LD_PRELOAD="$PWD/refuse.so" "$program" "$@" > written || status=$?
  echo "$status"
}

refuse_each() {
  local status calls whole=0 none=0
  status=$(CALLS="$PWD/calls" run "$@")
  calls=$(cat calls)
  cp written text
  for call in $(seq 1 "$calls"); do
    local answer
    answer=$(REFUSE="$call" run "$@")
    if [ "$answer" = "$status" ] && cmp -s written text; then
      whole=$((whole + 1))
    elif [ "$answer" = 8 ] && [ ! -s written ]; then
      none=$((none + 1))
    else
      echo "$*: allocation $call refused: status $answer, $(stat -c %s written) bytes" >&2
      exit 1
    fi
  done
  echo "$*: $calls allocations, each refused in turn: $none times nothing and status 8, $whole times the whole text"
}

refuse_each explore-raw equal.bin int32 --domain '(0..9)'
refuse_each explore-raw equal.bin int32 --domain '(5..4)'
refuse_each explore-raw missing.bin int32 --domain '(0..9)'
refuse_each explore equal.bin 'Demo.T::F' --domain '(0..9)'
