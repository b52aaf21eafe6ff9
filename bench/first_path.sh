#!/usr/bin/env bash
# The time and the peak memory of the built program on domains of 10, 100 and 1,000 tuples.
# Run `rt ci` first: it leaves the program at crates/pex/out/pex.
. "$(dirname "$0")/program.sh" pex
# ldarg.0, ldc.i4.7, beq.s, ldc.i4.0, ret, ldc.i4.1, ret
printf '\x22\x02\x1D\x2E\x02\x16\x2A\x17\x2A' > equal.bin
for tuples in 10 100 1000; do
  python3 - "$program" equal.bin "$tuples" <<'PY'
import resource, subprocess, sys, time

program, body, tuples = sys.argv[1:]
words = [program, "explore-raw", body, "int32", "--domain", f"(0..{int(tuples) - 1})"]
times = []
for _ in range(20):
    start = time.perf_counter()
    subprocess.run(words, stdout=subprocess.DEVNULL, check=True)
    times.append(time.perf_counter() - start)
peak = resource.getrusage(resource.RUSAGE_CHILDREN).ru_maxrss
print(f"{tuples} tuples: {min(times) * 1000:.2f} ms, peak {peak / 1024:.1f} MiB")
PY
done
# ldarg.0, brtrue.s to the ldarg.0, ldc.i4.0, ret: 999 of 1,000 tuples meet the bound of 2,000 steps, with 1,000 branches each.
printf '\x16\x02\x2D\xFD\x16\x2A' > loop.bin
python3 - "$program" loop.bin <<'PY'
import subprocess, sys, time

program, body = sys.argv[1:]
words = [program, "explore-raw", body, "int32", "--domain", "(0..999)"]
start = time.perf_counter()
subprocess.run(words, stdout=subprocess.DEVNULL, check=True)
spent = time.perf_counter() - start
print(f"2,000 steps of 999 tuples: {spent * 1000:.0f} ms, {spent / (999 * 2000) * 1e9:.0f} ns a step")
PY
