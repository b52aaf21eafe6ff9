#!/usr/bin/env bash
# The time of the built program px_bench on a refutation of 100,000 and 1,000,000 steps of resolution over clauses of ten literals: the formula is made
# and the chain is checked. Run `rt ci` first: it leaves the program at crates/px_bench/out/px_bench.
. "$(dirname "$0")/program.sh" px_bench
for steps in 100000 1000000; do
  python3 - "$program" "$steps" <<'PY'
import resource, subprocess, sys, time

program, steps = sys.argv[1:]
times = []
for _ in range(10):
    start = time.perf_counter()
    subprocess.run([program, "chain", steps], stdout=subprocess.DEVNULL, check=True)
    times.append(time.perf_counter() - start)
peak = resource.getrusage(resource.RUSAGE_CHILDREN).ru_maxrss
print(f"{steps} steps: {min(times) * 1000:.1f} ms, peak {peak / 1024:.1f} MiB")
PY
done
