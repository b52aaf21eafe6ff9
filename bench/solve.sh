#!/usr/bin/env bash
# The time of the built program px_bench on random formulas of three literals a clause, beside MiniSat's on the same formulas where it is installed.
# Run `rt ci` first: it leaves the program at crates/px_bench/out/px_bench.
. "$(dirname "$0")/program.sh" px_bench
for variables in 20 40 60; do
  "$program" dimacs "$variables" > "$folder/formula.cnf"
  python3 - "$program" "$variables" "$folder/formula.cnf" <<'PY'
import shutil, subprocess, sys, time

program, variables, formula = sys.argv[1:]
start = time.perf_counter()
told = subprocess.run([program, "solve", variables], stdout=subprocess.PIPE, check=True).stdout.decode().strip()
own = time.perf_counter() - start
line = f"{told}: {own * 1000:.1f} ms"
if shutil.which("minisat"):
    start = time.perf_counter()
    subprocess.run(["minisat", "-verb=0", formula], stdout=subprocess.DEVNULL)
    other = time.perf_counter() - start
    line += f", MiniSat {other * 1000:.1f} ms, ratio {own / other:.1f}"
print(line)
PY
done
