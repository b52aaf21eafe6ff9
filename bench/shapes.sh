#!/usr/bin/env bash
# The processor's time and the peak memory of the built program on assemblies that are meant to be slow to load (shapes.py), by their sizes. A shape that takes more than
# 10 s or 640 MiB at 16 MiB is told as too much; 100 bytes an instruction are allowed for one long body of one-byte instructions.
# Usage: shapes.sh [SHAPE..]; SIZES says which sizes in MiB ("1 2 4 8 16"). Run `rt ci` first: it leaves the program at crates/pex/out/pex.
here=$(cd "$(dirname "$0")" && pwd)
. "$here/program.sh" pex
shapes=${*:-$(python3 "$here/shapes.py" --list)}
for shape in $shapes; do
  for size in ${SIZES:-1 2 4 8 16}; do
    python3 "$here/shapes.py" "$shape" "$size" made.dll
    python3 - "$program" "$shape" "$size" <<'PY'
import os, resource, subprocess, sys

program, shape, size = sys.argv[1:]
mib = os.path.getsize("made.dll") / 2**20
memory = max(640, float(size) * 100 if shape == "one_body" else 0)


def limit():
    resource.setrlimit(resource.RLIMIT_AS, (8 << 30, 8 << 30))
    resource.setrlimit(resource.RLIMIT_CPU, (60, 60))


done = subprocess.run([program, "explore", "made.dll", "Demo.T::F", "--domain", "(0..9)"], stdout=subprocess.PIPE, preexec_fn=limit)
used = resource.getrusage(resource.RUSAGE_CHILDREN)
taken, peak = used.ru_utime + used.ru_stime, used.ru_maxrss / 1024
if done.returncode < 0:
    answer = "stopped after 60 s"
else:
    answer = done.stdout.decode(errors="replace").strip().split("\n")[-1][:60] + f", status {done.returncode}"
much = " TOO MUCH" if taken > 10 or peak > memory or done.returncode < 0 else ""
print(f"{shape:20} {mib:6.2f} MiB: {taken:7.2f} s, {peak:7.1f} MiB, {answer}{much}", flush=True)
PY
  done
done
