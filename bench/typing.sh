#!/usr/bin/env bash
# The processor's time and the peak memory of the built program on methods that are meant to be slow to verify (typing.py): all of a run, loading too. A shape that
# takes more than its limits, with 16 MiB for the program itself, is told as too much.
# Usage: typing.sh [SHAPE..]; COUNT says how many of what a shape has many of. Run `rt ci` first: it leaves the program at crates/pex/out/pex.
here=$(cd "$(dirname "$0")" && pwd)
. "$here/program.sh" pex
python3 "$here/typing.py" --list | while read -r shape seconds memory; do
  if [ $# -gt 0 ] && [[ " $* " != *" $shape "* ]]; then
    continue
  fi
  python3 "$here/typing.py" "$shape" made ${COUNT:-}
  python3 - "$program" "$shape" "$seconds" "$memory" <<'PY'
import os, resource, subprocess, sys

program, shape, seconds, memory = sys.argv[1:]
size = os.path.getsize("made")


def limit():
    resource.setrlimit(resource.RLIMIT_AS, (8 << 30, 8 << 30))
    resource.setrlimit(resource.RLIMIT_CPU, (60, 60))


what = ["explore-raw", "made", "-", "--domain", "-"] if shape.startswith("raw_") else ["explore", "made", "Demo.T::F", "--domain", "(0..9)"]
done = subprocess.run([program] + what, stdout=subprocess.PIPE, preexec_fn=limit)
used = resource.getrusage(resource.RUSAGE_CHILDREN)
taken, peak = used.ru_utime + used.ru_stime, used.ru_maxrss * 1024
if done.returncode < 0:
    answer = f"stopped by the signal {-done.returncode}, as after 60 s"
else:
    answer = done.stdout.decode(errors="replace").strip().split("\n")[-1][:60] + f", status {done.returncode}"
much = " TOO MUCH" if taken > float(seconds) or peak > 2**24 + float(memory) * size or done.returncode < 0 else ""
print(f"{shape:20} {size / 2**20:6.2f} MiB: {taken:7.2f} s, {peak / 2**20:7.1f} MiB ({peak / size:.0f} times the file), {answer}{much}", flush=True)
PY
done
