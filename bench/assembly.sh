#!/usr/bin/env bash
# The time and the peak memory of the built program on a made assembly of about 4 MB with 60,000 methods in 6,000 types, of which one is explored, and of one
# whose METHOD isn't there. Run `rt ci` first: it leaves the program at crates/pex/out/pex.
. "$(dirname "$0")/program.sh" pex
python3 - > /dev/null <<'PY'
import struct

TYPES, METHODS = 6000, 60000
BODY = bytes.fromhex("22021D2E02162A172A")
SECTION, ADDRESS = 0x200, 0x2000

strings = bytearray(b"\0Demo\0")
places = {b"": 0, b"Demo": 1}

def string(text):
    if text not in places:
        places[text] = len(strings)
        strings.extend(text + b"\0")
    return places[text]

blob = b"\0" + bytes([4, 0, 1, 8, 8])
cli = 72
body = cli
bodies = BODY.ljust(12, b"\0")
metadata_at = cli + len(bodies)
module = struct.pack("<HIHHH", 0, string(b"M"), 0, 0, 0)
types = [struct.pack("<IIIHHH", 0, string(b"T%d" % t), 1, 0, 1, 1 + t * (METHODS // TYPES)) for t in range(TYPES)]
methods = [struct.pack("<IHHIHH", ADDRESS + body, 0, 0x16, string(b"Method%d" % m), 1, 1) for m in range(METHODS)]
tables = struct.pack("<IBBBBQQIII", 0, 2, 0, 1, 1, 1 | 1 << 2 | 1 << 6, 0, 1, TYPES, METHODS) + module + b"".join(types) + b"".join(methods)
streams = [(b"#~", tables), (b"#Strings", bytes(strings)), (b"#Blob", blob)]
version = b"v4.0.30319\0\0"
names = [name + b"\0" * (4 - len(name) % 4) for name, _ in streams]
offset = 20 + len(version) + sum(8 + len(name) for name in names)
heads, parts = b"", b""
for name, (_, part) in zip(names, streams):
    part += b"\0" * (-len(part) % 4)
    heads += struct.pack("<II", offset + len(parts), len(part)) + name
    parts += part
metadata = struct.pack("<IHHII", 0x424A5342, 1, 1, 0, len(version)) + version + struct.pack("<HH", 0, len(streams)) + heads + parts
data = struct.pack("<IHHII", 72, 2, 5, ADDRESS + metadata_at, len(metadata)).ljust(cli, b"\0") + bodies + metadata
data += b"\0" * (4 * 1024 * 1024 - len(data))
header = bytearray(SECTION)
header[0:2] = b"MZ"
struct.pack_into("<I", header, 0x3C, 0x80)
header[0x80:0x84] = b"PE\0\0"
struct.pack_into("<HHIIIHH", header, 0x84, 0x14C, 1, 0, 0, 0, 224, 0x2102)
struct.pack_into("<H", header, 0x98, 0x10B)
struct.pack_into("<I", header, 0x98 + 92, 16)
struct.pack_into("<II", header, 0x98 + 208, ADDRESS, 72)
struct.pack_into("<8sIIII", header, 0x98 + 224, b".text", len(data), ADDRESS, len(data), SECTION)
open("made.dll", "wb").write(bytes(header) + data)
PY
for method in Demo.T3000::Method30001 Demo.T3000::Method1; do
  python3 - "$program" "$method" <<'PY'
import os, resource, subprocess, sys, time

program, method = sys.argv[1:]
words = [program, "explore", "made.dll", method, "--domain", "(0..9)"]
times = []
for _ in range(20):
    start = time.perf_counter()
    done = subprocess.run(words, stdout=subprocess.PIPE)
    times.append(time.perf_counter() - start)
peak = resource.getrusage(resource.RUSAGE_CHILDREN).ru_maxrss
last = done.stdout.decode().strip().split("\n")[-1]
size = os.path.getsize("made.dll") / 2**20
print(f"{size:.1f} MiB, {method}: {min(times) * 1000:.1f} ms, peak {peak / 1024:.1f} MiB, status {done.returncode}, {last}")
PY
done
