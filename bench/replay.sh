#!/usr/bin/env bash
# Replays the largest run that the limits allow, and prints its seconds and its peak memory.
# 10,000 users, and as many acts as fit into 1,048,576 bytes: a user each is given the role `c`, in turn.
set -eu

root=$(cd "$(dirname "$0")/.." && pwd)
room=$(mktemp -d)
trap 'rm -rf "$room"' EXIT

awk 'BEGIN {
    head = "run 1\nrole adm\nrole c\nassign adm [c,c] adm\nrevoke adm [c,c]\n"
    tail = "goal c\nend\n"
    size = length(head) + length(tail)
    printf "%s", head
    for (user = 0; user < 10000; user++) { line = "user adm\n"; size += length(line); printf "%s", line }
    for (act = 0; ; act++) {
        line = "act assign 0 " (act % 10000) " c\n"
        if (size + length(line) > 1048576) break
        size += length(line)
        printf "%s", line
    }
    printf "%s", tail
}' >"$room/large.run"
echo "$(wc -c <"$room/large.run") bytes, $(grep -c '^user' "$room/large.run") users, $(grep -c '^act' "$room/large.run") acts"

cd "$room"
"$root/desk" replay /dev/null >/dev/null || true
python3 - "$root/desk" <<'PY'
import resource, subprocess, sys, time

begin = time.monotonic()
with open("out", "wb") as out:
    status = subprocess.run([sys.argv[1], "replay", "large.run"], stdout=out).returncode
seconds = time.monotonic() - begin
peak = resource.getrusage(resource.RUSAGE_CHILDREN).ru_maxrss
print(f"status {status}, {seconds:.3f} s, {peak / 1024:.1f} MiB at most")
PY
