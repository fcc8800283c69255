#!/usr/bin/env python3
"""How fast certificate texts are read and written.

    bench/cert_speed.py [MEBIBYTES]

A text of so many MiB (256 by default) of each kind: a plan, requirements, recorded steps. The program of
bench/cert_speed.main fetches it, reads it, and reads and writes it; what each step adds is told in MiB for a processor
second, the best of three. The program is proved and built by `rt ci` in a copy of the crates that it stands on, which
takes over what it has kept. The status is 1 where a text wasn't read, or a speed is below 60.
"""

import os
import random
import shutil
import subprocess
import sys
import tempfile
from pathlib import Path

ROOT = Path(__file__).resolve().parent.parent
ROLES = [f"r{k}" for k in range(40)]
BAR = 60
STEPS = 65536


def built(folder):
    """The program, proved and built in a copy of the crates that it stands on."""
    lines = (ROOT / "crates.txt").read_text().splitlines()
    below = {line.split(":")[0]: line.split(":")[1].split() for line in lines if ":" in line}
    needed = {"cert_text", "desk_ports", *below["cert_text"], *below["desk_ports"]}
    copy = folder / "copy"
    for name in needed & below.keys():
        shutil.copytree(ROOT / "crates" / name, copy / "crates" / name, ignore=shutil.ignore_patterns("out"))
    source = copy / "crates/cert_speed/src"
    source.mkdir(parents=True)
    shutil.copy(ROOT / "bench/cert_speed.main", source / "main.rt")
    shutil.copy(ROOT / "HANDLES", copy)
    kept = [line for line in lines if line.split(":")[0] in needed]
    (copy / "crates.txt").write_text("\n".join([*kept, f"cert_speed: {' '.join(sorted(needed))}", ""]))
    subprocess.run(["rt", "ci"], cwd=copy, check=True, stdout=sys.stderr)
    return copy / "crates/cert_speed/out/cert_speed"


def some(rng, count):
    return ",".join(rng.sample(ROLES, count))


def user_line(rng):
    hits = "".join(f" hit {some(rng, rng.randint(1, 4))}" for _ in range(rng.randint(0, 3)))
    return f"user{hits} lack {some(rng, rng.randint(1, 3))}\n"


def need(rng, line, users):
    return line + "".join(user_line(rng) for _ in range(users))


def body(kind, rng, size):
    """Lines of the kind, so many bytes at least, from a block that is repeated."""
    if kind == "plan":
        lines = [f"act {rng.choice(['assign', 'weak', 'strong'])} {rng.randrange(9000)} {rng.randrange(9000)} {rng.choice(ROLES)}\n" for _ in range(20000)]
        block = "".join(lines)
        return "".join(f"start {rng.randrange(900)}\n" for _ in range(20000)) + block * (size // len(block))
    if kind == "requirements":
        block = "".join(need(rng, "need\n", rng.randint(1, 3)) for _ in range(5000))
        return block * (size // len(block))
    rounds = STEPS // 256
    for users in range(size // STEPS // 20, 0, -1):
        block = "".join(need(rng, f"need pre {k} assign 3 1 {rng.choice(ROLES)} 0 new\n", users) for k in range(256))
        if len(block) * rounds <= size:
            break
    return block * rounds + need(rng, "next goal 0\n", 1)


HEADS = {"plan": "reachable\n", "requirements": "unreachable\n", "steps": f"undecided {STEPS}\n"}


def run(words):
    """Processor seconds."""
    child = subprocess.Popen(words)
    _, status, usage = os.wait4(child.pid, 0)
    if status:
        sys.exit(f"{' '.join(map(str, words))}: status {status}")
    return usage.ru_utime + usage.ru_stime


def main():
    size = int(sys.argv[1] if len(sys.argv) > 1 else 256) << 20
    slow = False
    with tempfile.TemporaryDirectory() as name:
        folder = Path(name)
        program = built(folder)
        for kind, head in HEADS.items():
            path = folder / "text"
            text = f"arbac certificate 1\n{head}{body(kind, random.Random(7), size - (1 << 16))}end\n"
            path.write_text(text)
            length = len(text)
            del text
            if length > 256 << 20:
                sys.exit(f"{kind}: a text of {length} bytes is too long")
            best = {task: min(run([program, path, task]) for _ in range(3)) for task in ("fetch", "read", "write")}
            read = length / (1 << 20) / (best["read"] - best["fetch"])
            write = length / (1 << 20) / (best["write"] - best["read"])
            slow |= min(read, write) < BAR
            print(f"{kind:13} {length:11} bytes: read {read:6.0f} MiB a second, written {write:6.0f}", flush=True)
    sys.exit(1 if slow else 0)


if __name__ == "__main__":
    main()
