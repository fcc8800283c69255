#!/usr/bin/env python3
"""Certificates of many questions, checked whole and with one line dropped.

    bench/certificates.py FOLDER ASKER [LIMIT]

ASKER is a program that writes the certificate of a question: `ASKER ask QUESTION --limit LIMIT` (4,096 by default).
For each FOLDER/*.toml its certificate must be accepted, in its kind; the same with one line left out, at a place that
follows from the question's name, must be accepted, refused or malformed, and nothing else. For each question: the
bytes of the certificate, the seconds of ASKER and of the check, their ratio, and the peak memory of the check for a
byte. The last line has the mean and the worst ratio; the status is 1 where an answer was another.
"""

import math
import os
import subprocess
import sys
import tempfile
import zlib
from pathlib import Path

DESK = Path(__file__).resolve().parent.parent / "crates/desk/out/desk"
KINDS = {10: "reachable", 20: "unreachable", 30: "undecided"}


def run(words, folder):
    """Status, processor seconds, peak KiB and output."""
    with tempfile.TemporaryFile() as out:
        child = subprocess.Popen(words, stdout=out, cwd=folder)
        _, status, usage = os.wait4(child.pid, 0)
        out.seek(0)
        return os.waitstatus_to_exitcode(status), usage.ru_utime + usage.ru_stime, usage.ru_maxrss, out.read()


def without_a_line(text, name):
    lines = text.split(b"\n")
    at = zlib.crc32(name.encode()) % (len(lines) - 1)
    return b"\n".join(lines[:at] + lines[at + 1 :])


def main():
    if len(sys.argv) < 3:
        sys.exit(__doc__)
    asker, limit = os.path.abspath(sys.argv[2]), sys.argv[3] if len(sys.argv) > 3 else "4096"
    wrong, ratios = 0, []
    for path in sorted(Path(sys.argv[1]).resolve().glob("*.toml")):
        with tempfile.TemporaryDirectory() as folder:
            Path(folder, "q").symlink_to(path)
            status, asked, _, text = run([asker, "ask", "q", "--limit", limit], folder)
            Path(folder, "c").write_bytes(text)
            Path(folder, "d").write_bytes(without_a_line(text, path.stem))
            told, checked, peak, line = run([DESK, "check", "q", "c"], folder)
            other = run([DESK, "check", "q", "d"], folder)
        right = told == 0 and line.decode() == f"accepted {KINDS.get(status)}\n" and other[0] in (0, 3, 21)
        wrong += not right
        if asked >= 0.05:
            ratios.append(checked / asked)
        print(
            f"{path.stem:20} {KINDS.get(status, status):11} {len(text):10} bytes, asked {asked:7.3f} s, checked {checked:7.3f} s,"
            f" x {checked / max(asked, 0.001):7.2f}, {peak * 1024 / len(text):6.1f} bytes a byte, without a line"
            f" {other[3].decode().strip()[:60]}{'' if right else '  WRONG: ' + line.decode().strip()}",
            flush=True,
        )
    if ratios:
        mean = math.exp(sum(map(math.log, ratios)) / len(ratios))
        print(f"{len(ratios)} asked in 0.05 s or more: ratio {mean:.2f} in the geometric mean, {max(ratios):.2f} at worst; {wrong} wrong")
    sys.exit(wrong > 0)


main()
