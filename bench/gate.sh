#!/usr/bin/env bash
# Prints the processor minutes that the gate takes, for each crate: its proofs, its tests and its must-fail edits.
#
# It runs `rt ci` and looks at its processes once a second: what a process has used is counted by the crate that it builds. What it uses behind the
# last look at it is not seen, so each figure is at least that, by about a second for each process. What an earlier run kept is not done again: on a machine
# that has proved nothing yet, or with `--anew`, these are the figures from nothing. Names of crates are handed on to `rt ci`, which then does these and those below them.
cd "$(dirname "$0")/.." || exit 1
exec python3 - "$@" <<'PY'
import os
import subprocess
import sys
import time

TICKS = os.sysconf("SC_CLK_TCK")
KINDS = ("proofs", "tests", "edits")


def read(path):
    try:
        with open(path, "rb") as file:
            return file.read()
    except OSError:
        return b""


def session_of(pid):
    stat = read(f"/proc/{pid}/stat")
    return int(stat.rpartition(b")")[2].split()[3]) if stat else None


def work_of(pid):
    """The crate that a process builds and what for, or None."""
    words = read(f"/proc/{pid}/cmdline").decode(errors="replace").split("\0")
    if "--crate-name" not in words:
        return None
    crate = words[words.index("--crate-name") + 1]
    try:
        here = os.readlink(f"/proc/{pid}/cwd")
    except OSError:
        return None
    if "/rt-edit-" in here:
        return crate, "edits"
    return crate, "tests" if "--test" in words else "proofs"


def used(pid):
    stat = read(f"/proc/{pid}/stat")
    if not stat:
        return 0
    fields = stat.rpartition(b")")[2].split()
    return (int(fields[11]) + int(fields[12])) / TICKS


def look(session, seen):
    for pid in filter(str.isdigit, os.listdir("/proc")):
        if session_of(pid) == session:
            work = work_of(pid)
            if work:
                seen[pid] = (work, used(pid))


def table(seen):
    sums = {}
    for (crate, kind), seconds in seen.values():
        sums.setdefault(crate, dict.fromkeys(KINDS, 0))[kind] += seconds / 60
    total = dict.fromkeys(KINDS, 0)
    print(f"{'crate':24}" + "".join(f"{kind:>8}" for kind in KINDS) + f"{'all':>8}")
    for crate, row in sorted(sums.items(), key=lambda item: -sum(item[1].values())):
        print(f"{crate:24}" + "".join(f"{row[kind]:8.1f}" for kind in KINDS) + f"{sum(row.values()):8.1f}")
        for kind in KINDS:
            total[kind] += row[kind]
    print(f"{'all':24}" + "".join(f"{total[kind]:8.1f}" for kind in KINDS) + f"{sum(total.values()):8.1f}")


def main():
    gate = subprocess.Popen(["rt", "ci"] + sys.argv[1:], start_new_session=True, stdin=subprocess.DEVNULL)
    seen = {}
    begun = time.time()
    while gate.poll() is None:
        look(gate.pid, seen)
        time.sleep(1)
    print(f"minutes by the clock: {(time.time() - begun) / 60:.1f}; processor minutes:")
    table(seen)
    return gate.returncode


sys.exit(main())
PY
