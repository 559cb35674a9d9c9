#!/bin/sh
# Runs the merge gate and prints the processor minutes that it took, by crate and kind: the crate's own proof, the proof of
# its tests, the proof that its must-fail edits begin from, and the edits. What an earlier run kept costs nothing, so
# `bench/ci_minutes.sh --anew` measures a gate from nothing; other words go to `rt ci` as they are.
#
# Once a minute the table so far is written to the file that it names at the start (CI_MINUTES, or one in the folder for temporary
# files), so that a run which is broken off tells too.
#
# Each check is a process of its own. Once a tenth of a second this script reads what each has used so far, so that the
# last tenth of each is missing from the sums.
command -v rt >/dev/null 2>&1 || { echo "ci_minutes: the kit's command rt isn't on the PATH" >&2; exit 0; }
command -v python3 >/dev/null 2>&1 || { echo "ci_minutes: python3 isn't installed" >&2; exit 0; }
cd "$(dirname "$0")/.." || exit 1
exec python3 - "$@" <<'PYTHON'
import collections
import os
import subprocess
import sys
import tempfile
import time

KINDS = ("own", "tests", "seed", "edits")
TICK = os.sysconf("SC_CLK_TCK")


def kind_of(words, folder):
    """What a check is for: by its words, and by the folder that it runs in (an edit is tried on a copy)."""
    if "/rt-edit-" in folder:
        over = words[words.index("--incremental") + 1] if "--incremental" in words else ""
        return "seed" if over.endswith("/seed") else "edits"
    return "tests" if "--test" in words else "own"


def check_of(pid):
    """The crate and the kind of a process that is a check, or None."""
    with open(f"/proc/{pid}/cmdline", "rb") as it:
        words = it.read().decode(errors="replace").split("\0")
    if not words[0].endswith("/rattle") or words[1] not in ("check", "build") or "--crate-name" not in words:
        return None
    return words[words.index("--crate-name") + 1], kind_of(words, os.readlink(f"/proc/{pid}/cwd"))


def processes():
    """Each process with when it began, its parent's number, and the seconds that it and those that it waited for have used."""
    found = {}
    for pid in filter(str.isdigit, os.listdir("/proc")):
        try:
            with open(f"/proc/{pid}/stat") as it:
                fields = it.read().rpartition(")")[2].split()
            found[int(pid)] = fields[19], int(fields[1]), sum(int(field) for field in fields[11:15]) / TICK
        except OSError:
            # (it has ended)
            pass
    return found


def note_checks(top):
    """Notes what each check below a process has used so far. What a check starts itself is counted with it."""
    found = processes()
    children = collections.defaultdict(list)
    for pid, (_, parent, _) in found.items():
        children[parent].append(pid)
    left = [top]
    while left:
        for pid in children[left.pop()]:
            began, _, seconds = found[pid]
            try:
                # (what isn't a check may still become one)
                if not known.get((pid, began)):
                    known[pid, began] = check_of(pid)
            except (OSError, ValueError, IndexError):
                continue
            if known[pid, began]:
                spent[pid, began] = seconds
            else:
                left.append(pid)


def table():
    """What was used so far, by crate and kind."""
    sums = collections.Counter()
    for process, seconds in spent.items():
        sums[known[process]] += seconds
    crates = sorted({name for name, _ in sums}, key=lambda name: -sum(sums[name, kind] for kind in KINDS))
    lines = [f"processor minutes of {(time.time() - started) / 60:.1f} minutes"]
    lines.append("crate".ljust(16) + "".join(kind.rjust(8) for kind in (*KINDS, "all")))
    for name in [*crates, "all"]:
        row = [sum(sums[it, kind] for it in ([name] if name != "all" else crates)) / 60 for kind in KINDS]
        lines.append(name.ljust(16) + "".join(f"{it:8.1f}" for it in (*row, sum(row))))
    return "\n".join(lines)


known, spent = {}, {}
place = os.environ.get("CI_MINUTES") or os.path.join(tempfile.gettempdir(), "ci_minutes.txt")
print(f"ci_minutes: the table so far is in {place}", file=sys.stderr)
started = written = time.time()
gate = subprocess.Popen(["rt", "ci", *sys.argv[1:]])
while gate.poll() is None:
    note_checks(gate.pid)
    if time.time() - written >= 60:
        written = time.time()
        with open(place, "w") as it:
            it.write(table() + "\n")
    time.sleep(0.1)

print("\n" + table())
sys.exit(gate.returncode)
PYTHON
