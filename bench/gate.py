"""What the gate costs, crate by crate: `python3 -B bench/gate.py` runs `rt ci --anew` at the top of the repository, and
prints a table in Markdown of the processor minutes of each crate: of its proof, of its tests' proof, and of its
must-fail edits and the check that they begin with. With a number it watches the `rt ci` that runs as that process.

Each second it reads how much time the processes have taken that `rt ci` has started; what one took in its last second
is lost.
"""

import os
import subprocess
import sys
import time

TOP = os.path.dirname(os.path.dirname(os.path.abspath(__file__)))
TICKS = os.sysconf("SC_CLK_TCK")
KINDS = ("proof", "tests", "base", "edits", "compiling")


def stat_of(process):
    """The parent of a process, when it was started, and the seconds that it has taken with its ended children."""
    with open(f"/proc/{process}/stat") as file:
        fields = file.read().rpartition(")")[2].split()
    return int(fields[1]), fields[19], sum(map(int, fields[11:15])) / TICKS


def what_of(process):
    """The crate that a process checks or builds, and what of it, or None."""
    with open(f"/proc/{process}/cmdline") as file:
        words = file.read().split("\0")
    if "--crate-name" not in words:
        return None
    crate, at = words[words.index("--crate-name") + 1], os.readlink(f"/proc/{process}/cwd")
    if "/rt-edit-" in at:
        kept = words[words.index("--incremental") + 1] if "--incremental" in words else ""
        return crate, "base" if kept.endswith("/seed") else "edits"
    if "--test" in words:
        return crate, "tests"
    return crate, "proof" if words[1] == "check" or "--statements" in words else "compiling"


def watch(root, taken):
    """Notes what each process that was started by this one has taken so far."""
    for name in os.listdir("/proc"):
        try:
            parent, start, seconds = stat_of(name) if name.isdigit() else (None, None, None)
            if parent == root:
                of = taken.get((name, start), (None, 0))[0] or what_of(name)
                taken[name, start] = of, seconds
        except OSError:
            pass


def table(taken):
    """The lines of the table, the dearest crate first."""
    crates = {}
    for of, seconds in taken.values():
        if of:
            row = crates.setdefault(of[0], dict.fromkeys(KINDS, 0))
            row[of[1]] += seconds / 60
    yield "| crate | " + " | ".join(KINDS) + " | all |"
    yield "|---|" + "--:|" * (len(KINDS) + 1)
    for crate, row in sorted(crates.items(), key=lambda it: -sum(it[1].values())):
        yield f"| `{crate}` | " + " | ".join(f"{row[it]:.1f}" for it in KINDS) + f" | {sum(row.values()):.1f} |"
    of_all = [sum(row[it] for row in crates.values()) for it in KINDS]
    yield "| all | " + " | ".join(f"{it:.1f}" for it in of_all) + f" | {sum(of_all):.1f} |"


def main():
    taken, own = {}, None
    if sys.argv[1:]:
        root = int(sys.argv[1])
    else:
        own = subprocess.Popen(["rt", "ci", "--anew"], cwd=TOP, stdin=subprocess.DEVNULL, stdout=sys.stderr)
        root = own.pid
    while os.path.exists(f"/proc/{root}") and not (own and own.poll() is not None):
        watch(root, taken)
        time.sleep(1)
    print("\n".join(table(taken)))
    return own.returncode if own else 0


if __name__ == "__main__":
    sys.exit(main())
