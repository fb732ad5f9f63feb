"""`bin/puma`: what it hands on, and when it proves and builds.

That nothing is proved here takes a tree of its own, in which `rt` is a stand-in that writes down its calls.
"""

import os
import shutil
import subprocess
import sys
import time

from program import PUMA, TOP, run, write
from wanted import ABSENT, ANSWERED, USAGE

NOBODY = 65534
TOOLS = ["cat", "chmod", "cksum", "cmp", "cp", "dirname", "find", "mkdir", "mv", "readlink", "rm", "sed", "sh",
         "sha256sum", "sleep", "sort", "touch", "wc", "xargs"]
# Says what the real one says, and makes a program that prints its source, its words and its input.
STAND_IN = b"""#!/bin/sh
tree=${0%/*}/..
if [ "$1" = version ]; then echo kit of a stand-in; exit; fi
echo "$*" >> "$tree/calls"
{ find . -type f | sort; cat crates.txt HANDLES crates/low/src/lib.rt; } > "$tree/seen" 2> /dev/null
echo '== low'
echo 'statements std: modules loaded=1 checked=0'
echo 'fn low::half: proved'
echo 'rt: low is kept: an earlier run on this machine proved the same files over the same libraries'
echo 'rt: puma_cli: another run on this machine is proving the same; waiting for it'
echo '== puma_cli'
echo 'fn puma_cli::main: proved'
while [ -e "$tree/slow" ]; do sleep 0.05; done
if [ -e "$tree/changes" ]; then cat "$tree/changes" >> "$tree/crates/puma_cli/src/main.rt"; fi
if [ -e "$tree/broken" ]; then
    echo 'error: this is the first'; echo ' and this its second line' >&2
    echo 'rt: puma_cli NOT PROVED'; echo '1 passed, 1 failed'; exit 1
fi
echo 'logic=proved functions=17 sum=0'
echo 'rt: puma_cli proved'
mkdir -p crates/puma_cli/out
{ echo '#!/bin/sh'; echo "echo '$(cat crates/puma_cli/src/main.rt)' \\"\\$@\\""; echo cat; } > crates/puma_cli/out/puma_cli
echo '2 passed, 0 failed'
"""
BUILDS = (b"bin/puma: the program is proved and built first: 2 crates, from nothing about a minute of one processor, "
          b"on 2 processors about a minute, for low, puma_cli\n")
WAITS_FOR = b"bin/puma: puma_cli: another run on this machine is proving the same; waiting for it\n"
KEPT = b"bin/puma: low is kept, proved earlier on this machine; about a minute for puma_cli\n" + WAITS_FOR
PROVED = KEPT + b"bin/puma: puma_cli is proved, 17 functions; it is built and run\n"
# What the stand-in sees: the files, the crates, the handles, and the lower crate's source.
SEEN = b"""./crates.txt
./crates/low/src/lib.rt
./crates/puma_cli/specs/Words.antt
./crates/puma_cli/src/main.rt
low: itoa
puma_cli: low itoa
/// Half of it.
pub fn half() {
}
"""
WAITS = b"bin/puma: waits for another call, which builds the program\n"
LOW = b"""/// Half of it.
pub fn half() {
}

#[cfg(test)]
pub fn tests_only() {
    half()
}

#[cfg(test)]
mod tests;
"""


def check_use(checks):
    checks.begin("bin/puma")
    here = os.getcwd()
    with open(os.path.join(TOP, "examples", "get.http"), "rb") as file:
        example = file.read()
    stack = os.path.join("examples", "hello.stack")
    os.chdir(TOP)
    checks.wants("the example", ANSWERED, "once", stack, stdin=example, program=(os.path.join("bin", "puma"),))
    os.chdir(os.path.join(TOP, "bin"))
    checks.wants("from its own folder", ANSWERED, "once", os.path.join("..", stack), stdin=example, program=("./puma",))
    checks.wants("as a script of the shell", ANSWERED, "once", os.path.join("..", stack), stdin=example,
                 program=("sh", "puma"))
    os.chdir(os.path.join(TOP, "examples"))
    checks.wants("from another folder", ANSWERED, "once", "hello.stack", stdin=example,
                 program=(os.path.join("..", "bin", "puma"),))
    checks.wants("where a folder to change to is set", ANSWERED, "once", "hello.stack", stdin=example,
                 program=(os.path.join("..", "bin", "puma"),), env={**os.environ, "CDPATH": TOP})
    os.chdir(here)
    os.symlink(PUMA, "linked")
    checks.wants("through a link", ANSWERED, "once", "hello.stack", stdin=example, program=(os.path.join(".", "linked"),))
    checks.wants("on the path", ANSWERED, "once", "hello.stack", stdin=example, program=("puma",),
                 env={**os.environ, "PATH": os.path.dirname(PUMA) + ":" + os.environ["PATH"]})
    checks.wants("its folder is the user's", ABSENT, "once", stack, stdin=example)
    checks.wants("an empty word is kept", USAGE, "once", "hello.stack", "", stdin=example)
    checks.wants("nothing set", ANSWERED, "once", "hello.stack", stdin=example, env={})


class Tree:
    """A tree with a source, a stand-in for `rt` and few other programs on the path."""

    def __init__(self, name):
        self.top = os.path.abspath(name)
        for folder in ("bin", "tools", "copies", "crates/puma_cli/src", "crates/puma_cli/specs", "crates/puma_cli/data",
                       "crates/low/src", "crates/low/must-fail", "crates/low/proofs/tests", "crates/other/src"):
            os.makedirs(self.at(folder))
        for name in ("puma", "made_of", "build", "dist"):
            shutil.copy(os.path.join(os.path.dirname(PUMA), name), self.at("bin/" + name))
        self.write("crates.txt", b"# the crates\nother: low\npuma_cli: low itoa\nlow: itoa\n")
        self.write("crates/puma_cli/src/main.rt", b"first")
        self.write("crates/puma_cli/specs/Words.antt", b"words")
        self.write("crates/low/src/lib.rt", LOW)
        for name in ("src/tests.rt", "must-fail/turned.edit", "proofs/tests/Answers.antt"):
            self.write("crates/low/" + name, b"")
        self.write("crates/other/src/lib.rt", b"")
        for tool in TOOLS:
            os.symlink(shutil.which(tool), self.at("tools/" + tool))
        os.symlink(sys.executable, self.at("tools/python3"))
        os.chmod(self.write("tools/rt", STAND_IN), 0o755)

    def at(self, name):
        return os.path.join(self.top, name)

    def write(self, name, text):
        return write(self.at(name), text)

    def run(self, *words, **how):
        return run(words, program=(self.at("bin/puma"),), env=self.env(), **how)

    def env(self):
        return {"PATH": self.at("tools"), "RT_JOBS": "2", "TMPDIR": self.at("copies")}

    def begin(self, name):
        """Begins a call whose errors go into a file of this name."""
        with open(self.at(name), "wb") as errors:
            return subprocess.Popen([self.at("bin/puma")], env=self.env(), stdin=subprocess.DEVNULL,
                                    stdout=subprocess.DEVNULL, stderr=errors)

    def said(self, name):
        with open(self.at(name), "rb") as file:
            return file.read()

    def calls(self):
        """How often a build was begun."""
        if not os.path.exists(self.at("calls")):
            return 0
        with open(self.at("calls"), "rb") as file:
            return file.read().count(b"ci\n")


def check_builds(checks):
    checks.begin("bin/puma, when it builds")
    tree = Tree("tree")
    source, other = "crates/puma_cli/src/main.rt", "crates/puma_cli/specs/Words.antt"
    built = 0

    def builds(name, text=b"first"):
        nonlocal built
        built += 1
        want = (0, text + b" a  b\nin", BUILDS + PROVED)
        checks.answers(name, want, tree.run("a", "", "b", stdin=b"in"))
        checks.counts(name + ", how often", built, tree.calls())
        stays(name + ", and then again", text)

    def stays(name, text=b"first"):
        checks.answers(name, (0, text + b" a  b\nin", b""), tree.run("a", "", "b", stdin=b"in"))
        checks.counts(name + ", how often", built, tree.calls())

    builds("nothing is built yet")
    checks.counts("what is proved: no test, no edit, no other crate", SEEN, tree.said("seen"))
    checks.counts("what is left of the copy", [], os.listdir(tree.at("copies")))
    os.utime(tree.at(source))
    os.utime(tree.at("crates.txt"))
    stays("newer times and the same text")
    tree.write(source, b"third")
    os.utime(tree.at(source), (1, 1))
    builds("another text of the same length and an old time", b"third")
    times = os.stat(tree.at(other))
    tree.write(other, b"swords")
    os.utime(tree.at(other), ns=(times.st_atime_ns, times.st_mtime_ns))
    builds("another definition with the time of the one before", b"third")
    os.rename(tree.at(other), tree.at("crates/puma_cli/specs/Other.antt"))
    builds("a file of another name", b"third")
    os.remove(tree.at("crates/puma_cli/specs/Other.antt"))
    builds("a file less", b"third")
    tree.write("crates/puma_cli/src/more.rt", b"")
    os.utime(tree.at("crates/puma_cli/src/more.rt"), (1, 1))
    builds("an empty file more, with an old time", b"third")
    tree.write("crates.txt", b"puma_cli: low\nlow:\n")
    builds("another list of crates", b"third")
    tree.write("HANDLES", b"Handles allowed: none.\n")
    builds("another list of handles", b"third")
    tree.write("crates/puma_cli/data/hello.stack", b"other")
    stays("another text that the program is not made of", b"third")
    os.remove(tree.at("crates/puma_cli/out/puma_cli"))
    builds("the program is gone", b"third")
    tree.write("crates/puma_cli/out/puma_cli", b"#!/bin/sh\necho of another build\n")
    builds("the program is another", b"third")
    os.truncate(tree.at("crates/puma_cli/out/made_of"), 0)
    builds("what it was made of is not known", b"third")
    check_failed_builds(checks, tree, source)
    check_lacks(checks, tree, source)
    check_side_by_side(checks, tree, source)


def check_failed_builds(checks, tree, source):
    tree.write(source, b"fourth")
    tree.write("broken", b"")
    errors = b"error: this is the first\n and this its second line\nrt: puma_cli NOT PROVED\n"
    want = (125, b"", BUILDS + KEPT + errors + b"bin/puma: the program was not built\n")
    checks.answers("a build that fails", want, tree.run())
    checks.answers("a build that fails again", want, tree.run())
    os.remove(tree.at("broken"))
    checks.answers("a build behind one that failed", (0, b"fourth\n", BUILDS + PROVED), tree.run())
    tree.write(source, b"fifth")
    tree.write("changes", b", more")
    want = (125, b"", BUILDS + PROVED + b"bin/puma: the sources changed while the program was built\n")
    checks.answers("sources that change while it is built", want, tree.run())
    os.remove(tree.at("changes"))
    checks.answers("the build behind that", (0, b"fifth, more\n", BUILDS + PROVED), tree.run())


def check_lacks(checks, tree, source):
    """Without what a build needs: one line and 125 where there is one to make, and none of it otherwise."""
    fresh, text = (0, b"fifth, more\n", b""), b"fifth, more"
    for tool in ("rt", "python3", "cksum", "sha256sum", "xargs"):
        os.rename(tree.at("tools/" + tool), tree.at("taken"))
        if tool in ("rt", "python3"):
            checks.answers(f"without {tool}, the program as it should be", fresh, tree.run())
        tree.write(source, b"stale")
        line = b"bin/puma: the program has to be built, and %s is not on the path\n" % tool.encode()
        checks.answers(f"without {tool}, a stale program", (125, b"", line), tree.run())
        os.rename(tree.at("taken"), tree.at("tools/" + tool))
        tree.write(source, text)
        checks.answers(f"with {tool} again, and the text from before", fresh, tree.run())
    checks.counts("no bash was on the path", False, os.path.exists(tree.at("tools/bash")))

    how = {"user": NOBODY, "group": NOBODY, "extra_groups": []} if os.geteuid() == 0 else {}
    out = tree.at("crates/puma_cli/out")
    os.chmod(out, 0o555)
    line = b"bin/puma: the program has to be built, and crates/puma_cli/out may not be written\n"
    try:
        checks.answers("without write access, the program as it should be", fresh, tree.run(**how))
        tree.write(source, b"stale")
        checks.answers("without write access, a stale program", (125, b"", line), tree.run(**how))
    except (PermissionError, subprocess.SubprocessError) as e:
        checks.pass_over("without write access", f"no other user can be tried here ({e})")
    os.chmod(out, 0o755)
    shutil.rmtree(out)
    os.chmod(os.path.dirname(out), 0o555)
    try:
        checks.answers("without write access, no program", (125, b"", line), tree.run(**how))
    except (PermissionError, subprocess.SubprocessError) as e:
        checks.pass_over("without write access, no program", f"no other user can be tried here ({e})")
    os.chmod(os.path.dirname(out), 0o755)


def check_side_by_side(checks, tree, source):
    """Several calls at once: one builds, and the others say that they wait."""
    tree.write(source, b"sixth")
    tree.write("slow", b"")
    before = tree.calls()
    calls = [tree.begin("first")]
    wait_until(lambda: tree.calls() > before)
    calls += [tree.begin("second"), tree.begin("third")]
    wait_until(lambda: tree.said("second") and tree.said("third"))
    os.remove(tree.at("slow"))
    ended = [call.wait() for call in calls]
    checks.counts("three calls at once", [0, 0, 0], ended)
    checks.counts("three calls at once, how often it is built", before + 1, tree.calls())
    checks.counts("the one that builds", BUILDS + PROVED, tree.said("first"))
    for name in ("second", "third"):
        checks.counts(f"the {name}, which waits", WAITS, tree.said(name))


def wait_until(comes):
    for _ in range(3000):
        if comes():
            return
        time.sleep(0.01)
