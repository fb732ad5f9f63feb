"""The program that stands in dist/: when `bin/puma` runs it, what `bin/dist` puts there, and what the gate says of it.

Nothing is proved here: the tree is that of `launcher.py`, whose `rt` is a stand-in.
"""

import hashlib
import os
import shutil

from launcher import BUILDS, PROVED, Tree
from program import TOP, run

SOURCE = "crates/puma_cli/src/main.rt"
OUT = "crates/puma_cli/out"
PROGRAM, RECORD = "dist/puma-x86_64-linux", "dist/MADE_OF"
LOADER = "/lib64/ld-linux-x86-64.so.2"
SAME = b"dist/: its program is the one that was built of these sources, byte for byte\n"
OTHER = b"dist/: its program is of other sources than stand here, so bin/puma builds one; bin/dist puts that there\n"
NONE = b"dist/: has no program, so bin/puma builds one; bin/dist puts the one that was built there\n"
WRONG = b"dist/: its program is not the one that was built of these sources, as it claims: run bin/dist\n"


def read(tree, name):
    with open(tree.at(name), "rb") as file:
        return file.read()


def put(tree):
    """What `bin/dist` answers."""
    return run([], program=(tree.at("bin/dist"),), env=tree.env())


def said(tree):
    program = read(tree, PROGRAM)
    return f"{PROGRAM}: {len(program)} bytes, SHA-256 {hashlib.sha256(program).hexdigest()}, kit of a stand-in\n".encode()


def check_kept(checks):
    """The program in dist/ is run where it is whole and of the sources that stand here, and else one is built."""
    checks.begin("dist/")
    if not os.path.exists(LOADER):
        checks.pass_over("which program is run", "programs for x86-64 can't be loaded here")
        return
    tree = Tree("kept")
    got = put(tree)
    checks.answers("it is built and put there", (0, said(tree), BUILDS + PROVED), got)
    checks.answers("put there again", (0, said(tree), b""), put(tree))
    checks.counts("how often it was built", 1, tree.calls())
    checks.counts("what it is", read(tree, OUT + "/puma_cli"), read(tree, PROGRAM))

    def stays(name, text=b"first"):
        """Where nothing is built: without the toolchain, and without anything in out/."""
        shutil.rmtree(tree.at(OUT), ignore_errors=True)
        before = tree.calls()
        for tool in ("rt", "python3"):
            os.rename(tree.at("tools/" + tool), tree.at("taken " + tool))
        checks.answers(name, (0, text + b" a  b\nin", b""), tree.run("a", "", "b", stdin=b"in"))
        for tool in ("rt", "python3"):
            os.rename(tree.at("taken " + tool), tree.at("tools/" + tool))
        checks.counts(name + ", nothing is built", (before, False), (tree.calls(), os.path.exists(tree.at(OUT))))

    def builds(name, text=b"first"):
        before = tree.calls()
        checks.answers(name, (0, text + b" a  b\nin", BUILDS + PROVED), tree.run("a", "", "b", stdin=b"in"))
        checks.answers(name + ", and then again", (0, text + b" a  b\nin", b""), tree.run("a", "", "b", stdin=b"in"))
        checks.counts(name + ", how often", before + 1, tree.calls())

    stays("on a fresh machine without the toolchain")
    os.utime(tree.at(SOURCE))
    stays("with newer times")
    tree.write("crates/puma_cli/data/hello.stack", b"other")
    stays("with another text that it is not made of")
    tree.write(SOURCE, b"First")
    builds("a source that is changed by one byte", b"First")
    tree.write(SOURCE, b"first")
    stays("the source from before")
    tree.write("crates/low/src/more.rt", b"")
    builds("a source more")
    os.remove(tree.at("crates/low/src/more.rt"))
    stays("the sources from before")
    program, record = read(tree, PROGRAM), read(tree, RECORD)
    for name, other in [("changed by one byte", program.replace(b"first", b"First")), ("cut", program[:-1]),
                        ("empty", b"")]:
        tree.write(PROGRAM, other)
        builds(f"a program that is {name}")
        tree.write(PROGRAM, program)
        stays(f"the program from before, behind one that is {name}")
    os.chmod(tree.at(PROGRAM), 0o644)
    builds("a program that may not be run")
    os.chmod(tree.at(PROGRAM), 0o755)
    stays("a program that may be run again")
    lines = record.split(b"\n")
    for name, other in [("empty", b""), ("of its first line", lines[0]), ("without the last line", b"\n".join(lines[:-2])),
                        ("without the program's sum", b"\n".join([b"program ", *lines[1:]])),
                        ("with another sum", record.replace(lines[0][-4:], b"xxxx", 1))]:
        tree.write(RECORD, other)
        builds(f"a record that is {name}" if name.startswith(("empty", "of")) else f"a record {name}")
        tree.write(RECORD, record)
        stays(f"the record from before, behind {name}")
    os.remove(tree.at(RECORD))
    builds("no record")
    shutil.rmtree(tree.at("dist"))
    shutil.rmtree(tree.at(OUT))
    builds("no dist/")
    check_put(checks, tree)


def check_put(checks, tree):
    """A build that fails leaves dist/ as it was."""
    checks.answers("put there of what is built", (0, b"", b""), (put(tree)[0], b"", b""))
    before = read(tree, PROGRAM), read(tree, RECORD)
    tree.write(SOURCE, b"second")
    tree.write("broken", b"")
    checks.counts("a build that fails", (125, b""), put(tree)[:2])
    checks.counts("dist/ behind that", before, (read(tree, PROGRAM), read(tree, RECORD)))
    os.remove(tree.at("broken"))
    got = put(tree)
    checks.answers("other sources, put there", (0, said(tree), BUILDS + PROVED), got)
    checks.counts("the program of those", True, b"second" in read(tree, PROGRAM))


def check_gate(checks):
    """`.ci/run`: its program is compared with that of dist/, and one that claims what isn't so fails."""
    checks.begin("dist/ at the gate")
    tree = Tree("gate")
    bash = shutil.which("bash")
    if bash is None:
        checks.pass_over("what .ci/run says", "bash is missing")
        return
    os.symlink(bash, tree.at("tools/bash"))
    os.makedirs(tree.at(".ci"))
    os.makedirs(tree.at("checks"))
    shutil.copy(os.path.join(TOP, ".ci", "run"), tree.at(".ci/run"))
    os.chmod(tree.write("checks/run", b"#!/bin/sh\necho checked\n"), 0o755)

    def gate(name, line):
        """What it says behind what `rt ci` said."""
        status, out, errors = run([], program=("bash", tree.at(".ci/run")), env=tree.env())
        rest = out.partition(b"2 passed, 0 failed\n")[2]
        wants = (1, b"", line) if line is WRONG else (0, line + b"checked\n", b"")
        checks.answers(name, wants, (status, rest, errors))

    gate("no dist/", NONE)
    checks.counts("its program is taken over", (1, b"first a\n"), (tree.calls(), tree.run("a")[1]))
    checks.counts("it is put there", 0, put(tree)[0])
    gate("the program of these sources", SAME)
    program, record = read(tree, PROGRAM), read(tree, RECORD)
    other = program.replace(b"first", b"First")
    sums = [hashlib.sha256(it).hexdigest().encode() for it in (program, other)]
    tree.write(PROGRAM, other)
    gate("another program, and the sum of the right one", WRONG)
    tree.write(RECORD, record.replace(*sums))
    gate("another program with its own sum", WRONG)
    tree.write(PROGRAM, program)
    gate("the right program with the sum of another", WRONG)
    tree.write(RECORD, record)
    gate("the right ones again", SAME)
    os.remove(tree.at(PROGRAM))
    gate("a record without a program", WRONG)
    tree.write(PROGRAM, program)
    gate("a program that may not be run", WRONG)
    os.chmod(tree.at(PROGRAM), 0o755)
    tree.write(SOURCE, b"First")
    gate("a source that was changed by one byte, and a record of the former", OTHER)
    now = run(["-c", 'top=$1; . "$1/bin/made_of"; sources_now', "sh", tree.top], program=("sh",), env=tree.env())[1]
    tree.write(RECORD, b"\n".join(record.split(b"\n")[:2]) + b"\n" + now)
    gate("that source, and a record that claims to be of it", WRONG)
    checks.counts("the one of these sources is put there", 0, put(tree)[0])
    gate("the program of that source", SAME)
    tree.write(RECORD, b"")
    gate("an empty record", NONE)
