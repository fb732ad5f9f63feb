"""The Debian package: it is built, unpacked into a folder, and used from there as a user does."""

import os
import re
import shutil
import subprocess

from program import PROGRAM, TOP, run

BUILD = os.path.join(TOP, "packaging", "build-deb")
DOCS = "usr/share/doc/puma-rattle"
MANUAL = "usr/share/man/man1/puma.1.gz"
COMPLETION = "usr/share/bash-completion/completions/puma"
# Prints what the last of these words is completed to.
COMPLETES = """. "$1"; shift; COMP_WORDS=("$@"); COMP_CWORD=$(($# - 1)); _puma; printf '%s\\n' "${COMPREPLY[@]}" | sort"""


def read(name):
    with open(name, "rb") as file:
        return file.read()


def check_package(checks):
    checks.begin("the Debian package")
    if shutil.which("dpkg-deb") is None:
        checks.pass_over("all of it", "dpkg-deb is missing")
        return
    os.makedirs("packages/again")
    version = run(["--version"])[1].decode().split()[1]
    name = f"puma-rattle_{version}_amd64.deb"
    package = os.path.join("packages", name)
    checks.answers("it is built", (0, package.encode() + b"\n", b""), run(["packages"], program=(BUILD,)))
    checks.counts("and again, into another folder", 0, run(["packages/again"], program=(BUILD,))[0])
    checks.counts("of the same bytes", True, read(package) == read(os.path.join("packages/again", name)))
    fields = run(["-f", package, "Package", "Version", "Architecture"], program=("dpkg-deb",))[1].decode()
    checks.counts("its fields", f"Package: puma-rattle\nVersion: {version}\nArchitecture: amd64\n", fields)
    checks.answers("it is unpacked", (0, b"", b""), run(["-x", package, "unpacked"], program=("dpkg-deb",)))
    checks.counts("its program", True, read("unpacked/usr/bin/puma") == read(PROGRAM))
    check_program(checks)
    check_manual(checks)
    check_completion(checks)
    if shutil.which("lintian") is None:
        checks.pass_over("lintian", "lintian is missing")
        return
    ran = run(["--no-cfg", "--fail-on", "error", package], program=("lintian",))
    if ran is None:
        checks.pass_over("lintian", "it did not end in time")
        return
    # Where it runs as root it says so, on standard error.
    checks.counts("what lintian says", (0, []), (ran[0], re.findall(rb"(?m)^E: .*", ran[1] + ran[2])))


def check_program(checks):
    """The program runs, and answers the examples that the package holds as those of the repository."""
    program, examples = ("unpacked/usr/bin/puma",), os.path.join("unpacked", DOCS, "examples")
    checks.counts("the examples", sorted(os.listdir(os.path.join(TOP, "examples"))), sorted(os.listdir(examples)))
    for stack in sorted(it for it in os.listdir(examples) if it.endswith(".stack")):
        there = os.path.join(TOP, "examples", stack)
        for words in (["check"], ["once"]):
            request = read(os.path.join(TOP, "examples", "get.http"))
            checks.answers(f"{words[0]} {stack}", run([*words, there], stdin=request),
                           run([*words, os.path.join(examples, stack)], stdin=request, program=program))


def check_manual(checks):
    """Each line of the help stands in the page, in its order."""
    if shutil.which("man") is None:
        checks.pass_over("the manual", "man is missing")
        return
    plain = {**os.environ, "LC_ALL": "C", "MANWIDTH": "100", "MANPAGER": "cat", "PAGER": "cat"}
    status, page, errors = run(["-l", "--no-hyphenation", "--no-justification", os.path.join("unpacked", MANUAL)],
                               program=("man",), env=plain)
    if b"minimized" in page:
        checks.pass_over("the manual", "this system has none")
        return
    checks.counts("man reads it", (0, b""), (status, errors))
    lines = [it.strip() for it in page.decode("ascii", "replace").split("\n")]
    lacking, at = [], 0
    for line in run(["--help"])[1].decode().split("\n"):
        if line.strip() in lines[at:]:
            at += lines[at:].index(line.strip()) + bool(line.strip())
        else:
            lacking.append(line)
    checks.counts("lines of the help that it lacks, or has in another order", [], lacking)
    found = re.findall(r"(?m)^[A-Z][A-Z ]+$", page.decode("ascii", "replace"))
    wanted = ["NAME", "DESCRIPTION", "SYNOPSIS", "COMMANDS", "OPTIONS", "STACK FILES", "EXIT STATUS", "SEE ALSO", "FILES"]
    checks.counts("its headings", wanted, [it for it in found if it in wanted])


def check_completion(checks):
    """What bash completes, with the unpacked program on the path."""
    if shutil.which("bash") is None:
        checks.pass_over("completion", "bash is missing")
        return
    path = {**os.environ, "PATH": os.path.abspath("unpacked/usr/bin") + ":" + os.environ["PATH"]}
    commands = re.findall(r"(?m)^  puma ([a-z]+) ", run(["--help"])[1].decode())
    for want, words in [
        (sorted([*commands, "--help", "--version"]), [""]),
        (["once"], ["on"]),
        (["--help", "--no-hijack"], ["once", "-"]),
        (["--no-hijack"], ["once", "--n"]),
        (["--help"], ["check", "--"]),
        (["unpacked"], ["check", "unpa"]),
        ([""], ["once", "no such file"]),
    ]:
        got = subprocess.run(["bash", "--norc", "-c", COMPLETES, "bash", os.path.join("unpacked", COMPLETION), "puma", *words],
                             stdout=subprocess.PIPE, stderr=subprocess.STDOUT, env=path, text=True).stdout
        checks.counts(f"completion of {' '.join(words)!r}", want, got.rstrip("\n").split("\n"))
