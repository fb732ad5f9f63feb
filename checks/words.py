"""Words and files: what the program is told to do, and what it says of itself."""

import os
import subprocess
import threading
import time

from model import once
from program import PROGRAM, PUMA, run, write
from wanted import (ABSENT, ANSWERED, ECHO, FILE_LIMIT, GET, HELLO, LENGTH, LONG, NOTHING, UNREADABLE, USAGE,
                    WRITE_FAILED, bad_stack, post, reply, served)

NOBODY = 65534
COMMANDS = ["once", "check"]
ASKS_HELP = ["--help", "-h", "help"]
ASKS_VERSION = ["--version", "-V"]


def check_words(checks):
    """Words that are no command: the line on standard error, and nothing else."""
    checks.begin("words")
    for name, words in [
        ("no word", []),
        ("an empty word", [""]),
        ("an unknown word", ["twice", "hello.stack"]),
        ("an unknown word alone", ["hello.stack"]),
        ("a command in capitals", ["Once", "hello.stack"]),
        ("a command with a space behind", ["once ", "hello.stack"]),
        ("a command and its name in one word", ["once hello.stack"]),
        ("once alone", ["once"]),
        ("check alone", ["check"]),
        ("check and two names", ["check", "hello.stack", "hello.stack"]),
        ("check in capitals", ["CHECK", "hello.stack"]),
        ("a command's front", ["chec", "hello.stack"]),
        ("a command and more", ["checks", "hello.stack"]),
        ("both commands", ["once", "check", "hello.stack"]),
        ("a command that is to come", ["replay", "hello.stack"]),
        ("another that is to come", ["serve", "--token", "t", "hello.stack"]),
        ("a third word", ["once", "hello.stack", "hello.stack"]),
        ("a third word that is empty", ["once", "hello.stack", ""]),
        ("an empty word in front", ["", "once", "hello.stack"]),
        ("the words turned round", ["hello.stack", "once"]),
        ("the program's name as a word", ["puma", "once", "hello.stack"]),
        ("the program's name and the command", ["puma", "once"]),
        ("a command that isn't UTF-8", [b"\xffonce", "hello.stack"]),
        ("a name that isn't UTF-8", ["once", b"hello\xff.stack"]),
        ("a third word that isn't UTF-8", ["once", "hello.stack", b"\xc3\x28"]),
    ]:
        checks.wants(name, USAGE, *words, stdin=GET)
    for words in [
        ["--no-hijack"], ["--no-hijack", "hello.stack"], ["--no-hijack", "once", "hello.stack"],
        ["once", "--no-hijack"],
        ["once", "--no-hijack", "--no-hijack", "hello.stack"], ["once", "--no-hijack", "hello.stack", "--no-hijack"],
        ["once", "hello.stack", "--no-hijack", "--no-hijack"], ["once", "--no-hijack", "hello.stack", "hello.stack"],
        ["once", "hello.stack", "--no-hijack", "hello.stack"], ["once", "--no-hijack=true", "hello.stack"],
        ["once", "--no-hijack=", "hello.stack"], ["once", "--no-hijack=hello.stack"],
        ["once", "--no-hij", "hello.stack"],
        ["once", "--no-hijacks", "hello.stack"], ["once", "--No-Hijack", "hello.stack"],
        ["once", "--no_hijack", "hello.stack"],
        ["once", "-no-hijack", "hello.stack"], ["once", "-n", "hello.stack"], ["once", "--hijack", "hello.stack"],
        ["once", "-s"], ["once", "-hello.stack"], ["once", "--hello.stack"], ["once", "---"], ["once", "-1"],
        ["once", "hello.stack", "-x"], ["once", "-x", "hello.stack"], ["once", "- ", "hello.stack"],
        ["check", "--no-hijack", "hello.stack"], ["check", "hello.stack", "--no-hijack"], ["check", "-x"],
        ["check", "-n", "hello.stack"],
        ["--"], ["--", "once", "hello.stack"], ["once", "--"], ["once", "--", "hello.stack", "hello.stack"],
        ["once", "--no-hijack", "--"],
        ["once", "--", "hello.stack", "--no-hijack"], ["once", "hello.stack", "--", "--no-hijack"],
        ["once", "--", "--", "hello.stack"],
        ["check", "--"], ["check", "--", "--no-hijack", "hello.stack"], ["-"], ["-", "hello.stack"],
        ["-x", "once", "hello.stack"],
        # Help is asked for alone, or behind a command's name alone.
        ["--helps"], ["--hel"], ["-help"], ["-hV"], ["-v"], ["version"], ["Help"], ["--HELP"], ["--help="],
        ["--help", "once"],
        ["help", "once"], ["help", "help"], ["-h", "-h"], ["--version", "--help"], ["twice", "--help"],
        ["once", "--help", "hello.stack"],
        ["once", "hello.stack", "--help"], ["once", "help", "hello.stack"], ["check", "-V", "hello.stack"],
        ["--", "--help"],
        ["once", "--no-hijack", "--help"], ["", "--help"],
    ]:
        checks.wants(f"the words {' '.join(words)}", USAGE, *words, stdin=GET)
    # Whatever the program is called, its own name is no word.
    for name in ["once", "puma", "", "a name", b"\xff", "hello.stack"]:
        for want, words in [(ANSWERED, ["once", "hello.stack"]), (USAGE, ["hello.stack"]), (USAGE, ["once"]),
                            (USAGE, [])]:
            checks.wants(f"called {name!r}, {words}", want, *words, stdin=GET, program=(name,), executable=PROGRAM)


def check_options(checks):
    """Names and the one option: where it may stand, and names that begin with a hyphen."""
    checks.begin("options")
    asked = GET.replace(b"/", b"/p?q=1", 1)
    env, written = b"use lint\nrun env\n", served(b"use lint\nrun env\n")
    names = ["-", "--", "-s", "--no-hijack", "--help", "-h", "-V", "help", "once", "check", "-- ", "--x=y"]
    for name in names:
        write(name, env)
    write("env.stack", env)
    kept, told = once(env, asked), once(env, asked, hijack=False)
    checks.counts("what the application is told, by hand", [1, 0, 0, 1],
                  [said[1].count(b"\nrack.hijack?=" + word + b"\n") for said in (kept, told) for word in (b"true",
                                                                                                          b"false")])
    for want, words in [
        (kept, ["env.stack"]), (kept, ["--", "env.stack"]), (kept, ["env.stack", "--"]),
        (told, ["--no-hijack", "env.stack"]), (told, ["env.stack", "--no-hijack"]),
        (told, ["--no-hijack", "--", "env.stack"]),
        (told, ["--no-hijack", "env.stack", "--"]), (told, ["env.stack", "--no-hijack", "--"]),
        (kept, ["-"]), (told, ["-", "--no-hijack"]), (told, ["--no-hijack", "-"]),
        (kept, ["--", "--no-hijack"]), (told, ["--no-hijack", "--", "--no-hijack"]),
        (told, ["--no-hijack", "help"]), (kept, ["--", "help"]), (kept, ["./help"]), (kept, ["./--no-hijack"]),
        (told, ["./-s", "--no-hijack"]),
        (kept, ["once"]), (kept, ["check"]),
    ]:
        checks.wants(f"once {' '.join(words)}", want, "once", *words, stdin=asked)
    for name in names:
        checks.wants(f"once -- {name}", kept, "once", "--", name, stdin=asked)
        checks.wants(f"once --no-hijack -- {name}", told, "once", "--no-hijack", "--", name, stdin=asked)
        checks.wants(f"check -- {name}", written, "check", "--", name)
    for words in (["env.stack"], ["env.stack", "--"], ["-"], ["./help"], ["once"], ["check"]):
        checks.wants(f"check {' '.join(words)}", written, "check", *words)
    # No reply depends on the option but by what it tells.
    checks.wants("the option beside a text", ANSWERED, "once", "--no-hijack", "hello.stack", stdin=GET)
    checks.wants("an absent file behind the option", ABSENT, "once", "--no-hijack", "nofile", stdin=GET)
    checks.wants("an absent file behind two hyphens", ABSENT, "once", "--", "-nofile", stdin=GET)
    checks.wants("an empty name behind two hyphens", ABSENT, "once", "--", "", stdin=GET)
    for name in names:
        os.remove(name)


def check_help(checks):
    """What the program says of itself: standard output, status 0, and nothing on standard error."""
    checks.begin("help")
    for asks, parts in [(ASKS_HELP, [b"puma once", b"puma check", b"puma control", b"--no-hijack", b"--token", b"STACK", b"docs/"]),
                        (ASKS_VERSION, [b"puma"])]:
        first = run([asks[0]]) or NOTHING
        checks.counts(f"{asks[0]} ends in a line", (True, True), (first[1].endswith(b"\n"), first[1].isascii()))
        checks.counts(f"{asks[0]}, what isn't in it", [], [part for part in parts if part not in first[1]])
        for word in asks:
            checks.wants(word, (0, first[1], b""), word)
            checks.wants(word + " with an input that is a folder", (0, first[1], b""), word, stdin="/")
            for command in COMMANDS:
                status, text, errors = run([command, word], stdin="/") or (None, b"", b"")
                named = command.encode() in text or asks is ASKS_VERSION
                checks.counts(f"{command} {word}", (0, True, True, b""), (status, named, b"puma" in text, errors))
    for word in [*ASKS_HELP, *ASKS_VERSION]:
        closed = ("sh", "-c", 'exec "$@" >&-', "sh", PUMA)
        checks.wants(word + " with output that is closed", WRITE_FAILED, word, program=closed)
        reader, writer = os.pipe()
        os.close(reader)
        checks.wants(word + " into a pipe whose reader is gone", WRITE_FAILED, "once", word, stdout=writer)
        os.close(writer)
    text = (run(["--help"]) or NOTHING)[1].decode("ascii", "replace")
    checks.counts("each exit status is told", [], [n for n in "01234679" if f"  {n}  " not in text])
    checks.counts("those of orders too", [], [n for n in ("12", "13", "14") if f" {n} " not in text])
    checks.counts("how wide it is", True, 0 < max(map(len, text.split("\n"))) < 80)
    version = (run(["--version"]) or NOTHING)[1]
    checks.counts("a version is one line", (1, True), (version.count(b"\n"), version.startswith(b"puma ")))


def check_files(checks):
    checks.begin("files")
    os.symlink("nofile", "dangling")
    os.symlink("round", "round")
    for name, want, file in [
        ("no such file", ABSENT, "nofile"),
        ("no such folder", ABSENT, "nofolder/hello.stack"),
        ("a link to nothing", ABSENT, "dangling"),
        ("an empty name", ABSENT, ""),
        ("a hyphen, which is a name like any other", ABSENT, "-"),
        ("a folder", UNREADABLE, "."),
        ("a link to itself", UNREADABLE, "round"),
        ("a name below a file", UNREADABLE, "hello.stack/x"),
        ("a file called as a folder", UNREADABLE, "hello.stack/"),
        ("a name that is too long", UNREADABLE, "a" * 300),
        ("a path that is too long", UNREADABLE, "a/" * 3000),
        ("a file without end", LONG, "/dev/zero"),
        ("an empty file", bad_stack(1, 8), "/dev/null"),
    ]:
        checks.wants(name, want, "once", file, stdin=HELLO + GET)
        checks.wants(name + ", checked", want, "check", file)
    for name in [" in front", "behind ", "  both\t", "a name with spaces", "\n", "-", "hello.stack\n", "HELLO.stack"]:
        write(name, ECHO)
        checks.wants(f"the name {name!r}", (0, reply(b"12"), b""), "once", name, stdin=post([LENGTH + b"2"], b"12"))
        checks.wants(f"the name {name!r}, checked", served(ECHO), "check", name)
        os.remove(name)
    checks.wants("a name with a space in front that none has", ABSENT, "once", " hello.stack", stdin=GET)
    checks.wants("a name with a space behind that none has", ABSENT, "once", "hello.stack ", stdin=GET)
    most = HELLO + b"\n" * (FILE_LIMIT - len(HELLO))
    write("most", most)
    checks.wants("a file of the most bytes", ANSWERED, "once", "most", stdin=GET)
    write("more", most + b"\n")
    checks.wants("one byte more", LONG, "once", "more", stdin=GET)
    checks.wants("one byte more, checked", LONG, "check", "more")
    checks.wants("an absent file before a failed read", ABSENT, "once", "nofile", stdin="/")
    check_closed_files(checks)
    for name, want, pieces in [
        ("a file that comes in three pieces", ANSWERED, [HELLO[:4], HELLO[4:20], HELLO[20:]]),
        ("a file that comes byte by byte", ANSWERED, [HELLO[at:at + 1] for at in range(len(HELLO))]),
        ("a file of two pieces, the second of which breaks a rule", bad_stack(2, 2), [HELLO, b"rnu echo\n"]),
        ("a file of two pieces, cut inside a line end", bad_stack(3, 6), [HELLO[:-1], b"\n\nend"]),
        ("a file of two pieces that is too long", LONG, [most, b"\n"]),
        ("a pipe that nothing comes through", bad_stack(1, 8), []),
    ]:
        slow = threading.Thread(target=send_slowly, args=(pieces,))
        if os.path.exists("slow"):
            os.remove("slow")
        os.mkfifo("slow")
        slow.start()
        checks.wants(name, want, "once", "slow", stdin=GET)
        slow.join()


def send_slowly(pieces):
    """Each piece is a read of its own."""
    with open("slow", "wb", buffering=0) as end:
        for piece in pieces:
            end.write(piece)
            time.sleep(0.02)


def check_closed_files(checks):
    """Files that this user may not read. Root may read each, so as root another user tries it."""
    os.mkdir("closed")
    os.chmod(write("secret", HELLO), 0)
    write("closed/hello.stack", HELLO)
    os.chmod("closed", 0)
    how = {}
    if os.geteuid() == 0:
        # The other user may not reach the folder of the program.
        with open(PROGRAM, "rb") as file:
            os.chmod(write("program", file.read()), 0o755)
        how = {"program": ("./program",), "user": NOBODY, "group": NOBODY, "extra_groups": []}
    try:
        checks.wants("this user may read others", ANSWERED, "once", "hello.stack", stdin=GET, **how)
        checks.wants("a file that may not be read", UNREADABLE, "once", "secret", stdin=GET, **how)
        checks.wants("a file in a folder that may not be entered", UNREADABLE, "once", "closed/hello.stack", stdin=GET,
                     **how)
        checks.wants("no such file in a folder that may not be entered", UNREADABLE, "once", "closed/nofile", stdin=GET,
                     **how)
    except (PermissionError, subprocess.SubprocessError) as e:
        checks.pass_over("files that may not be read", f"no other user can be tried here ({e})")
    os.chmod("closed", 0o700)
