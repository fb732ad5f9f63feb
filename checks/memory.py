"""Want of memory: whatever address space the program is left, it answers rightly or says that memory was refused."""

import os
import resource

from model import check, once
from program import PROGRAM, run, write
from wanted import BODY_LIMIT, CODED, FILE_LIMIT, GET, HELLO, LENGTH, NO_MEMORY, post

PAGE = 4096
MOST = 1 << 30
STEPS = 64
# The C library then asks the system for no more than each allocation needs, so that each can be the one refused.
NO_PADDING = {"GLIBC_TUNABLES": "glibc.malloc.top_pad=0", "MALLOC_TOP_PAD_": "0"}


def check_memory(checks):
    checks.begin("want of memory")
    lines = b"".join(b"run stream " + b"h" * 4000 + b"\n" for _ in range(16)) + HELLO
    write("most", lines + b"#\n" * ((FILE_LIMIT - len(lines)) // 2))
    write("env.stack", b"run env\n")
    write("pieces.stack", b"run pieces 200 " + b" ".join([b"ab"] * 1300) + b"\n")
    write("places.stack", b"use method_override\nuse lint\nmap /a\n" + b"use set_header x-a 1\n" * 20 + b"end\n"
          + b"map /b\ncascade\nrun text 404 a b\nrun env\nend\nend\nuse content_length\nuse content_type\nrun cookies a=1 b=2\n")
    asked = b"".join(GET.replace(b"/", place, 1) for place in (b"/", b"/a", b"/b/c"))
    put = post([b"Content-Type: application/x-www-form-urlencoded", LENGTH + b"11"], b"_method=put").replace(b"/", b"/b", 1)
    write("raise.stack", b"run raise oops\n")
    write("upper.stack", b"run take upper\n")
    body = b"a" * BODY_LIMIT
    chunks = b"".join(b"4000\r\n" + body[:0x4000] + b"\r\n" for _ in range(BODY_LIMIT // 0x4000)) + b"0\r\n\r\n"
    for name, words, stdin in [
        ("a small request", ["once", "hello.stack"], GET),
        ("64 fields whose names differ", ["once", "hello.stack"], post([b"X-%d: a" % i for i in range(63)])),
        ("long words", ["once", *["x" * 100000] * 15], GET),
        ("the option", ["once", "--no-hijack", "hello.stack"], GET),
        ("help", ["--help"], b""),
        ("a check", ["check", "places.stack"], b""),
        ("a check of the largest file", ["check", "most"], b""),
        ("middleware, places and a cascade", ["once", "places.stack"], asked + put),
        ("the largest file", ["once", "most"], GET),
        ("a refusal", ["once", "hello.stack"], b"x\n\n"),
        ("an echo of 1 MiB by length", ["once", "echo.stack"], post([LENGTH + b"%d" % BODY_LIMIT], body)),
        ("an echo of 1 MiB in chunks", ["once", "echo.stack"], post(CODED, chunks)),
        ("a small request and a large one", ["once", "echo.stack"], GET + post([LENGTH + b"%d" % BODY_LIMIT], body)),
        ("small requests and large ones", ["once", "env.stack"],
         GET + post([b"X-%d: %s" % (i, b"a" * 400) for i in range(63)]) + GET),
        ("many pieces", ["once", "pieces.stack"], GET * 2),
        ("a broken answer", ["once", "raise.stack"], GET),
        ("bytes through a hijacker", ["once", "upper.stack"], GET + b"a" * 100000),
    ]:
        check_less_and_less(checks, name, words, stdin)
    check_mute(checks)


def check_less_and_less(checks, name, words, stdin):
    right = run(words, stdin=stdin, program=(PROGRAM,))
    if len(words) == 2:
        with open(words[1], "rb") as file:
            stack = file.read()
        want = check(stack) if words[0] == "check" else once(stack, stdin)
        checks.answers(name + ", with ample memory", want, right)
    ample = least(lambda space: within(space, words, stdin) == right)
    begins = least(lambda space: has_begun(within(space, words, stdin)))
    if begins >= ample:
        checks.pass_over(name, "the limit on address space does not hold here")
        return
    step = max(1, (ample - begins) // STEPS)
    got = {space: within(space, words, stdin) for space in range(begins, ample, step)}
    # What was written is a front of what is right, and of a single reply nothing is.
    some = right[1].count(b"HTTP/1.1 ") != 1
    others = {space: answer for space, answer in got.items()
              if answer != NO_MEMORY and not (some and answer[::2] == NO_MEMORY[::2] and right[1].startswith(answer[1]))}
    checks.counts(f"{name}, other answers by pages of address space", {}, others)


def check_mute(checks):
    """The status is the same where standard error takes nothing."""
    words, stdin = ["once", "hello.stack"], GET
    begins = least(lambda space: has_begun(within(space, words, stdin)))
    checks.answers("standard error closed", (1, b"", b""), within(begins, words, stdin, closed=2))
    if os.path.exists("/dev/full"):
        with open("/dev/full", "wb") as full:
            checks.answers("standard error full", (1, b"", b""), within(begins, words, stdin, stderr=full))


def least(serves):
    """The fewest pages that serve, where more serve too."""
    few, many = 0, MOST // PAGE
    while many - few > 1:
        middle = (few + many) // 2
        few, many = (few, middle) if serves(middle) else (middle, many)
    return many


def within(space, words, stdin, closed=None, **how):
    """What the program answers within so many pages of address space, with one stream closed or none."""
    def limit():
        resource.setrlimit(resource.RLIMIT_AS, (space * PAGE, space * PAGE))
        if closed is not None:
            os.close(closed)

    return run(words, stdin=stdin, program=(PROGRAM,), preexec_fn=limit, env=NO_PADDING, **how)


def has_begun(ended):
    """Did the program end by itself? Where the system can't even load it, a signal or its loader ends it."""
    return ended is not None and 0 <= ended[0] < 127
