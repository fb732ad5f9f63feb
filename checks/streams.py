"""Exit statuses, and streams that break, fill, wait or are closed."""

import fcntl
import os
import resource
import signal
import socket
import subprocess

from program import PROGRAM, PUMA, Ready, Reset, run, write
from wanted import (ABSENT, ANSWERED, BODY_LIMIT, CLOSE, CODED, FILE_LIMIT, GET, HEAD_ONLY, HELLO, LENGTH, NOTHING,
                    READ_FAILED, UNREADABLE, WRITE_FAILED, bad_stack, post, refusal, reply)

LARGE = post([LENGTH + b"%d" % BODY_LIMIT], b"a" * BODY_LIMIT)
LARGE_REPLY = reply(b"a" * BODY_LIMIT)
# All that came was answered, and then a read failed.
CUT_OFF = (6, reply(b"hello"), READ_FAILED[2])
WRITE_FAILED_LATER = (7, reply(b"hello"), WRITE_FAILED[2])
# Before each write the ring of a connection is filled from the reply.
RING = 65536


def without(stream, program=PUMA):
    """The program with this stream closed, as a shell closes it."""
    return ("sh", "-c", f'exec "$@" {stream}&-', "sh", program)


def check_statuses(checks):
    """The table of exit statuses, each with its line, and each where standard error takes nothing too."""
    checks.begin("exit statuses")
    write("bad.stack", b"rnu env\n")
    write("long", b"h" * (FILE_LIMIT + 1))
    # Of the status for want of memory memory.py tells.
    for number, line, words, stdin in [
        (0, b"", ["once", "hello.stack"], GET),
        (2, b"puma: usage\n", ["once"], GET),
        (3, b"puma: file absent\n", ["once", "nofile"], GET),
        (3, b"puma: file long\n", ["once", "long"], GET),
        (3, b"puma: file failed\n", ["once", "."], GET),
        (4, b"puma: stack line 1 S2\n", ["once", "bad.stack"], GET),
        (0, b"", ["check", "hello.stack"], b""),
        (2, b"puma: usage\n", ["check", "--no-hijack", "hello.stack"], b""),
        (3, b"puma: file absent\n", ["check", "nofile"], b""),
        (3, b"puma: file long\n", ["check", "long"], b""),
        (3, b"puma: file failed\n", ["check", "."], b""),
        (4, b"puma: stack line 1 S2\n", ["check", "bad.stack"], b""),
        (6, b"puma: read failed\n", ["once", "hello.stack"], "/"),
    ]:
        name = f"{words[0]}, {line.decode().strip() or 'done'}"
        output = b"" if number else HELLO if words[0] == "check" else reply(b"hello")
        checks.wants(name, (number, output, line), *words, stdin=stdin)
        check_mute(checks, name, (number, output, b""), words, stdin=stdin)
    if not os.path.exists("/dev/full"):
        checks.pass_over("puma: write failed", "there is no /dev/full")
        return
    with open("/dev/full", "wb") as full:
        for words in (["once", "hello.stack"], ["check", "hello.stack"]):
            name = words[0] + ", puma: write failed"
            checks.wants(name, WRITE_FAILED, *words, stdin=GET, stdout=full)
            check_mute(checks, name, (7, b"", b""), words, stdin=GET, stdout=full)


def check_mute(checks, name, want, words, **how):
    """The same status where standard error is closed, full, or a pipe that nobody reads."""
    checks.wants(name + ", standard error closed", want, *words, program=without("2>"), **how)
    if os.path.exists("/dev/full"):
        with open("/dev/full", "wb") as full:
            checks.wants(name + ", standard error full", want, *words, stderr=full, **how)
    reader, writer = os.pipe()
    os.close(reader)
    checks.wants(name + ", standard error without a reader", want, *words, stderr=writer, **how)
    os.close(writer)


def check_streams(checks):
    checks.begin("streams")
    for name, want, stdin in [
        ("input that is a folder", READ_FAILED, "/"),
        ("input that breaks off", READ_FAILED, Reset(GET[:-1])),
        ("input that breaks off at once", READ_FAILED, Reset(b"")),
        ("input that breaks off behind a whole request", CUT_OFF, Reset(GET)),
        ("input that breaks off in a second request", CUT_OFF, Reset(GET + GET[:-1])),
        ("input that breaks off behind a request that closes", (0, reply(b"hello", connection=CLOSE), b""),
         Reset(GET[:-2] + b"Connection: close\r\n\r\n")),
        ("input of which half is there, and a read would wait", READ_FAILED, Ready(GET[:-1])),
        ("input of which nothing is there, and a read would wait", READ_FAILED, Ready(b"")),
        ("input of which all is there, and a read would wait", CUT_OFF, Ready(GET)),
        ("input of which all is there, and no read is needed", (0, refusal("F3"), b""), Ready(b"x\n\n")),
    ]:
        checks.wants(name, want, "once", "hello.stack", stdin=stdin)
    checks.wants("input that is closed", READ_FAILED, "once", "hello.stack", program=without("<"))
    checks.wants("output that is closed", WRITE_FAILED, "once", "hello.stack", stdin=GET, program=without(">"))
    checks.wants("nothing for output that is closed", NOTHING, "once", "hello.stack", program=without(">"))
    for name, want, stdin in [
        ("a pipe whose reader is gone", WRITE_FAILED, GET),
        ("a refusal into a pipe whose reader is gone", WRITE_FAILED, b"\r\n\xff\r\n\r\n"),
        ("nothing for a pipe whose reader is gone", NOTHING, b""),
    ]:
        reader, writer = os.pipe()
        os.close(reader)
        checks.wants(name, want, "once", "hello.stack", stdin=stdin, stdout=writer)
        os.close(writer)
    check_check(checks)
    check_leaving_reader(checks)
    check_full_pipe(checks)
    check_file_limit(checks)


def check_check(checks):
    """What `check` writes to outputs that take nothing. Where nothing is to be written, none is looked at."""
    for name, want, file in [("a good file", WRITE_FAILED, "hello.stack"), ("a bad file", bad_stack(1, 2), "bad.stack"),
                             ("no file", ABSENT, "nofile")]:
        checks.wants(f"check of {name} with output that is closed", want, "check", file, program=without(">"))
        reader, writer = os.pipe()
        os.close(reader)
        checks.wants(f"check of {name} into a pipe whose reader is gone", want, "check", file, stdout=writer)
        os.close(writer)
        if os.path.exists("/dev/full"):
            with open("/dev/full", "wb") as full:
                checks.wants(f"check of {name} into a device that is full", want, "check", file, stdout=full)
    checks.wants("check with an input that is closed", (0, HELLO, b""), "check", "hello.stack", program=without("<"))
    text = b"run stream " + b"x" * 4000 + b"\n"
    write("large.stack", text * 16)
    checks.wants("check of a large file", (0, text * 16, b""), "check", "large.stack")
    checks.answers("check into a file that may have 5,000 bytes", (7, (text * 16)[:5000], WRITE_FAILED[2]),
                   into_file(5000, "check", "large.stack"))


def into_file(size, *words, **how):
    """Status, output and errors of the program, where its output is a file that may have so many bytes."""
    with open("taken", "w+b") as taken:
        status, _, errors = run(words, stdout=taken, preexec_fn=lambda: limit_files(size), **how) or (None, b"", b"")
        taken.seek(0)
        return status, taken.read(), errors


def limit_files(size):
    resource.setrlimit(resource.RLIMIT_FSIZE, (size, size))


def check_leaving_reader(checks):
    """A reader that reads some of a large echo and leaves."""
    for some in (1, 1000, 70000):
        write("large", LARGE)
        with open("large", "rb") as stdin:
            child = subprocess.Popen([PUMA, "once", "echo.stack"], stdin=stdin, stdout=subprocess.PIPE, stderr=subprocess.PIPE)
        front = b""
        while len(front) < some and (more := os.read(child.stdout.fileno(), some - len(front))):
            front += more
        child.stdout.close()
        errors = child.stderr.read()
        child.stderr.close()
        got = (child.wait(), front, errors)
        checks.answers(f"a reader that leaves behind {some} bytes", (7, LARGE_REPLY[:some], WRITE_FAILED[2]), got)


def check_full_pipe(checks):
    """A pipe that nobody empties, where a write that would wait fails."""
    for name, stack, stdin, whole in [
        ("a small reply", "hello.stack", GET, reply(b"hello")),
        ("a large echo", "echo.stack", LARGE, LARGE_REPLY),
    ]:
        reader, writer = os.pipe()
        os.set_blocking(reader, False)
        os.set_blocking(writer, False)
        status, _, errors = run(["once", stack], stdin=stdin, stdout=writer) or (None, b"", b"")
        taken = b""
        while len(taken) < len(whole):
            try:
                taken += os.read(reader, len(whole))
            except BlockingIOError:
                break
        want = (0, whole, b"") if len(whole) < 4096 else (7, whole[:len(taken)], WRITE_FAILED[2])
        checks.answers(f"{name} into a pipe where a write would wait", want, (status, taken, errors))
        while True:
            try:
                os.write(writer, b"x" * 4096)
            except BlockingIOError:
                break
        checks.wants(f"{name} into a pipe that is full", WRITE_FAILED, "once", stack, stdin=stdin, stdout=writer)
        os.close(reader)
        os.close(writer)


def check_file_limit(checks):
    """A file that may not grow past a size: `bin/puma` sees to it that a write fails and no signal ends it."""
    for name, size, stack, stdin, whole in [
        ("a small reply", 10, "hello.stack", GET, reply(b"hello")),
        ("a large echo", 100000, "echo.stack", LARGE, LARGE_REPLY),
        ("a reply that just fits", len(reply(b"hello")), "hello.stack", GET, reply(b"hello")),
    ]:
        def limit():
            limit_files(size)

        with open("taken", "w+b") as taken:
            status, _, errors = run(["once", stack], stdin=stdin, stdout=taken, preexec_fn=limit) or (None, b"", b"")
            taken.seek(0)
            want = (0, whole, b"") if size == len(whole) else (7, whole[:size], WRITE_FAILED[2])
            checks.answers(f"{name} into a file that may have {size} bytes", want, (status, taken.read(), errors))
            taken.truncate(0)
            taken.seek(0)
            got = run(["once", stack], stdin=stdin, stdout=taken, program=(PROGRAM,), preexec_fn=limit)
            want = 0 if size == len(whole) else -signal.SIGXFSZ
            checks.counts(f"{name}, the program alone", (want, b"", b""), got)


def check_reads_and_writes(checks):
    """How many reads and writes there are: each piece of such a socket is one."""
    checks.begin("reads and writes")
    if not hasattr(socket, "SOCK_SEQPACKET"):
        checks.pass_over("all", "there are no sockets that keep pieces apart")
        return
    behind = b"never read"
    coded = post(CODED, b"5\r\nhello\r\n0\r\n\r\n")
    length = post([LENGTH + b"5"], b"hello")
    closing = GET[:-2] + b"Connection: close\r\n\r\n"
    large = reply(b"a" * 100000)
    hello, closed = reply(b"hello"), reply(b"hello", connection=CLOSE)
    for name, stack, want, pieces in [
        ("a request", "hello.stack", [hello], [GET]),
        ("a request in two pieces", "hello.stack", [hello], [GET[:9], GET[9:]]),
        ("a request and some bytes behind it", "hello.stack", [hello], [GET + b"GET /"]),
        ("two requests in one piece", "hello.stack", [hello] * 2, [GET + GET]),
        ("two requests in two pieces", "hello.stack", [hello] * 2, [GET, GET]),
        ("two requests, cut inside the second", "hello.stack", [hello] * 2, [GET + GET[:5], GET[5:]]),
        ("25 requests in one piece", "hello.stack", [hello] * 25, [GET * 25]),
        ("a request behind an empty line", "hello.stack", [hello], [b"\r\n", GET]),
        ("a body by length", "echo.stack", [hello], [length]),
        ("a body by length in two pieces", "echo.stack", [hello], [length[:-2], length[-2:]]),
        ("a body in chunks", "echo.stack", [hello], [coded]),
        ("a body in chunks, byte by byte", "echo.stack", [hello], [coded[at:at + 1] for at in range(len(coded))]),
        ("a body of 10,000 bytes", "echo.stack", [reply(b"a" * 10000)], [post([LENGTH + b"10000"]), b"a" * 10000]),
        ("a body of 100,000 bytes", "echo.stack", [large[:RING], large[RING:]],
         [post([LENGTH + b"100000"]), *[b"a" * 10000] * 10]),
        ("a HEAD", "hello.stack", [HEAD_ONLY], [GET.replace(b"GET", b"HEAD")]),
    ]:
        read, wrote, status = packets(stack, pieces)
        checks.counts(name + ", what each write took", want, wrote)
        checks.counts(name + ", its status", 0, status)
        checks.counts(name + ", what was not read", b"", read)
    # Behind a reply that closes nothing is read.
    for name, stack, want, pieces in [
        ("a request that closes", "hello.stack", [closed], [closing]),
        ("a request that closes behind two others", "hello.stack", [hello, hello, closed], [GET + GET + closing]),
        ("two requests that close", "hello.stack", [closed], [closing + closing]),
        ("HTTP/1.0", "hello.stack", [closed], [b"GET / HTTP/1.0\r\n\r\n"]),
        ("a refusal of a head", "hello.stack", [refusal("F3")], [b"x\n", b"\n"]),
        ("a refusal behind a request", "hello.stack", [hello, refusal("F3")], [GET, b"x\n", b"\n"]),
        ("a refusal of a length", "echo.stack", [refusal("F11")], [post([LENGTH + b"x"])]),
        ("a refusal of a chunk", "echo.stack", [refusal("F13")], [post(CODED), b"5\r\nhelloX"]),
    ]:
        read, wrote, status = packets(stack, [*pieces, behind], stays_open=True)
        checks.counts(name + ", what was not read", behind, read)
        checks.counts(name + ", what each write took", want, wrote)
        checks.counts(name + ", its status", 0, status)


def packets(stack, pieces, stays_open=False):
    """What was left unread of the pieces, what each write took, and the status."""
    far, near = socket.socketpair(socket.AF_UNIX, socket.SOCK_SEQPACKET)
    reader, writer = socket.socketpair(socket.AF_UNIX, socket.SOCK_SEQPACKET)
    for end in (far, writer):
        end.setsockopt(socket.SOL_SOCKET, socket.SO_SNDBUF, 1 << 20)
    with far, near, reader:
        for piece in pieces:
            far.send(piece)
        if not stays_open:
            far.shutdown(socket.SHUT_WR)
        with writer:
            # Where the far end stays open, one read too many would wait.
            ended = run(["once", stack], stdin=near, stdout=writer)
        wrote = []
        while piece := reader.recv(1 << 20):
            wrote.append(piece)
        near.setblocking(False)
        try:
            left = near.recv(1 << 20)
        except BlockingIOError:
            left = None
        return left, wrote, ended and ended[0]


def check_interruptions(checks):
    """Calls of the system that are interrupted, which are made again, and that fail, which are not."""
    checks.begin("interruptions and failed calls")
    write("request", GET)
    write("half", GET[:-1])
    write("two", GET + GET)
    try:
        tried = subprocess.run(["strace", "-o", "trace", "-e", "inject=read:error=EINTR:when=999", "true"],
                               capture_output=True)
        can = tried.returncode == 0
    except FileNotFoundError:
        can = False
    stack = ["-P", os.path.abspath("hello.stack")]
    reads = ["-P", os.path.abspath("request")]
    half = ["-P", os.path.abspath("half")]
    for name, want, stdin, count, which in [
        ("interrupted reads of the stack file", ANSWERED, "request", 3, [*stack, "-e", "inject=read:error=EINTR:when=1..3"]),
        ("interrupted reads of the input", ANSWERED, "request", 3, [*reads, "-e", "inject=read:error=EINTR:when=1..3"]),
        ("interrupted writes of the output", ANSWERED, "request", 3, ["-e", "inject=write:error=EINTR:when=1..3"]),
        ("a first read of the stack file that fails", UNREADABLE, "request", 1, [*stack, "-e", "inject=read:error=EIO:when=1"]),
        ("a read of the stack file that fails behind its bytes", UNREADABLE, "request", 1,
         [*stack, "-e", "inject=read:error=EIO:when=2"]),
        ("a first read of the input that fails", READ_FAILED, "request", 1, [*reads, "-e", "inject=read:error=EIO:when=1"]),
        ("a first read of the input that would wait", READ_FAILED, "request", 1,
         [*reads, "-e", "inject=read:error=EAGAIN:when=1"]),
        ("a read of the input that fails behind some bytes", READ_FAILED, "half", 1,
         [*half, "-e", "inject=read:error=EIO:when=2"]),
        ("a read of the input that fails behind a whole request", CUT_OFF, "request", 1,
         [*reads, "-e", "inject=read:error=EIO:when=2"]),
        ("a second write that fails", WRITE_FAILED_LATER, "two", 1, ["-e", "inject=write:error=EIO:when=2"]),
        ("a first write that fails", WRITE_FAILED, "request", 1, ["-e", "inject=write:error=EIO:when=1"]),
        ("a first write that would wait", WRITE_FAILED, "request", 1, ["-e", "inject=write:error=EAGAIN:when=1"]),
        ("a first write that takes nothing", WRITE_FAILED, "request", 1, ["-e", "inject=write:retval=0:when=1"]),
    ]:
        if not can:
            checks.pass_over(name, "strace is missing or may not be used")
            continue
        program = ["strace", "-o", "trace", *which, PROGRAM]
        checks.wants(name, want, "once", "hello.stack", stdin=stdin, program=program)
        with open("trace", "rb") as trace:
            checks.counts(f"{name}, how many", count, trace.read().count(b"(INJECTED)"))
    if can:
        check_interrupted_check(checks, stack)
        check_failed_midway(checks)
    else:
        checks.pass_over("a write that fails midway", "strace is missing or may not be used")


def check_interrupted_check(checks, stack):
    """The same of `check`, which reads no input."""
    for name, want, count, which in [
        ("interrupted reads", (0, HELLO, b""), 3, [*stack, "-e", "inject=read:error=EINTR:when=1..3"]),
        ("interrupted writes", (0, HELLO, b""), 3, ["-e", "inject=write:error=EINTR:when=1..3"]),
        ("a first read that fails", UNREADABLE, 1, [*stack, "-e", "inject=read:error=EIO:when=1"]),
        ("a first write that fails", WRITE_FAILED, 1, ["-e", "inject=write:error=EIO:when=1"]),
        ("a first write that would wait", WRITE_FAILED, 1, ["-e", "inject=write:error=EAGAIN:when=1"]),
        ("a first write that takes nothing", WRITE_FAILED, 1, ["-e", "inject=write:retval=0:when=1"]),
    ]:
        program = ["strace", "-o", "trace", *which, PROGRAM]
        checks.wants(f"check, {name}", want, "check", "hello.stack", program=program)
        with open("trace", "rb") as trace:
            checks.counts(f"check, {name}, how many", count, trace.read().count(b"(INJECTED)"))


def check_failed_midway(checks):
    """A write that takes some bytes and then one that fails: there is no third."""
    reader, writer = os.pipe()
    os.set_blocking(writer, False)
    fcntl.fcntl(writer, fcntl.F_SETPIPE_SZ, 4096)
    program = ["strace", "-o", "trace", "-e", "trace=write", PROGRAM]
    checks.wants("a write that fails midway", WRITE_FAILED, "once", "echo.stack", stdin=LARGE, stdout=writer, program=program)
    os.close(writer)
    os.close(reader)
    with open("trace", "rb") as trace:
        checks.counts("a write that fails midway, how many", 2, trace.read().count(b"write(1, "))
