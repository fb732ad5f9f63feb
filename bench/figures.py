"""Instructions and time of `puma once`, for short and long heads, whole and byte by byte, for heads with
few and with many fields, and for bodies by length and in chunks; what a request costs on kept objects
(`warm.py`), a further request of one connection (`kept.py`), and stacks (`stacks.py`).

Instructions are counted by callgrind and are repeatable: over the whole run of the program from its
start, or of one function with all that it calls. Times are those of this machine, from starting the
program until it has ended.

What is wanted is compared with what was found. The last line counts both, and the status is 0 only where
something was compared and all of it is as wanted.
"""

import os
import platform
import re
import shutil
import socket
import statistics
import subprocess
import sys
import tempfile
import threading
import time

import kept
import stacks
import warm

TOP = os.path.dirname(os.path.dirname(os.path.abspath(__file__)))
PUMA = os.path.join(TOP, "bin", "puma")
# The program that `bin/puma` runs, or where it builds one.
PROGRAM = subprocess.run(["sh", "-c", 'top=$1; . "$top/bin/made_of"; find_program; printf %s "${program:-$built}"', "sh", TOP],
                         stdout=subprocess.PIPE, text=True, check=True).stdout
STACK = os.path.join(TOP, "examples", "hello.stack")
ECHO = os.path.join(TOP, "examples", "echo.stack")

GET = b"GET / HTTP/1.1\r\nHost: a\r\n\r\n"
KIB = 1024
# How a text comes: the bytes of each piece, or none where it comes from a file.
WHOLE = "whole, from a file"
WAYS = ((WHOLE, None), ("byte by byte", 1))
PIECES = {WHOLE: None, "in pieces of 16,384 bytes": 16384, "in pieces of 7 bytes": 7, "byte by byte": 1}
RUNS = 40
SECONDS = 5
# What is wanted at most: growth of instructions at four times the bytes and at eight times the fields, and milliseconds.
MOST_GROWTH = 4.40
MOST_FOR_FIELDS = 9
MOST_TIME = 10
# Instructions a byte of a body of 1 MiB that is echoed.
MOST_ECHOED = 5
# Each figure that was compared: its name, what was found and what is wanted at most.
compared = []


def long_head(size):
    """A request of so many bytes, by its target."""
    return GET.replace(b"/", b"/" + b"a" * (size - len(GET)), 1)


def feed(end, pieces):
    try:
        for piece in [*pieces, b""]:  # an empty piece is a read of nothing: the end
            end.send(piece)
    except OSError:
        pass  # the program has read enough


def run(command, text, cut, replies=1):
    """Runs the program on this text, which comes from a file, in pieces of so many bytes or in these pieces, and
    answers the seconds."""
    if cut:
        # Each send to such a socket is one read of the program.
        far, near = socket.socketpair(socket.AF_UNIX, socket.SOCK_SEQPACKET)
        pieces = [text[at:at + cut] for at in range(0, len(text), cut)] if isinstance(cut, int) else cut
        feeder = threading.Thread(target=feed, args=(far, pieces))
    else:
        near = tempfile.TemporaryFile()
        near.write(text)
        near.seek(0)
        feeder = None
    begun = time.perf_counter()
    child = subprocess.Popen(command, stdin=near, stdout=subprocess.PIPE, stderr=subprocess.DEVNULL)
    near.close()
    if feeder:
        feeder.start()
    out = child.stdout.read()
    child.wait()
    seconds = time.perf_counter() - begun
    child.stdout.close()
    if feeder:
        feeder.join()
        far.close()
    if child.returncode != 0 or out.count(b"HTTP/1.1 200 OK\r\n") != (replies if text else 0):
        sys.exit(f"the program answered with status {child.returncode}: {out[:80]!r}")
    return seconds


def times(command, text, cut):
    """The milliseconds of many runs, of fewer where they take long."""
    taken, end = [], time.perf_counter() + SECONDS
    while len(taken) < RUNS and (len(taken) < 3 or time.perf_counter() < end):
        taken.append(run(command, text, cut) * 1000)
    return taken


def instructions(text, cut, stack=STACK, replies=1):
    """Those of the whole run."""
    with tempfile.TemporaryDirectory() as folder:
        counted = os.path.join(folder, "counted")
        run(["valgrind", "--tool=callgrind", f"--callgrind-out-file={counted}", PROGRAM, "once", stack], text, cut, replies)
        with open(counted) as file:
            return int(re.search(r"^(?:summary|totals):\s*(\d+)", file.read(), re.M).group(1))


def request(fields):
    return b"\r\n".join([b"GET /index.html?x=1 HTTP/1.1", b"Host: localhost:9292", *fields, b"", b""])


def heads_with_fields():
    """Heads by their fields: what curl and a browser send, and 8 and 64 fields with the Host field."""
    curl = [b"User-Agent: curl/8.5.0", b"Accept: */*"]
    browser = [
        b"User-Agent: Mozilla/5.0 (X11; Linux x86_64; rv:128.0) Gecko/20100101 Firefox/128.0",
        b"Accept: text/html,application/xhtml+xml,application/xml;q=0.9,image/avif,image/webp,*/*;q=0.8",
        b"Accept-Language: en-US,en;q=0.5", b"Accept-Encoding: gzip, deflate, br, zstd", b"DNT: 1",
        b"Sec-GPC: 1", b"Connection: keep-alive", b"Referer: http://localhost:9292/a/page?of=this&site=1",
        b"Upgrade-Insecure-Requests: 1", b"Sec-Fetch-Dest: document", b"Sec-Fetch-Mode: navigate",
        b"Sec-Fetch-Site: same-origin", b"Sec-Fetch-User: ?1", b"Priority: u=0, i", b"Pragma: no-cache",
        b"Cache-Control: no-cache", b"TE: trailers", b"If-None-Match: \"5f2b-61d3\"",
        b"Cookie: " + b"; ".join(b"name%02d=%s" % (i, b"0123456789abcdef" * 3) for i in range(18))[:KIB],
    ]
    return [
        ("as curl writes it", request(curl)),
        ("a browser's, 20 fields, 1 KiB of cookies", request(browser)),
        ("8 fields, names that differ", request([b"X-Field-%02d: value" % i for i in range(7)])),
        ("64 fields, names that differ", request([b"X-Field-%02d: value" % i for i in range(63)])),
        ("8 fields, one name", request([b"X-Field-00: value"] * 7)),
        ("64 fields, one name", request([b"X-Field-00: value"] * 63)),
    ]


def by_length(size):
    return request([b"Content-Length: %d" % size]).replace(b"GET", b"POST", 1) + b"a" * size


def in_chunks(size, chunk):
    parts = b"".join(b"%x\r\n%s\r\n" % (n, b"a" * n) for n in [chunk] * (size // chunk))
    return request([b"Transfer-Encoding: chunked"]).replace(b"GET", b"POST", 1) + parts + b"0\r\n\r\n"


def body_figures():
    """Instructions a byte of a body, beyond a run with the same head and no body."""
    print("\n| body | comes | instructions | a byte of the body |")
    print("|---|---|--:|--:|")
    mib = KIB * KIB
    counts = {}

    def count(name, text, way, size, stack=STACK):
        none = by_length(0) if b"Content-Length" in text[:200] else in_chunks(0, 1)
        found = instructions(text, PIECES[way], stack)
        counts[name, way] = found - instructions(none, None, stack)
        print(f"| {name} | {way} | {found:,} | {counts[name, way] / size:.2f} |", flush=True)

    for name, text in [("1 MiB by length", by_length(mib)), ("1 MiB in chunks of 16 KiB", in_chunks(mib, 16 * KIB)),
                       ("1 MiB in chunks of 1 KiB", in_chunks(mib, KIB))]:
        for way in (WHOLE, "in pieces of 16,384 bytes"):
            count(name, text, way, mib)
    for name, text in [("1 MiB by length, echoed", by_length(mib)), ("1 MiB in chunks of 16 KiB, echoed", in_chunks(mib, 16 * KIB))]:
        count(name, text, WHOLE, mib, ECHO)
        compared.append((f"a byte of {name}", counts[name, WHOLE] / mib, MOST_ECHOED))
    grown = []
    for kind, made, ways in [
        ("by length", by_length, ("byte by byte", "in pieces of 7 bytes")),
        ("in chunks of 1 KiB", lambda size: in_chunks(size, KIB), ("byte by byte", "in pieces of 7 bytes")),
        ("in chunks of 1 byte", lambda size: in_chunks(size, 1), (WHOLE, "in pieces of 16,384 bytes")),
    ]:
        for way in ways:
            for size in (64, 256):
                count(f"{size} KiB {kind}", made(size * KIB), way, size * KIB)
            grown.append((kind, way, counts[f"256 KiB {kind}", way] / counts[f"64 KiB {kind}", way]))
    print(f"\n| growth from 64 KiB to 256 KiB, at most {MOST_GROWTH:.2f} is wanted | comes | instructions |")
    print("|---|---|--:|")
    for kind, way, times_as_many in grown:
        print(f"| {kind} | {way} | {times_as_many:.2f} times |")
        compared.append((f"growth of a body {kind}, {way}", times_as_many, MOST_GROWTH))


def main():
    # What is built is built here, and not measured.
    if subprocess.run([PUMA, "once", STACK], stdin=subprocess.DEVNULL).returncode != 0:
        sys.exit("the program was not built")
    can_count = shutil.which("valgrind") is not None
    if not can_count:
        print("passed over, since valgrind is missing: instructions\n")

    print(f"On {os.cpu_count()} processors, {platform.machine()}; {RUNS} runs each, or what {SECONDS} seconds allow.")
    print("Times are from the program's start to its end; byte by byte they hold the sender's too.\n")
    print("| request | read | instructions | best time, ms | middle time, ms |")
    print("|---|---|--:|--:|--:|")
    counts, best = {}, {}
    requests = [("short head, 27 bytes", GET)]
    requests += [(f"head of {size} KiB", long_head(size * KIB)) for size in (8, 32)]
    for name, text in requests:
        for way, cut in WAYS:
            taken = times([PROGRAM, "once", STACK], text, cut)
            best[name, way] = min(taken)
            counted = "not counted"
            if can_count:
                counts[name, way] = instructions(text, cut)
                counted = f"{counts[name, way]:,}"
            print(f"| {name} | {way} | {counted} | {min(taken):.2f} | {statistics.median(taken):.2f} |", flush=True)

    print(f"\n| growth from 8 KiB to 32 KiB | instructions, at most {MOST_GROWTH:.2f} is wanted | best time |")
    print("|---|--:|--:|")
    for way, _ in WAYS:
        few, many = ("head of 8 KiB", way), ("head of 32 KiB", way)
        grown = "not counted"
        if can_count:
            grown = f"{counts[many] / counts[few]:.2f} times"
            compared.append((f"growth of a head, {way}", counts[many] / counts[few], MOST_GROWTH))
        print(f"| {way} | {grown} | {best[many] / best[few]:.2f} times |")

    empty = instructions(b"", None) if can_count else 0
    print("\n| head | bytes | instructions of the run beyond one without input |")
    print("|---|--:|--:|")
    beyond = {}
    for name, text in heads_with_fields():
        if not can_count:
            break
        beyond[name] = instructions(text, None) - empty
        print(f"| {name} | {len(text):,} | {beyond[name]:,} |", flush=True)
    if can_count:
        print(f"\n| growth from 8 to 64 fields, at most {MOST_FOR_FIELDS} times is wanted | instructions |")
        print("|---|--:|")
        for names in ("names that differ", "one name"):
            grown = beyond["64 fields, " + names] / beyond["8 fields, " + names]
            print(f"| {names} | {grown:.2f} times |")
            compared.append((f"growth of a request, {names}", grown, MOST_FOR_FIELDS))

        body_figures()
        heads = dict(heads_with_fields())
        found, environment = warm.figures(request, heads)
        compared.extend(found)
        with tempfile.TemporaryDirectory() as folder:
            compared.extend(kept.figures(PROGRAM, folder, request, heads, instructions, environment))
            compared.extend(stacks.figures(PROGRAM, folder, heads, instructions))

    print(f"\n| starting and answering the short request, at most {MOST_TIME} ms is wanted | best time, ms | middle time, ms |")
    print("|---|--:|--:|")
    for name, command in (("the program", PROGRAM), ("through `bin/puma`", PUMA)):
        taken = times([command, "once", STACK], GET, None)
        print(f"| {name} | {min(taken):.2f} | {statistics.median(taken):.2f} |")
        compared.append((f"starting {name}", min(taken), MOST_TIME))
    return verdict()


def verdict():
    """Says of each figure that is not as wanted, and how many are, and gives the status."""
    missed = [(name, found, most) for name, found, most in compared if not found <= most]
    print()
    for name, found, most in missed:
        print(f"NOT AS WANTED: {name}: {found:.2f}, and at most {most:.2f} is wanted")
    print(f"{len(compared) - len(missed)} as wanted, {len(missed)} not as wanted")
    return 1 if missed or not compared else 0


if __name__ == "__main__":
    sys.exit(main())
