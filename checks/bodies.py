"""Bodies by length and in chunks, good and hostile, whole and in pieces."""

import random
import socket

from model import once
from program import DIRECTLY, Cut
from wanted import (ANSWERED, BODY_LIMIT, CODED, ECHO, GET, HEAD_ONLY, LENGTH, LINE_LIMIT, NOTHING, READ_LIMIT,
                    SIZE_LINE_LIMIT, TRAILER_LIMIT, post, refusal, refused, reply, served)


def check_bodies(checks):
    """The table of hostile bodies, each whole and in single bytes."""
    checks.begin("bodies", DIRECTLY)
    row = post(CODED, b"5;x=1\r\nhello\r\n0\r\nT: 1\r\n\r\n")
    trailer = b"0\r\nT: " + b"a" * (TRAILER_LIMIT - 7) + b"\r\n\r\n"
    many, few = b"X: 1\r\n" * (LINE_LIMIT + 1), b"X: 1\r\n" * LINE_LIMIT
    long_line = b"5;" + b"x" * (SIZE_LINE_LIMIT - 4) + b"\r\nhello\r\n0\r\n\r\n"
    hello, none = (0, reply(b"hello"), b""), (0, reply(b""), b"")
    rows = [
        ("a length twice", refused("F11"), post([LENGTH + b"5"] * 2, b"hello")),
        ("a length with a sign", refused("F11"), post([LENGTH + b"+5"], b"hello")),
        ("a list of lengths", refused("F11"), post([LENGTH + b"5, 5"], b"hello")),
        ("a length of nothing", refused("F11"), post([LENGTH])),
        ("xchunked", refused("F9"), post([b"Transfer-Encoding: xchunked"])),
        ("no coding but a comma", refused("F9"), post([b"Transfer-Encoding: ,"])),
        ("chunked twice in a list", refused("F10"), post([b"Transfer-Encoding: chunked, chunked"])),
        ("chunked in two fields", refused("F10"), post(CODED * 2)),
        ("chunks in HTTP/1.0", refused("F7"), post(CODED, version=b"HTTP/1.0")),
        ("a space in front of the colon", refused("F3"), post([b"Transfer-Encoding : chunked"])),
        ("a field line that begins with a space", refused("F3"), post([b" Transfer-Encoding: chunked"])),
        ("data that no line end follows", refused("F13"), post(CODED, b"5\r\nhelloX")),
        ("data that a CR and no LF follow", refused("F13"), post(CODED, b"5\r\nhello\rX")),
        ("data that an LF alone follows", refused("F13"), post(CODED, b"5\r\nhello\n")),
        ("a size with a sign", refused("F13"), post(CODED, b"-1\r\n")),
        ("a size of twenty digits", refused("F13"), post(CODED, b"F" * 20 + b"\r\n")),
        ("the largest size of sixteen digits", refused("F14"), post(CODED, b"F" * 16 + b"\r\n")),
        ("no size", refused("F13"), post(CODED, b"\r\n")),
        ("a size line that ends in LF alone", refused("F13"), post(CODED, b"5\nhello\r\n0\r\n\r\n")),
        ("a size with a space in front", refused("F13"), post(CODED, b" 5\r\nhello")),
        ("a size with spaces behind", hello, post(CODED, b"5 \t\r\nhello\r\n0\r\n\r\n")),
        ("a size in hexadecimal with 0x", refused("F13"), post(CODED, b"0x5\r\nhello")),
        ("a CR in an extension", refused("F13"), post(CODED, b"5;\rx\r\nhello")),
        ("the refusal of a size line waits for its LF", NOTHING, post(CODED, b"-1\r")),
        ("a size past the limit", refused("F14"), post(CODED, b"100001\r\n")),
        ("sizes that pass the limit together", refused("F14"), post(CODED, b"5\r\nhello\r\nFFFFC\r\n")),
        ("the longest size line", hello, post(CODED, long_line)),
        ("one byte longer", refused("F15"), post(CODED, long_line.replace(b";", b";x", 1))),
        ("a size line that is too long goes before its form", refused("F15"), post(CODED, b"-" * SIZE_LINE_LIMIT)),
        ("one byte less is no refusal yet", NOTHING, post(CODED, b"-" * (SIZE_LINE_LIMIT - 1))),
        ("64 field lines", none, post([b"X: 1"] * 63)),
        ("65 field lines", refused("F2"), post([b"X: 1"] * 64)),
        ("the longest trailer", none, post(CODED, trailer)),
        ("a trailer of one byte more", refused("F16"), post(CODED, trailer.replace(b"T: ", b"T: a"))),
        ("a trailer without an end", refused("F16"), post(CODED, b"0\r\n" + b"a" * (TRAILER_LIMIT + 1))),
        ("as much of a trailer as is held", NOTHING, post(CODED, b"0\r\n" + b"a" * TRAILER_LIMIT)),
        ("a trailer of 64 lines", none, post(CODED, b"0\r\n" + few + b"\r\n")),
        ("a trailer of 65 lines", refused("F16"), post(CODED, b"0\r\n" + many + b"\r\n")),
        ("65 lines that are no fields", refused("F16"), post(CODED, b"0\r\n" + b"x\n" * 65 + b"\n")),
        ("a trailer that is no field", refused("F13"), post(CODED, b"0\r\nx\r\n\r\n")),
        ("the refusal of a trailer waits for its blank line", NOTHING, post(CODED, b"0\r\nx\r\n")),
        ("a trailer that looks like a request", refused("F13"), post(CODED, b"0\r\n" + GET)),
        ("a trailer whose lines end in LF alone", none, post(CODED, b"0\r\nT: 1\n\n")),
        ("a last chunk with many zeros and an extension", hello, post(CODED, b"0005\r\nhello\r\n000;a=b\r\n\r\n")),
        ("a second request behind the chunks", served(reply(b"hello"), reply(b"")), row + GET),
        ("chunks twice", served(reply(b"hello") * 2), row + row),
        ("a refusal behind chunks", served(reply(b"hello"), refusal("F13")), row + post(CODED, b"5\r\nhelloX")),
        ("a body by length", hello, post([LENGTH + b"0005"], b"hello")),
        ("a request behind a body", served(reply(b"hello"), reply(b"")), post([LENGTH + b"5"], b"hello" + GET)),
        ("a body behind a body", served(reply(b"hello"), reply(b"12")),
         post([LENGTH + b"5"], b"hello" + post([LENGTH + b"2"], b"12"))),
        ("a byte more than the length, which is no request", hello, post([LENGTH + b"5"], b"hello!")),
        ("half a body behind a body", hello, post([LENGTH + b"5"], b"hello" + post([LENGTH + b"2"], b"1"))),
        ("a body that looks like a request", (0, reply(GET), b""), post([LENGTH + b"%d" % len(GET)], GET)),
        ("a body of bytes of all values", (0, reply(bytes(range(256))), b""), post([LENGTH + b"256"], bytes(range(256)))),
        ("a body that isn't whole", NOTHING, post([LENGTH + b"6"], b"hello")),
        ("HEAD with a body that isn't whole", NOTHING, post([LENGTH + b"6"], b"hello").replace(b"POST", b"HEAD")),
        ("HEAD with a body", served(HEAD_ONLY), post([LENGTH + b"5"], b"hello").replace(b"POST", b"HEAD")),
        ("an extension and a trailer, which are dropped", hello, row),
    ]
    for name, want, text in rows:
        checks.wants(name, want, "once", "echo.stack", stdin=text)
    for name, want, text in rows if hasattr(socket, "SOCK_SEQPACKET") else []:
        checks.wants(name + ", in single bytes", want, "once", "echo.stack", stdin=Cut.every(text, 1))
    at = row.index(b"5;x=1\r\n") + 6
    checks.wants("cut between CR and LF of the first size line", hello, "once", "echo.stack", stdin=Cut([row[:at], row[at:]]))
    for size in range(1, len(row)):
        checks.wants(f"chunks that end behind {size} bytes", NOTHING, "once", "echo.stack", stdin=row[:size])
    # A text stack answers a body as any request.
    checks.wants("a body to a text", ANSWERED, "once", "hello.stack", stdin=row)
    checks.wants("half a body to a text", NOTHING, "once", "hello.stack", stdin=post([LENGTH + b"5"], b"hell"))


def check_large_bodies(checks):
    checks.begin("large bodies", DIRECTLY)
    largest = b"a" * BODY_LIMIT
    whole = (0, reply(largest), b"")
    by_length = post([LENGTH + b"%d" % BODY_LIMIT], largest)
    checks.wants("the largest body", whole, "once", "echo.stack", stdin=by_length)
    checks.wants("one byte less than the largest", NOTHING, "once", "echo.stack", stdin=by_length[:-1])
    checks.wants("one byte more", refused("F12"), "once", "echo.stack", stdin=post([LENGTH + b"%d" % (BODY_LIMIT + 1)]))

    def chunked(size, data):
        parts = [data[at:at + size] for at in range(0, len(data), size)]
        return post(CODED, b"".join(b"%x\r\n%s\r\n" % (len(part), part) for part in parts) + b"0\r\n\r\n")

    for name, text in [("in one chunk", chunked(BODY_LIMIT, largest)), ("in chunks of 16 KiB", chunked(16384, largest)),
                       ("in chunks of 1,000 bytes", chunked(1000, largest))]:
        checks.wants("the largest body " + name, whole, "once", "echo.stack", stdin=text)
        if hasattr(socket, "SOCK_SEQPACKET"):
            checks.wants(f"the same {name}, in pieces", whole, "once", "echo.stack", stdin=Cut.every(text, READ_LIMIT))
    checks.wants("a sum of chunks past the limit", refused("F14"), "once", "echo.stack",
                 stdin=chunked(16384, largest + b"a"))
    small = b"ab" * 5000
    checks.wants("chunks of one byte", (0, reply(small), b""), "once", "echo.stack", stdin=chunked(1, small))


def check_random_chunks(checks):
    """Chunks made by dice, good ones and broken ones, against the rules written down above."""
    checks.begin("random chunks", DIRECTLY)
    dice = random.Random(977)
    kinds = {"answered": 0, "refused": 0, "waiting": 0}

    def some(parts):
        return dice.choice(parts)

    def chunk():
        data = dice.randbytes(some([1, 2, 9, 15, 16, 17, 40]))
        size = some([b"%x", b"%X", b"0%x", b"%016x"]) % len(data)
        return size + some([b"", b"", b" ", b"\t ", b";", b";a=b", b" ;\"x\""]) + b"\r\n" + data + b"\r\n"

    for turn in range(400):
        text = b"".join(chunk() for _ in range(some([0, 1, 1, 2, 5])))
        text += some([b"0", b"00", b"0;x", b"0 "]) + b"\r\n" + some([b"", b"T: 1\r\n", b"A:\nB: c\r\n"]) + some([b"\r\n", b"\n"])
        for _ in range(some([0, 0, 1, 1, 2])):
            at = dice.randrange(len(text))
            broken = some([b"", b"\r", b"\n", b"0", b"F", b" ", b";", b":", dice.randbytes(1), b"\r\n"])
            text = text[:at] + broken + text[at + some([0, 1, 1, 2]):]
        if dice.random() < 0.2:
            text = text[:dice.randrange(len(text) + 1)]
        pieces = post(CODED, text)
        want = once(ECHO, pieces)
        kinds["waiting" if want == NOTHING else "refused" if want[1].startswith(b"HTTP/1.1 4") else "answered"] += 1
        cut = Cut.every(pieces, some([1, 2, 3, 7, 50])) if turn % 2 and hasattr(socket, "SOCK_SEQPACKET") else pieces
        checks.wants(f"number {turn}: {text!r}", want, "once", "echo.stack", stdin=cut)
    checks.counts("each kind of answer came", True, min(kinds.values()) > 20)
