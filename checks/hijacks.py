"""Hijackers: `take` and `part`, and what stands on a connection that one has taken over."""

import random

from connections import converse
from model import once
from program import DIRECTLY, Cut, Ready, Reset, write
from streams import into_file, packets
from wanted import (CLOSE, CLOSING, CODED, GET, HEAD, LENGTH, NOTHING, OK, OLD, OLD_KEPT, READ_FAILED, READ_LIMIT,
                    WRITE_FAILED, E, broken, linted, post, refusal, reply, served)

FORMS = [("GET", GET), ("HEAD", HEAD), ("GET that closes", CLOSING), ("HTTP/1.0", OLD), ("HTTP/1.0, kept alive", OLD_KEPT)]
TAKE = GET.replace(b"/", b"/take", 1)
# A text, and places that are taken over.
BESIDE = b"map /take\nrun take upper\nend\nmap /part\nrun part 200 echo\nend\nrun text 200 text/plain hello\n"
LONG = 200 * 1024


def letters(size, seed):
    """So many bytes of all values but 4."""
    dice = random.Random(seed)
    return bytes(dice.choices([byte for byte in range(256) if byte != 4], k=size))


def check_rows(checks):
    """Worked by hand."""
    checks.begin("worked hijacks")
    l9 = broken("L9")
    for stack, text, want in [
        (b"run take upper", GET + b"a\x04b", b"A"),
        (b"run part 200 upper", GET + b"ab", OK + E + b"AB"),
        (b"run part 200 echo", GET, OK + E),
        (b"run take echo", GET, b""),
        (b"run take echo", GET + b"hi", b"hi"),
        (b"run take echo", GET + b"a\x04b", b"a\x04b"),
        (b"run take echo", GET + GET, GET),
        (b"run take upper", GET + b"aZ{`az\xe1", b"AZ{`AZ\xe1"),
        (b"run take upper", GET + b"\x04", b""),
        (b"run take upper", GET + b"a\x04" + GET, b"A"),
        (b"run part 101 upper", GET + b"a\x04b", b"HTTP/1.1 101 Switching Protocols\r\n" + E + b"A"),
        (b"run part 599 echo", GET + b"ab", b"HTTP/1.1 599 \r\n" + E + b"ab"),
        (b"run part 204 echo", GET + b"ab", b"HTTP/1.1 204 No Content\r\n" + E + b"ab"),
        (b"use set_header x-a 1\nrun part 200 echo", GET + b"ab", OK + b"x-a: 1\r\n" + E + b"ab"),
        (b"use set_header connection upgrade\nrun part 200 echo", GET + b"ab", OK + b"connection: upgrade\r\n" + E + b"ab"),
        (b"use set_header transfer-encoding x\nrun part 200 echo", GET + b"ab", OK + E + b"ab"),
        (b"use content_type a/b\nuse content_length\nrun part 200 echo", GET + b"ab", OK + b"content-type: a/b\r\n" + E + b"ab"),
        (b"use content_type a/b\nuse set_header x-a 1\nrun take echo", GET + b"ab", b"ab"),
        (b"use set_header X-A 1\nrun part 200 echo", GET + b"ab", broken("L4")),
        (b"use content_type a/b\nrun part 204 echo", GET + b"ab", b"HTTP/1.1 204 No Content\r\n" + E + b"ab"),
        (b"use set_header content-type a\nrun part 204 echo", GET + GET, broken("L6") * 2),
        (b"use lint\nrun take echo", GET + b"ab", b"ab"),
        (b"cascade\nrun part 404 echo\nrun take upper\nend", GET + b"ab", b"AB"),
        (b"cascade\nrun take echo\nrun text 200 a b\nend", GET + b"ab", b"ab"),
        (b"cascade\nrun text 200 a hello\nrun take echo\nend", GET, reply(b"hello", b"a")),
        (b"run take echo", OLD + b"ab", b"ab"),
        (b"run take echo", CLOSING + b"ab", b"ab"),
        (b"run take echo", post([LENGTH + b"3"], b"abc") + b"de", b"de"),
        (b"run take upper", post(CODED, b"2\r\nab\r\n0\r\n\r\n") + b"de", b"DE"),
        (b"run part 200 echo", HEAD + b"ab", OK + E + b"ab"),
        (b"run part 200 echo", CLOSING + b"ab", OK + E + b"ab"),
        (b"run part 200 echo", OLD_KEPT + b"ab", OK + E + b"ab"),
    ]:
        file = stack + b"\n"
        name = f"{stack.decode()}, {text!r}"
        checks.wants(name, served(want), "once", write("stack", file), stdin=text)
        # The rules on which the other cases rest say the same.
        checks.counts(name + ", by the rules", served(want), once(file, text))
    for stack, text, want in [
        (b"run part 200 echo", GET, [l9]),
        (b"run take echo", GET, [l9]),
        (b"run take upper", GET * 3, [l9] * 3),
        (b"run part 204 echo", GET, [l9]),
        (b"run part 200 echo", HEAD + GET, [l9] * 2),
        (b"run part 200 echo", CLOSING + GET, [broken("L9", CLOSE)]),
        (b"run take echo", OLD + GET, [broken("L9", CLOSE)]),
        (b"use lint\nrun take echo", GET, [linted("L9")]),
        (b"use lint\nrun part 200 echo", GET * 2, [linted("L9")] * 2),
        (b"use set_header x-a a\\nb\nrun part 200 echo", GET, [broken("L5")]),
        (b"run take echo", GET + b"ab", [l9]),
        (b"run take echo", GET + b"x\n\n", [l9, refusal("F3")]),
    ]:
        file = stack + b"\n"
        name = f"--no-hijack, {stack.decode()}, {text!r}"
        checks.wants(name, served(*want), "once", "--no-hijack", write("stack", file), stdin=text)
        checks.counts(name + ", by the rules", served(*want), once(file, text, hijack=False))


def check_pipelined(checks):
    """A hijack behind other requests, cut at each place and in pieces of each size."""
    checks.begin("hijacks behind requests", DIRECTLY)
    write("beside.stack", BESIDE)
    hello = reply(b"hello")
    part = TAKE.replace(b"/take", b"/part")
    asked = GET + post([LENGTH + b"3"], b"abc") + TAKE + GET[:9] + b"\x04" + GET
    want = served(hello, hello, GET[:9].upper())
    checks.counts("by the rules", want, once(BESIDE, asked))
    checks.wants("in one piece", want, "once", "beside.stack", stdin=asked)
    for at in range(1, len(asked)):
        checks.wants(f"cut behind {at} bytes", want, "once", "beside.stack", stdin=Cut([asked[:at], asked[at:]]))
    for size in (1, 2, 3, 7, 100):
        checks.wants(f"in pieces of {size}", want, "once", "beside.stack", stdin=Cut.every(asked, size))
    for count in (9, 10, 11, 25, 200):
        for name, last, said in [("take", TAKE, b"BYTES"), ("part", part, OK + E + b"bytes")]:
            checks.wants(f"{name} behind {count} requests", served(hello * count, said), "once", "beside.stack",
                         stdin=GET * count + last + b"bytes")
    # The last request that a connection has may be taken over too.
    for name, last, said in [("take", TAKE, b"BYTES"), ("part", part, OK + E + b"bytes")]:
        checks.wants(f"{name} as the last request", served(hello * 9999, said), "once", "beside.stack",
                     stdin=GET * 9999 + last + b"bytes")
    for form, text in FORMS:
        for stack in (b"run take echo\n", b"run part 200 upper\n"):
            checks.wants(f"{stack!r}, {form}", once(stack, text + b"ab\x04c"), "once", write("stack", stack),
                         stdin=text + b"ab\x04c")


def check_long(checks):
    """Many bytes through a hijacker, in pieces of several sizes."""
    checks.begin("long hijacks", DIRECTLY)
    write("upper.stack", b"run take upper\n")
    write("echo_on.stack", b"run part 200 echo\n")
    text = letters(LONG, 8)
    for size in (1, 7, READ_LIMIT):
        pieces = [GET, *Cut.every(text, size).pieces]
        checks.wants(f"200 KiB by upper in pieces of {size}", served(text.upper()), "once", "upper.stack", stdin=Cut(pieces))
        checks.wants(f"200 KiB by echo in pieces of {size}", served(OK, E, text), "once", "echo_on.stack", stdin=Cut(pieces))
    checks.wants("200 KiB by upper in one file", served(text.upper()), "once", "upper.stack", stdin=GET + text)
    checks.wants("200 KiB by echo in one file", served(OK, E, text), "once", "echo_on.stack", stdin=GET + text)
    # Bytes that are held behind the request, as many as one read gives.
    for behind in (1, READ_LIMIT - len(GET) - 1, READ_LIMIT - len(GET)):
        checks.wants(f"{behind} bytes held behind the request", served(text[:behind].upper()), "once", "upper.stack",
                     stdin=Cut([GET + text[:behind]]))
    piece = letters(64, 9)
    for at in range(len(piece) + 1):
        ended = piece[:at] + b"\x04" + piece[at:]
        checks.wants(f"byte 4 behind {at} bytes", served(ended[:at].upper()), "once", "upper.stack", stdin=Cut([GET, ended, piece]))
        checks.wants(f"byte 4 behind {at} bytes that are held", served(ended[:at].upper()), "once", "upper.stack",
                     stdin=Cut([GET + ended, piece]))
    for at in (0, 1, READ_LIMIT - 1, READ_LIMIT, READ_LIMIT + 1, 3 * READ_LIMIT - 1, LONG - 1):
        ended = text[:at] + b"\x04" + text[at + 1:]
        for size in (7, READ_LIMIT):
            checks.wants(f"byte 4 behind {at} bytes in pieces of {size}", served(text[:at].upper()), "once", "upper.stack",
                         stdin=Cut([GET, *Cut.every(ended, size).pieces]))


def check_reads(checks):
    """What is read of a connection that was taken over, what each write takes, and reads that fail."""
    checks.begin("reads of hijackers", DIRECTLY)
    write("upper.stack", b"run take upper\n")
    write("part.stack", b"run part 200 upper\n")
    behind = b"never read"
    for name, stack, want, pieces in [
        ("a piece", "upper.stack", [b"AB"], [GET, b"ab"]),
        ("bytes behind the request", "upper.stack", [b"AB"], [GET + b"ab"]),
        ("bytes behind the request, and a piece", "upper.stack", [b"AB", b"C"], [GET + b"ab", b"c"]),
        ("a byte behind the request, and another", "upper.stack", [b"A", b"B"], [GET + b"a", b"b"]),
        ("three pieces", "upper.stack", [b"A", b"B", b"C"], [GET, b"a", b"b", b"c"]),
        ("nothing", "upper.stack", [], [GET]),
        ("a head, and bytes behind it", "part.stack", [OK + E, b"AB"], [GET + b"ab"]),
        ("a head, and a piece", "part.stack", [OK + E, b"AB"], [GET, b"ab"]),
        ("a largest piece", "upper.stack", [b"A" * READ_LIMIT], [GET, b"a" * READ_LIMIT]),
    ]:
        read, wrote, status = packets(stack, pieces)
        checks.counts(name + ", what each write took", want, wrote)
        checks.counts(name + ", its status", 0, status)
        checks.counts(name + ", what was not read", b"", read)
    # Behind the byte at which a hijacker stops nothing is read.
    for name, stack, want, pieces in [
        ("a byte 4 that is held", "upper.stack", [b"A"], [GET + b"a\x04b"]),
        ("a byte 4 alone that is held", "upper.stack", [], [GET + b"\x04"]),
        ("a byte 4 in a piece", "upper.stack", [b"A"], [GET, b"a\x04b"]),
        ("a byte 4 alone in a piece", "upper.stack", [b"A"], [GET, b"a", b"\x04"]),
        ("a byte 4 behind a head", "part.stack", [OK + E], [GET + b"\x04"]),
    ]:
        read, wrote, status = packets(stack, [*pieces, behind], stays_open=True)
        checks.counts(name + ", what was not read", behind, read)
        checks.counts(name + ", what each write took", want, wrote)
        checks.counts(name + ", its status", 0, status)
    for name, stack, text, want in [
        ("behind a request that is taken", "upper.stack", GET, b""), ("behind some bytes", "upper.stack", GET + b"ab", b"AB"),
        ("behind a head", "part.stack", GET + b"ab", OK + E + b"AB"),
    ]:
        checks.wants(f"a read that fails {name}", (READ_FAILED[0], want, READ_FAILED[2]), "once", stack, stdin=Reset(text))
    checks.wants("a read that fails behind a byte 4", served(b"A"), "once", "upper.stack", stdin=Reset(GET + b"a\x04b"))
    checks.wants("a request that is cut off in front of the bytes", NOTHING, "once", "upper.stack", stdin=GET[:-1])
    for stack, first in [("upper.stack", b""), ("part.stack", OK + E)]:
        want = [first + b"AB", b"C" * 1000, b"D", b"E" * 7]
        asked = [GET + b"ab", b"c" * 1000, b"d", b"e" * 7]
        checks.counts(f"a writer that waits for what is said, {stack}", (want, True, (0, b"", b"")), converse(stack, asked, want, 2000))


def check_failures(checks):
    """Letters that come and go one by one, where each read and each write fails in turn."""
    checks.begin("hijackers whose reads and writes fail", DIRECTLY)
    write("upper.stack", b"run take upper\n")
    text = bytes(range(ord("a"), ord("z") + 1)) + b"abcdefghijklm"
    pieces = [GET, *Cut.every(text, 1).pieces]
    for place in range(1, len(pieces) + 1):
        said = text[:max(place - 2, 0)].upper()
        checks.wants(f"read {place}", (READ_FAILED[0], said, READ_FAILED[2]), "once", "upper.stack",
                     stdin=Ready(*pieces[:place - 1]))
    for place in range(1, len(text) + 1):
        said = text[:place - 1].upper()
        checks.answers(f"write {place}", (WRITE_FAILED[0], said, WRITE_FAILED[2]),
                       into_file(len(said), "once", "upper.stack", stdin=Cut(pieces)))
