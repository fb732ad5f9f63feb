"""Requests and heads, good and hostile, whole and in pieces."""

import random
import socket

from model import once
from program import DIRECTLY, Cut
from wanted import (ANSWERED, CLOSED, GET, HEAD_LIMIT, HEAD_ONLY, HELLO, KEEP, NOTHING, READ_LIMIT, TWICE,
                    refusal, refused, reply, served)

OLD = b"GET / HTTP/1.0\r\n\r\n"
KEPT_OLD = served(reply(b"hello", connection=KEEP))


def check_requests(checks):
    checks.begin("requests")
    get = b"GET / HTTP/1.1\r\n"
    long_target = HEAD_LIMIT - len(GET)
    for name, want, stdin in [
        ("the first request", ANSWERED, GET),
        ("line ends of one byte", ANSWERED, GET.replace(b"\r", b"")),
        ("a field name in small letters", ANSWERED, get + b"host: a\r\n\r\n"),
        ("a field name in capitals", ANSWERED, get + b"HOST: a\r\n\r\n"),
        ("no space in front of the value", ANSWERED, get + b"Host:a\r\n\r\n"),
        ("spaces and tabs around the value", ANSWERED, get + b"Host: \t a\t \r\n\r\n"),
        ("a longer host", ANSWERED, get + b"Host: abcdefghijklmnopqrstuvwxyz\r\n\r\n"),
        ("a query", ANSWERED, b"GET /a/b?c=d&e HTTP/1.1\r\nHost: a\r\n\r\n"),
        ("two requests", TWICE, GET + GET),
        ("an empty line between two requests", TWICE, GET + b"\r\n" + GET),
        ("a request and no request behind it", served(reply(b"hello"), refusal("F3")), GET + b"\0\xff\r\n\r\n"),
        ("empty lines in front", ANSWERED, b"\r\n\n\r\n" + GET),
        ("the longest head", ANSWERED, GET.replace(b"/ ", b"/" + b"a" * long_target + b" ")),
        ("one byte longer", refused("F1"), GET.replace(b"/ ", b"/" + b"a" * (long_target + 1) + b" ")),
        ("HTTP/1.0", CLOSED, OLD),
        ("HTTP/1.0 with a host", CLOSED, b"GET / HTTP/1.0\r\nHost: a\r\n\r\n"),
        ("HTTP/1.0 with two hosts", refused("F6"), b"GET / HTTP/1.0\r\nHost: a\r\nHost: a\r\n\r\n"),
        ("no host", refused("F6"), get + b"\r\n"),
        ("another field", refused("F6"), get + b"Hosts: a\r\n\r\n"),
        ("a request that closes", CLOSED, get + b"Host: a\r\nConnection: close\r\n\r\n"),
        ("two hosts", refused("F6"), get + b"Host: a\r\nHost: a\r\n\r\n"),
        ("an empty host", ANSWERED, get + b"Host:\r\n\r\n"),
        ("a host with a capital", ANSWERED, get + b"Host: A\r\n\r\n"),
        ("a host with a digit", ANSWERED, get + b"Host: a1\r\n\r\n"),
        ("a host with a port", ANSWERED, get + b"Host: a:80\r\n\r\n"),
        ("another method", ANSWERED, GET.replace(b"GET", b"POST")),
        ("a longer method", ANSWERED, GET.replace(b"GET", b"GETS")),
        ("a method in small letters", ANSWERED, GET.replace(b"GET", b"get")),
        ("a target with a scheme", ANSWERED, GET.replace(b"/ ", b"http://a/ ")),
        ("the target of all", refused("F5"), GET.replace(b"/ ", b"* ")),
        ("a target with a fragment", refused("F5"), GET.replace(b"/ ", b"/#a ")),
        ("a target with a letter above 127", refused("F5"), GET.replace(b"/ ", b"/\xc3\xa9 ")),
        ("a host above 127", refused("F6"), get + b"Host: \xff\r\n\r\n"),
        ("64 hosts", refused("F6"), get + b"Host: a\r\n" * 64 + b"\r\n"),
        ("65 hosts", refused("F2"), get + b"Host: a\r\n" * 65 + b"\r\n"),
        ("a target that isn't UTF-8", refused("F3"), GET.replace(b"/ ", b"/\xff ")),
        ("a target with the byte 127", refused("F3"), GET.replace(b"/ ", b"/\x7f ")),
        ("two spaces", refused("F3"), GET.replace(b"GET ", b"GET  ")),
        ("a version in small letters", refused("F3"), GET.replace(b"HTTP", b"http")),
        ("a space behind the version", refused("F3"), GET.replace(b"1.1", b"1.1 ")),
        ("a field without a name", refused("F3"), get + b": a\r\n\r\n"),
        ("no version", refused("F3"), b"GET /\r\nHost: a\r\n\r\n"),
        ("another version", refused("F3"), GET.replace(b"1.1", b"2.0")),
        ("no colon", refused("F3"), get + b"Host a\r\n\r\n"),
        ("a space in front of the colon", refused("F3"), get + b"Host : a\r\n\r\n"),
        ("a line that goes on", refused("F3"), get + b"Host: a\r\n b\r\n\r\n"),
        ("a NUL in a value", refused("F3"), get + b"Host: a\0\r\n\r\n"),
        ("a NUL in the target", refused("F3"), GET.replace(b"/ ", b"/\0 ")),
        ("a CR alone", refused("F3"), get + b"Host: a\rb\r\n\r\n"),
        ("a space in front of the method", refused("F3"), b" " + GET),
        ("a byte and a blank line", refused("F3"), b"x\n\n"),
        ("the refusal comes with the blank line", NOTHING, b"x\n"),
        ("a line in front of a request", refused("F3"), b"x\r\n" + GET),
    ]:
        checks.wants(name, want, "once", "hello.stack", stdin=stdin)


def check_heads(checks):
    checks.begin("hostile heads", DIRECTLY)
    curl = (b"GET /index.html?x=1 HTTP/1.1\r\nHost: localhost:9292\r\n"
            b"User-Agent: curl/8.5.0\r\nAccept: */*\r\n\r\n")
    checks.wants("a head as curl writes it", ANSWERED, "once", "hello.stack", stdin=curl)
    length, coding = b"Content-Length: ", b"Transfer-Encoding: "
    for name, want, line, fields in [
        ("a length and chunks", "F8", b"POST / HTTP/1.1", [length + b"1", coding + b"chunked"]),
        ("chunks and a length", "F8", b"POST / HTTP/1.1", [coding + b"chunked", length + b"0"]),
        ("gzip, chunked", "F10", b"POST / HTTP/1.1", [coding + b"gzip, chunked"]),
        ("chunked, gzip", "F9", b"POST / HTTP/1.1", [coding + b"chunked, gzip"]),
        ("chunked twice in a list", "F10", b"POST / HTTP/1.1", [coding + b"chunked, chunked"]),
        ("chunked in two fields", "F10", b"POST / HTTP/1.1", [coding + b"chunked", coding + b"chunked"]),
        ("xchunked", "F9", b"POST / HTTP/1.1", [coding + b"xchunked"]),
        ("no coding but a comma", "F9", b"POST / HTTP/1.1", [coding + b","]),
        ("an empty coding field", "F9", b"POST / HTTP/1.1", [coding]),
        ("gzip and then chunked in fields of their own", "F10", b"POST / HTTP/1.1", [coding + b"gzip", coding + b"chunked"]),
        ("chunked and then gzip in fields of their own", "F9", b"POST / HTTP/1.1", [coding + b"chunked", coding + b"gzip"]),
        ("chunks that are to come", "", b"POST / HTTP/1.1", [coding + b"chunked"]),
        ("chunks in capitals, with white space and empty elements", "", b"POST / HTTP/1.1", [coding + b", \tCHUNKED ,,"]),
        ("chunks in HTTP/1.0", "F7", b"POST / HTTP/1.0", [coding + b"chunked"]),
        ("codings in HTTP/1.0 with a length", "F7", b"POST / HTTP/1.0", [coding + b"gzip", length + b"1"]),
        ("a space in front of the colon of a coding", "F3", b"POST / HTTP/1.1", [b"Transfer-Encoding : chunked"]),
        ("a field line that begins with a space", "F3", b"POST / HTTP/1.1", [b" Transfer-Encoding: chunked"]),
        ("two lengths", "F11", b"POST / HTTP/1.1", [length + b"5", length + b"5"]),
        ("a length with a sign", "F11", b"POST / HTTP/1.1", [length + b"+5"]),
        ("a list of lengths", "F11", b"POST / HTTP/1.1", [length + b"5, 5"]),
        ("no length", "F11", b"POST / HTTP/1.1", [length]),
        ("a length in hexadecimal", "F11", b"POST / HTTP/1.1", [length + b"0x5"]),
        ("a length of 0", None, b"POST / HTTP/1.1", [length + b"0"]),
        ("forty zeros", None, b"POST / HTTP/1.1", [length + b"0" * 40]),
        ("forty digits that are zeros but the last", "", b"POST / HTTP/1.1", [length + b"0" * 39 + b"7"]),
        ("forty nines", "F12", b"POST / HTTP/1.1", [length + b"9" * 40]),
        ("the largest body that is to come", "", b"POST / HTTP/1.1", [length + b"1048576"]),
        ("one byte more", "F12", b"POST / HTTP/1.1", [length + b"1048577"]),
        ("a second host", "F6", b"POST / HTTP/1.1", [b"Host: a"]),
        ("a second host in front of a bad length", "F6", b"POST / HTTP/1.1", [b"hOST: b", length + b"x"]),
        ("64 lines", None, b"GET / HTTP/1.1", [b"X: 1"] * 63),
        ("65 lines", "F2", b"GET / HTTP/1.1", [b"X: 1"] * 64),
        ("65 lines that are no fields", "F2", b"GET / HTTP/1.1", [b"x"] * 64),
        ("64 lines of which one is no field", "F3", b"GET / HTTP/1.1", [b"X: 1"] * 62 + [b"x"]),
        ("CONNECT", "F4", b"CONNECT a:443 HTTP/1.1", []),
        ("CONNECT in small letters", "F5", b"connect a:443 HTTP/1.1", []),
        ("the asterisk of OPTIONS", None, b"OPTIONS * HTTP/1.1", []),
        ("the asterisk of another method", "F5", b"PUT * HTTP/1.1", []),
        ("an absolute target without a path", None, b"GET http://b?x HTTP/1.1", []),
        ("an absolute target in capitals", None, b"GET HTTPS://b:8/x HTTP/1.1", []),
        ("an absolute target without a host", "F5", b"GET http:///x HTTP/1.1", []),
        ("an absolute target with user information", "F5", b"GET http://u@b/ HTTP/1.1", []),
        ("another scheme", "F5", b"GET ftp://b/ HTTP/1.1", []),
        ("a port of 65,535", None, b"GET http://b:65535/ HTTP/1.1", []),
        ("a port of 65,536", "F5", b"GET http://b:65536/ HTTP/1.1", []),
        ("a target without a slash", "F5", b"GET a HTTP/1.1", []),
        ("a target without a slash in front of a second host", "F5", b"GET a HTTP/1.1", [b"Host: a"]),
        ("the asterisk, kept alive, with no body", None, b"OPTIONS * HTTP/1.1", [b"Connection: keep-alive", length + b"0"]),
        ("64 fields whose names differ", None, b"GET / HTTP/1.1", [b"X-%d: 1" % i for i in range(63)]),
        ("64 fields of two names that differ in case alone", None, b"GET / HTTP/1.1", [b"X-A: 1", b"x-a: 2"] * 31),
        ("a request that closes by a list", CLOSED, b"GET / HTTP/1.1", [b"Connection: a, CLOSE"]),
        ("a request that names close in another word", None, b"GET / HTTP/1.1", [b"Connection: closed"]),
        ("HEAD", served(HEAD_ONLY), b"HEAD / HTTP/1.1", []),
        ("head in small letters, which is another method", None, b"head / HTTP/1.1", []),
        ("HTTP/1.0 that is kept alive", KEPT_OLD, b"GET / HTTP/1.0", [b"Connection: keep-alive"]),
        ("HTTP/1.0 that is kept alive and closes", CLOSED, b"GET / HTTP/1.0", [b"Connection: keep-alive, close"]),
    ]:
        text = b"\r\n".join([line, b"Host: a", *fields, b"", b""])
        wanted = {None: ANSWERED, "": NOTHING}.get(want) or (refused(want) if isinstance(want, str) else want)
        checks.wants(name, wanted, "once", "hello.stack", stdin=text)
    get = b"GET / HTTP/1.1\r\n"
    for name, want, host in [
        ("the address in brackets", None, b"[::1]:80"), ("brackets without an end", "F6", b"[::1"),
        ("empty brackets", "F6", b"[]"), ("a host that is a port alone", "F6", b":80"),
        ("an empty port", None, b"a:"), ("a port with zeros in front", None, b"a:00080"),
        ("the largest port", None, b"a:65535"), ("a larger port", "F6", b"a:65536"),
        ("a port with a sign", "F6", b"a:+1"), ("a space in a host", "F6", b"a b"), ("two hosts in one", "F6", b"a,b/"),
    ]:
        checks.wants(name, ANSWERED if want is None else refused(want), "once", "hello.stack",
                     stdin=get + b"Host: " + host + b"\r\n\r\n")
    skipped = b"\r\n" * ((HEAD_LIMIT - len(GET)) // 2)
    room = HEAD_LIMIT - len(GET) - len(skipped)
    checks.wants("empty lines that fill the limit of a head", ANSWERED, "once", "hello.stack", stdin=skipped + b"\n" * room + GET)
    checks.wants("one empty line more", refused("F1"), "once", "hello.stack", stdin=skipped + b"\n" * (room + 1) + GET)


def check_cuts(checks):
    checks.begin("cuts", DIRECTLY)
    for size in range(len(GET)):
        checks.wants(f"the first {size} bytes", NOTHING, "once", "hello.stack", stdin=GET[:size])
    if not hasattr(socket, "SOCK_SEQPACKET"):
        checks.pass_over("input in pieces", "there are no sockets that keep pieces apart")
        return
    for size in range(1, len(GET)):
        cut = Cut([GET[:size], GET[size:]])
        checks.wants(f"cut behind {size} bytes", ANSWERED, "once", "hello.stack", stdin=cut)
    target = b"/" + b"a" * (HEAD_LIMIT - len(GET))
    longest = GET.replace(b"/", target, 1)
    closing = GET[:-2] + b"Connection: close\r\n\r\n"
    for name, want, text, size in [
        ("byte by byte", ANSWERED, GET, 1),
        ("half a request byte by byte", NOTHING, GET[:-1], 1),
        ("empty lines byte by byte", ANSWERED, b"\r\n\n" + GET, 1),
        ("HTTP/1.0 byte by byte", CLOSED, OLD, 1),
        ("no head byte by byte", refused("F3"), b"\r\n?x\r\n\r\n", 1),
        ("the longest head in large pieces", ANSWERED, longest, READ_LIMIT),
        ("the longest head in small pieces", ANSWERED, longest, 7),
        ("the longest head byte by byte", ANSWERED, longest, 1),
        ("one byte longer byte by byte", refused("F1"), longest.replace(b"/", b"//", 1), 1),
        ("no end in large pieces", refused("F1"), b"a" * (4 * READ_LIMIT), READ_LIMIT),
        ("the most bytes without an end", NOTHING, b"a" * HEAD_LIMIT, READ_LIMIT),
        ("one byte more without an end", refused("F1"), b"a" * (HEAD_LIMIT + 1), READ_LIMIT),
    ]:
        checks.wants(name, want, "once", "hello.stack", stdin=Cut.every(text, size))
    for name, want, text in [
        ("a request that closes in front of input that stays open", CLOSED, closing),
        ("HTTP/1.0 in front of input that stays open", CLOSED, OLD),
        ("a refusal in front of input that stays open", refused("F3"), b"x\n\n"),
    ]:
        checks.wants(name, want, "once", "hello.stack", stdin=Cut([text], stays_open=True))
    pieces = Cut.every(b"a" * (HEAD_LIMIT + 1), READ_LIMIT).pieces
    checks.wants("too long a head in front of input that stays open", refused("F1"), "once", "hello.stack",
                 stdin=Cut(pieces, stays_open=True))


def check_hostile(checks):
    checks.begin("hostile input", DIRECTLY)
    mib = 1 << 20
    dice = random.Random(2024)

    def noise(size, without=b""):
        return dice.randbytes(size).translate(None, without)

    # A byte above 127 begins no method, so none of these begins with a request.
    noises = [(f"random bytes, {size} of them", b"\xff" + noise(size - 1)) for size in (1, 100, 10000)]
    noises += [(f"random bytes, a mebibyte, number {i}", b"\xff" + noise(mib - 1)) for i in range(1, 6)]
    noises += [
        ("random bytes with a blank line early", b"\xff" + noise(1000, b"\n") + b"\n\r\n" + noise(mib)),
        ("random bytes with a blank line late", b"\xff" + noise(HEAD_LIMIT * 2, b"\n") + b"\n\n" + noise(mib)),
        ("random bytes without a line end", b"\xff" + noise(mib, b"\n")),
        ("random bytes, line ends and empty lines", b"\xff" + bytes(dice.choices(b"\r\n\xff", k=mib))),
        ("zeros", bytes(mib)),
        ("carriage returns", b"\r" * mib),
        ("carriage returns, as many as are held", b"\r" * HEAD_LIMIT),
    ]
    for name, text in noises:
        checks.wants(name, once(HELLO, text), "once", "hello.stack", stdin=text)
        behind = served(reply(b"hello"), once(HELLO, text)[1])
        checks.wants(name + ", behind a request", behind, "once", "hello.stack", stdin=GET + text)

    room = HEAD_LIMIT - len(GET)
    for name, want, text in [
        ("a million empty lines", refused("F1"), b"\r\n" * 1000000),
        ("a million empty lines of one byte", refused("F1"), b"\n" * 1000000),
        ("as many empty lines as are held", NOTHING, b"\n" * HEAD_LIMIT),
        ("one empty line more", refused("F1"), b"\n" * (HEAD_LIMIT + 1)),
        ("empty lines and a request, as much as is held", ANSWERED, b"\n" * room + GET),
        ("empty lines and a request, a byte more", refused("F1"), b"\n" * (room + 1) + GET),
        ("a request behind a million empty lines", refused("F1"), b"\r\n" * 1000000 + GET),
        ("a target without end", refused("F1"), b"GET /" + b"a" * mib),
        ("a value without end", refused("F1"), b"GET / HTTP/1.1\r\nHost: " + b"a" * mib),
        ("fields without end", refused("F1"), b"GET / HTTP/1.1\r\n" + b"Host: a\r\n" * 100000),
        ("a value without end that is held", NOTHING, (b"GET / HTTP/1.1\r\nHost: " + b"a" * mib)[:HEAD_LIMIT]),
        ("a request and a mebibyte of zeros behind it", served(reply(b"hello"), refusal("F1")), GET + bytes(mib)),
        ("a request that closes and a mebibyte behind it", CLOSED, GET[:-2] + b"Connection: close\r\n\r\n" + noise(mib)),
    ]:
        checks.wants(name, want, "once", "hello.stack", stdin=text)
    checks.wants("zeros without end", refused("F1"), "once", "hello.stack", stdin="/dev/zero")
