"""Connections: kept and pipelined requests, where they end, and replies that wait for nothing."""

import os
import random
import select
import socket
import subprocess
import time

from model import once, replies
from program import DIRECTLY, PUMA, SECONDS, Cut, write
from wanted import (ANSWERED, CLOSE, CLOSED, CLOSING, CODED, ECHO, GET, HEAD, HEAD_ONLY, HELLO, KEEP, LENGTH, NOTHING, OLD,
                    OLD_KEPT, REQUEST_LIMIT, TWICE, post, refusal, reply, served)

CURL = b"GET /index.html?x=1 HTTP/1.1\r\nHost: localhost:9292\r\nUser-Agent: curl/8.5.0\r\nAccept: */*\r\n\r\n"
FIVE = post([LENGTH + b"5"], b"hello")
CHUNKS = post(CODED, b"3\r\nhel\r\n2;x\r\nlo\r\n0\r\nT: 1\r\n\r\n")
HAS_PIECES = hasattr(socket, "SOCK_SEQPACKET")


def check_kept(checks):
    """Kept requests, and what closes a connection."""
    checks.begin("kept connections")
    hello = reply(b"hello")
    closed, kept = (reply(b"hello", connection=line) for line in (CLOSE, KEEP))
    for name, want, text in [
        ("two requests", [hello] * 2, GET * 2),
        ("eleven requests, which is more than one turn answers", [hello] * 11, GET * 11),
        ("a thousand requests", [hello] * 1000, GET * 1000),
        ("empty lines in front of each", [hello] * 3, (b"\r\n\n" + GET) * 3),
        ("empty lines behind the last", [hello], GET + b"\r\n\n\r\n"),
        ("a CR behind the last", [hello], GET + b"\r"),
        ("a request that closes", [closed], CLOSING),
        ("a request that closes, and another", [closed], CLOSING + GET),
        ("a request that closes behind another", [hello, closed], GET + CLOSING + GET),
        ("a request that closes, and a refusal", [closed], CLOSING + b"x\n\n"),
        ("a request that names keep-alive", [hello] * 2, GET[:-2] + b"Connection: keep-alive\r\n\r\n" + GET),
        ("a request that names both", [closed], GET[:-2] + b"Connection: keep-alive, close\r\n\r\n" + GET),
        ("a request that closes by a second field", [closed], GET[:-2] + b"Connection: a\r\nConnection: Close\r\n\r\n" + GET),
        ("an empty Connection field", [hello] * 2, GET[:-2] + b"Connection:\r\n\r\n" + GET),
        ("HTTP/1.0", [closed], OLD + GET),
        ("HTTP/1.0 that is kept alive", [kept, hello], OLD_KEPT + GET),
        ("HTTP/1.0 that is kept alive, three times", [kept] * 3, OLD_KEPT * 3),
        ("HTTP/1.0 behind HTTP/1.1", [hello, closed], GET + OLD + GET),
        ("HTTP/1.0 that is kept alive by a list in capitals", [kept, closed],
         OLD_KEPT.replace(b"keep", b"a, KEEP") + OLD),
        ("HTTP/1.0 that names both", [closed], OLD_KEPT.replace(b"keep-alive", b"close, keep-alive") + GET),
        ("HEAD and GET", [HEAD_ONLY, hello], HEAD + GET),
        ("HEAD that closes", [HEAD_ONLY[:-2] + CLOSE + b"\r\n"], CLOSING.replace(b"GET", b"HEAD") + GET),
        ("HEAD in HTTP/1.0", [HEAD_ONLY[:-2] + CLOSE + b"\r\n"], OLD.replace(b"GET", b"HEAD") + GET),
        ("HEAD in HTTP/1.0 that is kept alive", [HEAD_ONLY[:-2] + KEEP + b"\r\n", hello],
         OLD_KEPT.replace(b"GET", b"HEAD") + GET),
        ("bodies that a text drops", [hello] * 3, FIVE + CHUNKS + GET),
        ("a refusal behind three requests", [hello] * 3 + [refusal("F6")], GET * 3 + b"GET / HTTP/1.1\r\n\r\n" + GET),
        ("a refusal behind a body", [hello, refusal("F3")], FIVE + b"?" + GET),
        ("a refusal in front of requests", [refusal("F3")], b"x\r\n\r\n" + GET),
        ("a head as curl writes it, twice", [hello] * 2, CURL * 2),
    ]:
        checks.wants(name, served(*want), "once", "hello.stack", stdin=text)
        # The rules on which the other cases rest say the same.
        checks.counts(name + ", by the rules", served(*want), once(HELLO, text))
    check_most(checks)


def check_most(checks):
    """The reply to the last request that one connection has closes it."""
    hello, closed = reply(b"hello"), reply(b"hello", connection=CLOSE)
    for count in (REQUEST_LIMIT - 1, REQUEST_LIMIT, REQUEST_LIMIT + 1):
        want = hello * min(count, REQUEST_LIMIT - 1) + closed * (count >= REQUEST_LIMIT)
        checks.wants(f"{count} requests", (0, want, b""), "once", "hello.stack", stdin=GET * count)
    checks.counts("how many bytes these are", 690019, len(want))
    many = [hello] * (REQUEST_LIMIT - 1)
    for name, last, text in [
        ("a refusal in the place of the last reply", refusal("F3"), b"x\n\n" + GET),
        ("HTTP/1.0 that is kept alive as the last", closed, OLD_KEPT + GET),
        ("HEAD as the last", HEAD_ONLY[:-2] + CLOSE + b"\r\n", HEAD + GET),
        ("half a request in the place of the last", b"", GET[:-1]),
    ]:
        checks.wants(name, served(*many, last), "once", "hello.stack", stdin=GET * (REQUEST_LIMIT - 1) + text)
    raised = b"HTTP/1.1 500 Internal Server Error\r\nx-puma-fault: L0\r\ncontent-length: 0\r\n"
    want = (raised + b"\r\n") * (REQUEST_LIMIT - 1) + raised + CLOSE + b"\r\n"
    checks.wants("as many broken answers", (0, want, b""), "once", write("raise.stack", b"run raise oops\n"),
                 stdin=GET * (REQUEST_LIMIT + 1))


def check_pipelined(checks):
    """Several requests in one input, in pieces of each size, and the same cut at each place."""
    checks.begin("pipelined requests", DIRECTLY)
    if not HAS_PIECES:
        checks.pass_over("all", "there are no sockets that keep pieces apart")
        return
    mixed = GET + FIVE + HEAD + b"\r\n" + CHUNKS + OLD_KEPT + CURL + CLOSING + GET
    bad = GET + CHUNKS + FIVE + post(CODED, b"5\r\nhelloX") + GET
    for name, text in [("requests of all kinds", mixed), ("a refusal behind three requests", bad),
                       ("40 requests", GET * 40), ("20 bodies", (FIVE + CHUNKS) * 10)]:
        for size in (1, 2, 7, 100, len(GET), len(text)):
            for stack, file in [("hello.stack", HELLO), ("echo.stack", ECHO)]:
                checks.wants(f"{name}, in pieces of {size}, {stack}", once(file, text), "once", stack,
                             stdin=Cut.every(text, size))
    two = GET + CHUNKS
    for at in range(1, len(two)):
        checks.wants(f"two requests, cut behind {at} bytes", served(reply(b""), reply(b"hello")), "once", "echo.stack",
                     stdin=Cut([two[:at], two[at:]]))
    dice = random.Random(11)
    kinds = [GET, FIVE, CHUNKS, HEAD, CURL, OLD_KEPT, b"\r\n" + GET, post([LENGTH + b"20000"], b"b" * 20000)]
    rare = [CLOSING, OLD, b"GET / HTTP/1.1\r\n\r\n", b"?\r\n\r\n", post(CODED, b"x\r\n"), GET[:11], FIVE[:-2]]
    for turn in range(150):
        text = b"".join(dice.choice(kinds) for _ in range(dice.choice([1, 3, 12, 25])))
        text += dice.choice([b"", dice.choice(rare) + GET])
        # A read offers room for 16,384 bytes, and a socket that keeps pieces apart drops what a read has no room for.
        size = dice.choice([min(len(text), 16_384), 3, 64, 1000])
        checks.wants(f"number {turn}, in pieces of {size}", once(ECHO, text), "once", "echo.stack",
                     stdin=Cut.every(text, size))


def check_ends(checks):
    """A peer that ends: between requests, inside a head, inside a body."""
    checks.begin("ends", DIRECTLY)
    hello = reply(b"hello")
    for name, want, text in [
        ("behind a request", ANSWERED, GET), ("behind two requests", TWICE, GET * 2),
        ("behind an empty line", ANSWERED, GET + b"\r\n"), ("inside a first head", NOTHING, GET[:-1]),
        ("inside a second head", ANSWERED, GET + GET[:9]), ("inside a length's body", ANSWERED, GET + FIVE[:-1]),
        ("in front of a length's body", ANSWERED, GET + FIVE[:-5]), ("inside a size line", ANSWERED, GET + post(CODED, b"5")),
        ("behind a size line", ANSWERED, GET + post(CODED, b"5\r\n")),
        ("inside a chunk", ANSWERED, GET + post(CODED, b"5\r\nhe")),
        ("behind a chunk", ANSWERED, GET + post(CODED, b"5\r\nhello\r\n")),
        ("inside a trailer", ANSWERED, GET + post(CODED, b"0\r\nT: 1\r\n")),
        ("inside a head behind a HEAD", served(HEAD_ONLY), HEAD + GET[:1]),
        ("inside a head behind a request that closes", CLOSED, CLOSING + GET[:9]),
    ]:
        checks.wants(name, want, "once", "hello.stack", stdin=text)
        if HAS_PIECES:
            checks.wants(name + ", byte by byte", want, "once", "hello.stack", stdin=Cut.every(text, 1))
    two = GET + FIVE + GET
    for size in range(len(two)):
        count = (size >= len(GET)) + (size >= len(GET + FIVE))
        checks.wants(f"behind {size} bytes of three requests", (0, hello * count, b""), "once", "hello.stack",
                     stdin=two[:size])


def check_waiting_writers(checks):
    """Writers that send each request only when the reply to the one before it is there. No reply waits for
    bytes behind its request, and where the connection closes the program ends though the input stays open.
    """
    checks.begin("writers that wait for replies")
    env = write("env.stack", b"run env\n")
    pieces = write("pieces.stack", b"run pieces 200 ab \\e c\n")
    bad = write("bad4.stack", b"run bad 4\n")
    late = write("late.stack", b"run late 5 abc defg\n")
    large = post([LENGTH + b"200000"], b"c" * 200000)
    for name, stack, asked in [
        ("one request", "hello.stack", [GET]),
        ("fifty requests", "hello.stack", [GET] * 50),
        ("bodies", "echo.stack", [FIVE, CHUNKS, GET, FIVE]),
        ("large bodies", "echo.stack", [large, large, GET]),
        ("HEAD", "hello.stack", [HEAD, GET, HEAD]),
        ("chunks", pieces, [GET, GET, HEAD, GET]),
        ("environments", env, [CURL, GET, FIVE, OLD_KEPT]),
        ("broken answers", bad, [GET, GET]),
        ("HTTP/1.0 that is kept alive", "hello.stack", [OLD_KEPT, OLD_KEPT, GET]),
        ("a request that closes", "hello.stack", [GET, CLOSING]),
        ("HTTP/1.0", "hello.stack", [GET, OLD]),
        ("HTTP/1.0 in chunks, which closes", pieces, [GET, OLD_KEPT]),
        ("a refusal", "hello.stack", [GET, GET, b"x\n\n"]),
        ("a break of a body", late, [GET]),
        ("a head without end", "hello.stack", [GET, b"a" * 32769]),
        ("a size that is too large", "echo.stack", [GET, post(CODED, b"100001\r\n")]),
        ("a body that is too large", "echo.stack", [GET, post([LENGTH + b"1048577"])]),
    ]:
        with open(stack, "rb") as file:
            want, closed = replies(file.read(), b"".join(asked))
        got = converse(stack, asked, want, len(asked[0]))
        checks.counts(name, (want, True, (0, b"", b"")), got)
        small = [text for text in asked if len(text) < 1000]
        if small == asked:
            checks.counts(name + ", in pieces of 7", (want, True, (0, b"", b"")), converse(stack, asked, want, 7))
        if closed:
            checks.counts(name + ", input that stays open", (want, True, (0, b"", b"")),
                          converse(stack, asked, want, len(asked[0]), stays_open=True))


def converse(stack, asked, want, size, stays_open=False):
    """Sends each request in pieces of this size and reads as many bytes as its reply has. The replies, whether
    nothing came before its request was whole, and the status with what came behind.
    """
    child = subprocess.Popen([PUMA, "once", stack], stdin=subprocess.PIPE, stdout=subprocess.PIPE,
                             stderr=subprocess.PIPE, bufsize=0)
    end = time.monotonic() + SECONDS
    found, quiet = [], True
    try:
        for request, reply_wanted in zip(asked, want):
            for at in range(0, len(request), size):
                quiet = quiet and not select.select([child.stdout], [], [], 0)[0]
                child.stdin.write(request[at:at + size])
            found.append(read_some(child.stdout, len(reply_wanted), end))
        if not stays_open:
            child.stdin.close()
        rest = read_some(child.stdout, 1 << 20, end)
        return found, quiet, (child.wait(max(0, end - time.monotonic())), rest, child.stderr.read())
    except (BrokenPipeError, subprocess.TimeoutExpired) as e:
        child.kill()
        return found, quiet, repr(e)
    finally:
        for stream in (child.stdin, child.stdout, child.stderr):
            stream.close()
        child.wait()


def read_some(stream, count, end):
    """So many bytes, or fewer where the stream or the time ends."""
    text = b""
    while len(text) < count and select.select([stream], [], [], max(0, end - time.monotonic()))[0]:
        more = os.read(stream.fileno(), count - len(text))
        if not more:
            break
        text += more
    return text
