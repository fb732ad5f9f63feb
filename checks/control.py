"""Orders to a control server, which is a small one of the checks' own: it answers one connection."""

import os
import socket
import threading
import time

from program import run
from wanted import WRITE_FAILED

HOST = "127.0.0.1"
PAUSE = 0.002


def reply(status, body):
    """A reply as the control server gives it behind a request that closes."""
    head = b"HTTP/1.1 %s\r\ncontent-type: application/json\r\ncontent-length: %d\r\nconnection: close\r\n\r\n"
    return head % (status, len(body)) + body


OK = reply(b"200 OK", b'{"status":"ok"}')
FORBIDDEN = reply(b"403 Forbidden", b'{"status":"forbidden"}')
BUSY = reply(b"409 Conflict", b'{"phase":0,"status":"busy","target":1}')
DONE = (0, b'{"status":"ok"}\n', b"")
NO_ANSWER = (13, b"", b"puma: no answer\n")
DIAL_FAILED = (12, b"", b"puma: dial failed\n")
USAGE = (2, b"", b"puma: usage\n")


def request(order, token=b"t"):
    return b"GET /%s?token=%s HTTP/1.1\r\nHost: localhost\r\nConnection: close\r\n\r\n" % (order, token)


class Server:
    """Listens at a port of its own, reads one request, sends these pieces and closes, or holds on until it is told."""

    def __init__(self, pieces, holds=False):
        self.pieces, self.holds = pieces, holds
        self.asked = b""
        self.over = threading.Event()
        self.listener = socket.create_server((HOST, 0))
        self.listener.settimeout(60)
        self.address = f"{HOST}:{self.listener.getsockname()[1]}"
        self.thread = threading.Thread(target=self.serve)
        self.thread.start()

    def serve(self):
        try:
            peer, _ = self.listener.accept()
        except OSError:
            return
        with peer:
            peer.settimeout(60)
            peer.setsockopt(socket.IPPROTO_TCP, socket.TCP_NODELAY, 1)
            try:
                while b"\r\n\r\n" not in self.asked:
                    more = peer.recv(4096)
                    if not more:
                        return
                    self.asked += more
                for piece in self.pieces:
                    peer.sendall(piece)
                    if len(self.pieces) > 1:
                        time.sleep(PAUSE)
                if self.holds:
                    self.over.wait(60)
            except OSError:
                # The client has read enough and has ended.
                pass

    def end(self):
        self.over.set()
        self.listener.close()
        self.thread.join()


def order(checks, name, want, pieces, word=b"stop", holds=False, **how):
    """What an order to a server of these pieces gives, and that the server was asked for it."""
    server = Server(pieces, holds)
    try:
        got = run(["control", server.address, "--token", "t", word.decode()], program=checks.program, **how)
    finally:
        server.end()
    checks.answers(name, want, got)
    checks.counts(name + ", asked", request(word), server.asked)


def check_orders(checks):
    checks.begin("orders to a control server")
    for word in (b"stats", b"phased-restart", b"stop", b"halt"):
        order(checks, word.decode(), DONE, [OK], word)
    order(checks, "a wrong token", (14, b'{"status":"forbidden"}\n', b"puma: denied 403\n"), [FORBIDDEN])
    order(checks, "a busy server", (14, b'{"phase":0,"status":"busy","target":1}\n', b"puma: denied 409\n"), [BUSY],
          b"phased-restart")
    order(checks, "a reply in single bytes", DONE, [bytes([byte]) for byte in OK])
    order(checks, "a reply and more", DONE, [OK + OK])
    order(checks, "a reply to a kept connection", DONE, [OK.replace(b"connection: close\r\n", b"")], holds=True)
    order(checks, "a body of a megabyte", (0, b"a" * 1048576 + b"\n", b""), [reply(b"200 OK", b"a" * 1048576)], b"stats")
    order(checks, "an empty body", (0, b"\n", b""), [reply(b"200 OK", b"")])
    if os.path.exists("/dev/full"):
        with open("/dev/full", "wb") as full:
            order(checks, "standard output that is full", WRITE_FAILED, [OK], stdout=full)


def check_no_answers(checks):
    checks.begin("control servers without a reply")
    length = b"content-length: 15\r\n"
    for name, pieces in [
        ("a head that is cut", [b"HTTP/1.1 200 OK\r\n"]),
        ("a body that is cut", [OK[:-1]]),
        ("nothing", []),
        ("no length", [OK.replace(length, b"")]),
        ("two lengths", [OK.replace(length, length + length)]),
        ("a length that is none", [OK.replace(b"15", b"x5")]),
        ("a body that is too long", [reply(b"200 OK", b"a" * 1048577)]),
        ("another protocol", [b"* OK ready\r\n\r\n"]),
        ("a head that never ends", [b"HTTP/1.1 200 OK\r\n" + b"a: b\r\n" * 6000]),
    ]:
        order(checks, name, NO_ANSWER, pieces)
    # It gives up behind half a minute.
    begun = time.monotonic()
    order(checks, "a reply that never ends", NO_ANSWER, [OK[:-1]], holds=True)
    checks.counts("a reply that never ends is waited for", True, 20 < time.monotonic() - begun < 60)


def check_nobody(checks):
    checks.begin("control addresses that nobody has")
    with socket.create_server((HOST, 0)) as free:
        address = f"{HOST}:{free.getsockname()[1]}"
    for name, words in [("a port that nobody has", [address]), ("no port", [HOST]), ("a port that is none", [HOST + ":x"]),
                        ("no host", [":0"]), ("nothing", [""])]:
        checks.wants(name, DIAL_FAILED, "control", *words, "--token", "t", "stop")
    for name, words in [
        ("an unknown order", [address, "--token", "t", "go"]),
        ("no order", [address, "--token", "t"]),
        ("no token", [address, "stop"]),
        ("an empty token", [address, "--token", "", "stop"]),
        ("a token with a hyphen", [address, "--token", "a-b", "stop"]),
        ("a token of 65 letters", [address, "--token", "t" * 65, "stop"]),
        ("two tokens", [address, "--token", "t", "--token", "t", "stop"]),
        ("a word more", [address, "--token", "t", "stop", "now"]),
        ("an unknown option", [address, "--token", "t", "--now", "stop"]),
    ]:
        checks.wants(name, USAGE, "control", *words)
    checks.wants("a token of 64 letters", DIAL_FAILED, "control", address, "--token", "t" * 64, "stop")
    checks.wants("the token in one word", DIAL_FAILED, "control", address, "--token=t", "stop")
