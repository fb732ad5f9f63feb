"""What is wanted of the program, written down from the rules and never taken from it. What many inputs are
answered is worked out by `model.py`.
"""

HELLO = b"run text 200 text/plain hello\n"
ECHO = b"run echo\n"
GET = b"GET / HTTP/1.1\r\nHost: a\r\n\r\n"
HEAD = GET.replace(b"GET", b"HEAD")
OLD = b"GET / HTTP/1.0\r\n\r\n"
OLD_KEPT = b"GET / HTTP/1.0\r\nConnection: keep-alive\r\n\r\n"
CLOSING = GET[:-2] + b"Connection: close\r\n\r\n"
HEAD_LIMIT = 32768
LINE_LIMIT = 64
FILE_LIMIT = 65536
READ_LIMIT = 16384
BODY_LIMIT = 1048576
SIZE_LINE_LIMIT = 1024
TRAILER_LIMIT = 8192
REQUEST_LIMIT = 10000


# Requests

CODED = [b"Transfer-Encoding: chunked"]
LENGTH = b"Content-Length: "


def post(fields, body=b"", version=b"HTTP/1.1"):
    """A request with these fields and this body, which it says nothing of by itself."""
    return b"\r\n".join([b"POST / " + version, b"Host: a", *fields, b"", b""]) + body


# Replies, exit statuses and what stands on standard error

KEEP = b"connection: keep-alive\r\n"
CLOSE = b"connection: close\r\n"


def reply(body, kind=b"text/plain", connection=b""):
    head = b"HTTP/1.1 200 OK\r\ncontent-type: %s\r\ncontent-length: %d\r\n%s\r\n"
    return head % (kind, len(body), connection) + body


def broken(rule, connection=b""):
    """The reply to a request whose answer breaks this rule for answers."""
    head = b"HTTP/1.1 500 Internal Server Error\r\nx-puma-fault: %s\r\ncontent-length: 0\r\n%s\r\n"
    return head % (rule.encode(), connection)


def refusal(fault):
    line = {
        "F1": b"431 Request Header Fields Too Large",
        "F2": b"431 Request Header Fields Too Large",
        "F3": b"400 Bad Request",
        "F4": b"501 Not Implemented",
        "F5": b"400 Bad Request",
        "F6": b"400 Bad Request",
        "F7": b"400 Bad Request",
        "F8": b"400 Bad Request",
        "F9": b"400 Bad Request",
        "F10": b"501 Not Implemented",
        "F11": b"400 Bad Request",
        "F12": b"413 Content Too Large",
        "F13": b"400 Bad Request",
        "F14": b"413 Content Too Large",
        "F15": b"400 Bad Request",
        "F16": b"431 Request Header Fields Too Large",
    }[fault]
    head = b"HTTP/1.1 %s\r\nx-puma-fault: %s\r\ncontent-length: 0\r\n%s\r\n"
    return head % (line, fault.encode(), CLOSE)


def linted(rule, behind=b""):
    """The reply to a request that `lint` answers, with these lines behind its own."""
    return b"HTTP/1.1 500 Internal Server Error\r\nx-lint: %s\r\ncontent-length: 0\r\n%s\r\n" % (rule.encode(), behind)


OK = b"HTTP/1.1 200 OK\r\n"
PLAIN = b"content-type: text/plain\r\n"
E = b"\r\n"
# Where no place fits: how long the body is, and the path.
NOT_FOUND = (b"HTTP/1.1 404 Not Found\r\ncontent-type: text/plain\r\nx-cascade: pass\r\ncontent-length: %d\r\n\r\n"
             b"Not Found: %s")
NOTHING = (0, b"", b"")
ANSWERED = (0, reply(b"hello"), b"")
CLOSED = (0, reply(b"hello", connection=CLOSE), b"")
TWICE = (0, reply(b"hello") * 2, b"")
# The reply to a HEAD, by a text and by an echo alike.
HEAD_ONLY = b"HTTP/1.1 200 OK\r\ncontent-type: text/plain\r\n\r\n"
NO_MEMORY = (1, b"", b"puma: no memory\n")
USAGE = (2, b"", b"puma: usage\n")
ABSENT = (3, b"", b"puma: file absent\n")
LONG = (3, b"", b"puma: file long\n")
UNREADABLE = (3, b"", b"puma: file failed\n")
READ_FAILED = (6, b"", b"puma: read failed\n")
WRITE_FAILED = (7, b"", b"puma: write failed\n")


def bad_stack(line, rule):
    return (4, b"", b"puma: stack line %d S%d\n" % (line, rule))


def refused(fault):
    return (0, refusal(fault), b"")


def served(*replies):
    return (0, b"".join(replies), b"")
