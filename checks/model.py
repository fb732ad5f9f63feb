"""What the program answers, worked out from the rules by readers and writers of its own, over whole texts: which
request or refusal stands at the front, how the stack's answer is framed, and where the connection ends. Nothing of it
is taken from the program.
"""

import re

from stack_answers import TOKEN, Reply, Taken, broken_answer, is_bare, stack_of, tail
from stack_file import read, written
from wanted import (BODY_LIMIT, FILE_LIMIT, HEAD_LIMIT, LINE_LIMIT, LONG, REQUEST_LIMIT, SIZE_LINE_LIMIT, TRAILER_LIMIT,
                    bad_stack, refusal, served)

FIELD = rb"(" + TOKEN + rb"):([\t\x20-\x7e\x80-\xff]*)\r?\n"
NAME = rb"(?:[A-Za-z0-9\-._~!$&'()*+,;=%]+|\[[0-9A-Fa-f:.]+\])"
REASONS = {
    100: "Continue", 101: "Switching Protocols", 200: "OK", 201: "Created", 202: "Accepted", 204: "No Content",
    206: "Partial Content", 301: "Moved Permanently", 302: "Found", 303: "See Other", 304: "Not Modified",
    307: "Temporary Redirect", 308: "Permanent Redirect", 400: "Bad Request", 401: "Unauthorized",
    403: "Forbidden", 404: "Not Found", 405: "Method Not Allowed", 408: "Request Timeout", 409: "Conflict",
    410: "Gone", 413: "Content Too Large", 415: "Unsupported Media Type", 422: "Unprocessable Content",
    429: "Too Many Requests", 431: "Request Header Fields Too Large", 500: "Internal Server Error",
    501: "Not Implemented", 503: "Service Unavailable",
}


# Requests

class Request:
    """What was read of a request, and how many bytes it took."""

    def __init__(self, line, fields, body, taken):
        self.method, self.target, self.version = line
        self.fields, self.body, self.taken = fields, body, taken

    def values(self, name):
        return [value for other, value in self.fields if other.lower() == name]

    def persists(self):
        words = listed(self.values(b"connection"))
        return b"close" not in words and (self.version == b"HTTP/1.1" or b"keep-alive" in words)


def listed(values):
    words = [word.strip(b" \t").lower() for value in values for word in value.split(b",")]
    return [word for word in words if word]


def host_is_valid(text):
    found = re.fullmatch(NAME + rb"(?::([0-9]*))?", text)
    return not text or found is not None and int(found[1] or b"0") <= 65535


def target_is_valid(method, target):
    if target == b"*":
        return method == b"OPTIONS"
    if re.search(rb"[^!-~]|#", target):
        return False
    authority = authority_of(target)
    return target.startswith(b"/") if authority is None else authority != b"" and host_is_valid(authority)


def authority_of(target):
    found = re.match(rb"https?://([^/?]*)", target, re.I)
    return found and found[1]


def head_fault(method, target, version, fields):
    """The first of F4 to F12 that stands, or none."""
    def values(name):
        return [value for other, value in fields if other.lower() == name]

    hosts, lengths, codings = values(b"host"), values(b"content-length"), values(b"transfer-encoding")
    words = listed(codings)
    digits = len(lengths) == 1 and re.fullmatch(rb"[0-9]+", lengths[0])
    for fault, stands in [
        ("F4", method == b"CONNECT"),
        ("F5", not target_is_valid(method, target)),
        ("F6", len(hosts) > 1 or version == b"HTTP/1.1" and not hosts or not all(map(host_is_valid, hosts))),
        ("F7", codings and version == b"HTTP/1.0"),
        ("F8", codings and lengths),
        ("F9", codings and words[-1:] != [b"chunked"]),
        ("F10", len(words) > 1),
        ("F11", lengths and not digits),
        ("F12", lengths and digits and int(lengths[0]) > BODY_LIMIT),
    ]:
        if stands:
            return fault
    return None


def is_utf8(text):
    try:
        text.decode()
    except UnicodeDecodeError:
        return False
    return True


def head_end(text):
    """Where the first head text ends: behind the first blank line that isn't at the front."""
    at = 0
    while text[at:at + 1] == b"\n" or text[at:at + 2] == b"\r\n":
        at += 1 if text[at:at + 1] == b"\n" else 2
    while True:
        at = text.find(b"\n", at) + 1
        if at == 0:
            return None
        if text[at:at + 1] == b"\n":
            return at + 1
        if text[at:at + 2] == b"\r\n":
            return at + 2


def stands(text):
    """What stands at the front of this text: a request, the name of a fault, or none."""
    end = head_end(text)
    if end is None or end > HEAD_LIMIT:
        return "F1" if len(text) > HEAD_LIMIT else None
    head = re.sub(rb"\A(?:\r?\n)+", b"", text[:end])
    if head.count(b"\n") - 2 > LINE_LIMIT:
        return "F2"
    line = re.match(rb"(" + TOKEN + rb") ([!-~\x80-\xff]+) (HTTP/1\.[01])\r?\n", head)
    if line is None or not is_utf8(line[2]) or re.fullmatch(rb"(?:" + FIELD + rb")*\r?\n", head[line.end():]) is None:
        return "F3"
    fields = [(m[1], m[2].strip(b" \t")) for m in re.finditer(FIELD, head[line.end():])]
    fault = head_fault(*line.groups(), fields)
    if fault is not None:
        return fault
    request = Request(line.groups(), fields, b"", end)
    if request.values(b"transfer-encoding"):
        found = chunks(text[end:])
        if found is None or isinstance(found, str):
            return found
        request.body, behind = found
        request.taken += behind
    elif request.values(b"content-length"):
        size = int(request.values(b"content-length")[0])
        request.body = text[end:end + size]
        request.taken += size
        if len(request.body) < size:
            return None
    return request


def chunks(text):
    """The data of a body in chunks and where it ends, the name of a fault, or none."""
    data, at = b"", 0
    while True:
        end = text.find(b"\n", at, at + SIZE_LINE_LIMIT)
        if end < 0:
            return "F15" if len(text) - at >= SIZE_LINE_LIMIT else None
        line = re.fullmatch(rb"([0-9A-Fa-f]{1,16})[ \t]*(?:;[^\r\n]*)?\r\n", text[at:end + 1])
        if line is None:
            return "F13"
        at, size = end + 1, int(line[1], 16)
        if len(data) + size > BODY_LIMIT:
            return "F14"
        if size == 0:
            break
        data += text[at:at + size]
        at += size
        behind = text[at:at + 2]
        if behind != b"\r\n"[:len(behind)]:
            return "F13"
        if len(behind) < 2:
            return None
        at += 2
    trailer = text[at:]
    found = re.match(rb"\r?\n|.*?\n\r?\n", trailer[:TRAILER_LIMIT], re.S)
    if found is None:
        return "F16" if len(trailer) > TRAILER_LIMIT else None
    if found[0].count(b"\n") - 1 > LINE_LIMIT:
        return "F16"
    return (data, at + found.end()) if re.fullmatch(rb"(?:" + FIELD + rb")*\r?\n", found[0]) else "F13"


# The environment

def pairs(request, hijack):
    authority = authority_of(request.target)
    rest = request.target if authority is None else request.target[request.target.index(b"//") + 2 + len(authority):]
    path, _, query = rest.partition(b"?")
    hosts = request.values(b"host")
    host = authority if authority is not None else hosts[0] if hosts else b""
    name, port = b"localhost", b"9292"
    if host:
        name = re.match(NAME, host)[0]
        port = b"%d" % int(host[len(name) + 1:] or b"80")
    found = [
        (b"REQUEST_METHOD", request.method), (b"SCRIPT_NAME", b""),
        (b"PATH_INFO", path if path or authority is None else b"/"),
        (b"QUERY_STRING", query), (b"SERVER_NAME", name), (b"SERVER_PORT", port), (b"SERVER_PROTOCOL", request.version),
        (b"REMOTE_ADDR", b"127.0.0.1"), (b"rack.url_scheme", b"http"), (b"rack.errors", b"discard"),
        (b"rack.hijack?", b"true" if hijack else b"false"),
    ]
    if request.values(b"content-type"):
        found.append((b"CONTENT_TYPE", b", ".join(request.values(b"content-type"))))
    if request.values(b"content-length"):
        found.append((b"CONTENT_LENGTH", request.values(b"content-length")[0]))
    if request.values(b"transfer-encoding"):
        found.append((b"CONTENT_LENGTH", b"%d" % len(request.body)))
    others = {}
    for name, value in request.fields:
        name = name.upper()
        if b"_" not in name and name not in (b"CONTENT-TYPE", b"CONTENT-LENGTH", b"TRANSFER-ENCODING"):
            others.setdefault(name, []).append(value)
    if authority is not None:
        others[b"HOST"] = [authority]
    return found + [(b"HTTP_" + name.replace(b"-", b"_"), b", ".join(values)) for name, values in others.items()]


# Replies

def framed(request, env, answered, last):
    """The bytes of the reply, whether the connection closes behind them, and the hijacker that goes on, or none."""
    rule = broken_answer(env, answered)
    if rule is not None:
        answered = Reply(500, [(b"x-puma-fault", b"L%d" % rule), (b"content-length", b"0")], [], True, False)
    if isinstance(answered, Taken):
        return b"", False, answered.hijacker
    status, headers, pieces, known, raises, part = answered
    if part is not None:
        return head_of(status, headers, is_left_out_of_part) + b"\r\n", False, part
    body, breaks, closing, line = b"", False, False, b""
    promised = next((int(value) for name, value in headers if name == b"content-length"), None)
    if request.method == b"HEAD" or is_bare(status):
        pass
    elif promised is not None:
        for piece in pieces:
            if len(body) + len(piece) > promised:
                breaks = True
                break
            body += piece
        breaks = breaks or raises or len(body) < promised
    elif known:
        line, body = b"content-length: %d\r\n" % len(b"".join(pieces)), b"".join(pieces)
    elif request.version == b"HTTP/1.1":
        line = b"transfer-encoding: chunked\r\n"
        body = b"".join(b"%x\r\n%s\r\n" % (len(piece), piece) for piece in pieces if piece) + b"0\r\n\r\n"
    else:
        closing, body = True, b"".join(pieces)
    asked = listed([value for name, value in headers if name == b"connection"])
    closes = closing or last or not request.persists() or status < 200 or b"close" in asked
    if closes:
        line += b"connection: close\r\n"
    elif request.version == b"HTTP/1.0":
        line += b"connection: keep-alive\r\n"
    return head_of(status, headers, is_left_out) + line + b"\r\n" + body, closes or breaks, None


def head_of(status, headers, leaves_out):
    """The status line and the headers that are not left out."""
    line = b"HTTP/1.1 %d %s\r\n" % (status, REASONS.get(status, "").encode())
    return line + b"".join(name + b": " + value + b"\r\n" for name, value in headers if not leaves_out(name))


def is_left_out_of_part(name):
    return name.startswith(b"rack.") or name == b"transfer-encoding"


def is_left_out(name):
    return is_left_out_of_part(name) or name == b"connection"


def replies(file, text, hijack=True):
    """The replies that this input is answered by, one by one, and at a hijack what the hijacker says. Also, whether
    the connection closed behind them.
    """
    stack, said = stack_of(file), []
    while True:
        found = stands(text)
        if found is None:
            return said, False
        if isinstance(found, str):
            return [*said, refusal(found)], True
        env = dict(pairs(found, hijack))
        reply, closes, hijacker = framed(found, env, stack(env, found.body), len(said) + 1 == REQUEST_LIMIT)
        said.append(reply)
        text = text[found.taken:]
        if hijacker is not None:
            return [*said, tail(hijacker, text)], hijacker == b"upper" and b"\x04" in text
        if closes:
            return said, True


# Status, output and errors of the commands

def once(file, text, hijack=True):
    """Of a connection of this stack file on this input."""
    return unread(file) or served(*replies(file, text, hijack)[0])


def check(file):
    """Of the check of this stack file."""
    return unread(file) or served(written(read(file)))


def unread(file):
    """What both commands answer to a file that is too long or no stack."""
    if len(file) > FILE_LIMIT:
        return LONG
    found = read(file)
    return bad_stack(*found) if isinstance(found, tuple) else None
