"""Endpoints: what each answers, and how its answer is sent, to GET and HEAD, to HTTP/1.1 and HTTP/1.0."""

import itertools
import random

from model import check, once
from program import DIRECTLY, write
from stack_file import escaped
from wanted import (CLOSE, CLOSING, CODED, ECHO, GET, HEAD, HEAD_ONLY, KEEP, LENGTH, OK, OLD, OLD_KEPT, PLAIN, E, bad_stack,
                    broken, post, reply, served)

CHUNKED = b"transfer-encoding: chunked\r\n"
POST = post([LENGTH + b"5"], b"hello")
# Each form of a request, alone and with a request behind it.
FORMS = [
    ("GET", GET), ("HEAD", HEAD), ("GET that closes", CLOSING), ("HEAD that closes", CLOSING.replace(b"GET", b"HEAD")),
    ("HTTP/1.0", OLD), ("HEAD of HTTP/1.0", OLD.replace(b"GET", b"HEAD")), ("HTTP/1.0, kept alive", OLD_KEPT),
    ("HEAD of HTTP/1.0, kept alive", OLD_KEPT.replace(b"GET", b"HEAD")), ("POST", POST),
    ("POST in chunks", post(CODED, b"2\r\nhe\r\n3\r\nllo\r\n0\r\n\r\n")),
]
STACKS = [
    b"text 200 text/plain hello", b"text 200 \\e \\e", b"text 404 text/plain hello", b"text 204 text/plain hello",
    b"text 200 text/plain \\x00\\xff\\n", b"text 200 a\\nb hello", b"echo", b"env",
    b"pieces 200", b"pieces 200 \\e", b"pieces 200 \\e \\e", b"pieces 200 a", b"pieces 200 ab \\e c", b"pieces 404 a b",
    b"pieces 999 a", b"pieces 304 a", b"pieces 200 \\e a \\e", b"pieces 200 0\\r\\n\\r\\n", b"pieces 200 0123456789abcdef",
    b"stream", b"stream \\e", b"stream a", b"stream ab \\e c",
    b"cookies a=1", b"cookies a=1 b=2", b"cookies \\e", b"cookies \\e \\e", b"cookies a\\nb", b"cookies a\\x7f",
    b"cookies a\\x80", b"cookies a=1;\\sPath=/",
    b"raise oops", b"raise \\e", b"late 0", b"late 0 !", b"late 0 \\e", b"late 0 a", b"late 5", b"late 5 abc defg",
    b"late 5 abc", b"late 5 abc de", b"late 5 abc de f", b"late 3 ab !", b"late 3 abc !", b"late 3 abcd !", b"late 3 abc \\x21",
    b"late 4 abc ! \\e", b"late 4 ! abc", b"late 1 ! !", b"late 2 ! !", b"late 1000000", b"late 005 hello", b"late 3 abc \\e",
    b"late 3 abcd a", b"late 5 abcdef g hijkl", b"late 3 \\e abc",
]


def check_rows(checks):
    """Worked by hand."""
    checks.begin("worked replies")
    hello = reply(b"hello")
    cookies = OK + b"set-cookie: a=1\r\nset-cookie: b=2\r\ncontent-length: 0\r\n" + E
    chunks = OK + PLAIN + CHUNKED + E + b"2\r\nab\r\n1\r\nc\r\n0\r\n\r\n"
    late = OK + b"content-length: %d\r\n" + E
    lines = (b"REQUEST_METHOD=GET\nSCRIPT_NAME=\\e\nPATH_INFO=/p\nQUERY_STRING=q=1\nSERVER_NAME=h\nSERVER_PORT=81\n"
             b"SERVER_PROTOCOL=HTTP/1.1\nREMOTE_ADDR=127.0.0.1\nrack.url_scheme=http\nrack.errors=discard\n"
             b"rack.hijack?=true\nHTTP_HOST=h:81\nHTTP_X_A=1,\\s2\n")
    asked = b"GET /p?q=1 HTTP/1.1\r\nHost: h:81\r\nX-A: 1\r\nx-a: 2\r\nX_B: 3\r\n\r\n"
    checks.counts("the length of the lines", 229, len(lines))
    for stack, name, text, want in [
        (b"text 200 text/plain hello", "GET", GET, [hello]),
        (b"text 200 text/plain hello", "HEAD", HEAD, [HEAD_ONLY]),
        (b"text 200 text/plain hello", "HTTP/1.0", OLD, [reply(b"hello", connection=CLOSE)]),
        (b"text 200 text/plain hello", "HTTP/1.0, kept alive", OLD_KEPT, [reply(b"hello", connection=KEEP)]),
        (b"pieces 200 ab c", "HTTP/1.0, kept alive", OLD_KEPT, [OK + PLAIN + CLOSE + E + b"abc"]),
        (b"pieces 200 ab c", "HTTP/1.0, kept alive, twice", OLD_KEPT * 2, [OK + PLAIN + CLOSE + E + b"abc"]),
        (b"pieces 200 ab \\e c", "GET", GET, [chunks]),
        (b"pieces 200 ab \\e c", "GET twice", GET * 2, [chunks] * 2),
        (b"pieces 200 ab \\e c", "HEAD", HEAD, [OK + PLAIN + E]),
        (b"pieces 200", "GET", GET, [OK + PLAIN + CHUNKED + E + b"0\r\n\r\n"]),
        (b"pieces 200 \\e \\e", "GET", GET, [OK + PLAIN + CHUNKED + E + b"0\r\n\r\n"]),
        (b"pieces 200", "HTTP/1.0", OLD, [OK + PLAIN + CLOSE + E]),
        (b"pieces 200 0123456789abcdef", "GET", GET, [OK + PLAIN + CHUNKED + E + b"10\r\n0123456789abcdef\r\n0\r\n\r\n"]),
        (b"stream ab \\e c", "GET", GET, [chunks]),
        (b"stream", "GET", GET, [OK + PLAIN + CHUNKED + E + b"0\r\n\r\n"]),
        (b"cookies a=1 b=2", "GET", GET, [cookies]),
        (b"cookies a=1 b=2", "HEAD", HEAD, [OK + b"set-cookie: a=1\r\nset-cookie: b=2\r\n" + E]),
        (b"cookies \\e", "GET", GET, [OK + b"set-cookie: \r\ncontent-length: 0\r\n" + E]),
        (b"cookies a\\nb", "GET", GET, [broken("L5")]),
        (b"text 200 a\\x09b hello", "GET", GET, [broken("L5")]),
        (b"text 204 text/plain hello", "GET", GET, [broken("L6")]),
        (b"text 204 a\\nb hello", "GET", GET, [broken("L5")]),
        (b"text 599 text/plain hello", "GET", GET, [b"HTTP/1.1 599 \r\n" + PLAIN + b"content-length: 5\r\n" + E + b"hello"]),
        (b"bad 4", "GET", GET, [broken("L4")]),
        (b"bad 5 4", "GET", GET, [broken("L4")]),
        (b"bad 6", "GET", GET, [broken("L6")]),
        (b"bad 6", "HEAD", HEAD, [broken("L6")]),
        (b"bad 10", "HEAD", HEAD, [OK + b"content-length: 3\r\n" + E]),
        (b"bad 7 10", "GET", GET, [broken("L7")]),
        (b"bad 10 10", "GET", GET, [broken("L8")]),
        (b"bad 4", "GET twice", GET * 2, [broken("L4")] * 2),
        (b"bad 4", "HTTP/1.0", OLD, [broken("L4", CLOSE)]),
        (b"bad 4", "HTTP/1.0, kept alive", OLD_KEPT, [broken("L4", KEEP)]),
        (b"raise oops", "GET", GET, [broken("L0")]),
        (b"late 5 abc defg", "GET twice", GET * 2, [late % 5 + b"abc"]),
        (b"late 5 abc", "GET twice", GET * 2, [late % 5 + b"abc"]),
        (b"late 3 ab !", "GET twice", GET * 2, [late % 3 + b"ab"]),
        (b"late 3 abc !", "GET twice", GET * 2, [late % 3 + b"abc"]),
        (b"late 3 abc", "GET twice", GET * 2, [late % 3 + b"abc"] * 2),
        (b"late 5 abc", "HEAD and GET", HEAD + GET, [late % 5, late % 5 + b"abc"]),
        (b"late 0", "GET twice", GET * 2, [late % 0] * 2),
        (b"late 0 !", "GET twice", GET * 2, [late % 0]),
        (b"env", "row", asked, [reply(lines)]),
    ]:
        file = b"run " + stack + b"\n"
        want = served(*want)
        checks.wants(f"{stack.decode()}, {name}", want, "once", write("stack", file), stdin=text)
        # The rules on which the other cases rest say the same.
        checks.counts(f"{stack.decode()}, {name}, by the rules", want, once(file, text))


def check_endpoints(checks):
    """Each endpoint's answer to each form of a request, alone and in front of another."""
    checks.begin("endpoints", DIRECTLY)
    for stack in STACKS:
        file = b"run " + stack + b"\n"
        write("stack", file)
        for name, text in FORMS:
            for behind in (b"", GET):
                checks.wants(f"{stack.decode()}, {name}{' and GET' if behind else ''}", once(file, text + behind),
                             "once", "stack", stdin=text + behind)
    checks.counts("all of them are stacks", [], [stack for stack in STACKS if check(b"run " + stack)[0] != 0])


def check_broken(checks):
    """`bad`: the least rule that is broken is named, whatever else is."""
    checks.begin("broken answers", DIRECTLY)
    numbers = [1, 2, 3, 4, 5, 6, 7, 8, 10]
    dice = random.Random(5)
    more = [dice.choices(numbers, k=size) for size in (3, 4, 5, 6, 7, 8) for _ in range(4)]
    more += [numbers[:-1], numbers[1:], numbers[:0:-1], [10] * 8, [7] * 8, [2, 2], [7, 7]]
    for listed in [[n] for n in numbers] + [list(pair) for pair in itertools.product(numbers, repeat=2)] + more:
        stack = b"run bad " + b" ".join(b"%d" % n for n in listed) + b"\n"
        write("stack", stack)
        if len(set(listed)) == len(listed):
            # By hand: the least is named.
            checks.wants(f"{stack!r}, GET", served(broken(f"L{min(listed)}")), "once", "stack", stdin=GET)
        for name, text in FORMS[:8] if len(listed) == 1 else [("GET", GET), ("HEAD", HEAD)]:
            checks.wants(f"{stack!r}, {name} and GET", once(stack, text + GET), "once", "stack", stdin=text + GET)
    for spelled in (b"bad 04", b"bad \\x34", b"bad 00000000000000000004"):
        checks.wants(spelled.decode(), served(broken("L4")), "once", write("stack", b"run " + spelled + b"\n"), stdin=GET)


def check_statuses(checks):
    """Every status, of a text and of pieces."""
    checks.begin("statuses of replies", DIRECTLY)
    for line in (b"run text %d text/plain hello\n", b"run pieces %d a bc\n"):
        # A reply below 200 closes its connection. The others are asked for in turn, of stacks that have a place for each.
        for status in range(100, 200):
            write("stack", line % status)
            checks.wants(f"{line % status!r}", once(line % status, GET + HEAD), "once", "stack", stdin=GET + HEAD)
        for some in (range(at, min(at + 100, 1000)) for at in range(200, 1000, 100)):
            stack = b"".join(b"map /%d\n%send\n" % (status, line % status) for status in some)
            asked = [b"%s /%d HTTP/1.1\r\nHost: a\r\n\r\n" % (method, status) for status in some for method in (b"GET", b"HEAD")]
            want = served(*[once(line % status, text)[1] for status in some for text in (GET, HEAD)])
            checks.wants(f"{line!r} from {some[0]} on", want, "once", write("stack", stack), stdin=b"".join(asked))
    for status in (99, 1000, 0, 10000):
        for line in (b"run pieces %d a\n", b"run text %d a b\n"):
            checks.wants(f"{line % status!r}", bad_stack(1, 5), "once", write("stack", line % status), stdin=GET)


def check_long(checks):
    """Long bodies, and many pieces and values."""
    checks.begin("long answers", DIRECTLY)
    many = b"run pieces 200" + b" a" * 2040 + b"\n"
    one = b"run pieces 200 " + b"a" * 4080 + b"\n"
    values = b"run cookies " + b" ".join(b"v%d" % i for i in range(800)) + b"\n"
    late = b"run late 1000000 " + b"a" * 4000 + b"\n"
    for name, stack in [("2,040 pieces", many), ("one long piece", one), ("800 values", values), ("a long break", late),
                        ("many streamed", many.replace(b"pieces 200", b"stream")),
                        ("pieces of all bytes", b"run pieces 200 " + b" ".join(escaped(bytes([b])) for b in range(256)))]:
        write("stack", stack)
        for form, text in FORMS[:5]:
            checks.wants(f"{name}, {form} and GET", once(stack, text + GET), "once", "stack", stdin=text + GET)
    # Replies that just fill the ring of 65,536 bytes, once or twice, and those beside them.
    for size in [*range(65464, 65472), *range(130999, 131005), 131072, 196608]:
        text = post([LENGTH + b"%d" % size], b"r" * size)
        checks.wants(f"an echo of {size} bytes, twice", served(*[reply(b"r" * size)] * 2), "once", "echo.stack", stdin=text * 2)
        text = text.replace(b"POST / HTTP/1.1", b"POST / HTTP/1.0", 1)
        checks.wants(f"an echo of {size} bytes to HTTP/1.0", served(reply(b"r" * size, connection=CLOSE)), "once",
                     "echo.stack", stdin=text + GET)
    largest = post([LENGTH + b"300000"], bytes(range(256)) * 1171 + bytes(224))
    checks.wants("large echoes, one behind the other", once(ECHO, largest * 3 + GET), "once", "echo.stack",
                 stdin=largest * 3 + GET)


def check_environments(checks):
    """What `env` prints of a request."""
    checks.begin("environments", DIRECTLY)
    env = b"run env\n"
    write("env.stack", env)
    get = b"GET %s HTTP/1.1\r\nHost: %s\r\n%s\r\n"
    for name, text in [
        ("a short request", GET), ("a path", get % (b"/a/b", b"a", b"")),
        ("a path with signs", get % (b"/a%20b//./..?", b"a", b"")),
        ("a query with a question mark", get % (b"/?a?b", b"a", b"")), ("an empty query", get % (b"/?", b"a", b"")),
        ("an absolute target", get % (b"http://b:8/c?d", b"a:9", b"X: 1\r\n")),
        ("an absolute target without a path", get % (b"http://b?d", b"a", b"")),
        ("an absolute target in capitals", get % (b"HTTP://B", b"a", b"")),
        ("an absolute target of HTTP/1.0 without a host", b"GET http://b/ HTTP/1.0\r\nX: 1\r\n\r\n"),
        ("HTTP/1.0 without a host", OLD), ("HTTP/1.0, kept alive", OLD_KEPT), ("an empty host", get % (b"/", b"", b"")),
        ("a port", get % (b"/", b"a:8080", b"")), ("a port with zeros", get % (b"/", b"a:0080", b"")),
        ("a port that is empty", get % (b"/", b"a:", b"")), ("port 0", get % (b"/", b"a:0", b"")),
        ("an address in brackets", get % (b"/", b"[::1]:81", b"")), ("the same without a port", get % (b"/", b"[::1]", b"")),
        ("the asterisk", b"OPTIONS * HTTP/1.1\r\nHost: a\r\n\r\n"),
        ("another method", get.replace(b"GET", b"gEt!") % (b"/", b"a", b"")),
        ("fields of one name", get % (b"/", b"a", b"X: 1\r\nY: 2\r\nx: 3\r\nX:\r\n")),
        ("a name with a low line", get % (b"/", b"a", b"X_Y: 1\r\nX-Y: 2\r\n_: 3\r\n")),
        ("content type and length", post([b"content-type: a/b", LENGTH + b"0002"], b"ab")),
        ("two content types", post([b"Content-Type: a", b"CONTENT-TYPE: b", LENGTH + b"0"])),
        ("an empty content type", post([b"Content-Type:", LENGTH + b"0"])),
        ("chunks", post([*CODED, b"A: 1"], b"3\r\nabc\r\n0\r\nT: 1\r\n\r\n")), ("no chunk", post(CODED, b"0\r\n\r\n")),
        ("values that are escaped", get % (b"/", b"a", b"X: a b\\c\xff\x80\tz\r\n")),
        ("a name of signs", get % (b"/", b"a", b"!#$%&'*+.^`|~9: 1\r\n")),
        ("a connection field", get % (b"/", b"a", b"Connection: keep-alive, x\r\n")),
        ("64 fields", get % (b"/", b"a", b"".join(b"X-%d: %d\r\n" % (i, i) for i in range(63)))),
        ("HEAD", HEAD), ("empty values", get % (b"/", b"a", b"X:\r\nY: \t \r\n")),
    ]:
        other = post([b"X-Z: 1", b"Content-Type: c", LENGTH + b"1"], b"!")
        for form, asked in [("alone", text), ("behind another", other + text), ("in front of another", text + GET)]:
            checks.wants(f"{name}, {form}", once(env, asked), "once", "env.stack", stdin=asked)
    # What a request had is gone with it: a reply depends on its own request alone.
    mixed = [GET, post([b"A: 1", b"B: 2", LENGTH + b"3"], b"abc"), OLD_KEPT, get % (b"/x?y", b"h:1", b"B: 3\r\nA: 4\r\n"), GET]
    checks.wants("requests of several kinds", served(*[once(env, text)[1] for text in mixed]), "once", "env.stack",
                 stdin=b"".join(mixed))
    checks.wants("the same turned round", served(*[once(env, text)[1] for text in mixed[::-1]]), "once", "env.stack",
                 stdin=b"".join(mixed[::-1]))
