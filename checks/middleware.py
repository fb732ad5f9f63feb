"""The six middleware: what each does to a request and to its answer, alone and one within another."""

from model import once
from program import DIRECTLY, write
from wanted import (CLOSE, CODED, ECHO, E, GET, HEAD, HELLO, LENGTH, NOT_FOUND, OK, OLD, PLAIN, broken, linted, post,
                    reply,
                    served)

FIVE = b"content-length: 5\r\n"
NONE = b"content-length: 0\r\n"
COOKIE = b"set-cookie: a=1\r\n"
HELLO_HEAD = OK + PLAIN + E
FORM = b"Content-Type: application/x-www-form-urlencoded"
PUT = b"X-HTTP-Method-Override: put"
POST = post([LENGTH + b"5"], b"hello")

# What the lines in front are, the endpoint, what is asked, and the replies.
ANSWERS = [
    # Worked by hand from the rules, as all that follow.
    (b"", b"text 200 text/plain hello", HEAD, [HELLO_HEAD]),
    (b"lint", b"text 200 text/plain hello", HEAD, [linted("L11")]),
    (b"lint|head", b"text 200 text/plain hello", HEAD, [HELLO_HEAD]),
    (b"", b"bad 6", GET, [broken("L6")]),
    (b"content_length|content_type", b"cookies a=1", GET, [OK + COOKIE + b"content-type: text/html\r\n" + NONE + E]),
    # head
    (b"head", b"text 200 text/plain hello", GET + HEAD, [reply(b"hello"), HELLO_HEAD]),
    (b"head|lint", b"text 200 text/plain hello", HEAD + GET, [linted("L11"), reply(b"hello")]),
    (b"content_length|head", b"text 200 text/plain hello", HEAD + GET, [OK + PLAIN + NONE + E, reply(b"hello")]),
    (b"head|content_length", b"text 200 text/plain hello", HEAD, [OK + PLAIN + FIVE + E]),
    (b"head", b"late 5 abc !", HEAD + HEAD, [OK + FIVE + E] * 2),
    (b"lint|head", b"late 5 abc", HEAD, [OK + FIVE + E]),
    (b"head", b"raise oops", HEAD + GET, [broken("L0")] * 2),
    (b"head", b"bad 10", HEAD, [OK + b"content-length: 3\r\n" + E]),
    (b"head", b"pieces 200 ab c", HEAD + GET, [HELLO_HEAD, OK + PLAIN + b"transfer-encoding: chunked\r\n" + E
                                            + b"2\r\nab\r\n1\r\nc\r\n0\r\n\r\n"]),
    (b"content_length|head", b"pieces 200 ab c", HEAD, [OK + PLAIN + NONE + E]),
    (b"lint|content_length|head", b"stream ab", HEAD, [OK + PLAIN + NONE + E]),
    (b"head", b"text 200 text/plain hello", OLD.replace(b"GET", b"HEAD"), [OK + PLAIN + CLOSE + E]),
    # content_length
    (b"set_header x-a 1|content_length", b"text 200 text/plain hello", GET,
     [OK + PLAIN + FIVE + b"x-a: 1\r\n" + E + b"hello"]),
    (b"content_length|set_header x-a 1", b"text 200 text/plain hello", GET,
     [OK + PLAIN + b"x-a: 1\r\n" + FIVE + E + b"hello"]),
    (b"content_length", b"pieces 200", GET, [OK + PLAIN + b"transfer-encoding: chunked\r\n" + E + b"0\r\n\r\n"]),
    (b"content_length", b"bad 10", GET, [broken("L10")]),
    (b"content_length", b"bad 8", GET, [broken("L8")]),
    (b"content_length", b"bad 6", GET, [broken("L6")]),
    (b"content_length", b"bad 1", GET, [broken("L1")]),
    (b"content_length", b"raise oops", GET, [broken("L0")]),
    (b"content_length", b"late 5 hello", GET, [OK + FIVE + E + b"hello"]),
    (b"content_length|set_header content-length 5", b"text 200 text/plain hello", GET, [reply(b"hello")]),
    (b"content_length|set_header content-length 4", b"text 200 text/plain hello", GET, [broken("L10")]),
    (b"set_header x-a 1|content_length|set_header transfer-encoding x", b"text 200 text/plain hello", GET,
     [OK + PLAIN + b"x-a: 1\r\n" + FIVE + E + b"hello"]),
    (b"content_length", b"cookies a=1", GET, [OK + COOKIE + NONE + E]),
    (b"content_length|content_length", b"echo", POST, [reply(b"hello")]),
    (b"content_length", b"cookies a=1", HEAD, [OK + COOKIE + NONE + E]),
    # content_type
    (b"content_type", b"cookies a=1", GET, [OK + COOKIE + b"content-type: text/html\r\n" + NONE + E]),
    (b"content_type a/b", b"cookies a=1", GET, [OK + COOKIE + b"content-type: a/b\r\n" + NONE + E]),
    (b"content_type \\e", b"cookies a=1", GET, [OK + COOKIE + b"content-type: \r\n" + NONE + E]),
    (b"content_type a;\\sb=c", b"late 0", GET, [OK + NONE + b"content-type: a; b=c\r\n" + E]),
    (b"content_type a\\nb", b"cookies a=1", GET, [broken("L5")]),
    (b"content_type a/b", b"text 200 text/plain hello", GET, [reply(b"hello")]),
    (b"content_type a/b|content_type c/d", b"cookies a=1", GET, [OK + COOKIE + b"content-type: c/d\r\n" + NONE + E]),
    # At a bare status none is added: L6 would stand.
    (b"content_type", b"bad 7", GET, [broken("L7")]),
    (b"content_type a/b", b"raise oops", GET, [broken("L0")]),
    (b"content_type a/b|content_length", b"cookies a=1", GET, [OK + COOKIE + NONE + b"content-type: a/b\r\n" + E]),
    # set_header
    (b"set_header x-a 1", b"text 200 text/plain hello", GET, [OK + PLAIN + b"x-a: 1\r\n" + FIVE + E + b"hello"]),
    (b"set_header content-type a/b", b"text 200 text/plain hello", GET, [reply(b"hello", b"a/b")]),
    (b"set_header set-cookie z", b"cookies a=1 b=2", GET, [OK + b"set-cookie: z\r\n" + NONE + E]),
    (b"set_header x-a 1|set_header x-b 2", b"cookies a=1", GET, [OK + COOKIE + b"x-b: 2\r\nx-a: 1\r\n" + NONE + E]),
    (b"set_header x-a 1|set_header x-a 2", b"cookies a=1", GET, [OK + COOKIE + b"x-a: 1\r\n" + NONE + E]),
    (b"set_header set-cookie z|set_header x-a 1", b"cookies a=1 b=2", GET,
     [OK + b"set-cookie: z\r\nx-a: 1\r\n" + NONE + E]),
    (b"set_header x-a \\e", b"cookies a=1", GET, [OK + COOKIE + b"x-a: \r\n" + NONE + E]),
    (b"set_header x-a b\\sc", b"cookies a=1", GET, [OK + COOKIE + b"x-a: b c\r\n" + NONE + E]),
    (b"set_header x-a \\x80", b"cookies a=1", GET, [OK + COOKIE + b"x-a: \x80\r\n" + NONE + E]),
    (b"set_header x-a a\\rb", b"cookies a=1", GET, [broken("L5")]),
    (b"set_header X-A 1", b"cookies a=1", GET, [broken("L4")]),
    (b"set_header Set-Cookie z", b"cookies a=1", GET, [broken("L4")]),
    (b"set_header \\e 1", b"cookies a=1", GET, [broken("L2")]),
    (b"set_header a\\sb 1", b"cookies a=1", GET, [broken("L2")]),
    (b"set_header status 200", b"cookies a=1", GET, [broken("L3")]),
    (b"set_header content-length 0", b"cookies a=1", GET, [OK + COOKIE + NONE + E]),
    (b"set_header content-length x", b"cookies a=1", GET, [broken("L8")]),
    (b"set_header content-length 5", b"bad 10 10", GET, [broken("L10")]),
    (b"set_header content-length 2", b"bad 10 10", GET, [OK + b"content-length: 2\r\n" + E + b"ok"]),
    (b"set_header x-upper 1", b"bad 4", GET, [broken("L4")]),
    (b"set_header content-length 4", b"pieces 200 ab cde", GET + GET,
     [OK + PLAIN + b"content-length: 4\r\n" + E + b"ab"]),
    (b"set_header connection close", b"cookies a=1", GET + GET, [OK + COOKIE + NONE + CLOSE + E]),
    (b"set_header connection a,\\sClose", b"cookies a=1", GET + GET, [OK + COOKIE + NONE + CLOSE + E]),
    (b"set_header connection keep-alive", b"cookies a=1", GET + GET, [OK + COOKIE + NONE + E] * 2),
    (b"set_header transfer-encoding chunked", b"cookies a=1", GET, [OK + COOKIE + NONE + E]),
    (b"set_header rack.a 1", b"cookies a=1", GET, [OK + COOKIE + NONE + E]),
    (b"set_header rack 1", b"cookies a=1", GET, [OK + COOKIE + b"rack: 1\r\n" + NONE + E]),
    (b"set_header x-a 1", b"raise oops", GET, [broken("L0")]),
    # lint
    *[(b"lint", b"bad %d" % n, GET + GET, [linted(f"L{n}")] * 2) for n in (1, 2, 3, 4, 5, 6, 7, 8, 10)],
    (b"lint", b"bad 5 4", GET, [linted("L4")]),
    (b"lint", b"bad 10", HEAD, [linted("L11")]),
    (b"lint", b"bad 10 10", HEAD, [linted("L8")]),
    (b"lint", b"raise oops", GET + HEAD, [broken("L0")] * 2),
    (b"lint", b"text 200 text/plain \\e", HEAD, [HELLO_HEAD]),
    (b"lint", b"text 200 text/plain hello", GET + POST, [reply(b"hello")] * 2),
    (b"lint", b"pieces 200 ab", HEAD, [HELLO_HEAD]),
    (b"lint", b"text 204 text/plain hello", GET, [linted("L6")]),
    (b"lint", b"late 5 abc", GET + GET, [OK + FIVE + E + b"abc"]),
    (b"lint", b"late 5 abc !", HEAD, [OK + FIVE + E]),
    (b"set_header x-a 1|lint", b"bad 4", GET, [linted("L4", b"x-a: 1\r\n")]),
    (b"content_type|lint", b"bad 4", GET, [linted("L4", b"content-type: text/html\r\n")]),
    (b"lint|set_header X-A 1", b"text 200 text/plain hello", GET, [linted("L4")]),
    (b"set_header X-A 1|lint", b"text 200 text/plain hello", GET, [broken("L4")]),
    (b"set_header x-lint none|lint", b"bad 4", GET, [linted("none")]),
    (b"lint|lint", b"bad 8", GET, [linted("L8")]),
    (b"lint", b"text 200 text/plain hello", b"OPTIONS * HTTP/1.1\r\nHost: a\r\n\r\n", [reply(b"hello")]),
    (b"lint", b"bad 4", OLD + GET, [linted("L4", CLOSE)]),
    # All six, and the same turned round.
    (b"method_override|lint|head|content_length|content_type|set_header x-a 1", b"cookies a=1", GET + HEAD,
     [OK + COOKIE + b"x-a: 1\r\ncontent-type: text/html\r\n" + NONE + E] * 2),
    (b"set_header x-a 1|content_type|content_length|head|lint|method_override", b"cookies a=1", GET + HEAD,
     [OK + COOKIE + NONE + b"content-type: text/html\r\nx-a: 1\r\n" + E] * 2),
]


def stack(uses, endpoint):
    return b"".join(b"use " + use + b"\n" for use in uses.split(b"|") if use) + b"run " + endpoint + b"\n"


def check_answers(checks):
    """What each middleware makes of answers."""
    checks.begin("middleware", DIRECTLY)
    for uses, endpoint, text, replies in ANSWERS:
        file, want = stack(uses, endpoint), served(*replies)
        name = f"{uses.decode()}, {endpoint.decode()}, {text.split(b' ')[0].decode()}"
        checks.wants(name, want, "once", write("stack", file), stdin=text)
        # The rules on which the other cases rest say the same.
        checks.counts(name + ", by the rules", want, once(file, text))
    # A rule for environments: a place that is one slash is no script's name.
    file = b"map //\nuse lint\nrun text 200 text/plain hello\nend\nuse lint\n" + HELLO
    first, *others = [b"GET %s HTTP/1.1\r\nHost: a\r\n\r\n" % path for path in (b"//x", b"/x", b"/")]
    asked = first + b"".join(others)
    want = served(linted("E7"), reply(b"hello"), linted("E7"))
    checks.wants("a broken environment", want, "once", write("stack", file), stdin=asked)
    checks.counts("a broken environment, by the rules", want, once(file, asked))
    file = b"map //\nuse lint\nrun raise oops\nend\nrun echo\n"
    checks.wants("what isn't called doesn't raise", served(linted("E7")), "once", write("stack", file), stdin=first)


def form(body, *fields):
    return post([FORM, LENGTH + b"%d" % len(body), *fields], body)


# What the request is, the request, and the method that stands then; where it stays POST nothing else is there either.
METHODS = [
    *[(f"the header {word.decode()}", post([b"X-HTTP-Method-Override: " + word]), method) for word, method in [
        (b"put", b"PUT"), (b"PUT", b"PUT"), (b"Put", b"PUT"), (b"get", b"GET"), (b"head", b"HEAD"),
        (b"delete", b"DELETE"),
        (b"options", b"OPTIONS"), (b"patch", b"PATCH"), (b"link", b"LINK"), (b"unlink", b"UNLINK"), (b"trace", None),
        (b"connect", None), (b"puts", None), (b"pu", None), (b"", None), (b"p ut", None), (b"put, put", None),
        (b"\"put\"", None)]],
    ("the header in small letters", post([PUT.lower()]), b"PUT"),
    ("the header in capitals", post([PUT.upper()]), b"PUT"),
    ("the header twice", post([PUT, PUT]), None), ("the header with a low line", post([PUT.replace(b"-", b"_")]), None),
    ("another header", post([b"X-Method-Override: put"]), None), ("a form without a pair", form(b"a=b", PUT), b"PUT"),
    ("an empty form", form(b"", PUT), b"PUT"), ("a pair", form(b"_method=put"), b"PUT"),
    ("a pair in capitals", form(b"_method=PATCH"), b"PATCH"),
    ("a pair before the header", form(b"_method=delete", PUT), b"DELETE"),
    ("two pairs", form(b"_method=put&_method=delete"), b"DELETE"),
    ("the last of two is unknown", form(b"_method=put&_method=x", PUT), None),
    ("an empty pair", form(b"_method=", PUT), None),
    ("a name alone", form(b"_method", PUT), None), ("a name and an ampersand", form(b"&&_method=put&"), b"PUT"),
    ("a pair that is escaped", form(b"_method=%50ut"), b"PUT"),
    ("a name that is escaped", form(b"%5fmethod=%70%55%54"), b"PUT"),
    ("a plus in front", form(b"_method=+put"), None), ("a plus behind", form(b"_method=put+"), None),
    ("a percent sign that is none", form(b"_method=%5put"), None),
    ("an equals sign within", form(b"_method=put="), None),
    ("a name in capitals", form(b"_METHOD=delete", PUT), b"PUT"), ("a longer name", form(b"_method2=delete"), None),
    ("a name in front", form(b"a=1&_method=link&b=2"), b"LINK"),
    ("a semicolon", form(b"_method=put;_method=delete", PUT), None),
    ("bytes that are no text", form(b"\xff=\xfe&_method=put"), b"PUT"), ("a NUL", form(b"_method=put\0"), None),
    ("a value that isn't UTF-8", form(b"_method=\xff", PUT), None), ("an LF behind", form(b"_method=put\n"), None),
    ("a pair of post", form(b"_method=post"), b"POST"), ("the header post", post([b"X-HTTP-Method-Override: post"]),
                                                         b"POST"),
    ("a type in capitals", form(b"_method=put").replace(FORM, FORM.upper()), b"PUT"),
    ("a type with a parameter", form(b"_method=put").replace(FORM, FORM + b" ; charset=utf-8"), b"PUT"),
    ("a type with a semicolon", form(b"_method=put").replace(FORM, FORM + b";"), b"PUT"),
    ("another type", form(b"_method=delete", PUT).replace(FORM, b"Content-Type: text/plain"), b"PUT"),
    ("a longer type", form(b"_method=delete", PUT).replace(FORM, FORM + b"2"), b"PUT"),
    ("two types", form(b"_method=delete", PUT, FORM), b"PUT"),
    ("no type", post([LENGTH + b"11"], b"_method=put"), None),
    ("a form of several parts", form(b"_method=put").replace(FORM, b"Content-Type: multipart/form-data"), None),
    ("a form in chunks", post([FORM, *CODED], b"5\r\n_meth\r\n6\r\nod=put\r\n0\r\n\r\n"), b"PUT"),
    ("a long form", form(b"a=" + b"b" * 50000 + b"&_method=put"), b"PUT"),
    ("many pairs", form(b"_method=put&" * 3000 + b"_method=link"), b"LINK"),
    ("a GET with the header", post([PUT]).replace(b"POST", b"GET"), b"no POST"),
    ("a GET with a form", form(b"_method=put").replace(b"POST", b"GET"), b"no POST"),
    ("a PUT with the header", post([b"X-HTTP-Method-Override: get"]).replace(b"POST", b"PUT"), b"no POST"),
    ("post in small letters", post([PUT]).replace(b"POST", b"post"), b"no POST"),
]


def check_methods(checks):
    """MethodOverride: which method stands, as `env` prints it."""
    checks.begin("methods that are asked for", DIRECTLY)
    file = b"use method_override\nrun env\n"
    original = b"rack.methodoverride.original_method=POST\n"
    write("stack", file)
    for name, text, method in METHODS:
        stays = method in (None, b"no POST")
        found = once(file, text)
        checks.wants(name, found, "once", "stack", stdin=text)
        line = b"\r\n\r\nREQUEST_METHOD=" + (text.partition(b" ")[0] if stays else method) + b"\n"
        checks.counts(name + ", by hand", (1, 0 if stays else 1), (found[1].count(line), found[1].count(original)))
        checks.counts(name + ", the last line by hand", not stays, found[1].endswith(original))
    # What one request asks for is gone with it.
    texts = [text for _, text, _ in METHODS]
    checks.wants("all of them on one connection", served(*[once(file, text)[1] for text in texts]), "once", "stack",
                 stdin=b"".join(texts))
    put, head = post([PUT]), post([b"X-HTTP-Method-Override: head"])
    for name, file, text, want in [
        ("the body is there still", b"use method_override\n" + ECHO, form(b"_method=put"), reply(b"_method=put")),
        ("head within", b"use method_override\nuse head\n" + HELLO, head, OK + PLAIN + NONE + E),
        ("head around", b"use head\nuse method_override\n" + HELLO, head, reply(b"hello")),
        ("lint within", b"use method_override\nuse lint\n" + HELLO, head, linted("L11")),
        ("lint around", b"use lint\nuse method_override\n" + HELLO, head, reply(b"hello")),
        ("in front of a place", b"use method_override\nmap /a\nrun echo\nend\n", put, NOT_FOUND % (12, b"/")),
    ]:
        checks.wants(name, served(want), "once", write("stack", file), stdin=text)
        checks.counts(name + ", by the rules", served(want), once(file, text))
    for name, file in [
        ("twice", b"use method_override\nuse method_override\nrun env\n"),
        ("a place within", b"use method_override\nmap /\nrun env\nend\n"),
        ("within a place", b"map /\nuse method_override\nrun env\nend\n"),
        ("a cascade within", b"use method_override\ncascade\nrun text 404 a b\nrun env\nend\n"),
    ]:
        texts = [put, form(b"_method=post"), GET, form(b"_method=x", PUT), put]
        checks.wants(name, once(file, b"".join(texts)), "once", write("stack", file), stdin=b"".join(texts))
