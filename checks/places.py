"""Stacks of more than one line: places and what fits them, defaults, cascades, the largest stacks, the examples."""

import glob
import os

from model import check, once
from program import DIRECTLY, PUMA, TOP, Cut, write
from wanted import E, GET, HEAD, NOT_FOUND, OK, PLAIN, broken, post, reply, served

# The stacks that teach, each with its written form beside it.
TAUGHT = ["cascade", "everything", "hello", "maps", "middleware"]


def ask(target, method=b"GET"):
    return method + b" %s HTTP/1.1\r\nHost: a\r\n\r\n" % target


def at(place, *lines):
    """A block for a place; a line of one word is a text that says it."""
    return b"map " + place + b"\n" + says(*lines) + b"end\n"


def says(*lines):
    spelled = (b"run text 200 text/plain " + line if line.isalnum() else line.rstrip(b"\n") for line in lines)
    return b"".join(line + b"\n" for line in spelled)


def lost(path):
    return NOT_FOUND % (11 + len(path), path)


def texts(*words):
    """Replies: a word's own text, or for what begins with `!` that no place fits this path."""
    return [lost(word[1:]) if word.startswith(b"!") else reply(word) for word in words]


NESTED = at(b"/a", at(b"/b", b"b"), b"a") + says(b"out")
X_A = b"use set_header x-a 1\n"
WITH_A = OK + PLAIN + b"x-a: 1\r\ncontent-length: %d\r\n" + E + b"%s"
# What the stack is, the stack, and for each target what is answered: a text, or behind `!` the path that is not found.
PLACES = [
    ("the worked one", at(b"/foo", b"foo"), [(b"/foobar", b"!/foobar"), (b"/foo", b"foo"), (b"/foo/", b"foo"),
                                             (b"/foo/bar", b"foo"),
                                             (b"/fo", b"!/fo"), (b"/", b"!/"), (b"/bar/foo", b"!/bar/foo"),
                                             (b"/Foo", b"!/Foo"),
                                             (b"//foo", b"!//foo"), (b"/foo?x", b"foo"), (b"/foo%2f", b"!/foo%2f"),
                                             (b"http://h/foo/x", b"foo"), (b"http://h", b"!/"),
                                             (b"http://foo/x", b"!/x")]),
    ("one within another, worked", at(b"/a", at(b"/b", b"b")) + says(b"out"),
     [(b"/a/b", b"b"), (b"/a/c", b"out"), (b"/b", b"out")]),
    ("one within another", NESTED, [(b"/a/b", b"b"), (b"/a/b/", b"b"), (b"/a/b/c", b"b"), (b"/a/bc", b"a"),
                                    (b"/a", b"a"), (b"/a/", b"a"),
                                    (b"/ab", b"out"), (b"/", b"out"), (b"/a//b", b"a"), (b"/a/b//", b"b"),
                                    (b"/b", b"out"), (b"/a/a/b", b"a")]),
    ("one within another and no default", at(b"/a", at(b"/b", b"b")),
     [(b"/a/b", b"b"), (b"/a/c", b"!/c"), (b"/a", b"!"), (b"/a/", b"!/"), (b"/c", b"!/c"), (b"/a/bc", b"!/bc")]),
    ("three within one another", at(b"/a", at(b"/a", at(b"/a", b"three"), b"two"), b"one"),
     [(b"/a", b"one"), (b"/a/a", b"two"), (b"/a/a/a", b"three"), (b"/a/a/a/a", b"three"), (b"/a/aa", b"one"),
      (b"/", b"!/")]),
    ("the longest first", at(b"/a", b"one") + at(b"/a/b/c", b"three") + at(b"/a/b", b"two"),
     [(b"/a", b"one"), (b"/a/b", b"two"), (b"/a/b/c", b"three"), (b"/a/b/cd", b"two"), (b"/a/bc", b"one"),
      (b"/a/b/c/d", b"three"), (b"/ab", b"!/ab")]),
    ("the longest first, though another goes deeper", at(b"/a", at(b"/b", b"inner")) + at(b"/a/b", b"outer"),
     [(b"/a/b", b"outer"), (b"/a/c", b"!/c")]),
    ("what fits is taken for good", at(b"/a/b", at(b"/c", b"c")) + at(b"/a", b"a") + says(b"out"),
     [(b"/a/b/d", b"out"), (b"/a/b/c", b"c"), (b"/a/d", b"a")]),
    ("a tie", at(b"/a", b"one") + at(b"/a", b"two"), [(b"/a", b"one"), (b"/a/b", b"one")]),
    ("a tie of two spellings", at(b"/a/", b"one") + at(b"/\\x61", b"two"), [(b"/a", b"one"), (b"/a/", b"one")]),
    ("a tie with others between",
     at(b"/b", b"b") + at(b"/a", b"one") + at(b"/abc", b"abc") + at(b"/a", b"two") + says(b"out"),
     [(b"/a", b"one"), (b"/b/a", b"b"), (b"/abc", b"abc"), (b"/c", b"out")]),
    ("a slash at the end", at(b"/a/", b"a"), [(b"/a", b"a"), (b"/a/", b"a"), (b"/a/b", b"a"), (b"/ab", b"!/ab")]),
    ("two slashes at the end", at(b"/a//", b"slash") + at(b"/a", b"a"),
     [(b"/a", b"a"), (b"/a/", b"slash"), (b"/a/x", b"a"), (b"/a//", b"slash"), (b"/a//x", b"slash"),
      (b"/a///x", b"slash")]),
    ("a slash alone", at(b"/", b"root"), [(b"/", b"root"), (b"/x", b"root"), (b"//", b"root"), (b"http://h", b"root"),
                                          (b"/?x", b"root")]),
    ("a slash alone and a default", at(b"/", b"root") + says(b"out"), [(b"/", b"root"), (b"/x", b"root")]),
    ("a slash alone twice", at(b"/", b"one") + at(b"/", b"two"), [(b"/", b"one")]),
    ("a slash alone among others", at(b"/", b"root") + at(b"/a", b"a") + says(b"out"),
     [(b"/a", b"a"), (b"/ab", b"root"), (b"/", b"root")]),
    ("two slashes", at(b"//", b"slash") + says(b"out"), [(b"/", b"slash"), (b"/x", b"out"), (b"//", b"slash"),
                                                         (b"//x", b"slash"), (b"///", b"slash")]),
    ("a slash alone within a place", at(b"/a", at(b"/", b"inner"), b"a"),
     [(b"/a", b"inner"), (b"/a/b", b"inner"), (b"/ab", b"!/ab")]),
    ("a place with signs",
     at(b"/a%20b", b"a") + at(b"/a?b", b"b") + at(b"/.", b"dot") + at(b"/a+b", b"plus") + says(b"out"),
     [(b"/a%20b", b"a"), (b"/a?b", b"out"), (b"/./a", b"dot"), (b"/../a", b"out"), (b"/a+b", b"plus"),
      (b"/a%2Bb", b"out")]),
    ("places of one letter", b"".join(at(b"/%c" % c, b"%c" % c) for c in b"abcdefghijklmnopqrstuvwxyz") + says(b"out"),
     [(b"/%c" % c, b"%c" % c) for c in b"zyxwabc"] + [(b"/A", b"out"), (b"/aa", b"out")]),
    ("the last run counts", says(b"one", b"two"), [(b"/", b"two")]),
    ("the last run of three", says(b"one", b"cascade\nend", b"two"), [(b"/", b"two")]),
    ("a run before a place", says(b"out") + at(b"/a", b"a"), [(b"/a", b"a"), (b"/b", b"out")]),
    ("a run before and one behind", says(b"one") + at(b"/a", b"a") + says(b"two"), [(b"/a", b"a"), (b"/b", b"two")]),
    ("a run between two places", at(b"/a", b"a") + says(b"out") + at(b"/b", b"b"),
     [(b"/a", b"a"), (b"/b", b"b"), (b"/c", b"out")]),
    ("runs within a place", at(b"/a", b"one", b"two") + says(b"out"), [(b"/a", b"two"), (b"/b", b"out")]),
    ("a block without its own", at(b"/a") + says(b"out"), [(b"/a", b"out"), (b"/b", b"out")]),
    ("a cascade as the default", at(b"/a") + b"cascade\n" + says(b"out") + b"end\n",
     [(b"/a", b"out"), (b"/b", b"out")]),
    ("a place behind a middleware", at(b"/a", b"a") + b"use head\n" + at(b"/b", b"b"),
     [(b"/a", b"a"), (b"/b", b"b"), (b"/c", b"!/c")]),
    ("a block whose default is behind a middleware", at(b"/a") + b"use head\n" + at(b"/b", b"b"),
     [(b"/a/b", b"b"), (b"/a/c", b"!/c"), (b"/b", b"b"), (b"/a/a/b", b"!/a/b")]),
    ("the longest of the front goes before what stands behind a middleware",
     at(b"/a", b"a") + b"use head\n" + at(b"/a/b", b"b"),
     [(b"/a/b", b"a"), (b"/a", b"a")]),
]


def check_rows(checks):
    """Worked by hand, byte by byte."""
    checks.begin("worked stacks")
    hello = b"run text 200 text/plain hello\n"
    plain = b"HTTP/1.1 200 OK\r\ncontent-type: text/plain\r\n"
    place = b"map /foo\nrun text 200 text/plain foo\nend\n"
    places = b"map /a\nmap /b\nrun text 200 text/plain b\nend\nend\nrun text 200 text/plain out\n"
    chunked = (b"use content_length\nmap /a\n  run text 200 text/plain in\\s/a\nend\n"
               b"run pieces 200 hello \\sthere\n")
    two = GET + ask(b"/a/b")
    answers = (plain + b"transfer-encoding: chunked\r\n\r\n5\r\nhello\r\n6\r\n there\r\n0\r\n\r\n"
               + plain + b"content-length: 5\r\n\r\nin /a")
    for name, file, text, want in [
        ("HEAD", hello, HEAD, plain + b"\r\n"),
        ("HEAD behind lint", b"use lint\n" + hello, HEAD,
         b"HTTP/1.1 500 Internal Server Error\r\nx-lint: L11\r\ncontent-length: 0\r\n\r\n"),
        ("HEAD behind lint and head", b"use lint\nuse head\n" + hello, HEAD, plain + b"\r\n"),
        ("a content type at 204", b"run bad 6\n", GET,
         b"HTTP/1.1 500 Internal Server Error\r\nx-puma-fault: L6\r\ncontent-length: 0\r\n\r\n"),
        ("a place that ends inside a segment", place, ask(b"/foobar"),
         b"HTTP/1.1 404 Not Found\r\ncontent-type: text/plain\r\nx-cascade: pass\r\ncontent-length: 18\r\n\r\n"
         + b"Not Found: /foobar"),
        ("a place", place, ask(b"/foo"), plain + b"content-length: 3\r\n\r\nfoo"),
        ("a place and a slash", place, ask(b"/foo/"), plain + b"content-length: 3\r\n\r\nfoo"),
        ("a place within a place", places, ask(b"/a/b"), plain + b"content-length: 1\r\n\r\nb"),
        ("the default within a place", places, ask(b"/a/c"), plain + b"content-length: 3\r\n\r\nout"),
        ("a length and a type", b"use content_length\nuse content_type\nrun cookies a=1\n", GET,
         b"HTTP/1.1 200 OK\r\nset-cookie: a=1\r\ncontent-type: text/html\r\ncontent-length: 0\r\n\r\n"),
        ("a method that is asked for", b"use method_override\nrun env\n", post([b"X-HTTP-Method-Override: put"]),
         plain + b"content-length: 282\r\n\r\nREQUEST_METHOD=PUT\nSCRIPT_NAME=\\e\nPATH_INFO=/\nQUERY_STRING=\\e\n"
         + b"SERVER_NAME=a\nSERVER_PORT=80\nSERVER_PROTOCOL=HTTP/1.1\nREMOTE_ADDR=127.0.0.1\nrack.url_scheme=http\n"
         + b"rack.errors=discard\nrack.hijack?=true\nHTTP_HOST=a\nHTTP_X_HTTP_METHOD_OVERRIDE=put\n"
         + b"rack.methodoverride.original_method=POST\n"),
        ("a cascade", b"cascade\nrun text 404 text/plain a\nrun text 405 text/plain b\nend\n", GET,
         b"HTTP/1.1 405 Method Not Allowed\r\ncontent-type: text/plain\r\ncontent-length: 1\r\n\r\nb"),
        ("a default in chunks, and a place behind it", chunked, two, answers),
    ]:
        checks.wants(name, (0, want, b""), "once", write("stack", file), stdin=text)
        checks.counts(name + ", by the rules", (0, want, b""), once(file, text))
    checks.wants("these two in three pieces", (0, answers, b""), "once", write("stack", chunked),
                 stdin=Cut([two[:7], two[7:32], two[32:]]))
    for name, file, want in [
        ("a written form", b"map /a/\nrun echo\nend\n\n# c\nrun text 200 text/plain x\n",
         (0, b"map /a\n  run echo\nend\nrun text 200 text/plain x\n", b"")),
        ("no application", b"use head\n", (4, b"", b"puma: stack line 2 S8\n")),
        ("an unknown word", b"use head\nrnu x\n", (4, b"", b"puma: stack line 2 S2\n")),
    ]:
        checks.wants(name, want, "check", write("stack", file))
        checks.counts(name + ", by the rules", want, check(file))


def check_places(checks):
    """Which block answers: places that nest, tie, end in a slash, or hold a slash alone."""
    checks.begin("places", DIRECTLY)
    for name, file, rows in PLACES:
        asked = b"".join(ask(target) for target, _ in rows)
        want = served(*texts(*[text for _, text in rows]))
        checks.wants(name, want, "once", write("stack", file), stdin=asked)
        # The rules on which the other cases rest say the same.
        checks.counts(name + ", by the rules", want, once(file, asked))
        checks.wants(name + ", turned round", served(*texts(*[text for _, text in rows[::-1]])), "once", "stack",
                     stdin=b"".join(ask(target) for target, _ in rows[::-1]))
    star = ask(b"*", b"OPTIONS")
    for name, file, want in [
        ("a text", says(b"out"), reply(b"out")), ("a middleware", b"use lint\n" + says(b"out"), reply(b"out")),
        ("a place", at(b"/a", b"a"), lost(b"*")), ("a place and a default", at(b"/a", b"a") + says(b"out"), lost(b"*")),
        ("a slash alone", at(b"/", b"root"), lost(b"*")), ("a middleware around a place",
                                                           b"use lint\n" + at(b"/", b"root"), lost(b"*")),
        ("a default behind a middleware", at(b"/a", b"a") + b"use lint\n" + says(b"out"), lost(b"*")),
        ("a cascade", b"cascade\n" + says(b"out") + b"end\n", reply(b"out")),
    ]:
        checks.wants("OPTIONS * and " + name, served(want, want), "once", write("stack", file), stdin=star * 2)
        checks.counts(f"OPTIONS * and {name}, by the rules", served(want), once(file, star))
    checks.wants("HEAD where no place fits",
                 served(OK.replace(b"200 OK", b"404 Not Found") + PLAIN + b"x-cascade: pass\r\n" + E), "once",
                 write("stack", at(b"/a", b"a")), stdin=HEAD)
    env = at(b"/a", b"run env", at(b"/b/", at(b"/", X_A))) + b"run env\n"
    write("stack", env)
    for target, script, path in [(b"/", b"\\e", b"/"), (b"/a", b"/a", b"\\e"), (b"/a/", b"/a", b"/"),
                                 (b"/a/b", b"/a/b", b"\\e"), (b"/a/b/", b"/a/b", b"/"),
                                 (b"/a/b/c/d", b"/a/b", b"/c/d"), (b"/a/bc", b"/a", b"/bc"),
                                 (b"/ab?/a", b"\\e", b"/ab"), (b"http://h/a/b?c", b"/a/b", b"\\e")]:
        found = once(env, ask(target))
        checks.wants(f"what stands at {target.decode()}", found, "once", "stack", stdin=ask(target))
        checks.counts(f"what stands at {target.decode()}, by hand", 1,
                      found[1].count(b"\nSCRIPT_NAME=" + script + b"\nPATH_INFO=" + path + b"\n"))
        # The pairs are as they were for the request behind it.
        both = ask(target) + ask(b"/") + ask(b"/a/b/x")
        checks.wants(f"what stands behind {target.decode()}", once(env, both), "once", "stack", stdin=both)


def check_defaults(checks):
    """Which middleware stands around which block."""
    checks.begin("middleware and places", DIRECTLY)
    for name, file, rows in [
        ("in front of a place", X_A + at(b"/a", b"a") + says(b"out"), [(b"/a", b"x a"), (b"/b", b"x out")]),
        ("behind a place", at(b"/a", b"a") + X_A + says(b"out"), [(b"/a", b"a"), (b"/b", b"x out")]),
        ("behind a run", says(b"out") + X_A, [(b"/", b"x out")]),
        ("behind a run and a place", says(b"out") + at(b"/a", b"a") + X_A, [(b"/a", b"a"), (b"/", b"x out")]),
        ("within a place", at(b"/a", X_A, b"a") + says(b"out"), [(b"/a", b"x a"), (b"/b", b"out")]),
        ("within a place that has no own", at(b"/a", X_A) + says(b"out"), [(b"/a", b"x out"), (b"/b", b"out")]),
        ("behind a place that has no own", at(b"/a") + X_A + says(b"out"), [(b"/a", b"x out"), (b"/b", b"x out")]),
        ("between two places", at(b"/a", b"a") + X_A + at(b"/b", b"b") + says(b"out"),
         [(b"/a", b"a"), (b"/b", b"x b"), (b"/c", b"x out")]),
        ("between places, the second without its own", at(b"/a", b"a") + X_A + at(b"/b") + says(b"out"),
         [(b"/a", b"a"), (b"/b", b"x out"), (b"/c", b"x out")]),
        ("around a cascade", X_A + b"cascade\nrun text 404 a b\n" + says(b"out") + b"end\n", [(b"/", b"x out")]),
        ("behind places in places", at(b"/a", at(b"/b", b"b"), X_A, b"a") + says(b"out"),
         [(b"/a/b", b"b"), (b"/a", b"x a"), (b"/", b"out")]),
    ]:
        want = served(*[WITH_A % (len(text) - 2, text[2:]) if text.startswith(b"x ") else reply(text) for _,
                        text in rows])
        asked = b"".join(ask(target) for target, _ in rows)
        checks.wants(name, want, "once", write("stack", file), stdin=asked)
        checks.counts(name + ", by the rules", want, once(file, asked))


def check_cascades(checks):
    """Cascades of none, of one, of answers that are passed over and of those that aren't."""
    checks.begin("cascades", DIRECTLY)
    chunked = PLAIN + b"transfer-encoding: chunked\r\n" + E

    def head(status):
        return b"HTTP/1.1 " + status + E

    missing, method = head(b"404 Not Found"), head(b"405 Method Not Allowed")
    one = b"content-length: 1\r\n" + E
    for runs, want in [
        ([], missing + b"content-length: 0\r\n" + E),
        ([b"text 200 text/plain a"], reply(b"a")),
        ([b"text 404 text/plain a"], missing + PLAIN + one + b"a"),
        ([b"text 405 text/plain a"], method + PLAIN + one + b"a"),
        ([b"raise oops"], broken("L0")),
        ([b"text 404 text/plain a", b"text 405 text/plain b"], method + PLAIN + one + b"b"),
        ([b"text 405 text/plain a", b"text 404 text/plain b"], missing + PLAIN + one + b"b"),
        ([b"text 404 text/plain a", b"text 404 text/plain b", b"text 200 text/plain c"], reply(b"c")),
        ([b"text 404 text/plain a", b"text 200 text/plain b", b"text 200 text/plain c"], reply(b"b")),
        ([b"text 200 text/plain a", b"text 404 text/plain b"], reply(b"a")),
        ([b"text 403 text/plain a", b"text 200 text/plain b"], head(b"403 Forbidden") + PLAIN + one + b"a"),
        ([b"text 406 text/plain a", b"echo"], b"HTTP/1.1 406 \r\n" + PLAIN + one + b"a"),
        ([b"text 500 text/plain a", b"echo"], head(b"500 Internal Server Error") + PLAIN + one + b"a"),
        ([b"text 404 text/plain a", b"raise oops"], broken("L0")),
        ([b"raise oops", b"text 200 text/plain b"], broken("L0")),
        ([b"text 404 text/plain a", b"raise oops", b"echo"], broken("L0")),
        ([b"pieces 404 a b", b"pieces 405 c"], method + chunked + b"1\r\nc\r\n0\r\n\r\n"),
        ([b"pieces 404 a b", b"stream d e"], OK + chunked + b"1\r\nd\r\n1\r\ne\r\n0\r\n\r\n"),
        ([b"text 404 a\\nb a", b"echo"], reply(b"")), ([b"bad 1", b"echo"], broken("L1")),
        ([b"bad 6", b"echo"], broken("L6")),
        ([b"text 404 text/plain a", b"bad 4"], broken("L4")), ([b"text 405 a\\nb a"], broken("L5")),
        ([b"text 404 text/plain a"] * 254 + [b"text 200 text/plain b"], reply(b"b")),
        ([b"text 404 text/plain a"] * 255, missing + PLAIN + one + b"a"),
    ]:
        file = b"cascade\n" + b"".join(b"run " + run + b"\n" for run in runs) + b"end\n"
        name = f"{len(runs)} of {b', '.join(runs[:3]).decode()}"
        checks.wants(name, served(want, want), "once", write("stack", file), stdin=GET * 2)
        checks.counts(name + ", by the rules", served(want), once(file, GET))
        for method_of, text in [("HEAD", HEAD), ("POST", post([b"Content-Length: 2"], b"ab"))]:
            checks.wants(f"{name}, {method_of}", once(file, text + GET), "once", "stack", stdin=text + GET)
    late = b"content-length: 5\r\n" + E
    checks.wants("a late break", served(OK + late + b"abc"), "once",
                 write("stack", b"cascade\nrun text 404 a b\nrun late 5 abc\nrun echo\nend\n"),
                 stdin=GET * 2)
    file = b"cascade\nrun text 404 a b\nrun env\nend\n"
    checks.wants("the environment is the same", once(b"run env\n", GET), "once", write("stack", file), stdin=GET)
    for name, file, want in [
        ("a run behind it", b"cascade\nend\n" + says(b"out"), reply(b"out")),
        ("a run before it", says(b"out") + b"cascade\nend\n", missing + b"content-length: 0\r\n" + E),
        ("another behind it", b"cascade\nend\ncascade\n" + says(b"out") + b"end\n", reply(b"out")),
        ("in a place", at(b"/", b"cascade\nrun text 404 a b\n" + says(b"in") + b"end\n") + says(b"out"), reply(b"in")),
        ("none in a place, and a default", at(b"/", b"cascade\nend\n") + says(b"out"),
         missing + b"content-length: 0\r\n" + E),
    ]:
        checks.wants(name, served(want), "once", write("stack", file), stdin=GET)
        checks.counts(name + ", by the rules", served(want), once(file, GET))


def check_largest(checks):
    """Stacks of 256 steps and of depth 32 serve."""
    checks.begin("the largest stacks", DIRECTLY)
    lines = b"".join(b"x-%d: 1\r\n" % i for i in reversed(range(255)))
    deep, ends = b"map /a\n" * 32, b"end\n" * 32
    for name, file, text, want in [
        ("255 middleware", b"".join(b"use set_header x-%d 1\n" % i for i in range(255)) + says(b"out"), GET,
         OK + PLAIN + lines + b"content-length: 3\r\n" + E + b"out"),
        ("255 times head", b"use head\n" * 255 + says(b"out"), GET, reply(b"out")),
        ("255 times method_override", b"use method_override\n" * 255 + says(b"out"),
         post([b"X-HTTP-Method-Override: put"]), reply(b"out")),
        ("255 times lint", b"use lint\n" * 255 + b"run bad 4\n", GET, broken("L4").replace(b"puma-fault", b"lint")),
        ("a depth of 32", deep + says(b"deep") + ends, ask(b"/a" * 32), reply(b"deep")),
        ("a depth of 32 and more behind it", deep + says(b"deep") + ends, ask(b"/a" * 32 + b"/b"), reply(b"deep")),
        ("a depth of 32, one less", deep + says(b"deep") + ends, ask(b"/a" * 31), lost(b"")),
        ("a depth of 32, from far outside", deep + ends + says(b"out"), ask(b"/a" * 32), reply(b"out")),
        ("a depth of 32 and 256 steps", deep + b"use set_header x-a 1\n" * 223 + says(b"deep") + ends,
         ask(b"/a" * 32 + b"/b"), WITH_A % (4, b"deep")),
        ("a cascade at a depth of 32", b"map /a\n" * 31 + b"cascade\n" + says(b"deep") + ends, ask(b"/a" * 31),
         reply(b"deep")),
        ("128 places", b"".join(at(b"/%d" % i, b"%d" % i) for i in range(128)), ask(b"/127/x"), reply(b"127")),
        ("255 places that nothing answers but the default", b"".join(at(b"/%d" % i) for i in range(255)) + says(b"out"),
         ask(b"/77"), reply(b"out")),
        ("places and middleware in turn", b"".join(at(b"/%d" % i) + b"use head\n" for i in range(127)) + says(b"out"),
         ask(b"/126"), reply(b"out")),
    ]:
        checks.wants(name, served(want, want), "once", write("stack", file), stdin=text * 2)
        checks.counts(name + ", by the rules", served(want), once(file, text))
        checks.wants(name + ", written", check(file), "check", "stack")
    place = b"/" + b"p" * 4000
    checks.wants("a place that is long", served(reply(b"in"), lost(place + b"p")), "once",
                 write("stack", at(place, b"in")),
                 stdin=ask(place) + ask(place + b"p"))


def check_examples(checks):
    """Each example is written as the file beside it says, and answers each request beside it as the rules say."""
    checks.begin("examples", (PUMA,))
    folder = os.path.join(TOP, "examples")
    stacks = sorted(glob.glob(os.path.join(folder, "*.stack")))
    requests = sorted(glob.glob(os.path.join(folder, "*.http")))
    beside = [path.removesuffix(".stack") + ".written" for path in stacks]
    names = [os.path.basename(path).removesuffix(".written") for path in beside if os.path.exists(path)]
    checks.counts("those that teach and have no written form", [], [name for name in TAUGHT if name not in names])
    for path, form in zip(stacks, beside):
        name = os.path.basename(path)
        with open(path, "rb") as file:
            text = file.read()
        checks.wants(name, check(text), "check", path)
        if os.path.exists(form):
            with open(form, "rb") as file:
                checks.counts(name + ", as it stands beside it", check(text), served(file.read()))
        for request in requests:
            with open(request, "rb") as file:
                asked = file.read()
            checks.wants(f"{name}, {os.path.basename(request)}", once(text, asked), "once", path, stdin=asked)
