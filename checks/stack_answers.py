"""What a stack answers, by the rules: each endpoint, the six middleware, places, cascades, and how the lines of a
block become one application. Nothing of it is taken from the program.

An application is a function of an environment, which is a dictionary in the order of its pairs, and of a body. An
answer is raised, or taken by a hijacker, or a status, headers, pieces, whether their length is known, whether the body
raises at its end, and the hijacker that goes on behind the head, or none.
"""

import re
from collections import namedtuple

from stack_file import escaped, number, parted, read

TOKEN = rb"[!#$%&'*+\-.^_`|~0-9A-Za-z]+"
RAISED = "raised"
Taken = namedtuple("Taken", "hijacker")
Reply = namedtuple("Reply", "status headers pieces known raises part", defaults=(None,))
PLAIN = (b"content-type", b"text/plain")
BAD = {
    2: (b"a b", b"x"), 3: (b"status", b"x"), 4: (b"X-Upper", b"x"), 5: (b"x-five", b"a\1"), 6: PLAIN,
    7: (b"content-length", b"2"), 8: (b"content-length", b"5x"), 10: (b"content-length", b"3"),
}
FORM = b"application/x-www-form-urlencoded"
METHODS = b"GET HEAD PUT POST DELETE OPTIONS PATCH LINK UNLINK".split()


# Endpoints

def endpoint_answer(name, arguments, env, body):
    if name == b"text":
        return Reply(int(arguments[0]), [(b"content-type", arguments[1])], [arguments[2]], True, False)
    if name == b"echo":
        return Reply(200, [PLAIN], [body], True, False)
    if name == b"env":
        lines = b"".join(name + b"=" + escaped(value) + b"\n" for name, value in env.items())
        return Reply(200, [PLAIN], [lines], True, False)
    if name == b"pieces":
        return Reply(int(arguments[0]), [PLAIN], arguments[1:], False, False)
    if name == b"stream":
        return Reply(200, [PLAIN], arguments, False, False)
    if name == b"cookies":
        return Reply(200, [(b"set-cookie", value) for value in arguments], [], True, False)
    if name == b"bad":
        numbers = [int(n) for n in arguments]
        status = 99 if 1 in numbers else 204 if 6 in numbers or 7 in numbers else 200
        values = [BAD[n] for n in numbers if n in BAD]
        # The values of one name stand together, where it first comes.
        names = list(dict.fromkeys(name for name, _ in values))
        return Reply(status, [pair for name in names for pair in values if pair[0] == name], [b"ok"], True, False)
    if name == b"late":
        raises = arguments[1:] and arguments[-1] == b"!"
        pieces = arguments[1:-1] if raises else arguments[1:]
        return Reply(200, [(b"content-length", arguments[0])], pieces, False, bool(raises))
    if name == b"take":
        return Taken(arguments[0])
    if name == b"part":
        return Reply(int(arguments[0]), [], [], False, False, arguments[1])
    return RAISED


def tail(hijacker, rest):
    """What a hijacker says to all that comes behind the request: to the end, or up to the byte at which it stops."""
    return rest if hijacker == b"echo" else rest.partition(b"\x04")[0].upper()


# The rules for environments and for answers

def is_bare(status):
    return 100 <= status <= 199 or status in (204, 304)


def broken_environment(env):
    """The number of the least rule for environments that is broken, or none."""
    script, path = env.get(b"SCRIPT_NAME", b""), env.get(b"PATH_INFO", b"")
    broken = {
        1: re.fullmatch(TOKEN, env.get(b"REQUEST_METHOD", b"")) is None,
        2: not env.get(b"SERVER_NAME"),
        3: b"QUERY_STRING" not in env,
        4: env.get(b"SERVER_PROTOCOL") not in (b"HTTP/1.0", b"HTTP/1.1"),
        5: env.get(b"rack.url_scheme") not in (b"http", b"https"),
        6: b"rack.errors" not in env,
        7: script != b"" and (script == b"/" or not script.startswith(b"/")),
        8: path != b"" and not path.startswith(b"/") and (path, env.get(b"REQUEST_METHOD")) != (b"*", b"OPTIONS")
            or script == path == b"",
        9: b"HTTP_CONTENT_TYPE" in env or b"HTTP_CONTENT_LENGTH" in env,
        10: re.fullmatch(rb"[0-9]+", env.get(b"CONTENT_LENGTH", b"0")) is None,
    }
    return next((rule for rule, stands in broken.items() if stands), None)


def broken_answer(env, answered, full=False):
    """The number of the least rule for answers that is broken, or none. The full set has one rule more."""
    if answered == RAISED:
        return 0
    may_hijack = env.get(b"rack.hijack?") == b"true"
    if isinstance(answered, Taken):
        return None if may_hijack else 9
    method = env.get(b"REQUEST_METHOD")
    status, headers, pieces, known, _, part = answered
    names = [name for name, _ in headers]
    lengths = [value for name, value in headers if name == b"content-length"]
    is_number = len(lengths) == 1 and number(lengths[0], 0, 2 ** 64 - 1)
    size = len(b"".join(pieces))
    broken = {
        1: not 100 <= status <= 999,
        2: any(re.fullmatch(TOKEN, name) is None for name in names),
        3: b"status" in names,
        4: any(re.search(rb"[A-Z]", name) for name in names),
        5: any(re.search(rb"[\x00-\x1f\x7f]", value) for _, value in headers),
        6: is_bare(status) and b"content-type" in names,
        7: is_bare(status) and b"content-length" in names,
        8: lengths and not is_number,
        9: part is not None and not may_hijack,
        10: is_number and known and int(lengths[0]) != size and method != b"HEAD" and not is_bare(status),
        11: full and method == b"HEAD" and known and size > 0,
    }
    return next((rule for rule, stands in broken.items() if stands), None)


# Middleware

def wrapped(name, arguments, inner):
    """The middleware of this name and arguments around an application."""
    def lint(env, body):
        rule = broken_environment(env)
        if rule is not None:
            return named(b"E%d" % rule)
        answered = inner(env, body)
        if answered == RAISED:
            return answered
        rule = broken_answer(env, answered, full=True)
        return answered if rule is None else named(b"L%d" % rule)

    def changed(env, body):
        answered = inner(env, body)
        return AFTER[name](arguments, env, answered) if isinstance(answered, Reply) else answered

    if name == b"lint":
        return lint
    if name == b"method_override":
        return lambda env, body: inner(overridden(env, body), body)
    return changed


def named(rule):
    return Reply(500, [(b"x-lint", rule), (b"content-length", b"0")], [], True, False)


def overridden(env, body):
    """The environment with the method that a POST asks for."""
    if env[b"REQUEST_METHOD"] != b"POST":
        return env
    kind = env.get(b"CONTENT_TYPE", b"").partition(b";")[0].strip(b" \t").lower()
    asked = [value for name, value in form_pairs(body) if name == b"_method"] if kind == FORM else []
    method = (asked[-1] if asked else env.get(b"HTTP_X_HTTP_METHOD_OVERRIDE", b"")).upper()
    if method not in METHODS:
        return env
    return {**env, b"REQUEST_METHOD": method, b"rack.methodoverride.original_method": b"POST"}


def form_pairs(body):
    def text(word):
        return re.sub(rb"%([0-9A-Fa-f]{2})", lambda m: bytes([int(m[1], 16)]), word.replace(b"+", b" "))

    parts = [part.partition(b"=") for part in body.split(b"&") if part]
    return [(text(name), text(value)) for name, _, value in parts]


def after_head(_, env, answered):
    return answered._replace(pieces=[], known=True, raises=False) if env[b"REQUEST_METHOD"] == b"HEAD" else answered


def after_length(_, env, answered):
    has = [name for name, _ in answered.headers if name in (b"content-length", b"transfer-encoding")]
    none = has or is_bare(answered.status) or not answered.known
    more = [] if none else [(b"content-length", b"%d" % len(b"".join(answered.pieces)))]
    return answered._replace(headers=answered.headers + more)


def after_type(arguments, env, answered):
    has = [name for name, _ in answered.headers if name == b"content-type"]
    more = [] if has or is_bare(answered.status) else [(b"content-type", arguments[0])]
    return answered._replace(headers=answered.headers + more)


def after_set(arguments, env, answered):
    headers = answered.headers
    at = next((at for at, (name, _) in enumerate(headers) if name == arguments[0]), len(headers))
    others = [pair for pair in headers[at:] if pair[0] != arguments[0]]
    return answered._replace(headers=[*headers[:at], tuple(arguments), *others])


AFTER = {b"head": after_head, b"content_length": after_length, b"content_type": after_type, b"set_header": after_set}


# Places and cascades

def by_place(rows):
    """Of places and applications the one whose place fits, the longest first and the earlier at a tie."""
    tried = sorted(rows, key=lambda row: -len(row[0]))

    def called(env, body):
        path, script = env.get(b"PATH_INFO", b""), env.get(b"SCRIPT_NAME", b"")
        for place, application in tried:
            rest = path[len(place):]
            if path.startswith(place) and (rest == b"" or rest.startswith(b"/")):
                return application({**env, b"SCRIPT_NAME": script + place, b"PATH_INFO": rest}, body)
        return Reply(404, [PLAIN, (b"x-cascade", b"pass")], [b"Not Found: " + path], True, False)

    return called


def in_turn(applications):
    """The first answer that isn't passed over, else the last one."""
    def called(env, body):
        answered = Reply(404, [], [], True, False)
        for application in applications:
            answered = application(env, body)
            if not isinstance(answered, Reply) or answered.status not in (404, 405):
                break
        return answered

    return called


# Blocks

def endpoint(step):
    return lambda env, body: endpoint_answer(step.name, step.arguments, env, body)


def build(block, default=None):
    """The application of a block."""
    answers = default
    for line in block.lines:
        if line.verb == b"run":
            answers = endpoint(line)
        if line.verb == b"cascade":
            answers = in_turn([endpoint(step) for step in line.lines])
    return around([line for line in block.lines if line.verb in (b"use", b"map")], answers)


def around(lines, answers):
    """The application that these `use` and `map` lines make of what answers the block, if anything does."""
    if not lines:
        return answers
    if lines[0].verb == b"use":
        return wrapped(lines[0].name, lines[0].arguments, around(lines[1:], answers))
    maps, behind = parted(lines)
    default = around(behind, answers)
    rows = [(block.place, build(block, default)) for block in maps]
    return by_place(rows + ([] if default is None else [(b"", default)]))


def stack_of(file):
    """The application of a stack file. Where it is broken: the first bad line and its least rule, as a pair."""
    found = read(file)
    return found if isinstance(found, tuple) else build(found)
