"""Stack files, by the rules: what one says, which of its lines is the first that is wrong and by which rule, and
its written form. Nothing of it is taken from the program.
"""

import re
from collections import namedtuple

LINE_LIMIT = 4096
STEP_LIMIT = 256
DEPTH_LIMIT = 32
MANY = 1 << 20


# Escaped text

def escaped(text):
    def spelled(byte):
        short = {0x20: b"\\s", 0x0a: b"\\n", 0x0d: b"\\r", 0x5c: b"\\\\"}
        return short.get(byte) or (b"%c" % byte if 33 <= byte <= 126 else b"\\x%02x" % byte)

    return b"".join(map(spelled, text)) or b"\\e"


def unescaped(word):
    """The text that this word spells, or none."""
    if word == b"\\e":
        return b""
    pair = rb"\\x([0-9A-Fa-f]{2})|\\([snr\\])|([!-\[\]-~])"
    if not word or re.fullmatch(rb"(?:" + pair + rb")+", word) is None:
        return None
    short = {b"s": b" ", b"n": b"\n", b"r": b"\r", b"\\": b"\\"}
    return b"".join(bytes([int(m[1], 16)]) if m[1] else short[m[2]] if m[2] else m[3] for m in re.finditer(pair, word))


def number(text, least, most):
    return re.fullmatch(rb"[0-9]+", text) is not None and least <= int(text) <= most


# Names, each with the least and the most arguments that it takes, and with how many of them, from the first, are
# numbers, and which numbers these may be

NO_NUMBERS = (0, ())
STATUS = (1, range(100, 1000))
MIDDLEWARE = {
    b"head": (0, 0, NO_NUMBERS),
    b"content_length": (0, 0, NO_NUMBERS),
    b"content_type": (0, 1, NO_NUMBERS),
    b"method_override": (0, 0, NO_NUMBERS),
    b"set_header": (2, 2, NO_NUMBERS),
    b"lint": (0, 0, NO_NUMBERS),
}
ENDPOINTS = {
    b"text": (3, 3, STATUS),
    b"echo": (0, 0, NO_NUMBERS),
    b"env": (0, 0, NO_NUMBERS),
    b"pieces": (1, MANY, STATUS),
    b"stream": (0, MANY, NO_NUMBERS),
    b"cookies": (1, MANY, NO_NUMBERS),
    b"bad": (1, 8, (8, (1, 2, 3, 4, 5, 6, 7, 8, 10))),
    b"raise": (1, 1, NO_NUMBERS),
    b"late": (1, MANY, (1, range(0, 1000001))),
    b"take": (1, 1, NO_NUMBERS),
    b"part": (2, 2, STATUS),
}
# The last argument of `take` and `part` is one of these.
HIJACKERS = (b"echo", b"upper")
# The other first words, and how many arguments each has.
OTHERS = {b"map": 1, b"end": 0, b"cascade": 0}
NAMES = {b"use": MIDDLEWARE, b"run": ENDPOINTS}

# A line `use` or `run`. Its arguments are texts, and numbers among them have no zeros in front.
Step = namedtuple("Step", "verb name arguments")


class Block:
    """What stands from `map` or `cascade` to its `end`, or a whole file."""

    def __init__(self, verb, place=b""):
        self.verb, self.place = verb, place
        # Steps, and blocks within.
        self.lines = []
        # The number of the line that ends it; for a whole file that of the line behind the last.
        self.end = None


# Reading

def read(text):
    """What a file says, as a block. Where it is broken: the first bad line and on it the least rule, as a pair."""
    rows = text.split(b"\n")
    if rows[-1] == b"":
        rows.pop()
    whole = Block(b"file")
    around, steps = [whole], 0
    for at, row in enumerate(rows, 1):
        row = row.lstrip(b" ")
        if re.search(rb"[^ -~]", row) or len(row) > LINE_LIMIT:
            return at, 1
        if row == b"" or row.startswith(b"#"):
            continue
        words = [word for word in row.split(b" ") if word]
        rule = broken_rule(words, around, steps)
        if rule is not None:
            return at, rule
        steps += words[0] != b"end"
        take(words, around, at)
    whole.end = len(rows) + 1
    if len(around) > 1:
        return whole.end, 6
    lacking = []
    if not has_application(whole, False, lacking):
        lacking.append(whole.end)
    return (min(lacking), 8) if lacking else whole


def broken_rule(words, around, steps):
    """The least rule that this line breaks within these blocks and behind so many steps, or none."""
    verb, rest = words[0], words[1:]
    if verb not in NAMES and verb not in OTHERS:
        return 2
    if verb in NAMES:
        if not rest or rest[0] not in NAMES[verb]:
            return 3
        least, most, numbers = NAMES[verb][rest[0]]
        rest = rest[1:]
    else:
        least, most, numbers = OTHERS[verb], OTHERS[verb], NO_NUMBERS
    if not least <= len(rest) <= most:
        return 4
    texts = [unescaped(word) for word in rest]
    if None in texts or not all(is_among(text, numbers[1]) for text in texts[:numbers[0]]):
        return 5
    if verb == b"map" and not texts[0].startswith(b"/"):
        return 5
    if verb == b"run" and words[1] in (b"take", b"part") and texts[-1] not in HIJACKERS:
        return 5
    if verb == b"end" and len(around) == 1:
        return 6
    if around[-1].verb == b"cascade" and verb not in (b"run", b"end"):
        return 7
    # The whole file has depth 0, so that the block which this line begins has as much depth as there are around it.
    deep = verb in (b"map", b"cascade") and len(around) > DEPTH_LIMIT
    if deep or verb != b"end" and steps + 1 > STEP_LIMIT:
        return 9
    return None


def is_among(text, numbers):
    return re.fullmatch(rb"[0-9]+", text) is not None and int(text) in numbers


def take(words, around, at):
    """Puts what a good line says into the innermost of these blocks."""
    verb, texts = words[0], [unescaped(word) for word in words[1:]]
    if verb == b"end":
        around.pop().end = at
    elif verb in OTHERS:
        block = Block(verb, texts[0].removesuffix(b"/") if texts else b"")
        around[-1].lines.append(block)
        around.append(block)
    else:
        name, arguments = words[1], texts[1:]
        count = NAMES[verb][name][2][0]
        arguments = [b"%d" % int(text) for text in arguments[:count]] + arguments[count:]
        if name == b"content_type" and not arguments:
            arguments = [b"text/html"]
        around[-1].lines.append(Step(verb, name, arguments))


def has_application(block, default, lacking):
    """Whether a block, with or without a default, has an application. The ends of blocks within it that have none
    are put into the list.
    """
    runs = default or any(line.verb in (b"run", b"cascade") for line in block.lines)
    return is_built([line for line in block.lines if line.verb in (b"use", b"map")], runs, lacking)


def is_built(lines, runs, lacking):
    """The same of these `use` and `map` lines in front of what answers the block, if anything does."""
    if not lines:
        return runs
    if lines[0].verb == b"use":
        return is_built(lines[1:], runs, lacking)
    maps, behind = parted(lines)
    default = is_built(behind, runs, lacking)
    found = [has_application(block, default, lacking) for block in maps]
    lacking += [block.end for block, has in zip(maps, found) if not has]
    return all(found) and (default or not behind)


def parted(lines):
    """The maps at the front of these lines, and what stands behind them."""
    count = next((at for at, line in enumerate(lines) if line.verb != b"map"), len(lines))
    return lines[:count], lines[count:]


# Writing

def written(block, depth=0):
    """The written form of what a block says."""
    front, text = b"  " * depth, b""
    for line in block.lines:
        if line.verb in NAMES:
            text += front + b" ".join([line.verb, line.name, *map(escaped, line.arguments)]) + b"\n"
        else:
            place = [escaped(written_place(line.place))] if line.verb == b"map" else []
            text += front + b" ".join([line.verb, *place]) + b"\n" + written(line, depth + 1) + front + b"end\n"
    return text


def written_place(place):
    return place + b"/" if place == b"" or place.endswith(b"/") else place
