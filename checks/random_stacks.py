"""Stack files made by dice, good ones and broken ones, against the rules."""

import random
import re

from model import check, once
from program import DIRECTLY, write
from wanted import CODED, FILE_LIMIT, LENGTH, post

FILES = 300
SEGMENTS = [b"/a", b"/b", b"/a/b", b"/", b"//", b"/a/", b"/ab", b"/a//"]
NAMES = [b"x-a", b"x-b", b"content-type", b"content-length", b"set-cookie", b"connection", b"x-lint", b"X-A", b"rack.a"]
VALUES = [b"1", b"5", b"\\e", b"a\\sb", b"close", b"text/plain", b"\\x31", b"\\x01"]
PIECES = [b"a", b"\\e", b"bc", b"hello", b"!", b"\\x21", b"\\xFF\\n", b"\\\\", b"#"]
# What a broken file has in the place of a good word, line or byte.
WORDS = [b"use", b"run", b"map", b"end", b"cascade", b"head", b"echo", b"/a", b"a", b"\\q", b"\\", b"\\e", b"200",
         b"1000", b"take", b"rnu", b""]
LINES = [b"use head", b"run echo", b"map /c", b"end", b"cascade", b"use", b"map c", b"run text 99 a b", b"end end",
         b"rnu", b"run take echo",
         b"use content_type a b", b"#", b"\t", b"# \x7f"]
BYTES = [b"\t", b"\r", b"\0", b"\x7f", b"\xff", b"\n", b" ", b"\\", b"/", b"#", b"0"]


class Dice:
    def __init__(self, seed):
        self.dice = random.Random(seed)

    def one(self, parts):
        return self.dice.choice(parts)

    def some(self, parts, sizes):
        return self.dice.choices(parts, k=self.one(sizes))

    def chance(self, of):
        return self.dice.random() < of

    def middleware(self):
        return self.one([
            b"head", b"content_length", b"method_override", b"lint", b"content_type",
            b"content_type " + self.one(VALUES),
            b"set_header " + self.one(NAMES) + b" " + self.one(VALUES), b"set_header x-a " + self.one(VALUES),
        ])

    def endpoint(self):
        status = self.one([b"200", b"404", b"405", b"404", b"204", b"0200", b"599", b"\\x32\\x30\\x30"])
        if self.chance(0.5):
            return self.one([b"env", b"echo", b"text 200 text/plain " + self.one(PIECES),
                             b"text 404 a/b " + self.one(PIECES)])
        return b" ".join(self.one([
            [b"text", status, self.one([b"text/plain", b"\\e", b"a\\nb"]), self.one(PIECES)],
            [b"pieces", status, *self.some(PIECES, [0, 1, 3])], [b"stream", *self.some(PIECES, [0, 1, 3])],
            [b"cookies", *self.some(VALUES, [1, 2])], [b"bad",
                                                       *self.some([b"1", b"2", b"4", b"6", b"7", b"010"], [1, 2, 8])],
            [b"take", self.one([b"echo", b"upper", b"\\x65cho"])], [b"part", status, self.one([b"echo", b"upper"])],
            [b"raise", self.one(PIECES)], [b"late", self.one([b"0", b"1", b"005", b"3"]),
                                           *self.some(PIECES, [0, 1, 2])],
        ]))

    def block(self, depth):
        """The lines of a block, in most cases with an application."""
        lines = []
        for _ in range(self.one([0, 1, 2, 3, 4])):
            kind = self.one(["use", "use", "map", "map", "run", "cascade"])
            if kind == "use":
                lines.append(b"use " + self.middleware())
            elif kind == "run":
                lines.append(b"run " + self.endpoint())
            elif kind == "cascade":
                lines += [b"cascade", *[b"run " + self.endpoint() for _ in range(self.one([0, 1, 2, 3]))], b"end"]
            elif depth < 4:
                lines += [b"map " + self.one(SEGMENTS), *self.block(depth + 1), b"end"]
        if self.chance(0.9 if depth == 0 else 0.5):
            lines.append(b"run " + self.endpoint())
        return lines

    def file(self, broken):
        lines = self.block(0)
        for _ in range(self.one([1, 1, 2]) if broken else 0):
            lines = self.spoiled(lines)
        text = b"".join(self.spaced(line) + b"\n" + self.one([b"", b"", b"", b"\n", b"  # c\n"]) for line in lines)
        if broken and text and self.chance(0.3):
            place = self.dice.randrange(len(text))
            text = text[:place] + self.one(BYTES) + text[place + self.one([0, 1]):]
        return text[:-1] if self.chance(0.2) else text

    def spoiled(self, lines):
        place = self.dice.randrange(len(lines) + 1)
        kind = self.one(["more", "less", "word", "word", "swapped", "deep", "many"])
        if kind == "more" or not lines:
            return lines[:place] + [self.one(LINES)] + lines[place:]
        if kind == "less":
            return lines[:place] + lines[place + 1:]
        if kind == "deep":
            return lines[:place] + [b"map /a"] * self.one([20, 31, 32, 33]) + lines[place:]
        if kind == "many":
            return lines[:place] + [self.one([b"use head", b"run echo"])] * self.one([200, 250, 256]) + lines[place:]
        place = place % len(lines)
        if kind == "swapped":
            return lines[place:] + lines[:place]
        words = lines[place].split(b" ")
        at = self.dice.randrange(len(words))
        words[at:at + self.one([0, 1, 1])] = [self.one(WORDS)]
        return lines[:place] + [b" ".join(words)] + lines[place + 1:]

    def spaced(self, line):
        """The same line with more spaces."""
        if self.chance(0.7):
            return line
        return self.one([b""] * 9 + [b"  "] * 9 + [b" " * 5000]) + re.sub(rb" ", lambda _: self.one([b" ", b"   "]),
                                                                          line) + self.one([b"", b" "])

    def target(self):
        path = b"".join(self.some([b"/a", b"/b", b"/", b"/ab", b"/c"], [1, 1, 2, 3, 4]))
        return self.one([path, path, path, path + b"?q", b"http://h" + path])

    def request(self):
        method = self.one([b"GET", b"GET", b"HEAD", b"POST", b"PUT"])
        version = self.one([b"HTTP/1.1"] * 5 + [b"HTTP/1.0"])
        front = method + b" " + self.target() + b" " + version
        fields = self.one([[], [], [b"X: 1"], [b"X-HTTP-Method-Override: " + self.one([b"head", b"put", b"x"])]])
        body = self.one([b"", b"hello", b"_method=head&a=b", b"_method=%50UT"])
        if method in (b"GET", b"HEAD"):
            text = post(fields)
        elif version == b"HTTP/1.1" and self.chance(0.2):
            text = post([*fields, *CODED], b"%x\r\n%s\r\n0\r\n\r\n" % (len(body), body) if body else b"0\r\n\r\n")
        else:
            kind = self.one([[], [b"Content-Type: application/x-www-form-urlencoded"]])
            text = post([*fields, *kind, LENGTH + b"%d" % len(body)], body)
        text = self.one([text] * 9 + [b"OPTIONS * HTTP/1.1\r\nHost: a\r\n\r\n"])
        return text.replace(b"POST / HTTP/1.1", front, 1)


def check_random(checks):
    """Each file by `check`, what `check` writes by `check` again, and where it is good some requests by `once`."""
    checks.begin("random stack files", DIRECTLY)
    dice = Dice(1407)
    kinds = {}
    for turn in range(FILES):
        file = dice.file(broken=turn % 2 == 1)
        asked = b"".join(dice.request() for _ in range(dice.one([1, 2, 5])))
        want = check(file)
        kind = want[2][-4:-1].strip() or b"good"
        kinds[kind] = kinds.get(kind, 0) + 1
        name = f"number {turn}: {file[:300]!r}"
        checks.wants(name, want, "check", write("stack", file))
        checks.wants(name + f", {asked!r}", once(file, asked), "once", "stack", stdin=asked)
        if want[0] == 0 and len(want[1]) <= FILE_LIMIT:
            checks.wants(name + ", written again", want, "check", write("stack", want[1]))
            checks.wants(name + ", written, once", once(file, asked), "once", "stack", stdin=asked)
    wanted = {b"good", *[b"S%d" % rule for rule in range(1, 10)]}
    checks.counts("each rule came three times or more", [], sorted(kind for kind in wanted if kinds.get(kind, 0) < 3))
    checks.counts("good files", True, kinds.get(b"good", 0) >= 100)
