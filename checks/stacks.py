"""Stack files: by `check` which line is wrong and by which rule, and the written form; and that `once` reads alike."""

from model import check, once
from program import DIRECTLY, write
from stack_file import escaped
from wanted import ECHO, FILE_LIMIT, GET, LONG, bad_stack, reply, served

FRONT = b"run text 200 a "
# A line of exactly 4,096 bytes.
LONGEST = FRONT + b"x" * (4096 - len(FRONT))
DEEPEST = b"map /a\n" * 32 + b"run echo\n" + b"end\n" * 32
MOST = b"use head\n" * 255 + b"run echo\n"

# Each rule: what the file is, the bad line, and the file.
BYTES = [
    ("a tab between words", 1, b"run\techo\n"),
    ("a tab in front", 1, b"\trun echo\n"),
    ("a tab behind", 1, b"run echo\t\n"),
    ("a tab in a line that is else empty", 2, b"run echo\n\t\n"),
    ("a tab behind spaces, on the last line", 2, b"run echo\n  \t"),
    ("a tab in a comment", 1, b"#\t\nrun echo\n"),
    ("a CR", 1, b"run echo\r\n"),
    ("a CR in an empty line", 2, b"run echo\n\r\n"),
    ("a CR and no LF", 1, b"run echo\r"),
    ("a NUL in a word", 1, b"run text 200 text/plain hel\0lo\n"),
    ("a NUL behind the last LF", 2, b"run text 200 text/plain hello\n\0"),
    ("the byte 31", 1, b"run raise a\x1f\n"),
    ("the byte 127", 1, b"run raise a\x7f\n"),
    ("the byte 127 in a comment", 3, b"run echo\n\n# \x7f\n"),
    ("the byte 128", 1, b"run raise \x80\n"),
    ("the byte 255", 1, b"run raise \xff\n"),
    ("a letter that isn't ASCII", 1, b"run text 200 text/plain h\xc3\xa9llo\n"),
    ("a mark of the order of bytes", 1, b"\xef\xbb\xbfrun echo\n"),
    ("one byte more than the longest line", 1, LONGEST + b"x\n"),
    ("the same without its LF", 1, LONGEST + b"x"),
    ("the same behind a space", 1, b" " + LONGEST + b"x\n"),
    ("spaces behind that make a line too long", 1, b"run echo" + b" " * 4089 + b"\n"),
    ("spaces between that make a line too long", 1, b"run" + b" " * 4090 + b"echo\n"),
    ("a comment that is too long", 2, b"run echo\n#" + b"c" * 4096 + b"\n"),
    ("a line that is too long and no line of a stack", 1, b"x" * 4097),
    ("a line that is wrong in each way", 1, b"x\t\\q\n"),
]
FIRST_WORDS = [
    ("a first word that is none", 1, b"rnu echo\n"),
    ("a first word in capitals", 1, b"RUN echo\n"),
    ("a first word with a capital", 1, b"Use head\nrun echo\n"),
    ("a first word that is longer", 2, b"run echo\nmaps /a\nend\n"),
    ("a first word that is shorter", 1, b"us head\nrun echo\n"),
    ("a first word that is escaped", 1, b"\\x72un echo\n"),
    ("a first word and an escaped space", 1, b"run\\secho\n"),
    ("a first word behind spaces", 2, b"run echo\n   ends\n"),
    ("a first word within a cascade", 2, b"cascade\nrunn echo\nend\n"),
    ("a comment's sign behind a word", 1, b"x# c\n"),
    ("the first of two bad lines", 1, b"x\nrun nothing\n"),
    ("a first word in front of a tab", 1, b"x\n\t\n"),
    ("the name of an endpoint", 1, b"echo\n"),
]
NAMES = [
    ("use alone", 1, b"use\nrun echo\n"), ("use and a space", 1, b"use \n"), ("run alone", 1, b"run\n"),
    ("an unknown middleware", 1, b"use heads\n"), ("a middleware in capitals", 1, b"use HEAD\n"),
    ("a middleware's name cut short", 1, b"use content\n"), ("a hyphen in its name", 1, b"use content-length\n"),
    ("an endpoint for a middleware", 1, b"use echo\n"), ("a middleware for an endpoint", 2, b"use head\nrun head\n"),
    ("an unknown endpoint", 1, b"run texts 200 text/plain hello\n"), ("a shorter name", 1, b"run ech\n"),
    ("an endpoint with a capital", 1, b"run Echo\n"), ("an endpoint in capitals", 1,
                                                       b"run TEXT 200 text/plain hello\n"),
    ("an escaped name", 1, b"run \\x65cho\n"), ("an empty name", 1, b"run \\e\n"),
    ("a first word for a name", 1, b"run run\n"),
    ("take for a middleware", 1, b"use take echo\n"), ("part for a middleware", 1, b"use part 200 upper\n"),
    ("a hijacker for an endpoint", 1, b"run upper\n"), ("take in capitals", 1, b"run TAKE echo\n"),
    ("an unknown name with a bad pair", 1, b"run nothing \\q\n"),
    ("an unknown middleware within a cascade", 2, b"cascade\nuse nothing\nend\n"),
    ("an unknown endpoint within a cascade", 2, b"cascade\nrun nothing\nend\n"),
    ("an unknown name at the step that is one too many", 257, b"use head\n" * 256 + b"use nothing\n"),
]
COUNTS = [
    ("head with an argument", 1, b"use head x\n"), ("head with an empty argument", 1, b"use head \\e\n"),
    ("content_length with an argument", 1, b"use content_length 5\n"), ("lint with an argument", 1, b"use lint E1\n"),
    ("method_override with an argument", 1, b"use method_override put\n"),
    ("content_type with two", 1, b"use content_type a b\n"), ("set_header with none", 1, b"use set_header\n"),
    ("set_header with one", 1, b"use set_header a\n"), ("set_header with three", 1, b"use set_header a b c\n"),
    ("map without a place", 1, b"map\nrun echo\nend\n"), ("map with two", 1, b"map /a /b\nrun echo\nend\n"),
    ("end with an argument", 3, b"map /a\nrun echo\nend /a\n"), ("end with an argument and no block", 1, b"end x\n"),
    ("cascade with an argument", 1, b"cascade x\nend\n"), ("echo with an argument", 1, b"run echo x\n"),
    ("echo and a comment", 1, b"run echo # all\n"), ("env with an argument", 1, b"run env x\n"),
    ("env with an empty argument", 1, b"run env \\e\n"), ("text with none", 1, b"run text\n"),
    ("text with two", 1, b"run text 200 text/plain\n"), ("text with two and a space", 1, b"run text 200 text/plain \n"),
    ("text with two and spaces", 1, b"run text 200  hello\n"),
    ("text with four", 1, b"run text 200 text/plain hello there\n"),
    ("pieces without a status", 1, b"run pieces\n"), ("cookies without a value", 1, b"run cookies\n"),
    ("bad without a number", 1, b"run bad\n"), ("bad with nine numbers", 1, b"run bad 1 2 3 4 5 6 7 8 10\n"),
    ("raise without a text", 1, b"run raise\n"), ("raise with two texts", 1, b"run raise a b\n"),
    ("late without a length", 1, b"run late\n"),
    ("take without a name", 1, b"run take\n"), ("take with two names", 1, b"run take echo upper\n"),
    ("part without arguments", 1, b"run part\n"), ("part without a name", 1, b"run part 200\n"),
    ("part with three", 1, b"run part 200 echo upper\n"),
    ("too many arguments, none of its form", 1, b"run text x \\q y z\n"),
    ("a bad pair where none may be", 1, b"use head \\q\n"),
    ("two places that are none", 1, b"map a b\n"), ("map without a place within a cascade", 2, b"cascade\nmap\nend\n"),
    ("head with an argument within a cascade", 2, b"cascade\nuse head x\nend\n"),
    ("an argument at the step that is one too many", 257, b"use head\n" * 256 + b"run echo x\n"),
]
FORMS = [
    ("a place without a slash", 1, b"map a\nrun echo\nend\n"), ("an empty place", 1, b"map \\e\nrun echo\nend\n"),
    ("a place that only ends in a slash", 1, b"map a/\n"), ("an escaped place without a slash", 1, b"map \\x61\n"),
    ("a bad pair in a place", 1, b"map /\\q\n"), ("a backslash at the end of a place", 1, b"map /a\\\n"),
    ("a place behind a space", 1, b"map \\s/a\n"), ("a place within a cascade", 2, b"cascade\nmap a\nend\n"),
    ("a bad pair in a type", 1, b"use content_type a\\b\n"), ("a bad pair in a name", 1, b"use set_header \\q a\n"),
    ("a bad pair in a value", 1, b"use set_header a \\q\n"), ("the empty text beside a byte", 1, b"run raise a\\e\n"),
    ("the empty text in front of a byte", 1, b"run raise \\ea\n"), ("the empty text twice", 1, b"run raise \\e\\e\n"),
    ("a bad pair in the type of a text", 1, b"run text 200 text\\plain hello\n"),
    ("a bad pair in a body", 1, b"run text 200 text/plain hel\\qlo\n"),
    ("a pair with a capital", 1, b"run text 200 text/plain hel\\Slo\n"), ("a capital x", 1, b"run raise \\X41\n"),
    ("a backslash at the end", 1, b"run text 200 text/plain hello\\\n"), ("a backslash alone", 1, b"run raise \\\n"),
    ("no digit", 1, b"run raise \\x\n"), ("one digit", 1, b"run raise \\x4\n"),
    ("a digit that is none", 1, b"run raise \\x4g\n"),
    ("a bad pair among the pieces", 1, b"run pieces 200 a \\q b\n"),
    ("a bad pair in a status", 1, b"run text 2\\q0 a b\n"),
    ("a bad pair among the last", 1, b"run stream a b \\\n"), ("a bad pair in a cookie", 1, b"run cookies \\q\n"),
    ("take with an unknown name", 1, b"run take nothing\n"), ("take with a name in capitals", 1, b"run take ECHO\n"),
    ("take with an empty name", 1, b"run take \\e\n"), ("take with a longer name", 1, b"run take uppers\n"),
    ("part with an unknown name", 1, b"run part 200 nothing\n"), ("part with a status of 99", 1, b"run part 99 echo\n"),
    ("part with a status of 1000", 1, b"run part 1000 echo\n"), ("part, turned round", 1, b"run part echo 200\n"),
    ("a bad pair in a hijacker", 1, b"run take ech\\q\n"),
    ("a status of 99", 1, b"run text 99 text/plain hello\n"),
    ("a status of 1000", 1, b"run text 1000 text/plain hello\n"),
    ("a status of 0", 1, b"run text 0 text/plain hello\n"), ("a status with a sign", 1,
                                                             b"run text +200 text/plain hello\n"),
    ("a status in hexadecimal", 1, b"run text 0xc8 text/plain hello\n"),
    ("a status that is none", 1, b"run text ok a b\n"),
    ("an empty status", 1, b"run text \\e a b\n"), ("a status and a space", 1, b"run text 200\\s a b\n"),
    ("a status of 2^128 and 200", 1, b"run text 340282366920938463463374607431768211656 text/plain hello\n"),
    ("a status of 2^32 and 200", 1, b"run text 4294967496 a b\n"),
    ("a status of 2^64 and 200", 1, b"run text 18446744073709551816 a b\n"),
    ("pieces with a status of 99", 1, b"run pieces 99 a\n"),
    ("pieces with a status of 1000", 1, b"run pieces 1000 a\n"),
    ("pieces that begin with no status", 1, b"run pieces a b\n"),
    *[(f"bad with {word}", 1, b"run bad " + word.encode() + b"\n")
      for word in ("0", "9", "11", "257", "266", "x", "\\e", "1,2", "-1", "1 9", "1 2 3 4 5 6 7 0")],
    ("late with a word for its length", 1, b"run late x\n"), ("late with a mark for its length", 1, b"run late !\n"),
    ("late with a length above the most", 1, b"run late 1000001\n"),
    ("late with a negative length", 1, b"run late -1\n"),
    ("late with an empty length", 1, b"run late \\e a\n"), ("late with a bad pair", 1, b"run late 5 a \\q\n"),
    ("late with a length of 2^64", 1, b"run late 18446744073709551616\n"),
    ("a bad status within a cascade", 3, b"cascade\nrun echo\nrun text 1 a b\nend\n"),
    ("a place that is none at a depth of 33", 33, b"map /a\n" * 32 + b"map a\n"),
]
ENDS = [
    ("end alone", 1, b"end\n"), ("end behind a run", 2, b"run echo\nend\n"),
    ("end without an application", 2, b"use head\nend\n"),
    ("one end too many", 4, b"map /a\nrun echo\nend\nend\n"), ("end behind a cascade", 3, b"cascade\nend\nend\n"),
    ("a map alone", 2, b"map /a\n"), ("a map alone without its LF", 2, b"map /a"),
    ("a map that isn't ended", 3, b"map /a\nrun echo\n"), ("the same without its last LF", 3, b"map /a\nrun echo"),
    ("the same in front of ignored lines", 6, b"run echo\nmap /a\n\n# c\n  \n"), ("a cascade alone", 2, b"cascade\n"),
    ("a cascade that isn't ended", 3, b"cascade\nrun echo\n"), ("an end for two", 4, b"map /a\nmap /b\nend\n"),
    ("an end for a cascade within a map", 4, b"map /a\ncascade\nend\n"),
    ("a block that isn't ended goes before one without an application", 4, b"map /a\nend\nmap /b\n"),
    ("32 blocks that aren't ended", 33, b"map /a\n" * 32),
]
CASCADES = [
    ("use within a cascade", 2, b"cascade\nuse head\nend\n"),
    ("map within a cascade", 2, b"cascade\nmap /a\nend\nend\n"),
    ("a cascade within a cascade", 2, b"cascade\ncascade\nend\nend\n"),
    ("use behind runs, an empty line and a comment", 5, b"cascade\nrun echo\n\n# c\nuse head\nend\n"),
    ("use within a cascade within a map", 3, b"map /a\ncascade\nuse lint\nend\nend\n"),
    ("use within a cascade that isn't ended", 2, b"cascade\nuse head\n"),
    ("use within a cascade, as one step too many", 257, b"cascade\n" + b"run echo\n" * 255 + b"use head\nend\n"),
    ("a cascade within one at a depth of 33", 33, b"map /a\n" * 31 + b"cascade\ncascade\n"),
]
LACKING = [
    ("an empty file", 1, b""), ("an LF alone", 2, b"\n"), ("spaces alone", 2, b"  "), ("two LFs", 3, b"\n\n"),
    ("a comment alone", 2, b"#\n"), ("a comment without an LF", 2, b"# c"),
    ("only comments and empty lines", 5, b"# a\n\n  # b\n \n"),
    ("a middleware alone", 2, b"use head\n"), ("the same without an LF", 2, b"use head"),
    ("six middleware", 7, b"use head\n" * 6),
    ("an empty block", 2, b"map /a\nend\n"), ("an empty block behind a comment", 3, b"# c\nmap /a\nend\n"),
    ("a block of a middleware", 3, b"map /a\nuse head\nend\n"),
    ("an empty block within one", 3, b"map /a\nmap /b\nend\nend\n"),
    ("the second of two blocks", 5, b"map /a\nrun echo\nend\nmap /b\nend\n"),
    ("the first of two", 2, b"map /a\nend\nmap /b\nend\n"),
    ("a block beside one that has one", 2, b"map /a\nend\nmap /b\nrun echo\nend\n"),
    ("a middleware behind blocks", 5, b"map /a\nrun echo\nend\nuse head\n"),
    ("an empty block in front of a middleware without one", 2, b"map /a\nend\nuse head\n"),
    ("blocks around a middleware", 2, b"map /a\nend\nuse head\nmap /b\nend\n"),
    ("the block behind the middleware alone", 6, b"map /a\nrun echo\nend\nuse head\nmap /b\nend\n"),
    ("the innermost goes first", 4, b"map /a\nuse head\nmap /b\nend\nend\n"),
    ("the inner one of a block that has none either", 3, b"map /a\nmap /b\nend\nuse head\nend\n"),
    ("a block whose blocks alone have one", 6, b"map /a\nmap /b\nrun echo\nend\nuse head\nend\n"),
    ("a block behind one with all", 8, b"map /a\nrun echo\nmap /b\nend\nend\n# c\nmap /c\nend\nmap /d\nend\n"),
]
MANY = [
    ("257 steps", 257, b"use head\n" * 256 + b"run echo\n"), ("257 runs", 257, b"run echo\n" * 257),
    ("257 steps, maps among them", 385, b"map /a\nrun echo\nend\n" * 128 + b"run echo\n"),
    ("a map as one step too many", 257, b"use head\n" * 256 + b"map /a\nrun echo\nend\n"),
    ("a cascade as one step too many", 257, b"run echo\n" * 256 + b"cascade\nend\n"),
    ("a run within a cascade as one too many", 257, b"cascade\n" + b"run echo\n" * 256 + b"end\n"),
    ("comments and empty lines are no steps", 259, b"# c\n\n" + b"run echo\n" * 257),
    ("a depth of 33", 33, b"map /a\n" * 33 + b"run echo\n" + b"end\n" * 33),
    ("an empty block at a depth of 33", 34, b"run echo\n" + b"map /a\n" * 33 + b"end\n" * 33),
    ("an empty cascade at a depth of 33", 33, b"map /a\n" * 32 + b"cascade\nend\n" + b"end\n" * 32),
    ("a depth of 33 in a second block", 98, DEEPEST + b"map /b\n" * 33),
    ("a depth of 33 behind the end of the innermost", 36, b"map /a\n" * 32 + b"run echo\nend\nmap /b\nmap /c\n"),
    ("a step too many before a block that isn't ended", 257, b"map /a\n" + b"use head\n" * 256),
]
RULES = {1: BYTES, 2: FIRST_WORDS, 3: NAMES, 4: COUNTS, 5: FORMS, 6: ENDS, 7: CASCADES, 8: LACKING, 9: MANY}


def check_rules(checks):
    """Each rule: the first bad line and its least rule, by `check` and by `once`."""
    checks.begin("rules for stack files", DIRECTLY)
    for rule, cases in RULES.items():
        for name, line, text in cases:
            want = bad_stack(line, rule)
            checks.wants(name, want, "check", write("stack", text))
            checks.wants(name + ", once", want, "once", "stack", stdin=GET)
            # The rules on which the other cases rest say the same.
            checks.counts(name + ", by the rules", want, check(text))
    write("stack", b"run echoes\n")
    checks.wants("a bad stack before a failed read", bad_stack(1, 3), "once", "stack", stdin="/")
    for byte in [*range(32), *range(127, 256)]:
        want = bad_stack(1, 1) if byte != 10 else bad_stack(1, 2)
        checks.wants(f"the byte {byte}", want, "check", write("stack", b"x%c\n" % byte))


# What is written of each: what the file is, the file, and its written form where that is another.
WRITTEN = [
    *[(line.decode(), line + b"\nrun echo\n", None) for line in (
        b"use head", b"use content_length", b"use content_type a/b", b"use content_type \\e", b"use method_override",
        b"use set_header a b", b"use set_header \\e \\e", b"use set_header X-A \\s\\n\\r\\\\\\x00\\xff", b"use lint")],
    *[(line.decode(), b"run " + line + b"\n", None) for line in (
        b"text 200 text/plain hello", b"text 100 \\e \\e", b"text 999 # #", b"echo", b"env", b"pieces 200",
        b"pieces 404 a \\e b", b"stream", b"stream a", b"stream \\e \\x80", b"cookies a=1", b"cookies \\e \\e",
        b"bad 1", b"bad 10 8 7 6 5 4 3 2", b"bad 1 1 1", b"raise oops", b"raise \\e", b"late 0", b"late 1000000 a",
        b"late 5 a !", b"late 5 !", b"late 5 ! a", b"late 5 ! \\e", b"late 5 \\e !", b"take echo", b"take upper",
        b"part 200 echo", b"part 100 upper", b"part 999 echo")],
    ("a hijacker that is escaped", b"run take \\x65cho\n", b"run take echo\n"),
    ("zeros in front of the status of a part", b"run part 0200 upper\n", b"run part 200 upper\n"),
    ("content_type alone", b"use content_type\nrun echo\n", b"use content_type text/html\nrun echo\n"),
    ("zeros in front", b"run text 000200 a b\n", b"run text 200 a b\n"),
    ("zeros in front of a length", b"run late 00 a\n", b"run late 0 a\n"),
    ("zeros in front of a number", b"run bad 04 010 1\n", b"run bad 4 10 1\n"),
    ("many zeros", b"run pieces " + b"0" * 4000 + b"404 a\n", b"run pieces 404 a\n"),
    ("digits that are escaped", b"run text \\x32\\x30\\x30 a b\n", b"run text 200 a b\n"),
    ("a mark that is escaped", b"run late 5 a \\x21\n", b"run late 5 a !\n"),
    ("letters that need no escape", b"run raise \\x68\\x65l\\x6C\\x6f\n", b"run raise hello\n"),
    ("digits in capitals", b"run raise \\xAB\\xCd\\xeF\n", b"run raise \\xab\\xcd\\xef\n"),
    ("pairs spelled by digits", b"run raise \\x20\\x0a\\x0D\\x5c\\x09\\x7F\n", b"run raise \\s\\n\\r\\\\\\x09\\x7f\n"),
    ("a comment's sign in an argument", b"run raise \\x23c\n", b"run raise #c\n"),
    ("spaces throughout", b"   use   head  \n run  text    200 a   b   \n", b"use head\nrun text 200 a b\n"),
    ("no last LF", b"run echo", b"run echo\n"), ("no last LF, and spaces", b"run echo  ", b"run echo\n"),
    ("comments and empty lines", b"# a\n\n  #b\nrun echo\n   \n# c", b"run echo\n"),
    ("an empty cascade behind these", b"use  content_type\n\n# none\ncascade\nend",
     b"use content_type text/html\ncascade\nend\n"),
    ("spaces that are many in front", b" " * 60000 + b"run echo\n", b"run echo\n"),
    ("spaces alone, more than a line may have", b"run echo\n" + b" " * 5000 + b"\n", b"run echo\n"),
    ("the longest line", LONGEST + b"\n", None), ("the longest line without its LF", LONGEST, LONGEST + b"\n"),
    ("the longest line behind spaces", b" " * 4096 + LONGEST + b"\n", LONGEST + b"\n"),
    ("the longest comment", b"#" + b"c" * 4095 + b"\nrun echo\n", b"run echo\n"),
    ("spaces behind as long as may be", b"run echo" + b" " * 4088 + b"\n", b"run echo\n"),
    *[(f"the place {place.decode()}", b"map " + place + b"\nrun echo\nend\n",
       b"map " + (form or place) + b"\n  run echo\nend\n")
      for place, form in [(b"/", None), (b"//", None), (b"///", None), (b"/a", None), (b"/a/", b"/a"), (b"/a//", None),
                          (b"/a/b/", b"/a/b"), (b"\\x2f", b"/"), (b"\\x2F\\x2f", b"//"), (b"/\\x2fa", b"//a"),
                          (b"/\\x61\\x2f", b"/a"),
                          (b"/\\s", None), (b"/a?b#c", None), (b"/\\x00\\xff\\n/", b"/\\x00\\xff\\n"), (b"/%2f", None),
                          (b"/.", None)]],
    ("blocks within blocks", b"map /a\nmap /b/\nuse head\ncascade\nrun echo\n run env\nend\nend\nend\nrun env\n",
     b"map /a\n  map /b\n    use head\n    cascade\n      run echo\n      run env\n    end\n  end\nend\nrun env\n"),
    ("an empty cascade", b"cascade\nend\n", None), ("runs that don't count",
                                                    b"run echo\nrun env\ncascade\nend\nrun echo\n", None),
    ("a block whose default comes later", b"map /a\nend\nrun echo\n", None),
    ("a block whose default is a cascade", b"map /a\nend\ncascade\nend\n", None),
    ("a block whose default is behind a middleware", b"map /a\nend\nuse head\nmap /b\n  run echo\nend\n", None),
    ("a block that has a block alone", b"map /a\n  map /b\n    run echo\n  end\nend\n", None),
    ("an inner block whose default is the outer block's", b"map /a\n  run echo\n  map /b\n  end\nend\n", None),
    ("an inner block whose default is the whole's", b"run echo\nmap /a\n  map /b\n  end\nend\n", None),
    ("256 steps", MOST, None), ("256 runs", b"run echo\n" * 256, None),
    ("256 steps with a comment", b"#\n" + MOST, MOST),
    ("256 steps in a cascade", b"cascade\n" + b"  run echo\n" * 255 + b"end\n", None),
    ("256 steps in blocks", b"map /a\n  run echo\nend\n" * 128, None),
    ("a depth of 32", DEEPEST, b"".join(b"  " * i + b"map /a\n" for i in range(32)) + b"  " * 32 + b"run echo\n"
     + b"".join(b"  " * i + b"end\n" for i in reversed(range(32)))),
]


def check_written(checks):
    """Each middleware, endpoint, place and block as `check` writes it, and that this is written as it is."""
    checks.begin("written forms", DIRECTLY)
    for name, text, form in WRITTEN:
        want = served(text if form is None else form)
        checks.wants(name, want, "check", write("stack", text))
        checks.counts(name + ", by the rules", want, check(text))
        if form is not None:
            checks.wants(name + ", written again", want, "check", write("stack", form))
    # `check` looks at no input and at no flag of the connection.
    write("stack", ECHO)
    for name, how in [("no input", {}), ("some input", {"stdin": GET}), ("an input that is a folder", {"stdin": "/"})]:
        checks.wants(name, served(ECHO), "check", "stack", **how)
    every = bytes(range(256))
    for name, text in [("all bytes", b"run raise " + escaped(every) + b"\n"),
                       ("all bytes as a place", b"map /" + escaped(every) + b"\n  run echo\nend\n"),
                       ("all bytes as pieces",
                        b"run stream " + b" ".join(escaped(bytes([byte])) for byte in every) + b"\n")]:
        checks.wants(name, served(text), "check", write("stack", text))
    digits = b"run stream " + b" ".join(b"\\x%02X" % byte for byte in every) + b"\n"
    checks.wants("all bytes by digits in capitals", served(text), "check", write("stack", digits))


def check_arguments(checks):
    """Each byte in an argument, by its two digits and as it is written, and what is answered."""
    checks.begin("arguments", DIRECTLY)
    for at in range(0, 256, 64):
        bodies = [(word, body) for byte in range(at, at + 64) for text in [bytes([byte])]
                  for word, body in [(b"\\x%02x" % byte, text), (escaped(text), text),
                                     (b"a" + escaped(text) + b"b", b"a" + text + b"b")]]
        for some in (bodies[:100], bodies[100:]):
            file = b"".join(b"map /%d\nrun text 200 text/plain %s\nend\n" % (i, word) for i,
                            (word, _) in enumerate(some))
            asked = b"".join(b"GET /%d HTTP/1.1\r\nHost: a\r\n\r\n" % i for i in range(len(some)))
            checks.wants(f"the bytes from {at} on", served(*[reply(body) for _, body in some]), "once",
                         write("stack", file),
                         stdin=asked)
    for name, want, line in [
        ("the first and the last byte", reply(b"~", b"!"), b"200 ! ~"),
        ("a space in the body", reply(b"hel lo"), b"200 text/plain hel\\slo"),
        ("a status with zeros in front", reply(b"hello"), b"000200 text/plain hello"),
        ("a status that is escaped", reply(b"hello"), b"\\x32\\x30\\x30 text/plain hello"),
        ("a body that is a comment's sign", reply(b"#"), b"200 text/plain #"),
        ("an empty body", reply(b""), b"200 text/plain \\e"), ("an empty type", reply(b"hello", b""), b"200 \\e hello"),
        ("a body of line ends", reply(b"\r\n\r\n"), b"200 text/plain \\r\\n\\r\\n"),
        ("a backslash", reply(b"\\"), b"200 text/plain \\\\"),
        ("a backslash and a letter", reply(b"\\e"), b"200 text/plain \\\\e"),
        ("digits in capitals and in both", reply(b"\xab\xab"), b"200 text/plain \\xAB\\xAb"),
        ("letters that need no escape", reply(b"hello"), b"200 text/plain \\x68\\x65\\x6c\\x6C\\x6f"),
        ("a type with a parameter", reply(b"hello", b"text/html; charset=utf-8"),
         b"200 text/html;\\scharset=utf-8 hello"),
        ("all bytes", reply(bytes(range(256))), b"200 text/plain " + escaped(bytes(range(256)))),
    ]:
        checks.wants(name, served(want), "once", write("stack", b"run text " + line + b"\n"), stdin=GET)
    checks.wants("no last LF", served(reply(b"")), "once", write("stack", ECHO[:-1]), stdin=GET)


def check_file_sizes(checks):
    """A file of the most bytes is read, and one of a byte more is too long, whatever is in it."""
    checks.begin("sizes of stack files", DIRECTLY)
    comments = (b"#" + b"c" * 1023 + b"\n") * 64
    endpoints = b"".join(b"run stream " + b"x" * 4000 + b"%d\n" % i for i in range(16))
    for name, text in [
        ("comments and an endpoint", comments[:FILE_LIMIT - len(ECHO) - 1] + b"\n" + ECHO),
        ("an endpoint and empty lines", ECHO + b"\n" * (FILE_LIMIT - len(ECHO))),
        ("an endpoint behind spaces", b" " * (FILE_LIMIT - len(ECHO)) + ECHO),
        ("endpoints of 4,000 bytes", endpoints + b"\n" * (FILE_LIMIT - len(endpoints))),
        ("lines that are empty", b"\n" * FILE_LIMIT),
        ("one line", b"x" * FILE_LIMIT),
        ("blocks, a step and comments", b"#\n" * ((FILE_LIMIT - len(DEEPEST)) // 2) + DEEPEST
         + b" " * ((FILE_LIMIT - len(DEEPEST)) % 2)),
    ]:
        checks.counts(name + ", the size", FILE_LIMIT, len(text))
        checks.wants(name, check(text), "check", write("stack", text))
        checks.wants(name + ", once", once(text, GET), "once", "stack", stdin=GET)
        write("stack", text + b"\n")
        checks.wants(name + ", and one byte more", LONG, "check", "stack")
        checks.wants(name + ", and one byte more, once", LONG, "once", "stack", stdin=GET)
    checks.counts("65,536 empty lines, by hand", bad_stack(FILE_LIMIT + 1, 8), check(b"\n" * FILE_LIMIT))
    checks.counts("one line, by hand", bad_stack(1, 1), check(b"x" * FILE_LIMIT))
    checks.counts("an endpoint behind spaces, by hand", served(ECHO), check(b" " * (FILE_LIMIT - len(ECHO)) + ECHO))
