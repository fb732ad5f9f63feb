"""Running the program as a user does, and counting what was as it should be."""

import errno
import os
import socket
import subprocess
import tempfile
import threading

TOP = os.path.dirname(os.path.dirname(os.path.abspath(__file__)))
PUMA = os.path.join(TOP, "bin", "puma")
# The program that `bin/puma` runs, or where it builds one.
PROGRAM = subprocess.run(["sh", "-c", 'top=$1; . "$top/bin/made_of"; find_program; printf %s "${program:-$built}"', "sh", TOP],
                         stdout=subprocess.PIPE, text=True, check=True).stdout
DIRECTLY = (PROGRAM,)
SECONDS = 60


class Cut:
    """Input that comes in these pieces, each of them one read, and then ends or stays open. None is empty."""

    def __init__(self, pieces, stays_open=False):
        self.pieces = [bytes(piece) for piece in pieces]
        self.stays_open = stays_open

    @staticmethod
    def every(text, size):
        return Cut(text[at:at + size] for at in range(0, len(text), size))


class Reset:
    """Input that breaks off behind this text: the next read fails."""

    def __init__(self, text):
        self.text = text


class Ready:
    """Input of which these pieces are there, each of them one read, and where a read that would wait fails."""

    def __init__(self, *pieces):
        self.pieces = pieces


def feed(end, cut):
    # An empty piece is a read of nothing, which is the end. A shutdown is no piece: a reader that is about to wait can
    # see it before the pieces that were sent ahead of it.
    pieces = cut.pieces if cut.stays_open else [*cut.pieces, b""]
    try:
        for piece in pieces:
            end.send(piece)
    except OSError as e:
        # The program has read enough and has ended.
        if e.errno not in (errno.EPIPE, errno.ECONNRESET):
            raise


def ends_of(stdin):
    """The end that the program reads, and the far one where it has to stay open."""
    if isinstance(stdin, bytes):
        near = tempfile.TemporaryFile()
        near.write(stdin)
        near.seek(0)
        return near, None
    if isinstance(stdin, Cut):
        far, near = socket.socketpair(socket.AF_UNIX, socket.SOCK_SEQPACKET)
        return near, far
    if isinstance(stdin, Reset):
        far, near = socket.socketpair(socket.AF_UNIX, socket.SOCK_STREAM)
        near.send(b"never read")
        far.send(stdin.text)
        far.close()
        return near, None
    # One piece needs nothing that keeps pieces apart.
    kind = socket.SOCK_SEQPACKET if len(stdin.pieces) > 1 else socket.SOCK_STREAM
    far, near = socket.socketpair(socket.AF_UNIX, kind)
    for piece in stdin.pieces:
        far.send(piece)
    near.setblocking(False)
    return near, far


def run(words, stdin=b"", stdout=subprocess.PIPE, stderr=subprocess.PIPE, program=(PUMA,), **how):
    """Status, output and errors of the program, run in the current folder. A hang gives None.

    `stdin` is a text, one of the classes above, the name of a file, or an open one. `how` is for Popen.
    """
    far = feeder = None
    if isinstance(stdin, str):
        near = os.open(stdin, os.O_RDONLY)
    elif hasattr(stdin, "fileno"):
        near = stdin
    else:
        near, far = ends_of(stdin)
    child = subprocess.Popen([*program, *words], stdin=near, stdout=stdout, stderr=stderr, **how)
    if isinstance(near, int):
        os.close(near)
    elif near is not stdin:
        near.close()
    if isinstance(stdin, Cut):
        feeder = threading.Thread(target=feed, args=(far, stdin))
        feeder.start()
    try:
        out, err = child.communicate(timeout=SECONDS)
        return (child.returncode, out or b"", err or b"")
    except subprocess.TimeoutExpired:
        child.kill()
        child.communicate()
        return None
    finally:
        if feeder is not None:
            feeder.join()
        if far is not None:
            far.close()


class Checks:
    """Counts what passed, and prints a line for each group and for each case that failed."""

    def __init__(self):
        self.passed = self.failed = self.skipped = 0
        self.group, self.in_group = "", 0
        self.program = (PUMA,)

    def begin(self, group, program=(PUMA,)):
        """A group of many cases may run the program itself, which `bin/puma` has built and does no more than start."""
        self.end()
        self.group, self.in_group = group, 0
        self.program = program

    def end(self):
        if self.in_group:
            print(f"{self.group}: {self.in_group} passed", flush=True)

    def wants(self, name, want, *words, **how):
        """Status, output and errors of the program with these words."""
        self.answers(name, want, run(words, **{"program": self.program, **how}))

    def answers(self, name, want, got):
        """Status, output and errors, as `run` gives them."""
        if got == want:
            self.passed += 1
            self.in_group += 1
            return
        self.failed += 1
        print(f"FAILED {self.group}: {name}")
        if got is None:
            print(f"  did not end within {SECONDS} seconds")
            return
        for part, wanted, found in zip(("status", "output", "errors"), want, got):
            if wanted != found:
                print(f"  {part}: wanted {short(wanted)}, found {short(found)}")

    def counts(self, name, want, got):
        """Anything else that is to be as wanted."""
        if got == want:
            self.passed += 1
            self.in_group += 1
        else:
            self.failed += 1
            print(f"FAILED {self.group}: {name}\n  wanted {short(want)}, found {short(got)}")

    def pass_over(self, name, why):
        self.skipped += 1
        print(f"passed over, since {why}: {self.group}: {name}")


def short(value):
    text = repr(value)
    return text if len(text) < 200 else text[:150] + f".. ({len(text)} characters)"


def write(name, text):
    with open(name, "wb") as file:
        file.write(text)
    return name
