"""What a request costs on kept objects, once all is warm: `bench_warm` makes so many turns and twice as many,
and the difference is what the turns cost. It is taken in alone, with a new environment, and with a kept
one that is filled anew. So too what is done with a connection that waits for its peer.
"""

import os
import re
import subprocess
import sys
import tempfile

TOP = os.path.dirname(os.path.dirname(os.path.abspath(__file__)))
CRATE = os.path.join(TOP, "crates", "bench_warm")
PROGRAM = os.path.join(CRATE, "out", "bench_warm")
TURNS = 1000
INTAKE, NEW, KEPT = "intake", "new", "kept"

# What is wanted at most: instructions a turn, allocations a turn in a kept environment, and how many times as
# much names that collide cost.
WANTED = {
    ("curl", INTAKE): 2100, ("curl", NEW): 8000, ("curl", KEPT): 4500,
    ("browser", INTAKE): 8000, ("browser", NEW): 24000, ("browser", KEPT): 12000, ("64 names", KEPT): 35000,
}
MOST_ALLOCATIONS = 1
MOST_FOR_COLLISIONS = 4

# What is done with a connection that waits, what its peer gave, and how many instructions are wanted at most.
PARKED = (("a tick", "tick"), ("a telling of a drain", "tell"), ("a watch, with what the watcher in memory takes", "watch"))
GAVE = (b"", b"GET / HT")
MOST_FOR_PARKED = 100

WORD = 2 ** 64 - 1
MULTIPLIER = 0x9E37_79B9_7F4A_7C15


def folded(a, b):
    return (a * b & WORD) ^ (a * b >> 64)


def map_place(name):
    """Where the map looks for a name of 9 to 32 bytes: the tag, and one of 16 groups."""
    def number(at):
        return int.from_bytes(name[at:at + 8], "little")

    state = 0x243F_6A88_85A3_08D3 + len(name) & WORD
    if len(name) > 16:
        state = folded(number(0) ^ state, number(8) ^ MULTIPLIER)
    state = folded(number(max(0, len(name) - 16)) ^ state, number(len(name) - 8) ^ MULTIPLIER)
    hashed = (state ^ state >> 32) & 0xFFFF_FFFF
    return max(1, hashed >> 24), hashed & 15


def colliding(count):
    """So many field names, as long as `X-Field-00000`, whose names in the environment share their place."""
    found = {}
    for i in range(10 ** 6):
        name = b"X-Field-%05d" % i if i < 10 ** 5 else b"X-Name-%06d" % i
        place = map_place(b"HTTP_" + name.upper().replace(b"-", b"_"))
        found.setdefault(place, []).append(name)
        if len(found[place]) == count:
            return found[place]
    sys.exit("no names were found that collide")


def turned(tool, makes, text, turns):
    """Turns the requests of the text so often under a tool of valgrind, and answers what the tool told."""
    with tempfile.TemporaryDirectory() as folder:
        into, fed = os.path.join(folder, "counted"), os.path.join(folder, "fed")
        with open(fed, "wb") as file:
            file.write(text)
        with open(fed) as near:
            command = ["valgrind", *tool(into), PROGRAM, makes, str(turns)]
            told = subprocess.run(command, stdin=near, capture_output=True, check=True).stderr.decode()
        if os.path.exists(into):
            with open(into) as file:
                told = file.read()
        return told


def instructions(makes, text, turns):
    told = turned(lambda into: ["--tool=callgrind", f"--callgrind-out-file={into}"], makes, text, turns)
    return int(re.search(r"^(?:summary|totals):\s*(\d+)", told, re.M).group(1))


def allocations(makes, text, turns):
    told = turned(lambda into: ["--tool=memcheck"], makes, text, turns)
    return int(re.search(r"total heap usage: ([\d,]+) allocs", told).group(1).replace(",", ""))


def a_turn(counts, makes, text):
    """What one turn costs, once all is warm."""
    return (counts(makes, text, 2 * TURNS) - counts(makes, text, TURNS)) / TURNS


def parked_figures():
    """Prints what is done with a connection that waits, and answers what was compared."""
    print(f"\n| a connection that waits, at most {MOST_FOR_PARKED} instructions are wanted | nothing was read | a request is begun |")
    print("|---|--:|--:|")
    compared = []
    for name, word in PARKED:
        unread, begun = (a_turn(instructions, word, gave) for gave in GAVE)
        print(f"| {name} | {unread:,.0f} | {begun:,.0f} |", flush=True)
        compared += [(f"{name}, nothing was read", unread, MOST_FOR_PARKED), (f"{name}, a request is begun", begun, MOST_FOR_PARKED)]
    return compared


def figures(request, heads):
    """Prints the tables, by a function that makes a head of fields and the heads by name. Answers what was
    compared (its name, what was found and what is wanted at most), and what a kept environment costs, by row."""
    if subprocess.run(["rt", "run", "--", KEPT, "0"], cwd=CRATE, stdin=subprocess.DEVNULL,
                      stdout=subprocess.DEVNULL, stderr=subprocess.DEVNULL).returncode != 0:
        sys.exit("the program that turns requests was not built")
    curl, browser = heads["as curl writes it"], heads["a browser's, 20 fields, 1 KiB of cookies"]
    names = [b"X-Field-%05d" % i for i in range(63)]
    differ, collide = (request([name + b": value" for name in chosen]) for chosen in (names, colliding(63)))
    rows = [("curl", "as curl writes it", curl), ("browser", "a browser's, 20 fields, 1 KiB of cookies", browser),
            ("64 names", "64 fields, names that differ", heads["64 fields, names that differ"]),
            ("one name", "64 fields, one name", heads["64 fields, one name"]),
            ("differ", "64 fields, longer names that differ", differ),
            ("collide", "64 fields, as long names that collide in the map", collide),
            ("by turns", "curl's and the browser's by turns", curl + browser),
            ("differ by turns", "the browser's and 64 that differ by turns", browser + differ),
            ("collide by turns", "the browser's and 64 that collide by turns", browser + collide)]
    print("\n| on kept objects, once warm | bytes | intake | new environment | kept environment | allocations, kept |")
    print("|---|--:|--:|--:|--:|--:|")
    found, compared = {}, []
    for row, name, text in rows:
        costs = {makes: a_turn(instructions, makes, text) for makes in (INTAKE, NEW, KEPT)}
        costs[NEW] -= costs[INTAKE]
        costs[KEPT] -= costs[INTAKE]
        taken = a_turn(allocations, KEPT, text)
        found[row] = costs
        print(f"| {name} | {len(text):,} | {costs[INTAKE]:,.0f} | {costs[NEW]:,.0f} | {costs[KEPT]:,.0f} | {taken:,.0f} |", flush=True)
        compared += [(f"{name}, {makes}", costs[makes], WANTED[row, makes]) for makes in costs if (row, makes) in WANTED]
        if row in ("curl", "browser"):
            compared.append((f"{name}, allocations", taken, MOST_ALLOCATIONS))
    print("\nInstructions a turn; the environment is the difference to the intake alone. By turns, a line holds both requests.")
    print(f"\n| names that collide, against others as long, at most {MOST_FOR_COLLISIONS} times is wanted | new environment | kept environment |")
    print("|---|--:|--:|")
    for name, one, other in (("the same head again", "collide", "differ"), ("by turns with the browser's", "collide by turns", "differ by turns")):
        times = [found[one][makes] / found[other][makes] for makes in (NEW, KEPT)]
        print(f"| {name} | {times[0]:.2f} times | {times[1]:.2f} times |")
        compared += [(f"names that collide, {name}", most, MOST_FOR_COLLISIONS) for most in times]
    compared += parked_figures()
    return compared, {row: costs[KEPT] for row, costs in found.items()}
