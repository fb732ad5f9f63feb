"""What stacks cost: a kept request through middleware and a map of thirty places, against the endpoint alone, and
reading the longest stack file.
"""

import os
import subprocess
import time

MANY, FEW = 1001, 1
# What is wanted at most: how many times what the endpoint alone costs, and milliseconds.
MOST_THROUGH = 2.5
MOST_READING = 20
LONGEST = 65536
RUNS = 20

HELLO = b"run text 200 text/plain hello\n"
AROUND = b"use head\nuse content_length\nuse content_type\n"
EIGHT = b"".join(b"use " + ware + b"\n" for ware in (
    b"lint", b"head", b"content_length", b"content_type", b"method_override", b"set_header x-a 1",
    b"set_header x-b 2", b"set_header x-c 3"))


def places(count):
    """So many places, none of which is above another."""
    return b"".join(b"map /place%02d\n  run text 200 text/plain place%02d\nend\n" % (n, n) for n in range(count))


def long_file():
    """A stack file of the greatest length: lines as long as they may be, and 256 steps at most."""
    step = b"use set_header x-long " + b"a" * 4000 + b"\n"
    lines = step * ((LONGEST - len(HELLO)) // len(step))
    return lines + b"#" * (LONGEST - len(lines) - len(HELLO) - 1) + b"\n" + HELLO


def figures(program, folder, heads, instructions):
    """Prints the tables, by the heads by name and a function that counts a run. Answers what was compared: its
    name, what was found and what is wanted at most."""
    def stack(name, text):
        path = os.path.join(folder, name)
        with open(path, "wb") as file:
            file.write(text)
        return path

    def each(path, text):
        many, few = (instructions(text * count, None, path, count) for count in (MANY, FEW))
        return (many - few) / (MANY - FEW)

    curl = heads["as curl writes it"]
    at_place = curl.replace(b" / ", b" /place17/more ", 1)
    alone = stack("alone.stack", HELLO)
    costs = {}
    print("\n| kept request, curl's head, through | instructions | times the endpoint alone |")
    print("|---|--:|--:|")
    for name, text, request in (
            ("the endpoint alone", HELLO, curl),
            ("head, content_length, content_type", AROUND + HELLO, curl),
            ("thirty places", places(30) + HELLO, at_place),
            ("eight middleware", EIGHT + HELLO, curl),
            ("eight middleware and thirty places", EIGHT + places(30) + HELLO, at_place)):
        costs[name] = each(stack("stack", text) if name != "the endpoint alone" else alone, request)
        print(f"| {name} | {costs[name]:,.0f} | {costs[name] / costs['the endpoint alone']:.2f} |", flush=True)
    path = stack("long.stack", long_file())
    taken = []
    for _ in range(RUNS):
        begun = time.perf_counter()
        subprocess.run([program, "check", path], stdout=subprocess.DEVNULL, check=True)
        taken.append((time.perf_counter() - begun) * 1000)
    print(f"\nReading and writing a stack file of {LONGEST:,} bytes, from start to end: {min(taken):.2f} ms at best.")
    return [("through eight middleware and thirty places",
             costs["eight middleware and thirty places"] / costs["the endpoint alone"], MOST_THROUGH),
            ("a stack file of 65,536 bytes, ms", min(taken), MOST_READING)]
