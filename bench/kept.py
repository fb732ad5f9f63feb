"""What a kept request costs: runs with 1,001 and with 1 request in one input, and the difference. So a run's start,
the stack file and the opening of the connection aren't in it; the reply and its write are.
"""

import os
import subprocess
import tempfile

MANY, FEW = 1001, 1
WHOLE, ENDS, SEVEN = "whole, from a file", "cut at every request's end", "cut at every 7 bytes"
# What is wanted at most: instructions of a request, and how many times as much ten times the requests cost.
WANTED = {"curl": 12000, "browser": 22000}
MOST_GROWTH = 10.2


def cuts(text, count, way):
    """How so many of these requests come: as one text from a file, or in pieces."""
    if way == WHOLE:
        return None
    if way == ENDS:
        return [text] * count
    whole = text * count
    return [whole[at:at + 7] for at in range(0, len(whole), 7)]


def allocations(program, stack, text):
    """How many allocations a run makes."""
    with tempfile.TemporaryFile() as near:
        near.write(text)
        near.seek(0)
        told = subprocess.run(["valgrind", "--tool=memcheck", program, "once", stack], stdin=near,
                              stdout=subprocess.DEVNULL, stderr=subprocess.PIPE, check=True).stderr.decode()
    line = next(line for line in told.splitlines() if "total heap usage:" in line)
    return int(line.split("usage:")[1].split("allocs")[0].replace(",", ""))


def figures(program, folder, request, heads, instructions, environment):
    """Prints the tables, by a function that makes a head of fields, the heads by name, one that counts a run, and
    what a kept environment costs by name. Answers what was compared: its name, what was found and what is wanted
    at most."""
    def stack(name, line):
        path = os.path.join(folder, name)
        with open(path, "wb") as file:
            file.write(line)
        return path

    hello = stack("hello.stack", b"run text 200 text/plain hello\n")
    echo = stack("echo.stack", b"run echo\n")
    ten = stack("ten.stack", b"run pieces 200 " + b" ".join([b"0123456789"] * 10) + b"\n")
    curl, browser = heads["as curl writes it"], heads["a browser's, 20 fields, 1 KiB of cookies"]
    body = b"a" * 1024
    by_length = request([b"Content-Length: 1024"]).replace(b"GET", b"POST", 1) + body
    in_chunks = request([b"Transfer-Encoding: chunked"]).replace(b"GET", b"POST", 1) + b"400\r\n" + body + b"\r\n0\r\n\r\n"
    print("\n| kept request | comes | bytes | instructions | of these the environment | allocations |")
    print("|---|---|--:|--:|--:|--:|")
    compared = []
    for row, name, path, text in [
        ("curl", "a text, curl's head", hello, curl),
        ("browser", "a text, the browser's head", hello, browser),
        ("length", "an echo of 1 KiB by length", echo, by_length),
        ("chunks", "an echo of 1 KiB in chunks", echo, in_chunks),
        ("pieces", "ten pieces in chunks, curl's head", ten, curl),
    ]:
        made = allocations(program, path, text * MANY) - allocations(program, path, text * FEW)
        for way in (WHOLE, ENDS, SEVEN):
            many, few = (instructions(text * count, cuts(text, count, way), path, count) for count in (MANY, FEW))
            each = (many - few) / (MANY - FEW)
            of_these = f"{environment[row]:,.0f}" if row in environment else ""
            print(f"| {name} | {way} | {len(text):,} | {each:,.0f} | {of_these} | {made / (MANY - FEW):,.1f} |", flush=True)
            if row in WANTED and way != SEVEN:
                compared.append((f"a kept request, {name}, {way}", each, WANTED[row]))
    print("\nThe environment is what filling a kept one anew costs on its own, by the table on kept objects.")
    print(f"\n| requests of curl's head, at most {MOST_GROWTH} times is wanted | instructions beyond one request |")
    print("|---|--:|")
    one = instructions(curl, None, hello, 1)
    thousand, most = (instructions(curl * (count + 1), None, hello, count + 1) - one for count in (999, 9999))
    print(f"| 1,000 | {thousand:,} |\n| 10,000 | {most:,}, which is {most / thousand:.2f} times |")
    return compared + [("ten times the requests", most / thousand, MOST_GROWTH)]
