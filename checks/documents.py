"""That what is told of stack files names each middleware, each endpoint and each rule that there is, and no other."""

import os
import re

from program import TOP, run
from stack_file import ENDPOINTS, MIDDLEWARE

NAMES = {"use": sorted(name.decode() for name in MIDDLEWARE), "run": sorted(name.decode() for name in ENDPOINTS)}


def text_of(*path):
    with open(os.path.join(TOP, *path), encoding="utf-8") as file:
        return file.read()


def section(text, heading):
    """What stands behind this heading, up to the next one."""
    return text.partition(f"\n## {heading}\n")[2].partition("\n## ")[0]


def between(text, front, back):
    return text.partition(front)[2].partition(back)[0]


def first_words(text):
    """The first word of each part of a list with commas. What stands in brackets is no part of it."""
    parts = re.sub(r"\[[^]]*\]", "", text).split(",")
    return sorted(part.split()[0] for part in parts if part.split())


def check_names(checks):
    checks.begin("names in documents")
    asked = (run(["--help"]) or (None, b"", b""))[1].decode("ascii", "replace")
    stacks, readme = text_of("docs", "STACKS.md"), text_of("README.md")
    example = text_of("examples", "everything.stack")
    canon = text_of("crates", "stack_file", "specs", "Canon.antt")
    found = {
        ("definitions", "use"): sorted(re.findall(r'^ware_words .*?= codes "(\w+)"', canon, re.M)),
        ("definitions", "run"): sorted(re.findall(r'^app_words .*?= codes "(\w+)"', canon, re.M)),
        ("--help", "use"): first_words(between(asked, "  Middleware", "  Endpoints")),
        ("--help", "run"): first_words(between(asked, "  Endpoints", "  Blocks")),
        ("README", "use"): first_words(between(readme, "middleware (", ")").replace("`", "")),
        ("README", "run"): first_words(between(readme, "endpoints (", ")").replace("`", "")),
    }
    for verb, heading in (("use", "Middleware"), ("run", "Endpoints")):
        rows = section(stacks, heading)
        found["STACKS", verb] = sorted(set(re.findall(rf"^\| `{verb} ([a-z_]+)", rows, re.M)))
        found["everything.stack", verb] = sorted(set(re.findall(rf"^ *{verb} +(\S+)", example, re.M)))
    for (document, verb), names in found.items():
        checks.counts(f"{document}, what `{verb}` can name", NAMES[verb], names)
    rules = [f"S{number}" for number in range(1, 10)]
    checks.counts("--help, each rule of stack files", rules, sorted(set(re.findall(r"^  (S\d) ", asked, re.M))))
    checks.counts("STACKS, each rule of stack files", rules, re.findall(r"^\| (S\d) ", stacks, re.M))
