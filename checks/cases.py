"""Runs bin/puma as a user does and compares exit status, standard output and standard error.

What is wanted is written down from the rules for requests, stack files and exit statuses, and is never
taken from the program. A case that can't be tried on this machine is passed over with a line.
"""

import os
import shutil
import subprocess
import sys
import tempfile

import bodies
import connections
import control
import documents
import dist
import endpoints
import heads
import hijacks
import launcher
import memory
import middleware
import package
import places
import random_stacks
import scripts
import stacks
import streams
import words
from program import PUMA, TOP, Checks, write
from wanted import ECHO, HELLO

GROUPS = (
    scripts.check_scripts,
    launcher.check_use, launcher.check_builds, dist.check_kept, dist.check_gate, package.check_package,
    words.check_words, words.check_options, words.check_help, words.check_files,
    documents.check_names,
    stacks.check_rules, stacks.check_written, stacks.check_arguments, stacks.check_file_sizes,
    random_stacks.check_random, middleware.check_answers, middleware.check_methods,
    places.check_rows, places.check_places, places.check_defaults, places.check_cascades, places.check_largest,
    places.check_examples,
    streams.check_statuses, streams.check_streams, streams.check_reads_and_writes, streams.check_interruptions,
    memory.check_memory,
    heads.check_requests, heads.check_heads, heads.check_cuts, heads.check_hostile,
    bodies.check_bodies, bodies.check_large_bodies, bodies.check_random_chunks,
    connections.check_kept, connections.check_pipelined, connections.check_ends, connections.check_waiting_writers,
    endpoints.check_rows, endpoints.check_endpoints, endpoints.check_broken, endpoints.check_statuses,
    endpoints.check_long, endpoints.check_environments,
    control.check_orders, control.check_no_answers, control.check_nobody,
    hijacks.check_rows, hijacks.check_pipelined, hijacks.check_long, hijacks.check_reads, hijacks.check_failures,
)


def main():
    # What is built is built here, so that no case sees it.
    built = subprocess.run([PUMA, "once", os.path.join(TOP, "examples", "hello.stack")],
                           stdin=subprocess.DEVNULL, stdout=subprocess.DEVNULL)
    if built.returncode == 125:
        print("the program was not built")
        print("0 passed, 1 failed")
        return 1
    checks = Checks()
    folder = tempfile.mkdtemp(prefix="puma-checks-")
    # Another user is to reach it.
    os.chmod(folder, 0o755)
    os.chdir(folder)
    try:
        write("hello.stack", HELLO)
        write("echo.stack", ECHO)
        for group in GROUPS:
            group(checks)
        checks.end()
    finally:
        os.chdir(TOP)
        shutil.rmtree(folder)
    skipped = f", {checks.skipped} skipped" if checks.skipped else ""
    print(f"{checks.passed} passed, {checks.failed} failed{skipped}")
    # Checks that tried nothing have shown nothing.
    return 1 if checks.failed or not checks.passed else 0


if __name__ == "__main__":
    sys.exit(main())
