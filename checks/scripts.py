"""That each script of the checks and of the figures compiles. The figures are counted by hand, so no other
case would see one that doesn't.
"""

import glob
import os

from program import TOP


def check_scripts(checks):
    checks.begin("scripts")
    for folder in ("bench", "checks"):
        for path in sorted(glob.glob(os.path.join(TOP, folder, "*.py"))):
            checks.counts(os.path.relpath(path, TOP), None, fault_of(path))


def fault_of(path):
    """Why this file is no script of Python, or nothing where it is one."""
    with open(path, "rb") as file:
        try:
            compile(file.read(), path, "exec")
        except (SyntaxError, ValueError) as e:
            return str(e)
    return None
