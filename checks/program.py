"""The program that a check runs: the one that ASTC_TOOL names, else the one that the gate leaves. A check in Python calls
`find_program(NAME)` with its own name."""
import os
import shutil
import sys

TOP = os.path.dirname(os.path.dirname(os.path.abspath(__file__)))


def find_program(check):
    """The path of the program; without a program the check ends with one line that says what to do."""
    named = os.environ.get("ASTC_TOOL") or os.path.join(TOP, "crates/astc_tool/out/astc_tool")
    found = shutil.which(named)
    if not found:
        sys.exit(f"{check}: there is no program {named}: run ./check, or set ASTC_TOOL")
    return os.path.abspath(found)
