"""The program that is tried."""

import os
import subprocess
import sys

from conversation_reader import TOP

BUILT = f"{TOP}/crates/playout_cli/out/playout_cli"
# That of words without a database.
SHORT = f"{TOP}/crates/playout_memory/out/playout_memory"


def found_program(named):
    """The path of the program that is named, or of the one that is built here."""
    if named:
        return os.path.abspath(named)
    if subprocess.run([f"{TOP}/playout", "--help"], stdout=subprocess.DEVNULL, check=False).returncode:
        sys.exit("conversations: 0 passed, 1 failed")
    return BUILT


def short_program():
    """The path of the program for words without a database, proved and built here."""
    if subprocess.run([f"{TOP}/.ci/prove", "playout_memory"], check=False).returncode:
        sys.exit("conversations: 0 passed, 1 failed")
    return SHORT
