"""The programs as rt builds them, and how they are run."""

import os
import subprocess
import sys
from pathlib import Path

ROOT = Path(__file__).resolve().parent.parent


def want(*things):
    """Ends a test that wants something that is missing, with a message and status 2."""
    if subprocess.run([ROOT / "compare" / "wants", *things]).returncode != 0:
        sys.exit(2)


def program(name):
    """A program's file. A folder with all of them may stand in SIROVANY_PROGRAMS; else each stands where rt leaves it."""
    folder = os.environ.get("SIROVANY_PROGRAMS")
    return (Path(folder) if folder else ROOT / "crates" / name / "out").resolve() / name


def command(name):
    """The words that run a program."""
    return [str(program(name))]
