"""What one run of a command takes."""

import os
import sys
import tempfile

HERE = os.path.dirname(os.path.abspath(__file__))
sys.path.insert(0, os.path.join(os.path.dirname(HERE), "tests"))

from programs import run

ONE_RUN = os.path.join(HERE, "one-run")
KILOBYTE = 1024


def measured(words, folder, env):
    """The seconds and the most bytes of memory that a command takes, its exit status and what it printed."""
    with tempfile.NamedTemporaryFile(mode="r", encoding="ascii") as figures:
        status, printed, said = run([sys.executable, "-I", "-S", ONE_RUN, figures.name, *words], folder, env)
        told = figures.read().split()
    if status != 0 or len(told) != 3:
        raise RuntimeError(f"{words[0]} could not be run: {said.decode(errors='replace').strip()}")
    return float(told[0]), int(told[1]) * KILOBYTE, int(told[2]), printed + said


def met(value, target):
    if target is None:
        return "-"
    return f"{target} {'met' if value <= target else 'missed'}"
