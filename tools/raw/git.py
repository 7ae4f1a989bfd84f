"""What is asked of git."""

import os
import subprocess

from raw.files import refused, warn


def git_words(folder, words):
    return ["git", "-c", "core.fsmonitor=false", "-C", folder, *words]


def git_environment(folder):
    """The environment, so that git takes exactly this folder's repository, and its objects as they are."""
    local = ("DIR", "WORK_TREE", "INDEX_FILE", "OBJECT_DIRECTORY", "ALTERNATE_OBJECT_DIRECTORIES", "COMMON_DIR", "NAMESPACE")
    kept = {name: value for name, value in os.environ.items() if name not in {f"GIT_{part}" for part in local}}
    return {
        **kept,
        "GIT_CEILING_DIRECTORIES": os.path.dirname(os.path.realpath(folder)),
        "GIT_GRAFT_FILE": os.path.join(os.devnull, "none"),
        "GIT_NO_REPLACE_OBJECTS": "1",
        "GIT_OPTIONAL_LOCKS": "0",
        "LC_ALL": "C",
    }


def asked(folder, *words):
    """How git ended, and what it printed."""
    done = subprocess.run(git_words(folder, words), env=git_environment(folder), capture_output=True, check=False)
    return done.returncode, done.stdout, done.stderr.decode(errors="replace").strip()


def git(folder, *words):
    """What git printed. What it warned of is passed on."""
    status, printed, said = asked(folder, *words)
    if status != 0:
        raise refused(folder, f"git {words[0]} failed: {said}")
    for line in said.splitlines():
        warn(f"{folder}: {line}")
    return printed
