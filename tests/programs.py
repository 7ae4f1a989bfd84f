"""The programs that tests run beside each other: git, rawgit and gitseq."""

import os
import shutil
import subprocess
import sys

TOP = os.path.dirname(os.path.dirname(os.path.abspath(__file__)))
RAWGIT = os.path.join(TOP, "tools", "rawgit")
BUILT = os.path.join(TOP, "crates", "gitseq", "out", "gitseq")
STATES = os.path.join(TOP, "crates", "state_vectors", "out", "state_vectors")
LIST_REFS = os.path.join(TOP, "crates", "list_refs", "out", "list_refs")
MAKE_COMMIT = os.path.join(TOP, "crates", "make_commit", "out", "make_commit")
PLAN_TODO = os.path.join(TOP, "crates", "plan_todo", "out", "plan_todo")
SECONDS = 120

SETTINGS = b"""\
[init]
\tdefaultBranch = master
[core]
\tfsync = none
[gc]
\tauto = 0
[merge]
\trenames = false
[protocol "file"]
\tallow = always
"""


def environment(home):
    """An environment in which git reads no settings but these, and in which a fixed author commits. `home` is made."""
    os.mkdir(home)
    settings = os.path.join(home, "settings")
    with open(settings, "wb") as file:
        file.write(SETTINGS)
    return {
        "PATH": os.environ["PATH"],
        "HOME": home,
        "LC_ALL": "C",
        "TZ": "UTC",
        "GIT_CONFIG_NOSYSTEM": "1",
        "GIT_CONFIG_GLOBAL": settings,
        "GIT_AUTHOR_NAME": "Ann",
        "GIT_AUTHOR_EMAIL": "ann@x",
        "GIT_AUTHOR_DATE": "@1000 +0000",
        "GIT_COMMITTER_NAME": "Ann",
        "GIT_COMMITTER_EMAIL": "ann@x",
        "GIT_COMMITTER_DATE": "@1000 +0000",
    }


def run(words, folder, env, stdin=b""):
    """The exit status, and what was printed on standard output and on standard error."""
    try:
        done = subprocess.run(words, cwd=folder, env=env, input=stdin, capture_output=True, timeout=SECONDS, check=False)
    except subprocess.TimeoutExpired:
        return "hangs", b"", b""
    return done.returncode, done.stdout, done.stderr


def git(folder, env, *words, stdin=b""):
    """What git printed. The test cannot go on where it failed."""
    status, printed, said = run(["git", *words], folder, env, stdin)
    if status != 0:
        raise RuntimeError(f"git {' '.join(map(str, words))} failed in {folder}: {said.decode(errors='replace')}")
    return printed


def rawgit(env, way, source, destination):
    """The warnings of rawgit, which must do what it is asked."""
    status, printed, said = run([RAWGIT, way, source, destination], TOP, env)
    if status != 0 or printed:
        raise RuntimeError(f"rawgit {way}: status {status}, {(printed + said).decode(errors='replace')}")
    return said.decode(errors="replace").splitlines()


def complaints(folder, env):
    """What `git fsck --strict` finds wrong, and its status where it found something."""
    status, printed, said = run(["git", "fsck", "--strict", "--no-dangling", "--no-progress"], folder, env)
    lines = [line for line in (printed + said).splitlines() if not line.startswith(b"notice: ")]
    return [status, *lines] if status != 0 or lines else []


def held(path):
    """What stands at a path: a link's target, or a file's permissions and bytes."""
    if os.path.islink(path):
        return "link", os.readlink(path)
    with open(path, "rb") as file:
        return os.fstat(file.fileno()).st_mode, file.read()


def contents(folder):
    """What each file and link below a folder holds, and which folders there are."""
    found = {}
    for above, folders, files in os.walk(folder):
        for name in folders + files:
            path = os.path.join(above, name)
            is_folder = os.path.isdir(path) and not os.path.islink(path)
            found[os.path.relpath(path, folder)] = "folder" if is_folder else held(path)
    return found


def is_there(name):
    return shutil.which(name) is not None


def gitseq():
    """The program, or None: the one that GITSEQ names, else the one that was built."""
    named = os.environ.get("GITSEQ")
    if named and not os.access(named, os.X_OK):
        sys.exit(f"there is no program {named}, which GITSEQ names")
    found = named or BUILT
    return os.path.abspath(found) if os.path.exists(found) else None
