"""A copy of Git's repository that gitseq reads."""

import hashlib
import os
import struct
import subprocess

from raw.files import ObjectFolder, Refused, check_folders, copy_worktree, filled, files_below, read, refused, warn, write
from raw.git import asked, git, git_environment, git_words

CHUNK = 1 << 20
STASH = "refs/stash"

# What is read by itself, what is copied as it is, and what Git makes anew.
READ = {"HEAD", "config", "index", "objects", "refs", "logs", "packed-refs", "shallow"}
COPIED = {"COMMIT_EDITMSG", "ORIG_HEAD", "description", "info/attributes", "info/exclude"}
MADE_ANEW = {"info/refs"}


def settings_of(source):
    """The names of its settings."""
    path = os.path.join(".git", "config")
    if not os.path.exists(os.path.join(source, path)):
        return []
    listed = git(source, "config", "--file", path, "--name-only", "--null", "--list")
    return list(dict.fromkeys(os.fsdecode(name) for name in listed.split(b"\0")[:-1]))


def check_repository(source, settings):
    """Asks for a repository of SHA-1 whose worktree is this folder and whose objects are all there."""
    if git(source, "rev-parse", "--is-bare-repository") != b"false\n":
        raise refused(source, "a bare repository, which has no worktree")
    top = os.fsdecode(git(source, "rev-parse", "--show-toplevel").rstrip(b"\n"))
    if os.path.realpath(top) != os.path.realpath(source):
        raise refused(source, f"its worktree is another folder, {top}")
    if git(source, "rev-parse", "--show-object-format") != b"sha1\n":
        raise refused(source, "its ids are not of SHA-1")
    if any(name.endswith(".promisor") or name == "extensions.partialclone" for name in settings):
        raise refused(source, "a partial clone: not all of its objects are there")
    git(source, "rev-list", "--objects", "--all", "--indexed-objects", "--quiet")


def import_object(line, stream, objects):
    """Writes the object that this line of `git cat-file --batch` tells of."""
    words = line.decode().split()
    if len(words) != 3 or not words[2].isdigit():
        raise Refused(f"git cannot read an object: {line.decode().rstrip()}")
    name, kind, left = words[0], words[1], int(words[2])
    header = f"{kind} {left}\0".encode()
    digest = hashlib.sha1(header)
    with objects.new_object(name) as file:
        file.write(header)
        while left > 0:
            chunk = stream.read(min(left, CHUNK))
            if not chunk:
                raise Refused(f"git cannot read the object {name}")
            digest.update(chunk)
            file.write(chunk)
            left -= len(chunk)
    if digest.hexdigest() != name or stream.read(1) != b"\n":
        raise Refused(f"git cannot read the object {name}: its content has another id")


def import_objects(source, folder):
    """Writes all objects that git has there, those of its packs and alternates too. Git's own words on standard error stand."""
    words = git_words(source, ["cat-file", "--batch", "--batch-all-objects", "--unordered", "--buffer"])
    objects = ObjectFolder(folder)
    with subprocess.Popen(words, env=git_environment(source), stdin=subprocess.DEVNULL, stdout=subprocess.PIPE) as process:
        try:
            while line := process.stdout.readline():
                import_object(line, process.stdout, objects)
        except BaseException:
            process.kill()
            raise
    if process.returncode != 0:
        raise refused(source, "git cannot read all of its objects")


def import_refs(source, repository):
    """Writes each ref as a file of its own."""
    os.makedirs(os.path.join(repository, "refs", "heads"))
    listed = git(source, "for-each-ref", "--format=%(refname)%00%(objectname)%00%(symref)")
    for line in listed.splitlines():
        name, value, target = line.split(b"\0")
        if os.fsdecode(name) == STASH:
            warn(f"{STASH} is left out, with its reflog; its objects are copied")
            continue
        write(os.path.join(repository, os.fsdecode(name)), b"ref: " + target + b"\n" if target else value + b"\n")
    if os.path.exists(os.path.join(source, ".git", "packed-refs")):
        warn(".git/packed-refs is left out: each of its refs is a file now")


def import_head(source, repository):
    status, branch, _ = asked(source, "symbolic-ref", "--quiet", "HEAD")
    value = b"ref: " + branch if status == 0 else git(source, "rev-parse", "--verify", "HEAD")
    write(os.path.join(repository, "HEAD"), value)


def import_reflogs(source, repository):
    logs = os.path.join(source, ".git", "logs")
    for name in files_below(logs) if os.path.isdir(logs) else []:
        if name != STASH:
            write(os.path.join(repository, "logs", name), read(os.path.join(logs, name)))


def index_entry(mode, name, stage, path):
    """An entry of the index, version 2, whose stat words are 0 but for the mode."""
    words = struct.pack(">10I", 0, 0, 0, 0, 0, 0, mode, 0, 0, 0)
    entry = words + bytes.fromhex(name) + struct.pack(">H", stage << 12 | min(len(path), 0xFFF)) + path
    return entry + b"\0" * (8 - len(entry) % 8)


def index_text(entries):
    text = b"DIRC" + struct.pack(">II", 2, len(entries)) + b"".join(entries)
    return text + hashlib.sha1(text).digest()


def warn_of_marks(name, paths):
    if paths:
        others = f" and {len(paths) - 1} more" if len(paths) > 1 else ""
        warn(f".git/index: the mark {name} is left out, of {os.fsdecode(paths[0])}{others}")


def import_index(source, repository):
    """Writes the entries of the index. A path that was only announced by `git add -N` is none."""
    if not os.path.exists(os.path.join(source, ".git", "index")):
        return
    announced = set(git(source, "diff-files", "--name-only", "--diff-filter=A", "-z").split(b"\0")[:-1])
    entries, unlooked, hidden = [], [], []
    for line in git(source, "ls-files", "--stage", "-v", "-z").split(b"\0")[:-1]:
        words, path = line.split(b"\t", 1)
        mark, mode, name, stage = words.decode().split()
        if path in announced:
            continue
        entries.append(index_entry(int(mode, 8), name, int(stage), path))
        if mark.islower():
            unlooked.append(path)
        if mark in "Ss":
            hidden.append(path)
    warn_of_marks("assume-unchanged", unlooked)
    warn_of_marks("skip-worktree", hidden)
    warn_of_marks("intent-to-add", sorted(announced))
    write(os.path.join(repository, "index"), index_text(entries))


def rest_of(git_folder):
    """The files of a repository that are not read by themselves, but for Git's samples of hooks."""
    for entry in sorted(os.scandir(git_folder), key=lambda entry: entry.name):
        if entry.name in READ:
            continue
        below = files_below(entry.path) if entry.is_dir(follow_symlinks=False) else [None]
        for name in below:
            path = entry.name if name is None else f"{entry.name}/{name}"
            if path not in MADE_ANEW and not (entry.name == "hooks" and path.endswith(".sample")):
                yield path


def import_rest(source, repository):
    """Copies the few further files that gitseq may find there. All others are named: hooks and what is in `info` each, else by
    their folder."""
    git_folder = os.path.join(source, ".git")
    left_out = []
    for path in rest_of(git_folder):
        if path in COPIED:
            write(os.path.join(repository, path), read(os.path.join(git_folder, path)))
        else:
            first = path.split("/", 1)[0]
            left_out.append(path if first in ("hooks", "info") else first)
    for path in dict.fromkeys(left_out):
        warn(f".git/{path} is left out")


def warn_of_settings(settings):
    if settings:
        warn(f".git/config is left out, with {', '.join(settings)}")


def warn_of_shallow(source):
    if os.path.exists(os.path.join(source, ".git", "shallow")):
        warn(".git/shallow is left out: its commits name parents that are not there")


def import_repository(source, destination):
    check_folders(source, destination)
    settings = settings_of(source)
    check_repository(source, settings)
    repository = os.path.join(destination, ".git")
    with filled(destination):
        os.mkdir(repository)
        import_objects(source, os.path.join(repository, "objects"))
        import_refs(source, repository)
        import_reflogs(source, repository)
        import_index(source, repository)
        import_rest(source, repository)
        copy_worktree(source, destination)
        import_head(source, repository)
    warn_of_settings(settings)
    warn_of_shallow(source)
