"""Files and folders of a copy, and what is asked of its two ends."""

import contextlib
import os
import shutil
import stat
import sys


class Refused(Exception):
    """Why nothing was made."""


def warn(text):
    print(f"rawgit: {text}", file=sys.stderr)


def refused(path, reason):
    return Refused(f"{path}: {reason}")


def new_file(path, permissions=0o666):
    return os.fdopen(os.open(path, os.O_WRONLY | os.O_CREAT | os.O_EXCL, permissions), "wb")


def write(path, content):
    os.makedirs(os.path.dirname(path), exist_ok=True)
    with new_file(path) as file:
        file.write(content)


def read(path):
    with open(path, "rb") as file:
        return file.read()


def files_below(folder):
    """The paths of all that is no folder, in order, as they stand below this folder."""
    found = []
    for entry in sorted(os.scandir(folder), key=lambda entry: entry.name):
        if entry.is_dir(follow_symlinks=False):
            found += [os.path.join(entry.name, below) for below in files_below(entry.path)]
        else:
            found.append(entry.name)
    return found


def is_text(name):
    """Whether this name is UTF-8."""
    try:
        os.fsencode(name).decode()
    except UnicodeDecodeError:
        return False
    return True


def copy_entry(entry, destination):
    """Copies a file or a link."""
    kind = entry.stat(follow_symlinks=False).st_mode
    if stat.S_ISLNK(kind):
        os.symlink(os.readlink(entry.path), destination)
    elif stat.S_ISREG(kind):
        shutil.copy(entry.path, destination)
    else:
        warn(f"{entry.path} is left out: neither a file, a link nor a folder")


def copy_folder(source, destination, is_passed_over=lambda entry: False):
    """Copies what stands in a folder into another. A folder of the worktree that is a repository of its own stays empty."""
    for entry in sorted(os.scandir(source), key=lambda entry: entry.name):
        target = os.path.join(destination, entry.name)
        if is_passed_over(entry):
            continue
        if not is_text(entry.name):
            warn(f"{entry.path}: gitseq reads no name that is not UTF-8")
        if not entry.is_dir(follow_symlinks=False):
            copy_entry(entry, target)
            continue
        os.mkdir(target)
        if os.path.lexists(os.path.join(entry.path, ".git")):
            warn(f"{entry.path} is left empty: it is a repository of its own")
        else:
            copy_folder(entry.path, target)


def copy_worktree(source, destination):
    copy_folder(source, destination, lambda entry: entry.name == ".git")


class ObjectFolder:
    """A folder of loose objects, which makes its 256 folders as they are wanted."""

    def __init__(self, folder):
        self.folder = folder
        self.made = set()
        os.makedirs(folder, exist_ok=True)

    def new_object(self, name):
        first = os.path.join(self.folder, name[:2])
        if first not in self.made:
            os.mkdir(first)
            self.made.add(first)
        return new_file(os.path.join(first, name[2:]), 0o444)


def is_bare(folder):
    return all(os.path.exists(os.path.join(folder, name)) for name in ("HEAD", "objects", "refs"))


def check_folders(source, destination):
    """Asks for a repository with a worktree, and for a place to copy it to."""
    if not os.path.isdir(source):
        raise refused(source, "there is no such folder")
    repository = os.path.join(source, ".git")
    if not os.path.lexists(repository):
        raise refused(source, "a bare repository, which has no worktree" if is_bare(source) else "there is no .git in it")
    if os.path.islink(repository) or not os.path.isdir(repository):
        raise refused(repository, "no folder of its own, as in a linked worktree or a submodule")
    if os.path.lexists(destination) and not os.path.isdir(destination):
        raise refused(destination, "there already, and no folder")
    if os.path.isdir(destination) and os.listdir(destination):
        raise refused(destination, "there already, and not empty")
    inner, outer = os.path.realpath(destination), os.path.realpath(source)
    if os.path.commonpath([inner, outer]) == outer:
        raise refused(destination, f"it lies in {source}")


@contextlib.contextmanager
def filled(destination):
    """The folder to fill. It is emptied again, or removed where it was not there, if that fails."""
    was_there = os.path.isdir(destination)
    if not was_there:
        os.mkdir(destination)
    try:
        yield
    except BaseException:
        for entry in list(os.scandir(destination)):
            if entry.is_dir(follow_symlinks=False):
                shutil.rmtree(entry.path)
            else:
                os.unlink(entry.path)
        if not was_there:
            os.rmdir(destination)
        raise
