"""A copy of gitseq's repository that git reads."""

import hashlib
import os
import re
import zlib

from raw.files import ObjectFolder, check_folders, copy_folder, copy_worktree, filled, files_below, read, refused, warn, write

CHUNK = 1 << 20
HEADER = re.compile(rb"(blob|tree|commit|tag) (0|[1-9][0-9]*)\0")
LONGEST_HEADER = 64

FEWEST_SETTINGS = b"""\
[core]
\trepositoryformatversion = 0
\tbare = false
\tlogallrefupdates = true
"""
# gitseq looks at no execute bits and links on disk.
NO_LOOK_ON_DISK = b"[core]\n\tfilemode = false\n\tsymlinks = false\n"


def is_object_text(start, length):
    """Whether a text of this length that starts so is one of an object."""
    header = HEADER.match(start)
    return header is not None and header.end() + int(header[2]) == length


def export_object(path, name, objects):
    """Writes the object in this file, compressed."""
    digest, packer = hashlib.sha1(), zlib.compressobj(1)
    with open(path, "rb") as file, objects.new_object(name) as packed:
        if not is_object_text(file.read(LONGEST_HEADER), os.fstat(file.fileno()).st_size):
            raise refused(path, "not the uncompressed text of an object")
        file.seek(0)
        while chunk := file.read(CHUNK):
            digest.update(chunk)
            packed.write(packer.compress(chunk))
        packed.write(packer.flush())
    if digest.hexdigest() != name:
        raise refused(path, f"its content has the id {digest.hexdigest()}")


def export_objects(source, folder):
    objects = ObjectFolder(folder)
    for path in files_below(source) if os.path.isdir(source) else []:
        if path.startswith("pack/"):
            raise refused(os.path.join(source, path), "a pack, which gitseq does not read: SRC is Git's repository already")
        if re.fullmatch("[0-9a-f]{2}/[0-9a-f]{38}", path):
            export_object(os.path.join(source, path), path.replace("/", ""), objects)
        else:
            warn(f"{os.path.join(source, path)} is left out: not named as an object")


def export_config(source, repository):
    """Git's settings: those that are there, else the fewest."""
    path = os.path.join(source, "config")
    settings = read(path) + b"\n" if os.path.exists(path) else FEWEST_SETTINGS
    write(os.path.join(repository, "config"), settings + NO_LOOK_ON_DISK)


def is_made_anew(entry):
    """Whether export does not copy this as it is."""
    if entry.name == "gitseq-tmp":
        warn(f"{entry.path} is left out")
    return entry.name in ("objects", "config", "gitseq-tmp")


def export_repository(source, destination):
    check_folders(source, destination)
    git_folder = os.path.join(source, ".git")
    if not os.path.isfile(os.path.join(git_folder, "HEAD")):
        raise refused(source, "no repository: there is no .git/HEAD")
    repository = os.path.join(destination, ".git")
    with filled(destination):
        os.mkdir(repository)
        export_objects(os.path.join(git_folder, "objects"), os.path.join(repository, "objects"))
        copy_folder(git_folder, repository, is_made_anew)
        os.makedirs(os.path.join(repository, "refs", "heads"), exist_ok=True)
        export_config(git_folder, repository)
        copy_worktree(source, destination)
