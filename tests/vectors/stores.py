"""What a store holds before a call and after it, in cases and in answers; and what git's repositories hold."""

import hashlib
import os

OBJECTS = b".git/objects/"


def object_path(name):
    return OBJECTS + f"{name[:2]}/{name[2:]}".encode()


def object_text(kind, content):
    return kind.encode() + b" %d\0" % len(content) + content


def name_of(text):
    return hashlib.sha1(text).hexdigest()


def with_objects(*objects):
    """The files of objects, each a kind and a content."""
    texts = [object_text(kind, content) for kind, content in objects]
    return {object_path(name_of(text)): text for text in texts}


def given(files):
    """The files of a store, as they stand in a case."""
    return [len(files), *(field for path in sorted(files) for field in (path, files[path]))]


def changed(before, after):
    """The files that are new or have another text, and those that are there no longer, as an answer tells them."""
    fields = []
    for path in sorted(after):
        if before.get(path) != after[path]:
            name = name_of(after[path])
            fields += ["object", name] if path == object_path(name) else ["put", path, after[path]]
    for path in sorted(before):
        if path not in after:
            fields += ["removed", path]
    return fields


def objects_of(repository, *names):
    """The files of these objects, or of all, uncompressed."""
    names = names or repository.line("cat-file", "--batch-all-objects", "--batch-check=%(objectname)").split()
    files = {}
    for name in names:
        kind = repository.line("cat-file", "-t", name)
        files[object_path(name)] = object_text(kind, repository.git("cat-file", kind, name))
    return files


def files_of(repository, *folders):
    """The files that stand at these paths of a repository, and below them."""
    found = {}
    for folder in folders:
        path = repository.path(folder)
        inside = [path] if os.path.isfile(path) else [os.path.join(above, name) for above, _, names in os.walk(path) for name in names]
        for file in inside:
            name = os.path.relpath(file, repository.top)
            found[os.fsencode(name)] = repository.read(name)
    return found


def refs_of(repository):
    """HEAD, the refs and their logs, loose and packed."""
    return files_of(repository, ".git/HEAD", ".git/packed-refs", ".git/refs", ".git/logs")
