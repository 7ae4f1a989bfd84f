"""Cases of worktree."""

import os
import shutil

from .cases import Repository, chooser
from .index import info, rows_of, written
from .stores import changed, given, objects_of, with_objects

TEXTS = [b"1\n", b"2\n", b"3\n"]
NAMES = [b"a", b"b", b"d", b"d-e", b"d.f", b"e"]


class Worktree:
    """A repository of git with an index and files."""

    def __init__(self):
        self.repository = Repository()
        self.names = [self.repository.put("blob", text) for text in TEXTS]
        self.module = self.repository.commit(self.repository.put("tree", b""), [], b"module\n")
        self.blobs = objects_of(self.repository, *self.names)

    def clear(self):
        for name in os.listdir(self.repository.top):
            if name != ".git":
                path = self.repository.path(name)
                shutil.rmtree(path) if os.path.isdir(path) else os.unlink(path)

    def begin(self, files, rows):
        """Stands there with these files and this index."""
        self.clear()
        for path, text in files.items():
            self.repository.write(os.fsdecode(path), text)
        self.repository.git("read-tree", "--empty")
        self.repository.git("update-index", "-z", "--index-info", stdin=info(rows))
        self.repository.try_git("update-index", "-q", "--refresh")

    def files(self):
        found = {}
        for above, folders, names in os.walk(self.repository.top):
            if ".git" in folders:
                folders.remove(".git")
            for name in names:
                path = os.path.join(above, name)
                with open(path, "rb") as file:
                    found[os.fsencode(os.path.relpath(path, self.repository.top))] = file.read()
        return found

    def index(self):
        return written(rows_of(self.repository))

    def commit(self, rows):
        self.repository.git("read-tree", "--empty")
        self.repository.git("update-index", "-z", "--index-info", stdin=info(rows))
        return self.repository.commit(self.repository.line("write-tree", "--missing-ok"))


def rows_at(entries):
    """The rows of a map from paths to modes and ids."""
    return [(path, 0, mode, name) for path, (mode, name) in sorted(entries.items())]


def map_fields(entries):
    return [field for path, entry in sorted(entries.items()) for field in (path, *entry)]


def chosen(pick, names, count):
    """A map in which no path lies below another."""
    entries = {}
    for _ in range(count):
        path = pick.choice(NAMES)
        if pick.random() < 0.5:
            path += b"/" + pick.choice(NAMES)
        if not any(is_in_way(path, other) for other in entries):
            entries[path] = "100644", pick.choice(names)
    return entries


def is_in_way(path, other):
    return path == other or path.startswith(other + b"/") or other.startswith(path + b"/")


def texts_of(worktree, entries):
    by_name = dict(zip(worktree.names, TEXTS))
    return {path: by_name[name] for path, (mode, name) in entries.items() if mode != "160000"}


def add_changes(cases, worktree, pick):
    cases.group(
        "The least path at which a file differs from the index: the first that `git diff-files` names, which looks at no submodule that is not",
        "checked out. The index is that of `git update-index --index-info`.",
    )
    for _ in range(40):
        entries = chosen(pick, worktree.names, pick.randint(0, 5))
        if pick.random() < 0.3:
            entries[b"module"] = "160000", worktree.module
        files = texts_of(worktree, entries)
        for path in list(files):
            if pick.random() < 0.3:
                files[path] = pick.choice([*TEXTS, b"", b"1", b"1\n\n"])
            elif pick.random() < 0.2:
                del files[path]
        worktree.begin(files, rows_at(entries))
        index = worktree.index()
        differ = worktree.repository.git("diff-files", "--name-only", "-z").split(b"\0")[:-1]
        differ = [path for path in differ if path != b"module"]
        cases.add("first-change", given(files) + [index.hex()], [min(differ)] if differ else ["none"])


def obstructed(files, before, after):
    """The least path of a map in whose way an untracked file is, where its entry is new or another."""
    for path in sorted(after):
        if before.get(path) != after[path]:
            if any(is_in_way(path, file) for file in files if file not in before):
                return path
    return None


def writes_of(left, before, after):
    """The writes of a switch in their order: what is tracked no longer is removed, then the index and the files are put."""
    fields = [field for path in sorted(before) if path not in after for field in ("removed", path)]
    paths = [b".git/index", *(path for path in sorted(after) if before.get(path) != after[path])]
    fields += [field for path in paths for field in ("put", path, left[path])]
    return ["writes", fields.count("removed") + fields.count("put"), *fields]


def add_switches(cases, worktree, pick):
    cases.group(
        "Switches from one map to another: the files and the entries of the index that `git read-tree -m -u` leaves (an index is written with",
        "stat words of 0). Where untracked files are in the way git refuses, and nothing is changed: the least such path, by the written rule.",
    )
    repository = worktree.repository
    done = refused = 0
    while done < 40 or refused < 25:
        before = chosen(pick, worktree.names, pick.randint(0, 4))
        after = chosen(pick, worktree.names, pick.randint(0, 5))
        files = texts_of(worktree, before)
        for _ in range(pick.choice([0, 0, 1, 2])):
            path = pick.choice(NAMES) + pick.choice([b"", b"/" + pick.choice(NAMES)])
            if not any(is_in_way(path, other) for other in files):
                files[path] = b"mine"
        commits = [worktree.commit(rows_at(side)) for side in (before, after)]
        worktree.begin(files, rows_at(before))
        begun = worktree.index()
        status, _, said = repository.try_git("read-tree", "-m", "-u", *commits)
        path = obstructed(files, before, after)
        if (status != 0) != (path is not None):
            raise RuntimeError(f"{files} {before} {after}: {path} {said}")
        held = files | worktree.blobs
        fields = given(held) + [begun.hex(), *map_fields(after)]
        if path is not None:
            if refused < 25:
                assert worktree.files() == files
                cases.add("obstructed-path", fields, [path])
                cases.add("switch", fields, ["way", path])
            refused += 1
        elif done < 40:
            left = worktree.files() | worktree.blobs | {b".git/index": worktree.index()}
            cases.add("switch", fields, ["ok", *changed(held, left)])
            cases.add("switch-clear", fields, ["ok", *changed(held, left)])
            cases.add("obstructed-path", fields, ["none"])
            cases.add("clear-writes", fields, writes_of(left, before, after))
            done += 1


def add_missing(cases, worktree):
    cases.group(
        "Blobs that cannot be read: the first in path order is told, and nothing is changed. A blob that stands in the worktree already is not",
        "read. By the written rule.",
    )
    one, two, three = worktree.names
    before = {b"a": ("100644", one)}
    after = {b"a": ("100644", one), b"b": ("100644", two), b"c": ("100644", three)}
    index = written(rows_at(before)).hex()
    files = {b"a": TEXTS[0]}
    first, second, third = (with_objects(("blob", text)) for text in TEXTS)
    damaged = dict.fromkeys(worktree.blobs, b"blob 1\0x")
    for there, lack in ((first, two), (first | second, three), (first | third, two), (damaged, two), (second, three), ({}, two)):
        fields = given(files | there) + [index, *map_fields(after)]
        for verb in ("switch", "switch-clear", "clear-writes"):
            cases.add(verb, fields, ["lacks", lack])
        cases.add("reset-hard", fields, ["lacks", lack if first.items() <= there.items() else one])


def add_resets(cases, worktree, pick):
    cases.group(
        "Resets to a map: the files and the entries of the index that `git reset --hard` leaves, whatever was changed, added, unmerged or in the",
        "way before (an index is written with stat words of 0).",
    )
    repository = worktree.repository
    for number in range(60):
        before = chosen(pick, worktree.names, pick.randint(0, 4))
        after = chosen(pick, worktree.names, pick.randint(0, 5))
        files = texts_of(worktree, before)
        for path in list(files):
            if pick.random() < 0.3:
                files[path] = b"mine"
            elif pick.random() < 0.2:
                del files[path]
        for _ in range(pick.choice([0, 1, 2])):
            path = pick.choice(NAMES) + pick.choice([b"", b"/" + pick.choice(NAMES)])
            if not any(is_in_way(path, other) for other in files):
                files[path] = b"mine"
        rows = rows_at(before)
        if number % 3 == 0:
            rows = [(path, stage, mode, name) for path, _, mode, name in rows for stage in pick.choice([[0], [1, 3], [2, 3], [1, 2, 3]])]
        commit = worktree.commit(rows_at(after))
        worktree.begin(files, rows)
        begun = worktree.index()
        repository.git("update-ref", "--no-deref", "HEAD", commit)
        repository.git("reset", "-q", "--hard", commit)
        held = files | worktree.blobs
        left = worktree.files() | worktree.blobs | {b".git/index": worktree.index()}
        cases.add("reset-hard", given(held) + [begun.hex(), *map_fields(after)], ["ok", *changed(held, left)])


def add_conflicts(cases, worktree, pick):
    cases.group(
        "Conflicts: what `git cherry-pick` leaves of the index and the files, given the stages of `git ls-files -s` and the files that stand in",
        "the worktree then at their paths (an index is written with stat words of 0).",
    )
    repository = worktree.repository
    done = 0
    while done < 40:
        base, ours, theirs = (chosen(pick, worktree.names, pick.randint(1, 4)) for _ in range(3))
        commits = [repository.commit(repository.tree({p: e for p, e in base.items()}), [], b"base\n")]
        trees = [repository.tree(dict(side)) for side in (ours, theirs)]
        commits += [repository.commit(trees[0], commits[:1], b"ours\n"), repository.commit(trees[1], commits[:1], b"theirs\n")]
        worktree.clear()
        repository.git("update-ref", "--no-deref", "HEAD", commits[1])
        repository.git("reset", "-q", "--hard")
        files = worktree.files()
        begun = worktree.index()
        status, _, _ = repository.try_git("cherry-pick", commits[2])
        rows = rows_of(repository)
        left = worktree.files()
        repository.try_git("cherry-pick", "--quit")
        if status == 0 or not any(stage for _, stage, _, _ in rows):
            continue
        # git keeps a file beside a folder under another name, which is no path of the index that gitseq leaves.
        if any(b"~" in path for path in left):
            continue
        written_files = []
        for path, text in sorted(left.items()):
            written_files += [path, "bytes", text]
        held = files | worktree.blobs
        index = written(rows)
        after = left | worktree.blobs | {b".git/index": index}
        cases.add(
            "write-conflict",
            given(held) + [begun.hex(), index.hex(), len(left), *written_files],
            ["ok", *changed(held, after)],
        )
        done += 1


def add_told_conflicts(cases, worktree):
    cases.group(
        "Conflicts with these stages. What a merge driver left is written, also where it has the bytes of the blob that stood there; where a",
        "file gives way to a folder it goes; and an untracked file in the way is told, and nothing is changed. By the written rule.",
    )
    one, two, three = worktree.names
    file = "100644"

    def add_one(files, before, rows, writes, answer, after):
        held = files | worktree.blobs
        fields = [written(rows_at(before)).hex(), written(rows).hex(), len(writes), *(field for write in writes for field in write)]
        index = {b".git/index": written(rows)} if answer == ["ok"] else {}
        cases.add("write-conflict", given(held) + fields, answer + changed(held, after | worktree.blobs | index))

    both = [(b"n", 2, file, two), (b"n", 3, file, three)]
    add_one({b"n": b"2\n"}, {b"n": (file, two)}, both, [(b"n", "blob", file, two)], ["ok"], {b"n": b"2\n"})
    add_one({b"n": b"mine"}, {b"n": (file, two)}, both, [(b"n", "blob", file, two)], ["ok"], {b"n": b"mine"})
    add_one({b"n": b"mine"}, {b"n": (file, two)}, both, [(b"n", "bytes", b"2\n")], ["ok"], {b"n": b"2\n"})
    theirs = [(b"d", 1, file, one), (b"d", 3, file, three)]
    add_one({}, {}, theirs, [(b"d", "blob", file, three)], ["ok"], {b"d": b"3\n"})
    ours = [(b"d", 1, file, one), (b"d", 2, file, two)]
    add_one({b"d": b"2\n"}, {b"d": (file, two)}, ours, [(b"d", "blob", file, two)], ["ok"], {b"d": b"2\n"})
    folder = [(b"a", 1, file, one), (b"a", 2, file, two), (b"a/b", 3, file, three)]
    add_one({b"a": b"2\n"}, {b"a": (file, two)}, folder, [(b"a/b", "blob", file, three)], ["ok"], {b"a/b": b"3\n"})
    for path in (b"d", b"d/x"):
        files = {b"a": b"2\n", path: b"mine"}
        add_one(files, {b"a": (file, two)}, theirs, [(b"d", "blob", file, three)], ["way", b"d"], files)


def add_submodules(cases, worktree):
    cases.group(
        "What stands at a submodule's path is untracked: it stays where the path is tracked no longer, at whatever stage the index has it, and is",
        "in the way of a file. By the written rule; git leaves it there too.",
    )
    one, two, _ = worktree.names
    file, module = ("100644", one), ("160000", worktree.module)

    def add_one(verb, rows, files, to, answer, left=None):
        held = files | worktree.blobs
        after = held if left is None else left | worktree.blobs | {b".git/index": written(rows_at(to))}
        cases.add(verb, given(held) + [written(rows).hex(), *map_fields(to)], answer + changed(held, after))

    to = {b"a": file, b"d/n": ("100755", two)}
    rows = rows_at({b"a": file, b"d": file, b"m": module})
    files = {b"a": b"1\n", b"d": b"1\n", b"m": b"mine"}
    left = {b"a": b"1\n", b"d/n": b"2\n", b"m": b"mine"}
    for verb in ("switch", "switch-clear", "reset-hard"):
        add_one(verb, rows, files, to, ["ok"], left)
    unmerged = [(b"m", 1, *file), (b"m", 2, *module)]
    for verb in ("switch", "reset-hard"):
        add_one(verb, unmerged, {b"m": b"mine"}, to, ["ok"], {b"a": b"1\n", b"d/n": b"2\n", b"m": b"mine"})
    add_one("obstructed-path", unmerged, {b"m": b"mine"}, {b"m": file}, [b"m"])
    add_one("switch", unmerged, {b"m": b"mine"}, {b"m": file}, ["way", b"m"])
    add_one("obstructed-path", rows_at({b"a": file, b"d": module}), {b"a": b"1\n", b"d": b"mine"}, to, [b"d/n"])
    add_one("switch", rows_at({b"a": file, b"d": module}), {b"a": b"1\n", b"d": b"mine"}, to, ["way", b"d/n"])
    rows = rows_at({b"a": file, b"added": file, b"s": module})
    files = {b"a": b"changed", b"added": b"1\n", b"m/x": b"mine", b"s": b"mine"}
    add_one("reset-hard", rows, files, {b"a": file, b"m": module}, ["ok"], {b"a": b"1\n", b"m/x": b"mine", b"s": b"mine"})
    for files, answer in (({b"a": b"1\n"}, ["none"]), ({b"a": b"1\n", b"m/x": b"mine"}, ["none"]), ({b"m": b"mine"}, [b"a"])):
        cases.add("first-change", given(files) + [written(rows_at({b"a": file, b"m": module})).hex()], answer)


def add(cases):
    worktree = Worktree()
    pick = chooser("worktrees")
    add_changes(cases, worktree, pick)
    add_switches(cases, worktree, pick)
    add_missing(cases, worktree)
    add_resets(cases, worktree, pick)
    add_conflicts(cases, worktree, pick)
    add_told_conflicts(cases, worktree)
    add_submodules(cases, worktree)
