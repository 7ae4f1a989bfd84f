"""Cases of stage_index."""

from .cases import Repository, chooser
from .index import answer_of, info, rows_of
from .names import HELLO

OTHER = "b6fc4c620b67d95f953a5c1c1230aaab5db5a1b0"
NAMES = [b"a", b"a-b", b"a.c", b"a0", b"b/c", b"b/d", b"b.x", b"c/d/e", b"\xc3\xa9", b"z"]
MODES = ["100644", "100755", "120000", "160000"]
STAGES = [[0], [0], [0], [1], [2], [3], [1, 2], [1, 2, 3], [2, 3], [1, 3]]


def chosen(pick, names, kinds):
    """Rows of an index: some of the names, each at some stages."""
    rows = []
    for name in sorted(names):
        rows += [(name, stage, pick.choice(MODES), pick.choice([HELLO, OTHER])) for stage in pick.choice(kinds)]
    return rows


def index_of(rows):
    """A repository whose index has these rows, and the bytes of that."""
    repository = Repository()
    repository.git("update-index", "-z", "--index-info", stdin=info(rows or [(b"x", 0, "100644", HELLO)]))
    if not rows:
        repository.git("update-index", "--force-remove", "x")
    return repository, repository.read(".git/index")


def unmerged(repository):
    """The paths that `git ls-files -u` lists, each once."""
    return sorted({row.split(b"\t", 1)[1] for row in repository.git("ls-files", "-u", "-z").split(b"\0")[:-1]})


def mapped(repository):
    """The map of the tree that `git write-tree` writes, or the first path that it calls unmerged."""
    status, printed, said = repository.try_git("-c", "core.quotePath=false", "write-tree", "--missing-ok")
    if status != 0:
        path = said.split(b": unmerged (", 1)[0]
        assert path == unmerged(repository)[0], said
        return ["unmerged", path]
    fields = []
    for row in repository.git("ls-tree", "-r", "-z", printed.decode().strip()).split(b"\0")[:-1]:
        about, path = row.split(b"\t", 1)
        mode, _, name = about.decode().split()
        fields += [path, mode, name]
    return ["map", *fields]


def add(cases):
    pick = chooser("stages")
    kinds = [STAGES[:1], STAGES]
    indexes = [[], [(b"f", stage, "100644", HELLO) for stage in (1, 2, 3)]]
    indexes += [chosen(pick, pick.sample(NAMES, pick.randint(1, 6)), pick.choice(kinds)) for _ in range(30)]
    cases.group(
        "Indexes that `git update-index --index-info` writes. Their unmerged paths, as `git ls-files -u` lists them; and their maps, as",
        "`git ls-tree -r` lists the tree of `git write-tree --missing-ok`, or the first path that this calls unmerged.",
    )
    for rows in indexes:
        repository, octets = index_of(rows)
        cases.add("unmerged", [octets.hex()], ["unmerged", *unmerged(repository)])
        cases.add("to-map", [octets.hex()], mapped(repository))
    cases.group(
        "A path that is given other stages: INDEX PATH, and what it has at the stages 0 to 3. The entries as `git ls-files -s` lists them once",
        "`git update-index --index-info` has removed the path and then added these stages.",
    )
    for rows in indexes * 2:
        repository, octets = index_of(rows)
        path = pick.choice(NAMES)
        stages = pick.choice([*STAGES, []])
        new = [(path, stage, pick.choice(MODES), pick.choice([HELLO, OTHER])) for stage in stages]
        there = {stage: [mode, name] for _, stage, mode, name in new}
        repository.git("update-index", "-z", "--index-info", stdin=b"0 " + b"0" * 40 + b"\t" + path + b"\0" + info(new))
        fields = [field for stage in range(4) for field in there.get(stage, ["none"])]
        cases.add("set-stages", [octets.hex(), path, *fields], answer_of(rows_of(repository)))
    add_differences(cases, pick)


def mapped_rows(repository, tree):
    """The rows of the map of a tree."""
    fields = []
    for row in repository.git("ls-tree", "-r", "-z", tree).split(b"\0")[:-1]:
        about, path = row.split(b"\t", 1)
        mode, _, name = about.decode().split()
        fields += [path, mode, name]
    return fields


def add_differences(cases, pick):
    cases.group(
        "The index that `git read-tree` makes of a tree; whether an index tracks a path, as `git ls-files` lists it; and the least path at which",
        "the index differs from HEAD's map: the first that `git diff-index --cached` names, or `none`.",
    )
    for _ in range(25):
        rows = chosen(pick, pick.sample(NAMES, pick.randint(0, 5)), STAGES[:1])
        repository, _ = index_of(rows)
        tree = repository.line("write-tree", "--missing-ok")
        head = mapped_rows(repository, tree)
        repository.git("read-tree", tree)
        cases.add("index-of-map", head, answer_of(rows_of(repository)))
        other = [pick.choice([row, (*row[:2], pick.choice(MODES), pick.choice([HELLO, OTHER]))]) for row in rows if pick.random() < 0.8]
        other += chosen(pick, [name for name in NAMES if name not in [row[0] for row in rows] and pick.random() < 0.2], STAGES[:1])
        repository.git("read-tree", "--empty")
        repository.git("update-index", "-z", "--index-info", stdin=info(other or [(b"x", 0, "100644", HELLO)]))
        if not other:
            repository.git("update-index", "--force-remove", "x")
        octets = repository.read(".git/index")
        differ = repository.git("diff-index", "--cached", "--name-only", "--no-renames", "-z", tree).split(b"\0")[:-1]
        cases.add("staged-path", [octets.hex(), *head], [min(differ)] if differ else ["none"])
        listed = repository.git("ls-files", "-z").split(b"\0")
        for path in (*pick.sample(NAMES, 3), b"b", b"", b"c/d"):
            cases.add("tracked", [octets.hex(), path], [path != b"" and path in listed])
    cases.group("The same of paths at other stages: they are tracked, and differ from HEAD's map as if they were not there. By this rule.")
    for _ in range(15):
        rows = chosen(pick, pick.sample(NAMES, pick.randint(1, 5)), STAGES)
        _, octets = index_of(rows)
        merged = {path: [mode, name] for path, stage, mode, name in rows if stage == 0}
        head = {path: [mode, name] for path, _, mode, name in rows if pick.random() < 0.8}
        differ = [path for path in merged.keys() | head.keys() if merged.get(path) != head.get(path)]
        fields = [field for path in sorted(head) for field in (path, *head[path])]
        cases.add("staged-path", [octets.hex(), *fields], [min(differ)] if differ else ["none"])
        for path in pick.sample(NAMES, 3):
            cases.add("tracked", [octets.hex(), path], [any(path == row[0] for row in rows)])
