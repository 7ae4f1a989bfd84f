"""Cases of path_trees."""

from .cases import Repository, chooser
from .index import info
from .names import EMPTY_TREE, HELLO
from .stores import changed, given, name_of, object_path, object_text, objects_of, with_objects

OTHER = "587be6b4c3f93f93c489c0111bba5596147a26cb"
NAMES = [b"a", b"a.b", b"a-b", b"a0", b"b", b"d", b"\xc3\xa9", b".gitx", b"A", b"a b", b"z"]
MODES = ["100644", "100755", "120000", "160000"]
DEPTH = 256


class Trees:
    """The trees that git writes of maps."""

    def __init__(self):
        self.repository = Repository()

    def root(self, rows):
        """The id of the root, and the files of all trees, of rows of path, mode and id."""
        self.repository.git("read-tree", "--empty")
        self.repository.git("update-index", "-z", "--index-info", stdin=info([(path, 0, mode, name) for path, mode, name in rows]))
        root = self.repository.line("write-tree", "--missing-ok")
        listed = self.repository.git("ls-tree", "-r", "-t", "-z", root).split(b"\0")[:-1]
        trees = [row.split(b"\t")[0].split()[2].decode() for row in listed if b" tree " in row.split(b"\t")[0]]
        return root, objects_of(self.repository, root, *sorted(set(trees)))

    def commit(self, root):
        name = self.repository.line("commit-tree", root, stdin=b"m\n")
        return name, objects_of(self.repository, name)


def fields_of(rows):
    return [field for row in sorted(rows) for field in row]


def chosen(pick):
    """Rows in which no path lies below another."""
    rows = {}
    for _ in range(pick.randint(1, 7)):
        path = b"/".join(pick.choice(NAMES) for _ in range(pick.randint(1, 4)))
        if not any(path == other or path.startswith(other + b"/") or other.startswith(path + b"/") for other in rows):
            rows[path] = pick.choice(MODES), pick.choice([HELLO, OTHER])
    return sorted((path, *entry) for path, entry in rows.items())


def deep(parts):
    return [(b"d/" * (parts - 1) + b"f", "100644", HELLO)]


def add_maps(cases, trees):
    cases.group(
        "Maps, put into an empty store and into one that has their trees: the id that `git write-tree` prints over the same index, and the",
        "trees of `git ls-tree -r -t`; the map that is read of these, and of a commit of `git commit-tree`.",
    )
    pick = chooser("held trees")
    maps = [
        [],
        [(b"a", "100644", HELLO), (b"d/b", "100755", OTHER), (b"l", "120000", OTHER)],
        [(b"a.b", "100644", HELLO), (b"a/x", "100755", OTHER), (b"a0", "120000", HELLO), (b"d/e/f", "100644", HELLO)],
        [(b"d/e/g/h", "100644", OTHER), (b"d/i", "160000", HELLO), (b"z/a", "100644", OTHER)],
        [(b"a/x", "100644", OTHER), (b"b/x", "100644", OTHER)],
        deep(40),
        *(chosen(pick) for _ in range(30)),
    ]
    for rows in maps:
        root, files = trees.root(rows)
        for verb in ("write-map", "write-trees"):
            cases.add(verb, given({}) + fields_of(rows), [root, *changed({}, files)])
        cases.add("write-map", given(files) + fields_of(rows), [root])
        for verb in ("read-map", "read-tree-map"):
            cases.add(verb, given(files) + [root], ["map", *fields_of(rows)])
        commit, file = trees.commit(root)
        cases.add("read-commit-map", given(files | file) + [commit], ["map", *fields_of(rows)])
        cases.add("read-commit-map", given(files) + [root], ["lacks", root])


def tree(*rows):
    """The content of the tree of rows of mode, name and id."""
    return b"".join(b"%s %s\0%s" % (mode.encode(), name, bytes.fromhex(other)) for mode, name, other in rows)


def add_bad(cases, *contents, bad=None):
    """The first tree is read; it is blamed, or the one of that id."""
    files = with_objects(*(("tree", content) for content in contents))
    root = name_of(object_text("tree", contents[0]))
    bad = bad or root
    cases.add("read-map", given(files) + [root], ["bad-object", bad])
    cases.add("read-tree-map", given(files) + [root], ["lacks", bad])


def add_bad_trees(cases):
    cases.group(
        "Trees that have no map, and the tree that is blamed: all entries of a tree are judged before its subtrees, and of those the first in",
        "order that is missing, damaged, no tree, or bad itself. By this rule, with hashlib's SHA-1.",
    )
    for name in (b".GIT", b".git", b".Git", b"..", b".", b"", b"a/b", b"\xff", b"a\xc0\x80"):
        add_bad(cases, tree(("100644", name, HELLO)))
        inner = tree(("100644", name, HELLO))
        inner_id = name_of(object_text("tree", inner))
        add_bad(cases, tree(("100644", b"a", HELLO), ("40000", b"b", inner_id)), inner, bad=inner_id)
    add_bad(cases, tree(("40000", b"a", HELLO), ("40000", b"b", OTHER)), bad=HELLO)
    add_bad(cases, tree(("40000", b"a", EMPTY_TREE), ("40000", b"b", OTHER)), b"", bad=OTHER)
    add_bad(cases, tree(("40000", b"a", HELLO), ("100644", b"\xff", OTHER)))
    add_bad(cases, tree(("100644", b"b", HELLO), ("100644", b"a", HELLO)))
    add_bad(cases, tree(("100644", b"a", HELLO), ("40000", b"a", EMPTY_TREE)), b"")
    add_bad(cases, tree(("100645", b"a", HELLO)))
    add_bad(cases, b"100644 a\0" + bytes(19))
    for kind in ("blob", "commit", "tag"):
        files = with_objects((kind, b""))
        name = name_of(object_text(kind, b""))
        cases.add("read-map", given(files) + [name], ["bad-object", name])
        cases.add("read-tree-map", given(files) + [name], ["lacks", name])
        cases.add("read-commit-map", given(files) + [name], ["lacks", name])
    for text in (b"", b"x", b"tree 1\0"):
        files = {object_path(EMPTY_TREE): text}
        cases.add("read-map", given(files) + [EMPTY_TREE], ["bad-object", EMPTY_TREE])
        cases.add("read-tree-map", given(files) + [EMPTY_TREE], ["lacks", EMPTY_TREE])


def add_depths(cases, trees):
    cases.group("Trees lie at most 256 deep, the root as 1: by this rule; the trees are git's.")
    root, files = trees.root(deep(DEPTH))
    cases.add("read-map", given(files) + [root], ["map", *fields_of(deep(DEPTH))])
    cases.add("write-map", given({}) + fields_of(deep(DEPTH)), [root, *changed({}, files)])
    root, files = trees.root(deep(DEPTH + 1))
    cases.add("read-map", given(files) + [root], ["depth"])
    cases.add("read-tree-map", given(files) + [root], ["limit", "tree-depth", DEPTH + 1])
    cases.add("write-map", given({}) + fields_of(deep(DEPTH + 1)), ["depth"])
    cases.add("write-trees", given({}) + fields_of(deep(DEPTH + 1)), ["limit", "tree-depth", DEPTH + 1])


def add_ways(cases, trees):
    cases.group(
        "Another text in the file of a tree, or a file in its way, which stops at that tree; those before it, a folder after its subfolders,",
        "stay. By this rule; the trees are git's.",
    )
    rows = [(b"d/e/f", "100644", HELLO), (b"z", "100644", OTHER)]
    root, files = trees.root(rows)
    inner, _ = trees.root([(b"f", "100644", HELLO)])
    middle, _ = trees.root([(b"e/f", "100644", HELLO)])
    before = {}
    for name in (inner, middle, root):
        path = object_path(name)
        there = {path: b"x"}
        after = changed(there, there | before)
        cases.add("write-map", given(there) + fields_of(rows), ["bad-object", name, *after])
        cases.add("write-trees", given(there) + fields_of(rows), ["place", name, *after])
        for way in (path[:15], path + b"/x"):
            there = {way: b"x"}
            after = changed(there, there | before)
            cases.add("write-map", given(there) + fields_of(rows), ["blocked", path, *after])
            cases.add("write-trees", given(there) + fields_of(rows), ["way", path, *after])
        before[path] = files[path]


def add(cases):
    trees = Trees()
    add_maps(cases, trees)
    add_bad_trees(cases)
    add_depths(cases, trees)
    add_ways(cases, trees)
