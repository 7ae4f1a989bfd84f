"""Cases of tree_merge."""

from .cases import Repository, chooser

FILES = ("100644", "100755")


def merged_part(base, ours, theirs):
    """What one part of an entry comes to, its mode or its id, or None."""
    if ours == theirs or base == theirs:
        return ours
    return theirs if base == ours else None


def choice(base, ours, theirs):
    """The written rule for one path: `take`, `content` or `conflict`, and what goes with it."""
    if ours == theirs or base == theirs:
        return "take", ours
    if base == ours:
        return "take", theirs
    if ours is None or theirs is None:
        return "conflict", ours or theirs
    if not all(entry is None or entry[0] in FILES for entry in (base, ours, theirs)):
        return "conflict", ours
    before = base or (None, None)
    mode = merged_part(before[0], ours[0], theirs[0])
    name = merged_part(before[1], ours[1], theirs[1])
    if name is None:
        return "content", (mode or ours[0], "clean" if mode else "unclean")
    return ("take", (mode, name)) if mode else ("conflict", (ours[0], name))


def words(entry):
    return list(entry) if entry else ["none"]


class Merges:
    """What `git merge-tree --write-tree` makes of three maps, without renames."""

    def __init__(self):
        self.repository = Repository()
        self.names = [self.repository.put("blob", b"%d\n" % number) for number in range(1, 4)]
        self.links = [self.repository.put("blob", b"to/%d" % number) for number in range(2)]
        self.gitlinks = [self.repository.commit(self.repository.put("tree", b""), [], b"%d" % number) for number in range(3)]

    def merge(self, base, ours, theirs):
        """The merged map, or None where something conflicts."""
        put = self.repository
        before = put.commit(put.tree(base))
        sides = [put.commit(put.tree(side), [before], message) for side, message in ((ours, b"o\n"), (theirs, b"t\n"))]
        status, printed, said = put.try_git("merge-tree", "--write-tree", *sides)
        if status not in (0, 1):
            raise RuntimeError(said.decode(errors="replace"))
        if status == 1:
            return None
        merged = {}
        for row in put.git("ls-tree", "-r", "-z", printed.decode().split()[0]).split(b"\0")[:-1]:
            about, path = row.split(b"\t", 1)
            mode, _, name = about.decode().split()
            merged[path] = mode, name
        return merged


def add_paths(cases, merges):
    cases.group(
        "One path: entries of base, ours and theirs. By the written rule; where it takes an entry `git merge-tree --write-tree` takes it too,",
        "and where it does not that conflicts (the contents have one line each, so that no two changes of one merge).",
    )
    one, two, three = merges.names
    entries = [None, ("100644", one), ("100644", two), ("100644", three), ("100755", one), ("100755", two)]
    entries += [("120000", merges.links[0]), ("120000", merges.links[1]), ("160000", merges.gitlinks[0])]
    other = {b"other": ("100644", one)}
    for base in entries:
        for ours in entries:
            for theirs in entries:
                kind, what = choice(base, ours, theirs)
                maps = [other | ({b"f": entry} if entry else {}) for entry in (base, ours, theirs)]
                merged = merges.merge(*maps)
                if kind == "take":
                    assert merged == other | ({b"f": what} if what else {}), (base, ours, theirs, merged)
                else:
                    assert merged is None, (base, ours, theirs, merged)
                add_path(cases, base, ours, theirs)
    cases.group("Where the rule is ours: a link and a file of the same bytes have nothing in common. (Git merges their ids and their modes.)")
    entries = [None, ("100644", one), ("120000", one), ("120000", two)]
    for base in entries:
        for ours in entries:
            for theirs in entries:
                add_path(cases, base, ours, theirs)


def add_path(cases, base, ours, theirs):
    kind, what = choice(base, ours, theirs)
    answer = [kind, *what] if kind == "content" else [kind, *words(what)]
    cases.add("merge-path", words(base) + words(ours) + words(theirs), answer)


def counted(entries):
    return [len(entries)] + [field for path in sorted(entries) for field in (path, *entries[path])]


def planned(base, ours, theirs):
    """Path, choice, whether it clashes, and whether its file is written, of each path whose entries are not all equal."""
    paths = sorted(base | ours | theirs)
    choices = {}
    for path in paths:
        entries = [side.get(path) for side in (base, ours, theirs)]
        if not entries[0] == entries[1] == entries[2]:
            choices[path] = choice(*entries)
    present = {path for path, (kind, what) in choices.items() if kind == "content" or what}
    rows = []
    for path, (kind, what) in choices.items():
        is_upper = path in present and any(other.startswith(path + b"/") for other in present)
        is_lower = path in present and any(path.startswith(other + b"/") for other in present)
        rows.append((path, kind, what, is_upper or is_lower, path in present and not is_upper))
    return rows


def result(rows, base, ours, theirs):
    """The map that the merge leaves, or the first path that conflicts."""
    for path, kind, _, is_clash, _ in rows:
        if is_clash or kind != "take":
            return path
    merged = {path: entry for path, entry in base.items() if ours.get(path) == entry == theirs.get(path)}
    return merged | {path: what for path, _, what, _, _ in rows if what}


def add_case(cases, merges, base, ours, theirs):
    asked = counted(base) + counted(ours) + counted(theirs)
    rows = planned(base, ours, theirs)
    answer = ["plan"]
    for path, kind, what, is_clash, is_written in rows:
        answer += [path, kind, *(what if kind == "content" else words(what))]
        answer += ["clash" if is_clash else "alone", "written" if is_written else "unwritten"]
    cases.add("merge-plan", asked, answer)
    left = result(rows, base, ours, theirs)
    merged = merges.merge(base, ours, theirs)
    if isinstance(left, bytes):
        assert merged is None, (base, ours, theirs, merged)
        cases.add("merge-maps", asked, ["conflict", left])
    else:
        assert merged == left, (base, ours, theirs, merged, left)
        cases.add("merge-maps", asked, ["merged"] + counted(left)[1:])


def is_map(entries):
    return not any(path.startswith(other + b"/") for path in entries for other in entries)


def add_maps(cases, merges):
    cases.group(
        "Maps: the plan by the written rule; the first path that conflicts, or the merged map: what `git merge-tree --write-tree` makes of three",
        "commits (merge.renames off) is that map, or conflicts.",
    )
    one, two, three = (("100644", name) for name in merges.names)
    run = ("100755", merges.names[0])
    rows = [
        ({b"d": one, b"e": one, b"same": one}, {b"d": two, b"m": two, b"n": two, b"same": one}, {b"e": two, b"m": two, b"n": three, b"same": one}),
        ({b"a": one}, {b"a": two}, {b"a!": three, b"a/b": three}),
        ({}, {}, {}),
        ({b"c": one, b"d": one, b"e": one}, {b"c": one, b"d": two, b"e": two}, {b"c": two, b"e": three}),
        (
            {b"d/both": one, b"gone": one, b"mine": one, b"other": one, b"same": one, b"x": one},
            {b"added": three, b"d/both": two, b"gone": one, b"mine": two, b"other": one, b"same": one, b"x": run},
            {b"d/both": two, b"e/new": three, b"mine": one, b"other": two, b"same": one, b"x": two},
        ),
    ]
    pick = chooser("maps that merge")
    paths = [b"a", b"a!", b"a/b", b"a/b/c", b"a0", b"b", b"b/c", b"d"]
    entries = [one, two, three, run, ("120000", merges.links[0])]
    while len(rows) < 90:
        base = {path: pick.choice(entries) for path in pick.sample(paths, pick.randint(0, 4))}
        sides = []
        for _ in range(2):
            side = dict(base)
            for path in pick.sample(paths, pick.randint(0, 2)):
                side.pop(path, None)
                if pick.random() < 0.7:
                    side[path] = pick.choice(entries)
            sides.append(side)
        if all(map(is_map, (base, *sides))):
            rows.append((base, *sides))
    for row in rows:
        add_case(cases, merges, *row)


def add(cases):
    merges = Merges()
    add_paths(cases, merges)
    add_maps(cases, merges)
