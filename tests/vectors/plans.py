"""Cases of todo_plan: the todo that `git rebase -i` hands to the editor."""

from .cases import Repository, chooser
from .graphs import postorder
from .todos import canonical, parsed


class History:
    """Commits of a repository, each with a file of its own, so that none is empty and none conflicts."""

    def __init__(self):
        self.repository = Repository()
        for words in (["core.abbrev", "40"], ["rebase.missingCommitsCheck", "ignore"]):
            self.repository.git("config", *words)
        self.made = {}
        self.subjects = {}

    def commit(self, name, parents, subject):
        repository = self.repository
        blob = repository.put("blob", name.encode() + b"\n")
        files = {name.encode(): ("100644", blob)}
        for parent in parents:
            files |= self.made[parent][1]
        tree = repository.tree(files)
        ids = [self.made[parent][0] for parent in parents]
        found = repository.commit(tree, ids, subject + b"\n")
        self.made[name] = (found, files)
        self.subjects[found] = (ids, subject)
        return found

    def id(self, name):
        return self.made[name][0]

    def fields(self):
        """The graph of a case."""
        rows = [field for found, (ids, subject) in self.subjects.items() for field in (found, len(ids), *ids, subject)]
        return [len(self.subjects), *rows]

    def range(self, upstream, branch):
        return self.repository.git("rev-list", "--topo-order", "--reverse", branch, "^" + upstream).decode().split()

    def todo(self, upstream, branch, *words):
        """The lines that git hands to the editor, each part by part. Old git sets no mark before the subject of a pick, new git does."""
        repository = self.repository
        repository.git("update-ref", "refs/heads/topic", branch)
        repository.git("checkout", "-q", "-f", "topic")
        env = {"GIT_SEQUENCE_EDITOR": 'f() { cp "$1" ../todo; return 1; }; f'}
        repository.try_git("rebase", "-i", *words, upstream, env=env)
        lines = [line for line in repository.read("../todo").split(b"\n") if line and not line.startswith(b"#")]
        return [parsed(self.marked(line)) for line in lines]

    def marked(self, line):
        if not line.startswith(b"pick "):
            return line
        word, found, note = line.split(b" ", 2)
        return b" ".join([word, found, b"#", note]) if note == self.subjects[found.decode()][1] else line


def answer(lines):
    return ["lines", len(lines), *(field for parts in lines for field in parts)]


def text(lines):
    return b"".join(canonical(parts) for parts in lines)


def linear_history(pick, count):
    """A trunk, and a branch with commits of side branches merged into it."""
    history = History()
    history.commit("base", [], b"base")
    history.commit("up", ["base"], b"up")
    tips = ["base"]
    for number in range(count):
        name = f"c{number}"
        subject = pick.choice([b"one", b"two words", b"# three", b"four \t#", b"fixup! one", b"a  b", b"squash! two words"])
        parents = [pick.choice(tips[-3:])]
        if len(tips) > 3 and pick.randint(0, 3) == 0:
            parents.append(pick.choice([tip for tip in tips[-4:] if tip != parents[0]]))
        history.commit(name, parents, b"%d %s" % (number, subject) if pick.randint(0, 1) else subject)
        tips.append(name)
    return history, tips[-1]


def add_linear(cases):
    cases.group("A graph with subjects and a range: what `git rebase -i` hands to the editor; the range is that of `git rev-list --topo-order --reverse`.")
    pick = chooser("plans")
    made = []
    for count in (1, 1, 2, 3, *range(4, 24)):
        history, last = linear_history(pick, count)
        upstream, branch = history.id("up"), history.id(last)
        lines = history.todo(upstream, branch)
        cases.add("plan-linear", [*history.fields(), *history.range(upstream, branch)], answer(lines))
        made.append((history, upstream, branch))
    history, upstream, branch = made[0]
    cases.add("plan-linear", history.fields(), answer(history.todo(branch, branch)))
    cases.group("The note of a line is the subject without blanks and CR bytes at its ends, and there is none where nothing is left. By that rule.")
    for subject, note in [(b" \t a \t ", b"a"), (b"a\r", b"a"), (b"\r a\tb \r\r", b"a\tb"), (b" \r\t", b""), (b"", b""), (b"# a", b"# a"), (b"#", b"#")]:
        found = "1" * 40
        cases.add("plan-linear", [1, found, 0, subject, found], ["lines", 1, "pick", found.encode(), note])
    cases.group("A graph with subjects and a range: what `git rebase -i --autosquash` hands to the editor.")
    for history, upstream, branch in made:
        cases.add("autosquash", [*history.fields(), *history.range(upstream, branch)], answer(history.todo(upstream, branch, "--autosquash")))
    history = History()
    upstream = history.commit("base", [], b"base")
    history.commit("a", ["base"], b"a")
    moved = history.commit("b", ["a"], b"fixup! a")
    history.commit("c", ["b"], b"squash! " + moved[:12].encode())
    branch = history.commit("d", ["c"], b"fixup! a")
    lines = history.todo(upstream, branch, "--autosquash")
    cases.add("autosquash", [*history.fields(), *history.range(upstream, branch)], answer(lines))
    cases.group(
        "A commit is meant for the first earlier one with the subject behind all words, else the first whose hex digits begin so, four or more, else the first whose",
        "subject begins so. It is moved behind that and behind what was moved there before, and stays where there is none. By that rule.",
    )
    for subjects, wanted in [
        ([b"one", b"two", b"fixup! one", b"squash! fixup! one"], [(0, "pick"), (2, "fixup"), (3, "squash"), (1, "pick")]),
        ([b"one", b"amend! one", b"two", b"fixup! two", b"squash! one"], [(0, "pick"), (1, "fixup-keep"), (4, "squash"), (2, "pick"), (3, "fixup")]),
        ([b"fixup! one", b"one", b"one more"], [(0, "pick"), (1, "pick"), (2, "pick")]),
        ([b"one more", b"one", b"fixup! one", b"fixup! one m"], [(0, "pick"), (3, "fixup"), (1, "pick"), (2, "fixup")]),
        ([b"a", b"b", b"fixup! 2222", b"fixup! 111", b"fixup! 3333", b"x"], [(0, "pick"), (1, "pick"), (2, "fixup"), (4, "fixup"), (3, "pick"), (5, "pick")]),
        ([b"1111", b"b", b"1111c", b"fixup! 1111", b"fixup! "], [(0, "pick"), (3, "fixup"), (4, "fixup"), (1, "pick"), (2, "pick")]),
    ]:
        found = [str(number + 1) * 40 for number in range(len(subjects))]
        rows = [field for at, subject in enumerate(subjects) for field in (found[at], 0 if at == 0 else 1, *found[at - 1 : at], subject)]
        lines = [[word, found[at].encode(), subjects[at].strip()] for at, word in wanted]
        cases.add("autosquash", [len(subjects), *rows, *found], answer(lines))
    cases.group("A todo and commands: the same with `--exec`, with `--autosquash` and without.")
    for at, (history, upstream, branch) in enumerate(made):
        words = ["--autosquash"] if at % 2 else ["--no-autosquash"]
        commands = [b"true", b"false x  y"][: 1 + at % 2]
        without = history.todo(upstream, branch, *words)
        lines = history.todo(upstream, branch, *words, *(word for command in commands for word in ("--exec", command)))
        cases.add("add-exec", [text(without), *commands], answer(lines))
    cases.group("A todo and branches: the same with `--update-refs`, with `--autosquash` and without.")
    for at, (history, upstream, branch) in enumerate(made):
        words = ["--autosquash"] if at % 2 else ["--no-autosquash"]
        commits = history.range(upstream, branch)
        names = [f"refs/heads/b{number}" for number in range(min(len(commits), 4))]
        refs = dict(zip(pick.sample(names, len(names)), pick.sample(commits, len(names))))
        refs["refs/heads/up"] = upstream
        without = history.todo(upstream, branch, *words)
        for name, found in refs.items():
            history.repository.git("update-ref", name, found)
        lines = history.todo(upstream, branch, *words, "--update-refs")
        for name in refs:
            history.repository.git("update-ref", "-d", name)
        cases.add("add-update-refs", [text(without), *(field for name, found in refs.items() for field in (name.encode(), found))], answer(lines))
    cases.group("Update-ref lines stand behind the squash lines of a group, in byte order, and a branch at a merge behind its line. By that rule.")
    a, b = "a" * 40, "b" * 40
    for before, refs, after in [
        ("noop\n", [("refs/heads/x", a)], "noop\n"),
        (f"pick {a}\nfixup {b}\npick {'c' * 40}\n", [("refs/heads/y", b), ("refs/heads/x", a), ("refs/heads/X", a)],
         f"pick {a}\nfixup {b}\nupdate-ref refs/heads/X\nupdate-ref refs/heads/x\nupdate-ref refs/heads/y\npick {'c' * 40}\n"),
        (f"label onto\npick {a}\nlabel l\nmerge -C {b} l\nlabel m\n", [("refs/heads/y", b), ("refs/heads/x", a), ("refs/heads/z", "d" * 40)],
         f"label onto\npick {a}\nupdate-ref refs/heads/x\nlabel l\nmerge -C {b} l\nupdate-ref refs/heads/y\nlabel m\n"),
    ]:
        fields = [field for name, found in refs for field in (name.encode(), found)]
        cases.add("add-update-refs", [before.encode(), *fields], answer([parsed(line) for line in after.encode().splitlines()]))
    cases.group("Exec lines stand behind the update-ref lines of a group, and none behind other lines. By that rule.")
    for before, after in [
        (b"noop\n", b"noop\n"),
        (b"pick a\nupdate-ref refs/x\nupdate-ref refs/y\npick b\n", b"pick a\nupdate-ref refs/x\nupdate-ref refs/y\nexec t\npick b\nexec t\n"),
        (b"pick a\nfixup b\nupdate-ref refs/x\nlabel l\nreset l\n", b"pick a\nfixup b\nupdate-ref refs/x\nexec t\nlabel l\nreset l\n"),
        (b"label l\nmerge -C a l\nsquash b\nlabel m\n", b"label l\nmerge -C a l\nsquash b\nexec t\nlabel m\n"),
        (b"reset l\nupdate-ref refs/x\nbreak\nedit a\nreword b\ndrop c\n", b"reset l\nupdate-ref refs/x\nbreak\nedit a\nreword b\ndrop c\n"),
        (b"pick a\nexec x\nfixup b\n", b"pick a\nexec t\nexec x\nfixup b\n"),
    ]:
        cases.add("add-exec", [before, b"t"], answer([parsed(line) for line in after.splitlines()]))


def merges_todo(parents, subjects, base, commits):
    """The lines, by the written rule."""
    if not commits:
        return [["noop"]]
    wanted = {p for c in commits for p in parents[c][1:2]}
    wanted |= {parents[c][0] for at, c in enumerate(commits) if at == 0 or commits[at - 1] != parents[c][0]}
    labels = {}

    def name(found):
        return labels.get(found) or (b"onto" if found == base else found.encode())

    lines = [["label", b"onto"]]
    place = base
    for c in commits:
        first = parents[c][0]
        if first != place:
            lines.append(["reset", name(first), b""])
        if len(parents[c]) == 2:
            lines.append(["merge", "keep", c.encode(), name(parents[c][1]), subjects[c]])
        else:
            lines.append(["pick", c.encode(), subjects[c]])
        if c in wanted:
            labels[c] = b"rw-%d" % (len(labels) + 1)
            lines.append(["label", labels[c]])
        place = c
    return lines


def graph_fields(parents, subjects):
    return [len(parents), *(field for c in parents for field in (c, len(parents[c]), *parents[c], subjects[c]))]


def add_merges(cases):
    cases.group(
        "A graph with subjects, a base and a range: the todo that makes merges again: each commit on the place of its first parent, which is reset to",
        "where it is another than that of the line before. By the written rule.",
    )
    pick = chooser("merge plans")
    for count in (0, 1, 2, 3, *range(4, 20), 30, 40, 60):
        ids = [f"{number + 1:08x}" + "0" * 32 for number in range(count + 3)]
        root, base, outside = ids[:3]
        parents = {root: [], base: [root], outside: [root]}
        for at, found in enumerate(ids[3:], 3):
            older = [base, *ids[3:at]]
            chosen = [pick.choice(older[-4:])]
            if pick.randint(0, 2) == 0:
                others = [other for other in [*older[-5:], outside] if other not in chosen]
                chosen += [pick.choice(others)] if others else []
            parents[found] = chosen
        subjects = {found: b"s%d" % at for at, found in enumerate(ids)}
        commits = postorder(parents, {root, base, outside}, ids[-1:]) if count else []
        cases.add("plan-merges", [*graph_fields(parents, subjects), base, *commits], answer(merges_todo(parents, subjects, base, commits)))
    a, b, c, d, e = (str(number) * 40 for number in range(1, 6))
    cases.group("A second parent before the base and outside of the range is named by its hex digits; the first commit with no parent or with three is blamed.")
    names = {found: b"x" for found in (a, b, c, d, e)}
    graph = {a: [], b: [a], c: [a], d: [b, c]}
    cases.add("plan-merges", [*graph_fields(graph, names), b, d], ["lines", 2, "label", b"onto", "merge", "keep", d.encode(), c.encode(), b"x"])
    graph[e] = [d, b, c]
    cases.add("plan-merges", [*graph_fields(graph, names), b, d, e], ["octopus", e])
    cases.add("plan-merges", [*graph_fields(graph, names), b, d, a, e], ["new-root", a])
    cases.add("plan-merges", [*graph_fields(graph, names), b, e, a], ["octopus", e])


def add(cases):
    add_linear(cases)
    add_merges(cases)
