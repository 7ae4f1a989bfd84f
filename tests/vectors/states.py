"""Cases of state_text. A stopped list is a dictionary here, and each of its files is written from the table of what it holds."""

from .cases import Repository, chooser
from .todos import canonical, parsed

REBASE = ["head-name", "orig-head", "onto", "interactive", "git-rebase-todo", "git-rebase-todo.backup", "done", "msgnum", "end", "message"]
REBASE += ["author-script", "amend", "stopped-sha", "current-fixups", "rewritten-list", "rewritten-pending", "refs-to-delete", "update-refs"]
REBASE += ["control"]
SEQUENCER = ["todo", "done", "head", "abort-safety", "opts", "message", "author-script", "stopped-sha", "control"]
BESIDE = ["MERGE_MSG", "MERGE_HEAD", "REBASE_HEAD", "CHERRY_PICK_HEAD", "REVERT_HEAD"]
FOLDERS = {"rebase": b".git/rebase-merge/", "cherry-pick": b".git/sequencer/", "revert": b".git/sequencer/"}
HEADS = {"REBASE_HEAD": "rebase", "CHERRY_PICK_HEAD": "cherry-pick", "REVERT_HEAD": "revert"}
CHAIN = {"pick": "pick", "squash": "squash", "fixup": "fixup", "fixup-keep": "fixup -C", "fixup-edit": "fixup -c"}
STOPS = ["conflict", "edit", "break", "exec-failed", "exec-dirty", "empty", "hook-refused", "editor-failed", "empty-message", "driver-broken"]
STOPS += ["blocked", "todo-bad", "ref-moved"]
IDENTS = [b"A U Thor <author@example.com> 1112911993 -0700", b"O'Neil <o'n@x> 0 +0000", b" <> -5 +1200", b"\xc3\x89ve\\ <e@x> 99999999999 +0530"]
MESSAGES = [b"m\n", b"", b"one\n\ntwo\n", b"no line feed", b"# c\n"]
ENCODINGS = [b"", b"", b"ISO-8859-1", b"x\n y"]
NAMES = [b"refs/heads/master", b"refs/heads/a/b", b"refs/heads/\xc3\xa9", b"refs/stash"]
LABELS = [b"onto", b"rw-1", b"a/b", b"\xc3\xa9"]
COMMANDS = [b"exec make", b"break", b"noop", b"label onto", b"reset onto # c", b"update-ref refs/heads/x", b"fixup -C abc", b"squash abc # s"]
COMMANDS += [b"pick 7a140acc37e4ab8eeea8e633d9bb4c93b8ac8ca7 # add b", b"merge -C abc side # m", b"edit abc", b"merge side", b"exec a\r"]
ZEROS = "0" * 40


def places(verb):
    folder = FOLDERS[verb]
    return [(name, folder + name.encode()) for name in (REBASE if verb == "rebase" else SEQUENCER)] + [
        (name, b".git/" + name.encode()) for name in BESIDE
    ]


def yes(value):
    return "yes" if value else "no"


def control_text(k):
    rows = ["gitseq 1", "verb " + k["verb"], "empty " + k["empty"], "ff " + yes(k["ff"]), "reschedule " + yes(k["reschedule"])]
    rows += ["stop " + k["stop"], "head " + k["stopped_head"]]
    pending = k["pending"]
    if pending is None:
        rows += ["pending none"]
    else:
        rows += ["pending " + " ".join([*pending["form"], "edit" if pending["edit"] else "plain"])]
    text = "".join(row + "\n" for row in rows).encode()
    if pending and pending["encoding"]:
        text += b"encoding " + pending["encoding"] + b"\n"
    return text


def opts_text(k):
    rows = [f"mainline = {k['mainline']}"] if k["mainline"] else []
    rows += [f"{key} = true" for key in ("edit", "record-origin", "allow-empty") if k[key]]
    return ("[options]\n" + "".join("\t" + row + "\n" for row in rows)).encode()


def script(ident):
    name, _, rest = ident.partition(b"<")
    email, _, when = rest.partition(b"> ")
    values = {b"NAME": name[:-1], b"EMAIL": email, b"DATE": b"@" + when}
    return b"".join(b"GIT_AUTHOR_%s='%s'\n" % (key, value.replace(b"'", b"'\\''")) for key, value in values.items())


def id_line(name):
    return name.encode() + b"\n" if name else b""


def files_of(k):
    """The files of a stopped list, by their names; one without a byte is none."""
    pending = k["pending"]
    form = pending["form"] if pending else [None]
    left = len(k["left"]) if isinstance(k["left"], list) else 0
    stopped = k["stopped_commit"]
    texts = {
        "head-name": (k["head_name"] or b"detached HEAD") + b"\n",
        "orig-head": id_line(k["orig"]),
        "head": id_line(k["orig"]),
        "onto": id_line(k["onto"]),
        "git-rebase-todo": left_text(k),
        "todo": left_text(k),
        "git-rebase-todo.backup": k["backup"],
        "done": todo_text(k["done"]),
        "msgnum": b"%d\n" % len(k["done"]),
        "end": b"%d\n" % (len(k["done"]) + left),
        "message": pending["message"] if pending else b"",
        "MERGE_MSG": pending["message"] if pending else b"",
        "author-script": script(pending["author"]) if pending and pending["author"] else b"",
        "amend": id_line(k["stopped_head"]) if form[0] == "amend" else b"",
        "stopped-sha": id_line(stopped),
        "current-fixups": "".join(f"{CHAIN[kind]} {name}\n" for kind, name in k["chain"]).encode(),
        "rewritten-list": "".join(f"{old} {new}\n" for old, new in k["rewritten"]).encode(),
        "rewritten-pending": "".join(name + "\n" for name in k["waiting"]).encode(),
        "refs-to-delete": b"".join(b"refs/rewritten/" + name + b"\n" for name in k["labels"]),
        "update-refs": b"".join(name + b"\n" + id_line(old or ZEROS) + id_line(new or ZEROS) for name, old, new in k["updates"]),
        "control": control_text(k),
        "abort-safety": id_line(k["stopped_head"]),
        "opts": opts_text(k),
        "MERGE_HEAD": id_line(form[1]) if form[0] == "merge" else b"",
    }
    for name, verb in HEADS.items():
        texts[name] = id_line(stopped) if pending and verb == k["verb"] else b""
    texts = {name: text for name, text in texts.items() if text}
    return texts | {"interactive": b""}


def todo_text(lines):
    return b"".join(canonical(parsed(line)) for line in lines)


def left_text(k):
    return todo_text(k["left"]) if isinstance(k["left"], list) else k["left"]


def fields_of(k):
    lines = isinstance(k["left"], list)
    fields = [k["verb"], k["empty"], k["ff"], k["reschedule"], k["mainline"], k["edit"], k["record-origin"], k["allow-empty"]]
    fields += [k["head_name"], k["orig"], k["onto"], todo_text(k["done"]), lines, left_text(k), k["backup"]]
    fields += [len(k["labels"]), *k["labels"], len(k["updates"])]
    fields += [field for name, old, new in k["updates"] for field in (name, old or "none", new or "none")]
    fields += [len(k["rewritten"]), *(name for pair in k["rewritten"] for name in pair), len(k["waiting"]), *k["waiting"]]
    fields += [len(k["chain"]), *(field for item in k["chain"] for field in item)]
    fields += [k["stop"], k["stopped_head"], k["stopped_commit"] or "none"]
    pending = k["pending"]
    if pending is None:
        return fields + ["none"]
    return fields + [*pending["form"], pending["edit"], pending["author"], pending["encoding"], pending["message"]]


def plain(verb, orig, onto):
    """A list at its start."""
    nothing = dict.fromkeys(["ff", "reschedule", "edit", "record-origin", "allow-empty"], False)
    lists = {key: [] for key in ("done", "left", "labels", "updates", "rewritten", "waiting", "chain")}
    rest = {"verb": verb, "empty": "stop", "mainline": 0, "head_name": b"", "orig": orig, "onto": onto, "backup": b"", "stop": "break"}
    return nothing | lists | rest | {"stopped_head": orig, "stopped_commit": None, "pending": None}


def chosen(pick, verb):
    def name():
        return f"{pick.getrandbits(160):040x}"

    def some(choices, most):
        return [pick.choice(choices) for _ in range(pick.randint(0, most))]

    def names(most):
        return [name() for _ in range(pick.randint(0, most))]

    k = plain(verb, name(), name())
    k |= {"empty": pick.choice(["drop", "keep", "stop"]), "stop": pick.choice(STOPS), "stopped_head": name()}
    k |= {"done": some(COMMANDS, 3), "left": some(COMMANDS, 4), "stopped_commit": pick.choice([None, name(), name()])}
    flags = ["ff", "reschedule"] if verb == "rebase" else ["edit", "record-origin", "allow-empty"]
    k |= {flag: pick.random() < 0.5 for flag in flags}
    if verb == "rebase":
        k |= {"head_name": pick.choice([b"", *NAMES]), "backup": pick.choice([b"", b"pick abc # x\n", b"any\0thing"])}
        k |= {"labels": some(LABELS, 2), "rewritten": list(zip(names(2), names(2))), "waiting": names(2)}
        k |= {"updates": [(ref, pick.choice([None, name()]), pick.choice([None, name()])) for ref in sorted(set(some(NAMES, 3)))]}
        k |= {"chain": [("pick" if n == 0 else pick.choice(list(CHAIN)[1:]), other) for n, other in enumerate(names(3))]}
        if pick.random() < 0.25:
            k["left"] = pick.choice([b"pick\n", b"what\xff", b""])
    else:
        k["mainline"] = pick.choice([0, 0, 1, 2, 2**32 - 1])
    if pick.random() < 0.7:
        form = pick.choice([["new"], ["amend"], ["merge", name()]])
        parts = {"author": pick.choice([b"", *IDENTS]), "encoding": pick.choice(ENCODINGS), "message": pick.choice(MESSAGES)}
        k["pending"] = parts | {"form": form, "edit": pick.random() < 0.5}
    return k


def add_places(cases):
    cases.group(
        "Where the files of a stopped list stand, in their order: those of git-rebase(1) in `.git/rebase-merge`, those of a cherry-pick or revert",
        "in `.git/sequencer`, with `done`, `control` and `in-step` of gitseq's own, and those beside (gitrevisions(7)). By the written rule.",
    )
    for verb, folder in FOLDERS.items():
        files = [field for name, path in places(verb) for field in (name.encode(), path)]
        cases.add("state-places", [verb], ["in-step", folder + b"in-step", *files])


def add_told(cases, pick):
    cases.group("Stopped lists, and all their files: each by the table of what it holds; one without a byte is none, `interactive` apart.")
    for verb in FOLDERS:
        for _ in range(40):
            k = chosen(pick, verb)
            texts = files_of(k)
            told = [(path, texts[name]) for name, path in places(verb) if name in texts]
            cases.add("state-files", fields_of(k), ["files", len(told), *(field for file in told for field in file)])


class Sequence:
    """A repository in which git stops: `topic` has three commits on `base`, and `master` one."""

    def __init__(self):
        self.repository = Repository()
        repository = self.repository
        self.editor = {"GIT_EDITOR": ":", "GIT_AUTHOR_NAME": "O'Neil", "GIT_AUTHOR_DATE": "@1000 -0530"}
        self.base = self.add("base")
        self.onto = self.add("onto")
        repository.git("checkout", "-q", "-b", "topic", self.base)
        self.commits = [self.add(name) for name in ("one", "two", "three")]

    def add(self, name, text=None):
        self.repository.write(name, text or name.encode() + b"\n")
        self.repository.git("add", name)
        self.repository.git("commit", "-q", "-m", name, env=self.editor)
        return self.repository.line("rev-parse", "HEAD")

    def line(self, command, number):
        return f"{command} {self.commits[number]} # {['one', 'two', 'three'][number]}".encode()

    def rebase(self, lines, *words):
        """Starts a rebase with these lines, and stops."""
        todo = self.repository.path(".git", "wanted")
        with open(todo, "wb") as file:
            file.write(b"".join(line + b"\n" for line in lines))
        env = self.editor | {"GIT_SEQUENCE_EDITOR": f"cp {todo}"}
        self.repository.try_git("rebase", "-q", "-i", *words, "--onto", self.onto, self.base, env=env)

    def control(self, done, left):
        head = self.repository.line("rev-parse", "HEAD")
        k = plain("rebase", self.commits[2], self.onto) | {"done": done, "left": left, "stopped_head": head}
        return k | {"head_name": b"refs/heads/topic"}


def add_git_files(cases, verb, repository, k, names):
    """Files that stand there as git left them; one that is not there is none."""
    for name in names:
        path = dict(places(verb))[name]
        try:
            answer = [repository.read(path.decode())]
        except FileNotFoundError:
            answer = ["none"]
        cases.add("state-file", [name.encode(), *fields_of(k)], answer)


def author_of(repository, name):
    return next(row[7:] for row in repository.git("cat-file", "commit", name).split(b"\n") if row.startswith(b"author "))


def rebases():
    """A repository, the list that stopped in it, and files of which git says the same."""
    told = ["head-name", "orig-head", "onto", "interactive", "git-rebase-todo", "done", "msgnum", "end", "rewritten-list", "amend", "REBASE_HEAD"]
    sequence = Sequence()
    lines = [sequence.line("pick", 0), sequence.line("pick", 1), b"break", b"label here", sequence.line("pick", 2)]
    sequence.rebase(lines)
    new = sequence.repository.line("rev-list", "--reverse", f"{sequence.onto}..HEAD").split()
    k = sequence.control(lines[:3], lines[3:]) | {"rewritten": list(zip(sequence.commits, new))}
    yield sequence.repository, k, told

    sequence = Sequence()
    repository = sequence.repository
    lines = [b"label onto", sequence.line("edit", 0), b"exec make", sequence.line("squash", 1), b"update-ref refs/heads/x", sequence.line("drop", 2)]
    repository.git("branch", "x", sequence.commits[1])
    sequence.rebase(lines, "--update-refs")
    author = author_of(repository, sequence.commits[0])
    pending = {"form": ["amend"], "edit": True, "author": author, "encoding": b"", "message": b"one\n"}
    k = sequence.control(lines[:2], lines[2:]) | {"stopped_commit": sequence.commits[0], "pending": pending, "stop": "edit", "labels": [b"onto"]}
    k |= {"updates": [(b"refs/heads/x", sequence.commits[1], None)]}
    yield repository, k, [*told[:-3], "author-script", "amend", "REBASE_HEAD", "refs-to-delete", "update-refs"]

    sequence = Sequence()
    repository = sequence.repository
    repository.git("checkout", "-q", "-B", "master", sequence.onto)
    sequence.onto = sequence.add("two", b"other\n")
    repository.git("checkout", "-q", "topic")
    lines = [sequence.line("pick", 0), sequence.line("pick", 1), sequence.line("reword", 2)]
    sequence.rebase(lines)
    author = author_of(repository, sequence.commits[1])
    pending = {"form": ["new"], "edit": False, "author": author, "encoding": b"", "message": b"two\n"}
    k = sequence.control(lines[:2], lines[2:]) | {"stopped_commit": sequence.commits[1], "pending": pending, "stop": "conflict"}
    k |= {"rewritten": [(sequence.commits[0], repository.line("rev-parse", "HEAD"))]}
    yield repository, k, [*told, "author-script"]

    sequence = Sequence()
    sequence.repository.git("checkout", "-q", "--detach")
    lines = [b"exec false", sequence.line("pick", 0)]
    sequence.rebase(lines, "--no-reschedule-failed-exec")
    k = sequence.control(lines[:1], lines[1:]) | {"head_name": b"", "stop": "exec-failed"}
    yield sequence.repository, k, told


def add_rebases(cases):
    cases.group("Files that `git rebase -i` leaves where it stops: at `break`, at `edit`, at a conflict, and where a command failed.")
    for repository, k, names in rebases():
        add_git_files(cases, "rebase", repository, k, names)


def sequences():
    """The same of a cherry-pick and of a revert."""
    for options in ([], ["-x"], ["-m", "1"], ["--allow-empty"]):
        sequence = Sequence()
        repository = sequence.repository
        commits = sequence.commits
        if "-m" in options:
            merge = repository.line("commit-tree", "HEAD^{tree}", "-p", sequence.base, "-p", sequence.onto, stdin=b"merge\n")
            commits = [merge, merge]
        repository.git("checkout", "-q", "-B", "master", sequence.onto)
        head = sequence.add("one", b"other\n")
        status, _, said = repository.try_git("cherry-pick", *options, *commits[:2])
        assert status == 1, said
        author = author_of(repository, commits[0])
        pending = {"form": ["new"], "edit": False, "author": author, "encoding": b"", "message": b"one\n"}
        k = plain("cherry-pick", head, head) | {"stopped_commit": commits[0], "pending": pending, "stop": "conflict"}
        k |= {"done": [b"pick " + commits[0].encode()], "left": [b"pick " + commits[1].encode()]}
        k |= {"record-origin": "-x" in options, "mainline": int("-m" in options), "allow-empty": "--allow-empty" in options}
        names = ["head", "abort-safety", "CHERRY_PICK_HEAD", "REVERT_HEAD", "REBASE_HEAD", "MERGE_HEAD"]
        yield repository, k, names + (["opts"] if options else [])
    sequence = Sequence()
    repository = sequence.repository
    sequence.add("one", b"other\n")
    head = repository.line("rev-parse", "HEAD")
    status, _, said = repository.try_git("revert", "--no-edit", sequence.commits[0], sequence.commits[1])
    assert status == 1, said
    pending = {"form": ["new"], "edit": False, "author": b"", "encoding": b"", "message": b"Revert\n"}
    k = plain("revert", head, head) | {"stopped_commit": sequence.commits[0], "pending": pending, "stop": "conflict"}
    k |= {"done": [b"revert " + sequence.commits[0].encode()], "left": [b"revert " + sequence.commits[1].encode()]}
    yield repository, k, ["head", "abort-safety", "CHERRY_PICK_HEAD", "REVERT_HEAD", "REBASE_HEAD", "MERGE_HEAD"]


def add_sequences(cases):
    cases.group("Files that `git cherry-pick` and `git revert` leave where they stop at a conflict; of the options one at a time.")
    for repository, k, names in sequences():
        add_git_files(cases, k["verb"], repository, k, names)


def writes(rows):
    return ["writes", len(rows), *(field for row in rows for field in row)]


def add_writes(cases, pick):
    cases.group(
        "What a stop writes: its files, then the removals of those that were found and that it has no longer, then that of `in-step`; and what an",
        "end removes: what was found, then `orig-head` and `head-name`, or `head`, and `in-step` last. By the written rule.",
    )
    for verb, folder in FOLDERS.items():
        paths = [path for _, path in places(verb)]
        step = folder + b"in-step"
        last = [folder + name for name in ((b"orig-head", b"head-name") if verb == "rebase" else (b"head",))]
        for _ in range(15):
            files = [(path, pick.choice(MESSAGES)) for path in paths if pick.random() < 0.5]
            found = [path for path in [*paths, step, folder + b"message-squash"] if pick.random() < 0.5]
            stale = [path for path in found if path != step and path not in dict(files)]
            rows = [("put", *file) for file in files] + [("removed", path) for path in [*stale, step]]
            cases.add("stop-writes", [verb, len(files), *(field for file in files for field in file), *found], writes(rows))
            early = [path for path in found if path != step and path not in last]
            cases.add("end-writes", [verb, *found], writes([("removed", path) for path in [*early, *last, step]]))
        cases.add("stop-writes", [verb, 0], writes([("removed", step)]))


def add(cases):
    pick = chooser("states")
    add_places(cases)
    add_told(cases, pick)
    add_rebases(cases)
    add_sequences(cases)
    add_writes(cases, pick)
