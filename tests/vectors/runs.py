"""Cases of seq_top: whole invocations."""

import os

from .cases import Repository
from .index import rows_of, written
from .revisions import named
from .stores import changed, given, object_path, object_text, name_of, objects_of, refs_of

WHO = [("GIT_COMMITTER_NAME", "Sam"), ("GIT_COMMITTER_EMAIL", "sam@x")]
MOMENT = 2000


def worktree(repository):
    found = {}
    for above, folders, names in os.walk(repository.top):
        if ".git" in folders:
            folders.remove(".git")
        for name in names:
            path = os.path.join(above, name)
            with open(path, "rb") as file:
                found[os.fsencode(os.path.relpath(path, repository.top))] = file.read()
    return found


def seen(repository):
    """What gitseq sees of a repository but its settings; the index with stat words of 0."""
    return objects_of(repository) | refs_of(repository) | {b".git/index": written(rows_of(repository))} | worktree(repository)


class History:
    """A repository of git: `base` has the file `a`; commits stand on it, and `master` is at `add c`."""

    def __init__(self):
        self.repository = Repository()
        self.hello = self.repository.put("blob", b"hello\n")
        file = ("100644", self.hello)
        others = [("100644", self.repository.put("blob", text)) for text in (b"", b"n\n", b"2\n", b"3\n")]
        empty, n, two, three = others
        self.base = self.commit({b"a": file}, [], b"base\n")
        self.add_b = self.commit({b"a": file, b"b": empty}, [self.base], b"add b\n")
        self.add_c = self.commit({b"a": file, b"c": file}, [self.base], b"add c\n")
        self.add_d_n = self.commit({b"a": file, b"d/n": n}, [self.base], b"add d/n\n")
        self.a_is_3 = self.commit({b"a": three}, [self.base], b"a is 3\n")
        self.a_is_2 = self.commit({b"a": two, b"c": file}, [self.add_c], b"a is 2\n")
        self.repository.git("update-ref", "refs/heads/master", self.add_c)
        self.repository.git("read-tree", self.add_c)
        self.repository.write("a", b"hello\n")
        self.repository.write("c", b"hello\n")
        self.clear_logs()
        self.has_settings = False

    def set(self, *pairs):
        """Adds these settings to those of `git init`, which gitseq then sees too. No variable names the committer to git."""
        for key, value in pairs:
            self.repository.git("config", "--add", key, value)
        for name, _ in WHO:
            del self.repository.env[name]
        self.has_settings = True

    def commit(self, entries, parents, message):
        return self.repository.commit(self.repository.tree(entries), parents, message)

    def clear_logs(self):
        for above, _, names in os.walk(self.repository.path(".git", "logs")):
            for name in names:
                os.unlink(os.path.join(above, name))

    def files(self):
        settings = {b".git/config": self.repository.read(".git/config")} if self.has_settings else {}
        return seen(self.repository) | settings

    def pick(self, word, who):
        """Picks by git at the moment."""
        env = dict(who) | {"GIT_COMMITTER_DATE": f"@{MOMENT} +0000"}
        self.repository.git("cherry-pick", word, env=env)


def fields_of(files, words, who=None, moments=()):
    who = WHO if who is None else who
    fields = given(files) + [len(who), *(word.encode() for pair in who for word in pair)]
    return fields + [len(moments), *moments, *(word.encode() for word in words)]


def refused(cases, files, words, printed, status=3, who=None):
    cases.add("run", fields_of(files, words, who), ["status", status, printed.encode()])


def add_words(cases):
    cases.group("Words that are no command, and commands that are not built yet, in a repository and outside. By the written rule.")
    inside = {b".git/HEAD": b"ref: refs/heads/master\n"}
    for files in (inside, {}):
        refused(cases, files, [], "usage no-verb\n", 2, [])
        refused(cases, files, ["log"], "usage unknown-verb log\n", 2, [])
        refused(cases, files, ["cherry-pick"], "usage missing\n", 2, [])
        refused(cases, files, ["cherry-pick", "--bogus", "M"], "usage parse\n", 2, [])
        refused(cases, files, ["rebase", "--empty=often", "main"], "usage value often\n", 2, [])
        refused(cases, files, ["rebase", "--continue", "main"], "usage pair --continue UPSTREAM\n", 2, [])
        for words, printed in [
            (["cherry-pick", "abc"], "refused no-such-rev abc\n"),
            (["revert", "-m1", "M"], "refused not-built\n"),
            (["status"], "refused not-built\n"),
        ]:
            refused(cases, files, words, printed if files else "refused not-a-repository\n", 3, [])


def add_refusals(cases, history, files):
    changed_c = {b"c": b"changed\n"}
    cases.group("What is not taken yet is told before a changed file. By the written rule; the repository is git's.")
    for path, text in [
        (b".git/rebase-merge/done", b""),
        (b".git/sequencer/todo", b""),
        (b".git/rebase-apply/next", b"1\n"),
        (b".git/CHERRY_PICK_HEAD", history.add_b.encode() + b"\n"),
        (b".git/hooks/pre-commit", b""),
    ]:
        refused(cases, files | changed_c | {path: text}, ["cherry-pick", history.add_b], "refused not-built\n")
    refused(cases, files | changed_c, ["cherry-pick", history.base], "refused not-built\n")
    cases.group("Objects that are missing, of another kind, or damaged are named; also a tree with the name .GIT. By the written rule.")
    missing = "1234567890" * 4
    refused(cases, files, ["cherry-pick", missing], f"refused bad-object {missing}\n")
    tree = history.repository.line("rev-parse", history.add_b + "^{tree}")
    for name in (tree, history.add_b):
        refused(cases, files | {object_path(name): b"blob 0\0"}, ["cherry-pick", history.add_b], f"refused bad-object {name}\n")
    text = object_text("tree", b"100644 .GIT\0" + bytes.fromhex(history.hello))
    bad = name_of(text)
    commit = object_text(
        "commit", f"tree {bad}\nparent {history.base}\nauthor A <a@x> 1 +0000\ncommitter A <a@x> 1 +0000\n\nm\n".encode()
    )
    there = {object_path(bad): text, object_path(name_of(commit)): commit}
    refused(cases, files | there, ["cherry-pick", name_of(commit)], f"refused bad-object {bad}\n")
    cases.group("A changed file, as `git status` tells it, and then a conflict, as `git cherry-pick` does; the index that is bad before.")
    refused(cases, files | changed_c, ["cherry-pick", history.add_b], "refused dirty c\n")
    repository = history.repository
    repository.git("read-tree", history.a_is_2)
    two = {
        b".git/refs/heads/master": history.a_is_2.encode() + b"\n",
        b".git/index": written(rows_of(repository)),
        b"a": b"2\n",
    }
    repository.git("read-tree", history.add_c)
    refused(cases, files | two, ["cherry-pick", history.a_is_3], "refused conflict a\n")
    refused(cases, files | two | changed_c, ["cherry-pick", history.a_is_3], "refused dirty c\n")
    refused(cases, files | {path: text for path, text in two.items() if path != b".git/index"}, ["cherry-pick", history.a_is_3], "refused dirty a\n")
    for text, printed in ((b"DIRC\0\0\0\x04\0\0\0\0", "version 4"), (b"DIRC", "count"), (b"dirc", "magic")):
        refused(cases, files | changed_c | {b".git/index": text}, ["cherry-pick", history.add_b], f"refused bad-index {printed}\n")
    cases.group("HEAD is told before the packed refs, these before the index, and that before a changed file. By the written rule.")
    packed = {b".git/packed-refs": history.add_c.encode() + b" refs/heads/topic/one\nx\n"}
    index = {b".git/index": b"DIRC"}
    unborn = {b".git/HEAD": b"ref: refs/heads/none\n"}
    for path, text in [
        (b".git/HEAD", b"d121\n"),
        (b".git/HEAD", history.add_c.encode()),
        (b".git/HEAD", b"ref: refs/heads/a..b\n"),
        (b".git/HEAD", b"ref: HEAD\n"),
        (b".git/refs/heads/master", b"d121\n"),
        (b".git/refs/heads/master", b"ref: refs/heads/master\n"),
    ]:
        refused(cases, files | packed | index | changed_c | {path: text}, ["cherry-pick", history.add_b], "refused bad-head\n")
    refused(cases, files | packed | index | changed_c, ["cherry-pick", history.add_b], "refused bad-refs 2\n")
    refused(cases, files | unborn | packed | index, ["cherry-pick", history.add_b], "refused bad-refs 2\n")
    refused(cases, files | unborn | index | changed_c, ["cherry-pick", history.add_b], "refused bad-index count\n")
    refused(cases, files | unborn | changed_c, ["cherry-pick", history.add_b], "refused unborn-head\n")
    add_settings(cases, history, files | changed_c, packed, index)
    add_identities(cases, history, files | changed_c, unborn)
    cases.group("Untracked files that `git cherry-pick` would overwrite: a file, a folder with a file, a file in a folder's place.")
    for path, word, where in ((b"b", history.add_b, "b"), (b"b/c", history.add_b, "b"), (b"d", history.add_d_n, "d/n")):
        refused(cases, files | {path: b"mine\n"}, ["cherry-pick", word], f"refused would-overwrite {where}\n")


def add_settings(cases, history, files, packed, index):
    """`files` has a changed file, `packed` packed refs that are bad, `index` an index that is bad."""
    cases.group(
        "A configuration is told behind the packed refs and before the index: a line that is bad, then the first key that asks for what is not",
        "there, then how many drivers run at once. By the written rule.",
    )
    words = ["cherry-pick", history.add_b]
    bad = {b".git/config": b"[core\n"}
    refused(cases, files | index | bad | packed, words, "refused bad-refs 2\n")
    refused(cases, files | index | bad | {b".git/HEAD": b"d121\n"}, words, "refused bad-head\n")
    extension = b"[extensions]\n\tobjectFormat = sha1\n"
    version = b"[core]\n\trepositoryformatversion = %d\n"
    jobs = b"[gitseq]\n\tjobs = %s\n"
    for text, status, printed in [
        (b"[core\n", 3, "refused bad-config 1"),
        (extension + b"[user]\n\tname = \"Sam\n", 3, "refused bad-config 4"),
        (extension, 3, "refused unsupported extensions.objectformat"),
        (b'[extensions "A b"]\n\tc\n', 3, "refused unsupported extensions.A b.c"),
        (version % 2 + extension, 3, "refused unsupported core.repositoryformatversion"),
        (version % 0 + extension + version % 2, 3, "refused unsupported extensions.objectformat"),
        (jobs % b"0" + version % 2, 3, "refused unsupported core.repositoryformatversion"),
        (jobs % b"0", 8, "limit jobs 0"),
        (jobs % b"1" + jobs % b"17", 8, "limit jobs 17"),
        (jobs % b"999999999", 8, "limit jobs 999999999"),
        (jobs % b"0000000001", 3, "refused unsupported gitseq.jobs"),
        (jobs % b"2x", 3, "refused unsupported gitseq.jobs"),
        (jobs % b"", 3, "refused unsupported gitseq.jobs"),
        (jobs % b"x" + jobs % b"16", 3, "refused bad-index count"),
        (version % 2 + version % 1, 3, "refused bad-index count"),
        (b'[core "x"]\n\trepositoryformatversion = 2\n[include]\n\tpath = x\n', 3, "refused bad-index count"),
    ]:
        refused(cases, files | index | {b".git/config": text}, words, printed + "\n", status)


def add_identities(cases, history, files, unborn):
    """`files` has a changed file, `unborn` a HEAD without a commit."""
    cases.group(
        "Who commits is told behind a HEAD without a commit, and before the commit that is picked and a changed file. A variable that is there",
        "decides, also where it is empty. By the written rule; Git refuses an empty name too.",
    )
    words = ["cherry-pick", history.add_b]
    name, email = WHO
    settings = {b".git/config": b"[user]\n\tname = Sam\n\temail = sam@x\n"}
    no_email = {b".git/config": b"[user]\n\tname = Sam\n[user \"x\"]\n\temail = sam@x\n"}
    refused(cases, files | unborn, words, "refused unborn-head\n", 3, [])
    refused(cases, files, ["cherry-pick", history.base], "refused no-identity\n", 3, [])
    for more, who in [
        ({}, []),
        ({}, [name]),
        ({}, [email]),
        ({}, [name, (email[0], "")]),
        ({}, [(name[0], "S<m"), email]),
        (no_email, []),
        (settings, [(name[0], "")]),
        (settings | {b".git/config": b"[user]\n\tname = Sam\n\temail = sam@x\n\tname\n\tname =\n"}, []),
    ]:
        refused(cases, files | more, words, "refused no-identity\n", 3, who)
    refused(cases, files | settings, words, "refused dirty c\n", 3, [])


def add_names(cases):
    cases.group(
        "Words that name no commit, which `git rev-parse --verify WORD^{commit}` takes as little, are told whole, before a HEAD without a commit",
        "and a changed file. Why they name none, by the written rule.",
    )
    history = History()
    history.repository.write(".git/refs/heads/bad", b"d121\n")
    files = history.files() | {b".git/HEAD": b"ref: refs/heads/none\n", b"c": b"changed\n"}
    for why, words in {
        "no-such-rev": ["abc", "nosuch", "bad", "side", history.add_b + "0"],
        "no-parent": ["master~2", "master^2"],
        "no-log-entry": ["master@{0}"],
        "bad-rev-form": ["master..nosuch", ""],
        "not-a-commit": [history.hello, history.hello[:8]],
    }.items():
        for word in words:
            assert named(history.repository, word) is None, word
            refused(cases, files, ["cherry-pick", word], f"refused {why} {word}\n")


def add_pick(cases, history, word, *clocks, who=None):
    """A pick, and the same word once more, whose changes are there then."""
    who = WHO if who is None else who
    before = history.files()
    history.pick(word, who)
    after = history.files()
    after[b".git/COMMIT_EDITMSG"] = history.repository.git("log", "-1", "--format=%B").rstrip(b"\n") + b"\n"
    printed = f"done {history.repository.line('rev-parse', 'HEAD')}\n".encode()
    for moments in clocks:
        fields = fields_of(before, ["cherry-pick", word], who, moments)
        cases.add("run", fields, ["status", 0, printed, *changed(before, after)])
    refused(cases, after, ["cherry-pick", word], "refused not-built\n", 3, who)


def add_picks(cases):
    cases.group(
        "Clean picks: the objects, the branch, HEAD, the logs, the index (with stat words of 0) and the files that `git cherry-pick` leaves, and the",
        "message in COMMIT_EDITMSG; on a branch, detached, and on a packed branch of two parts. The clock tells the moment last.",
    )
    for place in ("branch", "detached", "packed"):
        for which in ("add_b", "add_d_n", "a_is_3"):
            history = History()
            repository = history.repository
            if place == "detached":
                repository.git("checkout", "-q", "--detach", "master")
            if place == "packed":
                repository.git("branch", "topic/one", "master")
                repository.git("pack-refs", "--all")
                repository.git("symbolic-ref", "HEAD", "refs/heads/topic/one")
            history.clear_logs()
            add_pick(cases, history, getattr(history, which), (MOMENT,), (MOMENT - 10, MOMENT))
    cases.group("The same of a commit that is named by the first digits of its id, by a branch, and by the log of a branch.")
    for word in ("digits", "side", "heads/side", "refs/heads/side", "side@{0}", "side~0"):
        history = History()
        history.repository.git("update-ref", "--create-reflog", "-m", "branch: Created", "refs/heads/side", history.add_b)
        add_pick(cases, history, history.add_b[:7] if word == "digits" else word, (MOMENT,))
    cases.group("The same in repositories with a configuration, which names the committer where no variable does; the last setting of a key counts.")
    for settings, who in [
        ([], WHO),
        ([("user.name", "Sam"), ("user.email", "sam@x"), ("core.repositoryformatversion", "1"), ("gitseq.jobs", "16")], []),
        ([("user.name", "Ann"), ("user.email", "sam@x"), ("user.name", "Sam  S")], []),
        ([("user.name", "Ann"), ("user.email", "sam@x")], WHO[:1]),
    ]:
        history = History()
        history.set(*settings)
        add_pick(cases, history, history.add_b, (MOMENT,), who=who)


class Steps:
    """Commands that git and gitseq are given alike, each in the repository that git left."""

    def __init__(self, cases):
        self.cases = cases
        self.repository = Repository()
        self.repository.git("config", "core.filemode", "false")

    def step(self, verb, *paths, options=()):
        before = seen(self.repository)
        self.repository.git(verb, *options, *paths)
        status, head, _ = self.repository.try_git("rev-parse", "-q", "--verify", "HEAD")
        printed = b"done " + (head if status == 0 else b"unborn\n")
        answer = ["status", 0, printed, *changed(before, seen(self.repository))]
        self.cases.add("run", fields_of(before, [verb, *paths], []), answer)

    def remove_file(self, path):
        os.unlink(self.repository.path(path))


def add_plumbing(cases):
    cases.group("A repository that is made: `init`, by the written rule; an old configuration is overwritten, and a ref that stands is HEAD's.")
    made = {b".git/HEAD": b"ref: refs/heads/master\n", b".git/config": b"[core]\n\trepositoryformatversion = 0\n"}
    ref = {b".git/refs/heads/master": b"1234567890" * 4 + b"\n"}
    for before, head in (({}, b"unborn"), ({b"a": b"hello\n", b".git/config": b"x"}, b"unborn"), (ref, b"1234567890" * 4)):
        cases.add("run", fields_of(before, ["init"], []), ["status", 0, b"done " + head + b"\n", *changed(before, before | made)])
        refused(cases, before | made, ["init"], "refused already-a-repository\n", 3, [])
    cases.group("Files added and removed: the objects, the index (with stat words of 0) and the files that `git add` and `git rm` leave.")
    steps = Steps(cases)
    repository = steps.repository
    repository.write("a", b"hello\n")
    repository.write("d/n", b"n\n")
    repository.write("h\u00f6he", b"")
    steps.step("add", "a")
    steps.step("add", "h\u00f6he", "d/n", "a")
    repository.git("update-index", "--chmod=+x", "a")
    repository.write("a", b"hello again\n")
    steps.step("add", "a")
    repository.git("commit", "-q", "-m", "m")
    steps.remove_file("a")
    repository.write("a/b", b"hello\n")
    steps.step("add", "a/b")
    repository.write("d/m", b"m\n")
    steps.step("add", "d/m")
    steps.remove_file("a/b")
    steps.step("add", "a/b", "h\u00f6he")
    steps.step("rm", "d/n", options=["-q", "-f"])
    blob = repository.put("blob", b"n\n")
    stages = "".join(f"100644 {blob} {stage}\td/m\n" for stage in (1, 2, 3))
    repository.git("update-index", "--force-remove", "d/m")
    repository.git("update-index", "--index-info", stdin=stages.encode())
    steps.step("add", "d/m")
    repository.git("update-index", "--force-remove", "d/m")
    repository.git("update-index", "--index-info", stdin=stages.encode())
    steps.step("rm", "d/m", "h\u00f6he", options=["-q", "-f"])
    cases.group("Words that name no file: each fault over all words before the next; nothing is changed. By the written rule.")
    inside = {b".git/HEAD": b"ref: refs/heads/master\n", b"d/n": b"hello\n"}
    for words, printed in [
        (["add", "nosuch", "../a"], "bad-path ../a"),
        (["rm", "d/n", "d/.Git/x"], "bad-path d/.Git/x"),
        (["add", "/a"], "bad-path /a"),
        (["add", "d//n"], "bad-path d//n"),
        (["add", "d/n", "d"], "not-tracked d"),
        (["rm", "d/n"], "not-tracked d/n"),
        (["cat", "ce01"], "bad-rev-form ce01"),
        (["cat", "HEAD"], "bad-rev-form HEAD"),
        (["cat", "1234567890" * 4], "bad-object " + "1234567890" * 4),
    ]:
        refused(cases, inside, words, f"refused {printed}\n", 3, [])
        refused(cases, inside | {b".git/config": b"[core\n"}, words, "refused bad-config 1\n", 3, [])
        refused(cases, {b"d/n": b"hello\n"}, words, "refused not-a-repository\n", 3, [])
    cases.group("The content of an object, as `git cat-file` prints it, for an id in either case.")
    for name in (blob, repository.line("rev-parse", "HEAD"), repository.line("rev-parse", "HEAD^{tree}")):
        kind = repository.line("cat-file", "-t", name)
        for word in (name, name.upper()):
            cases.add("run", fields_of(seen(repository), ["cat", word], []), ["status", 0, repository.git("cat-file", kind, name)])


def add(cases):
    add_words(cases)
    history = History()
    add_refusals(cases, history, history.files())
    add_names(cases)
    add_picks(cases)
    add_plumbing(cases)
