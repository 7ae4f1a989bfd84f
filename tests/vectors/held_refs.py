"""Cases of ref_store."""

from .names import EMPTY_TREE, HELLO, RefNames
from .refs import canonical, logged, packed, settled
from .stores import changed, given, refs_of

WHO = b"C O Mitter <c@x> 1112911993 -0700"
FOLDERS = ["refs", "refs/heads", "refs/tags", "refs/heads/side", "refs/remotes", "refs/none", "refs/heads/master"]
OTHERS = ["refs/heads/none", "refs/tags/none", "refs/heads", "refs/stash", "refs/heads/side"]


def prepared():
    """A repository in which some refs are packed, some loose, some both, and two lead on."""
    repository = settled()
    repository.git("pack-refs", "--all")
    repository.git("update-ref", "refs/heads/master", "master~1")
    repository.git("branch", "loose", "master~1")
    repository.git("update-ref", "refs/remotes/origin/main", "master")
    repository.git("symbolic-ref", "refs/remotes/origin/HEAD", "refs/remotes/origin/main")
    repository.git("symbolic-ref", "refs/heads/sym", "refs/heads/side/é")
    return repository


def names_of(repository):
    return repository.line("for-each-ref", "--format=%(refname)").split("\n")


def value_of(repository, name):
    status, printed, _ = repository.try_git("rev-parse", "--quiet", "--verify", name)
    return printed.decode().strip() if status == 0 else "none"


def listed(repository, folder):
    rows = repository.line("for-each-ref", "--format=%(refname) %(objectname)", folder + "/").split("\n")
    fields = [field for row in rows if row for field in (row.split()[0].encode(), row.split()[1])]
    return ["refs", len(fields) // 2, *fields]


def add_reading(cases):
    cases.group(
        "Refs of a repository that git made, packed, loose, both, and leading on: HEAD as `git symbolic-ref` and `git rev-parse` tell it, values",
        "as `git rev-parse --verify`, lists as `git for-each-ref`; logs as git wrote them, by the rule of their lines.",
    )
    repository = prepared()
    files = refs_of(repository)
    held = given(files)
    cases.add("head", held, ["detached", repository.line("rev-parse", "HEAD")])
    for name in ["HEAD", *names_of(repository), *OTHERS]:
        cases.add("resolve", held + [name.encode()], [value_of(repository, name)])
    for folder in FOLDERS:
        cases.add("list", held + [folder.encode()], listed(repository, folder))
    for name in ("HEAD", "refs/heads/master", "refs/heads/side/é", "refs/heads/loose", "refs/tags/v0", "refs/heads/none"):
        text = files.get(b".git/logs/" + name.encode(), b"")
        lines = logged(text)
        cases.add("log", held + [name.encode()], ["bad-log", lines[1]] if lines[0] == "bad-line" else lines)
    cases.add("packed-refs", held, packed(files[b".git/packed-refs"], RefNames()))
    cases.add("packed-refs", given({}), ["refs", 0])
    cases.group("A ref that leads to none, and a file whose name is none of a ref, are left out of the lists of `git for-each-ref`.")
    repository.git("symbolic-ref", "refs/heads/dangling", "refs/heads/none")
    repository.write(".git/refs/heads/master.lock", b"")
    for folder in ("refs", "refs/heads"):
        cases.add("list", given(refs_of(repository)) + [folder.encode()], listed(repository, folder))
    cases.add("resolve", given(refs_of(repository)) + [b"refs/heads/dangling"], [value_of(repository, "refs/heads/dangling")])
    cases.group("HEAD on a branch, and on one that has no value yet: as `git symbolic-ref` and `git rev-parse` tell it.")
    for name in ("refs/heads/side/é", "refs/heads/none"):
        repository.git("symbolic-ref", "HEAD", name)
        held = given(refs_of(repository))
        cases.add("head", held, ["branch", repository.line("symbolic-ref", "HEAD").encode()])
        cases.add("resolve", held + [b"HEAD"], [value_of(repository, "HEAD")])


def add_bad(cases):
    cases.group(
        "Files that are none of a ref, and which of them is told; a ref leads on at most five times. Of packed refs and of a log the first bad",
        "line. A bad file of packed refs does not hide a loose ref. By the written rule.",
    )
    a, b = HELLO.encode(), EMPTY_TREE.encode()
    files = {
        b".git/packed-refs": a + b" HEAD\nx\n",
        b".git/refs/heads/a": b"ref: refs/heads/b\n",
        b".git/refs/heads/b": b"4b825dc6\n",
        b".git/refs/heads/c": b"ref: refs/heads/d \t\n",
        b".git/refs/heads/d": b"ref: refs/heads/c",
        b".git/refs/heads/e": a + b"\n",
        b".git/logs/HEAD": b"x\n",
    }
    for name, answer in [
        (b"refs/heads/b", ["bad-ref", b"refs/heads/b"]),
        (b"refs/heads/a", ["bad-ref", b"refs/heads/b"]),
        (b"refs/heads/c", ["bad-ref", b"refs/heads/d"]),
        (b"refs/heads/d", ["bad-ref", b"refs/heads/c"]),
        (b"refs/heads/e", [HELLO]),
        (b"refs/heads/none", ["bad-packed", 2]),
        (b"refs/tags/none", ["bad-packed", 2]),
        (b"HEAD", ["bad-head"]),
    ]:
        cases.add("resolve", given(files) + [name], answer)
    cases.add("head", given(files), ["bad-head"])
    cases.add("packed-refs", given(files), ["bad-packed", 2])
    cases.add("list", given(files) + [b"refs"], ["bad-packed", 2])
    cases.add("log", given(files) + [b"HEAD"], ["bad-log", 1])
    cases.add("delete", given(files) + [b"refs/heads/e"], ["bad-packed", 2])
    chain = {b".git/refs/heads/%d" % n: b"ref: refs/heads/%d\n" % (n + 1) for n in range(1, 7)} | {b".git/refs/heads/7": b + b"\n"}
    for begin in range(1, 8):
        files = {path: text for path, text in chain.items() if int(path[-1:]) >= begin}
        leads = 7 - begin
        answer = [EMPTY_TREE] if leads <= 5 else ["bad-ref", b"refs/heads/6"]
        cases.add("resolve", given(files) + [b"refs/heads/%d" % begin], answer)
    bad = {b".git/refs/tags/bad": b"x\n", b".git/refs/tags/bad.lock": b"x", b".git/refs/tags/good": a + b"\n"}
    cases.add("list", given(bad) + [b"refs/tags"], ["bad-ref", b"refs/tags/bad"])


def add_line(cases, verb, before, fields, answer, after):
    cases.add(verb, given(before) + fields, answer + changed(before, after))


def near(files, *names):
    """The packed refs, and the files of these names and of their logs."""
    kept = [b".git/packed-refs"]
    for name in names:
        kept += [b".git/" + name.encode(), b".git/logs/" + name.encode()]
    return {path: files[path] for path in kept if path in files}


def add_updates(cases):
    cases.group(
        "Refs that are given another value, where they have the expected one, or none: the files that `git update-ref` leaves, with and without",
        "a line of a log; where git refuses since the value is another, that of `git rev-parse` is told, and nothing is changed.",
    )
    repository = prepared()
    repository.git("symbolic-ref", "HEAD", "refs/heads/elsewhere")
    values = [repository.line("rev-parse", name) for name in ("master", "master~1", "v1")]
    names = ["refs/heads/master", "refs/heads/side/é", "refs/heads/loose", "refs/tags/v0", "refs/tags/new", "refs/heads/new", "refs/other/a"]
    for name in names:
        for new in values[:2]:
            for expected in [values[2], "none", value_of(repository, name)]:
                # git writes no file then, and gitseq does.
                if new == value_of(repository, name):
                    continue
                before = near(refs_of(repository), name)
                old = expected.replace("none", "0" * 40)
                status, _, _ = repository.try_git("update-ref", "-m", "set", name, new, old)
                after = near(refs_of(repository), name)
                if status:
                    assert after == before
                    cases.add("update", given(before) + [name.encode(), expected, new], ["moved", value_of(repository, name)])
                    continue
                plain = {path: text for path, text in after.items() if not path.startswith(b".git/logs/")}
                plain |= {path: text for path, text in before.items() if path.startswith(b".git/logs/")}
                add_line(cases, "update", before, [name.encode(), expected, new], ["ok"], plain)
                line = [expected, new, WHO, b"set"]
                if expected != new:
                    add_line(cases, "update-with-log", before, [name.encode(), expected, new, *line], ["ok"], after)


def add_deletions(cases):
    cases.group(
        "Refs that are deleted: what `git update-ref -d` leaves, but that the packed refs that stay are the lines of these alone, and that the",
        "log stays; and whether git knew the ref.",
    )
    for name in ["refs/heads/master", "refs/heads/side/é", "refs/heads/loose", "refs/tags/v1", "refs/remotes/origin/main", "refs/tags/none"]:
        repository = prepared()
        before = near(refs_of(repository), name)
        was_there = value_of(repository, name) != "none"
        repository.try_git("update-ref", "--no-deref", "-d", name)
        assert value_of(repository, name) == "none"
        after = near(refs_of(repository), name)
        after |= {path: text for path, text in before.items() if path.startswith(b".git/logs/")}
        if after[b".git/packed-refs"] != before[b".git/packed-refs"]:
            rows = [row.split() for row in after[b".git/packed-refs"].split(b"\n") if row and row[:1] not in b"#^"]
            after[b".git/packed-refs"] = canonical(["refs", len(rows), *(field for row in rows for field in (row[1], row[0].decode()))])
        add_line(cases, "delete", before, [name.encode()], [was_there], after)


def add_moves(cases):
    cases.group(
        "HEAD that is moved, on its branch or detached, by `git commit`: the files of HEAD, the branch and their logs as git leaves them, where",
        "these had lines before and where not; and HEAD that is set by `git symbolic-ref` and `git checkout --detach`.",
    )
    message = b"commit: next"
    for branch in ("master", "side/é", "fresh", None):
        repository = prepared()
        if branch == "fresh":
            repository.git("branch", "fresh", "master")
        if branch is None:
            repository.git("checkout", "-q", "--detach", "master")
        else:
            repository.git("symbolic-ref", "HEAD", "refs/heads/" + branch)
        old = repository.line("rev-parse", "HEAD")
        names = ["HEAD", *(["refs/heads/" + branch] if branch else [])]
        before = near(refs_of(repository), *names)
        repository.git("commit", "-q", "--allow-empty", "-m", "next")
        new = repository.line("rev-parse", "HEAD")
        after = near(refs_of(repository), *names)
        line = [old, new, WHO, message]
        head = ["branch", b"refs/heads/" + branch.encode()] if branch else ["detached", old]
        add_line(cases, "move-head", before, [*head, new, *line], ["ok"], after)
        if branch:
            add_line(cases, "move-branch", before, [head[1], new, *line], ["ok"], after)
        without = {path: text for path, text in before.items() if not path.startswith(b".git/logs/")}
        logs = {path: text[len(before.get(path, b"")) :] for path, text in after.items() if path.startswith(b".git/logs/")}
        expected = {path: text for path, text in after.items() if not path.startswith(b".git/logs/")}
        expected |= {path: text for path, text in logs.items() if text}
        add_line(cases, "move-head", without, [*head, new, *line], ["ok"], expected)
    for name in ("refs/heads/loose", "refs/heads/none", "refs/heads/a/b"):
        repository = prepared()
        commit = repository.line("rev-parse", "master")
        before = near(refs_of(repository), "HEAD")
        repository.git("symbolic-ref", "HEAD", name)
        after = near(refs_of(repository), "HEAD")
        log = before[b".git/logs/HEAD"] + b"%s %s %s\tcheckout: x\n" % (commit.encode(), commit.encode(), WHO)
        after[b".git/logs/HEAD"] = log
        add_line(cases, "set-head", before, ["branch", name.encode(), commit, commit, WHO, b"checkout: x"], ["ok"], after)
        repository.git("symbolic-ref", "HEAD", "refs/heads/loose")
        old = repository.line("rev-parse", "HEAD")
        before = near(refs_of(repository), "HEAD")
        repository.git("checkout", "-q", "--detach", "v0^{commit}")
        after = near(refs_of(repository), "HEAD")
        new = repository.line("rev-parse", "HEAD")
        text = after[b".git/logs/HEAD"][len(before[b".git/logs/HEAD"]) :]
        message = text.rstrip(b"\n").partition(b"\t")[2]
        add_line(cases, "set-head", before, ["detached", new, old, new, WHO, message], ["ok"], after)


def add_ways(cases):
    cases.group(
        "A file in the place of a folder of the ref's file or of its log, or a folder in theirs, is in the way. A call that looks first changes",
        "nothing; `move-branch` and `move-head` leave what they wrote before, which the callers draft. By this rule.",
    )
    text = HELLO.encode() + b"\n"
    line = ["none", HELLO, WHO, b"m"]
    for path in (b".git/refs/heads/a", b".git/refs/heads/a/b/c", b".git/refs", b".git/logs/refs/heads/a", b".git/logs/refs/heads/a/b/c"):
        before = {path: text}
        name = b"refs/heads/a/b"
        if path.startswith(b".git/logs"):
            written = {b".git/" + name: text}
            move = ["way", b".git/logs/" + name]
        else:
            written = {}
            move = ["way", b".git/" + name]
        add_line(cases, "move-branch", before, [name, HELLO, *line], move, before | written)
        add_line(cases, "update-with-log", before, [name, "none", HELLO, *line], ["blocked", name], before)
    for path in (b".git/HEAD/x", b".git/logs", b".git/logs/HEAD/x"):
        cases.add("set-head", given({path: text}) + ["branch", b"refs/heads/a", *line], ["blocked", b"HEAD"])
        cases.add("set-head", given({path: text}) + ["detached", HELLO, *line], ["blocked", b"HEAD"])
    packed_alone = given({b".git/packed-refs": HELLO.encode() + b" refs/heads/a\n", b"x": b""})
    cases.add("delete", packed_alone + [b"refs/heads/a"], [True, "put", b".git/packed-refs", b""])


def add(cases):
    add_reading(cases)
    add_bad(cases)
    add_updates(cases)
    add_deletions(cases)
    add_moves(cases)
    add_ways(cases)
