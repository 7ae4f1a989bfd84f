"""Cases of ref_text."""

from .cases import Repository
from .idents import parsed
from .names import EMPTY_TREE, HELLO, RefNames

ZEROS = b"0" * 40


def settled():
    """A repository with branches, tags and logs."""
    repository = Repository()
    env = {"GIT_COMMITTER_NAME": "C O Mitter", "GIT_COMMITTER_EMAIL": "c@x", "GIT_COMMITTER_DATE": "@1112911993 -0700"}
    repository.env.update(env)
    for number in range(3):
        repository.git("commit", "-q", "--allow-empty", "-m", f"number {number}\twith tab")
    repository.git("checkout", "-q", "-b", "side/é")
    repository.git("commit", "-q", "--allow-empty", "--amend", "-m", "amended")
    repository.git("tag", "v0")
    repository.git("tag", "-m", "note", "v1")
    repository.git("tag", "-m", "note", "v2", "v1")
    repository.git("reset", "-q", "--hard", "HEAD~1")
    repository.git("checkout", "-q", "--detach", "master")
    return repository


def add_heads(cases, repository):
    cases.group("HEAD: the file as `git symbolic-ref` and `git checkout --detach` left it. Digits may stand in either case.")
    commit = repository.line("rev-parse", "master")
    at_commit = repository.read(".git/HEAD")
    cases.add("head", [at_commit], ["detached", commit])
    cases.add("head", [at_commit.upper()], ["detached", commit])
    cases.add("head-at", [commit], [at_commit])
    cases.add("head-at", [commit.upper()], [at_commit])
    for name in ("refs/heads/side", "refs/heads/a/b", "refs/heads/é", "refs/tags/v0", "refs/x", "refs/heads/-a", "HEAD"):
        if name == "HEAD":
            text = b"ref: HEAD\n"
        else:
            repository.git("symbolic-ref", "HEAD", name)
            text = repository.read(".git/HEAD")
        cases.add("head", [text], ["branch", name.encode()])
        cases.add("head-on", [name.encode()], [text])
    cases.group("Other texts are no HEAD: `ref: <name>` or forty hex digits, and one LF, is the whole rule.")
    line = b"efab87d410878beed505e84a9a60586ba94179e6"
    texts = [b"", b"\n", b"ref: refs/heads/side", b"ref: refs/heads/side \n", b"ref: refs/heads/side\r\n", b"ref: refs/heads/side\n\n"]
    texts += [b"ref:refs/heads/side\n", b"ref: refs/heads/a.lock\n", b"ref: side\n", line, line[:39] + b"\n", b"g" + line[1:] + b"\n"]
    texts += [b"ref: \n", b"ref: refs/\n", b" ref: refs/heads/a\n", b"Ref: refs/heads/a\n"]
    texts += [b"ref:  refs/heads/a\n", line + b"0\n", line + b" \n"]
    texts += [b"\n" + line + b"\n", line + b"\n\n", line + b"\r\n"]
    texts += [b"ref: refs/heads/a\nref: refs/heads/b\n", b"ref: refs/heads/a\0\n", b"ref: \xff\n"]
    for text in texts:
        cases.add("head", [text], ["bad"])


def add_loose(cases, repository):
    cases.group(
        "Loose refs: the file as git left it, and with blanks behind its line and no LF, which `git rev-parse` reads too, and so do these; by the",
        "written rule no other text is one.",
    )
    commit = repository.line("rev-parse", "master")
    for line, answer in ((commit.encode(), ["detached", commit]), (b"ref: refs/heads/master", ["branch", b"refs/heads/master"])):
        for end in (b"\n", b"", b" \n", b"\t \n", b" ", b"\t"):
            repository.write(".git/refs/heads/loose", line + end)
            assert repository.line("rev-parse", "--verify", "refs/heads/loose") == commit
            cases.add("loose", [line + end], answer)
        for text in (line[:-1] + b"\n" if line[:3] != b"ref" else b"ref: x\n", b" " + line, line + b"\n\n", line + b"\nx", line + b" x\n"):
            cases.add("loose", [text], ["bad"])
    for text in (b"", b"\n", b"ref: \n", b"ref: refs/heads/a..b\n", b"ref: refs/heads/a.lock", b"g" * 40):
        cases.add("loose", [text], ["bad"])


def is_digits(text):
    return len(text) == 40 and all(digit in b"0123456789abcdefABCDEF" for digit in text)


def packed(text, names):
    """The refs of a file of packed refs, or its first bad line."""
    refs = []
    may_peel = False
    lines = text.split(b"\n")
    for number, line in enumerate(lines[:-1], 1):
        if line.startswith(b"#"):
            may_peel = False
        elif line.startswith(b"^") and may_peel and is_digits(line[1:]):
            may_peel = False
        elif is_digits(line[:40]) and line[40:41] == b" " and names.is_name(line[41:]):
            refs += [line[41:], line[:40].decode().lower()]
            may_peel = True
        else:
            return ["bad-line", number]
    if lines[-1]:
        return ["bad-line", len(lines)]
    return ["refs", len(refs) // 2, *refs]


def canonical(answer):
    refs = answer[2:]
    return b"".join(b"%s %s\n" % (name.encode(), ref) for ref, name in zip(refs[::2], refs[1::2]))


def add_packed(cases, repository):
    cases.group(
        "Packed refs: the file that `git pack-refs --all` wrote, the refs as `git for-each-ref` lists them, and the lines of these alone.",
    )
    repository.git("pack-refs", "--all")
    text = repository.read(".git/packed-refs")
    rows = repository.git("for-each-ref", "--format=%(refname) %(objectname)").split(b"\n")[:-1]
    refs = [field for row in rows for field in (row.split()[0], row.split()[1].decode())]
    names = RefNames()
    answer = ["refs", len(rows), *refs]
    assert packed(text, names) == answer
    cases.add("packed", [text], answer)
    cases.add("packed-again", [text], [canonical(answer)])
    cases.add("packed", [canonical(answer)], answer)
    cases.group(
        "Other files of packed refs, by the written rule: lines of 40 digits, a space and the name of a ref, `^` and digits right behind such",
        "a line, and comments anywhere; a name in two lines stands twice; else the first bad line, or the last where the file ends too early.",
    )
    a, b = HELLO.encode(), EMPTY_TREE.encode()
    line, other, peeled = a + b" refs/heads/a\n", b + b" refs/tags/v1\n", b"^" + a + b"\n"
    texts = [b"", b"#\n", b"# x\n# y\n", line]
    texts += [line + line, line.upper().replace(b"REFS/HEADS/A", b"refs/heads/a") + peeled.upper(), line + b"# c\n" + other]
    texts += [peeled, other + peeled + peeled, other + b"# a comment\n" + peeled, b"\n", line + b"\n" + other, b"# a comment", line[:-1]]
    texts += [a + b" refs/heads/a..b\n", line + a + b" side\n", line[:-1] + b"\r\n", b"# a comment\n" + a + b"refs/heads/a\n"]
    texts += [b"g" + line[1:], line + a[:39] + b" refs/heads/b\n", line + a + b"  refs/heads/b\n"]
    texts += [a + b" HEAD\n", a + b" refs/heads/a \n", a + b" \n"]
    texts += [line + other + peeled + line, line + peeled[:-1], line + b"^" + a[:39] + b"\n", line + b"^" + a + b" \n"]
    texts += [b" " + line, line + b"#", b"x\n"]
    texts += [a + b"\trefs/heads/a\n", other + peeled + b"# x\n" + line + peeled, line + b"\n"]
    texts += [b"# x\n\n", a + b" refs/heads/\xc3\xa9\n", a + b" refs/\xff\n"]
    texts += [(line + other)[:at] for at in range(0, len(line + other), 7)]
    for text in texts:
        answer = packed(text, names)
        cases.add("packed", [text], answer)
        if answer[0] == "refs":
            cases.add("packed-again", [text], [canonical(answer)])


def logged(text):
    """The lines of a log, or its first bad line."""
    fields = []
    lines = text.split(b"\n")
    for number, line in enumerate(lines[:-1], 1):
        front, tab, message = line.partition(b"\t")
        old, new, ident = front[:40], front[41:81], front[82:]
        are_apart = front[40:41] == front[81:82] == b" "
        if not (tab and are_apart and is_digits(old) and is_digits(new) and isinstance(parsed(ident), list)):
            return ["bad-line", number]
        fields += ["none" if old == ZEROS else old.decode().lower(), new.decode().lower(), ident, message]
    if lines[-1]:
        return ["bad-line", len(lines)]
    return ["lines", len(lines) - 1, *fields]


def add_logs(cases, repository):
    cases.group(
        "Logs: the files that git wrote at commits, an amend, a reset, checkouts and `git update-ref -m`; the ids and the message as",
        "`git reflog` prints them, where it prints them, and the ident of the one committer.",
    )
    who = b"C O Mitter <c@x> 1112911993 -0700"
    for name, ref in ((".git/logs/HEAD", "HEAD"), (".git/logs/refs/heads/master", "master"), (".git/logs/refs/heads/side/é", "side/é")):
        text = repository.read(name)
        answer = logged(text)
        rows = repository.git("reflog", "show", "--format=%H%x00%gs", ref).split(b"\n")[:-1]
        printed = [tuple(row.split(b"\0")) for row in reversed(rows)]
        assert [(new.encode(), message) for new, message in zip(answer[3::4], answer[5::4])] == printed
        assert set(answer[4::4]) == {who}
        cases.add("log", [text], answer)
    commit = repository.line("rev-parse", "master")
    messages = [b"commit (initial): first", b"x", b"rebase (finish): returning to refs/heads/a", b"a\xc3\xa9", b"\xff", b"# x"]
    for number, message in enumerate(messages):
        ref = f"refs/heads/new-{number}"
        repository.git("update-ref", "--create-reflog", "-m", message, ref, commit)
        text = repository.read(".git/logs/" + ref)
        cases.add("log-first-line", [commit, who, message], [text])
        cases.add("log", [text], ["lines", 1, "none", commit, who, message])
    cases.group(
        "Other logs, by the written rule: `<old> SP <new> SP <ident> TAB <message> LF`, with forty zeros for no old value; a line always has",
        "its TAB; else the first bad line, or the last where the log ends too early.",
    )
    a, b, ident = HELLO.encode(), EMPTY_TREE.encode(), b"a <b> 0 +0000"
    first = ZEROS + b" " + a + b" " + ident + b"\tm\n"
    second = a.upper() + b" " + b + b" " + ident + b"\t\n"
    texts = [b"", first, second, first + second, first + second + first, b"\n", b"0000", first + b"\n", first + a + b" z", first[:-1]]
    texts += [first.replace(b"\t", b"\n"), first.replace(b"\t", b" "), first.replace(b"0 +", b"00 +")]
    texts += [first.replace(b"<b>", b"b"), first.replace(b"m", b"m\tn\t")]
    texts += [first.replace(b"m", b"\0\xff\r"), first + second[1:], first + b" " + second]
    texts += [ZEROS + first, first.replace(b" ", b"  ", 1), b"\n" + first]
    texts += [a + b" " + ZEROS + b" " + ident + b"\tx\n", first + second.replace(b"+0000", b"+000")]
    texts += [first.replace(b"a <b>", b" <>"), first + b"\t\n"]
    texts += [(first + second)[:at] for at in range(0, len(first + second), 9)]
    for text in texts:
        cases.add("log", [text], logged(text))
    for ident_text in (b"a <b> 0 +0000", b" <> -1 -0330"):
        for message in (b"", b"m", b"\t", b"a\xffb"):
            cases.add("log-first-line", [HELLO, ident_text, message], [ZEROS + b" " + a + b" " + ident_text + b"\t" + message + b"\n"])
    cases.add("log-first-line", [HELLO.upper(), ident, b"m"], [first])


def add(cases):
    repository = settled()
    add_logs(cases, repository)
    add_packed(cases, repository)
    add_heads(cases, repository)
    add_loose(cases, settled())
