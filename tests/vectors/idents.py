"""Cases of ident_text."""

from .cases import Repository, chooser

DIGITS = b"0123456789"


def parsed(text):
    """Name, email, seconds and zone; or the first byte with which no ident goes on."""
    at = 0
    while at < len(text) and text[at] not in b"<>\n\0":
        at += 1
    if at == len(text) or text[at] != 0x3C or not text[:at].endswith(b" "):
        return at
    name = text[: at - 1]
    at = begins = at + 1
    while at < len(text) and text[at] not in b"<>\n\0":
        at += 1
    if at == len(text) or text[at] != 0x3E:
        return at
    email = text[begins:at]
    at += 1
    if text[at : at + 1] != b" ":
        return at
    return tail(text, at + 1, name, email)


def is_front_of_seconds(digits):
    if digits in (b"", b"-"):
        return True
    number = digits.removeprefix(b"-")
    if not number.isdigit() or (number[:1] == b"0" and digits != b"0"):
        return False
    return -(2**63) <= int(digits) < 2**63


def tail(text, at, name, email):
    begins = at
    while at < len(text) and text[at] != 0x20 and is_front_of_seconds(text[begins : at + 1]):
        at += 1
    seconds = text[begins:at]
    if at == len(text) or text[at] != 0x20 or seconds in (b"", b"-"):
        return at
    at += 1
    zone = at
    for allowed in (b"+-", *[DIGITS] * 4):
        if at == len(text) or text[at] not in allowed:
            return at
        at += 1
    if at != len(text):
        return at
    return [name, email, int(seconds), text[zone:].decode()]


def add_git_idents(cases):
    cases.group(
        "Idents, their parts, and what is written of these: the author of a commit that `git commit-tree` made, and its parts as",
        "`git show --format=%an%x00%ae%x00%ad --date=raw` prints them.",
    )
    repository = Repository()
    tree = repository.put("tree", b"")
    people = [("Bob O'Neil", "bob@'x"), ("Sam Ö", "sam@x"), ("a b  c", "a b"), ("A", "")]
    people += [("é", "é"), ('"Q"', "q@q"), ("a,b", "x"), ("a.b", ".x")]
    people += [("\\n", "a\\b"), ("1", "2"), ("+0000", "-"), ("a>b", "c<d"), ("(x) y", "a;b")]
    dates = ["1700000000 -1200", "0 +0000", "1 +1400", "1112911993 -0700", "4294967296 +0545", "99999999999 -0001"]
    for number, (name, email) in enumerate(people * 2):
        env = {"GIT_AUTHOR_NAME": name, "GIT_AUTHOR_EMAIL": email, "GIT_AUTHOR_DATE": "@" + dates[number % len(dates)]}
        made = repository.line("commit-tree", tree, stdin=b"m\n", env=env)
        line = repository.git("cat-file", "commit", made).split(b"\n")[1].removeprefix(b"author ")
        printed = repository.git("show", "-s", "--format=%an%x00%ae%x00%ad", "--date=raw", made).rstrip(b"\n").split(b"\0")
        seconds, zone = printed[2].decode().split()
        assert parsed(line) == [printed[0], printed[1], int(seconds), zone], line
        cases.add("ident", [line], [printed[0], printed[1], int(seconds), zone, line])


def add_other_idents(cases):
    cases.group(
        "Further texts of idents: the seconds are 64 bits with a sign, without a plus sign and without a 0 before other digits, name and email",
        "hold no `<`, `>`, LF and NUL, and the zone is a sign and four digits. A text that is none is bad at the first byte with which none",
        "goes on. By this rule.",
    )
    texts = [b" <> 0 +0000", b" <> 9223372036854775807 +0000", b" <> -9223372036854775808 +0000", b"", b"a<b> 1 +0000", b"a <b>c> 1 +0000"]
    texts += [b"a <b> -0 +0000", b"a <b> 01 +0000", b"a <b> +1 +0000"]
    texts += [b"a <b> 9223372036854775808 +0000", b"a <b> -9223372036854775809 +0000"]
    texts += [b"a <b> 1 +000", b"a <b> 1 +0000\n", b"<> 0 +0000", b"  <> 0 +9999", b"a  <b> -1 -0000", b"a <b> 10 +0000", b"a <b>  1 +0000"]
    texts += [b"a <b>1 +0000", b"a <b> - +0000", b"a <b> --1 +0000", b"a <b> 1  +0000"]
    texts += [b"a <b> 1 0000", b"a <b> 1 +00a0", b"a <b> 1 +0000 "]
    texts += [b"a <b", b"a <b>", b"a <b> ", b"a <b> 1", b"a <b> 1 "]
    texts += [b"a <b> 1 +", b"a \n<b> 1 +0000", b"a\0 <b> 1 +0000", b"a <\n> 1 +0000"]
    texts += [b"a> <b> 1 +0000", b"a <b> 00 +0000", b"a <b> 1a +0000"]
    texts += [b"a <b> 92233720368547758070 +0000", b"\xff <\xff> 7 -0330", b"a\t<b> 1 +0000"]
    good = b"Al <a@b> 1700000000 +0130"
    texts += [good[:at] for at in range(len(good))]
    texts += [good[:at] + b"\0" + good[at + 1 :] for at in range(len(good))]
    pick = chooser("idents")
    for _ in range(60):
        at = pick.randrange(len(good))
        texts.append(good[:at] + bytes([pick.choice(b"<> \n\0-+019a")]) + good[at + pick.randint(0, 1) :])
    for text in texts:
        answer = parsed(text)
        cases.add("ident", [text], ["bad", answer] if isinstance(answer, int) else answer + [text])


def script_of(name, email, date):
    """The author's script that git leaves where a rebase stops."""
    repository = Repository()
    trees = [repository.tree({b"f": ("100644", repository.put("blob", b"%d\n" % n))}) for n in range(3)]
    base = repository.commit(trees[0])
    repository.git("update-ref", "refs/heads/onto", repository.commit(trees[1], [base]))
    env = {"GIT_AUTHOR_NAME": name, "GIT_AUTHOR_EMAIL": email, "GIT_AUTHOR_DATE": "@" + date}
    made = repository.line("commit-tree", trees[2], "-p", base, stdin=b"m\n", env=env)
    repository.git("update-ref", "refs/heads/topic", made)
    repository.git("checkout", "-q", "topic")
    repository.try_git("rebase", "-q", "onto")
    author = repository.git("cat-file", "commit", made).split(b"\n")[2].removeprefix(b"author ")
    return author, repository.read(".git/rebase-merge/author-script")


def add_scripts(cases):
    cases.group(
        "The author's script, both ways: the file .git/rebase-merge/author-script where `git rebase` stops at a conflict, and the author of the",
        "commit.",
    )
    people = [("Bob O'Neil", "bob@'x", "1700000000 -1200"), ("Sam Ö", "sam@x", "0 +0000"), ("A!b'c", "a!@x", "7 +0000")]
    people += [("a b  c", "a b", "1 +1400"), ("x''y", "'", "2 -0330")]
    people += [('a"b', "$x", "3 +0000"), ("x\\y", "`x`", "4 +0000"), ("A", "", "5 +0545"), ("a'b'c", "d''e", "4294967296 +0000")]
    scripts = []
    for person in people:
        author, script = script_of(*person)
        scripts.append(script)
        cases.add("author-script-of", [author], [script])
        cases.add("author-script", [script], parsed(author))
    cases.group("Texts that are no author's script, and the first byte with which none goes on. By that rule.")
    script = scripts[0]
    bad = [(b"GIT_AUTHOR_NAME=a\n", 16), (b"GIT_AUTHOR_NAME='a'b'\n", 19)]
    bad += [(b"GIT_AUTHOR_NAME='a\nb'\n", 18), (b"GIT_AUTHOR_NAME='a'\\''", 22)]
    bad += [(script[:at], at) for at in range(0, len(script), 3)]
    bad += [(script + b"\n", len(script)), (script + script, len(script))]
    bad += [(b" " + script, 0), (script.replace(b"'@", b"'"), script.index(b"'@") + 1)]
    bad += [(script.replace(b"-1200", b"1200"), script.index(b"-1200")), (script.replace(b"1700", b"0700"), script.index(b"1700") + 1)]
    bad += [(script.replace(b"EMAIL", b"DATE"), script.index(b"EMAIL")), (script.replace(b"NAME='B", b"NAME='<B"), script.index(b"Bob"))]
    for text, at in bad:
        cases.add("author-script", [text], ["bad", at])


def add(cases):
    add_git_idents(cases)
    add_other_idents(cases)
    add_scripts(cases)
