"""Cases of object_text."""

import hashlib
import zlib

from .cases import Repository, chooser, front
from .names import DIGITS, EMPTY_TREE, HELLO

KINDS = ["blob", "tree", "commit", "tag"]
MODES = ["100644", "100755", "120000", "160000", "40000"]
# What a mode is of, as `git mktree` wants it.
TYPES = {"160000": "commit", "40000": "tree"}


def put(repository, kind, content):
    """The id and the text of an object that git puts."""
    name = repository.line("hash-object", "-w", "--literally", "-t", kind, "--stdin", stdin=content)
    return name, zlib.decompress(repository.read(f".git/objects/{name[:2]}/{name[2:]}"))


def bad_object(text):
    """The first byte with which no object's text goes on."""
    at, kind = front(text, [kind.encode() + b" " for kind in KINDS])
    if kind is None:
        return at
    begins = at
    while at < len(text) and text[at] in DIGITS and (at == begins or text[begins] != 0x30):
        at += 1
    if at == begins or at == len(text) or text[at] != 0:
        return at
    ends = at + 1 + int(text[begins:at])
    return min(ends, len(text))


def add_objects(cases):
    cases.group(
        "Objects: the text that stands in the file that `git hash-object -w --literally` puts, inflated, and the id that it prints; the",
        "kind and the content of that text. A text that is none is bad at the first byte with which none goes on, by that rule.",
    )
    repository = Repository()
    contents = [b"", b"hello\n", b"a", bytes(range(256)), b"\0", b"x" * 999, b"blob 0\0", b"object " + HELLO.encode() + b"\n"]
    texts = []
    for kind in KINDS:
        for content in contents:
            name, text = put(repository, kind, content)
            assert name == hashlib.sha1(text).hexdigest()
            cases.add("object-text", [kind, content], [text, name])
            cases.add("object", [text], [kind, content])
            texts.append(text)
    bad = [b"blob 6\0hello", b"blob 4\0hello", b"blob 05\0hello", b"blob \0", b"tred 0\0", b"ta", b"blob 99999999999999999999999\0x"]
    bad += [b"", b"blob", b"blob ", b"blob 1", b"blob 0", b"blob 0\0x"]
    bad += [b"blob 00\0", b"blob -1\0", b"blob 1 \0x", b"Blob 0\0", b"tag 3\0ab"]
    bad += [b"commit 1\0", b"trees 0\0", b"blobx", b"tree  0\0", b"tag\0"]
    bad += [b"tagx 0\0", b"blob 18446744073709551616\0", b"blob 0\n", b" blob 0\0"]
    bad += [texts[1][:at] for at in range(len(texts[1]))]
    for text in bad:
        cases.add("object", [text], ["bad", bad_object(text)])
    cases.group("What stands before the content, for a length: the front of the file of git's object, and of the same rule beyond.")
    for kind in KINDS:
        for length in (0, 1, 10, 999, 67108864, 2**63 - 1):
            cases.add("object-header", [kind, length], [b"%s %d\0" % (kind.encode(), length)])


def made_tree(repository, rows):
    """The content of the tree that `git mktree` makes of entries, and the entries as `git ls-tree` lists them."""
    lines = [f"{mode} {TYPES.get(mode, 'blob')} {name}\t".encode() + path + b"\0" for path, mode, name in rows]
    made = repository.line("mktree", "-z", "--missing", stdin=b"".join(lines))
    content = repository.git("cat-file", "tree", made)
    listed = repository.git("ls-tree", "-z", made).split(b"\0")[:-1]
    fields = []
    for row in listed:
        about, path = row.split(b"\t", 1)
        mode, _, name = about.decode().split()
        fields += [mode.lstrip("0"), path, name]
    return content, ["entries", len(listed), *fields]


def key(mode, name):
    return name + b"/" * (mode == b"40000")


def bad_tree(text):
    """The first byte with which no tree goes on, or None where the text is one."""
    at = 0
    last = b""
    names = set()
    modes = [mode.encode() + b" " for mode in MODES]
    while at < len(text):
        length, mode = front(text[at:], modes)
        at += length
        if mode is None:
            return at
        begins = at
        while at < len(text) and text[at] not in b"\0/" and text[begins : at + 1] >= last[: at + 1 - begins]:
            at += 1
        if at == len(text) or text[at] != 0:
            return at
        name = text[begins:at]
        is_part = name not in (b"", b".", b"..") and name.lower() != b".git"
        if not is_part or name in names or key(mode[:-1], name) <= last:
            return at
        last = key(mode[:-1], name)
        names.add(name)
        at += 21
        if at > len(text):
            return len(text)
    return None


def add_trees(cases):
    cases.group(
        "Trees: the content that `git mktree` makes, the entries as `git ls-tree` lists them, and that content written again. A text that is",
        "none is bad at the first byte with which no tree goes on: by that rule, with the modes that Git writes, names that are distinct",
        "and valid parts of paths, and a folder's name compared as if it ended in `/`.",
    )
    repository = Repository()
    pick = chooser("trees")
    names = [b"a", b"a.b", b"a-", b"a0", b"b", b"l", b"s", b"\xc3\xa9", b"\xff"]
    names += [b"a b", b"ab", b".gitx", b"...", b"A", b"a\n", b"-", b"\x01"]
    ids = [HELLO, "00" * 20, "ff" * 20, "0a" * 20]
    rows = [[], [(b"a.b", "100644", HELLO), (b"a", "40000", EMPTY_TREE), (b"l", "120000", HELLO), (b"s", "100755", HELLO)]]
    for _ in range(40):
        chosen = pick.sample(names, pick.randint(1, 7))
        rows.append([(name, pick.choice(MODES), pick.choice(ids)) for name in chosen])
    good = []
    for row in rows:
        content, entries = made_tree(repository, row)
        assert bad_tree(content) is None, content
        good.append(content)
        cases.add("tree", [content], entries)
        cases.add("tree-again", [content], [content])
    name = b"1234567890abcdefghij"
    bad = [b"0", b"100645", b"100644 \0", b"100644 a/", b"100644 .\0", b"100644 ..\0", b"40000 .GIT\0", b"40000 a\0" + name + b"100644 a."]
    bad += [b"100644 a\0" + name + b"100644 a\0", b"100644 a\0" + name + b"100644 a.b\0" + name + b"40000 a\0"]
    bad += [b"100644 b\0" + name + b"100644 a"]
    for text in bad:
        assert bad_tree(text) == len(text) - 1
    bad += [b"100644", b"100644 ", b"100644 a", b"100644 a\0", b"100644 a\0" + name[:19], b"040000 a\0" + name, b"160000 .git\0" + name]
    bad += [b"40000 a\0" + name + b"100644 a\0" + name, b"100644 a\0" + name + b"40000 a\0" + name]
    bad += [b"100755 a b/", b"120000  \0" + name + b"1"]
    bad += [b"100644 a\0" + name + b"\n", b"40000 a\0" + name + b"100644 a/", b"40000 b\0" + name + b"100644 b\0"]
    bad += [b"100644 .git\0", b"100644 .giT\0"]
    bad += [good[1][:at] for at in range(1, len(good[1]), 5)]
    for content in good[2:]:
        # Two entries of git's tree, the other way round, or the first of them twice.
        if content.count(b"\0") > 1:
            at = content.index(b"\0") + 21
            bad += [content[at:] + content[:at], content[:at] + content]
    for text in bad:
        at = bad_tree(text)
        if at is not None:
            cases.add("tree", [text], ["bad", at])


def fields_of(tree, parents, author, committer, encoding, message):
    fields = ["tree", tree]
    for parent in parents:
        fields += ["parent", parent]
    fields += ["author", author, "committer", committer]
    return fields + (["encoding", encoding] if encoding is not None else []) + ["message", message]


def written(tree, parents, author, committer, encoding, message):
    lines = [b"tree " + tree.encode(), *(b"parent " + p.encode() for p in parents), b"author " + author, b"committer " + committer]
    lines += [b"encoding " + encoding] if encoding is not None else []
    return b"".join(line + b"\n" for line in lines) + b"\n" + message


def add_git_commits(cases):
    cases.group(
        "Commits: the content that `git commit-tree` makes of a tree, parents, idents, i18n.commitEncoding and a message, the fields that it",
        "was made of, and the content again.",
    )
    repository = Repository()
    tree = repository.put("tree", b"")
    first = repository.commit(tree)
    second = repository.commit(tree, [first])
    idents = [("A", "a@b", "1700000000 +0130"), ("Sam Ö", "sam@x", "0 -0800")]
    idents += [("O'Neil, Bob", "", "2147483648 +0000"), ("a b", "c d", "1 -1200")]
    messages = [b"one\n", b"", b"\n", b"one\n\ntwo\n\n\n", b"no line feed", b"\n\n# x\n", b"\xe9\n", b"tree x\nparent y\n"]
    for number, message in enumerate(messages):
        author, committer = idents[number % 4], idents[(number + 1) % 4]
        for parents in ([], [first], [second, first]):
            # Git writes what is no UTF-8 anew where no encoding is told.
            for encoding in ("ISO-8859-1",) if message == b"\xe9\n" else (None, "ISO-8859-1"):
                words = ["-c", f"i18n.commitEncoding={encoding}"] if encoding else []
                env = {"GIT_AUTHOR_NAME": author[0], "GIT_AUTHOR_EMAIL": author[1], "GIT_AUTHOR_DATE": "@" + author[2]}
                env |= {"GIT_COMMITTER_NAME": committer[0], "GIT_COMMITTER_EMAIL": committer[1], "GIT_COMMITTER_DATE": "@" + committer[2]}
                words += ["commit-tree", tree, *(word for parent in parents for word in ("-p", parent))]
                name = repository.line(*words, stdin=message, env=env)
                content = repository.git("cat-file", "commit", name)
                who = [f"{person[0]} <{person[1]}> {person[2]}".encode() for person in (author, committer)]
                parts = tree, parents, *who, encoding.encode() if encoding else None, message
                cases.add("commit", [content], fields_of(*parts))
                cases.add("commit-again", [content], [content])


WHO = b"A <a@b> 1700000000 +0130"
OTHER = b"A <a@b> 1700000001 -0800"
TREE = "362181671237b68d2e5f905476fb36fc39c10d58"
COMMIT = written(TREE, [], WHO, OTHER, b"ISO-8859-1", b"one\n")


def add_other_commits(cases):
    cases.group(
        "Commits with further headers, which are read over and not written: by the written rule. The first header `encoding` counts, with the",
        "lines that continue it. Ids stand in either case.",
    )
    plain = written(TREE, [], WHO, OTHER, None, b"m\n")
    heads = [
        (b"gpgsig -----BEGIN\n \n line\n -----END\n", None),
        (b"mergetag object x\n type commit\n", None),
        (b"encoding latin1\nencoding utf8\n", b"latin1"),
        (b"encoding latin1\n more\n  and more\nx y\n", b"latin1\n more\n  and more"),
        (b"x\n encoding utf8\n", None),
        (b"x y\nencoding \n", b""),
        (b"encoding\n", None),
        (b"Encoding utf8\n", None),
        (b"\0\xff\n", None),
        (b"author x\nparent y\n", None),
        (b"encoding a\nx\n encoding b\n y\n", b"a"),
    ]
    for headers, encoding in heads:
        content = plain.replace(b"\n\nm\n", b"\n" + headers + b"\nm\n")
        parts = TREE, [], WHO, OTHER, encoding, b"m\n"
        cases.add("commit", [content], fields_of(*parts))
        cases.add("commit-again", [content], [written(*parts)])
    upper = written(TREE.upper(), [HELLO.upper()], WHO, OTHER, None, b"m\n")
    cases.add("commit", [upper], fields_of(TREE, [HELLO], WHO, OTHER, None, b"m\n"))
    cases.add("commit-again", [upper], [written(TREE, [HELLO], WHO, OTHER, None, b"m\n")])
    cases.group("At most sixteen parents; of more their number is told, where the text is a commit's. By the written rule.")
    for count in (15, 16, 17, 18, 40):
        parts = TREE, [HELLO] * count, WHO, OTHER, None, b"m\n"
        cases.add("commit", [written(*parts)], fields_of(*parts) if count <= 16 else ["parents", count])
    seventeen = written(TREE, [HELLO] * 17, WHO, OTHER, None, b"m\n")
    cases.add("commit", [seventeen[:-3]], ["bad", len(seventeen) - 3])


def add_bad_commits(cases):
    cases.group(
        "Texts that are no commit, and the first byte with which none goes on, by that rule: git's commit, cut within its headers (behind its",
        "empty line it is one), and with a NUL, which stands in no line up to the committer's.",
    )
    headers = COMMIT.index(b"\n\n") + 1
    for length in range(headers + 1):
        cases.add("commit", [COMMIT[:length]], ["bad", length])
    for length in range(headers + 1, len(COMMIT) + 1):
        cases.add("commit", [COMMIT[:length]], fields_of(TREE, [], WHO, OTHER, b"ISO-8859-1", COMMIT[headers + 1 : length]))
    for at in range(COMMIT.index(b"\nencoding")):
        if COMMIT[at] != 0x0A or at == COMMIT.index(b"\n"):
            cases.add("commit", [COMMIT[:at] + b"\0" + COMMIT[at + 1 :]], ["bad", at])
    lines = COMMIT.split(b"\n")
    for old, new, at in [
        (lines[0], lines[0] + b" ", len(lines[0])),
        (lines[0], lines[0][:-1], len(lines[0]) - 1),
        (lines[0], lines[0] + b"\n" + lines[0], len(lines[0]) + 1),
        (lines[0], lines[0] + b"\nparent x", len(lines[0]) + 8),
        (lines[0], lines[0] + b"\n", len(lines[0]) + 1),
        (lines[1], b"Author" + lines[1][6:], COMMIT.index(b"author")),
        (b"+0130", b"+013", COMMIT.index(b"+0130") + 4),
        (b"+0130", b"+01300", COMMIT.index(b"+0130") + 5),
        (b"+0130", b"0130", COMMIT.index(b"+0130")),
        (b"1700000000", b"01700000000", COMMIT.index(b"1700000000") + 1),
        (b"1700000000", b"-0", COMMIT.index(b"1700000000") + 1),
        (b"1700000000", b"9223372036854775808", COMMIT.index(b"1700000000") + 18),
        (b"1700000000", b"", COMMIT.index(b"1700000000")),
        (lines[2], b" x\n" + lines[2], COMMIT.index(b"committer")),
        (lines[3], b" " + lines[3], COMMIT.index(b"encoding")),
    ]:
        cases.add("commit", [COMMIT.replace(old, new, 1)], ["bad", at])


def bad_tag(text):
    """The first byte with which no tag's text goes on."""
    at = 0
    for part in (b"object ", None, b"\ntype "):
        if part is None:
            ends = at + 40
            while at < min(ends, len(text)) and chr(text[at]) in "0123456789abcdefABCDEF":
                at += 1
            if at < ends:
                return at
            continue
        length, found = front(text[at:], [part])
        at += length
        if found is None:
            return at
    length, kind = front(text[at:], [kind.encode() + b"\n" for kind in KINDS])
    at += length
    if kind is None:
        return at
    length, found = front(text[at:], [b"tag "])
    return at + length if found is None else len(text)


def add_tags(cases):
    cases.group(
        "Tags that `git tag` and `git mktag` made, by the object that `git rev-parse TAG^{}` names or, of a tag of a tag, the tag's own first",
        "line; and texts whose first three lines are none of a tag's, with the first byte with which none goes on, by that rule.",
    )
    repository = Repository()
    commit = repository.commit(repository.put("tree", b""))
    for name, message, thing in (("v1", "note", commit), ("a/b", "two\n\nlines", repository.put("blob", b"1\n")), ("é", "", EMPTY_TREE)):
        repository.git("tag", "-a", "-m", message, name, thing)
        content = repository.git("cat-file", "tag", name)
        named = repository.line("rev-parse", name + "^{}")
        cases.add("tag", [content], [named])
        cases.add("tag", [content.replace(named.encode(), named.upper().encode())], [named])
        for length in range(content.index(b"\ntagger") + 1):
            cases.add("tag", [content[:length]], ["bad", bad_tag(content[:length])])
    first = repository.line("rev-parse", "v1")
    text = f"object {first}\ntype tag\ntag v2\ntagger A <a@x> 1 +0000\n\nm\n".encode()
    made = repository.line("mktag", stdin=text)
    cases.add("tag", [repository.git("cat-file", "tag", made)], [first])
    cases.add("tag", [text[: text.index(b"tagger")]], [first])
    cases.add("tag", [text.replace(b"tag v2", b"tag ")], [first])
    for old, new in [(b"type tag", b"type tags"), (b"type tag", b"type Tag"), (b"type tag", b"type "), (b"tag v2", b"tagv2"), (b"object", b"Object")]:
        changed = text.replace(old, new, 1)
        cases.add("tag", [changed], ["bad", bad_tag(changed)])
    for old, new in [(first.encode(), first[:39].encode()), (first.encode(), first.encode() + b"0"), (b"\ntype", b"\n\ntype")]:
        changed = text.replace(old, new, 1)
        cases.add("tag", [changed], ["bad", bad_tag(changed)])


def add(cases):
    add_objects(cases)
    add_tags(cases)
    add_trees(cases)
    add_git_commits(cases)
    add_other_commits(cases)
    add_bad_commits(cases)
