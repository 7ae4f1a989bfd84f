"""Cases of rev_text and rev_names."""

from .cases import Repository
from .stores import given, objects_of, refs_of

GREATEST = 2**64 - 1

# Words, and what they say by gitrevisions(7): the base, an entry of its log, and steps.
PARTS = [
    ("HEAD", ["base", b"HEAD"]),
    ("@", ["base", b"@"]),
    ("v0.99.8^", ["base", b"v0.99.8", "parent", 1]),
    ("HEAD^0", ["base", b"HEAD", "parent", 0]),
    ("HEAD~0", ["base", b"HEAD", "ancestor", 0]),
    ("HEAD~", ["base", b"HEAD", "ancestor", 1]),
    ("heads/a/b~3^2~", ["base", b"heads/a/b", "ancestor", 3, "parent", 2, "ancestor", 1]),
    ("master@{12}^", ["base", b"master", "entry", 12, "parent", 1]),
    ("master@{0}", ["base", b"master", "entry", 0]),
    ("x^^^", ["base", b"x", "parent", 1, "parent", 1, "parent", 1]),
    ("x~007", ["base", b"x", "ancestor", 7]),
    ("x~99999999999999999999", ["base", b"x", "ancestor", GREATEST]),
    ("x^18446744073709551616", ["base", b"x", "parent", GREATEST]),
    ("x@{18446744073709551615}", ["base", b"x", "entry", GREATEST]),
    ("4b825dc", ["base", b"4b825dc"]),
    ("refs/heads/é~2", ["base", "refs/heads/é".encode(), "ancestor", 2]),
    ("a-b^1~1", ["base", b"a-b", "parent", 1, "ancestor", 1]),
    ("a@b", ["base", b"a@b"]),
]

# Words that have none of these forms.
FORMLESS = ["", "a..b", "HEAD^{commit}", "HEAD^{}", ":a", ":/a", "a b", "a~x", "a@{1", "a@{}", "a@{upstream}", "a@{-1}", "@{1}", "~1"]
FORMLESS += ["^", "^a", "a@{1}@{2}", "a~1@{2}", "a.lock", "a^-", "a^!", "a:b", "a*", "a?", "a[", "a\\", "a//b", "a/", "a.", "@{", "a~1x"]

# Words that name no commit of the repository below, and why.
NONE = {
    "no-such": ["nosuch", "nosuch~1", "nosuch^0", "abc", "abcd", "ORIG_HEAD", "v3", "heads/v1", "tags/side", "refs/side", "remotes/origin", "tip^0"],
    "no-parent": ["HEAD^3", "HEAD~3", "side^2", "HEAD~99999999999999999999", "v2^2", "side~1^1", "HEAD^2^2"],
    "no-log-entry": ["side@{2}", "v1@{0}", "v2@{1}"],
    "no-commit": ["tree", "4b825d", "c15fb9", "tree^0", "blob", "4b825dc642cb6eb9a060e54bf8d69288fbee4904"],
    "form": ["", "a..b", "76a57ce@{0}", "a b", "HEAD:x"],
}


def made():
    """`one`, `two` behind it, `three` behind `one` on `side`, and `four`, which merges `side`; tags of a commit, of a tag, of a tree."""
    repository = Repository()
    tree = repository.put("tree", b"")
    ids = {}

    def commit(name, *parents):
        words = [word for parent in parents for word in ("-p", ids[parent])]
        ids[name] = repository.line("commit-tree", tree, *words, stdin=name.encode() + b"\n")

    def tag(name, kind, tagged):
        text = f"object {tagged}\ntype {kind}\ntag {name}\ntagger Ann <ann@x> 1000 +0000\n\n{name}\n"
        ids[name] = repository.put("tag", text.encode())
        repository.git("update-ref", "refs/tags/" + name, ids[name])

    commit("one")
    commit("two", "one")
    commit("three", "one")
    commit("four", "two", "three")
    for name, values in (("master", ["two", "four"]), ("side", ["one", "three"])):
        for value in values:
            repository.git("update-ref", "--create-reflog", "-m", "set", "refs/heads/" + name, ids[value])
    tag("v1", "commit", ids["two"])
    tag("v2", "tag", ids["v1"])
    repository.git("pack-refs", "--all")
    tag("tree", "tree", tree)
    tag("v0", "commit", ids["one"])
    ids["430"], ids["501"] = (repository.put("blob", b"%d\n" % number) for number in (430, 501))
    repository.git("update-ref", "refs/tags/blob", ids["430"])
    repository.git("update-ref", "refs/remotes/origin/main", ids["two"])
    repository.git("update-ref", "refs/heads/v0", ids["three"])
    repository.git("symbolic-ref", "refs/remotes/origin/HEAD", "refs/heads/side")
    return repository, ids


def named(repository, word):
    status, printed, _ = repository.try_git("rev-parse", "--quiet", "--verify", word + "^{commit}")
    return printed.decode().strip() if status == 0 else None


def add_words(cases):
    repository, ids = made()
    held = given(objects_of(repository) | refs_of(repository))
    cases.group(
        "Words, several in a case, and the commit that `git rev-parse --verify WORD^{commit}` prints for each, in a repository that git made.",
    )
    words = ["HEAD", "@", "master", "heads/master", "refs/heads/master", "HEAD^0", "HEAD~0", "HEAD^", "@~1", "HEAD^1", "HEAD^2", "HEAD~2"]
    words += ["HEAD^^", "HEAD^2~1", "HEAD^2^", "side", "refs/heads/side", "side~", "side@{0}", "side@{1}"]
    words += ["master@{0}", "master@{1}", "master@{1}^", "HEAD^2^0~1"]
    words += ["v1", "tags/v1", "refs/tags/v1", "v1^0", "v1~", "v2", "v2^0", "v2^", "refs/tags/v2", "v0", "heads/v0", "tags/v0", "tags/v0^0"]
    words += ["origin", "origin/HEAD", "origin/main", "remotes/origin/main~1"]
    for name in ("one", "two", "three", "four", "v1", "v2"):
        words += [ids[name], ids[name][:7], ids[name][:5].upper(), ids[name] + "^0", ids[name][:20]]
    for begin in range(0, len(words), 6):
        some = words[begin : begin + 6]
        answers = [named(repository, word) for word in some]
        assert None not in answers, some
        cases.add("resolve-rev", held + [word.encode() for word in some], answers)
        cases.add("resolve-label", held + [word.encode() for word in some], answers)
    cases.group("Words that name no commit there. That they name none is git's answer; why, by the written rule.")
    for why, some in NONE.items():
        assert not any(named(repository, word) for word in some)
        cases.add("resolve-rev", held + [word.encode() for word in some], [why] * len(some))
    missing = ids["one"][:39] + ("0" if ids["one"][39] != "0" else "1")
    assert named(repository, missing) is None
    cases.add("resolve-rev", held + [missing.encode()], ["bad-object", missing])
    first, second = sorted(name for name in objects_names(repository) if name.startswith("c15f"))
    cases.add("resolve-rev", held + [b"c15f", b"C15F"], ["ambiguous", first, second] * 2)
    cases.add("resolve-rev", held + [first.encode(), first[:7].encode()], ["no-commit"] * 2)

    cases.group("Words that git reads otherwise: a type in braces, and an entry that does not fit into 64 bits, which git takes for a time.")
    cases.add("resolve-rev", held + [b"HEAD^{commit}", b"side@{99999999999999999999}"], ["form", "no-log-entry"])


def objects_names(repository):
    return repository.line("cat-file", "--batch-all-objects", "--batch-check=%(objectname)").split()


def add_labels(cases):
    cases.group(
        "Labels, refs below refs/rewritten/, go first where they are asked for, also before ids and names of refs; else a word is read as any",
        "other. By the written rule; the commits are git's.",
    )
    repository, ids = made()
    for name in ("side", "onto", ids["two"], ids["two"][:7], "HEAD"):
        repository.git("update-ref", "refs/rewritten/" + name, ids["one"])
    held = given(objects_of(repository) | refs_of(repository))
    cases.add("resolve-label", held + [b"side", b"onto", ids["two"].encode(), ids["two"][:7].encode()], [ids["one"]] * 4)
    cases.add("resolve-rev", held + [b"side", ids["two"].encode(), b"HEAD"], [ids["three"], ids["two"], ids["four"]])
    cases.add("resolve-label", held + [b"master", b"v1", b"side~0", b"onto^0"], [ids["four"], ids["two"], ids["one"], ids["one"]])
    cases.add("resolve-label", held + [b"none", b"side^", b"a b"], ["no-such", "no-parent", "form"])


def add_bad(cases):
    cases.group(
        "Files of refs that are none: the ref is told, and HEAD or `packed-refs` where these decide; a bad log has no entries. A damaged or missing",
        "object that a word leads to is told by its id. By the written rule.",
    )
    repository, ids = made()
    files = objects_of(repository) | refs_of(repository)
    bad = files | {b".git/refs/heads/bad": b"none\n", b".git/logs/refs/heads/side": b"none\n"}
    told = ["bad-ref", b"refs/heads/bad"] * 2 + ["no-log-entry", ids["three"]]
    cases.add("resolve-rev", given(bad) + [b"bad", b"heads/bad~1", b"side@{0}", b"side"], told)
    bad = files | {b".git/packed-refs": b"none\n"}
    cases.add("resolve-rev", given(bad) + [b"refs/heads/v0", b"v1"], [ids["three"], "bad-ref", b"packed-refs"])
    bad = files | {b".git/HEAD": b"none\n"}
    cases.add("resolve-rev", given(bad) + [b"@", b"HEAD", b"refs/tags/v0"], ["bad-ref", b"HEAD"] * 2 + [ids["one"]])
    for name in ("one", "two"):
        path = f".git/objects/{ids[name][:2]}/{ids[name][2:]}".encode()
        less = {other: text for other, text in files.items() if other != path}
        for bad in (less, less | {path: b"x"}):
            cases.add("resolve-rev", given(bad) + [b"HEAD~2" if name == "one" else b"v2"], ["bad-object", ids[name]])


def add(cases):
    cases.group("Words that name commits, and what they say: the base, an entry of its log, and steps. By gitrevisions(7).")
    for word, parts in PARTS:
        cases.add("rev", [word.encode()], parts)
    cases.group("Words that have none of these forms.")
    for word in FORMLESS:
        cases.add("rev", [word.encode()], ["form"])
    for word in (b"\xff", b"a\0", b"a\n", b"a\x7f"):
        cases.add("rev", [word], ["form"])
    add_words(cases)
    add_labels(cases)
    add_bad(cases)
