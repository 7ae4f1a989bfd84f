"""Cases of objects."""

from .cases import Repository
from .names import HELLO
from .objects import COMMIT, KINDS, OTHER, TREE, WHO, bad_object, fields_of, put, written
from .stores import OBJECTS, changed, given, name_of, object_path, object_text, with_objects


def add_both(cases, files, fields, fault, lack):
    """What reading an object comes to, and what lacks."""
    cases.add("get", given(files) + fields, fault)
    cases.add("read-object", given(files) + fields, lack)


def add_objects(cases):
    cases.group(
        "Objects that are put into an empty store, and into one that has them: the id that `git hash-object -w --literally` prints, whose",
        "file then has the inflated text of git's; and what is read of that file.",
    )
    repository = Repository()
    for kind in KINDS:
        for content in (b"", b"hello\n", b"\0\xff", b"blob 0\0", b"x" * 300):
            name, text = put(repository, kind, content)
            files = {object_path(name): text}
            for verb in ("put", "write-object"):
                cases.add(verb, given({}) + [kind, content], [name, *changed({}, files)])
                cases.add(verb, given(files) + [kind, content], [name])
            for verb in ("get", "read-object"):
                cases.add(verb, given(files) + [name], [kind, content])


def add_faults(cases):
    cases.group(
        "Files that are not the object: missing; of other bytes, whose SHA-1 is told; under their own SHA-1, but bad at the first byte with",
        "which no object goes on. By that rule, with hashlib's SHA-1. Nothing is changed then.",
    )
    hello = object_text("blob", b"hello\n")
    where = object_path(HELLO)
    for files in ({}, {where + b".tmp": hello}, {b"a": hello}):
        add_both(cases, files, [HELLO], ["missing"], ["lacks", HELLO])
    for text in (b"", b"x", b"blob 6\0hellp\n", b"blob 6\0hello\n\n", b"blob 06\0hello\n", b"tree 6\0hello\n", hello[:-1]):
        files = {where: text}
        add_both(cases, files, [HELLO], ["wrong-hash", name_of(text)], ["lacks", HELLO])
        cases.add("put", given(files) + ["blob", b"hello\n"], ["wrong-hash", name_of(text)])
        cases.add("write-object", given(files) + ["blob", b"hello\n"], ["place", HELLO])
    texts = [b"", b"blob", b"blob 06\0hello\n", b"blob 5\0hello\n", b"blob 7\0hello\n", b"blob \0", b"tred 0\0", b"blob 6 \0hello\n"]
    texts += [b"Blob 6\0hello\n", b"tag 1\0", b"commit 0\0x", b"blob -1\0", b"trees 0\0", b"blob 00\0"]
    for text in texts:
        name = name_of(text)
        add_both(cases, {object_path(name): text}, [name], ["bad-text", bad_object(text)], ["lacks", name])
    cases.group("Files in the way of the object's: in the place of one of its folders, or below its path. By this rule; nothing is changed then.")
    for path in (b".git/objects/ce", b".git/objects", where + b"/x", where + b"/a/b"):
        files = {path: b"x"}
        cases.add("put", given(files) + ["blob", b"hello\n"], ["blocked", where])
        cases.add("write-object", given(files) + ["blob", b"hello\n"], ["way", where])
    for path in (b".git/objects/c", b".git/objects/ce/0", b".git/object", OBJECTS + b"ce/" + HELLO[2:-1].encode()):
        files = {path: b"x"}
        cases.add("put", given(files) + ["blob", b"hello\n"], [HELLO, "object", HELLO])


def add_commits(cases):
    cases.group(
        "Commits that `git commit-tree` made, by their fields; an object of another kind, or whose content is no commit's, lacks; and of more",
        "than sixteen parents the number is told, by the written rule.",
    )
    repository = Repository()
    tree = repository.put("tree", b"")
    parents = []
    for message in (b"one\n", b"two\n\nbody\n", b""):
        words = ["commit-tree", tree, *(word for parent in parents for word in ("-p", parent))]
        name = repository.line(*words, stdin=message)
        content = repository.git("cat-file", "commit", name)
        who = b"Ann <ann@x> 1000 +0000"
        cases.add("read-commit", given(with_objects(("commit", content))) + [name], fields_of(tree, parents, who, who, None, message))
        parents = [name, *parents]
    for kind in KINDS:
        name = name_of(object_text(kind, COMMIT))
        answer = fields_of(TREE, [], WHO, OTHER, b"ISO-8859-1", b"one\n") if kind == "commit" else ["lacks", name]
        cases.add("read-commit", given(with_objects((kind, COMMIT))) + [name], answer)
    for content in (b"", COMMIT[:9], COMMIT.replace(b"author", b"Author"), COMMIT.replace(b"\n\n", b"\n")):
        name = name_of(object_text("commit", content))
        cases.add("read-commit", given(with_objects(("commit", content))) + [name], ["lacks", name])
    for count in (16, 17, 30):
        parts = TREE, [HELLO] * count, WHO, OTHER, None, b"m\n"
        name = name_of(object_text("commit", written(*parts)))
        answer = fields_of(*parts) if count <= 16 else ["limit", "parents", count]
        cases.add("read-commit", given(with_objects(("commit", written(*parts)))) + [name], answer)
    cases.add("read-commit", given({}) + [HELLO], ["lacks", HELLO])


def add_prefixes(cases):
    cases.group(
        "First digits of ids, in either case: the ids that `git rev-parse --disambiguate` prints of a repository with these blobs. Beside them",
        "stand files below the folder of objects that are no object's, which git passes over too.",
    )
    repository = Repository()
    texts = [b"%d\n" % number for number in (430, 501, 851, 1)]
    names = sorted(repository.line("hash-object", "-w", "--stdin", stdin=text) for text in texts)
    files = with_objects(*(("blob", text) for text in texts))
    first = object_path(names[0])
    strays = [first[:-1], first + b".tmp", first[:-1] + b"g", first[:17] + first[17:].upper()]
    strays += [OBJECTS + b"pack/pack-" + names[0].encode() + b".idx", OBJECTS + b"info/" + names[0].encode()]
    for path in strays:
        name = repository.path(path.decode())
        if not name.lower().endswith("e7"):
            repository.write(path.decode(), b"")
        files[path] = b""
    prefixes = {name[:length] for name in names for length in (4, 5, 6, 7, 8, 39, 40)} | {"0000", "ffff", "c15fc", names[0][:39] + "0"}
    for prefix in sorted(prefixes):
        printed = repository.line("rev-parse", f"--disambiguate={prefix}").split()
        for digits in sorted({prefix, prefix.upper()}):
            cases.add("with-prefix", given(files) + [digits.encode()], ["ids", *sorted(printed)])
    cases.group("A prefix is four to forty hex digits: by this rule, and git's.")
    for digits in (b"", b"c", b"c15", b"c15g", b"c15f ", b"-15f", names[0].encode() + b"0", b"c15\xff", b"c15f\n"):
        cases.add("with-prefix", given({}) + [digits], ["no-prefix"])


def add(cases):
    add_objects(cases)
    add_faults(cases)
    add_commits(cases)
    add_prefixes(cases)
