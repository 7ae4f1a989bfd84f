"""Cases of message_text."""

from .cases import Repository, chooser
from .names import HELLO

OTHER = "ffeeddccbbaa99887766554433221100ffeeddcc"


def add_cleaned(cases):
    cases.group("Cleaned texts: what `git stripspace --strip-comments` writes. (Ours is that a CR stays, so no text here has one.)")
    repository = Repository()
    texts = [b"", b"\n\n", b"one", b"one  \t\n\n\n\ntwo\t\n", b"\n \none\n# two\nthree\n\n", b"# all\n#comments\n", b"a\n# b\n\n# c\n\nd\n"]
    texts += [b" # indented\n", b"a\n\t \n \nb \n#\n\n", b"\xff\xfe \n\n#x", b"#a\n\nb\n\n#c"]
    texts += [b"a\x0b\nb\x0c \n", b"\0\n \0 \n", b"\t", b" \n#\n "]
    pick = chooser("cleaned texts")
    pieces = [b"a", b"b c", b"\n", b"\n", b"\n", b" ", b"\t", b"#", b"# x", b"\xc3\xa9"]
    texts += [b"".join(pick.choices(pieces, k=pick.randint(1, 14))) for _ in range(80)]
    for text in texts:
        cleaned = repository.git("stripspace", "--strip-comments", stdin=text)
        cases.add("clean", [text], [cleaned])
        assert repository.git("stripspace", "--strip-comments", stdin=cleaned) == cleaned
    cases.group("A CR stays: by the written rule.")
    for text, cleaned in [(b"a\r\n", b"a\r\n"), (b"\r\n\r\n", b"\r\n\r\n"), (b"a \r \n", b"a \r\n"), (b"#\r\n\r", b"\r\n")]:
        cases.add("clean", [text], [cleaned])


def add_subjects(cases):
    cases.group("Subjects: what `git log --format=%s` writes of a commit with the message. (Ours is that a line of blanks is not empty.)")
    repository = Repository()
    tree = repository.put("tree", b"")
    texts = [b"add b\n\nSigned-off-by: Ann <ann@x>\n", b"one\ntwo  \n\nx\n", b"\n\none\n", b"", b"\n\n"]
    texts += [b"a", b"a\nb\nc\n\nd\n", b"a\t \nb\n", b"# a\nb\n"]
    texts += [b"  a\n", b"a\n b\n\nc", b"\n\n\na  b\n\n\n", b"\xc3\xa9\n", b"a\n\n\n\nb"]
    pick = chooser("subjects")
    lines = [b"a", b"b c", b" d", b"e \t", b"", b"", b"# f", b"g:", b"\th"]
    texts += [b"\n".join(pick.choices(lines, k=pick.randint(1, 6))) for _ in range(50)]
    for text in texts:
        made = repository.commit(tree, [], text)
        printed = repository.git("log", "-1", "--format=%s", made)
        cases.add("subject", [text], [printed.removesuffix(b"\n")])
    cases.group("A line of blanks alone is not empty: by the written rule.")
    for text, subject in [(b" \na\n", b" a"), (b"a\n \nb\n", b"a  b"), (b"\t\n", b""), (b"a\n\t\n\nb", b"a ")]:
        cases.add("subject", [text], [subject])


EDITOR = 'f() { cp "$1" ../shown; test -f .git/rebase-merge/message-squash && cp .git/rebase-merge/message-squash ../chain; return 0; }; f'
LINES = {"squash": "squash", "fixup": "fixup", "keep": "fixup -C", "keep-edit": "fixup -c"}


class Chains:
    """Chains that git rebases: a commit that adds a file for each message."""

    def __init__(self):
        self.repository = Repository()
        self.base = self.repository.commit(self.repository.put("tree", b""))

    def run(self, first, items):
        """The text of the chain that git hands to its editor, or None, and the message that it commits."""
        repository = self.repository
        blob = repository.put("blob", b"")
        last, files, lines = self.base, {}, []
        for number, (command, message) in enumerate([("pick", first), *items]):
            files[b"f%d" % number] = "100644", blob
            last = repository.commit(repository.tree(files), [last], message)
            lines.append(f"{LINES.get(command, command)} {last}\n")
        repository.write("../lines", "".join(lines).encode())
        repository.write("../chain", b"")
        repository.git("checkout", "-q", "-f", "--detach", last)
        env = {"GIT_SEQUENCE_EDITOR": "cp ../lines", "GIT_EDITOR": EDITOR}
        repository.git("rebase", "-q", "-i", "--no-ff", self.base, env=env)
        message = repository.git("cat-file", "commit", "HEAD").split(b"\n\n", 1)[1]
        return repository.read("../chain") or None, message


def first_paragraph(body):
    """Where it begins, and its bytes."""
    start = len(body) - len(body.lstrip(b"\n"))
    return start, body[start:].split(b"\n\n", 1)[0]


def subject(message):
    lines = []
    for line in message.split(b"\n"):
        if line:
            lines.append(line.rstrip(b" \t"))
        elif lines:
            break
    return b" ".join(lines)


def places(first, items):
    """Of each item its body, whether it is kept, and whether its first paragraph only says what it is for. By the written rule."""
    chain = [("first", first), *items]
    squashes = [at for at, (kind, _) in enumerate(chain) if kind == "squash"]
    squash = squashes[0] if squashes else len(chain)
    keeps = [at for at, (kind, _) in enumerate(chain[:squash]) if kind in ("keep", "keep-edit")]
    rows = []
    for at, (kind, message) in enumerate(chain):
        is_kept = at == (keeps[-1] if keeps else 0) or (at >= squash and kind != "fixup")
        line = subject(message)
        is_marked = kind in ("squash", "keep", "keep-edit") and (
            line.startswith(b"amend! ") or (at >= squash and line.startswith((b"squash! ", b"fixup! ")))
        )
        rows.append((message.rstrip(b"\n"), is_kept, is_marked))
    return rows


def commented(lines):
    return b"\n".join(b"# " + line if line else b"#" for line in lines.split(b"\n"))


def shown(body, is_kept, is_marked):
    if not is_kept:
        return commented(body)
    if is_marked:
        start, paragraph = first_paragraph(body)
        return body[:start] + commented(paragraph) + body[start + len(paragraph) :]
    return body


def chain_text(first, items):
    rows = places(first, items)
    parts = []
    for number, (body, is_kept, is_marked) in enumerate(rows, 1):
        if number == 1:
            header = b"# This is the 1st commit message:" if is_kept else b"# The 1st commit message will be skipped:"
        else:
            header = (b"# This is the commit message #%d:" if is_kept else b"# The commit message #%d will be skipped:") % number
        parts.append(header + b"\n\n" + shown(body, is_kept, is_marked) + b"\n")
    return b"# This is a combination of %d commits.\n" % len(rows) + b"\n".join(parts)


def kept_text(first, items):
    rows = places(first, items)
    at = max(number for number, row in enumerate(rows) if row[1])
    body, _, is_marked = rows[at]
    if at == 0:
        return first
    if is_marked:
        start, paragraph = first_paragraph(body)
        body = body[:start] + body[start + len(paragraph) :].lstrip(b"\n")
    return body + b"\n"


def fields_of(first, items):
    return [first, *(field for item in items for field in item)]


def add_chains(cases):
    cases.group(
        "Chains: the file .git/rebase-merge/message-squash where `git rebase -i` opens its editor at a chain's end; and of a chain of fixups",
        "alone the message that it commits. The script's own text, from the written rule, agrees with git's in all of these.",
    )
    messages = [b"one\n", b"two\n\nmore\n", b"amend! one\n\nnew one\n"]
    messages += [b"squash! one\n\ntwo\n", b"fixup! one\n", b"three\nlines\n\nand\n\nmore\n"]
    rows = [
        (b"one\n", [("squash", b"two\n"), ("fixup", b"three\n"), ("squash", b"four\n")]),
        (b"one\n", [("keep-edit", b"amend! one\n\nnew one\n")]),
        (b"one\n", [("keep", b"amend! one\n\nnew one\n")]),
        (b"one\n", [("fixup", b"two\n")]),
    ]
    pick = chooser("chains")
    for _ in range(50):
        items = [(pick.choice(list(LINES)), pick.choice(messages)) for _ in range(pick.randint(1, 4))]
        rows.append((pick.choice([messages[0], messages[1], messages[5]]), items))
    chains = Chains()
    for first, items in rows:
        text, message = chains.run(first, items)
        if text is not None:
            assert text == chain_text(first, items), (first, items)
            cases.add("chain", fields_of(first, items), [text])
        elif "squash" not in dict(items):
            assert message == kept_text(first, items), (first, items)
            cases.add("kept", fields_of(first, items), [message])
    cases.group("Texts of chains that git does not show, by the written rule: messages that no editor cleaned, and kept texts beside squashes.")
    odd = [b"", b"\n", b"one", b"one\n\n\n", b"amend! x\n"]
    odd += [b"amend! x", b"\n\namend! x\n\ny\n", b"amend! x\ny\n\n\nz\n\n", b"squash! x\n\ny", b"a\n\n\nb\n"]
    for _ in range(50):
        items = [(pick.choice(list(LINES)), pick.choice(odd)) for _ in range(pick.randint(0, 4))]
        first = pick.choice(odd)
        cases.add("chain", fields_of(first, items), [chain_text(first, items)])
        cases.add("kept", fields_of(first, items), [kept_text(first, items)])


def is_trailer(line):
    name, colon, value = line.partition(b": ")
    letters = b"abcdefghijklmnopqrstuvwxyzABCDEFGHIJKLMNOPQRSTUVWXYZ0123456789-"
    return line.startswith(b"(cherry picked from commit ") or bool(colon and value and name and all(b in letters for b in name))


def picked_text(text, name):
    body = text.rstrip(b"\n")
    paragraphs = [part for part in body.split(b"\n\n") if part.strip(b"\n")]
    last = paragraphs[-1].lstrip(b"\n").split(b"\n") if paragraphs else []
    is_open = len(paragraphs) > 1 and all(map(is_trailer, last))
    return body + b"\n" + b"\n" * (not is_open) + b"(cherry picked from commit " + name.encode() + b")\n"


def add_picked(cases):
    cases.group("What `git cherry-pick -x` commits, with the id of the commit that it picks.")
    repository = Repository()
    blob = repository.put("blob", b"")
    base = repository.commit(repository.put("tree", b""))
    onto = repository.commit(repository.tree({b"onto": ("100644", blob)}), [base])
    repository.git("checkout", "-q", "--detach", onto)
    trailer = b"Signed-off-by: Ann <ann@x>\n"
    texts = [b"add b\n\n" + trailer, b"add b\n", trailer, b"a\n\nb\n"]
    texts += [b"a\n\n" + trailer + b"Acked-by: B <b@x>\n", b"a\n\nb\n\nX: y\n", b"a\n\n(cherry picked from commit x)\n"]
    texts += [b"a\n\n" + trailer + b"(cherry picked from commit x)\n", b"a\n\nno trailer\nnone\n", b"a\n\nb: c d\ne\nf\ng\nh\n"]
    texts += [b"a\n\nX1-y: z\n", b"a: b\n\nc: d\n"]
    for text in texts:
        made = repository.commit(repository.tree({b"new": ("100644", blob)}), [base], text)
        repository.git("checkout", "-q", "--detach", onto)
        repository.git("cherry-pick", "-x", made)
        message = repository.git("cat-file", "commit", "HEAD").split(b"\n\n", 1)[1]
        assert message == picked_text(text, made), (text, message)
        cases.add("picked", [text, made], [message])
    cases.group(
        "The rest of that rule is ours: a message that is not clean, and a last paragraph in which each line is a trailer with text behind",
        "`: `, or tells of a pick.",
    )
    texts = [b"", b"\n", b"a", b"a\n\n\n\n", b"a\n\nX: y\nz\n", b"a\n\nX:y\n"]
    texts += [b"a\n\nX: \n", b"a\n\n: y\n", b"a\n\nX y: z\n", b"a\n\n\n\nX: y\n\n\n", b"\n\nX: y\n"]
    texts += [b"a\n\nX: y\n z\n", b"a\n\n(cherry picked from commit \n", b"a\n\n(cherry picked from\n"]
    texts += [b"a\n \nX: y\n", b"a\n\n X: y\n", b"a\r\n\r\nX: y\r\n"]
    for text in texts:
        cases.add("picked", [text, HELLO], [picked_text(text, HELLO)])


def add_reverted(cases):
    cases.group("What `git revert` commits, of a commit with one parent and, with -m 1 and -m 2, of a merge. (Ours is that -m counts for all.)")
    repository = Repository()
    blob = repository.put("blob", b"")
    base = repository.commit(repository.put("tree", b""))
    for text in (b"m\n", b"add b\n\nmore\n", b'Say "x"\n', b"\xc3\xa9\n"):
        side = repository.commit(repository.tree({b"side": ("100644", blob)}), [base], text)
        other = repository.commit(repository.tree({b"other": ("100644", blob)}), [base], text)
        merged = repository.commit(repository.tree({b"side": ("100644", blob), b"other": ("100644", blob)}), [side, other], text)
        for words, made, parent in (([], side, None), (["-m", "1"], merged, side), (["-m", "2"], merged, other)):
            repository.git("checkout", "-q", "--detach", made)
            repository.git("revert", "--no-edit", *words, made)
            message = repository.git("cat-file", "commit", "HEAD").split(b"\n\n", 1)[1]
            cases.add("reverted", [subject(text), made, parent or "none"], [message])
    front = b'Revert ""\n\nThis reverts commit ' + HELLO.encode()
    cases.add("reverted", [b"", HELLO, "none"], [front + b".\n"])
    cases.add("reverted", [b"", HELLO, OTHER], [front + b", reversing\nchanges made to " + OTHER.encode() + b".\n"])


def add(cases):
    add_cleaned(cases)
    add_subjects(cases)
    add_chains(cases)
    add_picked(cases)
    add_reverted(cases)
