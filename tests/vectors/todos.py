"""Cases of todo_text. The reader here is written from the table of commands and the list of what may be bad."""

from .cases import Repository, chooser
from .names import RefNames

PICKS = {"pick": "p", "reword": "r", "edit": "e", "squash": "s", "drop": "d", "revert": None, "fixup": "f"}
OTHERS = {"exec": "x", "break": "b", "noop": None, "label": "l", "reset": "t", "merge": "m", "update-ref": "u"}
COMMANDS = {name.encode(): name for name in (PICKS | OTHERS)}
COMMANDS |= {letter.encode(): name for name, letter in (PICKS | OTHERS).items() if letter}
BLANKS = b" \t"
NAMES = RefNames()


class Bad(Exception):
    """What is wrong with a line."""


def first_word(text):
    text = text.lstrip(BLANKS)
    ends = next((at for at, byte in enumerate(text) if byte in BLANKS), len(text))
    return text[:ends], text[ends:]


def wanted_word(text):
    found, rest = first_word(text)
    if not found:
        raise Bad("missing")
    return found, rest


def note_of(text):
    text = text.lstrip(BLANKS)
    return (text[2:] if text.startswith(b"# ") else text).strip(BLANKS)


def only_word(text, check, fault):
    name, rest = wanted_word(text)
    if first_word(rest)[0]:
        raise Bad("extra")
    if not check(name):
        raise Bad(fault)
    return name


def is_label(name):
    return name != b"#" and NAMES.is_name(b"refs/rewritten/" + name)


def is_updatable(name):
    return name.startswith(b"refs/") and not name.startswith(b"refs/rewritten/") and NAMES.is_name(name)


def merge(rest):
    how = ["plain"]
    found, behind = first_word(rest)
    if found in (b"-C", b"-c"):
        rev, rest = wanted_word(behind)
        how = ["keep" if found == b"-C" else "reword", rev]
    head, rest = first_word(rest)
    if head in (b"", b"#"):
        raise Bad("missing")
    mark, rest = first_word(rest)
    if mark not in (b"", b"#"):
        raise Bad("octopus")
    return ["merge", *how, head, rest.strip(BLANKS)]


def pick(name, rest):
    found, behind = first_word(rest)
    if name == "fixup" and found in (b"-C", b"-c"):
        name = "fixup-keep" if found == b"-C" else "fixup-edit"
        rest = behind
    rev, rest = wanted_word(rest)
    return [name, rev, note_of(rest)]


def parsed(text):
    """The parts of a line, or Bad."""
    command, rest = first_word(text)
    name = COMMANDS.get(command)
    if name is None:
        raise Bad("command")
    if name in PICKS:
        return pick(name, rest)
    if name == "exec":
        if not first_word(rest)[0]:
            raise Bad("missing")
        return [name, rest.lstrip(BLANKS)]
    if name in ("break", "noop"):
        if first_word(rest)[0]:
            raise Bad("extra")
        return [name]
    if name == "label":
        return [name, only_word(rest, is_label, "label")]
    if name == "update-ref":
        return [name, only_word(rest, is_updatable, "ref-name")]
    if name == "merge":
        return merge(rest)
    target, rest = wanted_word(rest)
    return [name, target, note_of(rest)]


def marked(note):
    return b" # " + note if note else b""


def canonical(parts):
    name = parts[0]
    if name == "merge":
        how = {"plain": b"", "keep": b"-C ", "reword": b"-c "}[parts[1]]
        rev = parts[2] + b" " if how else b""
        text = b"merge " + how + rev + parts[-2] + marked(parts[-1])
    elif name in ("break", "noop"):
        text = name.encode()
    elif name in ("exec", "label", "update-ref"):
        text = name.encode() + b" " + parts[1]
    else:
        command = {"fixup-keep": "fixup -C", "fixup-edit": "fixup -c"}.get(name, name)
        text = command.encode() + b" " + parts[1] + marked(parts[2])
    return text + (b"\r\n" if text.endswith(b"\r") else b"\n")


def read(text, earlier):
    """The lines, or the first bad line and what is wrong with it."""
    lines = []
    rows = text.split(b"\n")
    for number, row in enumerate(rows, 1):
        if number < len(rows) and row.endswith(b"\r"):
            row = row[:-1]
        row = row.lstrip(BLANKS)
        if not row or row.startswith(b"#"):
            continue
        try:
            parts = parsed(row)
            if parts[0] in ("squash", "fixup", "fixup-keep", "fixup-edit") and not earlier:
                raise Bad("no-earlier")
        except Bad as fault:
            return number, str(fault)
        earlier = earlier or parts[0] not in ("noop", "drop")
        lines.append(parts)
    return lines


def add_text(cases, text, earlier):
    found = read(text, earlier)
    if isinstance(found, tuple):
        cases.add("todo", [earlier, text], ["bad-line", *found])
        return
    cases.add("todo", [earlier, text], ["lines", len(found), *(field for parts in found for field in parts)])
    cases.add("todo-again", [earlier, text], ["lines", len(found), *map(canonical, found)])


def todo_of_git():
    """What `git rebase -i` with merges, autosquash, update-refs and exec hands to the editor."""
    repository = Repository()
    for words in (["rebase.autoSquash", "true"], ["rebase.updateRefs", "true"], ["core.abbrev", "12"]):
        repository.git("config", *words)

    def commit(name, message):
        repository.write(name, b"x\n")
        repository.git("add", name)
        repository.git("commit", "-q", "-m", message)

    commit("a", "base")
    repository.git("branch", "base")
    repository.git("checkout", "-q", "-b", "side")
    commit("b", "side  work # 1")
    repository.git("checkout", "-q", "master")
    commit("c", "c work")
    repository.git("branch", "up")
    commit("d", "fixup! c work")
    repository.git("merge", "-q", "--no-ff", "-m", "Merge branch 'side'", "side")
    commit("e", "last")
    env = {"GIT_SEQUENCE_EDITOR": "f() { cp \"$1\" ../todo; return 1; }; f"}
    repository.try_git("rebase", "-i", "--rebase-merges", "--exec", "true  x ", "base", env=env)
    return repository.read("../todo")


# Each command by its word and its letter, notes, blanks and ends of lines, and the text that the rules give for each.
TEXTS = [
    (b"pick a1", b"pick a1\n"),
    (b"p a1 note\n", b"pick a1 # note\n"),
    (b"p a1 # note\n", b"pick a1 # note\n"),
    (b"p a1 #  # note \t\n", b"pick a1 # # note\n"),
    (b"p a1 #note\n", b"pick a1 # #note\n"),
    (b"p a1 #\n", b"pick a1 # #\n"),
    (b"p a1 # \n", b"pick a1\n"),
    (b"reword\ta1\t two  words\t\n", b"reword a1 # two  words\n"),
    (b"r a1\n", b"reword a1\n"),
    (b"edit a1", b"edit a1\n"),
    (b" \te  a1\r\n", b"edit a1\n"),
    (b"squash a1", b"squash a1\n"),
    (b"s a1", b"squash a1\n"),
    (b"fixup a1", b"fixup a1\n"),
    (b"f\ta1 #\tx", b"fixup a1 # #\tx\n"),
    (b"fixup -C a1", b"fixup -C a1\n"),
    (b"f -C abcd # x\n", b"fixup -C abcd # x\n"),
    (b"f -c a1 x", b"fixup -c a1 # x\n"),
    (b"f -C -c", b"fixup -C -c\n"),
    (b"f -Cx", b"fixup -Cx\n"),
    (b"drop a1", b"drop a1\n"),
    (b"d a1 x", b"drop a1 # x\n"),
    (b"revert a1 x", b"revert a1 # x\n"),
    (b"exec  make  test ", b"exec make  test \n"),
    (b"x make # all\r\n", b"exec make # all\n"),
    (b"break \t", b"break\n"),
    (b"b\r\n", b"break\n"),
    (b"noop", b"noop\n"),
    (b"label onto", b"label onto\n"),
    (b"l  a/b \n", b"label a/b\n"),
    (b"reset onto", b"reset onto\n"),
    (b"t [new # root", b"reset [new # root\n"),
    (b"merge side", b"merge side\n"),
    (b"m side #", b"merge side\n"),
    (b"m side # Merge  side ", b"merge side # Merge  side\n"),
    (b"m side #\tnote", b"merge side # note\n"),
    (b"merge -C a1 side # x", b"merge -C a1 side # x\n"),
    (b"m -c a1 side # x", b"merge -c a1 side # x\n"),
    (b"m -c a1 -C", b"merge -c a1 -C\n"),
    (b"update-ref refs/heads/a", b"update-ref refs/heads/a\n"),
    (b"u refs/tags/v1 ", b"update-ref refs/tags/v1\n"),
    (b"", b""),
    (b"\n \t\n\r\n# a\n\t#b\n", b""),
    (b"p a\n\nnoop\n", b"pick a\nnoop\n"),
    (b"x a\r", b"exec a\r\r\n"),
    (b"x a\r\r\n", b"exec a\r\r\n"),
    (b"exec x\nf a1", b"exec x\nfixup a1\n"),
    (b"noop\nlabel a\ndrop b\nsquash a1\nfixup a2", b"noop\nlabel a\ndrop b\nsquash a1\nfixup a2\n"),
]

# Each kind of bad line, and of two kinds on one line the earlier in the list.
BAD = [
    (b"picks a1", 1, "command"),
    (b"P a1", 1, "command"),
    (b"n", 1, "command"),
    (b"\r", 1, "command"),
    (b"b\r", 1, "command"),
    (b"noop\n\n# x\nfoo # x\n", 4, "command"),
    (b"pick a1\n\tpick \t\nfoo", 2, "missing"),
    (b"pick", 1, "missing"),
    (b"f -C", 1, "missing"),
    (b"f -c ", 1, "missing"),
    (b"x  \t", 1, "missing"),
    (b"label", 1, "missing"),
    (b"reset", 1, "missing"),
    (b"merge", 1, "missing"),
    (b"merge # note", 1, "missing"),
    (b"merge -C", 1, "missing"),
    (b"merge -c a1", 1, "missing"),
    (b"merge -C a1 # note", 1, "missing"),
    (b"merge # two heads", 1, "missing"),
    (b"update-ref", 1, "missing"),
    (b"revert", 1, "missing"),
    (b"squash", 1, "missing"),
    (b"break x", 1, "extra"),
    (b"b # x", 1, "extra"),
    (b"noop x", 1, "extra"),
    (b"label a..b c", 1, "extra"),
    (b"update-ref HEAD x", 1, "extra"),
    (b"label #", 1, "label"),
    (b"label a..b", 1, "label"),
    (b"l a.lock", 1, "label"),
    (b"l a\r\r\n", 1, "label"),
    (b"u HEAD", 1, "ref-name"),
    (b"u heads/a", 1, "ref-name"),
    (b"u refs/heads/a..b", 1, "ref-name"),
    (b"u refs/rewritten/a", 1, "ref-name"),
    (b"merge a b", 1, "octopus"),
    (b"merge -C a1 a b # x", 1, "octopus"),
    (b"merge a #b", 1, "octopus"),
    (b"# x\n\nnoop\ndrop a1\nsquash a1", 5, "no-earlier"),
    (b"f -C a1 # x\nfoo", 1, "no-earlier"),
]

PIECES = [
    b"pick", b"p", b"r", b"edit", b"squash", b"f", b"d", b"exec", b"x", b"break", b"noop", b"label", b"l", b"reset", b"t", b"merge", b"m",
]
PIECES += [b"update-ref", b"u", b"revert", b"#", b"# ", b"-C", b"-c"]
PIECES += [b"a1", b"side", b"refs/heads/a", b"refs/rewritten/a", b"a..b", b"note", b"\r"]


def add(cases):
    cases.group(
        "Todos: what `git rebase -i` with merges, autosquash, update-refs and exec hands to its editor, with its help. (Ours is `# ` before a",
        "note.) The reader of the script is written from the table of commands and the list of what may be bad.",
    )
    text = todo_of_git()
    assert text.count(b"merge -C") == 1 and b"update-ref refs/heads/up" in text, text
    add_text(cases, text, False)
    cases.group("Each command by its word and its letter, notes, blanks and ends of lines: the text that the rules give, written by hand.")
    for text, written in TEXTS:
        found = read(text, True)
        assert b"".join(map(canonical, found)) == written, text
        assert read(written, True) == found
        add_text(cases, text, True)
        add_text(cases, written, True)
    cases.group("Each kind of bad line, counted from 1 with comments and empty lines; of two kinds the earlier in the list. Written by hand.")
    for text, line, kind in BAD:
        assert read(text, False) == (line, kind), text
        add_text(cases, text, False)
    cases.group("Further lines by the same rules: words in any order.")
    choose = chooser("todos")
    for number in range(160):
        rows = []
        for _ in range(choose.randint(1, 3)):
            row = [choose.choice(PIECES[:20]), *choose.choices(PIECES[20:], k=choose.randint(0, 3))]
            front, between, end = map(choose.choice, ([b"", b"", b"\t", b"  "], [b" ", b" ", b"  ", b"\t"], [b"", b"", b" ", b"\r"]))
            rows.append(front + between.join(row) + end)
        add_text(cases, b"\n".join(rows) + choose.choice([b"", b"\n"]), number % 2 == 0)
    cases.group("Many lines.")
    line = b"pick 0123456789012345678901234567890123456789 # a subject of a commit\n"
    cases.add("todo-many", [100_000, line], ["lines", 100_000])
    cases.add("todo-many", [3, b"\nfoo\n"], ["bad-line", 2, "command"])
