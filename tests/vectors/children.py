"""Cases of child_jobs, and of the commands of driver_pool."""

import subprocess

from .cases import Repository, chooser

EDITORS = [b"vi", b"code --wait", b"a b", b":", b"", b"'x y'/ed"]
PATHS = [b"a", b"it's", b"a b", b"a!b", b"!'!", b"d/e.txt", b"$x", b"`x`", b"\\", b'"', b"\xc3\xa9", b"%P", b"''", b"a\nb"]
TEMPLATES = [b"m %A %P %%", b"", b"%", b"%%", b"%O %A %B %L %P", b"x%", b"%x%A", b"%%A", b"%S %X %Y", b"%%%P", b"'%P'", b"%o%a", b"%P%P"]


def add_jobs(cases):
    cases.group(
        "Jobs: how many words, the words, and the input. A command line is handed to `sh -c`; an editor too, with `\"$@\"` behind it, its own",
        "text as the shell's name and the file as its argument (git-var(1)); a hook is a file of `.git/hooks` (githooks(5)). By the written rule.",
    )
    for line in [b"make", b"a 'b' \"c\"", b"", b"exit 3 # x"]:
        cases.add("exec-job", [line], ["job", 3, b"sh", b"-c", line, b""])
    for editor in EDITORS:
        for path in (b".git/COMMIT_EDITMSG", b"it's"):
            cases.add("editor-job", [editor, path], ["job", 5, b"sh", b"-c", editor + b' "$@"', editor, path, b""])
    for name, given, words in [
        (b"pre-rebase", b"", [b"main"]),
        (b"post-commit", b"", []),
        (b"post-rewrite", b"a b\nc d\n", [b"rebase"]),
        (b"post-checkout", b"", [b"0" * 40, b"f" * 40, b"1"]),
    ]:
        cases.add("hook-job", [name, given, *words], ["job", 2 + len(words), b"sh", b".git/hooks/" + name, *words, given])


def config_of(settings):
    return b"".join(b"[%s]\n\teditor = \"%s\"\n" % setting for setting in settings)


def add_message_editors(cases):
    cases.group(
        "The editor of a message: what `git var GIT_EDITOR` says, where a variable or a setting is there. Where it is `:` none is run.",
        "Without any git has an editor of its own, and none is run here.",
    )
    repository = Repository()
    repository.env = {name: value for name, value in repository.env.items() if name not in ("EDITOR", "VISUAL", "GIT_EDITOR")}
    repository.env["TERM"] = "xterm"
    pick = chooser("editors")
    names = [b"GIT_EDITOR", b"VISUAL", b"EDITOR"]
    rows = [(b"", [])]
    for _ in range(40):
        variables = [(name, pick.choice([b"one", b"two words", b":", b"x"])) for name in names if pick.random() < 0.5]
        settings = [(b"core", b"set %d" % k) for k in range(pick.choice([0, 0, 1, 2]))]
        rows.append((config_of(settings), variables))
    for config, variables in rows:
        said = b""
        if config or variables:
            with open(repository.path(".git", "config"), "wb") as file:
                file.write(b"[core]\n\trepositoryformatversion = 0\n" + config)
            said = repository.git("var", "GIT_EDITOR", env={name.decode(): value.decode() for name, value in variables}).rstrip(b"\n")
        answer = ["none"] if said in (b"", b":") else ["editor", said]
        cases.add("editor", [False, config, *(part for row in variables for part in row)], answer)


def add_todo_editors(cases):
    cases.group(
        "The editor of a todo: GIT_SEQUENCE_EDITOR, `sequence.editor`, and then as for messages (git-var(1)). What is set first decides, an",
        "empty text too. The first variable of a name counts. By the written rule.",
    )
    both = config_of([(b"sequence", b"s"), (b"core", b"c")])
    core = config_of([(b"core", b"c")])
    all_set = [b"GIT_EDITOR", b"g", b"VISUAL", b"v", b"EDITOR", b"e"]
    rows = [
        (True, both, [b"GIT_SEQUENCE_EDITOR", b"q", *all_set], b"q"),
        (True, both, all_set, b"s"),
        (True, core, all_set, b"g"),
        (True, core, all_set[2:], b"c"),
        (True, b"", all_set[2:], b"v"),
        (True, b"", all_set[4:], b"e"),
        (True, b"", [], None),
        (True, both, [b"GIT_SEQUENCE_EDITOR", b":", *all_set], None),
        (True, config_of([(b"sequence", b":")]), all_set, None),
        (False, both, [b"GIT_SEQUENCE_EDITOR", b"q"], b"c"),
        (False, core, [b"GIT_EDITOR", b""], b""),
        (True, core, [b"GIT_SEQUENCE_EDITOR", b""], b""),
        (False, b"", [b"EDITOR", b"1", b"EDITOR", b"2"], b"1"),
        (False, b"[Core]\n\tEditor = c\n", [], b"c"),
        (False, b"[core \"x\"]\n\teditor = c\n", [], None),
    ]
    for todo, config, variables, said in rows:
        cases.add("editor", [todo, config, *variables], ["none"] if said is None else ["editor", said])


def quoted(path):
    """As sq_quote of git does it; a shell reads it back as the path."""
    text = b"'" + path.replace(b"'", b"'\\''").replace(b"!", b"'\\!'") + b"'"
    read = subprocess.run([b"sh", b"-c", b"printf %s " + text], capture_output=True, check=True).stdout
    if read != path:
        raise RuntimeError(f"sh reads {text} as {read}")
    return text


def expanded(template, path, number):
    front = b".git/merge-driver/%d" % number
    known = {b"O": front + b".base", b"A": front + b".ours", b"B": front + b".theirs", b"L": b"7", b"P": quoted(path), b"%": b"%"}
    first, *pieces = template.replace(b"%%", b"%\0").split(b"%")
    text = first
    for piece in pieces:
        letter = piece[:1].replace(b"\0", b"%")
        text += known.get(letter, b"%" + letter) + piece[1:]
    return text


def add_commands(cases):
    cases.group("The command of a merge driver (gitattributes(5)), by the written rule. `sh` reads each quoted path as the path.")
    for path in PATHS:
        cases.add("driver-command", [b"x %P", path, 1], [b"x " + quoted(path)])
    for template in TEMPLATES:
        for path, number in ((b"it's", 2), (b"d/a!", 10), (b"a", 18446744073709551615)):
            cases.add("driver-command", [template, path, number], [expanded(template, path, number)])


def add(cases):
    add_jobs(cases)
    add_message_editors(cases)
    add_todo_editors(cases)
    add_commands(cases)
