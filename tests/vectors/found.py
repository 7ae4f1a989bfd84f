"""Cases of state_found. The reader here is written from the table of what each file holds, and from what the files before it say."""

import re

from . import states
from .cases import chooser
from .idents import parsed as ident_parts
from .stores import files_of as stored, given
from .todos import NAMES, canonical, read

ID = re.compile(rb"[0-9a-f]{40}\n")
QUOTED = rb"'((?:[^'<>\n\0]|'\\'')*)'\n"
SCRIPT = re.compile(rb"GIT_AUTHOR_NAME=" + QUOTED + rb"GIT_AUTHOR_EMAIL=" + QUOTED + rb"GIT_AUTHOR_DATE='@(0|-?[1-9][0-9]*) ([+-][0-9]{4})'\n")
CONTROL = re.compile(
    rb"gitseq 1\nverb (rebase|cherry-pick|revert)\nempty (drop|keep|stop)\nff (yes|no)\nreschedule (yes|no)\nstop (%s)\nhead ([0-9a-f]{40})\n"
    rb"pending (?:none|(new|amend|merge [0-9a-f]{40}) (edit|plain))\n(?:encoding ((?:[^\n]|\n )*)\n)?" % "|".join(states.STOPS).encode()
)
OPTS = re.compile(rb"\[options\]\n(?:\tmainline = (0|[1-9][0-9]*)\n)?(\tedit = true\n)?(\trecord-origin = true\n)?(\tallow-empty = true\n)?")
KINDS = {word.encode(): kind for kind, word in states.CHAIN.items()}


class Misfit(Exception):
    """No stopped list has this file and those before it."""


def wanted(found):
    if not found:
        raise Misfit
    return found


def whole_id(text):
    wanted(text is not None and ID.fullmatch(text))
    return text[:40].decode()


def rows_of(text):
    """The lines of a file that is missing where there are none."""
    if text is None:
        return []
    wanted(text.endswith(b"\n"))
    return text[:-1].split(b"\n")


def id_rows(text):
    return [whole_id(row + b"\n") for row in rows_of(text)]


def todo(text):
    if text is None:
        return []
    lines = read(text, True)
    wanted(isinstance(lines, list) and lines and b"".join(map(canonical, lines)) == text)
    return lines


def bytes_or_none(text):
    wanted(text != b"")
    return text or b""


def head_name(text):
    wanted(text is not None and text.endswith(b"\n") and (text == b"detached HEAD\n" or NAMES.is_name(text[:-1])))
    return None if text == b"detached HEAD\n" else text[:-1]


def number(text, least, most):
    wanted(text is not None and re.fullmatch(rb"(0|[1-9][0-9]*)\n", text) and least <= int(text) <= most)


def author(text):
    if text is None:
        return None
    found = wanted(SCRIPT.fullmatch(text))
    wanted(-(2**63) <= int(found[3]) < 2**63)
    return [found[1].replace(b"'\\''", b"'"), found[2].replace(b"'\\''", b"'"), int(found[3]), found[4].decode()]


def chain(text):
    items = []
    for row in rows_of(text):
        word, _, name = row.rpartition(b" ")
        wanted(word in KINDS and (KINDS[word] == "pick") == (not items))
        items.append((KINDS[word], whole_id(name + b"\n")))
    return items


def pairs(text):
    rows = [row.split(b" ") for row in rows_of(text)]
    wanted(all(len(row) == 2 for row in rows))
    return [tuple(whole_id(name + b"\n") for name in row) for row in rows]


def labels(text):
    wanted(all(row.startswith(b"refs/rewritten/") and NAMES.is_name(row) for row in rows_of(text)))
    return [row.removeprefix(b"refs/rewritten/") for row in rows_of(text)]


def updates(text):
    rows = rows_of(text)
    wanted(len(rows) % 3 == 0)
    found = [(name, *(whole_id(row + b"\n") for row in values)) for name, *values in zip(rows[0::3], rows[1::3], rows[2::3])]
    names = [name for name, _, _ in found]
    wanted(all(map(NAMES.is_name, names)) and names == sorted(set(names)))
    return [(name, *(None if value == states.ZEROS else value for value in values)) for name, *values in found]


class Reading:
    """Reads the files of a folder one after the other."""

    def __init__(self, files, verb):
        self.files = files
        self.k = states.plain(verb, None, None)
        self.places = states.places(verb)
        self.k["mainline"] = None
        self.pending_message = b""
        self.pending_author = None
        self.amended = None

    def at(self, name):
        return self.files.get(dict(self.places)[name])

    def judged(self):
        """The stopped list, or the name of the first file that no list has with those before it."""
        for name, path in self.places:
            if name == "git-rebase-todo":
                continue
            try:
                getattr(self, name.replace("-", "_").replace(".", "_").lower())(self.files.get(path))
            except Misfit:
                return name
        if self.k["verb"] == "rebase":
            text = self.at("git-rebase-todo") or b""
            lines = read(text, bool(self.k["done"]))
            self.k["left"] = lines if isinstance(lines, list) else text
        return self.k

    def head_name(self, text):
        self.k["head_name"] = head_name(text)

    def orig_head(self, text):
        self.k["orig"] = whole_id(text)

    def onto(self, text):
        self.k["onto"] = whole_id(text)

    def interactive(self, text):
        wanted(text == b"")

    def git_rebase_todo_backup(self, text):
        self.k["backup"] = bytes_or_none(text)

    def todo(self, text):
        self.k["left"] = todo(text)

    def done(self, text):
        self.k["done"] = todo(text)

    def head(self, text):
        self.k["orig"] = self.k["onto"] = whole_id(text)

    def abort_safety(self, text):
        self.k["stopped_head"] = whole_id(text)

    def opts(self, text):
        found = wanted(text is not None and OPTS.fullmatch(text))
        wanted(found[1] is None or int(found[1]) < 2**32)
        self.k["mainline"] = None if found[1] is None else int(found[1])
        self.k |= {"edit": bool(found[2]), "record-origin": bool(found[3]), "allow-empty": bool(found[4])}

    def msgnum(self, text):
        number(text, len(self.k["done"]), len(self.k["done"]))

    def end(self, text):
        number(text, len(self.k["done"]), 2**64 - 1)

    def message(self, text):
        self.pending_message = bytes_or_none(text)

    def author_script(self, text):
        self.pending_author = author(text)

    def amend(self, text):
        self.amended = None if text is None else whole_id(text)

    def stopped_sha(self, text):
        self.k["stopped_commit"] = None if text is None else whole_id(text)

    def current_fixups(self, text):
        self.k["chain"] = chain(text)

    def rewritten_list(self, text):
        self.k["rewritten"] = pairs(text)

    def rewritten_pending(self, text):
        self.k["waiting"] = id_rows(text)

    def refs_to_delete(self, text):
        self.k["labels"] = labels(text)

    def update_refs(self, text):
        self.k["updates"] = updates(text)

    def control(self, text):
        found = wanted(text is not None and CONTROL.fullmatch(text))
        verb, empty, ff, reschedule, stop, head, form, edit, encoding = found.groups()
        form = form and form.decode().split(" ")
        head = head.decode()
        if self.k["verb"] == "rebase":
            wanted(verb == b"rebase" and (form == ["amend"]) == bool(self.amended) and self.amended in (None, head))
        else:
            wanted(verb != b"rebase" and ff == reschedule == b"no" and head == self.k["stopped_head"])
            wanted(verb == b"cherry-pick" or (empty == b"stop" and not self.k["record-origin"] and not self.k["allow-empty"]))
        wanted(form or not (self.pending_message or self.pending_author or encoding is not None))
        self.k |= {"verb": verb.decode(), "empty": empty.decode(), "ff": ff == b"yes", "reschedule": reschedule == b"yes", "stop": stop.decode()}
        self.k |= {"stopped_head": head}
        if form:
            parts = {"form": form, "edit": edit == b"edit", "author": self.pending_author, "encoding": encoding}
            self.k["pending"] = parts | {"message": self.pending_message}

    def merge_msg(self, text):
        wanted(text == (self.pending_message or None))

    def beside(self, text, name):
        wanted(text == (name.encode() + b"\n" if name else None))

    def merge_head(self, text):
        form = self.k["pending"] and self.k["pending"]["form"]
        self.beside(text, form and form[0] == "merge" and form[1])

    def stopped_for(self, verb, text):
        self.beside(text, self.k["verb"] == verb and self.k["pending"] and self.k["stopped_commit"])

    def rebase_head(self, text):
        self.stopped_for("rebase", text)

    def cherry_pick_head(self, text):
        self.stopped_for("cherry-pick", text)

    def revert_head(self, text):
        self.stopped_for("revert", text)


def told_lines(lines):
    return ["lines", len(lines), *(field for parts in lines for field in parts)]


def told(k):
    """A stopped list, as it is told."""
    fields = [k["verb"], k["empty"], k["ff"], k["reschedule"], "none" if k["mainline"] is None else k["mainline"]]
    fields += [k["edit"], k["record-origin"], k["allow-empty"], k["head_name"] or "none", k["orig"], k["onto"], *told_lines(k["done"])]
    fields += told_lines(k["left"]) if isinstance(k["left"], list) else ["raw", k["left"]]
    fields += [k["backup"], "labels", len(k["labels"]), *k["labels"], "updates", len(k["updates"])]
    fields += [field for name, old, new in k["updates"] for field in (name, old or "none", new or "none")]
    fields += ["rewritten", len(k["rewritten"]), *(name for pair in k["rewritten"] for name in pair), "waiting", len(k["waiting"]), *k["waiting"]]
    fields += ["chain", len(k["chain"]), *(field for item in k["chain"] for field in item)]
    fields += [k["stop"], k["stopped_head"], k["stopped_commit"] or "none"]
    pending = k["pending"]
    if pending is None:
        return fields + ["none"]
    encoding = "none" if pending["encoding"] is None else pending["encoding"]
    return fields + [*pending["form"], pending["edit"], *(pending["author"] or ["none"]), encoding, pending["message"]]


def answer(files):
    rebases = any(path.startswith(states.FOLDERS["rebase"]) for path in files)
    verb = "rebase" if rebases else "cherry-pick"
    if not any(path.startswith(states.FOLDERS[verb]) for path in files):
        return ["nothing"]
    step = files.get(states.FOLDERS[verb] + b"in-step")
    if step is not None:
        return ["interrupted", "rebase" if rebases else "revert" if step == b"revert\n" else "cherry-pick"]
    found = Reading(files, verb).judged()
    return ["bad", found.encode()] if isinstance(found, str) else ["paused", *told(found)]


def add_read(cases, files):
    cases.add("read-state", given(files), answer(files))


def folder(k):
    """The files of a stopped list, by their paths."""
    texts = states.files_of(k)
    return {path: texts[name] for name, path in states.places(k["verb"]) if name in texts}


def made(k):
    """What is told of a stopped list of which files were written: its own parts."""
    done = read(states.todo_text(k["done"]), True)
    left = read(states.left_text(k), k["verb"] != "rebase" or bool(done))
    left = left if isinstance(left, list) else states.left_text(k)
    k = k | {"done": done, "left": left, "mainline": k["mainline"] or None}
    if k["pending"]:
        pending = k["pending"]
        who = ident_parts(pending["author"]) if pending["author"] else None
        k["pending"] = pending | {"author": who, "encoding": pending["encoding"] or None}
    return ["paused", *told(k)]


def chosen(pick, verb):
    k = states.chosen(pick, verb)
    if verb != "rebase":
        k["onto"] = k["orig"]
    return k | {"empty": "stop", "record-origin": False, "allow-empty": False} if verb == "revert" else k


def add_paused(cases, pick):
    cases.group(
        "The files of stopped lists, each written from the table of what it holds, are read as these lists. What is left of a rebase is what",
        "its todo reads as. Files of other names are not looked at.",
    )
    for verb, place in states.FOLDERS.items():
        for _ in range(14):
            k = chosen(pick, verb)
            files = folder(k)
            if pick.random() < 0.3:
                files |= {place + b"message-squash": b"x", place + b"other": b"", b".git/HEAD": b"x"}
            if answer(files) != made(k):
                raise RuntimeError(f"two readings of {files}")
            cases.add("read-state", given(files), made(k))


def example(verb):
    """A list that stopped within a chain of a rebase, or at a conflict of another."""
    name = [f"{digit}" * 40 for digit in "123456789a"]
    k = states.plain(verb, name[0], name[0])
    ident = b"A O'Thor <a@x> 1112911993 -0700"
    pending = {"form": ["new"], "edit": True, "author": ident, "encoding": b"", "message": b"two\n"}
    if verb != "rebase":
        k |= {"done": [b"pick " + name[1].encode()], "left": [b"pick " + name[2].encode() + b" # three"], "stop": "conflict"}
        k |= {"stopped_head": name[3], "stopped_commit": name[1], "pending": pending, "edit": True, "mainline": 12}
        return k | {"record-origin": verb == "cherry-pick", "done": [b"revert " + name[1].encode()] if verb == "revert" else k["done"]}
    k |= {"onto": name[1], "head_name": b"refs/heads/b", "backup": b"noop\n", "stopped_head": name[3], "stopped_commit": name[4]}
    k |= {"done": [b"pick 2", b"squash 3", b"fixup 4"], "left": [b"squash 5"], "labels": [b"l", b"m"], "rewritten": [(name[5], name[6])]}
    k |= {"waiting": [name[7], name[8]], "chain": [("pick", name[7]), ("fixup-edit", name[8])], "updates": [(b"refs/heads/c", None, name[2])]}
    return k | {"stop": "conflict", "pending": pending | {"form": ["amend"], "edit": False, "encoding": b"x\n y"}}


def lengths(text):
    """Where a file is cut: at each length, but of a long one around its lines and words."""
    if len(text) < 30:
        return range(len(text))
    ends = [at for at, byte in enumerate(text) if byte in b"\n "]
    return sorted({0, *(at + more for at in ends for more in (0, 1)), len(text) - 2} & set(range(len(text))))


def add_cut(cases):
    cases.group(
        "Each file of a stop within a squash chain, and of a cherry-pick and a revert at a conflict, cut at many lengths, and missing: it is the",
        "first that no stopped list has with those before it, or another is, or the files are those of another list, which goes on.",
    )
    for verb in states.FOLDERS:
        files = folder(example(verb))
        for path, text in files.items():
            for length in lengths(text):
                add_read(cases, files | {path: text[:length]})
            add_read(cases, {other: files[other] for other in files if other != path})


def changed(files, path, old, new):
    if old not in files[path]:
        raise RuntimeError(f"no {old} in {files[path]}")
    return files | {path: files[path].replace(old, new)}


def add_changed(cases):
    cases.group("Files of which one does not fit what those before it say, or no list has it; and some that another list has. By the same rule.")
    for verb, place in states.FOLDERS.items():
        files = folder(example(verb))
        for name, path in states.places(verb):
            add_read(cases, files | {path: b""})
            add_read(cases, files | {path: files.get(path, b"") + b"\n"})
            add_read(cases, files | {path: b"1" * 40 + b"\n"})
        control = place + b"control"
        words = {b"verb " + verb.encode(): b"verb " + other.encode() for other in states.FOLDERS if other != verb}
        words |= {b"empty stop": b"empty drop", b"ff no": b"ff yes", b"reschedule no": b"reschedule yes", b"head 4": b"head 5", b" 1": b" 2"}
        words |= {b"pending new": b"pending amend"} if verb != "rebase" else {b"pending amend": b"pending new", b"encoding x": b"encoding  x"}
        for old, new in words.items():
            add_read(cases, changed(files, control, old, new))
        add_read(cases, files | {control: files[control][: files[control].index(b"pending")] + b"pending none\n"})
    files = folder(example("rebase"))
    place = states.FOLDERS["rebase"]
    for name, old, new in (
        ("head-name", b"refs/heads/b", b"detached HEAD"),
        ("head-name", b"heads/b", b"b..c"),
        ("done", b"pick 2", b"p 2"),
        ("done", b"pick 2", b"squash 2"),
        ("done", b"pick 2", b"# 2\npick 2"),
        ("msgnum", b"3", b"03"),
        ("end", b"4", b"3"),
        ("end", b"4", b"2"),
        ("end", b"4", b"18446744073709551615"),
        ("end", b"4", b"18446744073709551616"),
        ("git-rebase-todo", b"squash 5", b"drop 5\n\n# c\nsquash 6"),
        ("git-rebase-todo", b"squash 5", b"what"),
        ("author-script", b"@1112911993", b"@9223372036854775808"),
        ("author-script", b"1112911993", b"01112911993"),
        ("current-fixups", b"pick", b"squash"),
        ("current-fixups", b"fixup -c", b"pick"),
        ("rewritten-list", b" ", b"  "),
        ("refs-to-delete", b"refs/rewritten/m", b"refs/heads/m"),
        ("update-refs", b"refs/heads/c\n", b"refs/heads/c\n" + b"1" * 40 + b"\n" + b"2" * 40 + b"\nrefs/heads/b\n"),
        ("update-refs", b"refs/heads/c\n", b"refs/heads/b\n" + b"1" * 40 + b"\n" + b"2" * 40 + b"\nrefs/heads/c\n"),
        ("update-refs", b"refs/heads/c", b"refs/heads/.c"),
        ("orig-head", b"1", b"A"),
    ):
        add_read(cases, changed(files, place + name.encode(), old, new))


def add_folders(cases):
    cases.group(
        "Which folder is read: that of a rebase where a file stands below it. Where `in-step` stands a process was interrupted, whatever the",
        "other files are; that of a cherry-pick or a revert tells which.",
    )
    both = folder(example("rebase")) | folder(example("cherry-pick"))
    cases.add("read-state", given({}), ["nothing"])
    cases.add("read-state", given({b".git/MERGE_MSG": b"m\n", b".git/REVERT_HEAD": b"x", b".git/sequencers/todo": b""}), ["nothing"])
    cases.add("read-state", given({b".git/rebase-merge/x": b""}), ["bad", b"head-name"])
    cases.add("read-state", given({b".git/sequencer/x/y": b""}), ["bad", b"head"])
    add_read(cases, both)
    add_read(cases, folder(example("cherry-pick")) | {b".git/rebase-merge/message": b"m\n"})
    for verb, place in states.FOLDERS.items():
        for text in (verb.encode() + b"\n", b"", b"revert", b"rebase\n"):
            told_verb = "rebase" if verb == "rebase" else "revert" if text == b"revert\n" else "cherry-pick"
            cases.add("read-state", given(folder(example(verb)) | {place + b"in-step": text}), ["interrupted", told_verb])
        cases.add("read-state", given({place + b"in-step": verb.encode() + b"\n"}), ["interrupted", verb])
    add_read(cases, folder(example("rebase")) | {b".git/sequencer/in-step": b"revert\n"})


def add_completed(cases, verb, repository, k):
    """The files as git left them, and then with each that no list has as the table says, until they are a list's."""
    files = stored(repository, ".git/rebase-merge", ".git/sequencer", *(".git/" + name for name in states.BESIDE))
    while True:
        found = answer(files)
        cases.add("read-state", given(files), found)
        if found[0] == "paused":
            return
        paths = dict(states.places(verb))
        path = paths[found[1].decode()]
        table = folder(k)
        # Where the file is as the table says, one before it says something else.
        others = {path} if files.get(path) != table.get(path) else set(paths.values())
        files = {other: files[other] for other in files if other not in others}
        files |= {other: table[other] for other in others if other in table}


def add_gits(cases):
    cases.group(
        "The folders that `git rebase -i`, `git cherry-pick` and `git revert` leave where they stop, and the same with one after another of the",
        "files that no stopped list has, as `control`, which git does not write, replaced by the table's.",
    )
    for stops in (states.rebases(), states.sequences()):
        for repository, k, _ in stops:
            add_completed(cases, k["verb"], repository, k)


def add(cases):
    pick = chooser("found")
    add_paused(cases, pick)
    add_cut(cases)
    add_changed(cases)
    add_folders(cases)
    add_gits(cases)
