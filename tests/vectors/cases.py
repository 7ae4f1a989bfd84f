"""Cases with their wanted answers, and repositories whose git gives them."""

import hashlib
import os
import random
import tempfile
import zlib

from programs import environment, run


def quoted(octets):
    """Bytes as they stand in a case and in an answer."""
    shown = {0x0A: "\\n", 0x09: "\\t", 0x22: '\\"', 0x5C: "\\\\"}
    return '"' + "".join(shown.get(b) or (chr(b) if 0x20 <= b < 0x7F else f"\\x{b:02x}") for b in octets) + '"'


def word(value):
    """Bytes are quoted; words, ids and numbers stand as they are."""
    if isinstance(value, bytes):
        return quoted(value)
    if isinstance(value, bool):
        return "yes" if value else "no"
    return str(value) or quoted(b"")


class Cases:
    """The lines of stdin and of stdout, side by side."""

    def __init__(self):
        self.asked = []
        self.wanted = []
        self.answers = {}
        self.count = 0

    def group(self, *lines):
        """A heading, and where the answers come from."""
        if self.asked:
            self.comment("")
        for line in lines:
            self.comment("# " + line)

    def comment(self, line):
        self.asked.append(line)
        self.wanted.append(line)

    def add(self, verb, fields, answer):
        """Adds a case. One that stands already must have the same answer, and does not stand twice."""
        asked = " ".join([verb, *map(word, fields)])
        wanted = " ".join(map(word, answer))
        if self.answers.setdefault(asked, wanted) != wanted:
            raise RuntimeError(f"two answers for {asked}: {self.answers[asked]} and {wanted}")
        if len(self.answers) > self.count:
            self.asked.append(asked)
            self.wanted.append(wanted)
            self.count += 1


class Repository:
    """A repository of git in a folder of its own."""

    def __init__(self, *words):
        self.folder = tempfile.TemporaryDirectory(prefix="vectors-")
        self.env = environment(os.path.join(self.folder.name, "home"))
        self.top = os.path.join(self.folder.name, "repository")
        os.mkdir(self.top)
        self.git("init", "-q", *words)

    def try_git(self, *words, stdin=b"", env=None):
        """The exit status, and what was printed on standard output and on standard error."""
        return run(["git", *words], self.top, {**self.env, **(env or {})}, stdin)

    def git(self, *words, stdin=b"", env=None):
        status, printed, said = self.try_git(*words, stdin=stdin, env=env)
        if status != 0:
            raise RuntimeError(f"git {words} failed: {said.decode(errors='replace')}")
        return printed

    def line(self, *words, stdin=b"", env=None):
        return self.git(*words, stdin=stdin, env=env).decode().strip()

    def path(self, *parts):
        return os.path.join(self.top, *parts)

    def write(self, name, octets):
        path = self.path(name)
        os.makedirs(os.path.dirname(path), exist_ok=True)
        with open(path, "wb") as file:
            file.write(octets)

    def read(self, name):
        with open(self.path(name), "rb") as file:
            return file.read()

    def put(self, kind, content):
        """The id of an object that is put as git puts it."""
        text = kind.encode() + b" %d\0" % len(content) + content
        name = hashlib.sha1(text).hexdigest()
        path = self.path(".git", "objects", name[:2], name[2:])
        if not os.path.exists(path):
            os.makedirs(os.path.dirname(path), exist_ok=True)
            with open(path, "wb") as file:
                file.write(zlib.compress(text))
        return name

    def tree(self, entries):
        """The id of the tree of trees of a map from paths to modes and ids."""
        here = {}
        below = {}
        for path, entry in entries.items():
            first, slash, rest = path.partition(b"/")
            if slash:
                below.setdefault(first, {})[rest] = entry
            else:
                here[first] = entry
        for name, rest in below.items():
            here[name] = ("40000", self.tree(rest))
        rows = sorted(here.items(), key=lambda row: row[0] + b"/" * (row[1][0] == "40000"))
        return self.put("tree", b"".join(b"%s %s\0%s" % (m.encode(), n, bytes.fromhex(i)) for n, (m, i) in rows))

    def commit(self, tree, parents=(), message=b"m\n"):
        lines = [f"tree {tree}", *(f"parent {p}" for p in parents)]
        lines += [f"{who} Ann <ann@x> 1000 +0000" for who in ("author", "committer")]
        return self.put("commit", "\n".join(lines).encode() + b"\n\n" + message)


def chooser(name):
    """A source of choices that is the same in each run."""
    return random.Random("vectors: " + name)


def front(text, choices):
    """How many bytes of the text some of the words begin with, and the word that stands there whole, or None."""
    for at in range(len(text)):
        if not any(choice.startswith(text[: at + 1]) for choice in choices):
            return at, None
        if text[: at + 1] in choices:
            return at + 1, text[: at + 1]
    return len(text), None
