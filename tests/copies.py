"""A repository that git made, its copy for gitseq, that copy taken back, and what must be the same of them."""

import hashlib
import os

import programs
from programs import complaints, contents, git, rawgit, run


class Case:
    """A folder with an ordinary repository in `source`, and the places of its copies."""

    def __init__(self, folder):
        self.env = programs.environment(os.path.join(folder, "home"))
        self.folder = folder
        self.source = os.path.join(folder, "source")
        self.raw = os.path.join(folder, "raw")
        self.back = os.path.join(folder, "back")
        os.mkdir(self.source)
        self.git("init", "-q")
        self.settings = self.git("config", "--local", "--name-only", "--list").decode().split()

    def git(self, *words, stdin=b""):
        return git(self.source, self.env, *words, stdin=stdin)

    def write(self, path, text):
        whole = os.path.join(self.source, path)
        os.makedirs(os.path.dirname(whole), exist_ok=True)
        with open(whole, "wb") as file:
            file.write(text)
        return whole

    def commit(self, message, **files):
        for path, text in files.items():
            self.write(path, text)
        self.git("add", "-A")
        self.git("commit", "-q", "-m", message)
        return self.git("rev-parse", "HEAD").strip().decode()

    def warning(self, *more):
        """The warning that the settings of `git init`, and these, are left out."""
        return f"rawgit: .git/config is left out, with {', '.join([*self.settings, *more])}"

    def object_file(self, name):
        return os.path.join(self.source, ".git", "objects", name[:2], name[2:])


def check(found, wanted, what):
    if found != wanted:
        raise AssertionError(f"{what}: {found!r} and not {wanted!r}")


def told_by_git(folder, env, passed_over):
    """What git tells of a repository, one ref aside: its history, its index, its refs, its HEAD and what differs on disk."""
    asked = {
        "log": ["log", f"--exclude={passed_over}", "--all", "--format=raw", "--raw", "--no-abbrev"],
        "index": ["ls-files", "--stage", "-z"],
        "status": ["status", "--porcelain", "-z"],
        "refs": ["for-each-ref", "--format=%(objectname) %(objecttype) %(refname) %(symref)"],
        "reflog": ["reflog", "show", "--format=%H %gs"],
        "branch": ["symbolic-ref", "HEAD"],
        "head": ["rev-parse", "HEAD"],
    }
    told = {name: run(["git", *words], folder, env) for name, words in asked.items()}
    status, refs, said = told["refs"]
    kept = [line for line in refs.splitlines() if passed_over.encode() not in line.split()]
    told["refs"] = status, kept, said
    return told


def check_form(raw):
    """What gitseq asks of a repository: plain objects under their ids, and none of the files that it does not take."""
    repository = os.path.join(raw, ".git")
    for name in ("config", "hooks", "packed-refs", "objects/pack", "objects/info", "refs/stash"):
        check(os.path.lexists(os.path.join(repository, name)), False, f".git/{name} is there")
    objects = os.path.join(repository, "objects")
    for first in os.listdir(objects):
        for rest in os.listdir(os.path.join(objects, first)):
            with open(os.path.join(objects, first, rest), "rb") as file:
                check(hashlib.sha1(file.read()).hexdigest(), first + rest, "an object's id")


def check_index(raw):
    """Version 2, no extension, no stat words but the mode, no flags but the stage and the length of the name."""
    with open(os.path.join(raw, ".git", "index"), "rb") as file:
        text = file.read()
    check(text[:8], b"DIRC\0\0\0\2", "the start of the index")
    check(hashlib.sha1(text[:-20]).digest(), text[-20:], "the end of the index")
    at = 12
    for _ in range(int.from_bytes(text[8:12], "big")):
        check((text[at : at + 24], text[at + 28 : at + 40]), (bytes(24), bytes(12)), "stat words")
        check(text[at + 60] & 0xC0, 0, "flags")
        name = text[at + 62 : text.index(b"\0", at + 62)]
        check(int.from_bytes(text[at + 60 : at + 62], "big") & 0xFFF, min(len(name), 0xFFF), "the length of a name")
        at += (62 + len(name) + 8) // 8 * 8
    check(at, len(text) - 20, "the length of the index")


def round_trip(case, warnings, passed_over="refs/none"):
    """Both ways, with exactly these warnings. Git tells the same of the copy, and the original is as it was."""
    before = told_by_git(case.source, case.env, passed_over)
    files = contents(case.source)
    check(sorted(rawgit(case.env, "import", case.source, case.raw)), sorted(warnings), "warnings of import")
    check(contents(case.source) == files, True, "the original is as it was")
    check_form(case.raw)
    raw_files = contents(case.raw)
    check(rawgit(case.env, "export", case.raw, case.back), [], "warnings of export")
    check(contents(case.raw) == raw_files, True, "the copy for gitseq is as it was")
    check(complaints(case.back, case.env), [], "git fsck --strict")
    after = told_by_git(case.back, case.env, passed_over)
    for name, told in before.items():
        check(after[name], told, name)


def worktree(folder):
    return {path: what for path, what in contents(folder).items() if path.split(os.sep)[0] != ".git"}
