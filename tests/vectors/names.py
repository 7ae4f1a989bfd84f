"""Cases of grammar and of seq_base."""

import hashlib

from .cases import Repository, chooser

DIGITS = b"0123456789"
HELLO = "ce013625030ba8dba906f756967f9e9ca394464a"
EMPTY_TREE = "4b825dc642cb6eb9a060e54bf8d69288fbee4904"


def stopped(text, at):
    return ["stopped", len(text) - at]


def minor(text):
    at = 0
    for allowed in (b"v", DIGITS, DIGITS, b"."):
        if at == len(text) or text[at] not in allowed:
            return stopped(text, at)
        at += 1
    begins = at
    while at < len(text) and text[at] in DIGITS:
        at += 1
    if at == len(text) or text[at] != 0x0A:
        return stopped(text, at)
    return [text[begins:at], text[at + 1 :]]


def decimal(text):
    at = 0
    while at < len(text) and text[at] in DIGITS and (at == 0 or text[0] != 0x30):
        at += 1
    if at == 0 or at == len(text) or text[at] != 0x20:
        return stopped(text, at)
    return [min(int(text[:at]), 2**64 - 1), text[at + 1 :]]


def line_of_place(text, place):
    return 1 + sum(1 for at in range(place) if text[at] == 0x0A and at + 1 < len(text))


def add_grammar(cases):
    cases.group(
        "A format of one line: `v`, two digits, `.`, digits and a line feed. The digits behind `.` and what is behind, or how many bytes",
        "are left at the first byte with which no text of the format goes on. By this rule.",
    )
    good = b"v12.345\nx"
    texts = [good, b"w12.3\n", b"v1x.3\n", b"v123.3\n", b"v12.3 \n", b"v12", b"v12.3", b"", b"v12.\n", b"v00.0\n\n", b"v12.3\0\n"]
    texts += [good[:at] for at in range(len(good))]
    texts += [good[:at] + b"-" + good[at + 1 :] for at in range(8)]
    for text in texts:
        cases.add("minor", [text], minor(text))
    cases.group(
        "A decimal number up to a space, without a 0 before other digits; above 2^64 - 1 it is that number. By this rule.",
    )
    texts = [b"0 ", b"1 x", b"10 ", b"007 ", b"00 ", b" ", b"", b"1", b"12a ", b"-1 ", b"+1 ", b"1\n"]
    texts += [b"%d 1" % n for n in (2**63 - 1, 2**63, 2**64 - 1, 2**64, 10 * 2**64, 10**40)]
    for text in texts:
        cases.add("decimal", [text], decimal(text))
    cases.group(
        "The number of the line that has the byte at a place, counted from 1; at the end of the text that of the last line. By this rule.",
    )
    for text in (b"a\n\nb\n", b"", b"\n", b"\n\n", b"ab\ncd"):
        for place in range(len(text) + 1):
            cases.add("line-of-place", [place, text], [line_of_place(text, place)])


def order(a, b):
    return ["less" if a < b else "equal" if a == b else "greater"]


def add_bytes_and_ids(cases):
    cases.group("Bytes, ids and paths compare byte by byte. By Python's order of bytes.")
    for a, b in [(b"", b""), (b"", b"\0"), (b"hello\n", b"hello\r"), (b"a", b"A"), (b"\x7f", b"\x80"), (b"ab", b"b"), (b"a\0", b"a")]:
        cases.add("bytes-order", [a, b], order(a, b))
    ids = [HELLO, EMPTY_TREE, "00" * 20, "00" * 19 + "01", "ff" * 20]
    for a in ids:
        for b in ids:
            cases.add("id-order", [a, b], order(a, b))
    for a, b in [(b"a/b", b"a/b"), (b"a/b", b"a/c"), (b"a/b", b"a-b"), (b"a/b", b"a"), (b"\xc3\xa9", b"z")]:
        cases.add("path-order", [a, b], order(a, b) + [a])
    cases.group(
        "Ids: forty hex digits in either case, else another length, else the first byte that is no digit. By this rule and bytes.fromhex;",
        "the first ids are those of Git's manuals and of hashlib.",
    )
    texts = [EMPTY_TREE, EMPTY_TREE.upper(), "4b825dc642cb6eb9A060E54BF8D69288fbee4904", HELLO, hashlib.sha1(b"blob 0\0").hexdigest()]
    texts += ["", "4b825dc", EMPTY_TREE[:39], EMPTY_TREE + "4", EMPTY_TREE[:39] + "g", EMPTY_TREE[:8] + "-" + EMPTY_TREE[9:]]
    texts += ["g" * 40, EMPTY_TREE[:20] + " " + EMPTY_TREE[21:], "/" + "0" * 39, ":" * 40, "@" + "0" * 39, "0" * 39 + "`", "G" + "0" * 39]
    for text in texts:
        bad = [at for at, digit in enumerate(text) if digit not in "0123456789abcdefABCDEF"]
        if len(text) != 40:
            answer = ["length", len(text)]
        elif bad:
            answer = ["digit", bad[0]]
        else:
            answer = [bytes.fromhex(text).hex()]
        cases.add("id", [text.encode()], answer)
    cases.group("Modes: the five that `git ls-files -s` and `git ls-tree` print (a folder's without its first 0), in base 8.")
    for text in ("100644", "100755", "120000", "160000", "40000"):
        cases.add("mode", [text.encode()], [int(text, 8)])
    for text in (b"", b"040000", b"100664", b"100644 ", b"1006440", b"100645", b"40000 ", b"0100644", b"10064", b"120777"):
        cases.add("mode", [text], ["none"])


def path_answer(path):
    if not path:
        return ["empty"]
    if len(path) > 4095:
        return ["too-long", len(path)]
    try:
        path.decode()
    except UnicodeDecodeError as fault:
        return ["not-utf8", fault.start]
    at = 0
    for part in path.split(b"/"):
        if part in (b"", b".", b"..") or part.lower() == b".git" or b"\0" in part:
            return ["bad-part", at]
        at += len(part) + 1
    return ["ok"]


def is_path_of_git(repository, path):
    """Whether `git update-index` takes a path, the rules for other file systems aside."""
    words = ["-c", "core.protectNTFS=false", "-c", "core.protectHFS=false", "update-index", "--add", "--cacheinfo", "100644", HELLO, path]
    status = repository.try_git(*words)[0]
    if status == 0:
        repository.git("read-tree", "--empty")
    return status == 0


def add_paths(cases):
    cases.group(
        "Paths: whether `git update-index --cacheinfo` takes them (core.protectNTFS and core.protectHFS off). Ours is that they are UTF-8,",
        "have at most 4,095 bytes and no NUL; the faults in the order empty, too long, not UTF-8, bad part, with its place, by the written rule.",
    )
    paths = [b"", b"a\xc3\x28", b"/a", b"a//b", b"a/", b".", b"a/./b", b"..", b"ab/../c", b".git", b".GIT/config", b"sub/.Git/hooks"]
    paths += [b"a/b\0c/..", b"..\xff", b"a", b".gitignore", b"a/.github/b", b"...", b"a b/\xc3\xa9", b"a" * 4095, b"a" * 4096]
    paths += [b".gitx", b".gi", b"x.git", b".git/", b"a/.giT", b".gIT", b"....", b".a", b"a.", b"a/..b", b"a/b..", b"-", b"a\nb", b"a\\b"]
    paths += [b"\x01", b"\x7f", b'"', b"a/\xe2\x82\xac", b"a/\xe2\x82", b"\xed\xa0\x80", b"\xf4\x90\x80\x80", b"\xc0\x80", b"//", b"/"]
    paths += [b"/.git", b"a/b/c/d/e/f", b"a/../../b", b"./a", b"../a", b"a/.", b"a/.."]
    paths += [b"a/.git", b"git", b"a/b/", b"a///b", b"CON", b"a:b"]
    pick = chooser("paths")
    parts = [b"a", b"b", b".", b"..", b"", b".git", b".Git", b"...", b"\xc3\xa9", b"\xe9", b".gitmodules", b"x\0"]
    paths += [b"/".join(pick.choices(parts, weights=[9, 9] + [1] * 10, k=pick.randint(1, 5))) for _ in range(60)]
    repository = Repository()
    for path in paths:
        answer = path_answer(path)
        if 0 < len(path) <= 4095 and b"\0" not in path and answer[0] != "not-utf8":
            assert is_path_of_git(repository, path) == (answer == ["ok"]), path
        cases.add("path", [path], answer)


def is_store_path(path):
    try:
        path.decode()
    except UnicodeDecodeError:
        return False
    return all(part not in (b"", b".", b"..") and b"\0" not in part for part in path.split(b"/"))


def add_store_paths(cases):
    cases.group("Where a store may hold a file: UTF-8, whose parts between `/` are not empty, not `.` and not `..`, without NUL. By this rule.")
    paths = [b".git/HEAD", b"a", b".GIT/x", b"\xc3\xa9", b"", b"/a", b"a/", b"a/../b"]
    paths += [b"./a", b"a\0", b"\xff", b"..", b".", b"...", b"a//b"]
    for path in paths + [b"a/..", b"..a", b".git", b"a/b/c", b"a/.", b"\xf0\x9f\x98\x80", b"\xf0\x9f\x98", b"/", b" ", b"a\nb"]:
        cases.add("store-path", [path], [is_store_path(path)])


# What may complete a front that ends within a character, and a letter.
COMPLETIONS = [c + b"a" for c in (b"", b"\x80", b"\x80\x80", b"\x80\x80\x80", b"\xa0\x80", b"\x90\x80\x80")]


class RefNames:
    """What `git check-ref-format` says of names. That a name is HEAD or below refs/, UTF-8 and without NUL, is ours."""

    def __init__(self):
        self.repository = Repository()
        self.known = {}

    def is_name(self, name):
        if name not in self.known:
            self.known[name] = self.ask(name)
        return self.known[name]

    def ask(self, name):
        if name == b"HEAD":
            return True
        try:
            name.decode()
        except UnicodeDecodeError:
            return False
        is_below = name.startswith(b"refs/") and b"\0" not in name
        return is_below and self.repository.try_git("check-ref-format", name)[0] == 0

    def goes_on(self, front):
        """Whether some name begins so."""
        if b"HEAD".startswith(front) or b"refs/".startswith(front):
            return True
        return any(self.is_name(front + completion) for completion in [b"", *COMPLETIONS])

    def answer(self, name):
        if self.is_name(name):
            return ["ok", True]
        low, high = 0, len(name)
        while low < high:
            middle = (low + high + 1) // 2
            if self.goes_on(name[:middle]):
                low = middle
            else:
                high = middle - 1
        return ["bad", low, False]


def add_ref_names(cases):
    cases.group(
        "Names of refs, and the first byte with which no name goes on: `git check-ref-format` of the name, and of completions of its fronts.",
        "That a name is HEAD or below refs/, and UTF-8, is ours. The second word is what is_ref_name says.",
    )
    names = [b"HEAD", b"refs/a", b"refs/a./b", b"refs/heads/@", b"refs/heads/a{", b"refs/heads/a.lock.b", b"refs/heads/locks"]
    names += [b"refs/heads/-a", b"refs/heads/\xc3\xa9", b"refs/heads/\xf0\x9f\x98\x80/\xed\x9f\xbf", b""]
    names += [b"HEA", b"HEADS", b"heads/a", b"refs"]
    names += [b"refs/", b"refs//a", b"refs/heads/", b"refs/heads/.a", b"refs/heads/a.", b"refs/heads/a..b", b"refs/heads/a.lock"]
    names += [b"refs/heads/a.lock/b", b"refs/heads/a@{b", b"refs/a b", b"refs/a\x1f", b"refs/a\x7f", b"refs/a~", b"refs/a^", b"refs/a:"]
    names += [b"refs/a?", b"refs/a*", b"refs/a[", b"refs/a\\", b"refs/a\xff", b"refs/a\xc3(", b"refs/a\xe0\x80", b"refs/a\xed\xa0\x80"]
    names += [b"refs/a\xf4\x90", b"refs/a\xc3", b"head", b"HEAD/a", b"refs/heads/HEAD"]
    names += [b"refs/a\0", b"refs/\xf5", b"refs/a\xc1\xbf", b"Refs/a"]
    names += [b"refs/@", b"refs/{", b"refs/a@", b"refs/.lock", b"refs/a/.lock"]
    names += [b"refs/lock", b"refs/a.lockx", b"refs/a.lock.lock", b"refs/a/.b"]
    names += [b"refs/a\n", b"refs/a\t", b"refs/a]", b"refs/!", b"refs/a/../b"]
    names += [b"refs/...", b"refs/a..", b"refs/a.b.c", b"refs/a@{", b"refs/a/"]
    names += [b"refs/\xe2\x82\xac", b"refs/\xe2\x82", b"refs/\xf0\x90\x80\x80", b"refs/\xf0\x8f\xbf\xbf", b"refs/a\x80"]
    pick = chooser("names of refs")
    letters = [b"a", b"b", b"/", b".", b"..", b"@", b"{", b".lock", b"\xc3\xa9", b"\xc3", b"~", b" ", b"\\", b"-", b"\x7f"]
    for _ in range(50):
        names.append(b"refs/" + b"".join(pick.choices(letters, weights=[8, 8, 4, 2, 1, 2, 2, 2, 2, 1, 1, 1, 1, 2, 1], k=pick.randint(1, 8))))
    names_of_git = RefNames()
    for name in names:
        cases.add("ref-name", [name], names_of_git.answer(name))


def listed(repository):
    """What the index has, each a path, a mode and an id."""
    rows = []
    for row in repository.git("ls-files", "-s", "-z").split(b"\0")[:-1]:
        about, path = row.split(b"\t", 1)
        mode, name, _ = about.decode().split()
        rows.append((path, mode, name))
    return rows


def do_clash(a, b):
    return a.startswith(b + b"/") or b.startswith(a + b"/")


def add_maps(cases):
    cases.group(
        "Maps from paths: entries are put one after the other. Which are refused, since a path would be a folder of another, and what stands",
        "then and in which order: `git update-index --add --cacheinfo` and `git ls-files -s`. The path that clashes is the first in that order.",
    )
    modes = ["100644", "100755", "120000", "160000"]
    ids = [HELLO, EMPTY_TREE]
    rows = [
        [(b"a/b", 0, 0), (b"a0", 2, 1), (b"a-b", 1, 0), (b"a/b", 0, 1)],
        [(b"d/b", 0, 0), (b"d/a", 0, 0), (b"e", 0, 0), (b"d", 0, 0), (b"e/a", 0, 0), (b"e/a/b/c", 0, 0), (b"d.c", 0, 0)],
        [],
    ]
    pick = chooser("maps")
    names = [b"a", b"b", b"a/b", b"a/b/c", b"a-b", b"a.b", b"a0", b"b/a", b"b/c", b"\xc3\xa9", b"a/c"]
    rows += [[(pick.choice(names), pick.randrange(4), pick.randrange(2)) for _ in range(pick.randint(1, 6))] for _ in range(40)]
    repository = Repository()
    for row in rows:
        repository.git("read-tree", "--empty")
        asked, answer = [], []
        for path, mode, name in row:
            mode, name = modes[mode], ids[name]
            asked += [path, mode, name]
            before = listed(repository)
            if repository.try_git("update-index", "--add", "--cacheinfo", mode, name, path)[0] != 0:
                answer += ["clash", next(other for other, _, _ in before if do_clash(path, other))]
        stands = listed(repository)
        cases.add("path-map", asked, answer + ["map"] + [field for entry in stands for field in entry])
        sought = pick.choice(names)
        found = [[mode, name] for path, mode, name in stands if path == sought]
        cases.add("path-map-get", [sought, *asked], answer + (found[0] if found else ["none"]))


def add(cases):
    add_grammar(cases)
    add_bytes_and_ids(cases)
    add_paths(cases)
    add_store_paths(cases)
    add_ref_names(cases)
    add_maps(cases)
