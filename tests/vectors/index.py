"""Cases of index_file."""

import hashlib
import struct

from .cases import Repository, chooser
from .names import HELLO, path_answer

MODES = {0o100644: "100644", 0o100755: "100755", 0o120000: "120000", 0o160000: "160000"}
SUM = 20

# An index that git 2.39.5 wrote at `git add` of `hello` and `sub/x`, and `git write-tree`: with stat words, which no two runs share.
ADDED = bytes.fromhex(
    "4449524300000002000000026b0e052c2c462b896b0e052c2c462b890000fe0000a74223000081a4000000000000000000000006"
    "ce013625030ba8dba906f756967f9e9ca394464a000568656c6c6f00000000006b0e052c2cfd46896b0e052c2cfd46890000fe00"
    "00a74225000081a4000000000000000000000002587be6b4c3f93f93c489c0111bba5596147a26cb00057375622f780000000000"
    "5452454500000035003220310a92bb5178ccb4a1f50f21e250cf6c1c9fdf7195be737562003120300aab69b4abf3bb84d4e268bd"
    "42d84e4a9a5e242bd38d2b492a2684dc8bead9267bf5a9141fb202db94"
)


def with_sum(octets):
    return octets + hashlib.sha1(octets).digest()


def written(rows):
    """The index of rows of path, stage, mode and id, with stat words of 0 and no extension."""
    text = b"DIRC" + struct.pack(">II", 2, len(rows))
    for path, stage, mode, name in rows:
        entry = bytes(24) + struct.pack(">I", int(mode, 8)) + bytes(12) + bytes.fromhex(name)
        entry += struct.pack(">H", stage << 12 | min(len(path), 0xFFF)) + path
        text += entry + bytes(8 - len(entry) % 8)
    return with_sum(text)


def answer_of(rows):
    return ["entries", len(rows), *(field for row in rows for field in row)]


def rows_of(repository):
    rows = []
    for row in repository.git("ls-files", "-s", "-z").split(b"\0")[:-1]:
        about, path = row.split(b"\t", 1)
        mode, name, stage = about.decode().split()
        rows.append((path, int(stage), mode, name))
    return rows


def info(rows):
    return b"".join(f"{mode} {name} {stage}\t".encode() + path + b"\0" for path, stage, mode, name in rows)


class Entries:
    """The entries that were read so far, and whether a further one may stand behind them."""

    def __init__(self):
        self.rows = []
        self.merged = set()

    def take(self, row):
        path, stage = row[:2]
        if self.rows and (path, stage) <= self.rows[-1][:2]:
            return False
        is_below = any(path.startswith(other + b"/") for other in self.merged)
        if path in self.merged or (stage == 0 and (is_below or any(path == other[0] for other in self.rows))):
            return False
        if stage == 0:
            self.merged.add(path)
        self.rows.append(row)
        return True


def entry_at(text, at, end):
    """The row that stands at a place, or None where it is bad, and the place behind it, or None where the text ends before."""
    if end - at < 62:
        return None, None
    mode, flags = struct.unpack(">I", text[at + 24 : at + 28])[0], struct.unpack(">H", text[at + 60 : at + 62])[0]
    length = flags & 0xFFF
    if length == 0xFFF:
        ends = text.find(b"\0", at + 62, end)
        if ends < 0:
            return None, None
        length = ends - at - 62
    behind = at + 62 + length + 8 - (62 + length) % 8
    if behind > end:
        return None, None
    path = text[at + 62 : at + 62 + length]
    is_good = mode in MODES and not flags & 0x4000 and path_answer(path) == ["ok"] and not any(text[at + 62 + length : behind])
    if flags & 0xFFF != min(length, 0xFFF):
        is_good = False
    return (path, flags >> 12 & 3, MODES[mode], text[at + 40 : at + 60].hex()) if is_good else None, behind


def read(text):
    """The entries of an index, or its first fault from the left."""
    if text[:4] != b"DIRC":
        return ["magic"]
    if len(text) < 8:
        return ["count"]
    version = struct.unpack(">I", text[4:8])[0]
    if version != 2:
        return ["version", version]
    if len(text) < 12:
        return ["count"]
    entries = Entries()
    at = 12
    for number in range(1, struct.unpack(">I", text[8:12])[0] + 1):
        row, behind = entry_at(text, at, len(text))
        if behind is None:
            return ["count"]
        if row is None:
            return ["name", number]
        if not entries.take(row):
            return ["order", number]
        at = behind
    return behind_entries(text, at, entries.rows)


def behind_entries(text, at, rows):
    while len(text) - at != SUM:
        if len(text) - at < SUM + 8:
            return ["count"]
        tag, size = text[at : at + 4], struct.unpack(">I", text[at + 4 : at + 8])[0]
        if not 0x41 <= tag[0] <= 0x5A:
            return ["extension", tag]
        at += 8 + size
        if len(text) - at < SUM:
            return ["count"]
    if text[at:] not in (hashlib.sha1(text[:at]).digest(), bytes(SUM)):
        return ["hash"]
    return answer_of(rows)


def add_plain(cases):
    cases.group(
        "Indexes that `git update-index --index-info` writes, which have stat words of 0 and no extension; their entries as `git ls-files -s`",
        "lists them; and what is written of these, which is git's file.",
    )
    other = "b6fc4c620b67d95f953a5c1c1230aaab5db5a1b0"
    rows = [
        [],
        [(b"f", 1, "100644", HELLO), (b"f", 2, "100755", HELLO), (b"f", 3, "100644", HELLO)],
        [(b"a", 0, "100644", HELLO), (b"a-b", 0, "100644", HELLO), (b"b/c", 0, "100644", HELLO)],
        [(b"a" * 4095, 0, "100644", HELLO)],
        [(b"a/" * 2047 + b"b", 0, "100644", HELLO)],
    ]
    rows += [[(b"x" * length, 0, "100644", HELLO)] for length in range(1, 11)]
    pick = chooser("indexes")
    names = [b"a", b"a-b", b"a.c", b"a0", b"b/c", b"b/d", b"b.x", b"c/d/e", b"\xc3\xa9", b"z"]
    for _ in range(25):
        chosen = []
        for name in sorted(pick.sample(names, pick.randint(1, 6))):
            stages = pick.choice([[0], [0], [1], [2], [3], [1, 2], [1, 2, 3], [2, 3]])
            chosen += [(name, stage, pick.choice(list(MODES.values())), pick.choice([HELLO, other])) for stage in stages]
        rows.append(chosen)
    files = []
    for row in rows:
        repository = Repository()
        repository.git("update-index", "-z", "--index-info", stdin=info(row or [(b"x", 0, "100644", HELLO)]))
        if not row:
            repository.git("update-index", "--force-remove", "x")
        octets = repository.read(".git/index")
        stands = rows_of(repository)
        assert octets == written(stands)
        assert read(octets) == answer_of(stands), row
        files.append(octets)
        cases.add("index", [octets.hex()], answer_of(stands))
        cases.add("index-again", [octets.hex()], [octets.hex()])
    return files


def add_marked(cases):
    cases.group(
        "Indexes with what git adds beside entries: stat words, extensions, marks, other versions. The entries as `git ls-files -s` lists them,",
        "or the fault: version 2 alone is read, an extension whose tag begins with a capital is passed over, `link` is not.",
    )
    added = [(b"hello", 0, "100644", HELLO), (b"sub/x", 0, "100644", "587be6b4c3f93f93c489c0111bba5596147a26cb")]
    cases.add("index", [ADDED.hex()], answer_of(added))
    cases.add("index-again", [ADDED.hex()], [written(added).hex()])
    for words, fault in [
        (["write-tree"], None),
        (["update-index", "--force-remove", "f"], None),
        (["update-index", "--assume-unchanged", "a"], None),
        (["update-index", "--force-untracked-cache"], None),
        (["update-index", "--skip-worktree", "a"], ["version", 3]),
        (["update-index", "--index-version", "4"], ["version", 4]),
        (["update-index", "--index-version", "3"], None),
        (["update-index", "--split-index"], ["extension", b"link"]),
    ]:
        repository = Repository()
        name = repository.put("blob", b"x")
        row = [(b"a", 0, "100644", name), (b"d/e", 0, "100755", name)]
        row += [(b"f", stage, "100644", name) for stage in (1, 2, 3) if "f" in words]
        repository.git("update-index", "-z", "--index-info", stdin=info(row))
        repository.git(*words)
        octets = repository.read(".git/index")
        if b"UNTR" in octets:
            # It holds the name of the machine and the folder.
            at = octets.index(b"UNTR")
            octets = with_sum(octets[:at] + b"UNTR" + struct.pack(">I", 3) + b"x\0y")
        if fault == ["extension", b"link"]:
            assert octets[12:16] == b"link", octets
        answer = fault or answer_of(rows_of(repository))
        assert read(octets) == answer, (words, read(octets))
        cases.add("index", [octets.hex()], answer)


def changed(text, at, byte):
    return text[:at] + bytes([byte]) + text[at + 1 :]


def add_faults(cases, files):
    cases.group(
        "Git's files with a byte changed, cut, with a trailer of zeros (index.skipHash), and with rows that may not stand: the first fault from",
        "the left, by the written rule. An entry is read whole before it is judged, its order last, and a tag before its content.",
    )
    conflict, nested = files[1], files[2]
    for text, at, byte, fault in [
        (conflict, 3, 0x44, ["magic"]),
        (conflict, 7, 3, ["version", 3]),
        (conflict, 11, 4, ["count"]),
        (conflict, 39, 0xA5, ["name", 1]),
        (conflict, 72, 0x50, ["name", 1]),
        (conflict, 73, 2, ["name", 1]),
        (conflict, 74, 0x2F, ["name", 1]),
        (conflict, 75, 1, ["name", 1]),
        (conflict, 72, 0, ["order", 2]),
        (conflict, 136, 0x10, ["order", 2]),
        (conflict, 202, 0x65, ["order", 3]),
        (nested, 210, 0x61, ["order", 3]),
        (ADDED, 156, 0x74, ["extension", b"tREE"]),
        (ADDED, 163, 0x36, ["count"]),
        (conflict, 12, 1, ["hash"]),
        (conflict, 72, 0x90, ["hash"]),
    ]:
        assert read(changed(text, at, byte)) == fault, (at, byte, fault, read(changed(text, at, byte)))
        cases.add("index", [changed(text, at, byte).hex()], fault)
    for length in range(len(ADDED)):
        fault = ["magic"] if length < 4 else ["hash"] if length == 176 else ["count"]
        assert read(ADDED[:length]) == fault
        if length % 4 in (0, 3):
            cases.add("index", [ADDED[:length].hex()], fault)
    free = changed(changed(changed(nested[:-SUM] + bytes(SUM), 72, 0x80), 210, 0x61), 208, 0x10)
    cases.add("index", [free.hex()], read(free))
    pick = chooser("changed indexes")
    for number in range(120):
        text = pick.choice([conflict, nested, *files[-10:]])
        at = pick.randrange(len(text))
        text = changed(text[:-SUM], at, pick.choice([0, 1, 0x2F, 0x61, 0xFF, text[at] ^ 1])) if at < len(text) - SUM else text[:at]
        text = with_sum(text) if number % 3 else text + bytes(SUM)
        cases.add("index", [text.hex()], read(text))
    names = [b"a", b"a/b", b"a.b", b"a/b/c", b"b", b"a0"]
    for _ in range(60):
        row = [(pick.choice(names), pick.choice([0, 0, 1, 2, 3]), "100644", HELLO) for _ in range(pick.randint(2, 4))]
        text = written(sorted(row) if pick.random() < 0.8 else row)
        cases.add("index", [text.hex()], read(text))
    cases.group("Extensions by the written rule: header and content whole before the trailer, a capital first.")
    front = written([])[:-SUM]
    parts = [b"ABCD\0\0\0\0", b"Abcd\0\0\0\2xy", b"abcd\0\0\0\0", b"[bcd\0\0\0\0", b"@bcd\0\0\0\0"]
    for behind in parts + [b"ABCD\0\0\0\1", b"abcd\0\0\0\x09", b"ABCD\0\0\0"]:
        for more in (b"", b"ZZZZ\0\0\0\1z", b"link\0\0\0\0"):
            text = with_sum(front + behind + more)
            cases.add("index", [text.hex()], read(text))


def add(cases):
    files = add_plain(cases)
    add_marked(cases)
    add_faults(cases, files)
