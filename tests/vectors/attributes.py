"""Cases of attr_rules."""

import re

from .cases import Repository, chooser

# Patterns, and the paths that are held against each.
PATTERNS = [
    (b"doc/**/*.txt", [b"doc/a.txt", b"doc/x/y/a.txt", b"a.txt"]),
    (b"*.c", [b"src/a.c", b"a.c", b"a.cc", b".c"]),
    (b"src/*.c", [b"src/a.c", b"src/x/a.c", b"a/src/a.c"]),
    (b"/a.c", [b"a.c", b"x/a.c"]),
    (b"a?c", [b"abc", b"ac", b"x/abc", b"abbc"]),
    (b"x/a?c", [b"x/a/c", b"x/abc"]),
    (b"**/b", [b"b", b"x/y/b", b"x/yb"]),
    (b"a/**", [b"a/x/y", b"a", b"a/x", b"b/a/x"]),
    (b"a/**/b", [b"a/b", b"a/x/y/b", b"a/xb", b"ab"]),
    (b"[a-c]x", [b"bx", b"dx", b"x"]),
    (b"[^a-c]x", [b"dx", b"bx"]),
    (b"[!a-c]x", [b"bx", b"dx"]),
    (b"[]a]x", [b"]x", b"ax", b"x"]),
    (b"[!]a]x", [b"bx", b"]x"]),
    (b"[a-]x", [b"-x", b"ax", b"bx"]),
    (b"[-a]x", [b"-x", b"ax"]),
    (b"[\\]]x", [b"]x", b"\\x"]),
    (b"[a\\-c]x", [b"bx", b"-x", b"cx"]),
    (b"[+--]x", [b",x", b"+x", b"-x"]),
    (b"a\\*", [b"a*", b"ab"]),
    (b"\\a\\?", [b"a?", b"ab"]),
    (b"a\\", [b"a", b"a\\"]),
    (b"a[b", [b"a[b", b"ab"]),
    (b"a[", [b"a["]),
    (b"[]", [b"]", b"[]"]),
    (b"**", [b"x/y", b"x"]),
    (b"*", [b"x/y", b"x"]),
    (b"?", [b"x/y", b"xy"]),
    (b"/**", [b"x/y", b"x"]),
    (b"/*", [b"x/y", b"x"]),
    (b"a*b*c", [b"axbxbc", b"abc", b"acb", b"axbx"]),
    (b"x**y", [b"xaby", b"xy", b"z/xay"]),
    (b"d/x**y", [b"d/xa/by", b"d/xay"]),
    (b"*/b", [b"a/b", b"b", b"a/c/b"]),
    (b"a/*", [b"a/b/c", b"a/b"]),
    (b"doc/", [b"doc", b"doc/x"]),
    (b"a/b/", [b"a/b"]),
    (b"**/a/**", [b"a/b", b"x/a/b", b"x/a", b"a"]),
    (b"*a*", [b"a", b"bab", b"b/ba", b"b"]),
    (b"[z-a]x", [b"zx", b"ax", b"mx"]),
    (b"\xc3\xa9?", [b"\xc3\xa9x", b"\xc3\xa9\xc3\xa9"]),
    (b"A", [b"a", b"A"]),
]

# Where the rule is ours: a set may hold `/`, three stars are stars, a range holds its low end.
OURS = [
    (b"a/x[/]y", b"a/x/y", True),
    (b"a/x[^b]y", b"a/x/y", True),
    (b"a**/b", b"ab/b", True),
    (b"a**/b", b"ax/y/b", False),
    (b"***/x", b"a/b/x", False),
    (b"***/x", b"a/x", True),
    (b"a/***", b"a/b/c", False),
    (b"[[:alpha:]]x", b":]x", True),
    (b"[[:alpha:]]x", b"bx", False),
    (b"**\\/a", b"x/y/a", False),
]

# The texts of .git/info/attributes, d/.gitattributes and .gitattributes, and a path.
MERGES = [
    (b"", b"", b"* merge=a\n*.c merge=b\n", b"x.c"),
    (b"", b"* merge=b\n", b"* merge=a\n", b"d/x"),
    (b"d/* -merge\n", b"* merge=b\n", b"* merge=a\n", b"d/x"),
    (b"", b"", b"*.bin binary\n", b"x.bin"),
    (b"", b"", b"[attr]m merge=z\n*.q m\n", b"x.q"),
    (b"", b"", b"[attr]m merge=z\n[attr]n m -diff\n*.q n\n", b"x.q"),
    (b"", b"[attr]m merge=z\n* m\n", b"", b"d/x"),
    (b"", b"* !merge\n", b"* merge=a\n", b"d/x"),
    (b"", b"", b"* merge -merge merge=c\n", b"x"),
    (b"", b"", b"\t x merge=a\r\n", b"x"),
    (b"", b"", b"#x merge\n!x merge\nx -merge\n", b"x"),
    (b"", b"", b"[attr]binary merge=own\n*.b binary\n", b"x.b"),
    (b"[attr]m merge=y\n* m\n", b"", b"[attr]m merge=z\n", b"x"),
    (b"", b"", b"d/ merge=a\n", b"d/x"),
    (b"", b"", b"/x merge=a\n", b"d/x"),
    (b"", b"/x merge\n", b"", b"d/x"),
    (b"", b"", b"x merge=", b"x"),
    (b"", b"", b"d/** merge=a\n", b"d/e/x"),
    (b"", b"**/x merge=c\n", b"", b"d/e/x"),
    (b"", b"", b"d/**/x merge=c\n", b"d/x"),
    (b"", b"", b"* merge=a\n**/e/* !merge\n", b"d/e/x"),
    (b"", b"e/ merge=c\ne/* merge=b\n", b"* merge=a\n", b"d/e/x"),
    (b"", b"/e/x -merge\n", b"/e/x merge=a\nd/e/x merge=c\n", b"d/e/x"),
    (b"", b"", b"[attr]m merge=z\n[attr]n m\n[attr]o n text\n*.q o\n", b"d/x.q"),
    (b"", b"* !merge\n", b"[attr]m merge=z\n* m\n", b"d/x"),
    (b"", b"", b"* binary merge\n", b"x"),
    (b"", b"", b"* merge binary\n", b"x"),
    (b"", b"", b"x\n", b"x"),
    (b"", b"", b"\n\n \t\n* merge=\xc3\xa9", b"x"),
    (b"* text\n", b"", b"* merge=a\n", b"x"),
    (b"", b"d/x merge=a\n", b"", b"d/x"),
    (b"", b"", b"* merge=a=b\n", b"x"),
    (b"", b"", b"*  merge=a\t \tmerge=b \n", b"x"),
]

# Words that mention an attribute, by a name that Git takes and by one that it does not.
NAMED = [b"_", b".x", b"x-", b"9", b"-x", b"!_.-9", b"x=#,(", b"-x=y", b"x=1=2", b"Az.0_-"]
UNNAMED = [b"# comment", b"#", b"-", b"!", b"=x", b"--x", b"-!x", b"!-x", b"x,y", b"x+y=1", b"\xc3\xa9", b"(x)", b"x\x0b", b"a/b", b"x:y", b"merge!"]


class Git:
    """What `git check-attr merge` says."""

    def __init__(self):
        self.repository = Repository()

    def ask(self, info, folder, root, paths):
        for name, text in ((".git/info/attributes", info), ("d/.gitattributes", folder), (".gitattributes", root)):
            self.repository.write(name, text)
        printed = self.repository.git("check-attr", "-z", "--stdin", "merge", stdin=b"".join(path + b"\0" for path in paths))
        return printed.split(b"\0")[2::3]


def answer_of(value):
    return [value.decode()] if value in (b"unspecified", b"set", b"unset") else ["named", value]


def add_patterns(cases, git):
    cases.group("Which paths fit a pattern: what `git check-attr` says of a rule file with the one line `PATTERN merge=hit`.")
    pick = chooser("patterns")
    rows = list(PATTERNS)
    pieces = [b"a", b"b", b"*", b"?", b"/", b"**", b"[ab]", b"\\a", b".c", b"**/", b"/**"]
    names = [b"a", b"b", b"ab", b"aab", b"b.c", b"a.c"]
    while len(rows) < len(PATTERNS) + 110:
        pattern = b"".join(pick.choices(pieces, k=pick.randint(1, 6)))
        if b"***" not in pattern:
            rows.append((pattern, [b"/".join(pick.choices(names, k=pick.randint(1, 4))) for _ in range(4)]))
    # Git 2.39 asks by two pointers whether `**` is a whole part, and so at times takes another for one.
    rows = [row for row in rows if not re.search(rb"/.*[^/]\*\*(/|$)|[^/]\*\*/", row[0])]
    for pattern, paths in rows:
        values = git.ask(b"", b"", pattern + b" merge=hit\n", paths)
        for path, value in zip(paths, values):
            cases.add("pattern", [pattern, path], [value == b"hit"])
    cases.group("Where the rule is ours: a set may hold `/` and has no named classes, three stars are plain stars, and two that are no whole part.")
    for pattern, path, fits in OURS:
        cases.add("pattern", [pattern, path], [fits])


def add_rules(cases):
    cases.group(
        "The lines of a rule file: pattern and attributes. Blanks at the front and a CR at the end go; lines that are empty, begin with `#`,",
        "`!` or `\"`, or have a word with no name of an attribute, are passed over. By the written rule.",
    )
    texts = [b"", b"a b\n", b"a", b" \ta  b c\n", b"#a b\n!c d\n\"e\" f\n", b"a b\r\nc\td e"]
    texts += [b"\n \n\t\r\n", b"a\t\n", b"a \r\n", b"a  \n", b" # x\n", b"a b \n"]
    for text in texts + [b"\r\n", b"a\rb c\n", b"[attr]m merge\n", b"a b\n\n\nc d\n", b"\xff \0\n", b"a b # c\n", b"a -b !c=d e=#\nf --g\n"]:
        rows = []
        for line in text.split(b"\n"):
            line = line.removesuffix(b"\r").lstrip(b" \t")
            if line and line[:1] not in b'#!"':
                at = min([line.index(blank) for blank in (b" ", b"\t") if blank in line], default=len(line))
                if all(re.match(rb"[-!]?[A-Za-z0-9_.][-A-Za-z0-9_.]*(=|$)", word) for word in re.split(rb"[ \t]+", line[at + 1 :]) if word):
                    rows += [line[:at], line[at + 1 :]]
        cases.add("rules", [text], ["lines", len(rows) // 2, *rows])


def add_merges(cases, git):
    cases.group(
        "The attribute `merge` of a path under .git/info/attributes, d/.gitattributes and .gitattributes: what `git check-attr merge` says.",
    )
    pick = chooser("attributes")
    rows = list(MERGES)
    patterns = [b"*", b"x", b"d/*", b"d/**", b"**/x", b"*.c", b"/x", b"e/x", b"y"]
    words = [b"merge", b"-merge", b"!merge", b"merge=a", b"merge=b", b"text", b"-diff", b"m", b"binary"]
    paths = [b"x", b"d/x", b"d/e/x", b"x.c", b"d/y"]
    while len(rows) < len(MERGES) + 90:
        texts = []
        for is_macro in (False, False, True):
            lines = [b"[attr]m merge=z\n"] * (is_macro and pick.random() < 0.5)
            for _ in range(pick.randint(0, 3)):
                lines.append(pick.choice(patterns) + b" " + b" ".join(pick.sample(words, pick.randint(1, 2))) + b"\n")
            texts.append(b"".join(lines))
        rows.append((*texts, pick.choice(paths)))
    for word in NAMED + UNNAMED:
        rows.append((b"", b"", b"* merge=a\n* " + word + b" merge=b\n", b"x"))
        rows.append((b"", b"* merge=b " + word + b"\n", b"* merge=a\n", b"d/x"))
        rows.append((b"", b"", b"[attr]m merge=b " + word + b"\n* merge=a m\n", b"x"))
    for info, folder, root, path in rows:
        value = git.ask(info, folder, root, [path])[0]
        cases.add("merge-attribute", [path, b"", info, b"d", folder, b"", root], answer_of(value))
    cases.group("Where the rule is ours: `-merge=x` and `!merge=x` mention another attribute; a CR inside a line is no blank, and no byte of a name.")
    for text, value in [(b"* -merge=x\n", b"a"), (b"* !merge=x\n", b"a"), (b"* merge=b\rmerge=c\n", b"b\rmerge=c"), (b"* text\rmerge\n", b"a"), (b"*\rmerge=b\n", b"a")]:
        cases.add("merge-attribute", [b"x", b"", b"* merge=a\n" + text], ["named", value])


def add(cases):
    git = Git()
    add_patterns(cases, git)
    add_rules(cases)
    add_merges(cases, git)
