"""Cases of config_text."""

import re

from .cases import Repository, chooser

# What git lists: each is written in a file of its own.
LISTED = [
    b"",
    b"[core]\n\trepositoryformatversion = 0\n",
    b"[user]\n\tname = A U Thor\n\temail = <a@x>\n",
    b"[a]\nb=1\nB=2\n[A]\nb = 3\n",
    b'[a "b"]\nc=\n[A "B"]\nc=1\n[a]\nc=2\n',
    b"# c\n; d\n\n \t\n[a] ; e\n\t b = 1# f\n",
    b"[a]b=1\n",
    b'[a \t "b"] c = 1',
    b'[a "b"]',
    b'[a]\r\nb = x\r\nc = "y"\r\n',
    b"[a]\nb = x",
    b'[a]\nb = x # c\nc = "#" ; d\n',
    b'[a]\nb = 1 ; x \\\nc = 2 # "\n',
    b"[a]\n[b]\nc = \xc3\xa9 \x01\n",
    b"[a]\nb = x y  z\n",
    b"[a]\nb\nc\n[d]\ne\n",
    b"[a]\n\n\n[b]\n c = 1\n\n",
    b'[a ""]\n[b "\\""]\nc = 1\n[b " "]\nc = 2\n[b "]"]\nc = 3\n',
    b"[a]\nb-c = 1\nb1- = 2\nBC = 3\n",
    b'[a "\xc3\xa9"]\nb = \xff\n',
    b"[a]# x\nb = 1\n[c];\nd = 1\n",
    b"[a]\nb==1\nc = =\n",
    b"[a]\nb = [c]\n[d] e = [f] ; g\n",
]

# The same with dots in sections, and the settings: in git's list a dot is all that stands between section and subsection.
DOTTED = [
    (b'[Sec-1.x "Su]b \\"q\\\\\\z"] Key-1 = v\n', [(b"sec-1.x", b'Su]b "q\\z', b"key-1", b"v")]),
    (
        b"[a.b.c]\nd = 1\n[-]\ne = 2\n[.]\nf = 3\n[1]\ng = 4\n",
        [(b"a.b.c", b"", b"d", b"1"), (b"-", b"", b"e", b"2"), (b".", b"", b"f", b"3"), (b"1", b"", b"g", b"4")],
    ),
]

# Values: the text is `[a] LF b =` and these bytes.
VALUES = [
    b"",
    b' ""\n',
    b'"x y" z\n',
    b' \t" x "\t \n',
    b' a"b c"d\n',
    b' "q\\"u\\\\o\\tt\\ne\\b"\n',
    b' q\\"u\\\\o\\tt\\ne\\b\n',
    b" x\\t\n",
    b" x\\\n  y\n",
    b" \\\n  x\n",
    b" x \\\ny\n",
    b" x\\\r\ny\n",
    b' "x\\\ny"\n',
    b" x\\\n",
    b" a=b [c]\n",
    b' "a;b#c"\n',
    b' ""\\\n""\n',
    b" x\\\\\n",
    b' "" "" x\n',
    b" \\n\n",
    b' "\\n\\t\\b\\\\\\""#\n',
    b" 'x'\n",
    b" x;y\n",
    b' x";"y#z\n',
    b" $HOME ~ `x` !\n",
]

# Texts that git does not take.
REFUSED = [
    b'[a]\nb = "  \n',
    b"[a]\nb = \\x\n",
    b'[a]\nb = "x\nc = 1\n',
    b"[a]\n1b = x\n",
    b"[a]\n-b = x\n",
    b"[a]\nb c = 1\n",
    b"[a]\nb_c = 1\n",
    b"\n[a_b]\n",
    b"[]\n",
    b"[a\n]\n",
    b'[a "b]\n',
    b'[a"b"]\n',
    b'[a "b" ]\n',
    b"[a ]\n",
    b"[a b]\n",
    b'[a "x\\\ny"]\n',
    b"[a]\nb\r",
    b"[a]\n[b\n",
    b"[a]\nb.c = 1\n",
    b"[a]\n= 1\n",
    b"[ a]\n",
    b"[a]\n\xc3\xa9 = 1\n",
    b'[a]\nb = "\n',
    b'[a]\nb = x "y\\\nz\n\n',
    b"[a]\nb = 1\n]\n",
    b"[a/b]\n",
    b'["a"]\n',
    b'[a "b"c]\n',
    b'[a  b "c"]\n',
]

# Texts that git takes otherwise, with our answer and the rule.
OURS = [
    (b"[a]\n\tb\r\nc # d\n", [(b"a", b"", b"b", b"true"), (b"a", b"", b"c", b"true")]),
    (b"[a]\ne \t\n[a \"F\"] g;h\n", [(b"a", b"", b"e", b"true"), (b"a", b"F", b"g", b"true")]),
    (b"[Include]\npath = x\n[includeIf \"gitdir:/y\"]\npath = z\n[include.d]\nb = 1\n", [(b"include.d", b"", b"b", b"1")]),
    (b"[include \"x\"]\npath = y\n[INCLUDEIF]\na = 1\n", []),
    (b"# x\nb = 1\n[a]\n", 2),
    (b"x\n", 1),
    (b'[a]\nb = "" x\n', [(b"a", b"", b"b", b"x")]),
    (b'[a]\nb = x ""\n', [(b"a", b"", b"b", b"x")]),
    (b"[a]\nb = x\ty\t\tz\n", [(b"a", b"", b"b", b"x\ty\t\tz")]),
    (b"[a]\nb = x\\", 2),
    (b'[a "b"', 1),
    (b"[a]\nb = x\r", [(b"a", b"", b"b", b"x\r")]),
    (b"[a]\nb = x\ry\n", [(b"a", b"", b"b", b"x\ry")]),
    (b"[a]\r", 1),
    (b"[a]\n\r\n\r\nb = 1\r\r\n", [(b"a", b"", b"b", b"1\r")]),
    (b'[a "x\0y"]\nb = 1\n', 1),
    (b"[a]\nb = x\0y\n# \0\n", [(b"a", b"", b"b", b"x\0y")]),
    (b"[a] [b]\nc = 1\n", 1),
    (b'[a ""]\nb = 1\n', [(b"a", b"", b"b", b"1")]),
    (b"\xef\xbb\xbf[a]\n", 1),
    (b"[a]\nb = x\\\x00\n", 2),
    (b"[a]\nb = x \\t\n", [(b"a", b"", b"b", b"x \t")]),
    (b'[a]\nb = " " \n', [(b"a", b"", b"b", b" ")]),
]


class Git:
    """What `git config --file` says of a text."""

    def __init__(self):
        self.repository = Repository()

    def ask(self, text, *words):
        self.repository.write("text", text)
        return self.repository.try_git("config", "--file", "text", *words)

    def named(self, text):
        """The whole name and the value of each setting; or the bad line."""
        status, printed, said = self.ask(text, "--list", "-z")
        if status != 0:
            return int(re.search(rb"bad config line (\d+)", said)[1])
        rows = [row.partition(b"\n") for row in printed.split(b"\0")[:-1]]
        return [(name, value if has_value else b"true") for name, has_value, value in rows]

    def settings(self, text):
        """Section, subsection, key and value of each setting, where no section has a dot; or the bad line."""
        named = self.named(text)
        if isinstance(named, int):
            return named
        settings = []
        for name, value in named:
            front, key = name.rsplit(b".", 1)
            section, _, sub = front.partition(b".")
            settings.append((section, sub, key, value))
        return settings


def answer_of(settings):
    if isinstance(settings, int):
        return ["bad-line", settings]
    return ["settings", *(field for setting in settings for field in setting)]


def joined(settings):
    return [(b".".join([section] + [sub] * bool(sub) + [key]), value) for section, sub, key, value in settings]


def add_listed(cases, git):
    cases.group("Configurations: the settings as `git config --file TEXT --list -z` lists them; a key without a value is `true`.")
    rows = [(text, git.settings(text)) for text in LISTED] + DOTTED
    for text, settings in rows:
        assert joined(settings) == git.named(text)
        cases.add("config", [text], answer_of(settings))
    for octets in VALUES:
        text = b"[a]\nb =" + octets
        settings = git.settings(text)
        cases.add("config", [text], answer_of(settings))
        cases.add("config-value", [text, b"a", b"", b"b"], [settings[-1][3]])
    pick = chooser("configurations")
    lines = [b"[a]\n", b'[a "B"]\n', b"[c] b = 2\n", b"[D]# x\n", b"b = 1\n", b"\tB=x y\n"]
    lines += [b"e\n", b'f = "g h" i # j\n', b"; k\n", b"\n", b"l = \\\n m\n", b"n=\n"]
    for _ in range(60):
        text = b"[a]\n" + b"".join(pick.choices(lines, k=pick.randint(1, 7)))
        cases.add("config", [text], answer_of(git.settings(text)))


def add_values(cases, git):
    cases.group("The last value of a key, as `git config --file TEXT --get` says it: sections and keys without ASCII case, subsections as they are.")
    text = b'[Merge "X"]\ndriver = 1\nDRIVER = 2\n[merge "x"]\ndriver = 3\n[merge]\ndriver = 4\n[a]\nb = 1\nb = 2\nb =\nc\n'
    names = [(b"mERGE", b"X", b"Driver"), (b"merge", b"x", b"driver"), (b"merge", b"", b"driver")]
    names += [(b"merge", b"y", b"driver"), (b"a", b"", b"b")]
    names += [(b"A", b"", b"B"), (b"a", b"", b"d"), (b"merge", b"X", b"d")]
    names += [(b"b", b"", b"b"), (b"merg", b"X", b"driver"), (b"a", b"", b"bb")]
    for section, sub, key in names:
        status, printed, _ = git.ask(text, "-z", "--get", b".".join([section] + [sub] * bool(sub) + [key]))
        cases.add("config-value", [text, section, sub, key], [printed[:-1] if status == 0 else "none"])
    cases.add("config-value", [text, b"a", b"", b"c"], [b"true"])


def add_bad(cases, git):
    cases.group("Texts that are no configuration, and the line that git calls bad.")
    for text in REFUSED:
        line = git.settings(text)
        assert isinstance(line, int), text
        cases.add("config", [text], answer_of(line))
    cases.group(
        "Where the rule is ours: a key without a value may have a comment behind it; a key before the first section is bad; the sections",
        "include and includeIf are passed over; blanks outside quotes at a value's ends go, and those inside stay as they are; `\\` at the end",
        "of the text joins nothing; a text that ends too early is bad at its last line; a CR goes before LF alone; no NUL in a subsection;",
        "one header a line; `[a \"\"]` is `[a]`; no byte order mark.",
    )
    for text, settings in OURS:
        cases.add("config", [text], answer_of(settings))


def add(cases):
    git = Git()
    add_listed(cases, git)
    add_values(cases, git)
    add_bad(cases, git)
