"""Cases of report_text and of the exit statuses of seq_model."""

import re

from .names import EMPTY_TREE, HELLO

STATUS = {"Done": 0, "Stopped": 1, "Usage": 2, "Refused": 3, "StoreFault": 5, "ChildFault": 6, "OutputFault": 7, "Limit": 8, "Memory": 9}

LIMITS = ["ObjectBytes", "TreeDepth", "IndexEntries", "TodoLines", "TodoBytes", "Labels", "Parents", "Commits", "Jobs"]
KINDS = ["Command", "Missing", "Extra", "Label", "RefName", "Octopus", "NoEarlier", "NoSuchCommit", "MergePicked", "OwnBranch", "NotBuilt"]

# The variants, each with its fields.
INDEX_FAULTS = "Magic; Version number; Count; Name number; Order number; Extension tag; Hash"
USAGE_FAULTS = "NoVerb; UnknownVerb bytes; Parse; Value bytes; Missing; Pair bytes bytes"
REASONS = """WouldOverwrite bytes; BadName bytes; NoBase; SeveralBases id id; BadObject id; BadHead; BadIndex; HeadMoved found; Dirty bytes;
    Limit limit number"""
STOPS = """Conflict; Edit; Break; ExecFailed exit; ExecDirty bytes; Empty id; HookRefused bytes exit; EditorFailed exit; EmptyMessage;
    DriverBroken bytes exit; Blocked reason; TodoBad number kind; RefMoved bytes found"""
REFUSALS = """NotARepository; InProgress bytes; BadHead; BadRefs number; BadConfig number; Unsupported bytes; BadIndex fault; NoSuchRev bytes;
    AmbiguousRev bytes id id; NotACommit bytes; NoParent bytes; NoLogEntry bytes; BadRevForm bytes; UnbornHead; NoIdentity; Unmerged bytes;
    Dirty bytes; Mainline id; NoBase; SeveralBases id id; Octopus id; NewRoot id; HookRefused exit; EditorFailed exit; NothingToDo;
    HeadMoved found; WouldOverwrite bytes; BadObject id; NothingInProgress; Interrupted; BadState bytes; TodoBad number kind; Unstaged bytes;
    Staged bytes; AlreadyARepository; BadPath bytes; NotTracked bytes; EmptyMessage; NotBuilt; Conflict bytes; DriverBroken bytes exit"""

BYTES = [b"a", b"a\\b\nc", b"", b"--continue", b"\xff \t\0", b"\\\\\n\n"]
NUMBERS = [0, 1, 2**64 - 1]


def named(variant):
    """A variant's name in lower case, with `-` before each later capital."""
    return re.sub("(?<!^)([A-Z])", r"-\1", variant).lower().encode()


def escaped(octets):
    return octets.replace(b"\\", b"\\\\").replace(b"\n", b"\\n")


def variants(text):
    """The words of each variant with each of its values, and what is printed of these."""
    for row in text.split(";"):
        name, *fields = row.split()
        for values in combined(fields):
            asked = [name] + [word for words, _ in values for word in words]
            yield asked, named(name) + b"".join(b" " + printed for _, printed in values)


def combined(fields):
    """Values of the fields: all of the first with one of the others, and one of the first with all of the others."""
    choices = [list(values_of(field)) for field in fields]
    seen = []
    for place, values in enumerate(choices):
        for value in values:
            row = [value if at == place else others[0] for at, others in enumerate(choices)]
            if row not in seen:
                seen.append(row)
    return seen if fields else [[]]


def values_of(field):
    if field == "bytes":
        return [([octets], escaped(octets)) for octets in BYTES]
    if field == "number":
        return [([number], b"%d" % number) for number in NUMBERS]
    if field == "id":
        return [([name], name.encode()) for name in (HELLO, EMPTY_TREE)]
    if field == "found":
        return [([name], name.encode()) for name in (HELLO, "none")]
    if field == "exit":
        return [([code], b"exit %d" % code) for code in (128, 0, 255)] + [(["Killed"], b"killed")]
    if field == "kind":
        return [([kind], named(kind)) for kind in KINDS]
    if field == "limit":
        return [([limit], named(limit)) for limit in LIMITS]
    if field == "tag":
        return [([tag], escaped(tag)) for tag in (b"link", b"\\\n\0\xff")]
    return list(variants({"fault": INDEX_FAULTS, "reason": REASONS}[field]))


def add_report(cases, outcome, words, printed):
    cases.add("report", [outcome, *words], [STATUS[outcome], printed])


def add(cases):
    cases.group(
        "Outcomes: the exit status, and what is printed. By the written rule: the variant's name in lower case with `-` before each later",
        "capital, the inner one in the same way, then the fields, with one space before each: numbers in base 10, ids in hex, an absent one as",
        "`none`, an exit as `exit N` or `killed`, bytes with `\\` as `\\\\` and a line feed as `\\n`; and a line feed. Behind a conflict stands a",
        "line for each path.",
    )
    for head in (HELLO, EMPTY_TREE):
        add_report(cases, "Done", [head], b"done " + head.encode() + b"\n")
    add_report(cases, "Done", ["none"], b"done unborn\n")
    for outcome, text in (("Stopped", STOPS), ("Usage", USAGE_FAULTS), ("Refused", REFUSALS)):
        for words, printed in variants(text):
            add_report(cases, outcome, words, named(outcome) + b" " + printed + b"\n")
    for paths in ([b"a"], [b"a", b"b/c", b"d\\e", b"f\ng"], [b"\xc3\xa9"]):
        lines = b"".join(b"U " + escaped(path) + b"\n" for path in paths)
        add_report(cases, "Stopped", ["Conflict", *paths], b"stopped conflict\n" + lines)
        add_report(cases, "Stopped", ["Edit", *paths], b"stopped edit\n")
    for outcome in ("StoreFault", "ChildFault", "OutputFault"):
        add_report(cases, outcome, [], named(outcome) + b"\n")
    for words, printed in variants("Limit limit number"):
        add_report(cases, "Limit", words[1:], printed + b"\n")
    add_report(cases, "Memory", [], b"")
    cases.group("The paths of an outcome are kept in their order.")
    for paths in ([], [b"src/a.txt"], [b"b", b"a", b"b"]):
        cases.add("outcome-paths", paths, ["paths", len(paths), *paths])
