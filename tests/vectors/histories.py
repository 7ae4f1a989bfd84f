"""Cases of history over a store."""

from .cases import Repository, chooser
from .graphs import postorder
from .names import EMPTY_TREE, HELLO
from .objects import WHO, written
from .stores import given, name_of, object_path, object_text, objects_of, with_objects

OTHERS = ["1" * 40, "2" * 40]
MESSAGES = [b"one\n", b"two words\n\nbody\n", b"three \nlines\nlong \t\n\nbody\n", b"\n\n four\n", b"", b"fixup! one\n", b"six", b"\xff\n"]


def answer(repository, parents, tips, asked):
    """The graph of the tips, by the walk's order; of each commit what git prints of its parents, its tree and its subject."""
    places = postorder(parents, set(), tips)
    if set(places) != set(repository.git("rev-list", *tips).decode().split()):
        raise RuntimeError(f"git lists other commits for {tips}")
    fields = ["commits", len(places)]
    for name in asked:
        if name not in places:
            fields.append("none")
            continue
        above, tree, subject = repository.git("log", "-1", "--format=%P%n%T%n%s", "--encoding=UTF-8", name)[:-1].split(b"\n")
        ids = above.decode().split()
        fields += [places.index(name), "parents", len(ids), *ids, "tree", tree.decode(), "subject", subject]
    return fields


def add_graphs(cases):
    cases.group(
        "Tips, and commits: how many `git rev-list` prints of the tips, and of each commit its place, its parents, its tree and its subject, as `git log`",
        "prints them. A commit stands behind its parents, which are met in their order: that order is by the written rule.",
    )
    pick = chooser("histories")
    for _ in range(24):
        repository = Repository()
        parents = {}
        for at in range(pick.randint(1, 12)):
            older = list(parents)
            tree = repository.put("tree", b"") if at % 3 else repository.tree({b"f": ("100644", HELLO)})
            chosen = pick.sample(older[-5:], min(len(older[-5:]), pick.choice([0, 1, 1, 1, 2, 2, 3])))
            parents[repository.commit(tree, chosen, pick.choice(MESSAGES) if at % 4 else b"number %d\n" % at)] = chosen
        tips = pick.choices(list(parents)[-3:], k=pick.choice([1, 1, 2, 3]))
        asked = [*pick.sample(list(parents), min(len(parents), 4)), OTHERS[0]]
        cases.add("load", given(objects_of(repository, *parents)) + [len(tips), *tips, *asked], answer(repository, parents, tips, asked))
    cases.add("load", given({}) + [0, OTHERS[0]], ["commits", 0, "none"])


def commit(*parents, message=b"m\n"):
    content = written(EMPTY_TREE, list(parents), WHO, WHO, None, message)
    return name_of(object_text("commit", content)), content


def add_faults(cases):
    cases.group(
        "The first commit that the walk meets and that is missing, of another kind, no commit's text, or of other bytes than its id says lacks; of more than",
        "sixteen parents the number is told. A walk meets a commit before its parents, tips and parents in their order. By that rule.",
    )
    base, base_text = commit(message=b"base\n")
    no_commit = name_of(object_text("commit", b"tree\n"))
    many, many_text = commit(*[base] * 17)
    blob = name_of(object_text("blob", b"hello\n"))
    whole = with_objects(("commit", base_text), ("commit", many_text), ("commit", b"tree\n"), ("blob", b"hello\n"))
    damaged, _ = commit(message=b"damaged\n")
    whole[object_path(damaged)] = object_text("commit", base_text)
    bad = {OTHERS[0]: ["lacks", OTHERS[0]], OTHERS[1]: ["lacks", OTHERS[1]], blob: ["lacks", blob], no_commit: ["lacks", no_commit]}
    bad |= {damaged: ["lacks", damaged], many: ["limit", "parents", 17]}
    for name, fault in bad.items():
        cases.add("load", given(whole) + [2, base, name], fault)
        for parents in ([name], [base, name], [name, OTHERS[1]]):
            tip, text = commit(*parents)
            cases.add("load", given(whole | with_objects(("commit", text))) + [1, tip], fault)
    p, p_text = commit(base, OTHERS[0], message=b"p\n")
    m, m_text = commit(p, OTHERS[1], message=b"m\n")
    files = whole | with_objects(("commit", p_text), ("commit", m_text))
    cases.add("load", given(files) + [1, m], ["lacks", OTHERS[0]])
    cases.add("load", given(files) + [2, OTHERS[1], m], ["lacks", OTHERS[1]])
    cases.add("load", given(files) + [3, base, m, blob], ["lacks", OTHERS[0]])
    cases.add("load", given(whole) + [2, base, base, base], ["commits", 1, 0, "parents", 0, "tree", EMPTY_TREE, "subject", b"base"])


def add(cases):
    add_graphs(cases)
    add_faults(cases)
