"""Cases of merge_base."""

from .cases import Repository, chooser


def number_id(number):
    return f"{number:08x}" + "0" * 32


def add_git(cases):
    cases.group(
        "Merge bases: what `git merge-base --all` prints, in byte order; and whether the first is an ancestor of the second, and the second one",
        "of the first: `git merge-base --is-ancestor`.",
    )
    repository = Repository()
    tree = repository.put("tree", b"")
    crossed = [("r", ""), ("q", ""), ("c", "r"), ("b", "r"), ("y", "cb"), ("x", "bc")]
    crossed += [("n", "q"), ("m", "xn"), ("k", "yn"), ("o", "mkc"), ("i", "")]
    pairs = ["xy", "mk", "my", "om", "yc", "xx", "xn", "io", "ro", "or", "nk", "qm"]
    graphs = [(crossed, pairs)]
    pick = chooser("graphs")
    for _ in range(12):
        letters = "abcdefghijklmn"[: pick.randint(3, 14)]
        graph = [(letter, "".join(pick.sample(letters[:at], min(at, pick.choice([0, 1, 1, 1, 2, 2, 3]))))) for at, letter in enumerate(letters)]
        graphs.append((graph, ["".join(pick.choices(letters, k=2)) for _ in range(8)]))
    walks = []
    for number, (graph, asked) in enumerate(graphs):
        names = {}
        fields = [len(graph)]
        for letter, parents in graph:
            names[letter] = repository.commit(tree, [names[parent] for parent in parents], f"{number} {letter}\n".encode())
            fields += [names[letter], len(parents), *(names[parent] for parent in parents)]
        for a, b in asked:
            found = repository.try_git("merge-base", "--all", names[a], names[b])[1].decode().split()
            ways = [repository.try_git("merge-base", "--is-ancestor", names[x], names[y])[0] == 0 for x, y in (a + b, b + a)]
            cases.add("merge-bases", [*fields, names[a], names[b]], ["bases", *sorted(found), *ways])
        walks += [(fields, names, tips) for tips in [*asked, "", asked[0] + asked[1]]]
    cases.group("Tips, and whether each commit of the graph is one or an ancestor of one: `git rev-list`. The last id is in no graph, and a tip where there is no other.")
    for fields, names, letters in walks:
        tips = [names[letter] for letter in letters]
        found = set(repository.git("rev-list", *tips).decode().split()) if tips else set()
        tips = tips or [number_id(1)]
        asked = [*names.values(), number_id(1)]
        cases.add("reached", [*fields, len(tips), *tips, *asked], [id in found for id in asked])


def postorder(parents, excluded, tips):
    """The commits that the tips reach and that are not excluded, each behind its parents, which come in their order."""
    met = []

    def visit(found):
        if found in excluded or found in met:
            return
        for parent in parents[found]:
            visit(parent)
        met.append(found)

    for tip in tips:
        visit(tip)
    return met


def add_ranges(cases):
    cases.group(
        "Excluded commits and tips: the commits that `git rev-list` prints of them, in the order of a walk from the tips: a commit behind its parents, which",
        "come in their order. The order is by that rule, which is not git's.",
    )
    repository = Repository()
    tree = repository.put("tree", b"")
    pick = chooser("ranges")
    for number in range(60):
        names = {}
        count = pick.randint(1, 24)
        for at in range(count):
            older = list(names)
            chosen = pick.sample(older[-6:], min(len(older[-6:]), pick.choice([0, 1, 1, 1, 1, 2, 2, 3])))
            names[repository.commit(tree, chosen, f"range {number} {at}\n".encode())] = chosen
        fields = [len(names), *(field for found, parents in names.items() for field in (found, len(parents), *parents))]
        for _ in range(3):
            excluded = pick.sample(list(names), min(len(names), pick.choice([0, 1, 1, 1, 2])))
            tips = pick.choices(list(names), k=pick.choice([1, 1, 1, 2, 3]))
            out = set(repository.git("rev-list", *excluded).decode().split()) if excluded else set()
            found = postorder(names, out, tips)
            if set(found) != set(repository.git("rev-list", *tips, *("^" + other for other in excluded)).decode().split()):
                raise RuntimeError(f"git lists other commits for {tips} without {excluded}")
            cases.add("range", [*fields, len(excluded), *excluded, *tips], ["range", *found])


def add_rules(cases):
    cases.group("What is not added: a commit that is there, and one with a parent that is not, the first such parent. By the written rule.")
    a, b, c = (number_id(number) for number in (1, 2, 3))
    answer = ["bases", a, True, True]
    for fields, faults in [
        ([2, a, 0, a, 0], ["double"]),
        ([2, a, 0, a, 1, b], ["double"]),
        ([2, a, 0, b, 1, c], ["no-parent", c]),
        ([2, a, 0, b, 3, a, c, b], ["no-parent", c]),
        ([2, a, 0, b, 1, b], ["no-parent", b]),
        ([3, a, 0, b, 1, c, c, 2, a, b], ["no-parent", c, "no-parent", b]),
    ]:
        cases.add("merge-bases", [*fields, a, a], faults + answer)
    cases.group("A chain of commits, numbered from 1: the first is the merge base of the first and the last. By the written rule.")
    for count in (1, 2, 100, 100_000):
        cases.add("merge-bases-of-chain", [count], ["bases", a, True, count == 1, "double"])


def add(cases):
    add_git(cases)
    add_ranges(cases)
    add_rules(cases)
