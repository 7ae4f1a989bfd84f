"""Cases that are not answered."""


def add(cases):
    cases.group("Lines that are no case: why they are not answered. By the program's own rule.")
    for line, why in [
        ("mode", "a field is missing"),
        ("mode 100644 100644", "a field is too many"),
        ("nothing", "no verb is called so"),
        ('mode "100644', "a quote is not closed"),
        ('mode "\\q"', "no escape is written so"),
        ('mode "\\x4"', "no escape is written so"),
        ("id-order a b", "a field is not written so"),
        ("line-of-place 9 abc", "the call does not take this value"),
        (" ", "a field is missing"),
    ]:
        cases.asked.append(line)
        cases.wanted.append("unreadable: " + why)
        cases.count += 1
    for line, answer in [
        ('  mode   "100644"  ', "33188"),
        ('mode 1"006"44', "33188"),
        ('bytes-order "" ""', "equal"),
        ('bytes-order "\\x0a" "\\n"', "equal"),
    ]:
        cases.asked.append(line)
        cases.wanted.append(answer)
        cases.count += 1
