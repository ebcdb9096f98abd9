"""Prints a script in which 300 kept answers depend on one set, and half of them on another (docs/use/FORMATS.md, "Kept
results")."""

ALL = range(300)
ODD, EVEN = ALL[1::2], ALL[::2]


def host(answer: int) -> str:
    return f"n{answer % 2}.e."


def port(answer: int) -> int:
    return 5_000 + answer


def ask(line: str, reply: str) -> None:
    print(f"> {line}\n{reply}")


def read(answer: int) -> None:
    """Answers with an odd number are over an alias."""
    if answer % 2:
        ask("read 0", "ok read n1.e. A 0")
        ask("read 0", "ok read n1.e. CNAME 1")
    ask("read 0", "ok read n0.e. A 1")


def keep(answers: range) -> None:
    for answer in answers:
        ask(f"start 0 sip:{host(answer)}:{port(answer)}", "ok start")
        read(answer)
        ask("commit 0", f"target 1 udp 192.0.2.1 {port(answer)}\nok find 1")


def outdates(record: str, answers: list[int]) -> None:
    """A record of the set comes and goes, or goes and comes: these answers are looked up again, in this order."""
    first, second = ("del", "add") if "CNAME" in record else ("add", "del")
    ask(f"{first} {record}", f"ok {first} 1")
    ask(f"{second} {record}", f"ok {second} 1")
    for answer in answers:
        ask("lease 0", f"ok lease sip {host(answer)} {port(answer)} -")
        read(answer)
        ask("settle 0", "ok settle")
    ask("lease 0", "err Q1")


def edit(answers: list[int]) -> None:
    outdates("n0.e. A 192.0.2.2", answers)
    outdates("n1.e. CNAME n0.e.", [*ODD])


print("# Entries of a long list are removed, and added again after the others.")
print("$ siploc world\n> workers 1\n> zone e. 2\n> n0 A 192.0.2.1\n> n1 CNAME n0\nok zone 2 0 0 2")
keep(ALL)
edit([*ALL])
for answer in EVEN:
    ask(f"forget sip:{host(answer)}:{port(answer)}", "ok forget")
edit([*ODD])
keep(EVEN)
edit([*ODD, *EVEN])
