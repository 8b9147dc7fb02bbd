"""What is left in a function of tests that were taken out: the conditions that nothing asks for. LLVM would take these out too,
but by then they have changed what it does with the rest, by up to 1.4 % of the instructions of a run."""
import collections
import re

VALUE = re.compile(r"%r\d+\b")
# Instructions that give a value, and do nothing else.
GIVES = re.compile(
    r"  (?P<value>%r\d+) = (?:(?P<local>alloca)|load (?!atomic|volatile)|getelementptr|ptrtoaddr|zext|sext|trunc|icmp|select|and|or|xor|add|sub|mul|shl|lshr)\b"
)
STORE = re.compile(r"  store (?P<value>.*), ptr (?P<to>%r\d+), align \d+$")
# A branch of which both arms are empty.
IDLE = re.compile(r"  br i1 %r\d+, label %(\S+), label %(\S+)\n\n\1: .*\n  br label %(\S+)\n\n\2: .*\n  br label %\3\n")


def writes_to(line, local):
    """Whether an instruction writes a local, and does nothing else with its address."""
    store = STORE.match(line)
    return bool(store) and store["to"] == local and local not in VALUE.findall(store["value"])


def without_unused(lines):
    """The lines of a function without branches that are idle, values that nothing uses, and locals that are only written."""
    lines = IDLE.sub(r"  br label %\3\n", "".join(lines)).splitlines(True)
    given, users = {}, collections.defaultdict(set)
    for number, line in enumerate(lines):
        gives = GIVES.match(line)
        if gives: given[gives["value"]] = (number, gives["local"])
        for value in VALUE.findall(line):
            if not gives or value != gives["value"]: users[value].add(number)
    gone, to_try = set(), list(given)
    while to_try:
        value = to_try.pop()
        number, is_local = given.get(value, (None, None))
        if number is None or number in gone: continue
        writes = {it for it in users[value] if is_local and writes_to(lines[it], value)}
        if users[value] - writes: continue
        for it in {number, *writes}:
            gone.add(it)
            for used in VALUE.findall(lines[it]):
                users[used].discard(it)
                to_try.append(used)
    return [line for number, line in enumerate(lines) if number not in gone]
