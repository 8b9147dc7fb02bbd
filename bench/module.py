"""Reads a module by the table of docs/language.md, "Modules", and prints its instructions as `code` lists them, without headings;
with --maps also the types of the variables at each mark. It shares nothing with the program. Usage: module.py [--maps] FILE"""
import sys

NAMES = """mark int bool nil load clear store own field isnil neg add sub mul div rem eq ne lt le gt ge not jump jfalse and or check
new newtmp newiso pace put swap freeze merge read more room call ret retv enter enterf leave end print collect pop drop halt
newarr newtmparr newisoarr size bound elem putelem leaveg""".split()
TWO = {"swap", "enter", "enterf", "leaveg"}
NONE = set("""nil isnil neg add sub mul div rem eq ne lt le gt ge not check pace read more room ret retv print collect pop drop halt
size bound elem putelem""".split())
MANAGERS = ["arena", "count", "trace"]
CAPABILITIES = ["mut", "tmp", "paused", "imm", "iso"]


class Reader:
    def __init__(self, data):
        self.data, self.at = data, 0

    def number(self, size, signed=False):
        part = self.data[self.at:self.at + size]
        assert len(part) == size, "the bytes end"
        self.at += size
        return int.from_bytes(part, "big", signed=signed)

    def type(self):
        kind = self.number(1)
        if kind < 2:
            return ["int", "bool"][kind]
        return f"{CAPABILITIES[kind - 2]} {self.number(4)}"

    def many(self, part):
        return [part() for _ in range(self.number(4))]

    def shape(self):
        is_tmp, is_array = self.number(1), self.number(1)
        assert is_tmp < 2 and is_array < 2
        return is_tmp, (self.type() if is_array else self.many(self.type))

    def head(self):
        owner, cap, params = self.number(4), CAPABILITIES[self.number(1) - 2], self.many(self.type)
        return owner, cap, params, (self.type() if self.number(1) else None)

    def instruction(self):
        name = NAMES[self.number(1)]
        if name == "mark":
            return f"mark {self.number(8)}", self.many(self.type)
        if name == "int":
            return f"int {self.number(8, signed=True)}", None
        if name == "bool":
            return f"bool {['false', 'true'][self.number(1)]}", None
        if name in ("newiso", "newisoarr"):
            return f"{name} {self.number(4)} {MANAGERS[self.number(1)]}", None
        if name in NONE:
            return name, None
        return f"{name} " + " ".join(str(self.number(4)) for _ in range(2 if name in TWO else 1)), None

    def module(self):
        assert self.data[:4] == b"RGM1"
        self.at = 4
        parts = MANAGERS[self.number(1)], self.many(self.shape), self.many(self.head), self.many(self.instruction)
        assert self.at == len(self.data), "bytes stand behind the module"
        return parts


def main():
    maps, name = sys.argv[1] == "--maps", sys.argv[-1]
    with open(name, "rb") as f:
        manager, shapes, heads, instructions = Reader(f.read()).module()
    if maps:
        print(manager, *[f"class {k}: {s}" for k, s in enumerate(shapes)], *[f"method {k}: {h}" for k, h in enumerate(heads)], sep="\n")
    for address, (text, types) in enumerate(instructions):
        print(address, text, *([f"({', '.join(types)})"] if maps and types is not None else []))


main()
