"""How a program came to a trap: the calls that were open, and what the variables had. Read by tools/explain.

`reggio` tells the kind and the line of a trap and nothing more. So the program is run again, on the same input, with
statements put into its canonical text that print numbers of their own: one in front of each call and one behind it, which
give the calls that are open, and those that print the variables in front of the statement that trapped. A `print` makes no
object, so nothing else of the run is another one than before."""
import re
import subprocess

from outline import Outline, Source, text

BASE = 8_100_000_000_000_000_000   # the numbers of this tool's own prints begin here
NONE = BASE - 1                    # in place of what isn't reached, as nil stands in front of it
MOST = 1_000_000_000               # steps
SHOWN = 12                         # things that are printed in front of a statement


def guarded(before, put):
    """A statement that prints, where nothing in front of it is nil."""
    for it in reversed(before):
        put = f"if {it} is nil {{ print {NONE}; }} else {{ {put} }}"
    return put


class Trace:
    def __init__(self, reggio, source):
        self.reggio, self.source = reggio, source
        self.canon = Source(reggio.say("fmt", source.code)[1])
        self.lines = self.canon.code.split(b"\n")
        self.outline = Outline(self.canon)
        theirs = [at for at in range(len(source.tokens)) if source.token(at) not in (b"(", b")")]
        mine = [at for at in range(len(self.canon.tokens)) if self.canon.token(at) not in (b"(", b")")]
        self.twin = dict(zip(mine, theirs))

    def line_in_source(self, line):
        at = next((self.twin[k] for k in self.canon.on(line) if k in self.twin), None)
        return self.source.line_of(self.source.tokens[at][0]) if at is not None else line

    def body_at(self, line):
        some = self.canon.on(line)
        body = self.outline.body_of(some[0]) if len(some) else None
        return body

    def name_of(self, body):
        if body is None or body.home is None:
            return "main"
        return f"{text(body.home.name)}.{text(body.method.name)}"

    def run(self, code, given, steps):
        """Runs a text, and yields its lines of output; the last thing is the trap's kind and line, or None."""
        with open(self.reggio.file, "wb") as file:
            file.write(code)
        with open(given, "rb") as stream:
            asked = subprocess.Popen([self.reggio.at, "run", self.reggio.file, "--steps", str(steps)], stdin=stream, stdout=subprocess.PIPE, stderr=subprocess.PIPE)
            for line in asked.stdout:
                yield line
            notes = asked.stderr.read()
            asked.wait()
        found = re.search(rb"^trap (\w+) at line (\d+)$", notes, re.M)
        yield (text(found[1]), int(found[2])) if found else None

    def shown(self, line):
        """What is printed in front of a statement: (what, whether its value is shown, the statement that prints it); of the
        statement's own paths each part, and behind them the other variables."""
        some = self.canon.on(line)
        body = self.outline.body_of(some[0])
        if body is None:
            return
        names = {it.name: type for it, type in self.outline.walk(body, some[0])[0]}
        last = len(self.canon.tokens) if not some else some[-1]
        k, seen = some[0], set()
        while k <= last:
            word = self.canon.token(k)
            if word not in names or self.canon.token(k - 1) in (b".", b"let", b"as"):
                k += 1
                continue
            path, before = [word], []
            while True:
                thing, type = self.outline.use(k)
                if thing is None or thing.kind == "method" or not type:
                    break
                spelt = text(b".".join(path))
                if spelt not in seen and spelt != "self":
                    seen.add(spelt)
                    yield spelt, not type[1], guarded(before, f"print {spelt};" if not type[1] else f"print {spelt} is nil;")
                home = self.outline.classes.get(type[1]) if type[1] else None
                if home is not None and home.element and type[0] != b"iso" and f"size {spelt}" not in seen:
                    seen.add(f"size {spelt}")
                    yield f"size {spelt}", True, guarded([*before, spelt], f"print size {spelt};")
                if type[1] and spelt != "self":
                    before.append(spelt)
                if k + 2 > last or self.canon.token(k + 1) != b".":
                    break
                k += 2
                path.append(self.canon.token(k))
            k += 1
        for name, type in names.items():
            if type and text(name) not in seen and name != b"self":
                yield text(name), not type[1], f"print {text(name)};" if not type[1] else f"print {text(name)} is nil;"

    def probes(self, line):
        """Those that the checker takes there."""
        for path, is_plain, put in list(self.shown(line))[:SHOWN]:
            code = b"\n".join([*self.lines[:line - 1], put.encode(), *self.lines[line - 1:]])
            if self.reggio.fault(code)[0] is None:
                yield path, is_plain, put

    def find(self, given):
        """The calls that were open at the trap, outermost first, as (line, text, where), then the body, and the variables."""
        *_, trap = self.run(self.canon.code, given, MOST)
        if trap is None:
            return None
        kind, line = trap
        probes = list(self.probes(line))
        calls = [k for k, said in enumerate(self.lines, 1) if re.search(rb"(^|= )\s*call ", said)]
        number = {k: n for n, k in enumerate(calls)}
        end = None
        if re.match(rb"\s*while ", self.lines[line - 1]):
            indent = len(self.lines[line - 1]) - len(self.lines[line - 1].lstrip())
            end = next((k for k in range(line + 1, len(self.lines) + 1) if self.lines[k - 1] == b" " * indent + b"}"), None)
        asked = " ".join([f"print {BASE};", *(put for _, _, put in probes)]).encode()
        out = []
        for k, said in enumerate(self.lines, 1):
            if probes and k in (line, end):
                out.append(asked)
            if k in number:
                out += [b"print %d;" % (BASE + 1 + 2 * number[k]), said, b"print %d;" % (BASE + 2 + 2 * number[k])]
            else:
                out.append(said)
        code = b"\n".join(out)
        if self.reggio.fault(code)[0] is not None:
            return None
        stack, values, left = [], [], 0
        for it in self.run(code, given, MOST):
            if it is None or isinstance(it, tuple):
                trapped = it
            elif left:
                values.append(text(it.strip()))
                left -= 1
            elif it[:3] == b"810" and BASE <= int(it) < BASE + 1 + 2 * len(calls) + 2:
                n = int(it) - BASE
                if n == 0:
                    values, left = [], len(probes)
                elif n % 2:
                    stack.append(calls[n // 2])
                elif stack:
                    stack.pop()
        if trapped is None or trapped[0] != kind:
            return None
        if line in number and stack and stack[-1] == line:
            stack.pop()  # (the call itself trapped, and opened nothing)
        had = [(path, value if is_plain else "nil" if value == "true" else "not nil") for (path, is_plain, _), value in zip(probes, values) if value != str(NONE)]
        return [(self.line_in_source(k), text(self.lines[k - 1].strip()), self.name_of(self.body_at(k))) for k in stack], self.name_of(self.body_at(line)), had


def said(found):
    """The lines that tell it."""
    stack, body, had = found
    if had:
        yield f"In front of it, in `{body}`, " + ", ".join(f"`{path}` is {value}" for path, value in had) + "."
    if stack:
        yield "The calls that were open, the last one first:"
        k = len(stack) - 1
        while k >= 0:
            here, same = stack[k], 1
            while k - same >= 0 and stack[k - same] == here:
                same += 1
            yield f"  `{here[1]}` at line {here[0]}, in `{here[2]}`" + (f" ({same} times)" if same > 1 else "")
            k -= same
