"""What `when` has to write behind a schedule, told by what shares nothing with it: the behaviours of the plan are done one after
another by `plain`, in a program with the same classes whose main makes the contents of the cowns, puts them into the fields of an
object of the behaviour's class, calls the method, and takes them back; and which events of a schedule do something is said by the
rule of docs/language.md, "Cowns and behaviours". So a plan has 250 cowns and behaviours at most, and no behaviour
asks whether a frozen object of one cown is that of another: here it may be, while the contents of cowns go apart as copies.
"""
import bisect
import re
import subprocess

PIECE = re.compile(r"//[^\n]*|[A-Za-z_]\w*|\d+|[^\sA-Za-z_\d]")
END = re.compile(r"^end steps (\d+) ", re.M)
MOST_STEPS = 1_000_000   # of a behaviour that ends
MOST_TOLD = 2_000        # steps that are told of one that doesn't


def owned_fields(source):
    """Of each class the names of its `iso` fields, in order."""
    pieces = [it for it in PIECE.findall(source) if not it.startswith("//")]
    classes, name, depth = {}, None, 0
    for at, piece in enumerate(pieces):
        if depth == 0 and piece == "main":
            break
        if depth == 0 and piece == "class":
            name = pieces[at + 1]
            classes[name] = []
        if depth == 1 and piece == ":" and pieces[at + 1] == "iso" and pieces[at - 2] in "{;}":
            classes[name].append(pieces[at - 1])
        depth += (piece == "{") - (piece == "}")
    return classes


class Behaviour:
    """Its name and its cowns; what its last step leaves, how many steps that takes (None where it doesn't end), the values that
    it prints, and behind how many steps each of them was printed."""

    def __init__(self, name, cowns):
        self.name, self.cowns = name, cowns
        self.end, self.steps, self.values, self.at = "waiting", None, [], []

    def printed(self, steps):
        return self.values[: bisect.bisect_right(self.at, steps)]


class Behaviours:
    """A plan's behaviours, each done alone on what those before it left."""

    def __init__(self, program, source, plan, work):
        self.program, self.work = program, work
        self.classes, self.main = source[: re.search(r"\bmain\s+arena\s*\{\s*\}\s*$", source).start()], []
        self.fields = owned_fields(source)
        self.before = 0   # (the steps of main's statements in front of the next behaviour)
        self.behaviours, cowns = [], 0
        for line in plan.splitlines():
            words = line.split(" ")
            if words[0] == "cown":
                self.main.append(f"let c{cowns}: iso {words[1]} = new iso {words[1]} in {words[2]};")
                self.before += 1
                cowns += 1
            else:
                self.behaviours.append(Behaviour(words[1], list(map(int, words[2:]))))
        self.wrote = []   # (by those that were done)
        self.stopped = set()   # (cowns of behaviours that don't end)
        for i, behaviour in enumerate(self.behaviours):
            if self.stopped.isdisjoint(behaviour.cowns):
                self.do(i, behaviour)
            else:
                self.stopped.update(behaviour.cowns)

    def run(self, statements, steps):
        """Status, lines and whole steps of the program with this main."""
        path = f"{self.work}/alone.rg"
        with open(path, "w") as file:
            file.write(self.classes + "main arena { " + " ".join(statements) + " }\n")
        ran = subprocess.run([self.program, "run", path, "--report", "--steps", str(steps)], stdin=subprocess.DEVNULL, capture_output=True, text=True)
        end = END.search(ran.stderr)
        if not end:
            raise SystemExit(f"{ran.stderr.strip()}: {path}")
        return ran.returncode, ran.stdout.split(), int(end[1]), ran.stderr.splitlines()

    def do(self, i, behaviour):
        name, method = behaviour.name.split(".")
        swaps = [f"swap c{cown}, b{i}.{field};" for cown, field in zip(behaviour.cowns, self.fields[name])]
        statements = self.main + [f"let b{i}: mut {name} = new {name};", *swaps, f"call b{i}.{method}();", *swaps]
        before = self.before + 2 + len(swaps)
        status, lines, steps, notes = self.run(statements, before + MOST_STEPS)
        wrote = len(self.wrote)
        behaviour.values = lines[wrote:]
        if status == 3:
            behaviour.end = next(line for line in notes if line.startswith("trap "))
            behaviour.steps = steps - before + 1
            self.main += [f"c{cown} = nil;" for cown in behaviour.cowns]
            self.before += len(behaviour.cowns)
        elif status == 0:
            behaviour.end = "done"
            behaviour.steps = steps - before - len(swaps)   # (main's last step is that of the empty main)
            self.main, self.before, self.wrote = statements, steps - 1, lines
        else:
            behaviour.end = "running"
            self.stopped.update(behaviour.cowns)
            behaviour.values = self.run(statements, before + MOST_TOLD)[1][wrote:]
        for k in range(1, len(behaviour.values) + 1):
            low, high = (behaviour.at or [0])[-1] + 1, behaviour.steps or MOST_TOLD
            while low < high:   # (the least number of steps behind which there are k values)
                middle = (low + high) // 2
                if len(self.run(statements, before + middle)[1]) - wrote >= k:
                    high = middle
                else:
                    low = middle + 1
            behaviour.at.append(low)

    def text(self, schedule):
        """What `when` writes behind this schedule."""
        tried = [None] * len(self.behaviours)   # the tried steps of each that has begun
        ended = [False] * len(self.behaviours)
        for i in schedule:
            it = self.behaviours[i]
            if tried[i] is None:
                if all(ended[k] for k in range(i) if not set(it.cowns).isdisjoint(self.behaviours[k].cowns)):
                    tried[i] = 0
            elif not ended[i]:
                tried[i] += 1
                ended[i] = tried[i] == it.steps
        lines = []
        for i, it in enumerate(self.behaviours):
            phase = "waiting" if tried[i] is None else it.end if ended[i] else "running"
            lines += [f"behaviour {i} {it.name} {phase}", *it.printed(tried[i] or 0)]
        return "".join(f"{line}\n" for line in lines)
