"""What is to be said of a plan that `reggio when` refuses: why its first bad line is none, and lines that it takes in its
place. Read by tools/explain. An edit is shown only where `when` says that the plan is good with it, or that its next fault
stands on a later line."""
import re
import subprocess

from outline import Outline, Source, text, top

FAULT = re.compile(rb"^(E9[345] \w+) at line (\d+)$", re.M)
MANAGERS = ("arena", "count", "trace")


class Plan:
    """A plan for a program, and what `when` says of it."""

    def __init__(self, program, file, source, plan, folder, keep=None):
        self.program, self.file, self.plan, self.keep = program, file, plan, keep
        self.at = f"{folder}/plan"
        self.outline = Outline(Source(source))
        self.classes = {text(name): it for name, it in self.outline.classes.items()}

    def fault(self, plan, schedule=b""):
        """The code and the line of the fault of a plan, and what was written."""
        with open(self.at, "wb") as file:
            file.write(plan)
        more = ["--keep", self.keep] if self.keep is not None else []
        asked = subprocess.run([self.program, "when", self.file, self.at, *more], input=schedule, capture_output=True)
        found = FAULT.search(asked.stderr)
        return (text(found[1]), int(found[2]), asked) if found else (None, 0, asked)

    def lines(self):
        return self.plan.split(b"\n")

    def iso_fields(self, home):
        return [it for it in sorted(home.members.values(), key=lambda it: it.at) if it.kind == "field" and it.type and it.type[0] == b"iso"]

    def cowns(self, before):
        """The classes of the cowns that the lines before one make, in order."""
        for line in self.lines()[:before]:
            words = text(line).split(" ")
            if words[0] in ("cown", "load") and len(words) == 3:
                yield words[1]

    def methods(self):
        """The methods that may be behaviours: `def mut`, without parameters and result, of a class with `iso` fields."""
        for name, home in self.classes.items():
            if not home.is_tmp and not home.element and self.iso_fields(home):
                for it in sorted(home.members.values(), key=lambda it: it.at):
                    if it.kind == "method" and it.receiver == b"mut" and not it.params and not it.type:
                        yield name, text(it.name)

    def takes(self, line, put):
        """Whether a plan is good with another line in place of one, or None without it: 1, or 2 where its next fault comes later."""
        some = self.lines()
        some[line - 1:line] = [] if put is None else [put.encode()]
        if put is not None and line == len(self.lines()):
            some.append(b"")
        code, where, _ = self.fault(b"\n".join(some))
        return 1 if code != "E93 plan" else 2 if where > line - (put is None) else 0


def same(name, some):
    """The name that is written with other small and capital letters."""
    return next((it for it in some if it.lower() == name.lower()), None)


def listed(some):
    """Names that are there, at most eight."""
    some = [f"`{it}`" for it in some]
    return ", ".join(some[:8]) + (f" and {len(some) - 8} more" if len(some) > 8 else "")


def counted(how_many, what):
    return f"{how_many or 'no'} {what}{'s' * (how_many != 1)}"


def of_line(plan, line):
    """What is to be said of a line of a plan, and the lines that are tried in its place (None: without it)."""
    lines = plan.lines()
    raw = lines[line - 1] if line <= len(lines) else b""
    said, tries = [], []
    if line == len(lines) and raw:
        said.append("The last line has no end of a line: it ends with byte 10, as each does.")
        tries.append(text(raw))
    shown = text(raw)
    if not raw.strip() or re.match(r"\s*(//|#|--|;)", shown):
        said.append("A plan has no empty lines and no comments.")
        tries.append(None)
        return said, tries
    plain = re.sub(r"\s*(//|#).*$", "", shown) if "/" not in shown.split(" ")[-1] or "//" in shown else shown
    if plain != shown:
        said.append("A plan has no comments.")
        tries.append(plain.strip())
    one = " ".join(plain.split())
    if one != shown:
        said.append("Between the words of a line stands one blank, and none in front of them or behind them" + (" (here a byte 13 stands at the end, as some editors write it)." if shown.endswith("\r") else "."))
        tries.append(one)
    words = re.sub(r"[(),;]|\band\b", " ", one).split()
    if words != one.split():
        said.append("The numbers of the cowns follow the method with single blanks: no parentheses and no commas.")
        tries.append(" ".join(words))
    first = words[0] if words else ""
    kind = first if first in ("cown", "load", "when") else same(first, ["cown", "load", "when"])
    if first not in ("cown", "load", "when"):
        said.append("A line begins with `cown`, `load` or `when`.")
        if kind is None:
            kind = "when" if any("." in it for it in words[1:2]) else "cown" if words[-1:] and words[-1] in MANAGERS else None
        if kind is None and "." in first:
            words, kind = ["when", *words], "when"
        elif kind is not None:
            words = [kind, *words[1:]]
        if kind is not None:
            tries.append(" ".join(words))
    if kind == "when":
        more, lines_ = of_behaviour(plan, line, words)
    elif kind == "cown":
        more, lines_ = of_cown(plan, words)
    elif kind == "load":
        more, lines_ = of_load(plan, words)
    else:
        more, lines_ = [], []
    return said + more, tries + lines_


def known_class(plan, name, said):
    """The class that is named."""
    if name in plan.classes:
        return name
    said.append(f"There is no class `{name}`" + (f": there are {listed(plan.classes)}." if plan.classes else "."))
    return same(name, plan.classes)


def of_cown(plan, words):
    said, tries = [], []
    rest = [it for it in words[1:] if it not in ("in", "iso", "mut", "new", "of", "=")]
    manager = next((it for it in rest if it in MANAGERS), None)
    names = [it for it in rest if it not in MANAGERS]
    if len(words) != 3 or manager is None:
        said.append("`cown` has the class of its content, and then the manager of its region: `arena`, `count` or `trace`.")
    if not names:
        return said, [f"cown {it} arena" for it in plan.classes]
    name = known_class(plan, names[0], said)
    if name is None:
        return said, tries
    home = plan.classes[name]
    if home.is_tmp:
        said.append(f"`{name}` is a `tmp class`, and a temporary ends with its window: a cown begins with an object of an ordinary class.")
        return said, tries
    if home.element:
        said.append(f"`{name}` is an array class, and an array has no size of its own: a cown begins with one new object, of a class with a field that leads to the array.")
        tries += [f"cown {it} {manager or 'arena'}" for it, other in plan.classes.items() if not other.element and any(field.kind == "field" and field.type and field.type[1] == home.name for field in other.members.values())]
        return said, tries
    tries += [f"cown {name} {it}" for it in ([manager] if manager else MANAGERS)]
    return said, tries


def of_load(plan, words):
    said, tries = [], []
    if len(words) != 3:
        said.append("`load` has the class of the bridge, and then the name of the file, which has no blank; the managers are in the image.")
    rest = [it for it in words[1:] if it not in MANAGERS]
    files = [it for it in rest if "." in it or "/" in it]
    names = [it for it in rest if it not in files]
    if len(words) > 3 and names and len(rest) > 2:
        said.append("A file whose name has a blank can't be named: rename it.")
    name = known_class(plan, names[0], said) if names else None
    if name and plan.classes[name].is_tmp:
        said.append(f"`{name}` is a `tmp class`: no content has a temporary.")
        return said, tries
    if len(rest) > 2:
        return said, tries
    if not files and len(names) > 1:
        files = [names[1]]
    for it in [name] if name else [it for it, home in plan.classes.items() if not home.is_tmp]:
        if files:
            tries.append(f"load {it} {files[0]}")
    return said, tries


def of_behaviour(plan, line, words):
    said, tries = [], []
    target = words[1] if len(words) > 1 else ""
    home_name, _, method = target.partition(".")
    numbers = words[2:]
    if not method:
        fits = [f"{one}.{it}" for one, it in plan.methods() if it == home_name or one == home_name]
        said.append("`when` has a class and its method, with a point between them, and then the numbers of cowns.")
        for it in fits:
            more, lines = of_behaviour(plan, line, ["when", it, *numbers])
            tries += [f"when {it} {' '.join(numbers)}".rstrip(), *lines]
        return said, tries
    name = known_class(plan, home_name, said)
    if name is None:
        return said, tries
    home = plan.classes[name]
    have = {text(it.name): it for it in home.members.values() if it.kind == "method"}
    if method not in have:
        can = [it for one, it in plan.methods() if one == name]
        said.append(f"`{name}` has no method `{method}`" + (f": what may be a behaviour there is {listed(can)}." if can else "."))
        method = can[0] if len(can) == 1 else None
        if method is None:
            can = list(plan.methods())
            if can:
                said.append(f"Methods that may be behaviours are {listed(f'{one}.{it}' for one, it in can)}.")
            return said, tries
    it = have[method]
    if it.receiver != b"mut" or it.params or it.type or home.is_tmp:
        lacks = [what for is_so, what in ((it.receiver != b"mut", "its receiver is another one"), (it.params, "it has parameters"), (it.type, "it has a result")) if is_so]
        said.append(f"A behaviour is a method `def mut {method}()` of an ordinary class, and this is `{it.said()}`: {', '.join(lacks)}." if lacks else f"`{name}` is a `tmp class`.")
        said.append("What it needs stands in the contents of its cowns, and what it finds out it prints or writes there.")
        others = [one for home_, one in plan.methods() if home_ == name]
        tries += [f"when {name}.{one} {' '.join(numbers)}" for one in others]
        return said, tries
    fields = plan.iso_fields(home)
    cowns = list(plan.cowns(line - 1))
    wants = [text(field.type[1]) for field in fields]
    spelt = ", ".join(f"`{text(field.name)}: iso {want}`" for field, want in zip(fields, wants))
    if not fields:
        said.append(f"`{name}` has no `iso` field: a behaviour has one cown at least, and a field for each.")
        return said, tries
    tries.append(f"when {name}.{method} {' '.join(numbers)}")
    if len(numbers) != len(fields):
        said.append(f"`{name}` has {counted(len(fields), '`iso` field')} ({spelt}), each of which takes a cown, in order; here stand{'s' * (len(numbers) == 1)} {counted(len(numbers), 'number')}.")
    good = []
    for k, number in enumerate(numbers):
        if not re.fullmatch(r"[0-9]{1,4}", number):
            said.append(f"`{number}` is no number of a cown: one has 1 to 4 digits, and they count from 0." + (" A cown has no name." if re.match(r"[A-Za-z]", number) else ""))
            good.append(None)
            continue
        at = int(number)
        if at >= len(cowns):
            later = [k for k, one in enumerate(plan.lines()) if one.startswith((b"cown ", b"load ")) and k >= line]
            said.append(f"There is no cown {at} above this line: {counted(len(cowns), 'cown')} stand{'s' * (len(cowns) == 1)} there, counted from 0" + (", and one that a behaviour takes stands in front of it." if later else "."))
            good.append(None)
            continue
        if number in numbers[:k]:
            said.append(f"Cown {at} stands twice: nobody takes one content twice.")
        if k < len(fields) and cowns[at] != wants[k]:
            said.append(f"Cown {at} has an object of `{cowns[at]}`, and the field `{text(fields[k].name)}` wants one of `{wants[k]}`.")
        good.append(at)
    # the numbers that would do: those that are good stay
    choices = [[]]
    for k, want in enumerate(wants):
        mine = good[k] if k < len(good) else None
        fits = [n for n, one in enumerate(cowns) if one == want]
        fits = sorted(fits, key=lambda n: n != mine)
        choices = [[*some, n] for some in choices for n in fits if n not in some][:24]
    choices.sort(key=lambda some: sum(n != m for n, m in zip(some, good)))
    if len(good) == len(wants) == len(set(good)) and all(n is not None and cowns[n] == want for n, want in zip(good, wants)):
        choices = choices[:1]
    tries += [f"when {name}.{method} {' '.join(map(str, some))}" for some in choices[:2]]
    if not choices:
        lack = [want for want in dict.fromkeys(wants) if sum(one == want for one in cowns) < wants.count(want)]
        said.append(f"Above this line there are too few cowns: {', '.join(f'`cown {want} arena`' for want in lack)} has to stand there.")
    return said, tries


def explain(plan, code, line):
    """What is to be said, and lines that are taken in place of one: pairs of a line and whether the whole plan is good then."""
    if code == "E95 image":
        words = text(plan.lines()[line - 1]).split(" ")
        seen = subprocess.run([f"{top}/tools/image", words[-1], "--program", plan.file], capture_output=True, text=True)
        said = [it for it in (seen.stdout + seen.stderr).splitlines() if it.strip()]
        return [f"`{words[-1]}` holds no image that a cown with a `{words[1]}` may have. tools/image says of it:", *said[:6]], []
    if line == 0:
        main = next((it for it in plan.outline.things if it.kind == "main"), None)
        toks = plan.outline.toks
        is_plain = main is not None and toks[main.at:main.at + 4] == [b"main", b"arena", b"{", b"}"]
        if not is_plain:
            return ["The program of a plan ends with `main arena { }`: what its main would do stands in the first behaviours of the plan."], []
        many = len(list(plan.cowns(len(plan.lines()))))
        return [f"The plan has {counted(many, 'cown')}, counted from 0, and no cown {plan.keep}."], []
    said, tries = of_line(plan, line)
    took, seen = [], set()
    for put in tries[:16]:
        if put in seen or put is not None and put.encode() == plan.lines()[line - 1] and line != len(plan.lines()):
            continue
        seen.add(put)
        is_good = plan.takes(line, put)
        if is_good:
            took.append((put, is_good == 1))
    took.sort(key=lambda it: not it[1])
    return said, took[:3]


def of_schedule(plan, line, schedule):
    """E94: the number of a schedule that is none of a behaviour."""
    many = sum(it.startswith(b"when ") for it in plan.lines())
    words = schedule.split()
    it = text(words[line - 1])[:40] if line <= len(words) else ""
    if re.fullmatch(r"-?[0-9]{1,19}", it):
        return [f"Number {line} of the schedule is {it}, and the plan has {counted(many, 'behaviour')}, counted from 0."]
    return [f"Word {line} of the schedule is `{it}`, which is no number: a schedule is numbers of behaviours, with blanks or ends of lines between them, and no comments."]


def waiting(plan, said):
    """Of each behaviour that has not ended behind a schedule, what it waits for."""
    heads = re.findall(rb"(?m)^behaviour (\d+) (\S+) (waiting|running|done|trap .*)$", said)
    lines = [text(line).split(" ")[2:] for line in plan.lines() if line.startswith(b"when ")]
    ended = [phase not in (b"waiting", b"running") for *_, phase in heads]
    for number, name, phase in heads if len(heads) == len(lines) else ():
        k = int(number)
        ahead = [i for i in range(k) if not ended[i] and set(lines[i]) & set(lines[k])]
        if phase == b"waiting":
            cowns = sorted({it for i in ahead for it in set(lines[i]) & set(lines[k])}, key=int)
            yield f"Behaviour {k}, `{text(name)}`, waits for " + (
                f"cown{'s' * (len(cowns) > 1)} {', '.join(cowns)}, until behaviour{'s' * (len(ahead) > 1)} {', '.join(map(str, ahead[-8:]))} end{'s' * (len(ahead) == 1)}."
                if ahead else f"its number: no `{k}` on the input began it.")
        elif phase == b"running":
            yield f"Behaviour {k}, `{text(name)}`, waits for more of its numbers: each `{k}` on the input is one of its steps."
    if not all(ended):
        yield "The schedule is the numbers on standard input; `tools/schedule FILE PLAN --write in-order` writes one behind which all have ended."
