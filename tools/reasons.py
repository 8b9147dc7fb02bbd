"""Why a source is refused, in its own names, and edits that cure it. Read by tools/reading.py.

Each kind of fault has its cause found: what was expected, what stands there, and why it is that; and from the cause come
edits. An edit is shown only where `reggio` says that the source is accepted behind it, or that its next fault stands behind
the statement that was edited. So what is guessed here is which edits are tried, and never whether they do."""
import re
from dataclasses import dataclass

import foreign
from foreign import CAPS, START, cut, path_end, spelt, tell
from outline import Outline, Source, text

MANY = 40            # edits that are tried for one fault
SHOWN = 3            # and shown
LISTED = 8           # names that are listed
HEADS = ("if", "while", "enter", "def", "class", "main", "tmp", "else")


def line_words(some):
    return re.sub(r"\s+", " ", re.sub(r"//[^\n]*", "", some)).strip()


def below(one, other):
    """Whether a type may stand where another one is expected."""
    return one == other or other.startswith("paused ") and one.split()[-1] == other.split()[-1] and one.split()[0] in ("mut", "tmp", "imm")


def counted(how_many, what):
    return f"{how_many or 'no'} {what}{'s' * (how_many != 1)}"


def stage(code):
    return 0 if code < "E10" else 1 if code < "E20" else 2


def renamed(name, other, some, then=""):
    """A text with another name for a variable."""
    return re.sub(rf"(?<![\w.]){re.escape(name)}\b{then}", other, some)


@dataclass
class Window:
    """A window round a statement, or one that a body opens: its bridge, its owner, and its places."""
    name: str
    owner: str
    start: int
    opens: int      # behind its `{`
    shuts: int      # its `}`
    end: int
    forms: list


@dataclass
class Operand:
    """A path of a statement: where it stands, its type as it is seen, and what it is used for: `call`, `target`, `row` or a value."""
    first: int
    last: int
    text: str
    type: str
    use: str

    def root(self):
        return re.match(r"\w+", self.text)[0]


class Case:
    """A fault at a place of a source: its statement, what the names are, and what is tried."""

    def __init__(self, reggio, source, found, place):
        self.reggio, self.source, self.found, self.code = reggio, source, found, source.code.decode("latin-1")
        self.toks, self.outline = cut(self.code), Outline(source)
        self.forms = foreign.read_all(self.toks)
        path = foreign.around(self.toks, self.forms, place)
        k = next((k for k, (it, _) in enumerate(path) if self.toks[it.first].start == place), 0)
        self.path = [it for it, _ in path[k:]]
        self.form, self.kind = path[k] if path else (foreign.Form(0, 0, []), "top")
        self.start, self.stop = self.toks[self.form.first].start, self.toks[max(self.form.last, 1) - 1].end
        self.head = self.form.blocks[0][0] if self.form.blocks else self.form.last
        self.end = self.toks[self.head].start if self.form.blocks else self.stop
        self.word = self.toks[self.form.first].text
        self.names = foreign.Names(self.outline, self.start)
        self.said = self.code[self.start:self.end].rstrip()
        home = [it for it in self.path if self.toks[it.first].text in ("def", "main")]
        self.body = home[0] if home else None
        self.method = self.thing_at(home[0].first + 2) if home and self.toks[home[0].first].text == "def" else None

    def src(self, a, b):
        return self.code[self.toks[a].start:self.toks[b - 1].end] if b > a else ""

    def thing_at(self, k):
        """What a token stands for."""
        return self.outline.use(self.outline.ahead(self.toks[k].start))[0]

    def seen_at(self, k):
        """The type of a token as it is seen there."""
        return spelt(self.outline.use(self.outline.ahead(self.toks[k].start))[1])

    def place(self, thing):
        return self.source.tokens[thing.at][0]

    def line(self, place):
        return self.source.line_of(place)

    def of_line(self, place):
        return f" of line {self.line(place)}" if self.line(place) != self.found.line else ""

    def fresh(self, *wanted):
        return self.names.fresh(*wanted)

    def home(self, type):
        return self.names.classes.get(type.split()[-1]) if type else None

    def element(self, type):
        home = self.home(type)
        return spelt(home.element) if home is not None and home.element else None

    def fields(self, type, test=lambda of: True):
        """The fields of a type's class as they are seen through it: (name, type)."""
        home = self.home(type)
        for it in home.members.values() if home is not None and " " in type else ():
            of = spelt(self.outline.through(foreign.read(type), it.name)[1]) if it.kind == "field" else None
            if of and test(of):
                yield text(it.name), of

    def variables(self):
        """The variables that are visible, with their types, the nearest scope first."""
        return [(name, spelt(type)) for name, type in reversed(self.names.env.items()) if type]

    def match(self, pattern, k=None):
        """The parts of a pattern in the statement's head, by name, or None."""
        got = foreign.match(foreign.compiled(pattern), self.toks, self.form.first if k is None else k, self.form.last)
        return {name: self.src(a, b) for name, a, b in got if name} if got is not None else None

    def break_(self, place):
        """What parts two statements that stand for one."""
        return "\n" + re.match(r"[ \t]*", self.code[self.code.rfind("\n", 0, place) + 1:])[0]

    # -- Trying

    def is_taken(self, start, end, put, first, behind):
        """Whether a source is accepted behind an edit: 1; or its next fault stands behind the statement that was edited, or is
        of another kind, that is looked for later: 2; else 0."""
        behind = max(end, behind)
        if put.rstrip()[-1:] not in (";", "{", "}") and not re.search("[;{}]", self.code[end:behind]) and behind < len(self.code):
            m = re.match("[^;{}]*[;{}]", self.code[behind:])   # what is tried ends where the statement does
            behind += m.end() if m else 0
        head, rest = self.code[:start] + put + self.code[end:behind], self.code[behind:]
        code, where = self.reggio.fault((head + "\n" + rest).encode("latin-1"))
        if code is None:
            return 1
        mine, its, limit = stage(self.found.code()), stage(code), head.count("\n") + 1
        if its != mine:
            return 0 if its < mine or self.code.count("\n", 0, min(start, first)) + 1 <= where <= limit else 2
        if where <= limit:
            return 0
        if mine == 1:  # (a fault that only moved on to the next token is no cure)
            tail = re.match(r"\s*(\w+|\S)?", rest)[0]
            code, where = self.reggio.fault((head + "\n" + tail + "\n\n").encode("latin-1"), "fmt")
            if code in ("E10", "E11", "E12") and where <= limit + 1 + tail.count("\n"):
                return 0
        return 2

    def edit(self, some):
        """Several edits as one: from the first place to the last one, and what stands there then."""
        some = sorted(enumerate(some), key=lambda it: (it[1][0], it[1][1], it[0]))
        start, end = some[0][1][0], max(it[1] for _, it in some)
        put, at = "", start
        for _, (a, b, said) in some:
            put += self.code[at:a] + said
            at = max(at, b)
        return start, end, put + self.code[at:end]

    def cure(self, start, end, put):
        """An edit with its title, without the tokens that stay."""
        old, new = cut(self.code[start:end]), cut(put)
        alike = lambda some: next((k for k, (a, b) in enumerate(some) if a.text != b.text), min(len(old), len(new)) - 1)
        ahead, back = alike(list(zip(old, new))), alike(list(zip(old[-2::-1], new[-2::-1])))
        if ahead and ahead + back < min(len(old), len(new)):
            stop, put = start + old[-1 - back].start, put[new[ahead - 1].end:new[-1 - back].start]
            start, end = start + old[ahead - 1].end, stop if back else end
        return self.title(start, end, put), start, end, put.encode("latin-1")

    def try_all(self, edits, first=None, behind=None):
        """Those of the edits that are taken: the accepted ones, else those that go further."""
        seen, good = set(), []
        for some in edits:
            one = self.edit(some if isinstance(some, list) else [some])
            if one in seen or one[2] == self.code[one[0]:one[1]]:
                continue
            seen.add(one)
            took = len(seen) <= MANY and self.is_taken(*one, self.start if first is None else first, self.end if behind is None else behind)
            good += [(took, one)] if took else []
            if len([it for it in good if it[0] == 1]) >= SHOWN:
                break
        sure = [one for took, one in good if took == 1] or [one for _, one in good]
        return [self.cure(*one) for one in sure[:SHOWN]]

    def title(self, start, end, put):
        """The statements, or the head, as they are behind an edit."""
        m = re.match(r"\s*", self.code[start:])
        line = self.line(start + (m.end() if m.end() < len(self.code) - start else 0))
        where = "" if line == self.found.line else f"line {line}: "
        if not put.strip():
            return where + f"leave out `{line_words(self.code[start:end])}`"
        first = max(self.code.rfind(it, 0, start) for it in ";{}\n") + 1
        whole = self.code[first:start] + put
        if put.rstrip()[-1:] not in (";", "}"):
            whole += re.match(r"[^;{}\n]*(;|\s*\{|)", self.code[end:])[0]
        whole = line_words(whole) or whole.strip()
        return (where + f"`{whole[:300] + (' ..' if len(whole) > 300 else '')}`").encode("latin-1").decode("utf-8", "replace")

    def further(self, start, end, put):
        """An edit behind which the statement has a fault of the rules, together with the first cure of that one."""
        import reading
        code = self.code[:start] + put + self.code[end:]
        source = Source(code.encode("latin-1"))
        name, where = self.reggio.fault(source.code)
        at = reading.statement_at(self.reggio, source, where) if name and name > "E19" else None
        if at is None or not source.line_of(start) <= where <= source.line_of(start + len(put)):
            return None
        found = reading.Finding(name, where)
        of_rule(self.reggio, source, found, at, False)
        for _, a, z, more in found.cures[:1]:
            low, high, whole = min(start, a), max(start + len(put), z), code[:a] + more.decode("latin-1") + code[z:]
            one = low, high - len(code) + len(self.code), whole[low:len(whole) - (len(code) - high)]
            return [self.cure(*one)] if self.is_taken(*one, one[0], one[1]) else None

    def written(self, *places, is_first=True):
        """The forms round some places as Reggio has them: the sentences on them, and the first writing that is taken."""
        told, further, partly = [], None, []
        for place in dict.fromkeys(places):
            for start, end, put, notes in foreign.writings(self.code, self.outline, place):
                notes = list(dict.fromkeys(it for it in notes if it))
                told += notes
                took = put not in (None, self.code[start:end]) and self.is_taken(start, end, put, start, end)
                if took == 1:
                    return notes, [self.cure(start, end, put)]
                further = further or took and (notes, [self.cure(start, end, put)])
                partly += [(notes, (start, end, put))] if took == 0 and is_first and put is not None and len(partly) < 3 else []
        for notes, one in partly if not further else ():
            cures = self.further(*one)
            if cures:
                return notes, cures
        return further or (list(dict.fromkeys(told)), [])

    def by_rows(self, code):
        """Edits by the rows of tools/foreign.txt on a fault of the rules."""
        for k in range(self.form.first, self.head):
            for _, parts, template, _ in (it for it in foreign.READ if it[0] == code):
                got = foreign.match(parts, self.toks, k, self.form.last)
                if got is not None and (not k or self.toks[k - 1].text != "."):
                    writer = foreign.Writer(self.names)
                    start, end, put = writer.fill(template, "", self.code, self.toks, got, parts, self.form)
                    yield from ((start, end, it) for it in foreign.resolved(writer, put, 8))

    # -- What is there

    def declared(self, name):
        """What declares a variable that is visible, or None."""
        body = self.outline.body_of(self.outline.ahead(self.start))
        some = self.outline.walk(body, self.outline.ahead(self.start))[0] if body is not None else []
        return next((it for it, _ in reversed(some) if text(it.name) == name), None)

    def cap_of(self, thing):
        """The place of the capability, or of the type, that a declaration has."""
        if thing is None or thing.kind == "bridge":
            return None
        if thing.kind == "self":
            return self.source.tokens[thing.at - 1]
        k = thing.at + (2 if thing.kind != "method" else -1)
        return self.source.tokens[k] if k < len(self.source.tokens) else None

    def let_of(self, thing):
        """The declaration of a variable as a form, and the form that has it in a block."""
        return next((it for it, _ in foreign.every(self.toks, self.forms) if self.toks[it.first].text == "let" and
                     self.toks[it.first + 1].start == self.place(thing)), None) if thing is not None and thing.kind == "variable" else None

    def right_of(self, thing):
        form = self.let_of(thing)
        equals = next((k for k in range(form.first, form.last) if self.toks[k].text == "="), None) if form else None
        return self.src(equals + 1, form.last - 1) if equals else ""

    def window(self, form):
        got = foreign.match(foreign.compiled("enter $p as $n $b"), self.toks, form.first, form.last)
        if got is None:
            return None
        owner, name = (self.src(a, b) for it, a, b in got if it in ("p", "n"))
        opens, shuts, inner = form.blocks[0]
        return Window(name, owner, self.toks[form.first].start, self.toks[opens].end, self.toks[shuts].start, self.toks[form.last - 1].end, inner)

    def windows(self, thing=None):
        """The windows round the statement, or those opened behind a declaration, the outermost first."""
        some = [self.window(it) for it in self.path[:0:-1] if self.toks[it.first].text == "enter"]
        return [it for it in some if it is not None and (thing is None or it.start > self.place(thing) or thing.kind == "self")]

    def operands(self):
        """The paths of the statement's head, in order."""
        some, toks, k = [], self.toks, self.form.first
        skip = {"let": 2, "enter": 0}.get(self.word, 0)
        equals = next((k for k in range(k, self.head) if toks[k].text == "="), None)
        as_ = next((k for k in range(k, self.head) if toks[k].text == "as"), self.head) if self.word == "enter" else self.head
        comma = next((k for k in range(k, self.head) if toks[k].text == ","), None) if self.word == "swap" else None
        k += skip
        while k < as_:
            end = path_end(toks, k)
            if not end or toks[k - 1].text in (".", *CAPS, "new", "in", "tmp") and k:
                k += 1
                continue
            is_row = toks[end].text == "[" or toks[k - 1].text == "size"
            is_target = self.word == "enter" or comma and k > comma or equals and k < equals and self.word not in ("let", "if", "while")
            is_first = is_target and k in (self.form.first, self.form.first + 1, (comma or 0) + 1)
            use = "call" if toks[end].text == "(" else "target" if is_first else "row" if is_row else "value"
            some.append(Operand(k, end, self.src(k, end), self.seen_at(end - 1), use))
            k = end
        return some

    def said_of(self, member):
        return member.said() if member is not None else ""

    def parts(self, e):
        """The beginnings of a path: (the number of the token behind it, its text, its type)."""
        return [(k, self.src(e.first, k), self.seen_at(k - 1)) for k in range(e.first + 1, e.last + 1, 2)]

    def owner_type(self, e):
        """The type of what stands in front of a path's last name."""
        return self.seen_at(e.last - 3) if e.last - e.first > 2 else None

    def why(self, e_text, first):
        """Why a path is seen as it is."""
        name, said = re.match(r"\w+", e_text)[0], []
        thing, seen = self.declared(name), spelt(self.names.env.get(name))
        if thing is None or not seen or " " not in seen:
            return ""
        window, own = (self.windows(thing) or [None])[0], spelt(thing.type)
        if own != seen and window is not None:
            of = f"the window `enter {window.owner} as {window.name}`{self.of_line(window.start)}"
            said.append(f"`self` lies outside of {of}, and is seen as `{seen}` in it" if thing.kind == "self" else
                        tell("why", name, own, of, seen))
        elif thing.kind == "self" and seen.split()[0] not in ("mut", "tmp"):
            said.append(f"in `def {seen.split()[0]} {text(self.method.name) if self.method else '..'}` `self` is `{seen}`")
        elif thing.kind in ("variable", "parameter") and seen.split()[0] in ("paused", "imm", "iso"):
            line = self.of_line(self.place(thing)).replace("of", "in") if thing.kind == "variable" else ""
            said.append(f"`{name}` is declared as `{seen}`{line}")
        if "." in e_text:
            last = first + 2 * e_text.count(".")
            field, of = self.thing_at(last), self.seen_at(last)
            own = spelt(field.type) if field is not None and field.kind == "field" else None
            if own and of and own != of:
                said.append(f"the field `{text(field.name)}`, a `{own}`, is read through it as `{of}`")
            elif own and own.split()[0] in ("imm", "iso") and not said:
                said.append(f"the field `{text(field.name)}` is declared as `{own}`")
        return "; ".join(said)

    def because(self, e_text, first):
        why = self.why(e_text, first)
        return f": {why}." if why else "."

    # -- Edits

    def whole(self, *said):
        return self.start, self.end, " ".join(said)

    def put(self, e, said, tail=""):
        """The statement with another text in place of an operand."""
        return self.code[self.start:self.toks[e.first].start] + said + self.code[self.toks[e.last - 1].end:self.end] + tail

    def at(self, e, said):
        return self.toks[e.first].start, self.toks[e.last - 1].end, said

    def merged(self, window):
        """A window's region merged in place of being entered."""
        type = spelt(self.names.env.get(window.owner))
        if type and " " in type and "." not in window.owner and "giving" not in self.code[window.shuts:window.end]:
            merged = f"let {window.name}: mut {type.split()[1]} = merge {window.owner};"
            yield [(window.start, window.opens, merged), (window.shuts, window.shuts + 1, "")]

    def behind(self, window, said=None):
        """The statement moved behind a window: what is in a loop or a branch isn't moved out of it."""
        inside = {window.name} | {self.toks[it.first + 1].text for it in window.forms if self.toks[it.first].text == "let"}
        if self.form in window.forms and not inside & {it.root() for it in self.operands()}:
            yield [(self.start, self.stop, ""), (window.end, window.end, self.break_(window.start) + (said or self.code[self.start:self.stop]))]

    def handed_out(self, window, parts, make):
        """Values of numbers and truth values handed out of a window by variables in front of it; `make` gives the statement
        behind it, of their names."""
        types = [spelt(self.names.type_of(it)) for it in parts]
        if self.form in window.forms and parts and all(it in START for it in types):
            names, brk = [self.fresh("v", "w", "u", "out") for _ in parts], self.break_(window.start)
            declared = "".join(f"let {name}: {type} = {START[type]};{brk}" for name, type in zip(names, types))
            given = " ".join(f"{name} = {it};" for name, it in zip(names, parts))
            yield [(window.start, window.start, declared), (self.start, self.stop, given), (window.end, window.end, brk + make(names))]

    def made_as_iso(self, thing):
        """A variable that is made as the owner of a region, and what is written through it meanwhile in its window."""
        form, right = self.let_of(thing), self.right_of(thing)
        m = re.fullmatch(r"new\s+(\w+)\s*(\[.*\])?", right, re.S)
        if form is None or m is None:
            return
        name, z = text(thing.name), self.fresh("z", "inner")
        made = (self.toks[form.first].start, self.toks[form.last - 1].end, f"let {name}: iso {m[1]} = new iso {m[1]}{m[2] or ''} in arena;")
        some = next((inner for it, _ in foreign.every(self.toks, self.forms) for _, _, inner in it.blocks if form in inner), [])
        spans = [(self.toks[it.first].start, self.toks[it.last - 1].end) for it in some if form.first < it.first < self.form.first]
        inner = [(a, b, renamed(name, z, self.code[a:b])) for a, b in spans]
        yield [made, *((a, b, f"enter {name} as {z} {{ {put} }}") for a, b, put in inner if put != self.code[a:b])]


# ---- Faults of tokens and of the grammar


def of_end(case):
    """What lacks at the end of a source."""
    opened, end = 0, len(case.code.rstrip())
    for it in case.toks:
        opened = max(0, opened + (it.text == "{") - (it.text == "}"))
    has_main = any(it.text == "main" for it in case.toks)
    said = [] if has_main or opened else [tell("end")]
    for put in ["}" * opened, "; " + "}" * opened] * bool(opened) + ([] if has_main else ["}" * opened + " main arena { }"]):
        if case.is_taken(end, end, "\n" + put, end, end):
            return said, [(f"`{put.strip()}` at the end", end, end, ("\n" + put).encode())]
    return said, []


def of_brace(case):
    """A `}` that is missing, by the indentation of what follows: as an edit, or None."""
    heads, head = [], 0
    for before, it in zip([case.toks[0], *case.toks], case.toks[:-1]):
        head = it.indent if it.is_fresh else head
        if it.is_fresh and heads and (it.indent < heads[-1] or it.indent == heads[-1] and it.text != "}"):
            return before.end, before.end, "\n" + " " * heads[-1] + "}"
        heads += [head] if it.text == "{" else []
        del heads[len(heads) - (it.text == "}"):]
    return None


def of_comment(code, place):
    """A comment as other languages have it."""
    end = code.find("\n", place) if "\n" in code[place:] else len(code)
    if code[place] == "#":
        if re.match(r"#\s*(include|define|pragma|import|!)", code[place:end]):
            return [tell("comment")], [(place, end, "")]
        return ["A comment goes from `//` to the end of its line."], [(place, place + 1, "//")]
    start = place if code.startswith("/*", place) else place - 1
    end = code.find("*/", start)
    inner = [it.strip().lstrip("*").strip() for it in code[start + 2:end].split("\n")] if end > 0 else []
    return [tell("comment2")], [(start, end + 2, "\n".join("// " + it for it in inner if it) + "\n")]


def of_late_class(case, here):
    """A class behind `main`."""
    main = next((it for it in case.forms if case.toks[it.first].text == "main" and case.toks[it.last - 1].end <= here), None)
    if main is None:
        return False
    case.found.reasons = [tell("late_class")]
    start = case.toks[main.first].start
    moved = case.code[here:].rstrip() + "\n" + case.code[start:here].rstrip() + "\n"
    if case.is_taken(start, len(case.code), moved, here, here) == 1:
        case.found.cures = [(f"`{line_words(case.code[here:])[:80]}` in front of `main`", start, len(case.code), moved.encode("latin-1"))]
    return True


def of_syntax(reggio, source, found, at):
    """Why the tokens or the grammar stop at a token, and the edits that are taken."""
    import reading
    ends = at >= len(source.tokens)
    here = source.tokens[at][0] if not ends else len(source.code)
    case = Case(reggio, source, found, here)
    if ends:
        found.reasons, found.cures = of_end(case)
        return
    if case.code[here] == "#" or case.code[here - 1:here + 1] in ("/*", "*/") or case.code[here:here + 2] == "/*":
        found.reasons, edits = of_comment(case.code, here)
        found.cures = case.try_all(edits, here, here)
        return
    if source.token(at) in (b"class", b"tmp") and of_late_class(case, here):
        return
    brace = of_brace(case)
    if brace and source.token(at) in (b"class", b"tmp", b"def", b"main") and case.is_taken(*brace, here, here) == 1:
        found.cures = [(f"`}}` behind line {case.line(brace[0])}", brace[0], brace[1], brace[2].encode())]
        return
    prior = source.tokens[at - 1][1] - 1 if at else 0
    is_behind = "\n" in case.code[prior:here] or case.code[here] == "}"
    found.reasons, found.cures = case.written(*((prior, here) if is_behind else (here, prior)))
    found.reasons = found.reasons[:2]
    some = [(start, end, put.decode()) for start, end, put in reading.signs_tried(source, at)]
    for start, end, put in [*([brace] if brace else []), *some] if not found.cures + found.reasons else ():
        if case.is_taken(start, end, put, here, here) == 1:
            it, then = case.code[start:end][:40], case.code[here:source.tokens[at][1]][:40]
            title = f"Leave out `{it}`" if not put else f"Write `{put.strip()}`" + (f" in place of `{it}`" if it else f" in front of `{then}`")
            found.cures = [(title, start, end, put.encode())]
            break


# ---- Faults of the rules: one function for each, which gives sentences and edits


def names_of(what, some):
    return [f"{what} {', '.join(f'`{it}`' for it in some[:LISTED])}" + (" and more." if len(some) > LISTED else ".")] if some else []


def of_unknown(case):
    """E20: a name that nothing has, and what is there in its place: one that alone fits is an edit."""
    for m in re.finditer(r"\b(?:mut|tmp|paused|imm|iso|new(?:\s+iso|\s+tmp)?)\s+([A-Za-z_]\w*)", case.said):
        if m[1] not in case.names.classes and m[1] not in CAPS:
            case.found.span = case.start + m.start(1), case.start + m.end(1)
            some = list(case.names.classes)
            return [f"There is no class `{m[1]}`.", *names_of("The classes are", some)], [], [(*case.found.span, it) for it in some[:LISTED]]
    for e in case.operands():
        if e.root() not in case.names.env and e.root() != "self":
            return of_variable(case, e)
        for k, path, type in case.parts(e):
            if k < e.last and type and " " in type and case.thing_at(k + 1) is None:
                return of_member(case, e, k, path, type)
    return [], [], []


def of_member(case, e, k, path, type):
    """A member that a class doesn't have."""
    home, span = case.home(type), (case.toks[k + 1].start, case.toks[k + 1].end)
    name, case.found.span = case.toks[k + 1].text, span
    if home is None:
        return [], [], []
    if home.element:
        return [tell("member", path, home.said(), path, path)], [], []
    what = "method" if e.use == "call" and k == e.last - 2 else "field"
    some = [text(it.name) for it in home.members.values() if it.kind == what]
    said = [f"`{path}` is `{type}`, and `{text(home.name)}` has no {what} `{name}`."]
    said += names_of("It has", [it.said() for it in home.members.values()])
    got = case.match("$p = $e ;")
    of = spelt(case.names.type_of(got["e"])) if got and e.use == "target" and k == e.last - 2 else None
    if of:
        said.append(tell("member2"))
    shuts = case.source.tokens[home.end][0]
    return said, [(shuts, shuts, f"{name}: {of}; ")] if of else [], [(*span, it) for it in some[:LISTED]]


def of_variable(case, e):
    """A variable that isn't visible: one of a window or of a block that has ended, or none."""
    name, case.found.span = e.root(), (case.toks[e.first].start, case.toks[e.first].end)
    before = [it for it, _ in foreign.every(case.toks, [case.body]) if it.first < case.form.first] if case.body else []
    window = next((it for it in map(case.window, reversed(before)) if it is not None and it.name == name), None)
    if window is not None:
        said = [tell("variable", name, window.owner, name, case.of_line(window.start))]
        inner = [(window.shuts, window.shuts, case.said + " "), (case.start, case.stop, "")]
        is_next = window.end <= case.start and not case.code[window.end:case.start].strip() and case.word not in HEADS
        return said, [inner] * is_next + [case.whole(f"enter {window.owner} as {name} {{", case.said, "}")], []
    ended = next((it for it in reversed(before) if case.toks[it.first].text == "let" and case.toks[it.first + 1].text == name), None)
    if ended is None:
        some = [it for it, _ in case.variables()]
        listed = [f"{it}: {type}" for it, type in case.variables() if it != "self"]
        said = [f"No variable `{name}` is visible here.", *names_of("What is visible, the nearest first:", listed)]
        return said, [], [(*case.found.span, it) for it in some[:LISTED]]
    outer = next(it for it in reversed(before) if any(ended in inner for _, _, inner in it.blocks))
    start, brk = case.toks[outer.first].start, case.break_(case.toks[outer.first].start)
    m = re.match(r"let\s+\w+\s*:\s*([\w ]+?)\s*=", case.src(ended.first, ended.last))
    type = m[1]
    said = [tell("variable2", name, case.line(case.toks[ended.first].start))]
    edits = [[(start, start, f"let {name}: {type} = {START.get(type, 'nil')};" + brk),
              (case.toks[ended.first].start, case.toks[ended.first].start + m.end(), f"{name} =")]]
    window = case.window(outer)
    if window is not None:
        said.append(tell("variable3"))
        of = next((of for field, of in case.fields(type) if f"{name}.{field}" == e.text), None)
        if of in START:
            v = case.fresh("v", "out")
            edits.append([(start, start, f"let {v}: {of} = {START[of]};" + brk), (window.shuts, window.shuts, f"{v} = {e.text}; "), case.at(e, v)])
        edits += case.merged(window)
    return said, edits, []


def of_duplicate(case):
    """E21: a name that is there already."""
    k = case.form.first + (2 if case.word == "def" else 1)
    if case.word == "enter":
        k = next(k for k in range(k, case.head) if case.toks[k].text == "as") + 1
    if case.word in ("let", "enter"):
        name, new = case.toks[k].text, case.fresh(case.toks[k].text + "2", case.toks[k].text + "_2")
        first = case.declared(name)
        block = next((b for outer in case.path[1:] for a, b, inner in outer.blocks if case.form in inner), case.form.last)
        stop = case.stop if case.word == "enter" else case.toks[block].start
        equals = next((at for at in range(k, case.head) if case.toks[at].text == "="), None)
        mid = case.toks[case.form.last - 1].start if equals else stop
        cut_at = case.toks[equals].start if equals else case.start
        put = renamed(name, new, case.code[case.start:cut_at]) + case.code[cut_at:mid] + renamed(name, new, case.code[mid:stop]) if equals else (
            renamed(name, new, case.code[case.start:stop]))
        is_same = equals and first is not None and case.src(k + 2, equals) == spelt(first.type)
        kept = [(case.start, cut_at, f"{name} ")] if is_same else []
        there = f", as `{first.said()}` of line {case.line(case.place(first))}" if first is not None else ""
        in_loop = any(case.toks[it.first].text == "while" for it in case.path[1:]) or is_same
        edits = [*kept, (case.start, stop, put)]
        return [f"`{name}` is there already{there}: there is no shadowing."], edits if in_loop else edits[::-1]
    if case.kind == "top":
        k += case.word == "tmp"
        name = case.toks[k].text
        return [f"There is a class `{name}` already."], [(case.toks[k].start, case.toks[k].end, case.fresh(name + "2"))]
    names = [at for at in range(k, case.head) if case.toks[at + 1].text == ":" and case.toks[at].kind == "name"]
    twice = next((at for at in names if case.toks[at].text in [case.toks[it].text for it in names if it < at]), None)
    if twice is not None:
        name = case.toks[twice].text
        return [f"`{name}` stands there twice."], [(case.toks[twice].start, case.toks[twice].end, case.fresh(name + "2"))]
    it, home = case.toks[k if case.word == "def" else case.form.first], case.names.home
    first = case.names.member(home, it.text)
    if first is None:
        return [], []
    new = case.fresh(("get_" if case.word == "def" else "own_") + it.text, it.text + "_2")
    said = tell("duplicate", text(home.name), first.kind, it.text, case.line(case.place(first)))
    return [said], [(it.start, it.end, new), (case.start, case.stop, "")]


def of_type(case):
    """E22: a capability or a class that doesn't go there."""
    said, edits, home, classes = [], [], case.names.home, case.names.classes
    m = re.search(r"\bnew\s+(?:(?:iso|tmp)\s+)?(\w+)(\s*\[.*\])?", case.said)
    of = classes.get(m[1]) if m and case.kind == "statement" else None
    span = (case.start + m.start(1), case.start + m.end(1)) if m else None
    if of is not None and of.element and not m[2]:
        return [tell("type", m[1], of.said())], [(*span, m[1] + " [3]")]
    if of is not None and m[2] and not of.element:
        rows = [it for it, row in classes.items() if row.element and row.element[1] == of.name]
        there = f"an array of them is `{rows[0]}`." if rows else tell("type2", m[1], m[1])
        got = case.match("let $n : $t = $e ;")
        puts = [case.whole(f"let {got['n']}: mut {it} = new {it}{m[2]};") for it in rows] if got else []
        return [tell("type3", m[1], there)], [*puts, *((*span, it) for it in rows), (span[1], case.start + m.end(), "")]
    uses = [(case.start + m.start(1), m[1], classes[m[2]]) for m in re.finditer(r"\b(mut|tmp|paused|imm|iso)\s+(\w+)", case.said) if m[2] in classes]
    for _, cap, it in uses:
        if it.is_tmp and cap in ("mut", "imm", "iso"):
            said.append(tell("type4", text(it.name)))
        elif not it.is_tmp and cap == "tmp":
            said.append(tell("type5", text(it.name)))
    if case.kind == "member" and case.word == "def":
        own = case.toks[case.form.first + 1]
        may = ("tmp", "paused") if home.is_tmp else ("mut", "paused", "imm")
        if own.text not in may:
            kind, last = "a `tmp class`" if home.is_tmp else "an ordinary class", f"`{'`, `'.join(may[:-1])}` or `{may[-1]}`"
            said = [tell("type6") if own.text == "iso" else f"`{text(home.name)}` is {kind}: a receiver in it is {last}."]
            edits = [(own.start, own.end, it) for it in may]
    elif case.kind == "member" and uses and uses[0][1] in ("tmp", "paused") and not home.is_tmp:
        said.append(tell("type7", text(home.name), uses[0][1]))
        begin = case.source.tokens[home.begin][0]
        edits = [(at, at + len(one), put) for at, one, it in uses if not it.is_tmp for put in ("imm", "mut")] + [(begin, begin + 5, "tmp class")]
    elif case.kind == "top" and "[" in case.said and uses and uses[0][1] == "iso":
        at, name = uses[0][0], text(uses[0][2].name)
        slot = case.fresh(name + "Slot", "Slot")
        put = [(case.start, case.start, f"class {slot} {{ it: iso {name}; }} "), (at, case.code.index("]", at), f"mut {slot}")]
        return [tell("type8")], [put, (at, at + 3, "mut")]
    if of is not None:
        kind, begin = "tmp" if of.is_tmp else "mut", case.source.tokens[of.begin][0]
        made, got = "new " + ("tmp " if of.is_tmp else "") + m[1] + (m[2] or ""), case.match("let $n : $t = $e ;")
        edits += [case.whole(f"let {got['n']}: {kind} {m[1]} = {made};")] if got else [(case.start + m.start(), case.start + m.end(), made)]
        edits += [(begin, begin + 5, "tmp class")] if not of.is_tmp else []
    return said, edits + [(at, at + len(one), put) for at, one, _ in uses for put in CAPS if put != one]


def wanted(case):
    """The expressions of the statement of which a type is expected, the innermost first: (first token, the one behind, type, of
    what). `shown` is a number or a truth value, `alike` what is compared."""
    toks, form, k = case.toks, case.form, case.form.first + 1
    stop = case.head if case.form.blocks else form.last - 1
    equals = next((at for at in range(form.first, stop) if toks[at].text == "="), None) if case.word not in ("if", "while") else None
    if case.word in ("if", "while"):
        whole = (k, stop, "bool", f"the test of `{case.word}`")
    elif case.word == "print":
        whole = (k, stop, "shown", "`print`")
    elif case.word == "return":
        whole = (k, stop, spelt(case.method.type) if case.method else None, f"the result of `{text(case.method.name) if case.method else 'main'}`")
    elif case.word == "let":
        whole = (equals + 1, stop, case.src(k + 2, equals), f"the variable `{toks[k].text}`")
    elif equals:
        left = case.src(form.first, equals)
        end = path_end(toks, form.first)
        if toks[end].text == "[":
            yield end + 1, equals - 1, "int", "the place in the array"
            whole = (equals + 1, stop, case.element(case.seen_at(end - 1) or ""), f"an element of `{case.src(form.first, end)}`")
        else:
            thing = case.thing_at(equals - 1)
            whole = (equals + 1, stop, spelt(thing.type) if thing else None, f"the {'field' if '.' in left else 'variable'} `{left}`")
    else:
        whole = (form.first, stop, None, "")
    yield from inside(case, *whole)


OPERATORS = [("or", "and"), ("not",), ("==", "!=", "<", "<=", ">", ">="), ("+", "-"), ("*", "/", "%")]


def inside(case, a, b, type, what):
    """The expressions in one, and itself."""
    toks = case.toks
    if toks[a].text == "(" and foreign.closing(toks, a, b) == b:
        yield from inside(case, a + 1, b - 1, type, what)
        return
    depth, level = 0, None
    for k in range(a, b):
        depth += (toks[k].text in "([") - (toks[k].text in ")]")
        mine = next((at for at, some in enumerate(OPERATORS) if toks[k].text in some), None) if depth == 0 else None
        is_sign = toks[k].text == "-" and (k == a or not foreign.ends_operand(toks[k - 1]))
        if mine is not None and (level is None or mine <= level[0]) and not is_sign:
            level = mine, k
    if level:
        at, op = level[1], toks[level[1]].text
        own = {0: "bool", 1: "bool", 2: None if op in ("==", "!=") else "int"}.get(level[0], "int")
        if op != "not":
            yield from inside(case, a, at, own, f"the left side of `{op}`")
        yield from inside(case, at + 1, b, own, f"the right side of `{op}`" if op != "not" else "`not`")
        if op in ("==", "!="):
            yield a, b, "alike", str(at)
    elif toks[a].text == "-":
        yield from inside(case, a + 1, b, "int", "`-`")
    elif toks[a].text == "call":
        end = path_end(toks, a + 1)
        method, k = case.thing_at(end - 1), end + 1
        for param in method.params if method is not None and method.kind == "method" else []:
            ends = list(foreign.runs(toks, k, b - 1, False))
            if ends:
                yield from inside(case, k, ends[-1], spelt(param.type), f"the parameter `{text(param.name)}` of `{text(method.name)}`")
                k = ends[-1] + 1
    elif toks[b - 1].text == "]":
        opens = next(k for k in range(a, b) if toks[k].text == "[")
        yield from inside(case, opens + 1, b - 1, "int", "the place in the array" if toks[a].text != "new" else "the size of an array")
    yield a, b, type, what


def of_mismatch(case):
    """E30: what has another type than is expected."""
    said, edits = of_iso_wanted(case)
    if said:
        return said, edits
    for e in case.operands():
        for k, path, type in case.parts(e):
            if type in START and k < e.last:
                return [f"`{path}` is `{type}`, and has no fields."], [(case.toks[k].start, case.toks[e.last - 1].end, "")]
            if type in START and case.src(k, k + 2) == "is nil":
                put = path + (" == 0" if type == "int" else "")
                return [f"`{path}` is `{type}`, which is never nil."], [(case.toks[e.first].start, case.toks[k + 1].end, put)]
        if e.type and (e.use == "row" or case.toks[e.last].text == "[") and not case.element(e.type):
            return of_no_array(case, e)
    for a, b, type, what in wanted(case):
        src = case.src(a, b)
        got = spelt(case.names.type_of(src))
        if type == "alike":
            at = int(what)
            one, other = (spelt(case.names.type_of(case.src(*it))) for it in ((a, at), (at + 1, b)))
            if one and other and (one.split()[-1] != other.split()[-1] or "iso" in (one[:3], other[:3])):
                return of_compared(case, a, at, b, one, other)
        elif src == "nil" and type and (type in START or type == "shown"):
            said = f"`nil` is no number and no truth value, and {what} wants `{type}`." if type != "shown" else tell("mismatch")
            return [said], [(case.toks[a].start, case.toks[b - 1].end, START.get(type, "0"))]
        elif type and got is None and src.startswith("call "):
            method = case.thing_at(path_end(case.toks, a + 1) - 1)
            if method is not None and method.type is None:
                opens = case.source.tokens[method.block[0]][0] if method.block else 0
                gives = "return" in case.code[opens:case.source.tokens[method.end][1]]
                return [f"`{text(method.name)}` has no result (`{method.said()}`), and {what} wants `{type}`."], [
                    (opens, opens, f": {type} ")] * gives + [case.whole(src + ";")]
        elif type and got and not (got in START if type == "shown" else below(got, type)):
            return of_other_type(case, a, b, type, got, what)
    return [], []


def of_no_array(case, e):
    """An element or the size of what is no array."""
    rows = lambda of: case.element(of) and not of.startswith("iso ")
    arrays = [it.said() for it in case.names.classes.values() if it.element]
    said = [tell("no_array", e.text, e.type, arrays[0] if arrays else 'class Row [int];')]
    puts = [f"{e.text}.{name}" for name, _ in case.fields(e.type, rows)] + [name for name, of in case.variables() if rows(of)]
    if puts or e.type == "int" or case.toks[e.last].text != "[":
        return said, [case.at(e, it) for it in puts]
    shut = case.toks[foreign.closing(case.toks, e.last, case.form.last) - 1].end
    return said, [(case.toks[e.last - 1].end, shut, f".{name}") for name, _ in case.fields(e.type, lambda of: of in START)]


def of_compared(case, a, at, b, one, other):
    left, right, op = case.src(a, at), case.src(at + 1, b), case.toks[at].text
    said = [tell("compared", left, one, right, other, op)]
    put = lambda some: [(case.toks[a].start, case.toks[b - 1].end, it) for it in some]
    if "iso" in (one[:3], other[:3]):
        said.append(tell("compared2"))
        return said, put([f"{left} is nil and {right} is nil", f"{left} is nil"])
    alike = lambda of, its: of == its or " " in its and of.split()[-1] == its.split()[-1]
    puts = [f"{left}.{name} {op} {right}" for name, of in case.fields(one, lambda of: alike(of, other))]
    puts += [f"{left} {op} {right}.{name}" for name, of in case.fields(other, lambda of: alike(of, one))]
    for number, truth, mine in ((left, right, one), (right, left, other)):
        if mine == "int" and "bool" in (one, other):
            puts.append((truth if (number == "1") == (op == "==") else f"not {truth}") if number in ("0", "1") else f"{truth} {op} ({number} != 0)")
    return said, put(puts)


def of_iso_wanted(case):
    """What is frozen, merged, swapped, entered or given back, and is no owner of a region."""
    some = case.operands()
    m = re.search(r"\b(freeze|merge)\s+\w+\s*;", case.said)
    if m:
        e = some[-1]
        if not e.type or e.type.startswith("iso "):
            return [], []
        done, thing = {"freeze": "frozen", "merge": "merged"}[m[1]], case.declared(e.root())
        said = [f"`{e.text}` is `{e.type}`, and `{m[1]}` wants an `iso`{case.because(e.text, e.first)}"]
        window = next((it for it in case.windows() if it.name == e.text), None)
        if window is not None:
            said.append(tell("iso_wanted", window.name, window.owner, done))
            moved = [(case.start, case.stop, ""), (window.end, window.end, case.break_(window.start) + case.put(e, window.owner))]
            return said, [moved] if case.form in window.forms else []
        if " " not in e.type or thing is None or thing.kind == "self":
            return said, []
        said.append(tell("iso_wanted2", done, e.type.split()[1]))
        return said, list(case.made_as_iso(thing)) or ([(*case.cap_of(thing), "iso")] if thing.kind == "parameter" else [])
    if case.word == "swap" and len(some) == 2:
        a, b = some
        if a.type and b.type and (a.type != b.type or not a.type.startswith("iso ")):
            held = case.fresh("held", "out")
            said = [tell("iso_wanted3", a.text, a.type, b.text, b.type)]
            if not b.type.startswith("iso "):
                return said, [case.whole(f"let {held}: {b.type} = {b.text}; {b.text} = {a.text}; {a.text} = {held};")]
            thing = case.declared(a.root())
            is_own = thing is not None and thing.kind == "parameter" and a.type.split()[-1] == b.type.split()[-1]
            return said, [*([(*case.cap_of(thing), "iso")] if is_own else []), *(case.at(a, name) for name, of in case.variables() if of == b.type),
                          case.whole(f"let {held}: {b.type} = nil; swap {held}, {b.text};")]
    window = case.window(case.form) if case.word == "enter" else None
    type = case.seen_at(some[0].last - 1) if window and some else None
    if type and " " in type and not type.startswith("iso "):
        how = {"imm": "What is frozen needs no window: it is read from everywhere.", "paused": "It needs no window: it is read from here as it is."}
        said = [f"`{window.owner}` is `{type}`, and `enter` wants an `iso`{case.because(window.owner, some[0].first)}",
                how.get(type.split()[0], tell("iso_wanted4"))]
        return said, [case.whole(f"let {window.name}: {type} = {window.owner}; if not {window.name} is nil ")]
    m = re.search(r"giving\s+(\w+)\s*;$", case.code[case.start:case.stop])
    if m and type:
        it = next((it for it in window.forms if case.src(it.first, it.first + 2).split() == ["let", m[1]]), None)
        seen = case.src(it.first + 3, it.first + 5) if it else spelt(case.names.env.get(m[1]))
        if seen:
            said = tell("iso_wanted5", m[1], type.split()[1], m[1], seen)
            said += ", and was declared outside of the window." if it is None else "."
            return [said], [(case.start + m.start(1), case.start + m.end(1), window.name)]
    return [], []


def of_other_type(case, a, b, type, got, what):
    src, is_plain = case.src(a, b), path_end(case.toks, a) == b
    wants = "a number or a truth value" if type == "shown" else f"`{type}`"
    said = [f"`{src}` is `{got}`, and {what} wants {wants}" + (case.because(src, a) if is_plain else ".")]
    span = case.toks[a].start, case.toks[b - 1].end
    if what == "`not`" and (is_plain or got == "int"):
        return said, [(case.toks[a - 1].start, span[1], f"{src} {'== 0' if got == 'int' else 'is nil'}")]
    if got in START and type in START:
        return said, of_plain(case, a, b, type, got, is_plain)
    if type in START or type == "shown":
        fits = lambda of: of == type or type == "shown" and of in START
        puts = [f"{src}[0]", f"size {src}"] if case.element(got) else [f"{src}.{name}" for name, _ in case.fields(got, fits)] if is_plain else []
        z = case.fresh("z", "inner")
        inner = [case.whole(f"enter {src} as {z} {{ print {z}.{name}; }}") for name, of in case.fields("mut " + got.split()[1], fits)]
        puts += [f"not {src} is nil", f"{src} is nil"] if type in ("bool", "shown") else []
        return said, (inner if got.startswith("iso ") and case.word == "print" else []) + [(*span, it) for it in puts]
    if got in START:
        return [*said, "A reference leads to an object, or is nil."], [(*span, f"new {type.split()[1]}"), (*span, "nil")]
    (cap, of), (mine, its) = type.split(), got.split()
    if of == its and f"{mine}-to-{cap}" in foreign.SENTENCES:
        said.append(tell(f"{mine}-to-{cap}"))
    edits = list(of_values(case, a, b, type, got)) + list(of_declarations(case, a, b, type, got, what, is_plain))
    if of != its and is_plain:
        edits += [(*span, f"{src}.{name}") for name, _ in case.fields(got, lambda it: below(it, type))]
        edits += [(*span, name) for name, it in case.variables() if it == type]
    for window in reversed(case.windows()):
        edits += [*case.merged(window), *case.behind(window)]
    return said, edits


def of_plain(case, a, b, type, got, is_plain):
    """A number where a truth value is expected, or the other way."""
    src, start, end = case.src(a, b), case.toks[a].start, case.toks[b - 1].end
    if type == "bool":
        yield start, end, f"{src} != 0" if is_plain or src.isdigit() else f"({src}) != 0"
    else:
        m, is_whole = re.match(r"(let\s+)?(\w+)[^=]*=", case.said), case.toks[b].text == ";"
        if m and is_whole:
            yield case.whole(("let " + m[2] + ": int" if m[1] else m[2]) + f" = 0; if {src} {{ {m[2]} = 1; }}")
        elif m and not m[1]:
            yield case.whole(f"if {src} {{ {case.code[case.start:start]}1{case.code[end:case.end]} }}")
    if case.word == "let":
        yield case.start, case.end, re.sub(r":\s*\w+", f": {got}", case.said, count=1)
    thing = case.thing_at(case.form.first) if case.word not in HEADS else None
    if thing is not None and thing.kind in ("variable", "parameter"):
        yield *case.cap_of(thing), got


def of_values(case, a, b, type, got):
    """What could stand in place of a reference of another capability."""
    src, start, end = case.src(a, b), case.toks[a].start, case.toks[b - 1].end
    (cap, of), (mine, its) = type.split(), got.split()
    tail = case.code[end:case.end]
    m = re.fullmatch(r"new\s+(?:iso\s+|tmp\s+)?(\w+\s*(?:\[.*\])?)(?:\s*in\s+\w+)?", src, re.S)
    if of == its and m:
        y = case.fresh("y", "made")
        frozen = f"let {y}: iso {of} = new iso {m[1]} in arena; {case.code[case.start:start]}freeze {y}{tail}"
        made = {"iso": f"new iso {m[1]} in arena", "tmp": f"new tmp {m[1]}", "mut": f"new {m[1]}"}
        yield case.whole(frozen) if cap == "imm" else (start, end, made.get(cap, src))
    if of == its and mine == "iso" and re.fullmatch(r"\w+", src) and cap != "iso":
        how, kind, g = ("merge" if cap == "mut" else "freeze"), ("mut" if cap == "mut" else "imm"), case.fresh("given", "taken")
        yield start, end, f"{how} {src}"
        yield case.whole(f"let {g}: {kind} {of} = {how} {src}; " + case.code[case.start:start] + g + tail)


def of_declarations(case, a, b, type, got, what, is_plain):
    """The declarations that could have the other type: of the variable, the result, the value, the field, the parameter."""
    src, (cap, of), (mine, its) = case.src(a, b), type.split(), got.split()
    is_moved = mine == "iso" and re.fullmatch(r"\w+", src)
    if case.word == "let" and what.startswith("the variable") and not is_moved:
        yield case.start, case.end, re.sub(r":\s*\w+\s+\w+", f": {got}", case.said, count=1)
    if case.word == "return" and case.method is not None and case.method.type:
        k = case.method.at + 1
        k = next(at for at in range(k, len(case.source.tokens)) if case.outline.toks[at] == b")") + 2
        yield case.source.tokens[k][0], case.source.tokens[k + 1][1], got
    thing = case.declared(re.match(r"\w+", src)[0]) if is_plain else None
    if of == its and thing is not None and case.cap_of(thing):
        if thing.kind == "self" and cap in ("mut", "tmp") or thing.kind == "parameter" and src == text(thing.name):
            yield *case.cap_of(thing), cap
        elif thing.kind == "variable" and src == text(thing.name) and spelt(thing.type) == got and mine != "iso":
            yield *case.cap_of(thing), cap
            yield from case.made_as_iso(thing) if cap == "iso" else ()
    equals = next((k for k in range(case.form.first, a) if case.toks[k].text == "="), None)
    target = case.thing_at(equals - 1) if equals and what.startswith(("the field", "the variable")) else None
    if of == its and mine != "iso" and target is not None and target.kind in ("variable", "parameter", "field"):
        yield *case.cap_of(target), mine
    m = re.match(r"the parameter `(\w+)` of `(\w+)`", what)
    for home in case.names.classes.values() if m and of == its and mine != "iso" else ():
        method = case.names.member(home, m[2])
        for param in method.params if method is not None and method.kind == "method" else ():
            if text(param.name) == m[1]:
                yield *case.cap_of(param), mine


def of_capability(case):
    """E32: a reference that doesn't permit what is done through it."""
    for e in case.operands():
        for k, path, type in case.parts(e):
            if type and type.startswith("iso ") and (k < e.last or e.use == "row" or case.toks[k].text == "["):
                return of_followed(case, path, type)
            if k > e.first + 1 and case.thing_at(k - 1) is not None and case.thing_at(k - 1).kind == "field" and type is None:
                return of_hidden(case, e, k)
        is_row = case.toks[e.last].text == "["
        through = e.type if is_row else case.owner_type(e)
        target = e.text if is_row else e.text.rpartition(".")[0]
        if e.use not in ("target", "call") or not through or " " not in through:
            continue
        cap, method = through.split()[0], case.thing_at(e.last - 1) if e.use == "call" else None
        own = (method.receiver or b"paused").decode() if method is not None else "paused"
        if own in (cap, "paused") if e.use == "call" else cap not in ("paused", "imm"):
            continue
        return of_read_only(case, e, target, through, method)
    return [], []


def of_read_only(case, e, target, through, method):
    """What is written, entered or called through what is only read."""
    cap, because, edits = through.split()[0], case.because(target, e.first), []
    if method is not None:
        said = [tell("read_only", text(method.name), method.said(), method.receiver.decode(), target, through, because)]
    elif cap == "imm" and case.word == "enter":
        window, inner = case.window(case.form), case.seen_at(e.last - 1)
        return [tell("read_only2", target, through)], [
            case.whole(f"let {window.name}: {inner} = {e.text}; if not {window.name} is nil ")] if inner and window else []
    else:
        doing = {"swap": "is swapped", "enter": "is entered"}.get(case.word, "is written")
        said = [f"`{e.text}` {doing}, and `{target}` is `{through}`, which only permits reading{because}"]
    thing = case.declared(e.root())
    if thing is None:
        return said, edits
    own, windows = spelt(thing.type) or "", case.windows(thing)
    if thing.kind == "self" and not own.startswith("mut") or own.startswith("paused ") and case.cap_of(thing):
        edits.append((*case.cap_of(thing), "tmp" if case.names.home is not None and case.names.home.is_tmp and thing.kind == "self" else "mut"))
    if method is not None:
        edits.append((*case.source.tokens[method.at - 1], "paused"))
    body = case.code[case.source.tokens[method.block[0]][0]:case.source.tokens[method.block[1]][1]] if method is not None and method.block else "="
    if cap == "imm" and re.search(r"(?<![=!<>])=(?!=)|\bswap\b|\benter\b", body):
        said.append(tell("read_only3"))
        m, form = re.match(r"freeze\s+(\w+)", case.right_of(thing)), case.let_of(thing)
        if m:
            z, at = case.fresh("z", "inner"), case.toks[form.first].start
            moved = f"enter {m[1]} as {z} {{ {renamed(e.root(), z, case.said, '(?=[.])')} }}" + case.break_(at)
            edits.append([(at, at, moved), (case.start, case.stop, "")])
    if windows and cap == "paused":
        edits += case.behind(windows[0])
        got = case.match("$l = $e ;") or case.match(r"call $p \( $a \) ;") or {}
        if "l" in got:
            edits += case.handed_out(windows[0], [got["e"]], lambda names: f"{got['l']} = {names[0]};")
        elif "p" in got:
            args = [it.strip() for it in re.split(r",(?![^(]*\))", got["a"])] if got["a"] else []
            edits += case.handed_out(windows[0], args, lambda names: f"call {got['p']}({', '.join(names)});")
        edits += case.merged(windows[0])
        bridge = spelt(case.names.env.get(windows[-1].name)) or "?"
        if e.use == "call" and bridge.split()[-1] == through.split()[-1]:
            edits.append((case.toks[e.first].start, case.toks[e.last - 3].end, windows[-1].name))
    return said, edits


def of_followed(case, path, type):
    """The owner of a region that is read, written or called through."""
    home, z = type.split()[1], case.fresh("z", "inner", "it")
    said = [tell("followed", path, type)]
    inner = lambda some: renamed(path, z, some, r"(?=\s*[.\[]|\s*$)")
    head, got = f"enter {path} as {z} {{", case.match("let $n : $t = $e ;") or case.match("return $e ;") or {}
    if "n" in got:
        name, kind, right = got["n"], got["t"], inner(got["e"])
        edits = [case.whole(f"let {name}: {kind} = {START.get(kind, 'nil')}; {head} {name} = {right}; }}")]
        out = [case.whole(head, inner(case.said), "}"), case.whole(f"let {z}: mut {home} = merge {path};", inner(case.said))]
        return said, edits if kind in START else edits + out
    if "e" in got:
        r, kind = case.fresh("r", "result"), spelt(case.method.type) if case.method else "int"
        return said, [case.whole(f"let {r}: {kind} = {START.get(kind, 'nil')}; {head} {r} = {inner(got['e'])}; }} return {r};")]
    if case.word == "if":
        b, test = case.fresh("b", "is_so"), case.src(case.form.first + 1, case.head)
        return said, [case.whole(f"let {b}: bool = false; {head} {b} = {inner(test)}; }} if {b} ")]
    if case.word == "enter":
        return said, [[(case.start, case.end, f"enter {path} as {z} {{ {inner(case.said)} "), (case.stop, case.stop, " }")]]
    block = next((inner_ for outer in case.path[1:] for _, _, inner_ in outer.blocks if case.form in inner_), [case.form])
    run, many = [case.form], block[block.index(case.form):]
    while len(run) < len(many) and not many[len(run)].blocks and case.toks[many[len(run)].first].text not in ("let", "swap") and (
            inner(case.src(many[len(run)].first, many[len(run)].last)) != case.src(many[len(run)].first, many[len(run)].last)):
        run.append(many[len(run)])
    end = case.toks[run[-1].last - 1].end
    together = (case.start, end, f"{head} {inner(case.code[case.start:end])} }}")
    return said, [together, case.whole(head, inner(case.said), "}")]


def of_hidden(case, e, k):
    """An `iso` field through what only reads."""
    ahead, of = case.src(e.first, k - 2), case.seen_at(k - 3)
    field, thing, path = case.thing_at(k - 1), case.declared(e.root()), case.src(e.first, k)
    said = [tell("hidden", path, text(field.name), spelt(field.type), ahead, of, case.because(ahead, e.first)),
            tell("hidden2", path)]
    if thing is None or not case.cap_of(thing):
        return said, []
    others = [name for name, type in case.variables() if type == f"mut {spelt(thing.type).split()[-1]}" and name != e.root()]
    return said, [(*case.cap_of(thing), "mut"), *((case.toks[e.first].start, case.toks[e.first].end, it) for it in others),
                  *(edit for window in case.windows(thing)[:1] for edit in case.behind(window))]


def of_window(case):
    """E33: a variable that isn't assigned there."""
    name, thing = case.word, case.declared(case.word)
    if name == "self" or thing is None:
        return [tell("window")], []
    window = (case.windows(thing) or [None])[0]
    if window is None:
        return [], []
    said = [tell("window2", name, spelt(thing.type), window.owner, window.name, case.of_line(window.start)),
            tell("window3")]
    here = case.fresh("n", "here", name + "_in")
    return said, [*case.behind(window), *case.merged(window), case.whole(f"let {here}: {spelt(thing.type)} = {case.match('$l = $e ;')['e']};")]


def is_ready(case, place, name):
    """Whether a variable is there at a place in front of a statement: a statement that asks it has no fault."""
    code, where = case.reggio.fault((case.code[:place] + f"\nprint {name} is nil;\n" + case.code[place:]).encode("latin-1"))
    return where != case.line(place) + 1


def of_unavailable(case):
    """E31: an `iso` variable that was used up, or is entered."""
    some = [e for e in case.operands() if (spelt(case.names.env.get(e.root())) or "").startswith("iso ")]
    roots = [e.root() for e in some]
    twice = next((e for e in reversed(some) if roots.count(e.root()) > 1), None)
    at = next((e for e in some if not is_ready(case, case.start, e.root())), twice)
    if at is None:
        return [], []
    name, type, span = at.root(), spelt(case.names.env[at.root()]), (case.toks[at.first].start, case.toks[at.first].end)
    case.found.span = span
    lent = next((it for it in case.windows() if it.owner == name), None)
    if lent is not None:
        return of_lent(case, at, lent, type, span)
    if is_ready(case, case.start, name):
        other = case.fresh("other", name + "2")
        return [tell("unavailable", name)], [
            [(case.start, case.start, f"let {other}: {type} = new {type} in arena;" + case.break_(case.start)), (*span, other)]]
    before = [it for it, _ in foreign.every(case.toks, [case.body]) if it.first < case.form.first and it is not case.body]
    head = lambda it: case.src(it.first, it.blocks[0][0] if it.blocks else it.last)
    taken = next((it for it in reversed(before) if renamed(name, "", head(it)) != head(it) and is_ready(case, case.toks[it.first].start, name)), None)
    if taken is None:
        return [tell("unavailable2", name)], []
    return of_taken(case, name, type, taken, span)


def of_lent(case, at, lent, type, span):
    """The owner of a window, used in it."""
    name, edits = at.root(), list(case.behind(lent))
    said = [tell("lent", name, lent.name, name, case.of_line(lent.end - 1))]
    if case.word == "enter":
        bridge = case.window(case.form).name
        edits.append(case.whole(f"let {bridge}: mut {type.split()[1]} = {lent.name}; if not {bridge} is nil "))
    elif case.word == "swap":
        said.append(tell("lent2"))
        edits += [(*span, one) for one, it in case.variables() if it == type and one != name]
    elif at.use != "target":
        edits.append((*span, lent.name))
    return said, edits


def of_taken(case, name, type, taken, span):
    """A variable that an earlier statement used up."""
    src, start = case.src(taken.first, taken.last), case.toks[taken.first].start
    said, edits, brk = [f"`{name}` isn't available here since `{line_words(src)[:100]}`{case.of_line(start)}."], [], case.break_(case.start)
    ended = (it for it, _ in foreign.every(case.toks, [case.body]) if it.first < taken.first < it.last <= case.form.first)
    branch = next((it for it in ended if case.toks[it.first].text == "if"), None)
    shut = next((case.toks[b].start for a, b, _ in branch.blocks if a < taken.first < b), None) if branch else None
    if branch:
        said.append(tell("taken"))
    m = re.match(r"(let\s+)?([\w.]+)[^=]*=\s*(freeze|merge)?\s*(.*?);", src)
    call = re.search(r"\bcall\s+([\w.]+)\(", src)
    if m and m[3]:
        said.append(tell("taken2", m[3], m[2], 'is read from everywhere without a window' if m[3] == 'freeze' else 'lies in this region'))
        if case.word == "enter":
            window = case.window(case.form)
            first = [(start, start, case.code[case.start:case.stop] + brk), (case.start, case.stop, "")]      # first entered, then frozen
            edits += [first] if m[3] == "freeze" and not branch else []
            kind = f"{'imm' if m[3] == 'freeze' else 'mut'} {type.split()[1]}"
            edits.append(case.whole(f"let {window.name}: {kind} = {m[2]}; if not {window.name} is nil "))
        edits += [(case.start, case.end, re.sub(rf"(freeze|merge)\s+{name}\b", m[2], case.said)), (*span, m[2])]
    elif m and m[4] == name:
        said.append(tell("taken3", 'variable' if m[1] else 'assignment', m[2]))
        edits.append((shut, shut, f"{name} = {m[2]}; ") if shut else (*span, m[2]))
    elif call:
        method = next((it for home in case.names.classes.values() for it in home.members.values() if text(it.name) == call[1].split(".")[-1]), None)
        gives = method is not None and method.type is not None and method.type[0] == b"iso"
        said.append(f"It was handed to `{call[1].split('.')[-1]}`" + (", whose result has to be assigned to it." if gives else
                    tell("taken4")))
        edits += [(start, start, f"{name} = ")] if gives and src.startswith("call") else []
    new = f"{name} = new {type}" + (" [1]" if case.element(type) else "") + " in arena;"
    return said, edits + ([(shut, shut, new + " ")] if shut else []) + [(case.start, case.start, new + brk)]


def of_loop(case):
    """E34: an `iso` variable that the body of a loop uses up."""
    said = [tell("loop")]
    opens, shuts, inner = case.form.blocks[0]
    body, shut = case.src(opens, shuts), case.toks[shuts].start
    for name, type in case.variables():
        if not type.startswith("iso ") or renamed(name, "", body) == body or is_ready(case, shut, name):
            continue
        thing, edits = case.declared(name), []
        said.insert(0, tell("loop2", name))
        right, form = case.right_of(thing), case.let_of(thing)
        new = right if right.startswith("new ") else f"new {type} in arena"
        for it in inner:
            src, method = case.src(it.first, it.last), None
            if src.startswith("call ") and renamed(name, "", src) != src:
                method = case.thing_at(path_end(case.toks, it.first + 1) - 1)
            if method is not None and method.type and method.type[0] == b"iso":
                edits.append((case.toks[it.first].start, case.toks[it.first].start, f"{name} = "))
        if form and right.startswith("new "):
            let = case.src(form.first, form.last)
            inside = case.toks[opens].end, case.toks[opens].end, f"{case.break_(case.start)}  {let}"
            edits.append([(case.toks[form.first].start, case.toks[form.last - 1].end, ""), inside])
        return said, [*edits, (shut, shut, f"{name} = {new}; ")]
    return said, []


def of_arity(case):
    """E35: more or fewer arguments than parameters."""
    e = next((it for it in case.operands() if it.use == "call"), None)
    method = case.thing_at(e.last - 1) if e else None
    if method is None or method.kind != "method":
        return [], []
    shut = foreign.closing(case.toks, e.last, case.form.last)
    have, want = [it for _, it in foreign.arguments(case.code, case.toks, e.last + 1, shut - 1)], method.params
    stand = f"{len(have) or 'none'} stand{'s' * (len(have) < 2)} here"
    said = [f"`{text(method.name)}` is `{method.said()}`: it takes {counted(len(want), 'argument')}, and {stand}."]
    lacks = [(text(it.name), spelt(it.type)) for it in want[len(have):]]
    if lacks:
        said.append(f"What is missing is {', '.join(f'`{one}: {type}`' for one, type in lacks)}.")
    put = have[:len(want)] + [it[0] if it in case.variables() else {"int": "0", "bool": "true"}.get(it[1], "nil") for it in lacks]
    return said, [(case.toks[e.last].start, case.toks[shut - 1].end, f"({', '.join(put)})")]


def of_iso_field(case):
    """E36: an `iso` field that is used as a value or assigned."""
    e = next((it for it in case.operands() if "." in it.text and (case.seen_at(it.last - 1) or "").startswith("iso ")), None)
    if e is None:
        return [], []
    type, g = case.seen_at(e.last - 1), case.fresh("out", "taken")
    said, got = [tell("iso_field", e.text, type)], case.match("$p = $n ;")
    thing = case.declared(got["n"]) if got and e.use == "target" else None
    if thing is not None and not (spelt(thing.type) or "iso ").startswith("iso "):
        said.append(tell("iso_field2", got["n"], spelt(thing.type), type))
        return said, [[*some, case.whole(f"swap {got['n']}, {e.text};")] for some in case.made_as_iso(thing)]
    take = f"let {g}: {type} = nil; swap {g}, {e.text};"
    return said, [*case.by_rows("36"), case.whole(take, case.put(e, g)), case.whole(take, case.put(e, g), f"swap {g}, {e.text};")]


def of_return(case):
    """E37: a `return` where none may stand, or none where one has to."""
    if case.kind == "member":
        opens, shuts, inner = case.form.blocks[0]
        m, shut = re.search(r"\)(\s*:\s*([\w ]+?)\s*)$", case.said), case.toks[shuts].start
        name, type = case.toks[case.form.first + 2].text, m[2] if m else "int"
        lets = [case.match("let $n : $t =", it.first) or {} for it in inner]
        own = [it["n"] for it in lets if it.get("t") == type]
        said = [f"`{name}` has the result `{type}`, so its body ends with `return ..;`, in its last place and not inside of a block."]
        edits = [(shut, shut, f"return {own[0] if own else START.get(type, 'nil')}; ")]
        return said, edits + ([(case.start + m.start(1), case.start + m.end(1), "")] if m and not own else [])
    of = case.said[6:].strip().rstrip(";")
    if case.method is None:
        return ["`main` has no result: it ends with its block."], [case.whole(f"print {of};"), case.whole("")]
    if case.method.type is None:
        got, at = spelt(case.names.type_of(of)), case.source.tokens[case.method.block[0]][0]
        return [f"`{text(case.method.name)}` has no result (`{case.method.said()}`)."], ([(at, at, f": {got} ")] if got else []) + [case.whole("")]
    return [tell("returns")], []


RULES = {"E21": of_duplicate, "E22": of_type, "E30": of_mismatch, "E31": of_unavailable, "E32": of_capability, "E33": of_window, "E34": of_loop,
         "E35": of_arity, "E36": of_iso_field, "E37": of_return}


def of_rule(reggio, source, found, first, is_first=True):
    """Why a rule refuses the statement, or the member, that begins with a token, and the edits that are taken."""
    case = Case(reggio, source, found, source.tokens[first][0])
    code = found.code()
    found.span = case.start, case.start + len(case.said)
    said, cures, edits, names = [], [], [], []
    if code in ("E20", "E30", "E37", "E38"):      # (what another language has for it is looked for first)
        said, cures = case.written(case.start, is_first=is_first)
        said = said if cures or code == "E38" else []
    if code == "E20":
        told, edits, names = of_unknown(case)
        said = said or told
    elif not cures:
        said, edits = RULES[code](case) if code in RULES else (said, [])
    found.reasons = list(dict.fromkeys(it for it in said if it))
    found.cures = cures or case.try_all(edits)
    if not found.cures and names:      # of the names that are there, one alone fits
        fits = [one for one in names if case.is_taken(*one, case.start, case.end)]
        found.cures = [case.cure(*fits[0])] if len(fits) == 1 else []
