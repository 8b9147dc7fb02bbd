"""A light reader of sources: which class, member or variable a name stands for, and the type that is written of it. It reads
half-typed text too, and decides nothing: what is accepted, only `reggio` says. What a reference is seen as, through another
one or inside a window, it takes from the tables of docs/language.md. tools/explain, tools/server and the pictures read it."""
import bisect
import functools
import os
import re

top = os.path.dirname(os.path.dirname(os.path.realpath(__file__)))
CAPS = (b"mut", b"tmp", b"paused", b"imm", b"iso")
NAME = re.compile(rb"[A-Za-z_]\w*", re.A)
TOKEN = re.compile(rb"(?:[ \t\r\n]|//[^\n]*(?:\n|\Z))*(?:([A-Za-z_]\w*|[0-9]+[A-Za-z_]?\w*|[=!<>]=|(?!//)[^ \t\r\n])|\Z)", re.A)


def document(name):
    with open(f"{top}/docs/{name}", encoding="utf-8") as file:
        return file.read()


def text(some):
    return some.decode("utf-8", "replace")


class Source:
    """The bytes of a program, with its tokens as pairs of places."""

    def __init__(self, code):
        self.code = code
        self.tokens = [m.span(1) for m in TOKEN.finditer(code) if m.lastindex]

    def token(self, at):
        start, end = self.tokens[at]
        return self.code[start:end]

    @functools.cached_property
    def ends(self):
        """The places of the ends of lines."""
        return [m.start() for m in re.finditer(b"\n", self.code)]

    def line_of(self, place):
        return bisect.bisect_left(self.ends, place) + 1

    def span_of(self, line):
        """The places of a line's first byte and of its end."""
        if line > len(self.ends) + 1:
            return len(self.code), len(self.code)
        return self.ends[line - 2] + 1 if line > 1 else 0, self.ends[line - 1] if line <= len(self.ends) else len(self.code)

    def on(self, line):
        """The numbers of the tokens that begin on a line."""
        start, end = self.span_of(line)
        return range(bisect.bisect_left(self.tokens, (start, 0)), bisect.bisect_left(self.tokens, (end, 0)))


def table(heading, page="language.md"):
    """The cells of the first table under a heading of a page of docs/."""
    part = re.search(rf"^#+ {re.escape(heading)}$(.*?)(?=^#|\Z)", document(page), re.M | re.S)[1]
    rows = re.search(r"(?:^\|.*\n)+", part, re.M)[0].splitlines()
    return [[it.strip() for it in re.split(r"(?<!\\)\|", row)[1:-1]] for row in rows if not row.startswith("|--")]


def caps_of(heading):
    """A table of capabilities, as a dictionary of its rows; a cell without one isn't in it."""
    head, *rows = table(heading)
    said = {}
    for row in rows:
        for column, cell in zip(head[1:], row[1:]):
            if cell.strip("`").encode() in CAPS:
                said.setdefault(row[0].strip("`").encode(), {})[column.strip("`").encode()] = cell.strip("`").encode()
    return said


class Words:
    """What docs/language.md says, read once: the reserved words and the signs, and the two tables by which a type changes on
    the way to where it is seen."""

    def __init__(self):
        page = document("language.md")
        self.words = re.search(r"^The reserved words are `([^`]*)`", page, re.M)[1].split()
        self.signs = re.search(r"^- The \*\*signs\*\* are `([^`]*)`", page, re.M)[1].split()
        self.keywords = {it.encode() for it in self.words}
        self.read = caps_of("Reading through a reference")
        self.paused = caps_of("What entering pauses").get(b"inside", {})


@functools.cache
def language():
    return Words()


class Thing:
    """What a name stands for: a class, field, method, parameter, variable or bridge."""

    def __init__(self, kind, name, at, type=None, home=None):
        self.kind, self.name, self.at, self.type, self.home = kind, name, at, type, home
        self.members = {}      # of a class
        self.is_tmp = False
        self.element = None    # of an array class
        self.params = []       # of a method
        self.receiver = None
        self.block = None      # the tokens of its body, from `{` up to `}` or to where it has to have ended
        self.end = at          # its last token
        self.begin = at
        self.depth = 0         # of a variable: how many windows there were

    def said(self):
        """Its declaration in a line."""
        name, spelt = self.name.decode(), spell(self.type)
        if self.kind == "class":
            return ("tmp " if self.is_tmp else "") + f"class {name}" + (f" [{spell(self.element)}];" if self.element else "")
        if self.kind == "method":
            params = ", ".join(f"{it.name.decode()}: {spell(it.type)}" for it in self.params)
            return f"def {(self.receiver or b'?').decode()} {name}({params})" + (f": {spelt}" if self.type else "")
        return f"{name}: {spelt}"


def spell(type):
    if not type:
        return "?"
    cap, of = type
    return cap.decode() + (" " + of.decode() if of else "")


class Body:
    def __init__(self, begin, end, home, method):
        self.begin, self.end, self.home, self.method = begin, end, home, method
        self.uses = None


class Outline:
    def __init__(self, source):
        self.source, self.keywords = source, language().keywords
        code = source.code
        self.toks = [code[start:end] for start, end in source.tokens]
        self.classes, self.things, self.bodies = {}, [], []
        self.declared = {}
        k = 0
        while k < len(self.toks):
            if self.toks[k] == b"class":
                k = self.read_class(k)
            elif self.toks[k] == b"main":
                k = self.read_main(k)
            else:
                k += 1

    def tok(self, k):
        return self.toks[k] if 0 <= k < len(self.toks) else b""

    def is_name(self, k):
        it = self.tok(k)
        return it not in self.keywords and NAME.fullmatch(it) is not None

    def type_at(self, k):
        """The type that is written at a token, and the token behind it."""
        if self.tok(k) in (b"int", b"bool"):
            return (self.tok(k), None), k + 1
        if self.tok(k) in CAPS and self.is_name(k + 1):
            return (self.tok(k), self.tok(k + 1)), k + 2
        return None, k

    def block_end(self, k):
        """The `}` of a `{`, or the token in front of a word that stands in no body, or the last one."""
        depth = 0
        while k < len(self.toks):
            it = self.toks[k]
            if it == b"{":
                depth += 1
            elif it == b"}":
                depth -= 1
                if depth == 0:
                    return k
            elif it in (b"class", b"main", b"def"):
                return k - 2 if it == b"class" and self.toks[k - 1] == b"tmp" else k - 1
            k += 1
        return len(self.toks) - 1

    def declare(self, thing, among=None):
        self.declared[thing.at] = thing
        if among is not None:
            among.setdefault(thing.name, thing)
        return thing

    def read_class(self, k):
        begin = k - 1 if self.tok(k - 1) == b"tmp" else k
        if not self.is_name(k + 1):
            return k + 1
        it = self.declare(Thing("class", self.tok(k + 1), k + 1), self.classes)
        it.is_tmp, it.begin = begin < k, begin
        self.things.append(it)
        if self.tok(k + 2) == b"[":
            it.element, k = self.type_at(k + 3)
            while k < len(self.toks) and self.toks[k] in (b"]", b";"):
                k += 1
            it.end = k - 1
            return k
        if self.tok(k + 2) != b"{":
            return k + 2
        k += 3
        while k < len(self.toks):
            word = self.toks[k]
            if word == b"}":
                it.end = k
                return k + 1
            if word in (b"class", b"main") or (word == b"tmp" and self.tok(k + 1) == b"class"):
                it.end = k - 1
                return k
            if word == b"def":
                k = self.read_method(k, it)
            elif self.is_name(k) and self.tok(k + 1) == b":":
                field = self.declare(Thing("field", word, k, home=it), it.members)
                field.type, k = self.type_at(k + 2)
                field.end = k if self.tok(k) == b";" else k - 1
                k = max(k, field.end + 1)
            else:
                k += 1
        it.end = len(self.toks) - 1
        return k

    def read_method(self, k, home):
        begin = k
        receiver = self.tok(k + 1) if self.tok(k + 1) in CAPS else None
        k += 2 if receiver else 1
        if not self.is_name(k):
            return k
        it = self.declare(Thing("method", self.tok(k), k, home=home), home.members)
        it.receiver, it.begin, it.end = receiver, begin, k
        k += 1
        if self.tok(k) == b"(":
            k += 1
            while k < len(self.toks) and self.toks[k] not in (b")", b"{", b"}", b";", b"def", b"class", b"main"):
                if self.is_name(k) and self.tok(k + 1) == b":":
                    param = self.declare(Thing("parameter", self.toks[k], k, home=it))
                    param.type, k = self.type_at(k + 2)
                    it.params.append(param)
                else:
                    k += 1
            k += self.tok(k) == b")"
        if self.tok(k) == b":":
            it.type, k = self.type_at(k + 1)
        if self.tok(k) == b"{":
            end = self.block_end(k)
            it.block, it.end = (k, end), end
            self.bodies.append(Body(k, end, home, it))
            return end + 1
        return k

    def read_main(self, k):
        it = Thing("main", b"main", k)
        at = k + 1
        while at < len(self.toks) and self.toks[at] not in (b"{", b"class", b"main"):
            at += 1
        if self.tok(at) == b"{":
            end = self.block_end(at)
            it.block, it.end = (at, end), end
            self.bodies.append(Body(at, end, None, it))
            self.things.append(it)
            return end + 1
        self.things.append(it)
        return k + 1

    # ---- Inside a body

    def body_of(self, k):
        at = bisect.bisect_right(self.bodies, k, key=lambda it: it.begin) - 1
        return self.bodies[at] if at >= 0 and k <= self.bodies[at].end + 1 else None

    def seen_as(self, thing, depth):
        """The type of a variable as a window sees it that so many others are round."""
        type = thing.type
        if type and type[1] and depth > thing.depth:
            return language().paused.get(type[0], type[0]), type[1]
        return type

    def through(self, type, name, wants_method=False):
        """The member of a type's class, and its type as it is seen through that type."""
        home = self.classes.get(type[1]) if type else None
        thing = home.members.get(name) if home else None
        if thing is None:
            return None, None
        if thing.kind == "method" or not thing.type or not thing.type[1]:
            return thing, thing.type
        cap = language().read.get(type[0], {}).get(thing.type[0])
        return thing, cap and (cap, thing.type[1])

    def walk(self, body, until=None):
        """Goes through a body: notes what each name stands for and is seen as, and returns what is visible at the end."""
        scopes, uses = [[]], {}
        if body.home is not None:
            scopes[0].append(Thing("self", b"self", body.method.at, (body.method.receiver, body.home.name) if body.method.receiver else None, body.method))
            scopes[0] += body.method.params
        enters, depth, bridge, coming, ended = [False], 0, None, None, []
        here = None                # the type at the end of the path that is read
        k, end = body.begin + 1, body.end if until is None else min(until - 1, body.end)
        seen = lambda name: next((it for scope in reversed(scopes) for it in reversed(scope) if it.name == name), None)
        entered = None
        while k <= end:
            it, before = self.toks[k], self.toks[k - 1]
            if it == b"{":
                scopes.append([])
                enters.append(bridge is not None)
                if bridge is not None:
                    depth += 1
                    bridge.depth = depth
                    scopes[-1].append(bridge)
                    bridge = None
            elif it == b"}":
                if len(scopes) > 1:
                    ended = scopes.pop()
                    depth -= enters.pop()
            elif it == b";":
                if coming is not None:
                    scopes[-1].append(coming)
                    coming = None
            elif it == b"self" or self.is_name(k):
                if before == b".":
                    thing, here = self.through(here, it)
                    if thing is not None:
                        uses[k] = thing, here
                elif before == b"let":
                    coming = self.declare(Thing("variable", it, k, home=body.method))
                    coming.type = self.type_at(k + 2)[0] if self.tok(k + 1) == b":" else None
                    coming.depth = depth
                    uses[k] = coming, coming.type
                elif before == b"as":
                    bridge = self.declare(Thing("bridge", it, k, (b"mut", entered[1]) if entered and entered[1] else None, body.method))
                    uses[k] = bridge, bridge.type
                elif before in CAPS or before == b"new":
                    thing = self.classes.get(it)
                    if thing is not None:
                        uses[k] = thing, None
                else:
                    thing = seen(it)
                    if thing is None and before == b"giving":
                        thing = next((one for one in ended if one.name == it), None)
                    here = self.seen_as(thing, depth) if thing is not None else None
                    if thing is not None:
                        uses[k] = thing, here
            if it == b"as":
                entered = here
            if not (it in (b".", b"self") or self.is_name(k)):
                here = None
            k += 1
        if until is None:
            body.uses = uses
        return [(it, self.seen_as(it, depth)) for scope in scopes for it in scope], here

    def use(self, k):
        """What a token stands for, and the type as it is seen there."""
        if k in self.declared and self.declared[k].kind not in ("variable", "bridge"):
            return self.declared[k], self.declared[k].type
        body = self.body_of(k)
        if body is not None and body.begin <= k <= body.end:
            if body.uses is None:
                self.walk(body)
            return body.uses.get(k, (None, None))
        if self.tok(k - 1) in CAPS and self.is_name(k):
            return self.classes.get(self.tok(k)), None
        return None, None

    def uses_of(self, thing):
        """The tokens that stand for a thing, its declaration among them."""
        found = {thing.at} if thing.kind != "self" else set()
        for body in self.bodies:
            if body.uses is None:
                self.walk(body)
            found.update(k for k, (it, _) in body.uses.items() if it is thing)
        if thing.kind == "class":
            found.update(k for k in range(len(self.toks)) if self.toks[k] == thing.name and self.tok(k - 1) in CAPS)
        return sorted(found)

    def token_at(self, place):
        """The token round a place, or right in front of it."""
        at = bisect.bisect_right(self.source.tokens, (place, len(self.source.code) + 1)) - 1
        if at >= 0 and self.source.tokens[at][0] <= place < self.source.tokens[at][1]:
            return at
        if at >= 0 and self.source.tokens[at][1] == place and NAME.match(self.toks[at]):
            return at
        return None

    def ahead(self, place):
        """How many tokens end in front of a place."""
        at = bisect.bisect_left(self.source.tokens, (place, -1))
        return at - 1 if at and self.source.tokens[at - 1][1] > place else at
