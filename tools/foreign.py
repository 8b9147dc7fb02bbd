"""Writes what other languages have as Reggio has it: by the rows of tools/foreign.txt, and by what no row can say. Rules are applied
to a form of the source (a statement, a member, a class) until none applies. What is written is only tried: whether it does,
`reggio` says. Read by tools/reasons.py."""
import functools
import itertools
import re
import time
from dataclasses import dataclass

from outline import CAPS as CAP_BYTES, language, table, text, top

CAPS = [it.decode() for it in CAP_BYTES]
PIECE = re.compile(r"""(?P<blank>[ \t\r\f\v]+)|(?P<line>\n)|(?P<comment>/\*.*?(?:\*/|\Z)|//[^\n]*|\#[^\n]*)|(?P<name>[A-Za-z_]\w*)
  |(?P<number>\d(?:\w|\.(?=\d))*)
  |(?P<string>\"\"\".*?\"\"\"|'''.*?'''|"(?:\\.|[^"\\\n])*"?|'(?:\\.|[^'\\\n])*'?|`[^`\n]*`?)
  |(?P<sign>\.\.\.|\.\.=|\.\.<|===|!==|\*\*=|//=|->|=>|::|:=|\?\.|\?\?|\?:|&&|\|\||==|!=|<=|>=|<>|~=|\+=|-=|\*=|/=|%=|\+\+|--|<<|>>
    |\*\*|\.\.|[^\s])""", re.X | re.S | re.A)
SHOWN = re.compile(r"(?:System\.out\.|console\.|fmt\.|std::|env\.out\.|Console\.)?(print|println|printf|puts|echo|log|Println|Printf|"
                   r"printLine|WriteLine|eprintln|cout|cerr)\b(!?)\s*(\(|<<)?")
DIVISION = re.compile(r"//\s*[\w(][\w.()+*/%\[\] -]*;")
MANAGERS = "arena count trace".split()
CAP_WORDS = {"ref": "mut", "val": "imm", "box": "paused", "trn": "iso", "tag": "paused", "const": "paused", "readonly": "paused",
             "unique": "iso", "shared": "imm", "own": "iso", "inout": "mut"}
DECLARES = set("let var val const auto final local global static mut ref register volatile my lateinit embed".split())
VISIBLE = set("public private protected static final abstract override virtual async pub export internal inline const "
              "synchronized default readonly open sealed extern unsafe data explicit constexpr volatile partial".split())
with open(f"{top}/tools/foreign.txt", encoding="utf-8") as rows, open(f"{top}/tools/reasons.txt", encoding="utf-8") as sentences:
    ROWS_READ, SENTENCES = rows.read(), dict(re.findall(r"(?m)^([\w-]+)  (.*)$", sentences.read()))
SETS = {name: words.replace(" ", "|") for name, words in re.findall(r"(?m)^([A-Z_]{4,}) (.*)$", ROWS_READ)}
METHODS, CLASSES, DECLARES, VISIBLE, NUMBERS, TRUTHS, TEXTS, ROWS, NO_TYPE, MAKERS, KEYWORDS, NILS = (set(it.split("|")) for it in SETS.values())
WORDS = {**dict.fromkeys(NILS, "nil"), "True": "true", "TRUE": "true",
         "False": "false", "FALSE": "false", **dict.fromkeys("this This me".split(), "self"), "mod": "%", "div": "/"}
SIGNS = {"&&": "and", "||": "or", "===": "==", "!==": "!=", "<>": "!=", "~=": "!=", "!": "not", "//": "/"}
TOLD = {"nil": "`{0}` is `nil` here.", "self": "`{0}` is `self` here.", "and": "For `&&` and `||` there are `and` and `or`.",
        "or": "For `&&` and `||` there are `and` and `or`.", "not": "For `!` there is `not`.",
        "/": "`//` begins a comment; `/` divides whole numbers."}
LONGEST = 1 << 13    # bytes of a form that is written
FARTHEST = 200       # tokens of a part of a pattern
SECONDS = 1.0        # in which a form is written
START = {"int": "0", "bool": "false"}
ENDS_HERE = set("else elif elseif elsif giving catch except finally ; , ) .".split())
GOES_ON = set("and or is in as instanceof".split())
JOINED = (".", "call", "new", *CAPS)
CLOSED = {"(": ")", "[": "]", "{": "}"}
ABOUT = {word: said for words, said in table("Words of other languages", "diagnostics.md")[1:] for word in re.findall(r"`(\w+)`", words)}
NO_OPERAND = set(language().words) - {"self", "true", "false", "nil", "size", "read"}
LENGTHS = r"len|length|size|count|Length|Count|sizeof"

def tell(name, *parts):
    """A sentence of tools/reasons.txt."""
    return re.sub(r"<(\d)>", lambda m: str(parts[int(m[1])]), SENTENCES[name])


def wrapped(some):
    """An expression in parentheses where it is an operand of a sum or a product."""
    return some if re.fullmatch(r"[\w.]+(\[[\w.]+\])?", some) else f"({some})"


class Cannot(Exception):
    """What has no form here."""


# ---- Tokens, and forms by their braces


@dataclass(slots=True)
class Token:
    kind: str
    text: str
    start: int
    end: int
    is_fresh: bool      # whether a line begins with it
    indent: int
    is_class: bool


@dataclass(slots=True)
class Form:
    """A statement, a member or a class: the numbers of its first token and of the one behind it, and its blocks: for each those of
    its braces, and the forms in it."""
    first: int
    last: int
    blocks: list


def cut(code, classes=()):
    """The tokens, and one at the end."""
    some, place, fresh, line = [], 0, True, 0
    while place < len(code):
        m = PIECE.match(code, place)
        kind, end = m.lastgroup, m.end()
        if kind == "comment" and some and not fresh and DIVISION.match(code, place) and ends_operand(some[-1]):
            kind, end = "sign", place + 2
        if kind == "line":
            fresh, line = True, end
        elif kind not in ("blank", "comment"):
            some.append(Token(kind, code[place:end], place, end, fresh, place - line, code[place:end] in classes))
            fresh = False
        place = end
    return [*some, Token("end", "", len(code), len(code), True, -1, False)]


def ends_operand(it):
    return it.kind in ("name", "number", "string") and it.text not in NO_OPERAND or it.text in (")", "]")


def begins(toks, k, form):
    """Whether a token at the beginning of a line begins a statement, whose predecessor has no `;`."""
    it, before = toks[k], toks[k - 1]
    is_head = toks[form.first].text in ("if", "while", "for", "else", "enter", "def") and not form.blocks and it.indent > toks[form.first].indent
    return it.kind == "name" and it.text not in GOES_ON | ENDS_HERE and ends_operand(before) and not is_head


def read_forms(toks, k, stop):
    """The forms up to a `}`, and its number."""
    some = []
    while k < stop and toks[k].text != "}":
        form, depth = Form(k, k, []), 0
        while k < stop:
            it = toks[k]
            if it.text == "}" or depth == 0 and k > form.first and it.is_fresh and begins(toks, k, form):
                break
            k += 1
            if it.text in ("(", "["):
                depth += 1
            elif it.text in (")", "]"):
                depth = max(0, depth - 1)
            elif it.text == "{":
                inner, shut = read_forms(toks, k, stop)
                form.blocks.append((k - 1, shut, inner))
                k, after = min(shut + 1, stop), toks[min(shut + 1, len(toks) - 1)].text
                is_more = after in ENDS_HERE or after in ("while", "until") and toks[form.first].text in ("do", "repeat")
                if depth == 0 and not is_more:
                    break
            elif it.text == ";" and depth == 0:
                break
        form.last = k = max(k, form.first + 1)
        some.append(form)
    return some, k


def read_all(toks):
    """The forms of a whole source, of which a `}` too many is one of its own; none of a source whose blocks are too deep."""
    some, k, stop = [], 0, len(toks) - 1
    while k < stop:
        try:
            more, k = read_forms(toks, k, stop)
        except RecursionError:
            return []
        some += more
        if k < stop:
            some.append(Form(k, k + 1, []))
            k += 1
    return some


def is_class(toks, form):
    head = [it.text for it in toks[form.first:form.blocks[0][0] if form.blocks else form.last]]
    return any(it in CLASSES for it in head[:4]) and "(" not in head


def every(toks, some, kind="top"):
    """All forms with their kinds, those outside first."""
    for form in some:
        yield form, kind
        inner = "member" if kind != "statement" and is_class(toks, form) else "statement"
        for _, _, more in form.blocks:
            yield from every(toks, more, inner)


def around(toks, some, place, kind="top"):
    """The forms round a place with their kinds, the innermost first."""
    for form in some:
        if toks[form.first].start <= place < toks[form.last - 1].end:
            inner = "member" if kind != "statement" and is_class(toks, form) else "statement"
            return [*(it for _, _, more in form.blocks for it in around(toks, more, place, inner)), (form, kind)]
    return []


# ---- Patterns


@functools.cache
def compiled(pattern):
    """The parts of a pattern: (kind, name, expression, whether it may be missing)."""
    some = []
    for it in pattern.split():
        missing = it.endswith("??") and len(it) > 2 and it != r"\?\?"
        it = it[:-2] if missing else it
        it = "|".join(SETS.get(one, one) for one in it.split("|"))
        m = re.fullmatch(r"\$([a-z])\d?", it)
        some.append((m[1], it[1:], None, missing) if m else ("", "", re.compile(re.escape(it) if it in "{}" else it), missing))
    return tuple(some)


def path_end(toks, k, more=(".",)):
    """Behind the longest path that begins at a token, or None."""
    if toks[k].kind != "name" or toks[k].text in language().words and toks[k].text != "self":
        return None
    k += 1
    while toks[k].text in more and toks[k + 1].kind == "name":
        k += 2
    return k


def closing(toks, k, stop):
    """Behind the bracket that closes the one at a token, or None."""
    depth = 0
    for at in range(k, stop):
        depth += (toks[at].text in CLOSED) - (toks[at].text in (")", "]", "}"))
        if depth == 0:
            return at + 1
    return None


def runs(toks, k, stop, commas, stops=()):
    """The places up to which balanced tokens go from a token on, the nearest first."""
    at, stop = k, min(stop, k + FARTHEST)
    while at < stop:
        it = toks[at].text
        if it in (";", "}", ")", "]", *stops) or it == "," and not commas or it == "{" and at > k and toks[at - 1].text != "=":
            return
        at = closing(toks, at, stop) if it in CLOSED else at + 1
        if at is None:
            return
        yield at


COMPARES = "== != < <= > >= and or not = ? : is if else in to << .. ..= ..< return print".split()


def ends_of(kind, toks, k, stop):
    """Where a part of a pattern may end that begins at a token."""
    it = toks[k]
    if kind == "n":
        return [k + 1] if it.kind == "name" and it.text not in language().words else []
    if kind == "c":
        return [k + 1] if it.is_class else []
    if kind in ("p", "l"):
        end = path_end(toks, k)
        row = closing(toks, end, stop) if kind == "l" and end and toks[end].text == "[" else None
        return [at for at in (row, *range(end or 0, k, -2)) if at and at <= stop]
    if kind in ("e", "a"):
        return itertools.chain([k] if kind == "a" else [], runs(toks, k, stop, kind == "a"))
    if kind == "o":
        return list(runs(toks, k, stop, False, COMPARES))[::-1] if it.text not in "*/%+.&|" and not (
            it.kind == "name" and it.text in NO_OPERAND) else []
    if kind == "u":
        end = path_end(toks, k) or (k + 1 if it.kind == "number" else closing(toks, k, stop) if it.text == "(" else None)
        while end and end < stop and toks[end].text == "[":
            end = closing(toks, end, stop)
        return [end] if end else []
    if kind == "t":
        return type_ends(toks, k, stop)
    if kind == "b":
        end = closing(toks, k, stop) if it.text == "{" else None
        return [end] if end else []
    if kind == "q":
        return [k + 1] if it.kind == "string" else []
    form = read_forms(toks, k, stop)[0][:1]      # a statement
    return [form[0].last] if form else []


def type_ends(toks, k, stop):
    at = k
    while at < stop and (toks[at].kind == "name" or toks[at].text in ("&", "*", "?", "::", ".", "<", "[")):
        at = (closing(toks, at, stop) or stop) if toks[at].text == "[" else at + 1
        if toks[at - 1].text == "<":
            depth = 1
            while at < stop and depth > 0 and (toks[at].kind == "name" or toks[at].text in ("<", ">", ">>", ",", "&", "*", "[", "]", "?", "::", ".")):
                depth += (toks[at].text == "<") - (toks[at].text == ">") - 2 * (toks[at].text == ">>")
                at += 1
        yield at


def match(parts, toks, k, stop, got=()):
    """The parts of a pattern from a token on: (name or None, first token, the one behind), or None."""
    if not parts:
        return got
    kind, name, word, missing = parts[0]
    known = next((toks[a:b] for one, a, b in got if one and one == name), None)
    if known:       # the same again
        end = k + len(known)
        return match(parts[1:], toks, end, stop, got) if [it.text for it in known] == [it.text for it in toks[k:end]] else None
    if kind or k < stop and word.fullmatch(toks[k].text) and toks[k].kind != "string":
        for end in ends_of(kind, toks, k, stop) if kind and k < stop else [k + 1] if not kind else []:
            found = match(parts[1:], toks, end, stop, (*got, (name, k, end)))
            if found is not None:
                return found
    return match(parts[1:], toks, k, stop, got) if missing else None


# ---- Types


def types_meant(words, classes, fresh):
    """The types that are meant by some words in place of one, the likeliest first."""
    words = [it for it in words if it not in ("&", "*", "?", "dyn", ".", "::", "^", "!", "(", ")")]
    some = [it for it in words if it not in ("[", "]", "<", ">", ">>", ",", "mut", "ref", "const")] or words
    if len(words) == 1 and words[0] in START or len(words) == 2 and words[0] in CAPS and words[1] in classes:
        return [" ".join(words)]
    named = next((it for it in some if it in classes), None)
    if "[" in words or any(it in ROWS and it not in classes for it in some):
        of = f"mut {named}" if named else "bool" if set(some) & TRUTHS else "int"
        rows = sorted((it for it in classes if classes[it].element), key=lambda it: spelt(classes[it].element) != of)
        if not rows:
            raise Cannot(tell("no_row", fresh(f"{named}s" if named else "Row"), of))
        return [f"mut {it}" for it in rows]
    if named is not None:
        caps = [CAP_WORDS.get(it, it) for it in words if it in CAPS or it in CAP_WORDS]
        caps = [it for it in caps if it != "mut"] or caps
        return list(dict.fromkeys(f"{cap} {named}" for cap in [*caps, *caps_of(classes[named])]))
    if set(some) & TEXTS:
        raise Cannot(tell("text"))
    if any("Map" in it or it.lower() in ("dict", "hashtable") for it in some):
        raise Cannot(tell("types_meant"))
    return ["int"] if set(some) & NUMBERS else ["bool"] if set(some) & TRUTHS else []


def caps_of(home):
    return ["tmp", "paused"] if home.is_tmp else ["mut", "imm", "iso", "paused"]


def spelt(type):
    """A type of the outline as it is written."""
    return " ".join(it.decode() for it in type if it) if type else None


class Names:
    """What is there where a form stands: the classes, the class round it, and the variables with their types."""

    def __init__(self, outline, place):
        self.outline = outline
        self.classes = {it.decode(): thing for it, thing in outline.classes.items()}
        self.used = {it.decode("latin-1") for it in outline.toks}
        self.locals = {it.decode() for it in re.findall(rb"\b(?:let|as)\s+([A-Za-z_]\w*)", outline.source.code)}
        k = outline.ahead(place)
        body = outline.body_of(k)
        self.home = next((it for it in self.classes.values() if it.begin <= k <= it.end), None)
        some = outline.walk(body, k)[0] if body is not None else []
        self.env = {thing.name.decode(): type for thing, type in some}
        self.locals |= {it.name.decode() for it in outline.declared.values() if it.kind == "parameter"}
        self.declared = self.locals | {it.name.decode() for it in outline.declared.values()}

    def fresh(self, *wanted):
        name = next(it for it in (*wanted, *(f"{wanted[0]}{k}" for k in range(2, 99))) if it not in self.used and it not in language().words)
        self.used.add(name)
        return name

    def member(self, home, name):
        return home.members.get(name.encode()) if home is not None else None

    def class_of(self, type):
        return self.outline.classes.get(type[1]) if type else None

    def type_of(self, some, extra=()):
        """The type of an expression, as far as it is known."""
        toks = cut(some)
        texts = [it.text for it in toks]
        if texts[0] == "(" and closing(toks, 0, len(toks) - 1) == len(toks) - 1:
            return self.type_of(some[toks[0].end:toks[-2].start], extra)
        if set(texts) & {"and", "or", "not", "==", "!=", "<", "<=", ">", ">=", "is", "true", "false", "more"}:
            return b"bool", None
        if texts[0] == "new":
            named = next((it for it in texts if it in self.classes), None)
            cap = b"iso" if "iso" in texts else b"tmp" if "tmp" in texts or named and self.classes[named].is_tmp else b"mut"
            return (cap, named.encode()) if named else None
        k = 1 if texts[0] in ("call", "freeze", "merge") else 0
        end = path_end(toks, k)
        if not end:
            return (b"int", None) if toks[0].kind == "number" or texts[0] in ("-", "size", "read", "(") else None
        type = dict(extra).get(texts[k]) or self.env.get(texts[k])
        for name in texts[k + 2:end:2]:
            type = self.outline.through(type, name.encode())[1]
        if texts[end] == "[" and type and self.class_of(type) and self.class_of(type).element:
            of = self.class_of(type).element
            cap = language().read.get(type[0], {}).get(of[0]) if of[1] else None
            type, end = ((cap, of[1]) if cap else of if not of[1] else None), closing(toks, end, len(toks)) or end
        if texts[end] == "(":
            end = closing(toks, end, len(toks)) or end
        if texts[0] in ("freeze", "merge"):
            return (b"imm" if texts[0] == "freeze" else b"mut", type[1]) if type else None
        return type if texts[end] == "" else (b"int", None) if texts[end] in ("+", "-", "*", "/", "%") else None

    def all_types(self):
        return ["int", "bool", *(f"{cap} {name}" for name, it in self.classes.items() for cap in caps_of(it))]


# ---- Writing


class Writer:
    """Writes one form of a source as Reggio has it."""

    def __init__(self, names):
        self.names, self.notes, self.choices, self.renames = names, [], [], {}
        self.stop = time.monotonic() + SECONDS

    def hole(self, some=None):
        """A type that is looked for among some, or among all."""
        if some is not None and len(some) == 1:
            return some[0]
        self.choices.append(some)
        return f"TYPE{len(self.choices) - 1}__"

    def types(self, words):
        return types_meant(words, self.names.classes, self.names.fresh)

    def note(self, why):
        self.notes += [why] if why else []

    def write(self, code, kind):
        """The form as Reggio has it, with holes for types."""
        for _ in range(200):
            edit = self.step(code, kind)
            if edit is None:
                return code
            start, end, put = edit
            code = code[:start] + put + code[end:]
        raise Cannot("")

    def step(self, code, kind):
        """The first rule that applies, as an edit."""
        toks = cut(code, self.names.classes)
        some = list(every(toks, read_all(toks), kind))
        for rows in (SURE, TOLD_ONLY):
            for form, its in some:
                for act in ACTS[its] if rows is SURE else (Writer.told,):
                    edit = act(self, code, toks, form, its)
                    if edit is not None and edit[2] != code[edit[0]:edit[1]]:
                        return edit
        return None

    def by_table(self, code, toks, form, kind, rows=None):
        inner = [range(a, b) for a, b, _ in form.blocks]
        places = {"statement": "SEPL", "member": "M", "top": "T"}[kind]
        for k in range(form.first, form.last if kind == "statement" else form.first + 1):
            if time.monotonic() > self.stop:
                raise Cannot("")
            if any(k in it for it in inner) and toks[k].text != "{":
                continue
            for where, parts, template, why in rows or SURE:
                is_off = k > form.first and (where == "S" or where == "P" and ends_operand(toks[k - 1]) or toks[k - 1].text in JOINED)
                if where not in places or is_off or parts[0][2] is not None and not parts[0][2].fullmatch(toks[k].text):
                    continue
                got = match(parts, toks, k, form.last)
                if got is None or got[-1][2] == k or where == "L" and self.is_right(toks, form, k, got[-1][2]) or any(
                        not name and toks[a].text in self.names.declared for name, a, b in got if b > a):
                    continue
                edit = self.fill(template, why, code, toks, got, parts, form)
                if edit is not None:
                    return edit
        return None

    def is_right(self, toks, form, k, end):
        """Whether a right side stands from a token to another one: what may stand there alone."""
        if toks[k].text == "new" and toks[k - 1].text == "=":
            return True
        is_path = [it.text for it in toks[form.first:k]].count("let") or not any(it.text in (".", "[") for it in toks[form.first:k])
        return toks[end].text == ";" and (k == form.first or toks[k - 1].text == "=" and (is_path or toks[k].text in ("new", "read", "more")))

    def told(self, code, toks, form, kind):
        """Raises what is told of a form that has none here."""
        return self.by_table(code, toks, form, kind, TOLD_ONLY)

    def fill(self, template, why, code, toks, got, parts, form):
        """What a row's template gives for what its pattern found."""
        src = lambda a, b: code[toks[a].start:toks[b - 1].end] if b > a else ""
        alike = [part[2].pattern for part in parts if part[2] is not None and re.search(r"(?<!\\)\|", part[2].pattern)]
        it = {name: src(a, b) for name, a, b in got if name}
        words = [src(a, b) for name, a, b in got if not name]
        chosen = [word for word in words if any(re.fullmatch(one, word) for one in alike)]
        fresh = {}

        def part(m):
            name, turn, wraps, new = m.groups()
            if new:
                fresh[new] = fresh.get(new) or self.names.fresh(new, new + "_2")
                return fresh[new]
            if name is None:
                return wrapped(it[wraps]) if wraps else self.hole()
            if name[0].isdigit():
                return chosen[int(name[0])][:-1 if name[1:] else None]
            if turn == "~":
                return re.sub(rf"(?<![\w.]){re.escape(it['p'])}(?=\.)", fresh["z"], it[name])
            return turned(it[name], filled(turn[1:-1])) if turn else it[name]

        filled = lambda some: re.sub(r"\$(?:([a-z]\d?|\d-?)(~|\{[^{}]*\})?|\(([a-z]\d?)\))|@(\w+)|%T", part, some)
        told = ABOUT.get(why, why) or ABOUT.get(words[0] if words else "", "")
        if template is None:
            raise Cannot(told)
        self.note(filled(told) if "$" in told else told)
        put = template
        start, end, (*ahead, put) = toks[got[0][1]].start, toks[got[-1][2] - 1].end, filled(put).split(" || ")
        first = toks[form.first]
        if not ahead:
            return start, end, put
        if first.text == "else":
            raise Cannot("")
        turn = re.sub(r"^let (\w+): \w+", r"\1", ahead[0])
        block = turned(code[toks[form.blocks[0][0]].start:toks[form.blocks[0][1]].end], turn) if first.text == "while" and form.blocks else ""
        stop = toks[form.blocks[0][1]].end if block else end
        return first.start, stop, f"{ahead[0]} {code[first.start:start]}{put}" + (code[end:toks[form.blocks[0][0]].start] + block if block else "")

    # -- Statements

    def words(self, code, toks, form, kind):
        """Words and signs for which another one stands."""
        for k in range(form.first, form.last):
            it = toks[k]
            put = SIGNS.get(it.text) if it.kind == "sign" else WORDS.get(it.text)
            before = toks[k - 1].text if k else ""
            is_own = it.kind == "name" and (it.text in self.names.declared or before in (".", "let", "def") or toks[k + 1].text == "(")
            if put is None or is_own or it.text == "!" and k > form.first and ends_operand(toks[k - 1]):
                continue
            self.note(TOLD.get(put, "It is `{1}` here.").format(it.text, put))
            return it.start, it.end, put + " " * (it.text == "!")
        return None

    def numbers(self, code, toks, form, kind):
        for it in toks[form.first:form.last]:
            if it.kind != "number" or it.text.isdigit() and len(it.text.lstrip("0")) < 19:
                continue
            said = it.text.replace("_", "").lower()
            if said == "9223372036854775808" and code[:it.start].endswith("-"):
                self.note("The least number isn't written as one.")
                return it.start - 1, it.end, "-9223372036854775807 - 1"
            for pattern, base in ((r"0x([0-9a-f]+)", 16), (r"0b([01]+)", 2), (r"0o([0-7]+)", 8), (r"(\d+)(?:u?l{1,2}|u|n|[iu](?:\d\d|size))?", 10)):
                m = re.fullmatch(pattern, said)
                if m and int(m[1], base) < 1 << 63:
                    self.note("A number is decimal digits alone." if str(int(m[1], base)) != it.text else "")
                    return it.start, it.end, str(int(m[1], base))
            raise Cannot(tell("numbers") if "." in said
                         else "Numbers go from -9223372036854775808 to 9223372036854775807.")
        return None

    def braces(self, code, toks, form, kind):
        """A block of one statement without braces, and an `else` that has an `if` behind it."""
        spans = [range(a + 1, b) for a, b, _ in form.blocks]
        for k in range(form.first, form.last):
            if any(k in it for it in spans):
                continue
            it, then = toks[k], toks[k + 1]
            if it.text in ("elif", "elseif", "elsif", "elsf") or it.text == "else" and then.text == "if":
                self.note(ABOUT["elif"])
                end = toks[form.last - 1].end
                return it.start, end, "else { if" + code[(then if it.text == "else" else it).end:end] + " }"
            if it.text == "else" and then.text not in ("{", "if", ":"):
                self.note(tell("block"))
                return self.in_braces(code, toks, k + 1, form.last)
            if it.text in ("if", "while") and k == form.first and not form.blocks:
                for end in runs(toks, k + 1, form.last - 1, False):
                    if ends_operand(toks[end - 1]) and toks[end].kind == "name" and toks[end].text not in GOES_ON:
                        self.note(tell("block"))
                        return self.in_braces(code, toks, end, form.last)
        return None

    def in_braces(self, code, toks, k, stop):
        some = read_forms(toks, k, stop)[0]
        start, end = toks[k].start, toks[some[0].last - 1].end
        return start, end, "{ " + code[start:end] + " }"

    def declared(self, code, toks, form, kind):
        """A declaration as other languages have it."""
        k = form.first
        while toks[k].text in DECLARES and toks[k + 1].kind == "name":
            k += 1
        is_said = k > form.first
        name = type = None
        if toks[k].kind == "name" and toks[k + 1].text in (":", "=", ";", ":=", ",") and (
                is_said or toks[k + 1].text == ":" or toks[k + 1].text == ":=" and toks[k].text not in self.names.env):
            name, k = toks[k], k + 1
            if toks[k].text == ":":
                ends = (at for at in range(k, form.last) if toks[at].text in ("=", ";", ",", ":=") and not self.in_angles(toks, k, at))
                end = next(ends, form.last)
                type, k = toks[k + 1:end], end
        elif toks[k].kind == "name" and (toks[k].text not in language().words or toks[k].text in (*START, *CAPS)):
            for end in type_ends(toks, k, form.last):
                if toks[end].text in ("=", ";", ",") and end - 1 > k and toks[end - 1].kind == "name" and toks[end - 2].text not in (".", "::") and (
                        not toks[end - 1].is_fresh and toks[k].text not in ABOUT):
                    name, type, k = toks[end - 1], toks[k:end - 1], end
                    break
        if name is None or toks[k].text == "{":
            return None
        is_good = code.startswith("let ", toks[form.first].start) and toks[form.first + 1] is name and type and toks[k].text == "="
        words = [it.text for it in type or []]
        if is_good and (words[-1:] and re.fullmatch(r"TYPE\d+__", words[-1]) or words in (["int"], ["bool"]) or (
                len(words) == 2 and words[0] in CAPS and words[1] in self.names.classes)):
            return self.split(code, toks, form, k, words) or self.renamed(code, toks, form, name)
        self.note(tell("let") + (" There is no `let` without a type." if is_said and not type else ""))
        some = self.types(words) if words and words != ["auto"] else None
        right = code[toks[k].end:toks[form.last - 1].end] if toks[k].text in ("=", ":=") else None
        if right is None:
            self.note("No variable is without a value.")
            some = some or self.names.all_types()
            return toks[form.first].start, toks[k].start, f"let {name.text}: {some[0]} = {START.get(some[0], 'nil')}"
        m = re.match(r"\s*new\s+(?:(iso|tmp)\s+)?(\w+)", right)
        if m and m[2] in self.names.classes:
            mine = f"{m[1] or ('tmp' if self.names.classes[m[2]].is_tmp else 'mut')} {m[2]}"
            some = list(dict.fromkeys([mine, *(some or [])])) if not some or some[0] != f"iso {m[2]}" else [some[0], mine]
        return toks[form.first].start, toks[k].end, f"let {name.text}: {self.hole(some or None)} ="

    def in_angles(self, toks, k, at):
        return sum(it.text == "<" for it in toks[k:at]) > sum(it.text.count(">") for it in toks[k:at])

    def split(self, code, toks, form, k, words):
        """Two variables in one declaration."""
        for end in runs(toks, k + 1, form.last, False):
            if toks[end].text == "," and toks[end + 1].kind == "name":
                self.note("A declaration has one variable.")
                type = "" if toks[end + 2].text == ":" else ": " + " ".join(words)
                one = toks[end + 1]
                value = "" if toks[end + 2].text in ("=", ":") else f" = {START.get(words[0], 'nil')}"
                return toks[end].start, one.end, f"; let {one.text}{type}{value}"
        return None

    def renamed(self, code, toks, form, name):
        """Another name for a variable with that of a reserved word: up to the end of what is written."""
        if name.text not in language().words:
            return None
        self.note(f"`{name.text}` is a reserved word, and no name.")
        self.renames[name.text] = self.names.fresh("total", "number", "other")
        return name.start, name.end, self.renames[name.text]

    def assigned(self, code, toks, form, kind):
        """An assignment to what nothing declares, and a field of one's own without `self`."""
        it, then = toks[form.first], toks[form.first + 1]
        is_known = lambda one: one.text in self.names.env or one.text in language().words or re.search(
            rf"\b((let|as)\s+{one.text}|{one.text}\s*:)(?!\w)", code[:one.start])
        for k in range(form.first, form.last):
            one = toks[k]
            member = self.names.member(self.names.home, one.text) if one.kind == "name" else None
            is_free = toks[k - 1].text not in (".", "as", "let") and toks[k + 1].text != ":"
            if member is not None and member.kind == "field" and is_free and not is_known(one):
                self.note(tell("assigned", one.text))
                return one.start, one.start, "self."
        if it.kind == "name" and then.text in ("=", ":=") and not is_known(it) and toks[form.last - 1].text == ";":
            self.note(tell("assigned2"))
            return it.start, then.end, f"let {it.text}: {self.hole()} ="
        return (then.start, then.end, "=") if then.text == ":=" and it.kind == "name" else None

    def shown(self, code, toks, form, kind):
        m = SHOWN.match(code, toks[form.first].start)
        if not m or m[1] in self.names.declared:
            return None
        k = next(k for k in range(form.first, form.last + 1) if toks[k].start >= m.end())
        stop = closing(toks, k - 1, form.last) if m[3] == "(" else None
        if m[0].strip() == "print" or m[0].replace(" ", "") == "print(" and stop and toks[stop].text != ";":
            k, stop = form.first + 1, None
        stop = stop - 1 if stop else form.last - (toks[form.last - 1].text == ";")
        args, at = [], k
        while at < stop:
            ends = list(runs(toks, at, stop, False, ("<<",)))
            if not ends:
                break
            args.append(code[toks[at].start:toks[ends[-1] - 1].end])
            at = ends[-1] + 1
        good = [it for it in args if not re.match(r"[fbr]?[\"'`]|(std::)?endl$", it)]
        if m[0].strip() in ("print", "print(", "print (") and len(args) == 1 == len(good):
            return None
        self.note(tell("print") if args else "")
        if len(good) < len(args):
            self.note(tell("text"))
        if not good:
            raise Cannot(tell("text") if args else tell("shown"))
        return toks[form.first].start, toks[form.last - 1].end, " ".join(f"print {it};" for it in good)

    # -- Calls, and what is made

    def own_call(self, code, toks, form, kind):
        """A call that names no object: of a method of one's own, or of a visible object that has it."""
        for k in range(form.first, form.last):
            it = toks[k]
            is_word = it.is_class or it.text in KEYWORDS | ROWS or it.text in language().words or re.fullmatch(LENGTHS, it.text)
            if it.kind != "name" or is_word or toks[k + 1].text != "(" or toks[k + 1].is_fresh or k and toks[k - 1].text in (".", "def", "::"):
                continue
            has = lambda home: self.names.member(home, it.text) is not None
            some = ["self"] if has(self.names.home) else [name for name, type in reversed(self.names.env.items()) if has(self.names.class_of(type))]
            if not some:
                raise Cannot(tell("function", it.text))
            self.note(tell("own_call", some[0], it.text))
            start = toks[k - 1].start if k and toks[k - 1].text == "call" else it.start
            return start, it.end, f"call {some[0]}.{it.text}"
        return None

    def made(self, code, toks, form, kind):
        """An object that is made: an array with its size; another one with what its constructor is given, written behind it."""
        for k in range(form.first, form.last):
            is_type = toks[min(k + 1, form.last)].is_class or toks[k + 1].text in NUMBERS | TRUTHS | ROWS
            if toks[k].text != "new" or not is_type or toks[k + 2].text not in ("(", "["):
                continue
            named, opens = toks[k + 1].text, k + 2
            shut = closing(toks, opens, form.last)
            is_row = not toks[k + 1].is_class or self.names.classes[named].element
            if shut is None or is_row and toks[k + 1].is_class and toks[opens].text == "[":
                continue
            args = arguments(code, toks, opens + 1, shut - 1)
            if is_row:
                rows = [named] if toks[k + 1].is_class else [it for it, home in self.names.classes.items() if home.element]
                if not rows:
                    raise Cannot(tell("no_row", self.names.fresh("Row"), "int"))
                self.note(tell("named_row", rows[0]))
                return toks[k + 1].start, toks[shut - 1].end, f"{rows[0]} [{args[0][1] if args else 0}]"
            self.note(tell("made"))
            name = re.sub(r"^let\s+|:.*", "", code[toks[form.first].start:toks[k - 1].start]).strip()
            return toks[opens].start, toks[shut].end, ";" + self.filled(named, args).replace("$it", name)
        return None

    def filled(self, named, args):
        """What is written into an object that other languages hand to its constructor."""
        members = self.names.classes[named].members
        makers = (it for it in members.values() if it.kind == "method" and it.name.decode() in MAKERS | {named, "set"})
        maker = next((it for it in makers if len(it.params) == len(args)), None)
        if maker is not None and args and not args[0][0]:
            name = maker.name.decode()
            return f" call $it.{'init' if name in MAKERS | {named} else name}({', '.join(it for _, it in args)});"
        fields = [it.name.decode() for it in members.values() if it.kind == "field"]
        pairs = [(name or (fields[k] if k < len(fields) else None), it) for k, (name, it) in enumerate(args)]
        return "".join(f" $it.{name} = {it};" for name, it in pairs if name and it not in ("0", "false", "nil", *WORDS))

    def listed(self, code, toks, form, kind):
        """An array that is written out."""
        equals = next((k for k in range(form.first, form.last) if toks[k].text == "="), None)
        if equals is None or toks[equals + 1].text not in ("[", "vec") or toks[form.last - 1].text != ";":
            return None
        rows = [it for it, home in self.names.classes.items() if home.element]
        opens = equals + 1 + 2 * (toks[equals + 1].text == "vec")
        shut = closing(toks, opens, form.last)
        if not rows or not shut:
            raise Cannot(tell("no_row", self.names.fresh("Row"), "int"))
        self.note(tell("named_row", rows[0]))
        name = re.sub(r"^let\s+|:.*", "", code[toks[form.first].start:toks[equals].start]).strip()
        args = [it for _, it in arguments(code, toks, opens + 1, shut - 1)]
        m = re.fullmatch(r"\[.*;\s*(.*)\]", code[toks[opens].start:toks[shut - 1].end], re.S)
        size = m[1] if m else code[toks[shut + 1 - 1].end:toks[form.last - 1].start].lstrip("* ") if toks[shut].text == "*" else str(len(args))
        tail = "" if m or toks[shut].text == "*" else "".join(f" {name}[{k}] = {it};" for k, it in enumerate(args))
        return toks[equals + 1].start, toks[form.last - 1].end, f"new {rows[0]} [{size}];{tail}"

    def along(self, code, toks, form, kind):
        """A loop along an array, or along a list."""
        got = match(compiled("for $n in $p $b"), toks, form.first, form.last)
        if got is None:
            return None
        n, p, b = (code[toks[a].start:toks[z - 1].end] for name, a, z in got if name)
        type = self.names.type_of(p)
        home = self.names.class_of(type)
        start, end = toks[got[0][1]].start, toks[got[-1][2] - 1].end
        links = [text(it.name) for it in home.members.values() if it.kind == "field" and it.type and it.type[1] == home.name] if home else []
        if links:
            self.note(tell("along", links[0]))
            return start, end, f"let {n}: {spelt(type)} = {p}; while not {n} is nil " + turned(b, f"{n} = {n}.{links[0]};")
        self.note(ABOUT["foreach"])
        at = self.names.fresh("i", "j", "at")
        return start, end, f"let {at}: int = 0; while {at} < size {p} {{ let {n}: {self.hole()} = {p}[{at}];" + turned(b, f"{at} = {at} + 1;")[1:]


def arguments(code, toks, k, stop):
    """The arguments up to a closing bracket, each with its name where it has one."""
    some = []
    while k < stop:
        name = toks[k].text if toks[k].kind == "name" and toks[k + 1].text in (":", "=") else None
        k += 2 * (name is not None)
        ends = list(runs(toks, k, stop, False))
        if not ends:
            break
        some.append((name, code[toks[k].start:toks[ends[-1] - 1].end]))
        k = ends[-1] + 1
    return some


def turned(block, turn):
    """A block that ends with something more."""
    inner = block[:-1]
    tail = re.search(r"\n([ \t]*)$", inner)
    said = inner.rstrip()
    said += ";" if said[-1] not in ";{}" else ""
    return said + (f"\n{tail[1]}  {turn}\n{tail[1]}" if tail else f" {turn} ") + "}"


# ---- Loops and methods that are left early


class Leaving:
    """Writes a body of which parts are left by a word (`break`, `continue`, `return`) so that it ends at its end: what comes
    behind such a part stands in an `else`, or in an `if` that asks a variable."""

    def __init__(self, code, toks, words, gone):
        self.code, self.toks, self.words, self.gone = code, toks, words, gone      # what each word becomes, and what asks

    def leaves(self, form, always=False):
        word = self.toks[form.first].text
        if word in self.words:
            return True
        if word in ("while", "for") and "return" not in self.words:
            return False
        if always and (word != "if" or len(form.blocks) < 2):
            return False
        some = [any(self.leaves(it, always) for it in inner) for _, _, inner in form.blocks]
        return all(some) and bool(some) if always else any(some)

    def text(self, start, end):
        return self.code[self.toks[start].start:self.toks[end - 1].end] if end > start else ""

    def one(self, form):
        """A form as it is written."""
        word = self.toks[form.first].text
        if word in self.words:
            return self.words[word](self.text(form.first + 1, form.last).rstrip("; "))
        out, at = "", self.toks[form.first].start
        for a, b, inner in form.blocks:
            if any(self.leaves(it) for it in inner):
                head = self.code[at:self.toks[a].end]
                if word == "while" and self.gone:
                    test = re.fullmatch(r"while\s+(.*?)\s*\{", head, re.S)[1]
                    head = f"while {self.gone} {{" if test == "true" else f"while {self.gone} and ({test}) {{"
                out += head + " " + self.many(inner) + " "
                at = self.toks[b].start
        return out + self.code[at:self.toks[form.last - 1].end]

    def many(self, some):
        for k, it in enumerate(some):
            if not self.leaves(it):
                continue
            before, rest = self.text(some[0].first, it.first), some[k + 1:]
            said = self.one(it)
            if rest and not self.leaves(it, True):
                last = it.blocks[-1][2] if len(it.blocks) == 1 and self.toks[it.first].text == "if" else None
                if last and self.leaves(last[-1], True):
                    said += f" else {{ {self.many(rest)} }}"
                elif self.gone:
                    said += f" if {self.gone} {{ {self.many(rest)} }}"
                else:
                    raise Cannot("")
            return f"{before} {said}"
        return self.text(some[0].first, some[-1].last) if some else ""


def left_loop(self, code, toks, form, kind):
    """A loop with `break` or `continue`."""
    if toks[form.first].text != "while" or len(form.blocks) != 1 or re.search(r"\belse\s+if\b", code[toks[form.first].start:toks[form.last - 1].end]):
        return None
    a, b, inner = form.blocks[0]
    probe = Leaving(code, toks, {"break": None, "continue": None}, None)
    if not any(probe.leaves(it) for it in inner):
        return None
    has_break = any(it.text == "break" for it in toks[a:b])
    go = self.names.fresh("go", "on") if has_break else None
    self.note(ABOUT["break" if has_break else "continue"])
    said = Leaving(code, toks, {"break": lambda _: f"{go} = false;", "continue": lambda _: ""}, go).many(inner)
    test = code[toks[form.first].end:toks[a].start].strip()
    test = test if not go else go if test == "true" else f"{go} and ({test})" if re.search(r"\bor\b", test) else f"{go} and {test}"
    return toks[form.first].start, toks[b].end, (f"let {go}: bool = true; " if go else "") + f"while {test} {{ {said} }}"


def left_method(self, code, toks, form, kind):
    """A method with a `return` that isn't its last statement."""
    if len(form.blocks) != 1 or toks[form.first].text != "def" or re.search(r"\belse\s+if\b", code[toks[form.first].start:toks[form.last - 1].end]):
        return None
    a, b, some = form.blocks[0]
    probe = Leaving(code, toks, {"return": None}, None)
    early = [it for it in some if probe.leaves(it) and (it is not some[-1] or toks[it.first].text != "return")]
    m = re.search(r"\)\s*:\s*([\w ]+?)\s*$", code[toks[form.first].start:toks[a].start])
    if not early or m is None:
        return None
    self.note(tell("returns"))
    r = self.names.fresh("r", "result")
    in_loop = any(it.text == "while" for one in early for it in toks[one.first:one.last])
    done = self.names.fresh("done", "is_known") if in_loop else None
    gone = f"not {done}" if done else None
    give = lambda of: f"{r} = {of};" + (f" {done} = true;" if done else "")
    said = Leaving(code, toks, {"return": give}, gone).many(some)
    start = f"let {r}: {m[1]} = {START.get(m[1], 'nil')};" + (f" let {done}: bool = false;" if done else "")
    return toks[a].start, toks[b].end, f"{{ {start} {said} return {r}; }}"


def given_back(self, code, toks, form, kind):
    """The last expression of a method with a result, which other languages give back without a word."""
    if len(form.blocks) != 1 or toks[form.first].text != "def" or not form.blocks[0][2]:
        return None
    a, b, some = form.blocks[0]
    last, it = some[-1], toks[some[-1].first]
    has_result = re.search(r"\)\s*:\s*\w[\w ]*$", code[toks[form.first].start:toks[a].start].rstrip())
    if not has_result or last.blocks or it.text in NO_OPERAND - {"not"}:
        return None
    ends = list(runs(toks, last.first, last.last, False, ("=", ":=", "+=", "-=")))
    if not ends or ends[-1] != last.last - (toks[last.last - 1].text == ";"):
        return None
    self.note(tell("given_back"))
    return it.start, it.start, "return "


# ---- Members, and what stands at the top


GOOD_TYPE = r"(int|bool|TYPE\d+__|(mut|tmp|paused|imm|iso) \w+)"
GOOD_HEAD = re.compile(rf"def (mut|tmp|paused|imm|iso|TYPE\d+__) \w+ \( ((\w+ : {GOOD_TYPE} , )*\w+ : {GOOD_TYPE} )?\)( : {GOOD_TYPE})?")


def field(self, code, toks, form, kind):
    some = toks[form.first:form.last]
    texts = [it.text for it in some]
    if form.blocks or "(" in texts or texts[0] in ("def", "}"):
        return None
    stop = len(some) - (texts[-1] in (";", ","))
    by_colon = texts[1:2] == [":"]
    name, type = (some[0], texts[2:stop]) if by_colon else (some[stop - 1], texts[:stop - 1])
    if name.kind != "name" or "=" in texts:
        return None
    if name.text in language().words:
        self.note(f"`{name.text}` is a reserved word, and no name.")
        return name.start, name.end, self.names.fresh("total", "number", name.text + "_")
    self.note("" if by_colon else tell("field"))
    is_done = type[:1] and re.fullmatch(r"TYPE\d+__", type[0])
    types = type[:1] if is_done else self.types(type)
    if not types and type:
        raise Cannot("")
    return some[0].start, some[-1].end, f"{name.text}: {types[0] if is_done else self.hole(types or None)};"


def method(self, code, toks, form, kind):
    """The head of a method."""
    first = form.first
    opens = next((k for k in range(first, form.last) if toks[k].text == "("), None)
    head = [it.text for it in toks[first:opens]] if opens else []
    if not head or toks[opens - 1].kind != "name" or toks[first].text in ("}", ";") or "=" in head:
        return None
    shut = closing(toks, opens, form.last)
    if shut is None:
        return None
    stop = form.blocks[0][0] if form.blocks else next((k for k in range(shut, form.last) if toks[k].text in ("=>", "=", ";", "{")), form.last)
    name, words, result = head[-1], head[:-1], [it.text for it in toks[shut:stop] if it.text not in (":", "->", "const", "noexcept", "override")]
    said = " ".join(it.text for it in toks[first:stop])
    if form.blocks and name not in language().words and GOOD_HEAD.fullmatch(said):
        return None
    self.note(tell("method"))
    before = [it for it in words if it not in METHODS and it not in VISIBLE and it not in NO_TYPE]
    caps = [CAP_WORDS.get(it, it) for it in before if it in CAPS or it in CAP_WORDS]
    result = [it for it in result or [it for it in before if it not in CAPS and it not in CAP_WORDS] if it not in NO_TYPE and it not in ("(", ")")]
    if name in MAKERS or self.names.home is not None and name == self.names.home.name.decode():
        self.note(tell("constructor"))
        name, result = self.names.fresh("init", "set"), []
    elif name in language().words:
        name = self.names.fresh(name + "_")
    own, params = parameters(self, toks, opens + 1, shut - 1)
    if "," in result:
        raise Cannot(tell("method2"))
    types = self.types(result) if result else []
    if result and not types:
        raise Cannot("")
    home = self.names.home
    choice = ["tmp", "paused"] if home is not None and home.is_tmp else caps or ["paused", "mut"][:1 if "&" in own and "mut" not in own else 2]
    put = f"def {self.hole(list(dict.fromkeys(choice)))} {name}({', '.join(params)})" + (f": {self.hole(types)}" if types else "")
    if not form.blocks and toks[stop].text in ("=>", "="):
        value = code[toks[stop].end:toks[form.last - 1].end].strip().rstrip(";")
        return toks[first].start, toks[form.last - 1].end, f"{put} {{ {'return ' if types else ''}{value}; }}"
    if not form.blocks:
        raise Cannot("A method has its body behind its head.")
    return toks[first].start, toks[stop].start, put + " "


def parameters(self, toks, k, stop):
    """What is written of the receiver, and the parameters."""
    own, params = [], []
    while k < stop:
        ends = [at for at in range(k, stop) if toks[at].text == "," and not self.in_angles(toks, k, at)]
        end = ends[0] if ends else stop
        some = [it.text for it in toks[k:end]]
        k = end + 1
        if "self" in some or "this" in some:
            own = some
            continue
        some = some[:some.index("=")] if "=" in some else some
        name, type = (some[some.index(":") - 1], some[some.index(":") + 1:]) if ":" in some else (some[-1], some[:-1])
        if ":" not in some and len(some) > 1 and (name in START or name in NUMBERS | TRUTHS or name in self.names.classes):
            name, type = some[0], some[1:]
        types = type if type[:1] and re.fullmatch(r"TYPE\d+__", type[0]) else self.types(type) if type else ["int", "bool"]
        if not types:
            raise Cannot("")
        params.append(f"{name}: {self.hole(types)}")
    return own, params


def element_type(self, code, toks, form, kind):
    """The type of an array's elements."""
    opens = form.first + 2 + (toks[form.first].text == "tmp")
    shut = closing(toks, opens, form.last) if toks[opens - 2].text == "class" and toks[opens].text == "[" else None
    words = [it.text for it in toks[opens + 1:shut - 1]] if shut else []
    if not words or re.fullmatch(r"int|bool|TYPE\d+__", " ".join(words)) or len(words) == 2 and words[0] in CAPS:
        return None
    self.note(tell("element_type"))
    return toks[opens + 1].start, toks[shut - 2].end, self.hole(self.types(words))


def at_top(self, code, toks, form, kind):
    """What stands outside of classes."""
    first, word = toks[form.first], toks[form.first].text
    head = [it.text for it in toks[form.first:form.blocks[0][0]]] if form.blocks else []
    if word in ("import", "use", "include", "from", "package", "using"):
        self.note(ABOUT.get(word, ""))
        end = next((k for k in range(form.first + 1, len(toks)) if toks[k].is_fresh or toks[k - 1].text == ";"), len(toks) - 1)
        return first.start, toks[end - 1].end, ""
    if "main" in head and not (len(head) == 2 and head[1] in MANAGERS):
        self.note(tell("at_top"))
        return first.start, toks[form.blocks[0][0]].start, f"main {next((it for it in head if it in MANAGERS), 'arena')} "
    if "(" in head and word not in ("main", "class"):
        self.note(tell("at_top2"))
        return first.start, toks[form.last - 1].end, f"class {self.names.fresh('Tools', 'Helpers')} {{ {code[first.start:toks[form.last - 1].end]} }}"
    if not form.blocks and first.kind == "name" and word not in ("class", "tmp"):
        raise Cannot(tell("at_top3"))
    return None


def semicolon(self, code, toks, form, kind):
    last = toks[form.last - 1]
    if last.text in (";", "}", ",", "{", ":") or toks[form.first].text in ("if", "while", "for", "else", "enter", "}", "def"):
        return None
    self.note("A statement ends with `;`.")
    return last.end, last.end, ";"


ROW = re.compile(r"(?m)^([SEPLMT]|\d\d)  (.*?)(?:  =>  (.*?))?  ##(?:  )?(.*)$")
READ = [(m[1], compiled(m[2]), m[3], m[4]) for m in ROW.finditer(ROWS_READ)]
SURE, TOLD_ONLY = ([it for it in READ if (it[2] is None) == is_told] for is_told in (False, True))
SIMPLE = [Writer.words, Writer.numbers]
ACTS = {"statement": [*SIMPLE, semicolon, Writer.shown, Writer.by_table, Writer.braces, Writer.along, Writer.listed, Writer.declared, Writer.assigned,
                      Writer.own_call, Writer.made, left_loop],
        "member": [Writer.by_table, field, method, left_method, given_back], "top": [Writer.by_table, element_type, at_top]}


# ---- Blocks without braces


def braced(code):
    """A source whose blocks go by their indentation, or end with a word, in braces; None where none does."""
    toks, edits, heads = cut(code), [], []
    for k, it in enumerate(toks[:-1]):
        while heads and it.is_fresh and heads[-1][1] is not None and it.indent <= heads[-1][1] and it.text != "{":
            heads.pop()
            edits.append((toks[k - 1].end, toks[k - 1].end, "\n" + " " * (it.indent if it.indent > 0 else 0) + "}"))
        then = toks[k + 1]
        line = next(toks[at] for at in range(k, -1, -1) if toks[at].is_fresh)
        if it.text in ("then", "do") and k and then.text != "{" and line.text not in ("do", "repeat"):
            edits.append((it.start, it.end, "{"))
            heads.append((k, None))
        elif it.text in ("end", "fi", "done") and heads and heads[-1][1] is None and then.text not in ("=", "."):
            heads.pop()
            edits.append((it.start, it.end, "}"))
        elif it.text == ":" and then.is_fresh and then.indent > line.indent and then.text != "{":
            edits.append((toks[k - 1].end, it.end, " {"))
            heads.append((k, line.indent))
    for _, indent in heads:
        edits.append((len(code.rstrip()), len(code.rstrip()), "\n}"))
    if not edits:
        return None
    for start, end, put in sorted(edits, reverse=True):
        code = code[:start] + put + code[end:]
    return code


# ---- The whole


def resolved(writer, code, most):
    """The ways to fill the holes for types, the likeliest first."""
    names, known = writer.names, {}
    choices = []
    for k, some in enumerate(writer.choices):
        m = re.search(rf"\blet (\w+): TYPE{k}__ = (.*?);", code, re.S)
        env = {it[1]: known.get(it[2]) or read(it[2]) for it in re.finditer(r"\blet (\w+): (TYPE\d+__|\w+ ?\w*?) =", code[:m.start() if m else 0])}
        type = names.type_of(m[2], env.items()) if m else None
        guess = spelt(type)
        if guess and some is None:
            known[f"TYPE{k}__"] = type
            some = [guess]
        choices.append(some if some else names.all_types())
    for some in itertools.islice(itertools.product(*choices), most):
        yield re.sub(r"TYPE(\d+)__", lambda m: some[int(m[1])], code)


def read(said):
    cap, *name = said.encode().split()
    return cap, name[0] if name else None


def writings(code, outline, place, most=40):
    """Ways to write the forms round a place, the innermost first: (start, end, what is put there or None, sentences)."""
    toks = cut(code)
    path = around(toks, read_all(toks), place)
    for form, kind in path:
        start, end = toks[form.first].start, toks[form.last - 1].end
        if end - start > LONGEST:
            continue
        writer = Writer(Names(outline, start))
        try:
            said = writer.write(code[start:end], kind)
        except (Cannot, RecursionError) as why:
            writer.note(str(why))
            yield start, end, None, writer.notes
            continue
        if said == code[start:end]:
            continue
        for name, other in writer.renames.items():      # up to the end of the block
            stop = max((toks[b].start for outer, _ in path for a, b, inner in outer.blocks if form in inner), default=end)
            said += re.sub(rf"(?<![\w.]){name}\b", other, code[end:stop])
            end = stop
        for put in resolved(writer, said, most):
            yield start, end, put, writer.notes
    whole = braced(code) if len(code) < LONGEST else None
    if whole is not None:
        toks = cut(whole)
        writer, out, at = Writer(Names(outline, place)), "", 0
        writer.note(tell("block"))
        try:
            for form in read_all(toks):
                start, end = toks[form.first].start, toks[form.last - 1].end
                head = whole[start:end].partition("{")[0]
                writer.names.home = next((it for name, it in writer.names.classes.items() if re.search(rf"\b{name}\b", head)), None)
                out += whole[at:start] + writer.write(whole[start:end], "top")
                at = end
        except (Cannot, RecursionError) as why:
            writer.note(str(why))
            yield 0, len(code), None, writer.notes
            return
        for put in resolved(writer, out + whole[at:], most):
            yield 0, len(code), put, writer.notes
