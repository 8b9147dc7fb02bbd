"""The classes, variables and statements of an accepted source, as the instructions of its code have them (docs/language.md,
"Instructions and lowering"): a `mark` stands in front of each statement, and at the end of most blocks."""
import re

PIECE = re.compile(r"//[^\n]*|[A-Za-z_]\w*|\d+|==|!=|<=|>=|[^\sA-Za-z_\d]", re.ASCII)


class Source:
    """An accepted source: its classes, each with its fields and their types, and the marks in the order of the code. A mark is
    a list of seven: its line; how many windows of its body are open; the variables (name, capability, class, windows round
    it); the word that it begins with, or `end`; the line to show, which at the end of a block is that of its brace; and from
    where to where it stands in the text."""

    def __init__(self, text):
        text = re.sub("[\U00010000-\U0010ffff]", "??", text)  # two places each, as in the page
        self.pieces, line, last = [], 1, 0
        for found in PIECE.finditer(text):
            line, last = line + text.count("\n", last, found.start()), found.start()
            if not found[0].startswith("//"):
                self.pieces.append((found[0], line, found.start()))
        self.classes = []
        for _ in range(2):  # the second time with all classes, for fields of classes that come later
            self.known = self.classes
            self.at, self.classes, self.bodies, self.marks = 0, [], [], []
            while self.word() != "main":
                self.class_()
            self.marks, line = [], self.line()
            self.take(2)
            self.block([], 0, line)
        for body in self.bodies:
            self.marks += body

    def word(self, ahead=0):
        return self.pieces[self.at + ahead][0] if self.at + ahead < len(self.pieces) else ""

    def line(self):
        return self.pieces[min(self.at, len(self.pieces) - 1)][1]

    def begin(self):
        return self.pieces[min(self.at, len(self.pieces) - 1)][2]

    def end(self):
        return self.pieces[self.at - 1][2] + len(self.pieces[self.at - 1][0])

    def take(self, n=1):
        self.at += n
        return self.pieces[self.at - n][0]

    def type(self):
        first = self.take()
        return (first, None) if first in ("int", "bool") else (first, self.take())

    def class_(self):
        is_tmp = self.word() == "tmp"
        if is_tmp:
            self.take()
        self.take()
        it = {"name": self.take(), "tmp": is_tmp, "fields": [], "element": None}
        self.classes.append(it)
        if self.take() == "[":
            it["element"] = self.type()
            self.take(2)
            return
        while self.word() != "}":
            if self.word() == "def" and self.word(1) != ":":
                self.method(it["name"])
            else:
                name = self.take()
                self.take()
                it["fields"].append((name, *self.type()))
                self.take()
        self.take()

    def method(self, cls):
        line = self.line()
        self.take()
        env = [("self", self.take(), cls, 0)]
        self.take(2)
        while self.word() != ")":
            param = self.take()
            self.take()
            env.append((param, *self.type(), 0))
            if self.word() == ",":
                self.take()
        self.take()
        has_result = self.word() == ":"
        if has_result:
            self.take()
            self.type()
        saved, self.marks = self.marks, []
        self.block(env, 0, None if has_result else line)
        self.bodies.append(self.marks)
        self.marks = saved

    def mark(self, line, env, depth, kind):
        self.marks.append([line, depth, list(env), kind, self.line(), self.begin(), self.begin() + 1])
        return self.marks[-1]

    def block(self, env, depth, line):
        """A block in braces, with the mark at its end where one is."""
        env = list(env)
        self.take()
        while self.word() != "}":
            self.statement(env, depth)
        if line is not None:
            self.mark(line, env, depth, "end")
        self.take()

    def until(self, *ends):
        while self.word() not in ends:
            self.take()

    def statement(self, env, depth):
        line, kind = self.line(), self.word()
        kind = kind if kind in ("let", "if", "while", "enter", "print", "collect", "return", "call", "swap") else "put"
        mark = self.mark(line, env, depth, kind)
        if kind in ("if", "while"):
            self.until("{")
            mark[6] = self.end()
        if kind == "if":
            self.block(env, depth, line)
            if self.word() == "else":
                self.take()
                self.block(env, depth, line)
        elif kind == "while":
            self.block(env, depth, line)
        elif kind == "enter":
            self.take()
            path = [self.take()]
            while self.word() == ".":
                self.take()
                path.append(self.take())
            self.take()
            name = self.take()
            mark[6] = self.end()
            cls = next((it[2] for it in reversed(env) if it[0] == path[0]), None)
            for field in path[1:]:
                fields = next((it["fields"] for it in self.known if it["name"] == cls), [])
                cls = next((it[2] for it in fields if it[0] == field), None)
            self.block([*env, (name, "mut", cls, depth + 1)], depth + 1, line)
            if self.word() == "giving":
                self.take(3)
        elif kind == "let":
            self.take()
            name = self.take()
            self.take()
            env_type = self.type()
            self.until(";")
            self.take()
            mark[6] = self.end()
            env.append((name, *env_type, depth))
        else:
            self.until(";")
            self.take()
            mark[6] = self.end()
