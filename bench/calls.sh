#!/usr/bin/env bash
# Lists each public call of each crate with what it refuses, and with the clauses of its contract that say when a refusal
# comes and what holds behind it. A call is public where its crate's lib.rt names it, or its type, in a `pub use`; the calls
# of traits are listed with the trait and with each type that has them, there with the trait's clauses. Calls that Rust
# derives (`clone`, `eq`), `drop`, views and the conversions that `?` makes (`from`, of which `from_gives` tells) aren't
# listed, nor programs, which hand out nothing.
# What a clause says is read off its form: an equation with `result` tells of each answer; `OnErr`, `IfErr`, `IfNone` and
# `result ≡ ..` tell of the refusal that they name; of a relation that takes `result` the definition is followed, case by
# case, to see which answers it tells of, and what it says there of the arguments that may be written.
# It compares docs/calls.md with that table, and fails where they differ. It prints the lists of what no clause says (when a
# refusal other than want of memory comes; what holds of a written argument behind a refusal; anything at all), and the calls
# that take no memory, by their signature, beside those that are promised to take none. Not a part of the gate.
# Usage: bench/calls.sh [--write | --table]
cd "$(dirname "$0")/.." && exec python3 - "$@" <<'PY'
import glob, os, re, sys

MEMORY = {"Memory", "AllocError"}
# Of a type that a call answers, the variants that aren't the usual answer.
ANSWERS = {"Next": ["Trap", "Lost", "Memory"], "Outcome": ["Done", "Printed", "Trap", "InputFault", "Memory"]}
# Of a type that tells an answer beside something else, the field that has the answer, and the answer's type.
FIELDS = {"CountedRun": ("ended", "Ended")}
# These say yes, or tell something, only to be quick: their other answer may come at any time, and callers go the long way.
FREE = {
    "rg_code::CodeList::known": "None", "rg_code::CodeList::shapes": "None", "rg_code::CodeList::loops": "None",
    "rg_code::CodeList::target": "None",
    "rg_regions::Regions::hinted_key": "None", "rg_frames::Frames::open_window": "false",
    "rg_heap::Heap::hinted_region": "None",
    "rg_heap::Heap::is_at_home": "false", "rg_machine::Machine::behind": "None",
    "rg_heap::Heap::beside": "None", "rg_heap::Heap::replace_plain": "false", "rg_cells::Cells::beside": "None",
    "rg_machine::int_among": "None", "rg_machine::get_among": "false", "rg_machine::element_among": "None",
    "rg_machine::put_among": "false", "rg_machine::put_int_among": "false", "rg_machine::end_among": "false",
    "rg_machine::Machine::owns_nothing": "false", "rg_machine::Machine::open_slot": "false",
    "rg_machine::Machine::open_field": "false", "rg_compute::calculated": "None",
    "rg_compute::compute": "None", "rg_compute::call_ahead": "None", "rg_compute::call_with_number": "None", "rg_compute::leading": "None",
    "rg_compute::holds": "None", "rg_compute::operated": "None",
    "rg_known::test_int": "None", "rg_known::test_slot": "None", "rg_known::operate_int": "None",
    "rg_known::operate_slot": "None", "rg_known::quick": "false",
    "rg_local::local_less_int": "None", "rg_local::local_less_slot": "None", "rg_local::local_test_slot": "None",
    "rg_local::local_test_at": "None", "rg_local::local_add_int": "None", "rg_local::local_add_slot": "None",
    "rg_local::local_add_product": "None", "rg_local::local_get_at": "None", "rg_local::local_get_beyond": "None",
    "rg_local::local_put_at": "None", "rg_local::local_put_int_at": "None", "rg_local::local_put_beyond": "None",
    "rg_local::local_end": "None", "rg_local::local_end_jump": "None",
    "rg_local::local_head_slot": "None", "rg_local::local_seldom": "None",
    "rg_pace::Pacer::ask": "false",
}
# Answers that no run of a program's code comes to, as their clause on when they come says: nothing need hold behind them.
NEVER = {"Lost"}
# Relations on an error that say when it comes, though they speak of what is left behind it, too.
STOPS = {"Halts"}
# Relations on an answer that say what was left behind it, and not when it comes.
LEFT = {"Reports", "TookNotes", "Keeping", "Making"}
# The calls that are promised to take no memory; "*" is all of a crate but those behind it.
NO_MEMORY = {
    "rg_base": "Vals::new Vals::len Vals::get ByteList::new ByteList::bytes",
    "rg_io": "put_all MemFiles::new MemSource::new MemSink::new MemSource::piece MemSink::piece MemSink::taken",
    "rg_tree": "* Program::add_name Program::add_order Program::add_param Program::add_member Program::add_class"
               " Program::add_stmt Program::add_expr",
    "rg_rules": "*",
    "rg_flow": "* Env::push Env::add Env::enter",
    "rg_lex": "Tokens::len Tokens::get Tokens::as_slice Tokens::end_line",
    "rg_code": "* CodeList::push CodeList::find_shapes CodeList::add_class CodeList::add_method listing",
    "rg_check": "Accepted::program Accepted::classes Accepted::book",
    "rg_names": "* Classes::of",
    "rg_plain": "PlainMachine::new PlainMachine::output",
    "rg_cells": "* Cells::make Fields::of",
    "rg_regions": "* Regions::add Regions::reserve",
    "rg_frames": "* Frames::begin Frames::room Frames::reserve Frames::push_window Frames::push_temp",
    "rg_pace": "* Listed::add",
    "rg_release": "*", "rg_trace": "*", "rg_count": "*", "rg_copy": "*",
    "rg_move": "freeze",
    "rg_heap": "Heap::new Heap::read Heap::write Heap::swap Heap::leave Heap::freeze Heap::drop_iso Heap::collect"
               " Heap::collect_sliding Heap::numbers Heap::active Heap::serial Heap::owns",
    "rg_compute": "*", "rg_known": "*", "rg_local": "*",
    "rg_step": "Stepper::new Stepper::heap Stepper::frames Stepper::events Stepper::numbers",
    "rg_input": "*",
    "rg_run": "Machine::new Machine::is_fresh Machine::events Machine::numbers",
    "rg_words": "shape Status::number",
}
HEAD = """# All calls, with what each refuses

`bench/calls.sh` makes this page of the contracts, by `--write`; without, it compares the two and fails where they differ. It has each public call of each crate, storey by storey as in [architecture.md](architecture.md), crate by crate as in `crates.txt`. Crates that hand out no call aren't here: programs, tests, and `rg_view`.

**How to read a row.** Each call comes back and does nothing undefined, where what it **asks** for holds: the labels of its `requires` (`·` is a clause without a label). **Refuses** has the answers beside the usual one: the cases of the error in its `Result` (of a `Code` or a `Trap`, whichever it is), `None` of an `Option`, `false` where something may have been written or where no clause tells of it, and the cases of `Outcome`, `Ended`, `Status` and `Next`. **When** are the labels of the clauses (`ensures`) that say when such an answer comes; want of memory (`Memory`) is free. **Behind it** are those that say what then holds of the arguments that the call may write (`&mut`); `–` stands where it may write none. A label with no answer before it is said of each of them. **Else** are the other clauses. The text of a clause stands at the call, in `crates/CRATE/src`, and what its words mean in `crates/CRATE/specs`. The script reads of a clause its form alone: that what it says is right and enough, [promises.md](promises.md) and the wrong bodies of `must-fail` and `more-edits` have to show.

Plain readers stand in one row for each type, and so do calls of a type that differ in nothing here. A call of a trait stands with the trait, and with each type that has it, there together with the trait's clauses.
"""

def read(path):
    with open(path, encoding="utf-8") as it: return it.read()

def flat(text): return re.sub(r"\s+", " ", text).strip()

def closing(text, at, pair):
    """The place behind the bracket that closes the one at a place."""
    depth = 0
    for k in range(at, len(text)):
        depth += (text[k] == pair[0]) - (text[k] == pair[1])
        if depth == 0: return k + 1
    return len(text)

# The definitions: modules of specs/ with their items, and the names that a file imports.
USE = r"(?m)^ *(?:ghost |pub )*use Rattle\.(\w+)\.specs\.([\w.]+?)\.(?:\{([^}]*)\}|([^\s.;{]+)(?: as (\S+?))?)\s*(?:;|$)"

def imports(text):
    found = {}
    for crate, module, names, one, other in re.findall(USE, text):
        for name in (names.split(",") if names else [f"{one} as {other}" if other else one]):
            of, _, as_ = name.strip().partition(" as ")
            found[as_.strip() or of] = ((crate, module), of)
    return found

modules = {}
def module(at):
    if at not in modules:
        path = f"crates/{at[0]}/specs/{at[1].replace('.', '/')}.antt"
        text = re.sub(r"(?m)^ *--.*\n?", "", read(path)) if os.path.isfile(path) else ""
        items, name = {}, None
        for line in text.split("\n"):
            m = re.match(r"(?:(?:unfoldable|abbrev|pub|record|data|opaque) )*([^\s(){}:]+)", line)
            if m and m[1] not in ("use",):
                name = m[1]
                items.setdefault(name, []).append("")
            if name and line.strip(): items[name][-1] += line + "\n"
        modules[at] = items, imports(text)
    return modules[at]

def defined(name, at, of):
    """The items of a name that a module, or the imports of a source, knows, with the module."""
    if at and name in module(at)[0]: return at, module(at)[0][name]
    known = of if of is not None else module(at)[1]
    if name in known:
        there, name = known[name]
        if name in module(there)[0]: return there, module(there)[0][name]
    return None, []

# The forms of a clause.
OPERATORS = re.compile(r" (?:→|×|⊎|↔|in|=|∷) |[,;]")

def parts(text):
    """Splits at the operators that stand in no bracket, and goes into the brackets."""
    text = re.sub(r"λ[^.]*\.\s", "", text)
    depth, start, out, k = 0, 0, [], 0
    while k < len(text):
        if text[k] in "({": depth += 1
        elif text[k] in ")}": depth -= 1
        elif depth == 0 and (m := OPERATORS.match(text, k)):
            out.append(text[start:k]); start = k = m.end(); continue
        k += 1
    out.append(text[start:])
    for part in out:
        yield part.strip()
        k = 0
        while k < len(part):
            if part[k] in "({":
                end = closing(part, k, "()" if part[k] == "(" else "{}")
                yield from parts(part[k + 1:end - 1])
                k = end
            else: k += 1

def terms(text):
    depth, out = 0, [""]
    for c in text:
        depth += (c in "({") - (c in ")}")
        if c == " " and depth == 0: out.append("")
        else: out[-1] += c
    return [t for t in out if t]

def has(text, name): return re.search(rf"(?<![\w.]){re.escape(name)}(?![\w.'])", text) is not None

def speaks(text, name): return re.search(rf"(?<![\w.']){re.escape(name)}(?![\w'])", text) is not None

def case_of(pattern):
    """The constructor of a pattern, and what stands behind it; or none."""
    pattern = pattern[1:-1].strip() if pattern.startswith("(") else pattern
    head, _, rest = pattern.partition(" ")
    last = head.split(".")[-1]
    return (last, rest.strip()) if last[:1].isupper() else (None, pattern)

# What is told of an answer: the arguments of which something is said there, and, as WHEN, whether more than that they stay.
WHEN = frozenset({"when"})

def told_case(pattern, body, tags, at, depth):
    """What is told of the answers that a pattern meets."""
    con, rest = case_of(pattern)
    if re.fullmatch(r"Unit \{0\}|⊤", body.strip()): return {}
    if not re.fullmatch(r"[a-z][\w']* ≡ [a-z][\w']*", body.strip()): tags = tags | WHEN
    inner, more = case_of(rest) if rest else (None, "")
    if con == "Ok": return {"Ok " + c: t for c, t in ({inner: tags} if inner else told(body, rest, at, None, depth + 1)).items()}
    if con == "Err" and rest:
        if inner: return {inner: tags}
        return told(body, rest, at, None, depth + 1) or {"Err": tags}
    return {con: tags}

def told(text, v, at, of, depth=0, args=()):
    """Of which answers a text tells, where v stands for the answer: a map from cases to the arguments of which it speaks."""
    out = {}
    def add(more):
        for con, tags in more.items(): out[con] = out.get(con, frozenset()) | tags
    def spoken(of): return frozenset(a for a in args if (has(of, a + ".new") if depth == 0 else speaks(of, a)))
    every = WHEN | spoken(text)
    for part in parts(text):
        part_terms = terms(part)
        for sign in ("≡", "≢"):
            if sign in part_terms:
                k = part_terms.index(sign)
                for one, other in ((part_terms[:k], part_terms[k + 1:]), (part_terms[k + 1:], part_terms[:k])):
                    if one == [v] and other:
                        con, rest = case_of(" ".join(other))
                        if con == "Err" and rest: add({case_of(rest)[0] or "Err": every})
                        elif con or other[0] in ("true", "false"): add({con or other[0]: every})
                        else: add({"all": every})
                    elif one == ["Some", v]: add({"all": every})
        # what was taken, by a function of the answer, is told of each answer
        if part_terms[:1] == ["Appends"] and speaks(part_terms[-1], v): add({"all": WHEN | spoken(part)})
        if v in part_terms[1:] and "≡" not in part_terms and not part_terms[0][0].islower() and depth < 7:
            k = part_terms.index(v) - 1
            there, items = defined(part_terms[0], at, of)
            tags = [spoken(t) for t in part_terms[1:]]
            for item in items: add(in_item(item, k, tags, there, depth, any(names_case(it, k) for it in items)))
    return out

def names_case(item, k):
    """Whether a row of a definition names an answer at a place."""
    patterns = terms(flat(item).partition(" = ")[0])[1:]
    return k < len(patterns) and " : " not in item.partition("=")[0] and case_of(patterns[k])[0] is not None

def in_item(item, k, tags, at, depth, is_row=False):
    """What an item of a definition tells of its argument at a place."""
    item = flat(re.sub(r"(?m)^ +pub [^\s:]+ : ", "; ", item))
    if re.match(r"(?:\w+ )*record ", item):
        head, _, fields = item.partition(" where ")
        names = [n for group in re.findall(r"\(([^:()]*) :", head) for n in group.split()]
        if k >= len(names): return {}
        known = {n: t for n, t in zip(names, tags) if t}
        more = told(fields, names[k], at, None, depth + 1, tuple(known))
        return {con: said & WHEN | frozenset().union(*(known.get(n, frozenset()) for n in said)) for con, said in more.items()}
    left, equals, body = item.partition(" = ")
    if not equals or " : " in left.split(" =")[0] and "(" not in left: return {}
    patterns = terms(left)[1:]
    if k >= len(patterns): return {}
    known = {p: t for p, t in zip(patterns, tags) if t and re.fullmatch(r"[\w']+", p)}
    said = frozenset().union(*(t for p, t in known.items() if speaks(body, p)))
    # where an argument is taken apart in the pattern, the body speaks of its pieces
    said |= frozenset().union(*(t for p, t in zip(patterns, tags) if t and p not in known))
    if case_of(patterns[k])[0] or patterns[k] in ("true", "false"):
        if patterns[k] in ("true", "false"): return {patterns[k]: said | WHEN}
        return told_case(patterns[k], body, said, at, depth)
    more = told(body, patterns[k], at, None, depth + 1, tuple(known))
    # a row for all answers that no row before it names
    if is_row and said: more = {**more, "all": more.get("all", frozenset())}
    return {con: inner & WHEN | said for con, inner in more.items()}

def bare(text):
    """A clause without the variables and facts before it that don't speak of the answer."""
    while True:
        text = re.sub(r"^(?:let [^=]* = .*? in )+", "", text.strip())
        if text.startswith("(") or re.match(r"[A-Z¬]", text) or "→" in text:
            m = re.match(r"(?:\([^()]* : (?:[^()]|\([^()]*\))*\) )+→ |(?:\([^()]* : (?:[^()]|\([^()]*\))*\) )+(?=\()", text)
            if m and not has(m[0], "result"): text = text[m.end():]; continue
            depth = 0
            for k, c in enumerate(text):
                depth += (c in "({") - (c in ")}")
                if depth == 0 and text.startswith(" → ", k): break
            else: return text
            if has(text[:k], "result"): return text
            text = text[k + 3:]
            continue
        return text

def speaks_of_cause(text):
    """Whether a fact, behind its premises, says more than what holds of the written arguments."""
    text = text.split(" → ")[-1]
    return "Rose" in text or any(not re.search(r"\.new\b", fact) or any(has(fact, s) for s in STOPS) for fact in re.split(r" × ", text))

class Call:
    def __init__(self, crate, file, of, name, args, ret, clauses, trait):
        self.crate, self.of, self.name, self.trait = crate, of, name, trait
        self.label = f"{of}::{name}" if of else name
        self.full = f"{crate}::{self.label}"
        self.args, self.ret = args, ret
        self.asks = [l or "·" for kind, l, _ in clauses if kind == "requires"]
        self.says = [(l or "·", t) for kind, l, t in clauses if kind == "ensures"]
        if ret in FIELDS:
            field, self.ret = FIELDS[ret]
            self.says = [(l, t.replace(f"result.{field}", "result")) for l, t in self.says]
        self.imports = imports(read(file))
        self.reads = not re.search(r"&(?:'\w+ )?mut ", args)
        self.written = [n for n, t in re.findall(r"(\w+): &(?:'\w+ )?mut (\[?\w+)", args) if t != "Steps"]
        if re.match(r"&(?:'\w+ )?mut self", args): self.written.insert(0, "self")
        self.refuses = self.refusals()

    def refusals(self):
        ret, out = self.ret, []
        if m := re.match(r"Result<(.*), (\w+)>$", ret):
            ret, error = m[1], m[2]
            # codes and traps have many cases, of which a call answers one
            out = [error] if error in ("Code", "Trap") else variants(self.crate, error) or [error]
        if ret.startswith("Option<"): out.insert(0, "None")
        elif ret == "bool": out.insert(0, "false")
        elif ret in ANSWERS: out += ANSWERS[ret]
        elif ret in ("Ended", "Status"): out += variants(self.crate, ret)
        # a clause may rule an answer out
        never = [re.fullmatch(r"result ≡ \(?(?:Err )?([\w.]+)\)? → ⊥", text) for _, text in self.says]
        return [it for it in out if it not in [m[1].split(".")[-1] for m in never if m]]

    def takes_memory(self): return bool(MEMORY & {*self.refuses})

    def passing(self, test, truth):
        """The answers of which a test is true, or false."""
        rows = [i for i in map(flat, defined(test, None, self.imports)[1]) if i.endswith("= " + truth)]
        return {case_of(terms(row.partition(" = ")[0])[1])[0] for row in rows if len(terms(row.partition(" = ")[0])) > 1}

    def named(self, text):
        """The statuses that a clause names, or those of a variable that pass the tests in front of it."""
        of = re.match(r"\((\w+) : Status\)", text)
        if not of: return {*re.findall(r"Status\.(\w+)", text)}
        tests, front = rf"\b(\w+) {of[1]} ≡ true", text.rpartition(" → ")[0]
        # (a record of tests has its own variable, of the same name)
        records = [i for r in re.findall(rf"\b([A-Z]\w*) [^→]* {of[1]}$", front) for i in map(flat, defined(r, None, self.imports)[1])]
        return set.intersection(*(self.passing(it, "true") for it in re.findall(tests, " ".join([front, *records]))))

    def speaks(self, refusal, text):
        """Whether a clause says when a refusal comes, and of which written arguments it says what holds behind it."""
        change = frozenset(a for a in self.written if f"{a}.new" in text and f"{a}.old" in text)
        weak = re.search(r" [≤<] ", text) and not has(text, "result")
        if not has(text, "result"): return False, frozenset() if weak else change
        is_error = self.ret.startswith("Result<") and refusal not in ("None", "false")
        body = bare(text)
        if m := re.match(r"(OnOk|IfOk) result (.*)", body):
            if is_error: return False, frozenset()
            inner = re.match(r"\((?:λ (\w+)\. )?(.*)\)$", m[2])
            if not inner: return False, frozenset()
            # a refusal within the answer: None, or false
            within = told(inner[2], inner[1], None, self.imports) if inner[1] else told(inner[2] + " result", "result", None, self.imports)
            return bool({refusal, "all"} & {*within}), change if refusal in ("None", "false") else frozenset()
        if m := re.match(r"IfSome result", body): return False, frozenset()
        if re.match(r"Match(Option|Bool) result", body): return True, frozenset()
        if m := re.match(r"(OnErr|IfErr|IfNone) result (.*)", body):
            if is_error == (m[1] == "IfNone"): return False, frozenset()
            return speaks_of_cause(m[2]), frozenset() if "Rose" in m[2] else change
        if m := re.match(r"(IsErr|IsNone|IsOk|IsSome|IsTrue) result ↔", body):
            return is_error == (m[1] in ("IsErr", "IsOk")), frozenset()
        if m := re.match(r"result ≡ (?:Err \(?)?([\w.]+)( \w+\)?)?\)? (→|↔) (.*)", body):
            which = m[1].split(".")[-1]
            if which == refusal or (m[3] == "↔" and {which, refusal} == {"true", "false"}):
                return m[3] == "↔" or speaks_of_cause(m[4]), frozenset() if "Rose" in m[4] else change
            return False, frozenset()
        if re.match(r"result ≢ (Err )?(\w+\.)?(\w+) →", body):
            return False, frozenset() if body.split(" →")[0].endswith(refusal) else change
        if m := re.match(r"(OnTrue|OnFalse) \((\w+) result\) ", body):
            return False, change if refusal in self.passing(m[2], m[1][2:].lower()) else frozenset()
        if m := re.match(r"(Exactly|ExactlyWhere) .*", body):
            return refusal in self.named(text), frozenset()
        if re.match(r"result ≡ (?!Err|Ok|Some|None|true|false)", body) or body.endswith((" ≡ Some result", " ≡ result")):
            return True, change
        # an equation with an image of the answer that keeps each refusal tells of each answer
        if m := re.match(r"(\w+) result ≡ ", body):
            if any(re.match(r"\w+ \(Err (\w+)\) = Err \1$", flat(i)) for i in defined(m[1], None, self.imports)[1]): return True, change
        if re.search(r"(result ≡ (Some|Ok|true)\b|IsOk result|IsSome result)[^→]*$", body) and body != text and not m:
            if "result ≡ " in body[:9] or body.startswith(("IsOk", "IsSome")): return True, frozenset()
        # an equation of what is left, in which the answer is an argument, holds for each answer
        if (m := re.match(r"([^→≡]*\.new[^→≡]*) ≡ [^→≡]*$", body)) and not has(m[1], "result"): return False, change
        # that it is answered somewhere isn't that it is answered only there
        if body != text and re.match(r"\(?result ≡ Err\b", body): return False, change
        tells = told(text, "result", None, self.imports, 0, tuple(self.written))
        if is_error: which = {refusal, "all", "Err"} | ({*variants(self.crate, refusal)} if refusal in ("Code", "Trap") else set())
        else: which = {refusal, "all", "Ok " + refusal, "Ok all"}
        said = frozenset().union(*(tells[k] for k in which & {*tells}))
        # a clause on calls in which no count of faults rose says nothing of what is left
        if "¬ Rose" in text: return bool(said & WHEN), frozenset()
        # what stands outside of the relation on the answer holds for each answer
        around = terms(body)[1:]
        outside = "" if "result" in around or not tells else " ".join(t for t in around if not has(t, "result"))
        around = frozenset(a for a in change if f"{a}.new" in outside)
        return bool(said & WHEN) and terms(body)[0] not in LEFT, said & frozenset(self.written) | around

    def table(self):
        """For each refusal the labels that say when, those that say what holds behind, and the arguments of which none says that."""
        self.found = {}
        for refusal in self.refuses:
            when, behind, covered = [], [], frozenset()
            for label, text in self.says:
                comes, of = self.speaks(refusal, text)
                if comes and refusal not in MEMORY: when.append(label)
                if of: behind.append(label); covered |= of
            missing = [a for a in self.written if a not in covered and refusal not in NEVER]
            self.found[refusal] = when, behind, missing
        said = {l for w, b, _ in self.found.values() for l in w + b}
        self.others = [l for l, _ in self.says if l not in said]

# the crates whose `Refusal` is that of rg_verify_expressions
RAISING = {"rg_raise", "rg_blocks", "rg_classes", "rg_bodies", "rg_raised"}

enums = {}
for file in glob.glob("crates/*/src/**/*.rt", recursive=True):
    for m in re.finditer(r"(?m)^pub(?:\(\w+\))? enum (\w+)[^{]*\{(.*?)^\}", re.sub(r"(?m)^ *(//|#\[).*\n", "", read(file)), re.S):
        enums.setdefault(m[1], {})[file.split("/")[1]] = re.findall(r"(?m)^    (\w+)", m[2])

def variants(crate, name):
    of = enums.get(name, {})
    if crate in of: return [*of[crate]]
    home = {"rg_module": "rg_spell", "rg_image": "rg_spell"}.get(crate, "rg_verify_expressions" if crate in RAISING else "rg_base")
    return [*next(iter(of.values()))] if len(of) == 1 else [*of.get(home, [])]

def functions(item, indent):
    for m in re.finditer(rf"(?m)^{indent}(pub )?(?:ghost |const )*fn (\w+)", item):
        at = m.end()
        if item[at] == "<":
            depth = 0
            while True:
                depth += (item[at] == "<") - (item[at] == ">" and item[at - 1] != "-")
                at += 1
                if depth == 0: break
        end = closing(item, at, "()")
        args = flat(item[at + 1:end - 1]).rstrip(",")
        head = re.match(r"\s*(?:->\s*(.*?))?\s*(?=\n\s*(?:requires|ensures|where)\b|\{|;)", item[end:], re.S)
        at, clauses = end + head.end(), []
        while c := re.compile(r"\s*(?:where\b[^{]*?)?\s*(requires|ensures)\s*(\w+)?\s*\{").match(item, at):
            at = closing(item, c.end() - 1, "{}")
            clauses.append((c[1], c[2] or "", flat(item[c.end():at - 1])))
        yield bool(m[1]), m[2], args, flat(head[1] or "()"), clauses

def calls_of(crate):
    given, traits = {}, {}
    for where, names in re.findall(r"(?m)^pub use (\w+(?:::\w+)*)::(\{[^}]*\}|\w+);", read(f"crates/{crate}/src/lib.rt")):
        for name in re.findall(r"\w+", names):
            if not where.startswith("rg_"): given[name] = where.split("::")[-1]
    for file in sorted(glob.glob(f"crates/{crate}/src/**/*.rt", recursive=True)):
        text = re.sub(r"(?m)^ *//(?!/).*\n", "", read(file))
        for item in re.split(r"(?m)^(?=impl\b|pub |fn |ghost use |use |///|#\[)", text):
            if (m := re.match(r"pub trait (\w+)", item)) and m[1] in given:
                for _, *rest in functions(item, "    "): yield Call(crate, file, m[1], *rest, "")
            elif (m := re.match(r"impl(?:<[^{]*?>)? (?:([\w:<>, ']+) for )?(\w+)", item)) and m[2] in given:
                if m[1] and m[1].split("<")[0] in ("Model", "Drop", "From"): continue
                for public, *rest in functions(item, "    "):
                    if public or m[1]: yield Call(crate, file, m[2], *rest, m[1] or "")
            elif (m := re.match(r"pub (?:ghost )?fn (\w+)", item)) and given.get(m[1]) == os.path.basename(file)[:-3]:
                for _, *rest in functions(item, ""): yield Call(crate, file, "", *rest, "")

# The storeys with their crates, in the order of crates.txt.
storeys = []
for number, name, crates in re.findall(r"(?m)^(\d)\. \*\*([^*]+)\*\* \((.*?)\)", read("docs/architecture.md")):
    storeys.append((f"{number}. {name}", []))
order = re.findall(r"(?m)^# (\w+)\n((?:(?!#).*\n?)*)", read("crates.txt"))
for (_, inside), (_, lines) in zip(storeys, [o for o in order if re.search(r"(?m)^\w+:", o[1])]):
    inside += re.findall(r"(?m)^(\w+):", lines)

everything = {}
for _, crates in storeys:
    for crate in crates:
        if os.path.isfile(f"crates/{crate}/src/lib.rt"): everything[crate] = [*calls_of(crate)]
by_name = {c.full: c for calls in everything.values() for c in calls}
traits = {c.label: c for calls in everything.values() for c in calls if not c.trait}
for c in by_name.values():
    if c.trait and (of := traits.get(f"{c.trait.split('<')[0]}::{c.name}")):
        own = {l for l, _ in c.says}
        if not own & {l for l, _ in of.says}: c.says = of.says + c.says
        c.imports = {**of.imports, **c.imports}
        if not c.asks: c.asks = of.asks
    c.table()

def ticks(labels): return ", ".join(f"`{l}`" for l in labels) if labels else ""

def is_plain(c):
    """It refuses nothing: a truth value is an answer like another one where nothing is written, and a clause tells of both."""
    return not c.refuses or c.ret == "bool" and not c.written and all(w for w, _, _ in c.found.values())

def is_reader(c): return bool(re.match(r"(?:&(?:'\w+ )?)?self", c.args)) and c.reads and is_plain(c)

def is_law(c): return not c.of and c.ret == "()" and not re.search(r"&(?:'\w+ )?mut ", c.args)

def cells(c):
    """What a row has beside the call."""
    if is_plain(c): return ticks(c.asks), "nothing", "", "", ticks(l for l, _ in c.says) or "**no clause**"
    whens = [(r, w or (["free"] if is_free(c, r) else ["**not said**"])) for r, (w, _, _) in c.found.items() if r not in MEMORY]
    whens += [(r, ["free"]) for r in c.found if r in MEMORY]
    behinds = [(r, b + [f"**not said** of {ticks(missing)}"] * bool(missing)) for r, (_, b, missing) in c.found.items() if r not in NEVER]
    return ticks(c.asks), ticks(c.refuses), by_refusal(whens), by_refusal(behinds) if c.written else "–", ticks(c.others)

def marked(labels): return ", ".join(l if l == "free" or l.startswith("**") else f"`{l}`" for l in labels)

def by_refusal(said):
    """What is said of each refusal: first what is said of all."""
    each = [l for l in said[0][1] if all(l in labels for _, labels in said)]
    groups = {}
    for refusal, labels in said:
        if rest := tuple(l for l in labels if l not in each): groups.setdefault(rest, []).append(refusal)
    return "; ".join([marked(each)] * bool(each) + [f"{ticks(of)}: {marked(rest)}" for rest, of in groups.items()])

def is_free(c, refusal):
    of = traits.get(f"{c.trait.split('<')[0]}::{c.name}")
    return FREE.get(c.full) == refusal or of is not None and FREE.get(of.full) == refusal

lists = {"when": {}, "behind": {}, "nothing": {}}
for c in by_name.values():
    for refusal, (when, behind, missing) in c.found.items():
        if refusal not in MEMORY and not when and not is_free(c, refusal):
            lists["when"].setdefault((c.crate, ticks([refusal])), []).append(c)
        if missing: lists["behind"].setdefault((c.crate, f"{ticks(missing)} behind {ticks([refusal])}"), []).append(c)
    if not c.says: lists["nothing"].setdefault((c.crate, ""), []).append(c)

TITLES = {
    "when": "Refusals of which no clause says when they come",
    "behind": "Written arguments of which no clause says what holds of them behind a refusal",
    "nothing": "Calls without a clause",
}

def page():
    out = [HEAD]
    for storey, crates in storeys:
        out.append(f"## {storey}\n")
        for crate in crates:
            if not everything.get(crate): continue
            out.append(f"### {crate}\n\n| Call | Asks | Refuses | When | Behind it | Else |\n|---|---|---|---|---|---|")
            rows, readers, laws = [], {}, []
            for c in everything[crate]:
                if is_law(c): laws.append(c)
                elif is_reader(c): readers.setdefault(c.of, []).append(c)
                else:
                    row = cells(c)
                    if rows and rows[-1][0] == c.of and rows[-1][2] == row and rows[-1][1][-1].trait == c.trait: rows[-1][1].append(c)
                    else: rows.append((c.of, [c], row))
            owners = [*dict.fromkeys(c.of for c in everything[crate])]
            for owner in owners:
                for of, group, row in rows:
                    if of != owner: continue
                    names = ", ".join(f"`{c.label if k == 0 else c.name}`" for k, c in enumerate(group))
                    trait = f" (of `{group[0].trait}`)" if group[0].trait else ""
                    out.append(f"| {names}{trait} | " + " | ".join(row) + " |")
                if owner in readers:
                    names = ", ".join(f"`{c.label if k == 0 else c.name}`" for k, c in enumerate(readers[owner]))
                    asks = ticks(dict.fromkeys(a for c in readers[owner] for a in c.asks))
                    labels = ticks(dict.fromkeys(l for c in readers[owner] for l, _ in c.says)) or "**no clause**"
                    out.append(f"| {names} | {asks} | nothing | | | {labels} |")
            if laws:
                names, labels = ticks(c.name for c in laws), ticks(dict.fromkeys(l for c in laws for l, _ in c.says))
                asks = ticks(dict.fromkeys(a for c in laws for a in c.asks))
                out.append(f"| laws: {names} | {asks} | nothing | | | {labels} |")
            out.append("")
    out.append("## What no clause says\n")
    for key, title in TITLES.items():
        out.append(f"**{title}:**" + ("\n" if lists[key] else " none.\n"))
        for (crate, what), calls in lists[key].items():
            out.append(f"- `{crate}`, {ticks(c.label for c in calls)}" + (f": {what}" if what else ""))
        if lists[key]: out.append("")
    out.append("**Nothing is said** behind `Lost` of `Next`: it comes exactly where the definition of an instruction is stuck, and no step of a"
               " program's code comes there.\n")
    out.append("**Free on purpose**, since a caller goes the long way then, or since it is a pacer's to say: "
               + ", ".join(f"`{name}` (`{answer}`)" for name, answer in FREE.items()) + ".\n")
    return re.sub(r"\|  +\|", "| |", re.sub(r"\|  +\|", "| |", "\n".join(out)))

made = page()
if "--table" in sys.argv: print(made)
for key, title in TITLES.items():
    print(f"{title}: {sum(map(len, lists[key].values())) or 'none'}")
    for (crate, what), calls in lists[key].items(): print(f"  {crate}, {', '.join(c.label for c in calls)}" + (f": {what}" if what else ""))

# The calls that take no memory: an answer without want of memory takes none.
promised, wrong = set(), False
for crate, names in NO_MEMORY.items():
    calls = {c.label: c for c in everything[crate]}
    first, *rest = names.split()
    for name in ([n for n in calls if n not in rest] if first == "*" else [first, *rest]):
        promised.add(f"{crate}::{name}")
        if name not in calls: print(f"{crate}::{name} is promised to take no memory, and isn't there"); wrong = True
        elif calls[name].takes_memory(): print(f"{crate}::{name} is promised to take no memory, and may find none"); wrong = True
    for name in rest if first == "*" else []:
        if name not in calls or not calls[name].takes_memory():
            print(f"{crate}::{name} may find no memory by the list, and not by its answer"); wrong = True
free = {c.full: c for c in by_name.values() if not c.takes_memory() and not is_law(c)}
further = [name for name in free if name not in promised]
laws, takers = sum(map(is_law, by_name.values())), sum(c.takes_memory() for c in by_name.values())
print(f"{len(by_name)} calls, {laws} of them laws; {takers} may find no memory, {len({*free} & promised)} are promised to take none,"
      f" and by their answers {len(further)} more take none:")
for crate in everything:
    if of := [free[name].label for name in further if free[name].crate == crate]: print(f"  {crate}: {', '.join(of)}")

path = "docs/calls.md"
if "--write" in sys.argv:
    with open(path, "w", encoding="utf-8") as it: it.write(made)
elif not os.path.isfile(path) or read(path) != made:
    print(f"{path} differs from the contracts: bench/calls.sh --write"); wrong = True
sys.exit(wrong)
PY
