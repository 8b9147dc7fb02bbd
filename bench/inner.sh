#!/usr/bin/env bash
# Tries that nobody has to read specs/Inner to know what is promised: from the clauses of each function that a crate
# hands out, the headline's among them, it follows the imports of specification modules, prints each way that ends at
# a module of specs/Inner, and fails then. A function is handed out where its crate's lib.rt names it, or its type, in
# a `pub use`. Proofs, private functions, views and invariants may cite Inner.
# Then it compares the modules that hold a definition to which names lead from the clauses of `reggio` with the tables under
# "Where the definitions stand" in docs/architecture.md, in three groups: what is believed of the text and the status; what of
# modules and behaviours too, to which only crates of theirs lead; and what of collections and pacers, to which only the states
# of a run lead. It fails where a table or a group has more than the other. It prints the modules and lines of each group, and
# what share of the code's lines they are: all of them, and those of definitions that are used. Blank lines and imports count on
# neither side. A module that is imported on the way and holds no such definition stands in no table: it prints its name, since
# it would be better if a reader didn't come by it. Not a part of the gate.
# Usage: bench/inner.sh
cd "$(dirname "$0")/.." && exec python3 - <<'PY'
import glob, os, re, sys

USE = r"(?m)^ *(?:ghost |pub )*use Rattle\.(\w+)\.specs\.([\w.]+)\.(?:\{([^}]*)\}|(\w+)(?: as (\w+))?)"
WHOLE = r"(?m)^ *(?:ghost |pub )*use Rattle\.(\w+)\.specs\.([\w.]+) as (\w+)"
CLAUSES = r"(?ms)^ *pub fn [^\n]*\{$|^ *pub fn .*?^ *\{$|^ *ghost Value.*?;$"

def read(path):
    with open(path, encoding="utf-8") as it: return it.read()

def imports(text):
    """Yields the crate and module of each import, with a name that it gives and the name that it has there."""
    for crate, module, names, one, other in re.findall(USE, text):
        for name in (names or (f"{one} as {other}" if other else one)).split(","):
            there, *here = name.split(" as ")
            yield (crate, module), (here or [there])[0].strip(), there.strip()
    for crate, module, name in re.findall(WHOLE, text):
        yield (crate, module), name, name

def file_of(crate, module): return f"crates/{crate}/specs/{module.replace('.', '/')}.antt"

def followed(ways, but=None):
    """All modules to which imports lead from these, but not from one, each with its way."""
    todo = [*ways]
    while todo:
        at = todo.pop(0)
        if at == but or at[1].startswith("Inner.") or not os.path.isfile(file_of(*at)): continue
        for more, _, _ in imports(read(file_of(*at))):
            if more not in ways:
                ways[more] = [*ways[at], ".".join(at)]
                todo.append(more)
    return ways

ways, headline, first = {}, {}, {}
for lib in sorted(glob.glob("crates/*/src/lib.rt")):
    crate = lib.split("/")[1]
    given = {*re.findall(r"\w+", " ".join(re.findall(r"pub use ([^;]*);", read(lib))))}
    for file in sorted(glob.glob(f"crates/{crate}/src/**/*.rt", recursive=True)):
        text = read(file)
        # an item begins at the margin: a function, or an impl or a trait with its functions
        for item in re.split(r"(?m)^(?=impl\b|pub |fn |ghost use |use )", text):
            of = re.match(r"(?:pub )?(?:impl(?:<[^>]*>)?(?: [\w<>, ']+ for)?|struct|enum|trait|fn) (\w+)", item)
            if not of or of[1] not in given: continue
            is_trait = item.startswith("pub trait") or re.match(r"impl\S* (?!Model )[\w<>, ']+ for", item)
            clauses = {*re.findall(r"[^\s(){}\[\],;:.&*<>=]+", item if is_trait else "".join(re.findall(CLAUSES, item)))}
            for module, name, there in imports(text):
                if name not in clauses: continue
                ways.setdefault(module, [f"{crate}::{of[1]}"])
                if (crate, of[1]) == ("rg_top", "reggio"):
                    headline[module] = ["rg_top::reggio"]
                    first.setdefault(module, set()).add(there)

inner = [(at, way) for at, way in followed(ways).items() if at[1].startswith("Inner.")]
for at, way in inner: print(" -> ".join([*way, ".".join(at)]))
print(f"{len(ways)} modules are reached, {len(inner)} of them are of specs/Inner")

# What the states of a run alone lead to is believed of collections and pacers; and what these crates alone lead to, of modules
# and behaviours.
STATES = ("rg_run", "States")
FURTHER = {"rg_module", "rg_spell", "rg_raised", "rg_limits", "rg_build", "rg_alike", "rg_when", "rg_sched", "rg_sched_atomic",
    "rg_plan", "rg_cown", "rg_opening", "rg_world_text", "rg_loading", "rg_image", "rg_typed", "rg_names", "rg_verify_expressions"}
TABLES = ["to believe the text and the status", "to believe what is told of modules and behaviours",
    "to believe what is told of collections and pacers"]

def stands(ways): return {at for at in ways if os.path.isfile(file_of(*at))}

imported = stands(followed(dict(headline)))

# The definitions of a module: each item at the margin, by the names that it gives (a record's and its fields', a type's and its cases'),
# with those that it uses, but for the variables of its functions.
WORD = r"[^\s(){}\[\],;:.&*<>=↦|→×]+"
def items(at):
    for item in re.split(r"\n\n+", re.sub(r"(?m)^ *--.*\n?", "", read(file_of(*at)))):
        lines = [line for line in item.split("\n") if line and not re.match(r" *(pub )?use ", line)]
        body = "\n".join(lines)
        names = re.findall(r"(?m)^ *(?:unfoldable |abbrev |pub |record |data )*([^\s(){}:]+)(?= [({]| :)", body)
        bound = " ".join(re.findall(r"λ ([^.]*)\.", body))
        if names: yield {*names}, {*re.findall(WORD, body)} - {*re.findall(WORD, bound)}, len(lines)

def used(but=()):
    """All definitions to which names lead from the clauses, but not through these modules: each a module and its place there."""
    defined, names, wholes = {}, {}, {}
    for at in imported:
        defined[at] = list(items(at))
        names[at], wholes[at] = {}, [(crate, module) for crate, module, _ in re.findall(WHOLE, read(file_of(*at)))]
        for module, name, there in imports(read(file_of(*at))): names[at].setdefault(name, set()).add((module, there))
    seen = set()
    todo = [(at, name) for at, given in first.items() for name in given if at in defined and at not in but]
    while todo:
        at, name = todo.pop()
        for k, (gives, tokens, _) in enumerate(defined[at]):
            if name not in gives or (at, k) in seen: continue
            seen.add((at, k))
            for token in tokens:
                todo.append((at, token))
                more = [*names[at].get(token, ()), *((module, token) for module in wholes[at])]
                todo += [(module, name) for module, name in more if module in defined and module not in but]
    return seen

def modules(seen): return {at for at, _ in seen}

def lines_of(paths):
    """How many lines of these files say something: no blank lines, and no imports."""
    said = 0
    for path in paths:
        said += sum(bool(line.strip()) and not re.match(r" *(ghost |pub )*use ", line) for line in read(path).splitlines())
    return said

all_used, without_states = used(), used(but=(STATES,))
further = {at for at in imported if at[0] in FURTHER}
believed, text = modules(all_used), modules(used(but={STATES, *further}))
groups = [text, modules(without_states) - text, believed - modules(without_states)]
for at in sorted(imported - believed): print(".".join(at), "is imported, and holds nothing that is used: it needn't be believed")

wrong = False
for heading, group in zip(TABLES, groups):
    table = read("docs/architecture.md").split(f"\n### {heading[0].upper()}{heading[1:]}\n")[1].split("\n#")[0].split("\nClauses of other")[0]
    named = set()
    for row in re.findall(r"(?m)^\| [^|]* \| (.*) \|$", table):
        for crate, module in re.findall(r"`(?:(\w+)/specs/)?([\w/]+)`", row):
            last = crate or last
            named.add((last, module.replace("/", ".")))
    for at in sorted(group ^ named):
        print(".".join(at), f"isn't in the table {heading!r}" if at in group else f"is in the table {heading!r}, and no clause of reggio leads to it")
    print(f"{heading}: {len(group)} modules, {lines_of(file_of(*at) for at in group)} lines; {len(named)} stand in the table")
    wrong |= group != named

# The code of the library and its programs, without what tests it; definitions that are used are counted without their comments.
code = lines_of(path for path in glob.glob("crates/*/src/**/*.rt", recursive=True) if not re.search(r"_tests|_examples", path))
needed = sum(lines[k] for at in believed for lines in [[size for _, _, size in items(at)]] for there, k in all_used if there == at)
share = lines_of(file_of(*at) for at in believed) / code
print(f"{code} lines of code; what is believed is {share:.3f} of them, and what is used of it {needed / code:.3f}")
sys.exit(bool(inner) or wrong)
PY
