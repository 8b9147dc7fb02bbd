#!/usr/bin/env bash
# Prints figures of the repository as a house: how long functions are with their contracts, how many parameters and clauses
# they have, how large crates and folders are, how much of proofs and definitions stands beside a line of source, which lemma
# modules are open to crates above and cited by none, how much stands twice (runs of six equal lines, and statements of
# lemmas), and how many rows new forms would want. Lists what is past its mark. Not a part of the gate.
# Usage: bench/house.sh
cd "$(dirname "$0")/.." && exec python3 - <<'PY'
import collections, glob, os, re

MOST_LINES, MOST_PARAMETERS, MOST_CLAUSES, MOST_FILES, MOST_FUNCTIONS, MOST_SOURCE = 40, 6, 15, 25, 100, 1500

def read(path):
    with open(path, encoding="utf-8") as file: return file.read()

def functions(text):
    """Yields the name, lines with contract, parameters and clauses of each function of a source."""
    lines = text.split("\n")
    for k, line in enumerate(lines):
        start = re.match(r"( *)(?:pub(?:\([^)]*\))? )?(?:const )?(?:unsafe )?fn (\w+)", line)
        if not start: continue
        end, depth = k, 0
        while end < len(lines) and lines[end] not in (start[1] + "}", start[1] + "{}") and not (end == k and line.rstrip().endswith("}")):
            depth += sum(lines[end].count(sign) for sign in "([{") - sum(lines[end].count(sign) for sign in ")]}")
            if depth == 0 and lines[end].endswith(";"): break # (a method of a trait, which has no body)
            end += 1
        whole = "\n".join(lines[k : end + 1])
        depth, count, inside = 0, 0, ""
        for sign in whole[whole.index("(", start.end()) :]:
            if sign in "([{<": depth += 1
            if sign in ")]}>": depth -= 1
            inside += sign
            if depth == 0: break
        count = len([part for part in re.split(r",(?![^<(\[]*[>)\]])", inside[1:-1]) if part.strip() and "self" not in part])
        clauses = len(re.findall(r"(?m)^ *(?:requires|ensures)\b", whole))
        yield start[2], end - k + 1, count, clauses

crates = sorted(path.split("/")[1] for path in glob.glob("crates/*/src"))
sizes, sources, specs, proofs, all_functions = [], 0, 0, 0, 0
for crate in crates:
    found, lines = 0, 0
    for path in sorted(glob.glob(f"crates/{crate}/src/**/*.rt", recursive=True)):
        text = read(path)
        lines += len(text.splitlines())
        for name, size, count, clauses in functions(text):
            found += 1
            sizes.append(size)
            if size > MOST_LINES: print(f"{path}: {name} has {size} lines with its contract")
            if count > MOST_PARAMETERS: print(f"{path}: {name} has {count} parameters")
            if clauses > MOST_CLAUSES: print(f"{path}: {name} has {clauses} clauses")
    if found > MOST_FUNCTIONS: print(f"crates/{crate} has {found} functions")
    if lines > MOST_SOURCE: print(f"crates/{crate} has {lines} lines of source")
    sources, all_functions = sources + lines, all_functions + found
    specs += sum(len(read(path).splitlines()) for path in glob.glob(f"crates/{crate}/specs/**/*.antt", recursive=True))
    proofs += sum(len(read(path).splitlines()) for path in glob.glob(f"crates/{crate}/proofs/**/*.antt", recursive=True))

for folder, _, files in os.walk("crates"):
    files = [name for name in files if name.endswith((".rt", ".antt"))]
    if "/out" not in folder and len(files) > MOST_FILES: print(f"{folder} has {len(files)} files")

cited = collections.defaultdict(set)
for path in glob.glob("crates/**/*.antt", recursive=True) + glob.glob("crates/**/*.rt", recursive=True):
    for crate, module in re.findall(r"use Rattle\.(\w+)\.proofs\.([\w.]+)", read(path)):
        if crate != path.split("/")[1]: cited[crate].add(module)
open_, uncited = 0, []

def is_open(below, full):
    """Whether a module of proofs/ is open to crates above: it and each folder that it lies in is declared with pub."""
    place, _, name = full.rpartition(".")
    declared = f"{below}/{place.replace('.', '/') or 'Lib'}.antt"
    return os.path.exists(declared) and re.search(rf"(?m)^pub mod {name}$", read(declared)) is not None and (not place or is_open(below, place))

for path in glob.glob("crates/*/proofs/**/*.antt", recursive=True):
    crate, below = path.split("/")[1], path.split("/proofs/")[0] + "/proofs"
    place = os.path.relpath(path, below)[: -len(".antt")].replace("/", ".")
    for module in re.findall(r"(?m)^pub mod (\w+)", read(path)):
        full = module if place == "Lib" else f"{place}.{module}"
        if os.path.exists(f"{below}/{full.replace('.', '/')}") or not is_open(below, full): continue
        open_ += 1
        if not any(name == full or name.startswith(full + ".") for name in cited[crate]): uncited.append(f"{crate} {full}")
for name in sorted(uncited): print(f"{name} is open to crates above, and none cites it")

RUN = 6

def plain_lines(path):
    """The lines of a file with white space folded, without blanks, comments and what only names modules."""
    for line in read(path).split("\n"):
        line = " ".join(line.split())
        if line and not re.match(r"(--|//|(pub |ghost )*(use|mod) )", line): yield line

def equal_share(paths):
    """How many of all lines stand in a run of so many that stands in two places, in percent."""
    runs, files = collections.defaultdict(list), [list(plain_lines(path)) for path in paths]
    for number, lines in enumerate(files):
        for k in range(len(lines) - RUN + 1): runs["\n".join(lines[k : k + RUN])].append((number, k))
    twice = {(number, k + d) for places in runs.values() if len(places) > 1 for number, k in places for d in range(RUN)}
    return 100 * len(twice) / max(1, sum(map(len, files)))

def statements(path):
    """Yields name and type of each lemma of a file, of those with equations alone, white space folded."""
    lines, k = read(path).split("\n"), 0
    while k < len(lines):
        found = re.match(r"( *)(?:abbrev )?(?:pub )?(\S+) : (.*)$", lines[k])
        k += 1
        if not found: continue
        indent, rest = len(found[1]), [found[3]]
        while k < len(lines) and len(lines[k]) - len(lines[k].lstrip()) > indent:
            rest.append(lines[k])
            k += 1
        if k < len(lines) and re.match(rf" {{{indent}}}{re.escape(found[2])}( |$)", lines[k]):
            yield found[2] + " : " + " ".join(" ".join(rest).split())

proof_files = sorted(glob.glob("crates/*/proofs/**/*.antt", recursive=True))
answers = [path for path in proof_files if path.endswith("/Answers.antt")]
shares = [equal_share(paths) for paths in (
    sorted(glob.glob("crates/*/src/**/*.rt", recursive=True)),
    sorted(glob.glob("crates/*/specs/**/*.antt", recursive=True)),
    answers,
    sorted(set(proof_files) - set(answers)),
)]
stated = collections.defaultdict(set)
for path in proof_files:
    for statement in statements(path):
        if "→" in statement and " : goal." not in statement: stated[statement].add(path)
shared = sum(len(places) > 1 for places in stated.values())

# What an extension would add: so many forms, of the types of these names in the definitions and in the sources.
FORMS = (
    (1, "crates/rg_tree/specs/Tree.antt", "StmtKind", "crates/rg_tree/src/rows.rt", "StmtKind"),
    (2, "crates/rg_tree/specs/Tree.antt", "Expr", "crates/rg_tree/src/rows.rt", "ExprRow"),
    (1, "crates/rg_rules/specs/Items.antt", "Item", None, None),
    (8, "crates/rg_code/src/op.rt", "Op", "crates/rg_code/src/op.rt", "Op"),
)

def forms(path, name):
    """The constructors of a type of the definitions, or the variants of an enum of a source."""
    found, rest = re.search(rf"(?ms)^( *)pub (?:data|enum) {name}\b[^\n]*\n(.*)", read(path)).groups()
    body = re.split(rf"(?m)^ {{0,{len(found)}}}\S", rest)[0]
    return set(re.findall(rf"(?m)^{found}(?:  |    )(\w+)(?= :|,|\(| {{)", body))

def full_tables(path, names, prefix):
    """How many functions of a file of definitions or lemmas have a row for each of these constructors."""
    rows = collections.defaultdict(set)
    for line in read(path).split("\n"):
        row = re.match(r"\s*([^\s(){}:]+)\s(.*?)\s=(?:\s|$)", line)
        if not row or " : " in row[2] or re.match(r"\s*(--|use )", line): continue
        rows[row[1]].update(re.findall(rf"(?<=[ (]){prefix}(\w+)(?=[ )])", f" {row[2]} "))
    return sum(names <= found for found in rows.values())

def full_matches(path, names, enum):
    """How many functions of a source have an arm for each of these variants, and none for all others."""
    pieces = [part for part in re.split(r"\n(?=\s*(?:///|pub |fn |pub\(crate\) ))", read(path)) if "=>" in part and "_ =>" not in part]
    return sum(names <= set(re.findall(rf"\b{enum}::(\w+)(?: {{|[^=\n]*(?:=>|\|))", part)) for part in pieces)

wanted, tables = 0, [path for path in proof_files + glob.glob("crates/*/specs/**/*.antt", recursive=True) if "xample" not in path]
for count, defined, name, source, enum in FORMS:
    names = forms(defined, name)
    prefix = r"\w+\." if name == "Op" else r"(?:\w+\.)?"
    wanted += count * sum(full_tables(path, names, prefix) for path in tables)
    if enum:
        variants = forms(source, enum)
        wanted += count * sum(full_matches(path, variants, enum) for path in glob.glob("crates/*/src/**/*.rt", recursive=True))

sizes.sort()
at = lambda part: sizes[int(part * (len(sizes) - 1))]
print(f"{all_functions} functions with their contracts: {at(0.5)} lines in the middle, nine in ten up to {at(0.9)}, the longest {sizes[-1]}")
print(f"{sources} lines of source; {specs / sources:.2f} of definitions and {proofs / sources:.2f} of proofs beside each")
print(f"{open_} lemma modules are open to crates above, {len(uncited)} of them cited by none")
print("In runs of six equal lines: {:.1f} % of source, {:.1f} % of definitions, {:.1f} % of answers, {:.1f} % of lemmas".format(*shares))
print(f"{shared} statements of lemmas stand in more than one file")
print(f"{wanted} rows would be wanted by one more statement, two expressions, an item of the plain machine and eight instructions: "
    "for each new form one in each table of definitions and lemmas, and each match of source, that names all forms of its type (examples apart)")
PY
