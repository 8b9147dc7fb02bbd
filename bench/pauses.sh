#!/usr/bin/env bash
# The longest pause of a server, by the objects that live long beside it, 10^2 to 10^6: the same program in Reggio, Lua 5.4, OCaml and
# Guile (bench/pauses/server.*), as far as these are installed. A large ring of sessions lives long. A request makes 1,000 small objects,
# of which 100 are in use, and 200 at most are there at once; under Reggio it has a region of its own, which is collected nine times. Each
# ends with a line of output.
# A pause is the time of the processor between two lines, of the thread that writes them (bench/pauses/stamp.c): so it has the work of one
# request, and what its memory took. The first line's, with the making of the ring, isn't counted. Of each run the longest is taken, and of
# several runs the least of these, since other programs on the machine only make it longer. `median` is that of the best run.
# What is tried: a runtime as it collects by itself, where it has ways `incremental` and `generational`; and `whole`, with one collection of
# all that is there, of which the largest pause is the longest one. Of Reggio this is a collection of the region of the ring.
# `looked_at` are the objects in front of the largest collection: of Reggio as the report tells them; of the others, for a whole cycle,
# all that are in reach, reckoned from the program, since these runtimes don't tell.
# It prints a table for `tools/compare --plot`, its first lines the machine, the date and the versions; where valgrind is installed, the
# machine instructions of a request of Reggio, too. Not a part of the gate.
# Usage: bench/pauses.sh [TURNS [PROGRAM]]; bench/pauses.sh 5 > docs/pauses.txt && tools/compare --plot docs/pauses.txt > docs/pauses.svg
set -eu
. "$(dirname "$0")/common.sh"
turns=${1:-5}
cc -O2 -shared -fPIC -o "$work/stamp.so" "$here/bench/pauses/stamp.c" -ldl
if command -v ocamlopt >/dev/null; then
  cp "$here/bench/pauses/server.ml" "$work" && (cd "$work" && ocamlopt -O3 unix.cmxa server.ml -o server_ml 2>"$work/notes") || cat "$work/notes" >&2
fi
python3 - "$work" "$program" "$turns" "$here/bench/pauses" <<'PY'
import array, datetime, os, platform, re, shutil, statistics, subprocess, sys
from pathlib import Path
work, program, turns, sources = Path(sys.argv[1]), sys.argv[2], int(sys.argv[3]), Path(sys.argv[4])
SIZES = 100, 1_000, 10_000, 100_000, 1_000_000
MANY, FEW = 4_000, 100  # requests; where the whole heap is collected behind each twentieth, fewer
COUNTED = 100, 10_000, 100_000  # sizes for which the instructions of a request are counted
MOST_STEPS = "1000000000"
ITEMS = 200  # of a request, that are there at once


def source(size, requests, whole):
    """The program in a file of its own."""
    text = re.sub(r"\bREQUESTS\b", str(requests), re.sub(r"\bSESSIONS\b", str(size), (sources / "server.rg").read_text()))
    path = work / f"server_{size}{'_whole' * whole}.rg"
    path.write_text(text.replace("// whole: ", "") if whole else text)
    return str(path)


def reggio(size, requests, whole):
    return [program, "run", source(size, requests, whole), "--every", "0", "--steps", MOST_STEPS]


def ways():
    """What is tried: its name, the words of a call for a size, and how many requests."""
    yield "Reggio", lambda size: reggio(size, MANY, False), MANY
    yield "Reggio, whole", lambda size: reggio(size, FEW, True), FEW
    if lua := shutil.which("lua5.4"):
        for mode, requests in ("incremental", MANY), ("generational", MANY), ("whole", FEW):
            yield f"Lua, {mode}", lambda size, mode=mode, requests=requests: [lua, sources / "server.lua", str(size), str(requests), mode], requests
    if (work / "server_ml").exists():
        for mode, requests in ("generational", MANY), ("whole", FEW):
            yield f"OCaml, {mode}", lambda size, mode=mode, requests=requests: [work / "server_ml", str(size), str(requests), mode], requests
    if guile := shutil.which("guile"):
        yield "Guile, whole", lambda size: [guile, work / "server.scm", str(size), str(MANY)], MANY


def gaps(words):
    """The nanoseconds between the lines of a call, without those in front of the first one, and its output."""
    # (Guile's collector marks with one thread, so that its time is that of the thread that waits for it; Guile compiles at the first call)
    environment = dict(os.environ, LD_PRELOAD=str(work / "stamp.so"), STAMPS=str(work / "stamps"), GC_MARKERS="1", XDG_CACHE_HOME=str(work))
    ran = subprocess.run(words, env=environment, stdout=subprocess.PIPE, stderr=subprocess.PIPE)
    if ran.returncode != 0: sys.exit(f"{words}: status {ran.returncode}, {ran.stderr[-300:]}")
    found = array.array("Q")
    found.frombytes((work / "stamps").read_bytes())
    if len(found) != ran.stdout.count(b"\n"): sys.exit(f"{words}: {len(found)} stamps")
    return list(found[1:]), ran.stdout


def looked_at(name, size, words):
    """The objects in front of the largest collection; of others than Reggio those in reach at most."""
    if name.startswith("Reggio"):
        notes = subprocess.run([*words, "--report"], stdout=subprocess.DEVNULL, stderr=subprocess.PIPE, check=True).stderr
        return max(int(held) for held in re.findall(rb"^(?:collect|paced) .* held (\d+) ", notes, re.M))
    return size + ITEMS


def version(words):
    """The first number with a point in what a runtime says of itself."""
    said = subprocess.run(words, stdout=subprocess.PIPE, stderr=subprocess.STDOUT).stdout.decode()
    return found[0] if (found := re.search(r"\d+(\.\d+)+", said)) else "of no version"


def instructions(size):
    """The machine instructions of a request of Reggio, counted by valgrind: no load changes them."""
    def counted(requests):
        words = ["valgrind", "--tool=cachegrind", "--cache-sim=no", "--cachegrind-out-file=/dev/null", *reggio(size, requests, False)]
        notes = subprocess.run(words, stdout=subprocess.DEVNULL, stderr=subprocess.PIPE, check=True).stderr.decode()
        return int(re.search(r"I +refs: +([\d,]+)", notes)[1].replace(",", ""))
    return (counted(40) - counted(20)) // 20


def machine():
    cpu = next((line.split(":")[1].strip() for line in open("/proc/cpuinfo") if line.startswith("model name")), platform.machine())
    return f"{os.cpu_count()} processors, {cpu}"


if shutil.which("guile"):
    shutil.copy(sources / "server.scm", work)
print(f"# {datetime.date.today()}, {machine()}, load {os.getloadavg()[0]:.1f}; the least of {turns} runs' longest pauses")
versions = {"Lua": ["lua5.4", "-v"], "OCaml": ["ocamlopt", "-version"], "Guile": ["guile", "--version"]}
print("# " + ", ".join(f"{name} {version(words)}" for name, words in versions.items() if shutil.which(words[0])))
lines = [line for line in (sources / "server.rg").read_text().splitlines() if not line.lstrip().startswith("//")]
capabilities, windows = (len(re.findall(rf"\b(?:{words})\b", "\n".join(lines))) for words in ("mut|tmp|paused|imm|iso", "enter"))
others = [line for line in (sources / "server.lua").read_text().splitlines() if not line.startswith("--")]
print(f"# server.rg has {len(lines)} lines, {capabilities} capabilities and {windows} windows; server.lua has {len(others)} lines")
if shutil.which("valgrind"):
    counted = [f"{instructions(size):,}" for size in COUNTED]
    print(f"# a request of Reggio takes {', '.join(counted)} machine instructions beside {', '.join(f'{size:,}' for size in COUNTED)} objects")
print("# runtime\tsize\tlongest_us\tmedian_us\tlooked_at", flush=True)
wanted = {}
for size in SIZES:
    tries = list(ways())
    best = {}
    for _ in range(turns):
        for name, words, requests in tries:
            found, output = gaps(words(size))
            if name == "Reggio, whole": output = output[: output.rstrip(b"\n").rfind(b"\n") + 1]
            if wanted.setdefault(requests, output) != output: sys.exit(f"{name}, {size}: the output differs")
            it = max(found), statistics.median(found)
            best[name] = min(best.get(name, it), it)
    for name, words, _ in tries:
        longest, median = best[name]
        print(f"{name}\t{size}\t{longest / 1000:.1f}\t{median / 1000:.1f}\t{looked_at(name, size, words(size))}", flush=True)
PY
