"""Each trap of docs/diagnostics.md, three calls deep: `explain --trap FILE` tells the calls that were open and what the variables had.
Usage: traps.py TOOLS PROGRAM [-v]"""
import os, re, subprocess, sys, tempfile
tools, program = os.path.abspath(sys.argv[1]), sys.argv[2]
page = open(f"{tools}/../docs/diagnostics.md").read()
frame = re.search(r"```\n(.*?)```", re.search(r"(?m)^## Slips$(.*?)^## ", page, re.S)[1], re.S)[1]
frame = frame.replace("// there", "def mut one(k: int) { call self.two(k + 1); }\n  def mut two(k: int) { let b: bool = true; let i: int = 0; while i < 3 { i = i + 1; } call self.three(k); }\n  def mut three(k: int) {\n    let b: bool = true; let a: mut A = new A; let row: mut Row = new Row [3];\n    // inner\n  }")
tried = told = raised = 0
with tempfile.TemporaryDirectory() as folder:
    for kind, example in re.findall(r"(?m)^\| `(\w+)` \| .*? \| (`.*?) \| .* \|$", re.search(r"(?m)^## Traps$(.*?)^## ", page, re.S)[1]):
        code, given = re.match(r"`([^`]+)`(?: on the input `(.*)`| on an empty input)?$", example).groups()
        with open(f"{folder}/a.rg", "w") as file: file.write(frame.replace("// inner", code.replace("k - 2", "k - 9").replace("(k - 1)", "(k - k)")).replace("// here", "print 7; call a.one(k);"))
        ran = subprocess.run([f"{tools}/explain", "--trap", f"{folder}/a.rg"], input=given or "", capture_output=True, text=True, env={**os.environ, "REGGIO": program})
        said = ran.stdout.split("\nThe trap")[0]
        tried += 1; raised += "Traceback" in ran.stderr; told += all(it in said for it in ("call self.three(k);", "call self.two(k + 1);", "call a.one(k);", "In front of it, in `A.three`"))
        if "-v" in sys.argv: print("==", kind, said, ran.stderr)
print(f"{tried} traps, {told} with all open calls and the variables, {raised} raised")
