"""Random damage to programs: reading.find raises nothing, and behind an edit that it gives the same fault doesn't stand there again.
Usage: damage.py TOOLS PROGRAM COUNT SEED FILES.."""
import os, random, sys, tempfile, time, traceback
tools, program, count, seed = sys.argv[1], sys.argv[2], int(sys.argv[3]), int(sys.argv[4])
os.environ["REGGIO"] = program; sys.dont_write_bytecode = True; sys.path.insert(0, tools)
import reading; from outline import Source
chance = random.Random(seed); files = [open(f, "rb").read() for f in sys.argv[5:]]
words = b"let if while enter as call new iso mut paused imm freeze merge swap return nil 0 ( ) { } [ ] ; : , . = == + - self x for in is not def class".split()
refused = cured = raised = same = 0; slowest = 0
with tempfile.TemporaryDirectory() as folder:
    for k in range(count):
        code = chance.choice(files); s = Source(code)
        for _ in range(chance.choice([1, 1, 1, 2])):
            a, b = s.tokens[chance.randrange(len(s.tokens))]; r = chance.random()
            put = b"" if r < .3 else chance.choice(words) + b" " + code[a:b] if r < .6 else chance.choice(words) if r < .8 else s.token(chance.randrange(len(s.tokens)))
            code = code[:b] if r > .9 else code[:a] + put + code[b:]
            s = Source(code)
            if not s.tokens: break
        R = reading.Reggio(folder); R.at = program; R.end = time.monotonic() + 30
        m = reading.FAULT.search(R.say("check", code)[2])
        if not m: continue
        f = reading.Finding(m[1].decode(), int(m[2])); refused += 1; t = time.monotonic()
        try: reading.find(R, s, f)
        except Exception: raised += 1; traceback.print_exc(); print(code.decode("utf-8", "replace"))
        slowest = max(slowest, time.monotonic() - t); cured += bool(f.cures); R.end = None
        for title, a, b, put in f.cures:
            if R.fault(code[:a] + put + code[b:]) == (f.code(), f.line) and f.code() > "E19": same += 1; print("SAME", f.name, title)
print(f"{count} damaged, {refused} refused, {cured} with an edit, {raised} raised, {same} with the same fault behind it, slowest {slowest:.1f} s")
