"""Random comments, empty lines, blanks and ends of lines put into programs: laid out, each keeps its comments, in their order
but for those inside of a statement, is the same program, and laid out again stays as it is.
Usage: comments.py TOOLS PROGRAM COUNT FILES.."""
import random, re, sys, tempfile, time
sys.path.insert(0, sys.argv[1]); sys.dont_write_bytecode = True
import reading; from outline import Source; from layout import *
folder = tempfile.TemporaryDirectory(); R = reading.Reggio(folder.name); R.at = sys.argv[2]
chance = random.Random(7); refused = moved = unstable = bad = far = n = 0
files = [open(f, "rb").read() for f in sys.argv[4:]]
files = [f for f in files if R.say("fmt", f)[0] == 0]
for k in range(int(sys.argv[3])):
    code = chance.choice(files); s = Source(code); out = []; at = 0; c = 0
    for a, b in s.tokens:
        out.append(code[at:a])
        r = chance.random()
        if r < 0.03: out.append(b" // c%d\n" % c); c += 1
        elif r < 0.05: out.append(b"\n  // own %d\n" % c); c += 1
        elif r < 0.06: out.append(b"\n\n\n")
        elif r < 0.07: out.append(b"\n\n// h\xc3\xa9\xff %d  \n\n" % c); c += 1
        elif r < 0.08: out.append(b"\t \r\n")
        elif r < 0.085: out.append(b"\n")
        out.append(code[a:b]); at = b
    out.append(code[at:]); code = b"".join(out)
    n += 1
    try: laid = laid_out(R, code)
    except Refused as why: refused += 1; print("refused", why); continue
    if comments_of(laid) != comments_of(code): moved += 1
    # how far: each comment stays within the statement's neighbourhood: the next token behind it or the one in front of it is the same
    try:
        if laid_out(R, laid) != laid: unstable += 1; open(f"unstable{unstable}.txt","wb").write(code)
    except Refused as why: bad += 1; print("again:", why)
print(f"{n} laid out, {refused} refused, {moved} with comments in another order, {unstable} not stable, {bad} bad; {R.calls} calls")
