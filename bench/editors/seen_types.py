"""Whether the light reader's types are those of the checker: in front of each statement of accepted programs, `let probe: T = path;`
is accepted for the type T that the reader sees, and no type that permits more is.
Usage: types.py TOOLS PROGRAM FILES.."""
import re, sys, tempfile
sys.path.insert(0, sys.argv[1]); sys.dont_write_bytecode = True
import reading; from outline import *
folder = tempfile.TemporaryDirectory(); R = reading.Reggio(folder.name); R.at = sys.argv[2]
uses = asked = wrong = unresolved = 0
for f in sys.argv[3:]:
    code = open(f, "rb").read()
    st, canon, _ = R.say("fmt", code)
    if st or R.say("check", code)[0]: print("not accepted", f); continue
    s = Source(canon); o = Outline(s); lines = canon.split(b"\n")
    for body in o.bodies:
        o.walk(body)
        for k in range(body.begin + 1, body.end):
            if not o.is_name(k) and o.tok(k) != b"self": continue
            if k not in body.uses: unresolved += 1; print("UNRESOLVED", f, s.line_of(s.tokens[k][0]), o.tok(k)); continue
            thing, seen = body.uses[k]; uses += 1
            if thing.kind in ("class", "method") or o.tok(k - 1) in (b"let", b"as", b"giving"): continue
            b = k
            while o.tok(b - 1) == b".": b -= 2
            path = b"".join(o.toks[b:k + 1])
            line = s.line_of(s.tokens[k][0])
            def probe(text):
                new = b"\n".join([*lines[:line - 1], text, *lines[line - 1:]])
                c, w = R.fault(new)
                return c if w == line else None
            if lines[line - 1].lstrip().startswith(b"}"): continue
            asked += 1
            if seen is None:
                got = probe(b"print " + path + b" is nil;"); want = ("E32", "E36")
                if got not in want: wrong += 1; print("WRONG none", f, line, path, got)
                continue
            t = seen[0] + (b" " + seen[1] if seen[1] else b"")
            got = probe(b"let probe__: " + t + b" = " + path + b";")
            good = got is None or (seen[0] == b"iso" and got in ("E31", "E36"))
            if not good: wrong += 1; print("WRONG", f, line, path, t, got)
            if seen[1] and seen[0] == b"paused":
                got = probe(b"let probe__: mut " + seen[1] + b" = " + path + b";")
                if got is None: wrong += 1; print("WRONG weaker", f, line, path, t)
                got = probe(b"let probe__: imm " + seen[1] + b" = " + path + b";")
                if got is None: wrong += 1; print("WRONG weaker", f, line, path, t)
print(f"{uses} names, {unresolved} not found, {asked} asked, {wrong} wrong, {R.calls} calls")
