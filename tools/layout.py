"""Lays a program out as `reggio fmt` does, and keeps its comments, its single empty lines, and its blocks that stand on one
line. Read by tools/tidy and tools/server.

`fmt` drops all that, since it is no part of the tree. Here its text is taken as it is, and each comment is put back beside
the token that it stood beside. What comes out is tried before it is given: `fmt` gives the same text of it, and it has the
same comments in the same order. Where that isn't so, nothing is given."""
import re

from outline import Source, text

PIECE = re.compile(rb"[ \t\r\n]+|//[^\n]*|[A-Za-z_][A-Za-z0-9_]*|[0-9]+[A-Za-z_]?\w*|[=!<>]=|.", re.S | re.A)
WIDEST = 120         # columns of a block that stays on one line


class Refused(Exception):
    """Why a source isn't laid out."""


def comments_of(code):
    return [m[0].rstrip() for m in PIECE.finditer(code) if m[0][:2] == b"//"]


def twins(mine, theirs):
    """Of each token of a source the one of its canonical text, the same but for parentheses: those that aren't there go
    with the one behind them."""
    pairs, k = [], 0
    for it in mine:
        if k < len(theirs) and it == theirs[k]:
            pairs.append(k)
            k += 1
        elif it in (b"(", b")"):
            pairs.append(k)
        else:
            raise Refused("the canonical text has other tokens")
    return pairs


def lines_joined(source, pair, first, lines, above, behind):
    """The lines that stay behind the one in front of them: those of blocks that the source has on one line, where that isn't
    longer than WIDEST."""
    joined, opened = set(), []
    for k in range(len(source.tokens)):
        if source.token(k) == b"{":
            opened.append(k)
        elif source.token(k) == b"}":
            start = opened.pop()
            if b"\n" not in source.code[source.tokens[start][0]:source.tokens[k][0]]:
                some = range(first[pair[start]] + 1, first[pair[k]] + 1)
                if all(not above[one] and behind[one - 1] is None for one in some):
                    joined.update(some)
    for k in sorted(joined):
        if k - 1 not in joined:
            run = [k - 1]
            while run[-1] + 1 in joined:
                run.append(run[-1] + 1)
            if len(lines[run[0]]) + sum(len(lines[one].lstrip()) + 1 for one in run[1:]) > WIDEST:
                joined.difference_update(run)
    return joined


def laid_out(reggio, code):
    """The text of a source, laid out."""
    status, canonical, notes = reggio.say("fmt", code)
    if status != 0:
        raise Refused(text(notes).strip() or f"status {status}")
    source, target = Source(code), Source(canonical)
    lines = canonical.split(b"\n")[:-1]
    mine = [source.token(k) for k in range(len(source.tokens))]
    pair = twins(mine, [target.token(k) for k in range(len(target.tokens))])
    first = []       # of each token of the canonical text its line
    line, at = 0, 0
    for start, _ in target.tokens:
        line += canonical.count(b"\n", at, start)
        at = start
        first.append(line)
    above = [[] for _ in range(len(lines) + 1)]     # comments and empty lines in front of each line, b"" for an empty one
    behind = [None] * (len(lines) + 1)
    place, token, was = 0, 0, -1
    for m in PIECE.finditer(code):
        it = m[0]
        if it[:1] in b" \t\r\n":
            # An empty line stays, but for one that opens a block or ends one.
            if it.count(b"\n") > 1:
                coming = first[pair[token]] if token < len(pair) and pair[token] < len(first) else len(lines)
                if coming > was and not (above[coming] and above[coming][-1] == b""):
                    above[coming].append(b"")
        elif it[:2] == b"//":
            it = it.rstrip()
            coming = first[pair[token]] if token < len(pair) and pair[token] < len(first) else len(lines)
            start = code.rfind(b"\n", 0, m.start()) + 1
            if token and source.tokens[token - 1][1] > start and behind[was] is None and coming >= was:
                behind[was] = it
            elif coming > was:
                above[coming].append(it)
            else:
                # Inside of a statement: in front of it, behind what was behind its line.
                if behind[was] is not None:
                    above[was].append(behind[was])
                    behind[was] = None
                above[was].append(it)
        else:
            was = first[min(pair[token], len(first) - 1)]
            token += 1
    joined = lines_joined(source, pair, first, lines, above, behind)
    written = []
    for k in range(len(lines) + 1):
        said = lines[k] if k < len(lines) else b""
        indent = said[:len(said) - len(said.lstrip())] + (b"  " if said.lstrip()[:1] == b"}" else b"")
        opens = k == 0 or lines[k - 1].endswith(b"{")
        some = above[k]
        while some and some[0] == b"" and (opens or not written):
            some = some[1:]
        while some and some[-1] == b"" and (k == len(lines) or said.lstrip()[:1] == b"}"):
            some = some[:-1]
        written += [indent + one if one else b"" for one in some]
        if k < len(lines):
            tail = b" " + behind[k] if behind[k] else b""
            if k in joined:
                written[-1] += b" " + said.lstrip() + tail
            else:
                written.append(said + tail)
    laid = b"\n".join(written) + b"\n"
    if code.count(b"\r\n") * 2 > code.count(b"\n"):
        laid = laid.replace(b"\n", b"\r\n")
    if comments_of(laid) != comments_of(code):
        raise Refused("a comment would be lost")
    if reggio.say("fmt", laid)[:2] != (0, canonical):
        raise Refused("the program would change")
    return laid
