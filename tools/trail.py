"""What tools/explore and tools/heap ask of the program rg_trail (docs/embedding.md, "A trail"): the lines of a run."""
import contextlib
import ending
import json
import os
import re
import subprocess
import sys
import tempfile
import threading

top = os.path.dirname(os.path.dirname(os.path.realpath(__file__)))
MOST_STEPS = 10_000_000     # that rg_trail makes
MOST_SOURCE = 1_048_576
TUNE = 1_000                # what `reggio run` tunes its pacers to


class Refused(Exception):
    """Why there is nothing to show, and the status."""

    def __init__(self, why, status=1):
        super().__init__(why)
        self.status = status


def printable(name):
    return os.fsencode(name).decode("utf-8", "replace")


def content(name, most=None):
    """The bytes of a file, at most so many."""
    try:
        with open(name, "rb") as file:
            data = file.read() if most is None else file.read(most + 1)
    except OSError as error:
        raise Refused(f"{printable(name)}: {os.strerror(error.errno)}") from None
    if most is not None and len(data) > most:
        raise Refused(f"{printable(name)}: source too long", 9)
    return data


def program():
    """The program: that of the environment's REGGIO_TRAIL, or the one that is proved, or else compiled before its proofs."""
    own = os.environ.get("REGGIO_TRAIL")
    if own:
        if not os.access(own, os.X_OK):
            raise Refused(f"{own} can't be run", 127)
        return own
    asked = subprocess.run([f"{top}/tools/unproved", "--where", "rg_trail"], stdout=subprocess.PIPE, text=True)
    if asked.returncode:
        raise Refused("the program rg_trail isn't there", asked.returncode)
    return asked.stdout.strip()


def number(word, value, most):
    """The number that a word was given as."""
    if not (value.isascii() and value.isdigit() and len(value) <= 18 and int(value) <= most):
        raise Refused(f"{word} {value} is no number up to {most:,}", 2)
    return int(value)


class Run:
    """A program with its input, of which rg_trail tells the steps; and its name, as it is printed."""

    def __init__(self, name, source, given=b"", tune=TUNE, slides=False):
        self.name, self.program = name, program()
        self.folder = tempfile.TemporaryDirectory()
        self.file, self.given = f"{self.folder.name}/source", f"{self.folder.name}/input"
        for to, data in (self.file, source), (self.given, given):
            with open(to, "wb") as out:
                out.write(data)
        self.tune, self.slides = tune, slides
        self.is_stopped = False

    def __enter__(self):
        return self

    def __exit__(self, *_):
        self.folder.cleanup()

    def bytes(self, first, steps, every, seconds=None):
        """The lines, the first one of all; behind the steps that are told whole the program has so many seconds."""
        words = [self.program, self.file, *map(str, (first, steps, every, self.tune))] + ["slide"] * self.slides
        timer = None
        with open(self.given, "rb") as source, subprocess.Popen(words, stdin=source, stdout=subprocess.PIPE) as ran:
            try:
                for count, line in enumerate(ran.stdout):
                    if not line.startswith(b"{"):
                        raise Refused(f"{self.name}: {line.decode('utf-8', 'replace').strip()}")
                    if not line.endswith(b"\n"):
                        break   # cut off by the clock
                    yield line
                    if seconds is not None and timer is None and count > steps:
                        timer = threading.Timer(seconds, ran.kill)
                        timer.start()
            finally:
                if timer:
                    timer.cancel()
                self.is_stopped = ran.poll() is not None and ran.returncode < 0
                ran.kill()

    def lines(self, first, steps, every=0, seconds=None):
        """The same, each read."""
        with contextlib.closing(self.bytes(first, steps, every, seconds)) as told:
            for line in told:
                yield json.loads(line)

    def reaches(self, line, first=0):
        """Behind how many steps, but at least so many, the next one is of a line."""
        wanted = re.compile(rb'"line":%d,' % line)
        with contextlib.closing(self.bytes(first, 0, 1)) as told:
            for it in told:
                if wanted.search(it):
                    it = json.loads(it)
                    step = it["s"] if "frames" in it or it.get("end", "done") != "done" else it["s"] - 1
                    if step >= first:
                        return step
        raise Refused(f"{self.name}: line {line} isn't reached" + (f" behind step {first:,}" if first else ""))

    def start(self, first):
        """The head, all that is there behind so many steps, or where the run ends before, and how it ended there, or None."""
        head, end = None, None
        with contextlib.closing(self.lines(first, 0)) as told:
            for it in told:
                if head is None:
                    head = it
                elif "frames" in it:
                    return head, it, end
                else:
                    end = ended(it)
        raise Refused(f"{self.name}: rg_trail told nothing", 70)


def ended(it):
    """How a line says that the run ended, in words, or None."""
    return it["end"] + (f" at line {it['in']}" if "in" in it else "") if "end" in it else None


def guarded(main, tool):
    """Runs a tool, which says in a line why it has nothing to show."""
    def told():
        try:
            main()
        except Refused as why:
            print(f"{tool}: {why}", file=sys.stderr)
            return why.status

    ending.run(told)
