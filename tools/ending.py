"""How the tools end: where their reader has gone, quietly, and by Ctrl-C with one line. It is the first that a tool imports."""
import os
import sys

NAME = os.path.basename(sys.argv[0] or "tools")


def stopped(kind, why, trace):
    if issubclass(kind, KeyboardInterrupt):
        print(f"{NAME}: stopped", file=sys.stderr)
    else:
        sys.__excepthook__(kind, why, trace)


sys.excepthook = stopped


def run(main, gone=1):
    """Runs a tool, and ends with its status; with `gone` where nobody reads any more."""
    try:
        status = main() or 0
        sys.stdout.flush()
    except BrokenPipeError:
        os.dup2(os.open(os.devnull, os.O_WRONLY), 1)
        status = gone
    except KeyboardInterrupt:
        os.dup2(os.open(os.devnull, os.O_WRONLY), 1)   # (what wasn't written yet isn't)
        print(f"{NAME}: stopped", file=sys.stderr)
        status = 130
    sys.exit(status)
