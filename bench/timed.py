"""What the measuring scripts of this folder share."""
import os
import re
import shutil
import subprocess
import time


def seconds(words, often, given=os.devnull):
    """The least wall time of so many calls on the input of a file, each of which must end with status 0."""
    taken = []
    for _ in range(often):
        with open(given, "rb") as source:
            at = time.perf_counter()
            subprocess.run(words, stdin=source, stdout=subprocess.DEVNULL, check=True)
            taken.append(time.perf_counter() - at)
    return min(taken)


def peak(words, given=os.devnull):
    """The peak of memory in bytes, read off while it runs: that of a waited child counts the process that started it."""
    most = 0
    with open(given, "rb") as source, subprocess.Popen(words, stdin=source, stdout=subprocess.DEVNULL, stderr=subprocess.DEVNULL) as process:
        while process.poll() is None:
            try:
                with open(f"/proc/{process.pid}/status") as status:
                    here = [int(line.split()[1]) for line in status if line.startswith("VmHWM")]
                with open(f"/proc/{process.pid}/comm") as name:
                    most = max([most] + here) if not name.read().startswith("python") else most
            except OSError:
                pass
            time.sleep(0.0005)
    return most * 1024


def written(path, text):
    """Writes a file, and answers its path."""
    with open(path, "w") as file:
        file.write(text)
    return path


def processor_seconds(words):
    """The processor time, user and system, of a call, which must end with status 0."""
    child = subprocess.Popen(words, stdin=subprocess.DEVNULL, stdout=subprocess.DEVNULL)
    _, status, usage = os.wait4(child.pid, 0)
    child.returncode = os.waitstatus_to_exitcode(status)
    if child.returncode != 0: raise subprocess.CalledProcessError(child.returncode, words)
    return usage.ru_utime + usage.ru_stime


def turns_of(calls, turns):
    """The least processor time of each of some calls, by its name: they take turns."""
    taken = {name: [] for name in calls}
    for _ in range(turns):
        for name, words in calls.items():
            taken[name].append(processor_seconds(words))
    return {name: min(each) for name, each in taken.items()}


def load():
    """How many processes wanted a processor in the last minute, and how many processors there are."""
    return f"load {os.getloadavg()[0]:.1f} on {os.cpu_count()} processors"


def luas():
    """The words of Lua and of LuaJIT's interpreter, by their names, where these are installed."""
    both = {"lua": ["lua5.4"], "luajit": ["luajit", "-joff"]}
    return {name: words for name, words in both.items() if shutil.which(words[0])}


def twin(source, work, name):
    """The file of a program in Lua. LuaJIT has no operator for whole quotients, so there it is a copy without."""
    if name != "luajit":
        return str(source)
    with open(source) as file:
        text = re.sub(r"(\w+|\([^()]*\)) // (\w+)", r"math.floor(\1 / \2)", file.read())
    return written(f"{work}/{os.path.basename(source)}.luajit", text)
