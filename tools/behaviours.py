"""What tools/explore shows of a plan (docs/language.md, "Cowns and behaviours"): its cowns and behaviours, and of some
schedules what each number of them changed. `reggio when` tells it, by the beginnings of the schedules."""
import concurrent.futures
import importlib.machinery
import importlib.util
import os
import subprocess

from trail import MOST_SOURCE, Refused, content, printable, top

MOST_SHOWN = 2_000      # numbers of a schedule
AT_ONCE = 4             # calls of `reggio when`
RANDOM = 2              # random schedules


def tool(name):
    """Another tool of this folder, as a module."""
    loader = importlib.machinery.SourceFileLoader(name, f"{top}/tools/{name}")
    module = importlib.util.module_from_spec(importlib.util.spec_from_loader(name, loader))
    loader.exec_module(module)
    return module


def refuse(why, status=1):
    raise Refused(why, status)


def program():
    """The program that ./reggio starts, so that it isn't tested at each call whether that is fresh."""
    if os.environ.get("REGGIO"):
        return os.environ["REGGIO"]
    find = 'here=$1; . "$1/tools/fresh"; for it in reggio unproved; do if is_fresh $it; then echo "$1/bin/$it"; exit; fi; done'
    return subprocess.run(["sh", "-c", find, "", top], capture_output=True, text=True).stdout.strip() or f"{top}/reggio"


class Recorder:
    """Asks how the behaviours stand behind the beginnings of schedules: phases and how many values each has printed."""

    def __init__(self, schedule, file, plan):
        self.schedule, self.file, self.plan = schedule, file, plan
        self.pool = concurrent.futures.ThreadPoolExecutor(AT_ONCE)

    def behind(self, numbers):
        return self.schedule.told(self.schedule.when(self.file, self.plan, numbers))

    def changes(self, numbers):
        """The numbers that changed something, in order: the place from 1, and each behaviour that then stands otherwise, with
        its phase and the values that it printed since. Between two places behind which all stand alike nothing changed,
        since no behaviour goes back and none unsays a value."""
        known = dict(zip((0, len(numbers)), self.pool.map(self.behind, ([], numbers))))
        spans, close = [(0, len(numbers))], []
        while spans:
            spans = [(low, high) for low, high in spans if known[low] != known[high]]
            close += [(low, high) for low, high in spans if high - low == 1]
            spans = [(low, high) for low, high in spans if high - low > 1]
            middles = [(low + high) // 2 for low, high in spans]
            known.update(zip(middles, self.pool.map(lambda n: self.behind(numbers[:n]), middles)))
            spans = [part for (low, high), middle in zip(spans, middles) for part in ((low, middle), (middle, high))]
        return [[high, [[i, phase, values[len(known[low][i][2]):]] for i, (_, phase, values) in enumerate(known[high])
                        if (phase, values) != known[low][i][1:]]] for low, high in sorted(close)]


def exact(recorder, numbers, need):
    """How many numbers each behaviour needs to its end, of a schedule in which each has enough."""
    need = list(need)
    for place, changed in recorder.changes(numbers):
        for i, phase, _ in changed:
            if recorder.schedule.has_ended(phase):
                need[i] = numbers[:place].count(i)
    return need


def schedules_of(recorder, plan, given, seed):
    """Each schedule with its name: the one that is given, and some that are made."""
    schedule, file, plan_name = recorder.schedule, recorder.file, recorder.plan
    if given is not None:
        schedule.when(file, plan_name, given.split())   # (it says what is wrong with the numbers)
        yield "as given", [int(it) for it in given.split()]
    need, stands = schedule.needs(file, plan_name, plan)
    short = [it if schedule.has_ended(stands[i][1]) else min(it, schedule.SHORT) for i, it in enumerate(need)]
    short = exact(recorder, schedule.in_order(plan, short)[:MOST_SHOWN], short)
    for way in schedule.WAYS:
        for k in range(RANDOM if way == "random" else 1):
            course = schedule.made(way, plan, short, stands, seed + k)
            yield way.replace("-", " ") + (f", seed {seed + k}" if way == "random" else ""), course.numbers


def data_of(file, plan_name, given, seed):
    """All that the page shows."""
    schedule = tool("schedule")
    schedule.fail, schedule.reggio = refuse, program()
    source, plan_text = content(file, MOST_SOURCE), content(plan_name, MOST_SOURCE)
    numbers = content(given).decode("ascii", "replace") if given is not None else None
    schedule.when(file, plan_name, [])
    plan = schedule.Plan(plan_name)
    if not len(plan):
        raise Refused(f"{printable(plan_name)} has no behaviour")
    recorder, told = Recorder(schedule, file, plan_name), []
    names = [name for name, _, _ in recorder.behind([])]
    for name, all_of_it in schedules_of(recorder, plan, numbers, seed):
        shown = all_of_it[:MOST_SHOWN]
        told.append({"name": name, "numbers": shown, "all": len(all_of_it), "changes": recorder.changes(shown)})
    recorder.pool.shutdown()
    lines = plan_text.decode("ascii", "replace").rstrip("\n").split("\n")
    return {
        "name": f"{printable(os.path.basename(file))}, {printable(os.path.basename(plan_name))}",
        "source": source.decode("utf-8", "replace").rstrip("\n").split("\n"), "plan": lines,
        "cowns": [line.split(" ", 1)[1] for line in lines if line.split(" ")[0] in ("cown", "load")],
        "behaviours": [{"name": name, "cowns": plan.cowns[i], "waits": plan.behind[i]} for i, name in enumerate(names)],
        "schedules": told,
    }
