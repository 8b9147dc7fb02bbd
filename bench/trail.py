#!/usr/bin/env python3
"""Tests that what rg_trail tells of the steps of a run, put together, is what stands behind each of them.

    bench/trail.py PROGRAM FILE..    for each file so many steps of `run` and of `slide`, at most 300 of each
    bench/trail.py PROGRAM           the stored run of crates/rg_trail

What stands behind a step is what the program tells of a run that it tells whole from there on: it reads that from the machine.
It prints a line for each file; its status is 0 where none is wrong. Not a part of the gate.
"""
import json
import os
import subprocess
import sys

top = os.path.dirname(os.path.dirname(os.path.realpath(__file__)))
MOST = 300
TUNE = "2"


def told(program, file, first, steps, *more):
    given = os.path.splitext(file)[0] + ".in"
    with open(given if os.path.exists(given) else os.devnull, "rb") as source:
        ran = subprocess.run([program, file, str(first), str(steps), "0", TUNE, *more], stdin=source, capture_output=True, text=True)
    return [json.loads(line) for line in ran.stdout.splitlines()]


class State:
    """What is there, from the line of all that is there on."""

    def __init__(self, start):
        self.frames = [[entry, caller, windows, {}] for entry, caller, windows in start["frames"]]
        self.regions, self.objects, self.windows = {}, {}, start["windows"]
        self.change(start)

    def change(self, it):
        for _ in range(it.get("pop", 0)):
            self.frames.pop()
        if "push" in it:
            self.frames.append([it["push"], it["at"], len(self.windows), {}])
        for frame, slot, value in it.get("v", ()):
            self.frames[frame][3][slot] = value
        for number, manager, bridge in it.get("regions", ()):
            self.regions[number] = manager, bridge
        if "given" in it and self.windows[-1][1] in self.regions:
            region = self.windows[-1][1]
            self.regions[region] = self.regions[region][0], it["given"]
        self.windows = it.get("windows", self.windows)
        for serial in it.get("gone", ()):
            del self.objects[serial]
        for serial, number, home, slot, fields in it.get("made", ()):
            assert serial not in self.objects
            self.objects[serial] = [number, home, slot, list(fields)]
        for serial, home in it.get("moved", ()):
            self.objects[serial][1] = home
        for serial, k, value in it.get("put", ()):
            self.objects[serial][3][k] = value
        self.now, self.next = it["now"], it["next"]

    def shown(self):
        """The same, as it is compared: regions whose bridges are there, slots that hold something."""
        regions = {number: it for number, it in self.regions.items() if it[1] in self.objects and self.objects[it[1]][1] == number}
        return regions, self.objects, self.windows, [[*frame, {k: v for k, v in slots.items() if v is not None}] for *frame, slots in self.frames], self.now, self.next


def differs(program, file, *more):
    """The first step behind which the two differ, or None, and how many were compared."""
    lines = told(program, file, 0, MOST, *more)
    state = State(next(it for it in lines if "frames" in it))
    compared = 0
    for it in lines:
        if "at" not in it or it.get("end", "done") != "done":
            continue
        state.change(it)
        compared += 1
        if it.get("end") == "done":   # (no frame is left, and nothing can be asked)
            continue
        there = State(next(one for one in told(program, file, it["s"], 0, *more) if "frames" in one))
        if state.shown() != there.shown():
            return it["s"], compared
    return None, compared


def main():
    if len(sys.argv) < 2:
        sys.exit(__doc__)
    program, files = sys.argv[1], sys.argv[2:] or [f"{top}/crates/rg_trail/data/a"]
    wrong = 0
    for file in files:
        for more in (), ("slide",):
            step, compared = differs(program, file, *more)
            wrong += step is not None
            print(f"{'ok   ' if step is None else 'WRONG'} {os.path.basename(file)}{' slide' * bool(more)}: {compared} steps" +
                  (f", first behind step {step}" if step is not None else ""))
    sys.exit(wrong > 0)


main()
