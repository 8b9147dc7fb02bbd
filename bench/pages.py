#!/usr/bin/env python3
"""Tests one page of tools/explore in Chromium, for bench/pages.sh: pages.py PROGRAM PAGE WORD.., with the words that it was
written by."""
import html
import json
import os
import re
import subprocess
import sys
import tempfile

BEFORE = """<script>window.faults = []; addEventListener("error", e => faults.push(e.message));
for (const kind of ["error", "warn"]) console[kind] = (...all) => faults.push(all.join(" "));</script>"""
# (the tests see what a reader sees: texts of the page, and keys that are pressed)
COMMON = """
const get = id => document.getElementById(id), wrong = [];
const press = (key, shiftKey) => document.dispatchEvent(new KeyboardEvent("keydown", { key, shiftKey: !!shiftKey, bubbles: true }));
const is = (what, a, b) => { if (a !== b && wrong.length < 20) wrong.push(`${what}: ${JSON.stringify(a)}, wanted ${JSON.stringify(b)}`); };
const at = () => +get("where").querySelector("b").textContent.replaceAll(",", "");
function keys(first, last) {
  press("Home"); is("Home", at(), first);
  press("ArrowRight"); is("right", at(), Math.min(first + 1, last));
  press("ArrowRight", true); is("Shift+right", at(), Math.min(first + 11, last));
  press("ArrowLeft"); is("left", at(), Math.min(first + 11, last) - 1);
  press("End"); is("End", at(), last);
  press("?"); is("?", get("keys").open, true); get("keys").close();
  press(" "); is("Space at the end", at(), first); press(" "); is("Space", get("play").textContent, "Play");
}
"""
RUN = """
const D = explorer.data, first = D.start.s, last = D.steps.filter(it => it.end === "done" || !it.end).length + first;
press("Home");
for (let k = 0; ; k++) {
  const it = k ? D.steps[k - 1] : D.start, prints = WANTED.slice(0, D.printed.length + D.steps.slice(0, k).filter(s => "print" in s).length);
  is(`output at ${k}`, get("out").textContent, prints.join("\\n") || "nothing printed yet");
  const shown = document.querySelectorAll(".card:not(.gone), .dot:not(.gone)").length;
  is(`objects at ${k}`, shown, it.now[0] + it.now[1]);
  is(`regions at ${k}`, document.querySelectorAll(".region:not(.ghost):not(.temps):not(.frozenbox)").length, it.now[2]);
  if (k === D.steps.length) break;
  press("ArrowRight");
}
is("all that was printed", get("out").textContent, WANTED.join("\\n"));
const end = get("heap").innerHTML, begin = () => { press("Home"); return get("heap").innerHTML; };
const there = begin(); press("End"); is("there and back", get("heap").innerHTML, end); is("back and there", begin(), there);
for (const [key, has] of [["c", s => s.col], ["p", s => "print" in s]]) {
  press("Home"); press(key);
  const k = D.steps.findIndex(has);
  if (k >= 0) is(`key ${key}`, at(), D.steps[k].s);
}
keys(first, last);
"""
PLAN = """
const all = explorer.all;
all.forEach((it, n) => {
  press(String(n + 1)); is("schedule", document.querySelector("[aria-selected=true]").textContent, it.name);
  press("Home");
  for (let k = 0; ; k++) {
    const text = WANTED[n][k];
    if (text !== undefined && text !== null) is(`text of ${it.name} at ${k}`, get("text").textContent, text);
    if (k === it.last) break;
    press("ArrowRight");
  }
  press("Home"); press("c"); is("key c", at(), it.changes[0][0]);
});
keys(0, all[all.length - 1].last);
"""


def fail(name, why):
    print(f"WRONG {name}: {why}")
    sys.exit(1)


def printed(program, words):
    """What a run prints, by `run` or `slide`."""
    command = "slide" if "--slide" in words else "run"
    given = words[words.index("--input") + 1] if "--input" in words else os.devnull
    with open(given, "rb") as source:
        return subprocess.run([program, command, words[0]], stdin=source, capture_output=True, text=True).stdout.split()


def behind(program, words, data):
    """What `when` writes behind the beginnings of each schedule, at most 40 of each."""
    told = []
    for it in data["schedules"]:
        numbers, texts = it["numbers"], []
        every = max(1, len(numbers) // 40)
        for k in range(len(numbers) + 1):
            if k % every and k != len(numbers):
                texts.append(None)
                continue
            ran = subprocess.run([program, "when", *words[:2]], input=" ".join(map(str, numbers[:k])), capture_output=True, text=True)
            texts.append(ran.stdout.rstrip("\n"))
        told.append(texts)
    return told


def main():
    program, name, words = sys.argv[1], sys.argv[2], sys.argv[3:]
    with open(name, encoding="utf-8") as file:
        page = file.read()
    data = json.loads(re.search(r'<script type="application/json" id="data">(.*?)</script>', page, re.S)[1])
    is_plan = "schedules" in data
    wanted = behind(program, words, data) if is_plan else printed(program, words)
    test = f"""<script>{{ const WANTED = {json.dumps(wanted)}; let told = "ended early"; try {{ {COMMON} {PLAN if is_plan else RUN}
told = [...faults, ...wrong].join("; ") || "ok"; }} catch (e) {{ told = String(e); }}
document.title = `TOLD ${{told}} TOLD`; }}</script>"""
    with tempfile.TemporaryDirectory() as folder:
        with open(f"{folder}/page.html", "w", encoding="utf-8") as out:
            out.write(page.replace("<head>", "<head>" + BEFORE, 1).replace("</body>", test + "</body>", 1))
        try:
            ran = subprocess.run(["chromium", "--headless=new", "--no-sandbox", "--disable-gpu", "--disable-ipc-flooding-protection", "--enable-logging=stderr", f"--user-data-dir={folder}/user",
                                  "--window-size=1500,900", "--virtual-time-budget=20000", "--dump-dom", f"file://{folder}/page.html"],
                                 capture_output=True, text=True, timeout=600)
        except (OSError, subprocess.TimeoutExpired) as error:
            fail(name, error)
    said = [line for line in ran.stderr.splitlines() if ":CONSOLE" in line]
    found = re.search(r"TOLD (.*?) TOLD", ran.stdout, re.S)
    if said or found is None or found[1] != "ok":
        fail(name, "; ".join(said) or (html.unescape(found[1]) if found else "the page didn't come to its end"))
    steps = sum(len(it["numbers"]) for it in data["schedules"]) if is_plan else len(data["steps"])
    print(f"ok    {name}: {steps:,} steps")


main()
